#include "calls.h"

#include "engine.h"
#include "tools.h"

#include <stdlib.h>
#include <string.h>

struct row rows[KINDS];
size_t most_answers;

static uint64_t insert_of(struct route route)
{
    return call_of(INSERT, route.address, route.length, route.hop);
}

static uint64_t delete_of(struct route route)
{
    return call_of(DELETE, route.address, route.length, 0);
}

// Room for calls behind the inserts.
static uint64_t *row_for(enum kind kind, size_t len)
{
    uint64_t *calls = room(ROUTES + len, sizeof *calls);
    memcpy(calls, rows[INSERTING].calls, ROUTES * sizeof *calls);
    rows[kind] = (struct row){calls, ROUTES + len};
    if (ROUTES + len > most_answers)
        most_answers = ROUTES + len;
    return calls + ROUTES;
}

void make_calls(void)
{
    uint64_t *calls = room(ROUTES, sizeof *calls);
    uint32_t *order = shuffled(ROUTES);
    for (size_t i = 0; i < ROUTES; i++)
        calls[i] = insert_of(routes[order[i]]);
    free(order);
    rows[OPENING] = (struct row){calls, 0};
    rows[INSERTING] = (struct row){calls, ROUTES};

    calls = row_for(DELETING, ROUTES);
    order = shuffled(ROUTES);
    for (size_t i = 0; i < ROUTES; i++)
        calls[i] = delete_of(routes[order[i]]);
    free(order);

    calls = row_for(LOOKING_UP, LOOKUPS);
    for (size_t i = 0; i < LOOKUPS; i++)
        calls[i] = call_of(LOOKUP, covered_by(routes[below(ROUTES)]), 0, 0);

    calls = row_for(FLAPPING, 2 * FLAPS);
    for (size_t i = 0; i < FLAPS; i++) {
        struct route route = routes[below(ROUTES)];
        calls[2 * i] = delete_of(route);
        calls[2 * i + 1] = insert_of(route);
    }
}

size_t calls_of(enum kind kind)
{
    return kind == OPENING ? TABLE_NODES : kind == INSERTING ? ROUTES : rows[kind].len - ROUTES;
}

const uint64_t *begin_of(enum kind kind)
{
    return rows[kind].calls + (kind == OPENING || kind == INSERTING ? 0 : ROUTES);
}

double seconds_of(enum kind kind, const double taken[KINDS])
{
    return taken[kind] - (kind == OPENING ? 0 : kind == INSERTING ? taken[OPENING] : taken[INSERTING]);
}
