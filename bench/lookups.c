// Lookups in a full table, the proved ones against the same walk in C: first that both find the same, then how fast each is.
#include "node.h"
#include "routes.h"
#include "tools.h"
#include "walk.h"

#include <stdio.h>
#include <stdlib.h>
#include <string.h>

enum {
    ADDRESSES = 1000000,
    LISTED = 50000,
    TURNS = 15,
};

const char *const program = "lookups";

// ---- the tree, laid out as docs/memory.md has it

static uint64_t *words;
static uint32_t nodes = 1;

static uint64_t field(uint64_t word, unsigned shift, unsigned width)
{
    return word >> shift & ((1ull << width) - 1);
}

static void put(uint64_t *word, unsigned shift, unsigned width, uint64_t value)
{
    *word = (*word & ~(((1ull << width) - 1) << shift)) | value << shift;
}

// The first bits of what is left of an address.
static unsigned group(uint32_t address, unsigned offset, unsigned length)
{
    return (unsigned)((uint64_t)address << 32 << offset >> 32 >> (32 - length) & ((1u << length) - 1));
}

static void insert(struct route route)
{
    uint64_t *node = words;
    unsigned offset = 0;
    for (size_t level = 0; route.length - offset >= PLAN[level]; level++) {
        unsigned index = group(route.address, offset, PLAN[level]);
        uint64_t *word = node + 1 + index / 3;
        unsigned shift = 18 * (index % 3);
        uint64_t child = field(*word, shift, 18);
        if (child == 0) {
            if (nodes == MOST_NODES)
                stop("more nodes than a memory has");
            child = nodes++;
            put(word, shift, 18, child);
            put(node + 22, 18, 7, field(node[22], 18, 7) + 1);
        }
        node = words + NODE_WORDS * child;
        offset += PLAN[level];
    }
    unsigned more = route.length - offset;
    unsigned position = (1u << more) + group(route.address, offset, more);
    node[0] |= 1ull << position;
    put(node + 23 + position / 5, 12 * (position % 5), 12, route.hop);
}

// Routes come in no order, so neighbours in the table have nodes far apart.
static void make_tree(void)
{
    uint32_t *order = shuffled(ROUTES);
    words = room((size_t)NODE_WORDS * MOST_NODES, sizeof *words);
    for (uint32_t i = 0; i < ROUTES; i++)
        insert(routes[order[i]]);
    free(order);
}

// ---- the addresses

static uint32_t evenly[ADDRESSES], covered[ADDRESSES], edges[ADDRESSES];

static void make_addresses(void)
{
    for (size_t i = 0; i < ADDRESSES; i++) {
        struct route route = routes[below(ROUTES)];
        uint32_t behind = ~mask_of(route.length);
        evenly[i] = (uint32_t)roll();
        covered[i] = covered_by(route);
        // the first and the last that a route matches, and the ones before and behind them
        switch (i % 4) {
        case 0: edges[i] = route.address; break;
        case 1: edges[i] = route.address | behind; break;
        case 2: edges[i] = route.address - 1; break;
        default: edges[i] = (route.address | behind) + 1; break;
        }
    }
}

// ---- what both find

static size_t words_len;
static uint32_t by_linecard[ADDRESSES], by_plain[ADDRESSES], by_wary[ADDRESSES];

static void check(const char *name, const uint32_t *addresses)
{
    if (!linecard_lookup(words, words_len, PLAN, sizeof PLAN, addresses, ADDRESSES, by_linecard, ADDRESSES)
        || !plain_lookup(words, words_len, PLAN, sizeof PLAN, addresses, ADDRESSES, by_plain, ADDRESSES)
        || !wary_lookup(words, words_len, PLAN, sizeof PLAN, addresses, ADDRESSES, by_wary, ADDRESSES))
        stop("the plan is refused");
    size_t matched = 0;
    for (size_t i = 0; i < ADDRESSES; i++) {
        if (by_linecard[i] != by_plain[i] || by_linecard[i] != by_wary[i])
            stop("the walks differ");
        matched += by_linecard[i] != 0;
    }
    for (size_t i = 0; i < LISTED; i++)
        if (by_linecard[i] != listed(addresses[i]))
            stop("the walk and the list of routes differ");
    printf("%-9s %d addresses alike in Rattle and C, %d of them as the list of routes says; %zu matched\n", name, ADDRESSES, LISTED, matched);
}

// What the proved one answers where the others are not to be called.
static void check_refusals(void)
{
    static const uint8_t none[] = {2, 6, 6, 6, 6, 6};
    memset(by_plain, 0x55, sizeof by_plain);
    memcpy(by_linecard, by_plain, sizeof by_plain);
    if (linecard_lookup(words, words_len, none, sizeof none, evenly, ADDRESSES, by_linecard, ADDRESSES)
        || memcmp(by_linecard, by_plain, sizeof by_plain))
        stop("strides that are no plan are not refused");
    // With the words of the root alone each child of it is no node.
    if (!linecard_lookup(words, NODE_WORDS, PLAN, sizeof PLAN, evenly, 1000, by_linecard, ADDRESSES))
        stop("the plan is refused");
    for (size_t i = 0; i < 1000; i++) {
        unsigned index = group(evenly[i], 0, PLAN[0]);
        bool child = field(words[1 + index / 3], 18 * (index % 3), 18) != 0;
        if ((by_linecard[i] == UINT32_MAX) != child)
            stop("a child that is no node is not refused");
    }
    if (by_linecard[1000] != 0x55555555)
        stop("an entry behind the addresses is written");
}

// ---- how fast each is

// In turn, so that whatever slows the machine for a while slows all three.
static void measure(const char *name, const uint32_t *addresses)
{
    double linecard = 0, plain = 0, wary = 0;
    for (int turn = 0; turn < TURNS; turn++) {
        double start = now();
        linecard_lookup(words, words_len, PLAN, sizeof PLAN, addresses, ADDRESSES, by_linecard, ADDRESSES);
        best_of(&linecard, start);
        start = now();
        plain_lookup(words, words_len, PLAN, sizeof PLAN, addresses, ADDRESSES, by_plain, ADDRESSES);
        best_of(&plain, start);
        start = now();
        wary_lookup(words, words_len, PLAN, sizeof PLAN, addresses, ADDRESSES, by_wary, ADDRESSES);
        best_of(&wary, start);
    }
    double million = ADDRESSES * 1e-6;
    printf("%-9s Rattle %6.2f  C %6.2f  wary C %6.2f million lookups a second; Rattle / C %.2f, Rattle / wary C %.2f\n", name,
           million / linecard, million / plain, million / wary, plain / linecard, wary / linecard);
}

int main(void)
{
    make_routes();
    make_tree();
    make_addresses();
    words_len = (size_t)NODE_WORDS * nodes;
    uint64_t *kept = room(words_len, sizeof *kept);
    memcpy(kept, words, words_len * sizeof *words);

    size_t longest = ROUTES - first_of[24];
    printf("%d routes, %zu of them /24, in %u nodes\n", ROUTES, longest, nodes);
    check("random", evenly);
    check("covered", covered);
    check("edges", edges);
    check_refusals();
    measure("random", evenly);
    measure("covered", covered);
    if (memcmp(kept, words, words_len * sizeof *words))
        stop("the words were changed");
    return 0;
}
