// The calls by which a large table is measured. Each row of calls begins with all inserts, and one other kind of call follows; so what that
// kind takes is the difference of two times.
#ifndef CALLS_H
#define CALLS_H

#include "routes.h"

enum {
    // Some more than the routes require.
    TABLE_NODES = 80000,
    LOOKUPS = 1000000,
    FLAPS = 200000,
};

// Opening alone; the inserts of all routes; and behind these the deletes of all routes, lookups of addresses that routes match, or flaps: a
// route is deleted and at once inserted again, so the table stays full. All come in random order.
enum kind { OPENING, INSERTING, DELETING, LOOKING_UP, FLAPPING, KINDS };

struct row {
    const uint64_t *calls;
    size_t len;
};

extern struct row rows[KINDS];

// As many answers as the longest row has calls.
extern size_t most_answers;

// Makes the rows, of the routes.
void make_calls(void);

// How many calls of a kind a row has, not counting the inserts before them, and where they begin; of opening, how many nodes.
size_t calls_of(enum kind kind);
const uint64_t *begin_of(enum kind kind);

// How many seconds they take, if so many are taken by each row.
double seconds_of(enum kind kind, const double taken[KINDS]);

#endif
