// The routes of the bench, spread as those of public tables are, and the plan under which a table has them.
#ifndef ROUTES_H
#define ROUTES_H

#include <stddef.h>
#include <stdint.h>

enum { ROUTES = 200000 };

static const uint8_t PLAN[] = {3, 6, 6, 6, 6, 6};

struct route {
    uint32_t address;
    uint8_t length;
    uint16_t hop;
};

// The routes, sorted by length and then by address. Those of a length begin at `first_of` it, and those of the next at the entry behind it.
extern struct route routes[ROUTES];
extern size_t first_of[34];

void make_routes(void);

// The bits that a length leaves in an address.
uint32_t mask_of(unsigned length);

// An address that a route matches.
uint32_t covered_by(struct route route);

// 1 more than the hop of an address's longest match, or 0 for none, by halving the routes of each length, the longest first. It knows nothing
// of nodes.
uint32_t listed(uint32_t address);

#endif
