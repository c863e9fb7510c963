// How the routes are made. It rolls the dice of tools.c in a fixed order, so each program that begins with it has the same ones.
#include "routes.h"
#include "tools.h"

#include <stdbool.h>
#include <stdlib.h>

enum { NETWORKS = 9000 };

struct route routes[ROUTES];
size_t first_of[34];

uint32_t mask_of(unsigned length)
{
    return length == 0 ? 0 : UINT32_MAX << (32 - length);
}

uint32_t covered_by(struct route route)
{
    return route.address | ((uint32_t)roll() & ~mask_of(route.length));
}

static int compare(const void *a, const void *b)
{
    const struct route *x = a, *y = b;
    if (x->length != y->length)
        return x->length < y->length ? -1 : 1;
    return x->address < y->address ? -1 : x->address > y->address;
}

// How many routes of a hundred thousand have each length from /8 to /24, about as in public tables: most are /24, and then /22 and /23. Wide ones
// are fewer there, but with fewer the table, which is a fifth of the public one, would leave nearly all of the space bare.
static const uint32_t SHARES[] = {
    // 8   9  10  11   12   13   14   15    16    17    18    19    20    21     22     23     24
    5, 10, 30, 60, 150, 225, 350, 450, 1750, 1000, 1700, 2900, 4700, 5400, 11270, 10000, 60000,
};

static unsigned a_length(void)
{
    uint32_t at = below(100000);
    for (unsigned i = 0; i < sizeof SHARES / sizeof *SHARES; i++) {
        if (at < SHARES[i])
            return 8 + i;
        at -= SHARES[i];
    }
    return 24;
}

// One bit for each prefix that is taken already, at each length.
static uint64_t *taken[25];

static bool take(uint32_t address, unsigned length)
{
    uint32_t number = address >> (32 - length);
    uint64_t bit = 1ull << (number % 64);
    if (taken[length][number / 64] & bit)
        return false;
    taken[length][number / 64] |= bit;
    return true;
}

// A table as real ones are spread: not evenly over all addresses. There are some thousands of networks, each with a block of its own
// between /10 and /20, in the part of the space that is given out to single hosts (1.0.0.0 to 223.255.255.255). A few of them have a large part
// of the routes that are longer than /16. A network's routes lie in its block, or cover it where they are wider, and those of /20 and longer
// come mostly side by side in runs, since that is how a block is cut up for customers and for traffic.
void make_routes(void)
{
    static struct {
        uint32_t address;
        unsigned length;
    } networks[NETWORKS];

    for (unsigned length = 8; length <= 24; length++)
        taken[length] = room(((size_t)1 << length) / 64 + 1, sizeof(uint64_t));
    for (size_t i = 0; i < NETWORKS; i++) {
        networks[i].length = 10 + (below(6) + below(6));
        networks[i].address = ((1 + below(223)) << 24 | below(1 << 24)) & mask_of(networks[i].length);
    }

    size_t made = 0;
    while (made < ROUTES) {
        unsigned length = a_length();
        double share = (double)below(1 << 30) / (1 << 30);
        // The cube of an even share: the first networks have the most.
        if (length > 16)
            share *= share * share;
        size_t network = (size_t)(share * NETWORKS);
        uint32_t block = networks[network].address;
        uint32_t inside = length > networks[network].length ? below(1u << (32 - networks[network].length)) : 0;
        uint32_t address = (block + inside) & mask_of(length);
        unsigned run = length >= 20 ? 1 + below(8) : 1;
        for (unsigned i = 0; i < run && made < ROUTES; i++) {
            uint32_t next = address + (i << (32 - length));
            if (next >> 24 == 0 || next >> 24 > 223 || !take(next, length))
                break;
            routes[made++] = (struct route){next, (uint8_t)length, (uint16_t)(1 + below(4095))};
        }
    }

    qsort(routes, ROUTES, sizeof *routes, compare);
    size_t at = 0;
    for (unsigned length = 0; length <= 33; length++) {
        while (at < ROUTES && routes[at].length < length)
            at++;
        first_of[length] = at;
    }
}

uint32_t listed(uint32_t address)
{
    for (int length = 32; length >= 0; length--) {
        uint32_t wanted = address & mask_of((unsigned)length);
        size_t low = first_of[length], high = first_of[length + 1];
        while (low < high) {
            size_t middle = low + (high - low) / 2;
            if (routes[middle].address < wanted)
                low = middle + 1;
            else
                high = middle;
        }
        if (low < first_of[length + 1] && routes[low].address == wanted)
            return routes[low].hop + 1u;
    }
    return 0;
}
