// The same routes in DPDK's rte_lpm and rte_fib, beside the table in Rattle and in C, all in one process: that all find the same, and how fast
// each is.
#define _GNU_SOURCE

#include "calls.h"
#include "engine.h"
#include "node.h"
#include "routes.h"
#include "tools.h"

#include <sched.h>
#include <stdio.h>
#include <stdlib.h>
#include <string.h>

#include <rte_eal.h>
#include <rte_fib.h>
#include <rte_lpm.h>
#include <rte_malloc.h>

enum {
    TURNS = 7,
    // rte_lpm looks for a rule from one to the next, so it is given fewer flaps.
    LPM_FLAPS = 5000,
    BURST = 32,
    // For prefixes longer than /24, of which there is none.
    TBL8S = 256,
};

const char *const program = "dpdk";

static struct rte_lpm *lpm;
static struct rte_fib *fib;
static uint64_t *words;
static const size_t words_len = (size_t)NODE_WORDS * TABLE_NODES;

// Enough for all updates and then all lookups.
static uint64_t answers[2 * ROUTES + LOOKUPS];

static uint32_t addresses[LOOKUPS];
static uint64_t found[LOOKUPS];

// ---- all of them

static void make_lpm(void)
{
    struct rte_lpm_config config = {.max_rules = ROUTES, .number_tbl8s = TBL8S};
    lpm = rte_lpm_create("routes", SOCKET_ID_ANY, &config);
    if (!lpm)
        stop("there is no room for rte_lpm");
}

// An entry of two bytes is half as wide as one of rte_lpm.
static void make_fib(void)
{
    struct rte_fib_conf conf = {
        .type = RTE_FIB_DIR24_8,
        .default_nh = 0,
        .max_routes = ROUTES,
        .dir24_8 = {.nh_sz = RTE_FIB_DIR24_8_2B, .num_tbl8 = TBL8S},
    };
    fib = rte_fib_create("routes", SOCKET_ID_ANY, &conf);
    if (!fib)
        stop("there is no room for rte_fib");
}

// The table in Rattle or in C, which is opened anew in the same words.
static void feed(bool rattle, struct row row)
{
    if (!(rattle ? table_feed : plain_feed)(words, words_len, PLAN, sizeof PLAN, row.calls, row.len, answers, sizeof answers / sizeof *answers))
        stop("the plan is refused");
}

// What both of DPDK's are given for a hop: 1 more, as in the answers of the table, so that 0 is no route.
static uint32_t next_hop_of(uint64_t call)
{
    return (call >> HOP_FROM & 0xffff) + 1;
}

static void update_lpm(const uint64_t *calls, size_t len)
{
    for (size_t i = 0; i < len; i++) {
        uint32_t address = (uint32_t)calls[i];
        uint8_t length = calls[i] >> LENGTH_FROM & 0xff;
        if (calls[i] >> ASKED_FROM == INSERT ? rte_lpm_add(lpm, address, length, next_hop_of(calls[i])) : rte_lpm_delete(lpm, address, length))
            stop("rte_lpm refuses a call");
    }
}

static void update_fib(const uint64_t *calls, size_t len)
{
    for (size_t i = 0; i < len; i++) {
        uint32_t address = (uint32_t)calls[i];
        uint8_t length = calls[i] >> LENGTH_FROM & 0xff;
        if (calls[i] >> ASKED_FROM == INSERT ? rte_fib_add(fib, address, length, next_hop_of(calls[i])) : rte_fib_delete(fib, address, length))
            stop("rte_fib refuses a call");
    }
}

static void look_up_in_lpm(void)
{
    for (size_t i = 0; i < LOOKUPS; i++) {
        uint32_t next_hop;
        found[i] = rte_lpm_lookup(lpm, addresses[i], &next_hop) == 0 ? next_hop : 0;
    }
}

static void look_up_in_fib(unsigned burst)
{
    for (size_t i = 0; i < LOOKUPS; i += burst)
        rte_fib_lookup_bulk(fib, addresses + i, found + i, (int)burst);
}

// ---- what all find

static void check_found(const char *whose, size_t from)
{
    for (size_t i = 0; i < LOOKUPS; i++)
        if (found[i] != (answers[from + i] & 0xffff))
            stop(whose);
}

// Looks up all addresses, in the table after so many calls of a row, which the others were given before.
static void check(enum kind kind, size_t updates)
{
    uint64_t *calls = room(updates + LOOKUPS, sizeof *calls);
    memcpy(calls, rows[kind].calls, updates * sizeof *calls);
    memcpy(calls + updates, begin_of(LOOKING_UP), LOOKUPS * sizeof *calls);
    feed(true, (struct row){calls, updates + LOOKUPS});
    free(calls);
    look_up_in_lpm();
    check_found("rte_lpm and the table differ", updates);
    look_up_in_fib(BURST);
    check_found("rte_fib and the table differ", updates);
    look_up_in_fib(1);
    check_found("rte_fib and the table differ, one by one", updates);
    size_t matched = 0;
    for (size_t i = 0; i < LOOKUPS; i++)
        matched += found[i] != 0;
    printf("after %zu updates %d addresses alike in rte_lpm, rte_fib and Rattle; %zu matched\n", updates, LOOKUPS, matched);
}

// ---- how fast each is

static double by_lpm[KINDS], by_fib[KINDS], by_rattle[KINDS], by_c[KINDS], one_by_one;

static double seconds_for(void (*update)(const uint64_t *, size_t), const uint64_t *calls, size_t len)
{
    double start = now();
    update(calls, len);
    return now() - start;
}

static void keep_best(double *best, double took)
{
    if (*best == 0 || took < *best)
        *best = took;
}

// All that is measured, in turns. Updates of rte_lpm take so long that it has one turn of them: the first fills it, and the last empties it.
static void take_turn(bool first, bool last)
{
    make_fib();
    keep_best(&by_fib[INSERTING], seconds_for(update_fib, begin_of(INSERTING), ROUTES));
    keep_best(&by_fib[FLAPPING], seconds_for(update_fib, begin_of(FLAPPING), calls_of(FLAPPING)));
    if (first) {
        by_lpm[INSERTING] = seconds_for(update_lpm, begin_of(INSERTING), ROUTES);
        by_lpm[FLAPPING] = seconds_for(update_lpm, begin_of(FLAPPING), 2 * LPM_FLAPS);
        check(INSERTING, ROUTES);
    }

    double start = now();
    look_up_in_lpm();
    best_of(&by_lpm[LOOKING_UP], start);
    start = now();
    look_up_in_fib(BURST);
    best_of(&by_fib[LOOKING_UP], start);
    start = now();
    look_up_in_fib(1);
    best_of(&one_by_one, start);

    // In halves, so that what is found can be compared when half of the routes are there.
    const uint64_t *deletes = begin_of(DELETING);
    size_t half = ROUTES / 2;
    double fib_took = seconds_for(update_fib, deletes, half);
    if (last) {
        by_lpm[DELETING] = seconds_for(update_lpm, deletes, half);
        check(DELETING, ROUTES + half);
        by_lpm[DELETING] += seconds_for(update_lpm, deletes + half, half);
    }
    keep_best(&by_fib[DELETING], fib_took + seconds_for(update_fib, deletes + half, half));
    if (last)
        check(DELETING, 2 * ROUTES);
    rte_fib_free(fib);

    for (enum kind kind = OPENING; kind < KINDS; kind++) {
        start = now();
        feed(true, rows[kind]);
        best_of(&by_rattle[kind], start);
        start = now();
        feed(false, rows[kind]);
        best_of(&by_c[kind], start);
    }
}

static void print_rates(void)
{
    static const struct {
        const char *name;
        enum kind kind;
        size_t lpm_calls;
        const double *fib;
    } lines[] = {
        {"inserts", INSERTING, ROUTES, &by_fib[INSERTING]},
        {"deletes", DELETING, ROUTES, &by_fib[DELETING]},
        {"flaps", FLAPPING, 2 * LPM_FLAPS, &by_fib[FLAPPING]},
        {"lookups", LOOKING_UP, LOOKUPS, &by_fib[LOOKING_UP]},
        {"lookups, one by one", LOOKING_UP, LOOKUPS, &one_by_one},
    };
    for (size_t i = 0; i < sizeof lines / sizeof *lines; i++) {
        enum kind kind = lines[i].kind;
        double million = (double)calls_of(kind) * 1e-6;
        double rattle = million / seconds_of(kind, by_rattle), c = million / seconds_of(kind, by_c);
        double of_lpm = (double)lines[i].lpm_calls * 1e-6 / by_lpm[kind], of_fib = million / *lines[i].fib;
        printf("%-19s Rattle %6.2f  C %6.2f  rte_lpm %7.3f  rte_fib %7.3f million a second; Rattle / C %.2f, / rte_lpm %.3g, / rte_fib %.3g\n",
               lines[i].name, rattle, c, of_lpm, of_fib, rattle / c, rattle / of_lpm, rattle / of_fib);
    }
}

// ---- the environment of DPDK

// Ordinary pages for all its memory, and nothing of the machine but one core. Starting binds the thread to that core; behind it the thread may
// run again wherever it could.
static void start_dpdk(char *name)
{
    char lcores[32];
    snprintf(lcores, sizeof lcores, "0@%d", sched_getcpu());
    char *args[] = {name, "--no-huge", "--no-shconf", "--no-pci", "--no-telemetry", "--log-level=*:error", "-m", "1024", "--lcores", lcores, NULL};
    cpu_set_t cores;
    if (sched_getaffinity(0, sizeof cores, &cores) || rte_eal_init(sizeof args / sizeof *args - 1, args) < 0
        || sched_setaffinity(0, sizeof cores, &cores))
        stop("DPDK does not start");
}

int main(int argc, char **argv)
{
    (void)argc;
    make_routes();
    make_calls();
    for (size_t i = 0; i < LOOKUPS; i++)
        addresses[i] = (uint32_t)begin_of(LOOKING_UP)[i];

    // The words lie in DPDK's memory too, so that all have pages of one size.
    start_dpdk(argv[0]);
    make_lpm();
    words = rte_zmalloc("words", words_len * sizeof *words, 0);
    if (!words)
        stop("no memory");

    for (int turn = 0; turn < TURNS; turn++)
        take_turn(turn == 0, turn == TURNS - 1);
    print_rates();
    return 0;
}
