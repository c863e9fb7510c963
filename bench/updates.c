// Inserts, deletes and lookups in a table, by the proved engine and by the same one in C: first that both answer the same and leave the same
// words, and what a plain list of routes answers; then how fast each is.
#include "calls.h"
#include "engine.h"
#include "node.h"
#include "routes.h"
#include "tools.h"

#include <stdio.h>
#include <stdlib.h>
#include <string.h>

enum {
    HISTORIES = 3000,
    MOST_CALLS = 400,
    MOST_SMALL = 120,
    LISTED = 50000,
    TURNS = 9,
};

const char *const program = "updates";

// ---- a plain list of routes, which answers a call without a tree: it counts the nodes by comparing the first bits of every two routes

struct list {
    const uint8_t *strides;
    size_t levels;
    uint32_t size;
    uint32_t required;
    size_t len;
    struct route routes[MOST_CALLS];
};

// The stride at which a prefix of some length lies.
static size_t level_of(const struct list *list, unsigned length)
{
    size_t level = 0;
    for (; length >= list->strides[level]; level++)
        length -= list->strides[level];
    return level;
}

// The strides down to which some route's path has the first bits of an address, so how many of the nodes on its way there are.
static size_t nodes_on_the_way(const struct list *list, uint32_t address)
{
    size_t most = 1;
    for (size_t i = 0; i < list->len; i++) {
        size_t level = level_of(list, list->routes[i].length);
        unsigned offset = 0;
        for (size_t l = 1; l <= level; l++) {
            offset += list->strides[l - 1];
            if ((address ^ list->routes[i].address) & mask_of(offset))
                break;
            most = l + 1 > most ? l + 1 : most;
        }
    }
    return most;
}

// How many nodes a prefix requires beside those that the routes do.
static uint32_t nodes_missing(const struct list *list, uint32_t address, unsigned length)
{
    size_t wanted = level_of(list, length) + 1, there = nodes_on_the_way(list, address);
    return wanted > there ? (uint32_t)(wanted - there) : 0;
}

static uint64_t list_answer(struct list *list, uint64_t call)
{
    uint64_t asked = call >> ASKED_FROM;
    uint32_t address = (uint32_t)call;
    unsigned length = call >> LENGTH_FROM & 0xff, hop = call >> HOP_FROM & 0xffff;
    size_t len = list->len, held = len;

    if (asked != INSERT && asked != DELETE) {
        for (size_t i = 0; i < len; i++)
            if (((address ^ list->routes[i].address) & mask_of(list->routes[i].length)) == 0
                && (held == len || list->routes[i].length > list->routes[held].length))
                held = i;
        uint64_t visits = (uint64_t)nodes_on_the_way(list, address) << NODES_FROM;
        return held == len ? visits : visits | (uint64_t)list->routes[held].length << MATCHED_FROM | (list->routes[held].hop + 1u);
    }

    if (length > 32)
        return (uint64_t)BAD_LENGTH << REFUSAL_FROM;
    if (address & ~mask_of(length))
        return (uint64_t)STRAY << REFUSAL_FROM;
    for (size_t i = 0; i < len; i++)
        if (list->routes[i].address == address && list->routes[i].length == length)
            held = i;

    if (asked == INSERT) {
        if (hop > 4095)
            return (uint64_t)BAD_HOP << REFUSAL_FROM;
        uint32_t taken = nodes_missing(list, address, length);
        if (taken > list->size - list->required)
            return (uint64_t)FULL << REFUSAL_FROM;
        uint64_t old = held < len ? list->routes[held].hop + 1u : 0;
        list->routes[held] = (struct route){address, (uint8_t)length, (uint16_t)hop};
        list->len += held == len;
        list->required += taken;
        return old | (uint64_t)taken << NODES_FROM;
    }

    if (held == len)
        return (uint64_t)ABSENT << REFUSAL_FROM;
    uint64_t hop_held = list->routes[held].hop;
    list->routes[held] = list->routes[--list->len];
    uint32_t returned = nodes_missing(list, address, length);
    list->required -= returned;
    return (hop_held + 1) | (uint64_t)returned << NODES_FROM;
}

// ---- what both answer and leave

static void garble(uint64_t *numbers, size_t len)
{
    for (size_t i = 0; i < len; i++)
        numbers[i] = roll();
}

// Puts the same calls to both, over the same words, and stops at the first difference. The words and the answers of both are left.
static bool compare(uint64_t *words, uint64_t *plain_words, size_t words_len, const uint8_t *strides, size_t strides_len,
                    const uint64_t *calls, size_t calls_len, uint64_t *answers, uint64_t *plain_answers, size_t answers_len)
{
    garble(words, words_len);
    garble(answers, answers_len);
    memcpy(plain_words, words, words_len * sizeof *words);
    memcpy(plain_answers, answers, answers_len * sizeof *answers);
    bool opened = table_feed(words, words_len, strides, strides_len, calls, calls_len, answers, answers_len);
    if (plain_feed(plain_words, words_len, strides, strides_len, calls, calls_len, plain_answers, answers_len) != opened)
        stop("one opens the table, and the other does not");
    for (size_t i = 0; i < answers_len; i++)
        if (answers[i] != plain_answers[i]) {
            fprintf(stderr, "call %zu: %016llx is answered by %016llx, in C by %016llx\n", i, (unsigned long long)(i < calls_len ? calls[i] : 0),
                    (unsigned long long)answers[i], (unsigned long long)plain_answers[i]);
            stop("the answers differ");
        }
    for (size_t i = 0; i < words_len; i++)
        if (words[i] != plain_words[i]) {
            fprintf(stderr, "word %zu, word %zu of node %zu: %016llx, in C %016llx\n", i, i % NODE_WORDS, i / NODE_WORDS,
                    (unsigned long long)words[i], (unsigned long long)plain_words[i]);
            stop("the words differ");
        }
    return opened;
}

// Random strides that are mostly a plan: they are added up to 33 as long as they are small enough.
static size_t a_plan(uint8_t strides[40])
{
    size_t len = 0;
    unsigned most = 1 + below(6);
    for (unsigned sum = 0; sum < 33; len++) {
        unsigned stride = 1 + below(most);
        strides[len] = (uint8_t)(stride < 33 - sum ? stride : 33 - sum);
        sum += strides[len];
    }
    if (below(20) == 0)
        strides[below((uint32_t)len)] = (uint8_t)below(9);
    return len;
}

// A call with prefixes of few bits and some long ones, so that many are held already or have a part of the way in common, and now and then with
// any bits at all.
static uint64_t a_call(void)
{
    static const uint32_t few[] = {0xc0000200, 0x0a000000, 0xffffffff, 0x00000000, 0xc0000240, 0x80000001};
    if (below(30) == 0)
        return roll();
    unsigned asked = below(10);
    asked = asked < 5 ? INSERT : asked < 8 ? DELETE : LOOKUP;
    uint32_t address = few[below(sizeof few / sizeof *few)];
    if (below(4) == 0)
        address ^= (uint32_t)1 << below(32);
    unsigned length = below(40) == 0 ? below(256) : below(33);
    if (below(20) != 0 && length <= 32 && asked != LOOKUP)
        address &= mask_of(length);
    return call_of(asked, address, length, below(30) == 0 ? below(65536) : below(4096));
}

static void compare_histories(void)
{
    static uint64_t words[NODE_WORDS * (MOST_SMALL + 1)], plain_words[NODE_WORDS * (MOST_SMALL + 1)];
    static uint64_t calls[MOST_CALLS], answers[MOST_CALLS], plain_answers[MOST_CALLS];
    static struct list list;
    size_t opened = 0, answered = 0, refused[9] = {0};

    for (int history = 0; history < HISTORIES; history++) {
        uint8_t strides[40];
        size_t strides_len = a_plan(strides);
        size_t words_len = below(NODE_WORDS * (1 + below(MOST_SMALL)) + 1);
        size_t calls_len = below(MOST_CALLS + 1), answers_len = below(8) == 0 ? below(MOST_CALLS + 1) : calls_len;
        for (size_t i = 0; i < calls_len; i++)
            calls[i] = a_call();
        if (!compare(words, plain_words, words_len, strides, strides_len, calls, calls_len, answers, plain_answers, answers_len))
            continue;
        opened++;
        list = (struct list){.strides = strides, .levels = strides_len, .size = size_of(words_len), .required = 1};
        for (size_t i = 0; i < least(calls_len, answers_len); i++) {
            if (answers[i] != list_answer(&list, calls[i]))
                stop("the tree and the list of routes differ");
            size_t number = answers[i] >> REFUSAL_FROM;
            refused[number < 9 ? number : 0]++;
            answered++;
        }
    }
    printf("%d histories on small tables, %zu of them opened: %zu calls alike in Rattle, in C and by a list of routes, every word alike\n",
           HISTORIES, opened, answered);
    printf("refused: length %zu, stray %zu, hop %zu, full %zu, absent %zu\n", refused[BAD_LENGTH], refused[STRAY], refused[BAD_HOP], refused[FULL],
           refused[ABSENT]);
}

// ---- the large table

static const size_t words_len = (size_t)NODE_WORDS * TABLE_NODES;
static uint64_t *words, *answers;

static void compare_large(void)
{
    uint64_t *plain_words = room(words_len, sizeof *words), *plain_answers = room(most_answers, sizeof *answers);
    size_t calls = 0;
    for (enum kind kind = OPENING; kind < KINDS; kind++) {
        struct row row = rows[kind];
        if (!compare(words, plain_words, words_len, PLAN, sizeof PLAN, row.calls, row.len, answers, plain_answers, most_answers))
            stop("the plan is refused");
        for (size_t i = 0; i < row.len; i++)
            if (answers[i] >> REFUSAL_FROM != 0)
                stop("a call is refused");
        calls += row.len;
        if (kind == LOOKING_UP)
            for (size_t i = ROUTES; i < ROUTES + LISTED; i++)
                if ((answers[i] & 0xffff) != listed((uint32_t)row.calls[i]))
                    stop("the tree and the list of routes differ");
    }
    free(plain_words);
    free(plain_answers);
    printf("%d routes in a table of %d nodes: %zu calls alike in Rattle and C, every word alike; %d lookups as the list of routes says\n", ROUTES,
           TABLE_NODES, calls, LISTED);
}

// ---- how fast each is

// Both have the same memory, and are in turn, so that whatever slows the machine for a while slows both.
static void measure(void)
{
    static const char *const names[KINDS] = {"nodes opened", "inserts", "deletes", "lookups", "flaps"};
    double rattle[KINDS] = {0}, plain[KINDS] = {0};
    for (int turn = 0; turn < TURNS; turn++)
        for (enum kind kind = OPENING; kind < KINDS; kind++) {
            double start = now();
            table_feed(words, words_len, PLAN, sizeof PLAN, rows[kind].calls, rows[kind].len, answers, most_answers);
            best_of(&rattle[kind], start);
            start = now();
            plain_feed(words, words_len, PLAN, sizeof PLAN, rows[kind].calls, rows[kind].len, answers, most_answers);
            best_of(&plain[kind], start);
        }
    for (enum kind kind = OPENING; kind < KINDS; kind++) {
        double million = (double)calls_of(kind) * 1e-6, by_rattle = seconds_of(kind, rattle), by_plain = seconds_of(kind, plain);
        printf("%-12s Rattle %6.2f  C %6.2f million a second; Rattle / C %.2f\n", names[kind], million / by_rattle, million / by_plain,
               by_plain / by_rattle);
    }
}

int main(void)
{
    make_routes();
    make_calls();
    words = room(words_len, sizeof *words);
    answers = room(most_answers, sizeof *answers);
    compare_histories();
    compare_large();
    measure();
    return 0;
}
