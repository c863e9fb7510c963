// The table as one would write it in C: what docs/table.md says of each call, over words that docs/memory.md draws. It trusts the words, which
// it has cleared itself. It stands in a file of its own, so that a compiler cannot make it over for one plan.
#include "engine.h"

#include "node.h"

#include <string.h>

struct table {
    uint64_t *words;
    // Copied, since bytes that are lent could be part of any words that are written.
    uint8_t strides[32];
    size_t levels;
    uint32_t size;
    // The first free node, or 0 for none.
    uint32_t front;
    uint32_t routes;
    uint32_t required;
};

static inline uint64_t *node_at(const struct table *table, uint32_t node)
{
    return table->words + (size_t)NODE_WORDS * node;
}

static inline void put(uint64_t *word, unsigned from, unsigned bits, uint64_t value)
{
    *word = (*word & ~(((1ull << bits) - 1) << from)) | value << from;
}

static inline void set_child(uint64_t *node, unsigned index, uint32_t child)
{
    put(node + CHILDREN + index / 3, CHILD_BITS * (index % 3), CHILD_BITS, child);
}

static inline void set_hop(uint64_t *node, unsigned position, uint32_t hop)
{
    put(node + HOPS + position / 5, HOP_BITS * (position % 5), HOP_BITS, hop);
}

static inline uint32_t count_of(const uint64_t *node)
{
    return (uint32_t)(node[COUNT] >> COUNT_FROM) & ((1u << COUNT_BITS) - 1);
}

// The count is raised and lowered where it lies: it is never below 0 or above 64.
static inline void raise_count(uint64_t *node)
{
    node[COUNT] += 1ull << COUNT_FROM;
}

static inline void lower_count(uint64_t *node)
{
    node[COUNT] -= 1ull << COUNT_FROM;
}

// The first bits of what is left of an address; none of them for 0 bits.
static inline unsigned first_bits(uint64_t rest, unsigned bits)
{
    return (unsigned)(rest >> 1 >> (63 - bits));
}

// ---- open

// Clears the fields of every node and no other bit, and chains all nodes but the root.
static void clear(struct table *table)
{
    // The bits of each word that no field has.
    uint64_t spare[NODE_WORDS];
    spare[0] = 0;
    for (unsigned i = CHILDREN; i < COUNT; i++)
        spare[i] = ~0ull << (3 * CHILD_BITS);
    spare[COUNT] = ~0ull << (COUNT_FROM + COUNT_BITS);
    for (unsigned i = HOPS; i < NODE_WORDS; i++)
        spare[i] = ~0ull << (5 * HOP_BITS);
    // There is no hop 0 and none above 63.
    spare[HOPS] |= (1ull << HOP_BITS) - 1;
    spare[NODE_WORDS - 1] = ~0ull << (4 * HOP_BITS);

    for (uint32_t n = 0; n < table->size; n++) {
        uint64_t *node = node_at(table, n);
        for (unsigned i = 0; i < NODE_WORDS; i++)
            node[i] &= spare[i];
        if (n > 0 && n + 1 < table->size)
            node[CHILDREN] |= n + 1;
    }
}

static bool open(struct table *table, uint64_t *words, size_t words_len, const uint8_t *strides, size_t strides_len)
{
    uint32_t size = size_of(words_len);
    if (!is_plan(strides, strides_len) || size == 0)
        return false;
    *table = (struct table){
        .words = words,
        .levels = strides_len,
        .size = size,
        .front = size > 1,
        .required = 1,
    };
    memcpy(table->strides, strides, strides_len);
    clear(table);
    return true;
}

// ---- insert

static uint64_t refusal(unsigned number)
{
    return (uint64_t)number << REFUSAL_FROM;
}

// How a prefix that is not sound is refused, or 0.
static inline unsigned unsound(uint32_t address, unsigned length)
{
    if (length > 32)
        return BAD_LENGTH;
    return (uint64_t)address << 32 << length != 0 ? STRAY : 0;
}

static inline uint64_t insert(struct table *table, uint32_t address, unsigned length, unsigned hop)
{
    unsigned fault = unsound(address, length);
    if (fault)
        return refusal(fault);
    if (hop > 4095)
        return refusal(BAD_HOP);

    // Down as far as there are nodes. The strides come to more than any length, so the last of them ends the walk.
    const uint8_t *stride = table->strides;
    uint64_t rest = (uint64_t)address << 32;
    uint64_t *node = table->words;
    for (; length >= *stride; stride++) {
        uint32_t child = child_of(node, first_bits(rest, *stride));
        if (child == 0)
            break;
        node = node_at(table, child);
        rest <<= *stride;
        length -= *stride;
    }

    uint32_t taken = 0;
    if (length >= *stride) {
        const uint8_t *deeper = stride;
        for (unsigned left = length; left >= *deeper; deeper++) {
            left -= *deeper;
            taken++;
        }
        if (taken > table->size - table->required)
            return refusal(FULL);
        for (; stride < deeper; stride++) {
            uint32_t front = table->front;
            uint64_t *child = node_at(table, front);
            table->front = child_of(child, 0);
            // No other field of a free node is set.
            set_child(child, 0, 0);
            set_child(node, first_bits(rest, *stride), front);
            raise_count(node);
            node = child;
            rest <<= *stride;
            length -= *stride;
        }
        table->required += taken;
    }

    unsigned position = (1u << length) + first_bits(rest, length);
    uint64_t mark = 1ull << position;
    uint64_t old = 0;
    if (node[0] & mark)
        old = hop_of(node, position) + 1;
    else
        table->routes++;
    node[0] |= mark;
    set_hop(node, position, hop);
    return old | (uint64_t)taken << NODES_FROM;
}

// ---- delete

static inline uint64_t delete(struct table *table, uint32_t address, unsigned length)
{
    unsigned fault = unsound(address, length);
    if (fault)
        return refusal(fault);

    // The nodes on the way, and the child by which each is left.
    uint32_t way[32];
    uint8_t indexes[32];
    unsigned level = 0;
    uint64_t rest = (uint64_t)address << 32;
    uint64_t *node = table->words;
    way[0] = 0;
    for (; length >= table->strides[level]; level++) {
        unsigned stride = table->strides[level];
        unsigned index = first_bits(rest, stride);
        uint32_t child = child_of(node, index);
        if (child == 0)
            return refusal(ABSENT);
        indexes[level] = (uint8_t)index;
        way[level + 1] = child;
        node = node_at(table, child);
        rest <<= stride;
        length -= stride;
    }

    unsigned position = (1u << length) + first_bits(rest, length);
    uint64_t mark = 1ull << position;
    if (!(node[0] & mark))
        return refusal(ABSENT);
    uint64_t hop = hop_of(node, position);
    node[0] &= ~mark;
    set_hop(node, position, 0);
    table->routes--;

    // Up as long as nothing is left in a node.
    uint32_t returned = 0;
    for (; level > 0 && node[0] == 0 && count_of(node) == 0; level--) {
        uint64_t *parent = node_at(table, way[level - 1]);
        set_child(parent, indexes[level - 1], 0);
        lower_count(parent);
        set_child(node, 0, table->front);
        table->front = way[level];
        returned++;
        node = parent;
    }
    table->required -= returned;
    return (hop + 1) | (uint64_t)returned << NODES_FROM;
}

// ---- lookup

static inline uint64_t lookup(const struct table *table, uint32_t address)
{
    // The last match: the node, the marks there of which the highest is meant, and how many bits led to it.
    const uint64_t *last = table->words;
    uint64_t last_marks = 0;
    unsigned last_offset = 0;

    const uint64_t *node = table->words;
    uint64_t rest = (uint64_t)address << 32;
    unsigned offset = 0;
    size_t level = 0;
    while (level < table->levels) {
        unsigned stride = table->strides[level++];
        unsigned index = first_bits(rest, stride);
        uint64_t marks = node[0] & masks[(1u << (stride - 1)) + index / 2];
        last = marks ? node : last;
        last_offset = marks ? offset : last_offset;
        last_marks = marks ? marks : last_marks;
        uint32_t child = child_of(node, index);
        if (child == 0)
            break;
        node = node_at(table, child);
        rest <<= stride;
        offset += stride;
    }

    uint64_t visits = (uint64_t)level << NODES_FROM;
    if (last_marks == 0)
        return visits;
    unsigned position = 63 - (unsigned)__builtin_clzll(last_marks);
    unsigned matched = last_offset + 31 - (unsigned)__builtin_clz(position);
    return (hop_of(last, position) + 1) | visits | (uint64_t)matched << MATCHED_FROM;
}

// ---- calls

bool plain_feed(uint64_t *words, size_t words_len, const uint8_t *strides, size_t strides_len,
                const uint64_t *calls, size_t calls_len, uint64_t *answers, size_t answers_len)
{
    struct table table;
    if (!open(&table, words, words_len, strides, strides_len))
        return false;
    size_t len = least(calls_len, answers_len);
    for (size_t i = 0; i < len; i++) {
        uint32_t address = (uint32_t)calls[i];
        unsigned length = calls[i] >> LENGTH_FROM & 0xff;
        unsigned hop = calls[i] >> HOP_FROM & 0xffff;
        switch (calls[i] >> ASKED_FROM) {
        case INSERT: answers[i] = insert(&table, address, length, hop); break;
        case DELETE: answers[i] = delete(&table, address, length); break;
        default: answers[i] = lookup(&table, address); break;
        }
    }
    return true;
}
