// The nodes of a tree in words, as docs/memory.md draws them, for the C that goes down it. It trusts the words: no node is looked at
// whether it is there.
#ifndef NODE_H
#define NODE_H

#include <stdbool.h>
#include <stddef.h>
#include <stdint.h>

// A node has so many words, and a memory at most so many nodes.
enum { NODE_WORDS = 36, MOST_NODES = 262144 };

// Entry i has the bits i, i / 2, and so on to 1.
static const uint64_t masks[64] = {
    0x0000000000000000, 0x0000000000000002, 0x0000000000000006, 0x000000000000000a,
    0x0000000000000016, 0x0000000000000026, 0x000000000000004a, 0x000000000000008a,
    0x0000000000000116, 0x0000000000000216, 0x0000000000000426, 0x0000000000000826,
    0x000000000000104a, 0x000000000000204a, 0x000000000000408a, 0x000000000000808a,
    0x0000000000010116, 0x0000000000020116, 0x0000000000040216, 0x0000000000080216,
    0x0000000000100426, 0x0000000000200426, 0x0000000000400826, 0x0000000000800826,
    0x000000000100104a, 0x000000000200104a, 0x000000000400204a, 0x000000000800204a,
    0x000000001000408a, 0x000000002000408a, 0x000000004000808a, 0x000000008000808a,
    0x0000000100010116, 0x0000000200010116, 0x0000000400020116, 0x0000000800020116,
    0x0000001000040216, 0x0000002000040216, 0x0000004000080216, 0x0000008000080216,
    0x0000010000100426, 0x0000020000100426, 0x0000040000200426, 0x0000080000200426,
    0x0000100000400826, 0x0000200000400826, 0x0000400000800826, 0x0000800000800826,
    0x000100000100104a, 0x000200000100104a, 0x000400000200104a, 0x000800000200104a,
    0x001000000400204a, 0x002000000400204a, 0x004000000800204a, 0x008000000800204a,
    0x010000001000408a, 0x020000001000408a, 0x040000002000408a, 0x080000002000408a,
    0x100000004000808a, 0x200000004000808a, 0x400000008000808a, 0x800000008000808a,
};

static inline uint32_t size_of(size_t words_len)
{
    size_t size = words_len / NODE_WORDS;
    return size < MOST_NODES ? (uint32_t)size : MOST_NODES;
}

// Whether strides are a plan for IPv4 addresses (docs/plans.md).
static inline bool is_plan(const uint8_t *strides, size_t len)
{
    unsigned sum = 0;
    if (len < 1 || len > 32)
        return false;
    for (size_t i = 0; i < len; i++) {
        if (strides[i] < 1 || strides[i] > 6)
            return false;
        sum += strides[i];
    }
    return sum == 33;
}

// Where a child, the count and a hop lie.
enum { CHILDREN = 1, COUNT = 22, HOPS = 23, CHILD_BITS = 18, COUNT_FROM = 18, COUNT_BITS = 7, HOP_BITS = 12 };

static inline uint32_t child_of(const uint64_t *node, unsigned index)
{
    return (uint32_t)(node[CHILDREN + index / 3] >> (CHILD_BITS * (index % 3))) & ((1u << CHILD_BITS) - 1);
}

static inline uint32_t hop_of(const uint64_t *node, unsigned position)
{
    return (uint32_t)(node[HOPS + position / 5] >> (HOP_BITS * (position % 5))) & ((1u << HOP_BITS) - 1);
}

static inline size_t least(size_t a, size_t b)
{
    return a < b ? a : b;
}

#endif
