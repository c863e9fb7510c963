// The walk of a lookup as one would write it in C. It stands in a file of its own, so that a compiler cannot make it over for the one plan
// and the one tree of the program that calls it.
#include "walk.h"

#include "node.h"

// The walk for one address. Where it is wary, a node is looked at only if there is one of this number.
static inline uint32_t look_up(const uint64_t *words, uint32_t size, const uint8_t *strides, size_t levels, uint32_t address, bool wary)
{
    // The last match: the node's words, and the marks there of which the highest is meant.
    const uint64_t *last = words;
    uint64_t last_marks = 0;
    uint32_t node = 0;
    // The bits that are not used up yet, at the top.
    uint64_t rest = (uint64_t)address << 32;

    for (size_t level = 0; level < levels; level++) {
        if (wary && node >= size)
            return UINT32_MAX;
        const uint64_t *fields = words + (size_t)NODE_WORDS * node;
        unsigned stride = strides[level];
        unsigned index = (unsigned)(rest >> (64 - stride));
        uint64_t marks = fields[0] & masks[(1u << (stride - 1)) + index / 2];

        // gcc and clang make two conditional moves of this, and no branch, since nothing has to be computed first.
        last = marks ? fields : last;
        last_marks = marks ? marks : last_marks;

        node = child_of(fields, index);
        if (node == 0)
            break;
        rest <<= stride;
    }

    if (last_marks == 0)
        return 0;
    unsigned position = 63 - (unsigned)__builtin_clzll(last_marks);
    return hop_of(last, position) + 1;
}

bool plain_lookup(const uint64_t *words, size_t words_len, const uint8_t *strides, size_t strides_len,
                  const uint32_t *addresses, size_t addresses_len, uint32_t *found, size_t found_len)
{
    if (!is_plan(strides, strides_len))
        return false;
    size_t len = least(addresses_len, found_len);
    for (size_t i = 0; i < len; i++)
        found[i] = look_up(words, size_of(words_len), strides, strides_len, addresses[i], false);
    return true;
}

bool wary_lookup(const uint64_t *words, size_t words_len, const uint8_t *strides, size_t strides_len,
                 const uint32_t *addresses, size_t addresses_len, uint32_t *found, size_t found_len)
{
    if (!is_plan(strides, strides_len))
        return false;
    size_t len = least(addresses_len, found_len);
    for (size_t i = 0; i < len; i++)
        found[i] = look_up(words, size_of(words_len), strides, strides_len, addresses[i], true);
    return true;
}
