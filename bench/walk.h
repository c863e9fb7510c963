// The walk of a lookup, in C and in Rattle, behind one signature.
#ifndef WALK_H
#define WALK_H

#include <stdbool.h>
#include <stddef.h>
#include <stdint.h>

// For each address an entry: 1 more than the hop of its longest match, or 0 where no route matches it. Answers whether the strides are a
// plan. This one is written in C. It trusts the words: each child that it meets has to be a node of them.
bool plain_lookup(const uint64_t *words, size_t words_len, const uint8_t *strides, size_t strides_len,
                  const uint32_t *addresses, size_t addresses_len, uint32_t *found, size_t found_len);

// The same, but a child that is no node is met by the entry 2^32 - 1.
bool wary_lookup(const uint64_t *words, size_t words_len, const uint8_t *strides, size_t strides_len,
                 const uint32_t *addresses, size_t addresses_len, uint32_t *found, size_t found_len);

// The proved one, of crates/linecard: it meets any words as `wary_lookup` does. It only reads them, though it asks for them alone.
bool linecard_lookup(uint64_t *words, size_t words_len, const uint8_t *strides, size_t strides_len,
                     const uint32_t *addresses, size_t addresses_len, uint32_t *found, size_t found_len);

#endif
