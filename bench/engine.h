// A table that calls are put to, one after another: in C and in Rattle, behind one signature.
#ifndef ENGINE_H
#define ENGINE_H

#include <stdbool.h>
#include <stddef.h>
#include <stdint.h>

// A call is one number: from bit 0 on the address, from bit 32 the length of its prefix, from bit 40 the hop, from bit 56 what is asked: an
// insert, a delete, or a lookup, which anything else asks for too.
enum { LENGTH_FROM = 32, HOP_FROM = 40, ASKED_FROM = 56 };
enum { INSERT, DELETE, LOOKUP };

// An answer is one number. Of a refused call it is the refusal's number (docs/refusals.md), from bit 56 on. Else, from bit 0 on:
// - of an insert, 1 more than the old hop, or 0 for none, and from bit 16 the nodes taken;
// - of a delete, 1 more than the hop, and from bit 16 the nodes returned;
// - of a lookup, 1 more than the hop of the longest match, or 0 for none; from bit 16 the nodes on the path; and from bit 40 the match's length.
enum { NODES_FROM = 16, MATCHED_FROM = 40, REFUSAL_FROM = 56 };
enum { BAD_LENGTH = 4, STRAY = 5, BAD_HOP = 6, FULL = 7, ABSENT = 8 };

// Opens a table for IPv4 addresses in the words, whatever they hold, and puts the calls to it for which there is an answer. Answers false where
// the strides are no plan or the words hold no node; then nothing is written. This one is written in C.
bool plain_feed(uint64_t *words, size_t words_len, const uint8_t *strides, size_t strides_len,
                const uint64_t *calls, size_t calls_len, uint64_t *answers, size_t answers_len);

// The proved one, of crates/feed.
bool table_feed(uint64_t *words, size_t words_len, const uint8_t *strides, size_t strides_len,
                const uint64_t *calls, size_t calls_len, uint64_t *answers, size_t answers_len);

static inline uint64_t call_of(unsigned asked, uint32_t address, unsigned length, unsigned hop)
{
    return (uint64_t)asked << ASKED_FROM | (uint64_t)hop << HOP_FROM | (uint64_t)length << LENGTH_FROM | address;
}

#endif
