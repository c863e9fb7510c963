// What the programs of the bench share: dice, an end with a message, memory, and a clock.
#ifndef TOOLS_H
#define TOOLS_H

#include <stddef.h>
#include <stdint.h>

// The name under which a program's messages appear; each program has its own.
extern const char *const program;

// Random numbers, from a fixed seed: any number, and one below n.
uint64_t roll(void);
uint32_t below(uint32_t n);

// The numbers from 0 to n - 1 in random order, in memory that is the caller's to free.
uint32_t *shuffled(uint32_t n);

// Says why, and ends the program with status 1.
_Noreturn void stop(const char *why);

// Memory for so many of a size, filled with 0. Where there is none, the program stops.
void *room(size_t count, size_t size);

// The time in seconds, and the least of the times taken so far; 0 stands for none yet.
double now(void);
void best_of(double *best, double start);

#endif
