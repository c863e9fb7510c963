#define _POSIX_C_SOURCE 200809L

#include "tools.h"

#include <stdio.h>
#include <stdlib.h>
#include <time.h>

static uint64_t state = 20240607;

uint64_t roll(void)
{
    uint64_t z = (state += 0x9e3779b97f4a7c15);
    z = (z ^ (z >> 30)) * 0xbf58476d1ce4e5b9;
    z = (z ^ (z >> 27)) * 0x94d049bb133111eb;
    return z ^ (z >> 31);
}

uint32_t below(uint32_t n)
{
    return (uint32_t)((roll() >> 32) * n >> 32);
}

uint32_t *shuffled(uint32_t n)
{
    uint32_t *order = room(n, sizeof *order);
    for (uint32_t i = 0; i < n; i++) {
        uint32_t j = below(i + 1);
        order[i] = order[j];
        order[j] = i;
    }
    return order;
}

void stop(const char *why)
{
    fprintf(stderr, "%s: %s\n", program, why);
    exit(1);
}

void *room(size_t count, size_t size)
{
    void *p = calloc(count, size);
    if (!p)
        stop("no memory");
    return p;
}

double now(void)
{
    struct timespec t;
    clock_gettime(CLOCK_MONOTONIC, &t);
    return (double)t.tv_sec + (double)t.tv_nsec * 1e-9;
}

void best_of(double *best, double start)
{
    double took = now() - start;
    if (*best == 0 || took < *best)
        *best = took;
}
