/* What the benches in C share: the clock, the numbers that they draw, and how
   often they repeat a case. */
#ifndef BENCH_MEASURE_H
#define BENCH_MEASURE_H

#include <stdint.h>
#include <stdio.h>
#include <stdlib.h>
#include <string.h>
#include <time.h>

/* The time in nanoseconds. */
static inline double now(void)
{
    struct timespec t;

    clock_gettime(CLOCK_MONOTONIC, &t);
    return (double)t.tv_sec * 1e9 + (double)t.tv_nsec;
}

/* Where the drawing stands: before the first draw, the seed. */
static uint64_t state;

/* A number from low to high: a plain generator, the same for a seed everywhere. */
static inline uint32_t between(uint32_t low, uint32_t high)
{
    state = state * 6364136223846793005u + 1442695040888963407u;
    return low + (uint32_t)((state >> 33) % ((uint64_t)high - low + 1));
}

/* Whether the argument at the place of the repetitions is --once: all that is
   compared before timing is compared, and a case is then run once, some benches
   leaving out what takes long; so that the bench is tried, and no time counts. */
static inline int is_once(int at, int argc, char **argv)
{
    return argc > at && strcmp(argv[at], "--once") == 0;
}

/* The repetitions that the argument at a place asks for, 1 for --once, or so many
   where there is none. Ends the run with 2 where that is no number from 1. */
static inline int repetitions_at(int at, int argc, char **argv, int otherwise)
{
    int repetitions = is_once(at, argc, argv) ? 1 : argc > at ? atoi(argv[at]) : otherwise;

    if (repetitions < 1) {
        fprintf(stderr, "bench: the repetitions are a number from 1, or --once\n");
        exit(2);
    }
    return repetitions;
}

#endif
