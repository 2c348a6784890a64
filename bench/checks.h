/* Checks 2, 3, 10 and 4 of a task set in plain C, for the benches that time the
   archive's beside them. A check gives 0, or refusal number x 2^32 + place. */
#ifndef BENCH_CHECKS_H
#define BENCH_CHECKS_H

#include <stddef.h>
#include <stdint.h>

#define LONGEST 10000000u

static uint64_t refusal(uint64_t number, uint64_t second)
{
    return number << 32 | second;
}

/* Check 2: the range of the word at a place, found from the words before it. */
static int in_range(const uint32_t *set, size_t at)
{
    uint32_t word = set[at], high, low = 1;

    if (at == 0) {
        high = 1000;
    } else if (at == 1) {
        low = 0;
        high = 1000;
    } else if (at == 2) {
        low = 2;
        high = 8;
    } else if (at < 3 + (size_t)set[2]) {
        high = 1000000;
    } else if (at == 3 + (size_t)set[2]) {
        high = 32;
    } else {
        size_t rates = set[2], k = at - (4 + rates);
        if (k / (3 + rates) >= set[3 + rates])
            return 0;                   /* left over */
        k %= 3 + rates;
        if (k == 2)
            return word < set[at - 2];  /* a first release is below its period */
        high = k == 0 ? 10000000 : k == 1 ? 4000000000u : 1000000;
    }
    return low <= word && word <= high;
}

static uint64_t check_words(const uint32_t *set, size_t set_len)
{
    size_t rates;

    for (size_t at = 0; at < set_len; at++)
        if (!in_range(set, at))
            return refusal(2, at);
    if (set_len < 3)
        return refusal(2, set_len);
    rates = set[2];
    if (set_len < 4 + rates || set_len < 4 + rates + set[3 + rates] * (3 + rates))
        return refusal(2, set_len);
    return 0;
}

static uint64_t check_rates(const uint32_t *set)
{
    for (size_t at = 4; at < 3 + (size_t)set[2]; at++)
        if (set[at] <= set[at - 1])
            return refusal(3, at);
    return 0;
}

/* The ticks that so many cycles take at a rate. */
static inline uint64_t job_time(uint64_t cycles, uint64_t rate)
{
    return (cycles + rate - 1) / rate;
}

/* Check 10, which the planner and the dull engine make alone: no energy is below
   what waiting would draw in the ticks of the job. */
static inline uint64_t check_energies(const uint32_t *set)
{
    size_t rates = set[2], at = 4 + rates;
    uint32_t tasks = set[3 + rates];
    uint64_t idle = set[1];

    for (uint32_t t = 0; t < tasks; t++, at += 3 + rates)
        for (size_t r = 1; r <= rates; r++)
            if (set[at + 2 + r] < idle * job_time(set[at + 1], set[2 + r]))
                return refusal(10, at + 2 + r);
    return 0;
}

/* By remainders, as Euclid has it. */
static uint32_t common_divisor(uint32_t a, uint32_t b)
{
    while (b != 0) {
        uint32_t rest = a % b;
        a = b;
        b = rest;
    }
    return a;
}

/* Check 4, the common divisor worked out in the caller's way. */
static inline uint64_t check_span(const uint32_t *set, uint32_t (*divisor)(uint32_t, uint32_t),
                                  uint32_t *span)
{
    size_t rates = set[2], at = 4 + rates;
    uint32_t tasks = set[3 + rates];
    uint64_t running = 1;

    for (uint32_t t = 0; t < tasks; t++, at += 3 + rates) {
        running = running / divisor((uint32_t)running, set[at]) * set[at];
        if (running > LONGEST)
            return refusal(4, at);
    }
    *span = (uint32_t)running;
    return 0;
}

/* Checks 2, 3 and 4 in order, which are the walk's, and the hyper-period where
   they pass. */
static inline uint64_t check_set(const uint32_t *set, size_t set_len,
                                 uint32_t (*divisor)(uint32_t, uint32_t), uint32_t *span)
{
    uint64_t refused;

    if ((refused = check_words(set, set_len)) != 0 || (refused = check_rates(set)) != 0)
        return refused;
    return check_span(set, divisor, span);
}

#endif
