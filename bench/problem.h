/* What the plain planner and the plain dull engine share: the checks before their
   own, a set's options, the energy and the load of the fastest plan, costs by a
   unit, and the results.

   Energies here are what jobs draw above the idle energy: a plan that fits draws
   this, and the idle energy of every tick of the hyper-period. Options stand by
   task and rate number, task t (from 0) at rate number r (from 1) at t * 16 + r.
   Loads are cut at L + 1: so cut they still do not fit, and 32 bits hold the sums. */
#ifndef BENCH_PROBLEM_H
#define BENCH_PROBLEM_H

#include <stddef.h>
#include <stdint.h>

#include "checks.h"

#define MOST_TASKS 32
#define STRIDE 16
#define OPTIONS (MOST_TASKS * STRIDE)
#define RESULT_BYTES 32

struct problem {
    uint32_t slack, idle, rates, tasks;
    uint32_t span;                      /* the hyper-period L */
    uint32_t load[OPTIONS];             /* cut at L + 1 */
    uint64_t energy[OPTIONS];           /* above the idle energy */
    size_t cost[OPTIONS];               /* the energy in units, rounded up */
};

/* Checks 2, 3, 10 and 4 in order; the set's numbers where they pass. */
static inline uint64_t check(struct problem *p, const uint32_t *set, size_t set_len)
{
    uint64_t refused;

    if ((refused = check_words(set, set_len)) != 0 || (refused = check_rates(set)) != 0
        || (refused = check_energies(set)) != 0 || (refused = check_span(set, common_divisor, &p->span)) != 0)
        return refused;
    p->slack = set[0];
    p->idle = set[1];
    p->rates = set[2];
    p->tasks = set[3 + p->rates];
    return 0;
}

static inline void fill_options(struct problem *p, const uint32_t *set)
{
    const uint32_t *task = set + 4 + p->rates;

    for (uint32_t t = 0; t < p->tasks; t++, task += 3 + p->rates) {
        uint64_t jobs = p->span / task[0];
        for (uint32_t r = 1; r <= p->rates; r++) {
            uint64_t time = job_time(task[1], set[2 + r]), load = jobs * time;
            p->load[t * STRIDE + r] = load > p->span ? p->span + 1 : (uint32_t)load;
            p->energy[t * STRIDE + r] = jobs * (task[2 + r] - p->idle * time);
        }
    }
}

/* Whether the plan with every task at the highest rate fits; the power of two of
   the first unit, by its energy. */
static inline int first_power(const struct problem *p, uint32_t *power)
{
    uint64_t load = 0, energy = 0;

    for (uint32_t t = 0; t < p->tasks; t++) {
        load += p->load[t * STRIDE + p->rates];
        energy += p->energy[t * STRIDE + p->rates];
    }
    for (*power = 0; ((uint64_t)1 << *power) < energy; ++*power)
        ;
    return load <= p->span;
}

/* What both ask after a check of their own: 6 for the plan list and for the
   results, the options, and 7. No lent word has changed so far. */
static inline uint64_t pose(struct problem *p, const uint32_t *set, size_t plan_len, size_t results_len, uint32_t *power)
{
    if (plan_len < p->tasks)
        return refusal(6, p->tasks);
    if (results_len < RESULT_BYTES)
        return refusal(6, RESULT_BYTES);
    fill_options(p, set);
    return first_power(p, power) ? 0 : refusal(7, 0);
}

static inline void round_up(struct problem *p, uint32_t power)
{
    uint64_t unit = (uint64_t)1 << power;

    for (uint32_t t = 0; t < p->tasks; t++)
        for (uint32_t r = 1; r <= p->rates; r++)
            p->cost[t * STRIDE + r] = (p->energy[t * STRIDE + r] + unit - 1) >> power;
}

static inline void put_value(uint8_t *results, uint64_t value)
{
    for (int i = 0; i < 8; i++)
        results[i] = (uint8_t)(value >> (8 * i));
}

/* The unit, the plan's load, L, and the plan's energy. */
static inline void put_results(const struct problem *p, uint32_t power, const uint32_t *plan, uint8_t *results)
{
    uint64_t load = 0, energy = (uint64_t)p->idle * p->span;

    for (uint32_t t = 0; t < p->tasks; t++) {
        load += p->load[t * STRIDE + plan[t]];
        energy += p->energy[t * STRIDE + plan[t]];
    }
    put_value(results, (uint64_t)1 << power);
    put_value(results + 8, load);
    put_value(results + 16, p->span);
    put_value(results + 24, energy);
}

#endif
