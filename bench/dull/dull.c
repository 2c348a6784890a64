/* The dull engine in plain C, as the measure for the archive's: the same checks in
   the same order, all plans at each unit, with the sums kept up. What it shares
   with the plain planner is in ../problem.h.

   Task 1 changes fastest, so that a plan's sums are those of tasks 2 to N, which
   are kept up from one choice of their rates to the next, and what task 1 adds at
   its rate: the inner loop is over these. A plan that does not fit costs one
   comparison. Of the others the least rounded energy is kept, with the least load
   of those that have it, and of equal ones the first.

   DULL is the name of the call. Built a second time under the archive's name,
   this file takes the archive's place where only the harness is tried. */

#include <string.h>

#include "../problem.h"

#ifndef DULL
#define DULL plain_dull
#endif

#define MOST_PLANS 1000000

struct best {
    uint64_t cost;
    uint32_t plan[MOST_TASKS];
};

uint64_t DULL(const uint32_t *set, size_t set_len, uint32_t *plan, size_t plan_len,
              uint8_t *results, size_t results_len);

static int too_many(uint32_t rates, uint32_t tasks)
{
    uint32_t plans = 1;

    while (tasks > 0 && plans <= MOST_PLANS) {
        plans *= rates;
        tasks--;
    }
    return plans > MOST_PLANS;
}

/* The first of the best plans at the costs that stand in p. Some plan fits. */
static void go_through(const struct problem *p, struct best *best)
{
    uint32_t rate[MOST_TASKS], load = 0, rates = p->rates, tasks = p->tasks, span = p->span;
    uint64_t cost = 0, least = UINT64_MAX;
    uint32_t least_load = 0;

    for (uint32_t t = 1; t < tasks; t++) {
        rate[t] = 1;
        load += p->load[t * STRIDE + 1];
        cost += p->cost[t * STRIDE + 1];
    }
    for (;;) {
        uint32_t t;
        for (uint32_t r = 1; r <= rates; r++) {
            uint32_t l = load + p->load[r];
            uint64_t c;
            if (l > span)
                continue;
            c = cost + p->cost[r];
            if (c > least || (c == least && l >= least_load))
                continue;
            least = c;
            least_load = l;
            memcpy(best->plan + 1, rate + 1, (tasks - 1) * sizeof *rate);
            best->plan[0] = r;
        }
        for (t = 1; t < tasks && rate[t] == rates; t++) {
            load -= p->load[t * STRIDE + rates] - p->load[t * STRIDE + 1];
            cost -= p->cost[t * STRIDE + rates] - p->cost[t * STRIDE + 1];
            rate[t] = 1;
        }
        if (t == tasks)
            break;
        load += p->load[t * STRIDE + rate[t] + 1] - p->load[t * STRIDE + rate[t]];
        cost += p->cost[t * STRIDE + rate[t] + 1] - p->cost[t * STRIDE + rate[t]];
        rate[t]++;
    }
    best->cost = least;
}

uint64_t DULL(const uint32_t *set, size_t set_len, uint32_t *plan, size_t plan_len,
              uint8_t *results, size_t results_len)
{
    struct problem p;
    struct best best;
    uint64_t refused;
    uint32_t power;

    if ((refused = check(&p, set, set_len)) != 0)
        return refused;
    if (too_many(p.rates, p.tasks))
        return refusal(11, 0);
    if ((refused = pose(&p, set, plan_len, results_len, &power)) != 0)
        return refused;

    for (;; power--) {
        round_up(&p, power);
        go_through(&p, &best);
        if (power == 0 || p.slack * best.cost >= 2000 * (uint64_t)p.tasks)
            break;
    }
    memcpy(plan, best.plan, p.tasks * sizeof *plan);
    put_results(&p, power, plan, results);
    return 0;
}
