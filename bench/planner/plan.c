/* The planner in plain C, as the measure for the archive's planner: the same
   checks in the same order, the same table, the same way back. What it shares with
   the plain dull engine is in ../problem.h. L + 1 stands for 'none' in the table.

   PLANNER is the name of the call. Built a second time under the archive's
   name, this file takes the archive's place where only the harness is tried. */

#include "../problem.h"

#ifndef PLANNER
#define PLANNER plain_plan
#endif

uint64_t PLANNER(const uint32_t *set, size_t set_len, uint32_t *plan, size_t plan_len,
                 uint32_t *work, size_t work_len, uint8_t *results, size_t results_len);

/* Lowers each word to l more than the one that stands opposite. */
static void relax(uint32_t *restrict to, const uint32_t *restrict from, size_t count, uint32_t l)
{
    for (size_t i = 0; i < count; i++) {
        uint32_t sum = from[i] + l;
        to[i] = sum < to[i] ? sum : to[i];
    }
}

/* Row t + 1, column e: the least load of the first t + 1 tasks that cost at
   most e; the cap where there is none. */
static void fill_table(const struct problem *p, uint32_t *d, size_t columns)
{
    uint32_t cap = p->span + 1;

    for (size_t e = 0; e < columns; e++)
        d[e] = 0;
    for (uint32_t t = 0; t < p->tasks; t++) {
        const uint32_t *before = d + t * columns;
        uint32_t *row = d + (t + 1) * columns;
        for (size_t e = 0; e < columns; e++)
            row[e] = cap;
        for (uint32_t r = 1; r <= p->rates; r++) {
            size_t c = p->cost[t * STRIDE + r];
            if (c < columns)
                relax(row + c, before, columns - c, p->load[t * STRIDE + r]);
        }
    }
}

/* From the last row's column k to the first task, the lowest rate number that
   makes each entry. */
static void way_back(const struct problem *p, const uint32_t *d, size_t columns, size_t k,
                     uint32_t *plan)
{
    size_t e = k;

    for (uint32_t t = p->tasks; t-- > 0;) {
        const uint32_t *before = d + t * columns;
        uint32_t entry = d[(t + 1) * columns + e];
        uint32_t r = 1;
        while (p->cost[t * STRIDE + r] > e
               || before[e - p->cost[t * STRIDE + r]] + p->load[t * STRIDE + r] != entry)
            r++;
        plan[t] = r;
        e -= p->cost[t * STRIDE + r];
    }
}

uint64_t PLANNER(const uint32_t *set, size_t set_len, uint32_t *plan, size_t plan_len,
                 uint32_t *work, size_t work_len, uint8_t *results, size_t results_len)
{
    struct problem p;
    uint64_t refused;
    uint32_t power;
    size_t needed, columns, k;

    if ((refused = check(&p, set, set_len)) != 0)
        return refused;
    needed = (size_t)(p.tasks + 1) * (4000 * p.tasks / p.slack + 1);
    if (work_len < needed)
        return refusal(5, needed);
    if ((refused = pose(&p, set, plan_len, results_len, &power)) != 0)
        return refused;

    /* At the first unit no task costs more than 1 at its highest rate, so the
       least is N at most; halving the unit at most doubles it. */
    columns = p.tasks + 1;
    for (;;) {
        const uint32_t *last;
        round_up(&p, power);
        fill_table(&p, work, columns);
        last = work + p.tasks * columns;
        for (k = 0; last[k] > p.span; k++)
            ;
        if (power == 0 || p.slack * k >= 2000 * (uint64_t)p.tasks)
            break;
        columns = 2 * k + 1;
        power--;
    }
    way_back(&p, work, columns, k, plan);
    for (size_t i = 0; i < needed; i++)
        work[i] = 0;
    put_results(&p, power, plan, results);
    return 0;
}
