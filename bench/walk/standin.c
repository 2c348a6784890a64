/* The archive's two calls of the walk in plain C: they take its place where only
   the harness is tried. The walk itself is a second copy of events.c. */

#include <string.h>

#include "../../include/seedspell.h"
#include "../checks.h"

#define MOST_TASKS 32

void standin_walk(uint32_t tasks, const uint32_t *period, const uint32_t *time,
                  const uint32_t *first, uint32_t end, uint64_t results[4]);
uint64_t bench_walk(const uint32_t *period, const uint32_t *time, const uint32_t *first,
                    size_t tasks, uint32_t end, uint64_t results[4]);

uint64_t bench_walk(const uint32_t *period, const uint32_t *time, const uint32_t *first,
                    size_t tasks, uint32_t end, uint64_t results[4])
{
    if (tasks > MOST_TASKS || end > 20 * LONGEST)
        return 1;
    for (size_t i = 0; i < tasks; i++)
        if (period[i] < 1 || period[i] > LONGEST || time[i] < 1 || first[i] > LONGEST)
            return 1;
    standin_walk((uint32_t)tasks, period, time, first, end, results);
    return 0;
}

uint64_t seedspell_walk(const uint32_t *set, size_t set_len, const uint32_t *plan, size_t plan_len,
                        uint8_t *results, size_t results_len)
{
    uint32_t period[MOST_TASKS], time[MOST_TASKS], first[MOST_TASKS], span = 0, end;
    uint64_t values[4], refused = check_set(set, set_len, common_divisor, &span);
    const uint32_t *task;

    if (refused != 0)
        return refused;
    if (plan_len != set[3 + set[2]])
        return refusal(SEEDSPELL_REFUSED_BAD_WALK_PLAN, plan_len);
    if (results_len < sizeof values)
        return refusal(SEEDSPELL_REFUSED_RECEIVING_LIST_SHORT, sizeof values);
    task = set + 4 + set[2];
    end = span;
    for (size_t i = 0; i < plan_len; i++, task += 3 + set[2]) {
        period[i] = task[0];
        time[i] = (uint32_t)job_time(task[1], set[2 + plan[i]]);
        first[i] = task[2];
        if (first[i] > 0)
            end = 2 * span;
    }
    standin_walk((uint32_t)plan_len, period, time, first, end, values);
    memcpy(results, values, sizeof values);
    return 0;
}
