/* The walk in plain C, tick by tick, as a measure for the archive's walk: for
   each tick a loop that tests and releases and a loop that finds the job to run,
   and no checks of any kind. It is given periods, job times, first releases and
   the last tick. */

#include <stdint.h>

#define MOST_TASKS 32

void plain_walk(uint32_t tasks, const uint32_t *period, const uint32_t *time,
                const uint32_t *first, uint32_t end, uint64_t results[4]);

/* The last result tells nothing of a miss: it is 0, as in the archive's call. */
static void missed(uint64_t results[4], uint32_t tick, uint32_t task)
{
    results[0] = 0;
    results[1] = tick;
    results[2] = task;
    results[3] = 0;
}

void plain_walk(uint32_t tasks, const uint32_t *period, const uint32_t *time,
                const uint32_t *first, uint32_t end, uint64_t results[4])
{
    uint32_t left[MOST_TASKS];
    /* A job's deadline is the tick of its task's next release, so this one list
       says both and no tick needs a division. It begins with the first releases. */
    uint32_t deadline[MOST_TASKS];
    uint32_t before = 0;        /* the task of the tick before */
    uint32_t before_left = 0;   /* what its job had left then; 0 after an idle tick */
    uint64_t busy = 0, idle = 0, preempted = 0;

    for (uint32_t i = 0; i < tasks; i++) {
        left[i] = 0;
        deadline[i] = first[i];
    }
    for (uint32_t tick = 0; tick < end; tick++) {
        for (uint32_t i = 0; i < tasks; i++) {
            if (deadline[i] == tick) {
                if (left[i] != 0) {
                    missed(results, tick, i + 1);
                    return;
                }
                left[i] = time[i];
                deadline[i] = tick + period[i];
            }
        }

        uint32_t running = tasks;
        uint32_t earliest = UINT32_MAX;
        for (uint32_t i = 0; i < tasks; i++) {
            if (left[i] != 0 && deadline[i] < earliest) {
                earliest = deadline[i];
                running = i;
            }
        }
        if (running == tasks) {
            idle++;
            before_left = 0;
        } else {
            /* before_left was taken before this tick's releases: a job that has
               ended is not preempted, though its task has a new one by now. */
            if (before_left != 0 && running != before)
                preempted++;
            left[running]--;
            busy++;
            before = running;
            before_left = left[running];
        }
    }
    /* At the last tick those are held to their deadlines that have one there, and
       nothing is run any more. */
    for (uint32_t i = 0; i < tasks; i++) {
        if (deadline[i] == end && left[i] != 0) {
            missed(results, end, i + 1);
            return;
        }
    }
    results[0] = 1;
    results[1] = busy;
    results[2] = idle;
    results[3] = preempted;
}
