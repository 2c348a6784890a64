/* The walk in plain C, from each tick with a release to the next, as a measure
   for the archive's walk, which goes the same way: a loop that tests, releases and
   finds the next tick with a release, and then a loop that finds the job to run
   for each job that runs until there. No checks of any kind. It is given what
   walk.c is given. */

#include <stdint.h>

#define MOST_TASKS 32

void event_walk(uint32_t tasks, const uint32_t *period, const uint32_t *time,
                const uint32_t *first, uint32_t end, uint64_t results[4]);

void event_walk(uint32_t tasks, const uint32_t *period, const uint32_t *time,
                const uint32_t *first, uint32_t end, uint64_t results[4])
{
    uint32_t left[MOST_TASKS], deadline[MOST_TASKS];
    uint32_t last = tasks;      /* the task that ran last, where its job is unfinished */
    uint64_t busy = 0, idle = 0, preempted = 0;

    for (uint32_t i = 0; i < tasks; i++) {
        left[i] = 0;
        deadline[i] = first[i];
    }
    for (uint32_t tick = 0;;) {
        uint32_t next = end;

        for (uint32_t i = 0; i < tasks; i++) {
            if (deadline[i] == tick) {
                if (left[i] != 0) {
                    results[0] = 0;
                    results[1] = tick;
                    results[2] = i + 1;
                    results[3] = 0;
                    return;
                }
                left[i] = time[i];
                deadline[i] = tick + period[i];
            }
            if (deadline[i] < next)
                next = deadline[i];
        }
        if (tick == end)
            break;

        for (uint32_t room = next - tick; room != 0;) {
            uint32_t running = tasks, earliest = UINT32_MAX, ran;

            for (uint32_t i = 0; i < tasks; i++) {
                if (left[i] != 0 && deadline[i] < earliest) {
                    earliest = deadline[i];
                    running = i;
                }
            }
            if (running == tasks) {
                idle += room;
                last = tasks;
                break;
            }
            if (last != tasks && running != last)
                preempted++;
            ran = left[running] < room ? left[running] : room;
            left[running] -= ran;
            busy += ran;
            last = left[running] != 0 ? running : tasks;
            room -= ran;
        }
        tick = next;
    }
    results[0] = 1;
    results[1] = busy;
    results[2] = idle;
    results[3] = preempted;
}
