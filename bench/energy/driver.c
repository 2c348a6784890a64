/* Calls the archive's planner on the sets of standard input, one a line:

       K w1 .. wK

   and answers each with a line: unit, load, L, energy, nanoseconds of the best
   of REPETITIONS calls (the argument), and the plan. A refusal gives its number
   and second number alone. As many working words are lent as any set needs. */

#include <inttypes.h>
#include <stddef.h>
#include <stdint.h>
#include <stdio.h>
#include <stdlib.h>

#include "../../include/seedspell.h"
#include "../measure.h"

#define MOST_TASKS 32
#define MOST_WORDS (4 + 8 + MOST_TASKS * (3 + 8))
#define MOST_WORK (33 * 128001)         /* W of 32 tasks at slack 1 */

static uint32_t set[MOST_WORDS], plan[MOST_TASKS], work[MOST_WORK];
static uint8_t results[SEEDSPELL_RESULT_BYTES];

static uint64_t value(int k)
{
    uint64_t v = 0;

    for (int i = 7; i >= 0; i--)
        v = v << 8 | results[8 * k + i];
    return v;
}

static void answer(size_t count, int repetitions)
{
    double best = 0;
    uint64_t code = 0;

    for (int i = 0; i < repetitions; i++) {
        double start = now(), time;
        code = seedspell_plan(set, count, plan, MOST_TASKS, work, MOST_WORK, results,
                              sizeof results);
        time = now() - start;
        if (i == 0 || time < best)
            best = time;
    }
    if (code != 0) {
        printf("refused %" PRIu32 " %" PRIu32 "\n", SEEDSPELL_REFUSAL(code), SEEDSPELL_SECOND(code));
        return;
    }
    printf("%" PRIu64 " %" PRIu64 " %" PRIu64 " %" PRIu64 " %.0f", value(0), value(1), value(2),
           value(3), best);
    for (uint32_t t = 0; t < set[3 + set[2]]; t++)
        printf(" %" PRIu32, plan[t]);
    printf("\n");
}

int main(int argc, char **argv)
{
    int repetitions = repetitions_at(1, argc, argv, 20);
    size_t count;

    while (scanf("%zu", &count) == 1) {
        if (count > MOST_WORDS) {
            fprintf(stderr, "driver: a set has more words than any may have\n");
            return 2;
        }
        for (size_t i = 0; i < count; i++)
            if (scanf("%" SCNu32, &set[i]) != 1) {
                fprintf(stderr, "driver: a set ends early\n");
                return 2;
            }
        answer(count, repetitions);
    }
    return 0;
}
