/* Times the archive's planner beside the plain one of plan.c: the same sets, the
   same run, in turn, the best of several repetitions of each set. Both must give
   the same code, plan, results and working words, or the run ends with 1.

   One line a case: name, N, M, slack, how many sets, microseconds a call of
   each, the archive's time over the plain one's, and the archive's nanoseconds
   over N x N x M x 4,000 / slack, the steps of the widest table that its
   working words allow. Where that last number stays about the same from line
   to line, the time grows as N x N x M / slack.

       bench [REPETITIONS [SEED]]
       bench --generated SEED N [REPETITIONS]

   The first times all cases; SEED is that of the random sets, which are drawn
   here, and is 1 where none is given. Its last lines, `seed S`, are of the sets
   that the archive's generator makes of S and N (generated.c has which). The
   second times the one set of a seed that the generator makes, and nothing
   else; where that set has no plan, it says so and times nothing. There are 5
   repetitions where no number of them is given. */

#include <inttypes.h>
#include <stddef.h>
#include <stdint.h>
#include <stdio.h>
#include <stdlib.h>
#include <string.h>

#include "../../include/seedspell.h"
#include "../generated.h"
#include "../measure.h"

/* plan.c */
uint64_t plain_plan(const uint32_t *set, size_t set_len, uint32_t *plan, size_t plan_len,
                    uint32_t *work, size_t work_len, uint8_t *results, size_t results_len);

typedef uint64_t planner(const uint32_t *, size_t, uint32_t *, size_t, uint32_t *, size_t,
                         uint8_t *, size_t);

#define MOST_TASKS 32
#define MOST_RATES 8
#define MOST_WORDS (4 + MOST_RATES + MOST_TASKS * (3 + MOST_RATES))
#define MOST_WORK (33 * 128001)         /* W of 32 tasks at slack 1 */
#define SPARE 8                         /* words lent beyond those needed */
#define MOST_SETS 64
#define NO_PLAN ((uint64_t)SEEDSPELL_REFUSED_NO_PLAN_FITS << 32)

struct list {
    uint32_t set[MOST_WORDS];
    size_t len;
};

/* What a call was lent and what it gave. */
struct call {
    uint64_t code;
    uint32_t plan[MOST_TASKS + SPARE];
    uint32_t *work;
    uint8_t results[SEEDSPELL_RESULT_BYTES];
    double best;                        /* nanoseconds */
};

static struct call archive, plain;
static struct list sets[MOST_SETS];

static uint32_t *head(struct list *list, uint32_t slack, uint32_t rates, uint32_t first,
                      uint32_t step, uint32_t tasks)
{
    uint32_t *at = list->set;

    *at++ = slack;
    *at++ = 0;                          /* the idle energy */
    *at++ = rates;
    for (uint32_t r = 0; r < rates; r++)
        *at++ = first + r * step;
    *at++ = tasks;
    return at;
}

static int ascending(const void *a, const void *b)
{
    uint32_t x = *(const uint32_t *)a, y = *(const uint32_t *)b;

    return (x > y) - (x < y);
}

/* Random energies that rise with the rate, and jobs that fill the processor at
   about two thirds of the highest rate: so some tasks run fast and some do not. */
static void random_set(struct list *list, uint32_t tasks, uint32_t rates, uint32_t slack)
{
    static const uint32_t period[] = {1000, 2000, 2500, 4000, 5000, 8000, 10000, 20000};
    uint32_t *at = head(list, slack, rates, 1200 / rates, 1200 / rates, tasks);

    for (uint32_t t = 0; t < tasks; t++) {
        uint32_t p = period[between(0, 7)];
        *at++ = p;
        *at++ = p * 800 / tasks / 100 * between(60, 130);
        *at++ = 0;                      /* the first release, at which the planner does not look */
        for (uint32_t r = 0; r < rates; r++)
            at[r] = between(1, 1000000);
        qsort(at, rates, sizeof *at, ascending);
        at += rates;
    }
    list->len = (size_t)(at - list->set);
}

/* Gives a random set an idle energy, which every job then draws too: so the
   choice is among the same energies as before, but for those that would pass
   1,000,000. */
static void add_idle(struct list *list, uint32_t idle)
{
    uint32_t *set = list->set, rates = set[2], *task = set + 4 + rates;

    set[1] = idle;
    for (uint32_t t = 0; t < set[3 + rates]; t++, task += 3 + rates)
        for (uint32_t r = 1; r <= rates; r++) {
            uint32_t rate = set[2 + r];
            task[2 + r] += idle * ((task[1] + rate - 1) / rate);
            if (task[2 + r] > 1000000)
                task[2 + r] = 1000000;
        }
}

/* The widest table. One task of 2^10 jobs has almost all of the energy, the
   others cost 1 at every unit, and the sum stays 2 below the 2,000 N / G that
   would stop the halving: the last table has all but a few of the columns that
   W allows, and every rate of every task lowers almost the whole row. */
static void widest_set(struct list *list, uint32_t tasks, uint32_t rates, uint32_t slack)
{
    uint32_t *at = head(list, slack, rates, 1000001 - rates, 1, tasks);
    uint32_t large = 2000 * tasks / slack - tasks - 1;

    while (large <= 500000)
        large *= 2;
    for (uint32_t t = 0; t < tasks; t++) {
        *at++ = t == 0 ? 8000 : 8192000;
        *at++ = 4000000000u;
        *at++ = 0;
        for (uint32_t r = 0; r < rates; r++)
            *at++ = t == 0 ? large : 1;
    }
    list->len = (size_t)(at - list->set);
}

/* Every word at the end of its range, the slack apart. */
static void limit_set(struct list *list, uint32_t tasks, uint32_t rates, uint32_t slack)
{
    uint32_t *at = head(list, slack, rates, 1000001 - rates, 1, tasks);

    for (uint32_t t = 0; t < tasks; t++) {
        *at++ = 10000000;
        *at++ = 4000000000u;
        *at++ = 9999999;
        for (uint32_t r = 0; r < rates; r++)
            *at++ = 1000000;
    }
    list->len = (size_t)(at - list->set);
}

/* What a place holds before the calls: never 0 and never a rate number. */
static uint32_t mark(size_t at)
{
    return 0xa5000000u + (uint32_t)at;
}

static size_t work_needed(uint32_t tasks, uint32_t slack)
{
    return (size_t)(tasks + 1) * (4000 * tasks / slack + 1);
}

static void run(struct call *call, planner *plan, const struct list *list, uint32_t tasks,
                size_t needed, int is_first)
{
    double start, time;

    for (size_t i = 0; i < MOST_TASKS + SPARE; i++)
        call->plan[i] = mark(i);
    for (size_t i = 0; i < needed + SPARE; i++)
        call->work[i] = mark(i);
    memset(call->results, 0xa5, sizeof call->results);
    start = now();
    call->code = plan(list->set, list->len, call->plan, tasks + SPARE, call->work,
                      needed + SPARE, call->results, sizeof call->results);
    time = now() - start;
    if (is_first || time < call->best)
        call->best = time;
}

/* Whether both calls went well, gave the same, and left every word as promised. */
static int agree(const char *name, uint32_t tasks, uint32_t rates, size_t needed)
{
    const char *fault = NULL;

    if (archive.code != plain.code)
        fault = "the codes differ";
    else if (plain.code != 0)
        fault = "refused";
    else if (memcmp(archive.results, plain.results, sizeof plain.results) != 0)
        fault = "the results differ";
    else if (memcmp(archive.plan, plain.plan, sizeof plain.plan) != 0)
        fault = "the plans differ";
    for (size_t i = 0; fault == NULL && i < MOST_TASKS + SPARE; i++)
        if (i < tasks ? plain.plan[i] < 1 || plain.plan[i] > rates : plain.plan[i] != mark(i))
            fault = "a plan word is not what it should be";
    for (size_t i = 0; fault == NULL && i < needed + SPARE; i++) {
        uint32_t want = i < needed ? 0 : mark(i);
        if (archive.work[i] != want || plain.work[i] != want)
            fault = "a working word is not what it should be";
    }
    if (fault == NULL)
        return 1;
    fprintf(stderr, "bench: %s, %" PRIu32 " tasks, %" PRIu32 " rates: %s; code %" PRIx64
            " of the archive, %" PRIx64 " of the plain planner\n", name, tasks, rates, fault,
            archive.code, plain.code);
    return 0;
}

/* Sets 0 to count - 1, all with these numbers of tasks and rates and this slack. */
static int measure(const char *name, int count, int repetitions)
{
    uint32_t slack = sets[0].set[0], rates = sets[0].set[2], tasks = sets[0].set[3 + rates];
    size_t needed = work_needed(tasks, slack);
    double archive_time = 0, plain_time = 0, steps = 4000.0 * tasks * tasks * rates / slack;

    if (count == 1)
        repetitions *= 4;               /* no other set evens out what disturbs one */
    for (int s = 0; s < count; s++) {
        for (int i = 0; i < repetitions; i++) {
            /* Now one first, now the other. */
            if (i % 2 == 0)
                run(&archive, seedspell_plan, &sets[s], tasks, needed, i == 0);
            run(&plain, plain_plan, &sets[s], tasks, needed, i == 0);
            if (i % 2 == 1)
                run(&archive, seedspell_plan, &sets[s], tasks, needed, 0);
            if (!agree(name, tasks, rates, needed))
                return 0;
        }
        archive_time += archive.best;
        plain_time += plain.best;
    }
    printf("%-15s %3" PRIu32 " %2" PRIu32 " %5" PRIu32 " %4d %11.1f %11.1f %6.2f %8.3f\n", name,
           tasks, rates, slack, count, archive_time / count / 1e3, plain_time / count / 1e3,
           archive_time / plain_time, archive_time / count / steps);
    fflush(stdout);
    return 1;
}

static int random_sets(const char *name, uint32_t tasks, uint32_t rates, uint32_t slack,
                       int count, int repetitions)
{
    for (int s = 0; s < count; s++)
        random_set(&sets[s], tasks, rates, slack);
    return measure(name, count, repetitions);
}

static int idle_sets(uint32_t slack, int count, int repetitions)
{
    for (int s = 0; s < count; s++) {
        random_set(&sets[s], 32, 8, slack);
        add_idle(&sets[s], 20);
    }
    return measure("idle", count, repetitions);
}

/* The cases that are made here. */
static int own_cases(int repetitions)
{
    static const uint32_t slacks[] = {1, 10, 100, 1000};
    static const uint32_t more_slacks[] = {1, 2, 5, 10, 20, 50, 100, 200, 500, 1000};
    static const uint32_t counts[] = {4, 8, 16, 32}, rates[] = {2, 4, 8};

    for (int i = 0; i < 4; i++)
        if (!random_sets("random", 32, 8, slacks[i], slacks[i] < 10 ? 16 : 64, repetitions))
            return 0;
    for (int i = 0; i < 4; i++)
        if (!idle_sets(slacks[i], slacks[i] < 10 ? 16 : 64, repetitions))
            return 0;
    for (int i = 0; i < 4; i++) {
        limit_set(&sets[0], 32, 8, slacks[i]);
        if (!measure("limits", 1, repetitions))
            return 0;
        widest_set(&sets[0], 32, 8, slacks[i]);
        if (!measure("widest", 1, repetitions))
            return 0;
    }
    for (int i = 0; i < 4; i++)
        if (!random_sets("against-n", counts[i], 8, 10, 32, repetitions))
            return 0;
    for (int i = 0; i < 3; i++)
        if (!random_sets("against-m", 32, rates[i], 10, 32, repetitions))
            return 0;
    for (int i = 0; i < 10; i++)
        if (!random_sets("against-g", 32, 8, more_slacks[i], more_slacks[i] < 10 ? 8 : 32,
                         repetitions))
            return 0;
    /* The widest tables again, where only N, M and the slack decide the time. */
    for (int i = 0; i < 4; i++) {
        widest_set(&sets[0], counts[i], 8, 10);
        if (!measure("widest-n", 1, repetitions))
            return 0;
    }
    for (int i = 0; i < 3; i++) {
        widest_set(&sets[0], 32, rates[i], 10);
        if (!measure("widest-m", 1, repetitions))
            return 0;
    }
    for (int i = 0; i < 10; i++) {
        widest_set(&sets[0], 32, 8, more_slacks[i]);
        if (!measure("widest-g", 1, repetitions))
            return 0;
    }
    return 1;
}

/* One set of the archive's generator. */
static int generated_case(struct seeded which, int repetitions)
{
    size_t needed;
    char name[32];

    sets[0].len = generate(which, sets[0].set);
    needed = work_needed(which.tasks, sets[0].set[0]);
    run(&archive, seedspell_plan, &sets[0], which.tasks, needed, 1);
    run(&plain, plain_plan, &sets[0], which.tasks, needed, 1);
    if (archive.code == NO_PLAN && plain.code == NO_PLAN) {
        say_no_plan(which);
        return 1;
    }
    snprintf(name, sizeof name, "seed %" PRIu32, which.seed);
    return measure(name, 1, repetitions);
}

static int generated_cases(int repetitions)
{
    for (int i = 0; i < SEEDED_COUNT; i++)
        if (!generated_case(seeded[i], repetitions))
            return 0;
    return 1;
}

static void print_heading(int repetitions)
{
    printf("best of %d\n%-15s %3s %2s %5s %4s %11s %11s %6s %8s\n", repetitions, "case", "N", "M",
           "slack", "sets", "archive us", "plain us", "ratio", "ns/step");
}

int main(int argc, char **argv)
{
    struct seeded which;
    int repetitions, asked = read_arguments(argc, argv, &which, &repetitions);

    archive.work = malloc((MOST_WORK + SPARE) * sizeof *archive.work);
    plain.work = malloc((MOST_WORK + SPARE) * sizeof *plain.work);
    if (archive.work == NULL || plain.work == NULL) {
        fprintf(stderr, "bench: no memory for the working words\n");
        return 2;
    }
    if (asked) {
        print_heading(repetitions);
        return generated_case(which, repetitions) ? 0 : 1;
    }
    state = argc > 2 ? strtoull(argv[2], NULL, 10) : 1;
    printf("random sets of seed %" PRIu64 ", ", state);
    print_heading(repetitions);
    return own_cases(repetitions) && generated_cases(repetitions) ? 0 : 1;
}
