/* Times the archive's dull engine beside the plain one of dull.c, and both beside
   the archive's planner, which makes the same choice with a table: the same sets,
   the same run, in turn, the best of several repetitions of each set. All must
   give the same code, plan and results, or the run ends with 1. Before that they
   are held to equal answers on random small sets, refusals among them.

       bench [REPETITIONS [SEED]]

   One line a case: name, N, M, slack, how many sets, the plans of a set, the units
   tried on the average; microseconds a call of the archive's dull engine and of
   the plain one, the first over the second; the archive's nanoseconds over plans x
   units; then microseconds a call of the archive's planner, and the dull engine's
   time over that.

   The cases `most` are random sets with the most tasks that the dull engine takes;
   `all-fit` and `one-fits` are such where every plan fits, or the last alone. The
   lines `ladder` are of random sets of fewer tasks, up to those: where the last
   number passes 1, the table is the faster way. SEED is that of the random sets,
   and is 1 where none is given; there are 5 repetitions where no number of them is
   given. A call of few plans is made as often in a repetition as it takes to come
   to ENOUGH plans. With --once for REPETITIONS one set of each case is called once. */

#include <inttypes.h>
#include <stddef.h>
#include <stdint.h>
#include <stdio.h>
#include <stdlib.h>
#include <string.h>

#include "../../include/seedspell.h"
#include "../measure.h"

/* dull.c */
uint64_t plain_dull(const uint32_t *set, size_t set_len, uint32_t *plan, size_t plan_len,
                    uint8_t *results, size_t results_len);

#define MOST_TASKS 32
#define MOST_RATES 8
#define MOST_WORDS (4 + MOST_RATES + MOST_TASKS * (3 + MOST_RATES))
#define MOST_WORK (33 * 128001)         /* W of 32 tasks at slack 1 */
#define SPARE 8                         /* plan words lent beyond those needed */
#define MOST_SETS 16
#define SMALL_SETS 50000                /* that are held to equal answers */
#define ENOUGH 100000                   /* plans, in one repetition */

enum { ARCHIVE, PLAIN, TABLE, CALLS };

static const char *const names[CALLS] = {"the archive's dull engine", "the plain one", "the archive's planner"};

struct list {
    uint32_t set[MOST_WORDS];
    size_t len;
};

/* What a call gave. */
struct call {
    uint64_t code;
    uint32_t plan[MOST_TASKS + SPARE];
    uint8_t results[SEEDSPELL_RESULT_BYTES];
    double best;                        /* nanoseconds a call */
};

static struct call calls[CALLS];
static struct list sets[MOST_SETS];
static uint32_t *work;
static int once;

/* For each number of rates the most tasks with at most 1,000,000 plans. */
static const uint32_t most_tasks[MOST_RATES + 1] = {0, 0, 19, 12, 9, 8, 7, 7, 6};

/* ---- Sets */

static uint32_t *head(struct list *list, uint32_t slack, uint32_t idle, uint32_t rates, uint32_t tasks)
{
    uint32_t *at = list->set;

    *at++ = slack;
    *at++ = idle;
    *at++ = rates;
    for (uint32_t r = 1; r <= rates; r++)
        *at++ = 1200 / rates * r;
    *at++ = tasks;
    return at;
}

static int ascending(const void *a, const void *b)
{
    uint32_t x = *(const uint32_t *)a, y = *(const uint32_t *)b;

    return (x > y) - (x < y);
}

/* Random energies that rise with the rate, and jobs that fill so many hundredths
   of the processor at the highest rate, about: at 67 some tasks run fast and some
   do not. */
static void random_set(struct list *list, uint32_t tasks, uint32_t rates, uint32_t slack, uint32_t fill)
{
    static const uint32_t period[] = {1000, 2000, 2500, 4000, 5000, 8000, 10000, 20000};
    uint32_t *at = head(list, slack, 0, rates, tasks);

    for (uint32_t t = 0; t < tasks; t++) {
        uint32_t p = period[between(0, 7)];
        *at++ = p;
        *at++ = p * (12 * fill) / tasks / 100 * between(60, 130) + 1;
        *at++ = 0;                      /* the first release, at which no planner looks */
        for (uint32_t r = 0; r < rates; r++)
            at[r] = between(1, 1000000);
        qsort(at, rates, sizeof *at, ascending);
        at += rates;
    }
    list->len = (size_t)(at - list->set);
}

/* Every plan fits, or the last alone, in which all jobs fill the processor. */
static void even_set(struct list *list, uint32_t tasks, uint32_t rates, uint32_t slack, int all_fit)
{
    uint32_t *at = head(list, slack, 0, rates, tasks);

    for (uint32_t t = 0; t < tasks; t++) {
        *at++ = 1000 * tasks;
        *at++ = all_fit ? 1200 / rates * 1000 : 1200 / rates * rates * 1000;
        *at++ = 0;
        for (uint32_t r = 0; r < rates; r++)
            at[r] = between(1, 1000000);
        qsort(at, rates, sizeof *at, ascending);
        at += rates;
    }
    list->len = (size_t)(at - list->set);
}

static size_t work_needed(const struct list *list)
{
    uint32_t tasks = list->set[3 + list->set[2]];

    return (size_t)(tasks + 1) * (4000 * tasks / list->set[0] + 1);
}

static uint64_t plans_of(const struct list *list)
{
    uint64_t plans = 1;

    for (uint32_t t = 0; t < list->set[3 + list->set[2]] && plans <= 1000000; t++)
        plans *= list->set[2];
    return plans;
}

static uint64_t value(const uint8_t *results, int k)
{
    uint64_t v = 0;

    for (int i = 7; i >= 0; i--)
        v = v << 8 | results[8 * k + i];
    return v;
}

/* How many units were tried, of a set without an idle energy: from that of the
   energy at the highest rate down to the one that was returned. */
static uint32_t units_of(const struct list *list)
{
    const uint32_t *set = list->set, *task = set + 4 + set[2];
    uint64_t unit = 1, energy = 0, span = value(calls[ARCHIVE].results, 2);
    uint32_t units = 1;

    for (uint32_t t = 0; t < set[3 + set[2]]; t++, task += 3 + set[2])
        energy += span / task[0] * task[2 + set[2]];
    while (unit < energy)
        unit *= 2;
    for (; unit > value(calls[ARCHIVE].results, 0); unit /= 2)
        units++;
    return units;
}

/* ---- Calls */

static void run(int which, const struct list *list, int often, int is_first)
{
    struct call *call = &calls[which];
    uint32_t tasks = list->set[3 + list->set[2]];
    size_t needed = work_needed(list);
    double start, time;

    memset(call->plan, 0xa5, sizeof call->plan);
    memset(call->results, 0xa5, sizeof call->results);
    start = now();
    for (int i = 0; i < often; i++)
        if (which == TABLE)
            call->code = seedspell_plan(list->set, list->len, call->plan, tasks + SPARE, work, needed,
                                        call->results, sizeof call->results);
        else if (which == PLAIN)
            call->code = plain_dull(list->set, list->len, call->plan, tasks + SPARE, call->results,
                                    sizeof call->results);
        else
            call->code = seedspell_plan_dull(list->set, list->len, call->plan, tasks + SPARE, call->results,
                                             sizeof call->results);
    time = (now() - start) / often;
    if (is_first || time < call->best)
        call->best = time;
}

static int is_eleven(uint64_t code)
{
    return code == (uint64_t)SEEDSPELL_REFUSED_TOO_MANY_PLANS << 32;
}

/* Whether all calls gave the same. The planner has no refusal 11. */
static int agree(const char *name, const struct list *list)
{
    for (int i = 1; i < CALLS; i++) {
        const struct call *a = &calls[ARCHIVE], *b = &calls[i];
        if (i == TABLE && is_eleven(a->code))
            continue;
        if (a->code == b->code && memcmp(a->results, b->results, sizeof a->results) == 0
            && memcmp(a->plan, b->plan, sizeof a->plan) == 0)
            continue;
        fprintf(stderr, "bench: %s: %s and %s differ; codes %" PRIx64 " and %" PRIx64 "; the set:", name,
                names[ARCHIVE], names[i], a->code, b->code);
        for (size_t k = 0; k < list->len; k++)
            fprintf(stderr, " %" PRIu32, list->set[k]);
        fprintf(stderr, "\n");
        return 0;
    }
    return 1;
}

/* Small sets of every number of rates, full or not, with and without an idle
   energy; and some with too many plans. */
static int small_sets(void)
{
    int planned = 0, none = 0, eleven = 0;

    for (int s = 0; s < SMALL_SETS; s++) {
        int many = s % 100 == 0;
        uint32_t rates = between(2, 8), tasks = many ? between(20, 32) : between(1, rates < 4 ? 6 : 3);
        struct list *list = &sets[0];
        random_set(list, tasks, rates, between(many ? 300 : 1, 1000), between(20, 110));
        if (s % 3 == 0)
            for (size_t at = 4 + rates; at < list->len; at++)
                if ((at - 4 - rates) % (3 + rates) > 2)
                    list->set[at] = 1 + list->set[at] % 5;      /* ties */
        if (s % 5 == 0)
            list->set[1] = between(0, 4);                       /* often refused with 10 */
        for (int i = 0; i < CALLS; i++)
            run(i, list, 1, 1);
        if (!agree("small sets", list))
            return 0;
        planned += calls[ARCHIVE].code == 0;
        none += calls[ARCHIVE].code >> 32 == SEEDSPELL_REFUSED_NO_PLAN_FITS;
        eleven += is_eleven(calls[ARCHIVE].code);
    }
    printf("%d small sets answered alike: %d plans, %d times 7, %d times 11\n", SMALL_SETS, planned, none, eleven);
    return planned > SMALL_SETS / 4 && none > SMALL_SETS / 50 && eleven > SMALL_SETS / 200;
}

/* Sets 0 to count - 1, all with these numbers of tasks and rates and this slack;
   those for which no plan fits are left out, and there must be others. */
static int measure(const char *name, int count, int repetitions)
{
    uint32_t slack = sets[0].set[0], rates = sets[0].set[2], tasks = sets[0].set[3 + rates];
    uint64_t plans = plans_of(&sets[0]);
    int often = plans < ENOUGH && !once ? (int)(ENOUGH / plans / 4) + 1 : 1, timed = 0;
    double time[CALLS] = {0}, units = 0, steps = 0;

    for (int s = 0; s < count && !(once && timed > 0); s++) {
        run(ARCHIVE, &sets[s], 1, 1);
        if (calls[ARCHIVE].code != 0)
            continue;
        for (int i = 0; i < repetitions; i++) {
            /* Now one first, now the other. */
            if (i % 2 == 0)
                run(ARCHIVE, &sets[s], often, i == 0);
            run(PLAIN, &sets[s], often, i == 0);
            if (i % 2 == 1)
                run(ARCHIVE, &sets[s], often, 0);
            run(TABLE, &sets[s], often / 20 + 1, i == 0);
            if (!agree(name, &sets[s]))
                return 0;
        }
        for (int i = 0; i < CALLS; i++)
            time[i] += calls[i].best;
        units += units_of(&sets[s]);
        steps += (double)plans * units_of(&sets[s]);
        timed++;
    }
    if (timed == 0) {
        fprintf(stderr, "bench: %s, %" PRIu32 " tasks, %" PRIu32 " rates: no set has a plan\n", name, tasks, rates);
        return 0;
    }
    printf("%-9s %3" PRIu32 " %2" PRIu32 " %5" PRIu32 " %4d %7" PRIu64
           " %6.1f %11.2f %11.2f %6.2f %8.3f %11.2f %9.2f\n",
           name, tasks, rates, slack, timed, plans, units / timed, time[ARCHIVE] / timed / 1e3,
           time[PLAIN] / timed / 1e3, time[ARCHIVE] / time[PLAIN], time[ARCHIVE] / steps,
           time[TABLE] / timed / 1e3, time[ARCHIVE] / time[TABLE]);
    fflush(stdout);
    return 1;
}

static int random_sets(const char *name, uint32_t tasks, uint32_t rates, uint32_t slack, int count,
                       int repetitions)
{
    for (int s = 0; s < count; s++)
        random_set(&sets[s], tasks, rates, slack, 67);
    return measure(name, count, repetitions);
}

static int cases(int repetitions)
{
    static const uint32_t slacks[] = {1, 100, 1000};
    static const uint32_t ladder[] = {2, 3, 4, 8};

    for (uint32_t rates = 2; rates <= 8; rates++)
        for (int i = 0; i < 3; i++)
            if (!random_sets("most", most_tasks[rates], rates, slacks[i], 8, repetitions))
                return 0;
    for (uint32_t rates = 2; rates <= 8; rates++)
        for (int all_fit = 1; all_fit >= 0; all_fit--) {
            even_set(&sets[0], most_tasks[rates], rates, 100, all_fit);
            if (!measure(all_fit ? "all-fit" : "one-fits", 1, repetitions))
                return 0;
        }
    for (int i = 0; i < 3; i++)
        for (int j = 0; j < 4; j++)
            for (uint32_t tasks = 1; tasks <= most_tasks[ladder[j]]; tasks++)
                if (!random_sets("ladder", tasks, ladder[j], slacks[i], MOST_SETS, repetitions))
                    return 0;
    return 1;
}

int main(int argc, char **argv)
{
    int repetitions = repetitions_at(1, argc, argv, 5);

    once = is_once(1, argc, argv);
    work = malloc(MOST_WORK * sizeof *work);
    if (work == NULL) {
        fprintf(stderr, "bench: no memory for the working words\n");
        return 2;
    }
    state = argc > 2 ? strtoull(argv[2], NULL, 10) : 1;
    printf("random sets of seed %" PRIu64 ", best of %d\n", state, repetitions);
    if (!small_sets())
        return 1;
    printf("%-9s %3s %2s %5s %4s %7s %6s %11s %11s %6s %8s %11s %9s\n", "case", "N", "M", "slack", "sets", "plans",
           "units", "dull us", "plain us", "ratio", "ns/step", "planner us", "/planner");
    return cases(repetitions) ? 0 : 1;
}
