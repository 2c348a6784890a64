/* Times the archive's walk beside two in plain C: walk.c's tick by tick, and
   events.c's from each tick with a release to the next, as the archive does. The
   same tasks, the same run, in turn, the best of several repetitions of each. All
   must give the same results, or the run ends with 1. Before that the inner call
   and both plain walks are held to equal results on random tasks.

       bench [REPETITIONS]
       bench --generated SEED N [REPETITIONS]

   One line a case and call: name; the call of the archive, `walk` for the
   product's seedspell_walk, which checks a set, works out its job times and walks
   to its hyper-period, or with first releases to twice that, or `inner` for the
   walk itself, which is given periods, job times, first releases and the last tick,
   as plain C is; N; L, the last tick; the mean gap between ticks with a release;
   nanoseconds a tick of the archive, of plain C tick by tick and of plain C from
   event to event; the archive's time over the one and over the other; and
   nanoseconds a tick with a release of the archive and of plain C from event to
   event, since those a tick say little where gaps are long. The lines of both calls
   of a case have the times of plain C in common.

   The first form times all cases: see own_cases. Its lines `seed S` are of the
   sets that the archive's generator makes of S and N (generated.c has which), each
   with the archive's plan for it. The second times the one set of a seed that the
   generator makes, and nothing else; where that set has no plan, it says so and
   times nothing. There are 5 repetitions where no number of them is given, and a
   fifth of them, at least one, where L is 200,000,000. With --once for REPETITIONS
   each set is walked once by each way, to no farther than 20,000,000, and those that
   are made here have 4 tasks or one.

   A walk of few releases is short, so in a repetition it is made as often as it
   takes to come to ENOUGH ticks with a release, but for the one tick by tick. A
   generated set's hyper-period is at most 400 ticks, so a repetition walks it many
   times over too. The processor then comes to know the branches, which no walk
   finds that is made once. So the lines `in-turn` are of MANY generated sets, of
   the first seeds from 1 on that have a plan, walked one after the other; L is
   their longest. */

#include <inttypes.h>
#include <stddef.h>
#include <stdint.h>
#include <stdio.h>
#include <stdlib.h>
#include <string.h>

#include "../../include/seedspell.h"
#include "../generated.h"
#include "../measure.h"

#define SPAN 10000000u          /* the longest hyper-period, period and first release */
#define FARTHEST (20 * SPAN)    /* the farthest last tick */
#define LOAD (SPAN / 1000 * 999)
#define MOST_TASKS 32
#define RATES 2
#define MOST_WORK (33 * 1281)   /* W of 32 tasks at slack 100, a generated set's */
#define MANY 300                /* sets that are walked in turn */
#define SHORT_WALKS 2400        /* of generated sets, in one repetition */
#define ENOUGH 100000           /* ticks with a release, in one repetition */
#define NO_PLAN ((uint64_t)SEEDSPELL_REFUSED_NO_PLAN_FITS << 32)

/* walk.c and events.c */
typedef void plain(uint32_t tasks, const uint32_t *period, const uint32_t *time,
                   const uint32_t *first, uint32_t end, uint64_t results[4]);
plain plain_walk, event_walk;

/* entries/: 1 and no results where something is out of its range, else 0. */
uint64_t bench_walk(const uint32_t period[MOST_TASKS], const uint32_t time[MOST_TASKS],
                    const uint32_t first[MOST_TASKS], size_t tasks, uint32_t end,
                    uint64_t results[4]);

/* The ways of the walk: the archive's two calls, and plain C's two. */
enum { WALK, INNER, TICKS, EVENTS, WAYS };

/* Which of the archive's calls a case is of. */
#define BY_WALK (1u << WALK)
#define BY_INNER (1u << INNER)

struct tasks {
    uint32_t count;
    uint32_t end;               /* the last tick: by WALK the hyper-period, or twice that */
    uint32_t period[MOST_TASKS];
    uint32_t time[MOST_TASKS];
    uint32_t first[MOST_TASKS]; /* releases: by WALK below the periods */
};

struct list {
    uint32_t set[SEEDSPELL_GENERATED_WORDS]; /* five rates: more than any other case has */
    size_t set_len;
    uint32_t plan[MOST_TASKS];
    size_t plan_len;
};

/* What is walked, and what each way said of it. */
struct work {
    struct list list;
    struct tasks tasks;
    uint64_t code[WAYS];        /* plain C's stay 0 */
    uint64_t results[WAYS][4];
};

static struct work works[MANY];
static int once;

/* ---- The ways. */

/* The results come lowest byte first, which on x86-64 is how words are held. */
static void by_walk(struct work *work)
{
    const struct list *list = &work->list;

    work->code[WALK] = seedspell_walk(list->set, list->set_len, list->plan, list->plan_len,
                                      (uint8_t *)work->results[WALK], sizeof work->results[WALK]);
}

static void by_inner(struct work *work)
{
    const struct tasks *t = &work->tasks;

    work->code[INNER] = bench_walk(t->period, t->time, t->first, t->count, t->end,
                                   work->results[INNER]);
}

static void by_ticks(struct work *work)
{
    const struct tasks *t = &work->tasks;

    plain_walk(t->count, t->period, t->time, t->first, t->end, work->results[TICKS]);
}

static void by_events(struct work *work)
{
    const struct tasks *t = &work->tasks;

    event_walk(t->count, t->period, t->time, t->first, t->end, work->results[EVENTS]);
}

static void (*const ways[WAYS])(struct work *) = {by_walk, by_inner, by_ticks, by_events};
static const char *const named[WAYS] = {"walk", "inner", "tick by tick", "event to event"};

/* Whether a way has a part in a case of these calls. */
static int has_part(int way, unsigned calls)
{
    return way >= TICKS || calls >> way & 1;
}

/* ---- Equal results. */

/* Whether the archive's calls went well, and all ways say the same. */
static int agree(const char *name, unsigned calls, const struct work *work)
{
    for (int way = 0; way < WAYS; way++) {
        if (!has_part(way, calls))
            continue;
        if (work->code[way] != 0) {
            fprintf(stderr, "bench: %s, %" PRIu32 " tasks: %s refuses with %" PRIx64 "\n", name,
                    work->tasks.count, named[way], work->code[way]);
            return 0;
        }
        for (int i = 0; i < 4; i++) {
            uint64_t value = work->results[way][i], ticks = work->results[TICKS][i];

            if (value != ticks) {
                fprintf(stderr, "bench: %s, %" PRIu32 " tasks: result %d of %s is %" PRIu64
                        ", and %" PRIu64 " tick by tick\n", name, work->tasks.count, i, named[way],
                        value, ticks);
                return 0;
            }
        }
    }
    return 1;
}

/* Whether the inner call refuses tasks that it cannot take. */
static int refuses(void)
{
    static const struct tasks bad[] = {
        {MOST_TASKS + 1, 1, {1}, {1}, {0}},
        {1, FARTHEST + 1, {1}, {1}, {0}},
        {1, 1, {0}, {1}, {0}},
        {1, 1, {SPAN + 1}, {1}, {0}},
        {1, 1, {1}, {0}, {0}},
        {1, 1, {1}, {1}, {SPAN + 1}},
    };

    for (size_t i = 0; i < sizeof bad / sizeof bad[0]; i++) {
        works[0].tasks = bad[i];
        by_inner(&works[0]);
        if (works[0].code[INNER] != 1) {
            fprintf(stderr, "bench: the inner call takes what is out of its range\n");
            return 0;
        }
    }
    return 1;
}

/* The inner call beside plain C on random tasks, with first releases of their own
   and a last tick at which not all are due. Some keep their deadlines. */
static int compare(void)
{
    struct work *work = &works[0];
    struct tasks *t = &work->tasks;
    uint32_t kept = 0, missed = 0;

    state = 1;
    for (int k = 0; k < 100000; k++) {
        uint32_t longest = between(1, 60);

        t->count = between(1, between(1, MOST_TASKS));
        t->end = between(0, 400);
        for (uint32_t i = 0; i < t->count; i++) {
            t->period[i] = between(1, longest);
            t->time[i] = 1 + between(0, t->period[i]) / between(1, 2 * t->count);
            t->first[i] = between(0, 1) * between(0, 100);
        }
        for (int way = INNER; way < WAYS; way++)
            ways[way](work);
        if (!agree("random", BY_INNER, work))
            return 0;
        if (work->results[TICKS][0] == 1)
            kept++;
        else
            missed++;
    }
    printf("random tasks walked alike: %" PRIu32 " kept, %" PRIu32 " missed\n", kept, missed);
    return 1;
}

/* ---- Times. */

/* How many of the ticks before the last have a release. */
static double release_ticks(const struct tasks *t)
{
    static uint64_t seen[FARTHEST / 64 + 1];
    uint32_t count = 0;

    memset(seen, 0, (t->end / 64 + 1) * sizeof seen[0]);
    for (uint32_t i = 0; i < t->count; i++) {
        for (uint32_t tick = t->first[i]; tick < t->end; tick += t->period[i]) {
            uint64_t bit = (uint64_t)1 << tick % 64;

            count += (seen[tick / 64] & bit) == 0;
            seen[tick / 64] |= bit;
        }
    }
    return count;
}

/* Nanoseconds of a round over the first `count` works, of so many. */
static double time_rounds(int way, int count, int rounds)
{
    double start = now();

    for (int r = 0; r < rounds; r++)
        for (int k = 0; k < count; k++)
            ways[way](&works[k]);
    return (now() - start) / rounds;
}

/* The first `count` works, all of as many tasks: in each repetition at least so
   many rounds over them by each way in turn. */
static int measure(const char *name, unsigned calls, int count, int rounds, int repetitions)
{
    double best[WAYS], ticks = 0, releases = 0;
    uint32_t longest = 0;
    int more;

    for (int k = 0; k < count; k++) {
        const struct tasks *t = &works[k].tasks;

        ticks += t->end;
        releases += release_ticks(t);
        if (t->end > longest)
            longest = t->end;
    }
    if (once)
        rounds = 1;
    more = releases * rounds < ENOUGH && !once ? (int)(ENOUGH / releases) : rounds;
    for (int i = 0; i < repetitions; i++) {
        for (int way = 0; way < WAYS; way++) {
            double time;

            if (!has_part(way, calls))
                continue;
            time = time_rounds(way, count, way == TICKS ? rounds : more);
            if (i == 0 || time < best[way])
                best[way] = time;
        }
        for (int k = 0; k < count; k++) {
            if (!agree(name, calls, &works[k]))
                return 0;
            if (works[k].results[TICKS][0] != 1) {
                /* A miss ends the walk early, and the time a tick would be wrong. */
                fprintf(stderr, "bench: %s, %" PRIu32 " tasks: not kept\n", name,
                        works[k].tasks.count);
                return 0;
            }
        }
    }
    for (int call = WALK; call <= INNER; call++)
        if (has_part(call, calls))
            printf("%-10s %-5s %2" PRIu32 " %9" PRIu32 " %11.2f %9.5f %9.5f %9.5f %8.5f %7.3f"
                   " %8.1f %8.1f\n", name, named[call], works[0].tasks.count, longest,
                   ticks / releases, best[call] / ticks, best[TICKS] / ticks, best[EVENTS] / ticks,
                   best[call] / best[TICKS], best[call] / best[EVENTS], best[call] / releases,
                   best[EVENTS] / releases);
    fflush(stdout);
    return 1;
}

/* ---- Tasks that are made here. */

/* A family of tasks by how often they release. Their periods divide SPAN: the
   three bases, which decide how many ticks have a release, and from a number on
   the multiples of these, least first, which add none. */
struct family {
    const char *name;
    uint32_t base[3];
    uint32_t from;
    uint32_t alone;             /* the period of a task by itself */
};

/* A mean gap of 100; of 12; and of 3. */
static const struct family few = {"few", {160, 250, 320}, 1, 100};
static const struct family some = {"some", {20, 32, 50}, 1, 12};
static const struct family many = {"many", {4, 10, 25}, 1, 3};

/* Three ticks of five have a release, and no set with a hyper-period of SPAN has
   more of them and keeps its deadlines. For a task of period 1 fills the processor,
   since a job takes a tick at least, so that another beside it misses its first
   deadline; and every other period that divides SPAN is a multiple of 2 or of 5.
   The multiples are from 200 on: with small ones there would be no room for all. */
static const struct family dense = {"dense", {2, 5, 200}, 200, 0};

/* Whether a period is a multiple of a base, and itself none. */
static int is_multiple(uint32_t period, const struct family *f)
{
    int found = 0;

    for (int i = 0; i < 3; i++) {
        if (period == f->base[i])
            return 0;
        found |= period % f->base[i] == 0;
    }
    return found;
}

/* One task of a family by itself: its jobs take about nine tenths of the time. */
static void make_alone(struct tasks *t, uint32_t period)
{
    *t = (struct tasks){1, SPAN, {period}, {period - (period + 9) / 10}, {0}};
}

/* The last task has the whole of SPAN for its period and takes what the others
   leave, so it is broken often. */
static void make_family(struct tasks *t, const struct family *f, uint32_t count)
{
    const uint32_t limit = SPAN / 10 * 9;
    uint32_t load = 0, last = count - 1, next = f->from;

    *t = (struct tasks){.count = count, .end = SPAN};
    for (uint32_t i = 0; i < last; i++) {
        if (i < 3) {
            t->period[i] = f->base[i];
        } else {
            while (SPAN % next != 0 || !is_multiple(next, f))
                next++;
            t->period[i] = next++;
        }
        t->time[i] = 1;
        load += SPAN / t->period[i];
    }
    /* Longer jobs, one tick at a time and in turn, up to nine tenths of SPAN. */
    for (int grown = 1; grown;) {
        grown = 0;
        for (uint32_t i = 0; i < last; i++) {
            if (load + SPAN / t->period[i] <= limit) {
                load += SPAN / t->period[i];
                t->time[i]++;
                grown = 1;
            }
        }
    }
    t->period[last] = SPAN;
    t->time[last] = LOAD - load;
}

/* A release at every tick, which takes first releases: one task has the even
   ticks, the others the odd ones by turns. Jobs of one tick then fill the
   processor. One task by itself has period 1. */
static void make_every(struct tasks *t, uint32_t count)
{
    *t = (struct tasks){.count = count, .end = SPAN};
    for (uint32_t i = 0; i < count; i++) {
        t->period[i] = count == 1 ? 1 : i == 0 ? 2 : 2 * (count - 1);
        t->time[i] = 1;
        t->first[i] = i == 0 ? 0 : 2 * i - 1;
    }
}

/* Long periods, and the same share of the processor for each task. */
static void make_long(struct tasks *t, uint32_t count)
{
    static const uint32_t part[] = {1, 2, 4, 5, 8, 10, 16, 20};

    *t = (struct tasks){.count = count, .end = SPAN};
    for (uint32_t i = 0; i < count; i++) {
        t->period[i] = SPAN / part[i % 8];
        t->time[i] = t->period[i] / 1000 * 999 / count;
    }
}

/* The list of words for these tasks, with a plan of both rates. The cycles are
   such that the job time at the plan's rate, rounded up, is the one wanted. */
static void make_list(struct list *list, const struct tasks *t)
{
    static const uint32_t rate[RATES] = {100, 200};
    uint32_t *at = list->set;

    *at++ = 100;
    *at++ = 0;
    *at++ = RATES;
    for (uint32_t j = 0; j < RATES; j++)
        *at++ = rate[j];
    *at++ = t->count;
    for (uint32_t i = 0; i < t->count; i++) {
        uint32_t number = 1 + i % RATES;
        *at++ = t->period[i];
        *at++ = t->time[i] * rate[number - 1] - i;
        *at++ = t->first[i];
        for (uint32_t j = 0; j < RATES; j++)
            *at++ = 1 + j;
        list->plan[i] = number;
    }
    list->set_len = (size_t)(at - list->set);
    list->plan_len = t->count;
}

/* ---- The cases that are made here. */

/* The tasks in hand, to SPAN. */
static int own_case(const char *name, unsigned calls, int repetitions)
{
    make_list(&works[0].list, &works[0].tasks);
    return measure(name, calls, 1, 1, repetitions);
}

/* The same by the inner call, to FARTHEST. */
static int far_case(const char *name, int repetitions)
{
    if (once)
        return 1;
    works[0].tasks.end = FARTHEST;
    return measure(name, BY_INNER, 1, 1, (repetitions + 4) / 5);
}

/* The same tasks with first releases: the product's walk goes to 2 x SPAN then. */
static int from_case(const char *name, int repetitions)
{
    struct tasks *t = &works[0].tasks;

    t->end = 2 * SPAN;
    for (uint32_t i = 0; i < t->count; i++)
        t->first[i] = t->period[i] / 2;
    return own_case(name, BY_WALK | BY_INNER, repetitions);
}

/* By itself a task has its period for hyper-period, so it is walked to SPAN by the
   inner call alone. */
static int family_case(const struct family *f, uint32_t count, int repetitions)
{
    struct tasks *t = &works[0].tasks;

    if (count > 1)
        make_family(t, f, count);
    else
        make_alone(t, f->alone);
    return own_case(f->name, count > 1 ? BY_WALK | BY_INNER : BY_INNER, repetitions);
}

static int own_cases(int repetitions)
{
    static const uint32_t counts[] = {32, 16, 8, 4, 1};
    struct tasks *t = &works[0].tasks;

    for (size_t i = 0; i < sizeof counts / sizeof counts[0]; i++) {
        uint32_t count = counts[i];

        if (once && count > 4)
            continue;
        make_long(t, count);
        if (!own_case("few-long", BY_WALK | BY_INNER, repetitions)
            || !family_case(&few, count, repetitions) || !far_case(few.name, repetitions)
            || (count > 1 && !from_case("few-from", repetitions))
            || !family_case(&some, count, repetitions)
            || !family_case(&many, count, repetitions) || !far_case(many.name, repetitions)
            || (count > 1 && !family_case(&dense, count, repetitions)))
            return 0;
        make_every(t, count);
        if (!own_case("every-tick", BY_INNER, repetitions) || !far_case("every-tick", repetitions))
            return 0;
    }
    return 1;
}

/* ---- Generated sets. */

/* Periods and job times of a generated set under a plan; its tasks are released together. */
static void make_tasks(struct tasks *t, const struct list *list, uint32_t span)
{
    uint32_t rates = list->set[2];
    const uint32_t *rate = list->set + 3, *task = rate + rates + 1;

    *t = (struct tasks){.count = (uint32_t)list->plan_len, .end = span};
    for (uint32_t i = 0; i < t->count; i++, task += 3 + rates) {
        uint32_t chosen = rate[list->plan[i] - 1];
        t->period[i] = task[0];
        t->time[i] = (task[1] + chosen - 1) / chosen;
    }
}

/* The generator's set, with the planner's plan for it: 0 where it has none. */
static int make_generated(struct work *work, struct seeded which)
{
    static uint32_t words[MOST_WORK];
    uint64_t results[4];
    struct list *list = &work->list;
    uint64_t code;

    list->set_len = generate(which, list->set);
    code = seedspell_plan(list->set, list->set_len, list->plan, MOST_TASKS, words, MOST_WORK,
                          (uint8_t *)results, sizeof results);
    if (code == NO_PLAN)
        return 0;
    if (code != 0) {
        fprintf(stderr, "bench: the planner refuses a generated set: refusal %" PRIu32
                " with %" PRIu32 "\n", SEEDSPELL_REFUSAL(code), SEEDSPELL_SECOND(code));
        exit(1);
    }
    list->plan_len = which.tasks;
    make_tasks(&work->tasks, list, (uint32_t)results[2]);
    return 1;
}

static int generated_case(struct seeded which, int repetitions)
{
    char name[32];

    if (!make_generated(&works[0], which)) {
        say_no_plan(which);
        return 1;
    }
    snprintf(name, sizeof name, "seed %" PRIu32, which.seed);
    return measure(name, BY_WALK, 1, SHORT_WALKS, repetitions);
}

static int in_turn(uint32_t tasks, int repetitions)
{
    struct seeded next = {1, tasks};

    for (int k = 0; k < MANY; next.seed++)
        if (make_generated(&works[k], next))
            k++;
    return measure("in-turn", BY_WALK, MANY, SHORT_WALKS / MANY, repetitions);
}

static int generated_cases(int repetitions)
{
    for (int i = 0; i < SEEDED_COUNT; i++)
        if (!generated_case(seeded[i], repetitions))
            return 0;
    return in_turn(16, repetitions) && in_turn(24, repetitions) && in_turn(32, repetitions);
}

int main(int argc, char **argv)
{
    struct seeded which;
    int repetitions, asked = read_arguments(argc, argv, &which, &repetitions);

    once = is_once(asked ? 4 : 1, argc, argv);
    if (!refuses() || !compare())
        return 1;
    printf("%-10s %-5s %2s %9s %11s %9s %9s %9s %8s %7s %8s %8s\n", "case", "call", "N", "L", "gap",
           "archive", "ticks", "events", "over t", "over e", "a/rel", "e/rel");
    if (asked)
        return generated_case(which, repetitions) ? 0 : 1;
    return own_cases(repetitions) && generated_cases(repetitions) ? 0 : 1;
}
