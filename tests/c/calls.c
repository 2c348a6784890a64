/* Calls the four entries of the archive many times and holds every answer, every lent word and what lies around the
   lists to document 01, with the generator, the idle energy, the first releases and the dull engine of document 02's
   notes 1, 4, 6 and 7, as reference.c reads them.
   The energy of a plan is also held to the least that there is, which least.c finds by going through all plans: to the
   slack, and to the margin of document 02's note 5. And what the planner has returned and left is held to what the dull
   engine has, for the same set and lengths.

       calls [SEED [RANDOM SETS]]

   Prints how many calls of each kind there were. Ends with 0 if every call was as it should be and each kind came up
   often enough, with 1 if not. The first call that departs is printed and ends the run.

   The lists lie between guard bytes. What is lent as room holds all sorts of things before the call, and past the end
   of a set that is lent too short lie the words that it lacks: so a call that makes anything of either is likely to
   give another answer than the reference.

   Compiled with WITH_VALGRIND and run under it, the guards may not even be read, and the room counts as holding
   nothing. */

#include <inttypes.h>
#include <stdio.h>
#include <stdlib.h>
#include <string.h>

#include "../../include/seedspell.h"
#include "least.h"
#include "reference.h"
#include "sets.h"

#ifdef WITH_VALGRIND
#include <valgrind/memcheck.h>
#define FORBID(start, len) VALGRIND_MAKE_MEM_NOACCESS(start, len)
#define ALLOW(start, len) VALGRIND_MAKE_MEM_DEFINED(start, len)
#define HOLDS_NOTHING(start, len) VALGRIND_MAKE_MEM_UNDEFINED(start, len)
#define MUST_HOLD(start, len) VALGRIND_CHECK_MEM_IS_DEFINED(start, len)
#else
#define FORBID(start, len) ((void)(start), (void)(len))
#define ALLOW(start, len) ((void)(start), (void)(len))
#define HOLDS_NOTHING(start, len) ((void)(start), (void)(len))
#define MUST_HOLD(start, len) ((void)(start), (void)(len))
#endif

#define WORD sizeof(uint32_t)
#define MOST_WORK (33 * 128001)         /* W of 32 tasks at slack 1 */
#define GUARD 64                        /* bytes before and after a list, */
#define SHIFT 16                        /* and up to so many more before it */
#define BOTH_WAYS 5000                  /* up to this many plans, the reference is asked both ways at times */
#define LONG_CALLS 20                   /* at most so many with a hyper-period over SHORT_SPAN */
#define DULL_PLANS 1000                 /* up to this many plans, the dull engine is asked too, */
#define MORE_PLANS 20000                /* up to this many now and then, and with more seldom */
#define LARGE_PLANS 200000              /* so many are a large set */

enum entry { PLAN, DULL, WALK, GENERATE, ENTRIES };

static const char *const names[ENTRIES] = {"seedspell_plan", "seedspell_plan_dull", "seedspell_walk",
                                           "seedspell_generate"};

struct call {
    enum entry entry;
    uint32_t seed, tasks;               /* of the generator, which is lent set_len words of room */
    struct list set;                    /* of the others: set.len words lie in memory, */
    size_t set_len;                     /* and so many of them are lent */
    uint32_t plan[MOST_PLAN];           /* of the walk: its plan */
    size_t plan_len, work_len, results_len;
};

/* ---- Counts */

static struct {
    uint64_t calls[ENTRIES], refused[ENTRIES][12], results_short[ENTRIES];
    uint64_t planned, kept, missed;
    uint64_t with_idle, idle_ticks, nothing_left, one_low, walked_low;
    uint64_t bad_first[ENTRIES], first_at_period[ENTRIES], planned_from;
    uint64_t kept_from, planned_kept_from, work_left, kept_over, missed_from, missed_after, missed_at_twice;
    uint64_t unit_1, unit_above_1, highest_last, full_load, one_over, alike, both_ways[2], preempted, full_walk, missed_at_end;
    uint64_t long_span;
    uint64_t judged_1, judged_above_1, above_least, margin_used, margin_of_several, margin_with_idle;
    uint64_t dull_planned, dull_idle, dull_full, dull_unit_1, dull_unit_above_1, dull_alike;
    uint64_t dull_first, dull_last, dull_large;
    uint64_t one_task_over, power_wraps, compared, compared_planned, planned_beside_11;
    uint64_t generated, one_task, most_tasks, room_to_spare, generated_planned, generated_unplanned;
} count;

struct row {
    const char *name;
    const uint64_t *count;
    uint64_t least;                     /* fewer than this, and the run has tried too little to mean anything */
};

static const struct row rows[] = {
    {"calls of seedspell_plan", &count.calls[PLAN], 80000},
    {"  refused 2: bad word", &count.refused[PLAN][2], 10000},
    {"    of these a first release", &count.bad_first[PLAN], 2000},
    {"      just the period", &count.first_at_period[PLAN], 100},
    {"  refused 3: rate not above", &count.refused[PLAN][3], 1000},
    {"  refused 10: energy below idle", &count.refused[PLAN][10], 3000},
    {"    of these below by 1", &count.one_low, 500},
    {"  refused 4: hyper-period", &count.refused[PLAN][4], 1000},
    {"  refused 5: working list", &count.refused[PLAN][5], 1000},
    {"  refused 6: receiving list", &count.refused[PLAN][6], 1000},
    {"    of these the results", &count.results_short[PLAN], 500},
    {"  refused 7: no plan fits", &count.refused[PLAN][7], 5000},
    {"    of these load L + 1", &count.one_over, 500},
    {"  plans", &count.planned, 20000},
    {"    with an idle energy", &count.with_idle, 8000},
    {"      and idle ticks", &count.idle_ticks, 4000},
    {"      and of jobs nothing left", &count.nothing_left, 300},
    {"    with first releases", &count.planned_from, 5000},
    {"    of load L", &count.full_load, 2000},
    {"    unit 1", &count.unit_1, 1000},
    {"    unit above 1", &count.unit_above_1, 1000},
    {"    last task at highest rate", &count.highest_last, 2000},
    {"    decided by rate numbers", &count.alike, 1000},
    {"    asked both ways, few plans", &count.both_ways[0], 1000},
    {"    asked both ways, more plans", &count.both_ways[1], 100},
    {"    the least energy, at unit 1", &count.judged_1, 10000},
    {"    beside it, unit above 1", &count.judged_above_1, 10000},
    {"      above it", &count.above_least, 2000},
    {"      by N x (unit - 1)", &count.margin_used, 1000},
    {"        of several tasks", &count.margin_of_several, 500},
    {"        with an idle energy", &count.margin_with_idle, 500},
    {"calls of seedspell_plan_dull", &count.calls[DULL], 80000},
    {"  refused 2: bad word", &count.refused[DULL][2], 10000},
    {"    of these a first release", &count.bad_first[DULL], 2000},
    {"      just the period", &count.first_at_period[DULL], 100},
    {"  refused 3: rate not above", &count.refused[DULL][3], 1000},
    {"  refused 10: energy below idle", &count.refused[DULL][10], 3000},
    {"  refused 4: hyper-period", &count.refused[DULL][4], 1000},
    {"  refused 11: too many plans", &count.refused[DULL][11], 3000},
    {"    with one task too many", &count.one_task_over, 100},
    {"    small again at 32 bits", &count.power_wraps, 50},
    {"    where the planner plans", &count.planned_beside_11, 1000},
    {"  refused 6: receiving list", &count.refused[DULL][6], 1000},
    {"    of these the results", &count.results_short[DULL], 500},
    {"  refused 7: no plan fits", &count.refused[DULL][7], 5000},
    {"  plans", &count.dull_planned, 20000},
    {"    with an idle energy", &count.dull_idle, 8000},
    {"    of load L", &count.dull_full, 2000},
    {"    unit 1", &count.dull_unit_1, 1000},
    {"    unit above 1", &count.dull_unit_above_1, 1000},
    {"    decided by rate numbers", &count.dull_alike, 1000},
    {"    the first of all", &count.dull_first, 1000},
    {"    the last of all", &count.dull_last, 1000},
    {"    of 200,000 and more", &count.dull_large, 25},
    {"  beside the planner's answers", &count.compared, 60000},
    {"    of these plans", &count.compared_planned, 20000},
    {"calls of seedspell_walk", &count.calls[WALK], 80000},
    {"  refused 2: bad word", &count.refused[WALK][2], 10000},
    {"    of these a first release", &count.bad_first[WALK], 2000},
    {"      just the period", &count.first_at_period[WALK], 100},
    {"  refused 3: rate not above", &count.refused[WALK][3], 1000},
    {"  refused 4: hyper-period", &count.refused[WALK][4], 1000},
    {"  refused 6: results", &count.refused[WALK][6], 1000},
    {"  refused 8: bad plan", &count.refused[WALK][8], 5000},
    {"  kept", &count.kept, 20000},
    {"    with preemptions", &count.preempted, 2000},
    {"    without idle ticks", &count.full_walk, 2000},
    {"    with an energy below idle", &count.walked_low, 1000},
    {"    with first releases", &count.kept_from, 5000},
    {"      of the planner's plans", &count.planned_kept_from, 5000},
    {"      and work left at 2 x L", &count.work_left, 2000},
    {"      and a load over L", &count.kept_over, 300},
    {"  missed", &count.missed, 20000},
    {"    at the last tick", &count.missed_at_end, 1000},
    {"    with first releases", &count.missed_from, 5000},
    {"      after L", &count.missed_after, 500},
    {"      at 2 x L itself", &count.missed_at_twice, 50},
    {"hyper-period over 2,000", &count.long_span, 10},
    {"calls of seedspell_generate", &count.calls[GENERATE], 60000},
    {"  refused 2: number of tasks", &count.refused[GENERATE][2], 5000},
    {"  refused 6: receiving list", &count.refused[GENERATE][6], 10000},
    {"    of these the results", &count.results_short[GENERATE], 2000},
    {"  sets", &count.generated, 30000},
    {"    of 1 task", &count.one_task, 5000},
    {"    of 32 tasks", &count.most_tasks, 2000},
    {"    with words to spare", &count.room_to_spare, 5000},
    {"    planned, and walked", &count.generated_planned, 2000},
    {"    for which no plan fits", &count.generated_unplanned, 100},
};
#define ROWS (sizeof rows / sizeof *rows)

/* Of a set, the ticks of a job by an energy's place, times H. */
static uint64_t waiting_at(const uint32_t *set, size_t place)
{
    size_t rates = set[2], task = (place - 4 - rates) / (3 + rates), at = 4 + rates + task * (3 + rates);
    uint64_t rate = set[3 + place - at - 3];

    return set[1] * ((set[at + 1] + rate - 1) / rate);
}

/* Whether some energy of a set is below what waiting costs. */
static int is_low(const uint32_t *set)
{
    size_t rates = set[2], end = 4 + rates + set[3 + rates] * (3 + rates);

    for (size_t place = 4 + rates; place < end; place++)
        if ((place - 4 - rates) % (3 + rates) > 2 && set[place] < waiting_at(set, place))
            return 1;
    return 0;
}

/* Whether some first release of a set is above 0. */
static int has_firsts(const uint32_t *set)
{
    size_t rates = set[2];

    for (size_t t = 0; t < set[3 + rates]; t++)
        if (set[4 + rates + t * (3 + rates) + 2] > 0)
            return 1;
    return 0;
}

/* Of refusal 2: whether the word that it names is there, and is a first release. */
static int is_first(const struct call *c, uint64_t place)
{
    uint64_t rates = place > 3 ? c->set.word[2] : 0;

    return place < c->set_len && place > 3 + rates && (place - 4 - rates) % (3 + rates) == 2;
}

static void count_bad_first(const struct call *c, uint64_t place)
{
    count.bad_first[c->entry]++;
    count.first_at_period[c->entry] += c->set.word[place] == c->set.word[place - 2];
}

/* Of the walk to 2 x L, which a first release above 0 makes. */
static void count_walk_from(const struct answer *want)
{
    if (want->value[0] == 1) {
        count.kept_from++;
        count.work_left += want->value[1] < 2 * want->load;
        count.kept_over += want->load > want->span;
    } else {
        count.missed_from++;
        count.missed_after += want->value[1] > want->span;
        count.missed_at_twice += want->value[1] == want->end;
    }
}

static int all_are(const uint32_t *plan, size_t len, uint32_t rate)
{
    for (size_t t = 0; t < len; t++)
        if (plan[t] != rate)
            return 0;
    return 1;
}

/* Of 11: whether one task less would not be too many, and whether M to the power N is small at 32 bits. */
static void count_eleven(const uint32_t *set)
{
    uint64_t rates = set[2], tasks = set[3 + rates], power = 1;
    uint32_t wrapped = 1;

    for (uint64_t t = 0; t < tasks; t++) {
        wrapped *= (uint32_t)rates;
        if (t + 1 < tasks && power <= MANY_PLANS)
            power *= rates;
    }
    count.one_task_over += power <= MANY_PLANS;
    count.power_wraps += wrapped <= MANY_PLANS;
}

static void count_dull(const uint32_t *set, const struct answer *want)
{
    if (want->code >> 32 == 11)
        count_eleven(set);
    if (want->code != 0)
        return;
    count.dull_planned++;
    count.dull_idle += set[1] > 0;
    count.dull_full += want->value[1] == want->span;
    count.dull_unit_1 += want->value[0] == 1;
    count.dull_unit_above_1 += want->value[0] > 1;
    count.dull_alike += want->alike > 1;
    count.dull_first += all_are(want->plan, want->plan_words, 1);
    count.dull_last += all_are(want->plan, want->plan_words, set[2]);
    count.dull_large += want->plans >= LARGE_PLANS;
}

static void count_call(const struct call *c, const struct answer *want)
{
    const uint32_t *set = c->set.word;
    uint64_t refused = want->code >> 32;

    count.calls[c->entry]++;
    count.refused[c->entry][refused]++;
    count.long_span += c->entry != DULL && want->span > SHORT_SPAN;     /* which takes the dull engine no longer */
    if (c->entry != GENERATE && refused == 2 && is_first(c, want->code & UINT32_MAX))
        count_bad_first(c, want->code & UINT32_MAX);
    count.results_short[c->entry] += want->code == ((uint64_t)6 << 32) + RESULT_BYTES && c->results_len < RESULT_BYTES;
    if (c->entry == PLAN) {
        count.one_over += refused == 7 && want->least_load == want->span + 1;
        if (refused == 10)
            count.one_low += set[want->code & UINT32_MAX] + 1 == waiting_at(set, want->code & UINT32_MAX);
        if (refused != 0)
            return;
        count.planned++;
        count.with_idle += set[1] > 0;
        count.planned_from += has_firsts(set);
        count.idle_ticks += set[1] > 0 && want->value[1] < want->span;
        count.nothing_left += set[1] > 0 && want->value[3] == want->waiting;
        count.full_load += want->value[1] == want->span;
        count.unit_1 += want->value[0] == 1;
        count.unit_above_1 += want->value[0] > 1;
        count.highest_last += want->plan[want->plan_words - 1] == set[2];
        count.alike += want->alike > 1;
    } else if (c->entry == DULL) {
        count_dull(set, want);
    } else if (c->entry == GENERATE && refused == 0) {
        count.generated++;
        count.one_task += c->tasks == 1;
        count.most_tasks += c->tasks == MOST_TASKS;
        count.room_to_spare += c->set_len > want->set_words;
    } else if (c->entry == WALK && refused == 0) {
        count.kept += want->value[0] == 1;
        count.walked_low += want->value[0] == 1 && is_low(set);
        count.preempted += want->value[0] == 1 && want->value[3] > 0;
        count.full_walk += want->value[0] == 1 && want->value[2] == 0;
        count.missed += want->value[0] == 0;
        count.missed_at_end += want->value[0] == 0 && want->value[1] == want->end;
        if (want->end > want->span)
            count_walk_from(want);
    }
}

/* Prints every count; 1 if none is too low and no more calls than agreed were long ones. */
static int enough(void)
{
    int good = 1;

    for (size_t i = 0; i < ROWS; i++) {
        int low = *rows[i].count < rows[i].least;
        printf("%-32s %8" PRIu64 "%s\n", rows[i].name, *rows[i].count, low ? "  TOO FEW" : "");
        good = good && !low;
    }
    if (count.long_span > LONG_CALLS) {
        printf("more than %d calls have a hyper-period over %d\n", LONG_CALLS, SHORT_SPAN);
        good = 0;
    }
    return good;
}

/* ---- Lists and what lies around them */

/* Guard bytes, a list, guard bytes; and the same as it must be after the call. */
struct area {
    const char *name;
    size_t size, room;                  /* bytes of an element; elements that the area can hold */
    uint8_t *is, *must;
    size_t start, len, total;           /* in bytes; start and len are the list's */
};

static struct area areas[] = {
    {"set", WORD, MOST_WORDS, NULL, NULL, 0, 0, 0},
    {"plan list", WORD, MOST_PLAN, NULL, NULL, 0, 0, 0},
    {"working list", WORD, MOST_WORK + 8, NULL, NULL, 0, 0, 0},
    {"results", 1, 64, NULL, NULL, 0, 0, 0},
};
enum { SET, PLAN_LIST, WORK, RESULTS, AREAS };

static void make_areas(void)
{
    for (size_t a = 0; a < AREAS; a++) {
        size_t bytes = 2 * GUARD + SHIFT + areas[a].room * areas[a].size;
        areas[a].is = malloc(bytes);
        areas[a].must = malloc(bytes);
        if (areas[a].is == NULL || areas[a].must == NULL) {
            fprintf(stderr, "calls: no memory\n");
            exit(2);
        }
    }
}

/* What room holds before a call makes no difference, so it holds all sorts. */
static void fill_room(uint8_t *start, size_t len)
{
    uint8_t first = (uint8_t)draw(0, 255), add = (uint8_t)(2 * draw(0, 127) + 1);

    switch (draw(0, 5)) {
    case 0: memset(start, 0, len); break;
    case 1: memset(start, 255, len); break;
    case 2:                             /* like rate numbers and small loads */
        for (size_t i = 0; i < len; i++)
            start[i] = (uint8_t)(i % WORD == 0 ? 1 + i / WORD % 8 : 0);
        break;
    default:
        for (size_t i = 0; i < len; i++)
            start[i] = (uint8_t)(first + add * (uint8_t)i);
    }
}

/* Lays out a list of `stored` elements of which `lent` are lent; `from` is what they hold, or NULL for room. */
static void lay_out(struct area *area, const void *from, size_t lent, size_t stored)
{
    uint8_t first = (uint8_t)draw(1, 255);

    area->start = GUARD + draw(0, SHIFT / area->size - 1) * area->size;
    area->len = lent * area->size;
    area->total = area->start + stored * area->size + GUARD;
    for (size_t i = 0; i < area->start; i++)
        area->is[i] = (uint8_t)(first + i);
    for (size_t i = area->total - GUARD; i < area->total; i++)
        area->is[i] = (uint8_t)(first + i);
    if (from != NULL)
        memcpy(area->is + area->start, from, stored * area->size);
    else
        fill_room(area->is + area->start, area->len);
    memcpy(area->must, area->is, area->total);
}

static void forbid_guards(struct area *area, int is_room)
{
    FORBID(area->is, area->start);
    FORBID(area->is + area->start + area->len, area->total - area->start - area->len);
    if (is_room)
        HOLDS_NOTHING(area->is + area->start, area->len);
}

/* What the call must have left, where it has left anything: it does not come from what the room held. */
static void must_leave(struct area *area, const void *what, size_t elements)
{
    size_t bytes = elements * area->size;

    MUST_HOLD(area->is + area->start, bytes);
    if (what != NULL)
        memcpy(area->must + area->start, what, bytes);
    else
        memset(area->must + area->start, 0, bytes);
}

/* The first byte that is not as it must be; `total` where there is none. */
static size_t departure(const struct area *area)
{
    size_t i = 0;

    if (memcmp(area->is, area->must, area->total) == 0)
        return area->total;
    while (area->is[i] == area->must[i])
        i++;
    return i;
}

static uint32_t *words(struct area *area)
{
    return (uint32_t *)(void *)(area->is + area->start);
}

/* ---- One call */

static void lend(const struct call *c)
{
    int plans = c->entry == PLAN || c->entry == DULL, generates = c->entry == GENERATE;
    size_t work_len = c->entry == PLAN ? c->work_len : 0;

    lay_out(&areas[SET], generates ? NULL : c->set.word, c->set_len, generates ? c->set_len : c->set.len);
    lay_out(&areas[PLAN_LIST], plans ? NULL : c->plan, c->plan_len, c->plan_len);
    lay_out(&areas[WORK], NULL, work_len, work_len);
    lay_out(&areas[RESULTS], NULL, c->results_len, c->results_len);
    forbid_guards(&areas[SET], generates);
    forbid_guards(&areas[PLAN_LIST], plans);
    forbid_guards(&areas[WORK], 1);
    forbid_guards(&areas[RESULTS], 1);
}

static uint64_t make(const struct call *c)
{
    uint32_t *set = words(&areas[SET]), *plan = words(&areas[PLAN_LIST]), *work = words(&areas[WORK]);
    uint8_t *results = areas[RESULTS].is + areas[RESULTS].start;

    if (c->entry == PLAN)
        return seedspell_plan(set, c->set_len, plan, c->plan_len, work, c->work_len, results, c->results_len);
    if (c->entry == DULL)
        return seedspell_plan_dull(set, c->set_len, plan, c->plan_len, results, c->results_len);
    if (c->entry == WALK)
        return seedspell_walk(set, c->set_len, plan, c->plan_len, results, c->results_len);
    return seedspell_generate(c->seed, c->tasks, set, c->set_len, results, c->results_len);
}

static void expect(const struct call *c, enum way way, struct answer *want)
{
    if (c->entry == PLAN)
        expect_plan(way, c->set.word, c->set_len, c->plan_len, c->work_len, c->results_len, want);
    else if (c->entry == DULL)
        expect_dull(c->set.word, c->set_len, c->plan_len, c->results_len, want);
    else if (c->entry == WALK)
        expect_walk(c->set.word, c->set_len, c->plan, c->plan_len, c->results_len, want);
    else
        expect_generate(c->seed, c->tasks, c->set_len, c->results_len, want);
}

/* Turns an expected answer into what the lists must hold. */
static void expect_lists(const struct answer *want)
{
    uint8_t bytes[RESULT_BYTES];

    if (want->code != 0)
        return;
    for (int i = 0; i < RESULT_BYTES; i++)
        bytes[i] = (uint8_t)(want->value[i / 8] >> (8 * (i % 8)));
    must_leave(&areas[RESULTS], bytes, RESULT_BYTES);
    must_leave(&areas[SET], want->set, want->set_words);
    must_leave(&areas[PLAN_LIST], want->plan, want->plan_words);
    must_leave(&areas[WORK], NULL, want->work_words);
}

static void print_code(const char *who, uint64_t code)
{
    printf("%s: ", who);
    if (code == 0)
        printf("returned 0");
    else
        printf("returned %" PRIu64 ", refusal %" PRIu64 " with %" PRIu64, code, code >> 32, code & UINT32_MAX);
}

/* Words that a call leaves, behind what they are. */
static void print_words(const char *what, const uint32_t *word, size_t len)
{
    for (size_t i = 0; i < len; i++)
        printf("%s %" PRIu32, i == 0 ? what : "", word[i]);
}

static void print_expected(const struct answer *want)
{
    print_code("expected", want->code);
    if (want->code == 0)
        printf("; results %" PRIu64 " %" PRIu64 " %" PRIu64 " %" PRIu64, want->value[0], want->value[1], want->value[2], want->value[3]);
    print_words("; plan", want->plan, want->plan_words);
    print_words("; set", want->set, want->set_words);
    printf("\n");
}

/* One of the four results that a call has left. */
static uint64_t result(int k)
{
    const uint8_t *byte = areas[RESULTS].is + areas[RESULTS].start + 8 * k;
    uint64_t value = 0;

    for (int i = 7; i >= 0; i--)
        value = value << 8 | byte[i];
    return value;
}

/* Of the lists as much as was expected, where so much was lent. */
static void print_received(const struct call *c, const struct answer *want, uint64_t code)
{
    print_code("received", code);
    if (code == 0 && c->results_len >= RESULT_BYTES)
        printf("; results %" PRIu64 " %" PRIu64 " %" PRIu64 " %" PRIu64, result(0), result(1), result(2), result(3));
    if (code == 0 && want->plan_words <= c->plan_len)
        print_words("; plan", words(&areas[PLAN_LIST]), want->plan_words);
    if (code == 0 && want->set_words <= c->set_len)
        print_words("; set", words(&areas[SET]), want->set_words);
    printf("\n");
}

static void print_departures(void)
{
    for (size_t a = 0; a < AREAS; a++) {
        size_t i = departure(&areas[a]);
        if (i < areas[a].total)
            printf("the %s departs at place %" PRIdMAX ", byte %zu of it: expected %u, received %u\n", areas[a].name,
                   ((intmax_t)i - (intmax_t)areas[a].start) / (intmax_t)areas[a].size, i % areas[a].size, areas[a].must[i],
                   areas[a].is[i]);
    }
}

static void print_lent(const struct call *c)
{
    printf("lent: set %zu", c->set_len);
    if (c->entry == GENERATE) {
        printf(", results %zu\n", c->results_len);
        return;
    }
    if (c->entry == PLAN) {
        printf(", plan %zu, work %zu, results %zu\n", c->plan_len, c->work_len, c->results_len);
        return;
    }
    if (c->entry == DULL) {
        printf(", plan %zu, results %zu\n", c->plan_len, c->results_len);
        return;
    }
    printf(", plan %zu, results %zu\nwalk's plan:", c->plan_len, c->results_len);
    for (size_t i = 0; i < c->plan_len; i++)
        printf(" %" PRIu32, c->plan[i]);
    printf("\n");
}

/* The call as it can be pasted elsewhere: the set as a text where it is one, and as numbers. */
static void print_call(const struct call *c)
{
    printf("call %" PRIu64 " of %s departs\n", count.calls[c->entry], names[c->entry]);
    if (c->entry == GENERATE)
        printf("seed %" PRIu32 ", N %" PRIu32 "\n", c->seed, c->tasks);
    else
        print_set(c->set.word, c->set_len);
    print_lent(c);
}

static int as_expected(const struct call *c, const struct answer *want, uint64_t code)
{
    int same = code == want->code;

    for (size_t a = 0; a < AREAS; a++)
        same = same && departure(&areas[a]) == areas[a].total;
    if (same)
        return 1;
    print_call(c);
    print_expected(want);
    print_received(c, want, code);
    print_departures();
    return 0;
}

/* 'The reported energy exceeds that of every plan that keeps its deadlines by at most N x (unit - 1)': of units above 1.
   'With unit 1 it is therefore the least there is' is judged by itself. */
static uint64_t margin(uint64_t tasks, uint64_t unit)
{
    return tasks * (unit - 1);
}

/* Holds the energy that a planner's call has left, and that is the one of its plan, to the least that a plan of the set
   can report. Ends the run if it is too high for the unit or for the slack, or lower than can be. */
static void judge_energy(const struct call *c)
{
    const uint32_t *set = c->set.word;
    uint64_t slack = set[0], tasks = set[3 + set[2]], unit = result(0), energy = result(3);
    uint64_t least = least_energy(set), above = energy - least;

    if (energy < least || (unit == 1 ? energy != least : above > margin(tasks, unit))
        || 1000 * energy > (1000 + slack) * least) {
        print_call(c);
        printf("unit %" PRIu64 " and energy %" PRIu64 ", where some plan has %" PRIu64 "\n", unit, energy, least);
        exit(1);
    }
    if (unit == 1) {
        count.judged_1++;
        return;
    }
    count.judged_above_1++;
    count.above_least += above > 0;
    if (above == tasks * unit - tasks) {
        count.margin_used++;
        count.margin_of_several += tasks > 1;
        count.margin_with_idle += set[1] > 0;
    }
}

/* The reference's two ways to a plan, against each other: the one that was not taken must give the same. */
static void ask_both_ways(const struct call *c, const struct answer *want)
{
    struct answer other;

    expect(c, want->plans <= FEW_PLANS ? TASK_BY_TASK : ALL_PLANS, &other);
    other.alike = want->alike;          /* only one of the ways counts these */
    if (memcmp(&other, want, sizeof other) != 0) {
        print_call(c);
        printf("the reference disagrees with itself\n");
        print_expected(want);
        print_expected(&other);
        exit(1);
    }
    count.both_ways[want->plans > FEW_PLANS]++;
}

/* Makes a call and leaves what was expected of it; ends the run if the call departs from that. Returns what the call
   did. */
static uint64_t try_call(const struct call *c, struct answer *want)
{
    uint64_t code;

    expect(c, BY_SIZE, want);
    if (c->entry == PLAN && want->alike > 0 && want->plans <= BOTH_WAYS && count.calls[PLAN] % 8 == 0)
        ask_both_ways(c, want);
    count_call(c, want);
    lend(c);
    code = make(c);
    MUST_HOLD(&code, sizeof code);
    expect_lists(want);
    for (size_t a = 0; a < AREAS; a++)
        ALLOW(areas[a].is, areas[a].total);
    if (!as_expected(c, want, code))
        exit(1);
    if (c->entry == PLAN && code == 0 && want->plans <= LEAST_PLANS)
        judge_energy(c);
    return code;
}

/* What a call has returned and left of a plan. */
struct outcome {
    uint64_t code, value[4];
    uint32_t plan[MOST_TASKS];
};

static void take(const struct call *c, uint64_t code, struct outcome *outcome)
{
    size_t tasks = code == 0 ? c->set.word[3 + c->set.word[2]] : 0;

    *outcome = (struct outcome){.code = code};
    memcpy(outcome->plan, words(&areas[PLAN_LIST]), tasks * sizeof *outcome->plan);
    for (int k = 0; k < 4 && code == 0; k++)
        outcome->value[k] = result(k);
}

static void print_outcome(const char *who, const struct call *c, const struct outcome *outcome)
{
    print_code(who, outcome->code);
    if (outcome->code == 0) {
        printf("; results %" PRIu64 " %" PRIu64 " %" PRIu64 " %" PRIu64, outcome->value[0], outcome->value[1],
               outcome->value[2], outcome->value[3]);
        print_words("; plan", outcome->plan, c->set.word[3 + c->set.word[2]]);
    }
    printf("\n");
}

/* 'Its refusals are the planner's without 5, and where both succeed the four numbers and the plan list are equal.' */
static void compare_engines(const struct call *c, const struct outcome *planner, const struct outcome *dull)
{
    count.planned_beside_11 += dull->code >> 32 == 11 && planner->code == 0;
    if (planner->code >> 32 == 5 || dull->code >> 32 == 11)
        return;
    if (memcmp(planner, dull, sizeof *planner) != 0) {
        print_call(c);
        printf("the planner and the dull engine differ\n");
        print_outcome("planner", c, planner);
        print_outcome("dull engine", c, dull);
        exit(1);
    }
    count.compared++;
    count.compared_planned += dull->code == 0;
}

/* Whether the dull engine is asked too: it refuses, or there are few plans; with more of them only at times. */
static int is_quick(const struct answer *planned)
{
    if (planned->plans <= DULL_PLANS || planned->plans == MANY_PLANS)
        return 1;
    return one_in(planned->plans <= MORE_PLANS ? 10 : 200);
}

/* The dull engine, lent what the planner was but for the working words, beside what the planner has left. */
static void try_dull(const struct call *planned, const struct outcome *planner)
{
    struct call c = *planned;
    struct outcome dull;
    struct answer want;

    c.entry = DULL;
    take(&c, try_call(&c, &want), &dull);
    compare_engines(&c, planner, &dull);
}

/* A call of the planner, and one of the dull engine where that is quick. Leaves what was expected of the planner. */
static void try_engines(const struct call *c, struct answer *planned)
{
    struct outcome planner;

    take(c, try_call(c, planned), &planner);
    if (is_quick(planned))
        try_dull(c, &planner);
}

/* ---- Calls of a set */

static int is_long(const struct call *c)
{
    struct answer answer;

    expect_walk(c->set.word, c->set_len, c->plan, 0, 0, &answer);
    return answer.span > SHORT_SPAN;
}

static size_t words_needed(const struct list *set)
{
    uint64_t tasks = set->word[3 + set->word[2]];

    return (tasks + 1) * (4000 * tasks / set->word[0] + 1);
}

/* A call of a list, or of its first words, that lends just as much as it needs, and somewhat where it is no set. */
static void start_call(struct call *c, enum entry entry, const struct list *set, size_t set_len)
{
    int is_set = can_be_written(set->word, set_len);

    c->entry = entry;
    c->set = *set;
    c->set_len = set_len;
    c->plan_len = is_set ? set->word[3 + set->word[2]] : MOST_TASKS;
    c->work_len = entry != PLAN ? 0 : is_set ? words_needed(set) : 3000;
    c->results_len = RESULT_BYTES;
    for (size_t i = 0; i < MOST_PLAN; i++)
        c->plan[i] = 1;
}

/* All calls of a list that may be no set; a hyper-period that would take long is left out. */
static void try_all(const struct list *set, size_t set_len)
{
    struct call c;
    struct answer want;

    start_call(&c, WALK, set, set_len);
    if (is_long(&c))
        return;
    try_call(&c, &want);
    start_call(&c, PLAN, set, set_len);
    c.plan_len += draw(0, 4);
    c.work_len += draw(0, 4);
    c.results_len += draw(0, 4);
    try_engines(&c, &want);
}

static void walk_under(const struct list *set, const uint32_t *plan, size_t plan_len, struct answer *want)
{
    struct call c;

    start_call(&c, WALK, set, set->len);
    memcpy(c.plan, plan, plan_len * sizeof *plan);
    c.plan_len = plan_len;
    try_call(&c, want);
}

static void generate_lending(uint32_t seed, uint32_t tasks, size_t set_len, size_t results_len, struct answer *want)
{
    struct call c = {.entry = GENERATE, .seed = seed, .tasks = tasks, .set_len = set_len, .results_len = results_len};

    try_call(&c, want);
}

/* ---- The documents' own cases, by value */

#define COUNT(list) (sizeof(list) / sizeof *(list))

static void demand(int holds, const char *what)
{
    if (!holds) {
        printf("the reference departs from the documents: %s\n", what);
        exit(1);
    }
}

static struct list list_of(const uint32_t *word, size_t len)
{
    struct list list = {{0}, len};

    memcpy(list.word, word, len * sizeof *word);
    return list;
}

static int has_values(const struct answer *answer, uint64_t a, uint64_t b, uint64_t c, uint64_t d)
{
    return answer->code == 0 && answer->value[0] == a && answer->value[1] == b && answer->value[2] == c && answer->value[3] == d;
}

static int is_refusal(const struct answer *answer, uint64_t number, uint64_t second)
{
    return answer->code == (number << 32) + second;
}

static void plan_lending(const struct list *set, size_t plan_len, size_t work_len, struct answer *want)
{
    struct call c;

    start_call(&c, PLAN, set, set->len);
    c.plan_len = plan_len;
    c.work_len = work_len;
    try_engines(&c, want);
}

static void dull_lending(const struct list *set, size_t plan_len, size_t results_len, struct answer *want)
{
    struct call c;

    start_call(&c, DULL, set, set->len);
    c.plan_len = plan_len;
    c.results_len = results_len;
    try_call(&c, want);
}

static void cases_of_s(void)
{
    static const uint32_t s[] = {100, 0, 3, 2, 4, 8, 2, 10, 12, 0, 4, 9, 20, 15, 20, 0, 7, 15, 30};
    struct list set = list_of(s, COUNT(s));
    struct answer want;

    plan_lending(&set, 2, 243, &want);
    demand(has_values(&want, 1, 29, 30, 41) && want.plan[0] == 2 && want.plan[1] == 1, "S");
    plan_lending(&set, 2, 242, &want);
    demand(is_refusal(&want, 5, 243), "S with 242 working words");
    walk_under(&set, (const uint32_t[]){1, 1}, 2, &want);
    demand(has_values(&want, 0, 15, 2, 0), "walk of 1 1");
    walk_under(&set, (const uint32_t[]){2, 1}, 2, &want);
    demand(has_values(&want, 1, 29, 1, 1), "walk of 2 1");
    walk_under(&set, (const uint32_t[]){1, 3}, 2, &want);
    demand(want.code == 0 && want.value[0] == 1 && want.value[1] == 24, "load of 1 3");
    walk_under(&set, (const uint32_t[]){1, 4}, 2, &want);
    demand(is_refusal(&want, 8, 1), "walk of 1 4");
    set.word[0] = 1000;
    plan_lending(&set, 2, 27, &want);
    demand(has_values(&want, 8, 28, 30, 42) && want.plan[0] == 1 && want.plan[1] == 2, "S with slack 1,000");
    plan_lending(&set, 2, 26, &want);
    demand(is_refusal(&want, 5, 27), "S with slack 1,000 and 26 working words");
    set.word[0] = 0;
    plan_lending(&set, 2, 243, &want);
    demand(is_refusal(&want, 2, 0), "slack of 0");
    set.word[0] = 100;
    set.word[1] = 1;
    plan_lending(&set, 2, 243, &want);
    demand(is_refusal(&want, 10, 10), "S with an idle energy of 1");
    walk_under(&set, (const uint32_t[]){2, 1}, 2, &want);
    demand(has_values(&want, 1, 29, 1, 1), "its walk of 2 1");
    set.word[1] = 1001;
    plan_lending(&set, 2, 243, &want);
    demand(is_refusal(&want, 2, 1), "S with an idle energy of 1,001");
}

static void cases_of_others(void)
{
    struct list set = list_of((const uint32_t[]){100, 0, 2, 1, 2, 1, 30, 60, 0, 1, 2}, 11);
    struct list rates = list_of((const uint32_t[]){100, 0, 2, 4, 4, 1, 30, 60, 0, 1, 2}, 11);
    struct list energy = list_of((const uint32_t[]){1000, 0, 2, 1, 2, 1, 30, 30, 0, 33, 33}, 11);
    struct list periods = list_of((const uint32_t[]){100, 0, 2, 1, 2, 2, 9999999, 1, 0, 1, 1, 10000000, 1, 0, 1, 1}, 16);
    struct list period = list_of((const uint32_t[]){100, 0, 2, 1, 2, 1, 10000000, 1, 0, 1, 1}, 11);
    struct list empty = {{0}, 0};
    struct answer want;

    plan_lending(&set, 1, 82, &want);
    demand(want.code == 0 && want.value[1] == 30 && want.value[2] == 30 && want.plan[0] == 2, "60 cycles");
    set.word[7] = 61;
    plan_lending(&set, 1, 82, &want);
    demand(is_refusal(&want, 7, 0), "61 cycles");
    plan_lending(&energy, 1, 10, &want);
    demand(want.code == 0 && want.value[0] == 32, "one task energy of 33");
    plan_lending(&rates, 1, 82, &want);
    demand(is_refusal(&want, 3, 4), "rates 4 4");
    plan_lending(&empty, 1, 82, &want);
    demand(is_refusal(&want, 2, 0), "empty list");
    plan_lending(&periods, 2, 243, &want);
    demand(is_refusal(&want, 4, 11), "periods 9,999,999 and 10,000,000");
    plan_lending(&period, 1, 82, &want);
    demand(want.code == 0 && want.value[2] == 10000000, "period of 10,000,000");
    walk_under(&periods, (const uint32_t[]){1, 1}, 2, &want);
    demand(is_refusal(&want, 4, 11), "walk of periods 9,999,999 and 10,000,000");
    walk_under(&rates, (const uint32_t[]){1}, 1, &want);
    demand(is_refusal(&want, 3, 4), "walk of rates 4 4");
    walk_under(&empty, (const uint32_t[]){1}, 1, &want);
    demand(is_refusal(&want, 2, 0), "walk of the empty list");
}

/* Worked with a calculator: job times 90 and 10, so that waiting costs 900 and 100 of 10 a tick. */
static void cases_of_idle(void)
{
    static const struct {
        uint32_t idle, slow, fast;
        uint64_t number, second;        /* a refusal, or */
        uint64_t unit, load, energy, rate;
    } cases[] = {
        {10, 910, 200, 0, 0, 1, 90, 1010, 1},
        {0, 910, 200, 0, 0, 8, 10, 200, 2},
        {11, 910, 200, 10, 9, 0, 0, 0, 0},
        {10, 900, 200, 0, 0, 1, 90, 1000, 1},   /* nothing is left of the slow rate's, */
        {10, 899, 200, 10, 9, 0, 0, 0, 0},
        {10, 910, 100, 0, 0, 1, 10, 1000, 2},   /* of the fast one's, and so the first unit is 1, */
        {10, 910, 99, 10, 10, 0, 0, 0, 0},
        {10, 900, 100, 0, 0, 1, 10, 1000, 2},   /* and of both, where the load decides */
        {10, 900, 101, 0, 0, 1, 90, 1000, 1},
        {10, 899, 99, 10, 9, 0, 0, 0, 0},
        {1000, 1000000, 1000000, 0, 0, 32768, 90, 1010000, 1},
    };
    struct list set = list_of((const uint32_t[]){100, 0, 2, 1, 9, 1, 100, 90, 0, 0, 0}, 11);
    struct answer want;

    for (size_t i = 0; i < COUNT(cases); i++) {
        set.word[1] = cases[i].idle;
        set.word[9] = cases[i].slow;
        set.word[10] = cases[i].fast;
        plan_lending(&set, 1, 82, &want);
        demand(cases[i].number > 0 ? is_refusal(&want, cases[i].number, cases[i].second)
                                   : has_values(&want, cases[i].unit, cases[i].load, 100, cases[i].energy)
                                         && want.plan[0] == cases[i].rate,
               "an idle energy");
        walk_under(&set, (const uint32_t[]){1}, 1, &want);
        demand(has_values(&want, 1, 90, 10, 0), "a walk with an idle energy");
    }
    /* 512 x 2^23 is 0 at 32 bits. */
    set = list_of((const uint32_t[]){100, 512, 2, 1, 2, 1, 10000000, 8388608, 0, 1000000, 1000000}, 11);
    plan_lending(&set, 1, 82, &want);
    demand(is_refusal(&want, 10, 9), "a job of 8,388,608 ticks");
}

/* Tasks with a period, a job time at rate 1 and a first release; the second rate is twice as fast. */
static void timed_shape(struct shape *shape, const uint32_t (*task)[3], uint32_t tasks)
{
    *shape = (struct shape){.slack = 100, .rates = 2, .rate = {1, 2}, .tasks = tasks};
    for (uint32_t t = 0; t < tasks; t++) {
        shape->period[t] = task[t][0];
        shape->cycles[t] = task[t][1];
        shape->first[t] = task[t][2];
        shape->energy[t][0] = 1;
        shape->energy[t][1] = 2;
    }
}

/* Worked by hand: walks of one or two tasks at rate 1. The first is kept though its load is 3 and L is 2; in the second
   'unfinished', asked after a tick's releases, would count a third preemption. */
static void cases_of_firsts(void)
{
    static const struct {
        uint32_t tasks, task[2][3];
        uint64_t value[4];
    } cases[] = {
        {2, {{2, 1, 0}, {2, 2, 1}}, {1, 4, 0, 0}},
        {2, {{2, 1, 1}, {4, 2, 1}}, {1, 7, 1, 2}},
        {2, {{2, 1, 0}, {4, 2, 0}}, {1, 4, 0, 1}},      /* all 0: to L */
        {1, {{5, 3, 2}}, {1, 6, 4, 0}},
        {1, {{5, 5, 4}}, {1, 6, 4, 0}},                 /* four ticks are left at 10, until 14 */
        {1, {{5, 6, 2}}, {0, 7, 1, 0}},
        {2, {{4, 4, 0}, {4, 2, 3}}, {0, 8, 1, 0}},      /* at 2 x L itself */
        {2, {{4, 2, 0}, {4, 2, 3}}, {1, 7, 1, 0}},
        {2, {{6, 3, 0}, {2, 1, 1}}, {1, 12, 0, 4}},
    };
    struct list set;
    struct answer want, plain;

    for (size_t i = 0; i < COUNT(cases); i++) {
        const uint64_t *value = cases[i].value;
        struct shape shape;
        timed_shape(&shape, cases[i].task, cases[i].tasks);
        flatten(&shape, &set);
        walk_under(&set, (const uint32_t[]){1, 1}, cases[i].tasks, &want);
        demand(has_values(&want, value[0], value[1], value[2], value[3]), "a walk with first releases");
        plan_lending(&set, cases[i].tasks, words_needed(&set), &want);
        memset(shape.first, 0, sizeof shape.first);
        flatten(&shape, &set);
        plan_lending(&set, cases[i].tasks, words_needed(&set), &plain);
        demand(memcmp(&want, &plain, sizeof want) == 0, "a plan with first releases");
    }
    /* The period is 10. */
    set = list_of((const uint32_t[]){100, 0, 2, 1, 2, 1, 10, 1, 9, 1, 2}, 11);
    plan_lending(&set, 1, 82, &want);
    demand(want.code == 0, "a first release of 9");
    for (uint32_t first = 10; first <= 12; first++) {
        set.word[8] = first == 12 ? UINT32_MAX : first;
        plan_lending(&set, 1, 82, &want);
        demand(is_refusal(&want, 2, 8), "a first release too late");
        walk_under(&set, (const uint32_t[]){1}, 1, &want);
        demand(is_refusal(&want, 2, 8), "the walk of a first release too late");
    }
}

/* Tasks alike, of two rates: with every task at the slow one the load is L, at the fast one half of it. */
static void half_shape(struct shape *shape, uint32_t slack, uint32_t tasks, uint32_t slow, uint32_t fast)
{
    *shape = (struct shape){.slack = slack, .rates = 2, .rate = {1, 2}, .tasks = tasks};
    for (uint32_t t = 0; t < tasks; t++) {
        shape->period[t] = 2 * tasks;
        shape->cycles[t] = 2;
        shape->energy[t][0] = slow;
        shape->energy[t][1] = fast;
    }
}

/* Energies that are as far above the least as the unit allows, 31 and 1 for each task, and with a slack of 1 less the
   least themselves. */
static void cases_of_margin(void)
{
    static const struct {
        uint32_t slack, idle, tasks, slow, fast;
        uint64_t unit, energy, rate, least;
    } cases[] = {
        {1000, 0, 1, 33, 64, 32, 64, 2, 33},
        {1000, 0, 1, 3, 4, 2, 4, 2, 3},
        {999, 0, 1, 3, 4, 1, 3, 1, 3},
        {1000, 0, 1, 33, 33, 32, 33, 2, 33},
        {1000, 0, 2, 33, 64, 32, 128, 2, 66},
        {1000, 0, 2, 3, 4, 2, 8, 2, 6},
        {999, 0, 2, 3, 4, 1, 6, 1, 6},
        {1000, 1, 1, 5, 5, 2, 6, 2, 5},         /* 3 and 4 are left of 5 and 5 */
        {999, 1, 1, 5, 5, 1, 5, 1, 5},
        {1000, 1, 2, 5, 5, 2, 12, 2, 10},
        {1000, 10, 3, 53, 74, 32, 252, 2, 159},
    };
    struct list set;
    struct answer want;

    for (size_t i = 0; i < COUNT(cases); i++) {
        uint32_t tasks = cases[i].tasks;
        struct shape shape;
        half_shape(&shape, cases[i].slack, tasks, cases[i].slow, cases[i].fast);
        shape.idle = cases[i].idle;
        flatten(&shape, &set);
        plan_lending(&set, tasks, words_needed(&set), &want);
        demand(has_values(&want, cases[i].unit, cases[i].rate == 1 ? 2 * tasks : tasks, 2 * tasks, cases[i].energy)
                   && want.plan[0] == cases[i].rate && want.plan[tasks - 1] == cases[i].rate,
               "a margin");
        demand(least_energy(set.word) == cases[i].least, "a least energy");
    }
    set = list_of((const uint32_t[]){100, 0, 2, 1, 2, 1, 30, 61, 0, 1, 2}, 11);
    demand(least_energy(set.word) == NO_ENERGY, "a least energy where no plan fits");
}

/* Document 01's set for the dull engine, and sets worked by hand in which the order of the plans decides: the first of
   two twins is fast, 3 1 and not 1 2, the first plan of all where none differs, and the last where no other fits. */
static void cases_of_dull(void)
{
    static const uint32_t over[][2] = {{2, 20}, {4, 10}, {8, 7}, {3, 13}, {6, 8}, {5, 9}, {7, 8}};
    struct shape shape;
    static const struct {
        size_t len, tasks;
        uint32_t word[24];
        uint64_t value[4];
        uint32_t plan[3];
    } cases[] = {
        {19, 2, {100, 0, 3, 2, 4, 8, 2, 10, 12, 0, 4, 9, 20, 15, 20, 0, 7, 15, 30}, {1, 29, 30, 41}, {2, 1}},
        {19, 2, {1000, 0, 3, 2, 4, 8, 2, 10, 12, 0, 4, 9, 20, 15, 20, 0, 7, 15, 30}, {8, 28, 30, 42}, {1, 2}},
        {11, 1, {100, 10, 2, 1, 9, 1, 100, 90, 0, 910, 200}, {1, 90, 100, 1010}, {1}},
        {11, 1, {1000, 0, 2, 1, 2, 1, 30, 30, 0, 33, 33}, {32, 15, 30, 33}, {2}},
        {11, 1, {100, 0, 2, 1, 2, 1, 30, 60, 0, 1, 2}, {1, 30, 30, 2}, {2}},
        {16, 2, {100, 0, 2, 1, 2, 2, 3, 2, 0, 1, 3, 3, 2, 0, 1, 3}, {1, 3, 3, 4}, {2, 1}},
        {19, 2, {100, 0, 3, 1, 2, 3, 2, 5, 3, 0, 1, 9, 3, 5, 4, 0, 1, 3, 9}, {1, 5, 5, 4}, {3, 1}},
        {19, 2, {100, 0, 3, 1, 2, 3, 2, 5, 4, 0, 1, 3, 9, 5, 3, 0, 1, 9, 3}, {1, 5, 5, 4}, {2, 1}},
        {21, 3, {1000, 0, 2, 1, 2, 3, 3, 1, 0, 5, 5, 3, 1, 0, 5, 5, 3, 1, 0, 5, 5}, {4, 3, 3, 15}, {1, 1, 1}},
        {11, 1, {100, 10, 2, 1, 9, 1, 100, 90, 0, 900, 100}, {1, 10, 100, 1000}, {2}},
    };
    struct list set;
    struct answer want;

    for (size_t i = 0; i < COUNT(cases); i++) {
        const uint64_t *value = cases[i].value;
        set = list_of(cases[i].word, cases[i].len);
        dull_lending(&set, cases[i].tasks, RESULT_BYTES, &want);
        demand(has_values(&want, value[0], value[1], value[2], value[3])
                   && memcmp(want.plan, cases[i].plan, cases[i].tasks * sizeof *want.plan) == 0,
               "a plan of the dull engine");
        dull_lending(&set, cases[i].tasks - 1, RESULT_BYTES, &want);
        demand(is_refusal(&want, 6, cases[i].tasks), "the dull engine's plan list");
        dull_lending(&set, cases[i].tasks, RESULT_BYTES - 1, &want);
        demand(is_refusal(&want, 6, 32), "the dull engine's results");
    }
    set = list_of((const uint32_t[]){100, 0, 2, 1, 2, 1, 30, 61, 0, 1, 2}, 11);
    dull_lending(&set, 1, RESULT_BYTES, &want);
    demand(is_refusal(&want, 7, 0), "61 cycles, for the dull engine");
    dull_lending(&set, 1, RESULT_BYTES - 1, &want);
    demand(is_refusal(&want, 6, 32), "the dull engine's results before 7");
    dull_lending(&set, 0, RESULT_BYTES - 1, &want);
    demand(is_refusal(&want, 6, 1), "the dull engine's plan list before its results");
    for (size_t i = 0; i < COUNT(over); i++) {          /* from 1,048,576 plans to 5,764,801 */
        plain_shape(&shape, over[i][0], over[i][1]);
        flatten(&shape, &set);
        dull_lending(&set, over[i][1], RESULT_BYTES, &want);
        demand(is_refusal(&want, 11, 0), "too many plans");
    }
}

/* Worked with a calculator: from seed 0 the draws are 15470, 18256, 53708, 43769, 25170, 40750, 22526, 41945, 33277,
   from 4294967295 they are 15445, 12311, 8835, from 174 19890, 3999, 62834, and from 378 25071, 37000, 41894. */
static void cases_of_generator(void)
{
    static const uint32_t from_0[] = {100, 0, 5, 100, 200, 300, 400, 500, 3, 200, 257, 0, 7, 28, 63, 112, 175,
                                      20, 171, 0, 9, 36, 81, 144, 225, 200, 946, 0, 6, 24, 54, 96, 150};
    static const uint32_t one[][17] = {{100, 0, 5, 100, 200, 300, 400, 500, 1, 100, 312, 0, 8, 32, 72, 128, 200},
                                       {100, 0, 5, 100, 200, 300, 400, 500, 1, 25, 1000, 0, 7, 28, 63, 112, 175},
                                       {100, 0, 5, 100, 200, 300, 400, 500, 1, 400, 1, 0, 10, 40, 90, 160, 250}};
    static const uint32_t seeds[] = {4294967295u, 174, 378};
    struct answer want;

    generate_lending(0, 3, 33, 32, &want);
    demand(has_values(&want, 33, 0, 0, 0) && memcmp(want.set, from_0, sizeof from_0) == 0, "three tasks from seed 0");
    for (size_t i = 0; i < COUNT(seeds); i++) {
        generate_lending(seeds[i], 1, 400, 40, &want);
        demand(has_values(&want, 17, 0, 0, 0) && memcmp(want.set, one[i], sizeof one[i]) == 0, "a task from a seed");
    }
    generate_lending(7, 0, 400, 32, &want);
    demand(is_refusal(&want, 2, 0), "no task");
    generate_lending(7, 33, 0, 0, &want);
    demand(is_refusal(&want, 2, 0), "33 tasks, and no word");
    generate_lending(7, 32, 264, 0, &want);
    demand(is_refusal(&want, 6, 265), "32 tasks in 264 words");
    generate_lending(7, 32, 265, 31, &want);
    demand(is_refusal(&want, 6, 32), "31 bytes for results");
}

/* Two lists that are only read may be one: here the plan is the first task's energies. */
static void case_of_one_list(void)
{
    static const uint32_t s[] = {100, 0, 2, 2, 4, 2, 10, 12, 0, 2, 1, 15, 20, 0, 7, 15};
    uint8_t results[RESULT_BYTES], must[RESULT_BYTES] = {1};
    uint64_t code = seedspell_walk(s, COUNT(s), s + 9, 2, results, sizeof results);

    must[8] = 29;
    must[16] = 1;
    must[24] = 1;
    if (code != 0 || memcmp(results, must, sizeof must) != 0) {
        printf("the walk departs where its plan lies in its set\n");
        exit(1);
    }
}

/* ---- Edges, one after the other */

/* Every word of a set at every end of a range. */
static void edge_words(uint32_t rates, uint32_t tasks)
{
    static const uint32_t ends[] = {0, 1, 2, 3, 7, 8, 9, 31, 32, 33, 999, 1000, 1001, 999999, 1000000, 1000001, 9999999, 10000000,
                                    10000001, 3999999999u, 4000000000u, 4000000001u, 2147483647u, 2147483648u, 4294967295u};
    struct shape shape;
    struct list set;

    plain_shape(&shape, rates, tasks);
    flatten(&shape, &set);
    for (size_t at = 0; at < set.len; at++) {
        uint32_t word = set.word[at];
        for (size_t i = 0; i < COUNT(ends); i++) {
            set.word[at] = ends[i];
            try_all(&set, set.len);
        }
        set.word[at] = word;
    }
}

/* Every length of a set's list, from 0 to 2 more: the words that are not lent still lie there. */
static void edge_lengths(uint32_t rates, uint32_t tasks)
{
    struct shape shape;
    struct list set;

    plain_shape(&shape, rates, tasks);
    flatten(&shape, &set);
    set.word[set.len] = 40;
    set.word[set.len + 1] = 10;
    set.len += 2;
    for (size_t len = 0; len <= set.len; len++)
        try_all(&set, len);
}

/* One rate or task more than allowed, with all their words, and none or one fewer. */
static void edge_counts(void)
{
    struct shape shape;
    struct list set;

    for (uint32_t rates = 1; rates <= 9; rates++)
        for (uint32_t tasks = 0; tasks <= 33; tasks++) {
            plain_shape(&shape, rates, tasks);
            flatten(&shape, &set);
            try_all(&set, set.len);
        }
}

/* Each rate as low as the one before it, or lower; also two of them, and with a word out of range after them. */
static void edge_rates(void)
{
    struct shape shape;
    struct list set;

    for (uint32_t rates = 2; rates <= 8; rates++)
        for (uint32_t i = 1; i < rates; i++)
            for (uint32_t j = 1; j < rates; j++)
                for (uint32_t less = 0; less <= 2; less++) {
                    plain_shape(&shape, rates, 2);
                    shape.rate[i] = shape.rate[i - 1] - less / 2;
                    shape.rate[j] = shape.rate[j - 1] - less % 2;
                    flatten(&shape, &set);
                    try_all(&set, set.len);
                    set.word[set.len - 1] = 0;
                    try_all(&set, set.len);
                }
}

/* The running multiple at 10,000,000 and just over it, with the period that does it at each place. */
static void edge_periods(void)
{
    struct shape shape;
    struct list set;

    for (uint32_t at = 1; at < 6; at++)
        for (uint32_t first = 0; first < at; first++) {
            plain_shape(&shape, 3, 6);
            shape.period[first] = 909091;       /* 11 x 909,091 is 10,000,001 */
            for (uint32_t t = 0; t < 6; t++)
                if (t != first)
                    shape.period[t] = 1;
            shape.period[at] = 11;
            flatten(&shape, &set);
            try_all(&set, set.len);
            shape.period[5] = 10000000;         /* passes it again, later */
            flatten(&shape, &set);
            try_all(&set, set.len);
            set.word[3] = 20;                   /* a rate not above the one before it comes first */
            try_all(&set, set.len);
        }
}

/* Lists one short, just enough and one over, in all combinations, of sets that fit and sets that do not. */
static void edge_lent(const struct list *set, uint32_t tasks)
{
    size_t needed = words_needed(set);
    const size_t work[] = {0, 1, needed - 1, needed, needed + 1}, plan[] = {0, tasks - 1, tasks, tasks + 1},
                 results[] = {0, 1, 31, 32, 33, 40};
    struct call c;
    struct answer want;

    start_call(&c, PLAN, set, set->len);
    for (size_t i = 0; i < COUNT(work); i++)
        for (size_t j = 0; j < COUNT(plan); j++)
            for (size_t k = 0; k < COUNT(results); k++) {
                c.work_len = work[i];
                c.plan_len = plan[j];
                c.results_len = results[k];
                if (work[i] == needed)
                    try_engines(&c, &want);
                else
                    try_call(&c, &want);
            }
}

static void edge_lent_sets(void)
{
    struct shape shape;
    struct list set;

    for (uint32_t tasks = 1; tasks <= 8; tasks++)
        for (int kind = 0; kind < 9; kind++) {
            plain_shape(&shape, 2 + tasks % 3, tasks);
            shape.slack = 1 + (uint32_t)draw(0, 999) / (kind == 1 ? 10 : 1);
            if (kind == 2)
                shape.cycles[0] = 4000000000u;          /* no plan fits */
            if (kind == 3)
                shape.rate[1] = shape.rate[0];
            if (kind == 4)
                shape.energy[tasks - 1][0] = 0;
            if (kind == 5 || kind == 8)
                shape.period[tasks - 1] = 9999991;      /* with 40 too long */
            if (kind == 6)
                raise_energies(&shape, 1 + 199 * tasks);
            if (kind > 6) {                             /* an energy below what waiting costs */
                shape.idle = 10;
                shape.cycles[tasks - 1] = 400;
            }
            flatten(&shape, &set);
            if (kind != 5 || tasks > 1)
                edge_lent(&set, tasks);
        }
}

/* Every energy as high as waiting costs, or a little more; then one and two of them one lower, or as low as can be. */
static void edge_idle(uint32_t rates, uint32_t tasks, uint32_t idle, uint32_t left)
{
    struct shape shape;
    struct list set;
    size_t first = 4 + rates;

    plain_shape(&shape, rates, tasks);
    for (uint32_t t = 0; t < tasks; t++) {
        shape.cycles[t] = 10 + 25 * (t % 4);
        for (uint32_t r = 0; r < rates; r++)
            shape.energy[t][r] = left;
    }
    raise_energies(&shape, idle);
    flatten(&shape, &set);
    try_all(&set, set.len);
    for (size_t a = first; a < set.len; a++) {
        uint32_t word = set.word[a];
        size_t b = draw(first, set.len - 1);
        if ((a - first) % (3 + rates) < 3)
            continue;
        for (uint32_t low = 0; low < 3; low++) {
            uint32_t other = set.word[b];
            set.word[a] = low == 0 ? word - left - 1 : low == 1 ? word - left : 1;
            try_all(&set, set.len);
            if (b != a && (b - first) % (3 + rates) > 2)
                set.word[b] = low == 2 ? 1 : other - left - 1;
            try_all(&set, set.len);
            set.word[b] = other;
            set.word[a] = word;
        }
    }
}

static void edge_idle_sets(void)
{
    for (uint32_t rates = 2; rates <= 8; rates += 3)
        for (uint32_t tasks = 1; tasks <= 5; tasks += 2)
            for (uint32_t left = 0; left <= 2; left++) {
                edge_idle(rates, tasks, 2 + left, left);
                edge_idle(rates, tasks, 1000 - left, left);
            }
    edge_idle(8, 32, 77, 0);
}

/* Energies that are k units rounded up at both rates, just k of them at the fast one and one microjoule more than k - 1
   at the slow one: with the least slack for which k is enough all of the margin is used. And with one less. */
static void edge_margin(uint32_t tasks, uint32_t unit, uint32_t k, uint32_t idle)
{
    struct shape shape;
    struct list set;

    half_shape(&shape, (2000 + k - 1) / k, tasks, (k - 1) * unit + 1, k * unit);
    raise_energies(&shape, idle);
    for (int less = 0; less <= 1; less++, shape.slack--) {
        flatten(&shape, &set);
        plan_lending(&set, tasks, words_needed(&set), &(struct answer){0});
    }
}

static void edge_margins(void)
{
    static const uint32_t rounded[] = {2, 3, 4, 7, 20, 100};

    for (uint32_t tasks = 1; tasks <= 8; tasks++)
        for (uint32_t unit = 1; unit <= 8192; unit *= 2)
            for (size_t i = 0; i < COUNT(rounded); i++) {
                edge_margin(tasks, unit, rounded[i], 0);
                edge_margin(tasks, unit, rounded[i], tasks % 2 == 0 ? 1 : 1000);
            }
}

/* The walk's plan of every length, with bad words at every one and two places, and results of every size about 32. */
static void edge_plans(uint32_t rates, uint32_t tasks)
{
    const uint32_t bad[] = {0, rates + 1, 4294967295u};
    const size_t results[] = {0, 31, 32, 33};
    struct shape shape;
    struct list set;
    struct call c;
    struct answer want;

    plain_shape(&shape, rates, tasks);
    flatten(&shape, &set);
    start_call(&c, WALK, &set, set.len);
    for (c.plan_len = 0; c.plan_len <= tasks + 2; c.plan_len++)
        for (size_t i = 0; i <= c.plan_len; i++)
            for (size_t k = 0; k < 2 * COUNT(bad); k++) {
                for (size_t t = 0; t < MOST_PLAN; t++)
                    c.plan[t] = 1 + (uint32_t)draw(0, rates - 1);
                if (i < c.plan_len)
                    c.plan[i] = bad[k / 2];
                if (k % 2 == 1 && c.plan_len > 0)
                    c.plan[draw(0, c.plan_len - 1)] = bad[k / 2];
                c.results_len = results[draw(0, 3)];
                try_call(&c, &want);
            }
}

/* Every first release about the ends of its range, and about the other task's period. */
static void edge_firsts(uint32_t rates, uint32_t tasks)
{
    static const uint32_t ends[] = {0, 1, 38, 39, 40, 41, 78, 79, 80, 81, 65575, 65576, 2147483648u, 4294967295u};
    struct shape shape;
    struct list set;

    for (uint32_t t = 0; t < tasks; t++)
        for (size_t i = 0; i < COUNT(ends); i++) {
            plain_shape(&shape, rates, tasks);
            shape.first[t] = ends[i];
            flatten(&shape, &set);
            try_all(&set, set.len);
            shape.first[draw(0, tasks - 1)] = ends[draw(0, COUNT(ends) - 1)];
            flatten(&shape, &set);
            try_all(&set, set.len);
        }
}

/* All walks of two tasks with periods up to 4, job times up to one more than that, and every first release. */
static void edge_small_walks(void)
{
    uint32_t task[2][3];
    struct shape shape;
    struct list set;

    for (uint32_t p = 1; p <= 4; p++)
        for (uint32_t q = 1; q <= 4; q++)
            for (uint32_t i = 0; i < (p + 1) * p * (q + 1) * q; i++) {
                task[0][0] = p;
                task[0][1] = 1 + i % (p + 1);
                task[0][2] = i / (p + 1) % p;
                task[1][0] = q;
                task[1][1] = 1 + i / (p + 1) / p % (q + 1);
                task[1][2] = i / (p + 1) / p / (q + 1);
                timed_shape(&shape, (const uint32_t (*)[3])task, 2);
                flatten(&shape, &set);
                walk_under(&set, (const uint32_t[]){1, 1}, 2, &(struct answer){0});
            }
}

/* One task at every load about L: it fits at L. */
static void edge_load(void)
{
    struct shape shape;
    struct list set;

    for (uint32_t period = 1; period <= 40; period++)
        for (uint32_t rate = 2; rate <= 9; rate += 7)
            for (uint32_t more = 0; more <= 2; more++) {
                plain_shape(&shape, 2, 1);
                shape.rate[0] = rate - 1;
                shape.rate[1] = rate;
                shape.period[0] = period;
                shape.cycles[0] = period * rate + more - 1;
                flatten(&shape, &set);
                try_all(&set, set.len);
                walk_under(&set, (const uint32_t[]){2}, 1, &(struct answer){0});
            }
}

/* For each number of rates the most tasks with M to the power N not over 1,000,000. */
static const uint32_t most_tasks[MOST_RATES + 1] = {0, 0, 19, 12, 9, 8, 7, 7, 6};

/* Every M and N, with lists of all lengths about what is needed, and with each cause that comes before 11 or after it:
   where N words are not lent, there is 6 or 11, and no plan to be looked for. */
static void edge_powers(void)
{
    static const size_t results[] = {0, 31, 32};
    struct shape shape;
    struct list set;
    struct answer want;

    for (uint32_t rates = 2; rates <= 8; rates++)
        for (uint32_t tasks = 1; tasks <= 32; tasks++)
            for (int kind = 0; kind < 6; kind++) {
                int many = tasks > most_tasks[rates];
                plain_shape(&shape, rates, tasks);
                if (kind == 1)
                    shape.cycles[tasks - 1] = 4000000000u;      /* no plan fits */
                if (kind == 2)
                    shape.period[tasks - 1] = 9999991;          /* with 40 too long */
                if (kind == 3) {                                /* an energy below what waiting costs */
                    shape.idle = 10;
                    shape.cycles[tasks - 1] = 400;
                }
                if (kind == 4)
                    shape.rate[rates - 1] = shape.rate[rates - 2];
                if (kind == 5)
                    shape.energy[tasks - 1][rates - 1] = 0;
                flatten(&shape, &set);
                for (size_t k = 0; k < COUNT(results); k++) {
                    dull_lending(&set, tasks - 1, results[k], &want);
                    demand(kind > 2 || (kind == 2 && tasks > 1) || is_refusal(&want, many ? 11 : 6, many ? 0 : tasks),
                           "M to the power N");
                    if (many)
                        dull_lending(&set, tasks + k, results[k], &want);
                }
            }
}

/* As many plans as are allowed: the first is the best of them, the last, or one between. */
static void edge_most_plans(void)
{
    struct shape shape;
    struct list set;
    struct answer want;

    for (uint32_t rates = 2; rates <= 8; rates++)
        for (uint32_t kind = 0; kind < 3; kind++) {
            uint32_t tasks = most_tasks[rates];
            plain_shape(&shape, rates, tasks);
            for (uint32_t t = 0; t < tasks; t++) {
                shape.period[t] = 40;
                shape.cycles[t] = kind == 0 ? 10 : kind == 1 ? 40 / tasks * 10 * rates : 40 / tasks * 5 * rates + t;
            }
            flatten(&shape, &set);
            dull_lending(&set, tasks, RESULT_BYTES, &want);
            demand(want.code == 0 && (kind > 0 || all_are(want.plan, tasks, 1)), "the most plans");
        }
}

/* Two tasks, the second with one job in a hyper-period of 2^23: loads, costs and energies that pass 32 bits, some of
   which are small again there. A long hyper-period takes the dull engine no longer. */
static void edge_large_sums(void)
{
    static const struct {
        uint32_t idle, rate[2], period, cycles, energy[2];      /* of the first task */
        uint32_t last_cycles;
        uint64_t plan;                                          /* its rate number, or 0 where no plan fits */
    } cases[] = {
        {0, {1, 8}, 1, 512, {1, 9}, 4 << 23, 0},                /* 2^23 jobs of 64 ticks, or of 512, which are 2^32 */
        {0, {1, 8}, 1, 4096, {1, 9}, 1 << 20, 0},
        {0, {1, 8}, 1, 4000000000u, {1, 9}, 8, 0},
        {0, {1, 1000000}, 2, 1024, {1, 9}, 1024, 2},            /* 2^22 jobs of 1,024 ticks are 2^32 */
        {0, {1, 1000000}, 2, 1025, {1, 9}, 1024, 2},
        {0, {1, 1000000}, 2, 512, {1, 9}, 1 << 22, 2},
        {1, {1, 2}, 2, 1, {1025, 1}, 2, 2},                     /* 2^22 jobs of 1,024 above waiting, or of none */
        {1, {1, 2}, 2, 1, {2049, 1}, 2, 2},
        {0, {1, 2}, 2, 1, {1000000, 1000000}, 1, 1},            /* and of 1,000,000, which is given as the energy */
        {1000, {1, 2}, 2, 1, {1000000, 1000000}, 1, 1},
    };
    struct shape shape;
    struct list set;
    struct answer want;

    for (size_t i = 0; i < COUNT(cases); i++)
        for (uint32_t slack = 1; slack <= 1000; slack += 333) {
            shape = (struct shape){.slack = slack, .idle = cases[i].idle, .rates = 2, .tasks = 2};
            memcpy(shape.rate, cases[i].rate, sizeof cases[i].rate);
            memcpy(shape.energy[0], cases[i].energy, sizeof cases[i].energy);
            shape.period[0] = cases[i].period;
            shape.cycles[0] = cases[i].cycles;
            shape.period[1] = 1 << 23;
            shape.cycles[1] = cases[i].last_cycles;
            shape.energy[1][0] = shape.energy[1][1] = 3000;
            flatten(&shape, &set);
            dull_lending(&set, 2, RESULT_BYTES, &want);
            demand(cases[i].plan == 0 ? is_refusal(&want, 7, 0) : want.code == 0 && want.plan[0] == cases[i].plan,
                   "sums past 32 bits");
        }
}

/* The generator's lists of each length about what it needs, in all combinations, also where N is none that it takes. */
static void edge_generate(uint32_t tasks)
{
    const size_t needed = tasks < 40 ? 9 + 8 * tasks : 265, results[] = {0, 1, 31, 32, 33, 40},
                 set[] = {0, 1, needed - 9, needed - 1, needed, needed + 1, MOST_WORDS};
    struct answer want;

    for (size_t i = 0; i < COUNT(set); i++)
        for (size_t k = 0; k < COUNT(results); k++) {
            generate_lending(0, tasks, set[i], results[k], &want);
            generate_lending(4294967295u, tasks, set[i], results[k], &want);
        }
}

/* Every N about 1 and 32, and such as look small where a part of the word is looked at, or where 8 x N wraps. */
static void edge_generated_tasks(void)
{
    static const uint32_t tasks[] = {64, 255, 256, 257, 288, 65536, 65537, 536870912, 536870913, 2147483647, 2147483648u,
                                     2147483649u, 2147483680u, 4294967264u, 4294967294u, 4294967295u};

    for (uint32_t n = 0; n <= 40; n++)
        edge_generate(n);
    for (size_t i = 0; i < COUNT(tasks); i++)
        edge_generate(tasks[i]);
}

/* The first and the last seeds, and those about each power of two. */
static void edge_seeds(void)
{
    struct answer want;

    for (uint32_t i = 0; i < 2000; i++) {
        generate_lending(i, 1, 17, 32, &want);
        generate_lending(UINT32_MAX - i, 1, 17, 32, &want);
    }
    for (uint32_t bit = 0; bit < 32; bit++)
        for (uint32_t more = 0; more <= 2; more++)
            generate_lending(((uint32_t)1 << bit) + more - 1, MOST_TASKS, 265, 32, &want);
}

/* ---- Long hyper-periods, few */

/* Leaves what was expected of the planner. */
static void plan_and_walk(const struct list *set, struct answer *planned)
{
    struct call c;
    struct answer want;

    start_call(&c, PLAN, set, set->len);
    try_engines(&c, planned);
    if (planned->code == 0)
        walk_under(set, planned->plan, planned->plan_words, &want);
}

/* Every word at the end of its range but the cycles: at the highest rate they take `ticks` of 10,000,000 in all. */
static void limit_shape(struct shape *shape, uint32_t tasks, uint32_t slack, uint32_t ticks)
{
    plain_shape(shape, 8, tasks);
    shape->slack = slack;
    for (uint32_t r = 0; r < 8; r++)
        shape->rate[r] = 999993 + r;
    for (uint32_t t = 0; t < tasks; t++) {
        uint64_t share = ticks / tasks + (t < ticks % tasks), cycles = share * 1000000;
        shape->period[t] = 10000000;
        shape->cycles[t] = cycles > 4000000000u ? 4000000000u : (uint32_t)cycles;
        for (uint32_t r = 0; r < 8; r++)
            shape->energy[t][r] = 1000000;
    }
}

static void long_spans(void)
{
    struct shape shape;
    struct list set;

    /* All limits at once: 32 jobs of 4,000,000,000 cycles, 4,000 ticks each and more. */
    limit_shape(&shape, 32, 1, 128000);
    flatten(&shape, &set);
    plan_and_walk(&set, &(struct answer){0});
    /* The same with the highest idle energy that 4,001 ticks allow, and with one more, which the planner refuses. */
    for (shape.idle = 249; shape.idle <= 250; shape.idle++) {
        flatten(&shape, &set);
        plan_lending(&set, 32, words_needed(&set), &(struct answer){0});
    }
    /* 10,000,000 as a multiple, with periods that are not alike. */
    plain_shape(&shape, 3, 2);
    shape.period[0] = 128;
    shape.period[1] = 78125;
    shape.cycles[0] = 2 * 128 * 10;
    shape.cycles[1] = 26041 * 30;
    flatten(&shape, &set);
    plan_and_walk(&set, &(struct answer){0});
    walk_under(&set, (const uint32_t[]){3, 2}, 2, &(struct answer){0});
    /* A load of L, and of L + 1: missed at the very end. Rates are low, so that the cycles do not pass their range. */
    for (uint32_t more = 0; more <= 1; more++) {
        plain_shape(&shape, 2, 2);
        shape.period[0] = 10000000;
        shape.period[1] = 1000;
        shape.cycles[0] = 9000000u * 20 + more;
        shape.cycles[1] = 100 * 20;
        flatten(&shape, &set);
        plan_and_walk(&set, &(struct answer){0});
        walk_under(&set, (const uint32_t[]){2, 2}, 2, &(struct answer){0});
    }
    /* 20,000,000 ticks: a load of L, of which the last job is unfinished there; and a miss there, of a load one more. */
    timed_shape(&shape, (const uint32_t[][3]){{10000000, 6000000, 0}, {5000000, 2000000, 4999999}}, 2);
    flatten(&shape, &set);
    plan_and_walk(&set, &(struct answer){0});
    walk_under(&set, (const uint32_t[]){1, 1}, 2, &(struct answer){0});
    timed_shape(&shape, (const uint32_t[][3]){{10000000, 10000000, 0}, {10000000, 1, 9999999}}, 2);
    flatten(&shape, &set);
    walk_under(&set, (const uint32_t[]){1, 1}, 2, &(struct answer){0});
    /* Energies of 1,000,000 for 10,000,000 jobs: the largest that a task can have. */
    plain_shape(&shape, 2, 2);
    shape.period[0] = 1;
    shape.period[1] = 10000000;
    shape.cycles[0] = 1;
    shape.energy[0][0] = shape.energy[0][1] = 1000000;
    flatten(&shape, &set);
    plan_and_walk(&set, &(struct answer){0});
    /* The highest idle energy for all ticks but one, and for none. */
    plain_shape(&shape, 2, 1);
    shape.period[0] = 10000000;
    raise_energies(&shape, 1000);
    flatten(&shape, &set);
    plan_lending(&set, 1, words_needed(&set), &(struct answer){0});
    shape.period[0] = 1;
    flatten(&shape, &set);
    plan_lending(&set, 1, words_needed(&set), &(struct answer){0});
}

/* The widest table: slack 1 and 32 tasks. */
static void widest(void)
{
    struct shape shape;
    struct list set;

    plain_shape(&shape, 2, 32);
    shape.slack = 1;
    for (uint32_t t = 0; t < 32; t++) {
        shape.period[t] = 100;
        shape.cycles[t] = 20 + 20 * (t % 4);
        shape.energy[t][0] = 1000 + 7 * t;
        shape.energy[t][1] = 1700 + 31 * t;
    }
    flatten(&shape, &set);
    plan_and_walk(&set, &(struct answer){0});
}

/* ---- Random calls */

static void random_plan(const struct list *set, uint32_t *plan, size_t tasks)
{
    for (size_t t = 0; t < tasks; t++)
        plan[t] = (uint32_t)draw(1, set->word[2]);
}

/* Lengths that are one short at times, of any list. */
static void unsettle(struct call *c, size_t tasks)
{
    switch (draw(0, 9)) {
    case 0: c->work_len = c->work_len > 0 ? c->work_len - 1 : 0; break;
    case 1: c->plan_len = tasks - 1; break;
    case 2: c->results_len = draw(0, 31); break;
    case 3: c->work_len /= 2; c->plan_len = 0; c->results_len = 0; break;
    case 4: c->results_len = 32 + draw(0, 8); break;
    case 5: c->plan_len = tasks + draw(0, 8); break;
    case 6: c->work_len += draw(0, 8); break;
    default: break;
    }
}

/* The planner's plan under other first releases: it keeps every deadline, whichever they are. */
static void walk_from_others(const struct shape *planned, const uint32_t *plan)
{
    struct shape shape = *planned;
    struct list set;
    struct answer want;

    draw_firsts(&shape);
    flatten(&shape, &set);
    walk_under(&set, plan, shape.tasks, &want);
    demand(want.code == 0 && want.value[0] == 1, "a plan that misses from other first releases");
    count.planned_kept_from += want.end > want.span;
}

static void random_set(void)
{
    struct shape shape;
    struct list set;
    struct call c;
    struct answer planned, want;
    size_t tasks;

    draw_shape(&shape);
    flatten(&shape, &set);
    tasks = shape.tasks;
    start_call(&c, PLAN, &set, set.len);
    if (one_in(4))
        unsettle(&c, tasks);
    try_engines(&c, &planned);
    if (planned.code == 0) {
        walk_under(&set, planned.plan, tasks, &want);
        walk_from_others(&shape, planned.plan);
    }
    start_call(&c, WALK, &set, set.len);
    random_plan(&set, c.plan, tasks);
    if (one_in(4))
        unsettle(&c, tasks);
    if (one_in(8))
        c.plan[draw(0, tasks - 1)] = one_in(2) ? shape.rates + 1 : draw_edge();
    try_call(&c, &want);
    if (one_in(3)) {                    /* all at the highest rate: kept or missed as there is a plan or not */
        for (size_t t = 0; t < tasks; t++)
            c.plan[t] = shape.rates;
        walk_under(&set, c.plan, tasks, &want);
    }
    if (one_in(6)) {
        damage(&set);
        try_all(&set, set.len);
    }
}

/* A set with as many tasks as the dull engine takes, or one fewer. */
static void random_large_set(void)
{
    uint32_t rates = (uint32_t)draw(2, 8), tasks = most_tasks[rates] - (uint32_t)draw(0, 1);
    struct shape shape;
    struct list set;
    struct call c;
    struct answer want;
    struct outcome planner;

    draw_shape_of(&shape, rates, tasks);
    flatten(&shape, &set);
    start_call(&c, PLAN, &set, set.len);
    take(&c, try_call(&c, &want), &planner);
    try_dull(&c, &planner);
}

static void random_calls(uint64_t sets)
{
    struct list set;

    for (uint64_t i = 0; i < sets; i++) {
        random_set();
        if (i % 8 == 0) {
            draw_long(&set);
            try_all(&set, set.len);
        }
        if (i % 16 == 0) {
            draw_rubbish(&set);
            try_all(&set, set.len);
        }
        if (i % 2000 == 0)
            random_large_set();
    }
}

/* N as a rule 1 to 32, and lists as a rule of the length that it takes. */
static void random_generate(void)
{
    uint32_t tasks = one_in(16) ? MOST_TASKS : (uint32_t)draw(1, one_in(2) ? MOST_TASKS : 4);
    size_t set_len = 9 + 8 * tasks, results_len = RESULT_BYTES;
    struct answer want;

    switch (draw(0, 9)) {
    case 0: tasks = one_in(2) ? draw_edge() : (uint32_t)draw(0, UINT32_MAX); break;
    case 1: set_len -= draw(1, set_len); break;
    case 2: set_len--; results_len = draw(0, 31); break;
    case 3: results_len = draw(0, 31); break;
    case 4: results_len += draw(0, 8); break;
    case 5: set_len += draw(0, 8); break;
    case 6: set_len = MOST_WORDS; break;
    default: break;
    }
    generate_lending(one_in(8) ? draw_edge() : (uint32_t)draw(0, UINT32_MAX), tasks, set_len, results_len, &want);
}

/* A set from the generator, planned and walked; few tasks as a rule, since the reference is slow. */
static void random_generated_set(void)
{
    uint32_t tasks = (uint32_t)(one_in(25) ? draw(16, MOST_TASKS) : draw(1, one_in(10) ? 9 : 4)), plan[MOST_TASKS];
    struct answer want;
    struct list set;

    generate_lending((uint32_t)draw(0, UINT32_MAX), tasks, 9 + 8 * tasks, RESULT_BYTES, &want);
    set = list_of(want.set, want.set_words);
    plan_and_walk(&set, &want);
    count.generated_planned += want.code == 0;
    count.generated_unplanned += want.code >> 32 == 7;
    random_plan(&set, plan, tasks);
    walk_under(&set, plan, tasks, &want);
}

static void random_generated(uint64_t sets)
{
    for (uint64_t i = 0; i < sets; i++) {
        random_generate();
        if (i % 10 == 0)
            random_generated_set();
    }
}

static void edge_calls(void)
{
    cases_of_s();
    cases_of_others();
    cases_of_idle();
    cases_of_margin();
    cases_of_firsts();
    cases_of_dull();
    cases_of_generator();
    case_of_one_list();
    for (uint32_t rates = 2; rates <= 8; rates += 3) {
        edge_words(rates, 1);
        edge_words(rates, 3);
        edge_lengths(rates, 1);
        edge_lengths(rates, 32);
        edge_plans(rates, 1);
        edge_plans(rates, 4);
        edge_plans(rates, 32);
        edge_firsts(rates, 2);
        edge_firsts(rates, 32);
    }
    edge_words(3, 32);
    edge_counts();
    edge_rates();
    edge_periods();
    edge_lent_sets();
    edge_idle_sets();
    edge_margins();
    edge_load();
    edge_powers();
    edge_most_plans();
    edge_large_sums();
    edge_small_walks();
    edge_generated_tasks();
    edge_seeds();
}

int main(int argc, char **argv)
{
    uint64_t seed = argc > 1 ? strtoull(argv[1], NULL, 10) : 1, sets = argc > 2 ? strtoull(argv[2], NULL, 10) : 60000;

    setvbuf(stdout, NULL, _IOLBF, 0);
    printf("seed %" PRIu64 ", %" PRIu64 " random sets\n", seed, sets);
    start_draws(seed);
    make_areas();
    edge_calls();
    random_calls(sets);
    random_generated(sets);
    long_spans();
    widest();
    if (!enough())
        return 1;
    printf("%" PRIu64 " calls, all as the documents say\n",
           count.calls[PLAN] + count.calls[DULL] + count.calls[WALK] + count.calls[GENERATE]);
    return 0;
}
