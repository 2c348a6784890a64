/* Document 01's checks, planner and walk, with document 02's idle energy and first releases, its dull engine and its
   generator, read as they stand there. Slow on purpose. */

#include <stdio.h>
#include <stdlib.h>
#include <string.h>

#include "reference.h"

#define LONGEST 10000000u               /* the hyper-period is at most this */

struct task {
    uint64_t period, cycles, first;     /* first: the tick A of the first release */
    uint64_t energy[MOST_RATES + 1];    /* at rate number 1 to M; nothing at 0 */
};

struct task_set {
    uint64_t slack, idle, rates, tasks;
    uint64_t rate[MOST_RATES + 1];      /* by rate number; nothing at 0 */
    struct task task[MOST_TASKS];
    uint64_t span;                      /* the hyper-period */
};

static uint64_t refusal(uint64_t number, uint64_t second)
{
    return (number << 32) + second;
}

static uint64_t divided_up(uint64_t a, uint64_t b)
{
    return a / b + (a % b != 0);
}

/* ---- Checks of a set */

/* A list that is read word by word and no further than its first fault. */
struct source {
    const uint32_t *word;
    size_t len, at;
    int at_fault;
};

static uint64_t next_word(struct source *from, uint64_t low, uint64_t high)
{
    if (from->at_fault || from->at == from->len || from->word[from->at] < low || from->word[from->at] > high) {
        from->at_fault = 1;
        return 0;
    }
    return from->word[from->at++];
}

/* 'Set word out of its range, missing or left over': in each case the fault is where the reading stopped. */
static uint64_t check_2(const uint32_t *set, size_t set_len, struct task_set *s)
{
    struct source from = {set, set_len, 0, 0};

    s->slack = next_word(&from, 1, 1000);
    s->idle = next_word(&from, 0, 1000);
    s->rates = next_word(&from, 2, 8);
    for (uint64_t r = 1; r <= s->rates; r++)
        s->rate[r] = next_word(&from, 1, 1000000);
    s->tasks = next_word(&from, 1, 32);
    for (uint64_t t = 0; t < s->tasks; t++) {
        s->task[t].period = next_word(&from, 1, 10000000);
        s->task[t].cycles = next_word(&from, 1, 4000000000u);
        s->task[t].first = next_word(&from, 0, s->task[t].period - 1);  /* 'A below the period' */
        for (uint64_t r = 1; r <= s->rates; r++)
            s->task[t].energy[r] = next_word(&from, 1, 1000000);
    }
    return from.at_fault || from.at < from.len ? refusal(2, from.at) : 0;
}

/* 'A rate not above the one before it' */
static uint64_t check_3(const struct task_set *s)
{
    for (uint64_t r = 2; r <= s->rates; r++)
        if (!(s->rate[r] > s->rate[r - 1]))
            return refusal(3, 2 + r);
    return 0;
}

/* The place at which a task begins, with its period. */
static uint64_t place_of(const struct task_set *s, uint64_t t)
{
    return 4 + s->rates + t * (3 + s->rates);
}

static uint64_t job_time(const struct task_set *s, uint64_t t, uint64_t r)
{
    return divided_up(s->task[t].cycles, s->rate[r]);
}

/* 'H x job time' */
static uint64_t waiting(const struct task_set *s, uint64_t t, uint64_t r)
{
    return s->idle * job_time(s, t, r);
}

/* 'An energy below H x job time, with the first such energy's place' */
static uint64_t check_10(const struct task_set *s)
{
    for (uint64_t t = 0; t < s->tasks; t++)
        for (uint64_t r = 1; r <= s->rates; r++)
            if (s->task[t].energy[r] < waiting(s, t, r))
                return refusal(10, place_of(s, t) + 2 + r);
    return 0;
}

/* The first multiple of the larger that the smaller divides; any number above LONGEST where there is none up to it. */
static uint64_t common_multiple(uint64_t a, uint64_t b)
{
    uint64_t larger = a > b ? a : b, smaller = a > b ? b : a, multiple = larger;

    while (multiple <= LONGEST && multiple % smaller != 0)
        multiple += larger;
    return multiple;
}

/* 'Hyper-period over 10,000,000', at 'the period at which the running multiple passes it' */
static uint64_t check_4(struct task_set *s)
{
    uint64_t running = 1;

    for (uint64_t t = 0; t < s->tasks; t++) {
        running = common_multiple(running, s->task[t].period);
        if (running > LONGEST)
            return refusal(4, place_of(s, t));
    }
    s->span = running;
    return 0;
}

enum call { PLANNER, DULL, WALK };

/* 'Planner: 2, 3, 4, .. Walk: 2, 3, 4, ..', and 10 'after 3, before 4, and never by walk or writer'; of the dull engine
   'Its refusals are the planner's without 5' */
static uint64_t check_set(enum call call, const uint32_t *set, size_t set_len, struct task_set *s)
{
    uint64_t refused = check_2(set, set_len, s);

    if (refused == 0)
        refused = check_3(s);
    if (refused == 0 && call != WALK)
        refused = check_10(s);
    if (refused == 0)
        refused = check_4(s);
    return refused;
}

int can_be_written(const uint32_t *set, size_t set_len)
{
    struct task_set s;

    return check_2(set, set_len, &s) == 0 && check_3(&s) == 0;
}

/* ---- Loads and energies */

static uint64_t task_load(const struct task_set *s, uint64_t t, uint64_t r)
{
    return s->span / s->task[t].period * job_time(s, t, r);
}

static uint64_t task_energy(const struct task_set *s, uint64_t t, uint64_t r)
{
    return s->span / s->task[t].period * s->task[t].energy[r];
}

/* 'The energy per job less H x job time', which 'units, rounding and selection now use'. After check 10 it is not below
   0; that it stops there is for a stand-in without that check. */
static uint64_t left_of(const struct task_set *s, uint64_t t, uint64_t r)
{
    uint64_t energy = s->task[t].energy[r], idle = waiting(s, t, r);

    return energy > idle ? energy - idle : 0;
}

static uint64_t reduced_energy(const struct task_set *s, uint64_t t, uint64_t r)
{
    return s->span / s->task[t].period * left_of(s, t, r);
}

static uint64_t rounded_energy(const struct task_set *s, uint64_t t, uint64_t r, uint64_t unit)
{
    return divided_up(reduced_energy(s, t, r), unit);
}

static int fits(const struct task_set *s, uint64_t load)
{
    return load <= s->span;
}

/* ---- Which plan */

/* A plan of some tasks with its sums. The rate numbers stand last task first, so that comparing them from the front
   compares 'the lowest rate number for task N, then for task N - 1, and so on down to task 1'. */
struct entry {
    uint64_t rounded, load;
    uint8_t back[MOST_TASKS];
};

static uint8_t *rate_of(struct entry *e, uint64_t t)
{
    return &e->back[MOST_TASKS - 1 - t];
}

static int compare(const void *a, const void *b)
{
    const struct entry *x = a, *y = b;

    if (x->rounded != y->rounded)
        return x->rounded < y->rounded ? -1 : 1;
    if (x->load != y->load)
        return x->load < y->load ? -1 : 1;
    return memcmp(x->back, y->back, MOST_TASKS);
}

/* The next plan with task 1 changing fastest; 0 after the last. */
static int next_plan(const struct task_set *s, struct entry *plan)
{
    for (uint64_t t = 0; t < s->tasks; t++) {
        if (*rate_of(plan, t) < s->rates) {
            ++*rate_of(plan, t);
            return 1;
        }
        *rate_of(plan, t) = 1;
    }
    return 0;
}

static void sum(const struct task_set *s, uint64_t unit, struct entry *plan)
{
    plan->rounded = plan->load = 0;
    for (uint64_t t = 0; t < s->tasks; t++) {
        plan->rounded += rounded_energy(s, t, *rate_of(plan, t), unit);
        plan->load += task_load(s, t, *rate_of(plan, t));
    }
}

/* Of all plans that fit the first by rounded energy, load and rate numbers. Returns how many are alike but for these
   last; 0 where none fits. */
static uint64_t choose_from_all(const struct task_set *s, uint64_t unit, struct entry *best)
{
    struct entry plan = {0};
    uint64_t alike = 0;
    int first;

    for (uint64_t t = 0; t < s->tasks; t++)
        *rate_of(&plan, t) = 1;
    do {
        sum(s, unit, &plan);
        if (!fits(s, plan.load))
            continue;
        first = alike == 0 || compare(&plan, best) < 0;
        if (alike > 0 && plan.rounded == best->rounded && plan.load == best->load)
            alike++;
        else if (first)
            alike = 1;
        if (first)
            *best = plan;
    } while (next_plan(s, &plan));
    return alike;
}

struct entries {
    struct entry *list;
    size_t count, room;
};

static void add(struct entries *to, struct entry entry)
{
    if (to->count == to->room) {
        to->room = 2 * to->room + 64;
        to->list = realloc(to->list, to->room * sizeof *to->list);
        if (to->list == NULL) {
            fprintf(stderr, "reference: no memory\n");
            exit(2);
        }
    }
    to->list[to->count++] = entry;
}

/* Leaves out what cannot become the choice: where some other entry has no more rounded energy and no more load, and
   comes first. Put in its place, that one gives a plan that fits and comes first too, whatever rates follow. */
static void thin_out(struct entries *of)
{
    size_t kept = 0;

    qsort(of->list, of->count, sizeof *of->list, compare);
    for (size_t i = 0; i < of->count; i++)
        if (kept == 0 || of->list[i].load < of->list[kept - 1].load)
            of->list[kept++] = of->list[i];
    of->count = kept;
}

/* The same choice, from plans of the first task, of the first two, and so on. Returns 0 where none fits. */
static uint64_t choose_task_by_task(const struct task_set *s, uint64_t unit, struct entry *best)
{
    static struct entries now, next;

    now.count = 0;
    add(&now, (struct entry){0});
    for (uint64_t t = 0; t < s->tasks; t++) {
        struct entries swap;

        next.count = 0;
        for (uint64_t r = 1; r <= s->rates; r++) {
            uint64_t load = task_load(s, t, r), rounded = rounded_energy(s, t, r, unit);
            for (size_t i = 0; i < now.count; i++) {
                struct entry e = now.list[i];
                e.load += load;
                e.rounded += rounded;
                *rate_of(&e, t) = (uint8_t)r;
                if (fits(s, e.load))
                    add(&next, e);
            }
        }
        thin_out(&next);
        swap = now;
        now = next;
        next = swap;
    }
    if (now.count == 0)
        return 0;
    *best = now.list[0];
    return 1;
}

static uint64_t number_of_plans(const struct task_set *s)
{
    uint64_t plans = 1;

    for (uint64_t t = 0; t < s->tasks; t++)
        plans = plans * s->rates > MANY_PLANS ? MANY_PLANS : plans * s->rates;
    return plans;
}

static uint64_t choose(enum way way, const struct task_set *s, uint64_t unit, struct entry *best)
{
    if (way == BY_SIZE)
        way = number_of_plans(s) <= FEW_PLANS ? ALL_PLANS : TASK_BY_TASK;
    return way == ALL_PLANS ? choose_from_all(s, unit, best) : choose_task_by_task(s, unit, best);
}

/* 'The smallest power of two not below the energy of the plan with every task at rate M; 1 if that energy is 0' */
static uint64_t first_unit(const struct task_set *s)
{
    uint64_t energy = 0, unit = 1;

    for (uint64_t t = 0; t < s->tasks; t++)
        energy += reduced_energy(s, t, s->rates);
    while (unit < energy)
        unit *= 2;
    return unit;
}

/* 'G x k(d) at least 2,000 x N' */
static int qualifies(const struct task_set *s, uint64_t rounded)
{
    return s->slack * rounded >= 2000 * s->tasks;
}

/* 'W = (N + 1) x (F + 1), where F is 4,000 x N / G rounded down' */
static uint64_t words_needed(const struct task_set *s)
{
    return (s->tasks + 1) * (4000 * s->tasks / s->slack + 1);
}

static uint64_t least_load(const struct task_set *s)
{
    uint64_t load = 0;

    for (uint64_t t = 0; t < s->tasks; t++) {
        uint64_t least = task_load(s, t, 1);
        for (uint64_t r = 2; r <= s->rates; r++)
            if (task_load(s, t, r) < least)
                least = task_load(s, t, r);
        load += least;
    }
    return load;
}

static uint64_t check_lent(const struct task_set *s, size_t plan_len, size_t work_len, size_t results_len)
{
    if (work_len < words_needed(s))
        return refusal(5, words_needed(s));
    if (plan_len < s->tasks)
        return refusal(6, s->tasks);
    if (results_len < RESULT_BYTES)
        return refusal(6, RESULT_BYTES);
    return 0;
}

static void give_plan(const struct task_set *s, uint64_t unit, struct entry *best, struct answer *answer)
{
    answer->value[0] = unit;
    answer->value[2] = s->span;
    for (uint64_t t = 0; t < s->tasks; t++) {
        uint64_t r = *rate_of(best, t);
        answer->plan[t] = (uint32_t)r;
        answer->value[1] += task_load(s, t, r);
        answer->value[3] += task_energy(s, t, r);
    }
    /* 'plus H x (L - load)' */
    answer->value[3] += s->idle * (s->span - answer->value[1]);
    answer->waiting = s->idle * s->span;
    answer->plan_words = s->tasks;
    answer->work_words = words_needed(s);
}

void expect_plan(enum way way, const uint32_t *set, size_t set_len, size_t plan_len, size_t work_len, size_t results_len,
                 struct answer *answer)
{
    struct task_set s;
    struct entry best = {0};
    uint64_t unit;

    *answer = (struct answer){0};
    answer->code = check_set(PLANNER, set, set_len, &s);
    if (answer->code != 0)
        return;
    answer->span = s.span;
    answer->least_load = least_load(&s);
    answer->plans = number_of_plans(&s);
    answer->code = check_lent(&s, plan_len, work_len, results_len);
    if (answer->code != 0)
        return;
    for (unit = first_unit(&s);; unit /= 2) {
        answer->alike = choose(way, &s, unit, &best);
        if (answer->alike == 0) {
            answer->code = refusal(7, 0);
            return;
        }
        if (qualifies(&s, best.rounded) || unit == 1)
            break;
    }
    give_plan(&s, unit, &best, answer);
}

/* ---- The dull way */

/* One pass through all plans at a unit. Of each task, from 0, and rate number: the ticks of its jobs in a hyper-period,
   and what they cost less H x these ticks, in units. */
struct pass {
    uint64_t rates, tasks, span;
    uint64_t ticks[MOST_TASKS][MOST_RATES + 1], units[MOST_TASKS][MOST_RATES + 1];
    uint32_t plan[MOST_TASKS];          /* the one that is looked at */
    uint64_t k, load, alike;            /* of the best so far the rounded energy and the load; how many have both */
    uint32_t best[MOST_TASKS];          /* and the first of these */
};

/* 'Among fitting plans with rounded energy k(d), take those with least load.' Of plans with both alike the first stays:
   as they come, it has 'the lowest rate number for task N, then for task N - 1, and so on down to task 1'. */
static void look_at(struct pass *p, uint64_t units, uint64_t load)
{
    if (load > p->span)
        return;
    if (p->alike > 0 && units == p->k && load == p->load) {
        p->alike++;
        return;
    }
    if (p->alike > 0 && (units > p->k || (units == p->k && load > p->load)))
        return;
    p->k = units;
    p->load = load;
    p->alike = 1;
    memcpy(p->best, p->plan, sizeof p->best);
}

/* '.. in order of rate numbers with task 1 changing fastest': the first n tasks take all their rates while the others,
   which add up to so much, stay as they are. */
static void go_through(struct pass *p, uint64_t n, uint64_t units, uint64_t load)
{
    if (n == 0) {
        look_at(p, units, load);
        return;
    }
    for (uint32_t r = 1; r <= p->rates; r++) {
        p->plan[n - 1] = r;
        go_through(p, n - 1, units + p->units[n - 1][r], load + p->ticks[n - 1][r]);
    }
}

/* What a task's jobs cost in a hyper-period beyond waiting. That a job costs no less is check 10, which a stand-in may
   be without. */
static uint64_t beyond_waiting(const struct task_set *s, uint64_t t, uint64_t r)
{
    uint64_t idle = s->idle * ((s->task[t].cycles + s->rate[r] - 1) / s->rate[r]);

    return s->task[t].energy[r] < idle ? 0 : s->span / s->task[t].period * (s->task[t].energy[r] - idle);
}

static void pass_through(const struct task_set *s, uint64_t unit, struct pass *p)
{
    *p = (struct pass){.rates = s->rates, .tasks = s->tasks, .span = s->span};
    for (uint64_t t = 0; t < s->tasks; t++)
        for (uint64_t r = 1; r <= s->rates; r++) {
            p->ticks[t][r] = s->span / s->task[t].period * ((s->task[t].cycles + s->rate[r] - 1) / s->rate[r]);
            p->units[t][r] = (beyond_waiting(s, t, r) + unit - 1) / unit;
        }
    go_through(p, s->tasks, 0, 0);
}

/* 'M to the power N is over 1,000,000' */
static int too_many(const struct task_set *s)
{
    uint64_t power = 1;

    for (uint64_t t = 0; t < s->tasks && power <= 1000000; t++)
        power *= s->rates;
    return power > 1000000;
}

/* 11 'with 0; after 4', and then the planner's without 5 */
static uint64_t check_dull(const struct task_set *s, size_t plan_len, size_t results_len)
{
    if (too_many(s))
        return refusal(11, 0);
    if (s->tasks > plan_len)
        return refusal(6, s->tasks);
    return RESULT_BYTES > results_len ? refusal(6, RESULT_BYTES) : 0;
}

static void give_best(const struct task_set *s, uint64_t d, const struct pass *p, struct answer *answer)
{
    answer->value[0] = d;
    answer->value[1] = p->load;
    answer->value[2] = p->span;
    answer->value[3] = s->idle * p->span;
    for (uint64_t t = 0; t < s->tasks; t++)
        answer->value[3] += beyond_waiting(s, t, p->best[t]);
    memcpy(answer->plan, p->best, s->tasks * sizeof *p->best);
    answer->plan_words = s->tasks;
    answer->alike = p->alike;
}

void expect_dull(const uint32_t *set, size_t set_len, size_t plan_len, size_t results_len, struct answer *answer)
{
    struct task_set s;
    struct pass p;
    uint64_t unit = 1, fastest = 0;

    *answer = (struct answer){0};
    answer->code = check_set(DULL, set, set_len, &s);
    if (answer->code != 0)
        return;
    answer->span = s.span;
    answer->plans = number_of_plans(&s);
    answer->code = check_dull(&s, plan_len, results_len);
    if (answer->code != 0)
        return;
    for (uint64_t t = 0; t < s.tasks; t++)
        fastest += beyond_waiting(&s, t, s.rates);
    while (unit < fastest)
        unit *= 2;
    pass_through(&s, unit, &p);
    if (p.alike == 0) {
        answer->code = refusal(7, 0);
        return;
    }
    while (s.slack * p.k < 2000 * s.tasks && unit > 1) {
        unit /= 2;
        pass_through(&s, unit, &p);
    }
    give_best(&s, unit, &p, answer);
}

/* ---- The walk */

/* 'Walk's plan not N words, or a word not 1 to M', with the 'lowest of these that applies' */
static uint64_t check_8(const struct task_set *s, const uint32_t *plan, size_t plan_len)
{
    uint64_t lowest = UINT64_MAX;

    for (size_t i = plan_len; i-- > 0;)
        if (plan[i] < 1 || plan[i] > s->rates)
            lowest = i;
    if (plan_len < s->tasks && plan_len < lowest)
        lowest = plan_len;
    if (plan_len > s->tasks && s->tasks < lowest)
        lowest = s->tasks;
    return lowest == UINT64_MAX ? 0 : refusal(8, lowest);
}

/* One job: of which task, the how-manieth, and what is left of it. */
struct job {
    uint64_t task, count, deadline, left;
};

/* 'Releases fall at A plus multiples of the period' */
static int is_due(const struct task_set *s, uint64_t t, uint64_t tick)
{
    uint64_t first = s->task[t].first;

    return tick >= first && (uint32_t)(tick - first) % (uint32_t)s->task[t].period == 0;
}

/* 'It goes to 2 x L'; 'if all are 0 it ends at L as before'. */
static uint64_t last_tick(const struct task_set *s)
{
    for (uint64_t t = 0; t < s->tasks; t++)
        if (s->task[t].first > 0)
            return 2 * s->span;
    return s->span;
}

/* The task that misses at a tick, the lowest-numbered; 0 for none. A job is due when the next one of its task is; what is
   unfinished at the last tick and due later is no miss. */
static uint64_t missing(const struct task_set *s, const struct job *job, uint64_t tick)
{
    for (uint64_t t = 0; t < s->tasks; t++)
        if (job[t].left != 0 && is_due(s, t, tick))
            return t + 1;
    return 0;
}

static void release(const struct task_set *s, const uint32_t *plan, uint64_t tick, struct job *job)
{
    for (uint64_t t = 0; t < s->tasks; t++)
        if (is_due(s, t, tick)) {
            job[t].count++;
            job[t].deadline = tick + s->task[t].period;
            job[t].left = job_time(s, t, plan[t]);
        }
}

/* 'The released, unfinished job with the earliest deadline'; 'a tie goes to the lower task number' */
static struct job *to_run(const struct task_set *s, struct job *job)
{
    struct job *earliest = NULL;

    for (uint64_t t = 0; t < s->tasks; t++)
        if (job[t].left > 0 && (earliest == NULL || job[t].deadline < earliest->deadline))
            earliest = &job[t];
    return earliest;
}

static int is_preempted(const struct job *before, const struct job *runs)
{
    int another = before->task != runs->task || before->count != runs->count;

    return another && before->left > 0;
}

/* Goes tick by tick from 0 to the last. */
static void walk(const struct task_set *s, const uint32_t *plan, uint64_t *value)
{
    struct job job[MOST_TASKS] = {{0}}, before = {0};   /* before: as the tick before left it; nothing left where there was none */
    uint64_t busy = 0, idle = 0, preemptions = 0, end = last_tick(s);

    for (uint64_t t = 0; t < s->tasks; t++)
        job[t].task = t;
    for (uint64_t tick = 0; tick <= end; tick++) {
        uint64_t late = missing(s, job, tick);
        struct job *runs;
        if (late != 0) {
            value[0] = 0;
            value[1] = tick;
            value[2] = late;
            value[3] = 0;
            return;
        }
        if (tick == end)
            break;                      /* 'At L the check is made and nothing is released.' */
        release(s, plan, tick, job);
        runs = to_run(s, job);
        if (runs == NULL) {
            idle++;
            before.left = 0;
            continue;
        }
        preemptions += (uint64_t)is_preempted(&before, runs);
        runs->left--;
        busy++;
        before = *runs;
    }
    value[0] = 1;
    value[1] = busy;
    value[2] = idle;
    value[3] = preemptions;
}

void expect_walk(const uint32_t *set, size_t set_len, const uint32_t *plan, size_t plan_len, size_t results_len,
                 struct answer *answer)
{
    struct task_set s;

    *answer = (struct answer){0};
    answer->code = check_set(WALK, set, set_len, &s);
    if (answer->code != 0)
        return;
    answer->span = s.span;
    answer->end = last_tick(&s);
    answer->code = check_8(&s, plan, plan_len);
    if (answer->code == 0 && results_len < RESULT_BYTES)
        answer->code = refusal(6, RESULT_BYTES);
    if (answer->code != 0)
        return;
    for (uint64_t t = 0; t < s.tasks; t++)
        answer->load += task_load(&s, t, plan[t]);
    walk(&s, plan, answer->value);
}

/* ---- The load generator, note 1 of document 02 */

#define WRAP 4294967296u                /* '32 bits' */

/* 'Its state goes to state x 1,664,525 + 1,013,904,223, both steps wrapping at 32 bits; a draw is the new state divided
   by 65,536, rounded down.' */
static uint64_t next_draw(uint64_t *state)
{
    *state = *state * 1664525 % WRAP;
    *state = (*state + 1013904223) % WRAP;
    return *state / 65536;
}

/* 'Each task takes three draws': period, cycles, energies. */
static void generate_task(uint64_t *state, uint32_t *task)
{
    static const uint32_t periods[] = {10, 20, 25, 40, 50, 100, 200, 400};
    uint64_t entry = next_draw(state) % 8;
    uint64_t cycles = 1 + next_draw(state) % 1000;
    uint64_t factor = 2 + next_draw(state) % 9;

    task[0] = periods[entry];
    task[1] = (uint32_t)cycles;
    task[2] = 0;                        /* A, '0 .. from the generator' */
    for (uint64_t j = 1; j <= 5; j++)
        task[2 + j] = (uint32_t)(factor * j * j);
}

/* 'The set has slack 100 and five rates, 100 x j for rate j', and of H 'the generator's hold 0 there'. */
static void generate(uint32_t seed, uint32_t tasks, uint32_t *set)
{
    uint64_t state = seed;

    set[0] = 100;
    set[1] = 0;
    set[2] = 5;
    for (uint32_t j = 1; j <= 5; j++)
        set[2 + j] = 100 * j;
    set[8] = tasks;
    for (uint32_t t = 0; t < tasks; t++)
        generate_task(&state, &set[9 + 8 * t]);
}

static size_t generated_words(uint32_t tasks)
{
    return 9 + 8 * (size_t)tasks;
}

/* 'Errors: 2 with place 0 for N outside 1 to 32, then 6.' */
static uint64_t check_generate(uint32_t tasks, size_t set_len, size_t results_len)
{
    if (tasks < 1 || tasks > 32)
        return refusal(2, 0);
    if (set_len < generated_words(tasks))
        return refusal(6, generated_words(tasks));
    return results_len < RESULT_BYTES ? refusal(6, RESULT_BYTES) : 0;
}

void expect_generate(uint32_t seed, uint32_t tasks, size_t set_len, size_t results_len, struct answer *answer)
{
    *answer = (struct answer){0};
    answer->code = check_generate(tasks, set_len, results_len);
    if (answer->code != 0)
        return;
    generate(seed, tasks, answer->set);
    answer->set_words = generated_words(tasks);
    answer->value[0] = answer->set_words;
}
