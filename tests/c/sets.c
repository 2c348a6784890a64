/* Sets for the test's calls: how they are drawn, damaged and written out. */

#include <inttypes.h>
#include <stdio.h>
#include <string.h>

#include "reference.h"
#include "sets.h"

/* ---- Random numbers */

static uint64_t state;

void start_draws(uint64_t seed)
{
    state = seed * 0x9e3779b97f4a7c15u + 1;
    if (state == 0)
        state = 1;                      /* the one state that it would never leave */
}

static uint64_t step(void)
{
    state ^= state >> 12;
    state ^= state << 25;
    state ^= state >> 27;
    return state * 0x2545f4914f6cdd1du;
}

uint64_t draw(uint64_t low, uint64_t high)
{
    return low + (step() >> 11) % (high - low + 1);
}

int one_in(uint64_t n)
{
    return draw(1, n) == 1;
}

static uint32_t draw_word(uint32_t low, uint32_t high)
{
    return (uint32_t)draw(low, high);
}

/* ---- Shapes */

void flatten(const struct shape *shape, struct list *list)
{
    uint32_t *to = list->word;

    *to++ = shape->slack;
    *to++ = shape->idle;
    *to++ = shape->rates;
    for (uint32_t r = 0; r < shape->rates; r++)
        *to++ = shape->rate[r];
    *to++ = shape->tasks;
    for (uint32_t t = 0; t < shape->tasks; t++) {
        *to++ = shape->period[t];
        *to++ = shape->cycles[t];
        *to++ = shape->first[t];
        for (uint32_t r = 0; r < shape->rates; r++)
            *to++ = shape->energy[t][r];
    }
    list->len = (size_t)(to - list->word);
}

void plain_shape(struct shape *shape, uint32_t rates, uint32_t tasks)
{
    *shape = (struct shape){.slack = 1000, .rates = rates, .tasks = tasks};
    for (uint32_t r = 0; r < rates; r++)
        shape->rate[r] = 10 + 10 * r;
    for (uint32_t t = 0; t < tasks; t++) {
        shape->period[t] = 40 + 40 * (t % 2);
        shape->cycles[t] = 10;
        for (uint32_t r = 0; r < rates; r++)
            shape->energy[t][r] = 5 + r + t % 3;
    }
}

/* Few tasks as a rule, since the reference is slow. */
static uint32_t draw_tasks(void)
{
    if (one_in(80))
        return draw_word(9, 32);
    if (one_in(10))
        return draw_word(5, 8);
    return draw_word(1, 4);
}

/* The more tasks, the larger: W grows with tasks x tasks / slack, and so does the reference's time. */
static uint32_t draw_slack(uint32_t tasks)
{
    if (tasks > 8)
        return one_in(2) ? 1000 : draw_word(300, 1000);
    if (tasks > 4)
        return one_in(4) ? draw_word(20, 100) : draw_word(100, 1000);
    switch (draw(0, 7)) {
    case 0: return one_in(4) ? 1 : 10;
    case 1: return draw_word(5, 40);
    case 2: return 1000;
    case 3: return draw_word(990, 1000);
    case 4: return 100;
    default: return draw_word(40, 1000);
    }
}

static uint32_t draw_rate_count(uint32_t tasks)
{
    return one_in(4) ? 2 : draw_word(2, tasks > 8 ? 4 : 8);
}

static void draw_rates(struct shape *shape)
{
    uint32_t m = shape->rates, step = 0, rate = 0;

    switch (draw(0, 4)) {
    case 0:                             /* the lowest there are */
        step = 1;
        break;
    case 1:                             /* the highest there are; job times are then often alike */
        rate = 1000000 - m;
        step = 1;
        break;
    case 2:
        step = draw_word(2, 1000);
        break;
    default:
        step = 0;                       /* any */
    }
    for (uint32_t r = 0; r < m; r++) {
        rate += step != 0 ? step : draw_word(1, one_in(2) ? 10 : 1000000 / m);
        shape->rate[r] = rate;
    }
}

static void draw_energies(struct shape *shape)
{
    uint64_t kind = draw(0, 6);
    uint32_t most = one_in(2) ? 1000000 : draw_word(2, 5000), rises = draw_word(1, most / (shape->rates * shape->rates) + 1);

    for (uint32_t t = 0; t < shape->tasks; t++)
        for (uint32_t r = 0; r < shape->rates; r++) {
            uint32_t *energy = &shape->energy[t][r];
            switch (kind) {
            case 0: *energy = rises * (r + 1) * (r + 1); break;             /* as speed squared, all tasks alike */
            case 1: *energy = draw_word(1, 3); break;                       /* many ties */
            case 2: *energy = most; break;                                  /* all alike */
            case 3: *energy = one_in(2) ? 1 : 1000000; break;               /* the ends of the range */
            case 4: *energy = 1 + (shape->rates - r) * draw_word(1, 100); break;    /* mostly falling with the rate */
            case 5: *energy = (r + 1) * draw_word(1, most / shape->rates + 1); break;   /* mostly rising */
            default: *energy = draw_word(1, most); break;
            }
            if (*energy > 1000000)
                *energy = 1000000;
        }
}

static uint32_t draw_span(void)
{
    static const uint32_t many_divisors[] = {12, 24, 30, 36, 48, 60, 72, 90, 100, 120, 180, 210, 240, 360, 420, 720, 840, 1000,
                                             1260, 1680, 1800, 2000};

    if (one_in(4))
        return draw_word(1, one_in(8) ? SHORT_SPAN : 60);
    return many_divisors[draw(0, one_in(6) ? 21 : 12)];
}

static uint32_t draw_divisor(uint32_t span)
{
    uint32_t period = draw_word(1, span);

    while (span % period != 0)
        period--;
    return period;
}

/* Cycles that take just so many ticks at a rate. */
static uint32_t cycles_for(uint64_t ticks, uint32_t rate)
{
    return (uint32_t)(ticks * rate - draw(0, rate - 1));
}

static uint64_t ticks_of(const struct shape *shape, uint32_t t, uint32_t r)
{
    return (shape->cycles[t] + (uint64_t)shape->rate[r] - 1) / shape->rate[r];
}

/* Jobs that at the highest rate take from a little to somewhat more than the whole processor, all together. */
static void draw_tasks_of(struct shape *shape, uint32_t span)
{
    uint64_t most = one_in(6) ? 200 : 120;

    for (uint32_t t = 0; t < shape->tasks; t++) {
        uint64_t ticks;
        shape->period[t] = draw_divisor(span);
        for (int i = 0; i < 3 && shape->period[t] < 2 * shape->tasks; i++)
            shape->period[t] = draw_divisor(span);
        ticks = shape->period[t] * draw(1, most) / 100 / shape->tasks;
        shape->cycles[t] = cycles_for(ticks == 0 ? 1 : ticks, shape->rate[shape->rates - 1]);
    }
}

/* Gives one task the cycles with which some plan's load is L, or 1 more or less: half of the time the plan with every
   task at the highest rate, of which the planner's answer hangs. */
static void fill_up(struct shape *shape, uint32_t span)
{
    uint32_t last = draw_word(0, shape->tasks - 1), highest = shape->rates - 1, rate_of_last = highest;
    int fastest = one_in(2);
    uint64_t wanted = span + draw(0, 2) - 1;

    for (uint32_t t = 0; t < shape->tasks; t++) {
        uint32_t r = fastest ? highest : draw_word(0, highest);
        if (t == last)
            rate_of_last = r;
        else
            wanted -= span / shape->period[t] * ticks_of(shape, t, r);
    }
    if (wanted < 1 || wanted > span + 1)
        return;                         /* the others alone are too much; below 0 is a large number here */
    shape->period[last] = span;
    shape->cycles[last] = cycles_for(wanted, shape->rate[rate_of_last]);
}

/* The ticks of the longest job at the lowest rate. */
static uint64_t longest_job(const struct shape *shape)
{
    uint64_t longest = 0;

    for (uint32_t t = 0; t < shape->tasks; t++)
        if (ticks_of(shape, t, 0) > longest)
            longest = ticks_of(shape, t, 0);
    return longest;
}

void raise_energies(struct shape *shape, uint32_t idle)
{
    shape->idle = idle;
    for (uint32_t t = 0; t < shape->tasks; t++)
        for (uint32_t r = 0; r < shape->rates; r++) {
            uint64_t energy = shape->energy[t][r] + idle * ticks_of(shape, t, r);
            shape->energy[t][r] = energy > 1000000 ? 1000000 : (uint32_t)energy;
        }
}

/* Energies are less by one at all rates, or down to 0 at some: with an idle energy they may be 0 before they are
   raised. */
static void lower_energies(struct shape *shape)
{
    int all = one_in(2);

    for (uint32_t t = 0; t < shape->tasks; t++)
        for (uint32_t r = 0; r < shape->rates; r++)
            if (all)
                shape->energy[t][r]--;
            else if (one_in(2))
                shape->energy[t][r] = 0;
}

/* An energy becomes one less than what waiting costs, or much less. */
static void sink_energy(struct shape *shape)
{
    uint32_t t = draw_word(0, shape->tasks - 1), r = draw_word(0, shape->rates - 1);
    uint64_t waiting = shape->idle * ticks_of(shape, t, r);

    if (waiting > 1)
        shape->energy[t][r] = (uint32_t)(one_in(2) ? waiting - 1 : draw(1, waiting - 1));
}

/* Half of the sets have an idle energy, as a rule one that their longest jobs allow, with energies from there on. */
static void draw_idle(struct shape *shape)
{
    uint64_t most = 1000000 / longest_job(shape);

    if (one_in(2) || most == 0)
        return;
    if (one_in(12)) {                   /* energies stay as they are: some are likely to be too low */
        shape->idle = draw_word(1, 1000);
        return;
    }
    if (most > 1000)
        most = 1000;
    if (one_in(3))
        lower_energies(shape);
    raise_energies(shape, (uint32_t)(one_in(4) ? most : draw(1, one_in(2) && most > 20 ? 20 : most)));
    for (int i = one_in(10) ? draw_word(1, 3) : 0; i > 0; i--)
        sink_energy(shape);
}

void draw_firsts(struct shape *shape)
{
    for (uint32_t t = 0; t < shape->tasks; t++)
        shape->first[t] = one_in(4) ? 0 : one_in(4) ? shape->period[t] - 1 : draw_word(0, shape->period[t] - 1);
}

void draw_shape(struct shape *shape)
{
    uint32_t tasks = draw_tasks();

    draw_shape_of(shape, draw_rate_count(tasks), tasks);
}

void draw_shape_of(struct shape *shape, uint32_t rates, uint32_t tasks)
{
    uint32_t span = draw_span();

    *shape = (struct shape){.rates = rates, .tasks = tasks};
    shape->slack = draw_slack(tasks);
    draw_rates(shape);
    draw_energies(shape);
    draw_tasks_of(shape, span);
    if (one_in(3))
        fill_up(shape, span);
    draw_idle(shape);
    if (one_in(3))
        draw_firsts(shape);
}

/* ---- Lists that are no sets */

uint32_t draw_edge(void)
{
    static const uint32_t ends[] = {0, 1, 2, 8, 32, 1000, 1000000, 10000000, 4000000000u, 2147483648u, 4294967295u};

    return ends[draw(0, 10)] + draw_word(0, 2) - 1;
}

static void take_out(struct list *list, size_t at)
{
    memmove(&list->word[at], &list->word[at + 1], (list->len - at - 1) * sizeof *list->word);
    list->len--;
}

static void put_in(struct list *list, size_t at, uint32_t word)
{
    memmove(&list->word[at + 1], &list->word[at], (list->len - at) * sizeof *list->word);
    list->word[at] = word;
    list->len++;
}

/* Of a set: one rate is made no higher than the one before it. */
static void lower_rate(struct list *list)
{
    size_t at = 4 + draw(0, list->word[2] - 2);

    list->word[at] = one_in(2) ? list->word[at - 1] : draw_word(1, list->word[at - 1]);
}

void damage(struct list *list)
{
    int rates_rise = 1;

    for (uint64_t times = one_in(4) ? 2 : 1; times > 0 && list->len > 0; times--) {
        size_t at = one_in(3) ? draw(0, list->len < 8 ? list->len - 1 : 7) : draw(0, list->len - 1);
        switch (draw(0, 6)) {
        case 0: take_out(list, at); break;
        case 1: put_in(list, at, draw_edge()); break;
        case 2: list->len = at; break;
        case 3: list->word[list->len++] = draw_edge(); break;
        case 4:
            if (rates_rise) {           /* the first damage: the list is still a set */
                lower_rate(list);
                break;
            }
            /* fall through */
        default: list->word[at] = draw_edge();
        }
        rates_rise = 0;
    }
}

void draw_long(struct list *list)
{
    struct shape shape;

    draw_shape(&shape);
    for (uint32_t t = 0; t < shape.tasks; t++)
        if (!one_in(3))
            shape.period[t] = draw_word(1, one_in(2) ? 10000000 : 10000);
    if (one_in(2))
        draw_firsts(&shape);
    else
        memset(shape.first, 0, sizeof shape.first);
    flatten(&shape, list);
}

void draw_rubbish(struct list *list)
{
    list->len = draw(0, 40);
    for (size_t i = 0; i < list->len; i++)
        list->word[i] = one_in(3) ? draw_edge() : draw_word(1, 8);
}

/* ---- Written out */

static void print_text(const uint32_t *set)
{
    uint32_t rates = set[2], tasks = set[3 + rates];
    const uint32_t *task = set + 4 + rates;

    printf("(slack %" PRIu32 ")\n", set[0]);
    if (set[1] > 0)
        printf("(idle %" PRIu32 ")\n", set[1]);
    printf("(rates");
    for (uint32_t r = 0; r < rates; r++)
        printf(" %" PRIu32, set[3 + r]);
    printf(")\n");
    for (uint32_t t = 0; t < tasks; t++, task += 3 + rates) {
        printf("(task (period %" PRIu32 ") (cycles %" PRIu32 ") (energy", task[0], task[1]);
        for (uint32_t r = 0; r < rates; r++)
            printf(" %" PRIu32, task[3 + r]);
        if (task[2] > 0)
            printf(") (from %" PRIu32, task[2]);
        printf("))\n");
    }
}

void print_set(const uint32_t *set, size_t set_len)
{
    if (can_be_written(set, set_len))
        print_text(set);
    printf("words:");
    for (size_t i = 0; i < set_len; i++)
        printf(" %" PRIu32, set[i]);
    printf("\n");
}
