/* The least energy by going through all plans, read from the set's words one after the other. */

#include "least.h"

struct sums {
    const uint32_t *set;
    uint64_t rates, tasks, span;
    uint64_t least;                     /* of the plans so far */
};

static uint64_t common_divisor(uint64_t a, uint64_t b)
{
    while (b != 0) {
        uint64_t rest = a % b;
        a = b;
        b = rest;
    }
    return a;
}

static const uint32_t *task_words(const struct sums *s, uint64_t t)
{
    return s->set + 4 + s->rates + t * (3 + s->rates);
}

/* All rates for the tasks from t on, with what those before it take: their ticks, and their jobs' energy. */
static void go_on(struct sums *s, uint64_t t, uint64_t ticks, uint64_t energy)
{
    const uint32_t *task = task_words(s, t);
    uint64_t jobs;

    if (t == s->tasks) {
        energy += s->set[1] * (s->span - ticks);        /* and the idle ticks */
        if (energy < s->least)
            s->least = energy;
        return;
    }
    jobs = s->span / task[0];
    for (uint64_t r = 0; r < s->rates; r++) {
        uint64_t rate = s->set[3 + r], then = ticks + jobs * ((task[1] + rate - 1) / rate);
        if (then <= s->span)                            /* a plan that does not fit misses a deadline */
            go_on(s, t + 1, then, energy + jobs * task[3 + r]);
    }
}

uint64_t least_energy(const uint32_t *set)
{
    struct sums s = {set, set[2], set[3 + set[2]], 1, NO_ENERGY};

    for (uint64_t t = 0; t < s.tasks; t++) {
        uint64_t period = *task_words(&s, t);
        s.span = s.span / common_divisor(s.span, period) * period;
    }
    go_on(&s, 0, 0, 0);
    return s.least;
}
