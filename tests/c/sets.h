/* Sets for the test's calls: how they are drawn, damaged and written out. */

#ifndef SETS_H
#define SETS_H

#include <stddef.h>
#include <stdint.h>

#define MOST_WORDS 440                  /* 9 rates and 33 tasks, one more than allowed of each, and some to spare */
#define MOST_PLAN 48
#define SHORT_SPAN 2000                 /* hyper-periods up to this are walked quickly */

/* A set before it is a list; room for one rate and one task more than allowed. */
struct shape {
    uint32_t slack, idle, rates, tasks;
    uint32_t rate[9];
    uint32_t period[33], cycles[33], first[33], energy[33][9];
};

struct list {
    uint32_t word[MOST_WORDS];
    size_t len;
};

/* Random numbers, the same everywhere for a seed. */
void start_draws(uint64_t seed);
uint64_t draw(uint64_t low, uint64_t high);
int one_in(uint64_t n);

/* The list that stands for a set. */
void flatten(const struct shape *shape, struct list *list);

/* Every job time 1 at rate 1, periods alike, no idle energy, all released together: a set whose words can be tried one
   by one. */
void plain_shape(struct shape *shape, uint32_t rates, uint32_t tasks);

/* A set with a hyper-period of at most SHORT_SPAN that passes checks 2, 3 and 4, and as a rule 10. */
void draw_shape(struct shape *shape);

/* The same of so many rates and tasks. */
void draw_shape_of(struct shape *shape, uint32_t rates, uint32_t tasks);

/* Gives a set first releases, each 0, the period - 1 or anything between. */
void draw_firsts(struct shape *shape);

/* Gives a set an idle energy and puts what its jobs' ticks then cost to every energy: what is left without that stays,
   but where it would pass 1,000,000. */
void raise_energies(struct shape *shape, uint32_t idle);

/* Changes a list so that, as a rule, it is a set no longer. */
void damage(struct list *list);

/* A list with periods of which the hyper-period, as a rule, is over 10,000,000. */
void draw_long(struct list *list);

/* Words that are a set's by chance alone. */
void draw_rubbish(struct list *list);

/* A word at, or either side of, the end of some range. */
uint32_t draw_edge(void);

/* Prints a list as the bracketed text where the writer takes it, and as numbers. */
void print_set(const uint32_t *set, size_t set_len);

#endif
