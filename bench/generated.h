/* Sets of the archive's generator, for the benches: who names a seed and a
   number of tasks times the same work as whoever else names them. */
#ifndef BENCH_GENERATED_H
#define BENCH_GENERATED_H

#include <stddef.h>
#include <stdint.h>

struct seeded {
    uint32_t seed, tasks;
};

/* Those that a bench times where it is asked for none: at 16, 24 and 32 tasks
   the first three seeds from 1 on whose sets have a plan. */
#define SEEDED_COUNT 9
extern const struct seeded seeded[SEEDED_COUNT];

/* Whether the command line begins with --generated SEED N, and which set that
   is; and the repetitions, the argument behind it or the first, 5 where there
   is none. Ends the run with 2 where one of these is no number. */
int read_arguments(int argc, char **argv, struct seeded *which, int *repetitions);

/* Writes the set to a list of SEEDSPELL_GENERATED_WORDS words, and returns its
   length. Ends the run with 2 where the generator refuses. */
size_t generate(struct seeded which, uint32_t *set);

/* Says of a set that it has no plan, and so is not timed. */
void say_no_plan(struct seeded which);

#endif
