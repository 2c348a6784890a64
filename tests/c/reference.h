/* What each C call owes, worked out from document 01, and from document 02 for the generator (note 1), the idle energy H
   (note 4), first releases (note 6) and the dull engine (note 7), in the plainest way there is.

   It shares no code with the archive or with the benchmarks' planner, so that one misreading is not made twice. It changes
   nothing that it is given: it only says what the call must return and leave. */

#ifndef REFERENCE_H
#define REFERENCE_H

#include <stddef.h>
#include <stdint.h>

#define MOST_TASKS 32
#define MOST_RATES 8
#define RESULT_BYTES 32
#define GENERATED_WORDS (9 + 8 * 33)    /* of a generated list with one task more than allowed, should one come up */
#define FEW_PLANS 700                   /* up to this many plans, the planner's choice goes through all */
#define MANY_PLANS 1000000

struct answer {
    uint64_t code;                      /* what the call returns */
    uint64_t value[4];                  /* where that is 0: the four results */
    uint32_t plan[MOST_TASKS];          /* the plan of the planner or the dull engine, */
    size_t plan_words;                  /* and how many words of the plan list it takes: N, or 0 where none changes */
    size_t work_words;                  /* how many working words become 0: W, or 0 where none changes */
    uint32_t set[GENERATED_WORDS];      /* the generator's list, */
    size_t set_words;                   /* and how many words of the set list it takes, or 0 where none changes */

    /* Of which kind the call is: for the counts, and for whoever draws sets. */
    uint64_t span;                      /* the hyper-period L where the set passes checks 2, 3 and 4, and but for the walk
                                           10 too, else 0 */
    uint64_t end;                       /* of the walk: its last tick, where there is a span */
    uint64_t load;                      /* of the walk, where it is made: its plan's load */
    uint64_t waiting;                   /* of the planner, where it plans: the energy of L idle ticks, H x L */
    uint64_t least_load;                /* of the planner: the load with every task at its least */
    uint64_t plans;                     /* of the planner and the dull engine: M to the power N, or MANY_PLANS where that
                                           is more; no M to the power N is just MANY_PLANS */
    uint64_t alike;                     /* of both, where all plans were gone through: how many of those that fit have the
                                           least rounded energy and the least load, so that rate numbers decide */
};

/* Two ways to the planner's choice, which must agree. */
enum way {
    BY_SIZE,                            /* all plans where there are few, else task by task */
    ALL_PLANS,
    TASK_BY_TASK
};

void expect_plan(enum way way, const uint32_t *set, size_t set_len, size_t plan_len, size_t work_len, size_t results_len,
                 struct answer *answer);

/* The dull engine, which shares with the planner's ways no more than the checks of a set and the count of its plans. */
void expect_dull(const uint32_t *set, size_t set_len, size_t plan_len, size_t results_len, struct answer *answer);

void expect_walk(const uint32_t *set, size_t set_len, const uint32_t *plan, size_t plan_len, size_t results_len,
                 struct answer *answer);

/* The generator, for that many tasks. */
void expect_generate(uint32_t seed, uint32_t tasks, size_t set_len, size_t results_len, struct answer *answer);

/* Whether document 01's writer takes the list: it passes checks 2 and 3. */
int can_be_written(const uint32_t *set, size_t set_len);

#endif
