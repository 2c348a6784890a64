/* The header as a caller has it, in C99 and in C++11 alike: every call and every cause of it is used, and the archive
   refuses with the number that the name of each cause stands for.
   Ends with 0 if so, with 1 and a line for each that differs if not. */

#include "../../include/seedspell.h"    /* first, so that it needs nothing before it */

#include <inttypes.h>
#include <stdio.h>

#if SEEDSPELL_REFUSED_TEXT_DEPARTS != 1 || SEEDSPELL_REFUSED_CHIP_ENERGY_TOO_HIGH != 9
#error "refusals 1 and 9, which no call from C gives, are of texts"
#endif
#if SEEDSPELL_LIST_VERSION != 3
#error "the lists here have the idle energy as their second word, and a first release behind each task's cycles"
#endif

#define WORDS 19
#define ROOM 3                          /* of the plan list, a word more than S has tasks */
#define WORK 243                        /* W of S */
#define GENERATED 25                    /* words of a generated set of 2 tasks, */
#define GENERATED_8 73                  /* of 8, which have 390,625 plans, */
#define GENERATED_9 81                  /* and of 9, which have 1,953,125 */
#define MOST SEEDSPELL_GENERATED_WORDS

static const uint32_t S[WORDS] = {100, 0, 3, 2, 4, 8, 2, 10, 12, 0, 4, 9, 20, 15, 20, 0, 7, 15, 30};
static uint32_t set[WORDS], plan[ROOM], work[WORK], generated[MOST];
static uint8_t results[SEEDSPELL_RESULT_BYTES];
static int failures;

/* Makes the set S with another word at a place. */
static void change(size_t place, uint32_t word)
{
    for (size_t i = 0; i < WORDS; i++)
        set[i] = S[i];
    set[place] = word;
}

static uint64_t plan_set(size_t plan_len, size_t work_len, size_t results_len)
{
    return seedspell_plan(set, WORDS, plan, plan_len, work, work_len, results, results_len);
}

static uint64_t plan_dull(size_t plan_len, size_t results_len)
{
    return seedspell_plan_dull(set, WORDS, plan, plan_len, results, results_len);
}

static uint64_t walk_plan(size_t plan_len)
{
    return seedspell_walk(set, WORDS, plan, plan_len, results, SEEDSPELL_RESULT_BYTES);
}

static uint64_t generate(uint32_t n, size_t set_len, size_t results_len)
{
    return seedspell_generate(0, n, generated, set_len, results, results_len);
}

static void expect(const char *what, uint64_t returned, uint32_t number, uint32_t second)
{
    if (SEEDSPELL_REFUSAL(returned) == number && SEEDSPELL_SECOND(returned) == second)
        return;
    printf("tests/header: %s: refusal %" PRIu32 " with %" PRIu32 ", not %" PRIu32 " with %" PRIu32 "\n", what,
           SEEDSPELL_REFUSAL(returned), SEEDSPELL_SECOND(returned), number, second);
    failures++;
}

int main(void)
{
    change(0, 0);
    expect("slack 0", plan_set(ROOM, WORK, sizeof results), SEEDSPELL_REFUSED_BAD_SET_WORD, 0);
    change(1, 1001);
    expect("an idle energy of 1,001", plan_set(ROOM, WORK, sizeof results), SEEDSPELL_REFUSED_BAD_SET_WORD, 1);
    change(9, 10);
    expect("a first release at the period's end", plan_set(ROOM, WORK, sizeof results),
           SEEDSPELL_REFUSED_BAD_SET_WORD, 9);
    change(4, 2);
    expect("rates 2 and 2", plan_set(ROOM, WORK, sizeof results), SEEDSPELL_REFUSED_RATE_NOT_ABOVE, 4);
    change(1, 1);
    expect("6 idle ticks for an energy of 4", plan_set(ROOM, WORK, sizeof results),
           SEEDSPELL_REFUSED_ENERGY_BELOW_IDLE, 10);
    change(7, 9999999);
    expect("a long hyper-period", plan_set(ROOM, WORK, sizeof results), SEEDSPELL_REFUSED_HYPER_PERIOD_TOO_LONG, 13);
    change(8, 81);
    expect("81 cycles in 10 ticks", plan_set(ROOM, WORK, sizeof results), SEEDSPELL_REFUSED_NO_PLAN_FITS, 0);
    change(0, 100);
    expect("one working word", plan_set(ROOM, 1, sizeof results), SEEDSPELL_REFUSED_WORKING_LIST_SHORT, WORK);
    expect("one plan word", plan_set(1, WORK, sizeof results), SEEDSPELL_REFUSED_RECEIVING_LIST_SHORT, 2);
    expect("31 bytes for results", plan_set(ROOM, WORK, 31), SEEDSPELL_REFUSED_RECEIVING_LIST_SHORT, 32);
    expect("S", plan_set(ROOM, WORK, sizeof results), 0, 0);
    /* The planner has filled 2 of the list's words, and those are the plan. */
    expect("the walk of all the room", walk_plan(ROOM), SEEDSPELL_REFUSED_BAD_WALK_PLAN, 2);
    expect("the walk of the plan", walk_plan(2), 0, 0);
    if (results[0] != 1) {
        printf("tests/header: the walk of the plan misses\n");
        failures++;
    }
    change(9, 9);
    expect("the walk with a first release", walk_plan(2), 0, 0);
    if (results[0] != 1 || results[8] + results[16] != 60) {
        printf("tests/header: the walk with a first release does not go to 60\n");
        failures++;
    }
    change(0, 0);
    expect("slack 0, dull", plan_dull(ROOM, sizeof results), SEEDSPELL_REFUSED_BAD_SET_WORD, 0);
    change(4, 2);
    expect("rates 2 and 2, dull", plan_dull(ROOM, sizeof results), SEEDSPELL_REFUSED_RATE_NOT_ABOVE, 4);
    change(1, 1);
    expect("6 idle ticks for an energy of 4, dull", plan_dull(ROOM, sizeof results),
           SEEDSPELL_REFUSED_ENERGY_BELOW_IDLE, 10);
    change(7, 9999999);
    expect("a long hyper-period, dull", plan_dull(ROOM, sizeof results), SEEDSPELL_REFUSED_HYPER_PERIOD_TOO_LONG, 13);
    change(8, 81);
    expect("81 cycles in 10 ticks, dull", plan_dull(ROOM, sizeof results), SEEDSPELL_REFUSED_NO_PLAN_FITS, 0);
    change(0, 100);
    expect("one plan word, dull", plan_dull(1, sizeof results), SEEDSPELL_REFUSED_RECEIVING_LIST_SHORT, 2);
    expect("31 bytes for results, dull", plan_dull(ROOM, 31), SEEDSPELL_REFUSED_RECEIVING_LIST_SHORT, 32);
    plan[0] = plan[1] = 0;
    expect("S, dull", plan_dull(ROOM, sizeof results), 0, 0);
    if (plan[0] != 2 || plan[1] != 1 || results[0] != 1 || results[24] != 41) {
        printf("tests/header: the dull engine's plan is another\n");
        failures++;
    }
    expect("33 tasks", generate(33, GENERATED, sizeof results), SEEDSPELL_REFUSED_BAD_SET_WORD, 0);
    expect("a word short", generate(2, GENERATED - 1, sizeof results), SEEDSPELL_REFUSED_RECEIVING_LIST_SHORT,
           GENERATED);
    expect("31 bytes for the length", generate(2, GENERATED, 31), SEEDSPELL_REFUSED_RECEIVING_LIST_SHORT, 32);
    expect("a word short of 32 tasks", generate(32, MOST - 1, sizeof results), SEEDSPELL_REFUSED_RECEIVING_LIST_SHORT,
           MOST);
    expect("32 tasks", generate(32, MOST, sizeof results), 0, 0);
    expect("2 tasks", generate(2, GENERATED, sizeof results), 0, 0);
    if (results[0] != GENERATED || generated[GENERATED - 1] != 225) {
        printf("tests/header: the generated set is another\n");
        failures++;
    }
    expect("the generated set", seedspell_plan(generated, GENERATED, plan, ROOM, work, WORK, results, sizeof results),
           0, 0);
    expect("9 tasks", generate(9, GENERATED_9, sizeof results), 0, 0);
    expect("9 tasks, dull", seedspell_plan_dull(generated, GENERATED_9, plan, ROOM, results, sizeof results),
           SEEDSPELL_REFUSED_TOO_MANY_PLANS, 0);
    expect("8 tasks", generate(8, GENERATED_8, sizeof results), 0, 0);
    expect("8 tasks, dull", seedspell_plan_dull(generated, GENERATED_8, plan, ROOM, results, sizeof results),
           SEEDSPELL_REFUSED_RECEIVING_LIST_SHORT, 8);
    return failures > 0;
}
