/* What a call returned, kept and asked for as include/seedspell.h says, in C99 and in C++11 alike. Ends with 0, or with
   1 and a line for each answer that is another. tests/header.sh also compiles it with another type as KEPT, another
   question as ASKED, and a call whose result is UNUSED, and sees what the compiler says. */

#include "../include/seedspell.h"

#include <stdio.h>

#ifndef KEPT
#define KEPT uint64_t
#endif
#ifndef ASKED
#define ASKED seedspell_ok
#endif

#define WORDS 19
#define WORK 243
#define GENERATED_9 81                  /* words of a generated set of 9 tasks, which has 1,953,125 plans */

static uint32_t set[WORDS] = {100, 0, 3, 2, 4, 8, 2, 10, 12, 0, 4, 9, 20, 15, 20, 0, 7, 15, 30};
static uint32_t plan[9], work[WORK], generated[GENERATED_9];
static uint8_t results[SEEDSPELL_RESULT_BYTES];
static int failures, asked;

static uint64_t plan_set(void)
{
    return seedspell_plan(set, WORDS, plan, 2, work, WORK, results, sizeof results);
}

static uint64_t once(uint64_t returned)
{
    asked++;
    return returned;
}

static void expect(const char *what, int holds)
{
    if (holds)
        return;
    printf("tests/header: %s: not so\n", what);
    failures++;
}

static void expect_success(const char *what, uint64_t returned)
{
    expect(what, seedspell_ok(returned) && SEEDSPELL_REFUSAL(returned) == 0 && SEEDSPELL_SECOND(returned) == 0);
}

/* A refusal that reads as success in 32 bits. */
static void expect_lost(const char *what, uint64_t returned, uint32_t number)
{
    uint32_t in_32_bits = SEEDSPELL_SECOND(returned);

    expect(what, !seedspell_ok(returned) && SEEDSPELL_REFUSAL(returned) == number && in_32_bits == 0);
}

int main(void)
{
    KEPT kept = plan_set();

    expect("a plan of S", ASKED(kept) == 1);
    expect_success("S", plan_set());
    expect_success("the walk of its plan", seedspell_walk(set, WORDS, plan, 2, results, sizeof results));
    expect_success("9 tasks", seedspell_generate(0, 9, generated, GENERATED_9, results, sizeof results));
    expect_lost("too many plans", seedspell_plan_dull(generated, GENERATED_9, plan, 9, results, sizeof results),
                SEEDSPELL_REFUSED_TOO_MANY_PLANS);
    expect_lost("33 tasks", seedspell_generate(0, 33, generated, GENERATED_9, results, sizeof results),
                SEEDSPELL_REFUSED_BAD_SET_WORD);
    plan[0] = 4;
    expect_lost("rate number 4 of 3", seedspell_walk(set, WORDS, plan, 2, results, sizeof results),
                SEEDSPELL_REFUSED_BAD_WALK_PLAN);
    set[8] = 81;
    expect_lost("no plan fits", plan_set(), SEEDSPELL_REFUSED_NO_PLAN_FITS);
    set[0] = 0;
    expect_lost("slack 0", plan_set(), SEEDSPELL_REFUSED_BAD_SET_WORD);
    expect("asked once", !seedspell_ok(once(1)) && asked == 1);
#ifdef UNUSED
    UNUSED;
#endif
    return failures > 0;
}
