/* Answers planner records by the C call, one line for each:

       p NAME K w1 .. wK J A      K words of a set, J words for the plan, A working words

   Lines of other kinds are passed over. An answer is the one that the test
   program gives: NAME planned UNIT LOAD L ENERGY r1 .. rN, or NAME refused N K.
   It is `NAME changed`, and the run ends with 1, where a lent word holds what
   it should not: on success the first N words of the plan are 1 to M, the
   first W working words 0, and everything else is as before; on a refusal
   everything is. Each record is also tried with 31 bytes for the results: a
   refusal other than 7 is then the same, everything else is 6 with 32, and
   nothing has changed, or the answer is `NAME short`. */

#include <inttypes.h>
#include <stddef.h>
#include <stdint.h>
#include <stdio.h>
#include <stdlib.h>
#include <string.h>

#include "../../include/seedspell.h"

#define MOST_WORDS 400
#define MOST_PLAN 64
#define MOST_WORK 5000000
#define SPARE 8                         /* words and bytes past the ends of the lists */
/* 6 with 32: too few bytes for the results */
#define NO_RESULTS ((uint64_t)SEEDSPELL_REFUSED_RECEIVING_LIST_SHORT << 32 | SEEDSPELL_RESULT_BYTES)

static uint32_t set[MOST_WORDS], plan[MOST_PLAN + SPARE];
static uint32_t work[MOST_WORK + SPARE];
static uint8_t results[SEEDSPELL_RESULT_BYTES + SPARE];
static char line[65536];

/* What a place holds before the call: never 0 and never a rate number. */
static uint32_t mark(size_t at)
{
    return 0xa5000000u + (uint32_t)at;
}

static int marked(const uint32_t *list, size_t from, size_t to)
{
    for (size_t i = from; i < to; i++)
        if (list[i] != mark(i))
            return 0;
    return 1;
}

static uint64_t value(int k)
{
    uint64_t v = 0;

    for (int i = 7; i >= 0; i--)
        v = v << 8 | results[8 * k + i];
    return v;
}

/* Whether the lists hold what they should: `tasks` is 0 after a refusal. */
static int kept(uint32_t tasks, size_t needed, size_t plan_len, size_t work_len)
{
    size_t result_bytes = tasks == 0 ? 0 : SEEDSPELL_RESULT_BYTES;

    for (uint32_t t = 0; t < tasks; t++)
        if (plan[t] < 1 || plan[t] > set[2])
            return 0;
    for (size_t i = 0; i < needed; i++)
        if (work[i] != 0)
            return 0;
    for (size_t i = result_bytes; i < sizeof results; i++)
        if (results[i] != 0xa5)
            return 0;
    return marked(plan, tasks, plan_len + SPARE) && marked(work, needed, work_len + SPARE);
}

static void lend(size_t plan_len, size_t work_len)
{
    for (size_t i = 0; i < plan_len + SPARE; i++)
        plan[i] = mark(i);
    for (size_t i = 0; i < work_len + SPARE; i++)
        work[i] = mark(i);
    memset(results, 0xa5, sizeof results);
}

static int next_number(char **at, unsigned long *number)
{
    char *end;

    *number = strtoul(*at, &end, 10);
    if (end == *at)
        return 0;
    *at = end;
    return 1;
}

static int answer(char *record)
{
    char *name = strtok(record, " "), *at;
    unsigned long count, number, plan_len, work_len;
    size_t needed = 0;
    uint32_t tasks = 0;
    uint64_t code, short_code;

    at = name + strlen(name) + 1;
    if (!next_number(&at, &count) || count > MOST_WORDS)
        return 0;
    for (unsigned long i = 0; i < count; i++) {
        if (!next_number(&at, &number))
            return 0;
        set[i] = (uint32_t)number;
    }
    if (!next_number(&at, &plan_len) || !next_number(&at, &work_len)
        || plan_len > MOST_PLAN || work_len > MOST_WORK)
        return 0;

    lend(plan_len, work_len);
    short_code = seedspell_plan(set, count, plan, plan_len, work, work_len, results,
                                SEEDSPELL_RESULT_BYTES - 1);
    if (!kept(0, 0, plan_len, work_len)) {
        printf("%s short\n", name);
        return 0;
    }
    code = seedspell_plan(set, count, plan, plan_len, work, work_len, results,
                          SEEDSPELL_RESULT_BYTES);
    if (code == 0) {
        tasks = set[3 + set[2]];
        needed = (size_t)(tasks + 1) * (4000 * tasks / set[0] + 1);
    }
    if (short_code != (code == 0 || code >> 32 == SEEDSPELL_REFUSED_NO_PLAN_FITS ? NO_RESULTS : code)) {
        printf("%s short\n", name);
        return 0;
    }
    if (!kept(tasks, needed, plan_len, work_len)) {
        printf("%s changed\n", name);
        return 0;
    }
    if (code != 0) {
        printf("%s refused %" PRIu64 " %" PRIu64 "\n", name, code >> 32, code & UINT32_MAX);
        return 1;
    }
    printf("%s planned %" PRIu64 " %" PRIu64 " %" PRIu64 " %" PRIu64, name, value(0), value(1),
           value(2), value(3));
    for (uint32_t t = 0; t < tasks; t++)
        printf(" %" PRIu32, plan[t]);
    printf("\n");
    return 1;
}

int main(void)
{
    int good = 1;

    while (fgets(line, sizeof line, stdin) != NULL)
        if (line[0] == 'p' && line[1] == ' ' && !answer(line + 2))
            good = 0;
    return good ? 0 : 1;
}
