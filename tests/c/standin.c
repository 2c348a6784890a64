/* The four entries over the reference, in the archive's place: what selftest.sh plants errors in, to see that the test
   finds them. No part of the test itself. */

#include <string.h>

#include "../../include/seedspell.h"
#include "reference.h"

static void put_results(const uint64_t *value, uint8_t *results)
{
    for (int k = 0; k < 4; k++)
        for (int i = 0; i < 8; i++)
            results[8 * k + i] = (uint8_t)(value[k] >> (8 * i));
}

uint64_t seedspell_plan(const uint32_t *set, size_t set_len, uint32_t *plan, size_t plan_len, uint32_t *work, size_t work_len,
                        uint8_t *results, size_t results_len)
{
    struct answer answer;

    expect_plan(BY_SIZE, set, set_len, plan_len, work_len, results_len, &answer);
    if (answer.code != 0)
        return answer.code;
    memcpy(plan, answer.plan, answer.plan_words * sizeof *plan);
    memset(work, 0, answer.work_words * sizeof *work);
    put_results(answer.value, results);
    return 0;
}

uint64_t seedspell_plan_dull(const uint32_t *set, size_t set_len, uint32_t *plan, size_t plan_len,
                             uint8_t *results, size_t results_len)
{
    struct answer answer;

    expect_dull(set, set_len, plan_len, results_len, &answer);
    for (size_t t = 0; t < answer.plan_words; t++)
        plan[t] = answer.plan[t];
    if (answer.plan_words > 0)
        put_results(answer.value, results);
    return answer.code;
}

uint64_t seedspell_walk(const uint32_t *set, size_t set_len, const uint32_t *plan, size_t plan_len, uint8_t *results, size_t results_len)
{
    struct answer answer;

    expect_walk(set, set_len, plan, plan_len, results_len, &answer);
    if (answer.code == 0)
        put_results(answer.value, results);
    return answer.code;
}

uint64_t seedspell_generate(uint32_t seed, uint32_t n, uint32_t *set, size_t set_len,
                            uint8_t *results, size_t results_len)
{
    struct answer answer;

    expect_generate(seed, n, set_len, results_len, &answer);
    memcpy(set, answer.set, answer.set_words * sizeof *set);
    if (answer.set_words > 0)
        put_results(answer.value, results);
    return answer.code;
}
