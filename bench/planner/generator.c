/* The generator in plain C under the archive's name: it takes the archive's
   place where only the harness is tried, as a copy of plan.c does. */

#include "../../include/seedspell.h"

static uint32_t draw(uint32_t *state)
{
    *state = *state * 1664525u + 1013904223u;
    return *state / 65536;
}

uint64_t seedspell_generate(uint32_t seed, uint32_t n, uint32_t *set, size_t set_len,
                            uint8_t *results, size_t results_len)
{
    static const uint32_t period[] = {10, 20, 25, 40, 50, 100, 200, 400};
    size_t needed = 9 + 8 * (size_t)n;

    if (n < 1 || n > 32)
        return (uint64_t)SEEDSPELL_REFUSED_BAD_SET_WORD << 32;
    if (set_len < needed)
        return (uint64_t)SEEDSPELL_REFUSED_RECEIVING_LIST_SHORT << 32 | needed;
    if (results_len < SEEDSPELL_RESULT_BYTES)
        return (uint64_t)SEEDSPELL_REFUSED_RECEIVING_LIST_SHORT << 32 | SEEDSPELL_RESULT_BYTES;
    *set++ = 100;
    *set++ = 0;
    *set++ = 5;
    for (uint32_t j = 1; j <= 5; j++)
        *set++ = 100 * j;
    *set++ = n;
    for (uint32_t k = 0; k < n; k++) {
        uint32_t factor;
        *set++ = period[draw(&seed) % 8];
        *set++ = 1 + draw(&seed) % 1000;
        *set++ = 0;
        factor = 2 + draw(&seed) % 9;
        for (uint32_t j = 1; j <= 5; j++)
            *set++ = factor * j * j;
    }
    for (int i = 0; i < SEEDSPELL_RESULT_BYTES; i++)
        results[i] = i < 8 ? (uint8_t)(needed >> (8 * i)) : 0;
    return 0;
}
