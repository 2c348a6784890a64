/* The greatest common divisor in plain C in three ways, as the measure for the
   archive's, which halves and subtracts; and the checks 2 to 4 over two of them.

   A way gives the divisor times 256, plus what it counts: by remainders
   nothing; by halving the halvings and subtractions, as the archive does; by
   shifting the shifts and subtractions, which are below 256 too (at most 35
   remainders, and 27 places in all their quotients). Tests are counted by none.
   The numbers fit 32 bits, so plain C needs no more. */

#include <stddef.h>
#include <stdint.h>

#include "../checks.h"

uint64_t plain_remainders(uint64_t x, uint64_t y), plain_halving(uint64_t x, uint64_t y),
    plain_shifting(uint64_t x, uint64_t y);
uint64_t plain_check_remainders(const uint32_t *set, size_t set_len),
    plain_check_halving(const uint32_t *set, size_t set_len);

struct counted {
    uint32_t number, count;
};

static uint64_t packed(struct counted divisor)
{
    return (uint64_t)divisor.number << 8 | divisor.count;
}

uint64_t plain_remainders(uint64_t x, uint64_t y)
{
    return (uint64_t)common_divisor((uint32_t)x, (uint32_t)y) << 8;
}

/* The archive's way: twos that both have stay in, so u is the lowest bit of either. */
static inline struct counted halving(uint32_t a, uint32_t b)
{
    uint32_t u = (a | b) & -(a | b), steps = 0;

    for (; a != b; steps++) {
        if ((a & u) == 0)
            a >>= 1;
        else if ((b & u) == 0)
            b >>= 1;
        else if (b < a)
            a -= b;
        else
            b -= a;
    }
    return (struct counted){a, steps};
}

uint64_t plain_halving(uint64_t x, uint64_t y)
{
    return packed(halving((uint32_t)x, (uint32_t)y));
}

/* Euclid's way on a processor that has no divider. A remainder is what is left
   when the divisor is subtracted at every place where it goes: it is shifted up
   to the highest, and back down place by place. The quotient is not kept. */
static struct counted shifted_remainder(uint32_t a, uint32_t b)
{
    uint32_t shifted = b, half = a >> 1, count = 1;

    for (; shifted <= half; count++)
        shifted <<= 1;
    for (;; count++) {
        if (shifted <= a) {
            a -= shifted;
            count++;
        }
        if (shifted == b)
            return (struct counted){a, count};
        shifted >>= 1;
    }
}

uint64_t plain_shifting(uint64_t x, uint64_t y)
{
    struct counted rest;
    uint32_t a = (uint32_t)x, b = (uint32_t)y, count = 0;

    while (b != 0) {
        rest = shifted_remainder(a, b);
        a = b;
        b = rest.number;
        count += rest.count;
    }
    return packed((struct counted){a, count});
}

/* ---- The checks, as the archive's entry answers: the hyper-period or a refusal. */

static inline uint32_t halved_divisor(uint32_t a, uint32_t b)
{
    return halving(a, b).number;
}

uint64_t plain_check_remainders(const uint32_t *set, size_t set_len)
{
    uint32_t span;
    uint64_t refused = check_set(set, set_len, common_divisor, &span);

    return refused != 0 ? refused : span;
}

uint64_t plain_check_halving(const uint32_t *set, size_t set_len)
{
    uint32_t span;
    uint64_t refused = check_set(set, set_len, halved_divisor, &span);

    return refused != 0 ? refused : span;
}
