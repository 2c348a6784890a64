/* The archive's entries in plain C: they take its place where only the harness
   is tried. */

#include <stddef.h>
#include <stdint.h>

uint64_t bench_divisor(uint64_t x, uint64_t y), plain_halving(uint64_t x, uint64_t y);
uint64_t bench_check(const uint32_t *set, size_t set_len),
    plain_check_halving(const uint32_t *set, size_t set_len);

uint64_t bench_divisor(uint64_t x, uint64_t y)
{
    if (x < 1 || x > 100000000 || y < 1 || y > 10000000)
        return 0;
    return plain_halving(x, y);
}

uint64_t bench_check(const uint32_t *set, size_t set_len)
{
    return plain_check_halving(set, set_len);
}
