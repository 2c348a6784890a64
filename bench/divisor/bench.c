/* Times the archive's greatest common divisor, which halves and subtracts, beside
   plain C's of divisor.c: by remainders, by the same halving, and by remainders
   that are worked out by shifting and subtracting, as a processor without a
   divider has to. The same pairs, the same run, in turn, the best of many
   repetitions. Then the archive's checks 2 to 4 beside plain C's.

   Before that all are held to equal answers, and the archive and plain C's
   halving to equal counts, at most MOST_STEPS; where they differ the run ends
   with 1. A first number is at most 100,000,000, the largest that the running
   multiple of the periods is to be, and a second one at most 10,000,000, the
   longest period.

   One line a case: name, how many pairs, nanoseconds a pair of each way, the
   archive's time over each of the three others, the most and the mean of the
   halvings and subtractions, and the most and the mean of the shifts and
   subtractions. all_pairs has which pairs a case is of. Then for the checks: name,
   how many sets, N, nanoseconds a set of the archive and of plain C by remainders
   and by halving, and the archive's time over both.

   The repetitions can be given as an argument, and then the seed of the random
   pairs; without them there are 1,000, and the seed is 1. */

#include <inttypes.h>
#include <stddef.h>
#include <stdint.h>
#include <stdio.h>
#include <stdlib.h>

#include "../../include/seedspell.h"
#include "../generated.h"
#include "../measure.h"

typedef uint64_t divisor(uint64_t x, uint64_t y);
typedef uint64_t check(const uint32_t *set, size_t set_len);

/* The archive's, and divisor.c's. */
divisor bench_divisor, plain_remainders, plain_halving, plain_shifting;
check bench_check, plain_check_remainders, plain_check_halving;

#define LARGEST 100000000u      /* of a pair's first number */
#define LONGEST 10000000u       /* of its second, and of both in today's check 4 */
#define MOST_STEPS 100
#define MOST_TASKS 32
#define SEEDS 300               /* generated sets of a case */
#define MOST_PAIRS (SEEDS * MOST_TASKS)
#define FEW 1024                /* pairs of a case that is searched for, or has one pair alone */
#define MANY 4096               /* pairs of a random case */
#define CHANGES 5000            /* tried on the way to a pair for which a way counts much */

struct pair {
    uint32_t x, y;
};

struct list {
    uint32_t word[SEEDSPELL_GENERATED_WORDS];
    size_t len;
};

static struct pair pairs[MOST_PAIRS];   /* of the case in hand */
static struct list sets[SEEDS];
static uint64_t compared, sum;

/* A number from 1 to most, each number of binary digits as likely. */
static uint32_t of_any_size(uint32_t most)
{
    uint32_t digits = 0, high;

    while (most >> digits != 0)
        digits++;
    digits = between(1, digits);
    high = ((uint32_t)1 << digits) - 1;
    return between((uint32_t)1 << (digits - 1), high < most ? high : most);
}

/* ---- The pairs. Each of these fills the first places of `pairs` and returns how many. */

static int one_pair(uint32_t x, uint32_t y)
{
    for (int i = 0; i < FEW; i++)
        pairs[i] = (struct pair){x, y};
    return FEW;
}

static uint32_t changed(uint32_t n)
{
    switch (between(0, 3)) {
    case 0:
        return n ^ (uint32_t)1 << between(0, 26);
    case 1:
        return n + between(1, 32);
    case 2:
        return n - between(1, 32);
    default:
        return between(0, 1) ? n * 2 + between(0, 1) : n / 2;
    }
}

/* Pairs for which a way counts much: from one whose second number has many twos, a
   change of either number is kept where the count does not fall. */
static int bad_pairs(divisor *way, uint32_t most)
{
    for (int i = 0; i < FEW; i++) {
        struct pair best = {between(1, most), 2 * between(0, 15) + 1};
        uint64_t highest = 0;

        while (best.y <= LONGEST / 2)
            best.y *= 2;
        for (int k = 0; k < CHANGES; k++) {
            struct pair next = best;
            uint64_t count;

            if (between(0, 1))
                next.x = changed(next.x);
            else
                next.y = changed(next.y);
            if (next.x < 1 || next.x > most || next.y < 1 || next.y > LONGEST)
                continue;
            count = way(next.x, next.y) & 255;
            if (count >= highest) {
                highest = count;
                best = next;
            }
        }
        pairs[i] = best;
    }
    return FEW;
}

static int uniform_pairs(uint32_t most)
{
    for (int i = 0; i < MANY; i++)
        pairs[i] = (struct pair){between(1, most), between(1, LONGEST)};
    return MANY;
}

static int any_size_pairs(uint32_t most)
{
    for (int i = 0; i < MANY; i++)
        pairs[i] = (struct pair){of_any_size(most), of_any_size(LONGEST)};
    return MANY;
}

/* Both are multiples of the same power of two, 2^8 to 2^20. */
static int common_twos(uint32_t most)
{
    for (int i = 0; i < MANY; i++) {
        uint32_t twos = between(8, 20);

        pairs[i].x = between(1, most >> twos) << twos;
        pairs[i].y = between(1, LONGEST >> twos) << twos;
    }
    return MANY;
}

/* The sets of the generator of seeds 1 to SEEDS. */
static void generate_sets(uint32_t tasks)
{
    for (uint32_t s = 0; s < SEEDS; s++)
        sets[s].len = generate((struct seeded){s + 1, tasks}, sets[s].word);
}

/* What check 4 meets on them: the running multiple and the next period. */
static int met_pairs(uint32_t tasks)
{
    int count = 0;

    generate_sets(tasks);
    for (int s = 0; s < SEEDS; s++) {
        const uint32_t *task = sets[s].word + 4 + sets[s].word[2];
        uint32_t running = 1;

        for (uint32_t t = 0; t < tasks; t++, task += 3 + sets[s].word[2]) {
            pairs[count++] = (struct pair){running, *task};
            running = running / (uint32_t)(plain_remainders(running, *task) >> 8) * *task;
        }
    }
    return count;
}

/* ---- The sets that are made here. */

static const struct list example = {
    {100, 0, 3, 2, 4, 8, 2, 10, 12, 0, 4, 9, 20, 15, 20, 0, 7, 15, 30}, 19,
};

/* A set of two rates with these periods. */
static void make_set(struct list *list, const uint32_t *period, uint32_t tasks)
{
    static const uint32_t head[] = {100, 0, 2, 1, 2};
    uint32_t *at = list->word;

    for (int i = 0; i < 5; i++)
        *at++ = head[i];
    *at++ = tasks;
    for (uint32_t t = 0; t < tasks; t++) {
        *at++ = period[t];
        for (int i = 0; i < 4; i++)
            *at++ = i != 1;             /* cycles, the first release, two energies */
    }
    list->len = (size_t)(at - list->word);
}

/* Every period takes 44 steps: no period takes more that keeps the running multiple
   at 10,000,000 or less. For steps are those of both numbers over their divisor,
   whose product is then as small; all such pairs were tried. */
static void most_steps_set(struct list *list)
{
    uint32_t period[MOST_TASKS] = {8388607};

    for (int t = 1; t < MOST_TASKS; t++)
        period[t] = 1;
    make_set(list, period, MOST_TASKS);
}

/* Periods that pass the limit now and then. */
static void random_set(struct list *list)
{
    uint32_t period[MOST_TASKS], tasks = between(1, MOST_TASKS), most = of_any_size(LONGEST);

    for (uint32_t t = 0; t < tasks; t++)
        period[t] = of_any_size(most);
    make_set(list, period, tasks);
}

/* ---- Equal answers. */

static void same_pair(uint32_t x, uint32_t y)
{
    uint64_t a = bench_divisor(x, y), halving = plain_halving(x, y);

    if (a != halving || (a & 255) > MOST_STEPS || a >> 8 != plain_remainders(x, y) >> 8
        || a >> 8 != plain_shifting(x, y) >> 8) {
        fprintf(stderr, "bench: the divisors of %" PRIu32 " and %" PRIu32 " differ, or take too many"
                " steps: %" PRIu64 " in %" PRIu64 " of the archive, %" PRIu64 " in %" PRIu64
                " of plain C\n", x, y, a >> 8, a & 255, halving >> 8, halving & 255);
        exit(1);
    }
    compared++;
}

static void same_check(const struct list *list)
{
    uint64_t a = bench_check(list->word, list->len);
    uint64_t p = plain_check_remainders(list->word, list->len);

    if (a != p || a != plain_check_halving(list->word, list->len)) {
        fprintf(stderr, "bench: the checks differ: %" PRIx64 " of the archive, %" PRIx64
                " of plain C\n", a, p);
        exit(1);
    }
    compared++;
}

/* The list cut at every place, and with every word replaced. */
static void same_checks(const struct list *list)
{
    static const uint32_t other[] = {0, 1, 2, 3, 8, 9, 32, 33, 1000, 1001, 1000000, 1000001,
                                     8388607, 9999999, 10000000, 10000001, 4000000000u,
                                     4000000001u, UINT32_MAX};
    struct list damaged;

    same_check(list);
    for (size_t at = 0; at < list->len; at++) {
        damaged = *list;
        damaged.len = at;
        same_check(&damaged);
        damaged.len = list->len;
        for (size_t k = 0; k < sizeof other / sizeof *other; k++) {
            damaged.word[at] = other[k];
            same_check(&damaged);
        }
    }
}

/* The small pairs; those of all sizes; and what the entry refuses. */
static void compare(void)
{
    struct list list;

    for (uint32_t x = 1; x <= 1000; x++)
        for (uint32_t y = 1; y <= 1000; y++)
            same_pair(x, y);
    for (int i = 0; i < 1000000; i++)
        same_pair(of_any_size(LARGEST), of_any_size(LONGEST));
    same_pair(LARGEST, LONGEST);
    if (bench_divisor(0, 1) != 0 || bench_divisor(1, 0) != 0 || bench_divisor(LARGEST + 1, 1) != 0
        || bench_divisor(1, LONGEST + 1) != 0) {
        fprintf(stderr, "bench: the entry takes numbers out of its range\n");
        exit(1);
    }
    same_checks(&example);
    most_steps_set(&list);
    same_checks(&list);
    for (int i = 0; i < 300; i++) {
        random_set(&list);
        same_checks(&list);
    }
    printf("%" PRIu64 " pairs and lists answered alike\n", compared);
}

/* ---- Times. */

static void keep_best(double *best, double time)
{
    if (*best == 0 || time < *best)
        *best = time;
}

/* Nanoseconds a pair. What is given is added up, so that nothing can be left out. */
static double time_pairs(divisor *way, int count)
{
    double start = now();

    for (int i = 0; i < count; i++)
        sum += way(pairs[i].x, pairs[i].y);
    return (now() - start) / count;
}

static double time_checks(check *way, int count, int rounds)
{
    double start = now();

    for (int r = 0; r < rounds; r++)
        for (int s = 0; s < count; s++)
            sum += way(sets[s].word, sets[s].len);
    return (now() - start) / count / rounds;
}

/* What a way counts over the pairs. */
static void print_counts(divisor *way, int count)
{
    uint64_t most = 0, all = 0;

    for (int i = 0; i < count; i++) {
        uint64_t taken = way(pairs[i].x, pairs[i].y) & 255;

        most = taken > most ? taken : most;
        all += taken;
    }
    printf(" %5" PRIu64 " %6.1f", most, (double)all / count);
}

static void measure_pairs(const char *name, int count, int repetitions)
{
    divisor *const ways[] = {bench_divisor, plain_remainders, plain_halving, plain_shifting};
    double best[4] = {0};

    for (int i = 0; i < count; i++)
        same_pair(pairs[i].x, pairs[i].y);
    for (int i = 0; i < repetitions; i++)
        for (int w = 0; w < 4; w++)
            keep_best(&best[w], time_pairs(ways[w], count));
    printf("%-14s %5d", name, count);
    for (int w = 0; w < 4; w++)
        printf(" %9.1f", best[w]);
    for (int w = 1; w < 4; w++)
        printf(" %6.2f", best[0] / best[w]);
    print_counts(bench_divisor, count);
    print_counts(plain_shifting, count);
    printf("\n");
    fflush(stdout);
}

/* Sets 0 to count - 1. */
static void measure_checks(const char *name, int count, int repetitions)
{
    check *const ways[] = {bench_check, plain_check_remainders, plain_check_halving};
    double best[3] = {0};

    for (int s = 0; s < count; s++)
        same_check(&sets[s]);
    for (int i = 0; i < repetitions; i++)
        for (int w = 0; w < 3; w++)
            keep_best(&best[w], time_checks(ways[w], count, count == 1 ? 50 : 1));
    printf("%-14s %5d %3" PRIu32 " %9.1f %9.1f %9.1f %6.2f %6.2f\n", name, count,
           sets[0].word[3 + sets[0].word[2]], best[0], best[1], best[2], best[0] / best[1],
           best[0] / best[2]);
    fflush(stdout);
}

static void all_pairs(int repetitions)
{
    char name[32];

    printf("%-14s %5s %9s %9s %9s %9s %6s %6s %6s %5s %6s %5s %6s\n", "case", "pairs", "archive",
           "remainder", "halving", "shifting", "over r", "over h", "over s", "steps", "mean", "shift",
           "mean");
    /* The pair that takes the most steps of all that were found; where both are at
       most LONGEST; and one whose first number is its second times 11. */
    measure_pairs("most-100m", one_pair(67108863, 8388608), repetitions);
    measure_pairs("most-10m", one_pair(8388607, 8388608), repetitions);
    measure_pairs("eleven-times", one_pair(92274688, 8388608), repetitions);
    measure_pairs("bad-100m", bad_pairs(plain_halving, LARGEST), repetitions);
    measure_pairs("bad-10m", bad_pairs(plain_halving, LONGEST), repetitions);
    measure_pairs("bad-shift-100m", bad_pairs(plain_shifting, LARGEST), repetitions);
    measure_pairs("bad-shift-10m", bad_pairs(plain_shifting, LONGEST), repetitions);
    measure_pairs("uniform-100m", uniform_pairs(LARGEST), repetitions);
    measure_pairs("uniform-10m", uniform_pairs(LONGEST), repetitions);
    measure_pairs("any-size-100m", any_size_pairs(LARGEST), repetitions);
    measure_pairs("any-size-10m", any_size_pairs(LONGEST), repetitions);
    measure_pairs("twos-100m", common_twos(LARGEST), repetitions);
    for (uint32_t tasks = 16; tasks <= MOST_TASKS; tasks += 8) {
        snprintf(name, sizeof name, "met-%" PRIu32, tasks);
        measure_pairs(name, met_pairs(tasks), repetitions);
    }
}

static void all_checks(int repetitions)
{
    printf("%-14s %5s %3s %9s %9s %9s %6s %6s\n", "checks", "sets", "N", "archive", "remainder",
           "halving", "over r", "over h");
    sets[0] = example;
    measure_checks("example", 1, repetitions);
    most_steps_set(&sets[0]);
    measure_checks("most-steps", 1, repetitions);
    for (uint32_t tasks = 16; tasks <= MOST_TASKS; tasks += 8) {
        generate_sets(tasks);
        measure_checks("in-turn", SEEDS, repetitions);
    }
}

int main(int argc, char **argv)
{
    int repetitions = repetitions_at(1, argc, argv, 1000);

    state = argc > 2 ? strtoull(argv[2], NULL, 10) : 1;
    printf("seed %" PRIu64 ", best of %d\n", state, repetitions);
    compare();
    all_pairs(repetitions);
    all_checks(repetitions);
    return 0;
}
