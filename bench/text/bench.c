/* Times the archive's reader and writer beside the plain ones of text.c: the
   same texts and sets, the same run, in turn, the best of many repetitions.
   Before that both are held to equal answers, in what they return and in every
   word and byte lent, on the document's example, the longest text, cut, damaged
   and random texts, texts that name a chip, an idle energy or first releases among
   them, and on cut, damaged and random lists; where they differ the run ends with 1.

   One line a case: name, bytes of a text (the mean where there are several),
   nanoseconds a call of each, and the archive's time over the plain one's.

   The repetitions can be given as an argument, and then the seed of the random
   sets; without them there are 20,000, and the seed is 1. */

#include <inttypes.h>
#include <stddef.h>
#include <stdint.h>
#include <stdio.h>
#include <stdlib.h>
#include <string.h>

#include "../measure.h"

typedef uint64_t reader(const uint8_t *text, size_t text_len, uint32_t *words, size_t words_len);
typedef uint64_t writer(const uint32_t *set, size_t set_len, uint8_t *text, size_t text_len);

reader bench_read, plain_read;          /* the archive's, and text.c's */
writer bench_write, plain_write;

#define MOST_TASKS 32
#define MOST_RATES 8
#define MOST_WORDS (4 + MOST_RATES + MOST_TASKS * (3 + MOST_RATES))
#define MOST_BYTES 6000
#define SPARE 8                         /* words and bytes lent beyond those needed */
#define MOST_SETS 64

struct list {
    uint32_t word[MOST_WORDS + SPARE];
    size_t len;
};

struct text {
    uint8_t byte[MOST_BYTES + SPARE];
    size_t len;
};

/* The chips that a text can name, and the most cycles of a job on each: with one
   more an energy is over the largest. */
static const struct {
    const char *name;
    uint32_t most_cycles;
} chips[] = {{"xscale", 625000000}, {"ppc405lp", 443156000}};
#define CHIPS (sizeof chips / sizeof *chips)

static uint64_t compared;

/* ---- The sets and texts. */

static const struct list example_set = {
    {100, 0, 3, 2, 4, 8, 2, 10, 12, 0, 4, 9, 20, 15, 20, 0, 7, 15, 30}, 19,
};

static const char example_text[] =
    "(slack 100)\n"
    "(rates 2 4 8)\n"
    "(task (period 10) (cycles 12) (energy 4 9 20))\n"
    "(task (period 15) (cycles 20) (energy 7 15 30))\n";

/* Numbers of every length up to that of `most`, each length as likely. */
static uint32_t some_number(uint32_t most)
{
    uint32_t length = 1, digits, high = 9;

    for (uint32_t rest = most; rest >= 10; rest /= 10)
        length++;
    digits = between(1, length);
    for (uint32_t k = 1; k < digits; k++)
        high = k < 9 ? high * 10 + 9 : UINT32_MAX;
    return between(1, high < most ? high : most);
}

static int ascending(const void *a, const void *b)
{
    uint32_t x = *(const uint32_t *)a, y = *(const uint32_t *)b;

    return (x > y) - (x < y);
}

/* A set that passes checks 2 and 3, with these counts. */
static void random_set(struct list *list, uint32_t tasks, uint32_t rates)
{
    uint32_t *at = list->word;

    *at++ = some_number(1000);
    *at++ = between(0, 1) ? some_number(1000) : 0;
    *at++ = rates;
    for (uint32_t r = 0; r < rates; r++)
        at[r] = some_number(1000000 - MOST_RATES);
    qsort(at, rates, sizeof *at, ascending);
    for (uint32_t r = 1; r < rates; r++)
        if (at[r] <= at[r - 1])
            at[r] = at[r - 1] + 1;
    at += rates;
    *at++ = tasks;
    for (uint32_t t = 0; t < tasks; t++) {
        uint32_t period = some_number(10000000);

        *at++ = period;
        *at++ = some_number(4000000000u);
        *at++ = between(0, 1) ? some_number(period) - 1 : 0;
        for (uint32_t r = 0; r < rates; r++)
            *at++ = some_number(1000000);
    }
    list->len = (size_t)(at - list->word);
}

/* The longest text of the writer: each word as large as checks 2 and 3 let it be. */
static void longest_set(struct list *list)
{
    uint32_t *at = list->word;

    *at++ = 1000;
    *at++ = 1000;
    *at++ = MOST_RATES;
    for (uint32_t r = 1; r <= MOST_RATES; r++)
        *at++ = 1000000 - MOST_RATES + r;
    *at++ = MOST_TASKS;
    for (uint32_t t = 0; t < MOST_TASKS; t++) {
        *at++ = 10000000;
        *at++ = 4000000000u;
        *at++ = 9999999;
        for (uint32_t r = 0; r < MOST_RATES; r++)
            *at++ = 1000000;
    }
    list->len = (size_t)(at - list->word);
}

/* The longest text that the reader takes: every number has ten digits. */
static void longest_text(struct text *text)
{
    static const char ten[] = " 4294967295";
    char *at = (char *)text->byte;

    at += sprintf(at, "(slack%s)\n(idle%s)\n(rates", ten, ten);
    for (int r = 0; r < MOST_RATES; r++)
        at += sprintf(at, "%s", ten);
    at += sprintf(at, ")\n");
    for (int t = 0; t < MOST_TASKS; t++) {
        at += sprintf(at, "(task (period%s) (cycles%s) (energy", ten, ten);
        for (int r = 0; r < MOST_RATES; r++)
            at += sprintf(at, "%s", ten);
        at += sprintf(at, ") (from%s))\n", ten);
    }
    text->len = (size_t)(at - (char *)text->byte);
}

/* A text that names a chip, with so many tasks, each of at most so many cycles;
   its idle energy is given where `idle` is not NULL. */
static void chip_text(struct text *text, const char *chip, const uint32_t *idle, uint32_t tasks,
                      uint32_t most_cycles)
{
    char *at = (char *)text->byte;

    at += sprintf(at, "(slack %" PRIu32 ")\n", some_number(1000));
    if (idle != NULL)
        at += sprintf(at, "(idle %" PRIu32 ")\n", *idle);
    at += sprintf(at, "(chip %s)\n", chip);
    for (uint32_t t = 0; t < tasks; t++) {
        uint32_t period = some_number(10000000);

        at += sprintf(at, "(task (period %" PRIu32 ") (cycles %" PRIu32 ")", period,
                      some_number(most_cycles));
        if (between(0, 1))
            at += sprintf(at, " (from %" PRIu32 ")", some_number(period) - 1);
        at += sprintf(at, ")\n");
    }
    text->len = (size_t)(at - (char *)text->byte);
}

/* One task of just so many cycles. */
static void one_job(struct text *text, const char *chip, uint32_t cycles)
{
    text->len = (size_t)sprintf((char *)text->byte, "(slack 1)\n(chip %s)\n"
                                "(task (period 1) (cycles %" PRIu32 "))\n", chip, cycles);
}

/* ---- Equal answers. What was lent is as it should be too: all of it as before
   on a refusal, and what lies after the count on success. */

static void faulty(const char *call, uint64_t archive, uint64_t plain)
{
    fprintf(stderr, "bench: the %ss differ, or changed what they should not: %" PRIx64
            " of the archive, %" PRIx64 " of the plain one\n", call, archive, plain);
    exit(1);
}

static uint64_t same_read(const struct text *text, size_t room)
{
    static uint32_t archive[MOST_WORDS + 2 * SPARE], plain[MOST_WORDS + 2 * SPARE];
    uint64_t a, p;
    size_t kept;

    memset(archive, 0xa5, sizeof archive);
    memset(plain, 0xa5, sizeof plain);
    a = bench_read(text->byte, text->len, archive, room);
    p = plain_read(text->byte, text->len, plain, room);
    kept = p >> 32 == 0 ? p : 0;
    if (a != p || kept > room || memcmp(archive, plain, sizeof plain) != 0)
        faulty("reader", a, p);
    for (size_t i = kept; i < MOST_WORDS + 2 * SPARE; i++)
        if (plain[i] != 0xa5a5a5a5)
            faulty("reader", a, p);
    compared++;
    return p;
}

static uint64_t same_write(const struct list *list, size_t room, struct text *result)
{
    static uint8_t archive[MOST_BYTES + 2 * SPARE], plain[MOST_BYTES + 2 * SPARE];
    uint64_t a, p;
    size_t kept;

    memset(archive, 0xa5, sizeof archive);
    memset(plain, 0xa5, sizeof plain);
    a = bench_write(list->word, list->len, archive, room);
    p = plain_write(list->word, list->len, plain, room);
    kept = p >> 32 == 0 ? p : 0;
    if (a != p || kept > room || memcmp(archive, plain, sizeof plain) != 0)
        faulty("writer", a, p);
    for (size_t i = kept; i < sizeof plain; i++)
        if (plain[i] != 0xa5)
            faulty("writer", a, p);
    if (kept > 0 && result != NULL) {
        memcpy(result->byte, plain, kept);
        result->len = kept;
    }
    compared++;
    return p;
}

/* The text cut at every place, with every byte replaced, left out and doubled,
   with a byte more, and with fewer words lent than needed. */
static void compare_texts(const struct text *text)
{
    static const uint8_t other[] = "0159 ()\n\racefimoprtx:/\x80\xff";
    static struct text damaged;
    uint64_t words = same_read(text, MOST_WORDS);

    for (size_t room = 0; words >> 32 == 0 && room <= words + 1; room++)
        same_read(text, room);
    for (size_t at = 0; at <= text->len; at++) {
        damaged = *text;
        damaged.len = at;
        same_read(&damaged, MOST_WORDS);
        damaged.len = text->len;
        for (size_t k = 0; k < sizeof other; k++) {     /* the last is 0 */
            damaged.byte[at] = other[k];
            if (at == text->len)
                damaged.len = at + 1;
            same_read(&damaged, MOST_WORDS);
        }
        if (at < text->len) {
            memcpy(damaged.byte + at, text->byte + at + 1, text->len - at - 1);
            damaged.len = text->len - 1;
            same_read(&damaged, MOST_WORDS);
            memcpy(damaged.byte + at + 1, text->byte + at, text->len - at);
            damaged.byte[at] = text->byte[at];
            damaged.len = text->len + 1;
            same_read(&damaged, MOST_WORDS);
        }
    }
}

/* The list cut at every place, with every word replaced, with words more, and
   with fewer bytes lent than needed. */
static void compare_lists(const struct list *list)
{
    static const uint32_t other[] = {0, 1, 2, 8, 9, 32, 33, 1000, 1001, 1000000, 1000001,
                                     10000000, 10000001, 4000000000u, 4000000001u, UINT32_MAX};
    struct list damaged = *list;
    uint64_t bytes = same_write(list, MOST_BYTES, NULL);

    for (size_t room = 0; room <= bytes + 1; room++)
        same_write(list, room, NULL);
    for (size_t at = 0; at < list->len; at++) {
        damaged = *list;
        damaged.len = at;
        same_write(&damaged, MOST_BYTES, NULL);
        damaged.len = list->len;
        for (size_t k = 0; k < sizeof other / sizeof *other; k++) {
            damaged.word[at] = other[k];
            same_write(&damaged, MOST_BYTES, NULL);
        }
    }
    damaged = *list;
    damaged.word[damaged.len++] = 1;
    same_write(&damaged, MOST_BYTES, NULL);
}

/* What is written reads back equal. */
static void compare_round(const struct list *list)
{
    static uint32_t words[MOST_WORDS];
    static struct text text;

    if (same_write(list, MOST_BYTES, &text) != text.len
        || same_read(&text, MOST_WORDS) != list->len
        || plain_read(text.byte, text.len, words, MOST_WORDS) != list->len
        || memcmp(words, list->word, list->len * sizeof *words) != 0) {
        fprintf(stderr, "bench: a set does not read back equal\n");
        exit(1);
    }
    compare_texts(&text);
    compare_lists(list);
}

/* A text that names a chip; and the list that it stands for, which is written with
   rates and energies and reads back equal. */
static void compare_chip(const struct text *text)
{
    struct list list;
    uint64_t words = same_read(text, MOST_WORDS);

    compare_texts(text);
    if (words >> 32 != 0)
        return;                         /* refused with 9 */
    list.len = plain_read(text->byte, text->len, list.word, MOST_WORDS);
    compare_round(&list);
}

static void compare_chips(void)
{
    static struct text text;

    for (size_t c = 0; c < CHIPS; c++) {
        one_job(&text, chips[c].name, chips[c].most_cycles);
        compare_chip(&text);
        one_job(&text, chips[c].name, chips[c].most_cycles + 1);
        if (same_read(&text, MOST_WORDS) != ((uint64_t)9 << 32 | 1)) {
            fprintf(stderr, "bench: a job that is too dear is not refused\n");
            exit(1);
        }
        compare_texts(&text);
        one_job(&text, chips[c].name, 0);
        compare_texts(&text);
        for (int i = 0; i < 10; i++) {
            uint32_t idle = i < 4 ? 0 : some_number(1000), *given = i % 2 == 0 ? NULL : &idle;

            chip_text(&text, chips[c].name, given, i % 5 == 0 ? MOST_TASKS : between(1, 6),
                      chips[c].most_cycles);
            compare_chip(&text);
            chip_text(&text, chips[c].name, given, i % 5 == 0 ? MOST_TASKS : between(1, 6),
                      UINT32_MAX);
            compare_texts(&text);       /* now and then a task is too dear */
        }
    }
}

/* The idle line and a first release where they may stand, twice, and where they may not. */
static void compare_forms(void)
{
    static const char *const text[] = {
        "(slack 1)\n(idle 0)\n(rates 1 2)\n(task (period 1) (cycles 1) (energy 1 2))\n",
        "(slack 1)\n(idle 4294967295)\n(rates 1 2)\n(task (period 1) (cycles 1) (energy 1 2))\n",
        "(slack 1)\n(idle 7)\n(idle 7)\n(rates 1 2)\n(task (period 1) (cycles 1) (energy 1 2))\n",
        "(slack 1)\n(rates 1 2)\n(idle 7)\n(task (period 1) (cycles 1) (energy 1 2))\n",
        "(slack 1)\n(chip xscale)\n(idle 7)\n(task (period 1) (cycles 1))\n",
        "(slack 1)\n(rates 1 2)\n(task (period 1) (cycles 1) (energy 1 2))\n(idle 7)\n",
        "(idle 7)\n(slack 1)\n(rates 1 2)\n(task (period 1) (cycles 1) (energy 1 2))\n",
        "(slack 1)\n(idle)\n(rates 1 2)\n(task (period 1) (cycles 1) (energy 1 2))\n",
        "(slack 1)\n(rates 1 2)\n(task (period 1) (cycles 1) (energy 1 2) (from 0))\n",
        "(slack 1)\n(rates 1 2)\n(task (period 1) (cycles 1) (energy 1 2) (from 4294967295))\n",
        "(slack 1)\n(rates 1 2)\n(task (period 1) (cycles 1) (energy 1 2) (from 7) (from 7))\n",
        "(slack 1)\n(rates 1 2)\n(task (period 1) (cycles 1) (from 7) (energy 1 2))\n",
        "(slack 1)\n(rates 1 2)\n(task (period 1) (cycles 1) (energy 1 2)) (from 7)\n",
        "(slack 1)\n(rates 1 2)\n(task (period 1) (cycles 1) (energy 1 2) (from))\n",
        "(slack 1)\n(chip xscale)\n(task (period 1) (cycles 1) (from 7))\n",
        "(slack 1)\n(chip xscale)\n(task (period 1) (cycles 1) (energy 1 2))\n",
        "(slack 1)\n(chip ppc405lp)\n(task (period 1) (cycles 1) (from 7) (from 7))\n",
    };
    static struct text copy;

    for (size_t i = 0; i < sizeof text / sizeof *text; i++) {
        copy.len = strlen(text[i]);
        memcpy(copy.byte, text[i], copy.len);
        compare_texts(&copy);
    }
}

static void compare(const struct text *longest)
{
    struct list list;
    struct text text;

    if (same_write(&example_set, MOST_BYTES, &text) != sizeof example_text - 1
        || memcmp(text.byte, example_text, text.len) != 0) {
        fprintf(stderr, "bench: the document's example is not written as it stands there\n");
        exit(1);
    }
    compare_round(&example_set);
    longest_set(&list);
    compare_round(&list);
    if (same_read(longest, MOST_WORDS) != MOST_WORDS) {
        fprintf(stderr, "bench: the longest text is not read\n");
        exit(1);
    }
    compare_texts(longest);
    for (int i = 0; i < 40; i++) {
        random_set(&list, i % 10 == 0 ? MOST_TASKS : between(1, 6), between(2, MOST_RATES));
        compare_round(&list);
    }
    compare_chips();
    compare_forms();
    printf("%" PRIu64 " calls answered alike\n", compared);
}

/* ---- Times. */

/* The sets and texts of a case, of which a repetition takes each in turn. */
static struct list sets[MOST_SETS];
static struct text texts[MOST_SETS];
static uint32_t words[MOST_WORDS + SPARE];
static uint8_t bytes[MOST_BYTES + SPARE];

/* Nanoseconds a call, over so many calls. */
static double time_reads(reader *read, int count, int calls)
{
    double start = now();

    for (int i = 0, s = 0; i < calls; i++) {
        read(texts[s].byte, texts[s].len, words, MOST_WORDS + SPARE);
        s = s + 1 == count ? 0 : s + 1;
    }
    return (now() - start) / calls;
}

static double time_writes(writer *write, int count, int calls)
{
    double start = now();

    for (int i = 0, s = 0; i < calls; i++) {
        write(sets[s].word, sets[s].len, bytes, MOST_BYTES + SPARE);
        s = s + 1 == count ? 0 : s + 1;
    }
    return (now() - start) / calls;
}

static void keep_best(double *best, double time)
{
    if (*best == 0 || time < *best)
        *best = time;
}

/* Sets or texts 0 to count - 1. Few calls are timed together, so that some
   repetition falls between two disturbances. */
static void measure(const char *name, int is_read, int count, int calls, int repetitions)
{
    double archive = 0, plain = 0, size = 0;

    for (int i = 0; i < repetitions; i++) {
        if (is_read) {
            keep_best(&archive, time_reads(bench_read, count, calls));
            keep_best(&plain, time_reads(plain_read, count, calls));
        } else {
            keep_best(&archive, time_writes(bench_write, count, calls));
            keep_best(&plain, time_writes(plain_write, count, calls));
        }
    }
    for (int s = 0; s < count; s++)
        size += is_read ? (double)texts[s].len
                        : (double)plain_write(sets[s].word, sets[s].len, bytes, MOST_BYTES);
    printf("%-16s %7.0f %11.0f %11.0f %6.2f\n", name, size / count, archive, plain,
           archive / plain);
    fflush(stdout);
}

/* Texts that name a chip, with so many tasks. */
static void measure_chip(size_t chip, uint32_t tasks, int calls, int repetitions)
{
    char name[32];

    for (int s = 0; s < MOST_SETS; s++)
        chip_text(&texts[s], chips[chip].name, NULL, tasks, chips[chip].most_cycles);
    sprintf(name, "read-%s-%" PRIu32, chips[chip].name, tasks);
    measure(name, 1, MOST_SETS, calls, repetitions);
}

int main(int argc, char **argv)
{
    static struct text longest;
    int repetitions = repetitions_at(1, argc, argv, 20000);

    state = argc > 2 ? strtoull(argv[2], NULL, 10) : 1;
    printf("seed %" PRIu64 ", best of %d\n", state, repetitions);
    longest_text(&longest);
    compare(&longest);

    printf("%-16s %7s %11s %11s %6s\n", "case", "bytes", "archive ns", "plain ns", "ratio");
    texts[0] = longest;
    measure("read-longest", 1, 1, 8, repetitions);
    longest_set(&sets[0]);
    measure("write-longest", 0, 1, 8, repetitions);
    memcpy(texts[0].byte, example_text, sizeof example_text - 1);
    texts[0].len = sizeof example_text - 1;
    measure("read-example", 1, 1, 200, repetitions);
    sets[0] = example_set;
    measure("write-example", 0, 1, 200, repetitions);
    /* 32 tasks and 8 rates again, with numbers of every length. */
    for (int s = 0; s < MOST_SETS; s++) {
        random_set(&sets[s], MOST_TASKS, MOST_RATES);
        texts[s].len = plain_write(sets[s].word, sets[s].len, texts[s].byte, MOST_BYTES);
    }
    measure("read-random", 1, MOST_SETS, MOST_SETS, repetitions / 4 + 1);
    measure("write-random", 0, MOST_SETS, MOST_SETS, repetitions / 4 + 1);
    for (size_t chip = 0; chip < CHIPS; chip++) {
        measure_chip(chip, 1, 4 * MOST_SETS, repetitions / 4 + 1);
        measure_chip(chip, MOST_TASKS, MOST_SETS, repetitions / 4 + 1);
    }
    return 0;
}
