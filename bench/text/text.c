/* The reader and the writer of the bracketed text in plain C, as the measure for
   the archive's: the same refusals with the same second numbers, and nothing
   lent is changed by one. A call returns the words or bytes written, or refusal
   number x 2^32 + second number.

   READER and WRITER are the names of the calls. Built a second time under the
   archive's names, this file takes the archive's place where only the harness
   is tried. */

#include <stddef.h>
#include <stdint.h>
#include <string.h>

#ifndef READER
#define READER plain_read
#define WRITER plain_write
#endif

#define MOST_TASKS 32
#define MOST_RATES 8
#define MOST_WORDS (4 + MOST_RATES + MOST_TASKS * (3 + MOST_RATES))
#define MOST_ENERGY 1000000

/* Rates in cycles a tick, which is a millisecond, and the power in mW at each and
   while no job runs. */
struct chip {
    uint32_t rates, rate[MOST_RATES], power[MOST_RATES], idle;
};

static const struct chip xscale = {
    5, {150000, 400000, 600000, 800000, 1000000}, {80, 170, 400, 900, 1600}, 40,
};
static const struct chip ppc405lp = {
    4, {33000, 100000, 266000, 333000}, {19, 72, 600, 750}, 12,
};

uint64_t READER(const uint8_t *text, size_t text_len, uint32_t *words, size_t words_len);
uint64_t WRITER(const uint32_t *set, size_t set_len, uint8_t *text, size_t text_len);

static uint64_t refusal(uint64_t number, uint64_t second)
{
    return number << 32 | second;
}

/* ---- The reader. Each step moves `at` on, and is false where the text departs
   from the form: `at` then stands at the byte that does, or at the end. */

struct reader {
    const uint8_t *at, *end;
};

static inline int literal(struct reader *r, const char *form, size_t len)
{
    if ((size_t)(r->end - r->at) >= len && memcmp(r->at, form, len) == 0) {
        r->at += len;
        return 1;
    }
    while (r->at < r->end && *r->at == (uint8_t)*form) {
        r->at++;
        form++;
    }
    return 0;
}

#define LITERAL(r, form) literal(r, form, sizeof form - 1)

static inline int number(struct reader *r, uint32_t *word)
{
    uint64_t value = 0;
    const uint8_t *at = r->at;
    uint32_t digit;

    if (at == r->end || (digit = *at - '0') > 9u)
        return 0;
    at++;
    if (digit != 0) {
        value = digit;
        while (at < r->end && (digit = *at - '0') <= 9u) {
            value = value * 10 + digit;
            if (value > UINT32_MAX) {
                r->at = at;
                return 0;
            }
            at++;
        }
    }
    r->at = at;
    *word = (uint32_t)value;
    return 1;
}

static inline int spaced(struct reader *r, uint32_t *word)
{
    return LITERAL(r, " ") && number(r, word);
}

static inline int next_is(const struct reader *r, char byte)
{
    return r->at < r->end && *r->at == (uint8_t)byte;
}

/* The energies of a job by the chip's tables; whether one is over the largest. */
static inline int work_out(const struct chip *chip, uint32_t cycles, uint32_t *energies)
{
    int over = 0;

    for (uint32_t k = 0; k < chip->rates; k++) {
        uint64_t rate = chip->rate[k];

        energies[k] = chip->power[k] * (uint32_t)((cycles + rate - 1) / rate);
        over |= energies[k] > MOST_ENERGY;
    }
    return over;
}

/* The end of a task's line, behind its cycles or energies: a space says that there
   is a first release. */
static inline int task_end(struct reader *r, uint32_t *first)
{
    *first = 0;
    if (!LITERAL(r, ")"))
        return 0;
    if (next_is(r, ' ') && (!LITERAL(r, " (from ") || !number(r, first) || !LITERAL(r, ")")))
        return 0;
    return LITERAL(r, ")\n");
}

/* A task's line. `chip` is NULL where the text has rates; `over` is set where an
   energy that is worked out is over the largest. */
static int task(struct reader *r, uint32_t *words, uint32_t rates, const struct chip *chip,
                int *over)
{
    if (!LITERAL(r, "(task (period ") || !number(r, &words[0])
        || !LITERAL(r, ") (cycles ") || !number(r, &words[1]))
        return 0;
    if (chip != NULL) {
        *over = work_out(chip, words[1], words + 3);
        return task_end(r, &words[2]);
    }
    if (!LITERAL(r, ") (energy"))
        return 0;
    for (uint32_t k = 0; k < rates; k++)
        if (!spaced(r, &words[3 + k]))
            return 0;
    return task_end(r, &words[2]);
}

/* The idle line, from its name on, with the bracket of the line behind it, where
   an i says that there is one. */
static inline int idle_line(struct reader *r, uint32_t *word, int *is_given)
{
    *is_given = next_is(r, 'i');
    return !*is_given || (LITERAL(r, "idle ") && number(r, word) && LITERAL(r, ")\n("));
}

/* The line of the rates or the chip, from its name on: a c begins the chip's, and
   an x the one chip's name. */
static inline int clock_line(struct reader *r, uint32_t *words, uint32_t *rates,
                             const struct chip **chip)
{
    *rates = 0;
    *chip = NULL;
    if (next_is(r, 'c')) {
        if (!LITERAL(r, "chip "))
            return 0;
        *chip = next_is(r, 'x') ? &xscale : &ppc405lp;
        if (!(*chip == &xscale ? LITERAL(r, "xscale") : LITERAL(r, "ppc405lp")))
            return 0;
        *rates = (*chip)->rates;
        memcpy(words, (*chip)->rate, *rates * sizeof *words);
        return 1;
    }
    if (!LITERAL(r, "rates"))
        return 0;
    while (*rates < 2 || (*rates < MOST_RATES && next_is(r, ' '))) {
        if (!spaced(r, &words[*rates]))
            return 0;
        ++*rates;
    }
    return 1;
}

/* The words of the text, and their count; the number of the first task with an
   energy that is worked out and over the largest, 0 where there is none. */
static int script(struct reader *r, uint32_t *words, size_t *count, uint32_t *dear)
{
    uint32_t rates, tasks = 0, *at;
    const struct chip *chip;
    int is_given;

    *dear = 0;
    if (!LITERAL(r, "(slack ") || !number(r, &words[0]) || !LITERAL(r, ")\n(")
        || !idle_line(r, &words[1], &is_given) || !clock_line(r, words + 3, &rates, &chip)
        || !LITERAL(r, ")\n"))
        return 0;
    if (!is_given)
        words[1] = chip != NULL ? chip->idle : 0;
    words[2] = rates;
    at = words + 4 + rates;
    while (tasks < 1 || (tasks < MOST_TASKS && next_is(r, '('))) {
        int over = 0;

        if (!task(r, at, rates, chip, &over))
            return 0;
        at += 3 + rates;
        tasks++;
        if (over && *dear == 0)
            *dear = tasks;
    }
    words[3 + rates] = tasks;
    *count = (size_t)(at - words);
    return r->at == r->end;
}

uint64_t READER(const uint8_t *text, size_t text_len, uint32_t *words, size_t words_len)
{
    struct reader r = {text, text + text_len};
    uint32_t own[MOST_WORDS], dear;
    size_t count;

    if (!script(&r, own, &count, &dear))
        return refusal(1, (uint64_t)(r.at - text));
    if (dear != 0)
        return refusal(9, dear);
    if (words_len < count)
        return refusal(6, count);
    memcpy(words, own, count * sizeof *words);
    return count;
}

/* ---- The writer: checks 2 and 3, the bytes needed, and then the bytes. */

/* Check 2 from left to right: the place of the first bad word, or of the first
   that is missing; the list's length where it is whole. Sets `is_whole`. */
static size_t first_bad(const uint32_t *set, size_t len, int *is_whole)
{
    size_t at = 3, rates, tasks;

#define WORD(low, high) \
    if (at >= len || set[at] - (low) > (uint32_t)(high) - (low)) \
        return at < len ? at : len; \
    at++

    *is_whole = 0;
    if (len < 1 || set[0] - 1 > 999)
        return 0;
    if (len < 2 || set[1] > 1000)
        return 1;
    if (len < 3 || set[2] - 2 > 6)
        return 2;
    rates = set[2];
    for (size_t r = 0; r < rates; r++) {
        WORD(1, 1000000);
    }
    WORD(1, 32);
    tasks = set[3 + rates];
    for (size_t t = 0; t < tasks; t++) {
        WORD(1, 10000000);
        WORD(1, 4000000000u);
        WORD(0, set[at - 2] - 1);
        for (size_t r = 0; r < rates; r++) {
            WORD(1, 1000000);
        }
    }
#undef WORD
    *is_whole = at == len;
    return at;
}

/* Check 3: the place of the first rate not above the one before it, or 0. */
static size_t first_fall(const uint32_t *set)
{
    for (size_t at = 4; at < 3 + (size_t)set[2]; at++)
        if (set[at] <= set[at - 1])
            return at;
    return 0;
}

static inline unsigned digits(uint32_t v)
{
    return v < 100000
        ? v < 100 ? 1 + (v >= 10) : v < 1000 ? 3 : 4 + (v >= 10000)
        : v < 10000000 ? 6 + (v >= 1000000) : v < 100000000 ? 8 : 9 + (v >= 1000000000);
}

static size_t bytes_needed(const uint32_t *set, size_t len)
{
    size_t rates = set[2], tasks = set[3 + rates];
    /* the fixed bytes of the lines, and a space before each rate and energy; the
       digit of a first release of 0, which is not written, is taken off here */
    size_t bytes = 17 + rates + tasks * (35 + rates);

    if (set[1] != 0)
        bytes += 8 + digits(set[1]);
    for (size_t at = 0; at < len; at++)
        bytes += digits(set[at]);
    for (size_t at = 6 + rates; at < len; at += 3 + rates)
        if (set[at] != 0)
            bytes += 1 + 8;             /* and here it is put back, with ` (from ` and `)` */
    return bytes - digits(set[1]) - digits(set[2]) - digits(set[3 + rates]);
}

static inline uint8_t *put(uint8_t *at, const char *form, size_t len)
{
    memcpy(at, form, len);
    return at + len;
}

#define PUT(at, form) put(at, form, sizeof form - 1)

static inline uint8_t *put_number(uint8_t *at, uint32_t v)
{
    uint8_t *end = at + digits(v), *p = end;

    do {
        *--p = (uint8_t)('0' + v % 10);
        v /= 10;
    } while (v != 0);
    return end;
}

static inline uint8_t *put_spaced(uint8_t *at, const uint32_t *words, size_t count)
{
    for (size_t i = 0; i < count; i++) {
        *at++ = ' ';
        at = put_number(at, words[i]);
    }
    return at;
}

uint64_t WRITER(const uint32_t *set, size_t set_len, uint8_t *text, size_t text_len)
{
    int is_whole;
    size_t place = first_bad(set, set_len, &is_whole), rates, tasks, needed;
    const uint32_t *task;
    uint8_t *at = text;

    if (!is_whole)
        return refusal(2, place);
    if ((place = first_fall(set)) != 0)
        return refusal(3, place);
    if ((needed = bytes_needed(set, set_len)) > text_len)
        return refusal(6, needed);
    rates = set[2];
    tasks = set[3 + rates];
    at = PUT(at, "(slack ");
    at = put_number(at, set[0]);
    if (set[1] != 0) {
        at = PUT(at, ")\n(idle ");
        at = put_number(at, set[1]);
    }
    at = PUT(at, ")\n(rates");
    at = put_spaced(at, set + 3, rates);
    at = PUT(at, ")\n");
    task = set + 4 + rates;
    for (size_t t = 0; t < tasks; t++, task += 3 + rates) {
        at = PUT(at, "(task (period ");
        at = put_number(at, task[0]);
        at = PUT(at, ") (cycles ");
        at = put_number(at, task[1]);
        at = PUT(at, ") (energy");
        at = put_spaced(at, task + 3, rates);
        if (task[2] != 0) {
            at = PUT(at, ") (from ");
            at = put_number(at, task[2]);
        }
        at = PUT(at, "))\n");
    }
    return needed;
}
