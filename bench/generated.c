/* Sets of the archive's generator: generated.h says which and for whom. */

#include <ctype.h>
#include <inttypes.h>
#include <stdio.h>
#include <stdlib.h>
#include <string.h>

#include "../include/seedspell.h"
#include "generated.h"
#include "measure.h"

const struct seeded seeded[SEEDED_COUNT] = {
    {1, 16}, {2, 16}, {3, 16},
    {1, 24}, {3, 24}, {4, 24},
    {11, 32}, {48, 32}, {74, 32},
};

static int read_word(const char *text, uint32_t *word)
{
    char *end;
    unsigned long long value = strtoull(text, &end, 10);

    *word = (uint32_t)value;
    return isdigit((unsigned char)*text) && *end == '\0' && value <= UINT32_MAX;
}

static int asked_for_generated(int argc, char **argv, struct seeded *which)
{
    if (argc < 2 || strcmp(argv[1], "--generated") != 0)
        return 0;
    if (argc < 4 || !read_word(argv[2], &which->seed) || !read_word(argv[3], &which->tasks)) {
        fprintf(stderr, "bench: --generated takes a seed, 0 to 4294967295, and a number of tasks\n");
        exit(2);
    }
    return 1;
}

int read_arguments(int argc, char **argv, struct seeded *which, int *repetitions)
{
    int asked = asked_for_generated(argc, argv, which), at = asked ? 4 : 1;

    *repetitions = repetitions_at(at, argc, argv, 5);
    return asked;
}

/* The first of the results, lowest byte first. */
static size_t length_of(const uint8_t *results)
{
    size_t length = 0;

    for (int i = 7; i >= 0; i--)
        length = length << 8 | results[i];
    return length;
}

size_t generate(struct seeded which, uint32_t *set)
{
    uint8_t results[SEEDSPELL_RESULT_BYTES];
    uint64_t code = seedspell_generate(which.seed, which.tasks, set,
                                       SEEDSPELL_GENERATED_WORDS, results, sizeof results);

    if (code != 0) {
        fprintf(stderr, "bench: the generator refuses %" PRIu32 " tasks: refusal %" PRIu32
                " with %" PRIu32 "\n", which.tasks, SEEDSPELL_REFUSAL(code),
                SEEDSPELL_SECOND(code));
        exit(2);
    }
    return length_of(results);
}

void say_no_plan(struct seeded which)
{
    printf("seed %" PRIu32 ", %" PRIu32 " tasks: no plan fits (refusal 7), so it is not timed\n",
           which.seed, which.tasks);
}
