/* Prints the word list of a generated task set.

       generate SEED N

   SEED is 0 to 4,294,967,295 and N the number of tasks: plain decimal numbers. The words are printed as the sheet
   builder reads them: a line with those before the tasks, then a line a task; include/seedspell.h says which they are.

   Ends with 0 where the set is printed. Ends with 1 where the generator refuses N: standard error says it in words, and
   nothing is printed, since another program may be reading. Ends with 2 where there is no whole set, since an argument
   cannot be used or the set cannot be written: then standard error says which. */

#include <inttypes.h>
#include <stdio.h>
#include <stdlib.h>

#include "../../include/seedspell.h"

#define MOST_TASKS 32
#define RATES 5                                         /* of every generated set */
#define TASK_WORDS (3 + RATES)                          /* period, cycles, first release and energies */

static uint32_t set[SEEDSPELL_GENERATED_WORDS];

static _Noreturn void give_up(const char *why)
{
    fprintf(stderr, "generate: %s\n", why);
    exit(2);
}

/* An argument is judged strictly, so that a slip does not make another set than the one that was meant: digits alone,
   no 0 in front, and a 32-bit word. */
static int read_number(const char *text, uint32_t *number)
{
    uint64_t value = 0;

    if (text[0] == '\0' || (text[0] == '0' && text[1] != '\0'))
        return 0;
    for (; *text != '\0'; text++) {
        if (*text < '0' || *text > '9')
            return 0;
        value = 10 * value + (uint64_t)(*text - '0');
        if (value > UINT32_MAX)
            return 0;
    }
    *number = (uint32_t)value;
    return 1;
}

/* The first of the results, of eight bytes, lowest byte first: the set's length. */
static uint64_t read_length(const uint8_t *results)
{
    uint64_t length = 0;

    for (int i = 7; i >= 0; i--)
        length = length << 8 | results[i];
    return length;
}

static _Noreturn void explain(uint32_t number, uint32_t second, uint32_t tasks)
{
    /* 6 too: there is room for every set that the generator makes */
    if (number != SEEDSPELL_REFUSED_BAD_SET_WORD)
        give_up("there is no cause for this refusal: program and archive do not belong together");
    fprintf(stderr, "NO SET: refusal %" PRIu32 " with %" PRIu32 "\n", number, second);
    fprintf(stderr, "The number of tasks is %" PRIu32 ".\nTo mend: give 1 to %d.\n", tasks, MOST_TASKS);
    exit(1);
}

static void print_line(const uint32_t *words, uint64_t count)
{
    for (uint64_t i = 0; i < count; i++)
        printf("%" PRIu32 "%c", words[i], i + 1 < count ? ' ' : '\n');
}

static void print_set(uint64_t length, uint32_t tasks)
{
    uint64_t head = length - (uint64_t)tasks * TASK_WORDS;

    print_line(set, head);
    for (uint64_t at = head; at < length; at += TASK_WORDS)
        print_line(set + at, TASK_WORDS);
}

int main(int argc, char **argv)
{
    uint8_t results[SEEDSPELL_RESULT_BYTES];
    uint32_t seed, tasks;
    uint64_t returned;
    int failed;

    if (argc != 3)
        give_up("give a seed and the number of tasks");
    if (!read_number(argv[1], &seed))
        give_up("the seed is a plain number, 0 to 4294967295");
    if (!read_number(argv[2], &tasks))
        give_up("the number of tasks is a plain number, 1 to 32");

    returned = seedspell_generate(seed, tasks, set, SEEDSPELL_GENERATED_WORDS, results, sizeof results);
    if (!seedspell_ok(returned))
        explain(SEEDSPELL_REFUSAL(returned), SEEDSPELL_SECOND(returned), tasks);
    print_set(read_length(results), tasks);

    /* Until here what was printed may only have been collected. */
    failed = ferror(stdout);
    if (fclose(stdout) != 0 || failed)
        give_up("the set cannot be written to standard output");
    return 0;
}
