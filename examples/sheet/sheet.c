/* A sheet builder: the boot table and the battery page of one recorder, from the word list of its task set.

       sheet TICK <LIST

   TICK is the length of a tick in microseconds, 1 to 1,000,000,000. LIST is the set's words as plain numbers with
   spaces or line ends between them; include/seedspell.h says which words those are.

   Ends with 0 where there is a plan, with 1 where the set is refused (and the sheet says what to mend), with 2 where
   there is no whole sheet, since the input cannot be used or the sheet cannot be written: then standard error says
   which.

   All arithmetic is in whole numbers. What is rounded is rounded up, so that no rounding makes a page promise too much;
   only what the slack allows is rounded down, which promises nothing more, as energies are whole. The energy is that of
   the jobs, as the set gives it, and what the set's idle energy comes to in the ticks in which no job runs; the page has
   both apart, and says so where the set counts nothing for waiting. How far it may lie above the least possible is what
   the planner promises of it, and nothing narrower. */

#include <ctype.h>
#include <inttypes.h>
#include <stdio.h>
#include <stdlib.h>

#include "../../include/seedspell.h"

#if SEEDSPELL_LIST_VERSION != 3
#error "the sheet builder reads lists with a first release behind each task's cycles"
#endif

#define MOST_TASKS 32
#define MOST_WORDS (4 + 8 + MOST_TASKS * (3 + 8))       /* of a set with 8 rates and 32 tasks */
#define DAY UINT64_C(86400000000)                       /* in microseconds */
#define LONGEST_TICK 1000000000

/* The working words that this host has room for: as many as any set needs, unless it is built for less. What needs more
   goes to the dull engine, which needs none. */
#ifndef MOST_WORK
#define MOST_WORK 4224033
#endif

/* One word more than the longest set: a longer list is refused by the words up to there, whatever follows. */
static uint32_t set[MOST_WORDS + 1];
static size_t set_len;
static uint32_t plan[MOST_TASKS];
static size_t needed;                                   /* the set's working words, once the planner has said so */

static uint32_t idle_energy(void)
{
    return set[1];
}

static uint32_t rates(void)
{
    return set[2];
}

static uint32_t tasks(void)
{
    return set[3 + rates()];
}

/* The words of a task: its period, its cycles, its first release, and its energies. */
static size_t task_words(void)
{
    return 3 + rates();
}

/* Those of task number k; its energy at rate number r stands at place 2 + r of them. */
static const uint32_t *task(size_t k)
{
    return set + 4 + rates() + (k - 1) * task_words();
}

/* The tick at which the first job of task number k is released. */
static uint32_t first_release(size_t k)
{
    return task(k)[2];
}

static int released_together(void)
{
    for (size_t k = 1; k <= tasks(); k++)
        if (first_release(k) > 0)
            return 0;
    return 1;
}

static _Noreturn void give_up(const char *why)
{
    fprintf(stderr, "sheet: %s\n", why);
    exit(2);
}

/* ---- Input */

/* The next number of standard input; returns 0 at its end. */
static int read_number(uint32_t *number)
{
    uint64_t value = 0;
    int c = getchar();

    while (c != EOF && isspace(c))
        c = getchar();
    if (c == EOF)
        return 0;
    for (; c != EOF && !isspace(c); c = getchar()) {
        if (!isdigit(c))
            give_up("standard input has something other than numbers with spaces or line ends between them");
        value = 10 * value + (uint64_t)(c - '0');
        if (value > UINT32_MAX)
            give_up("standard input has a number that is no 32-bit word");
    }
    *number = (uint32_t)value;
    return 1;
}

static void read_set(void)
{
    uint32_t word;

    while (read_number(&word))
        if (set_len <= MOST_WORDS)
            set[set_len++] = word;
    if (ferror(stdin))
        give_up("standard input cannot be read");
}

static uint64_t read_tick(const char *text)
{
    char *end;
    unsigned long long tick = strtoull(text, &end, 10);

    if (!isdigit((unsigned char)*text) || *end != '\0' || tick < 1 || tick > LONGEST_TICK)
        give_up("the tick is a number of microseconds, 1 to 1000000000");
    return tick;
}

/* ---- Numbers */

/* Results are four values of eight bytes each, lowest byte first, whatever the order on this machine. */
static void read_results(const uint8_t *results, uint64_t *value)
{
    for (int k = 0; k < 4; k++) {
        value[k] = 0;
        for (int i = 7; i >= 0; i--)
            value[k] = value[k] << 8 | results[8 * k + i];
    }
}

/* a x b / c rounded up, for c up to 2^62 and an answer of at most 64 bits. The product may be longer than that (an
   energy of 3.2e14 times a day of 8.64e10 microseconds is), so it is made from the bits of b, and only quotient and
   remainder are kept. */
static uint64_t scaled(uint64_t a, uint64_t b, uint64_t c)
{
    uint64_t quotient = 0, rest = 0;

    for (int bit = 63; bit >= 0; bit--) {
        quotient = 2 * quotient + 2 * rest / c;
        rest = 2 * rest % c;
        if (b >> bit & 1) {
            quotient += a / c + (a % c + rest) / c;
            rest = (a % c + rest) % c;
        }
    }
    return quotient + (rest > 0);
}

/* ---- Where the set is refused */

/* Prints what stands at a place of the set, in plain words. The words before it are in their ranges. */
static void print_place(size_t at)
{
    size_t of_task, k;

    if (at == 0) {
        printf("the slack");
    } else if (at == 1) {
        printf("the idle energy");
    } else if (at == 2) {
        printf("the number of rates");
    } else if (at < 3 + (size_t)rates()) {
        printf("rate number %zu", at - 2);
    } else if (at == 3 + (size_t)rates()) {
        printf("the number of tasks");
    } else {
        k = (at - 4 - rates()) / task_words() + 1;
        of_task = (at - 4 - rates()) % task_words();
        if (k > tasks())
            printf("a word after those of the last task");
        else if (of_task == 0)
            printf("the period of task %zu", k);
        else if (of_task == 1)
            printf("the cycles of task %zu", k);
        else if (of_task == 2)
            printf("the first release of task %zu", k);
        else
            printf("the energy of task %zu at rate number %zu", k, of_task - 2);
    }
}

/* The range of the first release at a place: its task's period stands two places before it. */
static const char *range_of_first(size_t at)
{
    static char range[64];

    snprintf(range, sizeof range, "0 to %" PRIu32 " ticks, less than the period of the task", set[at - 2] - 1);
    return range;
}

/* The range of the word at a place. */
static const char *range_of(size_t at)
{
    size_t of_task;

    if (at == 0)
        return "1 to 1000 thousandths";
    if (at == 1)
        return "0 to 1000 microjoules a tick";
    if (at == 2)
        return "2 to 8";
    if (at < 3 + (size_t)rates())
        return "1 to 1000000 cycles a tick";
    if (at == 3 + (size_t)rates())
        return "1 to 32";
    of_task = (at - 4 - rates()) % task_words();
    if (of_task == 0)
        return "1 to 10000000 ticks";
    if (of_task == 2)
        return range_of_first(at);
    return of_task == 1 ? "1 to 4000000000 cycles" : "1 to 1000000 microjoules";
}

static int is_left_over(size_t at)
{
    return at >= 3 && at > 3 + (size_t)rates() && (at - 4 - rates()) / task_words() >= tasks();
}

static void explain_word(size_t at)
{
    if (at == set_len) {
        printf("The list ends after %zu words, and ", at);
        print_place(at);
        printf(" would be next.\nTo mend: give every word that the numbers of rates and tasks ask for.\n");
    } else if (is_left_over(at)) {
        printf("Place %zu holds %" PRIu32 ", and task %" PRIu32 ", the last, ends before it.\n", at, set[at], tasks());
        printf("To mend: leave out what is over, or correct the number of tasks or of rates.\n");
    } else {
        printf("Place %zu, ", at);
        print_place(at);
        printf(", holds %" PRIu32 ".\nTo mend: give %s.\n", set[at], range_of(at));
    }
}

/* The ticks that a job of task number k takes at rate number r. */
static uint64_t job_time(size_t k, size_t r)
{
    uint64_t cycles = task(k)[1], rate = set[2 + r];

    return (cycles + rate - 1) / rate;
}

/* An energy below what waiting would draw; all words are in their ranges here. */
static void explain_energy(size_t at)
{
    size_t k = (at - 4 - rates()) / task_words() + 1, r = (at - 4 - rates()) % task_words() - 2;
    uint64_t time = job_time(k, r);

    printf("Place %zu, ", at);
    print_place(at);
    printf(", holds %" PRIu32 ". Such a job takes %" PRIu64 " ticks, and waiting draws %" PRIu64 " in these, %" PRIu32
           " a tick.\n", set[at], time, idle_energy() * time, idle_energy());
    printf("To mend: give all that the job draws, also what waiting would draw; or a lower idle energy.\n");
}

/* A set that went to the dull engine, since its working words could not be had, and has too many plans for it. */
static void explain_plans(void)
{
    printf("The planner needs %zu working words for this set, and this host ", needed);
    if (needed > MOST_WORK)
        printf("has room for %zu.\n", (size_t)MOST_WORK);
    else
        printf("cannot get the memory for them.\n");
    printf("Without them every plan is tried, and there are too many: %" PRIu32 " to the power %" PRIu32
           ", more than 1000000.\n", rates(), tasks());
    printf("To mend: a higher slack, fewer tasks or fewer rates, or a host with more room.\n");
}

static void explain(uint32_t number, uint32_t second)
{
    printf("NO PLAN: refusal %" PRIu32 " with %" PRIu32 "\n", number, second);
    switch (number) {
    case SEEDSPELL_REFUSED_BAD_SET_WORD:
        explain_word(second);
        break;
    case SEEDSPELL_REFUSED_RATE_NOT_ABOVE:
        printf("Place %" PRIu32 ", ", second);
        print_place(second);
        printf(", holds %" PRIu32 ", and the rate before it is %" PRIu32 ".\n", set[second], set[second - 1]);
        printf("To mend: put the rates in rising order, each once, and the energies of every task in the same order.\n");
        break;
    case SEEDSPELL_REFUSED_HYPER_PERIOD_TOO_LONG:
        printf("Place %" PRIu32 ", ", second);
        print_place(second);
        printf(", holds %" PRIu32 ": with it the least common multiple of the periods passes 10000000 ticks.\n", set[second]);
        printf("To mend: choose periods that are multiples of one another, or nearly so.\n");
        break;
    case SEEDSPELL_REFUSED_ENERGY_BELOW_IDLE:
        explain_energy(second);
        break;
    case SEEDSPELL_REFUSED_NO_PLAN_FITS:
        printf("With every task at rate number %" PRIu32 ", the highest, the jobs still take more ticks than there are.\n", rates());
        printf("To mend: fewer cycles a job, longer periods, fewer tasks, or a higher rate.\n");
        break;
    case SEEDSPELL_REFUSED_TOO_MANY_PLANS:
        explain_plans();
        break;
    default:
        /* 5 and 6 too: this host lends as much as the planner asks for, or has the dull engine plan. 1 and 9 are of
           texts, which it does not read, and 8 is of the walk's plan. */
        give_up("there is no cause for this refusal: host and archive do not belong together");
    }
}

/* ---- Planning */

/* The planner says itself how many working words a set needs. It is first lent one, too few for every set, and refuses
   with 5 and that number, unless the set itself is at fault; then it is lent as many. Where they cannot be had the dull
   engine plans without them: its answer is the planner's own, or 11 where the set has too many plans for it. */
static uint64_t plan_set(uint8_t *results)
{
    uint32_t one[1], *work = NULL;
    uint64_t returned = seedspell_plan(set, set_len, plan, MOST_TASKS, one, 1, results, SEEDSPELL_RESULT_BYTES);

    if (SEEDSPELL_REFUSAL(returned) != SEEDSPELL_REFUSED_WORKING_LIST_SHORT)
        return returned;
    needed = SEEDSPELL_SECOND(returned);
    if (needed <= MOST_WORK)
        work = malloc(needed * sizeof *work);
    if (work == NULL)
        return seedspell_plan_dull(set, set_len, plan, MOST_TASKS, results, SEEDSPELL_RESULT_BYTES);
    returned = seedspell_plan(set, set_len, plan, MOST_TASKS, work, needed, results, SEEDSPELL_RESULT_BYTES);
    free(work);
    return returned;
}

/* ---- The sheet */

/* Rate numbers count from 1 and a C table from 0: of M settings rate number M is the last, at entry M - 1, and at entry
   M there is none. This is the only place that turns a rate number into a setting. */
static uint32_t clock_setting(const uint32_t *settings, uint32_t rate_number)
{
    return settings[rate_number - 1];
}

static void print_boot_table(void)
{
    const uint32_t *settings = set + 3;                 /* the set's own rates: M entries, 0 to M - 1 */

    printf("BOOT TABLE\ntask  rate  first release (tick)  clock setting (cycles a tick)\n");
    for (uint32_t k = 1; k <= tasks(); k++)
        printf("%4" PRIu32 "  %4" PRIu32 "  %20" PRIu32 "  %" PRIu32 "\n", k, plan[k - 1], first_release(k),
               clock_setting(settings, plan[k - 1]));
}

/* The energy of the plan's jobs over the hyper-period. */
static uint64_t jobs_energy(uint64_t span)
{
    uint64_t energy = 0;

    for (uint32_t k = 1; k <= tasks(); k++)
        energy += span / task(k)[0] * task(k)[2 + plan[k - 1]];
    return energy;
}

/* The planner promises in two ways how far, in microjoules, its energy may lie above that of any plan that keeps every
   deadline. By the margin; a unit is at least 1 and at most 2^49. */
static uint64_t margin(uint64_t unit)
{
    return tasks() * (unit - 1);
}

/* By the slack G: 1,000 x the energy is at most (1,000 + G) x the other. Both are whole, so the part of a microjoule
   that is dropped here promises nothing more. An energy is below 2^49, a thousand of them far below 2^64. */
static uint64_t allowance(uint64_t energy)
{
    return energy * set[0] / (1000 + set[0]);
}

/* The smaller of the two, with the promise that gives it, and what it is in hundredths of a per cent of the least,
   which may be as low as energy - above. The allowance is at most half of the energy, so that this is above 0. That the
   energy is the least is said at unit 1 alone, where it is promised, and never because energies look alike. */
static void print_bound(uint64_t unit, uint64_t energy)
{
    uint64_t above = margin(unit) <= allowance(energy) ? margin(unit) : allowance(energy);
    uint64_t per_cent = scaled(above, 10000, energy - above);

    printf("              ");
    if (unit == 1) {
        printf("the least possible: the unit is 1\n");
        return;
    }
    printf("at most %" PRIu64 " microjoule%s (%" PRIu64 ".%02" PRIu64 " %%) above the least possible, ", above,
           above == 1 ? "" : "s", per_cent / 100, per_cent % 100);
    if (above == margin(unit))
        printf("by the margin: %" PRIu32 " x (%" PRIu64 " - 1)\n", tasks(), unit);
    else
        printf("by the slack: %" PRIu64 " x %" PRIu32 " / %" PRIu32 "%s\n", energy, set[0], 1000 + set[0],
               energy * set[0] % (1000 + set[0]) == 0 ? "" : ", rounded down");
}

/* The ticks of a hyper-period, and what the walk counted. Where tasks are released together it goes through one
   hyper-period; else through two, and a job may be unfinished at their end. */
static void print_ticks(uint64_t load, uint64_t span, const uint64_t *walked)
{
    printf("hyper-period  ticks: %" PRIu64 ", busy: %" PRIu64 ", idle: %" PRIu64, span, load, span - load);
    if (!released_together())
        printf("\nwalked        ticks: %" PRIu64 ", busy: %" PRIu64 ", idle: %" PRIu64, walked[1] + walked[2], walked[1],
               walked[2]);
    printf(", preemptions: %" PRIu64 "\n", walked[3]);
}

/* A job takes a tick at least and 1,000,000 microjoules at most, a tick without one takes less, and a day has at most
   8.64e10 ticks: so a day's energy is at most 8.64e16 microjoules. */
static void print_battery_page(const uint64_t *planned, const uint64_t *walked, uint64_t tick)
{
    uint64_t unit = planned[0], load = planned[1], span = planned[2], energy = planned[3];
    uint64_t per_cent = scaled(load, 10000, span);      /* in hundredths */
    uint64_t per_day = scaled(energy, DAY, span * tick);

    printf("\nBATTERY PAGE\n");
    printf("tick          %" PRIu64 " us\n", tick);
    print_ticks(load, span, walked);
    printf("load          %" PRIu64 ".%02" PRIu64 " %% of the hyper-period\n", per_cent / 100, per_cent % 100);
    printf("unit          %" PRIu64 " uJ\n", unit);
    printf("jobs          %" PRIu64 " uJ a hyper-period\n", jobs_energy(span));
    printf("waiting       %" PRIu64 " uJ a hyper-period, %" PRIu32 " uJ an idle tick\n", idle_energy() * (span - load),
           idle_energy());
    printf("energy        %" PRIu64 " uJ a hyper-period, jobs and waiting together\n", energy);
    print_bound(unit, energy);
    printf("              %" PRIu64 ".%06" PRIu64 " J a day\n", per_day / 1000000, per_day % 1000000);
    if (idle_energy() == 0)
        printf("not counted   what waiting draws: the set has 0 for it\n");
}

/* Whether the walk says what the plan does. With all tasks released together it is busy for the load; else it goes on
   for two hyper-periods, in which the jobs take twice the load, and what is not done of them by then is due later. */
static int is_borne_out(const uint64_t *planned, const uint64_t *walked)
{
    uint64_t load = planned[1], span = planned[2], busy = walked[1], ticks = walked[1] + walked[2];

    if (walked[0] != 1)
        return 0;
    return released_together() ? busy == load && ticks == span : busy <= 2 * load && ticks == 2 * span;
}

/* Ends the run, once all that was printed has reached standard output: until here it may only have been collected. */
static _Noreturn void finish(int status)
{
    int failed = ferror(stdout);

    if (fclose(stdout) != 0 || failed)
        give_up("the sheet cannot be written to standard output");
    exit(status);
}

int main(int argc, char **argv)
{
    uint8_t results[SEEDSPELL_RESULT_BYTES];
    uint64_t tick, returned, planned[4], walked[4];

    if (argc != 2)
        give_up("give the length of a tick in microseconds, and the set's words on standard input");
    tick = read_tick(argv[1]);
    read_set();

    returned = plan_set(results);
    if (!seedspell_ok(returned)) {
        explain(SEEDSPELL_REFUSAL(returned), SEEDSPELL_SECOND(returned));
        finish(1);
    }
    read_results(results, planned);

    /* The walk says the same again; a host that finds otherwise was linked with something else. The walk takes the
       plan's N words and no more, where the planner had room for MOST_TASKS. */
    returned = seedspell_walk(set, set_len, plan, tasks(), results, sizeof results);
    read_results(results, walked);
    if (!seedspell_ok(returned) || !is_borne_out(planned, walked))
        give_up("the walk does not bear out the plan: host and archive do not belong together");
    /* And the energy is that of the jobs, by the set's own words, and of the ticks of a hyper-period that they leave. */
    if (planned[3] != jobs_energy(planned[2]) + idle_energy() * (planned[2] - planned[1]))
        give_up("the energy is not that of jobs and waiting: host and archive do not belong together");

    print_boot_table();
    print_battery_page(planned, walked, tick);
    finish(0);
}
