/* Seedspell: the clock-rate planner for battery-run water-level recorders, as C calls it.
 *
 * Link with libcapi.a, which `rt lib --cpu x86-64` in crates/capi writes, for x86-64 and Linux. What each call gives,
 * down to the byte and the refusal, is proved of the source that the archive is made from; the compiler that makes it,
 * and this header, are trusted. docs/CALLS.md is the reference.
 *
 * WHAT A CALL RETURNS IS KEPT IN 64 BITS
 *
 * A call returns a uint64_t: 0 where it succeeds, or a refusal, its number x 2^32 + its second number. Keep it in a
 * uint64_t, and ask with seedspell_ok:
 *
 *     uint64_t returned = seedspell_plan(..);
 *     if (!seedspell_ok(returned))
 *         .. SEEDSPELL_REFUSAL(returned), SEEDSPELL_SECOND(returned) ..
 *
 * In 32 bits, as by `int rc = seedspell_plan(..)`, only the second number is left. Of refusal 7, 'no plan fits', of 11,
 * and of 2 and 8 at place 0 that is 0, and reads as success; gcc and clang warn of this only where they are asked to,
 * as by -Wconversion. seedspell_ok, SEEDSPELL_REFUSAL and SEEDSPELL_SECOND do not compile with a number of any other
 * size than 64 bits; and gcc and clang warn of a call whose result is not used.
 *
 * OF EVERY CALL
 *
 * - A list is a pointer and its length: the number of words (uint32_t) or bytes (uint8_t) that are lent. No call reads
 *   or writes outside them.
 * - A pointer is not null and is aligned to its words, also where the length is 0.
 * - Lists lent together do not overlap, unless both are only read; and nothing else changes them during the call.
 * - On a refusal no lent word or byte has changed. On success only those that the call names have.
 * - Calls keep nothing from one to the next, take no memory of their own beyond the stack, and always return.
 * - Calls share nothing: calls of several threads may run at once, as long as none is lent a list that another may
 *   write. A list that is only read, such as the set that is planned, may be lent to all of them.
 *
 * NUMBERS AND PLACES
 *
 * Rate numbers and task numbers count from 1: rate number 1 is the lowest rate, task number 1 the first task. Places in
 * a list count from 0, as C counts: in a table of the M rates of a set, rate number r stands at entry r - 1, and entry
 * M is past its end. In a plan, the rate number of task number k stands at entry k - 1.
 *
 * A SET is 4 + M + N x (3 + M) words, at most 364: the slack in thousandths, 1 to 1,000; the idle energy H in
 * microjoules per tick, 0 to 1,000, which is drawn in each tick in which no job runs; the number of rates M, 2 to 8;
 * the M rates in cycles a tick, each 1 to 1,000,000 and above the one before it; the number of tasks N, 1 to 32; then
 * for each task its period in ticks, 1 to 10,000,000, the cycles of one job, 1 to 4,000,000,000, its first release A,
 * the tick at which its first job is released, 0 to its own period - 1, and M energies in microjoules per job, at rate
 * numbers 1, 2, .. M, each 1 to 1,000,000. The hyper-period, the least common multiple of the periods, is at most
 * 10,000,000. The planner and the dull engine ask besides that no energy is below H x the job time, which is cycles /
 * rate rounded up to whole ticks: an energy is all that is drawn while the job runs, not only what is drawn above H.
 *
 * For example 100 0 3 2 4 8 2 10 12 0 4 9 20 15 20 0 7 15 30 has slack 100, nothing drawn while no job runs, the 3
 * rates 2, 4 and 8, and 2 tasks that are released together: one of period 10 and 12 cycles with energies 4, 9 and 20,
 * one of period 15 and 20 cycles with energies 7, 15 and 30. With a 3 in place of the first task's 0, that task's jobs
 * are released at 3, 13, 23 and so on, each to be finished 10 ticks later. And 100 10 2 1 9 1 100 90 0 910 200 has an
 * idle energy of 10, the rates 1 and 9, and one task of period 100 and 90 cycles, whose job takes 90 ticks and 910
 * microjoules, or 10 ticks and 200.
 */
#ifndef SEEDSPELL_H
#define SEEDSPELL_H

#include <stddef.h>
#include <stdint.h>

#ifdef __cplusplus
extern "C" {
#endif

/* The version of the layout of a set's list. 3 is the one above. 2 had no first releases: there a task's energies stood
 * straight behind its cycles. 1 had no idle energy either: there the number of rates stood straight behind the slack. A
 * list of one layout means something else in another, and need not be refused, so a caller that makes its lists for
 * this one does well not to compile with another:
 *
 *     #if SEEDSPELL_LIST_VERSION != 3
 *     #error "this caller makes lists with a first release behind each task's cycles"
 *     #endif
 *
 * A 0 inserted behind each task's cycles makes a list of version 2 one of version 3; in a list of version 1 a 0 goes
 * behind the first word too. It is then answered as it was, but that a place in a refusal is higher by as many 0s as
 * stand before it. */
#define SEEDSPELL_LIST_VERSION 3

/* The refusals' numbers; behind each its cause, and its second number. Of several causes the first in a call's own
 * order is the one returned. No call from C returns 1 or 9: these are of texts, which the program reads. */
#define SEEDSPELL_REFUSED_TEXT_DEPARTS 1          /* a text departs from the form; offset of its first byte that does */
#define SEEDSPELL_REFUSED_BAD_SET_WORD 2          /* a set word out of its range, missing or left over; its place, or
                                                     the list's length if it is missing. Of the generator, a number
                                                     of tasks that is not 1 to 32; 0 */
#define SEEDSPELL_REFUSED_RATE_NOT_ABOVE 3        /* a rate not above the one before it; its place */
#define SEEDSPELL_REFUSED_HYPER_PERIOD_TOO_LONG 4 /* the hyper-period passes 10,000,000; the place of the first period
                                                     at which it does */
#define SEEDSPELL_REFUSED_WORKING_LIST_SHORT 5    /* fewer working words than the set needs; the words needed, W */
#define SEEDSPELL_REFUSED_RECEIVING_LIST_SHORT 6  /* no room for the plan, for the generator's set, or for the results;
                                                     the words needed for the plan or the set, or the bytes for the
                                                     results */
#define SEEDSPELL_REFUSED_NO_PLAN_FITS 7          /* no plan keeps every deadline, all tasks being released together;
                                                     0 */
#define SEEDSPELL_REFUSED_BAD_WALK_PLAN 8         /* the plan that the walk is given; the lowest place of a word that is
                                                     not 1 to M, or its length if it is short, or N if it is long */
#define SEEDSPELL_REFUSED_CHIP_ENERGY_TOO_HIGH 9  /* a text names a chip, and an energy worked out by the chip's tables
                                                     passes 1,000,000; the number of the first task that has one */
#define SEEDSPELL_REFUSED_ENERGY_BELOW_IDLE 10    /* an energy below H x the job time at its rate; the place of the
                                                     first, also where no plan would use it. By the planner and the
                                                     dull engine alone */
#define SEEDSPELL_REFUSED_TOO_MANY_PLANS 11       /* M to the power N, the number of plans, passes 1,000,000; 0. By the
                                                     dull engine alone */

/* What a call returned, itself, where it is kept in 64 bits; with any other size this does not compile. */
#ifdef __cplusplus
extern "C++" {
template <typename Returned> constexpr uint64_t seedspell_kept(Returned returned)
{
    static_assert(sizeof(Returned) == sizeof(uint64_t), "what a call of Seedspell returned is kept in 64 bits");
    return returned | uint64_t{0};
}
}
#define SEEDSPELL_KEPT(returned) (seedspell_kept(returned))
#else
#define SEEDSPELL_KEPT(returned) ((returned) | 0 * sizeof(char[sizeof(returned) == sizeof(uint64_t) ? 1 : -1]))
#endif

/* Of what a call returned: whether it succeeded; the refusal's number, 0 where there is none; and its second number. */
#define seedspell_ok(returned) (SEEDSPELL_KEPT(returned) == 0)
#ifdef __cplusplus
#define SEEDSPELL_REFUSAL(returned) (static_cast<uint32_t>(SEEDSPELL_KEPT(returned) >> 32))
#define SEEDSPELL_SECOND(returned) (static_cast<uint32_t>(SEEDSPELL_KEPT(returned)))
#else
#define SEEDSPELL_REFUSAL(returned) ((uint32_t)(SEEDSPELL_KEPT(returned) >> 32))
#define SEEDSPELL_SECOND(returned) ((uint32_t)SEEDSPELL_KEPT(returned))
#endif

/* Stands before every call, so that a compiler warns where its result is not used. */
#if (defined(__cplusplus) && __cplusplus >= 201703L) || (defined(__STDC_VERSION__) && __STDC_VERSION__ >= 202311L)
#define SEEDSPELL_RESULT_USED [[nodiscard]]
#elif defined(__GNUC__)
#define SEEDSPELL_RESULT_USED __attribute__((warn_unused_result))
#else
#define SEEDSPELL_RESULT_USED
#endif

/* Bytes of results that a call leaves: four values of eight bytes each, lowest byte first. */
#define SEEDSPELL_RESULT_BYTES 32

/* The most words of a generated set, one of 32 tasks. */
#define SEEDSPELL_GENERATED_WORDS 265

/* The walk: every tick from 0 to the hyper-period L where every first release is 0, and to 2 x L where some first
 * release is above 0. A task's jobs are released at its first release and every period after it, each with its deadline
 * one period later; the earliest deadline runs first, and of equal deadlines the lower task number. Every deadline up
 * to the last tick, and at it, is looked at.
 *
 * set, set_len          the set
 * plan, plan_len        a rate number, 1 to M, for each of the N tasks: exactly N words. Of a longer list that the
 *                       planner was lent, lend the walk the first N words: plan_len is N, not the room of the list
 * results, results_len  receives the results, at least 32 bytes
 *
 * Returns 0 and leaves in the first 32 bytes of results
 *   1, busy ticks, idle ticks, preemptions      if each of these deadlines is kept. With every first release 0 the plan
 *                                               then keeps every deadline for ever, and the busy ticks are its load.
 *                                               With some above 0 it means just that stretch: busy and idle ticks come
 *                                               to 2 x L, a job that is unfinished there and has its deadline later is
 *                                               no miss, and a plan that the planner did not give may miss later;
 *   0, tick, task number, 0                     if a deadline is missed, at that tick, by that task, the lowest
 *                                               numbered of those that miss theirs then: the plan does not keep
 *                                               every deadline for ever from these first releases, nor with all
 *                                               tasks released together;
 * or refuses: 2, 3, 4, 8, and then 6 with 32, in this order. */
SEEDSPELL_RESULT_USED
uint64_t seedspell_walk(const uint32_t *set, size_t set_len, const uint32_t *plan, size_t plan_len,
                        uint8_t *results, size_t results_len);

/* The planner: a rate for each task, so that every deadline is kept for ever, at an energy over the hyper-period, of
 * jobs and of waiting together, that is within the slack of the least possible, and within a margin in microjoules. It
 * plans for tasks that are released together: beyond check 2 it does not look at the first releases, and its plan keeps
 * every deadline for ever under every choice of them, each below its task's period.
 *
 * set, set_len          the set
 * plan, plan_len        receives the plan, at least N words: 32 are enough for every set
 * work, work_len        working words, at least W = (N + 1) x (4,000 x N / slack rounded down, + 1): 10 to 4,224,033,
 *                       the most for 32 tasks and slack 1. What they hold before the call makes no difference. To ask
 *                       for W, lend one word: a set that passes checks 2, 3, 10 and 4 is then refused with 5 and W
 * results, results_len  receives the results, at least 32 bytes
 *
 * Returns 0 and leaves in the first N words of plan a rate number, 1 to M, for each task; 0 in the first W working
 * words; and in the first 32 bytes of results
 *   unit, load, L, energy                       the unit of energy that the plan was chosen with, a power of two; the
 *                                               plan's load, at most L; the hyper-period L; the plan's energy over
 *                                               the hyper-period in microjoules: that of its jobs, as the set gives
 *                                               it, plus H x (L - load), which is drawn in the ticks in which no job
 *                                               runs. The plan keeps every deadline for ever. If e is the energy of
 *                                               any plan that does, all tasks being released together, (1,000 + slack)
 *                                               x e is at least 1,000 x this one, and e + N x (unit - 1) is at least
 *                                               this one: with unit 1 this one is the least there is;
 * or refuses: 2, 3, 10, 4, 5 with W, 6 with N for the plan list, 6 with 32 for the results, and then 7, in this order.
 * 7 is returned if and only if none of the others applies and no plan keeps every deadline for ever, all tasks being
 * released together. On a refusal nothing is changed.
 *
 * N x (unit - 1) is the margin: the energy exceeds that of any plan that keeps every deadline by at most so many
 * microjoules. It is 0 where the unit is 1, and nowhere else; only there may a host say 'least'. The unit is at least 1
 * and at most 2^49 and N at most 32, so that the margin is below 2^54, and an energy is below 2^49: 64 bits hold the
 * margin, and energy x slack, where 32 may not.
 *
 * Whoever turns a rate number into a clock setting uses table entry number - 1, since rate numbers count from 1 and C's
 * tables from 0: a table of M settings has entries 0 to M - 1. */
SEEDSPELL_RESULT_USED
uint64_t seedspell_plan(const uint32_t *set, size_t set_len, uint32_t *plan, size_t plan_len,
                        uint32_t *work, size_t work_len, uint8_t *results, size_t results_len);

/* The dull engine: the planner without working words, for sets of few plans. At each unit that it tries it goes through
 * all M to the power N plans, so that its time goes with plans x units. It takes sets of at most 1,000,000 plans: of up
 * to 19 tasks with 2 rates, 12 with 3, 9 with 4, 8 with 5, 7 with 6 or 7, and 6 with 8. Where it and seedspell_plan are
 * lent the same set, plan list and results, they return the same and leave the same plan list and the same results,
 * unless seedspell_plan returns 5 or this call 11.
 *
 * set, set_len          the set
 * plan, plan_len        receives the plan, at least N words: 19 are enough for every set that it takes
 * results, results_len  receives the results, at least 32 bytes
 *
 * Returns 0 and leaves in the first N words of plan a rate number, 1 to M, for each task, and in the first 32 bytes of
 * results
 *   unit, load, L, energy                       as seedspell_plan does, with all that it promises of the plan and of
 *                                               these, the margin too;
 * or refuses: 2, 3, 10, 4, 11 with 0, 6 with N for the plan list, 6 with 32 for the results, and then 7, in this order.
 * 7 is returned if and only if none of the others applies and no plan keeps every deadline for ever, all tasks being
 * released together. On a refusal nothing is changed. */
SEEDSPELL_RESULT_USED
uint64_t seedspell_plan_dull(const uint32_t *set, size_t set_len, uint32_t *plan, size_t plan_len,
                             uint8_t *results, size_t results_len);

/* The generator: a set for benchmarks and tests, the same wherever it is made from the same seed and N, in lists of one
 * version. How it is drawn from the seed is in docs/CALLS.md.
 *
 * seed                  any word
 * n                     the number of tasks N, 1 to 32
 * set, set_len          receives the set, at least 9 + 8 x N words: SEEDSPELL_GENERATED_WORDS are enough for every N
 * results, results_len  receives the results, at least 32 bytes
 *
 * Returns 0 and leaves in the first 9 + 8 x N words of set a set of five rates and N tasks, with an idle energy and
 * first releases of 0, which passes checks 2, 3, 10 and 4 and whose hyper-period divides 400, but may have no plan; and
 * in the first 32 bytes of results
 *   length, 0, 0, 0                             the set's length, 9 + 8 x N;
 * or refuses: 2 with 0 for N outside 1 to 32, 6 with 9 + 8 x N for the set list, and then 6 with 32 for the results, in
 * this order. On a refusal nothing is changed. */
SEEDSPELL_RESULT_USED
uint64_t seedspell_generate(uint32_t seed, uint32_t n, uint32_t *set, size_t set_len,
                            uint8_t *results, size_t results_len);

#ifdef __cplusplus
}
#endif

#endif
