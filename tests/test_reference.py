"""Tests of the reference: the cases of the scope document, the load generator of
document 02's note 1, the chips of its note 2, the idle energy of its note 4, the
margin of its note 5, the first releases of its note 6, the dull engine of its note 7,
and random sets.

Running it prints one line and ends with 0, or names the failing case and
ends with 1.
"""

import random
import re
import sys
from itertools import product

sys.dont_write_bytecode = True

import reference as r

passed = 0
latest = 'none'
EXAMPLE = (b'(slack 100)\n'
           b'(rates 2 4 8)\n'
           b'(task (period 10) (cycles 12) (energy 4 9 20))\n'
           b'(task (period 15) (cycles 20) (energy 7 15 30))\n')
PRINTED = (b'(plan (unit 1) (load 29 30) (energy 41))\n'
           b'(rate 1 2)\n'
           b'(rate 2 1)\n'
           b'(walk (busy 29) (idle 1) (preempted 1))\n')
S = [100, 0, 3, 2, 4, 8, 2, 10, 12, 0, 4, 9, 20, 15, 20, 0, 7, 15, 30]
S_1000 = [1000] + S[1:]
PLENTY = 10 ** 9


def same(name, got, want):
    global passed, latest
    assert got == want, '%s: got %r, wanted %r' % (name, got, want)
    passed += 1
    latest = name


def refused(number, second):
    return ('refused', number, second)


def both_ways(name, words, want, plan_len=32, work_len=PLENTY):
    for way in ('all', 'table', None):
        same('%s (%s)' % (name, way), r.plan(words, plan_len, work_len, way), want)


def one_task(slack, period, cycles, energies=(1, 1), rates=(1, 2), idle=0, first=0):
    return [slack, idle, len(rates), *rates, 1, period, cycles, first, *energies]


# ------------------------------------------------- 'Either side of an edge'

def edges():
    both_ways('S', S, ('planned', 1, 29, 30, 41, [2, 1]))
    both_ways('S with slack 1,000', S_1000, ('planned', 8, 28, 30, 42, [1, 2]))

    same('S has W = 243', r.words_needed(r.decode(S)), 243)
    both_ways('S with 243 words', S, ('planned', 1, 29, 30, 41, [2, 1]), 2, 243)
    both_ways('S with 242 words', S, refused(5, 243), 2, 242)
    same('S with slack 1,000 has W = 27', r.words_needed(r.decode(S_1000)), 27)
    both_ways('S with slack 1,000 and 27 words', S_1000,
              ('planned', 8, 28, 30, 42, [1, 2]), 2, 27)
    both_ways('S with slack 1,000 and 26 words', S_1000, refused(5, 27), 2, 26)

    same('S, walk of 1 1', r.walk(S, [1, 1]), ('missed', 15, 2))
    same('S, walk of 2 1', r.walk(S, [2, 1]), ('kept', 29, 1, 1))
    same('S, load of 1 3', r.load_of(S, [1, 3]), 24)
    same('S, walk of 1 4', r.walk(S, [1, 4]), refused(8, 1))

    both_ways('60 cycles in 30 ticks at rate 2', one_task(100, 30, 60),
              ('planned', 1, 30, 30, 1, [2]))
    both_ways('61 cycles in 30 ticks at rate 2', one_task(100, 30, 61), refused(7, 0))

    same('slack 0', r.check_set([0] + S[1:]), refused(2, 0))
    same('slack 0, planner', r.plan([0] + S[1:], 0, 0), refused(2, 0))
    same('slack 0, walk', r.walk([0] + S[1:], []), refused(2, 0))
    same('slack 0, writer', r.write_text([0] + S[1:], 0), refused(2, 0))
    same('empty list', r.check_set([]), refused(2, 0))
    same('rates 4 4', r.check_set(one_task(100, 30, 60, rates=(4, 4))), refused(3, 4))
    same('empty text', r.read_text(b'', 0), refused(1, 0))

    two = [100, 0, 2, 1, 2, 2, 9_999_999, 1, 0, 1, 1, 10_000_000, 1, 0, 1, 1]
    same('periods 9,999,999 and 10,000,000', r.check_set(two), refused(4, 11))
    same('the writer makes no check 4', r.write_text(two, 1000)[0], 'written')
    longest = one_task(100, 10_000_000, 1)
    same('period 10,000,000', r.check_set(longest), ('good', 2, 1, 10_000_000))
    both_ways('period 10,000,000, planned', longest,
              ('planned', 1, 1, 10_000_000, 1, [1]))


# -------------------------------------------------------- 'Plausible errors'

def erring(words, rounding, order):
    """A planner by the same rule but with another rounding and another order
    of plans; order(k, load, rates) is the least for the plan taken."""
    _, M, N, L = r.check_set(words)
    s = r.decode(words)
    loads, energies = r.load_table(s, L), r.energy_table(s, L)
    unit = 1
    while unit < r.total(energies, [M] * N):
        unit *= 2
    while True:
        found = []
        for rates in product(range(1, M + 1), repeat=N):
            k = sum(rounding(row[rate], unit) for row, rate in zip(energies, rates))
            if r.total(loads, rates) <= L:
                found.append((order(k, r.total(loads, rates), rates), k, rates))
        _, k, rates = min(found)
        if words[0] * k >= 2000 * N or unit == 1:
            return unit, list(rates)
        unit //= 2


def errors():
    def up(e, d):
        return -(-e // d)

    def down(e, d):
        return e // d

    def nearest(e, d):
        return (2 * e + d) // (2 * d)

    def right(k, load, rates):
        return (k, load, rates[::-1])

    def rates_first(k, load, rates):
        return (k, rates[::-1], load)

    # A table of M entries read at M.
    top = one_task(1, 30, 60, energies=(5, 7))
    both_ways('a task at the highest rate', top, ('planned', 1, 30, 30, 7, [2]))
    same('a walk at the highest rate', r.walk(top, [2]), ('kept', 30, 0, 0))
    eight = one_task(1, 10, 80, energies=(1, 2, 3, 4, 5, 6, 7, 9),
                     rates=(1, 2, 3, 4, 5, 6, 7, 8))
    both_ways('a task at the eighth rate', eight, ('planned', 1, 10, 10, 9, [8]))
    same('a walk at the eighth rate', r.walk(eight, [8]), ('kept', 10, 0, 0))
    same('a walk past the eighth rate', r.walk(eight, [9]), refused(8, 0))

    # Energies rounded down or to nearest.
    same('rounded up', erring(S_1000, up, right), (8, [1, 2]))
    same('rounded to nearest', erring(S_1000, nearest, right), (8, [2, 1]))
    thirty_three = one_task(1000, 10, 10, energies=(33, 33))
    same('33, rounded down', erring(thirty_three, down, right)[0], 16)
    both_ways('33, rounded up', thirty_three, ('planned', 32, 5, 10, 33, [2]))
    same('33 at every rate', [r.energy_of(thirty_three, [rate]) for rate in (1, 2)],
         [33, 33])

    # Utilisation added as rounded fractions.
    thirds = [100, 0, 2, 1, 2, 3] + [3, 2, 0, 1, 1] * 3
    both_ways('three thirds', thirds, ('planned', 1, 3, 3, 3, [2, 2, 2]))
    same('three thirds, walk', r.walk(thirds, [2, 2, 2]), ('kept', 3, 0, 0))
    mixed = [100, 0, 2, 1, 2, 3, 2, 2, 0, 1, 1, 3, 2, 0, 1, 1, 6, 2, 0, 1, 1]
    both_ways('a half, a third and a sixth', mixed, ('planned', 1, 6, 6, 6, [2, 2, 2]))
    same('a half, a third and a sixth, walk', r.walk(mixed, [2, 2, 2])[:3], ('kept', 6, 0))

    # Ties settled by rate numbers before load.
    same('rate numbers before load', erring(S_1000, up, rates_first), (8, [2, 1]))
    same('load before rate numbers', r.plan(S_1000, 2, 27)[5], [1, 2])
    # Two equal tasks, of which one must run fast: the lower number for task 2.
    twins = [100, 0, 2, 1, 2, 2] + [3, 2, 0, 1, 3] * 2
    both_ways('the lower rate number for task 2', twins, ('planned', 1, 3, 3, 4, [2, 1]))

    # A miss noticed only when the late job ends.
    same('a miss at once', r.walk(S, [1, 1]), ('missed', 15, 2))
    late = one_task(100, 3, 100)
    same('a miss at L', r.walk(late, [1]), ('missed', 3, 1))
    several = [100, 0, 2, 1, 2, 3] + [4, 4, 0, 1, 1] + [2, 2, 0, 1, 1] + [2, 2, 0, 1, 1]
    same('task 3 misses first', r.walk(several, [1, 1, 1]), ('missed', 2, 3))
    several = [100, 0, 2, 1, 2, 3] + [2, 4, 0, 1, 1] + [2, 4, 0, 1, 1] + [2, 4, 0, 1, 1]
    same('the lowest-numbered of several', r.walk(several, [1, 1, 1]), ('missed', 2, 1))


# ------------------------------------------------------- 'The bracketed text'

def the_text():
    same('the example, read', r.read_text(EXAMPLE, 19), ('read', S))
    same('the example, read into 18 words', r.read_text(EXAMPLE, 18), refused(6, 19))
    same('the example, written', r.write_text(S, len(EXAMPLE)), ('written', EXAMPLE))
    same('the example, written into less', r.write_text(S, len(EXAMPLE) - 1),
         refused(6, len(EXAMPLE)))
    same('the example, printed', r.respond(EXAMPLE), PRINTED)
    most = [1000, 1000, 8] + [10 ** 6 - 7 + i for i in range(8)] + [32]
    most += ([10 ** 7, 4 * 10 ** 9, 10 ** 7 - 1] + [10 ** 6] * 8) * 32
    same('the most words', len(most), r.MOST_WORDS)
    text = r.write_text(most, 6000)[1]
    same('the most words, read back', r.read_text(text, r.MOST_WORDS), ('read', most))
    largest = re.sub(rb'[0-9]+', b'4294967295', text)
    same('every well-formed text is under 6,000', len(largest) < 6000, True)
    same('the largest text, read', r.read_text(largest, r.MOST_WORDS)[0], 'read')


def replaced(old, new, extra=0):
    """The example with the first 'old' changed, and where 'new' begins."""
    at = EXAMPLE.index(old)
    return EXAMPLE[:at] + new + EXAMPLE[at + len(old):], at + extra


def offsets():
    task = b'(task (period 1) (cycles 1) (energy 1 1))\n'
    head = b'(slack 1)\n(rates 1 2)\n'

    def at(name, text, offset):
        same(name, r.read_text(text, 1000), refused(1, offset))

    def change(name, old, new, offset_in_new):
        text, offset = replaced(old, new, offset_in_new)
        at(name, text, offset)

    for length in range(len(EXAMPLE)):
        want = refused(1, length)
        if EXAMPLE[:length].count(b'\n') == 3 and EXAMPLE[:length].endswith(b'\n'):
            want = ('read', S[:6] + [1] + S[7:13])
        same('cut after %d bytes' % length, r.read_text(EXAMPLE[:length], 1000), want)

    rates_8 = b'(slack 1)\n(rates 1 2 3 4 5 6 7 8'
    at('a ninth rate', rates_8 + b' 9)\n', len(rates_8))
    at('a ninth rate, cut', rates_8 + b' ', len(rates_8))
    at('a ninth rate, longer eighth', rates_8 + b'8 9', len(rates_8) + 1)
    at('eight rates, cut', rates_8, len(rates_8))
    change('a lone rate', b'2 4 8)', b'2)', 1)
    change('no rate', b'rates 2 4 8)', b'rates)', 5)
    change('no rate after a space', b'2 4 8)', b')', 0)
    change('an energy too many', b'4 9 20', b'4 9 20 1', 6)
    change('an energy too few', b'4 9 20)', b'4 9)', 3)
    at('no task', head, len(head))
    same('32 tasks', r.read_text(head + task * 32, 1000)[0], 'read')
    at('a 33rd task', head + task * 33, len(head + task * 32))
    at('a 33rd task, first byte', head + task * 32 + b'(', len(head + task * 32))
    change('a leading 0', b'slack 100', b'slack 01', 7)
    change('two 0s', b'slack 100', b'slack 00', 7)
    change('4294967296', b'slack 100', b'slack 4294967296', 15)
    change('42949672950', b'slack 100', b'slack 42949672950', 16)
    change('5000000000', b'slack 100', b'slack 5000000000', 15)
    change('a sign', b'slack 100', b'slack -1', 6)
    change('a carriage return', b')\n', b')\r\n', 1)
    change('a byte above 127', b'rates', b'\xc3\xa4', 0)
    change('a byte 0', b'100', b'1\x000', 1)
    change('two spaces', b'rates 2', b'rates  2', 6)
    change('a tab', b'rates 2', b'rates\t2', 5)
    change('a space at the end of a row', b'4 8)', b'4 8 )', 4)
    change('a letter of the other case', b'task', b'Task', 0)
    change('a missing bracket', b'20))\n(', b'20)\n(', 3)
    change('an empty line', b')\n(rates', b')\n\n(rates', 2)
    at('a space before all', b' ' + EXAMPLE, 0)
    at('an empty line after all', EXAMPLE + b'\n', len(EXAMPLE))
    at('no last line end', EXAMPLE[:-1], len(EXAMPLE) - 1)

    text, _ = replaced(b'slack 100', b'slack 4294967295')
    same('the largest number', r.read_text(text, 19), ('read', [4294967295] + S[1:]))
    text, _ = replaced(b'slack 100', b'slack 0')
    same('ranges are not judged', r.read_text(text, 19), ('read', [0] + S[1:]))
    at('1 before 6', b'(slack', 6)
    same('6 and not 1', r.read_text(EXAMPLE, 0), refused(6, 19))


def answers():
    text, at = replaced(b'slack 100', b'slack 01', 7)
    same('program, refusal 1', r.respond(text), b'(refused 1 %d)\n' % at)
    same('program, empty text', r.respond(b''), b'(refused 1 0)\n')
    same('program, refusal 2', r.respond(replaced(b'100', b'0')[0]), b'(refused 2 0)\n')
    same('program, refusal 3', r.respond(replaced(b'4 8', b'4 4')[0]), b'(refused 3 5)\n')
    same('program, refusal 4',
         r.respond(replaced(b'period 10', b'period 9999998')[0]), b'(refused 4 13)\n')
    same('program, refusal 5', r.respond(replaced(b'100', b'1')[0]), b'(refused 5 24003)\n')
    same('program, refusal 7',
         r.respond(replaced(b'cycles 12', b'cycles 81')[0]), b'(refused 7 0)\n')
    same('program, slack 1,000', r.respond(replaced(b'100', b'1000')[0]),
         b'(plan (unit 8) (load 28 30) (energy 42))\n(rate 1 1)\n(rate 2 2)\n'
         b'(walk (busy 28) (idle 2) (preempted %d))\n' % r.walk(S, [1, 2])[3])
    same('program, more than 8,192 bytes', r.respond(EXAMPLE * 100),
         b'(refused 1 %d)\n' % (len(EXAMPLE) + 1))

    def code(number, second):
        return (number * 2 ** 32 + second, None)

    none = one_task(100, 30, 61)
    same('C plan', r.c_plan(S, 2, 243, 32), (0, [1, 29, 30, 41]))
    same('C plan, refusal 2', r.c_plan([], 0, 0, 0), code(2, 0))
    same('C plan, refusal 3', r.c_plan(S[:5] + [4] + S[6:], 0, 0, 0), code(3, 5))
    same('C plan, refusal 4', r.c_plan(S[:7] + [9999998] + S[8:], 0, 0, 0), code(4, 13))
    same('C plan, refusal 5', r.c_plan(S, 0, 242, 0), code(5, 243))
    same('C plan, refusal 6 for the plan', r.c_plan(S, 1, 243, 0), code(6, 2))
    same('C plan, refusal 6 for the results', r.c_plan(S, 2, 243, 31), code(6, 32))
    same('C plan, 6 before 7', r.c_plan(none, 1, PLENTY, 31), code(6, 32))
    same('C plan, 6 for the plan before 7', r.c_plan(none, 0, PLENTY, 32), code(6, 1))
    same('C plan, 5 before 7', r.c_plan(none, 1, 0, 32), code(5, 82))
    same('C plan, refusal 7', r.c_plan(none, 1, PLENTY, 32), code(7, 0))
    same('C walk, kept', r.c_walk(S, [2, 1], 32), (0, [1, 29, 1, 1]))
    same('C walk, missed', r.c_walk(S, [1, 1], 32), (0, [0, 15, 2, 0]))
    same('C walk, refusal 6', r.c_walk(S, [1, 1], 31), code(6, 32))
    same('C walk, 8 before 6', r.c_walk(S, [1, 4], 31), code(8, 1))
    same('C walk, refusal 2', r.c_walk([], [], 0), code(2, 0))

    for plan, place in (([], 0), ([1], 1), ([1, 1, 1], 2), ([1, 1, 9], 2),
                        ([0, 9], 0), ([9, 1, 1], 0), ([0], 0), ([1, 0, 0], 1)):
        same('refusal 8 of %r' % plan, r.walk(S, plan), refused(8, place))

    same('one word', r.check_set([100]), refused(2, 1))
    same('two words', r.check_set([100, 0]), refused(2, 2))
    same('M of 1', r.check_set([100, 0, 1, 5]), refused(2, 2))
    same('M of 9', r.check_set([100, 0, 9]), refused(2, 2))
    same('N of 0', r.check_set(S[:6] + [0]), refused(2, 6))
    same('N of 33', r.check_set(S[:6] + [33] + S[7:]), refused(2, 6))
    same('a word left over', r.check_set(S + [1]), refused(2, 19))
    for length in range(len(S)):
        same('%d words of S' % length, r.check_set(S[:length]), refused(2, length))
    # S's first task has period 10.
    for place, top in ((0, 1000), (1, 1000), (3, 10 ** 6), (7, 10 ** 7), (8, 4 * 10 ** 9),
                       (9, 9), (10, 10 ** 6)):
        # The idle energy and a first release may be 0.
        for word in (0, top + 1, 2 ** 32 - 1)[place in (1, 9):]:
            words = S[:place] + [word] + S[place + 1:]
            same('%d at place %d' % (word, place), r.check_set(words), refused(2, place))
        words = S[:place] + [top] + S[place + 1:]
        same('%d at place %d' % (top, place), r.check_2(words), None)
    same('2 before 3', r.check_set([100, 0, 2, 4, 4, 1, 30, 60, 0, 1, 0]), refused(2, 10))
    same('3 before 4', r.check_set([100, 0, 2, 4, 4, 2, 9999999, 1, 0, 1, 1, 10000000, 1, 0, 1, 1]),
         refused(3, 4))
    same('the first falling rate', r.check_set(S[:3] + [8, 4, 2] + S[6:]), refused(3, 4))


def preemptions():
    # Task 1's job ends as task 2's turn comes: no preemption.
    words = [100, 0, 2, 1, 2, 2] + [4, 2, 0, 1, 1] + [4, 2, 0, 1, 1]
    same('no preemption at an end', r.walk(words, [1, 1]), ('kept', 4, 0, 0))
    # A job that follows its own task's finished job, with no idle tick.
    same('no preemption by the next job', r.walk([100, 0, 2, 1, 2, 2] + [2, 2, 0, 1, 1]
         + [4, 2, 0, 1, 1], [2, 2]), ('kept', 3, 1, 0))
    # A long job broken by three short ones, and a tie at 12 for the lower number.
    words = [100, 0, 2, 1, 2, 2] + [3, 1, 0, 1, 1] + [12, 8, 0, 1, 1]
    same('three preemptions', r.walk(words, [1, 1]), ('kept', 12, 0, 3))
    # The long job first: a tie at 12 leaves it running.
    words = [100, 0, 2, 1, 2, 2] + [12, 8, 0, 1, 1] + [3, 1, 0, 1, 1]
    same('two preemptions', r.walk(words, [1, 1]), ('kept', 12, 0, 2))


# ------------------------------------------- document 02, note 1: the generator

HEAD = [100, 0, 5, 100, 200, 300, 400, 500]        # of every generated list, before N
TABLE = [10, 20, 25, 40, 50, 100, 200, 400]

# Worked with a calculator. The states from seed 0 are 1013904223, 1196435762, 3519870697;
# 2868466484, 1649599747, 2670642822; 1476291629, 2748932008, 2180890343. Their draws:
# 15470 is 6 mod 8, 18256 is 256 mod 1,000 and 53708 is 5 mod 9;
# 43769 is 1, 25170 is 170 and 40750 is 7; 22526 is 6, 41945 is 945 and 33277 is 4.
FROM_0 = [200, 257, 0, 7, 28, 63, 112, 175,
          20, 171, 0, 9, 36, 81, 144, 225,
          200, 946, 0, 6, 24, 54, 96, 150]
# From 4294967295 the draws are 15445, 12311, 8835; 41343, 47029, 57284.
FROM_TOP = [100, 312, 0, 8, 32, 72, 128, 200,
            400, 30, 0, 10, 40, 90, 160, 250]
# From 7 they are 15648, 59866, 40140: entry 0, and the least energies.
FROM_7 = [10, 867, 0, 2, 8, 18, 32, 50]
# From 174 they are 19890, 3999, 62834 and from 378 25071, 37000, 41894: the most
# cycles and the fewest, and the last entry.
FROM_174 = [25, 1000, 0, 7, 28, 63, 112, 175]
FROM_378 = [400, 1, 0, 10, 40, 90, 160, 250]
WORKED = [(0, 3, FROM_0), (2 ** 32 - 1, 2, FROM_TOP), (7, 1, FROM_7), (174, 1, FROM_174),
          (378, 1, FROM_378)]


def generator_edges():
    for seed, N, tasks in WORKED:
        words = HEAD + [N] + tasks
        same('generator, seed %d' % seed, r.generate(seed, N, len(words)), ('generated', words))
    for N, length in ((1, 17), (2, 25), (31, 257), (32, 265)):
        name = 'generator, %d tasks' % N
        words = r.generate(0, N, length)[1]
        same(name, (len(words), words[:9]), (length, HEAD + [N]))
        same(name + ', a word more', r.generate(0, N, length + 1), ('generated', words))
        same(name + ', a word short', r.generate(0, N, length - 1), refused(6, length))
        same(name + ', none lent', r.generate(0, N, 0), refused(6, length))
    for N in (0, 33, 34, 256 + 1, 2 ** 31 + 1, 2 ** 32 - 1):
        for room in (0, 16, 272, PLENTY):
            same('generator, %d tasks, %d words' % (N, room), r.generate(7, N, room),
                 refused(2, 0))

    def code(number, second):
        return (number * 2 ** 32 + second, None)

    same('C generator', r.c_generate(7, 1, 17, 32), (0, [17, 0, 0, 0]))
    same('C generator, 32 tasks', r.c_generate(7, 32, 400, 40), (0, [265, 0, 0, 0]))
    same('C generator, refusal 2', r.c_generate(7, 33, 400, 32), code(2, 0))
    same('C generator, 2 before 6', r.c_generate(7, 0, 0, 0), code(2, 0))
    same('C generator, refusal 6 for the list', r.c_generate(7, 1, 16, 32), code(6, 17))
    same('C generator, the list before the results', r.c_generate(7, 1, 16, 31), code(6, 17))
    same('C generator, refusal 6 for the results', r.c_generate(7, 1, 17, 31), code(6, 32))


# A generator in parts, and readings of the note that are wrong in one of them. Of
# three draws, order says which are for period, cycles and energies.
PARTS = {
    'step': lambda state: (state * 1_664_525 + 1_013_904_223) % 2 ** 32,
    'draw': lambda old, new: new // 65_536,
    'order': (0, 1, 2),
    'period': lambda d: TABLE[d % 8],
    'cycles': lambda d: 1 + d % 1_000,
    'energy': lambda d, j: (2 + d % 9) * j * j,
}
MISREAD = {
    'added before multiplying': (
        'step', lambda state: (state + 1_013_904_223) * 1_664_525 % 2 ** 32),
    'wrapped at 31 bits': ('step', lambda state: (state * 1_664_525 + 1_013_904_223) % 2 ** 31),
    'a sum that stays at the top': (
        'step', lambda state: min(state * 1_664_525 % 2 ** 32 + 1_013_904_223, 2 ** 32 - 1)),
    'the draw before the step': ('draw', lambda old, new: old // 65_536),
    'the low half of the state': ('draw', lambda old, new: new % 65_536),
    'the draw rounded up': ('draw', lambda old, new: -(-new // 65_536)),
    'the draw rounded to nearest': ('draw', lambda old, new: (new + 32_768) // 65_536),
    'the whole state': ('draw', lambda old, new: new),
    'period and cycles swapped': ('order', (1, 0, 2)),
    'cycles and energies swapped': ('order', (0, 2, 1)),
    'period and energies swapped': ('order', (2, 1, 0)),
    'one draw for all': ('order', (0, 0, 0)),
    'entry mod 7': ('period', lambda d: TABLE[d % 7]),
    'entries from 1': ('period', lambda d: TABLE[d % 8 - 1]),
    'the highest bits for the entry': ('period', lambda d: TABLE[d // 8_192]),
    'cycles from 0': ('cycles', lambda d: d % 1_000),
    'cycles mod 1,001': ('cycles', lambda d: 1 + d % 1_001),
    'cycles mod 1,024': ('cycles', lambda d: 1 + d % 1_024),
    '1 + draw, mod 1,000': ('cycles', lambda d: (1 + d) % 1_000),
    'energies as the rate': ('energy', lambda d, j: (2 + d % 9) * j),
    'energies from rate 0': ('energy', lambda d, j: (2 + d % 9) * (j - 1) * (j - 1)),
    'the square of all': ('energy', lambda d, j: ((2 + d % 9) * j) ** 2),
    'energies mod 8': ('energy', lambda d, j: (2 + d % 8) * j * j),
    'energies mod 10': ('energy', lambda d, j: (2 + d % 10) * j * j),
    '2 + draw, mod 9': ('energy', lambda d, j: (2 + d) % 9 * j * j),
    'the product before the sum': ('energy', lambda d, j: 2 + d % 9 * j * j),
}


def in_parts(seed, N, **other):
    """The tasks of a list that is made of the parts, or of another in place of one."""
    part = {**PARTS, **other}
    words, state = [], seed
    for _ in range(N):
        taken = []
        for _ in range(3):
            old, state = state, part['step'](state)
            taken.append(part['draw'](old, state))
        p, c, e = (taken[which] for which in part['order'])
        words += [part['period'](p), part['cycles'](c), 0]
        words += [part['energy'](e, j) for j in range(1, 6)]
    return words


def generator_errors():
    """Each wrong reading departs from one of the worked lists."""
    for seed, N, tasks in WORKED:
        same('generator in parts, seed %d' % seed, in_parts(seed, N), tasks)
    for name, (part, wrong) in MISREAD.items():
        seen = any(in_parts(seed, N, **{part: wrong}) != tasks for seed, N, tasks in WORKED)
        same('generator misread: ' + name, seen, True)


def generated_sets():
    """'A list from it passes checks 2, 3 and 4 for every seed.'"""
    g = random.Random(6)
    seeds = [0, 1, 7, 2 ** 16 - 1, 2 ** 16, 2 ** 31 - 1, 2 ** 31, 2 ** 32 - 1]
    seeds += [g.randrange(2 ** 32) for _ in range(632)]
    periods, cycles, least, spans = set(), [], set(), set()
    for number, seed in enumerate(seeds):
        N = 1 + (number + number // 32) % 32
        name = 'generated set, seed %d, %d tasks' % (seed, N)
        words = r.generate(seed, N, PLENTY)[1]
        kind, M, tasks, L = r.check_set(words)
        same(name, (kind, M, tasks, 400 % L), ('good', 5, N, 0))
        same(name + ', in parts', words, HEAD + [N] + in_parts(seed, N))
        periods.update(words[9::8])
        cycles += words[10::8]
        least.update(words[12::8])
        spans.add(L)
    same('every period was seen', sorted(periods), TABLE)
    same('both ends of the cycles were seen', (min(cycles), max(cycles)), (1, 1_000))
    same('every energy was seen', sorted(least), list(range(2, 11)))
    same('the longest hyper-period was seen', max(spans), 400)


# ------------------------------------- document 02, note 2: processors by name

# Of a chip's list what stands between slack and N: the chip's own H, and the rates.
XSCALE = [40, 5, 150_000, 400_000, 600_000, 800_000, 1_000_000]
PPC405LP = [12, 4, 33_000, 100_000, 266_000, 333_000]
# The most cycles of a job without refusal 9. At xscale's 1,000 MHz 625 ticks take
# 625 x 1,600 = 1,000,000, and the other rates less. At ppc405lp's 266 MHz 1,666 ticks take
# 1,666 x 600 = 999,600, and one more takes 1,000,200, when at 333 MHz there is still room:
# 443,156,000 / 333,000 is 1,330.8, and 1,331 x 750 = 998,250.
MOST_CYCLES = {'xscale': 625_000_000, 'ppc405lp': 443_156_000}

# Worked with a calculator: chip, slack, pairs of period and cycles, and what is read.
# xscale. 1,500,000 cycles: 10, 3.75, 2.5, 1.875 and 1.5, so 10, 4, 3, 2 and 2 ticks;
# 80 x 10, 170 x 4, 400 x 3, 900 x 2 and 1,600 x 2. 3,000,000 cycles: 20, 7.5, 5, 3.75 and 3,
# so 20, 8, 5, 4 and 3 ticks.
TWO_ON_XSCALE = ('xscale', 100, [(10, 1_500_000), (20, 3_000_000)], [
    100, *XSCALE, 2,
    10, 1_500_000, 0, 800, 680, 1_200, 1_800, 3_200,
    20, 3_000_000, 0, 1_600, 1_360, 2_000, 3_600, 4_800])
# ppc405lp. 1,000,000 cycles: 30.3, 10, 3.76 and 3.003, so 31, 10, 4 and 4 ticks; 19 x 31,
# 72 x 10, 600 x 4 and 750 x 4. 500,000 cycles: 15.15, 5, 1.88 and 1.502, so 16, 5, 2 and 2.
TWO_ON_PPC405LP = ('ppc405lp', 500, [(40, 1_000_000), (20, 500_000)], [
    500, *PPC405LP, 2,
    40, 1_000_000, 0, 589, 720, 2_400, 3_000,
    20, 500_000, 0, 304, 360, 1_200, 1_500])
CHIP_WORKED = [
    TWO_ON_XSCALE,
    TWO_ON_PPC405LP,
    # One cycle takes one tick at each rate, and none takes none. No range is judged.
    ('xscale', 0, [(0, 1), (4_294_967_295, 0)],
     [0, *XSCALE, 2, 0, 1, 0, 80, 170, 400, 900, 1_600, 4_294_967_295, 0, 0, 0, 0, 0, 0, 0]),
    ('ppc405lp', 4_294_967_295, [(1, 0), (7, 1)],
     [4_294_967_295, *PPC405LP, 2, 1, 0, 0, 0, 0, 0, 0, 7, 1, 0, 19, 72, 600, 750]),
    # Just a tick at the lowest rate, and one cycle more.
    ('xscale', 1, [(1, 150_000), (1, 150_001)],
     [1, *XSCALE, 2, 1, 150_000, 0, 80, 170, 400, 900, 1_600,
      1, 150_001, 0, 160, 170, 400, 900, 1_600]),
    ('ppc405lp', 1, [(1, 33_000), (1, 33_001)],
     [1, *PPC405LP, 2, 1, 33_000, 0, 19, 72, 600, 750, 1, 33_001, 0, 38, 72, 600, 750]),
    # The most cycles. xscale: 4,166.7, 1,562.5, 1,041.7, 781.25 and 625, so 4,167, 1,563, 1,042,
    # 782 and 625 ticks. ppc405lp: 13,428.97, 4,431.56, 1,666 and 1,330.8, so 13,429, 4,432,
    # 1,666 and 1,331 ticks.
    ('xscale', 9, [(700, 625_000_000)],
     [9, *XSCALE, 1, 700, 625_000_000, 0, 333_360, 265_710, 416_800, 703_800, 1_000_000]),
    ('ppc405lp', 9, [(700, 443_156_000)],
     [9, *PPC405LP, 1, 700, 443_156_000, 0, 255_151, 319_104, 999_600, 998_250]),
    # The fewest cycles of as many ticks at the highest rate; at the others one past a full tick:
    # 4,161, 1,561, 1,041 and 781 ticks.
    ('xscale', 9, [(700, 624_000_001)],
     [9, *XSCALE, 1, 700, 624_000_001, 0, 332_880, 265_370, 416_400, 702_900, 1_000_000]),
    # A cycle more than the most: 626 x 1,600 = 1,001,600, and 1,667 x 600 = 1,000,200.
    ('xscale', 9, [(700, 625_000_001)], refused(9, 1)),
    ('ppc405lp', 9, [(700, 443_156_001)], refused(9, 1)),
    # The first such task's number.
    ('xscale', 9, [(7, 625_000_000), (7, 1), (7, 625_000_001), (7, 625_000_001)], refused(9, 3)),
    ('ppc405lp', 9, [(7, 443_156_000), (7, 443_156_001), (7, 4_294_967_295)], refused(9, 2)),
    # At each of these some energy is 1,000,000 or just under it, and another is over.
    ('xscale', 9, [(7, 12_500 * 150_000)], refused(9, 1)),
    ('xscale', 9, [(7, 2_500 * 600_000)], refused(9, 1)),
    ('xscale', 9, [(7, 1_111 * 800_000)], refused(9, 1)),
    ('ppc405lp', 9, [(7, 1_333 * 333_000)], refused(9, 1)),
    ('ppc405lp', 9, [(7, 13_888 * 100_000)], refused(9, 1)),
    # The largest number: 4,295 x 1,600 and 12,898 x 750.
    ('xscale', 9, [(7, 4_294_967_295)], refused(9, 1)),
    ('ppc405lp', 9, [(7, 4_294_967_295)], refused(9, 1)),
]
CHIP_PRINTED = [
    # L is 20. Only rates 2 to 5 fit; at rate 2 the loads are 8 and 8, and of the energies, which
    # are 1,360 and 1,360, 40 x 8 is left out: 1,040 and 1,040, the least of all. 1,040 / 32 is
    # 32.5, so k is 66, and 100 x 66 is at least 4,000; with 64 k is 34. 2,720 + 40 x 4.
    # The second task runs in ticks 4 to 9, 14 and 15.
    (TWO_ON_XSCALE, b'(plan (unit 32) (load 16 20) (energy 2880))\n(rate 1 2)\n(rate 2 2)\n'
                    b'(walk (busy 16) (idle 4) (preempted 1))\n'),
    # L is 40. Loads are 31, 10, 4, 4 and 32, 10, 4, 4, so that rates 1 2 and 2 1 come to 41 and
    # 42. At 2 2 energies of 720 and 720 less 12 x 10 are 600 and 600: 600 / 128 is 4.7, so k is 10,
    # and 500 x 10 is at least 4,000; with 256 k is 6. 1,440 + 12 x 20.
    (TWO_ON_PPC405LP, b'(plan (unit 128) (load 20 40) (energy 1680))\n(rate 1 2)\n(rate 2 2)\n'
                      b'(walk (busy 20) (idle 20) (preempted 0))\n'),
    # One tick: only the highest rate fits, and then none does. 1,560 / 64 is 24.4.
    (('xscale', 100, [(1, 1_000_000)]),
     b'(plan (unit 64) (load 1 1) (energy 1600))\n(rate 1 5)\n'
     b'(walk (busy 1) (idle 0) (preempted 0))\n'),
    (('xscale', 100, [(1, 1_000_001)]), b'(refused 7 0)\n'),
    # 738 / 32 is 23.1. At 266,000 cycles 266 MHz will do, for 600, and 588 / 16 is 36.8.
    (('ppc405lp', 100, [(1, 333_000)]),
     b'(plan (unit 32) (load 1 1) (energy 750))\n(rate 1 4)\n'
     b'(walk (busy 1) (idle 0) (preempted 0))\n'),
    (('ppc405lp', 100, [(1, 266_000)]),
     b'(plan (unit 16) (load 1 1) (energy 600))\n(rate 1 3)\n'
     b'(walk (busy 1) (idle 0) (preempted 0))\n'),
    (('ppc405lp', 100, [(1, 333_001)]), b'(refused 7 0)\n'),
    # A task that is too dear comes before all that the planner says; cycles of 0 are for it.
    (('xscale', 100, [(1, 625_000_001)]), b'(refused 9 1)\n'),
    (('xscale', 0, [(0, 1), (0, 4_294_967_295)]), b'(refused 9 2)\n'),
    (('ppc405lp', 0, [(1, 1)]), b'(refused 2 0)\n'),
    (('xscale', 100, [(1, 0)]), b'(refused 2 10)\n'),
    (('ppc405lp', 100, [(1, 0)]), b'(refused 2 9)\n'),
    (('xscale', 100, [(1, 1), (10_000_001, 0)]), b'(refused 2 17)\n'),
    (('ppc405lp', 100, [(1, 1), (1, 0)]), b'(refused 2 16)\n'),
    (('xscale', 100, [(9_999_999, 1), (10_000_000, 1)]), b'(refused 4 17)\n'),
    (('ppc405lp', 100, [(9_999_999, 1), (10_000_000, 1)]), b'(refused 4 15)\n'),
    (('xscale', 1, [(10, 1), (10, 1)]), b'(refused 5 24003)\n'),
]


def chip_text(chip, slack, tasks, *_, idle=None):
    """The text of a chip, with an idle line where a number for it is given."""
    line = '' if idle is None else '(idle %d)\n' % idle
    return ('(slack %d)\n%s(chip %s)\n' % (slack, line, chip) + ''.join(
        '(task (period %d) (cycles %d))\n' % task for task in tasks)).encode('ascii')


def chip_edges():
    for chip, slack, tasks, want in CHIP_WORKED:
        name, text = '%s, %r' % (chip, tasks), chip_text(chip, slack, tasks)
        if want[0] == 'refused':
            for room in (0, 8, PLENTY):
                same('%s, %d words' % (name, room), r.read_text(text, room), want)
            same(name + ', bytes left over', r.read_text(text + b'\n', 0), refused(1, len(text)))
            same(name + ', cut', r.read_text(text[:-1], 0), refused(1, len(text) - 1))
        else:
            K = len(want)
            for room in (K, K + 1, PLENTY):
                same('%s, %d words' % (name, room), r.read_text(text, room), ('read', want))
            for room in (0, 1, K - 1):
                same('%s, %d words' % (name, room), r.read_text(text, room), refused(6, K))
    for (chip, slack, tasks, *_), printed in CHIP_PRINTED:
        same('%s, %r, printed' % (chip, tasks), r.respond(chip_text(chip, slack, tasks)), printed)
    for chip, most in MOST_CYCLES.items():
        # Few and most tasks, each at the edge, and 9 at each of 32.
        for N in (1, 2, 31, 32):
            answer = r.read_text(chip_text(chip, 5, [(6, most)] * N), PLENTY)
            M = len(r.CHIPS[chip])
            same('%s, %d tasks' % (chip, N), (answer[0], len(answer[1])),
                 ('read', 4 + M + N * (3 + M)))
        for number in range(1, 33):
            tasks = [(6, most)] * (number - 1) + [(6, most + 1)] * (33 - number)
            same('%s, 9 at task %d' % (chip, number), r.read_text(chip_text(chip, 5, tasks), 0),
                 refused(9, number))
    # Energies that are given are not judged by 9, also not those of a chip.
    words = [9, *XSCALE, 1, 700, 625_000_001, 0, 333_360, 265_710, 416_800, 703_800, 1_001_600]
    text = ('(slack 9)\n(idle 40)\n(rates 150000 400000 600000 800000 1000000)\n(task (period 700) '
            '(cycles 625000001) (energy 333360 265710 416800 703800 1001600))\n').encode('ascii')
    same('energies that are given', r.read_text(text, PLENTY), ('read', words))
    same('energies that are given, printed', r.respond(text), b'(refused 2 16)\n')
    # A chip's own H, and one that is given in its place, 0 too.
    for chip, slack, tasks, want in CHIP_WORKED:
        for idle in GIVEN:
            name = '%s, %r, idle %d' % (chip, tasks, idle)
            text = chip_text(chip, slack, tasks, idle=idle)
            if want[0] == 'refused':
                same(name, r.read_text(text, 0), want)
            else:
                same(name, r.read_text(text, len(want)), ('read', [slack, idle] + want[2:]))
                same(name + ', a word short', r.read_text(text, len(want) - 1),
                     refused(6, len(want)))
    # 80 x 10 microjoules of a job at 150 MHz are 80 x 10 of waiting, and 19 of one tick at 33 MHz
    # are 19: the highest H under these chips, whatever the tasks. There is no plan with the first
    # rate for the second of these tasks, and yet it is looked at.
    for chip, most, place in (('xscale', 80, 12), ('ppc405lp', 19, 11)):
        for idle, want in ((most, None), (most + 1, refused(10, place)),
                           (1_000, refused(10, place)), (1_001, refused(2, 1))):
            tasks = [(10, 1_500_000), (4, 1_600_000)] if chip == 'xscale' else [(3, 33_000)]
            name = '%s, idle %d, printed' % (chip, idle)
            printed = r.respond(chip_text(chip, 100, tasks, idle=idle))
            if want:
                same(name, printed, b'(refused %d %d)\n' % want[1:])
            else:
                same(name, printed[:6], b'(plan ')


# An expansion in parts, and readings of the note that are wrong in one of them. A table has
# pairs of MHz and mW; 'time' is that of so many cycles at a rate, 'over' judges a task's
# energies, and 'which' says what is returned where these tasks, from 0, are too dear.
CHIP_PARTS = {
    'xscale': [(150, 80), (400, 170), (600, 400), (800, 900), (1000, 1600)],
    'ppc405lp': [(33, 19), (100, 72), (266, 600), (333, 750)],
    'rate': lambda MHz: MHz * 1_000,
    'time': lambda c, rate: c // rate + (c % rate > 0),
    'energy': lambda mW, time, c, rate: mW * time,
    'over': lambda energies: max(energies) > 1_000_000,
    'which': lambda dear: dear[0] + 1,
    'idle': {'xscale': 40, 'ppc405lp': 12},
    'given': lambda own, given: own if given is None else given,
}
GIVEN = (0, 1, 11, 12, 13, 40, 41, 1_000, 1_001, 4_294_967_295)    # for H, in an idle line
CHIP_MISREAD = {
    'powers one rate late': (
        'xscale', [(150, 170), (400, 400), (600, 900), (800, 1600), (1000, 80)]),
    'a rate left out': ('xscale', [(150, 80), (400, 170), (600, 400), (1000, 1600)]),
    'falling rates': ('ppc405lp', [(333, 750), (266, 600), (100, 72), (33, 19)]),
    'rising powers only': ('ppc405lp', [(33, 19), (100, 72), (266, 600), (333, 600)]),
    'MHz and mW swapped': ('ppc405lp', [(19, 33), (72, 100), (600, 266), (750, 333)]),
    'MHz in place of rates': ('rate', lambda MHz: MHz),
    'cycles per second': ('rate', lambda MHz: MHz * 1_000_000),
    '1,024 for 1,000': ('rate', lambda MHz: MHz * 1_024),
    'job time rounded down': ('time', lambda c, rate: c // rate),
    'job time rounded to nearest': ('time', lambda c, rate: (2 * c + rate) // (2 * rate)),
    'job time with a tick more': ('time', lambda c, rate: c // rate + 1),
    'job time of at least a tick': ('time', lambda c, rate: max(1, -(-c // rate))),
    'job time wrapping at 32 bits': ('time', lambda c, rate: (c + rate - 1) % 2 ** 32 // rate),
    'power times cycles over rate, rounded up': (
        'energy', lambda mW, time, c, rate: -(-mW * c // rate)),
    'power times cycles over rate, rounded down': (
        'energy', lambda mW, time, c, rate: mW * c // rate),
    'power alone': ('energy', lambda mW, time, c, rate: mW),
    'time alone': ('energy', lambda mW, time, c, rate: time),
    'millijoules': ('energy', lambda mW, time, c, rate: mW * time // 1_000),
    'energies held at the most': ('energy', lambda mW, time, c, rate: min(mW * time, 1_000_000)),
    'energies of at least 1': ('energy', lambda mW, time, c, rate: max(mW * time, 1)),
    'over from 1,000,000 on': ('over', lambda energies: max(energies) >= 1_000_000),
    'over a tick late': ('over', lambda energies: max(energies) > 1_001_600),
    'over at the highest rate': ('over', lambda energies: energies[-1] > 1_000_000),
    'over at the lowest rate': ('over', lambda energies: energies[0] > 1_000_000),
    'over at every rate': ('over', lambda energies: min(energies) > 1_000_000),
    'over in the sum': ('over', lambda energies: sum(energies) > 1_000_000),
    'never over': ('over', lambda energies: False),
    'energies of 0 refused': (
        'over', lambda energies: max(energies) > 1_000_000 or max(energies) == 0),
    'the last such task': ('which', lambda dear: dear[-1] + 1),
    'tasks from 0': ('which', lambda dear: dear[0]),
    'how many such tasks': ('which', lambda dear: len(dear)),
    'the place of its period': ('which', lambda dear: 4 + 5 + 8 * dear[0]),
    'the other chip\'s H': ('idle', {'xscale': 12, 'ppc405lp': 40}),
    'no H of a chip\'s own': ('idle', {'xscale': 0, 'ppc405lp': 0}),
    'H of a second': ('idle', {'xscale': 40_000, 'ppc405lp': 12_000}),
    'a chip\'s own H always': ('given', lambda own, given: own),
    'H of 0 as if absent': ('given', lambda own, given: given or own),
    'the larger H': ('given', lambda own, given: max(own, given or 0)),
    'both H together': ('given', lambda own, given: own + (given or 0)),
    'H of at most 1,000': ('given', lambda own, given: own if given is None else min(given, 1_000)),
}


def chip_in_parts(chip, slack, tasks, H=None, **other):
    """What is read of a chip's text, with H in an idle line unless it is None, and with enough
    words lent: of the parts, or of another in place of one."""
    part = {**CHIP_PARTS, **other}
    rates = [part['rate'](MHz) for MHz, _ in part[chip]]
    words = [slack, part['given'](part['idle'][chip], H), len(rates), *rates, len(tasks)]
    dear = []
    for number, (period, cycles) in enumerate(tasks):
        energies = [part['energy'](mW, part['time'](cycles, rate), cycles, rate)
                    for rate, (_, mW) in zip(rates, part[chip])]
        words += [period, cycles, 0, *energies]
        if part['over'](energies):
            dear.append(number)
    return refused(9, part['which'](dear)) if dear else words


def chip_errors():
    """Each wrong reading departs from one of the worked figures."""
    worked = [(chip, slack, tasks, None, want) for chip, slack, tasks, want in CHIP_WORKED]
    for chip, slack, tasks, want in (TWO_ON_XSCALE, TWO_ON_PPC405LP):
        worked += [(chip, slack, tasks, H, [slack, H] + want[2:]) for H in GIVEN]
    for chip, slack, tasks, H, want in worked:
        same('%s in parts, %r, %r' % (chip, tasks, H), chip_in_parts(chip, slack, tasks, H), want)
    for name, (part, wrong) in CHIP_MISREAD.items():
        seen = any(chip_in_parts(chip, slack, tasks, H, **{part: wrong}) != want
                   for chip, slack, tasks, H, want in worked)
        same('chip misread: ' + name, seen, True)


def departures(kind):
    """The two tests of where texts of a kind depart: at an offset, and which bytes go on behind a text."""
    def at(name, text, offset):
        same('%s, %s' % (kind, name), r.read_text(text, 1000), refused(1, offset))
        same('%s, %s, the usual way' % (kind, name), plain_reader(text), offset)

    def goes_on(name, text, bytes_):
        found = bytes(byte for byte in range(256) if r.all_after(states_after(text), byte))
        same('%s, after %s' % (kind, name), found, bytes_)

    return at, goes_on


def chip_offsets():
    """Where texts with a chip, and with what is not one, depart; and which bytes go on."""
    slack, rates = b'(slack 1)\n', b'(rates 1 2)\n'
    xscale, ppc405lp = b'(chip xscale)\n', b'(chip ppc405lp)\n'
    bare = b'(task (period 1) (cycles 1))\n'
    given = b'(task (period 1) (cycles 1) (energy 1 1))\n'

    at, goes_on = departures('chip text')

    for label, line, name in (('xscale', xscale, b'xscale'), ('ppc405lp', ppc405lp, b'ppc405lp')):
        text = slack + line + bare
        for length in range(len(text)):
            at('%s cut after %d' % (label, length), text[:length], length)
        same(label + ', read', r.read_text(text, 1000)[0], 'read')
        begin = len(slack + b'(chip ')
        for place, byte in enumerate(name):
            for wrong in b'\x00 ()019Zz\xff' + bytes([byte ^ 32]):
                if wrong != byte:
                    at('%s, %d at byte %d' % (label, wrong, place),
                       text[:begin + place] + bytes([wrong]) + text[begin + place + 1:],
                       begin + place)
            goes_on('%d bytes of %s' % (place + 1, label), text[:begin + place + 1],
                    name[place + 1:place + 2] or b')')
        head = slack + line
        at(label + ', then rates', head + rates + bare, len(head) + 1)
        at(label + ', after rates', slack + rates + line + given, len(slack + rates) + 1)
        at(label + ' twice', head + line + bare, len(head) + 1)
        at(label + ', then the other', head + (ppc405lp if line == xscale else xscale) + bare,
           len(head) + 1)
        at(label + ' before the slack', line + slack + bare, 1)
        at(label + ', then the slack', head + slack + bare, len(head) + 1)
        at(label + ', no task', head, len(head))
        at(label + ' with energies', head + given, len(head) + 29)
        at(label + ' with energies at task 2', head + bare + given, len(head + bare) + 29)
        at(label + ' with energies at task 32', head + bare * 31 + given, len(head + bare * 31) + 29)
        same(label + ', 32 tasks', r.read_text(head + bare * 32, 1000)[0], 'read')
        at(label + ', a 33rd task', head + bare * 33, len(head + bare * 32))
        at(label + ', bytes left over', text + b' ', len(text))
        at(label + ', then rates at last', text + rates, len(text) + 1)
        goes_on('a task line of ' + label, text, b'(')
        goes_on('32 task lines of ' + label, head + bare * 32, b'')
        goes_on('the cycles of ' + label, text[:-2], b' )')
        goes_on('a bracket behind the cycles of ' + label, text[:-2] + b' (', b'f')
    at('rates without energies', slack + rates + bare, len(slack + rates) + 27)
    at('rates without energies at task 2', slack + rates + given + bare,
       len(slack + rates + given) + 27)
    # `(chip xp`: the name departs at the p, and `(chip ps` at the s.
    at('xp', slack + b'(chip xp', 17)
    at('ps', slack + b'(chip ps', 17)
    at('no name', slack + b'(chip )\n', 16)
    at('no name and no space', slack + b'(chip)\n', 15)
    at('two spaces', slack + b'(chip  xscale)\n', 16)
    at('a number for a name', slack + b'(chip 150)\n', 16)
    at('a name for rates', slack + b'(rates xscale)\n', 17)
    at('a longer name', slack + b'(chip xscales)\n', 22)
    at('two names', slack + b'(chip xscale ppc405lp)\n', 22)
    goes_on('the slack line', slack, b'(')
    goes_on('the second bracket', slack + b'(', b'cir')
    goes_on('the word chip', slack + b'(chip', b' ')
    goes_on('the space of a chip', slack + b'(chip ', b'px')
    goes_on('the cycles of rates', slack + rates + given[:27], b' ')
    goes_on('a bracket behind the cycles of rates', slack + rates + given[:29], b'e')


def chips_at_random():
    """Expansions held to those in parts; what was read is a set that is written and read back,
    and the program prints the same for both texts."""
    g = random.Random(7)
    seen = set()
    for number in range(300):
        chip = g.choice(list(MOST_CYCLES))
        most = MOST_CYCLES[chip]
        tasks = []
        for _ in range(g.choice([1, 1, 2, 2, 3, 8, 32])):
            cycles = g.choice([1, most, g.randint(1, most), g.randint(1, most), 1_000 * g.randint(
                1, most // 1_000)])
            if g.randint(1, 12) == 1:
                cycles = g.choice([0, most + 1, most + g.randint(1, 10 ** 6), 4_294_967_295])
            tasks.append((g.choice([1, 10, 50, 100, 200, 400, 800]), cycles))
        slack, H = g.choice([300, 500, 1_000]), g.choice([None, None, None, 0, 1, 19, 30, 80, 1_001])
        text = chip_text(chip, slack, tasks, idle=H)
        name = 'chip %d, %s %r, H %r' % (number, chip, tasks, H)
        want = chip_in_parts(chip, slack, tasks, H)
        if want[0] == 'refused':
            same(name, r.read_text(text, g.choice([0, PLENTY])), want)
            same(name + ', printed', r.respond(text), b'(refused 9 %d)\n' % want[2])
            seen.add((chip, 9))
            continue
        same(name, r.read_text(text, len(want)), ('read', want))
        if number % 10 == 0:
            same(name + ', a word short', r.read_text(text, len(want) - 1), refused(6, len(want)))
        if H == 1_001:
            same(name + ', H of 1,001', r.check_set(want), refused(2, 1))
            same(name + ', H of 1,001, printed', r.respond(text), b'(refused 2 1)\n')
            continue
        none = [place for place, (_, cycles) in enumerate(tasks) if cycles == 0]
        if none:
            M = len(r.CHIPS[chip])
            place = 4 + M + (3 + M) * none[0] + 1
            same(name + ', cycles of 0', r.check_set(want), refused(2, place))
            same(name + ', cycles of 0, printed', r.respond(text), b'(refused 2 %d)\n' % place)
            seen.add((chip, 2))
            continue
        kind, explicit = r.write_text(want, PLENTY)
        same(name + ', written', kind, 'written')
        same(name + ', with rates and energies', (explicit.count(b'(rates '),
             explicit.count(b'(energy '), explicit.count(b'chip')), (1, len(tasks), 0))
        same(name + ', with its idle line', explicit.count(b'(idle '), H != 0)
        same(name + ', read back', r.read_text(explicit, len(want)), ('read', want))
        if len(tasks) <= 3:
            printed = r.respond(text)
            same(name + ', printed alike', printed, r.respond(explicit))
            seen.add((chip, printed[:11] == b'(refused 7 '))
    same('every kind of chip text was seen', seen,
         {(chip, kind) for chip in MOST_CYCLES for kind in (9, 2, True, False)})


# ------------------------------------- document 02, note 4: idle current counts

# Job times 90 and 10, so that 10 and 100 are left of the energies: the slow rate is taken, for 910
# and ten idle ticks of 10. The fast one would be 200 and ninety.
THOUSAND_TEN = one_task(100, 100, 90, (910, 200), (1, 9), idle=10)

# Worked with a calculator: a list, and what the planner says of it where enough is lent.
IDLE_WORKED = [
    (THOUSAND_TEN, ('planned', 1, 90, 100, 1_010, [1])),
    # Without idle energy the fast rate costs less: 200 / 8 is 25, and 100 x 25 is at least 2,000.
    (one_task(100, 100, 90, (910, 200), (1, 9)), ('planned', 8, 10, 100, 200, [2])),
    # Waiting costs 990 for 90 ticks, which the slow rate's energy does not reach.
    (one_task(100, 100, 90, (910, 200), (1, 9), idle=11), refused(10, 9)),
    # Just as much as waiting: nothing is left. Of 0 and 100 the k of every unit is 0, down to 1.
    (one_task(100, 100, 90, (900, 200), (1, 9), idle=10), ('planned', 1, 90, 100, 1_000, [1])),
    (one_task(100, 100, 90, (899, 200), (1, 9), idle=10), refused(10, 9)),
    # Only the fastest rate has nothing left, and the first unit is 1 for it.
    (one_task(100, 100, 90, (910, 100), (1, 9), idle=10), ('planned', 1, 10, 100, 1_000, [2])),
    (one_task(100, 100, 90, (910, 99), (1, 9), idle=10), refused(10, 10)),
    # Neither has, and the load decides; then 0 against 1, the load being less for the 1.
    (one_task(100, 100, 90, (900, 100), (1, 9), idle=10), ('planned', 1, 10, 100, 1_000, [2])),
    (one_task(100, 100, 90, (900, 101), (1, 9), idle=10), ('planned', 1, 90, 100, 1_000, [1])),
    # 36, 18 and 12 microjoules for 12, 6 and 4 ticks.
    (one_task(1, 12, 12, (36, 18, 12), (1, 2, 3), idle=3), ('planned', 1, 4, 12, 36, [3])),
    # Document 01's 33 at every rate, with 10 ticks and 5: 33 are left, and the unit is 32.
    (one_task(1000, 10, 10, (133, 83), idle=10), ('planned', 32, 5, 10, 133, [2])),
    # A load of L: no tick is idle. 420 and 215 less 7 x 60 and 7 x 30.
    (one_task(100, 30, 60, (420, 215), idle=7), ('planned', 1, 30, 30, 215, [2])),
    (one_task(100, 30, 61, (427, 217), idle=7), refused(7, 0)),
    (one_task(100, 30, 61, (427, 216), idle=7), refused(10, 10)),
    # S with H of 1: waiting 6 ticks costs more than the 4 of its first energy.
    ([100, 1] + S[2:], refused(10, 10)),
    # S with H of 2 and with all energies more by that of their ticks, 6, 3, 2 and 10, 5, 3: the
    # plans are those of S, and the energies those of S and 2 x 30.
    ([100, 2, 3, 2, 4, 8, 2, 10, 12, 0, 16, 15, 24, 15, 20, 0, 27, 25, 36],
     ('planned', 1, 29, 30, 101, [2, 1])),
    ([1000, 2, 3, 2, 4, 8, 2, 10, 12, 0, 16, 15, 24, 15, 20, 0, 27, 25, 36],
     ('planned', 8, 28, 30, 102, [1, 2])),
    # Two tasks of 4 and 2 ticks, with waiting at 20 and 10. Tasks come before rates.
    ([100, 5, 2, 1, 2, 2, 20, 4, 0, 20, 9, 20, 4, 0, 19, 10], refused(10, 10)),
    ([100, 5, 2, 1, 2, 2, 20, 4, 0, 20, 10, 20, 4, 0, 20, 9], refused(10, 15)),
    ([100, 5, 2, 1, 2, 2, 20, 4, 0, 20, 10, 20, 4, 0, 19, 9], refused(10, 14)),
    # No plan has the first rate: its 4 ticks are more than the period.
    (one_task(100, 3, 4, (19, 10), idle=5), refused(10, 9)),
    (one_task(100, 3, 4, (20, 10), idle=5), ('planned', 1, 2, 3, 15, [2])),
    # 3 before 10, and 10 before 4.
    (one_task(100, 20, 4, (1, 1), (4, 4), idle=5), refused(3, 4)),
    ([100, 5, 2, 1, 2, 2, 9_999_999, 4, 0, 20, 10, 10_000_000, 4, 0, 20, 9], refused(10, 15)),
    ([100, 5, 2, 1, 2, 2, 9_999_999, 4, 0, 20, 10, 10_000_000, 4, 0, 20, 10], refused(4, 11)),
    # H at its most, an energy at its most: 1,000 ticks. Nothing is left, and all costs 1,000 x L.
    (one_task(100, 10_000_000, 1_000, (1_000_000, 1_000_000), (1, 1_000), idle=1_000),
     ('planned', 1, 1_000, 10_000_000, 10_000_000_000, [1])),
    (one_task(100, 10_000_000, 1_001, (1_000_000, 1_000_000), (1, 1_000), idle=1_000),
     refused(10, 9)),
    (one_task(100, 10, 10, idle=1_001), refused(2, 1)),
    (one_task(100, 10, 10, (10, 5), idle=1), ('planned', 1, 5, 10, 10, [2])),
    (one_task(100, 10, 10, (10, 4), idle=1), refused(10, 10)),
]
IDLE_TEXT = (b'(slack 100)\n'
             b'(idle 10)\n'
             b'(rates 1 9)\n'
             b'(task (period 100) (cycles 90) (energy 910 200))\n')


def idle_edges():
    for words, want in IDLE_WORKED:
        both_ways('idle %r' % (words,), words, want)
        if want[0] == 'planned' or want == refused(7, 0):
            same('idle %r, judged' % (words,), r.objection(words, want, 1_000), None)
        else:
            same('idle %r, nothing lent' % (words,), r.plan(words, 0, 0), want)
            same('idle %r, C' % (words,), r.c_plan(words, 0, 0, 0),
                 (want[1] * 2 ** 32 + want[2], None))
        if want[:2] == ('refused', 10):
            # To the checks of a set, the walk, the writer and the reader it is nothing.
            N, plain = len(r.decode(words).tasks), [words[0], 0] + words[2:]
            same('idle %r, checked' % (words,), r.check_set(words), r.check_set(plain))
            if r.check_set(words)[0] == 'good' and r.check_set(words)[3] <= 1_000:
                same('idle %r, walked' % (words,), r.walk(words, [2] * N), r.walk(plain, [2] * N))
            text = r.write_text(words, PLENTY)[1]
            same('idle %r, read back' % (words,), r.read_text(text, PLENTY), ('read', words))
            same('idle %r, printed' % (words,), r.respond(text), b'(refused 10 %d)\n' % want[2])

    same('1,010, read', r.read_text(IDLE_TEXT, 11), ('read', THOUSAND_TEN))
    same('1,010, a word short', r.read_text(IDLE_TEXT, 10), refused(6, 11))
    same('1,010, written', r.write_text(THOUSAND_TEN, len(IDLE_TEXT)), ('written', IDLE_TEXT))
    same('1,010, a byte short', r.write_text(THOUSAND_TEN, len(IDLE_TEXT) - 1),
         refused(6, len(IDLE_TEXT)))
    same('1,010, printed', r.respond(IDLE_TEXT),
         b'(plan (unit 1) (load 90 100) (energy 1010))\n(rate 1 1)\n'
         b'(walk (busy 90) (idle 10) (preempted 0))\n')
    # '0 if the line is absent', and the line that says so; only the first is written.
    plain = THOUSAND_TEN[:1] + [0] + THOUSAND_TEN[2:]
    absent, zero = IDLE_TEXT.replace(b'(idle 10)\n', b''), IDLE_TEXT.replace(b'10)\n(r', b'0)\n(r')
    same('no idle line', r.read_text(absent, 11), ('read', plain))
    same('an idle line of 0', r.read_text(zero, 11), ('read', plain))
    same('an idle energy of 0, written', r.write_text(plain, PLENTY), ('written', absent))
    for H in (1, 999, 1_000):
        words = one_task(100, 2_000, 90, (90_000, 90_000), (1, 9), idle=H)
        text = r.write_text(words, PLENTY)[1]
        same('an idle energy of %d, written' % H, text.split(b'\n')[1], b'(idle %d)' % H)
        same('an idle energy of %d, read back' % H, r.read_text(text, 11), ('read', words))
    # H over 1,000 is for the planner to refuse.
    for H in (1_001, 4_294_967_295):
        text = IDLE_TEXT.replace(b'idle 10', b'idle %d' % H)
        words = [100, H] + THOUSAND_TEN[2:]
        same('an idle line of %d' % H, r.read_text(text, 11), ('read', words))
        same('an idle line of %d, printed' % H, r.respond(text), b'(refused 2 1)\n')
        same('an idle energy of %d, written' % H, r.write_text(words, PLENTY), refused(2, 1))
        same('an idle energy of %d, walked' % H, r.walk(words, [1]), refused(2, 1))
    # 2 before 10, 10 before 4, 5, 6 and 7.
    low = [100, 5, 2, 1, 2, 2, 9_999_999, 4, 0, 20, 10, 10_000_000, 4_000_000_000, 0, 20, 9]
    both_ways('10 before 4, 5, 6 and 7', low, refused(10, 14), 0, 0)
    both_ways('3 before 10', low[:4] + [1] + low[5:], refused(3, 4), 0, 0)
    both_ways('2 before 10', low[:15] + [0], refused(2, 15), 0, 0)
    both_ways('2 before 10, at the end', low + [1], refused(2, 16), 0, 0)


# A planner in parts, and readings of the note that are wrong in one of them. 'taken' is what is
# left out of a job's energy, 'rounded' a task's energy less all that is taken of it, by the unit;
# 'report' has the plan's task energies, these less what was taken, H, L and the load. 'below' and
# 'asked' say which energies are too low, 'which' what is returned where these pairs of task and
# rate, from 0, are, and 'order' which refusal comes first.
IDLE_PARTS = {
    'taken': lambda H, time: H * time,
    'rounded': lambda energy, taken, d: -(-(energy - taken) // d),
    'report': lambda given, left, H, L, load: given + H * (L - load),
    'below': lambda energy, H, time: energy < H * time,
    'asked': lambda rate, M, time, period: True,
    'which': lambda low, M: 4 + M + low[0][0] * (3 + M) + 3 + low[0][1],
    'order': (2, 3, 10, 4, 7),
}
IDLE_MISREAD = {
    'nothing left out': ('taken', lambda H, time: 0),
    'H once for a job': ('taken', lambda H, time: H),
    'H for each tick but one': ('taken', lambda H, time: H * (time - 1)),
    'H put in and not left out': ('taken', lambda H, time: -H * time),
    'rounded before it is left out': (
        'rounded', lambda energy, taken, d: -(-energy // d) - -(-taken // d)),
    'rounded down': ('rounded', lambda energy, taken, d: (energy - taken) // d),
    'what is left is at least 1': ('rounded', lambda energy, taken, d: -(-max(
        energy - taken, 1) // d)),
    'the jobs alone': ('report', lambda given, left, H, L, load: given),
    'what is left': ('report', lambda given, left, H, L, load: left),
    'what is left, and the idle ticks': (
        'report', lambda given, left, H, L, load: left + H * (L - load)),
    'idle for every tick': ('report', lambda given, left, H, L, load: given + H * L),
    'idle for busy ticks': ('report', lambda given, left, H, L, load: given + H * load),
    'idle for a tick more': ('report', lambda given, left, H, L, load: given + H * (L - load + 1)),
    'one idle tick': ('report', lambda given, left, H, L, load: given + H),
    'below at equality': ('below', lambda energy, H, time: energy <= H * time),
    'below by more than 1': ('below', lambda energy, H, time: energy + 1 < H * time),
    'below H': ('below', lambda energy, H, time: energy < H),
    'below H for each tick but one': ('below', lambda energy, H, time: energy < H * (time - 1)),
    'below by another tick': ('below', lambda energy, H, time: energy < H * (time + 1)),
    'never below': ('below', lambda energy, H, time: False),
    'the lowest rate alone': ('asked', lambda rate, M, time, period: rate == 0),
    'the highest rate alone': ('asked', lambda rate, M, time, period: rate == M - 1),
    'rates that fit the period': ('asked', lambda rate, M, time, period: time <= period),
    'the last such energy': ('which', lambda low, M: 4 + M + low[-1][0] * (3 + M) + 3 + low[-1][1]),
    'rates before tasks': ('which', lambda low, M: min(
        (rate, 4 + M + task * (3 + M) + 3 + rate) for task, rate in low)[1]),
    'a place too far': ('which', lambda low, M: 4 + M + low[0][0] * (3 + M) + 4 + low[0][1]),
    'places before note 4': ('which', lambda low, M: 3 + M + low[0][0] * (3 + M) + 3 + low[0][1]),
    'the place of the period': ('which', lambda low, M: 4 + M + low[0][0] * (3 + M)),
    'the number of the task': ('which', lambda low, M: low[0][0] + 1),
    'how many such energies': ('which', lambda low, M: len(low)),
    '10 before 3': ('order', (2, 10, 3, 4, 7)),
    '10 after 4': ('order', (2, 3, 4, 10, 7)),
    '10 after 7': ('order', (2, 3, 4, 7, 10)),
}


def idle_in_parts(words, **other):
    """What the planner says where enough is lent: of the parts, or of another in place of one."""
    part = {**IDLE_PARTS, **other}
    if r.check_2(words):
        return r.check_2(words)
    G, H, M = words[:3]
    rates, N = words[3:3 + M], words[3 + M]
    tasks = [words[at:at + 3 + M] for at in range(4 + M, len(words), 3 + M)]
    times = [[-(-cycles // rate) for rate in rates] for _, cycles, *_ in tasks]
    low = [(i, j) for i in range(N) for j in range(M)
           if part['below'](tasks[i][3 + j], H, times[i][j])
           and part['asked'](j, M, times[i][j], tasks[i][0])]
    fast = r.check_4(words) is None and sum(
        r.hyper_period(r.decode(words).tasks) // tasks[i][0] * times[i][-1] for i in range(N))
    for check in part['order']:
        if check == 3 and r.check_3(words):
            return r.check_3(words)
        if check == 4 and r.check_4(words):
            return r.check_4(words)
        if check == 7 and fast > r.hyper_period(r.decode(words).tasks):
            return refused(7, 0)
        if check == 10 and low:
            return refused(10, part['which'](low, M))

    L = r.hyper_period(r.decode(words).tasks)
    jobs = [L // task[0] for task in tasks]

    def sums(plan):
        load = sum(jobs[i] * times[i][j] for i, j in enumerate(plan))
        given = sum(jobs[i] * tasks[i][3 + j] for i, j in enumerate(plan))
        taken = sum(jobs[i] * part['taken'](H, times[i][j]) for i, j in enumerate(plan))
        return load, given, taken

    def k(plan, d):
        return sum(part['rounded'](jobs[i] * tasks[i][3 + j],
                                   jobs[i] * part['taken'](H, times[i][j]), d)
                   for i, j in enumerate(plan))

    fitting = [plan for plan in product(range(M), repeat=N) if sums(plan)[0] <= L]
    d = 2 ** 60                 # from far above: it is not used before the first unit is passed
    while True:
        best = min(fitting, key=lambda plan: (k(plan, d), sums(plan)[0], plan[::-1]))
        if d == 1 or G * k(best, d) >= 2_000 * N:
            break
        d //= 2
    load, given, taken = sums(best)
    return ('planned', d, load, L, part['report'](given, given - taken, H, L, load),
            [j + 1 for j in best])


def idle_errors():
    """Each wrong reading departs from one of the worked figures."""
    for words, want in IDLE_WORKED:
        same('idle in parts, %r' % (words,), idle_in_parts(words), want)
    for name, (part, wrong) in IDLE_MISREAD.items():
        seen = any(idle_in_parts(words, **{part: wrong}) != want for words, want in IDLE_WORKED)
        same('idle misread: ' + name, seen, True)


def idle_offsets():
    """Where an idle line stands, and where texts with one depart; and which bytes go on."""
    slack, idle, rates = b'(slack 1)\n', b'(idle 7)\n', b'(rates 1 2)\n'
    given = b'(task (period 1) (cycles 1) (energy 1 1))\n'
    bare = b'(task (period 1) (cycles 1))\n'

    at, goes_on = departures('idle text')

    for label, line, task in (('rates', rates, given), ('xscale', b'(chip xscale)\n', bare),
                              ('ppc405lp', b'(chip ppc405lp)\n', bare)):
        head, text = slack + idle + line, slack + idle + line + task
        for length in range(len(text)):
            at('%s, cut after %d' % (label, length), text[:length], length)
        same(label + ', read', r.read_text(text, 1000)[1][:2], [1, 7])
        at(label + ', twice', slack + idle + idle + line + task, len(slack + idle) + 1)
        at(label + ', before the slack', idle + slack + line + task, 1)
        at(label + ', no slack', idle + line + task, 1)
        at(label + ', behind', slack + line + idle + task, len(slack + line) + 1)
        at(label + ', before and behind', head + idle + task, len(head) + 1)
        at(label + ', behind a task', slack + line + task + idle, len(slack + line + task) + 1)
        at(label + ', at the end', text + idle, len(text) + 1)
        at(label + ', in the slack line', slack[:-1] + b' ' + idle + line + task, len(slack) - 1)
        at(label + ', an empty line before', slack + b'\n' + idle + line + task, len(slack))
        at(label + ', an empty line behind', slack + idle + b'\n' + line + task,
           len(slack + idle))
        same(label + ', 32 tasks', r.read_text(head + task * 32, 1000)[0], 'read')
        at(label + ', a 33rd task', head + task * 33, len(head + task * 32))
    begin = len(slack)
    for wrong, departs in (
            (b'(idle)', 5), (b'(idle )', 6), (b'(idle 01)', 7), (b'(idle 4294967296)', 15),
            (b'(idle 42949672950)', 16), (b'(idle -1)', 6), (b'(idle 1 2)', 7), (b'(idle 1))', 8),
            (b'(idles 1)', 5), (b'(Idle 1)', 1), (b'(id 1)', 3), (b'(i', 2), (b'(irates 1 2)', 2),
            (b'(idle  1)', 6), (b'(idle\t1)', 5), (b'(idle x)', 6), (b'(idle (1))', 6),
            (b'idle 1', 0), (b'(slack 1)', 1), (b'(idle 1', 7), (b'(idle 1)\r', 8)):
        at('%r' % wrong, slack + wrong + (b'\n' if wrong[-1:] == b')' else b''), begin + departs)
    for H in (0, 1, 9, 10, 1_000, 1_001, 4_294_967_295):
        text = slack + b'(idle %d)\n' % H + rates + given
        same('idle text, %d' % H, r.read_text(text, 1000)[1][:3], [1, H, 2])
    goes_on('the slack line', slack, b'(')
    goes_on('the second bracket', slack + b'(', b'cir')
    goes_on('the idle line', slack + idle, b'(')
    goes_on('the third bracket', slack + idle + b'(', b'cr')
    goes_on('the word idle', slack + b'(idle', b' ')
    goes_on('its space', slack + b'(idle ', b'0123456789')
    goes_on('a digit of it', slack + b'(idle 7', b')0123456789')
    goes_on('a 0 of it', slack + b'(idle 0', b')')


# ------------------------------------------------- the margin in microjoules

def at_margin(slack, unit, N, idle=0):
    """A set of N tasks alike that is given that unit, and whose reported energy is all of
    N x (unit - 1) above the least: with a unit above 1, and with energies in their range.

    A job takes 2 ticks or 1, and all together take L or half of it. Without the idle energy
    the fast rate has k x unit left and the slow one (k - 1) x unit + 1, both of which are k
    rounded up, so that the lesser load decides. k is the least with slack x k at least 2,000;
    at twice the unit there is at most half of it, rounded up, which is less.
    """
    k = -(-2_000 // slack)
    return [slack, idle, 2, 1, 2, N] + [
        2 * N, 2, 0, (k - 1) * unit + 1 + 2 * idle, k * unit + idle] * N


# Lists, what the planner says of them, and the least energy of a plan that keeps its deadlines.
MARGIN_WORKED = [
    # Above 32 both energies are 2 x 32 rounded up: the lesser load costs 31 more, which is all of
    # the margin. So it does at the least unit above 1, by 1.
    (one_task(1_000, 10, 10, (33, 64)), ('planned', 32, 5, 10, 64, [2]), 33),
    (one_task(1_000, 10, 10, (3, 4)), ('planned', 2, 5, 10, 4, [2]), 3),
    # With a slack of 1 less 2 x 999 is below 2,000, and at unit 1 it is the least.
    (one_task(999, 10, 10, (3, 4)), ('planned', 1, 10, 10, 3, [1]), 3),
    # Document 01's 33 at every rate: the least, though the unit allows 31 more.
    (one_task(1_000, 10, 10, (33, 33)), ('planned', 32, 5, 10, 33, [2]), 33),
    # Two tasks, and each costs all that it may; at a slack of 1 less neither does.
    ([1_000, 0, 2, 1, 2, 2] + [4, 2, 0, 3, 4] * 2, ('planned', 2, 2, 4, 8, [2, 2]), 6),
    ([999, 0, 2, 1, 2, 2] + [4, 2, 0, 3, 4] * 2, ('planned', 1, 4, 4, 6, [1, 1]), 6),
    # The same with three jobs of the first task: 9 or 12, and 5 or 8, are 3 x 4 and 2 x 4.
    ([1_000, 0, 2, 1, 2, 2, 4, 2, 0, 3, 4, 12, 6, 0, 5, 8], ('planned', 4, 6, 12, 20, [2, 2]), 14),
    # Three tasks of two rates.
    ([1_000, 0, 2, 1, 2, 3] + [6, 2, 0, 3, 4] * 3, ('planned', 2, 3, 6, 12, [2, 2, 2]), 9),
    # With H of 1 the energies are 5 and 5, of which 3 and 4 are left: the fast rate's idle tick
    # makes its plan the dearer one. And 33 and 64 are left of 133 and 114 with H of 10.
    (one_task(1_000, 2, 2, (5, 5), idle=1), ('planned', 2, 1, 2, 6, [2]), 5),
    (one_task(999, 2, 2, (5, 5), idle=1), ('planned', 1, 2, 2, 5, [1]), 5),
    (one_task(1_000, 10, 10, (133, 114), idle=10), ('planned', 32, 5, 10, 164, [2]), 133),
    ([1_000, 1, 2, 1, 2, 2] + [4, 2, 0, 5, 5] * 2, ('planned', 2, 2, 4, 12, [2, 2]), 10),
    # Document 01's set: the plan 1 1 would cost 26, but misses. And note 4's, at unit 1.
    (S, ('planned', 1, 29, 30, 41, [2, 1]), 41),
    (S_1000, ('planned', 8, 28, 30, 42, [1, 2]), 41),
    (THOUSAND_TEN, ('planned', 1, 90, 100, 1_010, [1]), 1_010),
]
AT_MARGIN = (0, 1, 4, 6, 7, 8, 10, 11)  # of these the ones that reach it, at a unit above 1

# What the energy may be above the least, by N, the unit and M: readings that are too narrow.
MARGIN_MISREAD = {
    'N x (unit - 2)': lambda N, unit, M: N * max(unit - 2, 0),
    '(N - 1) x (unit - 1)': lambda N, unit, M: (N - 1) * (unit - 1),
    'unit - 1': lambda N, unit, M: unit - 1,
    'one less than N x (unit - 1)': lambda N, unit, M: max(N * (unit - 1) - 1, 0),
    'N x unit / 2': lambda N, unit, M: N * unit // 2,
    'M x (unit - 1)': lambda N, unit, M: M * (unit - 1),
    'the least at unit 2': lambda N, unit, M: 0 if unit <= 2 else N * (unit - 1),
    'the least at every unit': lambda N, unit, M: 0,
}


def misread(words, answer, above):
    """Which of the readings an answer contradicts."""
    M, N = words[2], words[3 + words[2]]
    return {name for name, most in MARGIN_MISREAD.items() if above > most(N, answer[1], M)}


def margin_edges():
    found = set()
    for number, (words, want, least) in enumerate(MARGIN_WORKED):
        name, N = 'margin %r' % (words,), words[3 + words[2]]
        both_ways(name, words, want)
        for ticks in (0, PLENTY):
            same(name + ', least', r.least_energy(words, ticks), least)
            same(name + ', judged', r.objection(words, want, ticks), None)
        same(name + ', N x (unit - 1)', r.margin(words, want[1]), N * want[1] - N)
        same(name + ', within it', want[4] - least <= N * want[1] - N, True)
        same(name + ', all of it', want[1] > 1 and want[4] - least == N * want[1] - N,
             number in AT_MARGIN)
        found |= misread(words, want, want[4] - least)
    same('every narrower margin is contradicted', found, set(MARGIN_MISREAD))
    same('no plan, no least energy', r.least_energy(one_task(100, 30, 61), 0), None)
    same('no plan, walked', r.least_energy(one_task(100, 30, 61), PLENTY), None)

    # Whose energy it is: that of plans that keep their deadlines, and with the idle ticks.
    given = [r.total(r.energy_table(r.decode(S), 30), rates) for rates in product((1, 2, 3), repeat=2)]
    same('a plan that misses is below the least', min(given), 26)
    jobs = [r.total(r.energy_table(r.decode(THOUSAND_TEN), 100), [rate]) for rate in (1, 2)]
    same('the jobs alone are below the least', jobs, [910, 200])

    # Sets made to reach it: every unit, slack, number of tasks and idle energy.
    for unit in (2, 4, 8, 64, 1_024, 65_536):
        for slack in (1, 2, 7, 100, 333, 500, 501, 666, 667, 999, 1_000):
            for N, idle in ((1, 0), (1, 1_000), (2, 7), (3, 0), (5, 1)):
                words = at_margin(slack, unit, N, idle)
                if max(words) > 1_000_000:
                    continue
                name = 'at the margin %r' % (words,)
                slow, fast = words[9] - 2 * idle, words[10] - idle
                same(name, r.plan(words, N, PLENTY, 'table'),
                     ('planned', unit, N, 2 * N, N * fast + 2 * N * idle, [2] * N))
                same(name + ', least', r.least_energy(words, 2_000), N * slow + 2 * N * idle)
                same(name + ', above it', N * (fast - slow), N * (unit - 1))


def margin_errors():
    """Planners that select otherwise, or report another energy or unit, break the promise on one
    of the worked lists."""
    lists = [words for words, want in IDLE_WORKED if want[0] == 'planned']
    lists += [words for words, _, _ in MARGIN_WORKED]

    def breaks(planner):
        answers = [(words, planner(words)) for words in lists]
        return any(answer[4] - r.least_energy(words, 2_000) > r.margin(words, answer[1])
                   for words, answer in answers)

    def fastest(words):
        M, N = words[2], words[3 + words[2]]
        return ('planned', 1, 0, 0, r.energy_of(words, [M] * N), [M] * N)

    def half_the_unit(words):
        _, unit, *others = r.plan(words, 32, PLENTY)
        return ('planned', max(unit // 2, 1), *others)

    same('margin: as it is', breaks(lambda words: r.plan(words, 32, PLENTY)), False)
    same('margin: in parts', breaks(idle_in_parts), False)
    same('margin: every task at the fastest rate', breaks(fastest), True)
    same('margin: half the unit', breaks(half_the_unit), True)
    for name in ('nothing left out', 'H once for a job', 'H put in and not left out',
                 'idle for every tick', 'idle for a tick more'):
        part, wrong = IDLE_MISREAD[name]
        same('margin: ' + name, breaks(lambda words: idle_in_parts(words, **{part: wrong})), True)


def margin_at_random():
    """Random sets, those that are about at the margin, and generated ones."""
    g = random.Random(5)
    found, counts = set(), {}

    def judge(name, words):
        answer = r.plan(words, 32, PLENTY, 'table')
        least = r.least_energy(words, 2_000)
        same(name + ', 7 where there is no least', answer == refused(7, 0), least is None)
        if least is None:
            return
        above, N = answer[4] - least, words[3 + words[2]]
        same(name + ', within the margin', 0 <= above <= N * (answer[1] - 1), True)
        same(name + ', by the definition', above <= r.margin(words, answer[1]), True)
        if answer[1] == 1:
            same(name + ', least at unit 1', above, 0)
        found.update(misread(words, answer, above))
        kinds = ['unit 1' if answer[1] == 1 else 'unit 2' if answer[1] == 2 else 'unit above 2']
        kinds += ['above the least'] * (above > 0)
        if answer[1] > 1 and above == N * (answer[1] - 1):
            kinds += ['all of it', 'all of it, of one task' if N == 1 else 'all of it, of several']
        for kind in kinds:
            counts[kind, words[1] > 0] = counts.get((kind, words[1] > 0), 0) + 1

    for number in range(800):
        words = random_set(g, *g.choice([(1, 8), (2, 5), (3, 4), (4, 4), (4, 3)]))
        if g.randint(1, 3) > 1:
            words[0] = g.choice([g.randint(1, 1_000), g.randint(500, 1_000), 1_000])
        judge('margin, random set %d %r' % (number, words), words)
    for number in range(500):
        slack = g.choice([1_000, g.randint(500, 1_000), g.randint(1, 1_000)])
        words = at_margin(slack, 2 ** g.randint(1, 8), g.randint(1, 4), g.choice([0, 0, 1, 500]))
        for place in range(9, len(words), 5):
            if g.randint(1, 2) == 1:
                words[place] += g.choice([-1, 0, 0, 1])
                words[place + 1] += g.choice([-1, 0, 0, 1])
        words[0] += g.choice([0, 0, 0, -1, 1]) if 1 < slack < 1_000 else 0
        judge('margin, about at it %d %r' % (number, words), words)
    for number in range(60):
        words = r.generate(g.randrange(2 ** 32), 1 + number % 3, PLENTY)[1]
        words[0] = g.choice([100, 100, 1_000, g.randint(1, 1_000)])
        judge('margin, generated %d %r' % (number, words), words)
    same('every narrower margin is contradicted at random', found, set(MARGIN_MISREAD))
    for kind in ('unit 1', 'unit 2', 'unit above 2', 'above the least', 'all of it',
                 'all of it, of one task', 'all of it, of several'):
        for idle in (False, True):
            same('enough of %s, %s' % (kind, idle), counts.get((kind, idle), 0) >= 10, True)


# --------------------------------------- document 02, note 6: first releases

def released(*tasks, slack=100):
    """The set of tasks given by period, job time at the first of two rates, and A."""
    words = [slack, 0, 2, 1, 2, len(tasks)]
    for period, time, first in tasks:
        words += [period, time, first, 1, 1]
    return words


# Worked by hand: tasks of period, job time and A, and what the walk of them says.
FIRST_WORKED = [
    # L is 2, and the load 3. Tick 0: task 1. 1 and 2: task 2, whose deadline 3 is before 4. 3: task
    # 1. Of task 2's second job nothing is done yet, but its deadline is 5.
    (((2, 1, 0), (2, 2, 1)), ('kept', 4, 0, 0)),
    # L is 4. Tick 0: idle. 1: task 1. 2: task 2. 3: task 1 breaks it, both deadlines being 5. 4:
    # task 2. 5: task 1; the job before it was finished, though its task has another now. 6: task 2.
    # 7: task 1 breaks it.
    (((2, 1, 1), (4, 2, 1)), ('kept', 7, 1, 2)),
    # With every A 0 it ends at L.
    (((2, 1, 0), (4, 2, 0)), ('kept', 4, 0, 1)),
    (((5, 3, 0),), ('kept', 3, 2, 0)),
    # Jobs at 2 and 7; the second has until 12, and the walk ends at 10.
    (((5, 3, 2),), ('kept', 6, 4, 0)),
    (((5, 4, 2),), ('kept', 7, 3, 0)),
    (((5, 5, 2),), ('kept', 8, 2, 0)),
    (((5, 6, 2),), ('missed', 7, 1)),
    # Jobs at 3 and 8, due at 8 and 13, and none at 5.
    (((5, 4, 3),), ('kept', 6, 4, 0)),
    # A is one less than the period: jobs at 4 and 9, and one tick for the second.
    (((5, 5, 4),), ('kept', 6, 4, 0)),
    (((1, 1, 0),), ('kept', 1, 0, 0)),
    (((2, 1, 1),), ('kept', 2, 2, 0)),
    (((2, 3, 1),), ('missed', 3, 1)),
    # One A above 0 takes all tasks to 2 x L: task 1 has jobs at 0, 2, 4 and 6, task 2 at 3 and 7.
    (((2, 1, 0), (4, 1, 3)), ('kept', 6, 2, 0)),
    # Before L, which is 10; then after it; and after it where L is 8.
    (((2, 3, 1), (10, 1, 0)), ('missed', 3, 1)),
    (((10, 1, 0), (5, 6, 4)), ('missed', 9, 2)),
    (((10, 1, 0), (10, 11, 4)), ('missed', 14, 2)),
    (((4, 4, 0), (8, 2, 5)), ('missed', 13, 2)),
    # At 2 x L itself, which is 8. Ticks 0 to 3: task 1. 4 and 5: task 2, whose deadline is 7. 6 and
    # 7: task 1, which has two ticks left at 8.
    (((4, 4, 0), (4, 2, 3)), ('missed', 8, 1)),
    # The same with two ticks less, in time.
    (((4, 2, 0), (4, 2, 3)), ('kept', 7, 1, 0)),
    # Two are late at 8, which is L here, and the lower number is named; then one is.
    (((4, 4, 0), (4, 2, 3), (8, 1, 0)), ('missed', 8, 1)),
    (((8, 1, 0), (4, 4, 0), (4, 2, 3)), ('missed', 8, 2)),
    # Released later, and yet due earlier: task 2 breaks task 1 at 1, 3, 7 and 9.
    (((6, 3, 0), (2, 1, 1)), ('kept', 12, 0, 4)),
]

# A walk in parts, and readings of the note that are wrong in one of them. 'taken' judges A by its
# task's period and by all periods, 'end' is the last tick, 'due' says whether a job of the task is
# released, 'deadline' until when it may run, 'asked' which job is looked at for a preemption, the
# one before the tick's releases or the one behind them, and 'judged' which deadlines count.
FIRST_PARTS = {
    'taken': lambda A, p, periods: A < p,
    'end': lambda L, firsts: 2 * L if any(firsts) else L,
    'due': lambda tick, A, p: tick >= A and (tick - A) % p == 0,
    'deadline': lambda tick, A, p: tick + p,
    'asked': 'before',
    'judged': lambda deadline, L, end: deadline <= end,
}
FIRST_MISREAD = {
    'A of the period taken': ('taken', lambda A, p, periods: A <= p),
    'every A taken': ('taken', lambda A, p, periods: True),
    'A against the longest period': ('taken', lambda A, p, periods: A < max(periods)),
    'A against the first period': ('taken', lambda A, p, periods: A < periods[0]),
    'A against the hyper-period': ('taken', lambda A, p, periods: A < r.hyper_period(
        [r.Task(period, 1, 0, []) for period in periods])),
    'A of 0 refused': ('taken', lambda A, p, periods: 0 < A < p),
    'one less than the period refused': ('taken', lambda A, p, periods: A < max(p - 1, 1)),
    'to L though some A is above 0': ('end', lambda L, firsts: L),
    'to 2 x L though all are 0': ('end', lambda L, firsts: 2 * L),
    'to 2 x L only if all are above 0': ('end', lambda L, firsts: 2 * L if all(firsts) else L),
    'to 2 x L only by the first A': ('end', lambda L, firsts: 2 * L if firsts[0] else L),
    'to L and the largest A': ('end', lambda L, firsts: L + max(firsts)),
    'to 2 x L and the largest A': (
        'end', lambda L, firsts: 2 * L + max(firsts) if any(firsts) else L),
    'to 3 x L': ('end', lambda L, firsts: 3 * L if any(firsts) else L),
    'one tick short of 2 x L': ('end', lambda L, firsts: 2 * L - 1 if any(firsts) else L),
    'A does not count': ('due', lambda tick, A, p: tick % p == 0),
    'at A, then at multiples of the period': ('due', lambda tick, A, p: tick == A or (
        tick > A and tick % p == 0)),
    'at 0 and then at A': ('due', lambda tick, A, p: tick == 0 or (tick >= A and (tick - A) % p == 0)),
    'one period late': ('due', lambda tick, A, p: tick >= A + p and (tick - A) % p == 0),
    'deadlines from tick 0': ('deadline', lambda tick, A, p: (tick // p + 1) * p),
    'deadlines at A more': ('deadline', lambda tick, A, p: tick + p + A),
    'unfinished asked after the releases': ('asked', 'after'),
    'unfinished at 2 x L is a miss': ('judged', lambda deadline, L, end: True),
    'deadlines at 2 x L not judged': ('judged', lambda deadline, L, end: deadline < end or end == L),
    'deadlines judged up to L': ('judged', lambda deadline, L, end: deadline <= L),
}


def first_in_parts(words, plan, **other):
    """What the walk says of a list that is good but for some A: of the parts, or of another in place
    of one. It goes by the deadlines, and by numbers for jobs."""
    part = {**FIRST_PARTS, **other}
    M = words[2]
    places = range(4 + M, len(words), 3 + M)
    periods, firsts = [words[at] for at in places], [words[at + 2] for at in places]
    for at, p, A in zip(places, periods, firsts):
        if not part['taken'](A, p, periods):
            return refused(2, at + 2)
    times = [-(-words[at + 1] // words[2 + rate]) for at, rate in zip(places, plan)]
    L = r.hyper_period([r.Task(p, 1, 0, []) for p in periods])
    end, N = part['end'](L, firsts), len(periods)
    left, deadline, ran = [0] * N, [None] * N, None
    busy = idle = preempted = 0
    for tick in range(end + 1):
        for i in range(N):
            # At the end all that is unfinished may be looked at.
            late = tick == deadline[i] or tick == end and deadline[i] is not None
            if late and left[i] > 0 and part['judged'](deadline[i], L, end):
                return ('missed', tick, i + 1)
        if tick == end:
            return ('kept', busy, idle, preempted)
        broken = ran is not None and left[ran] > 0
        was = ran is not None and deadline[ran]
        for i in range(N):
            if part['due'](tick, firsts[i], periods[i]):
                left[i] = times[i]
                deadline[i] = part['deadline'](tick, firsts[i], periods[i])
        if part['asked'] == 'after':
            broken = ran is not None and left[ran] > 0
        now = min((i for i in range(N) if left[i] > 0), key=lambda i: (deadline[i], i), default=None)
        if now is None:
            idle += 1
        else:
            preempted += broken and (now != ran or deadline[now] != was)
            left[now] -= 1
            busy += 1
        ran = now


FIRST_TEXT = (b'(slack 100)\n'
              b'(rates 2 4 8)\n'
              b'(task (period 10) (cycles 12) (energy 4 9 20) (from 3))\n'
              b'(task (period 15) (cycles 20) (energy 7 15 30))\n')
FIRST_SET = S[:9] + [3] + S[10:]
FIRST_PRINTED = (b'(plan (unit 1) (load 29 30) (energy 41))\n'
                 b'(rate 1 2)\n'
                 b'(rate 2 1)\n'
                 b'(walk (busy 58) (idle 2) (preempted 2))\n')
# The writer's task lines in parts: which A are shown, and where.
FIRST_TEXT_PARTS = {
    'shown': lambda A: A > 0,
    'form': '(task (period {p}) (cycles {c}) (energy {e}){A})\n',
}
FIRST_TEXT_MISREAD = {
    '(from 0) written': ('shown', lambda A: True),
    'written from 2 on': ('shown', lambda A: A > 1),
    'never written': ('shown', lambda A: False),
    'before the energies': ('form', '(task (period {p}) (cycles {c}){A} (energy {e}))\n'),
    'behind the task': ('form', '(task (period {p}) (cycles {c}) (energy {e})){A}\n'),
    'behind the period': ('form', '(task (period {p}){A} (cycles {c}) (energy {e}))\n'),
}


def first_written(words, **other):
    """The task lines of a list, in parts."""
    part = {**FIRST_TEXT_PARTS, **other}
    M, text = words[2], ''
    for at in range(4 + M, len(words), 3 + M):
        p, c, A, *energies = words[at:at + 3 + M]
        text += part['form'].format(p=p, c=c, e=' '.join(map(str, energies)),
                                    A=' (from %d)' % A if part['shown'](A) else '')
    return text.encode('ascii')


def with_first(words, task, A):
    """The list with another A for the task of that number."""
    at = 4 + words[2] + (task - 1) * (3 + words[2]) + 2
    return words[:at] + [A] + words[at + 1:]


def first_ranges():
    """Both sides of A's range, at each task; and which of two bad words is given."""
    eight = [100, 0, 8, *range(1, 9), 3]
    for period in (10, 20, 5):
        eight += [period, 1, 0] + [1] * 8
    for words in (S, eight, released((1, 1, 0)), released((10_000_000, 1, 0))):
        s, M = r.decode(words), words[2]
        for task, (p, *_) in enumerate(s.tasks, 1):
            at = 4 + M + (task - 1) * (3 + M) + 2
            for A in {0, p - 1}:
                same('A of %d, period %d' % (A, p), r.check_2(with_first(words, task, A)), None)
            for A in (p, p + 1, 2 * p, 2 ** 31, 2 ** 32 - 1):
                bad = with_first(words, task, A)
                name = 'A of %d, period %d, task %d' % (A, p, task)
                same(name, r.check_set(bad), refused(2, at))
                same(name + ', planner', r.plan(bad, 0, 0), refused(2, at))
                same(name + ', walk', r.walk(bad, []), refused(2, at))
                same(name + ', writer', r.write_text(bad, 0), refused(2, at))
                same(name + ', C', r.c_walk(bad, [], 0), (2 * 2 ** 32 + at, None))
    # 14 is below the second period and not below the first; of two the first is given.
    same("A against its own task's period", r.check_set(with_first(S, 1, 14)), refused(2, 9))
    same('A of 14 at the second task', r.check_set(with_first(S, 2, 14))[0], 'good')
    same('two bad A', r.check_set(with_first(with_first(S, 1, 10), 2, 15)), refused(2, 9))
    bad = with_first(S, 1, 10)
    same('cycles before A', r.check_set(bad[:8] + [0] + bad[9:]), refused(2, 8))
    same('A before energies', r.check_set(bad[:10] + [0] + bad[11:]), refused(2, 9))
    same('the period before its A', r.check_set(bad[:7] + [0] + bad[8:]), refused(2, 7))
    same('A before a missing word', r.check_set(bad[:-1]), refused(2, 9))
    same('A missing', r.check_set(S[:9]), refused(2, 9))
    same('2 before 3', r.check_set(bad[:5] + [4] + bad[6:]), refused(2, 9))
    # The list as it was before this note: the first energy, 9, 15 or 20, is taken for A.
    same('a list without A', r.check_set([100, 0, 2, 1, 2, 1, 30, 60, 9, 15]), refused(2, 10))
    same('a list without A, a dear job', r.check_set([100, 0, 2, 1, 2, 1, 30, 60, 30, 15]),
         refused(2, 8))


def first_edges():
    for tasks, want in FIRST_WORKED:
        words, plan = released(*tasks), [1] * len(tasks)
        name = 'first releases %r' % (tasks,)
        same(name, r.walk(words, plan), want)
        L = r.hyper_period(r.decode(words).tasks)
        end = 2 * L if any(first for *_, first in tasks) else L
        if want[0] == 'kept':
            same(name + ', all ticks', want[1] + want[2], end)
            same(name + ', C', r.c_walk(words, plan, 32), (0, [1, *want[1:]]))
        else:
            same(name + ', C', r.c_walk(words, plan, 32), (0, [0, *want[1:], 0]))
        same(name + ', for ever up to there', r.keeps_for_ever(words, plan, end), want[0] == 'kept')
        same(name + ', planned as together', r.plan(words, 32, PLENTY),
             r.plan(r.released_together(words), 32, PLENTY))
    # 'Kept' is of that stretch: the load is 3, and L is 2.
    over = released((2, 1, 0), (2, 2, 1))
    same('kept, and not for ever', r.keeps_for_ever(over, [1, 1], 6), False)
    # The walk's checks: 2, 3, 4, 8, and from C 6.
    same('8 with first releases', r.walk(over, [1, 3]), refused(8, 1))
    same('4 with first releases', r.walk(released((9_999_999, 1, 9), (10_000_000, 1, 9)), []),
         refused(4, 11))
    same('6 with first releases', r.c_walk(over, [1, 1], 31), (6 * 2 ** 32 + 32, None))

    same('(from 3), read', r.read_text(FIRST_TEXT, 19), ('read', FIRST_SET))
    same('(from 3), a word short', r.read_text(FIRST_TEXT, 18), refused(6, 19))
    same('(from 3), written', r.write_text(FIRST_SET, len(FIRST_TEXT)), ('written', FIRST_TEXT))
    same('(from 3), a byte short', r.write_text(FIRST_SET, len(FIRST_TEXT) - 1),
         refused(6, len(FIRST_TEXT)))
    same('(from 3), printed', r.respond(FIRST_TEXT), FIRST_PRINTED)
    # '0 if absent', and the form that says so; only the first is written.
    zero = FIRST_TEXT.replace(b'from 3', b'from 0')
    same('(from 0), read', r.read_text(zero, 19), ('read', S))
    same('(from 0), printed', r.respond(zero), PRINTED)
    same('A of 0, written', r.write_text(S, PLENTY), ('written', EXAMPLE))
    for A in (1, 9):
        words = with_first(S, 1, A)
        same('A of %d, read back' % A, r.read_text(r.write_text(words, PLENTY)[1], 19), ('read', words))
    # Ranges are not judged by the reader.
    for A in (10, 4_294_967_295):
        text = FIRST_TEXT.replace(b'from 3', b'from %d' % A)
        same('(from %d), read' % A, r.read_text(text, 19), ('read', with_first(S, 1, A)))
        same('(from %d), printed' % A, r.respond(text), b'(refused 2 9)\n')
    # Under a chip.
    for chip, slack, tasks, want in (TWO_ON_XSCALE, TWO_ON_PPC405LP):
        text = chip_text(chip, slack, tasks)
        for task, (period, _) in enumerate(tasks, 1):
            for A in (0, 1, period - 1, period, 4_294_967_295):
                lines = text.split(b'\n')
                lines[1 + task] = lines[1 + task][:-1] + b' (from %d))' % A
                words = with_first(want, task, A)
                name = '%s, (from %d) at task %d' % (chip, A, task)
                same(name, r.read_text(b'\n'.join(lines), len(want)), ('read', words))
                same(name + ', checked', r.check_2(words) is None, A < period)


def first_errors():
    """Each wrong reading departs from one of the worked figures, or from what is taken."""
    worked = [(released(*tasks), want) for tasks, want in FIRST_WORKED]
    worked += [(released((10, 1, A), (15, 1, B)), want) for A, B, want in (
        (10, 0, refused(2, 8)), (14, 0, refused(2, 8)), (0, 15, refused(2, 13)),
        (0, 29, refused(2, 13)), (0, 4_294_967_295, refused(2, 13)), (0, 14, ('kept', 10, 50, 0)),
        (9, 14, ('kept', 9, 51, 0)))]
    for words, want in worked:
        plan = [1] * words[5]
        same('first releases in parts, %r' % (words,), first_in_parts(words, plan), want)
        same('first releases, %r' % (words,), r.walk(words, plan), want)
    for name, (part, wrong) in FIRST_MISREAD.items():
        seen = any(first_in_parts(words, [1] * words[5], **{part: wrong}) != want
                   for words, want in worked)
        same('first releases misread: ' + name, seen, True)
    lists = [S, FIRST_SET, with_first(S, 2, 1), with_first(FIRST_SET, 2, 14)]
    for words in lists:
        text = r.write_text(words, PLENTY)[1]
        same('task lines in parts, %r' % (words,), first_written(words), text[text.index(b'(task'):])
    for name, (part, wrong) in FIRST_TEXT_MISREAD.items():
        seen = any(first_written(words, **{part: wrong}) != first_written(words) for words in lists)
        same('first releases misread: ' + name, seen, True)


def first_offsets():
    """Where a text with (from A) departs, and which bytes go on."""
    slack = b'(slack 1)\n'
    at, goes_on = departures('first release')
    for label, line, task in (
            ('rates', b'(rates 1 2)\n', b'(task (period 9) (cycles 1) (energy 1 1)'),
            ('xscale', b'(chip xscale)\n', b'(task (period 9) (cycles 1)'),
            ('ppc405lp', b'(chip ppc405lp)\n', b'(task (period 9) (cycles 1)')):
        head, form = slack + line, b' (from 7)'
        bare, text = head + task + b')\n', head + task + form + b')\n'
        begin = len(head + task)
        plain = r.read_text(bare, 1000)[1]
        same(label + ', from 7', r.read_text(text, 1000), ('read', with_first(plain, 1, 7)))
        for length in range(begin, len(text)):
            at('%s, cut after %d' % (label, length), text[:length], length)
        for place, byte in enumerate(form):
            for wrong in sorted({byte ^ 32, byte + 1, *b'\x00 ()e7\n\xff'} - {byte}):
                changed = text[:begin + place] + bytes([wrong]) + text[begin + place + 1:]
                is_digit = b'0'[0] <= wrong <= b'9'[0]
                if place == 7 and is_digit:
                    same('%s, %d for 7' % (label, wrong), r.read_text(changed, 1000)[0], 'read')
                    continue
                # A bracket in the space's place ends the task, and a digit in the bracket's place
                # goes on with the number: the fault is then behind it.
                goes = place == 0 and wrong == b')'[0] or (place == 8 and is_digit) * 2
                at('%s, %d at %d' % (label, wrong, place), changed, begin + place + goes)
            goes_on('%s, %d bytes of the form' % (label, place + 1), text[:begin + place + 1],
                    (b'(', b'f', b'r', b'o', b'm', b' ', b'0123456789', b')0123456789', b')')[place])
        goes_on(label + ', before the form', head + task, b' )')
        for wrong, departs in (
                (b' (from)', 6), (b' (from )', 7), (b' (from 07)', 8), (b' (from 00)', 8),
                (b' (from 4294967296)', 16), (b' (from 42949672950)', 17), (b' (from -1)', 7),
                (b' (from 7 7)', 8), (b' (from 7))', 10), (b' (from (7))', 7), (b' (froms 7)', 6),
                (b' (From 7)', 2), (b' (from 7) (from 7)', 9), (b' (from 0) (from 7)', 9),
                (b'  (from 7)', 1), (b'(from 7)', 0), (b' from 7', 1), (b' (from  7)', 7),
                (b' (from\t7)', 6), (b' (from 7) ', 9), (b' (from 7)(from 7)', 9), (b' ', 1),
                (b' (first 7)', 3), (b' (from 7) (energy 1 1)', 9), (b' (until 7)', 2),
                (b' (energy 1 1)', 2), (b' (e', 2), (b' (period 7)', 2)):
            at('%s, %r' % (label, wrong), head + task + wrong + b')\n', begin + departs)
        # Behind the task's bracket, on a line of its own, and as the first item.
        at(label + ', behind the task', head + task + b') (from 7)\n', begin + 1)
        at(label + ', on a line', bare + b'(from 7)\n', len(bare) + 1)
        at(label + ', first', head + b'(task (from 7) (period 9) (cycles 1))\n', len(head) + 7)
        at(label + ', behind the period', head + b'(task (period 9) (from 7) (cycles 1))\n',
           len(head) + 18)
        whole = task + form + b')\n'
        same(label + ', 32 tasks', r.read_text(head + whole * 32, 1000)[0], 'read')
        at(label + ', a 33rd task', head + whole * 33, len(head + whole * 32))
        for A in (0, 1, 9, 10, 4_294_967_295):
            text = head + task + b' (from %d))\n' % A
            same('%s, from %d' % (label, A), r.read_text(text, 1000), ('read', with_first(plain, 1, A)))
    # With rates a form before the energies departs at its letter; the energies come first.
    head = slack + b'(rates 1 2)\n(task (period 9) (cycles 1)'
    at('before the energies', head + b' (from 7) (energy 1 1))\n', len(head) + 2)
    at('without energies', head + b' (from 7))\n', len(head) + 2)
    at('too few energies', head + b' (energy 1) (from 7))\n', len(head) + 10)
    goes_on('the cycles of rates and a bracket', head + b' (', b'e')


def firsts_at_random():
    """Random sets with first releases: the walk in two ways, the endless walk up to the last tick,
    and the planner, whose answer is that without them and whose plan keeps all deadlines."""
    g = random.Random(8)
    counts = {}

    def saw(kind):
        counts[kind] = counts.get(kind, 0) + 1

    for number in range(400):
        words = random_set(g, *g.choice([(3, 3), (4, 2), (2, 4), (1, 2)]))
        together = list(words)
        M, N = words[2], words[3 + words[2]]
        for task in range(1, N + 1):
            p = r.decode(words).tasks[task - 1].period
            words = with_first(words, task, g.choice([0, p - 1, g.randrange(p), g.randrange(p)]))
        name = 'first releases %d %r' % (number, words)
        kind, _, _, L = r.check_set(words)
        same(name + ', good', (kind, r.released_together(words)), ('good', together))
        answer = r.plan(words, N, PLENTY)
        same(name + ', planned alike', answer, r.plan(together, N, PLENTY))
        some = words != together
        end = 2 * L if some else L
        if answer[0] == 'planned':
            rates = answer[5]
            ended = r.walk(words, rates)
            same(name + ', planned and kept', (ended[0], sum(ended[1:3])), ('kept', end))
            same(name + ', planned, for ever', r.keeps_for_ever(words, rates, 5 * L), True)
            saw(('planned', some))
        for _ in range(3):
            rates = [g.randint(1, M) for _ in range(N)]
            ended = r.walk(words, rates)
            same(name + ', %r in parts' % rates, first_in_parts(words, rates), ended)
            same(name + ', %r up to the end' % rates, r.keeps_for_ever(words, rates, end),
                 ended[0] == 'kept')
            load = r.load_of(words, rates)
            if ended[0] == 'missed':
                same(name + ', %r misses' % rates, load > L, True)
            if some and ended[0] == 'missed':
                saw('missed at the end' if ended[1] == end else 'missed after L'
                    if ended[1] > L else 'missed up to L')
            elif some:
                saw('kept, over L' if load > L else 'kept')
                if ended[1] < 2 * load:
                    saw('kept with work left')
        text = r.write_text(words, PLENTY)[1]
        same(name + ', written', text.count(b' (from '),
             sum(task.first > 0 for task in r.decode(words).tasks))
        same(name + ', read back', r.read_text(text, len(words)), ('read', words))
        if answer[0] == 'planned' and r.words_needed(r.decode(words)) <= r.WORKING_WORDS:
            # The lines of the plan are those without first releases; the last is the walk's.
            *lines, last, _ = r.respond(text).split(b'\n')
            plain = r.respond(r.write_text(together, PLENTY)[1])
            same(name + ', printed', lines, plain.split(b'\n')[:-2])
            same(name + ', walk printed', last, b'(walk (busy %d) (idle %d) (preempted %d))'
                 % r.walk(words, answer[5])[1:])
    for kind, least in ((('planned', True), 100), (('planned', False), 10), ('missed up to L', 50),
                        ('missed after L', 20), ('missed at the end', 3), ('kept', 100),
                        ('kept, over L', 3), ('kept with work left', 50)):
        same('enough of %s' % (kind,), counts.get(kind, 0) >= least, True)


# ------------------------------------------ document 02, note 7: the dull way

def alike(M, N, period=None, slack=100):
    """N tasks alike with M rates: a job takes one tick at each of them, and costs the rate number."""
    return [slack, 0, M, *range(1, M + 1), N] + [period or N, 1, 0, *range(1, M + 1)] * N


# Of each M the most tasks for which M to the power N is not over 1,000,000.
MOST_OF = {2: 19, 3: 12, 4: 9, 5: 8, 6: 7, 7: 7, 8: 6}

TWINS = [100, 0, 2, 1, 2, 2] + [3, 2, 0, 1, 3] * 2
TWO_LONG = [9_999_999, 1, 0, 1, 2, 10_000_000, 1, 0, 1, 2]
# Lists, words lent for the plan, and what the dull engine says.
DULL_WORKED = [
    (S, 2, ('planned', 1, 29, 30, 41, [2, 1])),
    (S_1000, 2, ('planned', 8, 28, 30, 42, [1, 2])),
    (S, 3, ('planned', 1, 29, 30, 41, [2, 1])),
    (S, 1, refused(6, 2)),
    (THOUSAND_TEN, 1, ('planned', 1, 90, 100, 1_010, [1])),
    # The first plan, and the last one.
    (one_task(100, 30, 30, (1, 2)), 1, ('planned', 1, 30, 30, 1, [1])),
    (one_task(100, 30, 60), 1, ('planned', 1, 30, 30, 1, [2])),
    (one_task(100, 30, 61), 1, refused(7, 0)),
    (one_task(100, 30, 61), 0, refused(6, 1)),
    # Equal energies and loads: one of two twins is fast, the first; 3 1 and not 1 2; and all alike.
    (TWINS, 2, ('planned', 1, 3, 3, 4, [2, 1])),
    ([100, 0, 3, 1, 2, 3, 2, 5, 3, 0, 1, 9, 3, 5, 4, 0, 1, 3, 9], 2, ('planned', 1, 5, 5, 4, [3, 1])),
    ([100, 0, 3, 1, 2, 3, 2, 5, 4, 0, 1, 3, 9, 5, 3, 0, 1, 9, 3], 2, ('planned', 1, 5, 5, 4, [2, 1])),
    ([1_000, 0, 3, 1, 2, 3, 3] + [3, 1, 0, 5, 5, 5] * 3, 3, ('planned', 4, 3, 3, 15, [1, 1, 1])),
    # Equal energies, rounded or not: the lesser load, though it comes later.
    (one_task(100, 10, 10), 1, ('planned', 1, 5, 10, 1, [2])),
    (one_task(1_000, 10, 10, (33, 64)), 1, ('planned', 32, 5, 10, 64, [2])),
    # Nothing is left without the idle energy, and the first unit is 1.
    (one_task(100, 100, 90, (900, 100), (1, 9), idle=10), 1, ('planned', 1, 10, 100, 1_000, [2])),
    # The planner's refusals, one for each; 10 and 4 where there are too many plans besides.
    ([0] + S[1:], 2, refused(2, 0)),
    ([], 0, refused(2, 0)),
    (one_task(100, 30, 60, rates=(4, 4)), 1, refused(3, 4)),
    ([100, 1] + S[2:], 2, refused(10, 10)),
    ([100, 0, 2, 1, 2, 2] + TWO_LONG, 2, refused(4, 11)),
    ([100, 0, 2, 1, 2, 20] + TWO_LONG + [10, 1, 0, 1, 2] * 18, 20, refused(4, 11)),
    ([100, 1, 2, 1, 2, 20] + [30, 4, 0, 4, 2] * 19 + [30, 4, 0, 4, 1], 20, refused(10, 105)),
    # Two to the power 20 is 1,048,576, and 20 to the power 2 is 400; 6 to the power 8 is 1,679,616.
    (alike(2, 20), 20, refused(11, 0)),
    (alike(4, 10), 10, refused(11, 0)),
    (alike(8, 7), 7, refused(11, 0)),
    (alike(8, 32), 32, refused(11, 0)),
    (alike(7, 7), 6, refused(6, 7)),
    (alike(8, 6), 5, refused(6, 6)),
    (alike(2, 19), 18, refused(6, 19)),
    # 11 before 6 and 7: with a period of 20 the last of 21 jobs does not fit.
    (alike(2, 20), 19, refused(11, 0)),
    (alike(2, 21, 20), 21, refused(11, 0)),
    (alike(2, 21, 20), 0, refused(11, 0)),
    (alike(2, 5, 4), 5, refused(7, 0)),
    (alike(2, 5, 4), 4, refused(6, 5)),
]

# A dull engine in parts, and readings of the note that are wrong in one of them. 'rates' makes a
# plan of its number, 'numbers' says which are looked at, 'better' whether rounded energy and load
# are better than those of the best so far, 'stays' whether the best of one unit is that of the
# next to begin with. 'many' and 'second' are 11, and 'order' is that of the checks.
DULL_PARTS = {
    'rates': lambda number, M, N: [number // M ** task % M + 1 for task in range(N)],
    'numbers': lambda plans: range(plans),
    'better': lambda new, best: new < best,
    'stays': False,
    'many': lambda M, N: M ** N > 1_000_000,
    'second': lambda M, N: 0,
    'order': (2, 3, 10, 4, 11, 6, 7),
}
DULL_MISREAD = {
    'task N changing fastest': ('rates', lambda number, M, N: [
        number // M ** (N - 1 - task) % M + 1 for task in range(N)]),
    'from the last plan to the first': ('numbers', lambda plans: range(plans - 1, -1, -1)),
    'the last plan not looked at': ('numbers', lambda plans: range(max(plans - 1, 1))),
    'the first plan not looked at': ('numbers', lambda plans: range(min(1, plans - 1), plans)),
    'the last of those alike': ('better', lambda new, best: new <= best),
    'the first of equal energy': ('better', lambda new, best: new[0] < best[0]),
    'the last of equal energy': ('better', lambda new, best: new[0] <= best[0]),
    'load before energy': ('better', lambda new, best: new[::-1] < best[::-1]),
    'the best of the unit before': ('stays', True),
    'N to the power M': ('many', lambda M, N: N ** M > 1_000_000),
    'over 800,000': ('many', lambda M, N: M ** N > 800_000),
    'over 500,000': ('many', lambda M, N: M ** N > 500_000),
    'over 1,048,576': ('many', lambda M, N: M ** N > 1_048_576),
    'over 2 to the power 32': ('many', lambda M, N: M ** N > 2 ** 32),
    'at 64 bits': ('many', lambda M, N: M ** N % 2 ** 64 > 1_000_000),
    'never': ('many', lambda M, N: False),
    'with the number of plans': ('second', lambda M, N: M ** N),
    'with 1,000,000': ('second', lambda M, N: 1_000_000),
    'with N': ('second', lambda M, N: N),
    '11 before 4': ('order', (2, 3, 10, 11, 4, 6, 7)),
    '11 before 10': ('order', (2, 3, 11, 10, 4, 6, 7)),
    '11 after 6': ('order', (2, 3, 10, 4, 6, 11, 7)),
    '11 after 7': ('order', (2, 3, 10, 4, 6, 7, 11)),
    '7 before 6': ('order', (2, 3, 10, 4, 11, 7, 6)),
    '7 before 11': ('order', (2, 3, 10, 4, 7, 11, 6)),
}


def dull_in_parts(words, plan_len, **other):
    """What the dull engine says: of the parts, or of another in place of one. Where it should
    have refused and would go through more than 10,000 plans, nothing."""
    part = {**DULL_PARTS, **other}
    if r.check_2(words):
        return r.check_2(words)
    G, H, M = words[:3]
    rates, N = words[3:3 + M], words[3 + M]
    tasks = [words[at:at + 3 + M] for at in range(4 + M, len(words), 3 + M)]
    times = [[-(-cycles // rate) for rate in rates] for _, cycles, *_ in tasks]
    L = None if r.check_4(words) else r.hyper_period(r.decode(words).tasks)
    for check in part['order']:
        if check in (3, 10, 4):
            answer = {3: r.check_3, 10: r.check_10, 4: r.check_4}[check](words)
            if answer:
                return answer
        if check == 11 and part['many'](M, N):
            return refused(11, part['second'](M, N))
        if check == 6 and plan_len < N:
            return refused(6, N)
        if check == 7 and L and sum(L // tasks[i][0] * times[i][-1] for i in range(N)) > L:
            return refused(7, 0)
    if M ** N > 10_000:
        return None

    def counted(plan, d):
        return sum(-(-(L // tasks[i][0] * (tasks[i][2 + j] - H * times[i][j - 1])) // d)
                   for i, j in enumerate(plan))

    d = 2 ** 60                 # from far above: it is not used before the first unit is passed
    if part['stays']:
        d = 1
        while d < counted([M] * N, 1):
            d *= 2
    best = None
    while True:
        if not part['stays']:
            best = None
        for number in part['numbers'](M ** N):
            plan = part['rates'](number, M, N)
            load = sum(L // tasks[i][0] * times[i][j - 1] for i, j in enumerate(plan))
            if load <= L and (best is None or part['better']((counted(plan, d), load), best[:2])):
                best = counted(plan, d), load, plan
        if best is None:
            return refused(7, 0)
        if d == 1 or G * best[0] >= 2_000 * N:
            break
        d //= 2
    _, load, plan = best
    given = sum(L // tasks[i][0] * tasks[i][2 + j] for i, j in enumerate(plan))
    return ('planned', d, load, L, given + H * (L - load), plan)


def dull_edges():
    same('all plans of 2 tasks and 3 rates', [list(rates) for rates in r.all_plans(3, 2)],
         [[1, 1], [2, 1], [3, 1], [1, 2], [2, 2], [3, 2], [1, 3], [2, 3], [3, 3]])
    for M, N in ((2, 1), (8, 1), (2, 7), (4, 3)):
        # Read from task N to task 1 they rise, and so no two are the same.
        plans = [tuple(rates) for rates in r.all_plans(M, N)]
        same('all plans of %d tasks and %d rates' % (N, M),
             [rates[::-1] for rates in plans], list(product(range(1, M + 1), repeat=N)))
    for words, lent, want in DULL_WORKED:
        name = 'dull %r, %d lent' % (words, lent)
        same(name, r.dull(words, lent), want)
        code = want[1] * 2 ** 32 + want[2] if want[0] == 'refused' else 0
        same(name + ', C', r.c_dull(words, lent, 32), (code, None if code else list(want[1:5])))
        # Under 32 bytes: after all others but 7.
        short = code if code and want != refused(7, 0) else 6 * 2 ** 32 + 32
        same(name + ', C with 31 bytes', r.c_dull(words, lent, 31), (short, None))
        # The planner with enough working words, but for 11.
        planner = r.plan(words, lent, PLENTY)
        if want[:2] == ('refused', 11):
            same(name + ', the planner has no 11', planner[:2] != want[:2], True)
        else:
            same(name + ', as the planner', planner, want)
        if want[:2] not in (('refused', 5), ('refused', 6), ('refused', 7)) and want[0] != 'planned':
            same(name + ', nothing lent', r.dull(words, 0), want)
            same(name + ', nothing lent, C', r.c_dull(words, 0, 0), (code, None))

    # Either side of 1,000,000, for each M: a plan list that is too short is seen if it is not 11.
    same('the most tasks', MOST_OF, {M: max(N for N in range(1, 33) if M ** N <= 1_000_000)
                                     for M in range(2, 9)})
    for M in range(2, 9):
        for N in range(1, 33):
            want = refused(6, N) if N <= MOST_OF[M] else refused(11, 0)
            same('%d to the power %d' % (M, N), r.dull(alike(M, N), N - 1), want)
            if N > MOST_OF[M]:
                same('%d to the power %d, all lent' % (M, N), r.dull(alike(M, N), N), want)
    same('7 to the power 7', r.check_11(alike(7, 7)), None)
    same('10 to the power 6 is no such power', [M for M in range(2, 9) for N in range(1, 33)
                                                if M ** N == 1_000_000], [])
    # All causes at once, and then without the first of them, one after the other: the last word,
    # the second rate, the idle energy, the second period, and 2 to the power 20.
    words = [100, 1, 2, 1, 1, 20, 9_999_999, 40_000, 0, 1, 1, 10_000_000, 40_000, 0, 1, 1]
    words += [10, 40_000, 0, 1, 1] * 17 + [10, 40_000, 0, 1, 0]
    for number, second, place, good in ((2, 105, 105, 1), (3, 4, 4, 2), (10, 9, 1, 0),
                                        (4, 11, 11, 9_999_999), (4, 16, 6, 10), (11, 0, 5, 19)):
        same('dull: %d before what follows' % number, r.dull(words, 0), refused(number, second))
        words[place] = good
        if place == 6:
            words[11] = 10
    words = words[:-5]
    same('dull: 6 before 7', r.dull(words, 18), refused(6, 19))
    same('dull: 7 last', r.c_dull([100, 0, 2, 1, 2, 2] + words[6:16], 2, 32), (7 * 2 ** 32, None))
    # 19 tasks of 8 rates, far over it: the planner has a plan.
    words = alike(8, 19, slack=1_000)
    same('8 to the power 19', r.dull(words, 19), refused(11, 0))
    same('8 to the power 19, the planner', r.plan(words, 19, PLENTY)[0], 'planned')


def dull_errors():
    """Each wrong reading departs from one of the worked figures."""
    for words, lent, want in DULL_WORKED:
        same('dull in parts, %r' % (words,), dull_in_parts(words, lent), want)
    for name, (part, wrong) in DULL_MISREAD.items():
        seen = any(dull_in_parts(words, lent, **{part: wrong}) != want
                   for words, lent, want in DULL_WORKED)
        same('dull misread: ' + name, seen, True)


def dull_at_random():
    """Where both succeed the dull engine says what the planner does, and 5 and 11 apart they
    refuse alike: random sets, some of thousands of plans, and lists that are no sets."""
    g = random.Random(7)
    counts = {}

    def both(name, words, plan_len):
        answer = r.dull(words, plan_len)
        same(name, answer, r.plan(words, plan_len, PLENTY, 'table'))
        same(name + ', A plays no part', r.dull(r.released_together(words), plan_len), answer)
        kinds = [answer[:2] if answer[0] == 'refused' else 'planned']
        if answer[0] == 'planned':
            kinds += ['unit 1' if answer[1] == 1 else 'unit above 1']
            kinds += ['idle'] * (words[1] > 0) + ['full'] * (answer[2] == answer[3])
        for kind in kinds:
            counts[kind] = counts.get(kind, 0) + 1

    for number in range(900):
        words = random_set(g, *g.choice([(1, 8), (2, 8), (3, 4), (4, 4), (8, 2)]))
        M, N = words[2], words[3 + words[2]]
        for task in range(1, N + 1):
            if g.randint(1, 4) == 1:
                words = with_first(words, task, g.randrange(r.decode(words).tasks[task - 1].period))
        if g.randint(1, 10) == 1 and words[1] > 0:
            words[4 + M + 3 + g.randrange(M)] = 1
        if g.randint(1, 10) == 1 and N > 1:
            words[4 + M], words[4 + M + 3 + M] = 9_999_991, g.choice([1, 2, 3])
            words[4 + M + 3 + M + 2] = 0
        lent = N if g.randint(1, 6) > 1 else g.choice([0, N - 1, N + 1, 32])
        both('dull, random set %d %r' % (number, words), words, lent)
    for number in range(8):
        M, N = ((2, 11), (3, 7), (4, 5), (5, 4), (6, 4), (7, 4), (8, 3), (2, 10))[number]
        words = random_set(g, 1, 2)[:2] + [M, *sorted(g.sample(range(1, 40), M)), N]
        words[1] = 0
        for _ in range(N):
            period = g.choice([24, 30, 40, 60, 120])
            words += [period, g.randint(1, 2 * words[2 + M] * period // N), 0]
            words += [g.randint(1, 60) for _ in range(M)]
        both('dull, thousands of plans %d %r' % (number, words), words, N)
    for kind, least in (('planned', 300), ('unit 1', 50), ('unit above 1', 50), ('idle', 100),
                        ('full', 20), (('refused', 10), 20), (('refused', 4), 10),
                        (('refused', 6), 20), (('refused', 7), 50)):
        same('enough of %s' % (kind,), counts.get(kind, 0) >= least, True)

    # 262,144 plans. Nothing is left of the highest rate, so that the first unit is 1, and of the
    # others 1 or more: it is the last plan of all.
    words = [100, 1, 8, *range(1, 9), 6] + [6, 8, 0, 9, 5, 4, 3, 3, 3, 3, 1] * 6
    want = ('planned', 1, 6, 6, 6, [8] * 6)
    same('dull, 8 to the power 6', r.dull(words, 6), want)
    same('dull, 8 to the power 6, the planner', r.plan(words, 6, PLENTY), want)


# --------------------------------------------------------------- random sets

def random_set(g, most_tasks, most_rates):
    M, N = g.randint(2, most_rates), g.randint(1, most_tasks)
    rates = sorted(g.sample(range(1, 13), M))
    most = g.choice([3, 10, 100, 1_000_000])
    idle = g.choice([0, 0, 1, 7, 40, 500])              # 500 x 1,620 ticks are below 1,000,000
    words = [g.choice([1, 7, 50, 100, 333, 500, 999, 1000]), idle, M, *rates, N]
    filling = g.choice([0.5, 1.0, 1.5, 3.0]) * rates[g.randrange(M)] / N
    least = g.choice([0, 1])                            # of what is left without the idle energy
    for _ in range(N):
        period = g.choice([1, 2, 3, 4, 5, 6, 8, 10, 12, 15, 20, 24, 30])
        cycles = max(1, round(period * filling * g.uniform(0.5, 1.5)))
        waiting = [idle * -(-cycles // rate) for rate in rates]
        words += [period, cycles, 0] + [max(1, min(w + g.randint(least, most), 1_000_000))
                                        for w in waiting]
    return words


def lowered(words):
    """The list without its idle energy: each energy is less by what its job's ticks would cost
    idle. None where an energy would then be below 1."""
    M, other = words[2], [words[0], 0] + words[2:]
    for at in range(4 + M, len(words), 3 + M):
        for j in range(M):
            other[at + 3 + j] -= words[1] * -(-words[at + 1] // words[3 + j])
    return other if r.check_2(other) is None else None


def random_sets():
    g = random.Random(1)
    seen = set()
    for number in range(500):
        most_tasks, most_rates = g.choice([(3, 3), (5, 3), (2, 8), (8, 2)])
        words = random_set(g, most_tasks, most_rates)
        name = 'random set %d %r' % (number, words)
        kind, M, N, L = r.check_set(words)
        same(name + ', good', kind, 'good')

        answer = r.plan(words, N, PLENTY, 'all')
        same(name + ', both ways', r.plan(words, N, PLENTY, 'table'), answer)
        seen.add(answer[0])
        # Without the idle energy the same, but for the energy.
        if lowered(words):
            other = r.plan(lowered(words), N, PLENTY)
            if other[0] == 'planned':
                other = (*other[:4], other[4] + words[1] * L, other[5])
            same(name + ', lowered', answer, other)
            seen.add(words[1] > 0)
        plans = list(product(range(1, M + 1), repeat=N))
        loads = r.load_table(r.decode(words), L)
        fitting = [p for p in plans if r.total(loads, p) <= L]
        same(name + ', 7 where no plan fits', answer == refused(7, 0), not fitting)
        if fitting:
            _, unit, load, _, energy, rates = answer
            same(name + ', sums', (load, energy),
                 (r.load_of(words, rates), r.energy_of(words, rates)))
            least = min(r.energy_of(words, p) for p in fitting)
            same(name + ', within the slack',
                 1000 * energy <= (1000 + words[0]) * least, True)
            same(name + ', planned and kept', r.walk(words, rates)[:3],
                 ('kept', load, L - load))
        for rates in g.sample(plans, min(3, len(plans))):
            load = r.load_of(words, rates)
            ended = r.walk(words, rates)
            seen.add(ended[0])
            same(name + ', kept %r' % (rates,), ended[0] == 'kept', load <= L)
            same(name + ', for ever %r' % (rates,),
                 r.keeps_for_ever(words, rates, 3 * L), load <= L)
            if load <= L:
                same(name + ', busy and idle', ended[1:3], (load, L - load))

        kind, text = r.write_text(words, PLENTY)
        same(name + ', written', kind, 'written')
        same(name + ', read back', r.read_text(text, len(words)), ('read', words))
        if number % 10 == 0:
            same(name + ', no word to spare', r.read_text(text, len(words) - 1),
                 refused(6, len(words)))
        same(name + ', no byte to spare', r.write_text(words, len(text) - 1),
             refused(6, len(text)))
        if words[1] > 0:
            # An energy below: 10, and of several the first. The walk and the writer do not look.
            at = [place for place in range(4 + M, len(words)) if (place - 4 - M) % (3 + M) > 2]
            low = sorted(g.sample(at, g.randint(1, min(3, len(at)))))
            low = [place for place in low if waiting_at(words, place) > 1]
            less = list(words)
            for place in low:
                less[place] = waiting_at(words, place) - g.choice([1, waiting_at(words, place) - 1])
            if low:
                seen.add(10)
                same(name + ', 10', r.plan(less, 0, 0), refused(10, low[0]))
                same(name + ', walked with 10', r.walk(less, [M] * N), r.walk(words, [M] * N))
                same(name + ', written with 10', r.write_text(less, PLENTY)[0], 'written')
    same('every kind of answer was seen', seen,
         {'planned', 'refused', 'kept', 'missed', True, False, 10})


def waiting_at(words, place):
    """H x job time of the energy at a place."""
    M = words[2]
    task, rate = divmod(place - 4 - M, 3 + M)
    return words[1] * -(-words[4 + M + task * (3 + M) + 1] // words[3 + rate - 3])


def objections():
    """The judge of planner answers: it lets the right ones pass and no other."""
    def against(name, words, answer, want, ticks=10_000):
        same('judge: ' + name, r.objection(words, answer, ticks), want)

    none = one_task(100, 30, 61)
    small = ('planned', 1, 29, 30, 41, [2, 1])
    for ticks in (0, 10_000):
        against('S', S, small, None, ticks)
        against('S with slack 1,000', S_1000, ('planned', 8, 28, 30, 42, [1, 2]), None, ticks)
        against('no plan', none, refused(7, 0), None, ticks)
        against('7 and a plan', S, refused(7, 0), 'a plan fits', ticks)
        against('no plan and planned', none, ('planned', 1, 31, 30, 1, [2]),
                'no plan fits', ticks)
        # Document 01's reviewer: every task at the fastest rate.
        against('the fastest', S, ('planned', 1, 12, 30, 120, [3, 3]),
                'another plan comes first', ticks)
        # Rounded to nearest, or rate numbers before load.
        against('to nearest', S_1000, ('planned', 8, 29, 30, 41, [2, 1]),
                'another plan comes first', ticks)
    against('another cause', S, refused(5, 243), 'no cause for it')
    against('another L', S, ('planned', 1, 29, 60, 41, [2, 1]), 'not the hyper-period')
    against('another load', S, ('planned', 1, 28, 30, 41, [2, 1]), 'not the sums of its plan')
    against('another energy', S, ('planned', 1, 29, 30, 40, [2, 1]), 'not the sums of its plan')
    against('the plan untouched', S, ('planned', 1, 29, 30, 41, [0, 0]),
            'not the sums of its plan')
    against('a plan that misses', S, ('planned', 1, 38, 30, 26, [1, 1]),
            'the walk of its plan departs')
    for unit in (0, 3, 256):
        against('unit %d' % unit, S, ('planned', unit, 29, 30, 41, [2, 1]),
                'no unit to be tried')
    against('a unit too large', S_1000, ('planned', 16, 28, 30, 42, [1, 2]),
            'the unit does not qualify')
    against('a unit too small', S_1000, ('planned', 4, 28, 30, 42, [1, 2]),
            'a larger unit qualifies')
    against('a unit too small, 1', S_1000, ('planned', 1, 29, 30, 41, [2, 1]),
            'a larger unit qualifies')
    # 33 at every rate, rounded down: unit 16.
    against('33, rounded down', one_task(1000, 10, 10, energies=(33, 33)),
            ('planned', 16, 5, 10, 33, [2]), 'a larger unit qualifies')
    against('33, rounded up', one_task(1000, 10, 10, energies=(33, 33)),
            ('planned', 32, 5, 10, 33, [2]), None)
    # Energies are equal: the lower rate number does not come before the load.
    against('the lower number', one_task(1, 10, 10), ('planned', 1, 10, 10, 1, [1]),
            'another plan comes first')
    # Two equal tasks: the lower number belongs to task 2.
    twins = [100, 0, 2, 1, 2, 2] + [3, 2, 0, 1, 3] * 2
    against('the lower number for task 1', twins, ('planned', 1, 3, 3, 4, [1, 2]),
            'another plan comes first')
    against('the lower number for task 2', twins, ('planned', 1, 3, 3, 4, [2, 1]), None)

    # Idle energy: the least by what the jobs cost is not the least in all, and is reported so.
    against('1,010', THOUSAND_TEN, ('planned', 1, 90, 100, 1_010, [1]), None)
    against('1,010, the other rate', THOUSAND_TEN, ('planned', 1, 10, 100, 1_100, [2]),
            'another plan comes first')
    for energy in (10, 110, 910, 1_810, 1_910):
        against('1,010, %d' % energy, THOUSAND_TEN, ('planned', 1, 90, 100, energy, [1]),
                'not the sums of its plan')
    low = THOUSAND_TEN[:9] + [899, 200]
    for answer in (('planned', 1, 90, 100, 999, [1]), ('planned', 1, 10, 100, 1_100, [2]),
                   refused(7, 0)):
        against('an energy below', low, answer, 'an energy is below that of an idle processor')

    # Every answer that differs from the right one in one number is turned down.
    g = random.Random(4)
    for number in range(150):
        words = random_set(g, *g.choice([(3, 3), (4, 2), (2, 5)]))
        name = 'judge: random set %d %r' % (number, words)
        answer = r.plan(words, 32, PLENTY, 'table')
        same(name, r.objection(words, answer, 2_000), None)
        if answer == refused(7, 0):
            continue
        for at in range(1, 5):
            for wrong in (answer[at] - 1, answer[at] + 1, answer[at] * 2):
                other = answer[:at] + (wrong,) + answer[at + 1:]
                same(name + ', %r' % (other,), r.objection(words, other, 2_000) is None, False)
        s, L = r.decode(words), answer[3]
        loads = r.load_table(s, L)
        for rates in product(range(1, words[2] + 1), repeat=len(s.tasks)):
            other = (*answer[:2], r.total(loads, rates), L, r.energy_of(words, rates),
                     list(rates))
            same(name + ', %r' % (other,), r.objection(words, other, 500) is None,
                 other == answer)


def large_sets():
    """Sets of more plans: the two ways on 13 tasks, the sums on 32."""
    g = random.Random(2)
    for number in range(6):
        idle = number % 3
        words = [g.choice([200, 500, 1000]), idle, 2, 1, 2, 13]
        for _ in range(13):
            period, cycles = g.choice([4, 6, 8, 12]), g.choice([1, 1, 2])
            words += [period, cycles, 0, cycles * idle + g.randint(1, 9), idle + g.randint(0, 9) or 1]
        name = 'thirteen tasks %d' % number
        same(name, r.plan(words, 13, PLENTY, 'table'), r.plan(words, 13, PLENTY, 'all'))
    for number in range(6):
        idle = 100 * (number % 3)
        words = [g.choice([50, 200, 1000]), idle, 8, *sorted(g.sample(range(1, 200), 8)), 32]
        for _ in range(32):
            words += [g.choice([100, 200, 250, 500]), g.randint(1, 900), 0]
            words += [g.randint(200_000, 1_000_000) for _ in range(8)]
        name = '32 tasks %d' % number
        kind, unit, load, L, energy, rates = r.plan(words, 32, PLENTY)
        same(name, (load, energy), (r.load_of(words, rates), r.energy_of(words, rates)))
        same(name + ', kept', r.walk(words, rates)[:3], ('kept', load, L - load))


# -------------------------------------------------------------- random texts

class Stop(Exception):
    pass


def plain_reader(data):
    """A reader of the usual kind: the offset it stops at, or None."""
    at = 0

    def here():
        if at == len(data):
            raise Stop(at)
        return data[at:at + 1]

    def fixed(text):
        nonlocal at
        for byte in text:
            if here() != bytes([byte]):
                raise Stop(at)
            at += 1

    def number():
        nonlocal at
        value = None
        while True:
            if not here().isdigit():
                if value is None:
                    raise Stop(at)
                return
            if value == 0 or (value or 0) * 10 + int(here()) > 4294967295:
                raise Stop(at)
            value = (value or 0) * 10 + int(here())
            at += 1

    def row(low, high):
        count = 0
        while count < low or (count < high and here() == b' '):
            fixed(b' ')
            number()
            count += 1
        return count

    try:
        fixed(b'(slack ')
        number()
        fixed(b')\n(')
        if here() == b'i':
            fixed(b'idle ')
            number()
            fixed(b')\n(')
        M = None                # under a chip there are no energies
        if here() == b'c':
            fixed(b'chip ')
            fixed(b'xscale' if here() == b'x' else b'ppc405lp')
        else:
            fixed(b'rates')
            M = row(2, 8)
        fixed(b')\n')
        for task in range(32):
            if task > 0 and at == len(data):
                return None
            fixed(b'(task (period ')
            number()
            fixed(b') (cycles ')
            number()
            if M is not None:
                fixed(b') (energy')
                row(M, M)
            fixed(b')')
            if here() == b' ':
                fixed(b' (from ')
                number()
                fixed(b')')
            fixed(b')\n')
        return None if at == len(data) else at
    except Stop as stop:
        return stop.args[0]


def states_after(prefix):
    states = r.FIRST_STATES
    for byte in prefix:
        states = r.all_after(states, byte)
    return states


def completed(prefix):
    """A text that begins with the prefix, made from one of its states."""
    head, line, which, place, value = state = min(
        states_after(prefix), key=lambda state: (str(state[0]), *state[1:4]))
    items = []
    while not r.is_end(state):
        # To the end of the line, where a number that has begun may end here; then the next
        # line, as the last that it may be.
        items += r.shape(head)[line][which][place + (value is not None):]
        state = head, line, which, place, value = r.at_line(head, line + 1)[-1]
    return prefix + b''.join(b'7' if i == r.NUMBER else bytes([i]) for i in items)


def random_texts():
    g = random.Random(3)
    seen = set()
    for number in range(600):
        M, N = g.choice([(0, 1), (1, 1), (2, 1), (2, 2), (3, 0), (3, 3), (8, 1), (9, 1)])

        def some():
            return g.choice([0, 1, 9, 10, 429496729, 4294967295, g.randrange(2 ** 32)])

        def some_row(count):
            return ''.join(' %d' % some() for _ in range(count))

        chip = g.choice([None, None, 'xscale', 'ppc405lp'])
        text = '(slack %d)\n' % some()
        idle = g.choice([0, 0, 1, 1, 1, 1, 1, 2, -1])
        text += '(idle %d)\n' % some() * max(idle, 0)
        text += '(chip %s)\n' % chip if chip else '(rates%s)\n' % some_row(M)
        if idle < 0:            # behind the line that it stands before
            text += '(idle %d)\n' % some()
        for _ in range(N):
            bare = bool(chip) != (g.randint(1, 12) == 1)        # now and then the other kind of line
            count = M + g.choice([0, 0, 0, 0, 0, -1, 1])
            energies = '' if bare else ' (energy%s)' % some_row(max(0, count))
            first = ' (from %d)' % some() * g.choice([0, 0, 0, 1, 1, 1, 1, 2])
            ends = [energies + first, first + energies][g.randint(1, 12) == 1]
            text += '(task (period %d) (cycles %d)%s)\n' % (some(), some(), ends)
        text = bytearray(text.encode('ascii'))
        for _ in range(g.choice([0, 1, 1, 1, 2])):
            place = g.randrange(len(text))
            byte = g.choice(b'0123456789() \n\rabcdefhiklmnoprstxy\x00\xff')
            what = g.choice(['change', 'insert', 'remove', 'cut', 'append'])
            if what == 'change':
                text[place] = byte
            elif what == 'insert':
                text.insert(place, byte)
            elif what == 'remove' and len(text) > 1:
                del text[place]
            elif what == 'cut' and place > 0:
                del text[place:]
            elif what == 'append':
                text.append(byte)
        text = bytes(text)
        name = 'random text %d %r' % (number, text)
        offset = plain_reader(text)
        answer = r.read_text(text, 1000)
        seen.add((answer[0], bool(chip)))
        if offset is None:
            # Under a chip a number of cycles may be too large.
            same(name + ', read', answer[0] == 'read' or chip and answer[:2] == ('refused', 9), True)
        else:
            same(name + ', refused', answer, refused(1, offset))
            whole = completed(text[:offset])
            same(name + ', a text begins so', plain_reader(whole), None)
    same('every kind of text was seen', seen, set(product(('read', 'refused'), (False, True))))


def main():
    try:
        for part in (edges, errors, the_text, offsets, answers, preemptions,
                     generator_edges, generator_errors, generated_sets,
                     chip_edges, chip_errors, chip_offsets, chips_at_random,
                     idle_edges, idle_errors, idle_offsets, margin_edges, margin_errors,
                     margin_at_random, first_ranges, first_edges, first_errors, first_offsets,
                     firsts_at_random, dull_edges, dull_errors, dull_at_random, random_sets,
                     objections, large_sets, random_texts):
            part()
    except AssertionError as failure:
        print('reference: failed: %s' % failure)
        return 1
    except Exception as failure:
        print('reference: failed: in %s, after %s: %r' % (part.__name__, latest, failure))
        return 1
    print('reference: %d checks passed' % passed)
    return 0


if __name__ == '__main__':
    sys.exit(main())
