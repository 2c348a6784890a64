"""Records of the idle energy H, which is of document 02's note 4: refusal 10, plans and their
energies for the planner, the idle line for reader, writer and the program's call; and the lists of
refusal 10 given to the calls that do not make it."""

import reference as r
from records.shared import (
    CHIPS, CHIP_IDLE, Draw, FOR_LINE_END, IDLE_AT, M_AT, MOST_LENT, MOST_PRINTED, MOST_READ, MOST_WORK,
    MOST_WRITTEN, PAST_ONE, RANDOM_IDLE_PLANS, RANDOM_IDLE_PROGRAMS, RANDOM_IDLE_TEXTS, RATE_AT, S,
    SEED, TOP, chip_line, chip_text, costed, counts, energies_of, expanded, front_of, head_of, kept,
    length_of, line_of, needed, period_of, planned, put, refused, same_tasks, task_count, task_lines,
    text_of, was_read, with_bad, wrote)
from records.checks import check
from records.planner import planner, some_large, some_planned, waiting, with_idle
from records.program import plan_lines, program, refusal, roomed, short_span
from records.reader import ODD_NUMBERS, damaged_text, read, read_back, some_number, some_words
from records.walk import walk
from records.writer import write, written
from test_reference import EXAMPLE, IDLE_TEXT, IDLE_WORKED, MOST_CYCLES, THOUSAND_TEN

ALL = (MOST_LENT, MOST_WORK)
NONE = (0, 0)


def raised(rates, tasks, idle, slack=100):
    """tasks are period, cycles, and for each rate what is left of the energy without that of the
    idle processor; less than nothing makes refusal 10."""
    words = costed(rates, [(period, cycles) + (0,) * len(rates) for period, cycles, *_ in tasks],
                   slack, idle)
    left = [more for _, _, *lefts in tasks for more in lefts]
    for (place, cost), more in zip(list(waiting(words)), left):
        words[place] = cost + more
    return words


def ten(name, words, place):
    """Refusal 10 by the planner, whatever is lent."""
    planner('p-%s' % name, words, *ALL, refused(10, place))
    planner('p-%s-none-lent' % name, words, *NONE, refused(10, place))


# -------------------------------------------------------------- worked figures

def idle_worked():
    """What is worked in test_reference.py, and the note's own lists."""
    planner('p-idle-s-0', S, 2, 243, planned(1, 29, 30, 41, 2, 1))
    for number, (words, want) in enumerate(IDLE_WORKED, 1):
        name = 'idle-worked-%02d' % number
        _, N = counts(words)
        said = want if want[0] == 'refused' else planned(*want[1:5], *want[5])
        planner('p-' + name, words, *ALL, said)
        if want[0] == 'planned':
            planner('p-%s-exact' % name, words, N, needed(words), said)
            planner('p-%s-5' % name, words, N, needed(words) - 1, refused(5, needed(words)))
        else:
            planner('p-%s-none-lent' % name, words, *NONE,
                    want if want[1] in (2, 3, 10, 4) else refused(5, needed(words)))
        if want[0] == 'planned' and want[3] < 10_000_000:
            walk('w-%s-planned' % name, words, want[5], kept(want[2], want[3] - want[2], 0)
                 if N == 1 else None)
        program('a-' + name, text_of(words))
    written('t-idle-1010', THOUSAND_TEN)
    write('t-idle-1010-much-lent', THOUSAND_TEN, want=wrote(IDLE_TEXT))
    read_back('r-idle-1010', THOUSAND_TEN)
    walk('w-idle-1010-slow', THOUSAND_TEN, [1], kept(90, 10, 0))
    walk('w-idle-1010-fast', THOUSAND_TEN, [2], kept(10, 90, 0))
    roomed('a-idle-1010', IDLE_TEXT, plan_lines(1, 90, 100, 1_010, [1], 0))


# ------------------------------------------------------------------ refusal 10

def idle_ten():
    """Both sides of refusal 10, at each energy of small sets and at some of a large one.

    Catches 'at most' for 'below', an end moved by one, a job time rounded down, H alone, one
    rate or one task looked at for all, and a place that is counted wrongly.
    """
    for label, rates, N, idle in (('least', (1, 2), 1, 3), ('pair', (2, 3, 7), 2, 5),
                                  ('whole', range(3, 11), 32, 7)):
        M = len(rates)
        base = raised(rates, [(400, 20 + task) + (0,) * M for task in range(N)], idle, 259)
        planner('p-ten-%s-equal' % label, base)
        places = [place for place, _ in waiting(base)]
        if label == 'whole':
            places = [place for place in places if place in (
                energies_of(8, 1), energies_of(8, 1) + 7, energies_of(8, 2), energies_of(8, 17) + 3,
                energies_of(8, 32), energies_of(8, 32) + 7)]
        for place in places:
            low = put(base, place, base[place] - 1)
            ten('ten-%s-%d' % (label, place), low, place)
            planner('p-ten-%s-%d-more' % (label, place), put(base, place, base[place] + 1))
            planner('p-ten-%s-%d-1' % (label, place), put(base, place, 1), *ALL, refused(10, place))
        for last in places[1:]:
            low = put(put(base, places[0], 1), last, 1)
            planner('p-ten-%s-%d-and-%d' % (label, places[0], last), low, *ALL,
                    refused(10, places[0]))
    # Of several the first, by tasks and then by rates; both orders, at 3 tasks and 3 rates.
    base = raised((1, 2, 3), [(60, 12, 0, 0, 0)] * 3, 4)
    energies = [place for place, _ in waiting(base)]
    for a in energies:
        for b in energies:
            if a < b:
                planner('p-ten-first-%d-of-%d' % (a, b), put(put(base, a, 1), b, 1), *ALL,
                        refused(10, a))
    planner('p-ten-all', [1 if place in energies else word for place, word in enumerate(base)],
            *ALL, refused(10, energies[0]))
    # H and job times at their ends, and energies about their product.
    for idle in (1, 2, 999, 1_000):
        for time in (1, 2, 1_000):
            for more in (-1, 0, 1):
                energy = idle * time + more
                if not 1 <= energy <= 1_000_000:
                    continue
                words = costed((1, 1_000), [(5_000, time, energy, 1_000)], 100, idle)
                planner('p-ten-h-%d-time-%d-energy-%d' % (idle, time, energy), words, *ALL,
                        refused(10, 9) if more < 0 else None)
    # Cycles on either side of a full tick: 7 x 3 and 7 x 4 ticks.
    for cycles, energy, low in ((15, 21, False), (15, 20, True), (16, 21, True), (16, 27, True),
                                (16, 28, False), (11, 20, True), (11, 21, False), (10, 20, False)):
        planner('p-ten-cycles-%d-energy-%d' % (cycles, energy),
                costed((5, 50), [(60, cycles, energy, 7)], 100, 7), *ALL,
                refused(10, 9) if low else None)
    # Products past 32 bits: at 32 bits 512 x 2^23 is 0, and 512 x 2^22 is below 0 where it is signed.
    for label, idle, cycles in (('0', 512, 2 ** 23), ('1', 1, 4_000_000_000), ('sign', 512, 2 ** 22),
                                ('most', 1_000, 4_000_000_000), ('1000', 1_000, 4_294_968)):
        words = costed((1, 1_000_000), [(10_000_000, cycles, 1_000_000, 1_000_000)], 100, idle)
        ten('ten-wraps-%s' % label, words, 9)
    # An energy that no plan would use: at a rate that is too slow, at one that is dearer than
    # another and has more load, in a set without a plan, and all but the one that is taken.
    ten('ten-unused-slow', raised((1, 2), [(10, 15, -1, 5)], 3), 9)
    ten('ten-unused-dear', raised((1, 2, 4), [(40, 20, 0, -1, 0)], 3), 11)
    ten('ten-unused-no-plan', raised((1, 2), [(10, 21, 0, -1)], 3), 10)
    ten('ten-used', raised((1, 2), [(10, 15, 5, -1)], 3), 10)
    ten('ten-all-but-one', raised((1, 2, 4), [(20, 20, -1, 0, -1)], 3), 10)


def idle_order():
    """10 comes after 2 and 3, and before 4, 5, 6 and 7."""
    low = raised((1, 2), [(9_999_999, 4, 0, 0), (10_000_000, 4, 0, -1)], 5)
    late = raised((1, 2), [(30, 61, 0, 0), (30, 61, -1, 0)], 5)
    good = raised((1, 2), [(30, 6, 0, 0), (30, 6, -1, 0)], 5)
    for much, lent in (('all', ALL), ('none', NONE)):
        planner('p-ten-and-4-%s' % much, low, *lent, refused(10, 15))
        planner('p-ten-and-7-%s' % much, late, *lent, refused(10, 14))
        planner('p-ten-and-4-and-7-%s' % much, put(low, 7, 4_000_000_000), *lent, refused(10, 9))
        planner('p-3-and-ten-%s' % much, put(good, 4, 1), *lent, refused(3, 4))
        planner('p-3-and-ten-and-4-%s' % much, put(low, 4, 1), *lent, refused(3, 4))
        for place in (0, 1, 2, 3, 5, 6, 7, 8, 10, 13, 15):
            bad = with_bad(low, place)
            planner('p-2-at-%02d-and-ten-%s' % (place, much), bad, *lent, refused(2, place))
        planner('p-2-missing-and-ten-%s' % much, low[:-1], *lent, refused(2, 15))
        planner('p-2-left-over-and-ten-%s' % much, low + [1], *lent, refused(2, 16))
    W = needed(good)
    for label, J, A in (('5', 2, W - 1), ('6', 1, W), ('5-and-6', 1, W - 1), ('enough', 2, W)):
        planner('p-ten-and-%s' % label, good, J, A, refused(10, 14))
    # The same without the low energy: 4, 5, 6, 7 and a plan.
    planner('p-not-ten-4', put(low, 15, 10), *ALL, refused(4, 11))
    planner('p-not-ten-7', put(late, 14, 305), *ALL, refused(7, 0))
    good[14] = 30
    for label, J, A, want in (('5', 2, W - 1, refused(5, W)), ('6', 1, W, refused(6, 2)),
                              ('5-and-6', 1, W - 1, refused(5, W)),
                              ('enough', 2, W, planned(1, 6, 30, 150, 2, 2))):
        planner('p-not-ten-%s' % label, good, J, A, want)


def idle_others():
    """Lists of refusal 10: checks of a set, walk, writer and reader answer as if nothing were wrong;
    they are the planner's and the program's to refuse."""
    for label, words, plans in (
            ('1010', put(THOUSAND_TEN, 9, 899), ([1], [2])),
            ('s', put(S, IDLE_AT, 1), ([1, 1], [2, 1], [1, 3], [3, 3])),
            ('s-most', put(S, IDLE_AT, 1_000), ([1, 1], [2, 1])),
            ('all', raised((1, 2, 4), [(20, 20, -1, -1, -1)] * 3, 9), ([1, 1, 1], [3, 3, 3])),
            ('late', raised((1, 2), [(30, 61, -1, -1)], 7), ([1], [2]))):
        M, N = counts(words)
        plain = put(words, IDLE_AT, 0)
        place = next(place for place, cost in waiting(words) if words[place] < cost)
        ten('ten-others-%s' % label, words, place)
        check('c-ten-%s' % label, words, r.check_set(plain))
        for plan in plans:
            walk('w-ten-%s-%s' % (label, '-'.join(map(str, plan))), words, plan,
                 r.walk(plain, plan))
        walk('w-ten-%s-bad-plan' % label, words, [M + 1] * N, refused(8, 0))
        walk('w-ten-%s-no-plan' % label, words, [], refused(8, 0))
        written('t-ten-%s' % label, words)
        read_back('r-ten-%s' % label, words)
        program('a-ten-%s' % label, text_of(words), want=refusal(10, place))
    # With 4 the walk says 4, where the planner says 10.
    low = raised((1, 2), [(9_999_999, 4, 0, 0), (10_000_000, 4, 0, -1)], 5)
    walk('w-ten-and-4', low, [1, 1], refused(4, 11))
    check('c-ten-and-4', low, refused(4, 11))
    written('t-ten-and-4', low)
    program('a-ten-and-4', text_of(low), want=refusal(10, 15))
    # Refusal 10 with as many bytes lent as it prints, and less.
    roomed('a-ten', text_of(put(THOUSAND_TEN, 9, 899)), refusal(10, 9))


# ---------------------------------------------------------- units and energies

def idle_nothing_left():
    """Energies of which nothing is left without those of the idle processor.

    Catches a first unit of 0, an energy of 0 that counts 1, a stop where k is 0, and energies
    that are reported without the idle ticks or with those of busy ones.
    """
    for N in (1, 2, 3, 32):
        for M in (2, 8):
            # All: by load, so the highest rate, and of equal job times the lowest of the numbers.
            tasks = [(840, 8 if task % 2 else 7) + (0,) * M for task in range(N)]
            for slack in (259, 1_000):
                name = 'p-left-0-%d-tasks-%d-rates-%d' % (N, M, slack)
                planner(name, raised(range(1, M + 1), tasks, 11, slack))
            # Only at the highest rate, at the lowest, and at both but not between.
            for label, left in (('highest', [5] * (M - 1) + [0]), ('lowest', [0] + [5] * (M - 1)),
                                ('ends', [0] + [5] * (M - 2) + [0])):
                tasks = [(840, 8, *left)] * N
                planner('p-left-0-%s-%d-of-%d' % (label, N, M),
                        raised(range(1, M + 1), tasks, 11, 500))
    # Of the fastest plan nothing is left: first unit 1, and the slow rates cost more by 1, by much.
    for more in (1, 2, 1_000, 900_000):
        for slack in (1, 100, 1_000):
            planner('p-left-0-fastest-%d-slack-%d' % (more, slack),
                    raised((1, 3), [(12, 12, more, 0)], 7, slack), 1, 8_002,
                    planned(1, 4, 12, 84, 2))
            # Of the slowest: every unit has a k of 0, from the first one down to 1.
            planner('p-left-0-slowest-%d-slack-%d' % (more, slack),
                    raised((1, 3), [(12, 12, 0, more)], 7, slack), 1, 8_002,
                    planned(1, 12, 12, 84, 1))
    # It does not fit, and what is left of the fast rate decides the unit.
    for left in (1, 2, 31, 32, 33, 64, 1_000):
        planner('p-left-0-does-not-fit-%d' % left, raised((1, 2), [(11, 12, 0, left)], 9, 1_000))
    # Some tasks have nothing left, others have: k counts these alone, and N all.
    for N in (2, 3, 4):
        for zero in range(N + 1):
            for left in (1, 3, 8):
                tasks = [(60, 6, 0, 0) if task < zero else (60, 6, left, left + 1)
                         for task in range(N)]
                planner('p-left-%d-but-%d-of-%d' % (left, zero, N),
                        raised((1, 2), tasks, 13, 1_000))


def idle_units():
    """What is left decides unit, rounding and plan, whatever H is.

    Catches units, rounding or ties by the list's own energies, H for jobs and not for ticks,
    and rounding before the idle energy is left out.
    """
    # One task with e left at both rates; with H the same unit and plan as without.
    for e in (1, 2, 3, 32, 33, 1_000, 1_025, 500_000):
        for slack in (1, 500, 1_000):
            unit = 1
            while unit < e:
                unit *= 2
            while unit > 1 and slack * -(-e // unit) < 2_000:
                unit //= 2
            for idle in (1, 64, 1_000):
                planner('p-left-%d-slack-%d-h-%d' % (e, slack, idle),
                        raised((1, 2), [(10, 10, e, e)], idle, slack), 1, 8_002,
                        planned(unit, 5, 10, e + idle * 10, 2))
    # The document's set, with its energies raised: its plans, and 30 x H more.
    tasks = [(10, 12, 4, 9, 20), (15, 20, 7, 15, 30)]
    for idle in (1, 2, 3, 40, 100, 999, 1_000):
        for slack, (unit, load, energy, *plan) in ((100, (1, 29, 41, 2, 1)),
                                                   (1_000, (8, 28, 42, 1, 2))):
            words = raised((2, 4, 8), tasks, idle, slack)
            planner('p-raised-s-h-%d-slack-%d' % (idle, slack), words, 2, needed(words),
                    planned(unit, load, 30, energy + 30 * idle, *plan))
    # Not raised: each H up to the one that refuses, with plans that change on the way.
    for idle in range(0, 21):
        words = costed((1, 3, 4, 8), [(48, 24, 240, 100, 90, 70), (24, 12, 120, 60, 45, 36)], 300,
                       idle)
        planner('p-by-h-%02d' % idle, words, *ALL,
                None if idle <= 10 else refused(10, energies_of(4, 1)))
    # A full load has no idle tick, and one of L - 1 has one.
    for label, tasks in (('2-4', [(2, 1), (4, 2)]), ('3-3-3', [(3, 1)] * 3), ('30-60', PAST_ONE),
                         ('many', [(64, 2)] * 32)):
        for idle in (1, 50, 1_000):
            full = [(period, time * 2, 1, 3) for period, time in tasks]
            planner('p-full-%s-h-%d' % (label, idle), raised((2, 4), full, idle, 259))
            over = full[:-1] + [(full[-1][0], full[-1][1] + 1, 1, 3)]
            planner('p-one-over-%s-h-%d' % (label, idle), raised((2, 4), over, idle, 259))
            none = [(period, time * 4 + 1, 1, 3) for period, time in tasks]
            planner('p-none-fits-%s-h-%d' % (label, idle), raised((2, 4), none, idle, 259),
                    want=refused(7, 0))
    # Ties of what is left go to the lesser load, though the jobs cost more or less there.
    for slack in (2, 100, 1_000):
        planner('p-left-alike-%d' % slack, raised((1, 2, 3), [(12, 12, 7, 7, 7)] * 2, 20, slack))
        planner('p-given-alike-%d' % slack,
                costed((1, 2, 3), [(40, 12, 240, 240, 240)] * 2, slack, 20))
        for a, b in ((1_000, 1_001), (1_001, 1_000), (1_024, 1_025)):
            planner('p-left-%d-and-%d-slack-%d' % (a, b, slack),
                    raised((1, 2), [(10, 4, a, b)] * 2, 20, slack))


def idle_limits():
    """The largest numbers together.

    Catches H x L, H x ticks or energies left at 32 bits, and sums that wrap.
    """
    L = 10_000_000
    for idle in (1, 999, 1_000):
        # One tick of 10,000,000, and all of them.
        words = raised((1, 2), [(L, 1, 1, 2)], idle, 100)
        planner('p-one-tick-of-l-h-%d' % idle, words, *ALL, planned(1, 1, L, idle * L + 1, 1))
        planner('p-dear-tick-of-l-h-%d' % idle,
                costed((1, 2), [(L, 1, 1_000_000, 1_000_000)], 100, idle))
        planner('p-each-tick-of-l-h-%d' % idle,
                costed((1, 2), [(1, 1, 1_000_000, 999_999), (L, 1, 1_000_000, 1_000_000)], 10, idle),
                want=refused(7, 0))
        planner('p-every-tick-of-l-h-%d' % idle, costed((1, 2), [(1, 1, 1_000_000, 999_999),
                (1, 1, 1_000_000, 1_000_000)], 10, idle), want=refused(7, 0))
        planner('p-most-jobs-h-%d' % idle,
                costed((1, 2), [(1, 1, 1_000_000, 999_999)], 1, idle), 1, 8_002)
        planner('p-half-of-l-h-%d' % idle,
                costed((1, 2), [(2, 2, 1_000_000, 1_000_000), (L, 9, 1_000_000, 1_000_000)], 10,
                       idle))
        # Periods whose multiple is L, and a job of 1,000 ticks about as dear as waiting.
        for slack in (20, 1_000):
            for ticks in (999, 1_000, 1_001):
                tasks = [(128, 32, 32_000, 32_000), (78_125, 100, 500_000, 900_000),
                         (L, ticks, 1_000_000, 1_000_000)]
                planner('p-10000000-of-%d-slack-%d-h-%d' % (ticks, slack, idle),
                        costed((1, 2), tasks, slack, idle), *ALL,
                        refused(10, energies_of(2, 3)) if idle * ticks > 1_000_000 else None)
    # 4,000,000,000 cycles take 4,001 ticks at 999,993 and 4,000 at 1,000,000.
    whole = [999_993 + i for i in range(8)]
    most = [(L, 4_000_000_000) + (1_000_000,) * 8] * 32
    for slack in (259, 1_000):
        planner('p-most-words-h-249-%d' % slack, costed(whole, most, slack, 249))
        planner('p-most-words-h-250-%d' % slack, costed(whole, most, slack, 250), *ALL,
                refused(10, energies_of(8, 1)))
        planner('p-most-words-h-1000-%d' % slack, costed(whole, most, slack, 1_000), *ALL,
                refused(10, energies_of(8, 1)))
        tasks = [(32, 1_000_000) + (1_000_000,) * 8] * 31
        last = (L, 1_000_000_000) + (1_000_000,) * 8
        planner('p-most-energy-h-1000-%d' % slack, costed(whole[:7] + [1_000_000], tasks + [last],
                slack, 999))
    walk('w-most-words-h-1000', costed(whole, most, 1_000, 1_000), [9] * 32, refused(8, 0))
    # The table's widest slack, and 5 at H of 1,000.
    words = raised(range(1, 9), [(96, 3) + tuple(range(8))] * 32, 1_000, 258)
    planner('p-h-1000-slack-258', words, *ALL, refused(5, 16_401))
    planner('p-h-1000-slack-259', put(words, 0, 259), *ALL)


# ------------------------------------------------------------------- the line

SLACK, RATES, GIVEN = b'(slack 5)\n', b'(rates 6 7)\n', line_of(1, 2, 3, 4)
CLOCKS = (('rates', RATES, GIVEN), ('xscale', b'(chip xscale)\n', chip_line(1, 2)),
          ('ppc405lp', b'(chip ppc405lp)\n', chip_line(1, 2)))


def idle_lines():
    """Where an idle line may stand: right behind the slack line, once, and nowhere else; and what
    there is without it."""
    line = b'(idle 9)\n'
    for label, clock, task in CLOCKS:
        def departs(what, text, at):
            read('r-idle-%s-%s' % (label, what), text, want=refused(1, at))

        head, whole = SLACK + line + clock, SLACK + line + clock + task
        M, own = (2, 0) if label == 'rates' else (len(CHIPS[label]), CHIP_IDLE[label])
        size = length_of(M, 1)
        for what, text, H in (('absent', SLACK + clock + task, own), ('given', whole, 9),
                              ('0', SLACK + b'(idle 0)\n' + clock + task, 0),
                              ('own', SLACK + b'(idle %d)\n' % own + clock + task, own)):
            words = costed((6, 7), [(1, 2, 3, 4)], 5, H) if label == 'rates' else \
                expanded(label, 5, [(1, 2)], H)
            name = 'r-idle-%s-%s' % (label, what)
            read(name, text, size, was_read(words))
            read(name + '-much-lent', text, want=was_read(words))
            read(name + '-a-word-short', text, size - 1, refused(6, size))
            read(name + '-none-lent', text, 0, refused(6, size))
        departs('twice', SLACK + line + line + clock + task, len(SLACK + line) + 1)
        departs('twice-of-0', SLACK + b'(idle 0)\n' * 2 + clock + task, len(SLACK + line) + 1)
        departs('before-slack', line + SLACK + clock + task, 1)
        departs('no-slack', line + clock + task, 1)
        departs('for-slack', line + line + clock + task, 1)
        departs('behind', SLACK + clock + line + task, len(SLACK + clock) + 1)
        departs('before-and-behind', head + line + task, len(head) + 1)
        departs('behind-a-task', SLACK + clock + task + line, len(SLACK + clock + task) + 1)
        departs('between-tasks', head + task + line + task, len(head + task) + 1)
        departs('at-the-end', whole + line, len(whole) + 1)
        departs('no-clock', SLACK + line + task, len(SLACK + line) + 1)
        departs('alone', SLACK + line, len(SLACK + line))
        departs('no-task', head, len(head))
        departs('slack-twice', SLACK + line + SLACK + clock + task, len(SLACK + line) + 1)
        departs('on-the-slack-line', SLACK[:-1] + b' ' + line + clock + task, len(SLACK) - 1)
        departs('in-the-slack-form', b'(slack 5 (idle 9))\n' + clock + task, 8)
        departs('empty-line-before', SLACK + b'\n' + line + clock + task, len(SLACK))
        departs('empty-line-behind', SLACK + line + b'\n' + clock + task, len(SLACK + line))
        departs('no-line-end', SLACK + line[:-1] + clock + task, len(SLACK + line) - 1)
        departs('return', SLACK + line[:-1] + b'\r\n' + clock + task, len(SLACK + line) - 1)
        departs('space-behind', SLACK + line[:-1] + b' \n' + clock + task, len(SLACK + line) - 1)
        for before in (0, 31):
            tasks = task * before
            departs('as-task-%d' % (before + 1), head + tasks + line, len(head + tasks) + 1)
        departs('33rd-task', head + task * 33, len(head + task * 32))
        departs('33rd-line', head + task * 32 + line, len(head + task * 32))
        words = costed((6, 7), [(1, 2, 3, 4)] * 32, 5, 9) if label == 'rates' else \
            expanded(label, 5, [(1, 2)] * 32, 9)
        read('r-idle-%s-32-tasks' % label, head + task * 32, len(words), was_read(words))
    for label, odd, departs in (
            ('idles', b'(idles 9)', 5), ('closed', b'(idle)', 5), ('no-number', b'(idle )', 6),
            ('two-numbers', b'(idle 9 9)', 7), ('brackets', b'(idle (9))', 6),
            ('upper', b'(IDLE 9)', 1), ('title', b'(Idle 9)', 1), ('second-upper', b'(iDle 9)', 2),
            ('idl', b'(idl 9)', 4), ('idel', b'(idel 9)', 3), ('i', b'(i 9)', 2), ('wait', b'(wait 9)', 1),
            ('dle', b'(dle 9)', 1), ('irates', b'(irates 1 2)', 2), ('ichip', b'(ichip xscale)', 2),
            ('idle-rates', b'(idle rates 1 2)', 6), ('idle-xscale', b'(idle xscale)', 6),
            ('chip-idle', b'(chip idle 9)', 6), ('rates-idle', b'(rates idle 9)', 7),
            ('no-bracket', b'idle 9', 0), ('space-inside', b'( idle 9)', 1), ('tab', b'(idle\t9)', 5),
            ('two-spaces', b'(idle  9)', 6), ('two-closed', b'(idle 9))', 8),
            ('not-closed', b'(idle 9', 7), ('switch', b'(switch 9)', 1)):
        read('r-idle-line-' + label, SLACK + odd + b'\n' + RATES + GIVEN,
             want=refused(1, len(SLACK) + departs))


def idle_bytes():
    """The idle line cut at every byte, with every byte wrong, left out and doubled; before rates and
    before a chip."""
    for label, clock, task in CLOCKS[:2]:
        text = SLACK + b'(idle 17)\n' + clock + task
        begin, end = len(SLACK), len(SLACK) + 10
        for at in range(begin, end + 3):
            read('r-idle-%s-cut-%02d' % (label, at), text[:at], (MOST_READ, 0)[at % 2],
                 refused(1, at))
        for at in range(begin, end):
            byte = text[at]
            for wrong in sorted({byte ^ 32, byte + 1, *b'(5 \n'} - {byte, *FOR_LINE_END}):
                read('r-idle-%s-wrong-%02d-%d' % (label, at, wrong),
                     text[:at] + bytes([wrong]) + text[at + 1:], (MOST_READ, 0)[at % 2])
            read('r-idle-%s-left-out-%02d' % (label, at), text[:at] + text[at + 1:])
            read('r-idle-%s-doubled-%02d' % (label, at), text[:at + 1] + text[at:])


def idle_numbers():
    """H replaced, and the longest texts that there are with it. Its range is not judged."""
    for count, (odd, departs) in enumerate(ODD_NUMBERS):
        for label, clock, task in CLOCKS[count % 3:count % 3 + 1] if count > 22 else CLOCKS:
            begin = len(SLACK + b'(idle ')
            text = SLACK + b'(idle ' + odd.encode('latin-1') + b')\n' + clock + task
            if departs is not None:
                want = refused(1, begin + departs)
            elif label == 'rates':
                want = was_read(costed((6, 7), [(1, 2, 3, 4)], 5, int(odd)))
            else:
                want = was_read(expanded(label, 5, [(1, 2)], int(odd)))
            read('r-idle-%s-number-%02d' % (label, count), text, (13, MOST_READ)[count % 2], want
                 if label == 'rates' or departs is not None or count % 2 else None)
    for H in (999, 1_000, 1_001):
        read_back('r-idle-of-%d' % H, put(THOUSAND_TEN, IDLE_AT, H))
    longest = text_of(put(put([TOP] * r.MOST_WORDS, M_AT, 8), task_count(8), 32))
    assert len(longest) < 6_000
    read('r-idle-longest', longest, r.MOST_WORDS)
    read('r-idle-longest-a-word-short', longest, r.MOST_WORDS - 1, refused(6, 364))
    read('r-idle-longest-cut', longest[:-1], want=refused(1, len(longest) - 1))
    read('r-idle-longest-more', longest + b'\n', want=refused(1, len(longest)))
    for chip, most in MOST_CYCLES.items():
        tasks = [(TOP, most)] * 32
        read('r-idle-longest-%s' % chip, chip_text(chip, TOP, tasks, TOP),
             want=was_read(expanded(chip, TOP, tasks, TOP)))
        # 9 with an idle line, and 1 before it.
        dear = chip_text(chip, 5, [(7, 9), (7, most + 1)], 1_001)
        read('r-idle-%s-9' % chip, dear, 0, refused(9, 2))
        read('r-idle-%s-9-cut' % chip, dear[:-1], 0, refused(1, len(dear) - 1))


def idle_written():
    """The line is written only if H is above 0; and each length of H."""
    write('t-idle-0', S, want=wrote(EXAMPLE))
    for M, N in ((2, 1), (3, 2), (8, 32)):
        for H in (0, 1, 9, 10, 99, 100, 999, 1_000):
            words = put(same_tasks(M, N), IDLE_AT, H)
            name = 't-idle-%d-of-%d-rates-%d' % (H, M, N)
            if N == 32:
                write(name, words, len(text_of(words)), wrote(text_of(words)))
                continue
            written(name, words)
            write(name + '-none-lent', words, 0, refused(6, len(text_of(words))))
            assert (b'(idle ' in text_of(words)) == (H > 0), name
    # As many bytes as without the line, and one about the line's.
    words = put(S, IDLE_AT, 7)
    for more in (0, 8, 9, 10):
        write('t-idle-7-and-%d' % more, words, len(EXAMPLE) + more,
              wrote(text_of(words)) if more >= 9 else refused(6, len(EXAMPLE) + 9))
    for H in (1_001, 2 ** 31, TOP):
        for lent in (0, MOST_WRITTEN):
            write('t-idle-%d-lent-%d' % (H, lent), put(S, IDLE_AT, H), lent, refused(2, IDLE_AT))
    write('t-idle-1001-and-slack-0', put(put(S, IDLE_AT, 1_001), 0, 0), want=refused(2, 0))
    write('t-idle-1001-and-rates', put(put(S, IDLE_AT, 1_001), 4, 2), want=refused(2, IDLE_AT))
    write('t-idle-1000-and-rates', put(put(S, IDLE_AT, 1_000), 4, 2), want=refused(3, 4))


# ---------------------------------------------------------------- the program

def idle_programs():
    """Texts with an idle line, 0 too, and without one; chips with their own H and with another; and
    where 10 stands among the program's refusals."""
    for H, want in ((0, plan_lines(8, 10, 100, 200, [2], 0)),
                    (1, None), (9, None), (10, plan_lines(1, 90, 100, 1_010, [1], 0)),
                    (11, refusal(10, 9)), (20, refusal(10, 9)), (21, refusal(10, 9)),
                    (1_000, refusal(10, 9)), (1_001, refusal(2, 1)), (TOP, refusal(2, 1))):
        program('a-idle-of-%d' % H, head_of(100, (1, 9), H) + line_of(100, 90, 910, 200),
                want=want)
    program('a-idle-of-4294967296', head_of(100, (1, 9), TOP + 1) + line_of(100, 90, 910, 200),
            want=refusal(1, len(front_of(100)) + len(b'(idle ') + 9))
    program('a-idle-absent', head_of(100, (1, 9)) + line_of(100, 90, 910, 200),
            want=plan_lines(8, 10, 100, 200, [2], 0))
    roomed('a-idle-too-high', head_of(100, (1, 9), 1_001) + line_of(100, 90, 910, 200),
           refusal(2, 1))
    # 20 x 10 are 200: the fast rate's energy too has nothing left, and the slow one's is high.
    program('a-idle-20-slow-dear', head_of(100, (1, 9), 20) + line_of(100, 90, 1_900, 200),
            want=plan_lines(1, 10, 100, 2_000, [2], 0))
    # All faults at once, and then from the first on one less.
    late = costed((2, 2), [(9_999_999, 4_000_000_000, 1, 1), (10_000_000, 4_000_000_000, 1, 1)], 1,
                  1_001)
    program('a-idle-1-before-2', text_of(late)[:-1], want=refusal(1, len(text_of(late)) - 1))
    program('a-idle-2-before-3', text_of(late), want=refusal(2, 1))
    late[IDLE_AT] = 1_000
    program('a-idle-3-before-10', text_of(late), want=refusal(3, 4))
    late[RATE_AT + 1] = 3
    program('a-idle-10-before-4', text_of(late), want=refusal(10, 9))
    late[IDLE_AT] = 0
    program('a-idle-4-then', text_of(late), want=refusal(4, 11))
    late[period_of(2, 2)], late[IDLE_AT] = 9_999_999, 1
    program('a-idle-10-before-5', text_of(late), want=refusal(10, 9))
    late[0] = 2
    program('a-idle-10-before-7', text_of(late), want=refusal(10, 9))

    for chip, slowest in (('xscale', 80), ('ppc405lp', 19)):
        own, M = CHIP_IDLE[chip], len(CHIPS[chip])
        tasks = [(40, 1_000_000), (20, 500_000)]
        first = energies_of(M, 1)
        for H in (None, 0, 1, own - 1, own, own + 1, slowest - 1, slowest):
            name = 'a-idle-%s-%s' % (chip, 'absent' if H is None else H)
            text = chip_text(chip, 500, tasks, H)
            program(name, text)
            # The same as with its rates and energies, and with the same as its own.
            program(name + '-given', text_of(expanded(chip, 500, tasks, H)), want=r.respond(text))
        assert r.respond(chip_text(chip, 500, tasks)) == r.respond(chip_text(chip, 500, tasks, own))
        for H in (slowest + 1, 1_000):
            program('a-idle-%s-%d' % (chip, H), chip_text(chip, 500, tasks, H),
                    want=refusal(10, first))
        for H in (1_001, TOP):
            program('a-idle-%s-%d' % (chip, H), chip_text(chip, 500, tasks, H), want=refusal(2, 1))
        # At the slowest power of all one rate is left with nothing, and then two.
        for task in ((1, 1), (7, 1), (1_000, 1)):
            program('a-idle-%s-%d-ticks-most' % (chip, task[0]), chip_text(chip, 100, [task], slowest))
            program('a-idle-%s-%d-ticks' % (chip, task[0]), chip_text(chip, 100, [task]))
            program('a-idle-%s-%d-ticks-0' % (chip, task[0]), chip_text(chip, 100, [task], 0))
        program('a-idle-%s-10-before-4' % chip,
                chip_text(chip, 100, [(9_999_999, 9), (10_000_000, 9)], slowest + 1),
                want=refusal(10, first))
        program('a-idle-%s-4' % chip, chip_text(chip, 100, [(9_999_999, 9), (10_000_000, 9)], slowest),
                want=refusal(4, period_of(M, 2)))
        program('a-idle-%s-9-before-10' % chip,
                chip_text(chip, 100, [(10, 9), (10, MOST_CYCLES[chip] + 1)], slowest + 1),
                want=refusal(9, 2))
        program('a-idle-%s-9-before-2' % chip,
                chip_text(chip, 100, [(10, 9), (10, MOST_CYCLES[chip] + 1)], 1_001),
                want=refusal(9, 2))
        program('a-idle-%s-10-before-5' % chip, chip_text(chip, 1, tasks, slowest + 1),
                want=refusal(10, first))
        program('a-idle-%s-5' % chip, chip_text(chip, 1, tasks, slowest), want=refusal(5, 24_003))
        roomed('a-idle-%s-own' % chip, chip_text(chip, 250, tasks), r.respond(
            text_of(expanded(chip, 250, tasks, own))))


# ------------------------------------------------------------- random records

def some_idle(draw):
    """A set with an idle energy, most of them without refusal 10."""
    words = some_large(draw) if draw.between(1, 20) == 1 else some_planned(draw)
    return words if words[IDLE_AT] > 0 else with_idle(draw, words)


def random_idle_plans():
    draw = Draw(SEED + 12)
    tens = 0
    for number in range(1, RANDOM_IDLE_PLANS + 1):
        words = some_idle(draw)
        _, N = counts(words)
        if draw.between(1, 10) == 1:
            # One energy a bit, or far, below what waiting costs; or several.
            for _ in range(draw.one_of([1, 1, 3])):
                place, cost = draw.one_of(list(waiting(words)))
                words[place] = max(1, min(cost - draw.one_of([1, 1, cost // 2]), 1_000_000))
        tens += r.plan(words, N, MOST_WORK)[:2] == ('refused', 10)
        planner('ri%04d' % number, words, *draw.one_of(
            [ALL, (N, needed(words)), (N, needed(words)), (N - 1, needed(words)), NONE]))
    assert 40 <= tens <= RANDOM_IDLE_PLANS // 3, tens


def random_idle_programs():
    draw = Draw(SEED + 13)
    number = 0
    while number < RANDOM_IDLE_PROGRAMS:
        words = some_idle(draw)
        if not short_span(words):
            continue
        number += 1
        text = text_of(words)
        if number % 5 == 0:                             # another H than that of the energies
            text = text.replace(b'(idle %d)' % words[IDLE_AT], b'(idle %d)' % draw.one_of(
                [0, 1, words[IDLE_AT] + 1, draw.between(0, 1_000), 1_001]), 1)
        program('ai%04d' % number, text, draw.one_of([MOST_PRINTED] * 9 + [draw.between(0, 99)]))


def random_idle_texts():
    """Texts with an idle line: as they are, damaged in their first lines, or with a line too many."""
    draw = Draw(SEED + 14)
    for number in range(1, RANDOM_IDLE_TEXTS + 1):
        M, N = draw.between(2, 4), draw.one_of([1, 1, 2])
        words = put(some_words(draw, M, N), IDLE_AT, some_number(draw))
        text = head_of(words[0], words[RATE_AT:RATE_AT + M], words[IDLE_AT]) + task_lines(words)
        if draw.between(1, 4) == 1:
            chip = draw.one_of(list(CHIPS))
            text = chip_text(chip, words[0], [(7, draw.between(0, MOST_CYCLES[chip]))] * N,
                             words[IDLE_AT])
        how, front = draw.between(1, 6), text.index(b'(task')
        if how <= 3:
            text = damaged_text(draw, text[:front], b'dhilx') + text[front:]
        elif how == 4:
            at = draw.one_of([at + 1 for at, byte in enumerate(text) if byte == b'\n'[0]])
            text = text[:at] + b'(idle %d)\n' % some_number(draw) + text[at:]
        K = length_of(M, N)
        read('ti%04d' % number, text, draw.one_of([K, K + 1, MOST_READ, MOST_READ, K - 1, 0]))
