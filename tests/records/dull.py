"""Records of the dull engine, which is of document 02's note 7: the planner's call without working
words, by going through all plans."""

import reference as r
from records.shared import (
    Draw, IDLE_AT, MOST_LENT, PAST_ONE, RANDOM_DULLS, RATE_AT, S, SEED, TOP, costed, counts, damaged,
    energies_of, first_of, outside, period_of, places_of, planned, put, record, refused, same_tasks,
    task_count, with_firsts, with_periods, with_rates)
from records.idle import raised
from records.margin import some_small
from records.planner import judged_plan, planned_fastest, some_energies, some_planned
from test_reference import DULL_WORKED, IDLE_WORKED, MARGIN_WORKED, MOST_OF, alike, at_margin

ASKED = 2_100                   # up to so many plans the reference's own engine goes through them
PLENTY = 10 ** 9                # working words, for the planner


def judged_dull(name, words, plan_len):
    """The answer of the dull engine: 11 where M has more tasks than MOST_OF, unless check 2, 3, 10 or
    4 comes first, else that of the planner with enough working words. The reference's own engine
    must say the same; of a set with many plans it is not asked, unless it refuses before it would
    go through them."""
    answer = judged_plan(name, words, plan_len, PLENTY)
    good = answer[0] == 'planned' or answer[1] not in (2, 3, 10, 4)
    M, N = counts(words) if good else (2, 1)
    if N > MOST_OF[M]:
        answer = refused(11, 0)
    if not good or N > MOST_OF[M] or plan_len < N or M ** N <= ASKED:
        assert r.dull(words, plan_len) == answer, name
    return answer


def dull(name, words, plan_len=MOST_LENT, want=None):
    assert 0 <= plan_len <= MOST_LENT, name
    answer = judged_dull(name, words, plan_len)
    if answer[0] == 'planned':
        answer = planned(*answer[1:5], *answer[5])
    record('d', name, [words], answer, want, (plan_len,))


def exact(name, words, want=None):
    """With just as many words for the plan as there are tasks."""
    dull(name, words, counts(words)[1], want)


# -------------------------------------------------------------- worked figures

def dull_worked():
    """The scope document's cases of the planner, and what is worked in test_reference.py."""
    dull('d-document-set', S, 2, planned(1, 29, 30, 41, 2, 1))
    dull('d-document-set-slack-1000', put(S, 0, 1_000), 2, planned(8, 28, 30, 42, 1, 2))
    dull('d-60-cycles-in-30-ticks', costed((1, 2), [(30, 60, 1, 1)]), 1, planned(1, 30, 30, 1, 2))
    dull('d-61-cycles-in-30-ticks', costed((1, 2), [(30, 61, 1, 1)]), 1, refused(7, 0))
    dull('d-slack-of-0', put(S, 0, 0), 2, refused(2, 0))
    dull('d-empty-list', [], 0, refused(2, 0))
    dull('d-rates-4-4', with_rates((4, 4)), 1, refused(3, 4))
    dull('d-periods-9999999-10000000', with_periods((9_999_999, 10_000_000)), 2, refused(4, 11))
    dull('d-period-10000000', costed((1, 2), [(10_000_000, 1, 1, 1)]), 1,
         planned(1, 1, 10_000_000, 1, 1))
    dull('d-33-at-every-rate', costed((1, 2), [(10, 10, 33, 33)], 1_000), 1,
         planned(32, 5, 10, 33, 2))
    dull('d-fastest-costs-most', costed((1, 2), [(10, 1, 1, 1_000_000)] * 3), 3,
         planned(1, 3, 10, 3, 1, 1, 1))

    def said(want):
        return want if want[0] == 'refused' else planned(*want[1:5], *want[5])

    for number, (words, lent, want) in enumerate(DULL_WORKED, 1):
        dull('d-worked-%02d' % number, words, lent, said(want))
    for number, (words, want) in enumerate(IDLE_WORKED, 1):
        exact('d-idle-worked-%02d' % number, words, said(want))
    for number, (words, want, _) in enumerate(MARGIN_WORKED, 1):
        exact('d-margin-worked-%02d' % number, words, said(want))


# -------------------------------------------------------------------- refusals

def dull_checks():
    """Refusals 2, 3, 10 and 4, whatever is lent for the plan.

    Catches a check that is left out or made for other words than the planner's, and 11, 6 or 7
    found before them.
    """
    for label, M, N in (('least', 2, 1), ('pair', 3, 2)):
        base = same_tasks(M, N)
        for what, kind, place in places_of(M, N):
            for word in outside(kind):
                dull('d-%s-%s-%d' % (label, what, word), put(base, place, word),
                     place % 2 * MOST_LENT, refused(2, place))
    for length in range(len(S)):
        dull('d-cut-%02d' % length, S[:length], length % 2 * MOST_LENT, refused(2, length))
    for lent in (0, 2):
        dull('d-left-over-lent-%d' % lent, S + [1], lent, refused(2, len(S)))
        dull('d-rates-equal-lent-%d' % lent, put(S, RATE_AT + 2, 4), lent, refused(3, RATE_AT + 2))
        dull('d-rates-fall-lent-%d' % lent, put(S, RATE_AT, 5), lent, refused(3, RATE_AT + 1))
        dull('d-over-by-1-lent-%d' % lent, with_periods((11, 909_091)), lent, refused(4, 11))
    dull('d-m-9', put(S, RATE_AT - 1, 9), 2, refused(2, RATE_AT - 1))
    dull('d-m-4294967295', put(S, RATE_AT - 1, TOP), 2, refused(2, RATE_AT - 1))
    dull('d-n-33', put(S, task_count(3), 33), 2, refused(2, task_count(3)))
    dull('d-n-2147483650', put(S, task_count(3), 2 ** 31 + 2), 2, refused(2, task_count(3)))
    for task in (2, 3, 12):
        periods = [4_999_999] + [1] * (task - 2) + [3] + [1] * (12 - task)
        dull('d-over-at-%02d' % task, with_periods(periods), want=refused(4, period_of(2, task)))
    # 10 at each energy of a small set, either side; of several the first.
    base = raised((2, 3, 7), [(40, 20, 0, 0, 0), (40, 21, 0, 0, 0)], 5)
    exact('d-ten-equal', base)
    energies = [energies_of(3, task) + j for task in (1, 2) for j in range(3)]
    for place in energies:
        low = put(base, place, base[place] - 1)
        exact('d-ten-%d' % place, low, refused(10, place))
        exact('d-ten-%d-more' % place, put(base, place, base[place] + 1))
        dull('d-ten-%d-and-last' % place, put(low, energies[-1], 1), 0, refused(10, place))


def dull_order():
    """Two causes at once: the first in the order 2, 3, 10, 4, 11, 6, 7. And all of them, each of
    which is then taken away."""
    over = with_periods((9_999_999, 10_000_000))
    low = put(raised((1, 2), [(30, 40, 0, 0)] * 2, 3), 15, 1)
    many = alike(2, 20)
    none = costed((1, 2), [(4, 5, 1, 1)] * 2)
    many_over = [*many[:6], *over[6:], *many[16:]]
    many_low = put(raised((1, 2), [(40, 2, 1, 1)] * 20, 3), 105, 2)
    for name, words, lent, want in (
            ('2-and-3', put(over, 4, 1)[:-1], 2, refused(2, 15)),
            ('2-and-11', many[:-1], 20, refused(2, 105)),
            ('2-and-11-at-the-start', put(many, 0, 0), 0, refused(2, 0)),
            ('2-and-6', put(S, 18, 0), 0, refused(2, 18)),
            ('3-and-10', put(low, 4, 1), 2, refused(3, 4)),
            ('3-and-4', put(over, 4, 1), 2, refused(3, 4)),
            ('3-and-11', put(many, 4, 1), 20, refused(3, 4)),
            ('3-and-7', put(none, 4, 1), 2, refused(3, 4)),
            ('10-and-4', put(put(low, 6, 9_999_999), 11, 10_000_000), 2, refused(10, 15)),
            ('10-and-11', many_low, 20, refused(10, 105)),
            ('10-and-6', low, 1, refused(10, 15)),
            ('10-and-7', put(put(low, 7, 4_000), 9, 1), 2, refused(10, 9)),
            ('4-and-11', many_over, 20, refused(4, 11)),
            ('4-and-11-none-lent', many_over, 0, refused(4, 11)),
            ('4-and-6', over, 1, refused(4, 11)),
            ('4-and-7', put(over, 7, 4_000_000_000), 2, refused(4, 11)),
            ('11-and-6', many, 19, refused(11, 0)),
            ('11-and-6-none-lent', many, 0, refused(11, 0)),
            ('11-and-7', alike(2, 20, 19), 20, refused(11, 0)),
            ('11-and-6-and-7', alike(2, 20, 19), 0, refused(11, 0)),
            ('6-and-7', none, 1, refused(6, 2)),
            ('6-and-7-none-lent', none, 0, refused(6, 2)),
            ('7', none, 2, refused(7, 0)),
            ('7-much-lent', none, MOST_LENT, refused(7, 0)),
            ('7-of-19', alike(2, 19, 18), 19, refused(7, 0))):
        dull('d-order-' + name, words, lent, want)
    # All at once: the last word, the second rate, the idle energy, the periods, 20 tasks.
    words = [100, 1, 2, 1, 1, 20, 9_999_999, 40_000, 0, 1, 1, 10_000_000, 40_000, 0, 1, 1]
    words += [10, 40_000, 0, 1, 1] * 17 + [10, 40_000, 0, 1, 0]
    for number, second, changes in ((2, 105, {105: 1}), (3, 4, {4: 2}), (10, 9, {IDLE_AT: 0}),
                                    (4, 11, {6: 10, 11: 10}), (11, 0, {5: 19})):
        dull('d-all-from-%d' % number, words, 0, refused(number, second))
        for place, word in changes.items():
            words = put(words, place, word)
    dull('d-all-from-6', words[:-5], 0, refused(6, 19))
    dull('d-all-from-7', words[:-5], 19, refused(7, 0))


def dull_lengths():
    """Refusal 6: N either side, and nothing behind N words."""
    for label, words in (
            ('one', costed((1, 2), [(30, 30, 4, 9)])), ('two', S),
            ('two-slack-1', put(S, 0, 1)),              # the planner needs 24,003 working words
            ('two-of-8', costed(range(1, 9), [(9, 9, *range(9, 1, -1))] * 2, 77)),
            ('eight', costed((1, 2), [(16, 3, 4, 9)] * 8, 18)),
            ('eleven-slack-1', costed((1, 2), [(22, 3, 4, 9)] * 11, 1))):
        _, N = counts(words)
        for lent in sorted({0, 1, N - 1, N, N + 1, MOST_LENT}):
            dull('d-%s-lent-%d' % (label, lent), words, lent, refused(6, N) if lent < N else None)


def dull_eleven():
    """Both sides of 11 for every M, with and without enough words for the plan; and powers that are
    small again at 32 or 64 bits.

    Catches another limit, N to the power M, a product that wraps, and the set of a task fewer or
    more. At the limit itself plans are chosen from up to 823,543: the first of them, the last, and
    one between.
    """
    for M in range(2, 9):
        N = MOST_OF[M]
        for tasks in (N - 1, N):
            dull('d-%d-to-the-power-%d' % (M, tasks), alike(M, tasks), tasks,
                 planned_lowest(alike(M, tasks)))
            dull('d-%d-to-the-power-%d-short' % (M, tasks), alike(M, tasks), tasks - 1,
                 refused(6, tasks))
        for tasks in (N + 1, N + 2):
            dull('d-%d-to-the-power-%d' % (M, tasks), alike(M, tasks), tasks, refused(11, 0))
        dull('d-%d-to-the-power-%d-short' % (M, N + 1), alike(M, N + 1), N, refused(11, 0))
        rates = range(1, M + 1)
        # Full at the highest rate: the last plan is the only one that fits, and with a tick more none.
        full = [(N, M, *rates)] * N
        exact('d-last-of-%d-to-the-power-%d' % (M, N), costed(rates, full, 1_000),
              planned_fastest(full, M, N, 1_000))
        exact('d-none-of-%d-to-the-power-%d' % (M, N),
              costed(rates, full[:-1] + [(N, M + 1, *rates)], 1_000), refused(7, 0))
        # Some are fast and some are not.
        tasks = [(6 * N, 5 * M + task % 3, *[(2 + task % 4) * j * j for j in rates])
                 for task in range(N)]
        exact('d-between-of-%d-to-the-power-%d' % (M, N), costed(rates, tasks, 300))
    small_again = [(M, N) for M in range(2, 9) for N in range(MOST_OF[M] + 1, 33)
                   if any(M ** N % 2 ** bits <= 1_000_000 for bits in (32, 64))]
    assert {(2, 32), (4, 16), (4, 32), (8, 11), (8, 22)} <= set(small_again)
    for M, N in small_again:
        dull('d-wraps-%d-to-the-power-%d' % (M, N), same_tasks(M, N), N, refused(11, 0))


def planned_lowest(words):
    """The answer of such a set: all at rate number 1, where each task costs 1. So k is N at every
    unit, and with a slack below 2,000 it is unit 1."""
    _, N = counts(words)
    return planned(1, N, N, N, *[1] * N)


# ----------------------------------------------------------- which plan it is

def dull_ties():
    """Equal rounded energies, equal loads.

    Catches task N changing fastest, the last of those alike, the first or the last of equal energy
    whatever the load, and true energies compared in place of rounded ones.
    """
    for N in (1, 2, 3, 5):
        for M in (2, 3, 8):
            if M ** N <= ASKED:
                exact('d-all-equal-%d-tasks-%d-rates' % (N, M),
                      costed(range(1, M + 1), [(64, 1) + (5,) * M] * N, 1_000),
                      planned(4, N, 64, 5 * N, *[1] * N))
    for slack in (100, 1_000):
        exact('d-equal-energies-%d' % slack, costed((1, 2, 3, 4), [(12, 12, 7, 7, 7, 7)], slack))
        exact('d-equal-job-times-%d' % slack,
              costed((3, 4, 6, 7), [(12, 12, 9, 7, 7, 7), (12, 13, 8, 8, 8, 8)], slack))
    for a in range(4):
        for b in range(a + 1, 4):
            tasks = [(11, 6, 2, 3) if i in (a, b) else (11, 1, 1, 1) for i in range(4)]
            exact('d-twins-at-%d-and-%d' % (a + 1, b + 1), costed((1, 2), tasks),
                  planned(1, 11, 11, 7, *[2 if i == a else 1 for i in range(4)]))
            tasks = [(p, c, 100 * e, 101 * f) for p, c, e, f in tasks]
            exact('d-twins-at-%d-and-%d-rounded' % (a + 1, b + 1), costed((1, 2), tasks, 1_000))
    for N in (2, 3, 5):
        for fast in range(N + 1):
            period = 4 * (N - fast) + 2 * fast
            exact('d-%d-of-%d-twins-fast' % (fast, N), costed((1, 2), [(period, 4, 1, 3)] * N),
                  planned(1, period, period, N + 2 * fast, *[2] * fast, *[1] * (N - fast)))
    for N in (2, 3, 4):
        tasks = [(6 * N - 2, 12, 1, 2, 3)] * N
        exact('d-1-and-3-or-2-and-2-%d' % N, costed((2, 3, 6), tasks))
        exact('d-1-and-3-or-2-and-2-%d-fast' % N, costed((2, 3, 6), [(4 * N, 12, 1, 2, 3)] * N))
    for N in (2, 3, 5):
        for at in sorted({1, (N + 1) // 2, N}):
            tasks = [(96, 1, 1, 5, 9)] * N
            tasks[at - 1] = (96, 2, 9, 4, 4)            # rates 2 and 3: one tick, one energy
            exact('d-two-rates-alike-at-%d-of-%d' % (at, N), costed((1, 2, 3), tasks, 500))
            tasks[at - 1] = (96, 3, 9, 4, 4)            # rate 3 has the lesser load
            exact('d-less-load-at-%d-of-%d' % (at, N), costed((1, 2, 3), tasks, 500))
    for label, energies in (('more', (1_000, 1_001)), ('less', (1_001, 1_000)),
                            ('same', (1_000, 1_000)), ('unit', (1_024, 1_025))):
        for slack in (1, 100, 1_000):
            exact('d-rounded-alike-%s-%d' % (label, slack),
                  costed((1, 2), [(10, 4, *energies)], slack))
        exact('d-rounded-alike-%s-3-tasks' % label, costed((1, 2), [(12, 4, *energies)] * 3, 30))
    for slack in (1, 2, 10, 99, 101, 199, 200, 201, 333, 334, 500, 667, 999):
        exact('d-document-set-slack-%d' % slack, put(S, 0, slack))


def dull_units():
    """The first unit, the halving and the stop.

    Catches the best of one unit kept for the next, another first unit, 'above' for 'at least', and
    unit 1 passed by.
    """
    for e in (1, 2, 3, 4, 5, 8, 9, 33, 1_023, 1_025, 524_289, 1_000_000):
        for slack in (1, 500, 1_000):
            unit = 1
            while unit < e:
                unit *= 2
            while unit > 1 and slack * -(-e // unit) < 2_000:
                unit //= 2
            exact('d-energy-%d-slack-%d' % (e, slack), costed((1, 2), [(10, 10, e, e)], slack),
                  planned(unit, 5, 10, e, 2))
    for N in (1, 3, 8):
        exact('d-fastest-costs-least-%d' % N, costed((1, 2), [(64, 2, 1_000_000, 1)] * N, 300),
              planned(1, N, 64, N, *[2] * N))
        exact('d-slowest-costs-least-%d' % N, costed((1, 2), [(64, 2, 1, 1_000_000)] * N, 300))
    for N in (2, 3):
        for e in range(1, 7):
            for slack in (400, 667, 1_000):
                exact('d-stop-%d-tasks-of-%d-slack-%d' % (N, e, slack),
                      costed((1, 2), [(12, 2, e, e + 1)] * N, slack))
    for slack in (1_000, 667, 17):
        for N, idle in ((1, 0), (2, 7), (4, 0)):
            for unit in (2, 32, 1_024):
                exact('d-reach-%d-slack-%d-of-%d' % (unit, slack, N), at_margin(slack, unit, N, idle))
    # Nothing is left of some energies, of all, or of those at the highest rate: the unit is 1.
    for label, lefts in (('all', (0, 0, 0)), ('the-fastest', (5, 3, 0)), ('the-slowest', (0, 3, 5)),
                         ('the-middle', (4, 0, 9)), ('two', (0, 7, 0))):
        for N in (1, 2, 4):
            for slack in (1, 1_000):
                exact('d-nothing-left-%s-%d-tasks-%d' % (label, N, slack),
                      raised((1, 2, 3), [(24, 6, *lefts)] * N, 9, slack))
    # Each rate number chosen.
    for M in (2, 5, 8):
        rates = range(1, M + 1)
        for cheap in rates:
            exact('d-cheap-at-%d-of-%d' % (cheap, M),
                  costed(rates, [(840, 840, *[2 if rate == cheap else 9 for rate in rates])], 1))


def dull_loads():
    """A load of exactly L fits, one of L + 1 does not; and the largest numbers.

    Catches 'below L', sums at 32 bits, and a sum that is kept up by less than it should be.
    """
    for cycles, want in ((29, planned(1, 29, 30, 1, 1)), (30, planned(1, 30, 30, 1, 1)),
                         (31, planned(1, 16, 30, 5, 2)), (60, planned(1, 30, 30, 5, 2)),
                         (61, refused(7, 0))):
        exact('d-%d-cycles-of-30' % cycles, costed((1, 2), [(30, cycles, 1, 5)], 1), want)
    for label, tasks, L in (
            ('2-4', [(2, 1), (4, 2)], 4), ('2-3-6', [(2, 1), (3, 1), (6, 1)], 6),
            ('10-15-30', [(10, 3), (15, 6), (30, 9)], 30), ('30-60', PAST_ONE, 60),
            ('7-11-13', [(7, 2), (11, 3), (13, 4), (1_001, 134)], 1_001)):
        N = len(tasks)
        cheap = [(period, time * 2, 1, 3) for period, time in tasks]
        exact('d-full-%s' % label, costed((2, 4), cheap, 259))
        for at in range(N):
            over = [(p, c + (i == at), 1, 3) for i, (p, c, _, _) in enumerate(cheap)]
            exact('d-over-at-%d-%s' % (at + 1, label), costed((2, 4), over, 259))
        full = [(period, time * 4, 1, 3) for period, time in tasks]
        exact('d-only-fastest-%s' % label, costed((2, 4), full, 259), planned_fastest(full, 2, L, 259))
        full[-1] = (full[-1][0], full[-1][1] + 1, 1, 3)
        exact('d-none-fits-%s' % label, costed((2, 4), full, 259), refused(7, 0))
    span = 2 ** 23
    for label, time in (('0', 512), ('1-job', 513), ('half', 256), ('64-bits', 4_000_000_000)):
        exact('d-load-wraps-%s' % label, costed((1, 8), [(1, time, 1, 9), (span, 4 * span, 1, 9)]),
              refused(7, 0))
    for label, time in (('0', 1_024), ('1-job', 1_025), ('much', 1_000_000)):
        exact('d-load-wraps-slow-%s' % label,
              costed((1, 1_000_000), [(2, time, 1, 9), (span, time, 1, 9)]))
    for energy in (512, 1_024, 1_025):
        exact('d-task-energy-past-32-bits-%d' % energy,
              costed((1, 2), [(2, 2, energy, 1), (span, 1, energy, 1)], 2))
    whole = [999_993 + i for i in range(8)]
    for N in (3, 6):
        exact('d-every-word-at-its-most-%d' % N,
              costed(whole, [(10_000_000, 4_000_000_000) + (1_000_000,) * 8] * N, 1))
    exact('d-most-energy', costed(
        (1, 1_000_000), [(1, 1, 1_000_000, 1_000_000)] + [(10_000_000, 1, 1, 1)] * 18, 1),
        refused(7, 0))
    exact('d-most-energy-of-19', costed(
        (1, 1_000_000), [(20, 1, 1_000_000, 999_999)] * 18
        + [(10_000_000, 1_000_000, 1_000_000, 1_000_000)], 1))
    exact('d-most-load', costed((1, 2), [(1, 4_000_000_000, 1, 1)] * 18 + [(10_000_000, 1, 1, 1)]),
          refused(7, 0))
    exact('d-most-idle', costed((1, 2), [(10_000_000, 1_000, 1_000_000, 999_999)] * 2, 1, 1_000))
    exact('d-every-word-at-its-least', costed((1, 2), [(1, 1, 1, 1)], 1), planned(1, 1, 1, 1, 1))


def dull_firsts():
    """First releases: their range, and nothing else of them."""
    for A, want in ((9, planned(1, 29, 30, 41, 2, 1)), (10, refused(2, 9)), (TOP, refused(2, 9))):
        exact('d-first-%d-of-10' % A, put(S, 9, A), want)
    for firsts in ((0, 14), (9, 14), (3, 7)):
        exact('d-first-s-%d-%d' % firsts, with_firsts(S, firsts), planned(1, 29, 30, 41, 2, 1))
        exact('d-first-s-1000-%d-%d' % firsts, with_firsts(put(S, 0, 1_000), firsts),
              planned(8, 28, 30, 42, 1, 2))
    exact('d-first-none-fits', costed((1, 2), [(4, 5, 1, 1)] * 2)[:8] + [3, 1, 1, 4, 5, 3, 1, 1],
          refused(7, 0))


# ------------------------------------------------------------- random records

def some_few(draw):
    """A set of few tasks: two or three rates and up to 7 of them, or up to 8 rates and 2 or 3."""
    M = draw.between(2, 8)
    N = draw.between(1, {2: 7, 3: 5, 4: 4}.get(M, 3))
    rates = draw.rising(M, draw.one_of([M, 12, 40]))
    periods = draw.one_of([[6, 8, 12, 24], [10, 15, 30], [20, 25, 50, 100], [7, 14, 28]])
    filling = rates[draw.between(0, M - 1)] * draw.one_of([0.6, 0.9, 1.0, 1.1]) / N
    shape = draw.one_of(['random', 'rising', 'falling', 'small', 'small', 'equal', 'edge'])
    tasks = []
    for _ in range(N):
        period = draw.one_of(periods)
        cycles = max(1, int(period * filling * (0.4 + 1.1 * draw.random())))
        tasks.append((period, cycles, *some_energies(draw, M, shape)))
        if draw.between(1, 5) == 1:
            tasks[-1] = tasks[0]
    return costed(rates, tasks, draw.one_of([1, 5, 100, 1_000, draw.between(1, 1_000)]))


def random_dulls():
    draw = Draw(SEED + 20)
    seen = {}
    for number in range(1, RANDOM_DULLS + 1):
        words = some_few(draw)
        if number % 3 == 0:
            words = some_small(draw)
        if number % 5 == 0:
            words = some_planned(draw)
            while counts(words)[1] > 4 or counts(words)[0] ** counts(words)[1] > ASKED:
                words = some_planned(draw)
        M, N = counts(words)
        if draw.between(1, 8) == 1:
            task = draw.between(1, N)
            words = put(words, first_of(M, task), words[period_of(M, task)] - 1)
        lent = draw.one_of([N, N, N, N, N, N + 1, MOST_LENT])
        how = draw.between(1, 24)
        if how <= 2:
            words = damaged(draw, words)
        if how == 3:
            lent = draw.between(0, N - 1)
        name = 'rd%04d' % number
        answer = judged_dull(name, words, lent)
        kinds = [answer[:2] if answer[0] == 'refused' else 'planned']
        if answer[0] == 'planned':
            kinds += ['unit 1' if answer[1] == 1 else 'unit above 1'] + ['idle'] * (words[1] > 0)
        for kind in kinds:
            seen[kind] = seen.get(kind, 0) + 1
        dull(name, words, lent)
    for kind, part in (('planned', 2), ('unit 1', 10), ('unit above 1', 4), ('idle', 10),
                       (('refused', 7), 20), (('refused', 2), 50), (('refused', 6), 50)):
        assert seen.get(kind, 0) >= RANDOM_DULLS // part, (kind, seen)
