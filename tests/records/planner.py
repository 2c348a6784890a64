"""Records of the planner, and random sets for it."""

import reference as r
from records.shared import (
    Draw, FEW_PLANS, IDLE_AT, LONGEST_RANDOM, M_AT, MOST_LENT, MOST_WORK, PAST_ONE, RANDOM_PLANS,
    RATE_AT, S, SEED, TOP, costed, counts, damaged, energies_of, needed, outside, period_of,
    places_of, planned, put, record, refused, same_tasks, task_count, task_set, task_words,
    with_periods, with_rates)
from records.walk import some_walk
from test_reference import lowered


def waiting(words):
    """For each energy of a list its place, and what an idle processor takes in the ticks of its
    job: full ticks, and one more where cycles are left."""
    M, N = counts(words)
    for task in range(1, N + 1):
        at = period_of(M, task)
        for j in range(M):
            full, left = divmod(words[at + 1], words[RATE_AT + j])
            yield energies_of(M, task) + j, words[IDLE_AT] * (full + (left > 0))


def judged_plan(name, words, plan_len, work_len):
    """The reference's answer for the planner, held to what else is known of it."""
    said = r.check_set(words)
    few = said[0] == 'good' and said[1] ** said[2] <= FEW_PLANS
    answer = r.plan(words, plan_len, work_len, 'all' if few else 'table')
    if answer[0] == 'planned' or answer[1] > 3:
        # Checks 2 and 3 are passed, and 10 comes before all that follows.
        below = [place for place, idle in waiting(words) if words[place] < idle]
        if below:
            assert answer == refused(10, below[0]), name
        assert below or answer[:2] != ('refused', 10), name
    if answer == refused(7, 0) or answer[0] == 'planned':
        if few:
            assert r.plan(words, plan_len, work_len, 'table') == answer, name
            fault = r.objection(words, answer, LONGEST_RANDOM)
            assert fault is None, '%s: %r: %s' % (name, answer, fault)
        elif answer[0] == 'planned':
            _, _, load, L, energy, rates = answer
            assert (load, energy) == (r.load_of(words, rates), r.energy_of(words, rates)), name
            assert load <= L, name
            if L <= LONGEST_RANDOM:
                together = r.released_together(words)
                assert r.walk(together, rates)[:3] == ('kept', load, L - load), name
        # The same set with its idle energy taken out of all energies has the same plan.
        other = lowered(words) if words[IDLE_AT] > 0 else None
        if other:
            other = r.plan(other, plan_len, work_len)
            if answer[0] == 'planned':
                _, _, _, L, energy, _ = answer
                assert other == (*answer[:4], energy - words[IDLE_AT] * L, answer[5]), name
            else:
                assert other == answer, name
    return answer


def planner(name, words, plan_len=MOST_LENT, work_len=MOST_WORK, want=None):
    assert 0 <= plan_len <= MOST_LENT and 0 <= work_len <= MOST_WORK, name
    answer = judged_plan(name, words, plan_len, work_len)
    if answer[0] == 'planned':
        answer = planned(*answer[1:5], *answer[5])
    record('p', name, [words], answer, want, (plan_len, work_len))


def planned_fastest(tasks, M, L, slack):
    """The answer where the plan with every task at rate M is the only one that
    fits, with a load of L."""
    energies = [L // task[0] * task[-1] for task in tasks]
    unit = 1
    while unit < sum(energies):
        unit *= 2
    while unit > 1 and slack * sum(-(-e // unit) for e in energies) < 2_000 * len(tasks):
        unit //= 2
    return planned(unit, L, L, sum(energies), *[M] * len(tasks))


def planner_document():
    """The scope document's own cases of the planner."""
    planner('p-document-set', S, 2, 243, planned(1, 29, 30, 41, 2, 1))
    planner('p-document-set-242-words', S, 2, 242, refused(5, 243))
    planner('p-document-set-slack-1000', put(S, 0, 1_000), 2, 27, planned(8, 28, 30, 42, 1, 2))
    planner('p-document-set-slack-1000-26-words', put(S, 0, 1_000), 2, 26, refused(5, 27))
    planner('p-60-cycles-in-30-ticks', costed((1, 2), [(30, 60, 1, 1)]), 1, 82,
            planned(1, 30, 30, 1, 2))
    planner('p-61-cycles-in-30-ticks', costed((1, 2), [(30, 61, 1, 1)]), 1, 82, refused(7, 0))
    planner('p-slack-of-0', put(S, 0, 0), 2, 243, refused(2, 0))
    planner('p-empty-list', [], 0, 0, refused(2, 0))
    planner('p-empty-list-much-lent', [], want=refused(2, 0))
    planner('p-rates-4-4', with_rates((4, 4)), want=refused(3, 4))
    planner('p-periods-9999999-10000000', with_periods((9_999_999, 10_000_000)),
            want=refused(4, 11))
    planner('p-period-10000000', costed((1, 2), [(10_000_000, 1, 1, 1)]), 1, 82,
            planned(1, 1, 10_000_000, 1, 1))
    # One task whose task energy is 33 at every rate: rounded down it gets 16.
    planner('p-33-at-every-rate', costed((1, 2), [(10, 10, 33, 33)], 1_000), 1, 10,
            planned(32, 5, 10, 33, 2))
    # The reviewer's first attempt: the fastest rates fit, and cost too much.
    planner('p-fastest-costs-most', costed((1, 2), [(10, 1, 1, 1_000_000)] * 3), 3, MOST_WORK,
            planned(1, 3, 10, 3, 1, 1, 1))


def planner_checks():
    """Refusals 2, 3 and 4 by the planner, whatever is lent.

    The checks are the same as those of checks.py; here they must come before 5, 6
    and 7, at every kind of place, also where the set has no plan that fits.
    """
    lent = {'all': (MOST_LENT, MOST_WORK), 'none': (0, 0)}
    for label, M, N in (('least', 2, 1), ('pair', 3, 2), ('whole', 8, 32)):
        base = same_tasks(M, N)
        for what, kind, place in places_of(M, N):
            for word in outside(kind) if label == 'whole' else [*outside(kind), TOP]:
                for much, (J, A) in lent.items():
                    if label == 'whole' and much == 'none':
                        continue                        # long lines, so fewer of them
                    planner('p-%s-%s-%d-%s' % (label, what, word, much), put(base, place, word),
                            J, A, refused(2, place))
    # Missing words, M and N among them, and left-over ones.
    for label, base in (('least', same_tasks(2, 1)), ('document-set', S)):
        for length in range(len(base)):
            planner('p-%s-cut-%02d' % (label, length), base[:length], *lent[
                'none' if length % 2 else 'all'], want=refused(2, length))
        for much, (J, A) in lent.items():
            for word in (0, 1, TOP):
                planner('p-%s-left-over-%d-%s' % (label, word, much), base + [word], J, A,
                        refused(2, len(base)))
            planner('p-%s-twice-%s' % (label, much), base * 2, J, A, refused(2, len(base)))
    whole = same_tasks(8, 32)
    for length in (1, 2, 3, 10, 11, 12, 13, 14, 22, 363):
        planner('p-whole-cut-%03d' % length, whole[:length], want=refused(2, length))
    planner('p-whole-left-over', whole + [1], want=refused(2, 364))
    for M in (2 ** 31 + 2, TOP - 1):
        planner('p-m-%d' % M, put(S, M_AT, M), want=refused(2, M_AT))
    for N in (715_827_883, 2 ** 31 + 2):
        planner('p-n-%d' % N, put(S, task_count(3), N), want=refused(2, task_count(3)))

    # Rates: the first and the last pair, equal and falling.
    eight = [10, 20, 30, 40, 50, 60, 70, 80]
    for pair in (1, 2, 6, 7):
        for what, rate in (('equal', eight[pair - 1]), ('below', eight[pair - 1] - 1)):
            words = with_rates(eight[:pair] + [rate] + eight[pair + 1:])
            for much, (J, A) in lent.items():
                planner('p-rates-%s-at-%d-%s' % (what, RATE_AT + pair, much), words, J, A,
                        refused(3, RATE_AT + pair))
    planner('p-rates-two-faults', with_rates((1, 2, 2, 3, 3)), want=refused(3, 5))

    # The hyper-period: passed at the second task, the last of 32, and between.
    for M in (2, 8):
        for task in (2, 3, 17, 31, 32):
            periods = [4_999_999] + [1] * (task - 2) + [3] + [1] * (32 - task)
            planner('p-over-at-%02d-of-%d-rates' % (task, M), with_periods(periods, M),
                    want=refused(4, period_of(M, task)))
    over = with_periods((9_999_999, 10_000_000))
    for much, (J, A) in lent.items():
        planner('p-over-%s' % much, over, J, A, refused(4, 11))
        planner('p-over-by-1-%s' % much, with_periods((11, 909_091)), J, A, refused(4, 11))

    # Two faults at once: 2 before 3 before 4, and each before 5, 6 and 7; idle.py has 10.
    falling = put(put(over, 3, 2), 4, 2)
    late = put(put(over, 7, 4_000_000_000), 12, 4_000_000_000)
    for much, (J, A) in lent.items():
        planner('p-3-and-4-%s' % much, falling, J, A, refused(3, 4))
        planner('p-2-and-3-and-4-%s' % much, put(falling, 15, 0), J, A, refused(2, 15))
        planner('p-2-and-4-%s' % much, put(over, 15, 0), J, A, refused(2, 15))
        planner('p-2-and-3-left-over-%s' % much, falling + [1], J, A, refused(2, 16))
        planner('p-2-and-3-missing-%s' % much, falling[:-1], J, A, refused(2, 15))
        planner('p-4-and-7-%s' % much, late, J, A, refused(4, 11))
        planner('p-3-and-4-and-7-%s' % much, put(late, 4, 1), J, A, refused(3, 4))
    none = costed((1, 2), [(30, 61, 1, 1)])
    for much, (J, A) in lent.items():
        planner('p-2-and-7-%s' % much, put(none, 0, 0), J, A, refused(2, 0))
        planner('p-3-and-7-%s' % much, put(none, 4, 1), J, A, refused(3, 4))


def planner_lengths():
    """Refusals 5 and 6: W and N either side.

    Catches F rounded up or to nearest, N and N + 1 mistaken for each other, M
    in place of N, 'at most' for 'below', W at 16 bits, the plan's length asked
    before the working words, and 7 found before 5 or 6 is asked.
    """
    # W where 4,000 x N / G is whole, just below and just above a whole number.
    for N in (1, 2, 3, 4, 5, 8, 15, 16, 17, 31, 32):
        for G in (1, 2, 3, 7, 63, 64, 99, 100, 101, 257, 258, 259, 333, 500, 999, 1_000):
            words = task_set((1, 2), [(64, 2)] * N, G)
            W = (N + 1) * (4_000 * N // G + 1)
            planner('p-w-of-%d-tasks-slack-%d' % (N, G), words, MOST_LENT, min(W - 1, MOST_WORK),
                    refused(5, W))
    # Both lists either side of what is needed, and much more.
    for label, words in (
            ('one', costed((1, 2), [(30, 30, 4, 9)])),
            ('one-slack-1', costed((1, 2), [(30, 30, 4, 9)], 1)),
            ('two', S), ('two-slack-2', put(S, 0, 2)), ('two-slack-1000', put(S, 0, 1_000)),
            ('two-of-8', costed(range(1, 9), [(9, 9, *range(9, 1, -1))] * 2, 77)),
            ('three-slack-3', costed((1, 2), [(9, 5, 4, 9)] * 3, 3)),
            ('eight-slack-18', costed((1, 2), [(16, 3, 4, 9)] * 8, 18)),
            ('sixteen-slack-67', costed((1, 2), [(32, 3, 4, 9)] * 16, 67)),
            ('many', costed((1, 2), [(64, 3, 4, 9)] * 32, 1_000)),
            ('many-slack-259', costed((1, 2), [(64, 3, 4, 9)] * 32, 259))):
        N, W = counts(words)[1], needed(words)
        assert W <= MOST_WORK, label
        answer = r.plan(words, N, W)
        assert answer[0] == 'planned', label
        answer = (*answer[:5], *answer[5])
        # Among them N rows in place of N + 1, and rows of F words in place of F + 1.
        for A in sorted({0, 1, W - W // (N + 1), W - (N + 1), W - 1, W, W + 1, MOST_WORK}):
            if A <= MOST_WORK:
                planner('p-%s-%d-words' % (label, A), words, N, A,
                        answer if A >= W else refused(5, W))
        for J in sorted({0, 1, N - 1, N, N + 1, N + 5, MOST_LENT}):
            planner('p-%s-plan-of-%d' % (label, J), words, J, W,
                    answer if J >= N else refused(6, N))
        planner('p-%s-5-and-6' % label, words, N - 1, W - 1, refused(5, W))
        planner('p-%s-5-and-6-none' % label, words, 0, 0, refused(5, W))
    # No plan fits, and too little is lent.
    for label, words in (('one', costed((1, 2), [(30, 61, 1, 1)])),
                         ('two', put(put(S, 8, 81), 14, 121)),
                         ('three-rates', costed((1, 2, 3), [(4, 6, 1, 1, 1)] * 3, 1_000))):
        N, W = counts(words)[1], needed(words)
        planner('p-none-fits-%s' % label, words, N, W, refused(7, 0))
        planner('p-none-fits-%s-5' % label, words, N, W - 1, refused(5, W))
        planner('p-none-fits-%s-6' % label, words, N - 1, W, refused(6, N))
        planner('p-none-fits-%s-5-and-6' % label, words, N - 1, W - 1, refused(5, W))
        planner('p-none-fits-%s-much-lent' % label, words, want=refused(7, 0))
    # W at its most, and a W that is small again at 16 bits.
    most = task_set((1, 2), [(64, 2)] * 32, 1)
    planner('p-w-at-its-most', most, want=refused(5, 4_224_033))
    planner('p-w-at-its-most-and-6', most, 0, MOST_WORK, refused(5, 4_224_033))
    planner('p-w-at-its-most-none-fits', task_set((1, 2), [(1, 2)] * 32, 1),
            want=refused(5, 4_224_033))
    words = task_set((1, 2), [(64, 2)] * 7, 3)          # 8 x 9,334; 9,136 at 16 bits
    planner('p-w-past-16-bits', words, 7, 9_136, refused(5, 74_672))


def planner_loads():
    """A load of exactly L fits, one of L + 1 does not.

    Catches 'below L', utilisations added as rounded fractions, a job time
    rounded down, a load cut to 32 bits, and sums of cut loads that wrap.
    """
    # One task: the cheap rate at L - 1, L and L + 1; then the dear one.
    for cycles, want in ((29, planned(1, 29, 30, 1, 1)), (30, planned(1, 30, 30, 1, 1)),
                         (31, planned(1, 16, 30, 5, 2)), (59, planned(1, 30, 30, 5, 2)),
                         (60, planned(1, 30, 30, 5, 2)), (61, refused(7, 0)),
                         (62, refused(7, 0))):
        planner('p-%d-cycles-of-30' % cycles, costed((1, 2), [(30, cycles, 1, 5)], 1), 1, 8_002,
                want)
    # Two and more tasks: the cheapest plan has exactly L, or one tick more.
    for label, tasks, L in (
            ('2-4', [(2, 1), (4, 2)], 4), ('2-3-6', [(2, 1), (3, 1), (6, 1)], 6),
            ('3-3-3', [(3, 1), (3, 1), (3, 1)], 3), ('4-6-12', [(4, 1), (6, 3), (12, 3)], 12),
            ('10-15-30', [(10, 3), (15, 6), (30, 9)], 30), ('5-7', [(5, 3), (7, 2), (35, 4)], 35),
            ('9-15', [(9, 4), (15, 7), (45, 4)], 45), ('30-60', PAST_ONE, 60),
            ('7-11-13', [(7, 2), (11, 3), (13, 4), (1_001, 134)], 1_001),
            ('many', [(64, 2)] * 32, 64)):
        N = len(tasks)
        assert sum(L // period * time for period, time in tasks) == L, label
        for slack in (259, 1_000):
            # Cheap at rate 1: load L is taken. With one cycle more somewhere
            # that task, or another, must be faster.
            cheap = [(period, time * 2, 1, 3) for period, time in tasks]
            planner('p-full-%s-%d' % (label, slack), costed((2, 4), cheap, slack))
            for at in sorted({0, N // 2, N - 1}):
                over = [(p, c + (i == at), 1, 3) for i, (p, c, _, _) in enumerate(cheap)]
                planner('p-over-at-%d-%s-%d' % (at + 1, label, slack), costed((2, 4), over, slack))
            # Full at the highest rates: the only plan that fits, and none.
            full = [(period, time * 4, 1, 3) for period, time in tasks]
            planner('p-only-fastest-%s-%d' % (label, slack), costed((2, 4), full, slack),
                    want=planned_fastest(full, 2, L, slack))
            full[-1] = (full[-1][0], full[-1][1] + 1, 1, 3)
            planner('p-none-fits-%s-%d' % (label, slack), costed((2, 4), full, slack),
                    want=refused(7, 0))
            # Each job time is a bit more than a whole number of ticks.
            bits = [(period * 2, time * 2 + 1, 1, 3) for period, time in tasks]
            planner('p-bits-%s-%d' % (label, slack), costed((2, 4), bits, slack))
    # Loads that are small again at 32 bits: 2^23 jobs of 512 ticks are 2^32.
    span = 2 ** 23
    for label, time in (('0', 512), ('1-job', 513), ('half', 256), ('64-bits', 4_000_000_000)):
        tasks = [(1, time, 1, 9), (span, 4 * span, 1, 9)]
        planner('p-load-wraps-%s' % label, costed((1, 8), tasks), want=refused(7, 0))
    for label, time in (('0', 1_024), ('half', 512), ('1-job', 1_025), ('much', 4_000_000_000)):
        # At rate 1 the load wraps, at the highest rate it fits.
        tasks = [(2, time if time < 10 ** 6 else 10 ** 6, 1, 9), (span, time, 1, 9)]
        planner('p-load-wraps-slow-%s' % label, costed((1, 1_000_000), tasks))
    # 32 loads of 400 x L at rate 1, of L at rate 2: sums of them, cut or not, are
    # far above L, and only rate 3 is left for each.
    tasks = [(10_000_000, 4_000_000_000, 1, 9)] * 32
    planner('p-many-cut-loads', costed((1, 400, 1_000_000), [t + (99,) for t in tasks], 1_000))
    planner('p-many-cut-loads-none', costed((1, 2), tasks, 1_000), want=refused(7, 0))


def planner_ties():
    """Equal rounded energies, equal loads.

    Catches rate numbers settled before loads, task 1 settled before task N,
    the highest of equal rate numbers, the first or the last plan found, and
    true energies compared in place of rounded ones.
    """
    # Job time 1 at every rate and one energy: only the rate numbers differ. Of
    # the powers of two, 4 is the largest over which each task counts 2.
    for N in (1, 2, 3, 32):
        for M in (2, 8):
            tasks = [(64, 1) + (5,) * M] * N
            planner('p-all-equal-%d-tasks-%d-rates' % (N, M), costed(range(1, M + 1), tasks, 1_000),
                    want=planned(4, N, 64, 5 * N, *[1] * N))
    # Equal energies, loads that differ: the highest rate, and of equal job
    # times the lowest rate number.
    for slack in (100, 1_000):
        planner('p-equal-energies-%d' % slack, costed((1, 2, 3, 4), [(12, 12, 7, 7, 7, 7)], slack))
        planner('p-equal-job-times-%d' % slack,
                costed((3, 4, 6, 7), [(12, 12, 9, 7, 7, 7), (12, 13, 8, 8, 8, 8)], slack))
    # Twins at two of four tasks, one of which must be fast: the later of the
    # two keeps rate 1. The second form has them tie at a larger unit.
    for a in range(4):
        for b in range(a + 1, 4):
            tasks = [(11, 6, 2, 3) if i in (a, b) else (11, 1, 1, 1) for i in range(4)]
            want = planned(1, 11, 11, 7, *[2 if i == a else 1 for i in range(4)])
            for slack in (5, 100, 1_000):
                planner('p-twins-at-%d-and-%d-slack-%d' % (a + 1, b + 1, slack),
                        costed((1, 2), tasks, slack), 4, needed(costed((1, 2), tasks, slack)), want)
            tasks = [(p, c, 100 * e, 101 * f) for p, c, e, f in tasks]
            planner('p-twins-at-%d-and-%d-rounded' % (a + 1, b + 1), costed((1, 2), tasks, 1_000))
    # 2 to 6 twins of which some must be fast: the first ones.
    for N in (2, 3, 4, 5, 6):
        for fast in range(N + 1):
            # Every task takes 4 ticks, or 2: so many fit that `fast` are fast.
            period = 4 * (N - fast) + 2 * fast
            words = costed((1, 2), [(period, 4, 1, 3)] * N, 100)
            planner('p-%d-of-%d-twins-fast' % (fast, N), words, want=planned(
                1, period, period, N + 2 * fast, *[2] * fast, *[1] * (N - fast)))
    # Twins with three rates, of which 1 and 3 together tie with 2 and 2.
    for N in (2, 3, 4):
        for slack in (10, 100, 1_000):
            tasks = [(6 * N - 2, 12, 1, 2, 3)] * N
            planner('p-1-and-3-or-2-and-2-%d-%d' % (N, slack), costed((2, 3, 6), tasks, slack))
            planner('p-1-and-3-or-2-and-2-%d-%d-fast' % (N, slack),
                    costed((2, 3, 6), [(4 * N, 12, 1, 2, 3)] * N, slack))
    # Equal loads and energies, and the lower number for the later task goes with
    # the larger sum of rate numbers: 3 1 and not 1 2, in the second order 2 1.
    first, second = (5, 3, 1, 9, 3), (5, 4, 1, 3, 9)
    for slack in (2, 100, 1_000):
        planner('p-lower-last-larger-sum-%d' % slack, costed((1, 2, 3), [first, second], slack),
                want=planned(1, 5, 5, 4, 3, 1))
        planner('p-lower-last-smaller-sum-%d' % slack, costed((1, 2, 3), [second, first], slack),
                want=planned(1, 5, 5, 4, 2, 1))
    # Equal loads and energies, rate numbers that differ at one task alone:
    # first, middle, last of N.
    for N in (2, 3, 5, 32):
        for at in sorted({1, (N + 1) // 2, N - 1, N}):
            tasks = [(96, 1, 1, 5, 9)] * N
            tasks[at - 1] = (96, 2, 9, 4, 4)            # rates 2 and 3: one tick, one energy
            planner('p-two-rates-alike-at-%d-of-%d' % (at, N), costed((1, 2, 3), tasks, 500))
            tasks[at - 1] = (96, 3, 9, 4, 4)            # rate 3 has the lesser load
            planner('p-less-load-at-%d-of-%d' % (at, N), costed((1, 2, 3), tasks, 500))
    # Rounded energies are equal and true ones differ, either way of the load.
    for label, energies in (('more', (1_000, 1_001)), ('less', (1_001, 1_000)),
                            ('same', (1_000, 1_000)), ('unit', (1_024, 1_025))):
        for slack in (1, 10, 100, 1_000):
            planner('p-rounded-alike-%s-%d' % (label, slack),
                    costed((1, 2), [(10, 4, *energies)], slack))
        for slack in (3, 30, 1_000):
            planner('p-rounded-alike-%s-3-tasks-%d' % (label, slack),
                    costed((1, 2), [(10, 4, *energies)] * 3, slack))
    # The document's set at many slacks.
    for slack in (2, 3, 10, 50, 99, 101, 150, 199, 200, 201, 250, 300, 333, 334, 400, 499, 500,
                  501, 600, 666, 667, 700, 800, 900, 999):
        planner('p-document-set-slack-%d' % slack, put(S, 0, slack))


def planner_units():
    """The first unit, the halving and the stop.

    Catches a first unit taken from the slowest plan, another threshold or
    'above' for 'at least', unit 1 passed by, and rounding of the sum or per
    job. A first unit one power higher or lower gives the same answers: k is N
    at most there, and G x N is below 2,000 x N.
    """
    # One task with one energy e: the largest unit with G x ceil(e / unit) at
    # least 2,000, from the smallest power of two not below e.
    for e in (1, 2, 3, 4, 5, 7, 8, 9, 15, 16, 17, 31, 32, 33, 63, 64, 65, 999, 1_000, 1_023,
              1_024, 1_025, 524_288, 524_289, 999_999, 1_000_000):
        for slack in (1, 3, 499, 500, 501, 999, 1_000):
            unit = 1
            while unit < e:
                unit *= 2
            while unit > 1 and slack * -(-e // unit) < 2_000:
                unit //= 2
            planner('p-energy-%d-slack-%d' % (e, slack), costed((1, 2), [(10, 10, e, e)], slack), 1,
                    needed(costed((1, 2), [(10, 10, e, e)], slack)), planned(unit, 5, 10, e, 2))
    # The fastest plan costs little and does not count otherwise: the first
    # unit is small, the table narrow, and the slow rates are far outside it.
    for N in (1, 2, 3, 8, 32):
        for slack in (300, 1_000):
            tasks = [(64, 2, 1_000_000, 1)] * N
            planner('p-fastest-costs-least-%d-%d' % (N, slack), costed((1, 2), tasks, slack),
                    want=planned(1, N, 64, N, *[2] * N))
            # The fastest plan costs much, and the slow one little.
            tasks = [(64, 2, 1, 1_000_000)] * N
            planner('p-slowest-costs-least-%d-%d' % (N, slack), costed((1, 2), tasks, slack))
    # k at the first unit is N at most, and is N here: every task counts 1.
    for N in (1, 2, 5, 32):
        planner('p-each-counts-1-%d' % N, costed((1, 2), [(64, 2, 3, 1_000)] * N, 1_000))
        planner('p-each-counts-1-but-one-%d' % N,
                costed((1, 2), [(64, 2, 3, 3)] * (N - 1) + [(64, 64, 1_000_000, 1_000_000)], 1_000))
    # G x k exactly at 2,000 x N, one below and one above.
    for N in (2, 3, 4):
        for e in range(1, 10):
            for slack in (250, 400, 500, 667, 1_000):
                planner('p-stop-%d-tasks-of-%d-slack-%d' % (N, e, slack),
                        costed((1, 2), [(12, 2, e, e + 1)] * N, slack))
    # Many jobs of small energy against few of large: (L / p) counts.
    for slack in (100, 1_000):
        planner('p-many-jobs-of-1-%d' % slack,
                costed((1, 2), [(4, 1, 1, 2), (1_000, 300, 200, 300)], slack))
        planner('p-rounded-per-task-%d' % slack,
                costed((1, 2), [(4, 2, 3, 5), (6, 2, 3, 5), (12, 2, 3, 5)], slack))
    # Large units.
    for slack in (1, 10, 1_000):
        planner('p-large-unit-%d' % slack,
                costed((1, 2), [(10_000_000, 1, 1_000_000, 1_000_000)], slack))
    for slack in (2, 20, 1_000):
        planner('p-larger-unit-%d' % slack, costed(
            (1, 2), [(2, 2, 999_999, 1_000_000), (10_000_000, 5_000_000, 1, 1)], slack))


def planner_energies():
    """Energies that rise, fall, or do neither, and each rate number chosen.

    Catches a table of M entries read at M, an energy read one place off, and
    a search that takes energies to rise with the rate.
    """
    for M in range(2, 9):
        rates = range(1, M + 1)
        for cheap in range(1, M + 1):
            energies = [2 if rate == cheap else 9 for rate in rates]
            for slack in (1, 1_000):
                planner('p-cheap-at-%d-of-%d-slack-%d' % (cheap, M, slack),
                        costed(rates, [(840, 840, *energies)], slack), 1, MOST_WORK)
        # Only the highest rate fits.
        planner('p-highest-of-%d' % M, costed(rates, [(10, 10 * M, *rates)], 1), 1, 8_002,
                planned(1, 10, 10, M, M))
        planner('p-past-highest-of-%d' % M, costed(rates, [(10, 10 * M + 1, *rates)], 1), 1, 8_002,
                refused(7, 0))
        planner('p-highest-of-%d-last-task' % M,
                costed(rates, [(100, M, *rates), (100, 99 * M, *rates)], 2))
    shapes = {
        'rising': (1, 2, 4, 8, 16), 'falling': (16, 8, 4, 2, 1), 'equal': (6, 6, 6, 6, 6),
        'valley': (9, 4, 1, 5, 11), 'hill': (1, 6, 9, 5, 2), 'saw': (3, 8, 2, 9, 4),
        'one-falls': (80, 170, 160, 400, 900), 'steep': (1, 10, 1_000, 100_000, 1_000_000),
        'steep-falling': (1_000_000, 100_000, 1_000, 10, 1),
    }
    rates = (15, 40, 60, 80, 100)
    for label, energies in shapes.items():
        for N in (1, 3, 5):
            # Full at the lowest rate, between, at the highest; and too much.
            for fill in (15, 50, 79, 100, 101):
                tasks = [(12 * (1 + i % 3), fill * 12 * (1 + i % 3) // N, *energies)
                         for i in range(N)]
                if fill == 101:
                    tasks[-1] = (12, 1_300, *energies)
                slack = (5, 90, 300, 999)[(N + fill) % 4] if N < 5 else (10, 90, 300)[fill % 3]
                planner('p-%s-%d-tasks-fill-%d' % (label, N, fill), costed(rates, tasks, slack))


def planner_limits():
    """The largest numbers together, and the largest sets.

    Catches products at 32 bits (energies of a task, loads, costs), a cost cut
    to 32 bits (10^13 over a unit of 1), and a table one column too narrow.
    """
    whole = [999_993 + i for i in range(8)]
    most = [(10_000_000, 4_000_000_000) + (1_000_000,) * 8] * 32
    for slack in (259, 1_000):
        # 32 x 4,001 ticks at the lowest rate, 32 x 4,000 at the highest.
        planner('p-every-word-at-its-most-%d' % slack, costed(whole, most, slack))
        # 31 tasks of period 32 and one job time of 1 take all but 312,500.
        tasks = [(32, 1_000_000) + (1_000_000,) * 8] * 31
        last = (10_000_000, 4_000_000_000) + (1_000_000,) * 8
        planner('p-most-energy-%d' % slack, costed(whole, tasks + [last], slack))
        tasks = [(32, 999_993) + tuple(range(1_000_000, 999_992, -1))] * 31
        planner('p-most-energy-falling-%d' % slack, costed(whole, tasks + [last], slack))
    planner('p-every-word-at-its-most-slack-1', costed(whole, most, 1), want=refused(5, 4_224_033))
    planner('p-every-word-at-its-most-slack-258', costed(whole, most, 258), want=refused(5, 16_401))
    planner('p-every-word-at-its-least', costed((1, 2), [(1, 1, 1, 1)], 1), 1, 8_002,
            planned(1, 1, 1, 1, 1))
    # A slow rate a million times as dear as the fast one: its cost over the
    # unit passes 31 bits. Of 1,998 x 2,048 jobs the unit is 1,024.
    jobs = 1_998 * 2_048
    for energy in (537_000, 600_000, 999_999, 1_000_000):
        tasks = [(2, 2, energy, 1), (2 * jobs, 1, 1, 1)]
        planner('p-cost-past-31-bits-%d' % energy, costed((1, 2), tasks, 2), 2, 12_003,
                planned(1_024, jobs + 1, 2 * jobs, jobs + 1, 2, 1))
    # 2^22 jobs of 1,024 are 2^32: at 32 bits the slow rate would cost nothing.
    span = 2 ** 23
    for energy in (512, 1_024, 1_025, 2_048):
        tasks = [(2, 2, energy, 1), (span, 1, energy, 1)]
        for slack in (2, 1_000):
            planner('p-task-energy-past-32-bits-%d-%d' % (energy, slack),
                    costed((1, 2), tasks, slack))
    # A hyper-period of exactly 10,000,000, full to the last tick at rate 1.
    left = 10_000_000 - 78_125 * 32 - 128 * 19_532
    L = 10_000_000
    for label, more, slack, want in (
            ('under', -1, 20, planned(2_048, L - 1, L, 874_376, 1, 1, 1)),
            ('full', 0, 20, planned(2_048, L, L, 874_376, 1, 1, 1)),
            ('over', 1, 20, planned(4_096, 8_750_001, L, 1_265_001, 2, 1, 1)),
            ('under', -1, 1_000, planned(131_072, L - 1, L, 874_376, 1, 1, 1)),
            ('full', 0, 1_000, planned(131_072, L, L, 874_376, 1, 1, 1)),
            # Tasks 1 and 2 tie at 7 units, and task 2 saves more ticks.
            ('over', 1, 1_000, planned(262_144, 8_749_953, L, 1_386_376, 1, 2, 1))):
        tasks = [(128, 32, 3, 8), (78_125, 19_532, 5_000, 9_000), (L, left + more, 1, 1_000_000)]
        planner('p-10000000-%s-%d' % (label, slack), costed((1, 2), tasks, slack), want=want)

    draw = Draw(SEED + 1)
    for number, (slack, shape, periods) in enumerate((
            (1_000, 'random', 'short'), (1_000, 'rising', 'long'), (259, 'random', 'short'),
            (259, 'rising', 'long'), (300, 'falling', 'short'), (400, 'equal', 'long'),
            (500, 'random', 'long'), (750, 'small', 'short'), (259, 'small', 'long'),
            (999, 'random', 'long')), 1):
        planner('p-32-tasks-8-rates-%d' % number, largest(draw, slack, shape, periods))
    for slack in (1, 10, 100, 258):
        words = largest(draw, slack, 'random', 'short')
        planner('p-32-tasks-8-rates-slack-%d' % slack, words, want=refused(5, needed(words)))


# ------------------------------------------------------------- random records

def some_energies(draw, M, shape):
    if shape == 'equal':
        return [draw.between(1, 99)] * M
    if shape == 'small':
        return [draw.between(1, 4) for _ in range(M)]
    if shape == 'large':
        return [draw.between(900_000, 1_000_000) for _ in range(M)]
    if shape == 'edge':
        return [draw.one_of([1, 2, 1_024, 1_025, 65_536, 999_999, 1_000_000]) for _ in range(M)]
    most = draw.one_of([50, 1_000, 1_000_000])
    energies = [draw.between(1, most) for _ in range(M)]
    if shape == 'rising':
        return sorted(energies)
    if shape == 'falling':
        return sorted(energies, reverse=True)
    return energies


def largest(draw, slack, shape, periods):
    """32 tasks and 8 rates. Full at about half the highest rate, so that some
    tasks are fast and some are not."""
    choice = {'short': [96, 120, 160, 240, 480], 'long': [625, 1_000, 78_125, 80_000, 10_000_000]}
    rates = [100 * (1 + i) for i in range(8)]
    tasks = []
    for _ in range(32):
        period = draw.one_of(choice[periods])
        cycles = max(1, int(period * 450 / 32 * (0.5 + draw.random())))
        tasks.append((period, cycles, *some_energies(draw, 8, shape)))
    return costed(rates, tasks, slack)


def least_slack(N):
    """The least slack for which the table of N tasks is not over the limit."""
    slack = 1
    while (N + 1) * (4_000 * N // slack + 1) > MOST_WORK:
        slack += 1
    return slack


def some_planned(draw):
    """A set that the planner may plan: a walk's set, with other energies and
    with a slack that the working words allow."""
    while True:
        words, _ = some_walk(draw)
        M, N = counts(words)
        if M ** N <= FEW_PLANS or draw.between(1, 12) == 1:
            break
    shape = draw.one_of(['random', 'random', 'rising', 'rising', 'falling', 'small', 'small',
                         'equal', 'large', 'edge'])
    for task in range(1, N + 1):
        at, size = period_of(M, task), task_words(M)
        words[energies_of(M, task):at + size] = some_energies(draw, M, shape)
        if draw.between(1, 6) == 1 and task > 1:        # a twin of the task before
            words[at:at + size] = words[at - size:at]
    if draw.between(1, 25) == 1:
        # One long period; the walk is then too slow for the reference.
        L = r.hyper_period(r.decode(words).tasks)
        if 10_000_000 % L == 0 or draw.between(0, 1):
            words[period_of(M, draw.between(1, N))] = 10_000_000 // L * L
    low = least_slack(N)
    slack = draw.one_of([low, low, low + 1, 10, 50, 100, 250, 500, 999, 1_000, 1_000,
                         draw.between(low, 1_000)])
    words[0] = max(slack, low)
    words[IDLE_AT] = 0
    return with_idle(draw, words) if draw.between(1, 3) == 1 else words


def with_idle(draw, words):
    """The set with an idle energy that the longest job allows, and with energies from what waiting
    costs on: so that what is left of them are the energies as they were, or one less. Now and
    then some are not raised, or are a bit too low."""
    words = put(words, IDLE_AT, 1)
    longest = max(idle for _, idle in waiting(words))
    most = min(1_000, 1_000_000 // longest)
    if most == 0:
        return words
    words[IDLE_AT] = draw.one_of([1, most, draw.between(1, most), min(most, draw.between(1, 50)),
                                  draw.between(1, most // 2 + 1)])
    fewer = draw.one_of([0, 1])
    low = draw.between(1, 8) == 1
    for place, idle in waiting(words):
        left = words[place] - fewer
        if low and draw.between(1, 4) == 1:
            left = draw.one_of([-1, -idle, left - idle])
        words[place] = max(1, min(idle + left, 1_000_000))
    return words


def some_large(draw):
    """9 to 32 tasks, with a load on either side of L at a rate in between."""
    N = draw.one_of([32, draw.between(9, 16), draw.between(9, 32)])
    M = draw.one_of([2, 2, 3, 4, 5, 8])
    periods = draw.one_of([[48, 60, 80, 120, 240], [96, 100, 160, 480], [72, 144, 360, 720],
                           [128, 625, 80_000], [1_000, 4_000, 78_125, 10_000_000]])
    rates = draw.rising(M, draw.one_of([M, 20, 1_000]))
    filling = rates[draw.between(0, M - 1)] * draw.one_of([0.5, 0.8, 0.9, 1.0]) / N
    shape = draw.one_of(['random', 'rising', 'falling', 'small', 'equal', 'large', 'edge'])
    tasks = []
    for _ in range(N):
        period = draw.one_of(periods)
        cycles = max(1, int(period * filling * (0.3 + 1.2 * draw.random())))
        tasks.append((period, cycles, *some_energies(draw, M, shape)))
        if draw.between(1, 4) == 1:
            tasks[-1] = tasks[draw.between(0, len(tasks) - 1)]  # a twin of some task
    low = least_slack(N)
    words = costed(rates, tasks,
                   draw.one_of([low, low, 300, 500, 1_000, draw.between(low, 1_000)]))
    return with_idle(draw, words) if draw.between(1, 3) == 1 else words


def random_plans():
    draw = Draw(SEED + 2)
    for number in range(1, RANDOM_PLANS + 1):
        words = some_large(draw) if draw.between(1, 12) == 1 else some_planned(draw)
        N, W = counts(words)[1], needed(words)
        J = draw.one_of([N, N, N, N + 1, N + 5, MOST_LENT])
        A = draw.one_of([W, W, W, min(W + 1, MOST_WORK), MOST_WORK])
        how = draw.between(1, 30)
        if how == 1:
            A = draw.one_of([0, W - 1, draw.between(0, W - 1)])
        if how == 2 or how == 1 and draw.between(0, 1):
            J = draw.between(0, N - 1)
        if how == 3:
            words = damaged(draw, words)
        if how == 4:
            words[0] = draw.between(1, words[0])        # W may be over what is lent
        planner('rp%04d' % number, words, J, A)
