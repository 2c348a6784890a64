"""Records of the walk; and random sets with a plan, of which checks.py and planner.py make theirs."""

import heapq
from math import gcd

import reference as r
from records.shared import (
    PAST_ONE, S, TOP, kept, missed, put, record, refused, same_tasks, task_set)


def walk(name, words, plan, want=None):
    record('w', name, [words, plan], r.walk(words, plan), want)


def long_walk(name, words, plan, want):
    """A walk that is kept, too long for the reference to make."""
    assert r.check_walk(words, plan) is None, name
    record('w', name, [words, plan], kept(*walked(words, plan)), want)


def walked(words, rates):
    """The counts of the walk of a plan that is kept. The walk goes from one
    release or end of a job to the next."""
    s = r.decode(words)
    end = r.hyper_period(s.tasks)
    if any(task.first for task in s.tasks):
        end *= 2
    time = [-(-task.cycles // s.rates[rate - 1]) for task, rate in zip(s.tasks, rates)]
    releases = sorted((tick, i) for i, task in enumerate(s.tasks)
                      for tick in range(task.first, end, task.period))
    jobs = []                   # deadline, task and ticks left of each unfinished job
    broken = None               # the job of the tick before, if it is unfinished
    now = at = busy = preemptions = 0
    while now < end:
        while at < len(releases) and releases[at][0] == now:
            i = releases[at][1]
            heapq.heappush(jobs, (now + s.tasks[i].period, i, time[i]))
            at += 1
        until = releases[at][0] if at < len(releases) else end
        if not jobs:
            now, broken = until, None
            continue
        deadline, i, left = jobs[0]
        preemptions += broken not in (None, (deadline, i))
        ran = min(left, until - now)
        busy, now, left = busy + ran, now + ran, left - ran
        assert now <= deadline, 'missed'
        if left:
            jobs[0] = (deadline, i, left)               # its place among them is the same
            broken = (deadline, i)
        else:
            heapq.heappop(jobs)
            broken = None
    assert all(deadline > end for deadline, _, _ in jobs), 'missed'
    return busy, end - busy, preemptions


def timed(name, tasks, want=None):
    """A walk of tasks given by period and job time. Cycles and plan use the
    two rates in turn, and cycles are not always a multiple of the rate."""
    rates = (3, 5)
    plan = [1 + i % 2 for i in range(len(tasks))]
    cycles = [time * rates[rate - 1] - i % 3
              for i, ((_, time), rate) in enumerate(zip(tasks, plan))]
    words = task_set(rates, [(period, c) for (period, _), c in zip(tasks, cycles)])
    walk(name, words, plan, want)


# ------------------------------------------------------------------- refusal 8

def bad_plans():
    """Refusal 8: the lowest of a bad word's place, the length if short, N if long.

    Catches N mistaken for M, the length of a long plan, a bad word past N
    given in place of N, and a plan read before its length was asked.
    """
    for label, plan, place in (
            ('empty', [], 0), ('short', [1], 1), ('short-bad', [0], 0),
            ('short-above-m', [4], 0), ('long', [1, 1, 1], 2), ('long-by-8', [1] * 10, 2),
            ('long-40', [1] * 40, 2), ('long-bad-past-n', [1, 1, 9], 2),
            ('long-0-past-n', [2, 1, 0], 2), ('long-bad-last', [1] * 39 + [0], 2),
            ('long-bad-in-n', [1, 0, 1], 1), ('long-bad-first', [9, 1, 1], 0),
            ('long-bad-in-n-and-past', [1, 9, 9], 1), ('long-all-bad', [0] * 40, 0),
            ('0-first', [0, 1], 0), ('0-last', [1, 0], 1), ('m-and-1-first', [4, 1], 0),
            ('m-and-1-last', [1, 4], 1), ('both-bad', [9, 0], 0),
            ('largest-first', [TOP, 1], 0), ('largest-last', [1, TOP], 1),
            ('257', [1, 257], 1), ('65537', [65_537, 1], 0), ('2147483649', [1, 2 ** 31 + 1], 1)):
        walk('plan-' + label, S, plan, refused(8, place))
    walk('plan-m-first', S, [3, 1])
    walk('plan-m-last', S, [1, 3], kept(24, 6, 0))
    # Every M, the word M and the word M + 1.
    for M in range(2, 9):
        walk('plan-m-of-%d-rates' % M, same_tasks(M, 1), [M], kept(1, 9, 0))
        walk('plan-m-and-1-of-%d-rates' % M, same_tasks(M, 1), [M + 1], refused(8, 0))
    # More tasks than rates: a word up to N is still bad.
    walk('plan-n-above-m', same_tasks(2, 5), [1, 2, 1, 2, 5], refused(8, 4))
    walk('plan-3-of-2-rates-5-tasks', same_tasks(2, 5), [1, 1, 3, 1, 1], refused(8, 2))
    # More rates than tasks: a plan as long as M is still long.
    walk('plan-as-long-as-m', same_tasks(4, 2), [1, 1, 1, 1], refused(8, 2))
    walk('plan-of-1-task-long', same_tasks(2, 1), [1, 1], refused(8, 1))
    walk('plan-of-1-task-empty', same_tasks(2, 1), [], refused(8, 0))
    # 32 tasks.
    many = task_set((1, 2), [(64, 2)] * 32)
    walk('plan-32', many, [1, 2] * 16, kept(48, 16, 0))
    for place in (0, 1, 15, 30, 31):
        for word in (0, 3):
            walk('plan-32-with-%d-at-%02d' % (word, place), many, put([1] * 32, place, word),
                 refused(8, place))
    for length in (0, 1, 16, 31):
        walk('plan-32-cut-%02d' % length, many, [1] * length, refused(8, length))
    walk('plan-32-cut-31-bad-30', many, [1] * 30 + [3], refused(8, 30))
    walk('plan-32-and-1', many, [1] * 33, refused(8, 32))
    walk('plan-32-and-0', many, [1] * 32 + [0], refused(8, 32))
    walk('plan-32-and-8', many, [1] * 40, refused(8, 32))
    walk('plan-32-bad-31-and-1', many, [1] * 31 + [3, 1], refused(8, 31))
    # A plan that would miss at once is refused first.
    walk('plan-bad-and-late', task_set((1, 2), [(1, 9), (1, 9)]), [1, 3], refused(8, 1))


# ------------------------------------------------------------------- the walk

def one_task():
    """One task: the ends of a job time and of a period.

    Catches a job time rounded down or to nearest, a table of M rates read at
    M, the check at L left out, and a job time cut to 16 or 31 bits.
    """
    timed('one-1-of-1', [(1, 1)], kept(1, 0, 0))
    timed('one-2-of-1', [(1, 2)], missed(1, 1))
    timed('one-1-of-2', [(2, 1)], kept(1, 1, 0))
    timed('one-5-of-5', [(5, 5)], kept(5, 0, 0))
    timed('one-6-of-5', [(5, 6)], missed(5, 1))
    timed('one-4-of-5', [(5, 4)], kept(4, 1, 0))
    for cycles, time in ((1, 1), (6, 1), (7, 1), (8, 2), (14, 2), (15, 3), (69, 10), (70, 10)):
        walk('rounded-%d-by-7' % cycles, task_set((7, 9), [(10, cycles)]), [1],
             kept(time, 10 - time, 0))
    walk('rounded-71-by-7', task_set((7, 9), [(10, 71)]), [1], missed(10, 1))
    walk('rounded-71-by-9', task_set((7, 9), [(10, 71)]), [2], kept(8, 2, 0))
    # Each of eight rates has its own job time: 840 / 1 .. 840 / 8.
    for rate in range(1, 9):
        walk('rate-%d-of-8' % rate, task_set(range(1, 9), [(840, 840)]), [rate],
             kept(840 // rate, 840 - 840 // rate, 0))
    walk('cycles-most-rate-most', task_set((999_999, 1_000_000), [(4_000, 4_000_000_000)]),
         [2], kept(4_000, 0, 0))
    walk('cycles-most-rate-less', task_set((999_999, 1_000_000), [(4_000, 4_000_000_000)]),
         [1], missed(4_000, 1))
    walk('cycles-least-rate-most', task_set((999_999, 1_000_000), [(3, 1)]), [2],
         kept(1, 2, 0))
    walk('cycles-most-rate-1', task_set((1, 2), [(7, 4_000_000_000)]), [1], missed(7, 1))
    walk('job-time-65536', task_set((1, 2), [(9, 65_536)]), [1], missed(9, 1))
    walk('job-time-65537', task_set((1, 2), [(9, 65_537)]), [1], missed(9, 1))
    walk('job-time-2147483648', task_set((1, 2), [(9, 2 ** 31)]), [1], missed(9, 1))
    # Counts, ticks and deadlines past 16 bits.
    timed('period-70000', [(70_000, 69_000)], kept(69_000, 1_000, 0))
    timed('periods-35000-70000', [(35_000, 20_000), (70_000, 29_000)], kept(69_000, 1_000, 1))
    timed('period-66000-late', [(66_000, 66_001)], missed(66_000, 1))
    # Slack and energies are nothing to the walk, the idle energy neither (idle.py has more of it).
    for slack in (1, 1_000):
        walk('walk-with-slack-%d' % slack, put(S, 0, slack), [2, 1], kept(29, 1, 1))
    walk('walk-with-other-energies', S[:10] + [1_000_000, 1, 1, 15, 20, 0, 1, 1, 1_000_000],
         [2, 1], kept(29, 1, 1))


def loads():
    """A load of exactly L is kept, one tick more is missed somewhere.

    Catches 'below L' in place of 'at most L', utilisations added as rounded
    fractions, and a walk that stops before L.
    """
    for label, tasks, L in (
            ('2-4', [(2, 1), (4, 2)], 4), ('2-3-6', [(2, 1), (3, 1), (6, 1)], 6),
            ('3-3-3', [(3, 1), (3, 1), (3, 1)], 3), ('4-6-12', [(4, 1), (6, 3), (12, 3)], 12),
            ('10-15-30', [(10, 3), (15, 6), (30, 9)], 30), ('5-7', [(5, 3), (7, 2), (35, 4)], 35),
            ('12-18-36', [(12, 5), (18, 4), (36, 13)], 36),
            ('9-15', [(9, 4), (15, 7), (45, 4)], 45), ('30-60', PAST_ONE, 60),
            ('8-12-20', [(8, 3), (12, 2), (20, 5), (120, 25)], 120),
            ('7-11-13', [(7, 2), (11, 3), (13, 4), (1001, 134)], 1001)):
        assert sum(L // period * time for period, time in tasks) == L, label
        idle = tasks[:-1] + [(tasks[-1][0], tasks[-1][1] - 1)]
        over = tasks[:-1] + [(tasks[-1][0], tasks[-1][1] + 1)]
        timed('full-' + label, tasks)
        timed('full-back-' + label, tasks[::-1])
        timed('over-' + label, over)
        timed('over-back-' + label, over[::-1])
        if idle[-1][1] > 0:
            timed('under-' + label, idle)
            timed('under-back-' + label, idle[::-1])
    # The miss is at L and nowhere before: the check at L counts.
    timed('late-only-at-l', [(2, 1), (4, 3)], missed(4, 2))
    timed('late-only-at-l-of-12', [(3, 1), (4, 2), (12, 3)], missed(12, 3))
    # Many jobs are in time, and then one is late, well before L.
    timed('late-after-many', [(7, 3), (11, 4), (13, 3)])
    timed('late-after-many-back', [(13, 3), (11, 4), (7, 3)])


def ties():
    """Equal deadlines go to the lower task number.

    Catches the higher number, the running job kept on a tie, and the shorter
    period or the earlier release put first.
    """
    timed('tie-of-2-late', [(3, 2), (3, 2)], missed(3, 2))
    timed('tie-of-3-late', [(4, 2), (4, 2), (4, 1)], missed(4, 3))
    timed('tie-of-3-very-late', [(4, 3), (4, 2), (4, 1)], missed(4, 2))
    timed('tie-of-4', [(8, 2), (8, 2), (8, 2), (8, 2)], kept(8, 0, 0))
    # Task 1's second job has the deadline of the job that runs: it takes over.
    timed('tie-takes-over', [(2, 1), (4, 2)], kept(4, 0, 1))
    # The other way round the running job stays.
    timed('tie-stays', [(4, 2), (2, 1)], kept(4, 0, 0))
    # A long job broken by short ones; the tie at 12 decides the last of them.
    timed('tie-at-12-short-first', [(3, 1), (12, 8)], kept(12, 0, 3))
    timed('tie-at-12-long-first', [(12, 8), (3, 1)], kept(12, 0, 2))
    timed('tie-at-12-middle', [(6, 2), (12, 4), (3, 1)])
    timed('tie-at-12-late', [(12, 8), (6, 1), (3, 1)])
    # Deadlines 30 of tasks of periods 6, 10 and 15, in all orders.
    for label, order in (('abc', (0, 1, 2)), ('acb', (0, 2, 1)), ('bac', (1, 0, 2)),
                         ('bca', (1, 2, 0)), ('cab', (2, 0, 1)), ('cba', (2, 1, 0))):
        tasks = [(6, 2), (10, 3), (15, 5)]
        timed('tie-at-30-' + label, [tasks[i] for i in order])
        tasks = [(6, 3), (10, 4), (15, 5)]
        timed('tie-at-30-over-' + label, [tasks[i] for i in order])


def late_tasks():
    """Which tick and which task a miss names.

    Catches the last late task in place of the first, the one that runs, the
    one with the most ticks left, and a miss noticed only when the job ends.
    """
    timed('two-late-at-once', [(4, 4), (6, 6), (6, 6)], missed(6, 2))
    # Task 1's late job was released after task 2's.
    timed('two-late-shorter-first', [(3, 2), (6, 3), (5, 3)], missed(6, 1))
    timed('three-late-at-once', [(5, 1), (5, 9), (5, 9), (5, 9)], missed(5, 2))
    timed('first-of-all-late', [(5, 9), (5, 9), (5, 9)], missed(5, 1))
    timed('last-of-all-late', [(5, 1), (5, 1), (5, 1), (5, 3)], missed(5, 4))
    # Task 1 is not due at the tick at which task 2 is late, and the other way.
    timed('late-and-not-due-below', [(10, 4), (3, 1), (4, 4)], missed(4, 3))
    timed('late-and-not-due-above', [(4, 5), (10, 9)], missed(4, 1))
    timed('late-by-much', [(5, 2), (7, 4_000)], missed(7, 2))
    # Tasks 1 and 3 are late at once, and 2 is not.
    timed('late-1-and-3', [(6, 7), (2, 1), (6, 9)], missed(6, 1))
    # The one with the later deadline pays for the other.
    timed('late-9-of-7-and-9', [(9, 9), (7, 7)], missed(9, 1))
    timed('late-9-of-9-and-7', [(7, 7), (9, 9)], missed(9, 2))
    # Neither can be in time: the earlier tick counts, not the lower number.
    timed('late-2-before-1', [(10, 11), (4, 5)], missed(4, 2))
    timed('late-1-before-2', [(4, 5), (10, 11)], missed(4, 1))
    timed('late-at-second-period', [(2, 1), (3, 2)], missed(6, 2))
    # The miss comes at once though L is long.
    walk('late-at-1-of-10000000', task_set((1, 2), [(1, 2), (10_000_000, 1)]), [1, 1],
         missed(1, 1))
    walk('late-at-20-of-10000000', task_set((1, 2), [(10_000_000, 9), (10, 4), (20, 15)]),
         [1, 1, 1], missed(20, 3))
    walk('late-at-128-of-10000000', task_set((1, 2), [(78_125, 2_000), (128, 129)]),
         [1, 1], missed(128, 2))


def preemptions():
    """Ticks in which a job runs while the job before it is another, unfinished.

    Catches every change of task counted, the return to a broken job counted,
    a job's last tick counted, and a job with one tick left taken as finished.
    """
    timed('change-at-an-end', [(4, 2), (4, 2)], kept(4, 0, 0))
    timed('each-ends-before-the-next', [(2, 1), (4, 1)], kept(3, 1, 0))
    timed('broken-once-by-a-tie', [(2, 1), (4, 2)], kept(4, 0, 1))
    timed('broken-each-2-ticks', [(2, 1), (6, 3)], kept(6, 0, 2))
    timed('broken-twice-of-20', [(4, 1), (10, 5)], kept(15, 5, 2))
    timed('broken-three-times', [(3, 1), (12, 8)], kept(12, 0, 3))
    # 1 breaks 2, and 2 breaks 3: each breaking is one, each return none.
    timed('broken-and-broken', [(4, 1), (7, 3), (28, 5)], kept(24, 4, 5))
    timed('broken-deep', [(4, 1), (6, 1), (12, 2), (24, 5), (48, 8)])
    timed('broken-deep-back', [(48, 8), (24, 5), (12, 2), (6, 1), (4, 1)])
    # A job with one tick left is unfinished still.
    timed('broken-before-last-tick', [(5, 1), (10, 5)], kept(7, 3, 1))
    timed('not-broken-after-last-tick', [(5, 1), (10, 4)], kept(6, 4, 0))
    # Many breakings: the count passes 255.
    timed('broken-599-times', [(3, 1), (1_803, 1_200)], kept(1_801, 2, 599))
    # After an idle tick there is none.
    timed('idle-between', [(5, 1), (7, 1)], kept(12, 23, 0))
    timed('mostly-idle', [(50, 1), (30, 1)], kept(8, 142, 0))
    timed('idle-1', [(3, 1), (4, 2), (12, 1)], kept(11, 1, 1))
    timed('idle-all-but-1', [(1_000, 1)], kept(1, 999, 0))


def many_tasks():
    """32 tasks: the last one is released, runs and is checked like the first."""
    timed('many-1-of-32', [(32, 1)] * 32, kept(32, 0, 0))
    timed('many-1-of-31', [(31, 1)] * 32, missed(31, 32))
    timed('many-1-of-33', [(33, 1)] * 32, kept(32, 1, 0))
    timed('many-1-of-1', [(1, 1)] * 32, missed(1, 2))
    timed('many-all-late', [(5, 9)] * 32, missed(5, 1))
    timed('many-last-late', [(64, 1)] * 31 + [(64, 34)], missed(64, 32))
    timed('many-last-full', [(64, 1)] * 31 + [(64, 33)], kept(64, 0, 0))
    timed('many-last-first', [(64, 1)] * 31 + [(4, 1)])
    timed('many-last-breaks', [(64, 20)] + [(64, 1)] * 30 + [(16, 3)])
    timed('many-two-periods', [(60, 1)] * 16 + [(90, 2)] * 16)
    timed('many-two-periods-back', [(90, 2)] * 16 + [(60, 1)] * 16)
    mixed = [(40 if i % 3 else 60, 1) for i in range(32)]
    timed('many-mixed', mixed)
    timed('many-mixed-full', mixed[:31] + [(120, 38)])
    timed('many-mixed-over', mixed[:31] + [(120, 39)], missed(120, 32))
    divisors = [16, 20, 24, 30, 40, 48, 60, 80, 120, 240]
    spread = [(divisors[i % 10] * 4, 1 + i % 4) for i in range(32)]
    timed('many-spread', spread)
    timed('many-spread-back', spread[::-1])
    # 32 tasks and 8 rates, the plan with every rate.
    words = task_set(range(1, 9), [(96, 1 + i % 9) for i in range(32)])
    walk('many-of-8-rates', words, [1 + i % 8 for i in range(32)])
    walk('many-of-8-rates-slow', words, [1] * 32, missed(96, 22))
    walk('many-of-8-rates-fast', words, [8] * 32)


# --------------------------------------------------------------- random walks

SPANS = [6, 8, 10, 12, 12, 16, 18, 20, 24, 24, 30, 36, 40, 42, 48, 60, 60, 70, 72, 84, 90, 96,
         100, 105, 120, 120, 126, 144, 168, 180, 210, 240, 252, 280, 300, 360, 420, 480, 504,
         600, 720, 840, 1_008, 1_260, 1_440, 1_680, 1_800, 2_000]


def some_tasks(draw):
    """Periods and job times, with a load on either side of L, or just at it."""
    span = draw.one_of(SPANS)
    divisors = [p for p in range(1, span + 1) if span % p == 0]
    N = draw.one_of([1, 2, 2, 2, 3, 3, 3, 3, 4, 4, 4, 5, 5, 6, 7, 8])
    if draw.between(1, 20) == 1:
        N = draw.one_of([9, 12, 16, 24, 31, 32, 32, draw.between(9, 32)])
    few = N <= 4
    periods = []
    for _ in range(N):
        p = draw.one_of(divisors)
        if p < N and not (few and draw.between(1, 8) == 1):
            p = draw.one_of(divisors[len(divisors) // 2:])      # short ones are late at once
        periods.append(p)
    filling = draw.one_of([0.3, 0.6, 0.8, 0.9, 0.95, 1.0, 1.05, 1.2]) / N
    times = [max(1, int(p * filling * (0.4 + 1.2 * draw.random()) + 0.5)) for p in periods]
    L = 1
    for p in periods:
        L = L * p // gcd(L, p)
    if draw.between(1, 3) > 1:
        # One task with the whole hyper-period takes what is left, one tick
        # more or less, so that the load is L or next to it.
        place = draw.between(0, N - 1)
        periods[place] = L
        left = L - sum(L // p * t for i, (p, t) in enumerate(zip(periods, times)) if i != place)
        times[place] = max(1, left + draw.one_of([0, 0, 0, 0, 1, 1, -1, -2]))
    return periods, times


def some_walk(draw):
    """A good set and a plan for which the job times are as drawn."""
    periods, times = some_tasks(draw)
    N = len(periods)
    M = draw.one_of([2, 2, 2, 2, 2, 3, 3, 3, 4, 5, 6, 7, 8])
    if N > 16:
        M = 2
    rates = draw.rising(M, draw.one_of([M, 12, 12, 12, 100, 1_000, 1_000_000]))
    plan = [draw.one_of([1, M, draw.between(1, M)]) for _ in range(N)]
    most = draw.one_of([9, 9, 9, 9, 9, 99, 1_000_000])
    words = [draw.one_of([1, 10, 50, 100, 500, 999, 1_000]),
             draw.one_of([0, 0, 0, 1, draw.between(0, 99), 1_000]), M, *rates, N]
    for period, time, rate in zip(periods, times, plan):
        f = rates[rate - 1]
        low, high = (time - 1) * f + 1, time * f        # all of them round up to the time
        cycles = draw.one_of([low, high, draw.between(low, high)])
        words += [period, cycles, 0] + [draw.between(1, most) for _ in range(M)]
    return words, plan


def damaged_plan(draw, plan, M):
    plan = list(plan)
    for _ in range(draw.one_of([1, 1, 2])):
        how = draw.one_of(['bad', 'bad', 'cut', 'more', 'more-bad', 'drop'])
        if how == 'bad' and plan:
            place = draw.between(0, len(plan) - 1)
            plan[place] = draw.one_of([0, 0, M + 1, M + 1, M + 2, 9, 256, TOP])
        elif how == 'cut' and plan:
            del plan[draw.between(0, len(plan) - 1):]
        elif how == 'drop' and plan:
            del plan[-1]
        elif how == 'more':
            plan += [draw.between(1, M)] * draw.between(1, 3)
        elif how == 'more-bad':
            plan += [draw.one_of([0, M + 1, TOP])] * draw.between(1, 2)
    return plan
