"""Records of the margin in microjoules, which is of document 02's note 5. It makes no answer other
than it was; each that is recorded here is held to it as it is made."""

from math import gcd

from records.shared import (
    Draw, IDLE_AT, MOST_LENT, MOST_WORK, RANDOM_MARGINS, RATE_AT, S, SEED, answers, counts,
    energies_of, kept, needed, period_of, planned, put, refused, task_words, text_of)
from records.idle import raised
from records.planner import least_slack, planner, waiting
from records.program import plan_lines, program
from records.walk import walk
from test_reference import AT_MARGIN, MARGIN_WORKED, at_margin

FEW = 1_024                     # up to so many plans, all are looked at


def least_of(words):
    """The least energy of a plan that fits. All plans are tried; their energies are counted from
    that of a processor that waits all the time, and each job adds what it costs above waiting."""
    M, N = counts(words)
    L = 1
    for task in range(1, N + 1):
        period = words[period_of(M, task)]
        L = L // gcd(L, period) * period
    above = {place: words[place] - idle for place, idle in waiting(words)}
    found = []

    def go_on(task, ticks_left, energy):
        if ticks_left < 0:
            return
        if task > N:
            found.append(energy)
            return
        at = period_of(M, task)
        jobs = L // words[at]
        for j in range(M):
            full, rest = divmod(words[at + 1], words[RATE_AT + j])
            go_on(task + 1, ticks_left - jobs * (full + (rest > 0)),
                  energy + jobs * above[energies_of(M, task) + j])

    go_on(1, L, words[IDLE_AT] * L)
    return min(found)


def held(name, words):
    """Holds the record made last to the promise, as it is stored. Its unit, and how far its energy
    is above the least; None where it is refused."""
    whose, said, *numbers = answers[-1].split(' ')
    assert whose == name, name
    if said == 'refused':
        return None
    M, N = counts(words)
    unit, _, _, energy = map(int, numbers[:4])
    assert M ** N <= FEW, name
    above = energy - least_of(words)
    assert 0 <= above <= N * (unit - 1), '%s: %d above the least at unit %d' % (name, above, unit)
    assert unit > 1 or above == 0, name
    return unit, above


def held_plan(name, words, want=None, lent=None):
    """The planner with as much as it needs, or with so much lent."""
    _, N = counts(words)
    planner(name, words, *(lent or (N, needed(words))), want)
    return held(name, words)


# -------------------------------------------------------------- worked figures

def margin_worked():
    """What is worked in test_reference.py: lists that reach the margin, at unit 1, and between."""
    for number, (words, want, least) in enumerate(MARGIN_WORKED):
        name = 'margin-worked-%02d' % (number + 1)
        _, N = counts(words)
        said = planned(*want[1:5], *want[5])
        unit, above = held_plan('p-' + name, words, said)
        assert above == want[4] - least, name
        assert (unit > 1 and above == N * (unit - 1)) == (number in AT_MARGIN), name
        held_plan('p-%s-much-lent' % name, words, said, (MOST_LENT, MOST_WORK))
        walk('w-' + name, words, want[5], kept(want[2], want[3] - want[2], 0) if N == 1 else None)
        program('a-' + name, text_of(words), want=plan_lines(*want[1:], 0) if N == 1 else None)
    # A plan that would cost less than the least, and misses: it is none to compare with.
    walk('w-margin-s-1-1', S, [1, 1], ('missed', 15, 2))


def margin_reached():
    """Sets whose energy is all of N x (unit - 1) above the least.

    Catches a choice that keeps the margin and is another, as with energies rounded down, and a
    unit that is returned and was not used.
    """
    for unit in (2, 4, 32, 1_024, 131_072):
        for slack in (1_000, 999, 667, 250, 17):
            for N, idle in ((1, 0), (1, 999), (2, 0), (2, 1), (3, 60), (4, 0), (4, 1_000), (32, 0),
                            (32, 3)):
                words = at_margin(slack, unit, N, idle)
                if max(words) > 1_000_000 or slack < least_slack(N):
                    continue
                slow, fast = words[9] - 2 * idle, words[10] - idle
                assert N * (fast - slow) == N * (unit - 1)
                name = 'p-reach-%d-slack-%d-of-%d-h-%d' % (unit, slack, N, idle)
                want = planned(unit, N, 2 * N, N * (fast + 2 * idle), *[2] * N)
                if N < 32:
                    assert held_plan(name, words, want) == (unit, N * (unit - 1)), name
                else:           # too many to try, but all alike: each task is above its least
                    planner(name, words, N, needed(words), want)


def margin_units():
    """Either side of the step from unit 2 to unit 1: slack x k is 2,000 x N, 1 less or 1 more, or
    it is less because the slack is. At unit 2 all N microjoules of the margin are used, and at 1
    none.

    Catches 'above' for 'at least', a margin at unit 1, and unit 2 taken for the last one.
    """
    def step(name, N, slack, k):
        parts = [k // N + (task < k % N) for task in range(N)]
        idle = (0, 9, 1_000)[(slack + k) % 3]
        words = raised((1, 2), [(2 * N, 2, 2 * part - 1, 2 * part) for part in parts], idle, slack)
        waits = 2 * N * idle
        if slack * k >= 2_000 * N:
            want, used = planned(2, N, 2 * N, 2 * k + waits, *[2] * N), N
        else:
            want, used = planned(1, 2 * N, 2 * N, 2 * k - N + waits, *[1] * N), 0
        assert held_plan(name, words, want) == (want[1], used), name

    for N in (1, 2, 3, 4):
        for slack in range(least_slack(N), 1_001):
            for more in (-1, 0, 1):
                k, rest = divmod(2_000 * N + more, slack)
                if rest == 0:
                    name = 'p-step-of-%d-slack-%d-k-%d' % (N, slack, k)
                    step(name, N, slack, k)
                    if more == 0 and slack > least_slack(N):
                        step(name + '-less', N, slack - 1, k)


# ------------------------------------------------------------- random records

def some_small(draw):
    """1 to 4 tasks and 2 to 4 rates, with energies that often differ by little."""
    M, N = draw.between(2, 4), draw.between(1, 4)
    rates = draw.rising(M, draw.one_of([M, 8, 40]))
    span = draw.one_of([4, 6, 12, 24, 60])
    filling = rates[draw.between(0, M - 1)] * draw.one_of([0.4, 0.7, 0.9, 1.0]) / N
    most = draw.one_of([4, 12, 100, 1_000, 100_000])
    wide = draw.one_of([1, 3, most // 2, most])
    tasks = []
    for _ in range(N):
        period = draw.one_of([p for p in range(N, span + 1) if span % p == 0])
        cycles = max(1, int(period * filling * (0.6 + 0.8 * draw.random())))
        middle = draw.between(1, most)
        lefts = [max(1, middle + draw.between(-wide, wide)) for _ in range(M)]
        tasks.append((period, cycles, *lefts))
    longest = max(-(-cycles // rates[0]) for _, cycles, *_ in tasks)
    idle = draw.one_of([0, 0, 1, draw.between(1, 30), draw.between(1, 1_000)])
    idle = min(idle, 700_000 // longest)                # so that no energy passes its range
    slack = draw.one_of([1_000, draw.between(500, 1_000), draw.between(1, 1_000),
                         draw.between(1, 1_000), 1])
    return raised(rates, tasks, idle, max(slack, least_slack(N)))


def random_margins():
    draw = Draw(SEED + 15)
    seen = {'none': 0, 'unit 1': 0, 'unit above 1': 0, 'idle': 0, 'above': 0, 'all': 0}
    for number in range(1, RANDOM_MARGINS + 1):
        words = some_small(draw)
        if number % 8 == 0:                             # about at the margin, or just at it
            N = draw.between(1, 4)
            words = at_margin(draw.one_of([1_000, draw.between(20, 1_000)]),
                              2 ** draw.between(1, 7), N, draw.one_of([0, draw.between(0, 40)]))
            place = draw.between(9, 10) + task_words(2) * draw.between(0, N - 1)
            words = put(words, place, words[place] + draw.one_of([0, 0, 1, -1]))
        _, N = counts(words)
        said = held_plan('rm%04d' % number, words)
        seen['none'] += said is None
        if said is None:
            assert answers[-1].endswith(' '.join(map(str, refused(7, 0)))), number
            continue
        unit, above = said
        seen['unit 1' if unit == 1 else 'unit above 1'] += 1
        seen['idle'] += words[IDLE_AT] > 0
        seen['above'] += above > 0
        seen['all'] += unit > 1 and above == N * (unit - 1)
    assert min(seen.values()) >= RANDOM_MARGINS // 20, seen
