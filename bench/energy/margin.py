"""How often a plan is known to be the least, and how far the bounds on its energy are above the truth.

    python3 bench/energy/margin.py DRIVER [SETS [SEED]]

DRIVER is the program that run.sh builds from driver.c. There are SETS sets, 256
without the argument, of each kind, number of tasks and idle energy; the seed is 1.
They are those of source document 000's types, without an idle energy as measure.py
has them and with one as idle.py has them; and those of the generator ('gen') that
have a plan, from seed 1 on with SEED 1, from 1,000,001 on with SEED 2, and so on.
Each is planned at five slacks, a generated set too.

The excess is how far a plan's energy is above the least. Two bounds are known without
the least: the margin, N x (unit - 1), and the slack's allowance, energy x slack /
(1,000 + slack) rounded down. The battery page prints the smaller, and what it is in
per cent of the energy without it.

Of every plan the load and the energy are worked out again, as in idle.py, and the
least is that of optimum.py's search. Tried are both bounds, that a plan with unit 1
has the least energy, and that the margin is at most the allowance up to slack 500;
and between what shares of the least energy the stopping rule has the margin.

The first table has a line for each kind, number of tasks and idle energy, and one for
all numbers of tasks together: by slack, with how many sets the unit is 1, and how many
plans have the least energy, those with unit 1 among them.

The second has these lines for each slack, of the sets with a larger unit alone. In
per cent of the least energy, mean and most: the excess, the margin and the allowance.
Then what the page prints, mean and most; with how many sets the allowance is below the
margin; and the excess in per cent of the margin, mean and most.
"""

import sys
from collections import namedtuple

sys.dont_write_bytecode = True

import idle as i
import measure as m
import reference as r
import workload as w

SLACKS = (1, 10, 100, 500, 1000)
COUNTS = (4, 8, 16, 24, 32)             # of generated sets
APART = 1_000_000                       # from the first generated set of a SEED to that of the next

Bounds = namedtuple('Bounds', 'unit energy least margin allowance')


class Case(i.Case):
    """A set at its own idle energy, and the bounds by slack."""

    def __init__(self, words):
        super().__init__(words, words[1:2])
        self.bounds = {}

    def take(self, slack, idle, answer):
        super().take(slack, idle, answer)
        unit, _, L, energy, _, *plan = answer
        N, least = len(plan), i.charged(self.optimum[idle], idle)
        margin, allowance = N * (unit - 1), energy * slack // (1000 + slack)
        words = self.list_with(slack, idle)
        assert least <= energy <= least + margin, words
        assert unit > 1 or energy == least, words
        assert energy <= least + allowance, words
        assert slack > 500 or margin <= allowance, words
        # The stopping rule holds the margin between two shares of the least energy of jobs above waiting: twice
        # the unit fell short, and the unit does not, unless it is 1; rounding adds at most the margin to a plan.
        above = least - idle * L
        assert slack * above < 4000 * (margin + N), words
        assert unit == 1 or 2000 * N * unit <= slack * (above + margin), words
        self.bounds[slack] = Bounds(unit, energy, least, margin, allowance)


def generated_sets(seed, N, sets):
    """The first so many that have a plan: a set has one where the highest rate fits."""
    cases, at = [], 1 + APART * (seed - 1)
    while len(cases) < sets:
        _, words = r.generate(at, N, r.MOST_WORDS)
        s = r.decode(words)
        if r.load_of(words, [len(s.rates)] * N) <= r.hyper_period(s.tasks):
            cases.append(Case(words))
        at += 1
    return cases


def kinds_of(seed, sets):
    """By kind and idle energy, and in these by number of tasks."""
    kinds = {}
    for idle, make in (0, w.some_set), (w.IDLE, w.some_idle_set):
        cells = m.cells_of(seed, sets, lambda *choice: Case(make(*choice)))
        for (kind, N), cases in cells.items():
            kinds.setdefault((kind, idle), {})[N] = cases
    kinds['gen', 0] = {N: generated_sets(seed, N, sets) for N in COUNTS}
    return kinds


def lines_of(kinds):
    """The first words of each line, and its cases."""
    for (kind, idle), by_count in kinds.items():
        for N, cases in [*by_count.items(), ('all', sum(by_count.values(), []))]:
            yield '%-4s %3s %2d' % (kind, N, idle), cases


def print_counts(kinds):
    print('Sets with unit 1, and plans with the least energy, by slack.')
    print('%-4s %3s %2s %5s %s' % ('kind', 'N', 'H', 'sets', ' '.join('%11d' % slack for slack in SLACKS)))
    for line, cases in lines_of(kinds):
        bounds = [[case.bounds[slack] for case in cases] for slack in SLACKS]
        print('%s %5d %s' % (line, len(cases), ' '.join('%6d %4d' % (
            sum(b.unit == 1 for b in column), sum(b.energy == b.least for b in column)) for column in bounds)))


def printed(b):
    """The per cent of the battery page."""
    most = min(b.margin, b.allowance)
    return 100 * most / (b.energy - most)


def print_bounds(kinds):
    print('Units above 1. In per cent: of the least energy; as printed; of the margin.')
    print('%-4s %3s %2s %5s %5s  %13s  %13s  %13s  %13s %7s  %13s' % (
        'kind', 'N', 'H', 'slack', 'sets', 'excess', 'margin', 'allowance', 'printed', 'below', 'used'))
    for line, cases in lines_of(kinds):
        for slack in SLACKS:
            rounded = [case.bounds[slack] for case in cases if case.bounds[slack].unit > 1]
            print('%s %5d %5d  %s  %s  %s  %s %7d  %s' % (
                line, slack, len(rounded),
                m.mean_and_most(100 * (b.energy - b.least) / b.least for b in rounded),
                m.mean_and_most(100 * b.margin / b.least for b in rounded),
                m.mean_and_most(100 * b.allowance / b.least for b in rounded),
                m.mean_and_most(map(printed, rounded)),
                sum(b.allowance < b.margin for b in rounded),
                m.mean_and_most(100 * (b.energy - b.least) / b.margin for b in rounded)))


def main(arguments):
    driver, sets, seed = i.driver_sets_and_seed('margin.py', arguments)
    kinds = kinds_of(seed, sets)
    for (_, idle), by_count in kinds.items():
        for cases in by_count.values():
            i.plan_all(driver, cases, SLACKS, (idle,))
    print_counts(kinds)
    print()
    print_bounds(kinds)


if __name__ == '__main__':
    main(sys.argv[1:])
