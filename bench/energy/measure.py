"""Energies of the archive's plans beside the least possible, on the workloads of source document 000.

    python3 bench/energy/measure.py DRIVER FOLDER [SETS [SEED]]

DRIVER is the program that run.sh builds from driver.c, FOLDER a place for
glpsol's files. There are SETS sets, 256 without the argument, of each type and
number of tasks; the seed is 1. The same sets are planned at both slacks.

Of every plan the load and the energy are worked out again, by tests/reference.py,
and the slack's promise is tried: (1,000 + slack) x the least energy is at least
1,000 x the plan's. Every relaxed bound is held to glpsol's.
"""

import subprocess
import sys
from pathlib import Path

sys.dont_write_bytecode = True
sys.path.insert(0, str(Path(__file__).resolve().parent.parent.parent / 'tests'))

import optimum as o
import reference as r
import workload as w
from records.shared import Draw

COUNTS = (20, 25, 30)
SLACKS = (100, 500)
LIMIT = 5                               # seconds that glpsol may take for a set
RUNS = 3                                # of which the best time counts
REPETITIONS = 50                        # of the planner, likewise


class Case:
    """A set, what is known of it, and the plans' energies and times by slack."""

    def __init__(self, words, folder):
        self.words = words
        s = r.decode(words)
        self.L = r.hyper_period(s.tasks)
        loads, energies = r.load_table(s, self.L), r.energy_table(s, self.L)
        options = [list(zip(a[1:], b[1:])) for a, b in zip(loads, energies)]
        # Whether every task can have its cheapest rate.
        self.easy = sum(min(row, key=lambda pair: (pair[1], pair[0]))[0] for row in options) <= self.L
        self.least, self.seconds = o.optimum(options, self.L, folder, LIMIT, RUNS)
        # The search that idle.py goes by finds the same.
        assert self.least is None or self.least == o.search(options, self.L)[0], words
        self.relaxed = o.relaxed(options, self.L)
        self.tighter = o.relaxed(o.possible(options, self.L), self.L)
        theirs = o.relaxed_by_glpsol(folder)
        assert abs(theirs / self.relaxed - 1) < 1e-6, (words, theirs, float(self.relaxed))
        assert self.least is None or self.relaxed <= self.tighter <= self.least, words
        self.energy, self.micros = {}, {}

    def take(self, slack, answer):
        unit, load, L, energy, nanos, *plan = answer
        words = [slack] + self.words[1:]
        assert L == self.L and load == r.load_of(words, plan) <= L, words
        assert energy == r.energy_of(words, plan), words
        assert self.least is None or self.least * 1000 <= energy * 1000 <= (1000 + slack) * self.least, words
        self.energy[slack], self.micros[slack] = energy, nanos / 1000


def answers_of(driver, lists, repetitions):
    """What the driver says of each set: all go to one run of it."""
    lines = [' '.join(map(str, [len(words), *words])) for words in lists]
    done = subprocess.run([driver, str(repetitions)], input='\n'.join(lines) + '\n',
                          stdout=subprocess.PIPE, text=True, check=True)
    answers = done.stdout.split('\n')[:-1]
    assert len(answers) == len(lists)
    for words, answer in zip(lists, answers):
        assert not answer.startswith('refused'), (words, answer)
    return [list(map(int, answer.split())) for answer in answers]


def plan_all(driver, cases, slack):
    lists = [[slack] + case.words[1:] for case in cases]
    for case, answer in zip(cases, answers_of(driver, lists, REPETITIONS)):
        case.take(slack, answer)


def mean_and_most(values):
    values = list(map(float, values))
    if not values:
        return '     -      -'
    return '%6.3f %6.3f' % (sum(values) / len(values), max(values))


def mean(values):
    values = list(values)
    return sum(values) / len(values)


def print_plans(cells):
    print('Plans: energy over the optimum, over the optimum where not every task can have its cheapest rate, and over the relaxed bound.')
    print('%-4s %3s %5s %5s  %13s %8s  %13s  %13s %11s' % (
        'type', 'N', 'slack', 'sets', 'over optimum', 'equal', 'of hard sets', 'over relaxed', 'planner us'))
    for (kind, N), cases in cells.items():
        for slack in SLACKS:
            known = [case for case in cases if case.least is not None]
            print('%-4s %3d %5d %5d  %s %8d  %s  %s %11.1f' % (
                kind, N, slack, len(cases),
                mean_and_most(case.energy[slack] / case.least for case in known),
                sum(case.energy[slack] == case.least for case in known),
                mean_and_most(case.energy[slack] / case.least for case in known if not case.easy),
                mean_and_most(case.energy[slack] / case.relaxed for case in cases),
                mean(case.micros[slack] for case in cases)))


def print_optima(cells):
    print('Optimum: over the relaxed bound, and over that of the options that some fitting plan has; glpsol.')
    print('%-4s %3s %5s %5s  %13s  %13s %10s %10s %6s' % (
        'type', 'N', 'sets', 'hard', 'over relaxed', 'over tighter', 'mean ms', 'most ms', 'limit'))
    for (kind, N), cases in cells.items():
        known = [case for case in cases if case.least is not None]
        print('%-4s %3d %5d %5d  %s  %s %10.1f %10.1f %6d' % (
            kind, N, len(cases), sum(not case.easy for case in cases),
            mean_and_most(case.least / case.relaxed for case in known),
            mean_and_most(case.least / case.tighter for case in known),
            1000 * mean(case.seconds for case in cases), 1000 * max(case.seconds for case in cases),
            len(cases) - len(known)))


def start_time(folder):
    """What glpsol takes for next to nothing: one task of two rates."""
    return 1000 * min(o.optimum([[(1, 1), (2, 2)]], 2, folder, LIMIT, 1)[1] for _ in range(20))


def cells_of(seed, sets, make):
    """Of each type and number of tasks so many sets, drawn by a generator of their own: more sets go on from
    the same first ones."""
    cells = {}
    for number, (kind, N) in enumerate((kind, N) for kind in w.TYPES for N in COUNTS):
        draw = Draw(100 * seed + number)
        cells[kind, N] = [make(draw, kind, N) for _ in range(sets)]
    return cells


def sets_and_seed(words):
    """The arguments that every bench here ends with: the sets of a cell, --once for two of them, and the seed."""
    numbers = [2 if word == '--once' else int(word) for word in words[:1]] + list(map(int, words[1:]))
    return numbers + [256, 1][len(words):]


def main(arguments):
    if not 2 <= len(arguments) <= 4:
        print('use: measure.py DRIVER FOLDER [SETS [SEED]]', file=sys.stderr)
        return 2
    driver, folder = arguments[0], Path(arguments[1])
    sets, seed = sets_and_seed(arguments[2:])
    print('seed %d, %d sets a cell, glpsol at most %d seconds a set, best of %d; planner best of %d' % (
        seed, sets, LIMIT, RUNS, REPETITIONS))
    cells = cells_of(seed, sets, lambda *choice: Case(w.some_set(*choice), folder))
    for cases in cells.values():
        for slack in SLACKS:
            plan_all(driver, cases, slack)
    print_plans(cells)
    print()
    print_optima(cells)
    print('glpsol takes %.1f ms for a program of one task, which is its start.' % start_time(folder))
    return 0


if __name__ == '__main__':
    sys.exit(main(sys.argv[1:]))
