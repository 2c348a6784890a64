"""The least energy of a set, by an integer program that glpsol solves or by a search in whole numbers,
and two relaxed bounds below it.

A set is given here by its options: for each task the pairs (load, energy) at its
rates. A plan fits when its loads add up to at most L. With an idle energy H the
energy of an option is what the jobs draw above it, and a plan's energy is H x L
more: the plan of the least sum is the same, and so is what is said of it here.
"""

import subprocess
import time
from bisect import bisect_right, insort
from fractions import Fraction


def program(options, L):
    """The integer program in the CPLEX LP format. Columns stand in the order of
    the objective: task by task, rate by rate."""
    names = [['x%d_%d' % (t, r) for r in range(len(row))] for t, row in enumerate(options)]

    def weighted(k):
        return '\n '.join(' '.join('+ %d %s' % (pair[k], name) for pair, name in zip(row, line))
                          for row, line in zip(options, names))

    lines = ['Minimize', ' energy: ' + weighted(1), 'Subject To', ' load: ' + weighted(0) + ' <= %d' % L]
    lines += [' one%d: %s = 1' % (t, ' + '.join(line)) for t, line in enumerate(names)]
    lines += ['Binary', *(' ' + ' '.join(line) for line in names), 'End']
    return '\n'.join(lines) + '\n'


def run_glpsol(folder, words):
    """Its solution file in lines of words, and its seconds from start to end."""
    solution = folder / 'solution'
    command = ['glpsol', '--lp', str(folder / 'program.lp'), '--write', str(solution), *words]
    start = time.perf_counter()
    done = subprocess.run(command, stdout=subprocess.PIPE, stderr=subprocess.STDOUT, text=True)
    seconds = time.perf_counter() - start
    if done.returncode != 0:
        raise SystemExit('energy: glpsol ended with %d:\n%s' % (done.returncode, done.stdout))
    return [line.split() for line in solution.read_text().split('\n')], seconds


def chosen(lines, options):
    """The place of the rate that each task has in a solution file."""
    values = [float(line[2]) for line in lines if line and line[0] == 'j']
    places, at = [], 0
    for row in options:
        share = values[at:at + len(row)]
        places.append(share.index(max(share)))
        at += len(row)
    return places


def sums(options, places):
    pairs = [row[place] for row, place in zip(options, places)]
    return sum(load for load, _ in pairs), sum(energy for _, energy in pairs)


def optimum(options, L, folder, limit, runs):
    """The least energy, or None where the time limit of so many seconds came first
    or the plan does not fit to the tick (glpsol works in floating point); and the
    seconds of the best of some runs."""
    (folder / 'program.lp').write_text(program(options, L))
    best = None
    for _ in range(runs):
        lines, seconds = run_glpsol(folder, ['--tmlim', str(limit)])
        best = seconds if best is None else min(best, seconds)
        status = next(line for line in lines if line and line[0] == 's')[4]
        if status != 'o':
            return None, best
    load, energy = sums(options, chosen(lines, options))
    return (energy if load <= L else None), best


def hull(row):
    """The options of a task that a relaxed plan mixes: less load for more energy,
    each step dearer by the tick than the one before it. From the cheapest on."""
    corners = []
    for load, energy in sorted(row, key=lambda pair: (pair[1], pair[0])):
        if corners and load >= corners[-1][0]:
            continue
        while len(corners) >= 2 and slope(corners[-2], (load, energy)) <= slope(corners[-2], corners[-1]):
            corners.pop()
        corners.append((load, energy))
    return corners


def slope(a, b):
    """Energy for each tick saved from a to b."""
    return Fraction(b[1] - a[1], a[0] - b[0])


class Relaxed:
    """Tasks that may be split between rates: cheapest options first, then the cheapest steps of the hulls
    until the load is as low as asked for."""

    def __init__(self, load=0, energy=0, steps=()):
        self.load, self.energy = load, energy   # of the cheapest options
        self.steps = steps                      # energy for each tick saved, and how many ticks; cheapest first
        # What the first steps save in ticks, and cost.
        self.saved, self.cost = [0], [0]
        for price, ticks in steps:
            self.saved.append(self.saved[-1] + ticks)
            self.cost.append(self.cost[-1] + int(price * ticks))

    def with_task(self, row):
        corners, steps = hull(row), list(self.steps)
        for a, b in zip(corners, corners[1:]):
            insort(steps, (slope(a, b), a[0] - b[0]))
        return Relaxed(self.load + corners[0][0], self.energy + corners[0][1], steps)

    def least(self, room):
        """The least energy within so many ticks, exact; None where there is none."""
        over = max(0, self.load - room)
        if over > self.saved[-1]:
            return None
        whole = bisect_right(self.saved, over) - 1
        rest = over - self.saved[whole]
        return self.energy + self.cost[whole] + (self.steps[whole][0] * rest if rest else 0)


def relaxed(options, L):
    """The least energy where a task may be split between rates. Exact."""
    tasks = Relaxed()
    for row in options:
        tasks = tasks.with_task(row)
    return tasks.least(L)


def possible(options, L):
    """Without the options that no fitting plan has: those that overload the
    processor though every other task has its least load."""
    least = [min(load for load, _ in row) for row in options]
    return [[pair for pair in row if pair[0] + sum(least) - own <= L]
            for row, own in zip(options, least)]


def undominated(pairs):
    """Those of the pairs than which no other has as little load and energy, by rising load."""
    kept = []
    for load, energy in sorted(pairs):
        if not kept or energy < kept[-1][1]:
            kept.append((load, energy))
    return kept


def rounded_plan(rows, L):
    """The energy of some plan that fits: the relaxed one with its last step taken whole, then from option to
    cheaper option as far as there is room. None where none fits."""
    hulls = [hull(row) for row in rows]
    now = [corners[0] for corners in hulls]
    steps = sorted((slope(a, b), task, b) for task, corners in enumerate(hulls)
                   for a, b in zip(corners, corners[1:]))
    load = sum(option[0] for option in now)
    for _, task, option in steps:
        if load <= L:
            break
        load += option[0] - now[task][0]
        now[task] = option
    if load > L:
        return None
    while True:
        cheaper = [(option[1] - now[task][1], task, option) for task, row in enumerate(rows) for option in row
                   if option[1] < now[task][1] and load + option[0] - now[task][0] <= L]
        if not cheaper:
            return sum(option[1] for option in now)
        _, task, option = min(cheaper)
        load += option[0] - now[task][0]
        now[task] = option


def search(options, L):
    """The least energy of a plan that fits, and the least load with it; None where none fits. Exact.

    Task by task, those of the widest range first, all undominated sums of load and energy are kept for which
    the relaxed bound of the tasks to come does not pass a plan that is known.
    """
    rows = sorted((undominated(row) for row in options), key=lambda row: row[-1][1] - row[0][1])
    # The task of the widest range decides most: one plan for each of its options.
    known = [rounded_plan([[option]] + rows[1:], L) for option in rows[0]]
    known = min((energy for energy in known if energy is not None), default=None)
    if known is None:
        return None
    to_come = [Relaxed()]               # behind the last task, behind the one before it, and so on
    for row in reversed(rows[1:]):
        to_come.append(to_come[-1].with_task(row))
    sums_so_far = [(0, 0)]
    for row in rows:
        behind = to_come.pop()
        grown = []
        for load, energy in sums_so_far:
            for more_load, more_energy in row:
                bound = behind.least(L - load - more_load)
                if bound is not None and energy + more_energy + bound <= known:
                    grown.append((load + more_load, energy + more_energy))
        sums_so_far = undominated(grown)
    return min((energy, load) for load, energy in sums_so_far)


def relaxed_by_glpsol(folder):
    """The relaxed bound of the program written last, as glpsol has it."""
    lines, _ = run_glpsol(folder, ['--nomip'])
    return float(next(line for line in lines if line and line[0] == 's')[6])
