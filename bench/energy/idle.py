"""What an idle energy does to plans, on the workloads of source document 000.

    python3 bench/energy/idle.py DRIVER [SETS [SEED]]

DRIVER is the program that run.sh builds from driver.c. There are SETS sets, 256
without the argument, of each type and number of tasks; the seed is 1. They are
those that workload.py makes for an idle energy H of a tenth of the lowest rate's
power. Each is planned at both slacks twice, with 0 and with H in its second word.

Of every plan the load and the energy are worked out again, by tests/reference.py,
and the slack's promise is tried: (1,000 + slack) x the least energy is at least 1,000
x the plan's, both of jobs and waiting together. The least comes from the search of
optimum.py, over what jobs draw above the idle energy, with H x L added.

The first table has a line for each slack and idle energy: in microjoules a tick, as
means over the sets, the plan's energy of jobs, of waiting and together, and the
optimum; the plan's energy over the optimum, mean and most; how many plans have the
optimum's energy; and the share of waiting in the plan's energy, mean and most.

The second has a line for each slack, and one for the optimum: how many plans are
other ones with H than with 0 (of the optimum, how many have another energy of jobs or
load); of how many sets the energy, of jobs and of waiting at H together, is lower and
higher by that; and the energy of the plan made with 0, with its waiting at H added,
over that of the plan made with H: least, mean and most.
"""

import sys

sys.dont_write_bytecode = True

import measure as m
import optimum as o
import reference as r
import workload as w

IDLES = (0, w.IDLE)


class Case:
    """A set, the optimum by idle energy, and the plans by slack and idle energy."""

    def __init__(self, words, idles=IDLES):
        self.words = words
        self.L = r.hyper_period(r.decode(words).tasks)
        self.optimum = {idle: self.search(idle) for idle in idles}
        self.plan = {}

    def list_with(self, slack, idle):
        return [slack, idle] + self.words[2:]

    def search(self, idle):
        """The energies of jobs and of waiting of an optimal plan."""
        s = r.decode(self.list_with(1, idle))
        loads, above = r.load_table(s, self.L), r.reduced_table(s, self.L)
        energy, load = o.search([list(zip(a[1:], b[1:])) for a, b in zip(loads, above)], self.L)
        return energy + idle * load, self.L - load

    def take(self, slack, idle, answer):
        unit, load, L, energy, nanos, *plan = answer
        words = self.list_with(slack, idle)
        least = charged(self.optimum[idle], idle)
        assert L == self.L and load == r.load_of(words, plan) <= L, words
        assert energy == r.energy_of(words, plan), words
        assert 1000 * least <= 1000 * energy <= (1000 + slack) * least, words
        self.plan[slack, idle] = energy - idle * (L - load), L - load, plan


def charged(plan, idle):
    """The energy of a plan, of jobs and waiting, at an idle energy."""
    jobs, idle_ticks = plan[:2]
    return jobs + idle * idle_ticks


def plan_all(driver, cases, slacks, idles):
    for slack in slacks:
        for idle in idles:
            lists = [case.list_with(slack, idle) for case in cases]
            for case, answer in zip(cases, m.answers_of(driver, lists, 1)):
                case.take(slack, idle, answer)


def print_energies(cells):
    print('Energies in microjoules a tick; over the optimum; waiting in per cent of the energy.')
    print('%-4s %3s %5s %2s %9s %8s %9s %9s  %13s %6s  %13s' % (
        'type', 'N', 'slack', 'H', 'jobs', 'waiting', 'together', 'optimum', 'over optimum', 'equal', 'waiting %'))
    for (kind, N), cases in cells.items():
        for slack in m.SLACKS:
            for idle in IDLES:
                # Of each set its energy, that of waiting alone, and the least.
                rows = [(charged(case.plan[slack, idle], idle), idle * case.plan[slack, idle][1],
                         charged(case.optimum[idle], idle), case.L) for case in cases]
                print('%-4s %3d %5d %2d %9.3f %8.3f %9.3f %9.3f  %s %6d  %s' % (
                    kind, N, slack, idle,
                    m.mean((all_of_it - waiting) / L for all_of_it, waiting, _, L in rows),
                    m.mean(waiting / L for _, waiting, _, L in rows),
                    m.mean(all_of_it / L for all_of_it, _, _, L in rows),
                    m.mean(least / L for _, _, least, L in rows),
                    m.mean_and_most(all_of_it / least for all_of_it, _, least, _ in rows),
                    sum(all_of_it == least for all_of_it, _, least, _ in rows),
                    m.mean_and_most(100 * waiting / all_of_it for all_of_it, waiting, _, _ in rows)))


def print_changes(cells):
    print('Plans made with H against those made with 0, all charged with H.')
    print('%-4s %3s %7s %5s %6s %6s %7s  %8s %8s %8s' % (
        'type', 'N', 'slack', 'sets', 'others', 'lower', 'higher', 'least', 'mean', 'most'))
    for (kind, N), cases in cells.items():
        for slack in m.SLACKS:
            others = sum(case.plan[slack, 0][2] != case.plan[slack, w.IDLE][2] for case in cases)
            print_change(kind, N, slack, others, [(case.plan[slack, 0], case.plan[slack, w.IDLE]) for case in cases])
        print_change(kind, N, 'optimum', sum(case.optimum[0] != case.optimum[w.IDLE] for case in cases),
                     [(case.optimum[0], case.optimum[w.IDLE]) for case in cases])


def print_change(kind, N, slack, others, pairs):
    energies = [(charged(made_without, w.IDLE), charged(made_with, w.IDLE)) for made_without, made_with in pairs]
    ratios = [made_without / made_with for made_without, made_with in energies]
    print('%-4s %3d %7s %5d %6d %6d %7d  %8.5f %8.5f %8.5f' % (
        kind, N, slack, len(pairs), others,
        sum(made_with < made_without for made_without, made_with in energies),
        sum(made_with > made_without for made_without, made_with in energies),
        min(ratios), m.mean(ratios), max(ratios)))


def driver_sets_and_seed(script, arguments):
    """What a script is called with, which its first line says."""
    if not 1 <= len(arguments) <= 3:
        print('use: %s DRIVER [SETS [SEED]]' % script, file=sys.stderr)
        sys.exit(2)
    sets, seed = m.sets_and_seed(arguments[1:])
    print('seed %d, %d sets a cell, idle energy %d a tick' % (seed, sets, w.IDLE))
    return arguments[0], sets, seed


def main(arguments):
    driver, sets, seed = driver_sets_and_seed('idle.py', arguments)
    cells = m.cells_of(seed, sets, lambda *choice: Case(w.some_idle_set(*choice)))
    for cases in cells.values():
        plan_all(driver, cases, m.SLACKS, IDLES)
    print_energies(cells)
    print()
    print_changes(cells)


if __name__ == '__main__':
    main(sys.argv[1:])
