"""A reference for the planner, the dull engine, the walk, the reader, the writer, the
program and the load generator.

It follows the words of the scope document, and of document 02 those of note 1 for
the generator, of note 2 for chips, of note 4 for the idle energy H, of note 5 for
the margin, of note 6 for first releases and of note 7 for the dull engine, and is
meant to be read beside them. It is slow on purpose.
A refusal is ('refused', number, second number).
Tasks and rates are numbered from 1, places in lists and texts from 0.
"""

import re
from collections import namedtuple
from functools import lru_cache
from itertools import product
from math import gcd

LONGEST = 10_000_000            # the hyper-period is at most this
LARGEST = 4_294_967_295         # the largest number of a text
WORKING_WORDS = 16_384          # of the program
BYTES_READ = 8_192              # by the program
MOST_WORDS = 4 + 8 + 32 * 11    # of a set with 8 rates and 32 tasks
RESULT_BYTES = 32               # of a C call
ENUMERATED = 20_000             # up to this many plans, all are looked at
MOST_PLANS = 1_000_000          # that the dull engine goes through

Task = namedtuple('Task', 'period cycles first energies')
TaskSet = namedtuple('TaskSet', 'slack idle rates tasks')


def refused(number, second):
    return ('refused', number, second)


def is_refused(answer):
    return answer is not None and answer[0] == 'refused'


def round_up(a, b):
    return -(-a // b)


# ---------------------------------------------------------------- a task set

def ranges(words):
    """The range of each word of a set, in order.

    M, N and the periods are read from the list only after their own range was
    asked for, so whoever asks has judged them by then.
    """
    yield 1, 1_000                      # the slack G
    yield 0, 1_000                      # the idle energy H, 'a word after the slack'
    yield 2, 8                          # the rate count M
    M = words[2]
    for _ in range(M):
        yield 1, 1_000_000              # a rate
    yield 1, 32                         # the task count N
    N = words[3 + M]
    for task in range(N):
        yield 1, 10_000_000             # the period
        yield 1, 4_000_000_000          # the cycles
        # 'the task record gains A after the cycles', 'A below the period'
        yield 0, words[4 + M + task * (3 + M)] - 1
        for _ in range(M):
            yield 1, 1_000_000          # an energy


def check_2(words):
    """Set word out of its range, missing or left over."""
    place = 0
    for low, high in ranges(words):
        if place == len(words):
            return refused(2, len(words))       # missing
        if not low <= words[place] <= high:
            return refused(2, place)            # out of its range
        place += 1
    if place < len(words):
        return refused(2, place)                # left over
    return None


def check_3(words):
    """A rate not above the one before it."""
    M = words[2]
    for place in range(4, 3 + M):
        if not words[place] > words[place - 1]:
            return refused(3, place)
    return None


def task_places(words):
    """The place at which each task begins, with its period."""
    M, N = words[2], words[3 + words[2]]
    return [4 + M + task * (3 + M) for task in range(N)]


def check_4(words):
    """Hyper-period over 10,000,000."""
    running = 1
    for place in task_places(words):
        running = running * words[place] // gcd(running, words[place])
        if running > LONGEST:
            return refused(4, place)
    return None


def check_10(words):
    """'an energy below H x job time, with the first such energy's place'"""
    s = decode(words)
    for place, task in zip(task_places(words), s.tasks):
        for number, (rate, energy) in enumerate(zip(s.rates, task.energies)):
            if energy < s.idle * job_time(task, rate):
                return refused(10, place + 3 + number)
    return None


def decode(words):
    """The set that a list stands for; the list passes check 2."""
    M = words[2]
    tasks = [Task(*words[place:place + 3], list(words[place + 3:place + 3 + M]))
             for place in task_places(words)]
    return TaskSet(words[0], words[1], list(words[3:3 + M]), tasks)


def released_together(words):
    """The list with every A 0; it passes check 2."""
    words = list(words)
    for place in task_places(words):
        words[place + 2] = 0
    return words


def hyper_period(tasks):
    L = 1
    for task in tasks:
        L = L * task.period // gcd(L, task.period)
    return L


def check_set(words):
    answer = check_2(words) or check_3(words) or check_4(words)
    if answer:
        return answer
    s = decode(words)
    return ('good', len(s.rates), len(s.tasks), hyper_period(s.tasks))


# ------------------------------------------------------------ load and energy

def job_time(task, rate):
    """'c / f rounded up to whole ticks.'"""
    return round_up(task.cycles, rate)


def load_table(s, L):
    """For each task its load at each rate number; nothing at number 0."""
    return [[None] + [L // task.period * job_time(task, rate) for rate in s.rates]
            for task in s.tasks]


def energy_table(s, L):
    """For each task its energy at each rate number; nothing at number 0."""
    return [[None] + [L // task.period * energy for energy in task.energies]
            for task in s.tasks]


def reduced_table(s, L):
    """The same of 'the energy per job less H x job time', by which units, rounding
    and selection go."""
    return [[None] + [L // task.period * (energy - s.idle * job_time(task, rate))
                      for energy, rate in zip(task.energies, s.rates)]
            for task in s.tasks]


def rounded_table(energies, d):
    """'The task energy divided by d, rounded up.'"""
    return [[None] + [round_up(energy, d) for energy in row[1:]] for row in energies]


def total(table, rates):
    return sum(row[rate] for row, rate in zip(table, rates))


def load_of(words, rates):
    s = decode(words)
    return total(load_table(s, hyper_period(s.tasks)), rates)


def energy_of(words, rates):
    """'The reported energy is the plan's task energies plus H x (L - load)', of a
    plan that fits."""
    s = decode(words)
    L = hyper_period(s.tasks)
    return total(energy_table(s, L), rates) + s.idle * (L - load_of(words, rates))


# ----------------------------------------------------------------- which plan

def fitting_plans(loads, L):
    M, N = len(loads[0]) - 1, len(loads)
    return [rates for rates in product(range(1, M + 1), repeat=N)
            if total(loads, rates) <= L]


def choose_from_all(fitting, loads, rounded):
    """The rounded energy and the plan chosen from all plans that fit."""
    if not fitting:
        return None
    # 'the least rounded energy of a plan that fits'
    k = min(total(rounded, rates) for rates in fitting)
    left = [rates for rates in fitting if total(rounded, rates) == k]
    # 'take those with least load'
    least = min(total(loads, rates) for rates in left)
    left = [rates for rates in left if total(loads, rates) == least]
    # 'the lowest rate number for task N, then for task N - 1, and so on'
    for task in reversed(range(len(loads))):
        lowest = min(rates[task] for rates in left)
        left = [rates for rates in left if rates[task] == lowest]
    return k, list(left[0])


def choose_by_table(loads, rounded, L):
    """The same choice, made task by task.

    table[e] is the least (load, rate numbers from the last task back to the
    first) of all choices for the tasks so far with rounded energy e. Such a
    pair is compared by load, then by the later task's rate number first. With
    e and the later tasks' rates held, a choice that is less here is less in
    the end, so one entry for each e is enough.

    Two kinds of entry are left out, and neither can become the answer: one
    that does not fit even with the least loads for the tasks to come, and one
    for which an entry with less rounded energy has no more load (put in its
    place, that entry gives a fitting plan with less rounded energy).
    """
    table = {0: (0, ())}
    to_come = sum(min(row[1:]) for row in loads)
    for load_row, rounded_row in zip(loads, rounded):
        to_come -= min(load_row[1:])
        grown = {}
        for e, (load, back) in table.items():
            for rate in range(1, len(load_row)):
                entry = (load + load_row[rate], (rate,) + back)
                if entry[0] + to_come > L:
                    continue
                at = e + rounded_row[rate]
                if at not in grown or entry < grown[at]:
                    grown[at] = entry
        table = {}
        least = None
        for e in sorted(grown):
            if least is None or grown[e][0] < least:
                table[e] = grown[e]
                least = grown[e][0]
    if not table:
        return None
    k = min(table)
    return k, list(reversed(table[k][1]))


def words_needed(s):
    """W = (N + 1) x (F + 1), where F is 4,000 x N / G rounded down."""
    N = len(s.tasks)
    return (N + 1) * (4_000 * N // s.slack + 1)


def plan(words, plan_len, work_len, way=None):
    """way is 'all' (every plan), 'table' (task by task) or None (by size)."""
    # 10 is 'after 3, before 4'
    answer = check_2(words) or check_3(words) or check_10(words) or check_4(words)
    if answer:
        return answer
    s = decode(words)
    M, N, L = len(s.rates), len(s.tasks), hyper_period(s.tasks)
    if work_len < words_needed(s):
        return refused(5, words_needed(s))
    if plan_len < N:
        return refused(6, N)

    loads, reduced = load_table(s, L), reduced_table(s, L)
    if way is None:
        way = 'all' if M ** N <= ENUMERATED else 'table'
    fitting = fitting_plans(loads, L) if way == 'all' else None

    # 'the smallest power of two not below the energy of the plan with every
    # task at rate M; 1 if that energy is 0'
    unit = 1
    while unit < total(reduced, [M] * N):
        unit *= 2
    while True:
        rounded = rounded_table(reduced, unit)
        if way == 'all':
            chosen = choose_from_all(fitting, loads, rounded)
        else:
            chosen = choose_by_table(loads, rounded, L)
        if chosen is None:
            return refused(7, 0)
        k, rates = chosen
        # 'the first with G x k(d) at least 2,000 x N, or 1'
        if s.slack * k >= 2_000 * N or unit == 1:
            break
        unit //= 2
    return ('planned', unit, total(loads, rates), L, energy_of(words, rates), rates)


def objection(words, answer, ticks):
    """What there is to say against an answer of the planner, where enough was
    lent; None if nothing.

    It goes through all plans, one after the other, and takes nothing from the
    ways above: a plan's sums are made anew from the words, and the chosen plan
    is the least of all that fit by rounded energy, load and rate numbers, at
    the unit of the answer. Energies are rounded for that without what their jobs'
    ticks would cost idle, and compared with the slack as they are reported. Up to
    so many ticks in all, whether a plan fits is seen by walking it.
    """
    # 'The planner still answers for a common release'
    words = released_together(words)
    s = decode(words)
    M, N, L = len(s.rates), len(s.tasks), hyper_period(s.tasks)
    if any(s.idle * round_up(task.cycles, rate) > energy for task in s.tasks
           for rate, energy in zip(s.rates, task.energies)):
        return 'an energy is below that of an idle processor'
    plans = list(product(range(1, M + 1), repeat=N))
    by_walking = len(plans) * L <= ticks

    def load(rates):
        return sum(L // task.period * round_up(task.cycles, s.rates[rate - 1])
                   for task, rate in zip(s.tasks, rates))

    def rounded(rates, d):
        return sum(round_up(L // task.period * (task.energies[rate - 1]
                            - s.idle * round_up(task.cycles, s.rates[rate - 1])), d)
                   for task, rate in zip(s.tasks, rates))

    def reported(rates):
        busy = sum(L // task.period * task.energies[rate - 1]
                   for task, rate in zip(s.tasks, rates))
        return busy + s.idle * (L - load(rates))

    def fits(rates):
        if by_walking:
            return walk(words, list(rates))[0] == 'kept'
        return load(rates) <= L

    fitting = [(load(rates), rates) for rates in plans if fits(rates)]
    if answer == refused(7, 0):
        return 'a plan fits' if fitting else None
    if answer[0] != 'planned':
        return 'no cause for it'
    if not fitting:
        return 'no plan fits'
    _, unit, its_load, its_span, its_energy, rates = answer
    if its_span != L:
        return 'not the hyper-period'
    if tuple(rates) not in plans or (its_load, its_energy) != (load(rates), reported(rates)):
        return 'not the sums of its plan'
    if L <= ticks and walk(words, rates)[:3] != ('kept', its_load, L - its_load):
        return 'the walk of its plan departs'

    # The units before it, from the first one on: each falls short.
    fastest = rounded([M] * N, 1)
    first = 1 if fastest <= 1 else 2 ** (fastest - 1).bit_length()
    units = [first]
    while units[-1] > 1:
        units.append(units[-1] // 2)
    if unit not in units:
        return 'no unit to be tried'
    for d in units[:units.index(unit)]:
        if s.slack * min(rounded(rates, d) for _, rates in fitting) >= 2_000 * N:
            return 'a larger unit qualifies'
    k, _, backwards = min((rounded(rates, unit), load, rates[::-1])
                          for load, rates in fitting)
    if unit > 1 and s.slack * k < 2_000 * N:
        return 'the unit does not qualify'
    if tuple(rates) != backwards[::-1]:
        return 'another plan comes first'
    least = min(reported(rates) for _, rates in fitting)
    if 1_000 * its_energy > (1_000 + s.slack) * least:
        return 'more than the slack above the least energy'
    if its_energy - least > margin(words, unit):
        return 'more than the margin above the least energy'
    return None


# --------------------------------------------------------------- the dull way

def check_11(words):
    """'11, M to the power N is over 1,000,000, with 0'"""
    s = decode(words)
    return refused(11, 0) if len(s.rates) ** len(s.tasks) > MOST_PLANS else None


def all_plans(M, N):
    """'all plans, in order of rate numbers with task 1 changing fastest'"""
    rates = [1] * N
    while True:
        yield rates
        task = 0
        while rates[task] == M:
            rates[task] = 1
            task += 1
            if task == N:
                return
        rates[task] += 1


def dull(words, plan_len):
    """The dull engine. It takes nothing from the planner's ways: each plan's sums are made
    anew at each unit, and the first of the best plans is kept. The order of the plans is
    that of the rate number for task N, then for task N - 1, and so on: so the first has
    the lowest for task N, and of those the lowest for task N - 1, down to task 1."""
    # 'Its refusals are the planner's without 5', and 11 'after 4'
    answer = (check_2(words) or check_3(words) or check_10(words) or check_4(words)
              or check_11(words))
    if answer:
        return answer
    s = decode(words)
    M, N, L = len(s.rates), len(s.tasks), hyper_period(s.tasks)
    if plan_len < N:
        return refused(6, N)

    # Of each task and rate number the load, and the energy less H x that load; at 0 nothing.
    sums = []
    for task in s.tasks:
        jobs = L // task.period
        sums.append([None])
        for rate, energy in zip(s.rates, task.energies):
            load = jobs * round_up(task.cycles, rate)
            sums[-1].append((load, jobs * energy - s.idle * load))
    fastest = sum(row[M][1] for row in sums)
    unit = 1
    while unit < fastest:
        unit *= 2

    while True:
        best = None
        for rates in all_plans(M, N):
            load = rounded = 0
            for row, rate in zip(sums, rates):
                load += row[rate][0]
                rounded += round_up(row[rate][1], unit)
            if load <= L and (best is None or (rounded, load) < best[:2]):
                best = rounded, load, list(rates)
        if best is None:
            return refused(7, 0)
        rounded, load, rates = best
        if s.slack * rounded >= 2_000 * N or unit == 1:
            break
        unit //= 2
    energy = s.idle * L + sum(row[rate][1] for row, rate in zip(sums, rates))
    return ('planned', unit, load, L, energy, rates)


# --------------------------------------------------- the margin in microjoules

def margin(words, unit):
    """'the reported energy exceeds that of every plan that keeps its deadlines by at
    most N x (unit - 1)'"""
    return len(decode(words).tasks) * (unit - 1)


def least_energy(words, ticks):
    """The least reported energy of a plan that keeps its deadlines; None where no plan
    does.

    It goes through all plans, one after the other, and knows nothing of units and of
    the choice. Up to so many ticks in all each plan is walked: the walk says whether
    it keeps its deadlines, and how many ticks are idle, all tasks being released
    together. Else the load says both.
    """
    words = released_together(words)
    s = decode(words)
    M, N, L = len(s.rates), len(s.tasks), hyper_period(s.tasks)
    by_walking = M ** N * L <= ticks
    least = None
    for rates in product(range(1, M + 1), repeat=N):
        if by_walking:
            ended = walk(words, list(rates))
            keeps, idle = ended[0] == 'kept', ended[2]
        else:
            idle = L - sum(L // task.period * round_up(task.cycles, s.rates[rate - 1])
                           for task, rate in zip(s.tasks, rates))
            keeps = idle >= 0
        if not keeps:
            continue
        energy = s.idle * idle + sum(L // task.period * task.energies[rate - 1]
                                     for task, rate in zip(s.tasks, rates))
        if least is None or energy < least:
            least = energy
    return least


# ------------------------------------------------------------------- the walk

class Job:
    """One job of a task; two jobs are the same only if they are one object."""

    def __init__(self, left, deadline):
        self.left = left
        self.deadline = deadline


def check_8(plan, M, N):
    """'lowest of these that applies: place of a bad word; its length if
    short; N if long'"""
    applies = [place for place, word in enumerate(plan) if not 1 <= word <= M]
    if len(plan) < N:
        applies.append(len(plan))
    if len(plan) > N:
        applies.append(N)
    return refused(8, min(applies)) if applies else None


def check_walk(words, plan):
    answer = check_set(words)
    if is_refused(answer):
        return answer
    _, M, N, _ = answer
    return check_8(plan, M, N)


def last_tick(tasks):
    """'it goes to 2 x L'; 'If all are 0 it ends at L as before.'"""
    L = hyper_period(tasks)
    return 2 * L if any(task.first > 0 for task in tasks) else L


def is_released(task, tick):
    """'releases fall at A plus multiples of the period'"""
    return tick >= task.first and (tick - task.first) % task.period == 0


def walk(words, plan):
    answer = check_walk(words, plan)
    if answer:
        return answer
    s = decode(words)
    N, end = len(s.tasks), last_tick(s.tasks)
    time = [job_time(task, s.rates[rate - 1]) for task, rate in zip(s.tasks, plan)]

    jobs = [None] * N           # the latest job of each task
    before = None               # the job of the tick before
    busy = idle = preemptions = 0
    for tick in range(end + 1):
        due = [i for i in range(N) if is_released(s.tasks[i], tick)]
        for i in due:
            if jobs[i] is not None and jobs[i].left > 0:
                return ('missed', tick, i + 1)
        if tick == end:
            # 'At L the check is made and nothing is released', and so at 2 x L, where 'an
            # unfinished job whose deadline lies past it is no miss'.
            break
        for i in due:
            jobs[i] = Job(time[i], tick + s.tasks[i].period)
        running = None
        for job in jobs:        # in task order: a tie goes to the lower number
            if job is not None and job.left > 0 and (
                    running is None or job.deadline < running.deadline):
                running = job
        if running is None:
            idle += 1
        else:
            # 'a job runs while the job of the tick before is another and is
            # unfinished'
            if before is not None and before is not running and before.left > 0:
                preemptions += 1
            running.left -= 1
            busy += 1
        before = running
    return ('kept', busy, idle, preemptions)


def keeps_for_ever(words, plan, horizon):
    """The endless walk 'where each task's first release falls at its A', judged at the
    ticks from 0 to horizon."""
    s = decode(words)
    N = len(s.tasks)
    time = [job_time(task, s.rates[rate - 1]) for task, rate in zip(s.tasks, plan)]
    left = [0] * N
    deadline = [0] * N
    for tick in range(horizon + 1):
        for i in range(N):
            if is_released(s.tasks[i], tick):
                if left[i] != 0:
                    return False
                left[i] = time[i]
                deadline[i] = tick + s.tasks[i].period
        unfinished = [i for i in range(N) if left[i] > 0]
        if unfinished:
            left[min(unfinished, key=lambda i: (deadline[i], i))] -= 1
    return True


# --------------------------------------------------------- the load generator

PERIODS = (10, 20, 25, 40, 50, 100, 200, 400)
MOST_GENERATED = 32             # tasks


def draws(seed):
    """The draws from a seed, one after the other, without end."""
    state = seed
    while True:
        # 'Its state goes to state x 1,664,525 + 1,013,904,223, both steps
        # wrapping at 32 bits'
        state = state * 1_664_525 % 2 ** 32
        state = (state + 1_013_904_223) % 2 ** 32
        # 'a draw is the new state divided by 65,536, rounded down'
        yield state // 65_536


def generated_task(draw):
    """'Each task takes three draws': for the period, the cycles, the energies."""
    period = PERIODS[next(draw) % 8]
    cycles = 1 + next(draw) % 1_000
    factor = 2 + next(draw) % 9
    # of A '0 .. from the generator'
    return [period, cycles, 0] + [factor * j * j for j in range(1, 6)]


def generate(seed, N, room):
    # 'Errors: 2 with place 0 for N outside 1 to 32, then 6.'
    if not 1 <= N <= MOST_GENERATED:
        return refused(2, 0)
    # 'The set has slack 100 and five rates, 100 x j for rate j', and after the slack
    # 'the generator's hold 0'.
    words = [100, 0, 5] + [100 * j for j in range(1, 6)] + [N]
    draw = draws(seed)
    for _ in range(N):
        words += generated_task(draw)
    if room < len(words):
        return refused(6, len(words))
    return ('generated', words)


# -------------------------------------------------------------- calls from C

def c_refusal(answer):
    """'refusal number x 2^32 + the second number'"""
    return (answer[1] * 2 ** 32 + answer[2], None)


def c_walk(words, plan, results_len):
    answer = check_walk(words, plan)
    if answer:
        return c_refusal(answer)
    if results_len < RESULT_BYTES:
        return c_refusal(refused(6, RESULT_BYTES))
    answer = walk(words, plan)
    if answer[0] == 'kept':
        return (0, [1, answer[1], answer[2], answer[3]])
    return (0, [0, answer[1], answer[2], 0])


def c_planned(answer, results_len):
    # 'Under 32 bytes there is refusal 6 with 32, checked after all others but 7.'
    if is_refused(answer) and answer[1] != 7:
        return c_refusal(answer)
    if results_len < RESULT_BYTES:
        return c_refusal(refused(6, RESULT_BYTES))
    if is_refused(answer):
        return c_refusal(answer)
    _, unit, load, L, energy, _ = answer
    return (0, [unit, load, L, energy])


def c_plan(words, plan_len, work_len, results_len):
    return c_planned(plan(words, plan_len, work_len), results_len)


def c_dull(words, plan_len, results_len):
    return c_planned(dull(words, plan_len), results_len)


def c_generate(seed, N, room, results_len):
    answer = generate(seed, N, room)
    if is_refused(answer):
        return c_refusal(answer)
    if results_len < RESULT_BYTES:
        return c_refusal(refused(6, RESULT_BYTES))
    return (0, [len(answer[1]), 0, 0, 0])


# ------------------------------------------------------ two processors by name

# 'xscale 150, 400, 600, 800, 1000 MHz at 80, 170, 400, 900, 1600 mW; ppc405lp 33,
# 100, 266, 333 MHz at 19, 72, 600, 750 mW': pairs of MHz and mW.
CHIPS = {
    'xscale': [(150, 80), (400, 170), (600, 400), (800, 900), (1_000, 1_600)],
    'ppc405lp': [(33, 19), (100, 72), (266, 600), (333, 750)],
}
# 'Chips bring H of their own unless the line is given: 12 for ppc405lp, 40 for
# xscale.'
CHIP_IDLE = {'ppc405lp': 12, 'xscale': 40}
MOST_ENERGY = 1_000_000         # of those worked out here


def chip_rates(chip):
    """'One tick is a millisecond, so rates are MHz x 1,000'"""
    return [MHz * 1_000 for MHz, _ in CHIPS[chip]]


def chip_task(chip, period, cycles, first):
    """The task of a line without energies: 'an energy is power in mW times the
    job time'. The numbers are those of the text, whatever their ranges."""
    task = Task(period, cycles, first, [])
    for rate, (_, mW) in zip(chip_rates(chip), CHIPS[chip]):
        task.energies.append(mW * job_time(task, rate))
    return task


def check_9(tasks):
    """'an energy worked out here is over 1,000,000, with the first such task's
    number'"""
    for number, task in enumerate(tasks, 1):
        if any(energy > MOST_ENERGY for energy in task.energies):
            return refused(9, number)
    return None


# --------------------------------------------------------- the bracketed text

NUMBER = 'number'
# Of the lines before the tasks: whether there is an idle line, and then so many rates,
# or a chip of that name.
HEADS = tuple(product((False, True), (*range(2, 9), *CHIPS)))


def items_of(line):
    """A line's bytes, and NUMBER where a number stands. After a number there is always
    a byte."""
    flat = []
    for item in line:
        flat += [NUMBER] if item == NUMBER else list(item)
    return flat


@lru_cache(maxsize=None)
def shape(head):
    """A well-formed text with that head and 32 tasks: for each line the items that it may
    have."""
    has_idle, clock = head
    # 'A line (idle H) may follow the slack line'
    idle = [[b'(idle ', NUMBER, b')\n']] if has_idle else []
    if clock in CHIPS:
        # 'A line (chip xscale) or (chip ppc405lp) replaces the rates line, and
        # task lines then omit the energy form.'
        line = [b'(chip ', clock.encode('ascii'), b')\n']
        energies = []
    else:
        row = [b' ', NUMBER] * clock
        line = [b'(rates'] + row + [b')\n']
        energies = [b' (energy'] + row + [b')']
    task = [b'(task (period ', NUMBER, b') (cycles ', NUMBER, b')'] + energies
    # 'Each task may end with (from A)'
    first = [b' (from ', NUMBER, b')']
    tasks = [items_of(task + more + [b')\n']) for more in ([], first)]
    return [[items_of(line)] for line in [[b'(slack ', NUMBER, b')\n'], *idle, line]] + [tasks] * 32


# A state is (head, line, which, place, value). It says: the bytes so far begin some text
# with that head; the next byte belongs to that line of its shape, which is there as one
# of those that it may be, and to that place of it; value is the number begun there, or
# None. From every state some well-formed text can be reached, so a beginning without a
# state begins no well-formed text.

def at_line(head, line):
    """The states before the first byte of a line; behind the last one that of the end."""
    lines = shape(head)
    ways = len(lines[line]) if line < len(lines) else 1
    return [(head, line, which, 0, None) for which in range(ways)]


FIRST_STATES = frozenset(state for head in HEADS for state in at_line(head, 0))


def is_end(state):
    """Whether a text may end here: behind 'slack, rates, then 1 to 32 tasks'."""
    (has_idle, _), line, _, place, _ = state
    return place == 0 and line > 2 + has_idle


def next_states(state, byte):
    head, line, which, place, value = state
    if line == len(shape(head)):
        return []               # a 33rd task
    items = shape(head)[line][which]

    def at(place, value=None):
        if place == len(items):
            return at_line(head, line + 1)
        return [(head, line, which, place, value)]

    if items[place] != NUMBER:
        return at(place + 1) if byte == items[place] else []
    after = []
    if b'0'[0] <= byte <= b'9'[0]:
        digit = byte - b'0'[0]
        if value is None:
            after += at(place, digit)
        elif value != 0 and value * 10 + digit <= LARGEST:
            after += at(place, value * 10 + digit)
    if value is not None and byte == items[place + 1]:
        after += at(place + 2)
    return after


@lru_cache(maxsize=10_000)      # most texts begin alike
def all_after(states, byte):
    return frozenset(after for state in states for after in next_states(state, byte))


def numbers_of(line):
    return [int(digits) for digits in re.findall(rb'[0-9]+', line)]


def task_of(line):
    """Period, cycles, A and the energies of a task's line; of A '0 if absent'."""
    period, cycles, *energies = numbers_of(line)
    first = energies.pop() if b'(from ' in line else 0
    return Task(period, cycles, first, energies)


def read_text(data, room):
    states = FIRST_STATES
    for offset, byte in enumerate(data):
        states = all_after(states, byte)
        if not states:
            # 'the first byte such that no well-formed text begins with the
            # bytes up to and including it'
            return refused(1, offset)
    ended = {state[0] for state in states if is_end(state)}
    if not ended:
        return refused(1, len(data))    # 'the text's length if it ends early'

    [(has_idle, clock)] = ended         # a text has one head
    lines = data.split(b'\n')[:-1]
    [slack] = numbers_of(lines.pop(0))
    # '0 if the line is absent', and of a chip its own
    [idle] = numbers_of(lines.pop(0)) if has_idle else [CHIP_IDLE.get(clock, 0)]
    line = lines.pop(0)         # of rates or of a chip
    tasks = [task_of(task) for task in lines]
    if clock in CHIPS:
        # 'Reading gives the ordinary list, expanded'
        rates = chip_rates(clock)
        tasks = [chip_task(clock, *task[:3]) for task in tasks]
        answer = check_9(tasks)         # 'after 1, before 6'
        if answer:
            return answer
    else:
        rates = numbers_of(line)
    words = [slack, idle, len(rates), *rates, len(tasks)]
    for task in tasks:
        words += [task.period, task.cycles, task.first, *task.energies]
    if room < len(words):
        return refused(6, len(words))
    return ('read', words)


def write_text(words, room):
    answer = check_2(words) or check_3(words)
    if answer:
        return answer
    s = decode(words)
    lines = ['(slack %d)' % s.slack]
    if s.idle > 0:              # 'The writer writes the line only if H is above 0.'
        lines.append('(idle %d)' % s.idle)
    lines.append('(rates %s)' % ' '.join(map(str, s.rates)))
    for task in s.tasks:
        # of A 'written only if above 0'
        first = ' (from %d)' % task.first if task.first > 0 else ''
        lines.append('(task (period %d) (cycles %d) (energy %s)%s)' % (
            task.period, task.cycles, ' '.join(map(str, task.energies)), first))
    text = ''.join(line + '\n' for line in lines).encode('ascii')
    if room < len(text):
        return refused(6, len(text))
    return ('written', text)


# ---------------------------------------------------------------- the program

def respond(data):
    """All that the program prints for an input."""
    answer = read_text(data[:BYTES_READ], MOST_WORDS)
    if not is_refused(answer):
        words = answer[1]
        answer = plan(words, 32, WORKING_WORDS)
    if is_refused(answer):
        return b'(refused %d %d)\n' % (answer[1], answer[2])
    _, unit, load, L, energy, rates = answer
    lines = [b'(plan (unit %d) (load %d %d) (energy %d))' % (unit, load, L, energy)]
    for task, rate in enumerate(rates, 1):
        lines.append(b'(rate %d %d)' % (task, rate))
    kept, busy, idle, preemptions = walk(words, rates)
    assert kept == 'kept'       # a plan that fits keeps every deadline
    lines.append(b'(walk (busy %d) (idle %d) (preempted %d))' % (busy, idle, preemptions))
    return b''.join(line + b'\n' for line in lines)
