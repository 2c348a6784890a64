"""Sets of the workload types I, II and III of source document 000, in whole numbers.

The document draws for each task its utilisation at the lowest rate and the
number of its jobs in the hyper-period, 1 to 16, and has a power of a f^3 with a
from 2 to 10 and rates 0.15, 0.4, 0.6, 0.8, 1.0. What is ours:

- The hyper-period is 9,369,360 ticks, 13 times the least common multiple of 1 to
  16, so that every number of jobs gives a whole period. The document has 32,000
  units of time, of which a third is not whole. 13 is the largest factor below
  the limit of 10,000,000: the finer the tick, the less a job time is rounded.
- A rate is in cycles a tick: 150, 400, 600, 800, 1000. With a tick of a
  microsecond these are the document's megahertz.
- Energies are scaled so that the dearest job of a set costs 1,000,000, the most
  there is, and rounded to the nearest from 1 on. The idle energy is 0.
- A set that no plan fits is drawn again; the document does not say what it did.
- 'Randomly chosen' is read as uniform.

With an idle energy the draws are the same and the numbers others. A tenth of the
power at the lowest rate is a 2,963rd part of that at the highest, since power goes
with the cube of the rate; and it has to be a whole number of microjoules a tick,
while a job costs at most 1,000,000. So a job can take a few hundred ticks at the
highest rate and no more: those of the sets above take up to 1.5 million, and a tenth
of their lowest power would be rounded to 0. What is ours there:

- The idle energy is 1 microjoule a tick, and a task with a of 6, the middle of 2
  to 10, takes 10 a tick at the lowest rate: powers are the same for all sets.
- A job that would cost over 1,000,000 is split into as many equal jobs as are
  needed, and as divide the hyper-period. Utilisation and energy over the
  hyper-period stay, but for rounding, and the document counts nothing else.
- A job's energy is the power times the job time in whole ticks, as document 02 has
  it for chips, rounded to the nearest. The least power is 3.3 microjoules a tick,
  so no energy is below the idle energy of its ticks: refusal 10 does not occur.
"""

HYPER_PERIOD = 13 * 720_720
RATES = (150, 400, 600, 800, 1000)
FASTEST = RATES[-1]
DEAREST = 1_000_000
MOST_JOBS = 16
TYPES = ('I', 'II', 'III')
LOWEST, HIGHEST = 2, 10                 # of the factor a
IDLE = 1                                # the idle energy, in microjoules a tick
# At the highest rate, of a factor of 1, in microjoules a tick: at the lowest rate the middle factor
# has ten times the idle energy.
POWER = 10 * IDLE / ((LOWEST + HIGHEST) / 2 * (RATES[0] / FASTEST) ** 3)


def uniform(draw, low, high):
    return low + (high - low) * draw.random()


def type_one(draw, N):
    """Each task is a large one with probability 2 / N."""
    small = 1 / (5 * N)
    return [uniform(draw, small, 1) if draw.random() < 2 / N else small * (1 - draw.random())
            for _ in range(N)]


def type_two(draw, N):
    """One large task among small ones; which place it has is drawn too."""
    shares = [uniform(draw, 1 / (10 * N), 1 / (5 * N)) for _ in range(N)]
    shares[draw.between(0, N - 1)] = uniform(draw, 0.9, 1.1)
    return shares


def type_three(draw, N):
    return [uniform(draw, 1 / (2 * N), 2 / N) for _ in range(N)]


SHARES = {'I': type_one, 'II': type_two, 'III': type_three}


def some_draws(draw, kind, N):
    """Of each task its utilisation at the lowest rate, its jobs and its factor."""
    return [(share, draw.between(1, MOST_JOBS), uniform(draw, LOWEST, HIGHEST))
            for share in SHARES[kind](draw, N)]


def cycles_of(share, period):
    return max(1, round(RATES[0] * share * period))


def job_time(cycles, rate):
    return -(-cycles // rate)


def scaled_tasks(drawn):
    """(period, cycles, energies) of each task, the dearest energy of all being the most there is."""
    tasks = []
    for share, jobs, factor in drawn:
        period = HYPER_PERIOD // jobs
        cycles = cycles_of(share, period)
        # power x time = a f^3 x c / f
        tasks.append((period, cycles, [factor * (f / FASTEST) ** 2 * cycles for f in RATES]))
    scale = DEAREST / max(max(energies) for _, _, energies in tasks)
    return [(period, cycles, [max(1, round(scale * energy)) for energy in energies])
            for period, cycles, energies in tasks]


def split_task(share, jobs, factor):
    """The same by a fixed power, in as few jobs as there can be."""
    period = HYPER_PERIOD // jobs
    for parts in range(1, period + 1):
        if period % parts == 0:
            cycles = cycles_of(share, period // parts)
            energies = [round(POWER * factor * (f / FASTEST) ** 3 * job_time(cycles, f)) for f in RATES]
            if max(energies) <= DEAREST:
                return period // parts, cycles, energies
    raise SystemExit('energy: a job of one tick costs too much')


def split_tasks(drawn):
    return [split_task(*task) for task in drawn]


def words_of(tasks, idle):
    """The word list, with slack 1 in its place; all tasks are released together."""
    words = [1, idle, len(RATES), *RATES, len(tasks)]
    for period, cycles, energies in tasks:
        words += [period, cycles, 0, *energies]
    return words


def fits(tasks, rate):
    """Whether every task at one rate keeps the processor from overload."""
    return sum(HYPER_PERIOD // period * job_time(cycles, rate) for period, cycles, _ in tasks) \
        <= HYPER_PERIOD


def drawn_until_it_fits(draw, kind, N, make):
    while True:
        tasks = make(some_draws(draw, kind, N))
        if fits(tasks, FASTEST):
            return tasks


def some_set(draw, kind, N):
    return words_of(drawn_until_it_fits(draw, kind, N, scaled_tasks), 0)


def some_idle_set(draw, kind, N):
    return words_of(drawn_until_it_fits(draw, kind, N, split_tasks), IDLE)
