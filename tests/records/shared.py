"""What all records are made with: their limits, the record itself, the answers, sets, texts and
random choices."""

import random
import re

SEED = 20_011
RANDOM_CASES = 3_000
MOST_WORDS = 400                # of a record's set
MOST_PLAN = 40                  # of a record's plan
MOST_LENT = 64                  # words of a plan list lent to the planner
MOST_WORK = 16_384              # working words lent
MOST_READ = 400                 # words lent to the reader
MOST_GENERATED = 400            # words lent to the load generator
MOST_WRITTEN = 8_192            # bytes lent to the writer
MOST_PRINTED = 2_048            # bytes lent to the program's call, which never needs more
MOST_TEXT = 16_384              # bytes of a record's text
LONGEST_RANDOM = 2_000          # the hyper-period of a random walk: the reference is slow
RANDOM_PLANS = 1_500
RANDOM_TEXTS = 500
RANDOM_LISTS = 300              # each is written and read back
RANDOM_PROGRAMS = 300           # texts of sets, and
DAMAGED_PROGRAMS = 200          # damaged ones
RANDOM_GENERATED = 400
RANDOM_CHIPS = 150              # texts of chips for the reader,
RANDOM_CHIP_PROGRAMS = 100      # for the program, and
RANDOM_CHIP_LISTS = 20          # lists of chips, each written and read back
RANDOM_IDLE_PLANS = 400         # sets with an idle energy for the planner,
RANDOM_IDLE_PROGRAMS = 150      # for the program, and
RANDOM_IDLE_TEXTS = 150         # texts with an idle line for the reader
RANDOM_MARGINS = 400            # small sets for the planner, held to the margin
RANDOM_FIRST_WALKS = 500        # sets with first releases for the walk,
RANDOM_FIRST_PLANS = 120        # for the planner,
RANDOM_FIRST_PROGRAMS = 120     # for the program, and
RANDOM_FIRST_TEXTS = 150        # texts with (from A) for the reader
RANDOM_DULLS = 400              # small sets for the dull engine
FEW_PLANS = 1_024               # up to so many, the reference looks at all of them
TOP = 4_294_967_295             # the largest word

questions = []
answers = []
names = set()


# ------------------------------------------------------------------- records

def record(kind, name, lists, answer, want, lent=()):
    assert re.fullmatch(r'[a-z0-9-]{1,40}', name), name
    assert name not in names, name
    assert want is None or answer == want, '%s: %r, not %r' % (name, answer, want)
    names.add(name)
    items = [kind, name]
    for words, most in zip(lists, (MOST_WORDS, MOST_PLAN)):
        assert len(words) <= most and all(0 <= word <= TOP for word in words), name
        items += [len(words), *words]
    items += lent
    questions.append(' '.join(map(str, items)))
    answers.append(' '.join(map(str, (name, *answer))))


# What stands for byte 10 in a text on a line, and so is no byte of a text that is tried. It is next to no byte of a text
# and to no end of a class of bytes, as '/' would be, which comes just before the digits.
FOR_LINE_END = b'|'


def on_a_line(text):
    assert FOR_LINE_END not in text, text
    return text.replace(b'\n', FOR_LINE_END).decode('latin-1')


def refused(number, second):
    return ('refused', number, second)


def kept(busy, idle, preemptions):
    return ('kept', busy, idle, preemptions)


def missed(tick, task):
    return ('missed', tick, task)


def good(M, N, L):
    return ('good', M, N, L)


def planned(unit, load, L, energy, *rates):
    return ('planned', unit, load, L, energy, *rates)


def was_read(words):
    return ('read', len(words), *words)


def generated(words):
    return ('generated', len(words), *words)


def wrote(text):
    return ('wrote', len(text), on_a_line(text))


# ---------------------------------------------------------------------- sets

S = [100, 0, 3, 2, 4, 8, 2, 10, 12, 0, 4, 9, 20, 15, 20, 0, 7, 15, 30]


# Periods and job times whose load is L. Added as fractions of 53 bits, and of 24 too,
# they come to more than 1.
PAST_ONE = [(30, 7), (60, 33), (60, 9), (60, 4)]
assert 7 / 30 + 33 / 60 + 9 / 60 + 4 / 60 > 1


def task_set(rates, tasks, slack=100, idle=0):
    """tasks are pairs of period and cycles; the energy at rate j is j, and every A is 0."""
    energies = range(1, len(rates) + 1)
    return costed(rates, [(*task, *energies) for task in tasks], slack, idle)


def costed(rates, tasks, slack=100, idle=0):
    """tasks are period, cycles and the energies; every A is 0."""
    words = [slack, idle, len(rates), *rates, len(tasks)]
    for period, cycles, *energies in tasks:
        assert len(energies) == len(rates), energies
        words += [period, cycles, 0, *energies]
    return words


def with_firsts(words, firsts):
    """The list with these first releases, one for each task."""
    M, N = counts(words)
    assert len(firsts) == N, firsts
    for task, first in enumerate(firsts, 1):
        words = put(words, first_of(M, task), first)
    return words


def firsts_of(words):
    M, N = counts(words)
    return [words[first_of(M, task)] for task in range(1, N + 1)]


# Of each chip of document 02's note 2 the rates, and the microjoules that a tick takes at each.
CHIPS = {'xscale': {150_000: 80, 400_000: 170, 600_000: 400, 800_000: 900, 1_000_000: 1_600},
         'ppc405lp': {33_000: 19, 100_000: 72, 266_000: 600, 333_000: 750}}
# And what an idle tick takes, by its note 4.
CHIP_IDLE = {'xscale': 40, 'ppc405lp': 12}


def expanded(chip, slack, tasks, idle=None):
    """The list of a chip and of tasks that are pairs of period and cycles, with the chip's own
    idle energy or with that of an idle line. A job takes its full ticks, and one more where cycles
    are left."""
    whole = []
    for period, cycles in tasks:
        whole.append([period, cycles])
        for rate, microjoules in CHIPS[chip].items():
            full, left = divmod(cycles, rate)
            whole[-1].append(microjoules * full + (microjoules if left else 0))
    return costed(CHIPS[chip], whole, slack, CHIP_IDLE[chip] if idle is None else idle)


def needed(words):
    """W of a good list."""
    _, N = counts(words)
    return (N + 1) * (4_000 * N // words[0] + 1)


def with_periods(periods, M=2):
    return task_set(range(1, M + 1), [(period, 1) for period in periods])


def with_rates(rates, N=1):
    return task_set(rates, [(10, 1)] * N)


def same_tasks(M, N):
    """A plain good list of M rates and N tasks, also where M or N is not allowed."""
    return task_set(range(1, M + 1), [(10, 1)] * N)


# The range of each kind of word; of a first release in a task of period 10, as those of same_tasks.
RANGES = {'slack': (1, 1_000), 'idle': (0, 1_000), 'm': (2, 8), 'rate': (1, 1_000_000),
          'n': (1, 32), 'period': (1, 10_000_000), 'cycles': (1, 4_000_000_000),
          'first': (0, 9), 'energy': (1, 1_000_000)}


def outside(kind):
    """The words next to a range: below it, where there is one, and above it."""
    low, high = RANGES[kind]
    return [low - 1, high + 1] if low > 0 else [high + 1]


IDLE_AT, M_AT, RATE_AT = 1, 2, 3        # the places of H, of M and of the first rate
BEFORE_ENERGIES = 3                     # words of a task: period, cycles and first release


def places_of(M, N):
    """A label, the kind and the place of words of every kind, at both ends of a set of N tasks and
    M rates."""
    places = [('slack', 'slack', 0), ('idle', 'idle', IDLE_AT), ('m', 'm', M_AT),
              ('rate-a', 'rate', RATE_AT), ('rate-z', 'rate', last_rate(M)),
              ('n', 'n', task_count(M))]
    for end, task in (('a', 1), ('z', N))[:N]:
        at = period_of(M, task)
        places += [('period-' + end, 'period', at), ('cycles-' + end, 'cycles', at + 1),
                   ('first-' + end, 'first', first_of(M, task)),
                   ('energy-%sa' % end, 'energy', energies_of(M, task)),
                   ('energy-%sz' % end, 'energy', energies_of(M, task) + M - 1)]
    return places


def put(words, place, word):
    return words[:place] + [word] + words[place + 1:]


def with_bad(words, *places):
    """The list with a word at each of these places that no set has there: 0, and for H and A, which
    may be 0, one that is too high."""
    M, N = counts(words)
    high = {IDLE_AT: 1_001, **{first_of(M, task): TOP for task in range(1, N + 1)}}
    for place in places:
        words = put(words, place, high.get(place, 0))
    return words


def last_rate(M):
    return RATE_AT - 1 + M


def task_count(M):
    return RATE_AT + M


def period_of(M, task):
    return task_count(M) + 1 + (task - 1) * task_words(M)


def task_words(M):
    return BEFORE_ENERGIES + M


def first_of(M, task):
    return period_of(M, task) + 2


def energies_of(M, task):
    """The place of a task's first energy."""
    return period_of(M, task) + BEFORE_ENERGIES


def length_of(M, N):
    return period_of(M, N + 1)


def counts(words):
    """M and N, of a list that has them where it says."""
    M = words[M_AT]
    return M, words[task_count(M)]


# --------------------------------------------------------------------- texts

def row(items):
    return ''.join(' %s' % item for item in items)


def front_of(slack, idle=None):
    """What stands before the line of rates or of a chip; the idle line only where it is given."""
    line = '' if idle is None else '(idle %s)\n' % idle
    return ('(slack %s)\n%s' % (slack, line)).encode('latin-1')


def head_of(slack, rates, idle=None):
    return front_of(slack, idle) + ('(rates%s)\n' % row(rates)).encode('latin-1')


def from_form(first):
    """What a task may end with, only where it is given."""
    return '' if first is None else ' (from %s)' % first


def line_of(period, cycles, *energies, first=None):
    return ('(task (period %s) (cycles %s) (energy%s)%s)\n'
            % (period, cycles, row(energies), from_form(first))).encode('latin-1')


def task_lines(words):
    """The lines of a list's tasks, with a form for A unless it is 0."""
    M, N = counts(words)
    assert len(words) == length_of(M, N)
    tasks = [words[period_of(M, task):period_of(M, task + 1)] for task in range(1, N + 1)]
    return b''.join(line_of(period, cycles, *energies, first=first or None)
                    for period, cycles, first, *energies in tasks)


def text_of(words):
    """The text that says a list of words, whatever their ranges, with an idle line unless H is 0 and
    with a form for each A that is not 0. M and N are those of the list."""
    M, _ = counts(words)
    head = head_of(words[0], words[RATE_AT:RATE_AT + M], words[IDLE_AT] or None)
    return head + task_lines(words)


def chip_head(chip, slack, idle=None):
    return front_of(slack, idle) + ('(chip %s)\n' % chip).encode('latin-1')


def chip_line(period, cycles, first=None):
    return ('(task (period %s) (cycles %s)%s)\n'
            % (period, cycles, from_form(first))).encode('latin-1')


def chip_text(chip, slack, tasks, idle=None):
    """tasks are period and cycles, and A where it is given."""
    return chip_head(chip, slack, idle) + b''.join(chip_line(*task) for task in tasks)


def chip_of(text):
    """The chip that a well-formed text names, or None."""
    named = re.search(rb'\(chip ([a-z0-9]*)\)', text)
    return named and named[1].decode('ascii')


def words_of(text):
    """The words of a well-formed text, whatever their ranges; those of a chip's text expanded."""
    lines = text.split(b'\n')[:-1]
    numbers = [[int(number) for number in re.findall(rb'[0-9]+', line)] for line in lines]
    # A is the last number of its line, where it is given.
    firsts = [row.pop() if b'(from ' in line else None
              for line, row in zip(lines, numbers) if line.startswith(b'(task')]
    (slack,), *others = numbers
    idle = others.pop(0)[0] if b'(idle ' in text else None
    chip, rates, *tasks = chip_of(text), *others
    if chip:
        words = expanded(chip, slack, tasks, idle)
        again = chip_text(chip, slack, [(*task, first) for task, first in zip(tasks, firsts)], idle)
    else:
        words = costed(rates, tasks, slack, idle or 0)
        again = head_of(slack, rates, idle) + b''.join(
            line_of(*task, first=first) for task, first in zip(tasks, firsts))
    assert again == text
    return with_firsts(words, [first or 0 for first in firsts])


# ------------------------------------------------------------ random choices

class Draw:
    """Random choices made of random() alone, which gives the same numbers for
    a seed with every Python 3; choice, sample and their kind need not."""

    def __init__(self, seed):
        self.random = random.Random(seed).random

    def between(self, low, high):
        return low + int(self.random() * (high - low + 1))

    def one_of(self, items):
        return items[self.between(0, len(items) - 1)]

    def rising(self, count, most):
        """count different numbers of 1 to most, in order."""
        found = set()
        while len(found) < count:
            found.add(self.between(1, most))
        return sorted(found)


EDGES = [0, 0, 0, 1, 2, 8, 9, 10, 32, 33, 100, 1_000, 1_001, 65_536, 1_000_000, 1_000_001,
         10_000_000, 10_000_001, 4_000_000_000, 4_000_000_001, TOP, TOP]


def damaged(draw, words):
    """A list with one fault or a few; now and then it is good again."""
    words = list(words)
    M = words[M_AT]
    for _ in range(draw.one_of([1, 1, 1, 2, 2, 3])):
        if len(words) < 4:
            break
        how = draw.one_of(['edge', 'edge', 'edge', 'remove', 'insert', 'cut', 'more', 'swap',
                           'swap', 'rates', 'rates', 'count', 'period'])
        place = draw.between(0, len(words) - 1)
        if how == 'edge':
            words[place] = draw.one_of(EDGES)
        elif how == 'remove':
            del words[place]
        elif how == 'insert':
            words.insert(place, draw.one_of([1, 2, 5] + EDGES))
        elif how == 'cut':
            del words[place:]
        elif how == 'more':
            words += [draw.one_of([1, 2, 5] + EDGES) for _ in range(draw.between(1, 4))]
        elif how == 'swap' and place > 0:
            words[place - 1], words[place] = words[place], words[place - 1]
        elif how == 'rates' and len(words) > task_count(M):
            a, b = (draw.between(RATE_AT, last_rate(M)) for _ in range(2))
            if draw.between(0, 1):
                words[a] = words[b]
            else:
                words[a], words[b] = words[b], words[a]
        elif how == 'count':
            at = draw.one_of([M_AT, task_count(M)])
            if at < len(words) and 0 < words[at] < TOP:
                words[at] += draw.one_of([1, -1])
        elif how == 'period' and len(words) > period_of(M, 1):
            tasks = (len(words) - period_of(M, 1)) // task_words(M)
            at = period_of(M, draw.between(1, max(1, tasks)))
            if at < len(words):
                words[at] = draw.one_of([9_999_991, 9_999_999, 10_000_000, 7_654_321, 1_048_576])
    return words
