"""Records of chips, which are of document 02's note 2: their texts, for the reader and the program's
call; and the lists that they stand for, given to the other calls."""

import reference as r
from records.shared import (
    CHIPS, CHIP_IDLE, Draw, MOST_LENT, MOST_PRINTED, MOST_READ, MOST_WORK, MOST_WRITTEN,
    RANDOM_CHIPS, RANDOM_CHIP_LISTS, RANDOM_CHIP_PROGRAMS, SEED, TOP, chip_line, chip_text, costed,
    energies_of, expanded, good, head_of, length_of, line_of, needed, period_of, refused, text_of,
    was_read, words_of, wrote)
from records.checks import check
from records.planner import least_slack, planner
from records.program import program, refusal, roomed, short_span
from records.reader import ODD_NUMBERS, damaged_text, read, read_back, some_number
from records.walk import walk
from records.writer import write, written
from test_reference import CHIP_PRINTED, CHIP_WORKED, MOST_CYCLES, plain_reader

SLACK = b'(slack 5)\n'
BARE = chip_line(7, 9)                  # a task line without energies
BEHIND = len(b'(task (period 7) (cycles 9)')    # where it ends, or goes on with (from A)
ENERGIES = BEHIND + len(b' (')          # where energies depart, which no (from A) begins with
NAME_AT = len(SLACK + b'(chip ')
OTHER = {'xscale': 'ppc405lp', 'ppc405lp': 'xscale'}


def size_of(chip, N):
    """How many words the list of a chip and of N tasks has."""
    return length_of(len(CHIPS[chip]), N)


# ------------------------------------------------------------ worked, and lent

def chip_worked():
    """What is worked in test_reference.py, and the words lent for it: 9 before 6."""
    for number, (chip, slack, tasks, want) in enumerate(CHIP_WORKED, 1):
        name, text = 'r-chip-worked-%02d' % number, chip_text(chip, slack, tasks)
        size = size_of(chip, len(tasks))
        if want[0] == 'refused':
            for lent in (MOST_READ, 0):
                read('%s-lent-%d' % (name, lent), text, lent, want)
            continue
        assert len(want) == size, name
        for lent in (MOST_READ, size):
            read('%s-lent-%d' % (name, lent), text, lent, was_read(want))
        for lent in (size - 1, 0) if number > 2 else (size - 1, 1, 0):
            read('%s-lent-%d' % (name, lent), text, lent, refused(6, size))


def chip_sizes():
    """Few and most tasks, with as many words as they take, and one less; the largest text.

    Catches a count of the words by the other chip's rates, tasks that are put down
    at a wrong place, and a list that ends one early or late.
    """
    for chip in CHIPS:
        for N in (1, 2, 31, 32):
            tasks = [(10 * i + 3, 123_457 * i) for i in range(N)]
            name, text = 'r-chip-%s-tasks-%d' % (chip, N), chip_text(chip, 9, tasks)
            size = size_of(chip, N)
            read(name, text, size, was_read(expanded(chip, 9, tasks)))
            read(name + '-short', text, size - 1, refused(6, size))
        # The longest text, whose cycles are too many; and that with the most that are not.
        dear = chip_text(chip, TOP, [(TOP, TOP)] * 32)
        read('r-chip-%s-largest' % chip, dear, want=refused(9, 1))
        read('r-chip-%s-largest-cut' % chip, dear[:-1], want=refused(1, len(dear) - 1))
        read('r-chip-%s-largest-more' % chip, dear + b'\n', want=refused(1, len(dear)))
        most = [(TOP, MOST_CYCLES[chip])] * 32
        text = chip_text(chip, TOP, most)
        read('r-chip-%s-most' % chip, text, want=was_read(expanded(chip, TOP, most)))
        program('a-chip-%s-most' % chip, text, want=refusal(2, 0))
        read('r-chip-%s-zeros' % chip, chip_text(chip, 0, [(0, 0)] * 3), want=was_read(
            costed(CHIPS[chip], [[0] * (2 + len(CHIPS[chip]))] * 3, 0, CHIP_IDLE[chip])))


# ------------------------------------------------------------------- the line

# What may stand for a chip's name, and at which of its bytes a text with it departs.
ODD_NAMES = [
    ('', 0), (' ', 0), ('x', 1), ('p', 1), ('xscal', 5), ('ppc405l', 7), ('ppc405', 6), ('scale', 0),
    ('pc405lp', 1), ('xsclae', 3), ('ppc450lp', 4), ('xp', 1), ('px', 1), ('ps', 1), ('xscppc', 3),
    ('ppcale', 3), ('xscale405lp', 6), ('XScale', 0), ('XSCALE', 0), ('xScale', 1), ('PPC405LP', 0),
    ('ppc405LP', 6), ('xscales', 6), ('xscale ', 6), ('xscale\n', 6), ('xscale)', 7), ('xscale(', 6),
    ('xscale ppc405lp', 6), ('xscalexscale', 6), ('xscale 5', 6), ('ppc405lp ', 8), ('ppc405lp1', 8),
    ('ppc405gp', 6), ('ppc440', 4), ('ppc 405lp', 3), ('ppc0405lp', 3), ('pppc405lp', 2),
    ('pxa255', 1), ('0', 0), ('405', 0), ('150 400 600 800 1000', 0), ('(xscale)', 0), ('\txscale', 0),
    ('\nxscale', 0), (' xscale', 0), (' ppc405lp', 0), ('\xff', 0), ('ppc405lp\xff', 8),
]


def chip_names():
    """Other names, and other words before them.

    Catches a name compared in part or by its first letter alone, an offset that is
    that of the name and not of the byte, and letters of both cases.
    """
    for count, (odd, departs) in enumerate(ODD_NAMES):
        text = SLACK + ('(chip %s)\n' % odd).encode('latin-1') + BARE
        read('r-chip-name-%02d' % count, text, want=refused(1, NAME_AT + departs))
    for label, line, departs in (
            ('chips', b'(chips xscale)', 5), ('chip-closed', b'(chip)', 5),
            ('ship', b'(ship xscale)', 1), ('cpu', b'(cpu xscale)', 2),
            ('chip-tab', b'(chip\txscale)', 5), ('upper', b'(CHIP xscale)', 1),
            ('title', b'(Chip xscale)', 1), ('crates', b'(crates 1 2)', 2),
            ('no-bracket', b'chip xscale', 0), ('space-inside', b'( chip xscale)', 1),
            ('only-name', b'(xscale)', 1), ('rates-name', b'(rates xscale)', 7),
            ('rates-two-and-name', b'(rates 1 2 xscale)', 11), ('rchip', b'(rchip xscale)', 2),
            ('chip-rates', b'(chip rates 1 2)', 6), ('cycles', b'(cycles 1)', 2)):
        read('r-chip-line-' + label, SLACK + line + b'\n' + BARE,
             want=refused(1, len(SLACK) + departs))


def chip_bytes():
    """The line of a chip, and of the other one its name, cut at every byte, and with every byte wrong
    and left out or doubled; and the end of a task line."""
    for chip, begin in (('xscale', len(SLACK)), ('ppc405lp', NAME_AT)):
        text = SLACK + ('(chip %s)\n' % chip).encode('ascii') + BARE
        end = len(text) - len(BARE)
        for at in (*range(begin, end + 1), *range(end + BEHIND - 2, len(text))):
            read('r-chip-%s-cut-%02d' % (chip, at), text[:at], (MOST_READ, 0)[at % 2],
                 refused(1, at))
        for at in range(begin, end):
            byte = text[at]
            for wrong in sorted({(byte ^ 32, byte + 1)[at % 2], b'0 '[at % 2]} - {byte}):
                read('r-chip-%s-wrong-%02d-%d' % (chip, at, wrong),
                     text[:at] + bytes([wrong]) + text[at + 1:], (MOST_READ, 0)[at % 2],
                     refused(1, at))
            # What stands there then is another byte, but for one p of ppc405lp.
            double = text[at] == text[at + 1]
            if at % 2:
                read('r-chip-%s-left-out-%02d' % (chip, at), text[:at] + text[at + 1:],
                     want=refused(1, at + double))
            else:
                read('r-chip-%s-doubled-%02d' % (chip, at), text[:at + 1] + text[at:],
                     want=refused(1, at + 1 + double))
        # Each letter of the other name in its place: only the first begins a chip. The third is a c
        # in both.
        for at, (own, letter) in enumerate(zip(chip, OTHER[chip])):
            if own != letter:
                read('r-chip-%s-of-other-%d' % (chip, at),
                     text[:NAME_AT + at] + letter.encode('ascii') + text[NAME_AT + at + 1:],
                     want=refused(1, NAME_AT + at + (at == 0)))


def chip_lines():
    """A text has a line of rates or a chip, and task lines that go with it."""
    given = {chip: line_of(7, 9, *CHIPS[chip].values()) for chip in CHIPS}
    rates = b'(rates 1 2)\n'
    two = line_of(7, 9, 1, 2)
    for chip in CHIPS:
        line = ('(chip %s)\n' % chip).encode('ascii')
        other = ('(chip %s)\n' % OTHER[chip]).encode('ascii')
        head = SLACK + line

        def departs(label, text, at):
            read('r-chip-%s-%s' % (chip, label), text, want=refused(1, at))

        # Both lines, in either order: a bracket there begins a task line.
        departs('then-rates', head + rates + BARE, len(head) + 1)
        departs('then-rates-and-energies', head + rates + two, len(head) + 1)
        departs('then-its-rates', head + head_of(5, CHIPS[chip])[len(SLACK):] + given[chip],
                len(head) + 1)
        departs('after-rates', SLACK + rates + line + BARE, len(SLACK + rates) + 1)
        departs('after-rates-and-energies', SLACK + rates + line + two, len(SLACK + rates) + 1)
        departs('twice', head + line + BARE, len(head) + 1)
        departs('then-the-other', head + other + BARE, len(head) + 1)
        departs('on-one-line', SLACK + line[:-1] + other + BARE, len(head) - 1)
        departs('before-slack', line + SLACK + BARE, 1)
        departs('no-slack', line + BARE, 1)
        departs('then-slack', head + SLACK + BARE, len(head) + 1)
        departs('after-a-task', SLACK + BARE + line, len(SLACK) + 1)
        departs('empty-line', SLACK + b'\n' + line + BARE, len(SLACK))
        departs('then-empty-line', head + b'\n' + BARE, len(head))
        departs('return', head[:-1] + b'\r\n' + BARE, len(head) - 1)
        # Energies under a chip, at the first task, the second and the last.
        for before in (0, 1, 31):
            tasks = BARE * before
            departs('energies-at-%d' % (before + 1), head + tasks + given[chip],
                    len(head + tasks) + ENERGIES)
        departs('energies-then-bare', head + given[chip] + BARE, len(head) + ENERGIES)
        departs('energies-of-two', head + two, len(head) + ENERGIES)
        departs('energies-none', head + line_of(7, 9), len(head) + ENERGIES)
        departs('space-behind-cycles', head + BARE[:BEHIND] + b' )\n', len(head) + BEHIND + 1)
        departs('one-bracket', head + BARE[:BEHIND] + b'\n', len(head) + BEHIND)
        departs('three-brackets', head + BARE[:BEHIND] + b'))\n', len(head) + BEHIND + 1)
        departs('no-cycles', head + b'(task (period 7))\n', len(head) + 16)
        departs('cycles-first', head + b'(task (cycles 9) (period 7))\n', len(head) + 7)
        # Its rates given, and a task line without energies: at the second bracket.
        explicit = head_of(5, CHIPS[chip])
        departs('rates-given-bare', explicit + BARE, len(explicit) + BEHIND)
        departs('rates-given-bare-at-2', explicit + given[chip] + BARE,
                len(explicit + given[chip]) + BEHIND)
        # Tasks: none, 33, and what stands behind them.
        departs('no-task', head, len(head))
        for label, more in (('33', BARE), ('two', BARE * 2), ('bracket', b'('), ('chip', line)):
            departs('33rd-task-' + label, head + BARE * 32 + more, len(head + BARE * 32))
        whole = head + BARE * 2
        for label, more, behind in (
                ('rates', rates, 1), ('chip', line, 1), ('bracket', b'(', 1), ('line-end', b'\n', 0),
                ('space', b' ', 0), ('closed', b')', 0), ('byte-0', b'\x00', 0)):
            departs('end-' + label, whole + more, len(whole) + behind)
    read('r-chip-none-bare', SLACK + rates + BARE, want=refused(1, len(SLACK + rates) + BEHIND))
    read('r-chip-none-bare-at-2', SLACK + rates + two + BARE,
         want=refused(1, len(SLACK + rates + two) + BEHIND))


def chip_numbers():
    """Numbers of a chip's text replaced: the cycles under one chip, the period and the slack under the
    other. Cycles that are well formed may be too many for the chip."""
    def replaced(label, chip, numbers, which, count, odd, departs):
        texts = [b'(slack ', b')\n(chip %s)\n(task (period ' % chip.encode('ascii'),
                 b') (cycles ', b'))\n']
        numbers = [odd if at == which else str(number) for at, number in enumerate(numbers)]
        front = b''.join(text + number.encode('latin-1') for text, number in zip(texts, numbers))
        begin = len(b''.join(texts[:which + 1])) + sum(map(len, numbers[:which]))
        if departs is not None:
            want = refused(1, begin + departs)
        else:
            slack, period, cycles = map(int, numbers)
            want = refused(9, 1) if cycles > MOST_CYCLES[chip] else \
                was_read(expanded(chip, slack, [(period, cycles)]))
        read('r-chip-%s-%02d' % (label, count), front + texts[3],
             (size_of(chip, 1), MOST_READ)[count % 2], want)

    for count, (odd, departs) in enumerate(ODD_NUMBERS):
        if count < 21 or count % 2 == 0:
            replaced('cycles', 'ppc405lp', (5, 7, 9), 2, count, odd, departs)
        if count % 4 == 0:
            replaced('period', 'xscale', (5, 7, 150_001), 1, count, odd, departs)
        if count % 6 == 0:
            replaced('slack', 'xscale', (5, 7, 9), 0, count, odd, departs)


# ------------------------------------------------------------------ refusal 9

# At each rate the most cycles whose energy there is not over 1,000,000, by their ticks.
NEAR = {'xscale': (12_500 * 150_000, 5_882 * 400_000, 2_500 * 600_000, 1_111 * 800_000,
                   625 * 1_000_000),
        'ppc405lp': (52_631 * 33_000, 13_888 * 100_000, 1_666 * 266_000, 1_333 * 333_000)}


def chip_nine():
    """Both sides of refusal 9, for each rate, at each place among the tasks, and beside the other
    refusals.

    Catches 'at least' for 'over', one rate looked at for all, the last or the number of
    such tasks for the first, tasks counted from 0, a place for a task's number, 9 before 1
    or after 6, ranges that are judged with it, and sums and products that wrap.
    """
    for chip in CHIPS:
        rates = list(CHIPS[chip])
        for rate, cycles in zip(rates, NEAR[chip]):
            energy = cycles // rate * CHIPS[chip][rate]
            assert energy <= 1_000_000 < energy + CHIPS[chip][rate], rate
            for more in (1 - rate, 0, 1):               # the last tick's cycles, and one more
                over = cycles + more > min(NEAR[chip])  # at this rate or at another
                words = expanded(chip, 9, [(7, cycles + more)])
                read('r-chip-%s-at-%d-%d' % (chip, rate, cycles + more),
                     chip_text(chip, 9, [(7, cycles + more)]),
                     want=refused(9, 1) if over else was_read(words))
        most = MOST_CYCLES[chip]
        assert most == min(NEAR[chip]), chip
        for cycles in (0, 1, 2 ** 31, 4_000_000_000, 4_000_000_001, TOP - 32_999, TOP):
            want = refused(9, 1) if cycles > most else None
            read('r-chip-%s-cycles-%d' % (chip, cycles), chip_text(chip, 9, [(7, cycles)]),
                 want=want)

        # Which of several tasks: the first, wherever the others are.
        def tasks(N, *dear):
            return [(7, most + 1 if task in dear else most) for task in range(1, N + 1)]

        for N, dear in ((2, (1,)), (2, (2,)), (2, (1, 2)), (3, (2, 3)), (5, (3, 5)), (32, (1,)),
                        (32, (2,)), (32, (17,)), (32, (31,)), (32, (32,)), (32, (31, 32)),
                        (32, (1, 32)), (32, range(1, 33)), (32, range(9, 33))):
            name = 'r-chip-%s-of-%d-dear-%s' % (chip, N, '-'.join(map(str, dear[:2])))
            name += '-and-on' if len(dear) > 2 else ''
            read(name, chip_text(chip, 9, tasks(N, *dear)), want=refused(9, dear[0]))

        # 9 comes after 1: bytes left over, an early end, and a departure in a later line.
        text = chip_text(chip, 9, tasks(2, 1, 2))
        for label, departing, at in (
                ('line-end', text + b'\n', len(text)), ('space', text + b' ', len(text)),
                ('byte-255', text + b'\xff', len(text)), ('bracket', text + b'(', len(text) + 1),
                ('rates', text + b'(rates 1 2)\n', len(text) + 1),
                ('cut', text[:-1], len(text) - 1), ('cut-by-2', text[:-2], len(text) - 2),
                ('energies', text + line_of(7, 9, 1, 2), len(text) + ENERGIES),
                ('number', text + chip_line(7, '01'), len(text) + BEHIND - 1),
                ('33rd', chip_text(chip, 9, tasks(33, 1)), len(chip_text(chip, 9, tasks(32, 1))))):
            read('r-chip-%s-1-before-9-%s' % (chip, label), departing,
                 0 if chip == 'xscale' else MOST_READ, refused(1, at))
        # It comes before 6, and where it does not hold there is 6.
        size = size_of(chip, 2)
        for lent in (0, 1, size - 1, size, size + 1):
            read('r-chip-%s-9-lent-%d' % (chip, lent), chip_text(chip, 9, tasks(2, 2)), lent,
                 refused(9, 2))
            at_most = chip_text(chip, 9, tasks(2))
            read('r-chip-%s-6-lent-%d' % (chip, lent), at_most, lent, refused(6, size)
                 if lent < size else was_read(expanded(chip, 9, tasks(2))))
        # Ranges play no part in it.
        for label, slack, period in (('slack-0', 0, 7), ('slack-1001', 1_001, 7),
                                     ('slack-most', TOP, 7), ('period-0', 9, 0),
                                     ('period-10000001', 9, 10_000_001), ('both-0', 0, 0)):
            read('r-chip-%s-9-%s' % (chip, label), chip_text(chip, slack, [(period, most + 1)]),
                 want=refused(9, 1))
            read('r-chip-%s-no-9-%s' % (chip, label), chip_text(chip, slack, [(period, most)]),
                 want=was_read(expanded(chip, slack, [(period, most)])))
        # Energies that are given are not judged by it.
        words = expanded(chip, 9, tasks(2, 1, 2))
        read_back('r-chip-%s-given' % chip, words)
        read_back('r-chip-%s-given-most' % chip, expanded(chip, TOP, [(TOP, TOP)] * 2))
        # The highest rate but one of ppc405lp is the dear one.
        dear = min(range(len(rates)), key=lambda at: NEAR[chip][at])
        program('a-chip-%s-given' % chip, text_of(words),
                want=refusal(2, energies_of(len(rates), 1) + dear))


# ---------------------------------------------------------------- the program

def chip_programs():
    """What the program prints for chips: plans, each refusal, and which of several comes first. For a
    chip's text it prints what it does for the same set with its rates and energies."""
    for number, ((chip, slack, tasks, *_), printed) in enumerate(CHIP_PRINTED, 1):
        name, text = 'a-chip-printed-%02d' % number, chip_text(chip, slack, tasks)
        if number <= 2:
            roomed(name, text, printed)
        else:
            program(name, text, want=printed)
        if not printed.startswith(b'(refused 9'):
            program(name + '-given', text_of(expanded(chip, slack, tasks)), want=printed)
    roomed('a-chip-9', chip_text('xscale', 5, [(7, 9), (7, TOP)]), refusal(9, 2))
    for chip, most in MOST_CYCLES.items():
        M = len(CHIPS[chip])

        def prints(label, slack, tasks, want=None):
            program('a-chip-%s-%s' % (chip, label), chip_text(chip, slack, tasks), want=want)

        # Only the highest rate fits, for the one task and for the last of two; a cycle more, and none.
        top = max(CHIPS[chip])
        for ticks in (7, 100):
            prints('full-%d' % ticks, 100, [(ticks, ticks * top)])
            prints('over-%d' % ticks, 100, [(ticks, ticks * top + 1)], refusal(7, 0))
        prints('last-at-highest', 10, [(100, 1), (100, 99 * top)])
        # The rates that just fit, from the lowest on, and one cycle more.
        for number, rate in enumerate(CHIPS[chip], 1):
            for more in (0, 1):
                prints('rate-%d-and-%d' % (number, more), 50, [(20, 20 * rate + more)])
        # The dearest jobs that there can be, alone and with others.
        L = -(-most // top)
        prints('dearest', 100, [(L, most)])
        prints('dearest-and-more', 100, [(2 * L, most), (2 * L, most)])
        prints('dearest-too-long', 100, [(L - 1, most)], refusal(7, 0))
        prints('dear', 100, [(L, most + 1)], refusal(9, 1))
        # Refusals 2, at each place that a chip's text can bring one to, 4 and 5; 9 before them.
        for label, slack, tasks, place in (
                ('slack-0', 0, [(7, 9)], 0), ('slack-1001', 1_001, [(7, 9)], 0),
                ('period-0', 5, [(0, 9)], period_of(M, 1)),
                ('period-10000001', 5, [(10_000_001, 9)], period_of(M, 1)),
                ('cycles-0', 5, [(7, 0)], period_of(M, 1) + 1),
                ('period-0-at-2', 5, [(7, 9), (0, 0)], period_of(M, 2)),
                ('cycles-0-at-2', 5, [(7, 9), (7, 0)], period_of(M, 2) + 1),
                ('cycles-0-at-32', 5, [(7, 9)] * 31 + [(7, 0)], period_of(M, 32) + 1)):
            prints(label, slack, tasks, refusal(2, place))
            if label in ('slack-0', 'period-0', 'cycles-0'):
                prints(label + '-and-9', slack, tasks + [(7, most + 1)], refusal(9, 2))
        late = [(9_999_999, most), (10_000_000, most)]
        prints('4', 100, late, refusal(4, period_of(M, 2)))
        prints('9-before-4', 100, late + [(1, most + 1)], refusal(9, 3))
        prints('5', 1, [(10, 9)] * 2, refusal(5, 24_003))
        prints('9-before-5', 1, [(10, most + 1)] * 2, refusal(9, 1))
        prints('32-tasks', 259, [(64 + 64 * (task % 3 == 0), top // 25 * task + 1)
                                 for task in range(32)])
        prints('longest', 100, [(10_000_000, most), (5_000_000, most), (2_500, top)])
        # Bytes left over are found before 9.
        text = chip_text(chip, 5, [(7, TOP)])
        program('a-chip-%s-1-before-9' % chip, text + b'\n', want=refusal(1, len(text)))
        program('a-chip-%s-spaces' % chip, text.ljust(r.BYTES_READ + 1),
                want=refusal(1, len(text)))


# ------------------------------------------------------- lists for other calls

def chip_lists():
    """The lists that chips stand for: checks, planner, walk, writer, and read back."""
    sets = [(chip, slack, tasks) for chip, slack, tasks, want in CHIP_WORKED[:2]]
    for chip, most in MOST_CYCLES.items():
        top = max(CHIPS[chip])
        sets += [(chip, 1_000, [(700, most), (1_400, 5_000_001)]),
                 (chip, 250, [(10, top), (20, 4 * top), (40, 3 * top + 1), (5, top // 2)])]
    sets.append(('xscale', 300, [(40 + 40 * (task % 2), 150_000 * task + 1) for task in range(32)]))
    for number, (chip, slack, tasks) in enumerate(sets, 1):
        words, name = expanded(chip, slack, tasks), 'chip-list-%d' % number
        M, N = len(CHIPS[chip]), len(tasks)
        check('c-' + name, words, good(M, N, r.hyper_period(r.decode(words).tasks)))
        planner('p-' + name, words, N, needed(words))
        planner('p-%s-a-word-short' % name, words, N, needed(words) - 1,
                refused(5, needed(words)))
        walk('w-%s-slowest' % name, words, [1] * N)
        walk('w-%s-fastest' % name, words, [M] * N)
        answer = r.plan(words, MOST_LENT, MOST_WORK)
        if answer[0] == 'planned':
            walk('w-%s-planned' % name, words, answer[5])
        if number <= 2:
            written('t-' + name, words)
        else:
            write('t-' + name, words, want=wrote(text_of(words)))
        read_back('r-' + name, words)
        read('r-%s-of-chip' % name, chip_text(chip, slack, tasks), want=was_read(words))
    # A list that is too dear for the reader is out of its range for the others.
    for chip, place in (('xscale', 16), ('ppc405lp', 13)):
        words = expanded(chip, 9, [(7, MOST_CYCLES[chip] + 1)])
        check('c-chip-%s-dear' % chip, words, refused(2, place))
        planner('p-chip-%s-dear' % chip, words, want=refused(2, place))
        write('t-chip-%s-dear' % chip, words, want=refused(2, place))
        walk('w-chip-%s-dear' % chip, words, [1], refused(2, place))


# ------------------------------------------------------------- random records

def some_cycles(draw, chip):
    most = MOST_CYCLES[chip]
    rate = draw.one_of(list(CHIPS[chip]))
    return draw.one_of([
        0, 1, most, most - draw.between(0, 999), draw.between(1, most), draw.between(1, most),
        draw.between(1, 9_999_999), rate * draw.between(1, 400), rate * draw.between(1, 400) + 1])


def some_tasks(draw, chip, N):
    """Tasks for the reader: whatever period, and now and then a job that is too dear."""
    tasks = [[some_number(draw), some_cycles(draw, chip)] for _ in range(N)]
    if draw.between(1, 4) == 1:
        most = MOST_CYCLES[chip]
        for _ in range(draw.one_of([1, 1, 2])):
            draw.one_of(tasks)[1] = draw.one_of([most + 1, most + draw.between(1, 999_999), TOP,
                                                 draw.between(most + 1, TOP)])
    return tasks


def some_planned_tasks(draw, chip, N):
    """Tasks for the program: a load on either side of L at some rate."""
    rates = list(CHIPS[chip])
    periods = draw.one_of([[1, 2, 4], [10, 20, 40, 50], [25, 50, 100, 200], [250, 500, 1_000],
                           [800, 1_600], [6, 9, 12, 15]])
    filling = draw.one_of(rates) * draw.one_of([0.5, 0.9, 1.0, 1.5]) / N
    tasks = []
    for _ in range(N):
        period = draw.one_of(periods)
        cycles = int(period * filling * (0.3 + 1.2 * draw.random()))
        rate = draw.one_of(rates)
        if draw.between(1, 2) == 1:                     # full ticks at some rate, or just over
            cycles = cycles // rate * rate + draw.between(0, 1)
        tasks.append((period, max(1, cycles)))
    return tasks


def random_chips():
    draw = Draw(SEED + 9)
    for number in range(1, RANDOM_CHIPS + 1):
        chip = draw.one_of(list(CHIPS))
        N = draw.one_of([1, 1, 1, 2, 2, 3, draw.between(1, 8)])
        if number % 25 == 0:
            N = draw.one_of([31, 32, 32])
        tasks, slack, K = some_tasks(draw, chip, N), some_number(draw), size_of(chip, N)
        idle = draw.one_of([None, None, None, 0, 12, 40, some_number(draw)])
        text = chip_text(chip, slack, tasks, idle)
        how = draw.between(1, 12)
        if how > 6:
            text = damaged_text(draw, text, b'hx405lp')
        elif how == 6:                                  # a line of the other kind among them
            at = draw.between(0, N - 1)
            lines = text.split(b'\n')
            lines[at - N - 1] = line_of(*tasks[at], *CHIPS[chip].values())[:-1]
            text = b'\n'.join(lines)
        elif how == 5:                                  # a second line, of rates or a chip
            more = draw.one_of([b'(rates 1 2)\n', b'(chip xscale)\n', b'(chip ppc405lp)\n',
                                b'(idle 12)\n'])
            at = draw.one_of([text.index(b'(chip'), text.index(b'(task')])
            text = text[:at] + more + text[at:]
        read('rc%04d' % number, text, draw.one_of(
            [K, K, K, K + 1, MOST_READ, K - 1, 0, draw.between(0, K)]))


def random_chip_programs():
    """Sets of a chip, and damaged ones, of which some are well-formed still."""
    draw = Draw(SEED + 10)
    number = 0
    while number < RANDOM_CHIP_PROGRAMS:
        chip = draw.one_of(list(CHIPS))
        N = draw.one_of([1, 2, 2, 3, 3, 4, 4, draw.between(5, 10)])
        tasks = some_planned_tasks(draw, chip, N)
        slack = max(least_slack(N), draw.one_of([10, 50, 100, 250, 500, 1_000]))
        # Up to 80 and 19 waiting costs no more than the slowest rate.
        most = min(CHIPS[chip].values())
        text = chip_text(chip, slack, tasks, draw.one_of(
            [None, None, None, 0, most, most, draw.between(1, most), most + 1, 1_000]))
        if number % 4 == 0:
            text = damaged_text(draw, text, b'hx405lp')
        if plain_reader(text) is None and not short_span(words_of(text)):
            continue
        number += 1
        program('ac%04d' % number, text, draw.one_of([MOST_PRINTED] * 9 + [draw.between(0, 99)]))


def random_chip_lists():
    """Lists of a chip, each written and its text read back."""
    draw = Draw(SEED + 11)
    for number in range(1, RANDOM_CHIP_LISTS + 1):
        chip, N = draw.one_of(list(CHIPS)), draw.one_of([1, 2, 3, draw.between(1, 9)])
        words = expanded(chip, draw.between(1, 1_000), some_planned_tasks(draw, chip, N),
                         draw.one_of([None, None, 0, draw.between(1, 1_000)]))
        if r.check_2(words):
            continue                                    # too dear
        text = text_of(words)
        size, K = len(text), len(words)
        write('tc%04d' % number, words, draw.one_of([size, size + 1, MOST_WRITTEN]), wrote(text))
        read('tc%04d-back' % number, text, draw.one_of([K, K + 1, MOST_READ]), was_read(words))
