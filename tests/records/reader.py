"""Records of the reader, and damaged texts."""

import re

import reference as r
from records.shared import (
    Draw, IDLE_AT, M_AT, MOST_READ, MOST_TEXT, RANDOM_TEXTS, S, SEED, TOP, chip_of, costed,
    counts, first_of, head_of, length_of, line_of, on_a_line, period_of, put, record, refused, row,
    task_count, text_of, was_read, with_periods, words_of)
from test_reference import EXAMPLE, MOST_CYCLES, plain_reader


def read_again(text, lent):
    """What the reader says, in another way than the reference's: an offset by a reader of the
    usual kind, words that are put into a text once more, and refusal 9 by the most cycles that a
    job may have on the chip."""
    departs = plain_reader(text)
    if departs is not None:
        return refused(1, departs)
    words, chip = words_of(text), chip_of(text)
    M, N = counts(words)
    for task in range(1, N + 1):
        if chip and words[period_of(M, task) + 1] > MOST_CYCLES[chip]:
            return refused(9, task)
    return ('read', words) if lent >= len(words) else refused(6, len(words))


def read(name, text, lent=MOST_READ, want=None):
    assert 0 <= lent <= MOST_READ and len(text) <= MOST_TEXT, name
    answer = r.read_text(text, lent)
    assert read_again(text, lent) == answer, name
    if answer[0] == 'read':
        answer = was_read(answer[1])
    record('r', name, [], answer, want, (lent, on_a_line(text)))


def read_back(name, words, lent=None):
    """The reader on the text of a list: the list again."""
    read(name, text_of(words), len(words) if lent is None else lent, was_read(words))


def read_document():
    """The scope document's example, its cases, and the words lent for it."""
    assert text_of(S) == EXAMPLE
    size = len(S)
    read('r-document', EXAMPLE, size, was_read(S))
    read('r-document-much-lent', EXAMPLE, want=was_read(S))
    read('r-document-a-word-more', EXAMPLE, size + 1, was_read(S))
    read('r-document-a-word-short', EXAMPLE, size - 1, refused(6, 19))
    read('r-document-one-word-lent', EXAMPLE, 1, refused(6, 19))
    read('r-document-none-lent', EXAMPLE, 0, refused(6, 19))
    read('r-empty', b'', 0, refused(1, 0))
    read('r-empty-much-lent', b'', want=refused(1, 0))
    # 1 is looked for before 6.
    read('r-departs-none-lent', EXAMPLE[:-1], 0, refused(1, len(EXAMPLE) - 1))
    read('r-trailing-none-lent', EXAMPLE + b'x', 0, refused(1, len(EXAMPLE)))
    # 'Ranges are not judged by the reader.'
    read_back('r-slack-of-0', put(S, 0, 0))
    read_back('r-slack-of-1001', put(S, 0, 1_001))
    read_back('r-rates-falling', S[:3] + [8, 4, 2] + S[6:])
    read_back('r-rates-equal', S[:3] + [4, 4, 4] + S[6:])
    read_back('r-rate-over-a-million', put(S, 5, 1_000_001))
    read_back('r-period-over-ten-million', put(S, 7, 10_000_001))
    read_back('r-cycles-over-four-milliards', put(S, 8, 4_000_000_001))
    read_back('r-energy-over-a-million', put(S, 18, 1_000_001))
    read_back('r-hyper-period-too-long', with_periods((9_999_999, 10_000_000)))
    # What the program reads at most, and the longest text that a record can give.
    for size in (r.BYTES_READ, r.BYTES_READ + 1, MOST_TEXT):
        read('r-spaces-%d' % size, b' ' * size, want=refused(1, 0))
        read('r-trailing-to-%d' % size, EXAMPLE.ljust(size), want=refused(1, len(EXAMPLE)))


def read_shapes():
    """Every number of rates, with few and with most tasks.

    Catches a row or a list that ends one early or late, words put down at a
    wrong place, and a count of the words that is off.
    """
    for M in range(2, 9):
        for N in (1, 2, 31, 32):
            words = costed([7 * j for j in range(1, M + 1)],
                           [(10 * i + 3, 1_000 * i, *range(i, i + M)) for i in range(N)], 9)
            name = 'r-rates-%d-tasks-%d' % (M, N)
            read_back(name, words)
            read(name + '-short', text_of(words), len(words) - 1, refused(6, len(words)))
            if N < 31:
                read(name + '-one-lent', text_of(words), 1, refused(6, len(words)))
                read_back(name + '-much-lent', words, MOST_READ)
    for label, word in (('least', 0), ('most', TOP), ('sevens', 7)):
        for M, N in ((2, 1), (3, 2), (8, 32)):
            words = put(put([word] * length_of(M, N), M_AT, M), task_count(M), N)
            name = 'r-all-%s-%d-%d' % (label, M, N)
            read_back(name, words)
            read_back(name + '-a-word-more', words, len(words) + 1)
            read(name + '-short', text_of(words), len(words) - 1, refused(6, len(words)))
            read(name + '-none-lent', text_of(words), 0, refused(6, len(words)))
            text = text_of(words)
            read(name + '-cut', text[:-1], want=refused(1, len(text) - 1))
            read(name + '-trailing', text + b'\n', want=refused(1, len(text)))


# What may stand for a number, and at which of its bytes a text with it departs.
ODD_NUMBERS = [
    ('0', None), ('1', None), ('9', None), ('10', None), ('1000001', None), ('2147483648', None),
    ('3999999999', None), ('4294967289', None), ('4294967294', None), ('4294967295', None),
    ('4294967296', 9), ('4294967299', 9), ('4294967300', 9), ('4294967301', 9), ('4300000000', 9),
    ('5000000000', 9), ('9999999999', 9), ('10000000000', 10), ('42949672950', 10),
    ('18446744073709551621', 10), ('00', 1), ('01', 1), ('007', 1), ('0000000000', 1),
    ('', 0), ('-1', 0), ('+1', 0), (' 1', 0), ('x', 0), ('(1)', 0), ('\x00', 0), ('\xb2', 0),
    ('1.0', 1), ('1e1', 1), ('0x10', 1), ('1_0', 1), ('1,0', 1), ('1-', 1), ('1\x00', 1),
    ('1\n', 1), ('1(', 1), ('1x', 1), ('1\xff', 1),
    # The neighbours of a digit, a space, a bracket and a line end.
    (':', 0), ('1:', 1), ('1!', 1), ('1\x1f', 1), ("1'", 1), ('1*', 1), ('1\t', 1), ('1\x0b', 1),
]


def read_numbers():
    """Each of the example's numbers replaced.

    Catches a largest number that is off by one or wraps at 32 or 64 bits,
    leading zeros that pass, and a number of no digits.
    """
    # Of the numbers in S, the first releases left out.
    places = [0, 3, 4, 5, 7, 8, 10, 11, 12, 13, 14, 16, 17, 18]
    for place, number in zip(places, re.finditer(rb'[0-9]+', EXAMPLE)):
        for count, (item, departs) in enumerate(ODD_NUMBERS):
            text = EXAMPLE[:number.start()] + item.encode('latin-1') + EXAMPLE[number.end():]
            want = refused(1, number.start() + departs) if departs is not None else \
                was_read(put(S, place, int(item)))
            read('r-number-%02d-%02d' % (place, count), text, (len(S), MOST_READ)[count % 2], want)


def read_counts():
    """Rates, tasks and energies, one too few and one too many."""
    line = line_of(1, 2, 3, 4)
    head = head_of(5, (6, 7))
    for count in (31, 32):
        read('r-count-tasks-%d' % count, head + line * count, want=was_read(
            [5, 0, 2, 6, 7, count] + [1, 2, 0, 3, 4] * count))
    read('r-count-no-task', head, want=refused(1, len(head)))
    read('r-count-no-task-none-lent', head, 0, refused(1, len(head)))
    most = len(head + line * 32)
    for label, more in (('whole', line), ('two', line * 2), ('bracket', b'('), ('slack', head),
                        ('letter', b't'), ('line-end', b'\n'), ('cut', line[:20])):
        read('r-count-33rd-task-' + label, head + line * 32 + more, want=refused(1, most))
    read('r-count-33rd-task-none-lent', head + line * 33, 0, refused(1, most))
    tasks_8 = line_of(1, 2, *range(8)) * 32
    head_8 = head_of(5, range(8))
    read('r-count-33rd-task-of-8-rates', head_8 + tasks_8 + tasks_8, want=refused(
        1, len(head_8 + tasks_8)))

    for rates in ((), (1,), range(9), range(10), range(20), (TOP,) * 9):
        M = len(rates)
        front = '(slack 5)\n(rates' + row(rates[:8])
        text = head_of(5, rates) + line_of(1, 2, *rates)
        read('r-count-rates-%d-%d' % (M, max(rates, default=0)), text, want=refused(1, len(front)))
    front = b'(slack 5)\n(rates' + row(range(8)).encode('ascii')
    for label, end in (('space', b' '), ('cut', b''), ('eighth-longer', b'7 8')):
        want = refused(1, len(front) + (end[:1] == b'7'))
        read('r-count-ninth-rate-' + label, front + end, want=want)

    for M in range(2, 9):
        head, line = head_of(5, range(M)), line_of(1, 2, *range(M))
        for energies in sorted({0, 1, M - 1, M + 1, M + 2, 9} - {M}):
            odd = line_of(1, 2, *range(energies))
            departs = len('(task (period 1) (cycles 2) (energy' + row(range(min(M, energies))))
            for label, before in (('a', 0), ('b', 1), ('z', 31)):
                if before == 31 and abs(energies - M) > 1:
                    continue                            # long lines, so fewer of them
                read('r-count-energies-%d-of-%d-%s' % (energies, M, label),
                     head + line * before + odd + line,
                     want=refused(1, len(head + line * before) + departs))


def read_ends():
    """What stands before, after and between the forms."""
    end = len(EXAMPLE)
    lines = EXAMPLE.split(b'\n')
    slack, rates, first, second = (line + b'\n' for line in lines[:4])
    for label, more in (('line-end', b'\n'), ('space', b' '), ('digit', b'0'), ('letter', b't'),
                        ('closed', b')'), ('byte-0', b'\x00'), ('byte-255', b'\xff'),
                        ('return', b'\r'), ('tab', b'\t')):
        read('r-end-%s' % label, EXAMPLE + more, want=refused(1, end))
        read('r-end-%s-before-all' % label, more + EXAMPLE, want=refused(1, 0))
        read('r-end-%s-before-line-end' % label, EXAMPLE[:-1] + more + b'\n',
             want=refused(1, end - 1 if more != b'\n' else end))
        read('r-end-%s-only' % label, more, want=refused(1, 0))
        read('r-end-%s-between' % label, slack + rates + first + more + second,
             want=refused(1, len(slack + rates + first)))
    read('r-end-bracket', EXAMPLE + b'(', want=refused(1, end + 1))
    read('r-end-twice', EXAMPLE + EXAMPLE, want=refused(1, end + 1))
    read('r-end-a-task-more', EXAMPLE + first, 25, was_read(put(S, 6, 3) + S[7:13]))
    read('r-end-a-task-less', slack + rates + first, 13, was_read(put(S, 6, 1)[:13]))
    read('r-end-tasks-swapped', slack + rates + second + first, len(S),
         was_read(S[:7] + S[13:] + S[7:13]))
    read('r-end-rates-first', rates + slack + first, want=refused(1, 1))
    read('r-end-no-slack', rates + first, want=refused(1, 1))
    read('r-end-slack-twice', slack + slack + rates + first, want=refused(1, len(slack) + 1))
    read('r-end-no-rates', slack + first, want=refused(1, len(slack) + 1))
    read('r-end-rates-twice', slack + rates + rates + first,
         want=refused(1, len(slack + rates) + 1))
    read('r-end-no-last-line-end', EXAMPLE[:-1], want=refused(1, end - 1))
    read('r-end-returns', EXAMPLE.replace(b'\n', b'\r\n'), want=refused(1, len(slack) - 1))
    read('r-end-tabs', EXAMPLE.replace(b' ', b'\t'), want=refused(1, 6))
    read('r-end-upper-case', EXAMPLE.upper(), want=refused(1, 1))
    read('r-end-one-line', EXAMPLE.replace(b'\n', b' '), want=refused(1, len(slack) - 1))


def read_damaged():
    """The example cut at every byte, and with every byte wrong, left out or doubled.

    Catches a fixed string compared in part, an offset that is that of the item
    and not of the byte, and a byte class that is too wide.
    """
    def lent(at):
        return (len(S), MOST_READ, 0)[at % 3]

    task_ends = [at for at in range(1, len(EXAMPLE) + 1) if EXAMPLE[:at].endswith(b'))\n')]
    for at, byte in enumerate(EXAMPLE):
        if at not in task_ends:
            read('r-cut-%03d' % at, EXAMPLE[:at], lent(at), refused(1, at))
        else:
            read('r-cut-%03d' % at, EXAMPLE[:at], 13, was_read(put(S, 6, 1)[:13]))
        for wrong in b'05() \naT/\x00\xff':
            if wrong == byte:
                continue
            # A digit may go on with a number, and a bracket or a space end it
            # early; no other byte fits where another stood.
            want = None if wrong in b'05() ' else refused(1, at)
            text = EXAMPLE[:at] + bytes([wrong]) + EXAMPLE[at + 1:]
            read('r-wrong-%03d-%03d' % (at, wrong), text, lent(at), want)
        read('r-left-out-%03d' % at, EXAMPLE[:at] + EXAMPLE[at + 1:], lent(at + 1))
        read('r-doubled-%03d' % at, EXAMPLE[:at + 1] + EXAMPLE[at:], lent(at + 2))


# ------------------------------------------------------------- random records

def some_number(draw):
    return draw.one_of([0, 0, 1, 9, 10, 100, 429_496_729, 4_000_000_000, TOP, TOP,
                        draw.between(0, 9), draw.between(0, 9_999), draw.between(0, TOP)])


def some_words(draw, M, N):
    """A list of that shape, whatever the ranges; half of them have no idle energy, and half of their
    tasks no first release."""
    words = [some_number(draw) for _ in range(length_of(M, N))]
    for place in (IDLE_AT, *(first_of(M, task) for task in range(1, N + 1))):
        if draw.between(0, 1):
            words[place] = 0
    return put(put(words, M_AT, M), task_count(M), N)


def damaged_text(draw, text, more=b''):
    """A text with a fault or two; more has further bytes that may come in."""
    text = bytearray(text)
    for _ in range(draw.one_of([1, 1, 1, 2])):
        at = draw.between(0, len(text) - 1)
        byte = draw.one_of(b'0123456789() \n\rabcdefiklmnoprstxy\x00\xff' + more)
        how = draw.one_of(['change', 'insert', 'remove', 'cut', 'more', 'copy', 'swap'])
        if how == 'change':
            text[at] = byte
        elif how == 'insert':
            text.insert(at, byte)
        elif how == 'remove' and len(text) > 1:
            del text[at]
        elif how == 'cut' and at > 0:
            del text[at:]
        elif how == 'more':
            text.append(byte)
        elif how == 'copy':                             # a part of it twice
            text[at:at] = text[at:at + draw.between(1, 20)]
        elif how == 'swap' and at > 0:
            text[at - 1], text[at] = text[at], text[at - 1]
    return bytes(text)


def random_texts():
    draw = Draw(SEED + 3)
    for number in range(1, RANDOM_TEXTS + 1):
        M, N = draw.between(2, 8), draw.one_of([1, 1, 1, 2, 2, 3, draw.between(1, 8)])
        if number % 25 == 0:
            M, N = draw.one_of([2, 8]), draw.one_of([31, 32, 32])
        words = some_words(draw, M, N)
        K = len(words)
        lent = draw.one_of([K, K, K, K + 1, MOST_READ, K - 1, 0, draw.between(0, K)])
        name = 'rt%04d' % number
        if draw.between(1, 4) == 1:
            read(name, text_of(words), lent, was_read(words) if lent >= K else refused(6, K))
        else:
            read(name, damaged_text(draw, text_of(words)), lent)
