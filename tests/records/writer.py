"""Records of the writer; the random ones are read back too."""

import itertools

import reference as r
from records.shared import (
    Draw, M_AT, MOST_READ, MOST_WRITTEN, RANDOM_LISTS, RANGES, RATE_AT, S, SEED, TOP, costed,
    damaged, last_rate, outside, places_of, put, record, refused, same_tasks, task_count, task_set,
    text_of, was_read, with_periods, with_rates, wrote)
from records.planner import some_large, some_planned
from records.reader import read
from test_reference import EXAMPLE


def write(name, words, lent=MOST_WRITTEN, want=None):
    assert 0 <= lent <= MOST_WRITTEN, name
    answer = r.write_text(words, lent)
    if answer[0] == 'written':
        assert text_of(words) == answer[1], name
        answer = wrote(answer[1])
    record('t', name, [words], answer, want, (lent,))


def written(name, words):
    """The writer with as many bytes as the text has, and about so many."""
    text = text_of(words)
    write(name, words, len(text), wrote(text))
    write(name + '-a-byte-short', words, len(text) - 1, refused(6, len(text)))
    write(name + '-a-byte-more', words, len(text) + 1, wrote(text))


def write_document():
    """The scope document's set, and its cases as far as they concern the writer."""
    written('t-document', S)
    write('t-document-much-lent', S, want=wrote(EXAMPLE))
    write('t-document-one-byte-lent', S, 1, refused(6, len(EXAMPLE)))
    write('t-document-none-lent', S, 0, refused(6, len(EXAMPLE)))
    for lent in (0, MOST_WRITTEN):
        write('t-slack-of-0-%d' % lent, put(S, 0, 0), lent, refused(2, 0))
        write('t-empty-list-%d' % lent, [], lent, refused(2, 0))
        write('t-rates-4-4-%d' % lent, with_rates((4, 4)), lent, refused(3, 4))
        # 2 before 3.
        write('t-rates-4-4-energy-0-%d' % lent, put(with_rates((4, 4)), 10, 0), lent,
              refused(2, 10))
    # The writer makes no check 4, and none after it.
    written('t-hyper-period-too-long', with_periods((9_999_999, 10_000_000)))
    written('t-no-plan-fits', task_set((1, 2), [(30, 61)]))


def write_shapes():
    """Every number of rates, with few and with most tasks; and every length of a number."""
    for M in range(2, 9):
        for N in (1, 2, 31, 32):
            words = costed([7 * j for j in range(1, M + 1)],
                           [(10 * i + 3, 1_000 * i + 1, *range(i + 1, i + 1 + M))
                            for i in range(N)])
            name = 't-rates-%d-tasks-%d' % (M, N)
            if N < 31:
                written(name, words)
            else:
                write(name, words, len(text_of(words)), wrote(text_of(words)))
    for label, word in (('least', 0), ('most', 1)):
        low = {kind: ends[word] for kind, ends in RANGES.items()}
        for M, N in ((2, 1), (3, 2), (8, 32)):
            rates = [low['rate'] + j - (M - 1 if word else 0) for j in range(M)]
            task = (low['period'], low['cycles']) + (low['energy'],) * M
            written('t-all-%s-%d-%d' % (label, M, N),
                    costed(rates, [task] * N, low['slack'], low['idle']))
    # The last number of each length, and the first of the next.
    for kind, place in (('slack', 0), ('idle', 1), ('rate', 5), ('period', 7), ('cycles', 8),
                        ('energy', 10), ('energy', 18)):
        for power in range(1, 10):
            for word in (10 ** power - 1, 10 ** power):
                if word <= RANGES[kind][1] and (kind != 'rate' or word > 4):
                    words = put(S, place, word)
                    write('t-length-%02d-%d' % (place, word), words, len(text_of(words)),
                          wrote(text_of(words)))


def write_refused():
    """Refusals 2 and 3 at each kind of place, with much and with nothing lent."""
    lent = itertools.cycle((MOST_WRITTEN, 0))

    def refuses(name, words, number, place):
        write(name, words, next(lent), refused(number, place))

    for label, M, N in (('least', 2, 1), ('pair', 3, 2), ('whole', 8, 32)):
        base = same_tasks(M, N)
        for what, kind, place in places_of(M, N):
            for word in [*outside(kind), TOP]:
                refuses('t-%s-%s-%d' % (label, what, word), put(base, place, word), 2, place)
        refuses('t-%s-short' % label, base[:-1], 2, len(base) - 1)
        refuses('t-%s-left-over' % label, base + [1], 2, len(base))
        refuses('t-%s-no-task' % label, base[:task_count(M)], 2, task_count(M))
    for length in range(len(S)):
        refuses('t-cut-%02d' % length, S[:length], 2, length)
    for M in (0, 1, 9, 10):
        refuses('t-count-rates-%d' % M, same_tasks(M, 2), 2, M_AT)
    for N in (0, 33, 34):
        refuses('t-count-tasks-%d' % N, same_tasks(3, N), 2, task_count(3))
    for M in range(2, 9):
        base = with_rates(range(10, 10 + M), 2)
        for place in range(RATE_AT + 1, last_rate(M) + 1):
            for word in (base[place - 1], base[place - 1] - 1, 1):
                refuses('t-rates-%d-%d-%d' % (M, place, word), put(base, place, word), 3, place)
        refuses('t-rates-%d-first-high' % M, put(base, RATE_AT, 1_000_000), 3, RATE_AT + 1)


def random_lists():
    """Random sets, each written and its text read back; and damaged ones."""
    draw = Draw(SEED + 4)
    for number in range(1, RANDOM_LISTS + 1):
        words = some_large(draw) if number % 25 == 0 else some_planned(draw)
        text = text_of(words)
        size, K = len(text), len(words)
        lent = draw.one_of([size, size, size + 1, MOST_WRITTEN])
        name = 'tl%04d' % number
        write(name, words, lent, wrote(text))
        read(name + '-back', text, draw.one_of([K, K, K + 1, MOST_READ]), was_read(words))
        if number % 3 == 0:
            write(name + '-damaged', damaged(draw, words), lent)
        if number % 3 == 1:
            short = draw.one_of([size - 1, 0, draw.between(0, size - 1)])
            write(name + '-short', words, short, refused(6, size))
