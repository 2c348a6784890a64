"""Records of the program's call, and what it prints, put together in a second way."""

import reference as r
from records.shared import (
    DAMAGED_PROGRAMS, Draw, EDGES, FOR_LINE_END, LONGEST_RANDOM, M_AT, MOST_PRINTED, MOST_TEXT, MOST_WORK,
    PAST_ONE, RANDOM_PROGRAMS, S, SEED, TOP, costed, firsts_of, head_of, line_of, needed, on_a_line,
    outside, period_of, put, record, refused, task_count, task_set, text_of, with_periods,
    with_rates, words_of)
from records.walk import walked
from records.planner import judged_plan, largest, least_slack, some_planned
from records.reader import damaged_text, read_again
from test_reference import EXAMPLE, PRINTED, plain_reader


def program(name, text, lent=MOST_PRINTED, want=None):
    """want is what the program prints, whether or not so much is lent."""
    assert 0 <= lent <= MOST_PRINTED and len(text) <= MOST_TEXT, name
    printed = printed_for(name, text)
    assert want is None or printed == want, '%s: %r, not %r' % (name, printed, want)
    size = len(printed)
    answer = ('prints', size, on_a_line(printed)) if size <= lent else refused(6, size)
    record('a', name, [], answer, None, (lent, on_a_line(text)))


def form(*items):
    return '(' + ' '.join(map(str, items)) + ')'


def on_lines(*forms):
    return ''.join(item + '\n' for item in forms).encode('ascii')


def refusal(number, second):
    return on_lines(form('refused', number, second))


def plan_lines(unit, load, L, energy, rates, preempted, busy=None, idle=None):
    """The lines of a plan. Where all tasks are released together its walk is busy for the load and
    idle for the rest, which need not be given."""
    if busy is None:
        busy, idle = load, L - load
    return on_lines(form('plan', form('unit', unit), form('load', load, L), form('energy', energy)),
                    *(form('rate', task, rate) for task, rate in enumerate(rates, 1)),
                    form('walk', form('busy', busy), form('idle', idle),
                         form('preempted', preempted)))


def printed_for(name, text):
    """All that the program prints, put together here, and where L is not long by
    the reference too. That no more than 8,192 bytes are read is left to it."""
    answer = read_again(text, r.MOST_WORDS)
    if answer[0] == 'read':
        words = answer[1]
        answer = judged_plan(name, words, 32, MOST_WORK)
    if answer[0] == 'refused':
        printed, L = refusal(*answer[1:]), 0
    else:
        _, unit, load, L, energy, rates = answer
        busy, idle, preempted = walked(words, rates)
        assert any(firsts_of(words)) or (busy, idle) == (load, L - load), name
        printed = plan_lines(unit, load, L, energy, rates, preempted, busy, idle)
    if L <= LONGEST_RANDOM:
        assert r.respond(text) == printed, name
    return printed


def roomed(name, text, want):
    """The program with much lent, and with about as many bytes as it prints."""
    program(name, text, want=want)
    size = len(want)
    for label, lent in (('exact', size), ('a-byte-short', size - 1), ('a-byte-more', size + 1),
                        ('one-byte-lent', 1), ('none-lent', 0)):
        program('%s-%s' % (name, label), text, lent, want)


def program_document():
    """The scope document's example, its cases, and its plausible errors, as far as
    they concern the program."""
    roomed('a-document', EXAMPLE, PRINTED)
    roomed('a-document-slack-1000', text_of(put(S, 0, 1_000)),
           plan_lines(8, 28, 30, 42, [1, 2], 1))
    roomed('a-empty', b'', refusal(1, 0))
    roomed('a-slack-of-0', text_of(put(S, 0, 0)), refusal(2, 0))
    roomed('a-rates-4-4', text_of(with_rates((4, 4))), refusal(3, 4))
    roomed('a-periods-9999999-10000000', text_of(with_periods((9_999_999, 10_000_000))),
           refusal(4, 11))
    roomed('a-document-slack-1', text_of(put(S, 0, 1)), refusal(5, 24_003))
    roomed('a-61-cycles-in-30-ticks', text_of(costed((1, 2), [(30, 61, 1, 1)])), refusal(7, 0))
    program('a-60-cycles-in-30-ticks', text_of(costed((1, 2), [(30, 60, 1, 1)])),
            want=plan_lines(1, 30, 30, 1, [2], 0))
    program('a-period-10000000', text_of(costed((1, 2), [(10_000_000, 1, 1, 1)])),
            want=plan_lines(1, 1, 10_000_000, 1, [1], 0))
    # Energies rounded down give unit 16.
    program('a-33-at-every-rate', text_of(costed((1, 2), [(10, 10, 33, 33)], 1_000)),
            want=plan_lines(32, 5, 10, 33, [2], 0))
    # Three thirds are one, and a fourth is too much.
    program('a-load-of-exactly-l', text_of(costed((1, 2), [(3, 1, 1, 2)] * 3)),
            want=plan_lines(1, 3, 3, 3, [1, 1, 1], 0))
    tasks = [(period, time, 1, 2) for period, time in PAST_ONE]
    program('a-load-of-exactly-l-of-60', text_of(costed((1, 2), tasks)),
            want=plan_lines(1, 60, 60, 5, [1, 1, 1, 1], 1))
    program('a-load-over-l', text_of(costed((1, 2), [(3, 1, 1, 2)] * 4)), want=refusal(7, 0))
    # The reviewer's first attempt: the fastest rates fit, and cost too much.
    program('a-fastest-costs-most', text_of(costed((1, 2), [(10, 1, 1, 1_000_000)] * 3)),
            want=plan_lines(1, 3, 10, 3, [1, 1, 1], 0))
    # Only the highest rate fits, for the one task and for the last of two.
    for M in range(2, 9):
        rates = range(1, M + 1)
        program('a-highest-of-%d' % M, text_of(costed(rates, [(10, 10 * M, *rates)])),
                want=plan_lines(1, 10, 10, M, [M], 0))
        program('a-highest-of-%d-last-task' % M,
                text_of(costed(rates, [(100, M, *rates), (100, 99 * M, *rates)], 2)),
                want=plan_lines(1, 100, 100, 2 * M, [M, M], 0))


def program_checks():
    """Each refusal, at each kind of place, and which of several comes first."""
    kinds = {0: 'slack', 1: 'idle', 7: 'period', 8: 'cycles', 9: 'first', 13: 'period', 14: 'cycles'}
    for place in (0, 1, 3, 4, 5, *range(7, 15), *range(16, 19)):
        for word in [*outside(kinds.get(place, 'rate' if place < 7 else 'energy')), TOP]:
            program('a-word-%02d-%d' % (place, word), text_of(put(S, place, word)),
                    want=refusal(2, place))
    for place in (4, 5):
        for word in (S[place - 1], S[place - 1] - 1):
            program('a-rate-%d-%d' % (place, word), text_of(put(S, place, word)),
                    want=refusal(3, place))
    for M in (2, 8):
        for task in (2, 17, 32):
            periods = [4_999_999] + [1] * (task - 2) + [3] + [1] * (32 - task)
            program('a-over-at-%02d-of-%d-rates' % (task, M), text_of(with_periods(periods, M)),
                    want=refusal(4, period_of(M, task)))
    front = head_of(5, range(8))[:-2]
    program('a-ninth-rate', head_of(5, range(9)), want=refusal(1, len(front)))
    # All faults at once, and then from the first on one less.
    late = task_set((2, 2), [(9_999_999, TOP - 1), (10_000_000, 4_000_000_000)], 1)
    program('a-1-before-2', text_of(late)[:-1], want=refusal(1, len(text_of(late)) - 1))
    program('a-2-before-3', text_of(late), want=refusal(2, 7))
    late[7] = 4_000_000_000
    program('a-3-before-4', text_of(late), want=refusal(3, 4))
    late[4] = 3
    program('a-4-before-5', text_of(late), want=refusal(4, 11))
    late[period_of(2, 2)] = 9_999_999
    program('a-5-before-7', text_of(late), want=refusal(5, 24_003))
    late[0] = 2
    program('a-7-at-last', text_of(late), want=refusal(7, 0))
    # W on either side of 16,384, for each number of tasks with which it can pass it.
    for N in range(2, 33):
        low = least_slack(N)
        for slack in (low - 1, low):
            words = task_set((1, 2), [(64, 2)] * N, slack)
            program('a-w-of-%d-tasks-slack-%d' % (N, slack), text_of(words),
                    want=refusal(5, needed(words)) if slack < low else None)


def program_sizes():
    """Texts of up to 8,192 bytes, which is what the program reads, and longer ones;
    the longest well-formed text; and a bad byte early and late."""
    longest = text_of(put(put([TOP] * r.MOST_WORDS, M_AT, 8), task_count(8), 32))
    program('a-longest', longest, want=refusal(2, 0))
    task = line_of(10, 12, 4, 9, 20)
    short, most, end = len(EXAMPLE), len(EXAMPLE + task * 30), len(longest)
    draw = Draw(SEED + 5)
    bytes_of = {'any': [byte for byte in range(256) if byte not in FOR_LINE_END],
                'form': b'()0123456789 \nacdeiklnoprsty'}
    for size in (8_191, 8_192, 8_193, MOST_TEXT):
        for label, text, departs in (
                ('spaces', EXAMPLE.ljust(size), short),
                ('line-ends', EXAMPLE.ljust(size, b'\n'), short),
                ('again', EXAMPLE * 200, short + 1), ('tasks', EXAMPLE + task * 400, most),
                ('longest', longest * 4, end), ('digits', b'(slack '.ljust(size, b'1'), 17)):
            program('a-%s-%d' % (label, size), text[:size], want=refusal(1, departs))
        for label, some in bytes_of.items():
            more = bytes(draw.one_of(some) for _ in range(size))
            program('a-%s-bytes-%d' % (label, size), more)
            program('a-%s-bytes-%d-behind' % (label, size), (EXAMPLE + more)[:size])
    for label, text in (('document', EXAMPLE), ('longest', longest)):
        size = len(text)
        for at in (0, 1, 7, 20, size // 2, size - 2, size - 1):
            program('a-%s-bad-at-%04d' % (label, at), text[:at] + b'\xff' + text[at + 1:],
                    want=refusal(1, at))
        program('a-%s-cut' % label, text[:-1], want=refusal(1, size - 1))
        program('a-%s-more' % label, text + b'\n', want=refusal(1, size))


def program_large():
    """32 tasks, 8 rates, long hyper-periods, and the largest words."""
    draw = Draw(SEED + 6)
    for number, (slack, shape, periods) in enumerate((
            (1_000, 'random', 'short'), (259, 'rising', 'short'), (300, 'falling', 'short'),
            (500, 'small', 'short'), (750, 'equal', 'short'), (259, 'random', 'long')), 1):
        text = text_of(largest(draw, slack, shape, periods))
        roomed('a-32-tasks-8-rates-%d' % number, text, printed_for('the same', text))
    rates = [999_993 + i for i in range(8)]
    most = [(10_000_000, 4_000_000_000) + (1_000_000,) * 8] * 32
    program('a-every-word-at-its-most', text_of(costed(rates, most, 1_000)))
    program('a-every-word-at-its-least', text_of(costed((1, 2), [(1, 1, 1, 1)], 1)),
            want=plan_lines(1, 1, 1, 1, [1], 0))
    # The last of 32 tasks is the only one at the highest rate.
    tasks = [(64, 1, *range(1, 9))] * 31 + [(64, 33 * 8, *range(1, 9))]
    program('a-last-of-32-at-the-highest-rate', text_of(costed(range(1, 9), tasks, 259)),
            want=plan_lines(1, 64, 64, 39, [1] * 31 + [8], 0))
    # A hyper-period of exactly 10,000,000, full to the last tick at rate 1.
    L = 10_000_000
    left = L - 78_125 * 32 - 128 * 19_532
    for label, more in (('under', -1), ('full', 0), ('over', 1)):
        tasks = [(128, 32, 3, 8), (78_125, 19_532, 5_000, 9_000), (L, left + more, 1, 1_000_000)]
        program('a-10000000-%s' % label, text_of(costed((1, 2), tasks, 20)))


def short_span(words):
    """Whether a walk of the set is short, or the set is refused."""
    said = r.check_set(words)
    return said[0] == 'refused' or said[3] <= LONGEST_RANDOM


def random_programs():
    """Random sets as texts; and damaged ones, of which some are well-formed still."""
    draw = Draw(SEED + 7)
    number = 0
    while number < RANDOM_PROGRAMS:
        words = some_planned(draw)
        if draw.between(1, 12) == 1:
            words[0] = draw.between(1, words[0])        # W may be over what there is
        if not short_span(words):
            continue
        number += 1
        program('as%04d' % number, text_of(words), draw.one_of(
            [MOST_PRINTED] * 9 + [draw.between(0, 200)]))
    number = 0
    while number < DAMAGED_PROGRAMS:
        words = some_planned(draw)
        if number % 2:
            fixed = (M_AT, task_count(words[M_AT]))
            at = draw.one_of([at for at in range(len(words)) if at not in fixed])
            words[at] = draw.one_of(EDGES)
            text = text_of(words)
        else:
            text = damaged_text(draw, text_of(words))
            if plain_reader(text) is None:
                words = words_of(text)
        if not short_span(words):
            continue
        number += 1
        program('ad%04d' % number, text, draw.one_of([MOST_PRINTED] * 9 + [draw.between(0, 20)]))
