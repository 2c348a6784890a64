"""Records of first releases, which are of document 02's note 6: the range of A, the planner's answer,
which does not look at it, walks to 2 x L, `(from A)` in texts for reader, writer and the program's
call."""

import reference as r
from records.shared import (
    CHIPS, Draw, FOR_LINE_END, IDLE_AT, LONGEST_RANDOM, MOST_LENT, MOST_READ, MOST_WORK, MOST_WRITTEN,
    RANDOM_FIRST_PLANS, RANDOM_FIRST_PROGRAMS, RANDOM_FIRST_TEXTS, RANDOM_FIRST_WALKS, RATE_AT, S,
    SEED, TOP, chip_text, costed, counts, expanded, first_of, firsts_of, kept, length_of, missed,
    needed, period_of, planned, put, refused, task_set, text_of, was_read, with_bad, with_firsts,
    with_periods, wrote)
from records.checks import check
from records.idle import CLOCKS, GIVEN, RATES, SLACK
from records.planner import planner, some_planned
from records.program import plan_lines, program, refusal, roomed, short_span
from records.reader import ODD_NUMBERS, damaged_text, read, read_back, some_number, some_words
from records.walk import long_walk, some_walk, walk, walked
from records.writer import write, written
from test_reference import (
    EXAMPLE, FIRST_PRINTED, FIRST_SET, FIRST_TEXT, FIRST_WORKED, IDLE_WORKED, MARGIN_WORKED,
    PRINTED, THOUSAND_TEN, first_in_parts, released)

ALL = (MOST_LENT, MOST_WORK)
NONE = (0, 0)


def label_of(firsts):
    return '-'.join(map(str, firsts))


# ------------------------------------------------------------------ its range

def first_ranges():
    """Both sides of A's range, at first, middle and last tasks, for all calls that check it.

    Catches 'at most' for 'below', a range by another task's period, by the longest one or by the
    hyper-period, a place counted wrongly, and a compare that is signed.
    """
    for label, M, periods in (('least', 2, (7,)), ('pair', 3, (10, 15)), ('five', 5, (12, 4, 6, 1, 30)),
                              ('whole', 8, [10 + 10 * (task % 2) for task in range(32)])):
        base, N = with_periods(periods, M), len(periods)
        tasks = sorted({1, 2, N // 2 + 1, N - 1, N} & set(range(1, N + 1)))
        for task in tasks if label != 'whole' else (1, 17, 32):
            p, place = periods[task - 1], first_of(M, task)
            for A in sorted({0, p - 1, p, p + 1, 2 * p, 2 ** 31, TOP}):
                if label == 'whole' and A not in (p - 1, p):
                    continue                            # long lines, so fewer of them
                name, words = 'first-%s-%d-%d' % (label, task, A), put(base, place, A)
                want = None if A < p else refused(2, place)
                check('c-' + name, words, want)
                planner('p-' + name, words, *(ALL if A < p else NONE), want)
                walk('w-' + name, words, [1] * N, want)
                write('t-' + name, words, MOST_WRITTEN, want)
    for p, A, good in ((1, 0, True), (1, 1, False), (10_000_000, 9_999_999, True),
                       (10_000_000, 10_000_000, False), (65_536, 65_535, True), (65_536, 65_536, False),
                       (65_537, 65_536, True)):
        check('c-first-%d-of-%d' % (A, p), put(with_periods((p,)), 8, A),
              None if good else refused(2, 8))
    # Of two bad words the first, in the order of their places.
    bad = with_bad(S, 9)
    for label, words, place in (
            ('both', with_bad(S, 9, 15), 9), ('cycles', put(bad, 8, 0), 8), ('period', put(bad, 7, 0), 7),
            ('energy', put(bad, 10, 0), 9), ('energy-before', with_bad(S, 12, 15), 12),
            ('count', put(bad, 6, 33), 6), ('short', bad[:-1], 9), ('cut', bad[:10], 9),
            ('long', bad + [1], 9), ('rates', put(bad, 4, 2), 9), ('idle', put(bad, IDLE_AT, 9), 9)):
        check('c-first-and-%s' % label, words, refused(2, place))
        planner('p-first-and-%s' % label, words, *NONE, refused(2, place))
    # 2 before 4 and before 8, and after it 3, 10, 4 and 8 as they were.
    over = with_periods((9_999_999, 10_000_000))
    walk('w-first-bad-and-4', put(over, 13, 10_000_000), [], refused(2, 13))
    walk('w-first-and-4', put(over, 13, 9_999_999), [], refused(4, 11))
    walk('w-first-and-8', put(S, 9, 9), [1, 4], refused(8, 1))
    walk('w-first-and-3', put(put(S, 9, 9), 4, 2), [1, 4], refused(3, 4))
    planner('p-first-and-10', put(put(S, 9, 9), IDLE_AT, 1), *ALL, refused(10, 10))
    planner('p-first-and-4', put(over, 13, 9_999_999), *ALL, refused(4, 11))
    # A list as it was before this note: its first energy stands where A does.
    older = [100, 0, 2, 1, 2, 1, 30, 60, 4, 9]
    check('c-first-none', older, refused(2, len(older)))
    check('c-first-none-dear', put(older, 8, 30), refused(2, 8))
    check('c-first-none-of-s', [word for place, word in enumerate(S) if place not in (9, 15)],
          refused(2, 17))


# ---------------------------------------------------------------- the planner

def first_planned():
    """'The planner still answers for a common release': with every choice of A what it says without.

    Catches a load, an L or a refusal 7 that goes by first releases.
    """
    lists = [('s', S), ('s-1000', put(S, 0, 1_000)), ('over', task_set((1, 2), [(2, 2), (2, 4)])),
             ('full', task_set((1, 2), [(2, 1), (4, 2)])), ('none', costed((1, 2), [(30, 61, 1, 1)])),
             ('1010', THOUSAND_TEN)]
    lists += [('idle-%02d' % number, words) for number, (words, _) in enumerate(IDLE_WORKED, 1)
              if r.check_2(words) is None]
    lists += [('margin-%02d' % number, words) for number, (words, *_) in enumerate(MARGIN_WORKED, 1)]
    for label, words in lists:
        M, N = counts(words)
        periods = [words[period_of(M, task)] for task in range(1, N + 1)]
        want = r.plan(words, *ALL)
        want = planned(*want[1:5], *want[5]) if want[0] == 'planned' else want
        for which, firsts in (('last', [p - 1 for p in periods]), ('half', [p // 2 for p in periods]),
                              ('one', [periods[0] - 1] + [0] * (N - 1))):
            if any(firsts):
                planner('p-first-%s-%s' % (label, which), with_firsts(words, firsts), *ALL, want)
    # 5 and 6 as without.
    for J, A, want in ((2, 242, refused(5, 243)), (1, 243, refused(6, 2)),
                       (2, 243, planned(1, 29, 30, 41, 2, 1))):
        planner('p-first-s-%d-%d' % (J, A), FIRST_SET, J, A, want)


# ------------------------------------------------------------------- the walk

def held_walk(name, words, plan, want=None):
    """A walk that is held to a second one by ticks and, where it is kept, to the one from event to
    event."""
    answer = r.walk(words, plan)
    assert first_in_parts(words, plan) == answer, name
    assert answer[0] == 'missed' or kept(*walked(words, plan)) == answer, name
    walk(name, words, plan, want)
    return answer


def first_worked():
    """What is worked in test_reference.py, the document's set, and long walks."""
    for number, (tasks, want) in enumerate(FIRST_WORKED, 1):
        name, words, plan = 'w-first-worked-%02d' % number, released(*tasks), [1] * len(tasks)
        held_walk(name, words, plan, want)
        held_walk(name + '-back', released(*tasks[::-1]), plan)
        held_walk(name + '-fast', words, [2] * len(tasks))
    for plan in ([2, 1], [1, 2], [1, 3], [3, 3], [1, 1]):
        for firsts in ((0, 0), (3, 0), (9, 0), (0, 1), (0, 14), (9, 14), (5, 5)):
            held_walk('w-first-s-%s-from-%s' % (label_of(plan), label_of(firsts)),
                      with_firsts(S, firsts), plan)
    # Two jobs of a tick in 20,000,000 ticks; and a load of L. Of task 1's eight jobs there the last
    # begins a tick before the end. Task 2's jobs are broken three times each; 7 ticks are idle before
    # the first and 1,249,992 behind it.
    long = with_periods((10_000_000,))
    for A in (1, 9_999_999):
        long_walk('w-first-long-%d' % A, put(long, 8, A), [1], kept(2, 19_999_998, 0))
    full = task_set((1, 2), [(2_500_000, 1_250_000), (10_000_000, 5_000_000)])
    long_walk('w-first-long-full', with_firsts(full, (2_499_999, 7)), [1, 1],
              kept(18_750_001, 1_249_999, 6))
    walk('w-first-long-late', with_firsts(task_set((1, 2), [(2, 3), (10_000_000, 1)]), (1, 5)),
         [1, 1], missed(3, 1))


def end_of(answer, load, L):
    """How a walk to 2 x L ended."""
    kind, number, *_ = answer
    if kind == 'missed':
        return 'at 2 x L' if number == 2 * L else 'after L' if number > L else 'up to L'
    return 'over L' if load > L else 'work left' if number < 2 * load else 'kept'


ENDS = ('at 2 x L', 'after L', 'up to L', 'over L', 'work left', 'kept')


def first_small():
    """All first releases of small sets: misses up to L, after it and at 2 x L itself, jobs that are
    unfinished there with a later deadline, and loads over L that are kept up to there.

    Catches another last tick, deadlines from tick 0 or not judged at 2 x L, jobs judged before
    their deadline, releases at multiples of the period, and a preemption asked for after releases.
    """
    seen = dict.fromkeys(ENDS, 0)

    def small(tasks):
        periods, times, firsts = zip(*tasks)
        if not any(firsts):
            return
        words, plan = released(*tasks), [1] * len(tasks)
        L = r.hyper_period(r.decode(words).tasks)
        answer = held_walk('w-of-%s-for-%s-from-%s' % tuple(map(label_of, (periods, times, firsts))),
                           words, plan)
        seen[end_of(answer, r.load_of(words, plan), L)] += 1

    for p in range(1, 6):
        for time in range(1, p + 2):
            for A in range(p):
                small([(p, time, A)])
    for p, q, times in ((2, 4, [(1, 1), (1, 2), (2, 1), (1, 3), (2, 4)]),
                        (4, 4, [(2, 2), (4, 2), (2, 3), (1, 4), (3, 3)]),
                        (3, 4, [(1, 2), (1, 3), (2, 1), (2, 2)])):
        for first, second in times:
            for A in range(p):
                for B in range(q):
                    small([(p, first, A), (q, second, B)])
    assert min(seen.values()) >= 3, seen


def first_many():
    """32 tasks: the last one's A counts like the first one's."""
    for label, tasks in (
            ('last-alone', [(64, 1, 0)] * 31 + [(64, 2, 63)]),
            ('first-alone', [(64, 2, 63)] + [(64, 1, 0)] * 31),
            ('each-another', [(64, 2, task) for task in range(32)]),
            ('each-another-back', [(64, 2, 63 - task) for task in range(32)]),
            ('all-last', [(32, 1, 31)] * 32), ('all-late', [(31, 1, 30)] * 32),
            ('two-periods', [(60, 1, task) for task in range(16)] + [(90, 2, 80)] * 16)):
        held_walk('w-first-many-' + label, released(*tasks), [1] * 32)
    # Each of eight rates, with A at either end.
    for rate in range(1, 9):
        for A in (1, 839):
            held_walk('w-first-rate-%d-of-8-from-%d' % (rate, A), with_firsts(
                task_set(range(1, 9), [(840, 840)]), [A]), [rate])


# -------------------------------------------------------------------- the text

FORM = b' (from 7)'
# Each clock with its task line up to where the form may stand.
ENDS_AT = [(label, SLACK + clock, task[:-len(b')\n')]) for label, clock, task in CLOCKS]


def said(label, firsts):
    """The words of SLACK, a clock and its task line once for each A."""
    words = costed((6, 7), [(1, 2, 3, 4)] * len(firsts), 5) if label == 'rates' else \
        expanded(label, 5, [(1, 2)] * len(firsts))
    return was_read(with_firsts(words, firsts))


def first_lines():
    """Where `(from A)` may stand: last inside the task's brackets, once, and nowhere else."""
    for label, head, task in ENDS_AT:
        begin, bare = len(head + task), head + task + b')\n'
        whole = task + FORM + b')\n'
        size = len(said(label, [0])) - 2

        def departs(what, text, at):
            read('r-from-%s-%s' % (label, what), text, want=refused(1, at))

        def ends(what, end, at):
            departs(what, head + task + end + b')\n', begin + at)

        for what, text, A in (('absent', bare, 0), ('given', head + whole, 7),
                              ('0', head + task + b' (from 0))\n', 0)):
            name = 'r-from-%s-%s' % (label, what)
            read(name, text, size, said(label, [A]))
            read(name + '-a-word-short', text, size - 1, refused(6, size))
            read(name + '-none-lent', text, 0, refused(6, size))
        for what, parts, firsts in (('first', [FORM, b''], [7, 0]), ('second', [b'', FORM], [0, 7]),
                                    ('both', [FORM, b' (from 9)'], [7, 9]),
                                    ('0-and-7', [b' (from 0)', FORM], [0, 7])):
            text = head + b''.join(task + part + b')\n' for part in parts)
            read('r-from-%s-of-two-%s' % (label, what), text, want=said(label, firsts))
        read('r-from-%s-32-tasks' % label, head + whole * 32, want=said(label, [7] * 32))
        departs('33rd-task', head + whole * 33, len(head + whole * 32))
        ends('twice', FORM * 2, len(FORM))
        ends('twice-of-0', b' (from 0) (from 0)', len(FORM))
        ends('then-energies', FORM + b' (energy 3 4)', len(FORM))
        ends('energies', b' (energy 3 4)', len(b' ('))
        ends('period', b' (period 7)', len(b' ('))
        ends('two-numbers', b' (from 7 8)', 8)
        ends('no-number', b' (from )', 7)
        ends('closed', b' (from)', 6)
        ends('brackets', b' (from (7))', 7)
        ends('sign', b' (from -7)', 7)
        ends('upper', b' (FROM 7)', 2)
        ends('title', b' (From 7)', 2)
        ends('frm', b' (frm 7)', 4)
        ends('first-release', b' (first 7)', 3)
        ends('froms', b' (froms 7)', 6)
        ends('after', b' (after 7)', 2)
        ends('until', b' (until 7)', 2)
        ends('no-bracket', b' from 7', 1)
        ends('no-space', b'(from 7)', 0)
        ends('two-spaces', b'  (from 7)', 1)
        ends('space-inside', b' ( from 7)', 2)
        ends('space-behind', FORM + b' ', len(FORM))
        ends('space-alone', b' ', 1)
        ends('two-closed', FORM + b')', len(FORM) + 1)
        ends('not-closed', b' (from 7', len(FORM))
        departs('behind-the-task', head + task + b')' + FORM + b'\n', begin + 1)
        departs('on-a-line', bare + FORM[1:] + b'\n', len(bare) + 1)
        departs('for-a-task', head + FORM[1:] + b'\n', len(head) + 1)
        departs('first', head + b'(task (from 7)' + task[len(b'(task'):] + b')\n', len(head) + 7)
        departs('behind-the-period', head + task.replace(b' (cycles', FORM + b' (cycles') + b')\n',
                len(head + b'(task (period 1) ('))
        departs('of-the-slack', SLACK[:-2] + FORM + head[len(SLACK) - 2:] + task + b')\n',
                len(SLACK) - 2)
        departs('of-the-clock', head[:-2] + FORM + b')\n' + task + b')\n', len(head) - 2 + (
            label == 'rates'))
    # With rates the energies come first: behind the cycles no (from A) begins.
    cycles = SLACK + RATES + GIVEN[:GIVEN.index(b' (energy')]
    for label, end in (('before-energies', FORM + b' (energy 3 4)'), ('no-energies', FORM)):
        read('r-from-rates-' + label, cycles + end + b')\n', want=refused(1, len(cycles) + 2))
    read('r-from-rates-few-energies', cycles + b' (energy 3)' + FORM + b')\n',
         want=refused(1, len(cycles + b' (energy 3')))
    read('r-from-rates-in-energies', cycles + b' (energy 3 4' + FORM + b'))\n',
         want=refused(1, len(cycles + b' (energy 3 4')))


def first_bytes():
    """The form cut at every byte, and with every byte wrong, left out and doubled."""
    for label, head, task in ENDS_AT[:2]:
        text, begin = head + task + FORM + b')\n', len(head + task)
        for at in range(len(FORM) + 2):
            read('r-from-%s-cut-%d' % (label, at), text[:begin + at], (MOST_READ, 0)[at % 2],
                 refused(1, begin + at))
        for at, byte in enumerate(FORM):
            front, behind = text[:begin + at], text[begin + at + 1:]
            for wrong in sorted({byte ^ 32, byte + 1, *b'(5 \n)'} - {byte, *FOR_LINE_END}):
                read('r-from-%s-wrong-%d-%d' % (label, at, wrong), front + bytes([wrong]) + behind,
                     (MOST_READ, 0)[at % 2])
            read('r-from-%s-left-out-%d' % (label, at), front + behind)
            read('r-from-%s-doubled-%d' % (label, at), front + bytes([byte, byte]) + behind)


def first_numbers():
    """A replaced, and the longest texts that there are. Its range is not judged."""
    for count, (odd, departs) in enumerate(ODD_NUMBERS):
        for label, head, task in ENDS_AT[count % 3:count % 3 + 1] if count > 22 else ENDS_AT:
            front = head + task + b' (from '
            read('r-from-%s-number-%02d' % (label, count), front + odd.encode('latin-1') + b'))\n',
                 want=said(label, [int(odd)]) if departs is None else refused(1, len(front) + departs))
    for place in (9, 15):
        for A in (S[place - 2] - 1, S[place - 2], S[place - 2] + 1):
            read_back('r-from-at-%d-of-%d' % (place, A), put(S, place, A))
    for chip, clock in (('xscale', 5), ('ppc405lp', 4)):
        tasks = [(TOP, 9, TOP)] * 32
        text = chip_text(chip, TOP, tasks, TOP)
        assert len(text) < 6_000
        read('r-from-longest-%s' % chip, text, length_of(clock, 32), was_read(with_firsts(
            expanded(chip, TOP, [(TOP, 9)] * 32, TOP), [TOP] * 32)))
        read('r-from-longest-%s-cut' % chip, text[:-1], 0, refused(1, len(text) - 1))
        # 9 with a first release, and 1 before it.
        dear = chip_text(chip, 5, [(7, 9, 3), (7, TOP, 7)])
        read('r-from-%s-9' % chip, dear, 0, refused(9, 2))
        read('r-from-%s-9-cut' % chip, dear[:-1], 0, refused(1, len(dear) - 1))


def first_written():
    """'written only if above 0'; each length of A, and as many bytes as it takes."""
    write('t-from-0', S, want=wrote(EXAMPLE))
    written('t-from-3', FIRST_SET)
    write('t-from-3-much-lent', FIRST_SET, want=wrote(FIRST_TEXT))
    read('r-from-3', FIRST_TEXT, len(S), was_read(FIRST_SET))
    read('r-from-0', FIRST_TEXT.replace(b'from 3', b'from 0'), len(S), was_read(S))
    for M, N in ((2, 1), (3, 2), (8, 32)):
        base = with_periods([10_000_000] * N, M)
        for A in (0, 1, 9, 10, 99, 100, 999, 1_000, 9_999, 10_000, 99_999, 100_000, 999_999, 1_000_000,
                  9_999_999):
            if N == 32 and A not in (0, 1, 9_999_999):
                continue                                # long lines, so fewer of them
            words = with_firsts(base, [A] * N)
            size = len(text_of(words))
            assert text_of(words).count(b' (from ') == (N if A > 0 else 0), A
            write('t-from-%d-of-%d-rates-%d' % (A, M, N), words, size, wrote(text_of(words)))
            if N < 32:
                write('t-from-%d-of-%d-rates-%d-short' % (A, M, N), words, size - 1, refused(6, size))
    # As many bytes as without the form, and about the form's.
    for more in (0, 8, 9, 10):
        write('t-from-3-and-%d' % more, FIRST_SET, len(EXAMPLE) + more,
              wrote(FIRST_TEXT) if more >= 9 else refused(6, len(EXAMPLE) + 9))
    # The writer makes no check 4, and none after it.
    written('t-from-and-4', with_firsts(with_periods((9_999_999, 10_000_000)), (9, 9_999_999)))


# ---------------------------------------------------------------- the program

def first_programs():
    """Texts with first releases: the plan's lines are those without them, and the walk goes to
    2 x L; bad ones are refusal 2 at their place."""
    roomed('a-from-3', FIRST_TEXT, FIRST_PRINTED)
    program('a-from-0', FIRST_TEXT.replace(b'from 3', b'from 0'), want=PRINTED)
    for firsts in ((1, 0), (9, 0), (0, 1), (0, 14), (9, 14), (5, 5)):
        words = with_firsts(S, firsts)
        busy, idle, preempted = walked(words, [2, 1])
        program('a-from-s-%s' % label_of(firsts), text_of(words),
                want=plan_lines(1, 29, 30, 41, [2, 1], preempted, busy, idle))
        program('a-from-s-1000-%s' % label_of(firsts), text_of(put(words, 0, 1_000)))
    for place, p in ((9, 10), (15, 15)):
        for A in (p, p + 1, TOP):
            program('a-from-%d-at-%d' % (A, place), text_of(put(S, place, A)), want=refusal(2, place))
    roomed('a-from-10', text_of(put(S, 9, 10)), refusal(2, 9))
    program('a-from-4294967296', FIRST_TEXT.replace(b'from 3', b'from 4294967296'),
            want=refusal(1, FIRST_TEXT.index(b'from 3') + len(b'from 429496729')))
    # The refusals before and after, with first releases.
    program('a-from-period-0', text_of(put(put(S, 7, 0), 9, 1)), want=refusal(2, 7))
    program('a-from-2-before-3', text_of(put(put(S, 4, 2), 9, 10)), want=refusal(2, 9))
    program('a-from-3-then', text_of(put(put(S, 4, 2), 9, 9)), want=refusal(3, 4))
    program('a-from-10-then', text_of(put(put(S, IDLE_AT, 1), 9, 9)), want=refusal(10, 10))
    program('a-from-4-then', text_of(with_firsts(with_periods((9_999_999, 10_000_000)), (9, 9))),
            want=refusal(4, 11))
    program('a-from-5-then', text_of(put(FIRST_SET, 0, 1)), want=refusal(5, 24_003))
    program('a-from-7-then', text_of(with_firsts(costed((1, 2), [(30, 61, 1, 1)]), [29])),
            want=refusal(7, 0))
    # A load over L is refused, though up to 2 x L it would be kept.
    program('a-from-over-l', text_of(released((2, 2, 0), (2, 4, 1))), want=refusal(7, 0))
    for chip in CHIPS:
        tasks, M = [(40, 1_000_000), (20, 500_000)], len(CHIPS[chip])
        for A, B in ((0, 19), (39, 0), (7, 7)):
            text = chip_text(chip, 500, [(*tasks[0], A), (*tasks[1], B)])
            words = with_firsts(expanded(chip, 500, tasks), (A, B))
            program('a-from-%s-%d-%d' % (chip, A, B), text)
            program('a-from-%s-%d-%d-given' % (chip, A, B), text_of(words), want=r.respond(text))
        program('a-from-%s-bad' % chip, chip_text(chip, 500, [(*tasks[0], 39), (*tasks[1], 20)]),
                want=refusal(2, first_of(M, 2)))
        program('a-from-%s-9-before-2' % chip, chip_text(chip, 500, [(40, TOP, 40)]),
                want=refusal(9, 1))
    # The most words there are, and the longest walk.
    longest = text_of(put(put([TOP] * r.MOST_WORDS, 2, 8), RATE_AT + 8, 32))
    assert 5_000 < len(longest) < 6_000
    program('a-from-longest', longest, want=refusal(2, 0))
    once = costed((1, 2), [(10_000_000, 1, 1, 1)])
    program('a-from-10000000', text_of(with_firsts(once, [9_999_999])),
            want=plan_lines(1, 1, 10_000_000, 1, [1], 0, 2, 19_999_998))


# ------------------------------------------------------------- random records

def some_firsts(draw, words):
    """First releases for a good list: at least one is above 0 where a period allows it."""
    M, N = counts(words)
    periods = [words[period_of(M, task)] for task in range(1, N + 1)]
    few = draw.between(1, 3) == 1
    firsts = [0 if few and draw.between(0, 1) else draw.one_of([p - 1, draw.between(0, p - 1)])
              for p in periods]
    longest = max(range(N), key=lambda task: periods[task])
    if not any(firsts):
        firsts[longest] = draw.between(min(1, periods[longest] - 1), periods[longest] - 1)
    return with_firsts(words, firsts)


def random_first_walks():
    draw = Draw(SEED + 16)
    seen = dict.fromkeys(ENDS, 0)
    number = 0
    while number < RANDOM_FIRST_WALKS:
        words, plan = some_walk(draw)
        M, N = counts(words)
        L = r.hyper_period(r.decode(words).tasks)
        if L > LONGEST_RANDOM // 4 or N > 8 and number % 10:
            continue
        words = some_firsts(draw, words)
        if not any(firsts_of(words)):
            continue
        number += 1
        answer = held_walk('wf%04d' % number, words, plan)
        load = r.load_of(words, plan)
        seen[end_of(answer, load, L)] += 1
        # A miss shows that the plan does not fit, and a plan that fits is kept.
        assert answer[0] == 'kept' or load > L, number
        assert (answer[0] == 'kept') == r.keeps_for_ever(words, plan, 2 * L), number
    assert seen.pop('at 2 x L') >= 2 and min(seen.values()) >= 8, seen


def random_first_plans():
    """Planner answers with first releases, each that of a common release; and kept from there."""
    draw = Draw(SEED + 17)
    for number in range(1, RANDOM_FIRST_PLANS + 1):
        words = some_planned(draw)
        _, N = counts(words)
        want = r.plan(words, N, MOST_WORK)
        other = some_firsts(draw, words)
        planner('pf%04d' % number, other, N, min(needed(words), MOST_WORK),
                planned(*want[1:5], *want[5]) if want[0] == 'planned' else want)
        if want[0] == 'planned' and want[3] <= LONGEST_RANDOM // 4:
            answer = held_walk('pf%04d-walked' % number, other, want[5])
            assert answer[0] == 'kept', number


def random_first_programs():
    draw = Draw(SEED + 18)
    number = 0
    while number < RANDOM_FIRST_PROGRAMS:
        words = some_planned(draw)
        if not short_span(words):
            continue
        number += 1
        words = some_firsts(draw, words)
        if number % 6 == 0:                             # one A that is too high
            M, N = counts(words)
            task = draw.between(1, N)
            p = words[period_of(M, task)]
            words = put(words, first_of(M, task), draw.one_of([p, p + 1, TOP]))
        program('af%04d' % number, text_of(words))


def random_first_texts():
    """Texts with first releases: as they are, damaged, or with a form too many."""
    draw = Draw(SEED + 19)
    for number in range(1, RANDOM_FIRST_TEXTS + 1):
        M, N = draw.between(2, 4), draw.one_of([1, 1, 2, 3])
        words = with_firsts(some_words(draw, M, N), [some_number(draw) for _ in range(N)])
        text = text_of(words)
        if draw.between(1, 3) == 1:
            text = chip_text(draw.one_of(list(CHIPS)), words[0], [
                (some_number(draw), draw.between(0, 9_999_999), some_number(draw)) for _ in range(N)])
        how, tasks = draw.between(1, 6), text.index(b'(task')
        if how <= 3:
            text = text[:tasks] + damaged_text(draw, text[tasks:], b'fmfromg')
        elif how == 4:
            at = draw.one_of([at for at in range(tasks, len(text)) if text[at:at + 1] in (b')', b' ')])
            text = text[:at] + b' (from %d)' % some_number(draw) + text[at:]
        K = length_of(M, N)
        read('tf%04d' % number, text, draw.one_of([K, K + 1, MOST_READ, MOST_READ, K - 1, 0]))
