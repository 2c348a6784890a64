"""Records of the set checks, some of which ask the walk as well; and the random ones of checks
and walk."""

import reference as r
from records.shared import (
    Draw, EDGES, IDLE_AT, LONGEST_RANDOM, M_AT, RANDOM_CASES, RANGES, RATE_AT, S, SEED, TOP, costed,
    counts, damaged, good, kept, missed, period_of, places_of, put, record, refused, same_tasks,
    task_count, task_set, with_bad, with_periods, with_rates)
from records.walk import damaged_plan, long_walk, some_walk, walk


def check(name, words, want=None):
    record('c', name, [words], r.check_set(words), want)


def both(name, words, plan, want=None):
    """A refusal of checks 2 to 4, which the walk makes as well."""
    check(name, words, want)
    walk(name + '-w', words, plan, want)


# ---------------------------------------------------- 'Either side of an edge'

def document():
    """The scope document's own cases, as far as they concern checks and walk."""
    check('document-set', S, good(3, 2, 30))
    check('document-set-slack-1000', put(S, 0, 1_000), good(3, 2, 30))
    walk('walk-of-1-1', S, [1, 1], missed(15, 2))
    walk('walk-of-2-1', S, [2, 1], kept(29, 1, 1))
    walk('walk-of-1-2', S, [1, 2], kept(28, 2, 1))
    walk('walk-of-1-3', S, [1, 3], kept(24, 6, 0))
    walk('walk-of-1-4', S, [1, 4], refused(8, 1))
    walk('walk-of-3-3', S, [3, 3])
    walk('60-cycles-in-30-ticks', task_set((1, 2), [(30, 60)]), [2], kept(30, 0, 0))
    walk('61-cycles-in-30-ticks', task_set((1, 2), [(30, 61)]), [2], missed(30, 1))
    both('slack-of-0', put(S, 0, 0), [2, 1], refused(2, 0))
    both('empty-list', [], [], refused(2, 0))
    walk('empty-list-some-plan', [], [1, 1], refused(2, 0))
    both('rates-4-4', with_rates((4, 4)), [1], refused(3, 4))
    both('periods-9999999-10000000', with_periods((9_999_999, 10_000_000)), [1, 1],
         refused(4, 11))
    check('period-10000000', with_periods((10_000_000,)), good(2, 1, 10_000_000))
    long_walk('period-10000000-w', with_periods((10_000_000,)), [1], kept(1, 9_999_999, 0))


# -------------------------------------------------------------------- check 2

def ranges():
    """Every range either side of both ends, at the first and the last place.

    Catches an end moved by one, a range taken from the neighbouring word, a
    place counted wrongly, a compare that is signed (2147483648 and more), and
    one that looks at the low half of a word (65536 more than a good one).
    """
    for label, M, N in (('least', 2, 1), ('pair', 3, 2), ('whole', 8, 32)):
        base = same_tasks(M, N)
        for what, kind, place in places_of(M, N):
            if kind in ('m', 'n'):
                continue                                # these have cases of their own
            low, high = RANGES[kind]
            words = [low - 1, low, high, high + 1, low + 2 ** 31, TOP]
            if kind in ('slack', 'idle'):
                words.append(low + 65_536)
            if label == 'whole':
                words = [low - 1, high, high + 1]       # long lines, so fewer of them
            for word in words:
                if word < 0:
                    continue                            # some ranges begin with 0
                check('%s-%s-%d' % (label, what, word), put(base, place, word),
                      None if low <= word <= high else refused(2, place))

    # M and N decide how long the list is, so these lists are as long as they say.
    for M in (2, 3, 4, 5, 6, 7, 8):
        check('rates-%d' % M, same_tasks(M, 2), good(M, 2, 10))
    for M in (0, 1, 9, 10):
        check('rates-%d' % M, same_tasks(M, 2), refused(2, M_AT))
    for N in (1, 2, 3, 31, 32):
        check('tasks-%d' % N, same_tasks(2, N), good(2, N, 10))
        check('tasks-%d-of-8-rates' % N, same_tasks(8, N), good(8, N, 10))
    for N in (0, 33, 34):
        check('tasks-%d' % N, same_tasks(2, N), refused(2, task_count(2)))
        check('tasks-%d-of-8-rates' % N, same_tasks(8, N), refused(2, task_count(8)))
    # The largest words that pass together: sums and products of them need more
    # than 32 bits.
    most = [(10_000_000, 4_000_000_000) + (1_000_000,) * 8] * 32
    check('every-word-at-its-most', costed(range(999_993, 1_000_001), most, 1_000, 1_000),
          good(8, 32, 10_000_000))
    check('every-word-at-its-least', costed((1, 2), [(1, 1, 1, 1)], 1, 0), good(2, 1, 1))


def lengths():
    """Missing and left-over words.

    Catches a length compared with a wrong formula (one of M, N, the first
    task's or the last task's words), a read past the end, and a missing word
    that wins over an earlier bad one.
    """
    least, middle, whole = same_tasks(2, 1), same_tasks(4, 3), same_tasks(8, 32)
    for length in range(len(S)):
        check('document-set-cut-%02d' % length, S[:length], refused(2, length))
    for length in range(len(least)):
        check('least-cut-%02d' % length, least[:length], refused(2, length))
    for length in range(len(middle)):
        check('middle-cut-%02d' % length, middle[:length], refused(2, length))
    for length in (1, 2, 3, 10, 11, 12, 13, 14, 15, 22, 23, 24, 34, 188, 352, 353, 354, 355, 362, 363):
        check('whole-cut-%03d' % length, whole[:length], refused(2, length))
    # The number of tasks says more or less than what follows.
    for N in (1, 2, 4, 32):
        said = put(middle, task_count(4), N)
        check('middle-says-%02d-tasks' % N, said,
              refused(2, len(middle) if N > 3 else period_of(4, N + 1)))
    # The number of rates says more or less: every later word is then another one.
    for M in (2, 3, 5, 8):
        check('middle-says-%d-rates' % M, put(middle, M_AT, M))
        check('document-set-says-%d-rates' % M, put(S, M_AT, M))

    for label, base in (('least', least), ('document-set', S), ('middle', middle)):
        end = len(base)
        for word in (0, 1, 10, TOP):
            check('%s-left-over-%d' % (label, word), base + [word], refused(2, end))
        for count in (2, 3, 4, 5, 6, 7, 40):
            check('%s-left-over-%d-words' % (label, count), base + [1] * count, refused(2, end))
        check('%s-left-over-to-400' % label, base + [1] * (400 - end), refused(2, end))
        check('%s-twice' % label, base + base, refused(2, end))
        both('%s-short-by-1' % label, base[:-1], [1] * 3, refused(2, end - 1))
        both('%s-long-by-1' % label, base + [1], [1] * 3, refused(2, end))
        # A bad word before the end wins over the end, whichever the end is.
        check('%s-bad-last-and-long' % label, put(base, end - 1, 0) + [1], refused(2, end - 1))
        check('%s-bad-last-of-short' % label, put(base, end - 2, 0)[:-1], refused(2, end - 2))
        check('%s-bad-slack-and-short' % label, put(base, 0, 1_001)[:-1], refused(2, 0))
        check('%s-bad-slack-and-long' % label, put(base, 0, 0) + [0], refused(2, 0))
    for count in (1, 2, 36):
        check('whole-left-over-%d' % count, whole + [1] * count, refused(2, 364))
    check('whole-bad-last-and-long', put(whole, 363, 0) + [1], refused(2, 363))

    # Of two bad words the first is given.
    for first, second in ((0, 1), (0, 2), (0, 18), (1, 2), (1, 18), (2, 6), (3, 4), (5, 7), (6, 7),
                          (7, 8), (7, 9), (8, 9), (9, 10), (9, 15), (10, 11), (12, 13), (12, 18),
                          (14, 13), (14, 15), (15, 16), (17, 18)):
        check('document-set-bad-%d-and-%d' % (first, second), with_bad(S, first, second),
              refused(2, min(first, second)))


def odd_lists():
    """Lists of length 0 to 12 with odd contents.

    Catches a read of M, of N or of a task's words before the length was asked.
    """
    contents = {
        'zeros': [0] * 12, 'ones': [1] * 12, 'twos': [2] * 12, 'threes': [3] * 12,
        'eights': [8] * 12, 'largest': [TOP] * 12, 'rising': list(range(1, 13)),
        'falling': list(range(12, 0, -1)), 'hundred': [100, 0, 2, 1, 2, 1, 1, 1, 0, 1, 1, 1],
        'eight-rates': [1_000, 1_000, 8, 1, 2, 3, 4, 5, 6, 7, 8, 9],
        'many-tasks': [7, 0, 2, 5, 6, 32, 1, 1, 0, 1, 1, 1],
        # As it was before document 02's note 4: M is taken for H.
        'no-idle-word': [100, 2, 1, 2, 1, 30, 60, 1, 1, 1, 1, 1],
    }
    for label, words in contents.items():
        for length in range(1, 13):
            check('odd-%s-%02d' % (label, length), words[:length])
    walk('odd-one-word', [100], [], refused(2, 1))
    walk('odd-two-words', [100, 2], [1], refused(2, 2))
    walk('odd-three-words', [100, 0, 2], [1], refused(2, 3))
    walk('odd-largest-and-plan', [TOP] * 10, [TOP] * 10, refused(2, 0))


def bad_counts():
    """A bad M or N, followed by anything.

    Catches places and lengths worked out from M or N before they were judged:
    2 + M and N x (M + 3) wrap at 32 bits for the words here, some of them so
    that the list's length would come out right. Also a count looked at in its
    low byte (258, 257) or low half (65538, 65537).
    """
    rest = S[RATE_AT:]
    for M in (0, 1, 9, 16, 255, 258, 65_538, 2 ** 31 + 3, TOP - 2, TOP - 1, TOP):
        check('m-%d-alone' % M, [100, 0, M], refused(2, M_AT))
        check('m-%d-and-one' % M, [100, 0, M, 1], refused(2, M_AT))
        check('m-%d-and-rest' % M, [100, 0, M] + rest, refused(2, M_AT))
        check('m-%d-and-bad' % M, [100, 0, M] + [0, TOP] * 4, refused(2, M_AT))
        check('m-%d-after-bad-slack' % M, [1_001, 0, M] + rest, refused(2, 0))
        check('m-%d-after-bad-idle' % M, [100, 1_001, M] + rest, refused(2, IDLE_AT))
    walk('m-%d-walk' % TOP, [100, 0, TOP] + rest, [1, 1], refused(2, M_AT))

    least = same_tasks(2, 1)
    # 858993460 x 5 is 4 at 32 bits, and 858993461 x 5 is 9.
    for N in (0, 33, 255, 257, 65_537, 858_993_459, 858_993_460, 858_993_461, 2 ** 30 + 1,
              2 ** 31 + 1, TOP - 1, TOP):
        check('n-%d-alone' % N, least[:5] + [N], refused(2, 5))
        check('n-%d-and-rest' % N, put(least, 5, N), refused(2, 5))
        check('n-%d-and-bad' % N, least[:5] + [N] + [0, TOP] * 4, refused(2, 5))
        check('n-%d-after-bad-rate' % N, put(put(least, 5, N), 4, 0), refused(2, 4))
    # 2^31 x 6 is 0 and (2^31 + 2) x 6 is 12, all that S has; 715827883 x 6 is 2.
    for N in (715_827_882, 715_827_883, 2 ** 31, 2 ** 31 + 2):
        check('n-%d-of-3-rates' % N, put(S, 6, N), refused(2, 6))
    # 2^29 x 8 is 0, and (2^29 + 1) x 8 is 8, all that one task has.
    for N in (2 ** 29, 2 ** 29 + 1):
        check('n-%d-of-5-rates' % N, put(same_tasks(5, 1), task_count(5), N), refused(2, 8))
    walk('n-%d-walk' % TOP, put(least, 5, TOP), [1], refused(2, 5))
    check('m-and-n-%d' % TOP, [100, 0, TOP, 1, 2, TOP, 1, 1, 1, 1], refused(2, 2))
    check('m-%d-and-400-words' % TOP, [100, 0, TOP] + [1] * 397, refused(2, 2))
    check('n-%d-and-400-words' % TOP, least[:5] + [TOP] + [1] * 394, refused(2, 5))


# -------------------------------------------------------------------- check 3

def rising_rates():
    """Rates that do not rise.

    Catches 'not above' read as 'below', a loop that leaves out the first or
    the last pair, one that also compares M with the first rate or the last
    rate with N, the last fault given and not the first, and the wrong order
    with checks 2, 4 and 8.
    """
    check('rates-4-5', with_rates((4, 5)), good(2, 1, 10))
    check('rates-4-3', with_rates((4, 3)), refused(3, 4))
    check('rates-999999-1000000', with_rates((999_999, 1_000_000)), good(2, 1, 10))
    check('rates-1000000-1000000', with_rates((1_000_000, 1_000_000)), refused(3, 4))
    check('rates-1-1', with_rates((1, 1)), refused(3, 4))
    check('rates-1000000-1', with_rates((1_000_000, 1)), refused(3, 4))
    eight = [10, 20, 30, 40, 50, 60, 70, 80]
    for pair in range(1, 8):
        for label, rate in (('equal', eight[pair - 1]), ('below', eight[pair - 1] - 1)):
            both('eight-rates-%s-at-%d' % (label, 3 + pair),
                 with_rates(eight[:pair] + [rate] + eight[pair + 1:]), [1],
                 refused(3, 3 + pair))
    check('rates-all-equal', with_rates([7] * 8), refused(3, 4))
    check('rates-all-falling', with_rates(eight[::-1]), refused(3, 4))
    check('rates-two-faults', with_rates((1, 2, 2, 3, 3)), refused(3, 5))
    # One low rate is one fault: the next rate need only be above that one.
    check('rates-fall-once', with_rates((5, 6, 1, 2)), refused(3, 5))
    # M is 8 and the first rate 1; the last rate is below N, equal to it, above it.
    check('first-rate-below-m', with_rates(range(1, 9)), good(8, 1, 10))
    check('first-rate-is-m', with_rates((2, 3)), good(2, 1, 10))
    check('last-rate-below-n', with_rates((1, 2), 5), good(2, 5, 10))
    check('last-rate-is-n', with_rates((1, 5), 5), good(2, 5, 10))
    check('last-rate-above-n', with_rates((1, 6), 5), good(2, 5, 10))
    # Energies and cycles need not rise.
    check('energies-fall', [100, 0, 3, 1, 2, 3, 1, 10, 1, 0, 9, 5, 1], good(3, 1, 10))
    check('energies-equal', [100, 0, 3, 1, 2, 3, 1, 10, 1, 0, 5, 5, 5], good(3, 1, 10))

    falling = S[:4] + [8, 4] + S[6:]
    both('falling-rates', falling, [2, 1], refused(3, 5))
    # Check 2 comes first, wherever its fault stands.
    for place in (0, 1, 2, 3, 4, 5, 6, 7, 8, 9, 10, 12, 13, 14, 15, 16, 18):
        check('falling-rates-and-bad-%02d' % place, with_bad(falling, place), refused(2, place))
    for length in (0, 1, 2, 4, 5, 6, 7, 9, 12, 18):
        check('falling-rates-cut-%02d' % length, falling[:length], refused(2, length))
    check('falling-rates-left-over', falling + [1], refused(2, 19))
    check('falling-rates-n-of-33', put(falling, 6, 33), refused(2, 6))
    both('rates-fall-to-0', put(falling, 5, 0), [2, 1], refused(2, 5))
    check('rates-4-4-and-1000001', with_rates((4, 4, 1_000_001)), refused(2, 5))
    # Checks 4 and 8 come later.
    long = put(put(falling, 7, 9_999_999), 13, 10_000_000)
    both('falling-rates-and-long', long, [2, 1], refused(3, 5))
    walk('falling-rates-and-bad-plan', falling, [0, 9], refused(3, 5))
    walk('falling-rates-and-no-plan', falling, [], refused(3, 5))
    walk('falling-rates-and-long-plan', falling, [1, 1, 1], refused(3, 5))
    walk('falling-rates-long-bad-plan', long, [0, 9], refused(3, 5))
    # A faulty list that would also miss, or that has a plan of unused rates.
    walk('falling-rates-unused', put(falling, 8, 4_000_000_000), [1, 1], refused(3, 5))


# -------------------------------------------------------------------- check 4

def hyper_periods():
    """The running multiple, exactly at 10,000,000 and beyond.

    Catches a product in place of the multiple, a product at 32 bits, the last
    or the largest period's place in place of the first that passes, a limit
    moved by one, and a common divisor that stops early.
    """
    def at(name, periods, want, M=2):
        """want is the hyper-period, or the task at which it passes the limit."""
        said = good(M, len(periods), want[0]) if want[1] is None else \
            refused(4, period_of(M, want[1]))
        check('multiple-' + name, with_periods(periods, M), said)

    def exactly(L):
        return L, None

    def passes(task):
        return None, task

    at('1', (1,), exactly(1))
    at('1-1', (1, 1), exactly(1))
    at('6-10-15', (6, 10, 15), exactly(30))
    at('4-6-10', (4, 6, 10), exactly(60))
    at('12-18', (12, 18), exactly(36))
    at('18-12', (18, 12), exactly(36))
    at('7-7', (7, 7), exactly(7))
    at('1024-1536', (1_024, 1_536), exactly(3_072))
    at('fibonacci', (2_584, 1_597), exactly(4_126_648))
    at('1-to-10', range(1, 11), exactly(2_520))
    at('1-to-16', range(1, 17), exactly(720_720))
    at('1-to-18', range(1, 19), passes(17))
    at('primes', (2, 3, 5, 7, 11, 13, 17, 19), exactly(9_699_690))
    at('primes-23', (2, 3, 5, 7, 11, 13, 17, 19, 23), passes(9))
    # Exactly 10,000,000, and the multiples just below and just above it.
    at('128-78125', (128, 78_125), exactly(10_000_000))
    at('78125-128', (78_125, 128), exactly(10_000_000))
    at('5000000-128', (5_000_000, 128), exactly(10_000_000))
    at('10000000-twice', (10_000_000, 10_000_000), exactly(10_000_000))
    at('10000000-1', (10_000_000, 1), exactly(10_000_000))
    at('10000000-5000000', (10_000_000, 5_000_000), exactly(10_000_000))
    at('10000000-9765625', (10_000_000, 9_765_625), passes(2))
    at('10000000-3', (10_000_000, 3), passes(2))
    at('3-10000000', (3, 10_000_000), passes(2))
    at('10000000-256', (10_000_000, 256), passes(2))
    at('3333333-9', (3_333_333, 9), exactly(9_999_999))
    at('9999999-2', (9_999_999, 2), passes(2))
    at('11-909091', (11, 909_091), passes(2))           # 10,000,001
    at('909091-11', (909_091, 11), passes(2))
    at('2-3-1666667', (2, 3, 1_666_667), passes(3))     # 10,000,002
    at('2-4999999', (2, 4_999_999), exactly(9_999_998))
    at('101-99009', (101, 99_009), exactly(9_999_909))
    at('101-99011', (101, 99_011), passes(2))
    at('10000000-32-times', (10_000_000,) * 32, exactly(10_000_000))
    # Products that are small again at 32 bits: 1, 217 and 381.
    at('wraps-to-1', (9_999_999, 5_056_895), passes(2))
    at('wraps-to-217', (9_999_991, 4_319_023), passes(2))
    at('wraps-to-381', (9_999_997, 9_570_049), passes(2))
    at('8388608-1953125', (8_388_608, 1_953_125), passes(2))
    at('65536-65537', (65_536, 65_537), passes(2))
    at('65536-twice', (65_536, 65_536), exactly(65_536))
    at('8388608-4194304', (8_388_608, 4_194_304), exactly(8_388_608))
    # The product is over the limit, or over 32 bits, and the multiple is not.
    at('9999998-4999999', (9_999_998, 4_999_999), exactly(9_999_998))
    at('8648640-parts', (8_648_640, 4_324_320, 2_882_880, 1_729_728, 786_240),
       exactly(8_648_640))
    # Once over, later periods change nothing; a larger one after it neither.
    at('over-at-2-of-4', (9_999_991, 2, 10_000_000, 9_999_973), passes(2))
    at('over-at-3-of-4', (1, 9_999_991, 2, 3), passes(3))
    at('back-below', (9_999_999, 10_000_000, 1, 1), passes(2))
    # At each task of 32, with 2 rates; at some with 8, where places differ.
    # 4,999,999 is not divisible by 3, so the 3 brings it to 14,999,997.
    for task in range(2, 33):
        periods = [4_999_999] + [1] * (task - 2) + [3] + [1] * (32 - task)
        at('over-at-%02d' % task, periods, passes(task))
    for task in (2, 3, 31, 32):
        periods = [4_999_999] + [1] * (task - 2) + [3] + [1] * (32 - task)
        at('over-at-%02d-of-8-rates' % task, periods, passes(task), 8)
    for M in (3, 4, 5, 6, 7, 8):
        at('over-at-3-of-%d-rates' % M, (2, 4_999_999, 3), passes(3), M)
        at('10000000-of-%d-rates' % M, (128, 78_125), exactly(10_000_000), M)

    # Check 4 after 2 and before 8.
    over = with_periods((9_999_999, 10_000_000))
    for place in (0, 1, 3, 5, 7, 8, 10, 12, 13, 15):
        check('over-and-bad-%02d' % place, with_bad(over, place), refused(2, place))
    check('over-and-short', over[:-1], refused(2, 15))
    check('over-and-long', over + [1], refused(2, 16))
    walk('over-and-bad-plan', over, [0, 9], refused(4, 11))
    walk('over-and-no-plan', over, [], refused(4, 11))
    walk('over-and-long-plan', over, [1] * 40, refused(4, 11))
    walk('10000000-and-bad-plan', with_periods((10_000_000,)), [3], refused(8, 0))


def halved_pairs():
    """Document 02's note 3: hyper-periods and the place of refusal 4 are as they were.

    The running multiple and the period are pairs for a way that halves and
    subtracts: many twos in one or in both, pairs that take many steps, pairs
    that are equal or of which one divides the other. Catches a common two that
    is lost or taken out, an odd factor that is lost, and a way that stops before
    its 44th step; no pair that stays within 10,000,000 takes more.
    """
    def pair(l, p, M=2):
        check('pair-%d-%d' % (l, p), with_periods((l, p), M))

    # One less than a power of two beside powers of two, up to the pair of most steps
    # within 10,000,000; the same with twos in common; equal ones, and 1 beside them.
    for e in range(1, 24):
        pair(2 ** e - 1, 2 ** e)
        pair(2 ** e, 2 ** e - 1)
        pair(2 ** e, 2 ** (23 - e))
        if e < 21:
            pair(2 ** (23 - e) - 4, 2 ** (23 - e))
        if e < 22:
            pair(2 ** e * 3, 2 ** (21 - e) * 3)
        if e > 1:
            pair(2 ** e - 1, 1)
            pair(2 ** e - 1, 2 ** e - 1)
    # Others that take many steps: 60 to 66 of at most 100.
    for l, p in ((8_388_607, 4_194_304), (7_340_029, 6_291_456), (7_864_313, 7_340_032),
                 (9_207_248, 9_999_999), (9_573_907, 10_000_000)):
        pair(l, p)
        pair(p, l)
    # One divides the other, and neither; twos in the quotient or in the divisor.
    for l, p in ((9_000_000, 3), (9_437_184, 9), (9_437_184, 18), (9_437_184, 7), (7_077_888, 27),
                 (6_250_000, 16), (6_250_000, 32), (6_250_000, 10_000_000), (9_765_625, 1_024),
                 (3_145_728, 3), (3_145_728, 9), (5_242_880, 10), (5_242_880, 3_276_800)):
        pair(l, p, 3)
        pair(p, l, 3)
    # A multiple that grows by one two, or by one odd factor, at each task.
    check('pairs-by-twos', with_periods([2 ** e for e in range(24)]), good(2, 24, 8_388_608))
    check('pairs-by-twos-down', with_periods([2 ** e for e in range(23, -1, -1)]),
          good(2, 24, 8_388_608))
    check('pairs-by-twos-and-3', with_periods([2 ** e for e in range(24)] + [3]),
          refused(4, period_of(2, 25)))
    check('pairs-by-threes', with_periods([3 ** e for e in range(15)]), good(2, 15, 4_782_969))
    check('pairs-by-threes-and-2', with_periods([3 ** e for e in range(15)] + [2, 4]),
          refused(4, period_of(2, 17)))
    draw = Draw(SEED + 3)
    for number in range(1, 201):
        both_have = 2 ** draw.between(0, 12) * draw.one_of([1, 1, 3, 5, 7, 9, 11, 45, 105])
        most = 10_000_000 // both_have
        left = draw.between(1, draw.one_of([40, 1_000, most]))
        right = draw.between(1, draw.one_of([40, max(40, 20_000_000 // both_have // left), most]))
        periods = [both_have * min(left, most), both_have * min(right, most)]
        if draw.between(1, 3) == 1:
            periods.append(2 ** draw.between(0, 23))
        check('pairs-%03d' % number, with_periods(periods, draw.one_of([2, 2, 3])))


# ------------------------------------------------------------- random records

def some_periods(draw):
    """A list on either side of check 4: divisors of one number, and sometimes
    a stranger to them."""
    whole = draw.one_of([10_000_000, 10_000_000, 9_999_999, 9_999_990, 9_979_200, 8_648_640,
                         8_388_608, 9_765_625, 9_699_690, 4_999_995])
    divisors = [p for p in range(1, 3_163) if whole % p == 0]
    divisors += [whole // p for p in divisors]
    M, N = draw.one_of([2, 2, 2, 3, 4, 8]), draw.between(1, 7)
    periods = [draw.one_of(divisors) for _ in range(N)]
    if draw.between(1, 2) == 1:
        place = draw.between(0, N - 1)
        periods[place] = draw.one_of([2, 3, 5, 7, 11, 13, 256, draw.between(1, 10_000_000)])
    words = with_periods(periods, M)
    for task in range(1, N + 1):
        at = period_of(M, task)
        words[at + 1] = draw.between(1, 9)
        words[at + 2] = draw.between(0, min(9, words[at] - 1))
        words[at + 3:at + 3 + M] = [draw.between(1, 9) for _ in range(M)]
    return words


def short_list(draw):
    """A list of length 0 to 14; its first words are often right."""
    words = [draw.one_of([1, 1, 2, 2, 3, 5, 10, 100, draw.one_of(EDGES)])
             for _ in range(draw.between(0, 14))]
    for place, word in enumerate((100, 0, 2, 3, 4, 1)):
        if place < len(words) and draw.between(1, 6) > 1:
            words[place] = word
    return words


def random_records():
    draw = Draw(SEED)
    for number in range(1, RANDOM_CASES + 1):
        name = 'r%04d' % number
        kind = draw.one_of(['walk'] * 10 + ['set'] * 7 + ['plan'] * 3 + ['both'] + ['periods'] * 2
                           + ['short'])
        if kind == 'periods':
            check(name, some_periods(draw))
            continue
        if kind == 'short':
            check(name, short_list(draw))
            continue
        words, plan = some_walk(draw)
        M, _ = counts(words)
        if kind in ('set', 'both'):
            words = damaged(draw, words)
        if kind in ('plan', 'both'):
            plan = damaged_plan(draw, plan, M)
        said = r.check_set(words)
        slow = said[0] == 'good' and said[3] > LONGEST_RANDOM
        if slow or kind == 'set' and draw.between(0, 1):
            check(name, words)
        else:
            walk(name, words, plan)
