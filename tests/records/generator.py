"""Records of the load generator, which is of document 02's note 1; and the sets that it makes,
given to the other calls."""

import reference as r
from records.shared import (
    Draw, MOST_GENERATED, MOST_LENT, MOST_WORK, RANDOM_GENERATED, SEED, TOP, costed, generated,
    length_of as words_in, needed, record, refused, text_of)
from records.checks import check
from records.planner import planner
from records.program import program
from records.reader import read_back
from records.walk import walk
from records.writer import written
from test_reference import HEAD, TABLE, WORKED

STATES = 2 ** 32
MULTIPLIER, ADDED = 1_664_525, 1_013_904_223
BACK = pow(MULTIPLIER, 2 ** 30 - 1, STATES)     # undoes a multiplication at 32 bits
assert MULTIPLIER * BACK % STATES == 1


def draw_after(seed, steps):
    """The draw of so many steps, from the seed at once: the terms of all steps together."""
    power = MULTIPLIER ** steps
    return (seed * power + ADDED * ((power - 1) // (MULTIPLIER - 1))) % STATES // 65_536


def seed_before(state, steps):
    """The seed from which so many steps lead to the state."""
    for _ in range(steps):
        state = (state - ADDED) * BACK % STATES
    return state


def words_from(seed, N):
    """The list of a seed, in another way than the reference's."""
    tasks = []
    for task in range(N):
        p, c, e = (draw_after(seed, 3 * task + count) for count in (1, 2, 3))
        energies = [(e % 9 + 2) * square for square in (1, 4, 9, 16, 25)]
        tasks.append((TABLE[p % 8], c % 1_000 + 1, *energies))
    return costed((100, 200, 300, 400, 500), tasks, 100)


def length_of(N):
    return words_in(5, N)


def generator(name, seed, N, lent=MOST_GENERATED, want=None):
    """The words that were generated, if any."""
    assert 0 <= seed <= TOP and 0 <= N <= TOP and 0 <= lent <= MOST_GENERATED, name
    answer, words = r.generate(seed, N, lent), []
    if answer[0] == 'generated':
        words = answer[1]
        assert words == words_from(seed, N), name
        assert r.check_set(words)[0] == 'good', name
        answer = generated(words)
    record('g', name, [], answer, want, (seed, N, lent))
    return words


# --------------------------------------------- worked lists, words lent, tasks

def generator_worked():
    """The lists that are worked in test_reference.py, and the words lent for them."""
    for seed, N, tasks in WORKED:
        words, name = HEAD + [N] + tasks, 'g-worked-%d' % seed
        size = len(words)
        generator(name, seed, N, size, generated(words))
        generator(name + '-much-lent', seed, N, want=generated(words))
        generator(name + '-a-word-more', seed, N, size + 1, generated(words))
        for label, lent in (('a-word-short', size - 1), ('one-word-lent', 1), ('none-lent', 0)):
            generator('%s-%s' % (name, label), seed, N, lent, refused(6, size))


def generator_lengths():
    """Refusal 6: every number of tasks, with as many words as it takes, one less and one more.

    Catches a length by another formula, 'at most' for 'below', and a list judged
    by its tasks alone.
    """
    for N in range(1, 33):
        size = length_of(N)
        generator('g-length-%02d' % N, 1_000 + N, N, size)
        generator('g-length-%02d-short' % N, 1_000 + N, N, size - 1, refused(6, size))
        generator('g-length-%02d-tasks-alone' % N, 1_000 + N, N, 8 * N, refused(6, size))
        generator('g-length-%02d-none' % N, 1_000 + N, N, 0, refused(6, size))
        if N in (1, 2, 16, 31, 32):
            generator('g-length-%02d-more' % N, 1_000 + N, N, size + 1)
            generator('g-length-%02d-a-task-more' % N, 1_000 + N, N, size + 8)


def generator_counts():
    """Refusal 2 with place 0: N outside 1 to 32, whatever is lent, and before 6.

    Catches an end moved by one, the place of N in the list or N itself for the
    second number, a compare that is signed or looks at a part of a word, and 6
    asked first, also with a length that wraps at 32 bits: 8 x 536,870,913 is 8.
    """
    for N in (0, 33, 34, 35, 64, 255, 256, 257, 65_535, 65_536, 65_537, 536_870_912, 536_870_913,
              2 ** 31 - 1, 2 ** 31, 2 ** 31 + 1, TOP - 1, TOP):
        for lent in (0, 9, 17, MOST_GENERATED):
            generator('g-count-%d-lent-%d' % (N, lent), 7, N, lent, refused(2, 0))
    # Either side of 33 tasks' length, and of 32 tasks'.
    for lent in (264, 265, 266, 272, 273, 274):
        generator('g-count-33-lent-%d' % lent, 7, 33, lent, refused(2, 0))
    for seed in (0, TOP):
        for N in (0, 33, TOP):
            generator('g-count-%d-seed-%d' % (N, seed), seed, N, want=refused(2, 0))


# ---------------------------------------------------------------------- seeds

def generator_seeds():
    """Seeds at the ends of their range and of its halves, with few and with most tasks."""
    for seed in (0, 1, 2, 7, 65_535, 65_536, 2 ** 31 - 1, 2 ** 31, 2 ** 31 + 1, TOP - 1, TOP):
        for N in (1, 2, 31, 32):
            generator('g-seed-%d-tasks-%d' % (seed, N), seed, N)
    # A seed that is a state on the way of another goes on with that one's draws.
    for steps in (1, 2, 3, 4):
        generator('g-seed-%d-steps-before-0' % steps, seed_before(0, steps), 3)


def generator_draws():
    """Each entry of the table, each energy, both ends of the cycles: of the first task and of the
    last of 32, from the lowest draws and from the highest that give it.

    Catches another divisor or one that is right for low draws only, an entry
    counted from 1, and states that wrap late or not at all.
    """
    def drawn(label, place, count, modulus, residue, word):
        highest = (65_535 - residue) // modulus * modulus + residue
        for which, draw in (('low', residue), ('high', highest)):
            for N in (1, 32):
                seed = seed_before(draw * 65_536 + 4_321, 3 * N - 3 + count)
                words = generator('g-%s-%s-of-%d' % (label, which, N), seed, N)
                assert words[length_of(N - 1) + place] == word, label

    for entry, period in enumerate((10, 20, 25, 40, 50, 100, 200, 400)):
        drawn('period-%d' % period, 0, 1, 8, entry, period)
    for cycles in (1, 2, 500, 999, 1_000):
        drawn('cycles-%d' % cycles, 1, 2, 1_000, cycles - 1, cycles)
    for factor in range(2, 11):
        drawn('energy-%d' % factor, 3, 3, 9, factor - 2, factor)
    # States at their ends, and at those of a draw, for each of the first three draws.
    for count in (1, 2, 3):
        for state in (0, 1, 65_535, 65_536, 2 ** 31 - 1, 2 ** 31, STATES - 65_537,
                      STATES - 65_536, STATES - 2, STATES - 1):
            generator('g-state-%d-at-draw-%d' % (state, count), seed_before(state, count), 1)


def random_generated():
    draw = Draw(SEED + 8)
    for number in range(1, RANDOM_GENERATED + 1):
        seed = draw.one_of([draw.between(0, TOP), draw.between(0, TOP), draw.between(0, 999)])
        N = draw.one_of([draw.between(1, 6), draw.between(1, 6), draw.between(1, 6),
                         draw.between(1, 32)])
        size = length_of(N)
        lent = draw.one_of([size, size, size, size + 1, MOST_GENERATED, draw.between(0, size - 1)])
        if draw.between(1, 20) == 1:
            N = draw.one_of([0, 33, draw.between(33, TOP)])
        generator('gr%04d' % number, seed, N, lent)


# ------------------------------------------------------- sets for other calls

def generator_for_others():
    """Generated sets for the checks, the planner, the walk, the writer, the reader and the
    program's call. From 20 tasks on the planner needs more words than a record can lend."""
    for seed, N in ((0, 1), (0, 3), (1, 2), (7, 4), (11, 5), (2 ** 31, 6), (TOP, 8), (3, 12),
                    (5, 16), (2, 19), (9, 19), (4, 20), (6, 32)):
        words, name = r.generate(seed, N, MOST_GENERATED)[1], 'generated-%d-%d' % (seed, N)
        check('c-' + name, words)
        planner('p-' + name, words, N, min(needed(words), MOST_WORK),
                None if N < 20 else refused(5, needed(words)))
        for rate in (1, 3, 5):
            walk('w-%s-at-%d' % (name, rate), words, [rate] * N)
        planned = r.plan(words, MOST_LENT, MOST_WORK)
        if planned[0] == 'planned':
            walk('w-%s-planned' % name, words, planned[5])
        written('t-' + name, words)
        read_back('r-' + name, words)
        program('a-' + name, text_of(words))
