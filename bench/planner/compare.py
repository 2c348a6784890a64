"""Holds a C planner to the reference on random sets that no stored record has.

    python3 bench/planner/compare.py PROGRAM [COUNT [SEED]]

PROGRAM is one that run.sh builds from records.c, such as
target/bench/planner/records-plain or records-archive. The sets have small
slacks, for which the stored records' 16,384 working words are too few, so that
tables are wide. As many words are lent as needed, now and then one fewer. Four
sets are made so that a cost passes 32 bits. Half of the random ones have an idle
energy, mostly one that their energies allow, and half first releases, at which no
planner looks.
"""

import subprocess
import sys
from pathlib import Path

sys.dont_write_bytecode = True
sys.path.insert(0, str(Path(__file__).resolve().parent.parent.parent / 'tests'))

import reference as r
from records.firsts import some_firsts
from records.planner import largest, some_large, some_planned
from records.shared import FEW_PLANS, Draw, costed, energies_of, needed, period_of


def some_set(draw):
    if draw.between(1, 8) == 1:
        words = some_large(draw)
        if draw.between(1, 4) == 1:
            words = largest(draw, 1, draw.one_of(['random', 'rising', 'small']),
                            draw.one_of(['short', 'long']))
    else:
        words = some_planned(draw)
    words[0] = draw.one_of([1, 1, 1, 2, 5, 20, 50])
    if draw.between(1, 8) == 1:
        # The fastest rate costs next to nothing, the others as much as there is.
        M, N = words[2], words[3 + words[2]]
        for task in range(1, N + 1):
            at = energies_of(M, task)
            words[at:at + M] = [1_000_000 - draw.between(0, 9) for _ in range(M - 1)] + [1]
    words = with_idle(draw, words) if draw.between(0, 1) else words
    return some_firsts(draw, words) if draw.between(0, 1) else words


def with_idle(draw, words):
    """An idle energy: the most that the energies allow, one more, or a small one that every job
    then draws too, so far as an energy can be that large."""
    words = list(words)
    M, N = words[2], words[3 + words[2]]
    energies = []                       # place, and the ticks of such a job
    for task in range(1, N + 1):
        cycles = words[period_of(M, task) + 1]
        energies += [(energies_of(M, task) + k, -(-cycles // words[3 + k])) for k in range(M)]
    most = min(1_000, min(words[at] // ticks for at, ticks in energies))
    how = draw.between(1, 4)
    if how == 1:
        words[1] = most
    elif how == 2:
        words[1] = min(1_000, most + 1)
    else:
        words[1] = draw.between(1, 20)
        for at, ticks in energies:
            words[at] = min(1_000_000, words[at] + words[1] * ticks)
    return words


def wide_costs():
    """2^22 jobs over a unit of 2^9 cost 2^32 and a little more at the slow rate,
    and 2^13 at the fast one: at 32 bits the slow rate would be the cheaper."""
    span = 2 ** 23
    for energy in (524_287, 524_288, 524_289, 1_000_000):
        yield costed((1, 2), [(2, 1, energy, 1)] + [(span, 1, 1, 1)] * 3, 1)


def flat(answer):
    items = answer[:5] + tuple(answer[5]) if answer[0] == 'planned' else answer
    return ' '.join(map(str, items))


def main(arguments):
    if not 1 <= len(arguments) <= 3:
        print('use: compare.py PROGRAM [COUNT [SEED]]', file=sys.stderr)
        return 2
    count, seed = (list(map(int, arguments[1:])) + [400, 1][len(arguments) - 1:])
    draw = Draw(seed)
    questions, wanted = [], []
    sets = list(wide_costs()) + [some_set(draw) for _ in range(count)]
    for number, words in enumerate(sets, 1):
        N, W = words[3 + words[2]], needed(words)
        J = N - (draw.between(1, 30) == 1)
        A = W - (draw.between(1, 30) == 1)
        few = words[2] ** N <= FEW_PLANS
        answer = r.plan(words, J, A, 'all' if few else 'table')
        if few and (answer[0] == 'planned' or answer[1] == 7):
            assert r.objection(words, answer, 500) is None, words
        questions.append('p s%d %s' % (number, ' '.join(map(str, [len(words), *words, J, A]))))
        wanted.append('s%d %s' % (number, flat(answer)))
    done = subprocess.run([arguments[0]], input='\n'.join(questions) + '\n',
                          stdout=subprocess.PIPE, text=True)
    got = done.stdout.split('\n')[:-1]
    for question, ours, theirs in zip(questions, wanted, got):
        if ours != theirs:
            print('compare: %s\n  reference: %s\n  planner:   %s' % (question, ours, theirs))
            return 1
    if done.returncode != 0 or len(got) != len(sets):
        print('compare: %s ended with %d after %d answers' % (
            arguments[0], done.returncode, len(got)))
        return 1
    planned = sum(' planned ' in line for line in got)
    print('compare: %d sets, random ones with seed %d, %d of them planned, all alike' % (
        len(sets), seed, planned))
    return 0


if __name__ == '__main__':
    sys.exit(main(sys.argv[1:]))
