"""Makes the stored records of set checks, walk, planner, dull engine, reader, writer,
the program's call and the load generator, and their answers.

    python3 tests/make_cases.py           writes crates/cases/stdin and stdout
    python3 tests/make_cases.py --check   writes nothing and compares with both

Each call has a module of records/, dull.py for the dull engine; chips.py there has those of processors by name,
idle.py those of the idle energy, margin.py those of the margin above the least energy and
firsts.py those of first releases, for all calls, and shared.py has what they share. The
order of the records is that of the groups in make, below.

One record a line, one space between items, each line ended by byte 10:

    c NAME K w1 .. wK               checks 2, 3 and 4 on the list of K words
    w NAME K w1 .. wK J p1 .. pJ    the walk of that set with the plan of J words
    p NAME K w1 .. wK J A           the planner on that set, J words lent for the
                                    plan and A working words
    d NAME K w1 .. wK J             the dull engine on that set, J words lent for the plan
    r NAME J TEXT                   the reader on the text, J words lent
    t NAME K w1 .. wK J             the writer on that set, J bytes lent
    a NAME J TEXT                   the program's call on the text, J bytes lent
    g NAME SEED N J                 the generator for N tasks from the seed, J words lent

A text is all that stands behind its space, and may be empty. A line cannot hold
byte 10, so `/` stands for it in a text; a text with a `/` of its own cannot be
given. All other bytes go as they are, those that are no characters too.

An answer is a line too, the record's name and then what the reference says:

    c: good M N L, or refused N K
    w: kept BUSY IDLE PREEMPTED, missed TICK TASK, or refused N K
    p, d: planned UNIT LOAD L ENERGY r1 .. rN, or refused N K
    r: read N w1 .. wN, or refused N K
    t: wrote N TEXT, or refused N K
    a: prints N TEXT, or refused 6 K
    g: generated K w1 .. wK, or refused N K

Most answers come from the reference alone. Where a case is worked by hand or
stands in the scope document, the answer is written beside it as well, and the
reference must agree with it. A planner answer of a set with few plans is made
in both of the reference's ways and judged by looking at every plan, by the margin
above the least energy too, which margin.py works out again for its own; energies below
that of an idle processor are looked for once more, and a set with an idle energy is
planned without it too, with energies that are less by it. The dull engine's answer is
the planner's, or 11 by a table of the most tasks for each M, and up to some thousands of
plans the reference goes through all of them to it. Of every
text a reader of the usual kind must say the same as the reference, which goes
by the definition: which bytes begin some well-formed text. Words that were read
or written are put into a text once more, in another way; those of a chip are worked
out again, and refusal 9 is found by the cycles alone. What the program prints
is put together by program.py as well, with a walk from one event to the next, and the
reference must print the same; where L is so long that its walk would be slow, it
is not asked. A walk with first releases is made in three ways where it is kept, and in two
where it is not. A generated list is made by generator.py as well, with each draw worked
out from the seed at once.

The test program adds `changed` to an answer where the call left its memory other than
it must; the walk and the checks are lent nothing to write. No answer here has it.
"""

import sys
from pathlib import Path

sys.dont_write_bytecode = True

from records import (
    checks, chips, dull, firsts, generator, idle, margin, planner, program, reader, walk, writer)
from records.shared import answers, names, questions

FOLDER = Path(__file__).resolve().parent.parent / 'crates' / 'cases'
# Of all records: each task has a word more since document 02's note 6, and note 6 has its own.
MOST_BYTES = 4_000_000


# --------------------------------------------------------------- the sentences

# Which records stand for each case of document 01's 'Either side of an edge', the marked
# ones too, and for each line of 'Plausible errors'; and for the sentences of document
# 02's notes, which begin with the note's number.
SENTENCES = {
    'S: plan 2 1, unit 1, load 29, energy 41': 'p-document-set a-document',
    'S with slack 1,000: plan 1 2, unit 8, load 28, energy 42':
        'p-document-set-slack-1000 a-document-slack-1000',
    'S has W = 243; 242 working words: refusal 5 with 243':
        'p-document-set p-document-set-242-words',
    'S with slack 1,000: W = 27':
        'p-document-set-slack-1000 p-document-set-slack-1000-26-words',
    'S, walk of 1 1: missed, tick 15, task 2': 'walk-of-1-1',
    'Walk of 2 1: kept, 29, 1, 1': 'walk-of-2-1 a-document',
    'Plan 1 3 for S: load 24': 'walk-of-1-3',
    'Walk of 1 4: refusal 8, place 1': 'walk-of-1-4',
    'Highest rate 2, one task of period 30: 60 cycles fit':
        'p-60-cycles-in-30-ticks 60-cycles-in-30-ticks a-60-cycles-in-30-ticks',
    '61 give refusal 7': 'p-61-cycles-in-30-ticks 61-cycles-in-30-ticks a-61-cycles-in-30-ticks',
    'A slack of 0: refusal 2, place 0':
        'slack-of-0 slack-of-0-w p-slack-of-0 t-slack-of-0-8192 a-slack-of-0',
    'Empty list: refusal 2, place 0': 'empty-list empty-list-w p-empty-list t-empty-list-8192',
    'Rates 4 4: refusal 3, place 3, which is 4 since note 4':
        'rates-4-4 rates-4-4-w p-rates-4-4 t-rates-4-4-8192 a-rates-4-4',
    'Empty text: refusal 1, offset 0': 'r-empty a-empty',
    'Two rates, periods 9,999,999 and 10,000,000: refusal 4, place 9, which is 11 since note 6':
        'periods-9999999-10000000 periods-9999999-10000000-w p-periods-9999999-10000000 '
        'a-periods-9999999-10000000',
    'One period of 10,000,000 passes':
        'period-10000000 period-10000000-w p-period-10000000 a-period-10000000',

    'A table of M entries read at M; a task at the highest rate shows it':
        'rate-8-of-8 p-highest-of-8 p-highest-of-8-last-task a-highest-of-8 '
        'a-highest-of-8-last-task a-last-of-32-at-the-highest-rate',
    'Energies rounded to nearest: S with slack 1,000 gets plan 2 1':
        'p-document-set-slack-1000 a-document-slack-1000',
    'Rounded down, one task whose task energy is 33 at every rate gets unit 16':
        'p-33-at-every-rate a-33-at-every-rate',
    'Utilisation added as rounded fractions, so that a load of exactly L is turned down':
        'p-full-3-3-3-259 p-full-30-60-259 a-load-of-exactly-l a-load-of-exactly-l-of-60',
    'Ties settled by rate numbers before load: S with slack 1,000 would get plan 2 1':
        'p-document-set-slack-1000 a-document-slack-1000',
    'A miss noticed only when the late job ends': 'walk-of-1-1 late-by-much',

    'Note 1: A generator takes a seed word and N, writes a set and returns its length':
        'g-worked-0 g-length-01 g-length-32 g-seed-0-tasks-32 g-seed-4294967295-tasks-32',
    'Note 1: state x 1,664,525 + 1,013,904,223, both steps wrapping at 32 bits':
        'g-worked-0 g-worked-4294967295 g-state-0-at-draw-1 g-state-4294967295-at-draw-1',
    'Note 1: a draw is the new state divided by 65,536, rounded down':
        'g-worked-0 g-state-65535-at-draw-1 g-state-65536-at-draw-1',
    'Note 1: The set has slack 100 and five rates, 100 x j for rate j': 'g-worked-0 g-length-32',
    'Note 1: the period is entry (draw mod 8) of 10, 20, 25, 40, 50, 100, 200, 400':
        'g-period-10-low-of-1 g-period-20-low-of-1 g-period-25-low-of-1 g-period-40-low-of-1 '
        'g-period-50-low-of-1 g-period-100-low-of-1 g-period-200-low-of-1 g-period-400-high-of-32',
    'Note 1: cycles are 1 + draw mod 1,000':
        'g-cycles-1-low-of-1 g-cycles-1-high-of-32 g-cycles-1000-low-of-1 g-cycles-1000-high-of-32',
    'Note 1: the energy at rate j is (2 + draw mod 9) x j x j':
        'g-energy-2-low-of-1 g-energy-2-high-of-32 g-energy-10-low-of-1 g-energy-10-high-of-32',
    'Note 1: A list from it passes checks 2, 3 and 4 for every seed':
        'c-generated-0-1 c-generated-2147483648-6 c-generated-4294967295-8 c-generated-6-32',
    'Note 1: 2 with place 0 for N outside 1 to 32':
        'g-count-0-lent-400 g-length-01 g-length-32 g-count-33-lent-400 '
        'g-count-4294967295-lent-400',
    'Note 1: then 6': 'g-length-01-short g-length-32-short g-count-0-lent-0 g-count-33-lent-272',

    'Note 2: A line (chip xscale) or (chip ppc405lp) replaces the rates line':
        'r-chip-worked-01-lent-25 r-chip-worked-02-lent-22 r-chip-name-11 r-chip-name-13 '
        'r-chip-xscale-then-rates r-chip-xscale-after-rates r-chip-ppc405lp-then-rates '
        'r-chip-ppc405lp-after-rates r-chip-xscale-twice r-chip-ppc405lp-twice',
    'Note 2: task lines then omit the energy form':
        'r-chip-xscale-energies-at-1 r-chip-ppc405lp-energies-at-1 r-chip-xscale-energies-at-32 '
        'r-chip-none-bare r-chip-none-bare-at-2 r-chip-xscale-rates-given-bare',
    'Note 2: One tick is a millisecond, so rates are MHz x 1,000':
        'r-chip-worked-01-lent-25 r-chip-worked-02-lent-22 a-chip-printed-03 a-chip-printed-04 '
        'a-chip-printed-05 a-chip-printed-07',
    'Note 2: an energy is power in mW times the job time':
        'r-chip-worked-01-lent-25 r-chip-worked-02-lent-22 r-chip-worked-05-lent-25 '
        'r-chip-worked-06-lent-22',
    'Note 2: xscale 150, 400, 600, 800, 1000 MHz at 80, 170, 400, 900, 1600 mW':
        'r-chip-worked-03-lent-25 r-chip-xscale-cycles-1',
    'Note 2: ppc405lp 33, 100, 266, 333 MHz at 19, 72, 600, 750 mW':
        'r-chip-worked-04-lent-22 r-chip-ppc405lp-cycles-1',
    'Note 2: Reading gives the ordinary list, expanded':
        'r-chip-worked-01-lent-25 a-chip-printed-01 a-chip-printed-01-given a-chip-printed-02 '
        'a-chip-printed-02-given r-chip-list-7-of-chip p-chip-list-7 c-chip-list-7',
    'Note 2: the writer writes that list in the old form': 't-chip-list-1 t-chip-list-2 t-chip-list-7',
    'Note 2: The round trip is about lists and holds for these too':
        'r-chip-list-1-of-chip t-chip-list-1 r-chip-list-1 r-chip-list-2-of-chip t-chip-list-2 '
        'r-chip-list-2',
    'Note 2: 9, an energy worked out here is over 1,000,000':
        'r-chip-xscale-at-1000000-625000000 r-chip-xscale-at-1000000-625000001 '
        'r-chip-ppc405lp-at-266000-443156000 r-chip-ppc405lp-at-266000-443156001 '
        'r-chip-xscale-cycles-4294967295 r-chip-xscale-given a-chip-xscale-given '
        'a-chip-ppc405lp-given a-chip-9',
    "Note 2: with the first such task's number":
        'r-chip-xscale-of-2-dear-1 r-chip-xscale-of-2-dear-2 r-chip-xscale-of-32-dear-32 '
        'r-chip-ppc405lp-of-32-dear-31-32 r-chip-ppc405lp-of-32-dear-9-10-and-on',
    'Note 2: after 1, before 6':
        'r-chip-xscale-1-before-9-line-end r-chip-ppc405lp-1-before-9-cut r-chip-xscale-9-lent-0 '
        'r-chip-xscale-9-lent-24 r-chip-xscale-6-lent-24 r-chip-xscale-6-lent-25 '
        'a-chip-xscale-slack-0-and-9 a-chip-ppc405lp-9-before-4',

    'Note 3: The hyper-period is as it was for every list':
        'pair-4194304-2 pair-6250000-32 pairs-by-twos pairs-by-twos-down pairs-by-threes',
    'Note 3: and the place given by refusal 4':
        'pair-8388607-8388608 pair-8388608-8388607 pairs-by-twos-and-3 pairs-by-threes-and-2',

    'Note 4: A line (idle H) may follow the slack line':
        'r-idle-1010 r-idle-rates-given r-idle-rates-absent r-idle-rates-twice '
        'r-idle-rates-before-slack r-idle-rates-behind r-idle-xscale-behind r-idle-ppc405lp-behind '
        'r-idle-rates-behind-a-task r-idle-rates-at-the-end a-idle-1010',
    'Note 4: H in microjoules per tick, 0 to 1,000':
        'least-idle-0 least-idle-1000 least-idle-1001 p-least-idle-1001-all t-least-idle-1001 '
        'm-9-after-bad-idle r-idle-of-1001 a-idle-of-1001 a-idle-of-0 a-idle-of-1000 '
        'r-idle-rates-number-09 r-idle-rates-number-10',
    'Note 4: the set list gains H as a word after the slack':
        'p-idle-s-0 document-set r-document odd-no-idle-word-09 every-word-at-its-most '
        'r-idle-1010 p-idle-worked-01',
    'Note 4: 0 if the line is absent':
        'r-document r-idle-rates-absent r-idle-rates-0 a-idle-absent a-idle-of-0',
    'Note 4: Chips bring H of their own unless the line is given: 12 for ppc405lp, 40 for xscale':
        'r-chip-worked-01-lent-25 r-chip-worked-02-lent-22 r-idle-xscale-absent '
        'r-idle-ppc405lp-absent r-idle-xscale-0 r-idle-ppc405lp-0 r-idle-xscale-given '
        'r-idle-ppc405lp-own a-chip-printed-01 a-chip-printed-02 a-idle-xscale-absent '
        'a-idle-xscale-40 a-idle-ppc405lp-absent a-idle-ppc405lp-12',
    'Note 4: The writer writes the line only if H is above 0':
        't-idle-0 t-document t-idle-1-of-3-rates-2 t-idle-1010 t-idle-1000-of-8-rates-32 '
        't-chip-list-1 t-chip-list-2',
    'Note 4: Units, rounding and selection now use the energy per job less H x job time':
        'p-idle-worked-01 p-idle-worked-02 p-idle-worked-11 p-raised-s-h-2-slack-100 '
        'p-raised-s-h-1000-slack-1000 p-left-33-slack-1000-h-64 p-left-0-fastest-1-slack-100 '
        'p-left-0-slowest-1-slack-100 p-left-alike-100 p-given-alike-100',
    "Note 4: The reported energy is the plan's task energies plus H x (L - load)":
        'p-idle-worked-01 p-idle-worked-12 a-idle-1010 p-one-tick-of-l-h-1000 '
        'p-full-2-4-h-1000 p-most-words-h-249-1000 a-chip-printed-01 a-chip-printed-02',
    'Note 4: and the 1000 + slack comparison is made between such totals':
        'p-idle-worked-01 p-by-h-05 p-by-h-10 ri0001',
    "Note 4: Later places move up by one; document 01's example lists and the generator's hold 0":
        'rates-4-4 p-rates-4-4 p-periods-9999999-10000000 p-document-set g-worked-0 g-length-32 '
        'g-length-32-short',
    'Note 4: 10, an energy below H x job time':
        'p-ten-least-9 p-ten-least-10 p-ten-least-equal p-ten-pair-10 p-ten-h-1000-time-1000-energy-999999 '
        'p-ten-h-1000-time-1000-energy-1000000 p-ten-unused-slow p-ten-unused-no-plan '
        'a-ten a-ten-s a-idle-xscale-80 a-idle-xscale-81 a-idle-ppc405lp-19 a-idle-ppc405lp-20',
    "Note 4: with the first such energy's place":
        'p-ten-first-12-of-16 p-ten-first-10-of-22 p-ten-all p-idle-worked-18 p-ten-whole-363',
    'Note 4: after 3, before 4':
        'p-3-and-ten-none p-2-at-13-and-ten-none p-ten-and-4-none p-ten-and-7-all p-ten-and-5 '
        'p-ten-and-6 p-not-ten-4 p-not-ten-7 p-not-ten-5 p-not-ten-6 a-idle-3-before-10 '
        'a-idle-10-before-4 a-idle-10-before-5 a-idle-10-before-7 a-idle-xscale-9-before-10',
    'Note 4: and never by walk or writer':
        'w-ten-1010-1 w-ten-s-2-1 w-ten-and-4 t-ten-1010 t-ten-s t-ten-and-4 r-ten-s c-ten-s',

    'Note 5: the reported energy exceeds that of every plan by at most N x (unit - 1)':
        'p-margin-worked-01 p-margin-worked-02 p-margin-worked-04 p-margin-worked-05 '
        'p-margin-worked-07 p-margin-worked-09 p-margin-worked-12 p-margin-worked-14 '
        'p-reach-2-slack-1000-of-1-h-0 p-reach-131072-slack-1000-of-4-h-1000 '
        'p-reach-1024-slack-999-of-32-h-3 p-step-of-1-slack-667-k-3 a-margin-worked-01 rm0008',
    'Note 5: that keeps its deadlines': 'p-margin-worked-13 w-margin-worked-13 w-margin-s-1-1',
    'Note 5: With unit 1 it is therefore the least there is':
        'p-margin-worked-03 p-margin-worked-06 p-margin-worked-10 p-margin-worked-15 '
        'p-step-of-1-slack-1000-k-2 p-step-of-1-slack-1000-k-2-less p-step-of-1-slack-1-k-1999 '
        'p-step-of-3-slack-857-k-7 a-margin-worked-03',

    'Note 6: Each task may end with (from A)':
        'r-from-3 r-from-rates-given r-from-xscale-given r-from-ppc405lp-given r-from-rates-absent '
        'r-from-rates-of-two-first r-from-rates-of-two-second r-from-rates-32-tasks '
        'r-from-rates-twice r-from-xscale-twice r-from-rates-before-energies '
        'r-from-rates-no-energies r-from-xscale-energies r-from-ppc405lp-energies '
        'r-from-rates-behind-the-task r-from-rates-behind-the-period r-from-rates-on-a-line '
        'r-from-rates-cut-0 r-from-rates-cut-9 r-from-xscale-wrong-0-41 r-from-xscale-wrong-8-53 '
        'r-from-rates-no-number r-from-rates-number-21 r-from-rates-number-10 '
        'r-chip-xscale-energies-at-1 r-chip-ppc405lp-energies-at-32',
    'Note 6: A below the period':
        'c-first-least-1-0 c-first-least-1-6 c-first-least-1-7 c-first-least-1-8 '
        'c-first-least-1-4294967295 c-first-pair-2-14 c-first-pair-2-15 c-first-five-4-0 '
        'c-first-five-4-1 c-first-whole-32-19 c-first-whole-32-20 c-first-9999999-of-10000000 '
        'c-first-10000000-of-10000000 r-from-at-9-of-10 r-from-rates-number-09',
    'Note 6: the task record gains A after the cycles':
        'document-set r-from-3 whole-left-over-1 p-whole-left-over c-first-and-cycles '
        'c-first-and-energy c-first-none c-first-none-of-s every-word-at-its-most',
    "Note 6: 0 if absent, in document 01's examples and from the generator":
        'r-document r-from-rates-absent r-from-rates-0 r-from-xscale-absent r-from-0 p-document-set '
        'walk-of-2-1 p-periods-9999999-10000000 g-worked-0 g-length-32 g-length-32-short',
    'Note 6: written only if above 0':
        't-document t-from-0 t-from-3 t-from-3-and-8 t-from-3-and-9 t-from-1-of-2-rates-1 '
        't-from-9999999-of-8-rates-32',
    'Note 6: The planner still answers for a common release':
        'p-first-s-last p-first-s-1000-half p-first-over-one p-first-none-last p-first-full-last '
        'p-first-s-2-242 p-first-s-1-243 a-from-3 a-from-over-l pf0001',
    'Note 6: its plan must keep all deadlines for ever under every choice of A':
        'w-first-s-2-1-from-9-14 w-first-s-1-2-from-5-5 a-from-s-9-14 pf0001-walked',
    'Note 6: The walk takes A: releases fall at A plus multiples of the period':
        'w-first-worked-01 w-first-worked-09 w-first-worked-10 w-of-5-for-4-from-3 '
        'w-of-3-4-for-1-2-from-2-3 w-first-long-9999999',
    'Note 6: and it goes to 2 x L':
        'w-first-worked-02 w-first-worked-05 w-first-worked-14 w-of-2-for-1-from-1 '
        'w-first-long-full w-first-long-1 w-of-4-4-for-4-2-from-0-3 w-of-2-4-for-2-1-from-0-3 '
        'a-from-3 a-from-10000000',
    "Note 6: If some A is above 0, 'kept' means just that stretch":
        'w-first-worked-01 w-of-4-4-for-2-3-from-0-3',
    'Note 6: and an unfinished job whose deadline lies past it is no miss':
        'w-first-worked-01 w-first-worked-07 w-first-worked-10 w-of-5-for-5-from-4',
    'Note 6: If all are 0 it ends at L as before':
        'w-first-worked-03 w-first-worked-04 walk-of-2-1 w-first-s-2-1-from-0-0 a-document a-from-0',
    'Note 6: A outside its range is refusal 2':
        'c-first-least-1-7 p-first-least-1-7 w-first-least-1-7 t-first-least-1-7 a-from-10-at-9 '
        'a-from-4294967295-at-15 a-from-xscale-bad w-first-bad-and-4 a-from-2-before-3',
    'Note 6: A well-formed text is now under 6,000 bytes':
        'r-idle-longest a-from-longest r-from-longest-xscale',

    'Note 7: An engine goes through all plans, in order of rate numbers with task 1 changing fastest':
        'd-worked-01 d-worked-06 d-worked-07 d-worked-10 d-worked-11 d-worked-12 '
        'd-twins-at-1-and-4 d-2-of-5-twins-fast d-two-rates-alike-at-1-of-5 '
        'd-two-rates-alike-at-5-of-5 d-all-equal-3-tasks-8-rates d-last-of-7-to-the-power-7 '
        'd-last-of-2-to-the-power-19 d-2-to-the-power-19 d-between-of-8-to-the-power-6',
    "Note 7: and applies document 01's choice directly at each unit":
        'd-document-set d-document-set-slack-1000 d-33-at-every-rate d-rounded-alike-more-1000 '
        'd-less-load-at-2-of-3 d-twins-at-2-and-3-rounded d-stop-2-tasks-of-2-slack-1000 '
        'd-reach-32-slack-1000-of-2 d-nothing-left-all-2-tasks-1 d-nothing-left-the-fastest-1-tasks-1 '
        'd-energy-33-slack-1000 d-slowest-costs-least-8',
    'Note 7: It needs no working words':
        'd-two-slack-1-lent-2 d-eleven-slack-1-lent-11 d-energy-1000000-slack-1',
    "Note 7: Its refusals are the planner's without 5":
        'd-slack-of-0 d-empty-list d-cut-10 d-rates-4-4 d-ten-10 d-ten-18-and-last '
        'd-periods-9999999-10000000 d-over-at-12 d-two-lent-1 d-eight-lent-7 '
        'd-61-cycles-in-30-ticks d-order-3-and-10 d-order-10-and-4 d-order-4-and-6 d-order-6-and-7 '
        'd-order-7 d-all-from-2 d-all-from-3 d-all-from-10 d-all-from-6 d-all-from-7 '
        'd-first-10-of-10',
    'Note 7: and where both succeed the four numbers and the plan list are equal':
        'd-document-set p-document-set d-idle-worked-01 p-idle-worked-01 d-margin-worked-01 '
        'p-margin-worked-01 d-document-set-slack-500 p-document-set-slack-500 '
        'd-between-of-3-to-the-power-12 rd0001',
    'Note 7: 11, M to the power N is over 1,000,000, with 0':
        'd-2-to-the-power-19 d-2-to-the-power-20 d-3-to-the-power-12 d-3-to-the-power-13 '
        'd-4-to-the-power-9 d-4-to-the-power-10 d-5-to-the-power-8 d-5-to-the-power-9 '
        'd-6-to-the-power-7 d-6-to-the-power-8 d-7-to-the-power-7 d-7-to-the-power-8 '
        'd-8-to-the-power-6 d-8-to-the-power-7 d-7-to-the-power-7-short d-worked-27 '
        'd-wraps-2-to-the-power-32 d-wraps-4-to-the-power-32 d-wraps-8-to-the-power-22',
    'Note 7: after 4':
        'd-order-10-and-11 d-order-4-and-11 d-order-4-and-11-none-lent d-order-11-and-6 '
        'd-order-11-and-7 d-order-11-and-6-and-7 d-all-from-4 d-all-from-11',
}


# ---------------------------------------------------------- writing, comparing

def make():
    for group in (checks.document, checks.ranges, checks.lengths, checks.odd_lists,
                  checks.bad_counts, checks.rising_rates, checks.hyper_periods, checks.halved_pairs,
                  walk.bad_plans,
                  walk.one_task, walk.loads, walk.ties, walk.late_tasks, walk.preemptions,
                  walk.many_tasks, checks.random_records, planner.planner_document,
                  planner.planner_checks, planner.planner_lengths, planner.planner_loads,
                  planner.planner_ties, planner.planner_units, planner.planner_energies,
                  planner.planner_limits, planner.random_plans, reader.read_document,
                  reader.read_shapes, reader.read_numbers, reader.read_counts, reader.read_ends,
                  reader.read_damaged, reader.random_texts, writer.write_document,
                  writer.write_shapes, writer.write_refused, writer.random_lists,
                  program.program_document, program.program_checks, program.program_sizes,
                  program.program_large, program.random_programs, generator.generator_worked,
                  generator.generator_lengths, generator.generator_counts,
                  generator.generator_seeds, generator.generator_draws,
                  generator.random_generated, generator.generator_for_others,
                  chips.chip_worked, chips.chip_sizes, chips.chip_names, chips.chip_bytes,
                  chips.chip_lines, chips.chip_numbers, chips.chip_nine, chips.chip_programs,
                  chips.chip_lists, chips.random_chips, chips.random_chip_programs,
                  chips.random_chip_lists, idle.idle_worked, idle.idle_ten, idle.idle_order,
                  idle.idle_others, idle.idle_nothing_left, idle.idle_units, idle.idle_limits,
                  idle.idle_lines, idle.idle_bytes, idle.idle_numbers, idle.idle_written,
                  idle.idle_programs, idle.random_idle_plans, idle.random_idle_programs,
                  idle.random_idle_texts, margin.margin_worked, margin.margin_reached,
                  margin.margin_units, margin.random_margins, firsts.first_ranges,
                  firsts.first_planned, firsts.first_worked, firsts.first_small, firsts.first_many,
                  firsts.first_lines, firsts.first_bytes, firsts.first_numbers,
                  firsts.first_written, firsts.first_programs, firsts.random_first_walks,
                  firsts.random_first_plans, firsts.random_first_programs,
                  firsts.random_first_texts, dull.dull_worked, dull.dull_checks, dull.dull_order,
                  dull.dull_lengths, dull.dull_eleven, dull.dull_ties, dull.dull_units,
                  dull.dull_loads, dull.dull_firsts, dull.random_dulls):
        group()
    for sentence, found in SENTENCES.items():
        assert names.issuperset(found.split()), sentence
    files = {}
    for name, lines in (('stdin', questions), ('stdout', answers)):
        files[name] = ''.join(line + '\n' for line in lines).encode('latin-1')
    assert len(files['stdin']) < MOST_BYTES, len(files['stdin'])
    return files


def shown(line):
    text = line.decode('ascii', 'backslashreplace')
    return text if len(text) <= 100 else text[:97] + '...'


def record_at(line):
    """The name of the record of a line, which is the same in both files."""
    return questions[line - 1].split(' ')[1] if line <= len(questions) else 'none'


def difference(name, made):
    """Where a stored file departs from what was made; None where it does not."""
    path = FOLDER / name
    try:
        stored = path.read_bytes()
    except OSError as fault:
        return '%s cannot be read: %s' % (name, fault.strerror)
    if stored == made:
        return None
    ours, theirs = made.split(b'\n'), stored.split(b'\n')
    for at, (our, their) in enumerate(zip(ours, theirs), 1):
        if our != their:
            return '%s differs at line %d, record %s\n  stored: %s\n  made:   %s' % (
                name, at, record_at(at), shown(their), shown(our))
    return '%s differs in length: %d lines stored, %d made' % (
        name, len(theirs) - 1, len(ours) - 1)


def main(arguments):
    if arguments not in ([], ['--check']):
        print('use: make_cases.py [--check]', file=sys.stderr)
        return 2
    files = make()
    if arguments:
        found = [said for name in files for said in [difference(name, files[name])] if said]
        for said in found:
            print('cases: ' + said)
        if found:
            return 1
        print('cases: %d records, as stored' % len(questions))
        return 0
    FOLDER.mkdir(parents=True, exist_ok=True)
    for name, data in files.items():
        (FOLDER / name).write_bytes(data)
    print('cases: %d records, %d and %d bytes' % (
        len(questions), len(files['stdin']), len(files['stdout'])))
    return 0


if __name__ == '__main__':
    sys.exit(main(sys.argv[1:]))
