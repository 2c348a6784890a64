#!/usr/bin/env bash
# Holds the generator's program to its stored sets, to the sheet of one of them, and to saying so where it cannot give
# one: bash examples/generate/check.sh
set -u
. -- "$(dirname -- "$0")/../../scripts/root.sh" || exit 1

example=generate
. examples/common.sh

hold_cases

# ---- what it prints is what the sheet builder reads: the two as README has them, with 7-12.sheet the stored sheet
piped() (
    set -o pipefail
    bash examples/generate/run.sh 7 12 | bash examples/sheet/run.sh 1000
)
piped >"$out/7-12.sheet" || fail "the sheet of seed 7 and 12 tasks ends with $?"
diff "$cases/7-12.sheet" "$out/7-12.sheet" >&2 || fail "the sheet of seed 7 and 12 tasks is not $cases/7-12.sheet"

# ---- no set: status 2, and a word on standard error
full() { "$program" 7 12 >/dev/full; }
closed() { "$program" 7 12 >&-; }
gives_up "a full disk" "the set cannot be written" full
gives_up "no standard output" "the set cannot be written" closed
gives_up "no argument" "give a seed and the number of tasks" "$program"
gives_up "one argument" "give a seed and the number of tasks" "$program" 7
gives_up "three arguments" "give a seed and the number of tasks" "$program" 7 12 1
# The last two are 0 and 7 where 64 bits wrap.
bad=("" " " 00 07 +7 -7 " 7" "7 " 7x 0x7 7.0 7e0 "1,000" seven 4294967296 18446744073709551616 18446744073709551623)
for word in "${bad[@]}"; do
    gives_up "seed '$word'" "the seed is a plain number" "$program" "$word" 12
    gives_up "'$word' tasks" "the number of tasks is a plain number" "$program" 7 "$word"
done

hold_run 7-12 7 12

echo "examples/generate: $held cases as stored"
[ "$failures" -eq 0 ]
