#!/usr/bin/env bash
# Times the archive's dull engine beside the same in plain C, and beside the archive's planner:
#     bash bench/dull/run.sh [REPETITIONS [SEED]]
# All are first held to equal answers on small sets. Then prints a line a case, see bench.c: sets of as many plans as
# the dull engine takes, and a ladder of smaller ones, which shows from how many plans on the planner's table is the
# faster way. All this with plain C linked before the archive, and then behind it; at last the lines come once more,
# with the least time of both for each call. With SELFTEST=1 in the environment nothing is proved or built with rt: a
# second copy of the plain dull engine and the plain planner take the archive's place, which tries the harness.
set -euo pipefail
. -- "$(dirname -- "$0")/../../scripts/root.sh" || exit 1

. bench/common.sh
need gcc "the C compiler"

out=target/bench/dull
mkdir -p "$out"
# The plain engine gets the compiler's best; what is around the two is not timed.
gcc -Wall -Wextra -O3 -c bench/dull/dull.c -o "$out/dull.o"
gcc -Wall -Wextra -O2 -c bench/dull/bench.c -o "$out/bench.o"

if [ -n "${SELFTEST:-}" ]; then
    echo "bench: no archive; a copy of the plain dull engine and the plain planner stand for it"
    gcc -Wall -Wextra -O3 -DDULL=seedspell_plan_dull -c bench/dull/dull.c -o "$out/copy.o"
    gcc -Wall -Wextra -O3 -DPLANNER=seedspell_plan -c bench/planner/plan.c -o "$out/plan.o"
    archive=$out/standin.a
    rm -f "$archive"
    ar cr "$archive" "$out/copy.o" "$out/plan.o"
else
    build_archive
fi
# Where the code stands in the program matters as much as what it is: plain C first, then the archive first.
gcc "$out/bench.o" "$out/dull.o" "$archive" -o "$out/bench"
gcc "$out/bench.o" "$archive" "$out/dull.o" -o "$out/bench-archive-first"
echo "bench: plain C linked before the archive"
"$out/bench" "$@" | tee "$out/plain-first"
echo "bench: the archive linked before plain C"
"$out/bench-archive-first" "$@" | tee "$out/archive-first"

# The table is bench.c's: a heading, whose first word is `case`, and lines to the end.
echo "bench: the least of both links"
awk '
    FNR == 1 { lines = 0 }
    $1 == "case" && NR > FNR { print }
    $1 == "case" { lines = 1; next }
    !lines { next }
    NR == FNR { name[FNR] = $1; dull[FNR] = $8; plain[FNR] = $9; step[FNR] = $11; planner[FNR] = $12; next }
    name[FNR] != $1 || NF != 13 { print "bench: the two tables have other lines" > "/dev/stderr"; exit 1 }
    {
        if (dull[FNR] < $8) { $8 = dull[FNR]; $11 = step[FNR] }
        if (plain[FNR] < $9) $9 = plain[FNR]
        if (planner[FNR] < $12) $12 = planner[FNR]
        printf "%-9s %3d %2d %5d %4d %7d %6.1f %11.2f %11.2f %6.2f %8.3f %11.2f %9.2f\n",
            $1, $2, $3, $4, $5, $6, $7, $8, $9, $8 / $9, $11, $12, $8 / $12
    }' "$out/plain-first" "$out/archive-first"
