#!/usr/bin/env bash
# Times the archive's planner beside the same planner in plain C:
#     bash bench/planner/run.sh [REPETITIONS [SEED]]
#     bash bench/planner/run.sh --generated SEED N [REPETITIONS]
# The first times the cases of bench.c, whose random sets are of SEED, and some sets of the archive's generator. The
# second times one set alone, the one that the generator makes of SEED and N, so that two people can time the same work;
# where it has no plan, it says so and times nothing.
# Before that both planners answer the stored planner records and some random sets, and are held to the answers of
# tests/reference.py. Then prints a line a case, see bench.c. With SELFTEST=1 in the environment nothing is proved or
# built with rt: a second copy of the plain planner takes the archive's place, and a plain generator, which tries the
# harness and the plain planner.
set -eu
. -- "$(dirname -- "$0")/../../scripts/root.sh" || exit 1

. bench/common.sh
need gcc "the C compiler"
need python3 "which runs the reference"

out=target/bench/planner
mkdir -p "$out"
# The plain planner gets the compiler's best; what is around the two is not timed.
gcc -Wall -Wextra -O3 -c bench/planner/plan.c -o "$out/plan.o"
gcc -Wall -Wextra -O3 -DPLANNER=seedspell_plan -c bench/planner/plan.c -o "$out/copy.o"
gcc -Wall -Wextra -O2 -c bench/planner/bench.c -o "$out/bench.o"
gcc -Wall -Wextra -O2 -c bench/generated.c -o "$out/generated.o"
gcc -Wall -Wextra -O2 -c bench/planner/records.c -o "$out/records.o"

if [ -n "${SELFTEST:-}" ]; then
    echo "bench: no archive; a copy of the plain planner and a plain generator stand for it"
    gcc -Wall -Wextra -O2 -c bench/planner/generator.c -o "$out/generator.o"
    archive=$out/standin.a
    rm -f "$archive"
    ar cr "$archive" "$out/copy.o" "$out/generator.o"
else
    build_archive
fi

# The stored records: those of the planner, and their answers.
awk 'NR == FNR { planner[FNR] = /^p /; next } planner[FNR]' crates/cases/stdin crates/cases/stdout >"$out/wanted"
if [ ! -s "$out/wanted" ]; then
    echo "bench: crates/cases/stdin has no planner records" >&2
    exit 1
fi
# answers NAME OBJECT: holds a planner to them.
answers() {
    gcc "$out/records.o" "$2" -o "$out/records-$1"
    if ! "$out/records-$1" <crates/cases/stdin >"$out/answers-$1" || ! cmp "$out/answers-$1" "$out/wanted" >&2; then
        echo "bench: the $1 planner departs from the stored answers: see $out/answers-$1 and $out/wanted" >&2
        exit 1
    fi
    echo "$1: $(wc -l <"$out/wanted") stored records answered as stored"
    python3 bench/planner/compare.py "$out/records-$1" 200
}
answers plain "$out/copy.o"
answers archive "$archive"

gcc "$out/bench.o" "$out/generated.o" "$out/plan.o" "$archive" -o "$out/bench"
"$out/bench" "$@"
