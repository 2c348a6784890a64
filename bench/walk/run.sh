#!/usr/bin/env bash
# Times the archive's walk beside two in plain C, tick by tick and from event to event:
#     bash bench/walk/run.sh [REPETITIONS]
#     bash bench/walk/run.sh --generated SEED N [REPETITIONS]
# The first times the cases of bench.c, and some sets of the archive's generator. The second times one set alone, which
# the generator makes of SEED and N, under the archive's plan for it, so that two people can time the same work; where
# it has no plan, it says so and times nothing.
# All are first held to equal results. Then prints a line a case, see bench.c. The walk with first releases and a last
# tick of its own is no entry of the product's archive, so an archive of entries/ is built beside it. With SELFTEST=1 in
# the environment nothing is proved or built with rt: plain calls take the archives' place, which tries the harness.
set -eu
. -- "$(dirname -- "$0")/../../scripts/root.sh" || exit 1

. bench/common.sh
need gcc "the C compiler"

out=target/bench/walk
mkdir -p "$out"
# The plain walks get the compiler's best; what is around them is not timed.
gcc -Wall -Wextra -O3 -c bench/walk/walk.c -o "$out/walk.o"
gcc -Wall -Wextra -O3 -c bench/walk/events.c -o "$out/events.o"
gcc -Wall -Wextra -O2 -c bench/walk/bench.c -o "$out/bench.o"
gcc -Wall -Wextra -O2 -c bench/generated.c -o "$out/generated.o"

if [ -n "${SELFTEST:-}" ]; then
    echo "bench: no archive; plain calls stand for it"
    gcc -Wall -Wextra -O3 -c bench/walk/standin.c -o "$out/standin.o"
    gcc -Wall -Wextra -O3 -Devent_walk=standin_walk -c bench/walk/events.c -o "$out/copy.o"
    gcc -Wall -Wextra -O2 -DPLANNER=seedspell_plan -c bench/planner/plan.c -o "$out/plan.o"
    gcc -Wall -Wextra -O2 -c bench/planner/generator.c -o "$out/generator.o"
    archives=("$out/standin.o" "$out/copy.o" "$out/plan.o" "$out/generator.o")
else
    build_archive
    archives=("$archive")
    build_entries walk
    archives+=("$archive")
fi
gcc "$out/bench.o" "$out/generated.o" "$out/walk.o" "$out/events.o" "${archives[@]}" -o "$out/bench"
"$out/bench" "$@"
