#!/usr/bin/env bash
# Times the greatest common divisor by halving and subtracting, and the checks of a set that use it, beside plain C:
#     bash bench/divisor/run.sh [REPETITIONS [SEED]]
# All are first held to equal answers. Then prints a line a case, see bench.c. Neither is an entry of the product's
# archive, so an archive of entries/ is built; the generated sets are made in plain C. With SELFTEST=1 in the
# environment nothing is proved or built with rt: plain calls take the archive's place, which tries the harness.
set -eu
. -- "$(dirname -- "$0")/../../scripts/root.sh" || exit 1

. bench/common.sh
need gcc "the C compiler"

out=target/bench/divisor
mkdir -p "$out"
# The plain calls get the compiler's best; what is around them is not timed.
gcc -Wall -Wextra -O3 -c bench/divisor/divisor.c -o "$out/divisor.o"
gcc -Wall -Wextra -O2 -c bench/divisor/bench.c -o "$out/bench.o"
gcc -Wall -Wextra -O2 -c bench/generated.c -o "$out/generated.o"
gcc -Wall -Wextra -O2 -c bench/planner/generator.c -o "$out/generator.o"

if [ -n "${SELFTEST:-}" ]; then
    echo "bench: no archive; plain calls stand for it"
    archive=$out/standin.o
    gcc -Wall -Wextra -O3 -c bench/divisor/standin.c -o "$archive"
else
    build_entries divisor
fi
gcc "$out/bench.o" "$out/generated.o" "$out/generator.o" "$out/divisor.o" "$archive" -o "$out/bench"
"$out/bench" "$@"
