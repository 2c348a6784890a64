#!/usr/bin/env bash
# Times the reader and the writer of the bracketed text beside the same in plain C:
#     bash bench/text/run.sh [REPETITIONS [SEED]]
# Both are first held to equal answers. Then prints a line a case, see bench.c. The reader and the writer are no entries
# of the product's archive, so an archive of entries/ is built. With SELFTEST=1 in the environment nothing is proved or
# built with rt: a second copy of the plain calls takes the archive's place, which tries the harness.
set -eu
. -- "$(dirname -- "$0")/../../scripts/root.sh" || exit 1

. bench/common.sh
need gcc "the C compiler"

out=target/bench/text
mkdir -p "$out"
# The plain calls get the compiler's best; what is around the two is not timed.
gcc -Wall -Wextra -O3 -c bench/text/text.c -o "$out/text.o"
gcc -Wall -Wextra -O3 -DREADER=bench_read -DWRITER=bench_write -c bench/text/text.c -o "$out/copy.o"
gcc -Wall -Wextra -O2 -c bench/text/bench.c -o "$out/bench.o"

if [ -n "${SELFTEST:-}" ]; then
    echo "bench: no archive; a copy of the plain calls stands for it"
    archive=$out/copy.o
else
    build_entries text
fi
gcc "$out/bench.o" "$out/text.o" "$archive" -o "$out/bench"
"$out/bench" "$@"
