#!/usr/bin/env bash
# Builds the C test over the archive for C, and runs it: bash tests/c/run.sh [SEED [RANDOM SETS]]
# With VALGRIND=1 in the environment it runs under valgrind, where also reading outside the lent lists is seen; this
# takes minutes.
set -eu
. -- "$(dirname -- "$0")/../../scripts/root.sh" || exit 1

. scripts/build.sh
build_archive
out=target/tests/c
mkdir -p "$out"

if [ -n "${VALGRIND:-}" ]; then
    cc -Wall -Wextra -O2 -g -DWITH_VALGRIND tests/c/calls.c tests/c/sets.c tests/c/least.c tests/c/reference.c "$archive" -o "$out/calls-valgrind"
    exec valgrind --error-exitcode=1 "$out/calls-valgrind" "$@"
fi
cc -Wall -Wextra -O2 tests/c/calls.c tests/c/sets.c tests/c/least.c tests/c/reference.c "$archive" -o "$out/calls"
exec "$out/calls" "$@"
