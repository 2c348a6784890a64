#!/usr/bin/env bash
# Prints the words of a generated set, and builds the program first where that is needed:
#     bash examples/generate/run.sh SEED N
# generate.c says more, and how it ends. Where it cannot be built the run ends with 2.
set -u
. -- "$(dirname -- "$0")/../../scripts/root.sh" || exit 2

bash examples/build.sh generate </dev/null >&2 || exit 2
exec target/examples/generate "$@"
