#!/usr/bin/env bash
# Runs the sheet builder, and builds it first where that is needed: bash examples/sheet/run.sh TICK <LIST
# TICK is the length of a tick in microseconds; sheet.c says more, and how it ends. Where it cannot be built the run
# ends with 2.
set -u
. -- "$(dirname -- "$0")/../../scripts/root.sh" || exit 2

bash examples/build.sh sheet </dev/null >&2 || exit 2
exec target/examples/sheet "$@"
