#!/usr/bin/env bash
# Tries every bench: builds it and runs it by --once, in which all that is compared before timing is compared and no
# time is judged: bash bench/check.sh
# What each run prints stays in target/bench/once. One that takes over five minutes is ended, and has failed; what it
# links with is built before, and takes the time that proving takes. Where python3 or glpsol is missing, the runs that
# need it are left out, and it says so.
set -u
. -- "$(dirname -- "$0")/../scripts/root.sh" || exit 1

. bench/common.sh
need gcc "the C compiler"

out=target/bench/once
rm -rf "$out"
mkdir -p "$out" || exit 1
runs=0
left=0
failures=0

# ---- the archives
build_archive || exit 1
for entries in bench/*/entries.txt; do
    name=${entries#*/}
    name=${name%/*}
    # (as a condition it would not end at the first thing that fails)
    (set -e; build_entries "$name") >"$out/$name-entries" 2>&1
    if [ $? -ne 0 ]; then
        echo "bench: the entries of $name are not built; the last of what rt said, which is in $out/$name-entries:" >&2
        tail -n 8 "$out/$name-entries" >&2
        failures=$((failures + 1))
    fi
done

# ---- the runs

# try NAME [OPTION]: runs a bench, with an option of its own.
try() {
    local run=$1${2:+ $2} log=$out/$1${2:-} began=$SECONDS status=0
    timeout 300 bash "bench/$1/run.sh" ${2:+"$2"} --once </dev/null >"$log" 2>&1 || status=$?
    runs=$((runs + 1))
    if [ "$status" -eq 0 ] && [ -s "$log" ]; then
        echo "bench: $run runs, $((SECONDS - began)) s"
    else
        echo "bench: $run ends with $status; the last of what it printed, which is in $log:" >&2
        tail -n 8 "$log" >&2
        failures=$((failures + 1))
    fi
}

# has COMMAND RUN: whether that is there for it.
has() {
    command -v "$1" >/dev/null 2>&1 && return
    echo "bench: $1 is not on the PATH; $2 is left out" >&2
    left=$((left + 1))
    return 1
}

for script in bench/*/run.sh; do
    name=${script#*/}
    name=${name%/*}
    case $name in
    energy)
        if has python3 "energy, in all three ways,"; then
            try energy --idle
            try energy --margin
            has glpsol "energy beside the solver" && try energy
        fi
        ;;
    planner) has python3 planner && try planner ;;
    *) try "$name" ;;
    esac
done

echo "bench: $runs runs, $failures failed, $left left out"
[ "$runs" -gt 0 ] && [ "$failures" -eq 0 ]
