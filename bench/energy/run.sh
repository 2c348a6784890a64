#!/usr/bin/env bash
# Energies of the planner's plans beside the least possible, and its time beside a solver's:
#     bash bench/energy/run.sh [SETS [SEED]]
# The sets are those of source document 000's experiments in whole numbers (workload.py). The least energy comes from an
# integer program and glpsol of GLPK, which is not installed from here: Debian and its kin have it as the package
# glpk-utils (apt-get install glpk-utils). Prints two tables, see measure.py.
#     bash bench/energy/run.sh --idle [SETS [SEED]]
# What an idle energy does to the plans, on the same workloads with 0 and with a tenth of the lowest rate's power. The
# least energy comes from a search in whole numbers (optimum.py), so that no solver is needed. Prints two tables, see
# idle.py.
#     bash bench/energy/run.sh --margin [SETS [SEED]]
# How often the unit is 1, so that the plan is the least, and how far margin and slack are above the truth where it is
# not, on the same workloads and on generated sets. No solver is needed. Prints two tables, see margin.py.
# With SELFTEST=1 in the environment nothing is proved or built with rt: the plain planner of bench/planner takes the
# archive's place, which tries the harness.
set -eu
. -- "$(dirname -- "$0")/../../scripts/root.sh" || exit 1

. bench/common.sh
need gcc "the C compiler"
need python3 "which draws the sets"
case ${1:-} in
--idle | --margin) script=${1#--}.py ;;
*)
    script=
    need glpsol "the solver of GLPK, in the Debian package glpk-utils"
    ;;
esac

out=target/bench/energy
mkdir -p "$out"
if [ -n "${SELFTEST:-}" ]; then
    echo "bench: no archive; the plain planner stands for it"
    archive=$out/standin.o
    gcc -Wall -Wextra -O3 -DPLANNER=seedspell_plan -c bench/planner/plan.c -o "$archive"
else
    build_archive
fi
gcc -Wall -Wextra -O2 bench/energy/driver.c "$archive" -o "$out/driver"
if [ -n "$script" ]; then
    shift
    python3 "bench/energy/$script" "$out/driver" "$@"
else
    python3 bench/energy/measure.py "$out/driver" "$out" "$@"
fi
