# shellcheck shell=bash
# What the checks of the examples share: builds the one that `example` names, and has what holds it to its cases; where
# it has no program of its own, the check then sets `program`. Sourced in the repository's root. cases/list has a line a
# case: its name, the status that the run ends with, and the arguments. NAME.in is the input, NAME.out all that is
# printed, NAME.err all that standard error says; where one of these is not there, nothing.

program=target/examples/${example:?}
cases=examples/$example/cases
out=target/examples/cases/$example
held=0
failures=0
[ ! -f "examples/$example/$example.c" ] || bash examples/build.sh "$example" || exit 1
mkdir -p "$out" || exit 1

fail() {
    echo "examples/$example: $*" >&2
    failures=$((failures + 1))
}

# stored NAME.KIND: the file of a case.
stored() {
    if [ -e "$cases/$1" ]; then echo "$cases/$1"; else echo /dev/null; fi
}

# hold_case NAME STATUS ARGUMENT..: counts it in `held` where all is as stored.
hold_case() {
    local name=$1 wanted=$2 status=0
    shift 2
    "$program" "$@" <"$(stored "$name.in")" >"$out/$name.out" 2>"$out/$name.err" || status=$?
    if [ "$status" -ne "$wanted" ]; then
        fail "$name ends with $status and not with $wanted: $(cat "$out/$name.err")"
    elif ! { diff "$(stored "$name.out")" "$out/$name.out" && diff "$(stored "$name.err")" "$out/$name.err"; } >&2; then
        fail "$name is not as stored in $cases"
    else
        held=$((held + 1))
    fi
}

# hold_cases: every line of the list, and no stored file without one.
hold_cases() {
    local line file name
    while read -ra line; do
        hold_case "${line[@]}"
    done <"$cases/list"
    [ "$held" -gt 0 ] || fail "no case is as stored"
    for file in "$cases"/*.*; do
        name=$(basename "${file%.*}")
        grep -q "^$name " "$cases/list" || fail "$file is not in $cases/list"
    done
}

# gives_up NAME WORDS COMMAND..: it ends with 2 and prints nothing, and what it says begins with `EXAMPLE: WORDS`.
gives_up() {
    local name=$1 words=$2 said status=0
    shift 2
    "$@" >"$out/printed" 2>"$out/said" || status=$?
    said=$(cat "$out/said")
    [ "$status" -eq 2 ] || fail "$name: ends with $status and not with 2"
    [ ! -s "$out/printed" ] || fail "$name: prints something"
    [[ $said == "$example: $words"* ]] || fail "$name: says '$said' and not '$example: $words'"
}

# hold_run NAME ARGUMENT..: run.sh builds a program again that is older than its source, by two runs at once too.
hold_run() {
    local name=$1 k
    shift
    touch -d @1 "$program" || exit 1
    for k in 1 2; do
        bash "examples/$example/run.sh" "$@" <"$(stored "$name.in")" >"$out/run-$k.out" &
    done
    wait
    for k in 1 2; do
        diff "$(stored "$name.out")" "$out/run-$k.out" >&2 || fail "run.sh, one of two at once, departs from $name.out"
    done
    [ "$program" -nt "examples/$example/$example.c" ] || fail "run.sh runs a program that is older than its source"
}
