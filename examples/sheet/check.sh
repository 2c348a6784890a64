#!/usr/bin/env bash
# Holds the sheet builder to its stored sheets, also where it has little room or none for working words, and to saying
# so where it cannot give one; and sees that a wrong bound, or a wrong way out of little room, would show on a stored
# sheet: bash examples/sheet/check.sh
set -u
. -- "$(dirname -- "$0")/../../scripts/root.sh" || exit 1

example=sheet
. examples/common.sh
. scripts/build.sh
build_archive || exit 1

hold_cases

# ---- little room, and none: the dull engine plans, and the sheets stay the same
# hold_room NAME FLAG..: the whole list by a host that is built with the flags. Where cases/NAME has a sheet, the set
# has too many plans for the dull engine, and that sheet, with the words of 11, stands in for the one in cases/.
hold_room() {
    local all=$cases program=$out/$1
    local cases=$out/$1.cases
    rm -rf "$cases"
    mkdir -p "$cases" && cp "$all"/*.* "$cases" && cp "$all/$1"/*.* "$cases" || exit 1
    awk '!seen[$1]++' "$all/$1/list" "$all/list" >"$cases/list" || exit 1
    cc -Wall -Wextra -O2 "${@:2}" examples/sheet/sheet.c "$archive" -o "$program" || exit 1
    hold_cases
}
echo 'void *__wrap_malloc(unsigned long size) { (void)size; return 0; }' >"$out/wrap.c"
little=-DMOST_WORK=1000
hold_room small "$little"
hold_room no-memory -Wl,--wrap=malloc "$out/wrap.c"

# ---- no sheet: status 2, and a word on standard error
full() { "$program" 1000 <"$cases/$1.in" >/dev/full; }
closed() { "$program" 1000 <"$cases/$1.in" >&-; }
no_numbers() { echo "100 0 three" | "$program" 1000; }
no_tick() { "$program" 0 <"$cases/s.in"; }
for name in s refused-7; do
    gives_up "$name on a full disk" "the sheet cannot be written" full "$name"
    gives_up "$name with no standard output" "the sheet cannot be written" closed "$name"
done
gives_up "input that is no list" "standard input has something other than numbers" no_numbers
gives_up "a tick of 0" "the tick is a number" no_tick

# ---- a wrong bound shows on a stored sheet
# plant NAME OLD NEW FLAG..: replaces the one place where sheet.c has OLD, and builds it with the flags. Some sheet must
# then depart whose name fits `among`.
shown=0
plant() {
    local text rest name status tick
    text=$(sed 's|"\.\./\.\./include/|"|' examples/sheet/sheet.c)
    rest=${text#*"$2"}
    if [ "$rest" = "$text" ] || [ "${rest#*"$2"}" != "$rest" ]; then
        fail "$1: there is not one place in sheet.c with: $2"
        return
    fi
    printf '%s\n' "${text/"$2"/"$3"}" >"$out/planted.c"
    cc -w -Iinclude "${@:4}" "$out/planted.c" "$archive" -o "$out/planted" || exit 1
    while read -r name status tick; do
        [[ $name =~ $among ]] || continue
        if ! "$out/planted" "$tick" <"$cases/$name.in" 2>/dev/null | cmp -s - "$cases/$name.out"; then
            shown=$((shown + 1))
            return
        fi
    done <"$cases/list"
    fail "$1: no stored sheet shows it"
}
among='^(s$|s-|bound-)'
plant margin-of-unit-less-2 'tasks() * (unit - 1)' 'tasks() * (unit - 2)'
plant margin-of-one-task 'tasks() * (unit - 1)' '(unit - 1)'
plant margin-of-whole-units 'tasks() * (unit - 1)' 'tasks() * unit'
plant slack-of-the-least 'set[0] / (1000 + set[0])' 'set[0] / 1000'
plant slack-rounded-up 'energy * set[0] / (1000 + set[0])' 'scaled(energy, set[0], 1000 + set[0])'
plant slack-of-jobs-alone 'energy * set[0] / (1000 + set[0])' \
    '(set[1] == 0 ? energy : jobs_energy(task(1)[0])) * set[0] / (1000 + set[0])'
plant larger-of-the-two 'margin(unit) <= allowance(energy) ?' 'margin(unit) > allowance(energy) ?'
plant margin-alone 'margin(unit) <= allowance(energy) ?' '1 ?'
plant slack-alone 'margin(unit) <= allowance(energy) ?' '0 ?'
plant least-at-unit-2 'if (unit == 1)' 'if (unit <= 2)'
plant least-of-equal-energies 'if (unit == 1)' 'if (above == 0 || set[set_len - 1] == set[set_len - 2])'
plant least-never 'if (unit == 1)' 'if (0)'
plant per-cent-rounded-down 'scaled(above, 10000, energy - above)' 'above * 10000 / (energy - above)'
plant per-cent-of-the-energy 'scaled(above, 10000, energy - above)' 'scaled(above, 10000, energy)'
plant slack-named-where-equal 'above == margin(unit)' 'above < allowance(energy)'

bounds=$shown

# ---- so does a wrong way out of little room
shown=0
plant_small() {
    local cases=$out/small.cases among='-plans$'
    plant "$@" "$little"
}
plant_small no-dull-engine \
    'return seedspell_plan_dull(set, set_len, plan, MOST_TASKS, results, SEEDSPELL_RESULT_BYTES)' 'return returned'
plant_small room-not-looked-at 'if (needed <= MOST_WORK)' 'if (1)'
plant_small need-not-kept 'needed = SEEDSPELL_SECOND(returned)' 'size_t needed = SEEDSPELL_SECOND(returned)'

hold_run s 1000

echo "examples/sheet: $held sheets as stored, $bounds wrong bounds and $shown wrong ways out shown by them"
[ "$failures" -eq 0 ]
