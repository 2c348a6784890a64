#!/usr/bin/env bash
# Holds the program to what is stored of the texts that name a chip, and the two examples among them to their lists and
# sheets: bash examples/chips/check.sh
set -u
. -- "$(dirname -- "$0")/../../scripts/root.sh" || exit 1

example=chips
. examples/common.sh
. scripts/build.sh
build_program || exit 1
bash examples/build.sh sheet || exit 1
program=./plan

hold_cases

# list_of TEXT: the list that a text with a chip stands for, worked out once more from the tables, as the sheet builder
# reads it.
list_of() {
    awk '
        BEGIN {
            megahertz["xscale"] = "150 400 600 800 1000"
            milliwatts["xscale"] = "80 170 400 900 1600"
            own["xscale"] = 40
            megahertz["ppc405lp"] = "33 100 266 333"
            milliwatts["ppc405lp"] = "19 72 600 750"
            own["ppc405lp"] = 12
            idle = -1
        }
        { gsub(/[()]/, "") }
        $1 == "slack" { slack = $2 }
        $1 == "idle" { idle = $2 }
        $1 == "chip" {
            rates = split(megahertz[$2], mhz)
            split(milliwatts[$2], mw)
            if (idle < 0)
                idle = own[$2]
        }
        $1 == "task" {
            tasks++
            lines = lines $3 " " $5 " " ($6 == "from" ? $7 : 0)
            for (r = 1; r <= rates; r++)
                lines = lines " " mw[r] * int(($5 + mhz[r] * 1000 - 1) / (mhz[r] * 1000))
            lines = lines "\n"
        }
        END {
            printf "%s %s\n%d", slack, idle, rates
            for (r = 1; r <= rates; r++)
                printf " %d", mhz[r] * 1000
            printf "\n%d\n%s", tasks, lines
        }' "$1"
}

# text_of LIST: the list as a text with its idle energy, rates and energies.
text_of() {
    awk '
        NR == 1 { print "(slack " $1 ")" }
        NR == 1 && $2 > 0 { print "(idle " $2 ")" }
        NR == 2 { sub(/^[0-9]+/, ""); print "(rates" $0 ")" }
        NR > 3 {
            front = "(task (period " $1 ") (cycles " $2 ") (energy"
            end = $3 > 0 ? ") (from " $3 "))" : "))"
            sub(/^[0-9]+ [0-9]+ [0-9]+/, "")
            print front $0 end
        }' "$1"
}

# lines_of SHEET: what the program prints, put together from a sheet.
lines_of() {
    awk '
        /^ +[0-9]+ +[0-9]+ +[0-9]+ +[0-9]+$/ { rates = rates "(rate " $1 " " $2 ")\n" }
        /^hyper-period/ { gsub(/[^0-9 ]/, ""); span = $1; load = busy = $2; idle = $3; preempted = $4 }
        /^walked/ { gsub(/[^0-9 ]/, ""); busy = $2; idle = $3; preempted = $4 }
        /^unit/ { unit = $2 }
        /^energy/ { energy = $2 }
        END {
            printf "(plan (unit %s) (load %s %s) (energy %s))\n", unit, load, span, energy
            printf "%s(walk (busy %s) (idle %s) (preempted %s))\n", rates, busy, idle, preempted
        }' "$1"
}

# hold_sheet NAME LIST: on the list's sheet stands what the program prints for the text of that name.
hold_sheet() {
    target/examples/sheet 1000 <"$2" >"$out/$1.sheet" || fail "the sheet of $1 ends with $?"
    lines_of "$out/$1.sheet" | diff "$cases/$1.out" - >&2 || fail "the sheet of $1 has another plan"
}

# ---- the list of each text is the one that has a stored sheet; with its rates and energies, and on the sheet, it has
# the same plan
for chip in xscale ppc405lp; do
    list=examples/sheet/cases/chip-$chip.in
    list_of "examples/chips/$chip.text" | diff "$list" - >&2 || fail "$list is not the list of $chip.text"
    text_of "$list" >"$out/$chip-given.text"
    ./plan "$out/$chip-given.text" | diff "$cases/$chip.out" - >&2 ||
        fail "$chip.text with its rates and energies has another plan"
    # An idle line overrides the chip's own energy, and an idle line of 0 is as none where there are rates.
    sed '1a (idle 0)' "examples/chips/$chip.text" >"$out/$chip-none.text"
    list_of "$out/$chip-none.text" >"$out/$chip-none.list"
    text_of "$out/$chip-none.list" >"$out/$chip-none-given.text"
    sed '1a (idle 0)' "$out/$chip-none-given.text" >"$out/$chip-zero-given.text"
    for text in none none-given zero-given; do
        ./plan "$out/$chip-$text.text" | diff "$cases/$chip-idle-0.out" - >&2 ||
            fail "$chip.text with an idle energy of 0 has another plan as $chip-$text.text"
    done
    hold_sheet "$chip" "$list"
done
# The same with first releases, of which the sheet's walk goes to two hyper-periods.
list=examples/sheet/cases/chip-xscale-from.in
list_of "$cases/xscale-from.in" | diff "$list" - >&2 || fail "$list is not the list of xscale-from.in"
text_of "$list" >"$out/xscale-from-given.text"
./plan "$out/xscale-from-given.text" | diff "$cases/xscale-from.out" - >&2 ||
    fail "xscale-from.in with its rates and energies has another plan"
hold_sheet xscale-from "$list"

echo "examples/chips: $held texts as stored, $failures departures"
[ "$failures" -eq 0 ]
