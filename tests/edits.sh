#!/usr/bin/env bash
# Holds each must-fail edit to being refused by what it names: bash tests/edits.sh LOG
# LOG has what `rt ci`, or `rt must-fail`, printed: a line for each edit, also where an earlier run has tried it. The
# first line of an edit is '# refused by: NAME': the lemma, the answer or the goal that fails first under it, or the
# function whose goal that is, or both of these, as FUNCTION.GOAL. An edit that is refused for a name that is missing or
# a text that cannot be read shows nothing, nor does one that rt calls bad. Of one that the prover refuses by a limit of
# its own alone it says so, and holds it to its name where rt gives one.
set -u
. -- "$(dirname -- "$0")/../scripts/root.sh" || exit 1

if [ $# -ne 1 ] || [ ! -r "$1" ]; then
    echo "tests/edits: give the file with what rt ci or rt must-fail printed" >&2
    exit 1
fi
failures=0
fail() {
    printf 'tests/edits: %s\n' "$*" >&2
    failures=$((failures + 1))
}

declare -A said
while IFS= read -r line; do
    [[ $line =~ ^rt:\ must-fail\ ([^ ]+\.edit):\ (.*)$ ]] || continue
    said[${BASH_REMATCH[1]}]=${BASH_REMATCH[2]}
done <"$1"

# function_at CRATE FILE LINE: the function of the crate's source that the line is in, or that it is an attribute of. An
# edit puts one line for one, so that the lines of its text are those of the file as it stands.
function_at() {
    [ -f "crates/$1/$2" ] && awk -v at="$3" '
        FNR == at && /^[ \t]*#\[/ { ahead = 1 }
        !/^[ \t]*\/\// && match($0, /(^|[ \t])fn [A-Za-z0-9_]+/) {
            name = substr($0, RSTART, RLENGTH)
            sub(/.* /, "", name)
            if (ahead) exit
        }
        FNR >= at && !ahead { exit }
        END { print name }' "crates/$1/$2"
}

# is_named NAME CRATE TOLD: whether that is the name of what fails, by what rt has told of it: 160 characters at most, so
# that a long name of a goal can be cut short. Sets `falls` to what it is.
is_named() {
    local name=$1 crate=$2 told=$3 file line what='' goal='' cut='' function=''
    falls=$told
    [[ $told =~ ^(note:\ )?(\./)?([^ :]+):([0-9]+):[0-9]+:\ (.*)$ ]] || return 1
    file=${BASH_REMATCH[3]} line=${BASH_REMATCH[4]} what=${BASH_REMATCH[5]}
    if [[ $what =~ ^error:\ \`([^\`]+)\`: ]]; then
        goal=${BASH_REMATCH[1]}
    elif [[ $what =~ \(\`([^\`]+)\`\) ]]; then
        goal=${BASH_REMATCH[1]}
    elif [ ${#told} -ge 160 ] && [[ $what =~ \(\`([^\`]+)$ ]]; then
        cut=${BASH_REMATCH[1]}
    elif [ ${#told} -lt 160 ] || [[ $what != "it is not proved that "* ]]; then
        return 1
    fi
    case $file in
    src/*) function=$(function_at "$crate" "$file" "$line") ;;
    proofs/*/*) function=${file#proofs/} function=${function%/*} function=${function##*/} ;;
    esac
    falls=${function:+$function.}${goal:-$cut}${cut:+..}
    [ "$name" != "$goal" ] && [ "$name" != "$function" ] && [ "$name" != "$function.$goal" ] || return 0
    [ -n "$cut" ] && { [[ $name == "$cut"* ]] || [[ $name == "$function.$cut"* ]]; }
}

held=0
for edit in crates/*/must-fail/*.edit; do
    [ -f "$edit" ] || continue
    crate=${edit#crates/}
    crate=${crate%%/*}
    result=${said[$crate/${edit##*/}]:-}
    name=$(sed -n '1s/^# refused by: //p' "$edit")
    if [ -z "$name" ]; then
        fail "$edit: its first line is not '# refused by: NAME'"
        continue
    fi
    case $result in
    'refused, as it must be: '*) told=${result#*: } ;;
    'refused, as it must be (only by a limit '*)
        echo "tests/edits: note: $edit is refused only by a limit of the prover" >&2
        told=${result#*\): }
        ;;
    '')
        fail "$edit: rt says nothing of it"
        continue
        ;;
    *)
        fail "$edit is not refused, or says nothing of a contract: ${result:0:300}"
        continue
        ;;
    esac
    if ! is_named "$name" "$crate" "$told"; then
        fail "$edit names $name, and what fails first is $falls"
    elif grep -q -E 'not in scope|can be named from here|has no field|has no `|is no name|was not admitted|expected the end|operand is missing|cannot continue' <<<"$told"; then
        fail "$edit is refused for the text of a proof and not for a fact: $told"
    else
        held=$((held + 1))
    fi
done
echo "must-fail edits: $held refused by what they name, $failures departures"
[ "$failures" -eq 0 ]
