#!/usr/bin/env bash
# Holds ./plan to what its --help says, on a program that is built: bash tests/plan.sh
# Each case has the status that the run ends with, a file with all that it prints, and all that it says on standard
# error. Input comes late and in pieces, output goes slowly or nowhere, and folders, files and the surroundings are odd.
set -u
. -- "$(dirname -- "$0")/../scripts/root.sh" || exit 1

. scripts/build.sh
if ! is_built "$program_place"; then
    echo "tests/plan: the program is not built, or older than its source; ./plan FILE builds it" >&2
    exit 1
fi
# Outside the repository, since some cases need links and a second crates.txt, and rt ci refuses both below its folders.
out=$(mktemp -d) || exit 1
trap 'rm -rf -- "$out"' EXIT
mkdir -p "$out/folder" || exit 1

tried=0
failures=0
fail() {
    echo "tests/plan: $*" >&2
    failures=$((failures + 1))
}
# try NAME STATUS PRINTED SAID COMMAND..
try() {
    local name=$1 wanted=$2 printed=$3 said=$4 status=0
    shift 4
    "$@" >"$out/printed" 2>"$out/said" || status=$?
    tried=$((tried + 1))
    [ "$status" -eq "$wanted" ] || fail "$name ends with $status and not with $wanted"
    diff "$printed" "$out/printed" >&2 || fail "$name prints something else"
    diff <(printf '%s' "$said") "$out/said" >&2 || fail "$name says something else on standard error"
}

text=crates/seedspell/stdin
lines=crates/seedspell/stdout
sed 's/^(slack 100)/(slack 0)/' "$text" >"$out/slack-0"
echo '(refused 2 0)' >"$out/refused"
# refused NUMBER SECOND: a file with that line.
refused() {
    echo "(refused $1 $2)" >"$out/refused-$1-$2"
    echo "$out/refused-$1-$2"
}
cat "$lines" "$out/refused" >"$out/both"
cat "$lines" "$out/refused" "$lines" >"$out/three"
./plan -h >"$out/usage" || fail "-h does not end with 0"
for part in '^Usage: ./plan ' '(refused N K)' 'The first run builds the program' '^Exit status: 0 '; do
    grep -q -e "$part" "$out/usage" || fail "--help does not have: $part"
done
unread='seedspell: standard input cannot be read
'
unwritten='seedspell: the answer cannot be written to standard output
'

try help 0 "$out/usage" '' ./plan "$text" --help
try 'a file' 0 "$lines" '' ./plan "$text"
try 'a file, from another folder' 0 "$lines" '' bash -c 'cd crates/seedspell && ../../plan stdin'
try 'a refusal' 0 "$out/refused" '' ./plan "$out/slack-0"
try 'standard input' 0 "$lines" '' bash -c './plan <"$0"' "$text"
try 'standard input as -' 0 "$lines" '' bash -c './plan - <"$0"' "$text"
try 'two files' 0 "$out/both" "plan: $text:
plan: $out/slack-0:
" ./plan "$text" "$out/slack-0"
try 'two files and standard input' 0 "$out/three" "plan: $text:
plan: $out/slack-0:
plan: -:
" bash -c './plan "$0" "$1" - <"$0"' "$text" "$out/slack-0"
try 'a folder' 1 /dev/null "plan: $out/folder is a folder
" ./plan "$out/folder"
try 'a missing file' 1 /dev/null "plan: there is no $out/none
" ./plan "$out/none"
try 'a folder and a missing file among others' 1 "$out/both" "plan: $out/folder is a folder
plan: there is no $out/none
plan: $text:
plan: $out/slack-0:
" ./plan "$out/folder" "$text" "$out/none" "$out/slack-0"
try 'an unknown option' 1 /dev/null 'plan: there is no option --fast; ./plan --help says what there is
' ./plan "$text" --fast
try 'a folder as standard input' 1 /dev/null "$unread" bash -c './plan <"$0"' "$out/folder"
try 'no room for the answer' 1 /dev/null "$unwritten" bash -c './plan "$0" >/dev/full' "$text"
try 'no standard output' 1 /dev/null "$unwritten" bash -c './plan "$0" >&-' "$text"
try 'no room for several answers' 1 /dev/null "plan: $text:
${unwritten}plan: -:
$unwritten" bash -c './plan "$0" - <"$0" >/dev/full' "$text"

# ---- what is read comes late, in pieces, without an end, or not at all
three_pieces() {
    { sleep 0.3; head -c 20 "$text"; sleep 0.2; tail -c +21 "$text" | head -c 30; sleep 0.2; tail -c +51 "$text"; } |
        ./plan
}
single_bytes() {
    { sleep 0.3; while IFS= read -r -N 1 byte; do printf %s "$byte"; sleep 0.002; done <"$text"; } | ./plan
}
text_and_more() { { cat "$text"; yes 2>/dev/null; } | timeout 60 ./plan; }
long_number() { { printf '(slack 1'; head -c 20000 /dev/zero | tr '\0' 0; } 2>/dev/null | ./plan; }
with_nul() { { head -c 20 "$text"; printf '\0'; tail -c +22 "$text"; } | ./plan; }
no_input() { timeout 60 ./plan <&-; }
length=$(wc -c <"$text")
try 'a text in three pieces' 0 "$lines" '' three_pieces
try 'a text in single bytes' 0 "$lines" '' single_bytes
try 'a text and more than 8,192 bytes' 0 "$(refused 1 "$length")" '' text_and_more
try 'a number of 20,000 digits' 0 "$(refused 1 17)" '' long_number
try 'bytes 0 without an end' 0 "$(refused 1 0)" '' timeout 60 ./plan /dev/zero
try 'a byte 0 in a text' 0 "$(refused 1 20)" '' with_nul
try 'no text' 0 "$(refused 1 0)" '' ./plan /dev/null
try 'no standard input' 1 /dev/null "$unread" no_input

# ---- what is written goes slowly, in part, or nowhere
slow_reader() (
    set -o pipefail
    { head -c 65536 /dev/zero && ./plan "$text"; } | { sleep 0.3; dd bs=1 status=none; } | tail -c +65537
)
no_reader() { ./plan "$@" 3<>"$out/pipe" 4>"$out/pipe" 3>&- >&4 4>&-; }
none_of_errors() { ./plan "$@" 3<>"$out/pipe" 4>"$out/pipe" 3>&- 2>&4 4>&-; }
cut_short() (
    head -c 1000 /dev/zero >"$out/cut"
    ulimit -f 1 # in units of 1,024 bytes
    ./plan "$text" >>"$out/cut"
)
closed() { ./plan "$text" >/dev/full 2>&-; }
full() { ./plan "$text" >/dev/full 2>/dev/full; }
all_closed() { ./plan "$text" <&- >&- 2>&-; }
mkfifo "$out/pipe" || exit 1
try 'a reader that takes single bytes of a full pipe' 0 "$lines" '' slow_reader
try 'a reader that is gone' 1 /dev/null "$unwritten" no_reader "$text"
try 'a reader that is gone, two files' 1 /dev/null "plan: $text:
${unwritten}plan: $out/slack-0:
$unwritten" no_reader "$text" "$out/slack-0"
try 'an answer that is cut short' 1 /dev/null "$unwritten" cut_short
cmp "$out/cut" <(head -c 1000 /dev/zero; head -c 24 "$lines") >&2 || fail "an answer that is cut short is another"
try 'no answer, no standard error' 1 /dev/null '' closed
try 'no answer, no room on standard error' 1 /dev/null '' full
try 'no standard stream at all' 1 /dev/null '' all_closed
try 'no reader of standard error' 1 "$lines" '' none_of_errors "$out/none" "$text"

# ---- no file is written, so that none needs room: with a limit of 0 every write to a file fails, as on a full disk
no_room() (
    set -o pipefail
    trap '' XFSZ
    (ulimit -f 0 && exec ./plan - <"$1") 2>&1 | cat
)
printf %s "$unread" >"$out/unread"
try 'no room for files' 0 "$lines" '' no_room "$text"
try 'no room for files, a folder as standard input' 1 "$out/unread" '' no_room "$out/folder"
try 'no temporary folder' 0 "$lines" '' env TMPDIR="$out/none" ./plan "$text"

# ---- odd names; the odd one has all that a name can have
odd=$'-n it\'s "odd" $(x) * \\\nline\n'
plan=$PWD/plan
cp "$text" "$out/folder/-x" && cp "$text" "$out/folder/$odd" || exit 1
within() (cd -- "$1" && "${@:2}")
behind_none() { ./plan -- <"$text"; }
behind_dash() { ./plan -- - <"$text"; }
try 'a name with a dash, as ./-x' 0 "$lines" '' within "$out/folder" "$plan" ./-x
try 'a name with a dash, behind --' 0 "$lines" '' within "$out/folder" "$plan" -- -x
try '-- and no file' 0 "$lines" '' behind_none
try 'standard input behind --' 0 "$lines" '' behind_dash
try 'no option behind --' 1 "$lines" "plan: there is no --help
plan: $text:
" ./plan -- --help "$text"
try 'an option as a name, without --' 1 /dev/null 'plan: there is no option -x; ./plan --help says what there is
' within "$out/folder" "$plan" -x
try 'an odd name' 0 "$lines" '' within "$out/folder" "$plan" -- "$odd"
try 'an odd name that is missing' 1 /dev/null "plan: there is no $out/$odd
" ./plan "$out/$odd"

# lay_out ROOT: a copy of what ./plan is made of, with the program, which is then newer than its source.
lay_out() {
    local part
    for part in src specs proofs out; do
        mkdir -p "$1/crates/seedspell/$part" || exit 1
    done
    cp -R plan scripts crates.txt "$1" && cp "$text" "$1/crates/seedspell" && cp "$program_place" "$1/$program_place" &&
        touch "$1/$program_place" || exit 1
}
lay_out "$out/$odd"
mkdir -p "$out/elsewhere/$odd/scripts" "$out/elsewhere/scripts" && ln -s -- "$odd" "$out/link" &&
    ln -s -- "$odd/plan" "$out/linked" || exit 1
example=crates/seedspell/stdin
try 'an odd folder' 0 "$lines" '' "$out/$odd/plan" "$text"
try 'in an odd folder' 0 "$lines" '' within "$out/$odd" ./plan "$example"
try 'an odd folder from above' 0 "$lines" '' within "$out" bash -- "$odd/plan" -- "$odd/$example"
try 'a link to an odd folder' 0 "$lines" '' "$out/link/plan" "$text"
try 'a link in another folder' 0 "$lines" '' "$out/linked" "$text"
export CDPATH=$out/elsewhere
try 'CDPATH' 0 "$lines" '' ./plan "$text"
try 'CDPATH and an odd folder from above' 0 "$lines" '' within "$out" bash -- "$odd/plan" -- "$odd/$example"
unset CDPATH

# ---- a program that fails
# stand_in LINE: another program in its place.
lay_out "$out/failing"
stand_in() {
    printf '#!/bin/sh\n%s\n' "$1" >"$out/failing/$program_place"
}
failing() { "$out/failing/plan" "$text"; }
stand_in 'exit 3'
try 'a program that ends with 3' 1 /dev/null 'plan: the program ended with status 3
' failing
stand_in 'printf words >&2'
try 'a program that says something' 1 /dev/null words failing
stand_in 'echo >&2'
try 'a program that says an empty line' 1 /dev/null '
' failing
stand_in 'echo one; echo two >&2; exit 4'
echo one >"$out/one"
try 'a program that prints, says and fails' 1 "$out/one" 'two
plan: the program ended with status 4
' failing
# What bash says of these has numbers of its own.
for line in 'kill -9 $$' 'kill -SEGV $$' 'chmod'; do
    stand_in "$line"
    [ "$line" != chmod ] || chmod -x "$out/failing/$program_place"
    status=0
    failing >"$out/printed" 2>"$out/said" || status=$?
    tried=$((tried + 1))
    if [ "$status" -ne 1 ] || [ -s "$out/printed" ] ||
        ! grep -q '^plan: the program ended with status 1[0-9][0-9]$' "$out/said"; then
        fail "a program that does not end by itself ($line): status $status, and $(cat "$out/said")"
    fi
done

# ---- several at once
for k in 1 2 3 4 5 6; do
    ./plan "$text" "$out/slack-0" >"$out/at-once-$k" 2>&1 &
done
wait
for k in 1 2 3 4 5 6; do
    tried=$((tried + 1))
    diff <(printf '%s\n' "plan: $text:"; cat "$lines"; printf '%s\n' "plan: $out/slack-0:"; cat "$out/refused") \
        "$out/at-once-$k" >&2 || fail "one of six at once prints or says something else"
done

# ---- what the program asks for from outside is what docs/DECISIONS.md names as trusted, with what linking adds
if command -v nm >/dev/null 2>&1; then
    tried=$((tried + 1))
    needed=$(nm -D -u "$program_place" | sed -n 's/^ *U \([^@]*\).*/\1/p' | LC_ALL=C sort | tr '\n' ' ')
    [ "$needed" = "__errno_location __libc_start_main __sysv_signal __write __x86_get_cpuid_feature_leaf memcpy memset read write " ] ||
        fail "the program needs: $needed"
fi

echo "./plan: $tried cases tried, $failures departures"
[ "$failures" -eq 0 ]
