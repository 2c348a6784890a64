#!/usr/bin/env bash
# Holds every C example of docs/CALLS.md to what it says that the example prints. An example is a block of C, and a
# whole program: each is taken from the page as it stands, compiled by itself as C99 without a warning, linked with the
# archive, and run. What it prints stands behind it: 'It prints `LINE`', or 'It prints' and the lines, indented. Each
# call that the header declares has an example.
set -eu
. -- "$(dirname -- "$0")/../scripts/root.sh" || exit 1

. scripts/build.sh
build_archive
page=docs/CALLS.md
out=target/tests/calls
rm -rf "$out"
mkdir -p "$out"
fail() {
    echo "tests/calls_examples: $*" >&2
    exit 1
}

# Of example n: n.c, and n.wanted.
awk -v out="$out" '
    /^```c$/ { n++; on = 1; lines = 0; said = 0; next }
    /^```$/ { on = 0; next }
    on { print > (out "/" n ".c"); next }
    n == 0 || said { next }
    match($0, /^It prints `[^`]*`/) { print substr($0, 12, RLENGTH - 12) > (out "/" n ".wanted"); said = 1; next }
    /^It prints$/ { lines = 1; next }
    lines && /^    / { print substr($0, 5) > (out "/" n ".wanted"); lines = 2; next }
    lines == 2 { said = 1 }
' "$page"
[ "$(grep -c '^```' "$page")" -eq $((2 * $(grep -c '^```c$' "$page"))) ] || fail "$page has a block that is not C"

n=1
while [ -e "$out/$n.c" ]; do
    [ -s "$out/$n.wanted" ] || fail "$page does not say what its example $n prints"
    cc -std=c99 -Wall -Wextra -pedantic -Werror -Iinclude "$out/$n.c" "$archive" -o "$out/$n" ||
        fail "example $n of $page does not compile by itself"
    "$out/$n" >"$out/$n.printed" || fail "example $n of $page ends with $?"
    diff "$out/$n.wanted" "$out/$n.printed" >&2 || fail "example $n of $page does not print what it says"
    n=$((n + 1))
done
calls=0
while read -r call; do
    grep -q "= $call(" "$out"/*.c || fail "$page has no example of $call"
    calls=$((calls + 1))
done < <(sed -n 's/^uint64_t \(seedspell_[a-z_]*\)(.*/\1/p' include/seedspell.h)
[ "$calls" -gt 0 ] || fail "include/seedspell.h declares no call that this script can find"
echo "$page: all $((n - 1)) examples, of $calls calls, print what it says"
