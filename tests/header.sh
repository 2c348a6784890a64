#!/usr/bin/env bash
# Holds include/seedspell.h and the archive to what docs/CALLS.md says of them: bash tests/header.sh
# A program that makes every call (tests/c/header.c) compiles without a warning, as C99 and, where there is a C++
# compiler, as C++11. With the archive it links, position independent and not, and finds each refusal under its name.
# Another (tests/returned.c) has seedspell_ok and its neighbours: what a call returned is asked for in 64 bits alone,
# and a call whose result is not used gets a warning; where there is clang, by clang too. The archive has no data that
# calls could share, goes into a shared object, and needs memset alone.
set -eu
. -- "$(dirname -- "$0")/../scripts/root.sh" || exit 1

. scripts/build.sh
build_archive
out=target/tests/header
mkdir -p "$out"
fail() {
    echo "tests/header: $*" >&2
    exit 1
}

languages="C99"
cc -std=c99 -Wall -Wextra -pedantic -Werror -c tests/c/header.c -fPIE -o "$out/c.o"
cc -std=c99 -Wall -Wextra -pedantic -Werror -c tests/c/header.c -fno-pie -o "$out/c-fixed.o"
cc -pie "$out/c.o" "$archive" -o "$out/c"
cc -no-pie "$out/c-fixed.o" "$archive" -o "$out/c-fixed"
for name in c c-fixed; do
    "$out/$name" || fail "in C, a refusal is not the one that its name says"
done
if command -v c++ >/dev/null 2>&1; then
    languages="$languages and C++11"
    c++ -x c++ -std=c++11 -Wall -Wextra -Wpedantic -Wold-style-cast -Werror -c tests/c/header.c -o "$out/cxx.o"
    c++ "$out/cxx.o" "$archive" -o "$out/cxx"
    "$out/cxx" || fail "in C++, a refusal is not the one that its name says"
fi

# compiles FLAG..: whether tests/returned.c does, by the compiler of the turn and in its language.
compiles() {
    "${compiler[@]}" "$@" -c tests/returned.c -o "$out/returned.o" >"$out/returned.log" 2>&1
}
# takes FLAG..: it compiles.
takes() {
    compiles "$@" || fail "${compiler[*]}: tests/returned.c with $*: $(cat "$out/returned.log")"
}
# refuses WHY FLAG..: it does not compile, and the compiler says WHY.
refuses() {
    ! compiles "${@:2}" || fail "${compiler[*]}: tests/returned.c compiles with ${*:2}"
    grep -q "$1" "$out/returned.log" || fail "${compiler[*]}: with ${*:2}, not for '$1': $(cat "$out/returned.log")"
}
turns=0
while read -ra compiler; do
    command -v "${compiler[0]}" >/dev/null 2>&1 || continue
    turns=$((turns + 1))
    takes -Wall -Wextra -pedantic -Werror
    "${compiler[0]}" "$out/returned.o" "$archive" -o "$out/returned"
    "$out/returned" || fail "${compiler[*]}: tests/returned.c finds another answer"
    # With no warning at all, too: of a number that is not kept in 64 bits nothing is asked.
    for asked in seedspell_ok SEEDSPELL_REFUSAL SEEDSPELL_SECOND; do
        for kept in uint64_t "unsigned long long" int64_t; do
            takes -w "-DASKED=$asked" "-DKEPT=$kept"
        done
        for kept in int unsigned uint32_t char; do
            refuses "negative\|64 bits" -w "-DASKED=$asked" "-DKEPT=$kept"
        done
    done
    for call in 'seedspell_plan(set, WORDS, plan, 2, work, WORK, results, sizeof results)' \
        'seedspell_plan_dull(set, WORDS, plan, 2, results, sizeof results)' \
        'seedspell_walk(set, WORDS, plan, 2, results, sizeof results)' \
        'seedspell_generate(0, 2, generated, GENERATED_9, results, sizeof results)'; do
        takes -Wno-unused-result "-DUNUSED=$call"
        refuses unused-result -Werror "-DUNUSED=$call"
    done
done <<'END'
cc -std=c99
cc -std=c11
c++ -x c++ -std=c++11
c++ -x c++ -std=c++17
clang -std=c99
clang++ -x c++ -std=c++11
clang++ -x c++ -std=c++17
END
[ "$turns" -gt 0 ] || fail "no compiler has tried tests/returned.c"

cc -shared -Wl,-z,text -Wl,--whole-archive "$archive" -Wl,--no-whole-archive -o "$out/libseedspell.so"
written=$(size "$archive" | awk 'NR > 1 { bytes += $2 + $3 } END { print bytes + 0 }')
[ "$written" -eq 0 ] || fail "the archive has $written bytes of data that calls could share"
# docs/CALLS.md has each refusal's name beside its number.
names=0
while read -r name number; do
    grep -q "^\*\*$number \`$name\`\*\*: " docs/CALLS.md || fail "docs/CALLS.md does not name refusal $number $name"
    names=$((names + 1))
done < <(sed -n 's/^#define SEEDSPELL_REFUSED_\([A-Z_]*\) \([0-9]*\) .*/\1 \2/p' include/seedspell.h)
[ "$names" -eq 11 ] || fail "the header has $names names of refusals"
needed=$(nm -u "$archive" | sed -n 's/^ *U //p' | sort | tr '\n' ' ')
[ "$needed" = "memset " ] || fail "the archive needs: $needed"
echo "include/seedspell.h: as docs/CALLS.md says, in $languages"
