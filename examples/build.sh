#!/usr/bin/env bash
# Builds an example, target/examples/NAME of examples/NAME/NAME.c, and before it the archive for C; each unless it is
# there and nothing that it is made of has changed since. Several of these at once do not disturb each other:
#     bash examples/build.sh NAME
set -u
. -- "$(dirname -- "$0")/../scripts/root.sh" || exit 1

. scripts/build.sh
if [ $# -ne 1 ] || [ ! -f "examples/$1/$1.c" ]; then
    echo "examples/build.sh: give the name of one example" >&2
    exit 1
fi
program=target/examples/$1
source=examples/$1/$1.c
build_archive || exit 1
up_to_date "$program" "$source" include/seedspell.h "$archive" && exit 0
if ! command -v cc >/dev/null 2>&1; then
    echo "examples/$1: cc, the C compiler, is not on the PATH" >&2
    exit 1
fi
# Made in a folder of its own, then moved to its place at once; with the time at which that began, so that a source that
# changes meanwhile counts as newer.
mkdir -p target/examples || exit 1
new=$(mktemp -d target/examples/new.XXXXXX) || exit 1
trap 'rm -rf "$new"' EXIT
touch "$new/began" &&
    cc -Wall -Wextra -O2 "$source" "$archive" -o "$new/program" &&
    touch -r "$new/began" "$new/program" &&
    mv -f "$new/program" "$program"
