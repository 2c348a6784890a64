# shellcheck shell=bash
# What the benchmarks share; sourced from the repository's root. Each takes --once in the place of its repetitions, or
# of its sets: it then compares all that it compares before timing, and times as little as it can; walk and dull leave
# out what takes long. That tries a bench, and its times say nothing. bench/check.sh runs all of them so.

. scripts/build.sh # build_archive, which builds the archive for C and sets `archive` to its place

# need COMMAND WHAT: ends the run where a command is missing.
need() {
    if ! command -v "$1" >/dev/null 2>&1; then
        echo "bench: $1, $2, is not on the PATH" >&2
        exit 1
    fi
}

# build_entries NAME: builds an archive of entries that the product's has not, for the benchmark of that name, unless it
# is up to date, and sets `archive` to where it is. bench/NAME/entries.txt is its line of crates.txt, and
# bench/NAME/entries its crate; those files end in .in, since rt refuses Rattle files that no crate of the repository
# has. So it is built outside the repository too, in a copy of the crates. What it builds on is proved here, and taken
# over there, not proved again.
build_entries() {
    local name=$1 line crate uses used tree part file
    line=$(cat "bench/$name/entries.txt")
    crate=${line%% *} uses=${line#*:}
    archive=target/bench/$name/lib$crate.a
    ! is_built "$archive" bench/common.sh "bench/$name/entries.txt" "bench/$name/entries" || return 0
    need rt "the command of the Rattle kit, which builds the archive"
    mkdir -p "target/bench/$name"
    touch "target/bench/$name/began"
    for used in $uses; do
        (cd "crates/$used" && rt lib) </dev/null
    done
    (
        tree=$(mktemp -d)
        trap 'rm -rf -- "$tree"' EXIT
        for part in crates/*/src crates/*/specs crates/*/proofs crates/*/out/rlib; do
            mkdir -p "$tree/${part%/*}"
            cp -R "$part" "$tree/$part"
        done
        cp -R "bench/$name/entries" "$tree/crates/$crate"
        find "$tree/crates/$crate" -name '*.in' | while IFS= read -r file; do
            mv "$file" "${file%.in}"
        done
        { cat crates.txt && echo "$line"; } >"$tree/crates.txt"
        (cd "$tree/crates/$crate" && rt lib) </dev/null
        cp "$tree/crates/$crate/out/lib$crate.a" "$archive"
    )
    touch -r "target/bench/$name/began" "$archive"
}
