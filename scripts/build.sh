# shellcheck shell=bash
# Building what is missing or older than its source. Sourced by other scripts; its functions are called in the
# repository's root.

# Where rt leaves the program and the archive for C.
program_place=crates/seedspell/out/seedspell
archive_place=crates/capi/out/libcapi.a

# up_to_date FILE SOURCE..: whether FILE is there, and no source, file or folder, has changed since it was built. What
# counts is when a source was put there, so that a copy that keeps an older time is seen too.
up_to_date() {
    local file=$1
    shift
    [ -s "$file" ] && [ -z "$(find "$@" -cnewer "$file" -print -quit)" ]
}

# is_built FILE [SOURCE..]: whether FILE is up to date with the crates, and with these. What rt leaves in crates/*/out
# is no source, nor is what a program is run on.
is_built() {
    up_to_date "$@" crates.txt crates/*/src crates/*/specs crates/*/proofs
}

# build WHAT FILE CRATE WORD..: has FILE, which is WHAT, made by `rt WORD..` in the folder of CRATE, unless it is up to
# date with the crates. rt proves first what is not proved yet; its progress goes to standard error. Two at once in one
# folder would disturb each other, so the second waits.
build() (
    set +e # each status is looked at here
    say() { echo "${0##*/}: $*" >&2; }
    what=$1 file=$2 crate=$3
    shift 3
    is_built "$file" && exit 0
    command -v rt >/dev/null 2>&1 || {
        say "$what is not built, or older than its source, and rt, the command of the Rattle kit, is not on the PATH"
        exit 1
    }
    mkdir -p target || exit 1
    if command -v flock >/dev/null 2>&1; then
        exec 9>target/build.lock || exit 1
        flock -n 9 || {
            say "waiting for another build to end"
            flock 9
        }
        is_built "$file" && exit 0
    fi
    say "building $what; each crate that it is made of is proved first, unless it was proved before"
    # FILE gets the time at which its build began, so that a source that changes meanwhile counts as newer.
    touch target/build.began || exit 1
    given=/dev/null
    [ ! -f "crates/$crate/stdin" ] || given=crates/$crate/stdin
    (cd "crates/$crate" && exec rt "$@") <"$given" 2>&1 | tee target/build.log |
        sed -u -n '/^rt: running /d; /^rt: /p' >&2
    status=${PIPESTATUS[0]}
    [ "$status" -eq 0 ] || {
        say "rt $* in crates/$crate ended with status $status, so $what is not built; target/build.log has all that it said"
        exit 1
    }
    [ -s "$file" ] || {
        say "rt $* in crates/$crate ended well, but there is no $file; remove the folders crates/*/out, and run this again"
        exit 1
    }
    touch -r target/build.began "$file"
)

# Builds the program where that is needed. rt has no word that builds a program and does not run it, so it is run once,
# on its crate's own stdin.
build_program() {
    build "the program" "$program_place" seedspell run
}

# Sets `archive` to the place of the archive for C, and builds it where that is needed, for every x86-64: rt's own choice
# is processors that have some instructions more.
build_archive() {
    archive=$archive_place
    build "the archive for C" "$archive" capi lib --cpu x86-64
}
