#!/usr/bin/env bash
# Holds every script of the repository to being well-formed bash, and to going to the repository's root first, wherever
# it is called from, whatever the folders above are named, and with CDPATH exported: bash tests/scripts.sh
# Tried on copies, whose scripts/root.sh ends the script and says by its status whether it is in the root. ./plan, which
# stays where it is called, is tests/plan.sh's.
set -u
. -- "$(dirname -- "$0")/../scripts/root.sh" || exit 1

out=$PWD/target/tests/scripts
rm -rf "$out"
mkdir -p "$out/elsewhere" || exit 1

tried=0
failures=0
fail() {
    echo "tests/scripts: $*" >&2
    failures=$((failures + 1))
}

folders=(.ci bench examples scripts tests)
mapfile -d '' files < <(find "${folders[@]}" \( -name '*.sh' -o -path .ci/run \) -print0)
for file in plan "${files[@]}"; do
    bash -n "$file" || fail "$file is not well-formed"
done
# Those that are called; the others are sourced.
mapfile -d '' scripts < <(grep -l -Z -m 1 '^#!/usr/bin/env bash$' "${files[@]}")
[ ${#scripts[@]} -gt 10 ] || fail "of ${#scripts[@]} scripts one or other must be missing"

# reach FOLDER PATH SCRIPT: called in that folder by this path, the script of the copy in `root` goes there, and prints
# nothing.
reach() {
    local status=0
    (cd -- "$1" && CDPATH=$out/elsewhere:$out/elsewhere/$name root=$root bash -- "$2") >"$out/printed" || status=$?
    tried=$((tried + 1))
    [ "$status" -eq 77 ] || fail "$3, called in $1 as $2, does not go to the root: status $status"
    [ ! -s "$out/printed" ] || fail "$3, called in $1 as $2, prints: $(cat "$out/printed")"
}
first='^\. -- "\$\(dirname -- "\$0"\)/(\.\./)+scripts/root\.sh" \|\| exit [12]$'
# The last has all that a name can have.
for name in plain $'-n it\'s "odd" $(x) * \\\nline\n'; do
    root=$out/$name
    mkdir -p -- "$root" && cp --parents "${files[@]}" "$root" || exit 1
    echo '[ . -ef "$root" ] && exit 77; exit 78' >>"$root/scripts/root.sh"
    # Where CDPATH leads there are folders of the same names.
    for there in "$out/elsewhere" "$out/elsewhere/$name"; do
        mkdir -p "$there" && (cd "$root" && find . -type d -print0) | (cd "$there" && xargs -0 mkdir -p) || exit 1
    done
    for script in "${scripts[@]}"; do
        [[ $(grep -v -m 1 -E '^(#|set -)' "$script") =~ $first ]] || {
            fail "$script does not begin by sourcing scripts/root.sh"
            continue
        }
        reach / "$root/$script" "$script"
        reach "$out" "$name/$script" "$script"
        reach "$root" "$script" "$script"
        reach "$root/${script%/*}" "${script##*/}" "$script"
    done
done

echo "scripts: ${#scripts[@]} called in $tried ways, $failures departures"
[ "$failures" -eq 0 ]
