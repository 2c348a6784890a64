# shellcheck shell=bash
# Goes to the repository's root, from whichever folder a script is called. Every script begins by sourcing this, by way
# of its own place:
#     . -- "$(dirname -- "$0")/../scripts/root.sh" || exit 1
# An exported CDPATH would send cd elsewhere, and have it print where.
unset CDPATH
cd -- "${BASH_SOURCE[0]%/*}/.." || return
