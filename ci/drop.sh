#!/usr/bin/env bash
# Proves and builds `drop` with all crates below it (ci/prove.py), and runs it in crates/drop with the given arguments. Without a
# change since, it only runs it.
set -euo pipefail
cd "$(dirname "$0")/.."

# Prints a crate and the crates of this repository that it depends on.
crates_to() {
    local crate
    echo "$1"
    for crate in $(sed -n "s/^$1://p" crates.txt); do
        if [ -d "crates/$crate" ]; then crates_to "$crate"; fi
    done
}

# Whether the program exists, and no file that it was built from has changed since.
is_built() {
    local crate folders=()
    [ -e crates/drop/out/drop ] || return 1
    for crate in $(crates_to drop | sort -u); do
        folders+=("crates/$crate/src" "crates/$crate/specs" "crates/$crate/proofs")
    done
    [ -z "$(find "${folders[@]}" HANDLES crates.txt -newer crates/drop/out/drop 2>/dev/null)" ]
}

if ! is_built; then
    python3 -B ci/prove.py --program drop
fi
cd crates/drop
out/drop "$@"
