#!/usr/bin/env bash
# Measures the least time that uploads of 1 and 8 MiB and a fetch can take with the kit: its `sha2` on the bytes, and its database
# engine on the rows (`bench/engine`), with no HTTP, no signature and no socket; and the same by Python's `hashlib` and `sqlite3`.
# Both programs are proved and built in separate folders.
# Usage: run.sh [ROUNDS [FOLDER]]   (ROUNDS is 3 by default. FOLDER is outside of this repository and on a disk; the programs stay
# there)
set -u
here=$(cd "$(dirname "$0")" && pwd)
rounds=${1:-3}
work=${2:-$(mktemp -d -p /var/tmp)}
if [ $# -lt 2 ]; then trap 'rm -rf "$work"' EXIT; fi

# build NAME SOURCE CRATES..: builds the program NAME from this source, with these crates of the kit.
build() {
    local name=$1 source=$2 folder=$work/$1
    shift 2
    mkdir -p "$folder/crates/$name/src"
    cp "$source" "$folder/crates/$name/src/main.rt"
    echo "$name: $*" >"$folder/crates.txt"
    (cd "$folder/crates/$name" && rt run) >"$folder/log" 2>&1
    if [ ! -x "$folder/crates/$name/out/$name" ]; then
        tail -5 "$folder/log"
        exit 1
    fi
}

build hashbench "$here/main.rt.txt" sha2
build enginebench "$here/../engine/main.rt.txt" sqlite sqlite_std_file anyhow
python3 -B "$here/measure.py" "$work/hashbench/crates/hashbench/out/hashbench" \
    "$work/enginebench/crates/enginebench/out/enginebench" "$rounds" "$work"
