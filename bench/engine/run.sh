#!/usr/bin/env bash
# Measures how long the kit's database engine takes for the rows of an office, with no HTTP, no signature and no hash, and in
# the same rounds and on the same disk, Python's sqlite3. The program (main.rt.txt) is proved and built in a separate
# repository, with the kit's crates alone.
# Usage: run.sh [ROUNDS [FOLDER]]   (ROUNDS is 10 by default. With a folder, outside of this repository and on a disk, the
# program stays there, and a later run proves only what has changed)
set -u
here=$(cd "$(dirname "$0")" && pwd)
rounds=${1:-10}
work=${2:-$(mktemp -d -p /var/tmp)}
if [ $# -lt 2 ]; then trap 'rm -rf "$work"' EXIT; fi

mkdir -p "$work/crates/enginebench/src"
cp "$here/main.rt.txt" "$work/crates/enginebench/src/main.rt"
echo "enginebench: sqlite sqlite_std_file anyhow" >"$work/crates.txt"

# Without arguments the program reports that they are missing; this shows that it is proved and built.
(cd "$work/crates/enginebench" && rt run --jobs 1) >"$work/log" 2>&1
if ! grep -q "the database is missing" "$work/log"; then
    tail -5 "$work/log"
    exit 1
fi
program=$work/crates/enginebench/out/enginebench
python3 -B "$here/measure.py" "$program" "$rounds" "$work" || exit 1

# Prints what limits each row, if Debian's linux-perf and strace are installed.
if command -v perf >/dev/null && command -v strace >/dev/null; then
    echo
    python3 -B "$here/costs.py" "$program" "$work"
fi
