#!/usr/bin/env bash
# Measures the requests a second that an office in memory answers, from memory to memory, with 10^3 and with 10^5 files, and in
# the same run the hashing that such a request needs, by OpenSSL. The program (main.rt.txt) is proved and built in a separate
# repository, with copies of the crates. What their `out/` holds is copied too, so that the proofs need not start from scratch.
# Usage: run.sh [ROUNDS [FOLDER]]   (ROUNDS says how often each size is measured, alternating between them; 40 by default. With
# a folder, outside of this repository, the copies stay there, and a later run proves only what has changed)
set -u
here=$(cd "$(dirname "$0")" && pwd)
top=$(cd "$here/../.." && pwd)
rounds=${1:-40}
work=${2:-$(mktemp -d)}
if [ $# -lt 2 ]; then trap 'rm -rf "$work"' EXIT; fi

mkdir -p "$work/crates/officebench/src"
cp "$here/main.rt.txt" "$work/crates/officebench/src/main.rt"
for name in sigtext sigv4 links boxes shelf wire desk office; do
    mkdir -p "$work/crates/$name"
    for part in src specs proofs; do rm -rf "$work/crates/$name/$part"; done
    for part in src specs proofs out; do
        if [ -d "$top/crates/$name/$part" ] && [ ! -d "$work/crates/$name/$part" ]; then
            cp -r "$top/crates/$name/$part" "$work/crates/$name"
        fi
    done
    grep "^$name:" "$top/crates.txt"
done >"$work/crates.txt"
echo "officebench: boxes shelf sigv4 wire office anyhow" >>"$work/crates.txt"

# The streams themselves upload 501 files.
small=499
great=99499
for files in $small $great; do
    mkdir -p "$work/$files"
    python3 -B "$here/samples.py" "$work/$files" $files || exit 2
done
cc -O2 -o "$work/peer" "$here/peer.c" -lcrypto || exit 2
if ! (cd "$work/crates/officebench" && rt run --jobs 2 -- "$work/$small" $small) >"$work/log" 2>&1; then
    tail -5 "$work/log"
    exit 1
fi

rm -f "$work"/times.*

# Each round measures the peer and both sizes, so that other work on the machine affects them equally.
canonical=269
for ((round = 0; round < rounds; round++)); do
    for files in $small $great; do
        "$work/crates/officebench/out/officebench" "$work/$files" $files >>"$work/times.$files" || exit 1
    done
    for way in hmac sha; do
        for part in "0 0 400" "0 1024 400" "1024 1024 400" "0 1048576 200" "1048576 1048576 4"; do
            read -r body copied often <<<"$part"
            echo "$way $body $copied $often $("$work/peer" $way $canonical $body $copied $often 2>"$work/sum")"
        done
    done >>"$work/times.peer"
done
python3 -B "$here/table.py" "$work/times.$small" "$work/times.$great" "$work/times.peer"
