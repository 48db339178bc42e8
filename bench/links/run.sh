#!/usr/bin/env bash
# Measures how long reading, inspecting and judging a link takes, up to refusal 21, and how many blocks of memory one
# such request allocates; and in the same run, botocore's signer and Python's hmac on the same links. The program
# (main.rt.txt) is proved and built in a separate repository, with copies of sigtext, sigv4 and links. If the crates here
# were checked before, their `out/` folders are copied too, so that the proofs need not start from scratch.
# Usage: run.sh [COUNT [FOLDER]]   (COUNT says how often each request is judged; 20000 by default. With a folder, outside of
# this repository, the copies stay there, and a later run proves only what has changed)
set -u
here=$(cd "$(dirname "$0")" && pwd)
top=$(cd "$here/../.." && pwd)
count=${1:-20000}
kit=${KIT:-/opt/rattle}
work=${2:-$(mktemp -d)}
if [ $# -lt 2 ]; then trap 'rm -rf "$work"' EXIT; fi

mkdir -p "$work/crates/linkbench/src" "$work/links"
cp "$here/main.rt.txt" "$work/crates/linkbench/src/main.rt"
for name in sigtext sigv4 links; do
    mkdir -p "$work/crates/$name"
    for part in src specs proofs; do rm -rf "$work/crates/$name/$part"; done
    for part in src specs proofs out; do
        if [ -d "$top/crates/$name/$part" ] && [ ! -d "$work/crates/$name/$part" ]; then
            cp -r "$top/crates/$name/$part" "$work/crates/$name"
        fi
    done
    grep "^$name:" "$top/crates.txt"
done >"$work/crates.txt"
echo "linkbench: links sigtext sigv4 anyhow" >>"$work/crates.txt"
python3 -B "$here/samples.py" "$work/links" || exit 2
host=$(cat "$work/links/host")

# Builds the program, and links the same object with a heap that counts.
if ! (cd "$work/crates/linkbench" && rt run --jobs 1 -- "$work/links/published" 1 "$host") >"$work/log" 2>&1; then
    tail -5 "$work/log"
    exit 1
fi
out=$work/crates/linkbench/out
cc -O2 -o "$work/counted" "$out/linkbench.o" "$here/heap.c" "$kit/c/liblibc_c.a" "$kit/c/libos_c.a" -lm || exit 2

asked() { "$work/counted" "$work/links/$1" "$2" "$host" 2>&1 >/dev/null | sed -n 's/^asked=//p'; }

title() {
    case $1 in
    one) echo "one long parameter" ;;
    many) echo "1000 parameters" ;;
    *) echo "$1" ;;
    esac
}

echo '| Link | Bytes of the target | Blocks of memory | `drop` | botocore | `hmac` alone |'
echo '|---|---|---|---|---|---|'
for name in published one many; do
    blocks=$(($(asked "$name" 2) - $(asked "$name" 1)))
    best=
    for _ in 1 2 3; do
        spent=$("$out/linkbench" "$work/links/$name" "$count" "$host") || exit 1
        if [ -z "$best" ] || [ "$spent" -lt "$best" ]; then best=$spent; fi
    done
    read -r botocore plain < <(python3 -B "$here/samples.py" verify "$work/links/$name" "$host" $((count / 100 + 1)))
    echo "| $(title "$name") | $(wc -c <"$work/links/$name") | $blocks |" \
        "$(awk -v t="$best" -v n="$count" 'BEGIN { printf "%.1f", t / n / 1000 }') | $botocore | $plain |"
done
