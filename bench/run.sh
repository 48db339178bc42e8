#!/usr/bin/env bash
# Runs all benches, one after the other, and prints one Markdown text. More in bench/README.md.
# Usage: bench/run.sh DROP [--quick] [--only NAME].. [--folder FOLDER]
set -eu
export PATH="$PATH:/usr/sbin" # where Debian has nginx
exec python3 -B "$(dirname "$0")/parts.py" "$@"
