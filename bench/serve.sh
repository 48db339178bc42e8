#!/usr/bin/env bash
# Measures `drop serve`, nginx and Swift with the same clients in the same run: bench/serve/README.md.
# Usage: bench/serve.sh DROP [--seconds S] [--rounds N] [--folder FOLDER] [--profile]
set -eu
export PATH="$PATH:/usr/sbin" # where Debian has nginx
exec python3 -B "$(dirname "$0")/serve/run.py" "$@"
