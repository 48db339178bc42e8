#!/usr/bin/env bash
# Proves and tests everything: `rt ci`, and the tests of the built programs, with pytest. Each part ends with `N passed, M
# failed`; a part that does not, or cannot be run, has failed. The last line is the sum of all. The status of `rt ci` goes to the
# file that is given, if one is: .ci/run then tries the must-fail edits in parallel with the tests.
set -uo pipefail
cd "$(dirname "$0")/.." || exit 2
proved=${1:+$(realpath "$1")}
work=$(mktemp -d)
trap 'rm -rf "$work"' EXIT
passed=0
failed=0
TIMEFORMAT='%R %U %S'

# Runs a part, shows its output, and keeps its output, time and status in files named after it. A part that runs while others do
# has a shell of its own, so that its seconds are not theirs.
run() {
    local name=$1
    shift
    { time "$@" 2>&1 | tee "$work/$name.log"; } 2>"$work/$name.time"
    echo $? >"$work/$name.status"
}

# Adds the counts in a part's last line of counts; a part without one has failed.
add() {
    local name=$1 status line
    read -r status <"$work/$name.status"
    line=$(grep -E '^[0-9]+ passed, [0-9]+ failed$' "$work/$name.log" | tail -1)
    if [[ $line =~ ^([0-9]+)\ passed,\ ([0-9]+)\ failed$ ]]; then
        passed=$((passed + BASH_REMATCH[1]))
        failed=$((failed + BASH_REMATCH[2]))
        if [ "$status" -ne 0 ] && [ "${BASH_REMATCH[2]}" -eq 0 ]; then
            failed=$((failed + 1))
            line="$line, but status $status"
        fi
    else
        failed=$((failed + 1))
        line="no counts, status $status"
    fi
    awk -v name="$name" -v line="$line" \
        '{ printf "%-16s %7.1f s %8.1f s of processors   %s\n", name, $1, $2 + $3, line }' "$work/$name.time" >>"$work/times"
    grep -E '^[a-z0-9_]+ +[0-9.]+ s +[0-9]+ passed, [0-9]+ failed$' "$work/$name.log" | sed 's/^/  /' >>"$work/times"
}

# Makes sure that a command is installed, from Debian's package of the same name or the one named after it. Without the command,
# the tests that need it fail.
with_command() {
    command -v "$1" >/dev/null || install "${2-$1}"
}

# Makes sure that a module of Debian's Python is installed, from the package that has it.
with_module() {
    /usr/bin/python3 -c "import $1" 2>/dev/null || install "$2"
}

install() {
    [ "$(id -u)" -eq 0 ] && command -v apt-get >/dev/null || return
    (apt-get update && apt-get install -y --no-install-recommends "$1") >&2
}

export PATH=$PATH:/usr/sbin
with_module boto3 python3-boto3
with_module pytest python3-pytest
with_module xdist python3-pytest-xdist
with_command sqlite3
with_command curl
with_command openssl
with_command nginx nginx-light
with_command systemd-analyze systemd
with_command chromium
with_command chromedriver chromium-driver
with_command aws awscli
with_command debootstrap
with_command lintian
with_command man man-db
with_command objdump binutils

pytest=(/usr/bin/python3 -B -m pytest)
# These have folders and ports of their own, and measure nothing: they run in parallel, once all is proved, with less priority.
beside=(ci/test_{memory,rows,replays,streams,machine,office,migrate,desk,respelled,lists,exports,interop,documents,guards,damage,changes}.py)
# These measure time or memory, or load the machine: they run one by one. They begin once `drop` is built, while proofs of other
# crates go on with less priority.
alone=(ci/test_{serve,kills,crowd,pace,stops}.py)
# These wait for a browser, or for a Debian that is made: they run one by one, at the same time.
waiting=(ci/test_{page,clerk,deploy,package}.py)

# Proves everything by the code of `rt ci`, first `drop`: then there is the file `built`.
prove() {
    run rt-ci nice -n 10 python3 -B ci/prove.py --built "$work/built"
    if [ -n "$proved" ]; then cp "$work/rt-ci.status" "$proved"; fi
}

# Whether the proofs go on, and `drop` is not built yet.
is_building() {
    [ ! -e "$work/built" ] && [ ! -e "$work/rt-ci.status" ]
}

SECONDS=0
prove &
proving=$!
while is_building; do sleep 1; done
(run one-by-one "${pytest[@]}" "${alone[@]}") &
(run in-browsers "${pytest[@]}" --shots "$work/shots" "${waiting[@]}" >/dev/null) &
wait $proving
(run side-by-side nice -n 10 "${pytest[@]}" -n "$(nproc)" "${beside[@]}") >/dev/null
wait
cat "$work"/{in-browsers,side-by-side}.log
run drawings python3 -B ci/drawings.py --check
for part in rt-ci one-by-one in-browsers side-by-side drawings; do add $part; done
echo
cat "$work/times"
echo "$((SECONDS / 60)) min $((SECONDS % 60)) s in all"
echo "$passed passed, $failed failed"
[ "$failed" -eq 0 ]
