#!/usr/bin/env python3
"""What two programs `drop` take for the same requests by `drop serve`, the one before a change and the one behind it: in turn in
the same rounds, and by the processor's instructions. Prints tables in Markdown. README.md beside this says more.
"""

import argparse
import dataclasses
import os
import pathlib
import re
import shutil
import statistics
import sys
import tempfile
import time

HERE = pathlib.Path(__file__).resolve().parent
sys.path[1:1] = [str(HERE.parent), str(HERE.parents[1] / "ci")]
import tables  # noqa: E402
from messages import get, put  # noqa: E402
from peers import whole_answer  # noqa: E402
from program import Drop  # noqa: E402
from server import Server  # noqa: E402
from shared import Wrong, load, machine, print_table, timings  # noqa: E402

KIB, MIB = 1 << 10, 1 << 20
BOX = tables.Box("in", quota=10**12, max_files=10**6)
SIGNATURE = b"X-Amz-Signature="
# Valgrind prints this at the end of a run.
COLLECTED = re.compile(rb"Collected : (\d+)")


@dataclasses.dataclass(frozen=True)
class Row:
    """A kind of request: the file's bytes, the requests of a batch, the requests that are counted, and the expected status."""

    name: str
    kind: str
    size: int
    batch: int
    counted: int
    status: bytes = b"200"


ROWS = [
    Row("PUT of 1 KiB, new", "new", KIB, 300, 60), Row("PUT of 1 KiB, the same again", "again", KIB, 300, 60),
    Row("GET of 1 KiB", "get", KIB, 600, 60), Row("a wrong signature", "wrong", KIB, 600, 100, b"403"),
    Row("PUT of 1 MiB, new", "new", MIB, 16, 3), Row("PUT of 1 MiB, the same again", "again", MIB, 16, 3),
    Row("GET of 1 MiB", "get", MIB, 40, 3),
]


def with_wrong_signature(message):
    at = message.index(SIGNATURE) + len(SIGNATURE)
    other = b"1" if message[at:at + 1] == b"0" else b"0"
    return message[:at] + other + message[at + 1:]


def messages(row, count):
    """One upload, and after it the requests of a batch, which fetch that file or upload it again, or upload new files."""
    start = time.strftime("%Y%m%dT%H%M%SZ", time.gmtime(time.time() - 60))
    data = os.urandom(row.size)
    first = put(b"/in/first", data, date=start)
    if row.kind == "new":
        return first, [put(b"/in/%d" % number, data, date=start) for number in range(count)]
    one = {"again": first, "get": get(b"/in/first", date=start), "wrong": with_wrong_signature(get(b"/in/first", date=start))}
    return first, [one[row.kind]] * count


def ask(it, answers, message, status):
    it.sendall(message)
    found = whole_answer(answers, "GET")
    if not found.startswith(b"HTTP/1.1 " + status):
        raise Wrong(f"{found[:200]}")


def seconds_of(drop, server, row, count):
    """The seconds that `count` requests of the row take over one connection."""
    first, batch = messages(row, count)
    with server.connect() as it, it.makefile("rb") as answers:
        ask(it, answers, first, b"200")
        begun = time.perf_counter()
        for message in batch:
            ask(it, answers, message, row.status)
        return time.perf_counter() - begun


def office(program, folder, name):
    drop = Drop(program, folder)
    file = drop.office(name)
    tables.add_box(file, BOX)
    return drop, file


def timed(program, folder, row):
    """Seconds per request, with a separate server on a new office."""
    drop, file = office(program, folder, "timed")
    with Server(drop, file, 1) as server:
        seconds = seconds_of(drop, server, row, row.batch) / row.batch
    file.unlink()
    return seconds


def instructions(program, folder, row, count):
    """All instructions of the program for `count` requests."""
    drop, file = office(program, folder, "counted")
    watched = folder / "watched"
    watched.write_text(f'#!/bin/sh\nexec valgrind --tool=callgrind --callgrind-out-file=/dev/null {program} "$@"\n')
    watched.chmod(0o755)
    with Server(Drop(watched, folder), file, 1) as server:
        seconds_of(drop, server, row, count)
        found = COLLECTED.search(server.end().err)
    file.unlink()
    return int(found[1])


def counted(program, folder, row):
    """Instructions per request: from the difference between a run of 2n requests and a run of n."""
    return (instructions(program, folder, row, 2 * row.counted) - instructions(program, folder, row, row.counted)) / row.counted


def table_of_times(programs, folder, rounds):
    rows = []
    for row in ROWS:
        found = {program: [] for program in programs}
        for turn in range(rounds):
            for program in programs[::-1] if turn % 2 else programs:
                found[program].append(timed(program, folder, row))
        before, now = found.values()
        pairs = statistics.median(one / other for one, other in zip(before, now))
        rows.append([row.name, timings(min(before), before), timings(min(now), now), f"{min(before) / min(now):.2f}",
                     f"{statistics.median(before) / statistics.median(now):.2f}", f"{pairs:.2f}"])
    print_table(["Microseconds a request: best (median)", "Before", "Now", "Before / now: best", "Of the medians", "Of the pairs"], rows)


def table_of_instructions(programs, folder):
    rows = []
    for row in ROWS:
        before, now = (counted(program, folder, row) for program in programs)
        rows.append([row.name, f"{before:.0f}", f"{now:.0f}", f"{before / now:.3f}"])
    print_table(["Instructions a request", "Before", "Now", "Before / now"], rows)


def main():
    parser = argparse.ArgumentParser(description=__doc__.splitlines()[0])
    parser.add_argument("before", type=pathlib.Path, help="the program before")
    parser.add_argument("now", type=pathlib.Path, help="the program now")
    parser.add_argument("--rounds", type=int, default=20)
    parser.add_argument("--folder", type=pathlib.Path, help="a folder on a disk, for office files; else one in /var/tmp")
    words = parser.parse_args()
    programs = [words.before.resolve(), words.now.resolve()]
    with tempfile.TemporaryDirectory(prefix="drop-before-", dir=words.folder or "/var/tmp") as folder:
        print(f"{machine()}; {load()}\n")
        table_of_times(programs, pathlib.Path(folder), words.rounds)
        if shutil.which("valgrind"):
            table_of_instructions(programs, pathlib.Path(folder))
        else:
            print("Instructions are not counted: there is no valgrind.")


if __name__ == "__main__":
    main()
