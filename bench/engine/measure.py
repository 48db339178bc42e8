#!/usr/bin/env python3
"""measure.py PROGRAM ROUNDS FOLDER: the time that the kit's database engine takes for an office's rows, by the program of
main.rt.txt, and in the same rounds, on the same disk, the time of Python's `sqlite3`. Prints a table in Markdown. README.md in
this folder has more.
"""

import contextlib
import os
import pathlib
import shutil
import statistics
import subprocess
import sys
import tempfile

HERE = pathlib.Path(__file__).resolve().parent
sys.path[1:1] = [str(HERE.parent), str(HERE.parent / "file")]
import stock  # noqa: E402
from run import fill, names_of  # noqa: E402
from shared import Wrong, disk_of, load, machine, print_table, timings  # noqa: E402

SIZES = {1000: "10^3", 100_000: "10^5"}  # initial receipts, of files of 3 bytes
TITLES = {
    "commit": "one row of 1 KiB, committed",
    "upload": "the rows of an upload of 1 KiB",
    "asked-upload": "the same, with what the office asks",
    "large-upload": "the rows of an upload of 1 MiB",
    "most-upload": "the rows of an upload of 8 MiB",
    "fetch": "1 KiB, read by pieces",
    "asked-fetch": "the same, with what the office asks",
    "large-fetch": "1 MiB, read by pieces",
    "most-fetch": "8 MiB, read by pieces",
}


def made(folder, receipts):
    """A closed database with this number of receipts."""
    file = folder / f"office-{receipts}"
    with contextlib.closing(stock.alone(file)) as db:
        stock.make(db)
    fill(file, names_of(receipts), 3)
    return file


def copy(whole, name):
    """A copy, synced to the disk."""
    file = whole.with_name(name)
    for old in file.parent.glob(f"{name}*"):
        old.unlink()
    shutil.copyfile(whole, file)
    with open(file, "rb+") as writer:
        os.fsync(writer.fileno())
    return file


def by_engine(program, whole, receipts):
    """For each step, the mean seconds of one time."""
    words = [program, copy(whole, "engine"), str(receipts)]
    ran = subprocess.run(words, capture_output=True, text=True, check=False)
    lines = [line.split() for line in ran.stdout.splitlines()]
    if ran.returncode or [line[:2] for line in lines] != [[step[0], str(step[-1])] for step in stock.STEPS]:
        raise Wrong(f"{words}: {ran}")
    return [int(took) / int(count) / 1e9 for _, count, took in lines]


def by_stock(_, whole, receipts):
    with contextlib.closing(stock.alone(copy(whole, "stock"))) as db:
        return [stock.seconds(db, step, receipts) for step in stock.STEPS]


def measured(program, rounds, folder):
    """For each number of receipts, the seconds of the engine and of the peer: per round, a list of the steps."""
    files = {receipts: made(folder, receipts) for receipts in SIZES}
    found = {receipts: ([], []) for receipts in SIZES}
    for number in range(rounds):
        for receipts, file in files.items():
            for who, way in list(enumerate([by_engine, by_stock]))[::1 if number % 2 else -1]:
                found[receipts][who].append(way(program, file, receipts))
    return found


def row(found, place):
    """The cells of a step. A ratio is the peer's time divided by the engine's: the best, and the rounds' median in brackets."""
    cells, own = [TITLES[stock.STEPS[place][0]]], []
    for engine, peer in found.values():
        ours, theirs = ([one[place] for one in rounds] for rounds in (engine, peer))
        ratio = statistics.median(b / a for a, b in zip(ours, theirs))
        cells += [timings(min(ours), ours), timings(min(theirs), theirs), f"{min(theirs) / min(ours):.2f} ({ratio:.2f})"]
        own.append(ours)
    growth = statistics.median(great / small for small, great in zip(*own))
    return [*cells, f"{min(own[1]) / min(own[0]):.2f} ({growth:.2f})"]


def main(program, rounds, where):
    with tempfile.TemporaryDirectory(prefix="drop-bench-", dir=where) as name:
        folder = pathlib.Path(name)
        if disk_of(folder) == "tmpfs":
            raise SystemExit(f"{folder} is in memory, and not on a disk")
        print(f"{machine()}, {disk_of(folder)}; {load()} as it began\n")
        found = measured(program, rounds, folder)
    each = [cell for size in SIZES.values() for cell in [f"{size} receipts: engine, us", "`sqlite3`, us", "Ratio"]]
    print_table(["Rows", *each, "Growth"], [row(found, place) for place in range(len(stock.STEPS))])
    if strange := stock.strange_statements():
        print(f"Statements that the office has no more: {', '.join(strange)}.\n")
    print(f"{rounds} rounds; {load()} at the end")


if __name__ == "__main__":
    main(pathlib.Path(sys.argv[1]).resolve(), int(sys.argv[2]), sys.argv[3])
