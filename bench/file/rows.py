#!/usr/bin/env python3
"""What the rows of an upload cost by themselves: stock SQLite, by Python's `sqlite3`, commits one row of 1 KiB in a table of its own,
and alternately the rows that an upload of 1 KiB writes into the tables that `drop init` made. No HTTP, no signature, no program
of ours: the ratio of the two bounds what a durable upload into these tables can reach, compared with a bare commit. More in
README.md in this folder.
"""

import argparse
import os
import pathlib
import sqlite3
import sys
import tempfile
import time

TOP = pathlib.Path(__file__).resolve().parents[2]
sys.path[1:1] = [str(TOP / "bench"), str(TOP / "bench" / "engine"), str(TOP / "ci")]
import stock  # noqa: E402
import tables  # noqa: E402
from program import Drop  # noqa: E402
from shared import disk_of, machine  # noqa: E402

BODY = os.urandom(1024)


def commit_row(db, number):
    stock.commit(db, number, BODY)


def commit_upload(db, number):
    stock.upload(db, f"file-{number}", number, BODY)


def seconds(commit, db, numbers):
    """The mean seconds of one commit over these numbers."""
    begun = time.perf_counter()
    for number in numbers:
        commit(db, number)
    return (time.perf_counter() - begun) / len(numbers)


def main():
    parser = argparse.ArgumentParser(description=__doc__.splitlines()[0])
    parser.add_argument("drop", type=pathlib.Path, help="the built program")
    parser.add_argument("--rounds", type=int, default=10)
    parser.add_argument("--commits", type=int, default=500, help="of each kind in a round")
    words = parser.parse_args()
    with tempfile.TemporaryDirectory(prefix="drop-bench-") as name:
        folder = pathlib.Path(name)
        file = Drop(words.drop.resolve(), folder).office("office")
        tables.add_box(file, tables.Box("bench", quota=10**12, max_files=10**6))
        plain, uploads = stock.alone(folder / "plain"), stock.alone(file)
        stock.make_blobs(plain)
        rows, whole = [], []
        for number in range(words.rounds):
            numbers = range(1 + number * words.commits, 1 + (number + 1) * words.commits)
            rows.append(seconds(commit_row, plain, numbers))
            whole.append(seconds(commit_upload, uploads, numbers))
        print(f"{machine()}, {disk_of(folder)}\none row {min(rows) * 1e6:.0f} us, an upload's rows {min(whole) * 1e6:.0f} us, "
              f"ratio {min(rows) / min(whole):.2f}")
        print(f"check: {sqlite3.sqlite_version}, {uploads.execute('PRAGMA integrity_check').fetchone()[0]}")


if __name__ == "__main__":
    main()
