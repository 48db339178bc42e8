#!/usr/bin/env python3
"""measure.py HASHBENCH ENGINEBENCH ROUNDS FOLDER: milliseconds for the hash and the rows of files of 1 and 8 MiB, the best of the
rounds: by the kit's `sha2` and its database engine, whose sum is a lower bound for an office, and in the same rounds by Python's
`hashlib` and `sqlite3`.
"""

import hashlib
import importlib.util
import pathlib
import subprocess
import sys
import tempfile
import time

HERE = pathlib.Path(__file__).resolve().parent
sys.path[1:1] = [str(HERE.parent), str(HERE.parent / "engine")]
import stock  # noqa: E402
from shared import disk_of, load, machine, print_table  # noqa: E402

SPEC = importlib.util.spec_from_file_location("engine_measure", HERE.parent / "engine" / "measure.py")
engine = importlib.util.module_from_spec(SPEC)
SPEC.loader.exec_module(engine)

RECEIPTS = 1000  # initial receipts, of files of 3 bytes
MEBIBYTES, PIECE, TIMES = 8, 65536, 12  # what is hashed, in pieces, and how often
# For each row: what it is, the step of bench/engine, and how many MiB are hashed.
ROWS = [("PUT of 1 MiB", "large-upload", 1), ("PUT of 8 MiB", "most-upload", 8), ("GET of 8 MiB", "most-fetch", 0)]


def hashed_by_kit(program):
    """The milliseconds of each repetition, for a MiB."""
    ran = subprocess.run([program], capture_output=True, text=True, check=True)
    return [int(line.split()[0]) / 1000 / MEBIBYTES for line in ran.stdout.splitlines()]


def hashed_by_python():
    body, found = bytes([7]) * (MEBIBYTES << 20), []
    for _ in range(TIMES):
        begun, sha = time.perf_counter(), hashlib.sha256()
        for at in range(0, len(body), PIECE):
            sha.update(body[at:at + PIECE])
        sha.digest()
        found.append((time.perf_counter() - begun) * 1000 / MEBIBYTES)
    return found


def steps_in(way, program, whole):
    """The milliseconds of each step, by its name."""
    return {step[0]: seconds * 1000 for step, seconds in zip(stock.STEPS, way(program, whole, RECEIPTS))}


def main(hashbench, enginebench, rounds, where):
    with tempfile.TemporaryDirectory(prefix="drop-bench-", dir=where) as name:
        folder = pathlib.Path(name)
        print(f"{machine()}, {disk_of(folder)}; {load()} as it began\n")
        whole, hashes, steps = engine.made(folder, RECEIPTS), ([], []), ([], [])
        for _ in range(rounds):
            hashes[0].extend(hashed_by_kit(hashbench))
            hashes[1].extend(hashed_by_python())
            steps[0].append(steps_in(engine.by_engine, enginebench, whole))
            steps[1].append(steps_in(engine.by_stock, None, whole))
    rows = []
    for title, step, size in ROWS:
        parts = [(size * min(hashes[who]), min(it[step] for it in steps[who])) for who in (0, 1)]
        cells = [f"{part:.1f}" for of_one in parts for part in [*of_one, sum(of_one)]]
        rows.append([title, *cells, f"{sum(parts[1]) / sum(parts[0]):.2f}"])
    print_table(["ms", "`sha2`", "the engine", "at least", "`hashlib`", "`sqlite3`", "sum", "Ratio"], rows)
    print(f"{rounds} rounds; {load()} at the end")


if __name__ == "__main__":
    main(pathlib.Path(sys.argv[1]).resolve(), pathlib.Path(sys.argv[2]).resolve(), int(sys.argv[3]), sys.argv[4])
