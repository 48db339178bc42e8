#!/usr/bin/env python3
"""What lists cost: `drop manifest`, `drop compare`, `drop list`, `drop export` and `drop links`, and beside them, in the same
rounds, a peer in Python (peer.py) that does the same from the same office file. Prints tables in Markdown. More in
README.md in this folder.
"""

import argparse
import csv
import dataclasses
import datetime
import hashlib
import importlib.util
import itertools
import os
import pathlib
import shutil
import statistics
import subprocess
import sys
import tempfile

HERE = pathlib.Path(__file__).resolve().parent
sys.path[1:1] = [str(HERE.parent), str(HERE.parents[1] / "ci")]
import tables  # noqa: E402
from peer import LINKS_HEAD, MANIFEST_HEAD  # noqa: E402
from expected import ID  # noqa: E402
from program import Drop  # noqa: E402
from shared import Wrong, load, machine, print_table  # noqa: E402

FEW = 1000  # receipts in the small office
BOX = tables.Box("in", quota=10**12, max_files=10**6, mode=1)
HOST, REGION = "files.example", "us-east-1"
STARTS = ["20130524T000000Z", "19700101T000000Z", "20380119T031408Z"]
EXPIRIES = ["604800", "1", "86400"]
METHODS = ["PUT", "GET", "HEAD"]
# Two of the eight names are plain, like most names; the others contain what CSV quotes or links encode.
NAMES = [
    "plan-{}.pdf", "offer, part {}.pdf", 'the "last" {}.txt', " {} ", "Angebot Müller {}", "報告書 {}", "{}%20+&=?#;", "{}",
]
SECONDS = 600
# A small new process starts the program, because a child process inherits the peak memory of its parent.
# Reported are the exit status, the seconds from the start to the end, and the peak memory in KiB.
START = """import os, sys, time

os.set_inheritable(told := int(sys.argv[1]), False)
begun = time.perf_counter()
_, status, used = os.wait4(os.posix_spawn(sys.argv[2], sys.argv[2:], os.environ), 0)
os.write(told, b"%d %.9f %d" % (os.waitstatus_to_exitcode(status), time.perf_counter() - begun, used.ru_maxrss))
"""


# ---- offices and lists that Python makes


def body_of(number):
    """64 bytes that differ for each receipt."""
    return hashlib.sha512(b"%d" % number).digest()


def name_of(number):
    """The name of a receipt's file. Receipt 7 of ten has the name of the receipt before it, whose file it replaced."""
    number -= number % 10 == 7
    return NAMES[number % len(NAMES)].format(number)


def stands(number, most):
    """Whether a receipt's file still exists: the third of ten was removed, and the sixth was replaced."""
    return number % 10 != 3 and (number % 10 != 6 or number == most)


def fill(file, most):
    """Writes directly into the tables what `most` uploads leave, some of them replaced or removed."""
    receipts = ((number, BOX.name, name_of(number), 64, hashlib.sha256(body_of(number)).digest(), tables.M + number, ID)
                for number in range(1, most + 1))
    standing = [number for number in range(1, most + 1) if stands(number, most)]
    tables.add_box(file, BOX)
    with tables.opened(file) as db:
        db.executemany("INSERT INTO receipts VALUES (?, ?, ?, ?, ?, ?, ?)", receipts)
        db.executemany("INSERT INTO files VALUES (?, ?, ?)", ((BOX.name, name_of(it), it) for it in standing))
        db.executemany("INSERT INTO pieces VALUES (?, ?, 0, ?)", ((BOX.name, name_of(it), body_of(it)) for it in standing))
        db.execute("UPDATE boxes SET used = ?, count = ?", (64 * len(standing), len(standing)))


def told_row(number):
    """A row of the manifest that is compared: the ninth of ten has a different length or digest than the receipt."""
    digest = hashlib.sha256(body_of(number - (number % 20 == 19))).hexdigest()
    moment = datetime.datetime.fromtimestamp(tables.M + number, datetime.timezone.utc).strftime("%Y%m%dT%H%M%SZ")
    return [number, BOX.name, name_of(number), 64 + (number % 20 == 9), digest, moment, ID]


def wish(number):
    return [METHODS[number % 3], BOX.name, name_of(number), STARTS[number % 7 % 3], EXPIRIES[number % 5 % 3]]


def state_of(number, most):
    """The expected state for a row of `told_row`."""
    if not stands(number, most):
        return "gone"
    return "differs" if number % 10 == 9 else "standing"


def write_list(file, head, rows):
    with open(file, "w", encoding="utf-8", newline="") as writer:
        csv.writer(writer, lineterminator="\n").writerows([head, *rows])
    return file


# ---- runs


@dataclasses.dataclass(frozen=True)
class Run:
    seconds: float
    memory: int  # the peak, in KiB


def timed(words, given, out):
    """Runs this command, which reads one file and writes another."""
    heard, told = os.pipe()
    with open(given, "rb") as reader, open(out, "wb") as writer:
        ran = subprocess.run([sys.executable, "-IS", "-c", START, str(told), *words], stdin=reader, stdout=writer,
                             stderr=subprocess.PIPE, pass_fds=[told], check=False, timeout=SECONDS)
    os.close(told)
    found = os.read(heard, 100).split()
    os.close(heard)
    if ran.returncode or ran.stderr or found[:1] != [b"0"]:
        raise Wrong(f"{words}: {found} {ran.stderr}")
    return Run(float(found[1]), int(found[2]))


@dataclasses.dataclass(frozen=True)
class Step:
    """A list of an office. A list without rows reads only a head, and shows what opening costs."""

    task: str
    receipts: int
    rows: int
    file: pathlib.Path
    given: pathlib.Path

    def words(self, program, folder):
        more = {"links": ["--key", ID, "--host", HOST, "--region", REGION], "list": ["files"], "export": [folder]}
        return [program, self.task, self.file, *more.get(self.task, [])]

    def peer_words(self, folder):
        more = {"links": [ID, HOST, REGION], "export": [folder]}
        return [sys.executable, "-B", HERE / "peer.py", self.task, self.file, *more.get(self.task, [])]


def rows_of(file):
    with open(file, encoding="utf-8", newline="") as reader:
        yield from csv.reader(reader, strict=True)


def owed_rows(step):
    """The expected rows of a comparison, which are known beforehand; none for other lists."""
    known = step.rows if step.task == "compare" else 0
    return ([str(it), BOX.name, name_of(it), state_of(it, step.receipts)] for it in range(1, known + 1))


def check(step, ours, theirs):
    """Checks that both wrote the same rows, a head and the expected number; for a comparison, also the expected rows."""
    count = -1
    for number, (one, other) in enumerate(itertools.zip_longest(rows_of(ours), rows_of(theirs))):
        count = number
        if one != other:
            raise Wrong(f"{step.task}, row {number}: {one} and {other}")
    found = itertools.islice(rows_of(ours), 1, None) if step.task == "compare" else ()
    if count != step.rows or list(found) != list(owed_rows(step)):
        raise Wrong(f"{step.task}: {count} rows and not {step.rows}, or others than are owed")


def take_exported(folder, out):
    """Checks the sums of an export, takes its rows, and deletes its folder."""
    subprocess.run(["sha256sum", "--check", "--quiet", "--strict", "SHA256SUMS"], cwd=folder, check=True)
    shutil.copyfile(folder / "files.csv", out)
    shutil.rmtree(folder)


@dataclasses.dataclass(frozen=True)
class Bench:
    program: pathlib.Path
    folder: pathlib.Path
    steps: list
    runs: dict = dataclasses.field(default_factory=dict)  # for each step, the runs of the program and of the peer

    def run(self, step, is_first):
        """Runs both once, the program first or second."""
        ours, theirs = self.folder / "ours.csv", self.folder / "theirs.csv"
        pair = {}
        for is_peer in [not is_first, is_first]:
            exported, out = self.folder / ("theirs" if is_peer else "ours"), theirs if is_peer else ours
            words = step.peer_words(exported) if is_peer else step.words(self.program, exported)
            pair[is_peer] = timed(words, step.given, out)
            if step.task == "export":
                take_exported(exported, out)
        check(step, ours, theirs)
        self.runs.setdefault(step, []).append((pair[False], pair[True]))

    def go(self, number):
        """Runs one round."""
        for place, step in enumerate(self.steps):
            self.run(step, (number + place) % 2 == 0)


def steps_of(file, receipts, folder):
    """Opening an office, its manifest, a comparison with it, the list of its files, and the export of its files."""
    head = write_list(folder / "head.csv", MANIFEST_HEAD, [])
    told = write_list(folder / f"told-{receipts}.csv", MANIFEST_HEAD, map(told_row, range(1, receipts + 1)))
    nothing = pathlib.Path(os.devnull)
    standing = sum(stands(number, receipts) for number in range(1, receipts + 1))
    return [Step("compare", receipts, 0, file, head), Step("manifest", receipts, receipts, file, nothing),
            Step("compare", receipts, receipts, file, told), Step("list", receipts, standing, file, nothing),
            Step("export", receipts, standing, file, nothing)]


def link_steps(file, rows, folder):
    if not importlib.util.find_spec("botocore"):
        print("there is no botocore: links are left out\n")
        return []
    head = write_list(folder / "asked-head.csv", LINKS_HEAD, [])
    asked = write_list(folder / "asked.csv", LINKS_HEAD, map(wish, range(1, rows + 1)))
    return [Step("links", FEW, 0, file, head), Step("links", FEW, rows, file, asked)]


def steps_in(folder, words):
    """The steps of a round, on offices that are made for them."""
    drop, steps = Drop(words.drop.resolve(), folder), []
    for receipts in [FEW, words.receipts]:
        file = drop.office(f"office-{receipts}")
        fill(file, receipts)
        steps += steps_of(file, receipts, folder)
    return steps + link_steps(folder / f"office-{FEW}", words.links, folder)


# ---- tables


def opening_of(step, steps):
    """The step that reads only a head: the last one before this step on the same office."""
    return [it for it in steps[:steps.index(step)] if not it.rows and it.file == step.file][-1]


def times(whole, empty, rows):
    """The seconds, and in brackets those of the opening; the rows a second, and in brackets those without the opening."""
    behind = [a - b for a, b in zip(whole, empty)]
    median = statistics.median
    return [f"{median(whole):.2f} ({median(empty):.2f})", f"{rows / median(whole):.0f} ({rows / median(behind):.0f})"]


def time_row(bench, step):
    runs, empties = bench.runs[step], bench.runs[opening_of(step, bench.steps)]
    ours, theirs = [[pair[who].seconds for pair in runs] for who in (0, 1)]
    our_empty, their_empty = [[pair[who].seconds for pair in empties] for who in (0, 1)]
    whole = statistics.median(b / a for a, b in zip(ours, theirs))
    behind = statistics.median((b - d) / (a - c) for a, b, c, d in zip(ours, theirs, our_empty, their_empty))
    return [f"`{step.task}`", str(step.receipts), str(step.rows), *times(ours, our_empty, step.rows),
            *times(theirs, their_empty, step.rows), f"{whole:.2f} ({behind:.2f})"]


def memory_row(bench, step):
    ours, theirs = [max(pair[who].memory for pair in bench.runs[step]) * 1024 / 1e6 for who in (0, 1)]
    name = f"`{step.task}`" if step.rows else f"a head alone, `{step.task}`"
    return [name, str(step.receipts), str(step.rows), f"{ours:.0f}", f"{theirs:.0f}"]


def print_tables(bench):
    listed = [step for step in bench.steps if step.rows and (step.task == "links" or step.receipts > FEW)]
    head = ["List", "Receipts", "Rows"]
    times_head = ["`drop`: seconds", "Rows a second", "Python: seconds", "Rows a second", "Ratio"]
    print_table([*head, *times_head], [time_row(bench, step) for step in listed])
    memory_head = ["`drop`: greatest memory, MB", "Python's, MB"]
    print_table([*head, *memory_head], [memory_row(bench, step) for step in bench.steps])


def main():
    parser = argparse.ArgumentParser(description=__doc__.splitlines()[0])
    parser.add_argument("drop", type=pathlib.Path, help="the built program")
    parser.add_argument("--receipts", type=int, default=100_000, help=f"of the great office; the small one has {FEW}")
    parser.add_argument("--links", type=int, default=10_000, help="rows of the list of links")
    parser.add_argument("--rounds", type=int, default=5)
    parser.add_argument("--folder", help="where the offices are made")
    words = parser.parse_args()
    if words.rounds < 1 or words.links < 1 or not FEW < words.receipts <= BOX.max_files:
        parser.error("there is no round, no link, or no great office")
    with tempfile.TemporaryDirectory(prefix="drop-bench-", dir=words.folder) as name:
        folder = pathlib.Path(name)
        print(f"{machine()}; {load()} as it began\n")
        bench = Bench(words.drop.resolve(), folder, steps_in(folder, words))
        for number in range(words.rounds):
            bench.go(number)
        print_tables(bench)
    print(f"{words.rounds} rounds; {load()} at the end")


if __name__ == "__main__":
    main()
