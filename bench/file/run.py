#!/usr/bin/env python3
"""What an office file costs: uploads and fetches by `drop replay`, and opening large offices. Beside them, in the same
rounds and on the same disk, Python's `sqlite3`. Prints tables in Markdown. README.md beside this says more.
"""

import argparse
import dataclasses
import hashlib
import os
import pathlib
import shutil
import statistics
import subprocess
import sys
import tempfile
import time

TOP = pathlib.Path(__file__).resolve().parents[2]
sys.path[1:1] = [str(TOP / "bench"), str(TOP / "ci")]
import kit  # noqa: E402
import tables  # noqa: E402
from expected import ID, MOMENT, fetched, receipt  # noqa: E402
from messages import get, put  # noqa: E402
from program import Drop  # noqa: E402
from shared import Wrong, connected, disk_of, load, machine, print_table, timings  # noqa: E402

KIB, MIB = 1 << 10, 1 << 20
BOX = tables.Box("bench", quota=10**12, max_files=10**6)
# A small new process starts the program, because a child process inherits the peak memory of its parent. The program's
# first stream is a named pipe without any bytes: when the program opens it, the office is open. Reported are the exit
# status, the seconds of the whole run, the seconds since the office was open, and the peak memory in KiB.
START = """import os, signal, sys, time

def ended(*_):
    raise SystemExit("the program ended before it was asked")

os.set_inheritable(told := int(sys.argv[1]), False)
signal.signal(signal.SIGCHLD, ended)
begun = time.perf_counter()
child = os.posix_spawn(sys.argv[3], sys.argv[3:], {})
pipe = os.open(sys.argv[2], os.O_WRONLY)
signal.signal(signal.SIGCHLD, signal.SIG_DFL)
opened = time.perf_counter()
os.close(pipe)
_, status, used = os.wait4(child, 0)
end = time.perf_counter()
os.write(told, b"%d %.9f %.9f %d" % (os.waitstatus_to_exitcode(status), end - begun, end - opened, used.ru_maxrss))
"""


@dataclasses.dataclass(frozen=True)
class Sizes:
    few: int = 1000  # receipts in the small office
    many: int = 100_000  # receipts in the great one
    large: int = 400  # files of a million bytes in the heavy one
    uploads: int = 500  # of 1 KiB, per run
    a_stream: int = 250  # of them in one stream
    large_uploads: int = 16  # of 1 MiB, per run, in one stream
    fetches: int = 1000  # of 1 KiB in one stream
    fetched_again: int = 10  # how often a run has this stream of fetches
    large_fetches: int = 200  # of 1 MiB, per run, in one stream


TINY = Sizes(few=10, many=50, large=2, uploads=6, a_stream=3, large_uploads=2, fetches=5, fetched_again=2,
             large_fetches=3)


def body_of(name, size):
    """Bytes that differ for each name."""
    block = hashlib.sha256(name.encode()).digest()
    return (block * (size // len(block) + 1))[:size]


# ---- offices that Python fills


def fill(file, names, size):
    """Writes the rows of these files' uploads directly into the tables, in one transaction."""
    def receipts():
        for number, name in enumerate(names, 1):
            digest = hashlib.sha256(body_of(name, size)).digest()
            yield number, BOX.name, name, size, digest, tables.M, ID

    def pieces():
        for name in names:
            body = body_of(name, size)
            for part, at in enumerate(range(0, size, tables.PIECE)):
                yield BOX.name, name, part, body[at:at + tables.PIECE]

    tables.add_box(file, BOX)
    with tables.opened(file) as db:
        db.executemany("INSERT INTO receipts VALUES (?, ?, ?, ?, ?, ?, ?)", receipts())
        db.executemany("INSERT INTO files VALUES (?, ?, ?)", ((BOX.name, name, n) for n, name in enumerate(names, 1)))
        db.executemany("INSERT INTO pieces VALUES (?, ?, ?, ?)", pieces())
        db.execute("UPDATE boxes SET used = ?, count = ?", (size * len(names), len(names)))


def names_of(count):
    return [f"f{number:06d}" for number in range(count)]


def names_among(count, files, mark):
    """`count` names, spread among the names of `files` files."""
    return [f"f{number * files // count:06d}{mark}{number:04d}" for number in range(count)]


# ---- runs of the program


@dataclasses.dataclass(frozen=True)
class Run:
    whole: float  # in seconds
    since_open: float
    memory: int  # the peak, in KiB


@dataclasses.dataclass(frozen=True)
class Work:
    """Streams in files, and the expected answers, one for each message."""

    streams: list
    owed: list


def compare(answers, owed):
    """Checks that the answers are exactly the expected ones, in order."""
    answers.seek(0)
    for number, one in enumerate(owed):
        if answers.read(len(one)) != one:
            raise Wrong(f"answer {number} is another than {one[:120]}")
    if answers.read(1):
        raise Wrong("there are more answers than messages")


@dataclasses.dataclass(frozen=True)
class Bench:
    drop: Drop
    sizes: Sizes

    def path(self, name):
        return self.drop.path(name)

    def replay(self, file, work):
        """Runs the program, timed; its answers go into memory and are compared after it has ended."""
        heard, told = os.pipe()
        pipe = self.path("pipe")
        if not pipe.exists():
            os.mkfifo(pipe)
        words = [sys.executable, "-IS", "-c", START, str(told), pipe, self.drop.program, "replay", file, pipe]
        words += work.streams
        with os.fdopen(os.memfd_create("answers"), "w+b") as answers:
            ran = subprocess.run([*words, "--at", MOMENT], stdout=answers, stderr=subprocess.PIPE, pass_fds=[told],
                                 check=False, timeout=kit.SECONDS)
            os.close(told)
            found = os.read(heard, 100).split()
            os.close(heard)
            if ran.returncode or ran.stderr or found[0] != b"0":
                raise Wrong(f"{found}: {ran.stderr}")
            compare(answers, work.owed)
        return Run(float(found[1]), float(found[2]), int(found[3]))

    def stream(self, name, messages):
        file = self.path(name)
        with open(file, "wb") as writer:
            writer.writelines(messages)
        return file

    def uploads(self, mark, names, size, first, a_stream):
        """Uploads of new files; their receipts are numbered from `first`."""
        bodies = [body_of(name, size) for name in names]
        messages = [put(f"/{BOX.name}/{name}".encode(), body) for name, body in zip(names, bodies)]
        parts = range(0, len(messages), a_stream)
        streams = [self.stream(f"{mark}-{at}.http", messages[at:at + a_stream]) for at in parts]
        return Work(streams, [receipt(number, body) for number, body in enumerate(bodies, first)])

    def fetches(self, mark, count, names, size, first, again=1):
        """`count` fetches of these files, in mixed order, on one connection; `again` times."""
        held = [(name, fetched(number, body_of(name, size))) for number, name in enumerate(names, first)]
        asked = [held[number * 7 % len(held)] for number in range(count)]
        messages = (get(f"/{BOX.name}/{name}".encode()) for name, _ in asked)
        return Work([self.stream(f"{mark}.http", messages)] * again, [answer for _, answer in asked] * again)

    def filled(self, name, count, size):
        """An office with `count` files; the program has opened it and answered from it."""
        file = self.drop.office(name)
        names = names_of(count)
        fill(file, names, size)
        kept = [(0, names[0]), (count // 2, names[count // 2]), (count - 1, names[-1])]
        owed = [fetched(number + 1, body_of(it, size)) for number, it in kept]
        messages = [get(f"/{BOX.name}/{it}".encode()) for _, it in kept]
        self.replay(file, Work([self.stream(f"{name}-kept.http", messages)], owed))
        return file

    def copy(self, whole):
        """A copy of a closed office, synced to the disk."""
        file = whole.with_name(whole.name + "-copy")
        for old in file.parent.glob(file.name + "*"):
            old.unlink()
        shutil.copyfile(whole, file)
        with open(file, "rb+") as writer:
            os.fsync(writer.fileno())
        return file


# ---- the peer


def peer(file, sizes):
    """A connection to a minimal table, which initially has as many short rows as the small office."""
    for old in file.parent.glob(file.name + "*"):
        old.unlink()
    db = connected(file)
    db.execute("CREATE TABLE blobs (id INTEGER PRIMARY KEY, bytes BLOB NOT NULL)")
    db.execute("BEGIN")
    db.executemany("INSERT INTO blobs VALUES (?, ?)", ((number, b"abc") for number in range(sizes.few)))
    db.execute("COMMIT")
    return db


def commits(db, first, bodies):
    """The seconds of one commit for each body, plus closing, which writes the log into the file."""
    begun = time.perf_counter()
    for number, body in enumerate(bodies, first):
        db.execute("INSERT INTO blobs VALUES (?, ?)", (number, body))
    db.close()
    return time.perf_counter() - begun


def selects(file, first, bodies, count):
    """The seconds of `count` reads of these bodies, in the order of the fetches."""
    db = connected(file)
    asked = [number * 7 % len(bodies) for number in range(count)]
    begun = time.perf_counter()
    found = [db.execute("SELECT bytes FROM blobs WHERE id = ?", (first + it,)).fetchone()[0] for it in asked]
    took = time.perf_counter() - begun
    db.close()
    if found != [bodies[it] for it in asked]:
        raise Wrong("the peer gave other bytes")
    return took


# ---- rounds


@dataclasses.dataclass
class Step:
    """For each round, the seconds of the run and of the empty run, both since the office was open, and of the peer."""

    messages: int
    runs: list = dataclasses.field(default_factory=list)
    empties: list = dataclasses.field(default_factory=list)
    peers: list = dataclasses.field(default_factory=list)

    def each(self):
        """The seconds per message, for each round."""
        return [(run - empty) / self.messages for run, empty in zip(self.runs, self.empties)]

    def best(self):
        """The shortest run minus the shortest empty run; the smallest difference would flatter."""
        return (min(self.runs) - min(self.empties)) / self.messages


class Rounds:
    """The offices, the streams, and the results of the rounds."""

    def __init__(self, bench):
        self.bench, self.sizes = bench, bench.sizes
        it = bench.sizes
        self.empty = Work([bench.stream("empty.http", [])], [])
        self.offices = {"few": bench.filled("few", it.few, 3), "many": bench.filled("many", it.many, 3)}
        self.heavy = bench.filled("heavy", it.large, 10**6)
        self.works = {
            name: bench.uploads(f"uploads-{name}", names_among(it.uploads, count, "a"), KIB, count + 1, it.a_stream)
            for name, count in [("few", it.few), ("many", it.many)]
        }
        names, large = names_among(it.uploads, it.few, "a"), names_among(it.large_uploads, it.few, "b")
        first, next_first = it.few + 1, it.few + it.uploads + 1
        self.large_uploads = bench.uploads("large-uploads", large, MIB, next_first, 1000)
        self.fetches = bench.fetches("fetches", it.fetches, names, KIB, first, it.fetched_again)
        self.large_fetches = bench.fetches("large-fetches", it.large_fetches, large, MIB, next_first)
        self.bodies = [body_of(name, KIB) for name in names]
        self.large_bodies = [body_of(name, MIB) for name in large]
        self.steps = {"few": Step(it.uploads), "many": Step(it.uploads), "large": Step(it.large_uploads),
                      "fetch": Step(it.fetches * it.fetched_again), "large fetch": Step(it.large_fetches)}
        self.opens = {"few": [], "many": [], "heavy": []}

    def step(self, name, file, work):
        """One run, after an empty run on the same office."""
        opened = self.bench.replay(file, self.empty)
        self.steps[name].empties.append(opened.since_open)
        self.steps[name].runs.append(self.bench.replay(file, work).since_open)
        return opened

    def go(self, number):
        """Runs one round."""
        it, steps = self.sizes, self.steps
        copies = {}
        for name in ["few", "many"] if number % 2 else ["many", "few"]:
            copies[name] = self.bench.copy(self.offices[name])
            self.opens[name].append(self.step(name, copies[name], self.works[name]))
        file, other = copies["few"], self.bench.path("peer")
        first, next_first = it.few, it.few + it.uploads
        steps["few"].peers.append(commits(peer(other, it), first, self.bodies))
        self.step("large", file, self.large_uploads)
        steps["large"].peers.append(commits(connected(other), next_first, self.large_bodies))
        self.step("fetch", file, self.fetches)
        steps["fetch"].peers.append(selects(other, first, self.bodies, steps["fetch"].messages))
        self.step("large fetch", file, self.large_fetches)
        steps["large fetch"].peers.append(selects(other, next_first, self.large_bodies, it.large_fetches))
        self.opens["heavy"].append(self.bench.replay(self.heavy, self.empty))


# ---- tables


def messages_table(steps):
    def row(name, key, size, goal):
        step = steps[key]
        best, each = step.best(), step.each()
        peers = [it / step.messages for it in step.peers]
        ratios = [peer / own for own, peer in zip(each, peers)]
        return [name, f"{1 / best:.0f}", timings(best, each), f"{size / best / 1e6:.1f}", f"{1 / min(peers):.0f}",
                timings(min(peers), peers), f"{min(peers) / best:.2f} ({statistics.median(ratios):.2f})", goal]

    head = ["Message", "A second", "us", "MB/s", "`sqlite3`: a second", "us", "Ratio", "Goal"]
    print_table(head, [
        row("PUT of 1 KiB, new", "few", KIB, "ratio 0.8"), row("PUT of 1 MiB, new", "large", MIB, ""),
        row("GET of 1 KiB", "fetch", KIB, ""), row("GET of 1 MiB", "large fetch", MIB, "300 MB/s"),
    ])


def sizes_table(steps, sizes):
    few, many = steps["few"], steps["many"]
    ratios = [b / a for a, b in zip(few.each(), many.each())]
    head = ["Message", f"{sizes.few} receipts: us", f"{sizes.many} receipts: us", "Ratio", "Goal"]
    ratio = f"{many.best() / few.best():.2f} ({statistics.median(ratios):.2f})"
    print_table(head, [["PUT of 1 KiB, new", timings(few.best(), few.each()), timings(many.best(), many.each()), ratio,
                        "at most 1.3"]])


def opens_table(rounds):
    def row(name, key, file):
        runs = rounds.opens[key]
        seconds, memory = [it.whole for it in runs], max(it.memory for it in runs) * 1024
        times = f"{min(seconds):.2f} ({statistics.median(seconds):.2f})"
        return [name, f"{file.stat().st_size / 1e6:.1f}", times, f"{memory / 1e6:.0f}"]

    it = rounds.sizes
    print_table(["Office", "File, MB", "Seconds to open and close", "Greatest memory, MB"], [
        row(f"{it.few} receipts, files of 3 bytes", "few", rounds.offices["few"]),
        row(f"{it.many} receipts, files of 3 bytes", "many", rounds.offices["many"]),
        row(f"{it.large} files of 10^6 bytes", "heavy", rounds.heavy),
    ])


def main():
    parser = argparse.ArgumentParser(description=__doc__.splitlines()[0])
    parser.add_argument("drop", type=pathlib.Path, help="the built program")
    parser.add_argument("--rounds", type=int, default=10)
    parser.add_argument("--folder", help="where the offices are made: on a disk, with 2 GB to spare")
    parser.add_argument("--tiny", action="store_true", help="only to see that it runs; the figures mean nothing")
    words = parser.parse_args()
    if words.rounds < 1:
        parser.error("there is no round")
    begun = time.perf_counter()
    with tempfile.TemporaryDirectory(prefix="drop-bench-", dir=words.folder) as name:
        folder = pathlib.Path(name)
        if disk_of(folder) == "tmpfs":
            parser.error(f"{folder} is in memory, and not on a disk")
        print(f"{machine()}, {disk_of(folder)}; {load()} as it began\n")
        drop = Drop(words.drop.resolve(), folder)
        rounds = Rounds(Bench(drop, TINY if words.tiny else Sizes()))
        filled = time.perf_counter()
        for number in range(words.rounds):
            rounds.go(number)
        messages_table(rounds.steps)
        sizes_table(rounds.steps, rounds.sizes)
        opens_table(rounds)
    ended = time.perf_counter()
    took = f"{filled - begun:.0f} s to fill, {ended - filled:.0f} s of rounds"
    print(f"{words.rounds} rounds; {took}; {load()} at the end")


if __name__ == "__main__":
    main()
