#!/usr/bin/env python3
"""What `drop serve` answers on loopback, on one connection and on many, and beside it nginx and Swift, by the same clients in the same
run. Prints tables in Markdown. README.md beside this says more.
"""

import argparse
import contextlib
import pathlib
import shutil
import statistics
import subprocess
import sys
import tempfile
import time

TOP = pathlib.Path(__file__).resolve().parents[2]
sys.path[1:1] = [str(TOP / "bench"), str(TOP / "ci")]
from clients import by_either, serving  # noqa: E402
from costs import cost_row  # noqa: E402
from crowds import crowd_rows  # noqa: E402
from memory import fetches_rows, uploads_rows  # noqa: E402
from pace import HEAD as PACE_HEAD, pace_rows  # noqa: E402
from servers import HERE, KIB, ROWS, Drop, Nginx, body_of  # noqa: E402
from shared import connected, disk_of, load, machine, print_table  # noqa: E402
from swift_peer import Swift  # noqa: E402

SWIFT_ROWS = [row for row in ROWS if not row.bad and not row.new]


def commits(folder, seconds):
    """The number of commits of one row of 1 KiB per second, by Python's sqlite3."""
    file = folder / "commits"
    for old in folder.glob("commits*"):
        old.unlink()
    with contextlib.closing(connected(file)) as db:
        db.execute("CREATE TABLE blobs (id INTEGER PRIMARY KEY, bytes BLOB NOT NULL)")
        begun, many = time.monotonic(), 0
        while time.monotonic() - begun < seconds:
            many += 1
            db.execute("INSERT INTO blobs VALUES (?, ?)", (many, body_of(KIB)))
        return many / (time.monotonic() - begun)


class Rounds:
    """The servers, and the figures for each row and server, round by round."""

    def __init__(self, words, folder):
        self.folder, self.seconds = folder, words.seconds
        self.client = folder / "client"
        subprocess.run(["cc", "-O2", "-D_GNU_SOURCE", "-o", self.client, HERE / "client.c"], check=True)
        self.servers = [Drop(words.program.resolve(), folder), Nginx(folder)]
        self.rows = {Drop.name: ROWS, Nginx.name: ROWS, Swift.name: SWIFT_ROWS}
        if Swift.is_there():
            self.servers.append(Swift(folder))
        self.figures, self.durable = {}, []

    def measure(self, server, row, mark):
        with serving(server, row, self.folder, mark) as (_, port, file):
            figure = by_either(self.client, row, file, port, self.seconds)
        self.figures.setdefault((row, server.name), []).append(figure)

    def go(self, turn):
        """Runs one round."""
        for row in ROWS:
            for server in self.servers[::1 if turn % 2 == 0 else -1]:
                if row in self.rows[server.name]:
                    self.measure(server, row, f"r{turn}")
        self.durable.append(commits(self.folder, self.seconds))


# ---- tables


def shown(rates):
    return f"{max(rates):.0f} ({statistics.median(rates):.0f})"


def rates_of(rounds, row, server):
    return [figure.rate for figure in rounds.figures.get((row, server.name), [])]


def rate_row(rounds, row):
    """Requests a second: the best, the median in brackets, and the ratio of `drop serve` to each peer."""
    ours = rates_of(rounds, row, Drop)
    cells = [row.name, shown(ours)]
    for peer in rounds.servers[1:]:
        theirs = rates_of(rounds, row, peer)
        cells += [shown(theirs), f"{max(ours) / max(theirs):.2f}"] if theirs else ["", ""]
    return cells


def print_rates(rounds):
    peers = rounds.servers[1:]
    head = ["Request", "`drop serve` a second", *(cell for peer in peers for cell in [f"{peer.name} a second", "Ratio"])]
    bare = ["a bare commit of 1 KiB (Python's `sqlite3`)", "", shown(rounds.durable)]
    print_table(head, [*(rate_row(rounds, row) for row in ROWS), bare + [""] * (len(head) - len(bare))])
    if len(peers) == 1:
        print("Swift is not there: its columns are left out.\n")


def print_within(rounds):
    """Prints the time within which 99 of 100 answers come with many connections: the best round, and the median in brackets."""
    for row in [row for row in ROWS if row.many > 1]:
        for server in rounds.servers:
            found = [it.within for it in rounds.figures.get((row, server.name), [])]
            if found:
                print(f"{row.name}, {server.name}: 99 in 100 answers within {min(found):.1f} ms ({statistics.median(found):.1f}).")
    print()


def print_wrong(rounds):
    """Prints how many answers had an unexpected status."""
    counts = {key: sum(figure.wrong for figure in figures) for key, figures in rounds.figures.items()}
    wrong = [f"{count} of {name}, {row.name}" for (row, name), count in counts.items() if count]
    print(f"Answers of another status than owed: {'; '.join(wrong) or 'none'}.\n")


def print_costs(rounds):
    rows = [cost_row(rounds.servers[0], row, rounds.folder, rounds.client, rounds.seconds) for row in ROWS]
    print_table(["Row of `drop serve`", "Its first costs, in 100 of its time", "System calls a request"], rows)


def run(words, folder):
    print(f"{machine()}, {disk_of(folder)}; {load()} as it began\n")
    rounds = Rounds(words, folder)
    for turn in range(words.rounds):
        rounds.go(turn)
    print_rates(rounds)
    print_within(rounds)
    print_wrong(rounds)
    for head, rows in [(["Requests served", "Connections", "Memory of `drop serve`, KiB"], fetches_rows),
                       (["Uploads", "Memory of `drop serve` before them, KiB", "At its greatest", "Behind them"], uploads_rows),
                       (["Beside it", "Answers", "The slowest, ms", "The median, ms"], crowd_rows)]:
        print_table(head, [list(map(str, it)) for it in rows(rounds.servers[0], folder, rounds.client)])
    print_table(PACE_HEAD, [list(map(str, it)) for it in pace_rows(rounds.servers[:2], folder)])
    if words.profile:
        print_costs(rounds)
    print(f"{words.rounds} rounds of {words.seconds} s, the best, in brackets the median; {load()} at the end")


def main():
    parser = argparse.ArgumentParser(description=__doc__)
    parser.add_argument("program", type=pathlib.Path)
    parser.add_argument("--seconds", type=int, default=3)
    parser.add_argument("--rounds", type=int, default=3)
    parser.add_argument("--folder", type=pathlib.Path, default=pathlib.Path("/var/tmp"))
    parser.add_argument("--profile", action="store_true", help="what each row of `drop serve` costs, by perf and strace")
    words = parser.parse_args()
    if words.rounds < 1 or words.seconds < 1:
        parser.error("there is no round, or it takes no time")
    folder = pathlib.Path(tempfile.mkdtemp(prefix="drop-bench-", dir=words.folder))
    try:
        run(words, folder)
    finally:
        shutil.rmtree(folder, ignore_errors=True)


if __name__ == "__main__":
    main()
