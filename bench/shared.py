"""Code that the benches share: the machine and its load, Markdown tables, perf's report and counts of system calls in words, and
Python's `sqlite3` as a peer that syncs each commit."""

import datetime
import os
import pathlib
import re
import sqlite3
import statistics
import subprocess
import sys

DEAREST = 5  # how many functions are shown


class Wrong(Exception):
    """A program failed, or its output differs from the expected output."""


def cpu_field(name):
    lines = pathlib.Path("/proc/cpuinfo").read_text().splitlines()
    return next((line.partition(": ")[2] for line in lines if line.split("\t")[0] == name), "unknown")


def processor():
    """The processor's name, and its SHA instructions."""
    flags = [it for it in cpu_field("flags").split() if it.startswith("sha")]
    return f"{cpu_field('model name')}, {' '.join(flags) or 'no SHA instructions'}"


def disk_of(folder):
    """The type of the folder's file system."""
    words = ["stat", "-f", "-c", "%T", folder]
    return subprocess.run(words, capture_output=True, text=True, check=True).stdout.strip()


def machine():
    """The day, the machine and the versions."""
    return (f"{datetime.date.today()}, {os.cpu_count()} cores ({processor()}), SQLite {sqlite3.sqlite_version}, "
            f"Python {sys.version.split()[0]}")


def load():
    return "load " + " ".join(f"{it:.1f}" for it in os.getloadavg())


def print_table(head, rows):
    lines = ["| " + " | ".join(cells) + " |" for cells in [head, *rows]]
    print(lines[0], "|" + "---|" * len(head), *lines[1:], sep="\n", end="\n\n")


def timings(best, seconds):
    """Microseconds: the best, and the median in brackets."""
    return f"{best * 1e6:.0f} ({statistics.median(seconds) * 1e6:.0f})"


def connected(file):
    """A connection that commits each statement separately, and syncs each commit to the disk."""
    db = sqlite3.connect(file, isolation_level=None)
    found = db.execute("PRAGMA journal_mode = WAL").fetchone()
    db.execute("PRAGMA synchronous = FULL")
    if found != ("wal",) or db.execute("PRAGMA synchronous").fetchone() != (2,):
        raise Wrong(f"the peer's settings are others: {found}")
    return db


def report(data, *more):
    """The lines of perf's report, slowest function first: percentage of the samples, nanoseconds, `k` for the kernel, name."""
    words = ["perf", "report", "-i", data, "--stdio", "--no-children", "-g", "none", "-F", "overhead,period,symbol", "-t", "|"]
    out = subprocess.run([*words, *more], capture_output=True, text=True, check=True).stdout
    return re.findall(r"^\s*([\d.]+)%\s*\|\s*(\d+)\s*\|\[(.)\] (.*?)\s*$", out, re.M)


def dearest(lines):
    """The slowest functions of such lines, as text, without the type suffixes of generic functions."""
    shown = [(re.sub(r"::<#\w+>", "", name), " (system)" if kind == "k" else "", part) for part, _, kind, name in lines[:DEAREST]]
    return ", ".join(f"`{name}`{where} {float(part):.0f}" for name, where, part in shown)


def often(calls, times):
    """The system calls, the most frequent first, each with its count per time; counts below 0.1 are left out."""
    each = sorted(((count / times, name) for name, count in calls.items()), reverse=True)
    return ", ".join(f"{name} {count:.1f}" for count, name in each if count >= 0.1)
