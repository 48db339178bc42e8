#!/usr/bin/env python3
"""costs.py PROGRAM FOLDER: what each step of the engine's program costs on a database with 1000 receipts: processor time and
slowest functions by perf, and system calls by strace in a separate run. Prints a table in Markdown.
"""

import collections
import pathlib
import re
import subprocess
import sys
import tempfile
import time

import measure
import stock
from shared import Wrong, dearest, often, print_table, report

RECEIPTS = 1000


def run(watch, program, whole):
    """A watched run on a fresh copy: the moment of each output line, and the nanoseconds that the line reports."""
    words = [*watch, program, measure.copy(whole, "engine"), str(RECEIPTS)]
    with subprocess.Popen(words, stdout=subprocess.PIPE, stderr=subprocess.DEVNULL, text=True) as process:
        lines = [(time.monotonic(), int(line.split()[2])) for line in process.stdout]
    if process.returncode or len(lines) != len(stock.STEPS):
        raise Wrong(f"{words}: status {process.returncode}, {len(lines)} lines")
    return lines


def by_perf(program, whole, folder):
    """The lines of perf's report for each step."""
    data = folder / "perf.data"
    watch = ["perf", "record", "-e", "cpu-clock", "-F", "1997", "-k", "CLOCK_MONOTONIC", "-o", data]
    lines = run(watch, program, whole)
    return [report(data, "--time", f"{end - took / 1e9:.6f},{end:.6f}") for end, took in lines]


def by_strace(program, whole, folder):
    """For each step, the counts of system calls and the bytes written. A step ends when its line is written."""
    trace, steps = folder / "strace", [(collections.Counter(), [])]
    run(["strace", "-f", "-o", trace], program, whole)
    for line in trace.read_text(errors="replace").splitlines():
        if found := re.match(r"\d+ +(\w+)\((\d*).* = (\d+)", line):
            name, handle, result = found.groups()
            if (name, handle) == ("write", "1"):
                steps.append((collections.Counter(), []))
                continue
            calls, written = steps[-1]
            calls[name] += 1
            if name.startswith("pwrite"):
                written.append(int(result))
    return steps


def main(program, where):
    with tempfile.TemporaryDirectory(prefix="drop-bench-", dir=where) as name:
        folder = pathlib.Path(name)
        whole = measure.made(folder, RECEIPTS)
        reports, traces = by_perf(program, whole, folder), by_strace(program, whole, folder)
    rows = []
    for (name, *_, count), lines, (calls, written) in zip(stock.STEPS, reports, traces):
        spent = sum(int(took) for _, took, _, _ in lines) / count / 1000
        rows.append([measure.TITLES[name], f"{spent:.0f}", dearest(lines), often(calls, count), f"{sum(written) / count / 1000:.1f}"])
    print_table(["Rows", "Processor, us", "Its first costs, in 100 of that", "System calls", "KB written"], rows)


if __name__ == "__main__":
    main(pathlib.Path(sys.argv[1]).resolve(), sys.argv[2])
