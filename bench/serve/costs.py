"""What a row costs `drop serve`: where its time goes, by perf, and its system calls, by strace in a separate run."""

import contextlib
import re
import signal
import subprocess
import time

from clients import by_client, by_either, serving
from servers import KIB
from shared import dearest, often, report

REQUESTS = {True: 500, False: 20}  # while system calls are counted: of 1 KiB, and of 1 MiB or more
READY = 2  # seconds, for perf or strace to attach to a process


@contextlib.contextmanager
def watched(words, log):
    """Runs a program that watches another one, and interrupts it at the end."""
    with open(log, "wb") as writer, subprocess.Popen(words, stdout=writer, stderr=writer) as process:
        time.sleep(READY)
        try:
            yield
        finally:
            process.send_signal(signal.SIGINT)
            process.wait()


def profile(server, row, folder, client, seconds):
    """The lines of perf's report on the server while it serves a row."""
    data, log = folder / "perf.data", folder / "watched"
    with serving(server, row, folder, "perf") as (pid, port, file):
        with watched(["perf", "record", "-g", "-e", "cpu-clock", "-F", "997", "-o", data, "-p", str(pid)], log):
            by_either(client, row, file, port, seconds)
    return report(data)


def count_calls(server, row, folder, client, requests):
    """How often the server made each system call for this number of requests, by strace's summary."""
    summary, log = folder / "strace", folder / "watched"
    with serving(server, row, folder, "strace") as (pid, port, file):
        with watched(["strace", "-f", "-c", "-U", "calls,name", "-o", summary, "-p", str(pid)], log):
            by_client(client, row, file, port, requests)
    found = re.findall(r"^\s*(\d+) ([a-z]\w+)$", summary.read_text(), re.M)
    return {name: int(calls) for calls, name in found if name != "total"}


def cost_row(server, row, folder, client, seconds):
    requests = REQUESTS[row.size == KIB]
    lines = profile(server, row, folder, client, seconds)
    calls = count_calls(server, row, folder, client, requests)
    return [row.name, dearest(lines), often(calls, requests)]
