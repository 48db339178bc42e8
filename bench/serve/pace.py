"""Large files at the pace of an ordinary line, beside as many strangers at the same pace: how many are taken, how late, and how
soon small requests are answered meanwhile."""

import concurrent.futures
import contextlib
import dataclasses
import socket
import threading
import time

from clients import serving
from memory import memory_of
from peers import Peer
from servers import HOST, KIB, MOST, Drop, Row, body_of, names_of

MANY = 64  # honest senders, and strangers
PACE, PART = 150_000, 8192  # bytes a second; bytes sent at once
LARGE = Row("a large upload", "PUT", MOST, upload=True)
SMALL = Row("a small upload", "PUT", KIB, upload=True)
FETCHED = Row("a fetch", "GET", KIB)
TAKEN = (b"HTTP/1.1 200 ", b"HTTP/1.1 201 ")
PAUSE = 0.1  # seconds between small requests


@dataclasses.dataclass
class Paced:
    """What came of it: how many seconds late the files were that were taken, and the seconds that each small answer took."""

    late: list
    soon: list


def head_of(method, target, port, size=0):
    length = f"Content-Length: {size}\r\n" if method == "PUT" else ""
    return f"{method} {target} HTTP/1.1\r\nHost: {HOST}:{port}\r\n{length}\r\n".encode()


def at_pace(port, target, size):
    """Sends an upload at the pace of the line. Returns its answer, and how many seconds later than the line it came."""
    whole = head_of("PUT", target, port, size) + body_of(size)
    with contextlib.closing(socket.create_connection((HOST, port), 60)) as line:
        begun = time.monotonic()
        for at in range(0, len(whole), PART):
            line.sendall(whole[at:at + PART])
            time.sleep(max(0.0, begun + (at + PART) / PACE - time.monotonic()))
        found = line.recv(1 << 16)
        return found, time.monotonic() - begun - len(whole) / PACE


def late_or_none(port, target, size):
    """How late an upload was, or None if it was not taken."""
    with contextlib.suppress(OSError):
        found, late = at_pace(port, target, size)
        if found.startswith(TAKEN):
            return late
    return None


def small_requests(port, targets, is_over):
    """Asks for small uploads and fetches in turn until the others are through. Returns the seconds that each answer took."""
    took = []
    with Peer(lambda: socket.create_connection((HOST, port))) as peer:
        for method, target in targets:
            if is_over.is_set():
                break
            size = KIB if method == "PUT" else 0
            begun = time.monotonic()
            if not peer.ask(head_of(method, target, port, size) + body_of(size)).startswith(TAKEN):
                raise SystemExit("a small request was refused")
            took.append(time.monotonic() - begun)
            time.sleep(PAUSE)
    return took


def paced(server, port, targets, others, many):
    """Runs `many` senders of large files beside as many strangers, and small requests."""
    small = zip(server.targets(SMALL, names_of(SMALL, "small"), port), server.targets(FETCHED, names_of(FETCHED, "") * 20, port))
    mixed = (it for pair in small for it in zip(("PUT", "GET"), pair))
    is_over = threading.Event()
    with concurrent.futures.ThreadPoolExecutor(2 * many + 1) as pool:
        asked = pool.submit(small_requests, port, mixed, is_over)
        strange = [pool.submit(late_or_none, port, others[at % len(others)], MOST) for at in range(many)]
        late = [*pool.map(lambda target: late_or_none(port, target, MOST), targets[:many])]
        concurrent.futures.wait(strange)
        is_over.set()
        return Paced([it for it in late if it is not None], sorted(asked.result()))


def pace_row(server, folder, many):
    with serving(server, LARGE, folder, "pace") as (pid, port, file):
        targets = file.read_text().split()
        bad = [*server.targets(dataclasses.replace(LARGE, bad=True), ["strange"], port)]
        found = paced(server, port, targets, [*bad, bad[0].partition("?")[0], bad[0].replace("Credential=", "Credential=x")], many)
        memory = f"{memory_of(pid, 'VmHWM') >> 10}" if isinstance(server, Drop) else ""
    late = f"{max(found.late):.1f}" if found.late else ""
    slow = [found.soon[len(found.soon) * 99 // 100] * 1000, found.soon[-1] * 1000]
    return server.name, many, len(found.late), late, len(found.soon), *(f"{it:.0f}" for it in slow), memory


def pace_rows(servers, folder, many=MANY):
    return [pace_row(it, folder, many) for it in servers]


HEAD = ["Server", "Senders of 8 MiB", "Taken", "Latest, seconds behind its line", "Small answers", "99 in 100 within, ms", "The slowest, ms",
        "Greatest memory, MiB"]
