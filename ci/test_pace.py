"""Runs the proved program `drop serve` with large files at the pace of an ordinary line, beside more strangers who send as much
without a good link. Each file is taken, in no more time than its line needs, and no small request waits for a file.

Expected values come from Python's `hashlib` and `hmac` (ci/expected.py) and the table of refusals in docs/RULES.md.
"""

import concurrent.futures
import contextlib
import os
import pathlib
import re
import subprocess
import threading
import time

from expected import ID, MOMENT, SECRET, answer, fetched, receipt
from messages import get, put
from peers import SOON, Peer, a_minute_ago
from program import difference
from server import Server, open_office
from test_crowd import add_office

PATIENCE = 30
SIZE, PACE, PART = 8 << 20, 150_000, 8192  # bytes; bytes a second; bytes sent at once
HONEST = 4
LATE = 5.0  # how many seconds a file may take beyond what its line needs
OWN = 128 << 10  # the bytes that a refused body may take
ROOM = 64  # MB for bodies that come
SHORT = 3.0  # seconds for 65536 bytes of a body, while another waits for room
OTHER = "OTHERSECRET"


def strangers(date):
    """The messages of strangers, each with a whole body, and what they get: a wrong signature, no link, an unknown key."""
    body = b"s" * SIZE
    unsigned = b"PUT /in/s HTTP/1.1\r\nHost: files.example\r\nContent-Length: %d\r\n\r\n" % SIZE + body
    return [
        (put(b"/in/s", body, date=date, key=(ID, OTHER.encode())), answer(21)),
        (unsigned, answer(9)),
        (put(b"/in/s", body, date=date, key=("nobody", SECRET)), answer(19)),
    ]


def at_pace(connect, message):
    """Sends a message at the pace of the line. Returns its answer, and how many seconds that took."""
    with Peer(connect) as peer:
        begun = time.monotonic()
        for at in range(0, len(message), PART):
            peer.socket.sendall(message[at:at + PART])
            time.sleep(max(0.0, begun + (at + PART) / PACE - time.monotonic()))
        return peer.take(), time.monotonic() - begun


def number_of(found):
    """The number of the receipt in an answer, or 0."""
    return int((re.search(rb"receipt (\d+) ", found) or [b"", b"0"])[1])


def taken_by(process):
    """The memory that the process has taken, in bytes, page by page: the sums in `status` are only about right."""
    text = pathlib.Path(f"/proc/{process.pid}/smaps_rollup").read_text()
    return int(re.search(r"Anonymous:\s*(\d+) kB", text)[1]) << 10


def small_requests(server, date, is_over, check):
    """Uploads and fetches of 1 KiB, one after another, until the others are through. Returns the numbers of the receipts."""
    told, slowest, data = [], 0.0, b"small" * 205
    with Peer(server.connect) as peer:
        while not is_over.is_set():
            begun = time.monotonic()
            path = b"/in/small%d" % len(told)
            found = peer.ask(put(path, data, date=date))
            number = number_of(found)
            check("small: the receipt", difference(found, receipt(number, data)))
            put_took, begun = time.monotonic() - begun, time.monotonic()
            check("small: the file", difference(peer.ask(get(path, date=date)), fetched(number, data)))
            told.append(number)
            slowest = max(slowest, put_took, time.monotonic() - begun)
            time.sleep(0.2)
    print(f"small: the slowest answer came after {slowest * 1000:.0f} ms")
    check("small: the slowest answer", f"after {slowest:.3f} s" if slowest > SOON else None)
    return told


def test_pace(drop, check):
    """Files at the pace of a line, beside strangers at the same pace."""
    file, date = open_office(drop, "pace"), a_minute_ago()
    files = [bytes([number]) * SIZE for number in range(HONEST)]
    others = strangers(date) * (HONEST // 2)

    def honest(number):
        found, took = at_pace(server.connect, put(b"/in/%d" % number, files[number], date=date))
        told = number_of(found)
        check(f"pace: file {number}", difference(found, receipt(told, files[number])))
        check(f"pace: file {number} in time", f"after {took:.1f} s" if took > SIZE / PACE + LATE else None)
        return told

    def stranger(message, owed):
        check("pace: a stranger", difference(at_pace(server.connect, message)[0], owed))

    with Server(drop, file, HONEST + len(others) + 1, PATIENCE, room=ROOM) as server:
        is_over = threading.Event()
        with concurrent.futures.ThreadPoolExecutor(HONEST + len(others) + 1) as pool:
            small = pool.submit(small_requests, server, date, is_over, check)
            strange = [pool.submit(stranger, *it) for it in others]
            told = [*pool.map(honest, range(HONEST))]
            for it in strange:
                it.result()
            is_over.set()
            told += small.result()
        check("pace: the end", difference(server.end(), server.owed_end(False)))
    add_office(drop, file, check, "pace", sorted(told))


def trickled(peer, data):
    """Sends 4 KiB each half second, until the server closes the connection. Whether it did within 20 seconds."""
    begun = time.monotonic()
    for at in range(0, len(data), 4096):
        time.sleep(0.5)
        try:
            peer.socket.sendall(data[at:at + 4096])
        except ConnectionError:
            return True
        if time.monotonic() - begun > 20:
            break
    return False


def test_room(drop, check):
    """Where there is room for one file only, one that comes too slowly gives up its room to one that waits."""
    file, date = open_office(drop, "room"), a_minute_ago()
    slow, quick = [put(b"/in/" + name, name * SIZE, date=date) for name in [b"s", b"q"]]
    with Server(drop, file, 2, PATIENCE, room=1) as server, Peer(server.connect) as first:
        first.socket.sendall(slow[:300_000])
        time.sleep(0.5)
        with concurrent.futures.ThreadPoolExecutor(1) as pool, Peer(server.connect) as second:
            is_cut, begun = pool.submit(trickled, first, slow[300_000:]), time.monotonic()
            check("room: the receipt", difference(second.ask(quick), receipt(1, b"q" * SIZE)))
            took = time.monotonic() - begun
            print(f"room: the one that waited had its receipt after {took:.1f} s")
            check("room: in time", f"after {took:.1f} s" if took > SHORT + SOON else None)
            check("room: the slow one", None if is_cut.result() else "it still has its room")
        check("room: the end", difference(server.end(), server.owed_end(True)))
    add_office(drop, file, check, "room", [1])


def test_stranger(drop, check):
    """A large body under a wrong signature is read, and takes no memory."""
    file, date = open_office(drop, "stranger"), a_minute_ago()
    key = (ID, OTHER.encode())
    large = put(b"/in/s", b"s" * (8 << 20), date=date, key=key)
    with Server(drop, file, 1, PATIENCE) as server, Peer(server.connect) as peer:
        check("stranger: a small body", difference(peer.ask(put(b"/in/s", b"s" * 300_000, date=date, key=key)), answer(21)))
        before = taken_by(server.process)
        peer.socket.sendall(large[:-1])
        time.sleep(0.5)
        taken = taken_by(server.process) - before
        print(f"stranger: {taken >> 10} KiB")
        check("stranger: the memory", f"{taken} bytes" if taken > OWN else None)
        peer.socket.sendall(large[-1:])
        check("stranger: the answer", difference(peer.take(), answer(21)))


def opened(pipe, reader):
    """The pipe, open for writing once the process reads it. An error if that has ended first."""
    while reader.poll() is None:
        with contextlib.suppress(OSError):
            found = os.open(pipe, os.O_WRONLY | os.O_NONBLOCK)
            os.set_blocking(found, True)
            return found
        time.sleep(0.01)
    raise AssertionError("the program ended before it read")


def held(drop, file, stream, owed, check):
    """The memory of `drop replay` in bytes, while the last byte of this stream is still to come through a pipe."""
    name = drop.path("stream")
    os.mkfifo(name)
    process = subprocess.Popen([drop.program, "replay", file, name, "--at", MOMENT], stdout=subprocess.PIPE)
    with open(opened(name, process), "wb") as pipe:
        pipe.write(stream[:-1])
        pipe.flush()
        time.sleep(0.5)
        taken = taken_by(process)
        pipe.write(stream[-1:])
    check("replayed: the answer", difference(process.communicate()[0], owed))
    name.unlink()
    return taken


def test_replayed(drop, check):
    """The same in `drop replay`: a large body takes no more memory than a small one."""
    file, key = drop.office("replayed"), (ID, OTHER.encode())
    small, large = [held(drop, file, put(b"/in/s", b"s" * size, key=key), answer(21), check) for size in [300_000, 8 << 20]]
    print(f"replayed: {(large - small) >> 10} KiB more")
    check("replayed: the memory", f"{large - small} bytes" if large - small > OWN else None)
