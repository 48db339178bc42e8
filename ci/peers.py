"""Many simultaneous peers of an office: clients that wait for each answer and measure its time, and peers that keep an office
waiting. They connect to `drop serve` itself, or to a server in front of it.
"""

import contextlib
import hashlib
import re
import threading
import time

from expected import OBEYED, answer, fetched, receipt
from messages import get, post, put

SECONDS = 60  # timeout of each wait
SOON = 5.0  # how long an answer may take if it waits for no other peer
SIZES = [0, 1, 100, 5000, 70_000, 1 << 20]
UNSIGNED = b"GET / HTTP/1.1\r\nHost: files.example\r\n\r\n"
DELETED = b"DELETE /in/a HTTP/1.1\r\nHost: files.example\r\n\r\n"
RECEIPT = re.compile(rb"\r\n\r\nreceipt (\d+) \d+ [0-9a-f]{64}\n\Z")
OWN_FIELDS = {b"Content-Type", b"Content-Length", b"X-Drop-Receipt", b"X-Drop-Sha256"}


def a_minute_ago():
    """The start of links that are used now, a minute ago."""
    return time.strftime("%Y%m%dT%H%M%SZ", time.gmtime(time.time() - 60))


def facts(found):
    """The status, the office's fields and the body of an answer, even if a server in front adds fields of its own."""
    head, _, body = found.partition(b"\r\n\r\n")
    first, *lines = head.split(b"\r\n")
    fields = dict(line.split(b": ", 1) for line in lines)
    return first.split()[1], {name: fields.get(name) for name in OWN_FIELDS}, body


def whole_answer(stream, method):
    """Reads the next answer."""
    head = b""
    while not head.endswith(b"\r\n\r\n"):
        line = stream.readline()
        if not line:
            raise ConnectionError("the connection ended in a head, or before it")
        head += line
    length = 0 if method == "HEAD" else int(re.search(rb"Content-Length: (\d+)", head)[1])
    body = stream.read(length)
    if len(body) < length:
        raise ConnectionError("the connection ended in a body")
    return head + body


class Peer:
    """A connection that waits for each answer, and how long the slowest one took."""

    def __init__(self, connect):
        self.socket, self.slowest, self.waiting = connect(), 0.0, b""
        self.socket.settimeout(SECONDS)

    def __enter__(self):
        return self

    def __exit__(self, *_):
        self.socket.close()

    def take(self, method="GET"):
        """Reads one answer, as long as its Content-Length says."""
        while not (cut := self.waiting.find(b"\r\n\r\n") + 4) > 3:
            self.more()
        length = re.search(rb"\r\nContent-Length: (\d+)\r\n", self.waiting[:cut])
        if not length:
            raise ConnectionError(f"no length in {self.waiting[:cut]!r}")
        size = cut + (0 if method == "HEAD" else int(length[1]))
        while len(self.waiting) < size:
            self.more()
        found, self.waiting = self.waiting[:size], self.waiting[size:]
        return found

    def more(self):
        data = self.socket.recv(1 << 16)
        if not data:
            raise ConnectionError(f"the end, behind {self.waiting[-200:]!r}")
        self.waiting += data

    def ask(self, *parts, method="GET"):
        """The answer to these bytes. Its time counts from the last part on."""
        for part in parts[:-1]:
            self.socket.sendall(part)
            time.sleep(0.01)
        begun = time.monotonic()
        self.socket.sendall(parts[-1])
        found = self.take(method)
        self.slowest = max(self.slowest, time.monotonic() - begun)
        return found


class Client(threading.Thread):
    """A client that behaves: on some connections, one after another, it uploads files in pieces, fetches them, is refused, and
    sends desk commands. Each expected answer is known, except for a receipt's number. `is_alike` compares two answers."""

    def __init__(self, connect, number, visits, rounds, sizes=None, is_alike=bytes.__eq__):
        super().__init__(daemon=True)
        self.connect, self.number, self.is_alike = connect, number, is_alike
        self.visits, self.rounds, self.sizes = visits, rounds, sizes or SIZES
        self.start_of_links = a_minute_ago()
        self.faults, self.receipts, self.slowest = [], [], 0.0

    def run(self):
        for visit in range(self.visits):
            try:
                with Peer(self.connect) as peer:
                    for step in range(self.rounds):
                        self.exchange(peer, visit, step)
                    self.slowest = max(self.slowest, peer.slowest)
            except (OSError, ValueError) as error:
                self.faults.append(f"client {self.number}, connection {visit}: {error!r}")

    def data(self, visit, step):
        """The bytes of the file of this step; no other step has the same, unless they are very few."""
        size = self.sizes[(self.number + visit + step) % len(self.sizes)]
        whole = hashlib.sha256(b"%d %d %d" % (self.number, visit, step)).digest() * (size // 32 + 1)
        return whole[:size]

    def exchange(self, peer, visit, step):
        """Requests with each method, and refusals."""
        path, data, date = b"/in/%d-%d-%d" % (self.number, visit, step), self.data(visit, step), self.start_of_links
        message = put(path, data, date=date)
        cut = len(message) - len(data) // 2
        found = peer.ask(*([message] if len(data) < 2 else [message[:cut], message[cut:]]))
        number = int(told[1]) if (told := RECEIPT.search(found)) else 0
        self.receipts.append(number)
        self.expect("PUT", found, receipt(number, data))
        self.expect("GET", peer.ask(get(path, date=date)), fetched(number, data))
        found = peer.ask(get(path, "HEAD", date=date), method="HEAD")
        self.expect("HEAD", found, fetched(number, data, "HEAD"))
        self.expect("the same PUT", peer.ask(message), receipt(number, data))
        self.expect("other bytes", peer.ask(put(path, data + b"x", date=date)), answer(31))
        line = f"key add k-{self.number}-{visit}-{step} link s3cr3t"
        self.expect("a command", peer.ask(post(line, date=date)), OBEYED)
        self.expect("the same command", peer.ask(post(line, date=date)), answer(36))
        self.expect("no signature", peer.ask(UNSIGNED), answer(9))
        self.expect("another method", peer.ask(DELETED), answer(7))

    def expect(self, what, found, owed):
        if not self.is_alike(found, owed):
            self.faults.append(f"client {self.number}, {what}: {found[:300]!r} and not {owed[:300]!r}")


def add_clients(check, name, clients):
    """Runs the clients in parallel; checks that each answer was right and came soon. Returns their receipts' numbers."""
    for it in clients:
        it.start()
    for it in clients:
        it.join()
    faults = [fault for it in clients for fault in it.faults]
    check(f"{name}: the answers", f"{len(faults)} are wrong, the first: {faults[0]}" if faults else None)
    slowest = max(it.slowest for it in clients)
    check(f"{name}: the slowest answer", f"after {slowest:.1f} seconds" if slowest > SOON else None)
    print(f"{name}: the slowest answer came after {slowest:.3f} s")
    return sorted(number for it in clients for number in it.receipts)


class Crowd:
    """Peers that keep an office waiting, inside `with`. Some are idle. Of the others, half send a byte per second of a head, and
    half of a body, which they never finish."""

    def __init__(self, connect, idle, slow):
        self.connect, self.numbers, self.is_over = connect, (idle, slow), threading.Event()

    def __enter__(self):
        idle, slow = self.numbers
        self.idle = [self.connect() for _ in range(idle)]
        self.slow = [self.connect() for _ in range(slow)]
        self.text = put(b"/in/slow", b"s" * 10_000, date=a_minute_ago())
        self.begun = self.text.index(b"\r\n\r\n") + 4
        for it in self.slow[::2]:
            it.sendall(self.text[: self.begun])
        self.thread = threading.Thread(target=self.go_on, daemon=True)
        self.thread.start()
        return self

    def go_on(self):
        at = 0
        while not self.is_over.wait(1.0):
            for kind, begin in [(self.slow[1::2], 0), (self.slow[::2], self.begun)]:
                for it in kind:
                    with contextlib.suppress(OSError):
                        it.sendall(self.text[begin + at : begin + at + 1])
            at += 1

    def __exit__(self, *_):
        self.is_over.set()
        self.thread.join()
        for it in [*self.idle, *self.slow]:
            it.close()
