"""Runs the proved program `drop serve` with many peers at once: well-behaved clients together with idle and slow ones, with peers
that do what no client should, and when connections or descriptors run out; directly, with third-party programs, and through
nginx, as deploy/nginx.conf sets it up.

Expected values come from Python's `hashlib` and `hmac` (ci/expected.py) and the table of refusals in docs/RULES.md. An answer to
a well-behaved client may take 5 seconds, and the patience of the server is 30: so it waited for no peer.
"""

import concurrent.futures
import contextlib
import os
import pathlib
import re
import resource
import socket
import threading
import time

import kit
import tables
from browser import Browser
from expected import answer, fetched, receipt
from front import BREAK, asked
from kit import side_by_side
from listed import read
from messages import get, put
from nginx import HOST, Front, Office, certificate, paths_of
from peers import SOON, UNSIGNED, Client, Crowd, Peer, a_minute_ago, add_clients, facts
from program import difference
from server import Server, boto_client, curl, open_office

DEPLOY = kit.ROOT / "deploy"
PATIENCE = 30
IDLE, SLOW, CLIENTS, VISITS, ROUNDS = 300, 20, 8, 5, 4
AHEAD = 64  # MiB that bodies may take as they come, over all connections
ANSWERS = CLIENTS  # MiB of answers to clients that may be in transit, at most 1 MiB each
BODIES = 60
MANY = 2000
LARGE = b"l" * (8 << 20)
LARGE_FILES, LARGE_PEERS, LARGE_ROOM = 36, 12, 20  # files of the greatest size, connections, MB
LARGE_ALONE = 164  # MiB for one client with such files after another
FILES = ["a.txt", "a b/é.txt", "x+y=z&#%.bin"]  # for links by boto3


def clients(connect, visits=VISITS, **how):
    return [Client(connect, number, visits, ROUNDS, **how) for number in range(CLIENTS)]


def most_memory(process):
    """The peak memory of the process, in MiB."""
    text = pathlib.Path(f"/proc/{process.pid}/status").read_text()
    return int(re.search(r"VmHWM:\s*(\d+) kB", text)[1]) / 1024


def add_memory(check, name, server, alone):
    """A server's memory is at most that of one with clients one after another, plus what may be read ahead and in transit."""
    most = most_memory(server.process)
    print(f"{name}: {most:.0f} MiB, and {alone:.0f} for one client after another")
    check(f"{name}: the memory", f"{most:.0f} MiB" if most > alone + AHEAD + ANSWERS else None)


def add_office(drop, file, check, name, told):
    """Checks the office at the end: it has each receipt that clients got, from the first on, and no other."""
    numbers = list(range(1, len(told) + 1))
    check(f"{name}: the receipts", difference(told, numbers))
    rows = read(drop.run("manifest", file).out)[1:]
    check(f"{name}: the manifest", difference([int(row[0]) for row in rows], numbers))
    check(f"{name}: integrity", difference(tables.rows(file, "PRAGMA integrity_check"), [("ok",)]))


def is_let_go(it):
    """Whether this connection has ended."""
    it.setblocking(False)
    try:
        return it.recv(1, socket.MSG_PEEK) == b""
    except BlockingIOError:
        return False
    except ConnectionError:
        return True


def rest(it):
    """The remaining bytes of a connection, up to its end."""
    found = b""
    with contextlib.suppress(ConnectionError):
        while data := it.recv(1 << 20):
            found += data
    return found


# ---- a crowd


def memory_alone(drop, check):
    """The peak memory of a server whose clients come one after another."""
    file, told = open_office(drop, "alone"), []
    with Server(drop, file, CLIENTS * VISITS, PATIENCE) as server:
        for it in clients(server.connect):
            told += add_clients(check, f"client {it.number} alone", [it])
        most = most_memory(server.process)
        check("alone: the end", difference(server.end(), server.owed_end(False)))
    add_office(drop, file, check, "alone", told)
    return most


def many_at_once(server, number, date):
    """An upload and a hundred requests, sent in one piece, are answered in order. Returns what is wrong."""
    data = b"many at once"
    message = put(b"/in/many", data, date=date) + (get(b"/in/many", date=date) + UNSIGNED) * 50
    owed = receipt(number, data) + (fetched(number, data) + answer(9)) * 50
    return difference(server.ask(message), owed)


def test_crowd(drop, check):
    """Well-behaved clients are served soon despite idle and slow peers, and the program ends with its last connection."""
    alone, file = memory_alone(drop, check), open_office(drop, "crowd")
    with Server(drop, file, IDLE + SLOW + CLIENTS * VISITS + 1, PATIENCE) as server:
        with Crowd(server.connect, IDLE, SLOW):
            told = add_clients(check, "a crowd", clients(server.connect))
            check("many at once", many_at_once(server, len(told) + 1, a_minute_ago()))
            add_memory(check, "a crowd", server, alone)
        # if that took longer than the patience, the idle connections were closed and count as failed
        check("a crowd: the end", difference(server.end(), server.owed_end(False), server.owed_end(True)))
    add_office(drop, file, check, "a crowd", [*told, len(told) + 1])
    bodies_ahead(drop, check, alone)


@contextlib.contextmanager
def pushed(connect, message):
    """A connection on which these bytes are sent, as far as the other end reads them."""
    with connect() as it:
        def push():
            with contextlib.suppress(OSError):
                it.sendall(message)

        thread = threading.Thread(target=push, daemon=True)
        thread.start()
        yield it
        with contextlib.suppress(OSError):
            it.shutdown(socket.SHUT_RDWR)
        thread.join()


def bodies_ahead(drop, check, alone):
    """Peers that send the greatest body except its last byte delay nobody, and their memory is bounded in total."""
    file, message = open_office(drop, "bodies"), put(b"/in/large", LARGE, date=a_minute_ago())[:-1]
    with Server(drop, file, BODIES + CLIENTS, PATIENCE, room=AHEAD) as server, contextlib.ExitStack() as stack:
        for _ in range(BODIES):
            stack.enter_context(pushed(server.connect, message))
        time.sleep(1)
        told = add_clients(check, "beside bodies", clients(server.connect, 1))
        add_memory(check, "beside bodies", server, alone)
        stack.close()
        check("beside bodies: the end", difference(server.end(), server.owed_end(False), server.owed_end(True)))
    add_office(drop, file, check, "beside bodies", told)


def test_large(drop, check):
    """More files of the greatest size at once than there is room for, several on each connection: each is accepted, no connection
    is dropped, and the bodies take no more memory than the room."""
    file, date = open_office(drop, "large"), a_minute_ago()
    files = [bytes([number]) * len(LARGE) for number in range(LARGE_FILES)]

    def uploaded(first):
        told = []
        with Peer(server.connect) as peer:
            for number in range(first, len(files), LARGE_PEERS):
                found = peer.ask(put(b"/in/%d" % number, files[number], date=date))
                told += [int(it) for it in re.findall(rb"receipt (\d+) ", found)[:1] or [0]]
                check(f"large: file {number}", None if found == receipt(told[-1], files[number]) else f"{found[:300]}")
        return told

    with Server(drop, file, LARGE_PEERS, PATIENCE, room=LARGE_ROOM) as server, contextlib.ExitStack() as stack:
        pool = stack.enter_context(concurrent.futures.ThreadPoolExecutor(LARGE_PEERS))
        told = [it for some in pool.map(uploaded, range(LARGE_PEERS)) for it in some]
        most = most_memory(server.process)
        print(f"large: {most:.0f} MiB")
        check("large: the memory", f"{most:.0f} MiB" if most > LARGE_ALONE + LARGE_ROOM else None)
        check("large: the end", difference(server.end(), server.owed_end(False)))
    add_office(drop, file, check, "large", sorted(told))


# ---- bounds


def test_open(drop, check):
    """At the limit of open connections, the one is closed that is silent longest with nothing pending."""
    file, date = open_office(drop, "open"), a_minute_ago()
    ask, owed = get(b"/in/none", date=date), answer(34)
    with Server(drop, file, 8 + 3, PATIENCE, most_open=8) as server, contextlib.ExitStack() as stack:
        peers = [stack.enter_context(Peer(server.connect)) for _ in range(8)]
        for it in peers:
            check("open: each is answered", difference(it.ask(ask), owed))
            time.sleep(0.1)
        peers[0].socket.sendall(ask[:20])
        check("open: the second again", difference(peers[1].ask(ask), owed))
        time.sleep(0.5)
        check("open: one more", difference(server.ask(ask), owed))
        ended = [is_let_go(it.socket) for it in peers]
        check("open: who goes", difference(ended, [number == 2 for number in range(8)]))
        peers = [it for it in peers if it is not peers[2]]
        for it in peers:
            it.socket.setblocking(True)
        pending_at_bound(check, server, stack, peers, ask)
        stack.close()
        check("open: the end", difference(server.end(), server.owed_end(False)))


def pending_at_bound(check, server, stack, peers, ask):
    """If each connection has something pending, none is closed, and a new one waits until another has ended."""
    for it in peers[1:]:
        it.socket.sendall(ask[:20])
    eighth = stack.enter_context(Peer(server.connect))
    eighth.socket.sendall(ask[:20])
    last = stack.enter_context(Peer(server.connect))
    last.socket.sendall(ask)
    time.sleep(1)
    check("pending: nobody goes", difference([is_let_go(it.socket) for it in [*peers, eighth, last]], [False] * 9))
    peers[0].socket.setblocking(True)
    check("pending: the first ends", difference(peers[0].ask(ask[20:]), answer(34)))
    peers[0].socket.close()
    last.socket.setblocking(True)
    check("pending: the one that waited", difference(last.take(), answer(34)))


def test_last(drop, check):
    """Once all connections have come and one has not ended, the program goes on with that one and accepts no other."""
    file, ask = open_office(drop, "last"), get(b"/in/none", date=a_minute_ago())
    with Server(drop, file, 2, PATIENCE) as server, contextlib.ExitStack() as stack:
        first = stack.enter_context(Peer(server.connect))
        first.socket.sendall(ask[:20])
        check("last: the second", difference(server.ask(ask), answer(34)))
        other = stack.enter_context(Peer(server.connect))
        other.socket.sendall(ask)
        time.sleep(1)
        check("last: it goes on", None if server.process.poll() is None else "it has ended")
        other.socket.setblocking(False)
        with contextlib.suppress(BlockingIOError):
            check("last: what another is told", difference(other.socket.recv(1 << 16), None))
        check("last: the first", difference(first.ask(ask[20:]), answer(34)))
        first.socket.close()
        check("last: the end", difference(server.end(), server.owed_end(False)))


def seconds_of(process):
    """The processor time of the process, in seconds."""
    fields = pathlib.Path(f"/proc/{process.pid}/stat").read_text().rpartition(")")[2].split()
    return (int(fields[11]) + int(fields[12])) / os.sysconf("SC_CLK_TCK")


def test_descriptors(drop, check):
    """If descriptors run out, the longest silent connections are closed, new ones served soon, and the server doesn't spin."""
    file = open_office(drop, "descriptors")
    server = Server(drop, file, 100 + CLIENTS, PATIENCE)
    server.own = {"preexec_fn": lambda: resource.setrlimit(resource.RLIMIT_NOFILE, (64, 64))}
    with server, Crowd(server.connect, 100, 0) as crowd:
        told = add_clients(check, "few descriptors", clients(server.connect, 1))
        begun = seconds_of(server.process)
        time.sleep(4)
        taken = seconds_of(server.process) - begun
        check("few descriptors: it rests", f"{taken:.1f} of 4 seconds" if taken > 2 else None)
        gone = sum(is_let_go(it) for it in crowd.idle)
        check("few descriptors: some went", None if 36 < gone < 100 else f"{gone} of 100")
        for it in crowd.idle:
            it.close()
        check("few descriptors: the end", difference(server.end(), server.owed_end(False)))
    add_office(drop, file, check, "few descriptors", told)


def test_leaving(drop, check):
    """Two thousand connections open and close; requests sent meanwhile are answered."""
    file, date = open_office(drop, "leaving"), a_minute_ago()
    ask, owed = get(b"/in/none", date=date), answer(34)
    soft, hard = resource.getrlimit(resource.RLIMIT_NOFILE)
    wanted = max(soft, 2 * MANY)
    resource.setrlimit(resource.RLIMIT_NOFILE, (wanted if hard == resource.RLIM_INFINITY else min(wanted, hard), hard))
    with Server(drop, file, 10**6, PATIENCE) as server:
        idle, slowest = [], 0.0
        for number in range(MANY):
            idle.append(server.connect())
            if number % 100 == 0:
                slowest = max(slowest, add_ask(check, server, ask, owed))
        for it in idle:
            it.close()
        slowest = max(slowest, add_ask(check, server, ask, owed))
        check("leaving: the slowest answer", f"after {slowest:.1f} seconds" if slowest > SOON else None)


def add_ask(check, server, ask, owed):
    """Checks an answer on its own connection, and returns its seconds. If the connection was closed early, it is retried."""
    begun, found = time.monotonic(), b""
    for _ in range(3):
        with contextlib.suppress(ConnectionError):
            found = found or server.ask(ask)
    check("leaving: an answer", difference(found, owed))
    return time.monotonic() - begun


# ---- time limits


def pausing(pause, *parts):
    """A peer that sends these parts, with a pause in seconds between them, and then waits for the end."""
    def act(it):
        for part in parts[:-1]:
            it.sendall(part)
            time.sleep(pause)
        it.sendall(parts[-1])
        it.shutdown(socket.SHUT_WR)
        return rest(it)

    return act


def test_bounds(drop, check):
    """With a patience of 30 seconds, silence and heads may last 12; of a body, 65536 bytes must come within 10."""
    file, date = open_office(drop, "bounds"), a_minute_ago()
    ask, data = get(b"/in/none", date=date), b"b" * (3 << 16)
    message = put(b"/in/a", data, date=date)
    pieces = [message[at : at + (1 << 16)] for at in range(0, len(message), 1 << 16)]
    head = message.index(b"\r\n\r\n") + 4
    rows = [
        ("silence before", pausing(12, b"", ask), answer(34), 12), ("silence between", pausing(12, ask, ask), answer(34) * 2, 12),
        ("a head", pausing(12, ask[:1], ask[1:]), answer(34), 12), ("a body in pieces", pausing(5, *pieces), receipt(1, data), 15),
        ("a byte a second of a body", lambda it: a_byte_a_second(it, message[head:], message[:head]), b"", 10),
    ]
    with Server(drop, file, len(rows), PATIENCE) as server:
        for name, fault in all_at_once(server.connect, rows):
            check(f"bounds: {name}", fault)
        check("bounds: the end", difference(server.end(), server.owed_end(True)))


def all_at_once(connect, rows):
    """Runs these peers in parallel, each on its own connection, and returns their results."""
    results = []
    threads = [threading.Thread(target=lambda row=row: results.append(odd_result(connect, row)), daemon=True) for row in rows]
    for it in threads:
        it.start()
    for it in threads:
        it.join()
    return sorted(results) if len(results) == len(rows) else [("all of them", f"{len(results)} came to an end")]


# ---- peers that do what no client should

ODD_PATIENCE = 3


def a_byte_a_second(it, data, before=b""):
    """Sends `before`, then one byte of data a second until the connection ends or is reset. Returns what came on it."""
    it.sendall(before)
    it.settimeout(1.0)
    with contextlib.suppress(ConnectionError):
        for byte in data:
            it.sendall(bytes([byte]))
            with contextlib.suppress(TimeoutError):
                return it.recv(1)
        return b"all was taken"
    return b""


def takes_nothing(it, message):
    """Sends requests, and reads only after the patience is over. Returns whether what is left is less than a file."""
    it.sendall(message)
    time.sleep(ODD_PATIENCE + SOON)
    return len(rest(it)) < len(LARGE)


def takes_slowly(it, message):
    """Requests a file, and reads a megabyte of it per second, for longer than the patience."""
    it.sendall(message)
    it.shutdown(socket.SHUT_WR)
    found = b""
    for number in range(2 * ODD_PATIENCE):
        time.sleep(1)
        while len(found) < (number + 1) << 20 and (data := it.recv(1 << 16)):
            found += data
    return found + rest(it)


def sends(*parts):
    """A peer that sends these parts and nothing more."""
    def act(it):
        for part in parts:
            it.sendall(part)
        return rest(it)

    return act


def odd_peers(date):
    """Each peer with its name, what it does, its expected result, and the least number of seconds that takes."""
    large, ask = get(b"/in/large", date=date), get(b"/in/none", date=date)
    message = put(b"/in/new", b"n" * 100_000, date=date)
    head = UNSIGNED[:-2] + b"A: " + b"a" * (8193 - len(UNSIGNED) - 5) + b"\r\n\r\n"
    return [
        ("nothing", sends(), b"", ODD_PATIENCE),
        ("half a head", sends(ask[:-2]), b"", ODD_PATIENCE),
        ("a byte of a head", sends(b"G"), b"", ODD_PATIENCE),
        ("an answer, and half a head", sends(ask, ask[:-2]), answer(34), ODD_PATIENCE),
        ("half a body", sends(message[:-1]), b"", ODD_PATIENCE),
        ("a head of 8193 bytes", sends(head), answer(2), 0),
        ("8192 bytes without an end", sends(b"a" * 8192), answer(2), 0),
        ("a thousand requests, and one more", sends(UNSIGNED * 1001), answer(9) * 1000, 0),
        ("999 requests, and a part of one", sends(UNSIGNED * 999, UNSIGNED[:-2]), answer(9) * 999, ODD_PATIENCE),
        ("a byte a second", lambda it: a_byte_a_second(it, ask), b"", ODD_PATIENCE),
        ("takes no answer", lambda it: takes_nothing(it, large), True, ODD_PATIENCE),
        ("takes no answer, and asks on", lambda it: takes_nothing(it, large * 20), True, ODD_PATIENCE),
        ("takes its answer slowly", lambda it: takes_slowly(it, large), fetched(1, LARGE), 2 * ODD_PATIENCE),
    ]


def odd_result(connect, row):
    """The name of such a peer, and what is wrong with its result or with the time it took."""
    name, act, owed, least = row
    begun = time.monotonic()
    with connect(4096 if owed is True else None) as it:  # a peer that reads nothing gets a small receive buffer
        try:
            found = act(it)
        except OSError as error:
            found = error
    seconds = time.monotonic() - begun
    if found != owed:
        return name, f"{str(found)[:300]} and not {str(owed)[:300]}"
    is_wrong = seconds < least - 0.1 or seconds > least + 2 * SOON
    return name, f"it came to its end after {seconds:.1f} seconds" if is_wrong else None


def test_odd(drop, check):
    """Peers that do what no client should, all at once with well-behaved clients: each ends as expected, and delays nobody."""
    file, date = open_office(drop, "odd"), a_minute_ago()
    rows = odd_peers(date)
    with Server(drop, file, 10**6, ODD_PATIENCE) as server:
        check("odd: the large file", difference(server.ask(put(b"/in/large", LARGE, date=date)), receipt(1, LARGE)))
        with concurrent.futures.ThreadPoolExecutor() as pool:
            results = pool.submit(all_at_once, server.connect, rows)
            told = add_clients(check, "odd", clients(server.connect))
            told += beside_resets(server, check, date)
        for name, fault in results.result():
            check(f"odd: {name}", fault)
        check("odd: it goes on", difference(server.ask(get(b"/in/large", date=date)), fetched(1, LARGE)))
    add_office(drop, file, check, "odd", sorted([1, *told]))


def beside_resets(server, check, date):
    """Connections that are reset after part of an upload or during an answer, while well-behaved clients are served."""
    message, large = put(b"/in/reset", b"r" * 3000, date=date), get(b"/in/large", date=date)
    is_over = threading.Event()

    def reset():
        at = 0
        while not is_over.is_set():
            at += 7
            with contextlib.suppress(OSError), server.connect() as it:
                it.sendall(message[: at % len(message)] if at % 2 else large * (at % 3 + 1))
                it.setsockopt(socket.SOL_SOCKET, socket.SO_LINGER, BREAK)

    thread = threading.Thread(target=reset, daemon=True)
    thread.start()
    # names that differ from those of the earlier clients
    found = add_clients(check, "resets", [Client(server.connect, CLIENTS + number, 1, ROUNDS) for number in range(CLIENTS)])
    is_over.set()
    thread.join()
    return found


# ---- third-party programs


FETCH = """
const [method, url, body] = arguments, begun = performance.now();
return fetch(url, {method, body: method == "PUT" ? body : undefined})
  .then(async (it) => [it.status, await it.text(), performance.now() - begun]);
"""


class Link:
    """The links by boto3 for a name, and the expected answers."""

    def __init__(self, client, name):
        self.name, self.data = name, name.encode() * 20
        where = {"Bucket": "in", "Key": name}
        self.put, self.get = (client.generate_presigned_url(call, Params=where, ExpiresIn=600) for call in ["put_object", "get_object"])

    def fault(self, found):
        """What is wrong with the status and the text of the answers to the upload, to its repeat, and to the fetch."""
        number = int(told[1]) if (told := re.match(r"receipt (\d+) ", found[0][1])) else 0
        said = receipt(number, self.data).partition(b"\r\n\r\n")[2].decode()
        return difference(found, [(200, said), (200, said), (200, self.data.decode())])


def by_boto3(link, _):
    """Links used by Python's own HTTP client."""
    answers = [asked(link.put, "PUT", link.data), asked(link.put, "PUT", link.data), asked(link.get, "GET")]
    return link.fault([(status, body.decode()) for status, _, body in answers])


def by_curl(link, _):
    """Links used by curl, which fetches on the connection of its uploads."""
    wanted = ["--write-out", "\n%{http_code}\n", "-X", "PUT", "-H", "Expect:", "--data-binary", link.data, link.put]
    ran = curl("--path-as-is", *wanted, "--next", *wanted, "--next", "--write-out", "\n%{http_code}\n", link.get)
    parts = re.findall(r"(.*?)\n(\d{3})\n", ran.out.decode(), re.DOTALL)
    return link.fault([(int(status), text) for text, status in parts])


def by_chromium(link, browser):
    """Links used in a browser, by a page of the office itself, which is a refusal."""
    answers = [browser.js(FETCH, *words) for words in
               [("PUT", link.put, link.data.decode()), ("PUT", link.put, link.data.decode()), ("GET", link.get, "")]]
    slowest = max(it[2] for it in answers) / 1000
    late = f"an answer after {slowest:.1f} seconds" if slowest > SOON else None
    return link.fault([(status, text) for status, text, _ in answers]) or late


def test_programs(drop, check):
    """boto3, curl and chromium at once, directly at the office, with idle peers connected."""
    file, folder = open_office(drop, "programs"), drop.path("browser")
    folder.mkdir()
    with Server(drop, file, 10**6, PATIENCE) as server, Browser(folder) as browser:
        browser.ask("POST", "/url", {"url": f"http://{server.address}/"})
        client = boto_client(server)
        ways = [by_boto3, by_curl, by_chromium]
        links = {way: [Link(client, f"{way.__name__}-{number}-{name}") for number in range(5) for name in FILES] for way in ways}
        with Crowd(server.connect, 50, 0):
            found = side_by_side(lambda way: [way(link, browser) for link in links[way]], ways)
        for way, faults in zip(ways, found, strict=True):
            for link, fault in zip(links[way], faults, strict=True):
                check(f"{way.__name__}: {link.name}", fault)
    add_office(drop, file, check, "programs", list(range(1, sum(map(len, links.values())) + 1)))


# ---- through nginx


def test_front(drop, check):
    """The same crowd through nginx, which keeps connections to the office open, and so needs few of them."""
    file = open_office(drop, "office")
    certificate(drop.folder)
    paths = [*paths_of(drop, file), ("--connections 1000000", "--connections 100")]
    with Office(DEPLOY / "drop.service", drop.folder, paths) as office, Front(drop.folder, office.port) as front:
        folders = ["/etc/letsencrypt/live/HOST", "/etc/nginx/snippets", "/var/log/nginx", "/var/www"]
        places = [("/usr/share/drop/page", drop.folder / "drop"), *((it, drop.folder) for it in folders), ("HOST", HOST)]
        ran = kit.run([*front.configure(DEPLOY / "nginx.conf", places, drop.folder / "fullchain.pem"), "-t"])
        check("nginx takes the file", None if ran.status == 0 else f"{ran}")
        check("the office starts", office.start())
        front.start()
        with Crowd(front.connect, IDLE, SLOW):
            alike = {"is_alike": lambda found, owed: facts(found) == facts(owed)}
            told = add_clients(check, "through nginx", clients(front.connect, **alike))
        check("through nginx: the office goes on", None if office.process.poll() is None else "it has ended")
        office.stop()
    add_office(drop, file, check, "through nginx", told)
