"""Kills the proved program `drop serve` in the midst of its work, fifty times over one office file.

Clients send requests in parallel, alongside idle and slow peers, until the program is killed after a random number of answers
and a random part of a request. Then `drop manifest` and Python's `sqlite3`, on a copy, must report the same about the file
that the kill left. What clients were told must be stored, and anything more must have been sent whole by a client that waited
for its answer. Then the program starts again, and each client repeats the request that got no answer.

Expected values come from what the clients sent and were told, and from Python's `hashlib` and `hmac` (ci/expected.py,
ci/listed.py). The seed is printed, and `--seed` sets it; `--kills` sets the number of kills.
"""

import collections
import concurrent.futures
import dataclasses
import functools
import hashlib
import random
import re
import shutil
import signal
import threading
import time

import tables
from expected import ID, LIMIT, OBEYED, SECRET, answer, fetched, quoted, receipt
from listed import read, receipts, unlike
from messages import get, post, put
from peers import Crowd, whole_answer
from program import difference, stock
from server import SECONDS, Server

CLIENTS = 6
IDLE, SLOW = 100, 20
MOST_ANSWERS = 160  # since the start of the program
LONGEST_PAUSE = 0.004  # seconds from an answer to the kill
MOST_ON_A_CONNECTION = 8
LEAST_RECEIPTS = 20  # told to clients, per kill
KEEPS, REPLACES = "in", "out.1-2"
PIECES = [tables.PIECE, tables.PIECE + 1, 2 * tables.PIECE, 300_000]
SHARED = 200
# The kinds of request, with their weights.
KINDS = {"new": 40, "large": 4, "shared": 8, "repeat": 10, "replace": 12, "other": 4, "fetch": 10, "head": 4, "key": 4,
         "drop": 4, "greatest": 2}


# ---- clients


@dataclasses.dataclass(frozen=True)
class Wish:
    """A request and its expected answer; None if that is a receipt, whose number the office assigns."""

    kind: str
    message: bytes
    owed: bytes | None = None
    place: tuple = ()
    data: bytes | None = None
    key: tuple = ()

    @functools.cached_property
    def row(self):
        """The box, name, length and digest in a receipt of this upload."""
        return *self.place, str(len(self.data)), hashlib.sha256(self.data).hexdigest()


class Client:
    """Sends one request after another, each after the previous answer was read, and remembers the one without an answer."""

    def __init__(self, name, seed, ledger):
        self.name, self.ledger = name, ledger
        self.source = random.Random(f"{seed} {name}")
        self.start = time.strftime("%Y%m%dT%H%M%SZ", time.gmtime(time.time() - 60))
        self.places = []
        self.wish, self.is_sent = None, False

    def work(self, server, killed):
        """Sends requests until the server is killed. Returns why, if it failed before that."""
        while True:
            try:
                self.ask_some(server, self.source.randint(1, MOST_ON_A_CONNECTION))
            except OSError as error:
                return None if killed.is_set() else f"{self.name}: {error}"

    def ask_some(self, server, most):
        with server.connect() as it, it.makefile("rb") as answers:
            for _ in range(most):
                self.ask(it, answers)

    def ask(self, it, answers):
        """Sends a new request, or repeats the one that was not answered."""
        self.wish = self.wish or self.next()
        self.is_sent = False
        it.sendall(self.wish.message)
        self.is_sent = True
        self.ledger.take(self.wish, whole_answer(answers, "HEAD" if self.wish.kind == "head" else "GET"))
        self.wish = None

    def next(self):
        kind = self.source.choices(list(KINDS), KINDS.values())[0]
        return getattr(self, kind)()

    # -- requests

    def upload(self, kind, place, data, owed=None):
        return Wish(kind, put(path_of(place), data, date=self.start), owed, place, data)

    def placed(self):
        """A new place that only this client uses."""
        self.places.append((KEEPS, f"{self.name}, é {len(self.places)}"))
        return self.places[-1]

    def standing(self):
        """One of this client's own places, and the file there, if any."""
        place = self.source.choice(self.places or [()])
        return place, self.ledger.standing.get(place)

    def new(self):
        return self.upload("new", self.placed(), self.source.randbytes(self.source.choice([0, 1, 100, 1000, 5000])))

    def large(self):
        return self.upload("large", self.placed(), self.source.randbytes(self.source.choice(PIECES)))

    def greatest(self):
        """A file of the greatest size, in place of this client's last one."""
        return self.upload("greatest", (REPLACES, f"{self.name}-greatest"), self.source.randbytes(LIMIT))

    def shared(self):
        """A file that every client puts."""
        number = self.source.randrange(SHARED)
        return self.upload("shared", (KEEPS, f"shared-{number}"), b"%d" % number * 99)

    def repeat(self):
        place, file = self.standing()
        return self.upload("repeat", place, file[1]) if file else self.new()

    def replace(self):
        place = REPLACES, f"{self.name}-{self.source.randrange(5)}"
        return self.upload("replace", place, self.source.randbytes(self.source.choice([10, 1000, 70_000])))

    def other(self):
        place, file = self.standing()
        return self.upload("other", place, file[1] + b"+", answer(31)) if file else self.new()

    def fetch(self):
        place, file = self.standing()
        return Wish("fetch", get(path_of(place), date=self.start), fetched(*file)) if file else self.new()

    def head(self):
        place, file = self.standing()
        return Wish("head", get(path_of(place), "HEAD", date=self.start), fetched(*file, "HEAD")) if file else self.new()

    def key(self):
        secret = f"{self.source.getrandbits(64):016x}"
        line = f"key add k-{secret} link {secret}"
        return Wish("key", post(line, date=self.start), OBEYED, key=(f"k-{secret}", 0, secret.encode(), 0))

    def drop(self):
        place, file = self.standing()
        return Wish("drop", post(f"file drop {' '.join(place)}", date=self.start), OBEYED, place) if file else self.new()


def path_of(place):
    return b"/" + quoted("/".join(place), "/")


# ---- what clients were told


class Ledger:
    """What the office told clients over all kills, and what was stored after a kill though no client was told."""

    def __init__(self):
        self.changed = threading.Condition()
        self.receipts = {}  # by number: what its receipt says
        self.standing = {}  # by place: the number and the bytes of its file
        self.keys = {(ID, 1, SECRET, 0)}
        self.last = 0  # the greatest number after the last kill
        self.answers = collections.Counter()
        self.told = self.untold = 0
        self.faults = []

    def wait_for(self, total):
        """Whether this many answers came in time."""
        with self.changed:
            return self.changed.wait_for(lambda: self.answers.total() >= total, 3 * SECONDS)

    def take(self, wish, found):
        """Records the answer to a client's request."""
        with self.changed:
            fault = self.upload(wish, found) if wish.owed is None else difference(found, wish.owed)
            self.faults += [f"{wish.kind} {wish.place}: {fault}"[:500]] if fault else []
            if wish.kind == "key":
                self.keys.add(wish.key)
            if wish.kind == "drop":
                self.standing.pop(wish.place, None)
            self.answers[wish.kind] += 1
            self.changed.notify_all()

    def upload(self, wish, found):
        """What is wrong with the answer to an upload."""
        digits = re.search(rb"receipt (\d+) ", found)
        number = int(digits[1]) if digits else 0
        if found != receipt(number, wish.data):
            return f"{found}"
        if not self.may_add(wish):
            return difference(number, self.standing[wish.place][0])
        if number <= self.last or number in self.receipts:
            return f"the number {number} was given before"
        self.told += 1
        self.add(wish, number)
        return None

    def may_add(self, wish):
        """Whether the place of this upload has other bytes or no file, so that a receipt is added."""
        return wish.owed is None and self.standing.get(wish.place, (0, None))[1] != wish.data

    def add(self, wish, number):
        self.receipts[number] = wish.row
        self.standing[wish.place] = number, wish.data

    # -- what a kill left

    def compare_receipts(self, rows, sent):
        """Faults of a manifest: its rows must be those told to clients, and those of uploads that were sent and not answered."""
        found = {int(row[0]): tuple(row[1:5]) for row in rows}
        if [int(row[0]) for row in rows] != list(range(1, len(rows) + 1)):
            yield f"the numbers are not 1 to {len(rows)}"
        for number in [number for number, row in self.receipts.items() if found.get(number) != row]:
            yield f"receipt {number} says {found.get(number)}, and a client was told {self.receipts[number]}"
        waiting = {wish.row: wish for wish in sent if self.may_add(wish)}
        for number in sorted(found.keys() - self.receipts.keys()):
            wish = waiting.pop(found[number], None)
            if wish is None:
                yield f"receipt {number} is of no upload that was sent: {found[number]}"
                continue
            self.untold += 1
            self.add(wish, number)
        self.last = len(rows)

    def compare_files(self, files, sent):
        """Faults in the numbers by place: each receipt's file must be stored, except one that a client may have dropped."""
        for wish in sent:
            if wish.kind == "drop" and wish.place not in files:
                self.standing.pop(wish.place, None)
        owed = {(place, number) for place, (number, _) in self.standing.items()}
        wrong = sorted(owed ^ set(files.items()))
        if wrong:
            yield f"{len(wrong)} files were lost, or stand too many: {wrong[:3]}"

    def compare_keys(self, keys, sent):
        asked = {wish.key for wish in sent if wish.kind == "key"}
        wrong = (self.keys - keys) | (keys - self.keys - asked)
        if wrong:
            yield f"{len(wrong)} keys were lost, or stand too many: {sorted(wrong)[:3]}"
        self.keys |= keys & asked


# ---- kills


def copied(drop, file):
    """A copy of the office file and of the files next to it."""
    folder = drop.path("copy")
    shutil.rmtree(folder, ignore_errors=True)
    folder.mkdir()
    for it in drop.folder.glob(f"{file.name}*"):
        shutil.copy(it, folder)
    return folder / file.name


def compared(drop, file, ledger, clients):
    """What is wrong with the office file as it is now. Also sets what the clients expect when they repeat a request."""
    copy = copied(drop, file)
    sent = [client.wish for client in clients if client.wish and client.is_sent]
    integrity = stock(copy, "PRAGMA integrity_check")
    found = drop.run("manifest", file)
    files = {row[:2]: row[2] for row in tables.rows(copy, "SELECT box, name, receipt FROM files")}
    keys = set(tables.rows(copy, "SELECT id, role, secret, revoked FROM keys"))
    faults = [difference(integrity, "ok"), unlike(found, list(receipts(copy)))]
    faults += ledger.compare_receipts(read(found.out)[1:], sent)
    faults += ledger.compare_files(files, sent)
    faults += ledger.compare_keys(keys, sent)
    for client in clients:
        client.wish = again(client.wish, files, keys)
    return faults


def again(wish, files, keys):
    """The same request, with refusal 36 expected if it is a desk command that was already done."""
    is_done = wish and (wish.kind == "key" and wish.key in keys or wish.kind == "drop" and wish.place not in files)
    return dataclasses.replace(wish, owed=answer(36)) if is_done else wish


def kill_once(drop, file, ledger, clients, source):
    """Serves the clients up to a random moment, and kills the program. Returns what is wrong then."""
    killed, total = threading.Event(), ledger.answers.total() + source.randrange(MOST_ANSWERS)
    pool = concurrent.futures.ThreadPoolExecutor(len(clients))
    with Server(drop, file, 10**6) as server, Crowd(server.connect, IDLE, SLOW), pool:
        works = [pool.submit(client.work, server, killed) for client in clients]
        came = ledger.wait_for(total)
        time.sleep(source.uniform(0, LONGEST_PAUSE))
        killed.set()
        server.process.send_signal(signal.SIGKILL)
        owed = dataclasses.replace(server.owed_end(False), status=-signal.SIGKILL)
        faults = [None if came else "the answers did not come", difference(server.end(), owed)]
        faults += [work.result() for work in works]
    faults += [*ledger.faults, *compared(drop, file, ledger, clients)]
    ledger.faults.clear()
    return "; ".join(filter(None, faults)) or None


def served_on(drop, file, ledger, clients, check):
    """Starts the program once more and lets it end: each client repeats its unanswered request, or sends a new one."""
    server = Server(drop, file, len(clients))
    with server:
        for client in clients:
            client.ask_some(server, 1)
        check("the end", difference(server.end(), server.owed_end(False)))
    faults = [*ledger.faults, *compared(drop, file, ledger, clients)]
    check("the office at the end", "; ".join(filter(None, faults)) or None)


def test_kills(drop, check, pytestconfig):
    """One office file over all kills, up to the first kill after which something is wrong."""
    kills, seed = pytestconfig.getoption("kills"), pytestconfig.getoption("seed")
    print(f"the seed is {seed}")
    file, ledger, source, waiting = drop.office("killed"), Ledger(), random.Random(seed), 0
    for name, mode in [(KEEPS, 0), (REPLACES, 1)]:
        tables.add_box(file, tables.Box(name, max_files=10**6, mode=mode))
    clients = [Client(f"client {number}", seed, ledger) for number in range(CLIENTS)]
    for number in range(1, kills + 1):
        fault = kill_once(drop, file, ledger, clients, source)
        waiting += sum(client.wish is not None for client in clients)
        check(f"kill {number} of seed {seed}", fault)
        if fault:
            return
    served_on(drop, file, ledger, clients, check)
    print(f"{kills} kills: {ledger.answers.total()} answers, {ledger.told} new receipts that clients were told, {ledger.untold} that "
          f"stood untold, {waiting} requests cut off")
    check("receipts that were told", None if ledger.told >= kills * LEAST_RECEIPTS else f"{ledger.told} are too few")
    check("requests that were cut off", None if waiting >= kills else f"{waiting} are too few")
    check("each kind of request", difference(sorted(ledger.answers), sorted(KINDS)))


