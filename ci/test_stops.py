"""Stops the proved program `drop` at each call that changes its files, while it takes an upload of the greatest size.

`drop serve` takes a new file, and `drop replay` one in place of another. ci/calls.c, loaded before the C library, records each
write, sync and change of length of the office file and of its journal. Then both files are built as a stop after each call may
leave them (ci/stopping.py; for `drop replay`, after only every eighth write to the office file): as they were written; without
what was not synced, in either or in both; and with a write cut off after each eighth of its bytes, for all writes to the journal
and some to the office file. For each such pair, the proved `drop manifest` must print what it would have printed before the
upload, or what it must print after it; and the latter, once the answer was sent. For some pairs, among them all with the office
file not yet written to, Python's `sqlite3` must find all rows of the tables in the same state, and `drop replay` must fetch the
uploaded file and another one in that state. ci/test_changes.py stops smaller changes.

Expected values come from the tables before the upload (ci/tables.py, ci/listed.py) and from Python's `hashlib`. `--size` sets
the number of bytes of the upload. Each pair of files is a row.
"""

import collections
import dataclasses
import itertools
import multiprocessing
import pathlib
import random
import shutil
import tempfile
import time

import pytest

import kit
import stopping
import tables
from expected import ID, MOMENT, answer, fetched, receipt
from listed import receipts, written
from messages import get, put
from program import Drop, answered, difference
from server import Server
from stopping import PROCESSORS, SIDES, rows_of

LARGE, TARGET = ("large", "a"), "large/a"
OTHER = ("ends", "y.txt")  # a file that the upload does not touch
TORN = 64  # one in this many writes to the office file is cut off
STEP = 8  # `drop replay` is stopped after one in this many writes to the office file
LOOKED = 32  # one in this many images is checked in all its rows
PARTS = 8  # the images are split into this many parts per processor


# ---- expected values


@dataclasses.dataclass(frozen=True)
class Stand:
    """The expected state of an office: its manifest, the rows of its tables, and the answers to fetches of the two files."""

    manifest: kit.Run
    rows: dict
    fetched: kit.Run


FETCHES = [get(f"/{'/'.join(it)}".encode()) for it in [LARGE, OTHER]]


def stand_of(file):
    """The expected state of the office in this file, a copy that only Python changes."""
    rows = rows_of(file)
    numbers = {row[:2]: row[2] for row in rows["files"]}
    pieces = collections.defaultdict(bytes)
    for in_box, name, _, data in rows["pieces"]:
        pieces[in_box, name] += data
    answers = [fetched(numbers[it], pieces[it]) if it in numbers else answer(34) for it in [LARGE, OTHER]]
    return Stand(kit.Run(0, written(receipts(file)), b""), rows, answered(*answers))


def put_anew(file, data, moment):
    """Writes what the upload must write: in place of the existing file, if there is one."""
    with tables.opened(file) as db:
        old = db.execute("SELECT COALESCE(SUM(length(bytes)), 0) FROM pieces WHERE (box, name) = (?, ?)", LARGE).fetchone()[0]
        db.execute("DELETE FROM pieces WHERE (box, name) = (?, ?)", LARGE)
        gone = db.execute("DELETE FROM files WHERE (box, name) = (?, ?)", LARGE).rowcount
        db.execute("UPDATE boxes SET used = used - ?, count = count - ? WHERE name = ?", (old, gone, LARGE[0]))
        tables.put_file(db, *LARGE, data, ID, moment)


# ---- an upload


class Upload:
    """An upload that the program took: the calls that it made, and the expected states before and after.

    `take` makes the program take it, and returns the answer. The receipt has the given moment, or else the current time.
    """

    def __init__(self, name, file, data, take, moment=None, step=1):
        self.name, self.data = name, data
        owed = file.with_name("owed")
        shutil.copy(file, owed)
        self.before = stand_of(owed)
        began = int(time.time())
        self.ran = stopping.Recording(file, lambda how: take(file, data, how))
        self.moment = tables.rows(file, "SELECT MAX(moment) FROM receipts WHERE box = ?", LARGE[0])[0][0]
        self.moments = [moment] if moment else range(began, int(time.time()) + 1)
        put_anew(owed, data, self.moment)
        self.after = stand_of(owed)
        self.stops = stopping.Stops(self.ran, [receipt(self.number(), data)], step, TORN)

    def number(self):
        return self.after.rows["receipts"][-1][0]

    # -- what was recorded

    def faults(self):
        """What is wrong with each of the required properties."""
        yield "the answer", difference(self.ran.said, receipt(self.number(), self.data))
        yield "the moment", None if self.moment in self.moments else f"{self.moment} is not in {self.moments}"
        yield from self.ran.faults()
        few = [side for side, changes in self.ran.changes.items() if sum(len(it.data) for it in changes) < len(self.data)]
        yield "writes of each page", f"too few of {few}" if few else None
        yield "the answer behind the journal, and before the file", self.order()

    def order(self):
        """Why no answer was sent, or one before the journal was synced; else None."""
        at = next((at for at, it in enumerate(self.ran.calls) if it.kind == "send" and b"\nreceipt " in it.data), None)
        if at is None:
            return "no answer was told"
        before = [it.kind for it in self.ran.calls[:at] if it.name == SIDES["journal"]]
        return None if before and before[-1] == "sync" else f"{before[-1:]}"


def by_serve(file, data, how):
    """Takes the upload over a socket."""
    server = Server(drop_of(file), file, 1)
    server.own = how
    message = server.message("PUT", TARGET, data)
    with server:
        said = server.ask(message)
        return difference(server.end(), server.owed_end(False)) or said


def by_replay(file, data, how):
    """Takes the upload from a file."""
    stream = file.with_name("stream")
    stream.write_bytes(put(f"/{TARGET}".encode(), data))
    ran = drop_of(file).run("replay", file, stream, "--at", MOMENT, **how)
    return ran.out if (ran.status, ran.err) == (0, b"") else ran


def drop_of(file):
    return Drop(kit.built("drop"), file.parent)


def new_office(folder, name):
    """A whole office, with a box for the upload."""
    (folder / name).mkdir()
    file = drop_of(folder / name / SIDES["file"]).filled(SIDES["file"])
    tables.add_box(file, tables.Box(LARGE[0], mode=1))
    return file


def uploads(folder, size):
    """A new file, sent to a server; and one in place of another, by replay."""
    new, old, other = (random.Random(it).randbytes(size) for it in ["new", "old", "other"])
    yield Upload("a new file, by serve", new_office(folder, "new"), new, by_serve)
    file = new_office(folder, "other")
    tables.add_file(file, *LARGE, old, ID)
    yield Upload("another file, by replay", file, other, by_replay, tables.M, STEP)


# ---- images


class Looker:
    """Builds images of an upload's files in its own folder, and checks them."""

    def __init__(self, upload, folder):
        self.upload = upload
        self.file = pathlib.Path(folder) / SIDES["file"]
        self.drop = drop_of(self.file)
        self.contents = {side: upload.ran.content(side) for side in SIDES}

    def build(self, image):
        for side, name in SIDES.items():
            self.file.with_name(name).write_bytes(self.contents[side].at(*getattr(image, side)))

    def fault(self, image, is_looked):
        """Whether the image has the state after the upload, and what is wrong with it."""
        self.build(image)
        found = self.drop.run("manifest", self.file)
        stands = [self.upload.before, self.upload.after]
        is_after = found == self.upload.after.manifest
        if found != stands[is_after].manifest:
            return is_after, f"{found}"[:2000]
        _, answers = self.upload.stops.images[image]
        if answers and not is_after:
            return is_after, "the upload was answered, and is not there"
        return is_after, self.look(image, stands[is_after]) if is_looked else None

    def look(self, image, stand):
        """What is wrong with the tables, or with what is fetched."""
        self.build(image)
        rows = rows_of(self.file)
        other = [name for name, owed in stand.rows.items() if rows[name] != owed]
        if other:
            return f"other rows of {other}"
        self.build(image)
        said = self.drop.replay(self.file, *FETCHES)
        return None if said == stand.fetched else f"fetched {said.status} {said.out[:300]} {said.err}"


def faults_of(work):
    """What is wrong with these images of an upload; some are checked in all their rows."""
    number, images = work
    with tempfile.TemporaryDirectory(prefix="drop-stops-", dir=stopping.memory()) as folder:
        looker = Looker(UPLOADS[number], folder)
        return [(image, *looker.fault(image, is_looked)) for image, is_looked in images]


def looked_at(images):
    """The images in order, with whether each is checked in all its rows."""
    return [(it, number % LOOKED == 0 or it.file == (0, 0)) for number, it in enumerate(sorted(images))]


def parts_of(images):
    size = -(-len(images) // (PARTS * PROCESSORS))
    return [images[at:at + size] for at in range(0, len(images), size)]


UPLOADS = []


@pytest.fixture(scope="module", autouse=True)
def taken(pytestconfig):
    """The uploads that the program took, in their own folder; the processes that check images have them too."""
    with tempfile.TemporaryDirectory(prefix="drop-stops-", dir=stopping.memory()) as folder:
        UPLOADS.extend(uploads(pathlib.Path(folder), pytestconfig.getoption("size")))
        yield
        UPLOADS.clear()


def test_taken(check):
    for upload in UPLOADS:
        for what, fault in upload.faults():
            check(f"{upload.name}, {what}", fault)


def test_stops(check):
    works = [(number, part) for number, upload in enumerate(UPLOADS) for part in parts_of(looked_at(upload.stops.images))]
    with multiprocessing.get_context("fork").Pool(PROCESSORS) as pool:
        found = pool.map(faults_of, works, chunksize=1)
    for number, upload in enumerate(UPLOADS):
        is_after = {}
        for image, after, fault in itertools.chain(*(it for work, it in zip(works, found) if work[0] == number)):
            is_after[image] = after
            check(f"{upload.name}, {image}", fault)
        for what, images in [("stops", upload.stops.written), ("crashes", upload.stops.kept)]:
            check(f"{upload.name}, {what}", stopping.is_in_order([int(is_after[it]) for it in images], 1))
        print(f"{upload.name}: {upload.stops.calls} calls, {len(is_after)} images")

