"""Stops the proved program `drop` at each call that changes its files, for each kind of change to an office; and stops its disks.

The changes: a new office, uploads, each command of the desk, by `drop desk` and by request, sessions of several requests, and
migrations. ci/calls.c, loaded before the C library, records each write, sync and change of length of the office file and of its
journal. Then both files are built as a stop after each call may leave them (ci/stopping.py): as they were written; without what
was not synced, in either or in both; and with each write cut off after each eighth of the bytes that it changes. In each such
pair of files, the proved `drop manifest` and Python's `sqlite3` must find the state before the change or that after it; behind
an answer only that after it. If there is no office yet, or none that is migrated, the same command must succeed.

And the disk of each of the two files stops: it refuses its reads, writes, syncs and changes of length from the first one on,
from the second one on, and so on. The program must report that by refusal 40 or by a fault line. What it then leaves must have
the state behind the answers that it gave, or behind one more, also if all is lost that was not synced.

Expected values come from Python's changes to a copy of the tables (ci/steps.py, ci/listed.py). Each pair of files is a row, and
so is each stop of a disk.
"""

import contextlib
import dataclasses
import functools
import pathlib
import shutil
import tempfile

import pytest

import kit
import stopping
import tables
from expected import ID, MOMENT, OBEYED, SECRET, answer, fetched, receipt
from kept import VERSION_1, Kept
from listed import receipts, written
from messages import get, post, put
from program import CANNOT_OPEN, CLERK, DAMAGED, VERSION, Drop, difference, fault
from steps import Step, commands, states_of, take_out, uploads
from stopping import SIDES

FILE, STREAM = "FILE", "STREAM"  # in the words of a run
REFUSED = fault("the store refused")
BATCH = 16  # stops of a disk that are tried at once
MOST_CALLS = 2000  # of a disk, in one run


# ---- offices before a change


def new(file):
    assert Drop(kit.built("drop"), file.parent).init(file) == kit.Run(0, b"", b"")


def begun(file):
    """An office with a key and a box."""
    new(file)
    tables.add_key(file, "k2", b"s3cr3t")
    tables.add_box(file, tables.Box("in", mode=1))


def with_file(file):
    begun(file)
    tables.add_file(file, "in", "a.txt", b"abc", ID)


def limited(file):
    with_file(file)
    tables.limit_key(file, "k2", "in")
    tables.run(file, ["UPDATE rules SET allowance = 900"])


def of_version_1(name, file):
    for it in Kept(VERSION_1 / name).copied(file.parent / "kept").parent.iterdir():
        shutil.copy(it, file.with_name(it.name))


def migrated(name, file):
    of_version_1(name, file)
    assert kit.run([kit.built("drop"), "migrate", file]) == kit.Run(0, b"done\n", b"")


# ---- changes


# The tables' columns. Python makes its tables of them alone: rows are compared, and ci/test_migrate.py looks at the tables.
COLUMNS = {
    "office": "id, version, east", "keys": "id, role, secret, revoked",
    "boxes": "name, opens, closes, days, from_minute, to_minute, quota, max_files, mode, rule_kind, rule_text, used, count",
    "receipts": "number, box, name, length, digest, moment, key_id", "files": "box, name, receipt",
    "pieces": "box, name, part, bytes", "rules": "id, allowance", "key_box": "key_id, box", "staged": "part, bytes",
}


def make_tables(names, file):
    tables.run(file, [f"CREATE TABLE {name} ({COLUMNS[name]})" for name in names])


def make_office(file):
    make_tables(tables.TABLES, file)
    tables.run(file, ["INSERT INTO office VALUES (1, 2, 0)", "INSERT INTO rules VALUES (1, 0)"])
    tables.add_key(file, ID, SECRET, role=1)


def migrate(file):
    make_tables(tables.NEW_TABLES, file)
    tables.run(file, ["UPDATE office SET version = 2", "INSERT INTO rules VALUES (1, 0)"])


@dataclasses.dataclass(frozen=True)
class Change:
    """A run of the program: how the office before it is made, its words, and its steps in order. By default it is a replay."""

    name: str
    make: object
    steps: tuple
    words: tuple = ("replay", FILE, STREAM, "--at", MOMENT)

    @property
    def is_repeated(self):
        """Whether the words make an office, or one of this version: then they must do it after a stop, too."""
        return self.words[0] in ["init", "migrate"]

    @property
    def answers(self):
        return [it.owed for it in self.steps]

    @property
    def right(self):
        return kit.Run(0, b"".join(self.answers), b"")

    def run(self, file, how=None):
        """The result of the program on this file."""
        stream = file.with_name("stream")
        stream.write_bytes(b"".join(it.asked for it in self.steps))
        places = {FILE: file, STREAM: stream}
        return kit.run([kit.built("drop"), *(places.get(it, it) for it in self.words)], cwd=file.parent, **how or {})

    def done_by(self, said):
        """How many steps are done if a disk stopped and the program said this; None if it may not say that."""
        if said == self.right:
            return len(self.steps)
        for done in range(len(self.steps) + 1):
            front = b"".join(self.answers[:done])
            again = kit.Run(0, front + answer(40), b"")
            refused = [kit.Run(1, out, it.err) for it in [CANNOT_OPEN, REFUSED] for out in [front, again.out]]
            if said in [again, *refused]:
                return done
        return None


def desk(line, does):
    """A command of the desk, by the program's words."""
    return Change(f"desk {line}", with_file, (Step(b"", b"done\n", does),), ("desk", FILE, line))


def asks(name, *steps, make=with_file):
    return Change(name, make, steps)


ADD_KEY = commands("key add k3 clerk s3cr3t", "INSERT INTO keys VALUES ('k3', 1, CAST('s3cr3t' AS BLOB), 0)")
REVOKE_KEY = commands("key revoke k2", "UPDATE keys SET revoked = 1 WHERE id = 'k2'")
BOX = tables.Box("out", tables.OPENS, tables.CLOSES, quota=100, max_files=2, rule_kind=2, rule_text="a")
ADDS_BOX = "box add out 20130101T000000Z 20130601T000000Z 1111111 0000 2400 100 2 keep begins a"
ADD_BOX = Step(post(ADDS_BOX), OBEYED, functools.partial(tables.add_box, box=BOX))
CLOSE_BOX = commands("box close in 20130524T000001Z", f"UPDATE boxes SET closes = {tables.M + 1} WHERE name = 'in'")
LIMIT_KEY = commands("key limit k2 in", "INSERT INTO key_box VALUES ('k2', 'in')")
ALLOW = commands("office allow 900", "UPDATE rules SET allowance = 900")
DROP_FILE = Step(post("file drop in a.txt"), OBEYED, functools.partial(take_out, box="in", name="a.txt", length=3))
COMMANDS = {
    "key add k3 clerk s3cr3t": ADD_KEY, "key revoke k2": REVOKE_KEY, ADDS_BOX: ADD_BOX, "file drop in a.txt": DROP_FILE,
    "box close in 20130524T000001Z": CLOSE_BOX, "key limit k2 in": LIMIT_KEY, "office allow 900": ALLOW,
}
FIRST, UPLOAD = uploads(1, "in", "a.txt", b"abc"), uploads(2, "in", "b.txt", b"x")
REPLACE, REPEAT = uploads(2, "in", "a.txt", b"abd", b"abc"), Step(put(b"/in/a.txt", b"abc"), receipt(1, b"abc"))
LARGER, FETCH = uploads(2, "in", "a.txt", b"a" * 70000, b"abc"), Step(get(b"/in/a.txt"), fetched(1, b"abc"))
CHANGES = [
    Change("a new office", lambda file: None, (Step(b"", b"", make_office),), ("init", FILE, *CLERK)),
    asks("a new file", UPLOAD), asks("a file in place of another", REPLACE), asks("two pieces in place of a file", LARGER),
    asks("an upload again", REPEAT), asks("a fetch", FETCH), *(desk(line, step.does) for line, step in COMMANDS.items()),
    *(asks(f"asked: {line}", step) for line, step in COMMANDS.items()),
    asks("a file's life", FIRST, REPEAT, FETCH, DROP_FILE, make=begun), asks("a key and a file", ADD_KEY, UPLOAD, REVOKE_KEY),
    asks("boxes and another file", ADD_BOX, REPLACE, CLOSE_BOX), asks("a file more and one less", UPLOAD, FETCH, DROP_FILE),
    *(Change(f"migrate {name}", functools.partial(of_version_1, name), (Step(b"", b"done\n", migrate),), ("migrate", FILE))
      for name in ["filled", "killed"]),
    Change("migrate what is new", limited, (Step(b"", b"done\n"),), ("migrate", FILE)),
    asks("a session behind a migration", LIMIT_KEY, uploads(6, "in", "b.txt", b"x"), ALLOW, DROP_FILE,
         make=functools.partial(migrated, "filled")),
]
OF_EACH = pytest.mark.parametrize("change", CHANGES, ids=lambda it: it.name)


# ---- states


@dataclasses.dataclass(frozen=True)
class Stand:
    """A state of an office file: what `drop manifest` says of it, and all its rows."""

    manifest: kit.Run
    rows: dict


def stand_of(file):
    """The expected state of a file that only Python changes."""
    rows = stopping.rows_of(file)
    version = rows["office"][0][1] if "office" in rows else None
    manifest = {None: lambda: DAMAGED, 1: lambda: VERSION, 2: lambda: kit.Run(0, written(receipts(file)), b"")}[version]()
    return Stand(manifest, rows)


@dataclasses.dataclass(frozen=True)
class Left:
    """The bytes of the two files, in the order of `SIDES`."""

    journal: bytes
    file: bytes


class Looker:
    """Finds out in which of the expected states files are."""

    def __init__(self, change, folder):
        self.change, self.folder = change, folder
        self.office = folder / "before"
        self.office.mkdir()
        change.make(self.office / SIDES["file"])
        with self.placed() as file:
            self.stands = states_of(change.steps, file, stand_of)

    @contextlib.contextmanager
    def placed(self, left=None):
        """The files in a folder of their own: those before the change, or these."""
        with tempfile.TemporaryDirectory(dir=self.folder) as folder:
            for side, name in SIDES.items():
                data = getattr(left, side) if left else stopping.files_of(self.office / SIDES["file"])[side]
                if data:
                    (pathlib.Path(folder) / name).write_bytes(data)
            yield pathlib.Path(folder) / SIDES["file"]

    def last(self):
        """The number of the state behind the last step; steps that change nothing are not counted."""
        return self.stands.index(self.stands[-1])

    def find(self, left):
        """The state of these files, as the numbers of all that are like it; and what is wrong, or None."""
        with self.placed(left) as file:
            if not file.exists():
                file.touch()
            found = Stand(Drop(kit.built("drop"), file.parent).run("manifest", file), stopping.rows_of(file))
        states = [number for number, stand in enumerate(self.stands) if stand == found]
        return states, None if states else f"another state: {found}"[:1000]

    def fault(self, states, left, fewest, most):
        """What is wrong with files in these states, behind so many answers."""
        for told in [fewest, most]:
            if not {told, told + 1} & set(states):
                return f"state {states} behind {told} answers"
        return self.repeat(left) if self.change.is_repeated and 0 in states else None

    def repeat(self, left):
        """What is wrong if the words are said again, over files in the state before the change."""
        with self.placed(left) as file:
            wrong = difference(self.change.run(file), self.change.right)
            return wrong or (None if stopping.rows_of(file) == self.stands[-1].rows else "another office, when repeated")

    def looked(self, left, fewest, most):
        """The first of the states of these files, and what is wrong with them."""
        states, wrong = self.find(left)
        return min(states, default=None), wrong or self.fault(states, left, fewest, most)


@pytest.fixture
def looker(change):
    """The office before the change, in a folder of its own."""
    kit.library("ci/calls.c")
    with tempfile.TemporaryDirectory(prefix="drop-changes-", dir=stopping.memory()) as folder:
        yield Looker(change, pathlib.Path(folder))


# ---- stops of the program


def lefts(ran, images):
    """The two files of each image."""
    contents = {side: ran.content(side) for side in SIDES}
    sides = {image: [bytes(contents[side].at(*getattr(image, side))) for side in SIDES] for image in sorted(images)}
    return {image: Left(*files) for image, files in sides.items()}


def bounds_of(stops, files):
    """For each two files, the fewest and the most answers that were sent when they were left; several images may be alike."""
    bounds = {}
    for image, left in files.items():
        fewest, most = stops.images[image]
        before = bounds.get(left, (fewest, most))
        bounds[left] = min(before[0], fewest), max(before[1], most)
    return bounds


@OF_EACH
def test_stops(check, change, looker):
    with looker.placed() as file:
        ran = stopping.Recording(file, lambda how: change.run(file, how))
    check("what it says", difference(ran.said, change.right))
    for what, wrong in ran.faults():
        check(what, wrong)
    stops = stopping.Stops(ran, [it for it in change.answers if it])
    files = lefts(ran, stops.images)
    bounds = bounds_of(stops, files)
    looked = dict(zip(bounds, kit.side_by_side(lambda it: looker.looked(it, *bounds[it]), bounds)))
    names = {left: image for image, left in reversed(files.items())}
    for left, (_, wrong) in looked.items():
        check(f"{names[left]}", wrong)
    for what, images in [("stops", stops.written), ("crashes", stops.kept)]:
        check(what, stopping.is_in_order([looked[files[it]][0] for it in images], looker.last()))
    print(f"{change.name}: {stops.calls} calls, {len(stops.images)} images, {len(bounds)} of them different")


# ---- stops of a disk


def stopped(looker, side, calls):
    """Runs the change over a disk that takes so many calls. Returns whether it stopped, and what is wrong."""
    change = looker.change
    with looker.placed() as file:
        ran = stopping.Recording(file, lambda how: change.run(file, how), (side, calls))
    done = change.done_by(ran.said)
    if done is None:
        return ran.has_stopped(), f"{ran.said}"
    stops = stopping.Stops(ran, (), torn=0)
    for left in set(lefts(ran, stops.last).values()):
        state, wrong = looker.looked(left, done, done)
        if wrong or ran.said == change.right and state != looker.last():
            return ran.has_stopped(), f"{ran.said} {wrong or 'is not done'}"
    return ran.has_stopped(), None


def each_stop(looker, side):
    """What is wrong for each number of calls, up to the first number at which the disk does not stop; many run at once."""
    for first in range(0, MOST_CALLS, BATCH):
        numbers = range(first, first + BATCH)
        for number, (has_stopped, wrong) in zip(numbers, kit.side_by_side(lambda it: stopped(looker, side, it), numbers)):
            yield number, wrong
            if not has_stopped:
                return
    yield MOST_CALLS, "stops without end"


@pytest.mark.parametrize("side", SIDES)
@OF_EACH
def test_disks(check, change, side, looker):
    number = 0
    for number, wrong in each_stop(looker, side):
        check(f"the disk of the {side} takes {number} calls", wrong)
    print(f"{change.name}: the disk of the {side} stopped {number} times")
