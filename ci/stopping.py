"""What a program leaves in an office file and its journal wherever it stops: the calls that ci/calls.c records, and both files
as a stop after each of these calls may leave them.

A crash keeps what was written, or only what was synced, in either file or in both; and it may cut off the last write.
"""

import dataclasses
import itertools
import os
import pathlib
import shutil

import kit
import tables

SIDES = {"journal": "office-wal", "file": "office"}
EIGHTHS = range(1, 8)
PROCESSORS = len(os.sched_getaffinity(0))
ROOM = 64 << 20  # bytes, for the files of one process


# ---- calls


@dataclasses.dataclass(frozen=True)
class Call:
    """A recorded call: `write`, `cut` to the length `at`, `sync`, `send` of bytes without an offset, or the `stop` of a disk."""

    kind: str
    at: int
    data: bytes
    name: str

    def change(self, content, part=None):
        """Makes the change, or only this many bytes of the write."""
        data = self.data[:part]
        end = self.at + len(data)
        content.extend(bytes(max(0, end - len(content))))
        if self.kind == "cut":
            del content[end:]
        else:
            content[self.at:end] = data


def calls_in(record):
    """The calls that ci/calls.c recorded."""
    with open(record, "rb") as it:
        while line := it.readline():
            kind, at, length, name = line.removesuffix(b"\n").split(b" ", 3)
            yield Call(kind.decode(), int(at), it.read(int(length)), pathlib.Path(os.fsdecode(name)).name)


def files_of(file):
    """The bytes of both files. One that is missing is empty."""
    files = {side: file.with_name(name) for side, name in SIDES.items()}
    return {side: it.read_bytes() if it.exists() else b"" for side, it in files.items()}


class Recording:
    """A run of the program on an office file: what it said, its calls, and both files before and after it.

    `run` gets the arguments with which the program is to be started, and returns what it said. If `stops` is given, a side and
    a number, the disk of that side takes so many calls.
    """

    def __init__(self, file, run, stops=None):
        record = file.with_name("calls")
        self.begun = files_of(file)
        with open(record, "wb") as told:
            env = {"LD_PRELOAD": kit.library("ci/calls.c"), "CALLS_TOLD_TO": str(told.fileno()), "PATH": os.defpath}
            self.said = run({"env": env | stopping(file, stops), "pass_fds": [told.fileno()]})
        self.calls = list(calls_in(record))
        self.left = files_of(file)
        self.changes = {side: [it for it in self.calls if it.name == name and it.kind in ["write", "cut"]]
                        for side, name in SIDES.items()}

    def has_stopped(self):
        return any(it.kind == "stop" for it in self.calls)

    def content(self, side):
        return Content(self.begun[side], self.changes[side])

    def faults(self):
        """What is wrong with the record."""
        for side in SIDES:
            made = self.content(side).at(len(self.changes[side]), 0)
            yield f"the calls on the {side}", None if made == self.left[side] else "they make another file"
        strays = {it.name for it in self.calls if it.kind == "send" and it.name in SIDES.values()}
        yield "writes without a place", f"{strays}" if strays else None


def stopping(file, stops):
    """The variables that stop a disk."""
    if not stops:
        return {}
    side, spared = stops
    return {"CALLS_STOPPED": str(file.parent.resolve() / SIDES[side]), "CALLS_SPARED": str(spared)}


# ---- what they leave


@dataclasses.dataclass(frozen=True, order=True)
class Image:
    """The two files as a stop may leave them: for each, how many changes were made, and how many bytes of the next one."""

    journal: tuple
    file: tuple


class Content:
    """The bytes of one of the two files after any number of its changes."""

    def __init__(self, begun, changes):
        self.begun, self.changes = begun, changes
        self.made, self.data = 0, bytearray(begun)

    def at(self, made, part):
        if made < self.made:
            self.made, self.data = 0, bytearray(self.begun)
        for change in self.changes[self.made:made]:
            change.change(self.data)
        self.made = made
        if not part:
            return self.data
        torn = bytearray(self.data)
        self.changes[made].change(torn, part)
        return torn


def changed_part(old, new):
    """From which byte on, and up to which, these new bytes differ from the old ones, of which there may be fewer."""
    same = len(old)
    differ = int.from_bytes(old) ^ int.from_bytes(new[:same])
    first = same - -(-differ.bit_length() // 8)
    if same < len(new):
        return first, len(new)
    return first, same - ((differ & -differ).bit_length() - 1) // 8 if differ else first


class Stops:
    """What a recorded run leaves wherever it stops: for each image, the fewest and the most of these answers sent by then.

    It is stopped after only one in `step` writes to the office file. A write is cut off after each eighth of the bytes that it
    changes: each write to the journal, and one in `torn` to the office file; none if `torn` is 0.
    """

    def __init__(self, ran, answers, step=1, torn=1):
        self.answers, self.step, self.torn = answers, step, torn
        self.made = dict.fromkeys(SIDES, 0)
        self.synced = dict.fromkeys(SIDES, 0)
        self.contents = {side: bytearray(data) for side, data in ran.begun.items()}
        self.sent, self.told, self.behind = b"", 0, 0
        self.calls = 0  # on the two files
        self.images, self.last = {}, []  # all images, and those of the last stop
        self.written, self.kept = [], []  # images with all that was written, and with only what was synced, in order
        self.stop()
        for call in ran.calls:
            self.go_on(call)
            if not self.is_passed_over(call):
                self.stop()

    def is_passed_over(self, call):
        return call.name == SIDES["file"] and call.kind == "write" and self.made["file"] % self.step != 0

    def go_on(self, call):
        side = next((side for side, name in SIDES.items() if name == call.name), None)
        if call.kind == "send":
            self.send(call.data)
        if not side or call.kind == "stop":
            return
        self.calls += 1
        if call.kind == "sync":
            self.synced[side] = self.made[side]
        else:
            self.tear(side, call)
            self.made[side] += 1
            call.change(self.contents[side])

    def send(self, data):
        """Counts the answers that are sent whole, in order."""
        self.sent += data
        while self.told < len(self.answers):
            at = self.sent.find(self.answers[self.told], self.behind)
            if at < 0:
                break
            self.behind = at + len(self.answers[self.told])
            self.told += 1

    def leave(self, **sides):
        image = Image(**sides)
        fewest, most = self.images.get(image, (self.told, self.told))
        self.images[image] = min(fewest, self.told), max(most, self.told)
        return image

    def stop(self):
        """Leaves each file as it was written, or without what was not synced."""
        self.last = []
        for journal, file in itertools.product([self.made, self.synced], repeat=2):
            image = self.leave(journal=(journal["journal"], 0), file=(file["file"], 0))
            self.last.append(image)
            if journal is file:
                (self.written if file is self.made else self.kept).append(image)

    def tear(self, side, call):
        """Leaves the files with this write cut off."""
        if call.kind == "cut" or not self.torn or side == "file" and self.made[side] % self.torn:
            return
        first, last = changed_part(self.contents[side][call.at:call.at + len(call.data)], call.data)
        for eighth in EIGHTHS:
            sides = {it: (made, 0) for it, made in self.made.items()}
            sides[side] = self.made[side], first + (last - first) * eighth // 8
            self.leave(**sides)


def is_in_order(line, last):
    """Why these states, of images in order, don't go from the first to the last without a step back, or None."""
    return None if line == sorted(line) and (line[0], line[-1]) == (0, last) else f"it comes and goes: {line}"[:500]


# ---- what is found


def rows_of(file):
    """All rows of each table, and whether the engine finds the file sound. It opens the file as a crash left it."""
    with tables.opened(file) as db:
        sound = db.execute("PRAGMA integrity_check").fetchall()
        names = [name for name, in db.execute("SELECT name FROM sqlite_schema WHERE type = 'table' ORDER BY name")]
        return {"sound": sound} | {name: sorted(db.execute(f"SELECT * FROM {name}")) for name in names}


def memory():
    """A folder in memory, if it has room, because all that is built is synced; else None."""
    shared = pathlib.Path("/dev/shm")
    return shared if shared.is_dir() and shutil.disk_usage(shared).free >= (PROCESSORS + 2) * ROOM else None
