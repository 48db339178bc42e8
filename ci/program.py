"""The program `drop` with a folder for its files, its fault lines (docs/USE.md), and files that hold no office."""

import contextlib
import dataclasses
import os
import pathlib
import shutil
import subprocess
import tempfile

import kit
import tables
from expected import ID, MOMENT, SECRET

CLERK = ["--clerk", ID, "--secret", SECRET.decode()]
LINK = {"key": ID, "host": "files.example", "region": "us-east-1", "start": MOMENT, "expires": "604800"}
IN_MEMORY = f"memory:{ID}/{SECRET.decode()}"
DONE = kit.Run(0, b"", b"")
SAID_DONE = kit.Run(0, b"done\n", b"")


# ---- fault lines


def fault(line):
    return kit.Run(1, b"", f"drop: {line}\n".encode())


def malformed(value):
    return fault(f"malformed value: {value}")


CANNOT_OPEN = fault("cannot open the office file")
DAMAGED = fault("the office file is damaged")
VERSION = fault("the office file has another version")
EXISTS = fault("the office file exists already")
CANNOT_READ_SECRET = fault("cannot read the secret")
UNKNOWN = fault("the key is unknown")
FAILED = fault("a connection failed")
CANNOT_WRITE = fault("cannot write")


# ---- the program


def umasked(umask):
    """The argument that runs a program with this umask, if one is given."""
    return {"umask": umask} if umask is not None else {}


@dataclasses.dataclass(frozen=True)
class Drop:
    """The program, and a folder for its files."""

    program: pathlib.Path
    folder: pathlib.Path

    def run(self, *words, **how):
        return kit.run([self.program, *words], cwd=self.folder, **how)

    def init(self, file, *more, umask=None):
        return self.run("init", file, *CLERK, *more, **umasked(umask))

    def link(self, file, method, target, **values):
        return self.run("link", file, method, target, *(f"--{name}={value}" for name, value in (LINK | values).items()))

    def replay(self, file, *streams, at=MOMENT):
        """Runs `drop replay` on these streams, each in a file of its own."""
        names = []
        for stream in streams:
            handle, name = tempfile.mkstemp(dir=self.folder, prefix="stream-")
            os.write(handle, stream)
            os.close(handle)
            names.append(name)
        ran = self.run("replay", file, *names, "--at", at)
        for name in names:
            os.unlink(name)
        return ran

    def path(self, name):
        return self.folder / name

    def office(self, name, *more):
        """A new office file."""
        file = self.path(name)
        ran = self.init(file, *more)
        if ran != DONE:
            raise AssertionError(f"no office was made: {ran}")
        return file

    def filled(self, name):
        file = self.office(name)
        tables.fill(file, ID)
        return file


def difference(found, *owed):
    return None if found in owed else f"{found} and not {' or '.join(map(str, owed))}"


def shortened(found, owed):
    """The difference of two runs without its megabytes: from the first byte of the output on that differs."""
    if found == owed:
        return None
    same = len(os.path.commonprefix([found.out, owed.out]))
    parts = [(it.status, len(it.out), it.out[same:same + 80], it.err[:80]) for it in [found, owed]]
    return f"{parts[0]} and not {parts[1]}, from byte {same} on"


def answered(*answers):
    return kit.Run(0, b"".join(answers), b"")


def help_of(command):
    """The expected help of this command."""
    return (kit.ROOT / "ci" / f"{command}.help").read_bytes()


def help_lines(command):
    return [line.strip() for line in help_of(command).decode().splitlines()]


@contextlib.contextmanager
def closed_pipe():
    """A file to write to whose reader is gone."""
    heard, told = os.pipe()
    os.close(heard)
    try:
        yield told
    finally:
        os.close(told)


def full_disk():
    return open("/dev/full", "wb", buffering=0)


# ---- office files, and others


def stock(file, command):
    """What the command `sqlite3` prints."""
    words = [shutil.which("sqlite3") or "sqlite3", "-batch", str(file), command]
    return subprocess.run(words, capture_output=True, text=True, check=False).stdout.strip()


def other_program(file):
    with tables.opened(file) as db:
        db.execute("CREATE TABLE notes (id INTEGER PRIMARY KEY, text TEXT)")
        db.execute("INSERT INTO notes (text) VALUES ('mine')")


def not_offices(drop):
    """Files that hold no office, each with the expected fault."""
    empty, text, folder, other = (drop.path(f"no-office-{name}") for name in ["empty", "text", "folder", "other"])
    empty.touch()
    text.write_bytes(b"not a database\n" * 1000)
    folder.mkdir()
    other_program(other)
    dangling = drop.path("no-office-dangling")
    dangling.symlink_to(drop.path("nowhere"))
    return [(empty, DAMAGED), (text, CANNOT_OPEN), (folder, CANNOT_OPEN), (other, DAMAGED), (dangling, CANNOT_OPEN)]
