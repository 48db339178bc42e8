"""Runs of `drop` whose input comes in pieces or breaks off, or whose output is taken in pieces or not at all (ci/pieces.c)."""

import dataclasses
import os
import struct
import tempfile

import kit
from expected import MOMENT
from program import FAILED, IN_MEMORY

TOLD = struct.Struct("6q")


@dataclasses.dataclass(frozen=True)
class Pieces:
    """What bounds or refuses calls, by the names of ci/pieces.c: None if nothing does."""

    read: int | None = None
    cut: int | None = None
    read_fails: int | None = None
    write: int | None = None
    room: int | None = None
    write_fails: int | None = None
    write_stops: int | None = None

    def variables(self):
        given = dataclasses.asdict(self).items()
        return {f"PIECES_{name.upper()}": str(value) for name, value in given if value is not None}


WHOLE = Pieces()


@dataclasses.dataclass(frozen=True)
class Told:
    """A run; its reads of the input and its writes to standard output; the bytes of both, of the first and the last write."""

    run: kit.Run
    reads: int
    given: int
    writes: int
    taken: int
    first: int
    last: int


def run(drop, words, how=WHOLE, source=None, **more):
    """Runs `drop` so. The input is the file `source`, or standard input."""
    env = {"LD_PRELOAD": str(kit.library("ci/pieces.c")), "PATH": os.defpath, **how.variables()}
    env |= {"PIECES_INPUT": os.path.realpath(source)} if source else {}
    told = os.memfd_create("told")
    try:
        os.write(told, bytes(TOLD.size))
        env["PIECES_TOLD_TO"] = str(told)
        ran = drop.run(*words, env=env, pass_fds=[told], **more)
        return Told(ran, *TOLD.unpack(os.pread(told, TOLD.size, 0)))
    finally:
        os.close(told)


def replay(drop, stream, how=WHOLE, *, times=1, before=b"", behind=b"", file=IN_MEMORY, at=MOMENT):
    """Replays the stream so, as often. Other streams that come whole may stand before it and behind it."""
    with tempfile.TemporaryDirectory(dir=drop.folder) as folder:
        names = [os.path.join(folder, name) for name in ["before", "stream", "behind"]]
        for name, data in zip(names, [before, stream, behind]):
            with open(name, "wb") as it:
                it.write(data)
        words = ["replay", file, names[0], *[names[1]] * times, names[2], "--at", at]
        return run(drop, words, how, names[1])


def broken(out):
    """The run that answered this, and in which a connection failed."""
    return kit.Run(1, out, FAILED.err)


def until_failing(size, at_once):
    """The number of the read that fails once so many bytes were read, at most `at_once` per read."""
    return -(-size // at_once) + 1
