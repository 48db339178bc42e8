"""Runs `drop migrate` on the office files of version 1 that are kept in ci/version1, and on damaged copies of them.

A program of version 1 made them and answered requests on each (ci/make_version1.py, ci/kept.py): what it wrote then is expected
now, byte for byte. Fault lines come from docs/USE.md, and Python's `sqlite3` reads the tables.
"""

import functools
import random
import re
import shutil
import signal
import subprocess
import time

import pytest

import kit
import tables
from expected import ID, MOMENT
from kept import VERSION_1, Kept, all_kept
from messages import get
from program import (
    CANNOT_OPEN, CANNOT_WRITE, CLERK, DAMAGED, EXISTS, LINK, SAID_DONE, VERSION, difference, fault, full_disk, not_offices, stock,
)

REFUSED = fault("the store refused")
LEAST_PAGE = 512  # bytes of a page, in a journal or elsewhere
KILLS = 20
KILLED = ["many", "sizes"]
OF_EACH = pytest.mark.parametrize("kept", all_kept(), ids=lambda it: it.name)


def migrate(drop, file, **how):
    return drop.run("migrate", file, **how)


def copied(drop, kept, name=""):
    return kept.copied(drop.path(f"{kept.name}{name}"))


def looked_at(file):
    """A copy of an office file, with its journal, that other programs may open."""
    folder = file.with_name("looked-at")
    shutil.rmtree(folder, ignore_errors=True)
    folder.mkdir()
    for it in file.parent.glob(f"{file.name}*"):
        if it.is_file():
            shutil.copy(it, folder)
    return folder / file.name


def content(file):
    """All that the tables hold, and how they were created."""
    return tables.dump(looked_at(file))


def rows_of(file):
    """The rows of the tables of version 1."""
    copy = looked_at(file)
    return {name: sorted(tables.rows(copy, f"SELECT * FROM {name}")) for name in tables.OF_VERSION_1}


def is_at_rest(file):
    """Whether the journal holds no page and is of the office's kind: then reading writes nothing to the file."""
    journal = file.with_name(f"{file.name}-wal")
    return file.read_bytes()[18:20] == b"\2\2" and (not journal.exists() or journal.stat().st_size < LEAST_PAGE)


def left(file):
    """What must not change: all that the tables hold, and the bytes of a file at rest."""
    return content(file), file.read_bytes() if is_at_rest(file) else None


def other(found, owed):
    """How what was left differs from what is expected, in words, or None."""
    return None if found == owed else "the tables were changed" if found[0] != owed[0] else "the bytes were changed"


# ---- the answers of a migrated office


def refused_by_each(drop, file):
    """The run of each command on an office file that it can't open."""
    place = ["--key", ID, "--host", LINK["host"], "--region", LINK["region"]]
    stream = file.with_name("stream")
    stream.write_bytes(get(b"/in/a.txt"))
    words = [
        ["desk", file, "key add k9 link s3cr3t"], ["desk", file, "no command"], ["manifest", file], ["compare", file], ["links", file, *place],
        ["link", file, "GET", "in/a.txt", *place, "--start", MOMENT, "--expires", "1"], ["replay", file, stream, "--at", MOMENT],
        ["serve", file, "--listen", "127.0.0.1:0", "--connections", "1"],
    ]
    found = [drop.run(*it) for it in words]
    stream.unlink()
    return found


@OF_EACH
def test_unmigrated(drop, check, kept):
    """No command but `migrate` opens a file of version 1, and none changes it."""
    file = copied(drop, kept)
    before = left(file)
    for found in refused_by_each(drop, file):
        check("version 1", difference(found, VERSION))
    check("init", difference(drop.run("init", file, *CLERK), EXISTS))
    check("stays", other(left(file), before))


@OF_EACH
def test_rows(drop, check, kept):
    """The rows of version 1 are unchanged except for the version; new tables are those of a new office."""
    new = drop.office("new")
    texts = "SELECT name, sql FROM sqlite_schema WHERE name NOT LIKE 'sqlite_%' ORDER BY name"
    file = copied(drop, kept)
    before = rows_of(file)
    check("migrate", difference(migrate(drop, file), SAID_DONE))
    copy = looked_at(file)
    owed = before | {"office": [(1, 2, before["office"][0][2])]}
    check("rows", None if rows_of(file) == owed else "they were changed")
    found = [tables.rows(copy, f"SELECT * FROM {name}") for name in tables.NEW_TABLES]
    check("new tables", difference(found, [[(1, 0)], [], []]))
    check("how they were made", difference(tables.rows(copy, texts), tables.rows(new, texts)))
    said = stock(copy, "PRAGMA integrity_check; PRAGMA foreign_key_check")
    check("integrity_check", difference(said, "ok"))


@OF_EACH
def test_twice(drop, check, kept):
    """The manifest is that of version 1. Another `migrate` changes nothing."""
    file = copied(drop, kept)
    before, manifest = None, kit.Run(0, kept.manifest, b"")
    for time_of in ["once", "twice", "three times"]:
        check(f"migrate {time_of}", difference(migrate(drop, file), SAID_DONE))
        after = left(file)
        check(f"what it left {time_of}", other(after, before or after))
        check(f"manifest {time_of}", difference(drop.run("manifest", file), manifest))
        before = after


@OF_EACH
def test_answers(drop, check, kept):
    """Each request and each command line is answered as version 1 answered it."""
    file = copied(drop, kept)
    check("migrate", difference(migrate(drop, file), SAID_DONE))
    for number, asked in enumerate(kept.asked):
        found = asked.run(drop.program, file)
        check(f"{number}, {asked.words}", None if found == asked.came else f"{found} and not {asked.came}"[:2000])


def test_changed(drop, check):
    """A migrated office accepts the commands that are new, and another `migrate` keeps their effects."""
    file = copied(drop, Kept(VERSION_1 / "filled"))
    check("migrate", difference(migrate(drop, file), SAID_DONE))
    for line in ["key limit k2 in", "key limit k2 ends", "office allow 900"]:
        check(f"desk {line}", difference(drop.run("desk", file, line), SAID_DONE))
    before = left(file)
    check("migrate again", difference(migrate(drop, file), SAID_DONE))
    check("it stays", other(left(file), before))
    found = [tables.rows(looked_at(file), f"SELECT * FROM {name} ORDER BY 2") for name in tables.NEW_TABLES]
    check("its new tables", difference(found, [[(1, 900)], [("k2", "ends"), ("k2", "in")], []]))


def test_new(drop, check):
    """A file of version 2 stays unchanged."""
    for name, file in [("new", drop.office("new", "--allowance", "60")), ("filled", drop.filled("full"))]:
        before = content(file)
        bytes_before = file.read_bytes()
        check(f"migrate {name}", difference(migrate(drop, file), SAID_DONE))
        check(f"{name}: its tables stay", None if content(file) == before else "they were changed")
        check(f"{name}: its bytes stay", None if file.read_bytes() == bytes_before else "they were changed")


def test_output(drop, check):
    """If its output can't be written, the office is migrated nevertheless."""
    kept = Kept(VERSION_1 / "filled")
    file = copied(drop, kept)
    with full_disk() as full:
        check("a full disk", difference(migrate(drop, file, out=full), CANNOT_WRITE))
    check("its manifest", difference(drop.run("manifest", file), kit.Run(0, kept.manifest, b"")))


# ---- what is not migrated


def refused(drop, check, name, file, *owed):
    before = left(file)
    check(name, difference(migrate(drop, file), *owed))
    check(f"{name}, stays", other(left(file), before))


def test_broken(drop, check):
    """Breaks each rule of the tables of version 1, one at a time."""
    whole = copied(drop, Kept(VERSION_1 / "filled"))
    loosened = [it for it in tables.LOOSENED if it[0] in tables.OF_VERSION_1]
    cases = [(it.name, functools.partial(tables.run, statements=it.statements)) for it in tables.breaks_of_version_1()]
    for table, old, new, statement in loosened:
        cases.append((statement, functools.partial(tables.loosened, table=table, old=old, new=new, statement=statement)))

    def each(case):
        number, (name, damage) = case
        folder = drop.path(f"broken-{number}")
        folder.mkdir()
        file = folder / "office"
        shutil.copy(whole, file)
        damage(file)
        before = left(file)
        if before[0] == tables.dump(whole):
            return f"{name}: nothing was broken"
        owed = REFUSED if "RENAME COLUMN" in name else DAMAGED
        return difference(migrate(drop, file), owed) or other(left(file), before)

    for (name, _), wrong in zip(cases, kit.side_by_side(each, list(enumerate(cases)))):
        check(f"broken: {name}", wrong)


def test_mended(drop, check):
    """A file that was broken is refused, and once it is mended it is migrated."""
    kept = Kept(VERSION_1 / "filled")
    for number, mend in enumerate(tables.mends_of_both()):
        file = copied(drop, kept, f"-mended-{number}")
        rows = rows_of(file)
        tables.run(file, mend.breaks.split("; "))
        refused(drop, check, f"broken: {mend.breaks}", file, DAMAGED)
        tables.run(file, mend.mends.split("; "))
        check(f"mended: {mend.breaks}, the rows", None if rows_of(file) == rows else "they are others")
        check(f"mended: {mend.breaks}", difference(migrate(drop, file), SAID_DONE))
        check(f"mended: {mend.breaks}, the manifest", difference(drop.run("manifest", file), kit.Run(0, kept.manifest, b"")))


# Numbers out of range in tables that do not bar them.
LOOSE = [
    "UPDATE keys SET role = 7 WHERE id = 'k2'", "UPDATE keys SET revoked = 2 WHERE id = 'k2'", "UPDATE office SET east = 841",
    "UPDATE office SET east = -841", "UPDATE office SET id = 2", "INSERT INTO office VALUES (2, 1, 60)",
]


def loosened(drop, kept, name):
    """A copy without the CHECKs of two tables: then the engine does not notice numbers out of range, only the office does."""
    file = copied(drop, kept, name)
    for table in ["office", "keys"]:
        [(text,)] = tables.rows(file, "SELECT sql FROM sqlite_schema WHERE name = ?", table)
        tables.write_text(file, table, re.sub(r" CHECK \([^()]*\)", "", text))
        assert "CHECK" not in tables.rows(file, "SELECT sql FROM sqlite_schema WHERE name = ?", table)[0][0]
    return file


def test_loose(drop, check):
    kept = Kept(VERSION_1 / "filled")
    for number, line in enumerate(LOOSE):
        file = loosened(drop, kept, f"-loose-{number}")
        tables.run(file, [line])
        refused(drop, check, f"loose: {line}", file, DAMAGED)
    file = loosened(drop, kept, "-loose")
    check("loose, and whole", difference(migrate(drop, file), SAID_DONE))
    check("loose, the manifest", difference(drop.run("manifest", file), kit.Run(0, kept.manifest, b"")))


# Tables, views and indexes that have the name of a new table.
TAKEN = [
    *(f"CREATE TABLE {name} (id INTEGER PRIMARY KEY) STRICT" for name in tables.NEW_TABLES),
    "CREATE TABLE rules (id INTEGER NOT NULL PRIMARY KEY, allowance INTEGER NOT NULL) STRICT",
    "CREATE TABLE staged (part INTEGER NOT NULL PRIMARY KEY, bytes BLOB NOT NULL) STRICT",
    "CREATE TABLE KEY_BOX (id INTEGER PRIMARY KEY) STRICT",
]
TAKEN_OTHERWISE = [
    *(f"CREATE VIEW {name} AS SELECT 1" for name in tables.NEW_TABLES),
    *(f"CREATE INDEX {name} ON keys (role)" for name in tables.NEW_TABLES),
]


def test_taken(drop, check):
    """A file of version 1 in which the name of a new table is already used."""
    for number, statements in enumerate([*([it] for it in TAKEN), TAKEN[:3], *([it] for it in TAKEN_OTHERWISE)]):
        file = copied(drop, Kept(VERSION_1 / "filled"), f"-taken-{number}")
        tables.run(file, statements)
        refused(drop, check, f"{statements}", file, DAMAGED)


def test_versions(drop, check):
    """An unknown version is reported before all else; a file that says version 2 must have all its tables."""
    cases = [
        *((version, [], [VERSION]) for version in [7, 0, 3, -1, 2**62]), (2, [], [DAMAGED]),
        (7, ["UPDATE keys SET secret = x'20'"], [VERSION]), (7, ["DELETE FROM pieces"], [VERSION]),
        (7, ["DELETE FROM receipts WHERE number = 3"], [VERSION]), (7, ["CREATE TABLE rules (id INTEGER PRIMARY KEY) STRICT"], [VERSION]),
        # The engine refuses this before the version is read.
        (7, ["UPDATE keys SET role = 7 WHERE id = 'k2'"], [VERSION, DAMAGED]),
    ]
    for number, (version, others, owed) in enumerate(cases):
        file = copied(drop, Kept(VERSION_1 / "filled"), f"-version-{number}")
        tables.run(file, [f"UPDATE office SET version = {version}", *others])
        refused(drop, check, f"version {version} {others}", file, *owed)
    whole = drop.filled("whole")
    for number, (version, others, owed) in enumerate([
        (3, [], VERSION), (0, [], VERSION), (-1, ["UPDATE receipts SET length = 1048577 WHERE number = 3"], VERSION), (1, [], DAMAGED),
    ]):
        file = shutil.copy(whole, drop.path(f"new-version-{number}"))
        tables.run(file, [f"UPDATE office SET version = {version}", *others])
        refused(drop, check, f"tables of version 2 that say {version} {others}", file, owed)


def test_not_offices(drop, check):
    for file, owed in not_offices(drop):
        before = file.read_bytes() if file.is_file() else None
        check(f"{file.name}", difference(migrate(drop, file), owed))
        # opening an empty file makes it a database without tables
        well = not file.is_file() or file.read_bytes() == before or not before and not tables.rows(file, "SELECT * FROM sqlite_schema")
        check(f"{file.name} stays", None if well else "it was changed")
    check("no file", difference(migrate(drop, drop.path("gone")), CANNOT_OPEN))
    made = [it for it in ["nowhere", "gone"] if drop.path(it).exists()]
    check("nothing is made", difference(made, []))
    file = copied(drop, Kept(VERSION_1 / "filled"))
    before = left(file)
    with tables.opened(file) as db:
        db.execute("BEGIN EXCLUSIVE")
        check("a file that is held", difference(migrate(drop, file), CANNOT_OPEN))
    check("it stays", other(left(file), before))


# ---- kills


def killed_at(drop, file, seconds):
    """Kills `drop migrate` after this many seconds. Returns whether it had ended by then."""
    process = subprocess.Popen([drop.program, "migrate", file], cwd=drop.folder, stdout=subprocess.PIPE, stderr=subprocess.PIPE)
    time.sleep(seconds)
    process.send_signal(signal.SIGKILL)
    process.communicate()
    return process.returncode == 0


def fault_behind(drop, file, kept, old):
    """What is wrong with a file that a kill left: it must be the whole old one or the whole new one, and can be migrated."""
    copy = looked_at(file)
    version = tables.rows(copy, "SELECT version FROM office")
    manifest = kit.Run(0, kept.manifest, b"")
    if version == [(1,)]:
        wrong = [None if content(file) == old else "it is of version 1, and not the old one", difference(drop.run("manifest", copy), VERSION)]
    else:
        wrong = [difference(version, [(2,)]), difference(drop.run("manifest", copy), manifest)]
    wrong += [difference(migrate(drop, file), SAID_DONE), difference(drop.run("manifest", file), manifest)]
    return next(filter(None, wrong), None)


def test_kills(drop, check):
    """Kills the program at random moments of its work."""
    seed = random.SystemRandom().randrange(10**9)
    source, versions = random.Random(seed), []
    print(f"the seed is {seed}")
    for kept in (Kept(VERSION_1 / name) for name in KILLED):
        file = copied(drop, kept)
        old = content(file)
        began = time.monotonic()
        check(f"{kept.name}: migrate", difference(migrate(drop, file), SAID_DONE))
        whole = time.monotonic() - began
        for number in range(KILLS // len(KILLED)):
            file = copied(drop, kept, f"-{number}")
            ended = killed_at(drop, file, source.uniform(0, whole))
            versions.append((ended, tables.rows(looked_at(file), "SELECT version FROM office")[0][0]))
            check(f"{kept.name}, kill {number} of seed {seed}", fault_behind(drop, file, kept, old))
    old_ones, new_ones = (sum(it == (False, version) for it in versions) for version in [1, 2])
    print(f"{len(versions)} kills: {old_ones} left the old file, {new_ones} the new one, {len(versions) - old_ones - new_ones} came too late")
