"""Runs the proved program `drop` on office files that are damaged in rows, schema, pages or journal, and on files that it cannot
open.

The command `sqlite3` damages rows and schema, and bytes are changed by hand. The expected lines are those of docs/USE.md, 11: a
database whose pages or rows are wrong is damaged; a file that is no database, is held, or cannot be read cannot be opened.
"""

import contextlib
import os
import random
import re
import sqlite3
import struct

import pytest

import kit
import tables
from expected import ID
from messages import get
from program import CLERK, LINK, VERSION, difference, fault
from server import Server

PAGE, BLOCK = kit.ROOT / "docs" / "USE.md", 4096  # bytes of a page of the file


def line_of(words):
    """The fault line with these words, as docs/USE.md shows it."""
    [line] = re.findall(rf"^\| `drop: ([^`]*{words}[^`]*)` \|", PAGE.read_text(), re.MULTILINE)
    return fault(line)


DAMAGED, CANNOT_OPEN = line_of("is damaged"), line_of("cannot open")

# What breaks the tables, in an office of two boxes, four keys and three files.
ROWS = {
    "boxes.closes": "UPDATE boxes SET closes = 253402300800",
    "boxes.files": "UPDATE boxes SET max_files = 1000001",
    "boxes.from": "UPDATE boxes SET from_minute = 1440",
    "boxes.from, negative": "UPDATE boxes SET from_minute = -1",
    "boxes.kind": "UPDATE boxes SET rule_kind = 3",
    "boxes.mode": "UPDATE boxes SET mode = 2",
    "boxes.name": "UPDATE boxes SET name = 'B2' WHERE name = 'b2'",
    "boxes.opens": "UPDATE boxes SET opens = -1",
    "boxes.quota": "UPDATE boxes SET quota = 1000000000001",
    "boxes.to": "UPDATE boxes SET to_minute = 1441",
    "no boxes": "DROP TABLE boxes",
    "no files": "DROP TABLE files",
    "no keys": "DROP TABLE keys",
    "no receipts": "DROP TABLE receipts",
    "files.box": "UPDATE files SET box = 'zz' WHERE receipt = 1",
    "files.receipt": "UPDATE files SET receipt = 4 WHERE receipt = 3",
    "key_box.box": "INSERT INTO key_box (key_id, box) VALUES ('k2', 'zz')",
    "key_box.key": "INSERT INTO key_box (key_id, box) VALUES ('zz', 'in')",
    "keys.revoked": "UPDATE keys SET revoked = 2 WHERE id = 'k2'",
    "keys.role": "UPDATE keys SET role = 2 WHERE id = 'c2'",
    "office.east": "UPDATE office SET east = 841",
    "office.id": "UPDATE office SET id = 2",
    "office, two rows": "INSERT INTO office (id, version, east) SELECT 2, version, east FROM office",
    "office.west": "UPDATE office SET east = -841",
    "a stray piece": "INSERT INTO pieces (box, name, part, bytes) VALUES ('in', 'none', 0, x'61')",
    "a receipt gone": "DELETE FROM receipts WHERE number = 1; DELETE FROM files WHERE receipt = 1",
    "receipts.key": "UPDATE receipts SET key_id = 'zz' WHERE number = 1",
    "receipts.moment": "UPDATE receipts SET moment = 253402300800 WHERE number = 1",
    "receipts.moment, negative": "UPDATE receipts SET moment = -1 WHERE number = 1",
    "receipts.name": "UPDATE receipts SET name = 'b.doc' WHERE number = 2; DELETE FROM files WHERE receipt = 2",
    "receipts.box": "UPDATE receipts SET box = 'zz' WHERE number = 1; DELETE FROM files WHERE receipt = 1",
    "rules.allowance": "UPDATE rules SET allowance = 901",
    "rules.id": "UPDATE rules SET id = 2",
    "rules.allowance, negative": "UPDATE rules SET allowance = -1",
    "rules, two rows": "INSERT INTO rules (id, allowance) VALUES (2, 0)",
}
UNCHECKED = "PRAGMA ignore_check_constraints = ON; PRAGMA foreign_keys = OFF; "

# What other objects and another schema the file may have.
SCHEMAS = {
    **{f"no {it}": f"DROP TABLE {it}" for it in ["office", "pieces", "rules", "key_box", "staged"]},
    "a view": "CREATE VIEW other AS SELECT 1",
    "a trigger": "CREATE TRIGGER other AFTER INSERT ON keys BEGIN SELECT 1; END",
    "an index": "CREATE INDEX other ON keys (role)",
    "an index of some rows": "CREATE INDEX other ON keys (role) WHERE role = 1",
    "an index of a term": "CREATE INDEX other ON keys (lower(id))",
    "a table without rowids": "CREATE TABLE other (id TEXT PRIMARY KEY) WITHOUT ROWID",
    "a virtual table": "CREATE VIRTUAL TABLE other USING fts5 (text)",
    "a table that moves pages": "PRAGMA journal_mode = DELETE; PRAGMA auto_vacuum = FULL; VACUUM",
    **{f"schema: {name}": f"PRAGMA writable_schema = ON; {line} sqlite_schema {rest}" for name, line, rest in [
        ("a cut text", "UPDATE", "SET sql = 'CREATE TABLE keys (id' WHERE name = 'keys'"),
        ("no text", "UPDATE", "SET sql = NULL WHERE name = 'keys'"), ("no SQL", "UPDATE", "SET sql = 'keys' WHERE name = 'keys'"),
        ("another tree", "UPDATE", "SET rootpage = 3 WHERE name = 'office'"),
        ("no tree", "UPDATE", "SET rootpage = 9999 WHERE name = 'office'"),
        ("no row", "DELETE FROM", "WHERE name = 'keys'"), ("no rows", "DELETE FROM", ""),
    ]},
}

# Bytes of the header that are changed, and the line for that. Behind its first letter a wrong header is a damaged one; without
# that letter the file is no database.
HEADER = [(0, CANNOT_OPEN), *((at, DAMAGED) for at in [
    1, 8, 15, 18, 19, 20, 21, 22, 23, 24, 27, 28, 31, 32, 35, 36, 39, 44, 47, 52, 55, 56, 64, 67, 92, 95,
])]
# Page sizes in the header, which the pages do not have. With one that is no page size the engine opens nothing, as with any file
# that is no database.
PAGE_SIZES = [*((it, DAMAGED) for it in [512, 1024, 2048, 8192, 16384, 32768, 1]), *((it, CANNOT_OPEN) for it in [0, 256, 4097])]
# Files that hold no database. An empty one holds a database without tables.
OTHERS = {
    "text": b"not a database\n" * 1000, "text that begins like a header": b"SELECT a FROM b\n" * 1000,
    "a header, then text": b"SQLite format 3\0" + b"text" * 5000, "zeros": bytes(3 * BLOCK),
    "random bytes": random.Random(1).randbytes(20000), "two bytes": b"SQ",
}


# ---- the office


@pytest.fixture
def whole(drop):
    """An office with two boxes, four keys and three files, closed."""
    file = drop.office("whole")
    tables.add_key(file, "k2", b"s3cr3t")
    tables.add_key(file, "k3", b"s3cr3t", revoked=1)
    tables.add_key(file, "c2", b"!~", role=1, revoked=1)
    tables.add_box(file, tables.Box("in"))
    tables.add_box(file, tables.Box("b2", rule_kind=1, rule_text=".txt,.pdf"))
    tables.add_file(file, "in", "a.doc", b"abc", ID)
    tables.add_file(file, "b2", "b.txt", b"bcd", "k2")
    tables.add_file(file, "in", "é ~", b"c" * (tables.PIECE + 1), ID)
    return file


def copy_of(file, name, data=None):
    """A copy of the file without its journal, or a file of these bytes."""
    copy = file.with_name(name)
    copy.write_bytes(file.read_bytes() if data is None else data)
    return copy


def stock(file, lines):
    """Lets the command `sqlite3` change the file."""
    ran = kit.run(["sqlite3", "-batch", file, lines])
    if ran.status or ran.err:
        raise AssertionError(f"{lines}: {ran}")


def manifest(drop, file):
    return drop.run("manifest", file)


def receipts_in(found):
    """How many receipts a manifest lists, or the run."""
    return found if found.status else found.out.count(b"\n") - 1


def left(file):
    """The bytes of a file, without the journal."""
    return file.read_bytes()


def refused(drop, file, owed):
    """What is wrong, or None, if the file is refused with this line and stays as it is."""
    before = left(file)
    wrong = [difference(found, owed) for found in [manifest(drop, file), drop.replay(file, get(b"/in/a.doc"))]]
    wrong.append(None if left(file) == before else "the file was changed")
    return next(filter(None, wrong), None)


def check_all(drop, check, rows):
    """Checks rows of a name, a file and the line it is owed."""
    for (name, _, _), wrong in zip(rows, kit.side_by_side(lambda row: refused(drop, *row[1:]), rows), strict=True):
        check(name, wrong)


# ---- rows and schema


def test_rows(drop, check, whole):
    """Rows that break a rule of their table, whichever of the engine and the office notices it."""
    check("the office before", difference(receipts_in(manifest(drop, whole)), 3))
    content, rows = tables.dump(whole), []
    for number, (name, lines) in enumerate(ROWS.items()):
        file = copy_of(whole, f"rows-{number}")
        stock(file, UNCHECKED + lines)
        check(f"{name}: is damaged", None if tables.dump(file) != content else "nothing was changed")
        rows.append((name, file, DAMAGED))
    check("the damages", difference(len(rows), 35))
    check_all(drop, check, rows)


def test_schemas(drop, check, whole):
    """Tables that are gone, other objects, and a schema that is no schema."""
    rows = []
    for number, (name, lines) in enumerate(SCHEMAS.items()):
        file = copy_of(whole, f"schema-{number}")
        stock(file, lines)
        rows.append((name, file, DAMAGED))
    for number, name in enumerate(["secret", "role"]):
        file = copy_of(whole, f"column-{number}")
        stock(file, f"ALTER TABLE keys RENAME COLUMN {name} TO other")
        # Tables are known by their names and the number of their columns: then no query finds the column.
        rows.append((f"no column {name}", file, CANNOT_OPEN))
    check_all(drop, check, rows)


def test_others(drop, check, whole):
    """Databases of other programs: sound ones, and one with a row that breaks a CHECK."""
    rows = []
    for number, (name, lines) in enumerate([
        ("a database", "CREATE TABLE notes (id INTEGER PRIMARY KEY, text TEXT)"),
        ("another encoding", "PRAGMA encoding = 'UTF-16le'; CREATE TABLE notes (text)"),
        ("a row", "CREATE TABLE notes (n CHECK (n > 0)); PRAGMA ignore_check_constraints = ON; INSERT INTO notes VALUES (-1)"),
    ]):
        file = drop.path(f"other-{number}")
        stock(file, lines)
        rows.append((name, file, DAMAGED))
    for number, (name, data) in enumerate(OTHERS.items()):
        rows.append((name, copy_of(whole, f"no-database-{number}", data), CANNOT_OPEN))
    check_all(drop, check, rows)


# ---- rows that are mended, and rows that the tables bar


def test_mended(drop, check):
    """A file that was broken and mended again opens, with the same rows."""
    whole = drop.filled("mended-whole")
    rows, owed = sorted(tables.dump(whole)), manifest(drop, whole)
    cases = [(it, DAMAGED) for it in tables.mends()] + [(it, VERSION) for it in tables.mends_of_versions()]

    def each(case):
        number, (mend, line) = case
        file = copy_of(whole, f"mended-{number}")
        stock(file, UNCHECKED + mend.breaks)
        wrong = refused(drop, file, line)
        stock(file, UNCHECKED + mend.mends)
        return wrong or difference(manifest(drop, file), owed) or (None if sorted(tables.dump(file)) == rows else "other rows")

    for (mend, _), wrong in zip(cases, kit.side_by_side(each, list(enumerate(cases))), strict=True):
        check(f"mended: {mend.breaks}", wrong)


# What the tables' constraints refuse, if the key `k3` is limited to the box `in`.
BARRED = [
    "UPDATE rules SET allowance = 901", "UPDATE rules SET allowance = -1", "UPDATE rules SET allowance = NULL",
    "UPDATE rules SET id = 2", "INSERT INTO rules VALUES (2, 0)", "INSERT INTO key_box VALUES ('k3', 'in')",
    "INSERT INTO key_box VALUES ('k3', 'none')", "INSERT INTO key_box VALUES ('k9', 'in')", "DELETE FROM boxes WHERE name = 'in'",
    "UPDATE keys SET id = 'k9' WHERE id = 'k3'", "INSERT INTO staged VALUES (0, 'text')",
]


def test_barred(drop, check):
    """Rows that the tables' own constraints refuse, in the engine `sqlite3`."""
    file = drop.filled("barred")
    rows, owed = tables.dump(file), manifest(drop, file)
    for line in BARRED:
        ran = kit.run(["sqlite3", "-batch", file, f"PRAGMA foreign_keys = ON; {line}"])
        is_barred = ran.status and (b"constraint failed" in ran.err or b"cannot store TEXT value in BLOB column" in ran.err)
        check(f"barred: {line}", None if is_barred else f"{ran}")
    check("barred: the rows stay", None if tables.dump(file) == rows else "they were changed")
    check("barred: the manifest", difference(manifest(drop, file), owed))


# ---- pages


def changed_at(data, at, new):
    return data[:at] + new + data[at + len(new):]


def test_pages(drop, check, whole):
    """Each page in turn is zeroed, is of no kind, or is the last that is left; another header; a page more."""
    data = whole.read_bytes()
    rows = [(f"byte {at}", changed_at(data, at, bytes([data[at] ^ 1])), owed) for at, owed in HEADER]
    rows += [(f"page size {it}", changed_at(data, 16, struct.pack(">H", it)), owed) for it, owed in PAGE_SIZES]
    for start in range(0, len(data), BLOCK):
        head = 100 if start == 0 else 0
        rows.append((f"zeros at {start}", changed_at(data, start + head, bytes(BLOCK - head)), DAMAGED))
        rows.append((f"no kind at {start}", changed_at(data, start + head, b"\7"), DAMAGED))
        rows.append((f"cut at {start + 100}", data[:start + 100], DAMAGED))
    rows += [(f"cut at {it}", data[:it], DAMAGED) for it in range(BLOCK, len(data), BLOCK)]
    rows.append(("a page more", data + bytes(BLOCK), DAMAGED))
    check_all(drop, check, [(name, copy_of(whole, f"pages-{at}", it), owed) for at, (name, it, owed) in enumerate(rows)])


def test_page_sizes(drop, check, whole):
    """A file that really has another page size is whole."""
    for size in [512, 1024, 8192]:
        file = copy_of(whole, f"size-{size}")
        stock(file, f"PRAGMA journal_mode = DELETE; PRAGMA page_size = {size}; VACUUM")
        check(f"pages of {size} bytes", difference(receipts_in(manifest(drop, file)), 3))


# ---- journals


def with_journal(whole):
    """The bytes of the office, and those of a journal with three more receipts."""
    file = copy_of(whole, "with-journal")
    with contextlib.closing(sqlite3.connect(file)) as db:
        db.execute("PRAGMA journal_mode = WAL")
        db.execute("PRAGMA wal_autocheckpoint = 0")
        for name in ["d", "e", "f"]:
            tables.put_file(db, "in", name, b"more", ID)
            db.commit()
        return file.read_bytes(), file.with_name(file.name + "-wal").read_bytes()


def signed(journal, at, number):
    """The journal with this number in its header, and the header's sum."""
    head = changed_at(journal[:24], at, struct.pack(">I", number))
    words = struct.unpack(">6I" if journal[3] & 1 else "<6I", head)
    one, two = 0, 0
    for first, second in zip(words[::2], words[1::2]):
        one = (one + first + two) % 2**32
        two = (two + second + one) % 2**32
    return head + struct.pack(">2I", one, two) + journal[32:]


def test_journals(drop, check, whole):
    """A journal that is missing or cut is not noticed. One that does not fit the file is."""
    data, journal = with_journal(whole)
    text, other = OTHERS["text"], drop.office("other").read_bytes()
    check("the same header", difference(signed(journal, 8, BLOCK), journal))
    rows = []
    for number, (name, its, log, owed) in enumerate([
        ("whole", data, journal, 6), ("none", data, None, 3), ("empty", data, b"", 3), ("text", data, text, 3),
        ("cut in its header", data, journal[:31], 3), ("cut by a byte", data, journal[:-1], 5),
        ("not signed", data, changed_at(journal, 24, b"none"), 3),
        ("with a changed byte", data, changed_at(journal, len(journal) - 9, b"?"), 5),
        ("of a cut file", data[:5 * BLOCK], journal, DAMAGED), ("of another office", other, journal, DAMAGED),
        ("of an empty file", b"", journal, DAMAGED), ("of a text", text, journal, CANNOT_OPEN),
        ("with other pages", data, signed(journal, 8, 8192), DAMAGED),
        # The engine opens nothing without a page size, or with a journal of another version.
        ("with no page size", data, signed(journal, 8, 4097), CANNOT_OPEN),
        ("of another version", data, signed(journal, 4, 3007001), CANNOT_OPEN),
    ]):
        file = copy_of(whole, f"journal-{number}", its)
        if log is not None:
            file.with_name(file.name + "-wal").write_bytes(log)
        rows.append((name, file, owed))
    for (name, _, owed), found in zip(rows, kit.side_by_side(lambda row: manifest(drop, row[1]), rows), strict=True):
        check(f"journal {name}", difference(receipts_in(found), owed))


# ---- files that cannot be read


# A root without rights, for whom the rights of a file count.
WITHOUT_RIGHTS = ["setpriv", "--inh-caps=-all", "--bounding-set=-all"]


def spoiled(file, how):
    """Makes the file one that cannot be read."""
    log, old = (file.with_name(file.name + end) for end in ["-wal", "-journal"])
    match how:
        case "no file":
            file.unlink()
        case "a link to nothing":
            file.unlink()
            file.symlink_to("nowhere")
        case "a folder":
            file.unlink()
            file.mkdir()
        case "two names":
            os.link(file, file.with_name(file.name + "-too"))
        case "a folder as its journal":
            log.mkdir()
        case "an old journal":
            old.write_bytes(b"\xd9\xd5\x05\xf9 a journal that another program left")
        case "no rights":
            file.chmod(0)
        case "no right to write":
            file.chmod(0o400)
        case "no rights on its journal":
            log.write_bytes(b"")
            log.chmod(0)


UNREADABLE = ["no file", "a link to nothing", "a folder", "two names", "a folder as its journal", "an old journal", "no rights",
              "no right to write", "no rights on its journal"]


def test_unreadable(drop, check, whole):
    for how in UNREADABLE:
        file = copy_of(whole, f"un-{how}")
        spoiled(file, how)
        found = kit.run([*WITHOUT_RIGHTS, drop.program, "manifest", file], cwd=drop.folder)
        check(how, difference(found, CANNOT_OPEN))
    rights = kit.run([*WITHOUT_RIGHTS, drop.program, "manifest", whole], cwd=drop.folder)
    check("a file that can be read", difference(receipts_in(rights), 3))


def test_held(drop, check, whole):
    """Another program has the file open."""
    with tables.opened(whole) as db:
        db.execute("BEGIN EXCLUSIVE")
        check("held by sqlite3", difference(manifest(drop, whole), CANNOT_OPEN))
    with Server(drop, whole, 1) as server:
        check("held by a server", difference(manifest(drop, whole), CANNOT_OPEN))
        server.process.kill()
    check("held by nobody", difference(receipts_in(manifest(drop, whole)), 3))


# ---- all commands


def commands(drop, file):
    """Runs of all commands that open an office file."""
    values = [f"--{name}={value}" for name, value in LINK.items()]
    place = [it for it in values if it.startswith(("--key", "--host", "--region"))]
    return {
        "init": drop.run("init", file, *CLERK), "migrate": drop.run("migrate", file), "manifest": manifest(drop, file),
        "link": drop.run("link", file, "GET", "in/a.doc", *values), "links": drop.run("links", file, *place),
        "replay": drop.replay(file, get(b"/in/a.doc")), "desk": drop.run("desk", file, "office allow 1"),
        "compare": drop.run("compare", file), "list": drop.run("list", file, "keys"), "export": drop.run("export", file, "none"),
        "serve": drop.run("serve", file, "--listen", "127.0.0.1:0", "--connections", "1"),
    }


def test_commands(drop, check, whole):
    """Each command that opens a file says the same line of it."""
    broken = copy_of(whole, "broken")
    stock(broken, UNCHECKED + ROWS["boxes.closes"])
    cut = copy_of(whole, "cut", whole.read_bytes()[:5 * BLOCK])
    text = copy_of(whole, "text", OTHERS["text"])
    for file, owed in [(broken, DAMAGED), (cut, DAMAGED), (text, CANNOT_OPEN)]:
        for command, found in commands(drop, file).items():
            check(f"{command} of {file.name}", difference(found, owed))
    check("nothing is made", "there is a folder" if drop.path("none").exists() else None)
