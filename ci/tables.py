"""Office files that Python's `sqlite3` fills and breaks: what an office holds, each rule of its tables broken, and a
dump of the tables. The tables are those that `drop init` makes (docs/RULES.md, section 2); the first six are those of version 1.
"""

import contextlib
import dataclasses
import hashlib
import sqlite3

PIECE = 65536
DAY = 86400
LAST = 253402300799
M = 1369353600  # 20130524T000000Z
OPENS, CLOSES = 1356998400, 1370044800  # 20130101T000000Z and 20130601T000000Z
OF_VERSION_1 = ["office", "keys", "boxes", "receipts", "files", "pieces"]
NEW_TABLES = ["rules", "key_box", "staged"]
TABLES = [*OF_VERSION_1, *NEW_TABLES]


@contextlib.contextmanager
def opened(file, *, unchecked=False):
    """A connection that is committed and closed at the end; if unchecked, it tests neither CHECKs nor references."""
    db = sqlite3.connect(file)
    try:
        db.execute(f"PRAGMA foreign_keys = {'OFF' if unchecked else 'ON'}")
        db.execute(f"PRAGMA ignore_check_constraints = {'ON' if unchecked else 'OFF'}")
        yield db
        db.commit()
    finally:
        db.close()


def dump(file):
    """All that the tables hold, and how they were made."""
    with opened(file) as db:
        db.text_factory = lambda text: text.decode(errors="surrogateescape")
        return list(db.iterdump())


def rows(file, query, *values):
    with opened(file) as db:
        return db.execute(query, values).fetchall()


@dataclasses.dataclass(frozen=True)
class Box:
    """A row of `boxes` for a box without files. By default it is always open."""

    name: str
    opens: int = 0
    closes: int = LAST
    days: str = "1111111"
    from_minute: int = 0
    to_minute: int = 1440
    quota: int = 10**12
    max_files: int = 9
    mode: int = 0
    rule_kind: int = 0
    rule_text: str = ""


def add_box(file, box):
    with opened(file) as db:
        values = dataclasses.astuple(box)
        marks = ", ".join("?" * len(values))
        db.execute(f"INSERT INTO boxes VALUES ({marks}, 0, 0)", values)


def add_key(file, name, secret, role=0, revoked=0):
    with opened(file) as db:
        db.execute("INSERT INTO keys VALUES (?, ?, ?, ?)", (name, role, secret, revoked))


def limit_key(file, name, in_box):
    with opened(file) as db:
        db.execute("INSERT INTO key_box VALUES (?, ?)", (name, in_box))


def put_file(db, in_box, name, data, key, moment=M):
    """What an upload under a new name writes: a receipt, the file, its pieces, and the totals of its box."""
    number = db.execute("SELECT COUNT(*) + 1 FROM receipts").fetchone()[0]
    digest = hashlib.sha256(data).digest()
    db.execute("INSERT INTO receipts VALUES (?, ?, ?, ?, ?, ?, ?)",
               (number, in_box, name, len(data), digest, moment, key))
    db.execute("INSERT INTO files VALUES (?, ?, ?)", (in_box, name, number))
    for part, at in enumerate(range(0, len(data), PIECE)):
        db.execute("INSERT INTO pieces VALUES (?, ?, ?, ?)", (in_box, name, part, data[at:at + PIECE]))
    db.execute("UPDATE boxes SET used = used + ?, count = count + 1 WHERE name = ?", (len(data), in_box))


def add_file(file, *words, **how):
    with opened(file) as db:
        put_file(db, *words, **how)


def fill(file, clerk):
    """Fills an office: four keys, four boxes (one for each kind of rule and one with the greatest numbers), five receipts,
    the third of which no longer has a file, and files of 3, 0, 65537 and 131072 bytes. The revoked key of role `link` is limited
    to two boxes."""
    add_key(file, "k2", b"s3cr3t")
    add_key(file, "k3", b"s3cr3t", revoked=1)
    add_key(file, "c2", b"!~", role=1, revoked=1)
    add_box(file, Box("in", 1356998400, 1370044800, quota=10**6, max_files=3, mode=1))
    add_box(file, Box("ends", days="1111100", from_minute=60, to_minute=120, rule_kind=1, rule_text=".txt,.pdf"))
    add_box(file, Box("begins.1-2", rule_kind=2, rule_text="2013/"))
    add_box(file, Box("b" * 63, LAST, LAST, "0000000", 1439, 1440, 10**12, 10**6, 1))
    add_file(file, "in", "a.txt", b"abc", clerk)
    add_file(file, "in", "é ~", b"", "k2")
    add_file(file, "ends", "x.pdf", b"gone", "k3", 0)
    add_file(file, "ends", "y.txt", b"y" * (PIECE + 1), clerk, LAST)
    add_file(file, "begins.1-2", "2013/a", b"z" * (2 * PIECE), clerk)
    limit_key(file, "k3", "ends")
    limit_key(file, "k3", "in")
    with opened(file) as db:
        db.execute("DELETE FROM pieces WHERE name = 'x.pdf'")
        db.execute("DELETE FROM files WHERE name = 'x.pdf'")
        db.execute("UPDATE boxes SET used = used - 4, count = count - 1 WHERE name = 'ends'")


@dataclasses.dataclass(frozen=True)
class Break:
    """Statements that break a rule: one of the database itself, such as a CHECK, or one of the office."""

    name: str
    statements: tuple


def broken(*statements, name=None):
    return Break(name or "; ".join(statements)[:150], statements)


def set_to(table, column, value, where):
    return broken(f"UPDATE {table} SET {column} = {value} WHERE {where}")


def office_breaks():
    yield broken("DELETE FROM office")
    yield broken("INSERT INTO office SELECT 2, version, east FROM office")
    yield set_to("office", "id", 2, "1")
    for east in [-841, 841, 2**62]:
        yield set_to("office", "east", east, "1")


def key_breaks():
    for name in ["''", "'a b'", "'k.2'", "'é'", f"'{'k' * 65}'", "'k2' || char(10)"]:
        yield set_to("keys", "id", name, "id = 'c2'")
    for number in [-1, 2]:
        yield set_to("keys", "role", number, "id = 'k2'")
        yield set_to("keys", "revoked", number, "id = 'k2'")
    for secret in ["x''", "x'20'", "x'7f'", "x'612062'", "x'80'", "x'00'", f"x'{'61' * 129}'"]:
        yield set_to("keys", "secret", secret, "id = 'k2'")
    yield set_to("keys", "revoked", 1, "role = 1")
    yield set_to("keys", "role", 0, "role = 1")


def box_breaks():
    unused = f"name = '{'b' * 63}'"
    for name in ["''", "'In'", "'a_b'", "'a b'", f"'{'b' * 64}'", "'b' || char(10)"]:
        yield set_to("boxes", "name", name, unused)
    for column in ["opens", "closes"]:
        for moment in [-1, LAST + 1]:
            yield set_to("boxes", column, moment, unused)
    for days in ["''", "'111111'", "'11111111'", "'1111112'", "'111111 '", "'１111111'"]:
        yield set_to("boxes", "days", days, unused)
    for column, minute in [("from_minute", -1), ("from_minute", 1440), ("to_minute", 1439), ("to_minute", 1441)]:
        yield set_to("boxes", column, minute, unused)
    for column, most in [("quota", 10**12), ("max_files", 10**6), ("mode", 1), ("rule_kind", 2)]:
        for number in [-1, most + 1]:
            yield set_to("boxes", column, number, unused)
    for kind, texts in [
        (0, ["'x'", "' '"]),
        (1, ["''", "','", "'a,,b'", "',a'", "'a,'", "'a b'", f"'{'a' * 33}'", "'1,2,3,4,5,6,7,8,9'", "'a' || char(127)"]),
        (2, ["''", "'a,b'", "'a b'", f"'{'a' * 65}'", "char(9)", "CAST(x'ff' AS TEXT)"]),
    ]:
        for text in texts:
            yield broken(f"UPDATE boxes SET rule_kind = {kind}, rule_text = {text} WHERE {unused}")
    for column in ["used", "count"]:
        for change in ["+ 1", "- 1"]:
            yield set_to("boxes", column, f"{column} {change}", "name = 'in'")
        yield set_to("boxes", column, 1, unused)
    yield broken("UPDATE boxes SET used = used + 1 WHERE name = 'in'",
                 "UPDATE boxes SET used = used - 1 WHERE name = 'ends'")
    yield set_to("boxes", "quota", "used - 1", "name = 'in'")
    yield set_to("boxes", "max_files", "count - 1", "name = 'in'")
    yield set_to("boxes", "max_files", 0, "name = 'ends'")


def receipt_breaks():
    yield broken("DELETE FROM receipts WHERE number = 3")
    for number in [0, -3, 6, 4000000001]:
        yield set_to("receipts", "number", number, "number = 3")
    for column in ["box", "key_id"]:
        yield set_to("receipts", column, "'none'", "number = 3")
    for name in ["''", "'a' || char(31) || '.txt'", "'a' || char(127) || '.txt'", f"'{'a' * 1021}.txt'", "'a.doc'",
                 "CAST(x'ff2e747874' AS TEXT)", "'a' || char(10) || '.txt'"]:
        yield set_to("receipts", "name", name, "number = 3")
    yield set_to("receipts", "box", "'begins.1-2'", "number = 3")
    for length in [-1, 8388609, 2**62]:
        yield set_to("receipts", "length", length, "number = 3")
    for digest in ["x''", f"x'{'00' * 31}'", f"x'{'00' * 33}'"]:
        yield set_to("receipts", "digest", digest, "number = 3")
    for moment in [-1, LAST + 1]:
        yield set_to("receipts", "moment", moment, "number = 3")


def file_breaks():
    yield set_to("files", "receipt", 3, "name = 'a.txt'")
    yield set_to("files", "receipt", 99, "name = 'a.txt'")
    yield set_to("files", "box", "'none'", "name = 'é ~'")
    yield set_to("files", "name", "'b.txt'", "name = 'é ~'")
    yield set_to("files", "box", "'begins.1-2'", "name = 'é ~'")
    for column, value in [("length", 4), ("digest", f"x'{'00' * 32}'"), ("name", "'b.txt'"), ("box", "'ends'")]:
        yield set_to("receipts", column, value, "number = 1")
    yield broken("DELETE FROM files WHERE name = 'é ~'")
    yield broken("INSERT INTO files VALUES ('ends', 'x.pdf', 3)")
    yield broken("INSERT INTO files VALUES ('ends', 'x.pdf', 3)",
                 "INSERT INTO pieces VALUES ('ends', 'x.pdf', 0, x'676f6e65')")


def piece_breaks():
    yield set_to("pieces", "bytes", "x'616264'", "name = 'a.txt'")
    yield set_to("pieces", "bytes", "x'6162'", "name = 'a.txt'")
    yield set_to("pieces", "bytes", "x'61626300'", "name = 'a.txt'")
    yield set_to("pieces", "part", 1, "name = 'a.txt'")
    yield set_to("pieces", "part", -1, "name = 'a.txt'")
    yield broken("DELETE FROM pieces WHERE name = 'a.txt'")
    yield broken("INSERT INTO pieces VALUES ('in', 'a.txt', 1, x'')")
    yield broken("INSERT INTO pieces VALUES ('in', 'a.txt', 1, x'64')")
    yield broken("INSERT INTO pieces VALUES ('in', 'é ~', 0, x'')")
    yield broken("INSERT INTO pieces VALUES ('in', 'é ~', 0, x'64')")
    yield set_to("pieces", "part", 2, "name = 'y.txt' AND part = 1")
    yield broken("DELETE FROM pieces WHERE name = 'y.txt' AND part = 0")
    yield broken("DELETE FROM pieces WHERE name = '2013/a' AND part = 1")
    yield broken(
        "UPDATE pieces SET bytes = CAST(substr(bytes, 2) AS BLOB) WHERE name = '2013/a' AND part = 0",
        "INSERT INTO pieces VALUES ('begins.1-2', '2013/a', 2, x'7a')", name="pieces cut in other places",
    )
    yield broken(
        f"UPDATE pieces SET bytes = zeroblob({PIECE + 1}) WHERE name = 'y.txt' AND part = 0",
        "DELETE FROM pieces WHERE name = 'y.txt' AND part = 1", name="one piece that is too long",
    )
    yield broken("INSERT INTO pieces VALUES ('in', 'none', 0, x'64')")
    yield broken("INSERT INTO pieces VALUES ('none', 'a.txt', 0, x'64')")


def allowance_breaks():
    yield broken("DELETE FROM rules")
    yield broken("INSERT INTO rules VALUES (2, 0)")
    yield set_to("rules", "id", 2, "1")
    for allowance in [-1, 901, 2**62]:
        yield set_to("rules", "allowance", allowance, "1")


def limit_breaks():
    yield broken("INSERT INTO key_box VALUES ('c2', 'in')")
    yield set_to("keys", "role", 1, "id = 'k3'")
    for column in ["key_id", "box"]:
        yield set_to("key_box", column, "'none'", "box = 'in'")


def table_breaks(tables):
    """A table is missing, has another name, or has an extra column. References of other tables to it then lead nowhere."""
    for table in tables:
        yield broken(f"DROP TABLE {table}")
        yield broken(f"ALTER TABLE {table} RENAME TO other")
        yield broken(f"ALTER TABLE {table} ADD COLUMN other INTEGER")
    yield broken("CREATE TABLE other (id INTEGER PRIMARY KEY) STRICT")
    yield broken("ALTER TABLE keys RENAME COLUMN secret TO other")
    yield broken("ALTER TABLE pieces RENAME COLUMN part TO other")


def breaks_of_both():
    """Each rule that both versions have, broken alone, in an office that is filled as by `fill`."""
    return [*office_breaks(), *key_breaks(), *box_breaks(), *receipt_breaks(), *file_breaks(), *piece_breaks(),
            *table_breaks(OF_VERSION_1)]


def breaks_of_version_1():
    """Each rule of the tables of version 1, broken alone, in an office that is filled as by `fill`."""
    return [*breaks_of_both(), set_to("receipts", "length", 1048577, "number = 3")]


def breaks():
    """Each rule of an office that is filled by `fill`, broken alone."""
    return [*breaks_of_both(), *allowance_breaks(), *limit_breaks(), *table_breaks(NEW_TABLES)]


@dataclasses.dataclass(frozen=True)
class Mend:
    """Statements that break an office filled as by `fill`, and those that mend it again."""

    breaks: str
    mends: str


def set_back(table, column, values, where):
    """A value that is changed, and changed back; `values` has the new one and the old one."""
    new, old = (f"UPDATE {table} SET {column} = {value} WHERE {where}" for value in values)
    return Mend(new, old)


def mends_of_both():
    """In both versions."""
    empty, three = (f"x'{hashlib.sha256(data).hexdigest()}'" for data in [b"", b"abc"])
    yield Mend("UPDATE receipts SET number = 9 WHERE number = 3", "UPDATE receipts SET number = 3 WHERE number = 9")
    yield set_back("pieces", "bytes", ["x'616264'", "x'616263'"], "name = 'a.txt'")
    yield set_back("boxes", "used", ["used + 1", "used - 1"], "1")
    yield set_back("boxes", "count", ["count + 1", "count - 1"], "1")
    yield set_back("keys", "revoked", [1, 0], "role = 1 AND id <> 'c2'")
    yield Mend("DELETE FROM pieces WHERE name = 'a.txt'", "INSERT INTO pieces VALUES ('in', 'a.txt', 0, x'616263')")
    yield Mend("UPDATE pieces SET part = 2 WHERE part = 1", "UPDATE pieces SET part = 1 WHERE part = 2")
    # A file is empty by its receipt, and has a piece.
    yield Mend(f"UPDATE receipts SET length = 0, digest = {empty} WHERE number = 1; UPDATE boxes SET used = used - 3 WHERE name = 'in'",
               f"UPDATE receipts SET length = 3, digest = {three} WHERE number = 1; UPDATE boxes SET used = used + 3 WHERE name = 'in'")
    yield Mend("UPDATE keys SET id = 'c/2' WHERE id = 'c2'", "UPDATE keys SET id = 'c2' WHERE id = 'c/2'")
    yield Mend("UPDATE boxes SET rule_kind = 2, rule_text = 'a' WHERE name = 'in'",
               "UPDATE boxes SET rule_kind = 0, rule_text = '' WHERE name = 'in'")


STAGED = "CREATE TABLE staged (part INTEGER PRIMARY KEY NOT NULL, bytes BLOB NOT NULL) STRICT"


def mends():
    """In the tables of version 2, and objects beside them."""
    yield from mends_of_both()
    yield Mend("DELETE FROM rules", "INSERT INTO rules VALUES (1, 0)")
    yield Mend("INSERT INTO key_box VALUES ('c2', 'in')", "DELETE FROM key_box WHERE key_id = 'c2'")
    yield Mend("INSERT INTO key_box VALUES ('k2', 'in'); UPDATE keys SET role = 1 WHERE id = 'k2'",
               "UPDATE keys SET role = 0 WHERE id = 'k2'; DELETE FROM key_box WHERE key_id = 'k2'")
    yield Mend("DROP TABLE staged", STAGED)
    yield Mend("CREATE TABLE more (id INTEGER PRIMARY KEY NOT NULL) STRICT", "DROP TABLE more")
    yield Mend("CREATE INDEX more ON files (name)", "DROP INDEX more")
    yield Mend("CREATE VIEW more AS SELECT id FROM keys", "DROP VIEW more")


def mends_of_versions():
    """Another version, also with other damage."""
    whole = "UPDATE office SET version = 2"
    yield Mend("UPDATE office SET version = 1", whole)
    yield Mend("UPDATE office SET version = 3", whole)
    yield Mend("UPDATE office SET version = 7; UPDATE boxes SET used = used + 1", f"{whole}; UPDATE boxes SET used = used - 1")
    yield Mend("UPDATE office SET version = 3; DELETE FROM rules", f"{whole}; INSERT INTO rules VALUES (1, 0)")
    yield Mend("UPDATE office SET version = 0; DROP TABLE staged", f"{whole}; {STAGED}")


def run(file, statements):
    with opened(file, unchecked=True) as db:
        for statement in statements:
            db.execute(statement)


def write_text(file, table, text):
    """Sets the text of a table in the schema."""
    with opened(file, unchecked=True) as db:
        db.execute("PRAGMA writable_schema = ON")
        db.execute("UPDATE sqlite_schema SET sql = ? WHERE name = ?", (text, table))


def loosened(file, table, old, new, statement):
    """Breaks a rule of a table's columns: the table's text in the schema is loosened, and restored afterwards."""
    text = rows(file, "SELECT sql FROM sqlite_schema WHERE name = ?", table)[0][0]
    assert old in text, (old, text)
    write_text(file, table, text.replace(old, new, 1))
    run(file, [statement])
    write_text(file, table, text)


# Rules of columns: a table, a part of its text, what that is for a moment, and a statement that breaks the rule.
LOOSENED = [
    ("keys", "revoked INTEGER NOT NULL", "revoked INTEGER", "UPDATE keys SET revoked = NULL WHERE id = 'k2'"),
    ("boxes", "rule_text TEXT NOT NULL", "rule_text TEXT", "UPDATE boxes SET rule_text = NULL WHERE name = 'in'"),
    ("pieces", "bytes BLOB NOT NULL", "bytes BLOB", "UPDATE pieces SET bytes = NULL WHERE name = 'a.txt'"),
    ("office", ") STRICT", ")", "UPDATE office SET east = 'x'"),
    ("keys", ") STRICT", ")", "UPDATE keys SET secret = 's3cr3t' WHERE id = 'k2'"),
    ("receipts", ") STRICT", ")", "UPDATE receipts SET digest = 'x' WHERE number = 3"),
    ("receipts", ") STRICT", ")", "UPDATE receipts SET length = 1.5 WHERE number = 3"),
    ("pieces", ") STRICT", ")", "UPDATE pieces SET bytes = 'abc' WHERE name = 'a.txt'"),
    ("rules", ") STRICT", ")", "UPDATE rules SET allowance = 'x'"),
]
