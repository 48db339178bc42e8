"""Expected lists, from an office file's tables: its manifest, the state of a manifest's rows, and what is kept, by Python's
`sqlite3`, `hashlib` and `csv`.
"""

import csv
import datetime
import hashlib
import io

import tables

RECEIPT_HEAD = ["receipt", "box", "name", "length", "sha256", "moment", "key"]
KEY_HEAD = ["key", "role", "revoked", "boxes"]
BOX_HEAD = ["box", "opens", "closes", "days", "from", "to", "quota", "files", "mode", "rule", "used", "count"]
FILE_HEAD = ["box", "name", "length", "sha256", "receipt", "moment", "key"]
STATE_HEAD = ["receipt", "box", "name", "state"]
WISH_HEAD = ["method", "box", "name", "start", "expires"]
LINK_HEAD = [*WISH_HEAD, "link"]


def written(rows, **how):
    """Rows as `csv` writes them."""
    text = io.StringIO(newline="")
    csv.writer(text, **{"lineterminator": "\n"} | how).writerows(rows)
    return text.getvalue().encode()


def read(data):
    """Rows as `csv` reads them."""
    return list(csv.reader(io.StringIO(data.decode(errors="replace"), newline="")))


def standing(file):
    """The receipt and the bytes of each file, by its box and name."""
    files = {}
    query = "SELECT box, name, receipt, bytes FROM files LEFT JOIN pieces USING (box, name) ORDER BY box, name, part"
    for in_box, name, number, data in tables.rows(file, query):
        before = files.get((in_box, name), (number, b""))[1]
        files[in_box, name] = number, before + (data or b"")
    return files


def moment_text(seconds):
    return f"{datetime.datetime(1970, 1, 1) + datetime.timedelta(seconds=seconds):%Y%m%dT%H%M%SZ}"


def receipts(file):
    """The manifest of an office. The digests of stored files are computed from their bytes."""
    digests = {number: hashlib.sha256(data).digest() for number, data in standing(file).values()}
    yield RECEIPT_HEAD
    for number, in_box, name, length, digest, moment, key in tables.rows(file, "SELECT * FROM receipts ORDER BY number"):
        digest = digests.get(number, digest).hex()
        yield [str(number), in_box, name, str(length), digest, moment_text(moment), key]


def state(files, row):
    """The state of the file of a manifest's row."""
    number, in_box, name, length, digest, *_ = row
    found, data = files.get((in_box, name), (None, b""))
    if found != int(number):
        return "gone"
    is_same = len(data) == int(length) and hashlib.sha256(data).hexdigest() == digest
    return "standing" if is_same else "differs"


def states(file, rows):
    """The expected states for the rows of a manifest, with a head."""
    files = standing(file)
    return [STATE_HEAD, *([*row[:3], state(files, row)] for row in rows[1:])]


# ---- what is kept


def clock(minute):
    return f"{minute // 60:02}{minute % 60:02}"


def kept_keys(file):
    """Every key, ascending by id, with the boxes that it is limited to, and never its secret."""
    yield KEY_HEAD
    limits = tables.rows(file, "SELECT key_id, box FROM key_box ORDER BY key_id, box")
    for name, role, revoked in sorted(tables.rows(file, "SELECT id, role, revoked FROM keys"), key=lambda it: it[0].encode()):
        boxes = " ".join(sorted(box for key, box in limits if key == name))
        yield [name, ["link", "clerk"][role], ["no", "yes"][revoked], boxes]


def kept_boxes(file):
    columns = "name, opens, closes, days, from_minute, to_minute, quota, max_files, mode, rule_kind, rule_text, used, count"
    yield BOX_HEAD
    for name, opens, closes, days, since, until, quota, files, mode, kind, text, used, count in sorted(
            tables.rows(file, f"SELECT {columns} FROM boxes"), key=lambda it: it[0].encode()):
        rule = ["any", f"ends {text}", f"begins {text}"][kind]
        yield [name, moment_text(opens), moment_text(closes), days, clock(since), clock(until), str(quota), str(files),
               ["keep", "replace"][mode], rule, str(used), str(count)]


def ascending(file):
    """The box, name, receipt and bytes of each stored file, sorted by the bytes of box and name."""
    return sorted(((*place, *held) for place, held in standing(file).items()), key=lambda it: (it[0].encode(), it[1].encode()))


def kept_files(file):
    given = {number: (moment_text(moment), key) for number, moment, key in tables.rows(file, "SELECT number, moment, key_id FROM receipts")}
    yield FILE_HEAD
    for in_box, name, number, data in ascending(file):
        yield [in_box, name, str(len(data)), hashlib.sha256(data).hexdigest(), str(number), *given[number]]


# The lists of what an office keeps, by the word that requests each.
KEPT = {"keys": kept_keys, "boxes": kept_boxes, "files": kept_files}


# ---- what a list says


def first_difference(found, owed):
    """The first rows that differ."""
    if found == owed:
        return None
    pairs = [(number, *pair) for number, pair in enumerate(zip(found, owed)) if pair[0] != pair[1]]
    rows = f"{len(found)} rows and not {len(owed)}"
    return f"{rows}; row {pairs[0][0]}: {pairs[0][1]} and not {pairs[0][2]}"[:1000] if pairs else rows


def unlike(found, owed):
    """Why a run did not write exactly these rows, compared as parsed rows and as bytes."""
    if found.status or found.err:
        return f"status {found.status}, {found.err}"
    return first_difference(read(found.out), owed) or (None if found.out == written(owed) else "other quotes or row ends")
