"""Runs the lists of the proved program `drop`: `manifest`, `compare` and `links`, over an office of two thousand receipts,
and on lists of every form.

`drop init` makes the office, and Python's `sqlite3` fills it (ci/tables.py); requests then drop files and upload some anew.
Expected values come from the tables as `sqlite3` reads them and from Python's `csv` and `hashlib` (ci/listed.py), from links
that botocore signs, and from the fault lines in docs/USE.md.
"""

import collections
import contextlib
import csv
import dataclasses
import functools
import hashlib
import os
import random

import kit
import tables
from expected import ID, MOMENT, SECRET, python_link, receipt
from listed import LINK_HEAD, RECEIPT_HEAD, STATE_HEAD, WISH_HEAD, first_difference, read, receipts, states, unlike, written
from many_receipts import BOXES, KEYS, RECEIPTS, begun, change, few, filled, odd_name
from messages import sent
from orders import BotocoreOrder
from program import (
    CANNOT_OPEN, CANNOT_READ_SECRET, CANNOT_WRITE, LINK, UNKNOWN, VERSION, answered, closed_pipe, difference, fault, full_disk,
    help_lines, help_of, malformed, not_offices, shortened,
)
from samples import NAMES

NO_HEAD = fault("the first row is not the head")
CANNOT_READ = fault("cannot read the list")
PLACE = {"key": ID, "host": "files.example", "region": "us-east-1"}
MEGABYTES = 10_000_000


# ---- lists


def forms(rows):
    """The same list in other forms: quotes, row ends, empty rows, a byte order mark."""
    for how in [{}, {"quoting": csv.QUOTE_ALL}, {"lineterminator": "\r\n"}, {"lineterminator": "\r"},
                {"lineterminator": "\n\r\n\r\r"}, {"quoting": csv.QUOTE_ALL, "lineterminator": "\r\n\n"}]:
        yield f"{how}", written(rows, **how)
    plain = written(rows)
    yield "a byte order mark", b"\xef\xbb\xbf" + plain
    yield "empty rows in front", b"\n\r\n\r" + plain
    yield "no end of the last row", plain.removesuffix(b"\n")


# ---- manifests, and which of their files exist


def compared(drop, file, rows, **how):
    return drop.run("compare", file, given=written(rows, **how))


def test_manifest(drop, check):
    """Each receipt as the tables have it, before and after changes, which keep the earlier receipts."""
    empty = drop.office("empty")
    check("no receipts", unlike(drop.run("manifest", empty), [RECEIPT_HEAD]))
    file = filled(drop, "manifest")
    before = list(receipts(file))
    check("the receipts", unlike(drop.run("manifest", file), before))
    check("changes", change(drop, file, random.Random(1)))
    dump = tables.dump(file)
    behind = list(receipts(file))
    check("the receipts behind changes", unlike(drop.run("manifest", file), behind))
    check("those before them", first_difference(behind[:len(before)], before))
    check("the office stays", None if tables.dump(file) == dump else "it was changed")


def altered(rows, source):
    """Rows with another number, box, name, length or digest, or with another moment and key."""
    for number, in_box, name, length, digest, *rest in source.sample(rows, RECEIPTS // 10):
        other = hashlib.sha256(digest.encode()).hexdigest()
        yield [number, in_box, name, length, other, *rest]
        yield [number, in_box, name, str(int(length) + 1), digest, *rest]
        yield [number, in_box, name, "9999999", digest, *rest]
        yield [str(int(number) % RECEIPTS + 1), in_box, name, length, digest, *rest]
        yield ["9999999999", in_box, name, length, digest, *rest]
        yield [number, source.choice(BOXES), name, length, digest, *rest]
        yield [number, in_box.upper(), name, length, digest, *rest]
        yield [number, in_box, name + " ", length, digest, *rest]
        yield [number, in_box, source.choice(["", "a\nb", "a\r\nb", "\x7f", "=1,2"]), length, digest, *rest]
        yield [number, in_box, name, length, digest, "", source.choice(["", "no key, and\nnone", "\t"])]


def test_compare(drop, check):
    """Each state, as the tables have it."""
    file = filled(drop, "compare")
    manifest = drop.run("manifest", file).out
    rows = read(manifest)
    check("all stands", unlike(drop.run("compare", file, given=manifest), states(file, rows)))
    found = {row[3] for row in states(file, rows)[1:]}
    check("what is owed", None if found == {"standing"} else f"{found}")
    check("changes", change(drop, file, random.Random(2)))
    owed = states(file, rows)
    found = [sum(row[3] == word for row in owed) for word in ["standing", "differs", "gone"]]
    check("what is owed behind changes", None if found == [RECEIPTS * 3 // 4, 0, RECEIPTS // 4] else f"{found}")
    dump = tables.dump(file)
    for name, data in forms(rows):
        check(f"compare, {name}", unlike(drop.run("compare", file, given=data), owed))
    for name, others in [
        ("the head alone", []), ("the newest receipts", read(drop.run("manifest", file).out)[1:]), ("backwards", rows[:0:-1]),
        ("twice", [row for row in rows[1:] for _ in range(2)]),
    ]:
        others = [RECEIPT_HEAD, *others]
        check(f"compare, {name}", unlike(compared(drop, file, others), states(file, others)))
    check("the office stays", None if tables.dump(file) == dump else "it was changed")


def test_altered(drop, check):
    """Altered manifests, which may need other quotes."""
    file = filled(drop, "altered")
    rows = [RECEIPT_HEAD, *altered(list(receipts(file))[1:], random.Random(3))]
    owed = states(file, rows)
    found = {word: sum(row[3] == word for row in owed) for word in ["standing", "differs", "gone"]}
    check("what is owed", None if min(found.values()) >= RECEIPTS // 10 else f"{found}")
    for how in [{}, {"quoting": csv.QUOTE_ALL}]:
        ran = compared(drop, file, rows, **how)
        well = ran.status == 0 and not ran.err
        check(f"altered, {how}", first_difference(read(ran.out), owed) if well else f"{ran.status}, {ran.err}")


# The place of a field in a manifest's row, another text for it, and what is said of that row.
TEXTS = [
    (0, b"2", b"2,in,a.txt,gone"), (0, b"9999999999", b"9999999999,in,a.txt,gone"), (0, b'"1"', b"1,in,a.txt,standing"),
    *((1, text, b"1," + text + b",a.txt,gone") for text in [b"out", b"No Box/", b""]),
    *((2, text, b"1,in," + text + b",gone") for text in [b"b.txt", b"", b" a.txt", b"a\0.txt", b"=a\t'.txt"]),
    *((2, text, b"1,in," + text + b",gone") for text in [b'"a,"".txt"', b'"a\r\n.txt"', b'"a\r.txt"']),
    (2, b'"a.txt"', b"1,in,a.txt,standing"), (2, b'"a".txt', b"1,in,a.txt,standing"), (2, b'a"."txt', b'1,in,"a"".""txt",gone'),
    *((3, text, b"1,in,a.txt,differs") for text in [b"4", b"0", b"9999999"]), (4, b"a5" * 32, b"1,in,a.txt,differs"),
    *((5, text, b"1,in,a.txt,standing") for text in [b"", b'"then,\nor later"']),
    # The list may end within quotes.
    *((6, text, b"1,in,a.txt,standing") for text in [b"", b"\xc3\xa9", b'"key', b'"key,\r\n""']),
]
HEAD = written([RECEIPT_HEAD])
# What may stand in place of the head, and behind a row.
HEADS = [
    HEAD, b"\xef\xbb\xbf" + HEAD, b"\xef\xbb\xbf" + HEAD.replace(b"receipt", b'"receipt"'), HEAD.replace(b"\n", b"\r"),
    HEAD.replace(b"\n", b"\r\n"), b"\n\r\n\r" + HEAD.replace(b"\n", b"\r\r\r\n\n"), HEAD.replace(b"receipt", b'"re"ceipt'),
    written([RECEIPT_HEAD], quoting=csv.QUOTE_ALL),
]
ENDS = [b"", b"\r", b"\r\n", b"\n", b"\n\n\r\r\n", b"\n\r\n"]


def test_texts(drop, check):
    """Texts of a manifest's fields, and the forms of its head and of its end."""
    file = drop.office("texts")
    tables.add_box(file, tables.Box("in"))
    tables.add_file(file, "in", "a.txt", b"abc", ID)
    row = list(receipts(file))[1]
    good = written([row]).removesuffix(b"\n")
    standing = b"1,in,a.txt,standing"
    marked = [written([changed(row, place, "MARK")]).removesuffix(b"\n") for place in range(7)]
    given = [(HEAD + marked[place].replace(b"MARK", text), said) for place, text, said in TEXTS]
    given += [(head + good, standing) for head in HEADS] + [(HEAD + good + end, standing) for end in ENDS]
    for data, said in given:
        found = drop.run("compare", file, given=data)
        check(f"compare {data!r}", difference(found, kit.Run(0, written([STATE_HEAD]) + said + b"\n", b"")))


def many(drop, count):
    """An office with so many receipts for one file."""
    file = drop.office(f"{count} receipts")
    tables.add_box(file, tables.Box("in", mode=1))
    digest = hashlib.sha256(b"").digest()
    with tables.opened(file) as db:
        rows = [(number, "in", "a.txt", 0, digest, tables.M, ID) for number in range(1, count)]
        db.executemany("INSERT INTO receipts VALUES (?, ?, ?, ?, ?, ?, ?)", rows)
    tables.add_file(file, "in", "a.txt", b"", ID)
    return file


def test_portions(drop, check):
    """As many receipts as are held at a time, once and twice, one fewer, and one more."""
    for count in [255, 256, 257, 512, 513]:
        file = many(drop, count)
        rows = list(receipts(file))
        check(f"a manifest of {count}", unlike(drop.run("manifest", file), rows))
        check(f"{count} compared", unlike(compared(drop, file, rows), states(file, rows)))
        found = collections.Counter(row[3] for row in states(file, rows)[1:])
        check(f"what is owed of {count}", difference(found, {"gone": count - 1, "standing": 1}))


# ---- links


@dataclasses.dataclass(frozen=True)
class Wish:
    """A row of a list of links, and its link by a key, for a host and a region."""

    method: str
    in_box: str
    name: str
    start: str = MOMENT
    expires: str = "604800"

    def row(self):
        return list(dataclasses.astuple(self))

    def link(self, key, host, region):
        order = BotocoreOrder(self.method, f"/{self.in_box}/{self.name}", {}, {}, region=region, expires=int(self.expires),
                              start=self.start, host=host, key=(key, KEYS[key].decode()))
        return f"http://{host}{order.link()}"


def wishes(source):
    """Five hundred rows of every form."""
    starts = ["19700101T000000Z", "20000229T235959Z", MOMENT, "20380119T031408Z", "99991231T235959Z"]
    names = [*NAMES, "n" * 1024, "é" * 512, '"', 'a,"b', ",", " ", "=", "=a'/../é%2F?&", "\ufeff"]
    names += [odd_name(source, number) for number in range(500 - len(names))]
    for number, name in enumerate(names):
        expires = source.choice([1, 60, 86400, 604799, 604800, source.randint(1, 604800)])
        in_box = source.choice([*BOXES, "0", "no-box", "-.-", "-" * 63])
        yield Wish(["PUT", "GET", "HEAD"][number % 3], in_box, name, source.choice(starts), str(expires))


def wished(those):
    return [WISH_HEAD, *(wish.row() for wish in those)]


def linked(drop, file, data, **place):
    return drop.run("links", file, *(f"--{name}={value}" for name, value in (PLACE | place).items()), given=data)


def owed_links(those, **place):
    place = PLACE | place
    return [LINK_HEAD, *([*wish.row(), wish.link(**place)] for wish in those)]


def test_links(drop, check):
    """Botocore's own links, byte for byte, by each key and for many hosts; those of a revoked key too."""
    file = begun(drop, "links")
    those = list(wishes(random.Random(4)))
    before = tables.dump(file)
    owed = owed_links(those)
    for name, data in forms(wished(those)):
        check(f"{len(those)} links, {name}", unlike(linked(drop, file, data), owed))
    for place in [
        *({"key": key} for key in KEYS), {"region": "r"}, {"region": "-" + "9" * 31}, {"host": "h"}, {"host": "h" * 255},
        {"host": "files.example:8080"}, {"host": "Files.Example"}, {"host": "[2001:db8::1]:80"}, {"host": 'a,"b'},
    ]:
        found = linked(drop, file, written(wished(those[:60])), **place)
        check(f"links, {place}", unlike(found, owed_links(those[:60], **place)))
    check("no links", unlike(linked(drop, file, written([WISH_HEAD])), [LINK_HEAD]))
    check("the office stays", None if tables.dump(file) == before else "it was changed")


def test_used_links(drop, check):
    """Links of a list are accepted by the office that they were written for."""
    file = begun(drop, "used")
    source = random.Random(5)
    puts = [Wish("PUT", source.choice(BOXES), odd_name(source, f"new {number} ")) for number in range(50)]
    ran = linked(drop, file, written(wished(puts)), key="k2")
    urls = [row[5].encode() for row in read(ran.out)[1:]]
    asked = b"".join(sent(url, "PUT", b"%d" % number) for number, url in enumerate(urls))
    owed = [receipt(number + 1, b"%d" % number) for number in range(50)]
    check("fifty uploads", difference(drop.replay(file, asked), answered(*owed)))
    check("their receipts", unlike(drop.run("manifest", file), list(receipts(file))))


def test_secret_links(drop, check):
    """`key:SECRETFILE` in place of an office file: botocore's own links, by each key, without an office."""
    those = list(wishes(random.Random(6)))[:200]
    for number, (key, secret) in enumerate(KEYS.items()):
        file = drop.path(f"secret-{number}")
        file.write_bytes(secret + b"\n")
        found = linked(drop, f"key:{file}", written(wished(those)), key=key)
        check(f"links by a secret, {key}", unlike(found, owed_links(those, key=key)))
        for method, target in [("PUT", "in/a b.txt"), ("GET", "out.1-2/ü"), ("HEAD", "in/x"), ("POST", "key revoke k2")]:
            office = drop.link(begun(drop, f"beside-{number}-{method}"), method, target, key=key)
            check(f"{method} by a secret, {key}", difference(drop.link(f"key:{file}", method, target, key=key), office))
    found = drop.link(f"key:{drop.path('secret-0')}", "PUT", "in/a", key="unknown")
    check("a key of any id", None if found.status == 0 else found)
    options = [f"--{name}={value}" for name, value in LINK.items()]
    given = drop.run("link", "key:/dev/stdin", "PUT", "in/a", *options, given=SECRET + b"\n")
    check("key:/dev/stdin", difference(given, kit.Run(0, python_link("PUT", "in/a"), b"")))


def test_bad_secrets(drop, check):
    """Unreadable and invalid secrets, invalid ids, and an office file whose name begins with `key:`."""
    for name in ["", drop.folder, drop.path("gone")]:
        found = drop.link(f"key:{name}", "PUT", "in/a")
        check(f"the secret in {name!r}", difference(found, CANNOT_READ_SECRET))
    for name, data in [("two lines", b"one\ntwo\n"), ("nothing", b""), ("a space", b"two words\n"), ("129 bytes", b"s" * 129)]:
        file = drop.path(f"no secret, {name}")
        file.write_bytes(data)
        for found in [drop.link(f"key:{file}", "PUT", "in/a"), linked(drop, f"key:{file}", written([WISH_HEAD]))]:
            check(f"no secret: {name}", difference(found, malformed("secret")))
    file = drop.path("good")
    file.write_bytes(SECRET)
    for key in ["", "a b", "k" * 65, "é"]:
        check(f"the id {key!r}", difference(drop.link(f"key:{file}", "PUT", "in/a", key=key), malformed("key")))
    drop.office("key:office")
    check("./key:office", difference(drop.link("./key:office", "PUT", "in/a"), kit.Run(0, python_link("PUT", "in/a"), b"")))


# ---- faults


GOOD_WISH = Wish("PUT", "in", "b.txt").row()
BAD_WISHES = {
    0: ["", "DELETE", "POST", "put", "PUT ", "PATCH"],
    1: ["", "In", "a_b", "in/a", "in ", "b" * 64, "é", "in,in"],
    2: ["", "n" * 1025, "a\nb", "a\rb", "\0", "a\x1f", "a\x7f", "\t"],
    3: ["", "now", "20130532T000000Z", "20130229T000000Z", "20130524T000060Z", "20130524t000000z", "19691231T235959Z",
        "100000101T000000Z", "20130524T000000", " 20130524T000000Z", "2013-05-24T00:00:00Z"],
    4: ["", "0", "01", "604801", "1000000", "99999999999999999999", "-1", "+1", "1.0", "1e3", " 1", "1 ", "1,", "²", "１", "0x1"],
}
BAD_RECEIPTS = {
    0: ["", "0", "01", "00", "-1", "+1", "1.0", "0x1", " 1", "1 ", "²", "１", "10000000000", "99999999999999999999"],
    3: ["", "00", "03", "-3", "+3", " 3", "3 ", "3.0", "3\0", "10000000", "²"],
    4: ["", "a" * 63, "a" * 65, "A" * 64, "g" * 64, "a" * 63 + " ", "é" * 32],
}
# Bytes in place of a name that are no text.
NO_TEXTS = [b"\xff", b"\xc3", b"a\xc3", b"\xed\xa0\x80", b"\xc0\x80", b"\xf4\x90\x80\x80", b'"\xe9"']


def changed(row, place, value):
    return [*row[:place], value, *row[place + 1:]]


def bad_rows(row, values):
    """Rows that are refused, as bytes."""
    for place, texts in values.items():
        for text in texts:
            yield written([changed(row, place, text)])
    for place in range(len(row)):
        for data in NO_TEXTS:
            yield written([changed(row, place, "MARK")]).replace(b"MARK", data)
    marked = written([changed(row, 2, "MARK")])
    several = [row[:-1], row[:1], [*row, ""], [*row, "more"], [" "], [""], row * 2]
    for others in [*several, [""] * (len(row) - 1), [""] * (len(row) + 1)]:
        yield written([others])
    # Quotes without an end, and one row that is cut in two.
    for data in [b'"a', b"a\rb", b"a\nb", b'"a\nb"x,']:
        yield marked.replace(b"MARK", data)


def bad_heads(head):
    """Lists without their head."""
    row = written([head])
    for names in [head[:-1], [*head, ""], [*head, "more"], head[::-1], [it.upper() for it in head], [f" {head[0]}", *head[1:]],
                  [*head[:-2], head[-1], head[-2]], [head[0].capitalize(), *head[1:]], [*head[:-1], f"{head[-1]} "],
                  [head[0], f" {head[1]}", *head[2:]], STATE_HEAD, LINK_HEAD]:
        yield written([names])
    yield from [b"", b"\n", b"\r\n\r\n", b"\xef\xbb\xbf", b"\xef\xbb\xbf\xef\xbb\xbf" + row, b"\n\xef\xbb\xbf" + row, b" \n" + row]
    yield from [row.replace(b",", b";"), row.replace(b",", b"\t"), row.replace(b"\n", b"\0\n"), row.replace(b"\n", b"\xff\n")]
    yield b'"' + row
    yield row.rstrip() + b'"\n'
    yield row.replace(head[-1].encode(), b'"' + head[-1].encode())
    yield row.replace(head[-1].encode(), b"\xff")


def refused(number, rows):
    """The expected run if this row is refused after these were written."""
    return kit.Run(1, written(rows), fault(f"row {number} is refused").err)


def test_bad_links(drop, check):
    """A malformed row, as the first and as the third; and a list without its head."""
    file = begun(drop, "bad-links")
    run = functools.partial(linked, drop, file)
    good = [Wish("PUT", "in", "b.txt"), Wish("GET", "no-box", "a,b")]
    front = written([WISH_HEAD, *(wish.row() for wish in good)])
    for data in bad_rows(GOOD_WISH, BAD_WISHES):
        check(f"links, row 1: {data[:80]}", difference(run(written([WISH_HEAD]) + data), refused(1, [LINK_HEAD])))
        check(f"links, row 3: {data[:80]}", difference(run(front + data + data), refused(3, owed_links(good))))
    for data in bad_heads(WISH_HEAD):
        for rows in [b"", written([GOOD_WISH])]:
            check(f"links, head {data}, {len(rows)}", difference(run(data + rows), NO_HEAD))


def test_bad_manifests(drop, check):
    """The same for manifests."""
    file = few(drop, "bad-manifests")
    rows = list(receipts(file))

    def run(data):
        return drop.run("compare", file, given=data)

    for data in bad_rows(rows[1], BAD_RECEIPTS):
        check(f"compare, row 1: {data[:80]}", difference(run(written(rows[:1]) + data), refused(1, [STATE_HEAD])))
        found = run(written(rows[:3]) + data + written(rows[1:]))
        check(f"compare, row 3: {data[:80]}", difference(found, refused(3, states(file, rows[:3]))))
    for data in bad_heads(RECEIPT_HEAD):
        for more in [b"", written(rows[1:])]:
            check(f"compare, head {data}, {len(more)}", difference(run(data + more), NO_HEAD))
    number = len(rows)
    found = run(written([*rows, *rows[1:], changed(rows[1], 0, "01")]))
    check("compare, a late row", difference(found, refused(2 * number - 1, states(file, [*rows, *rows[1:]]))))


def each_list(drop, file):
    """A good run of each of the three lists: its input and its arguments."""
    wish = written([WISH_HEAD, GOOD_WISH])
    return [(b"", ["manifest", file]), (written(list(receipts(file))), ["compare", file]),
            (wish, ["links", file, *(f"--{name}={value}" for name, value in PLACE.items())])]


def test_faults(drop, check):
    """The first fault is reported: a malformed value, then the file, then the key, then the list."""
    gone, file = drop.path("gone"), few(drop, "faults")
    for place in [{"host": "two words", "region": "US"}, {"host": ""}, {"host": "h" * 256}, {"host": "é"}, {"host": "a\n"}]:
        check(f"links, {place}", difference(linked(drop, gone, b"", key="k 2", **place), malformed("host")))
    for region in ["", "US", "us_east", "r" * 33, "é"]:
        check(f"links, region {region!r}", difference(linked(drop, gone, b"", region=region), malformed("region")))
    for key in ["", "k9", "K2", "k 2", "k" * 65, "é"]:
        check(f"links, no file and key {key!r}", difference(linked(drop, gone, b"", key=key), CANNOT_OPEN))
        check(f"links, key {key!r}", difference(linked(drop, file, b"", key=key), UNKNOWN))
    for command in ["manifest", "compare"]:
        check(f"{command}, no file", difference(drop.run(command, gone), CANNOT_OPEN))
    check("no file is made", "there is one" if gone.exists() else None)
    others = not_offices(drop)
    version = few(drop, "version")
    tables.run(version, ["UPDATE office SET version = 7"])
    for other, owed in [*others, (version, VERSION)]:
        for found in [drop.run("manifest", other), drop.run("compare", other), linked(drop, other, b"")]:
            check(f"lists of {other.name}", difference(found, owed))
    with tables.opened(file) as db:
        db.execute("BEGIN EXCLUSIVE")
        for found in [drop.run("manifest", file), drop.run("compare", file), linked(drop, file, b"")]:
            check("a file that is held", difference(found, CANNOT_OPEN))


@contextlib.contextmanager
def folder_opened(drop):
    handle = os.open(drop.folder, os.O_RDONLY)
    try:
        yield handle
    finally:
        os.close(handle)


def test_streams(drop, check):
    """A list that cannot be read, and one that cannot be written."""
    file = few(drop, "streams")
    before = tables.dump(file)
    with folder_opened(drop) as folder:
        for given, words in each_list(drop, file):
            found, right = drop.run(*words, given=folder), drop.run(*words, given=given)
            owed = CANNOT_READ if given else right
            check(f"{words[0]} of a folder", difference(found, owed))
            check(f"{words[0]}, a good list", None if right.status == 0 and right.out else f"{right}")
        found = linked(drop, file, folder, key="k9")
        check("the key before the list", difference(found, UNKNOWN))
    many = each_list(drop, filled(drop, "many"))[:2]
    for failing in [full_disk, closed_pipe]:
        for given, words in [*each_list(drop, file), *many]:
            with failing() as out:
                found = drop.run(*words, given=given, out=out)
            check(f"{words[0]} to a {failing.__name__}", difference(found, CANNOT_WRITE))
    check("the office stays", None if tables.dump(file) == before else "it was changed")


# ---- command-line arguments and large fields


def test_words(drop, check):
    """Invalid arguments are reported before all else; and the help."""
    missing = "error: the following required arguments were not provided:"
    for words, line in [
        (["manifest"], missing), (["compare"], missing), (["links", "no-file"], missing), (["links", "no-file", "--key", ID], missing),
        (["manifest", "no-file", "more"], "error: unexpected argument 'more' found"),
        (["compare", "no-file", "more"], "error: unexpected argument 'more' found"),
        (["manifest", "no-file", "--key", ID], "error: unexpected argument '--key' found"),
        (["links", "no-file", "--key=1", "--key=2", "--host=h", "--region=r"],
         "error: the argument '--key <ID>' cannot be used multiple times"),
    ]:
        found = drop.run(*words)
        well = found.status == 2 and not found.out and found.err.decode().splitlines()[0] == line
        check(f"drop {words}", None if well else f"{found} and not {line!r}")
    check("no file is made", "there is one" if drop.path("no-file").exists() else None)
    for command in ["links", "manifest", "compare"]:
        owed = kit.Run(0, help_of(command), b"")
        for words in [[command, "--help"], ["help", command]]:
            check(f"drop {words}", difference(drop.run(*words), owed))


def test_examples(drop, check):
    """The help's example, run unchanged, does what it says; the heads that the help shows are those that are written."""
    file, secret = drop.office("office"), b"3kQz7mWx0PbT"
    tables.add_key(file, "tender-2", secret)
    lines = help_lines("links")
    first = lines.index(",".join(WISH_HEAD))
    words = next(line for line in lines if line.startswith("drop links office")).partition(" <")[0].split()[1:]
    method, in_box, name, start, expires = row = lines[first + 1].split(",")
    link = python_link(method, f"{in_box}/{name}", "tender-2", secret, start=start, expires=expires).decode().strip()
    found = drop.run(*words, given="".join(f"{line}\n" for line in lines[first:first + 2]).encode())
    check("the example's link", unlike(found, [LINK_HEAD, [*row, link]]))
    for command, head in [("manifest", RECEIPT_HEAD), ("compare", STATE_HEAD)]:
        check(f"the head of {command}", None if ",".join(head) in help_lines(command) else "it is not shown")


def test_great_fields(drop, check):
    """Ten megabytes in one field: as the head, and in each field of a row."""
    file = few(drop, "great")
    rows = list(receipts(file))[:2]
    for head, run in [(WISH_HEAD, functools.partial(linked, drop, file)), (RECEIPT_HEAD, lambda data: drop.run("compare", file, given=data))]:
        for great in ["1" * MEGABYTES, ",", '"' * MEGABYTES]:
            check(f"a head of {great[:3]}", shortened(run(written([[great * (MEGABYTES // len(great)), *head[1:]]])), NO_HEAD))
    for place in range(7):
        row = changed(rows[1], place, "1" * MEGABYTES)
        found = compared(drop, file, [rows[0], row])
        well = kit.Run(0, written(states(file, [rows[0], row])), b"") if place in (1, 2, 5, 6) else refused(1, [STATE_HEAD])
        check(f"compare, a great field {place}", shortened(found, well))
    for place in range(5):
        row = changed(GOOD_WISH, place, "1" * MEGABYTES)
        check(f"links, a great field {place}", shortened(linked(drop, file, written([WISH_HEAD, row])), refused(1, [LINK_HEAD])))
    quoted_name = changed(rows[1], 2, '",\n' * (MEGABYTES // 3))
    owed = kit.Run(0, written(states(file, [rows[0], quoted_name])), b"")
    check("compare, a great field of quotes", shortened(compared(drop, file, [rows[0], quoted_name]), owed))
    endless = written(rows) + b'1,"' + b"1" * MEGABYTES
    check("compare, quotes without end", shortened(drop.run("compare", file, given=endless), refused(2, states(file, rows))))
