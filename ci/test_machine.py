"""Runs rows of requests on the proved program `drop`, each over a new office file and over a new office in memory: what an
office answers as its boxes fill and close, as keys come and go, and as uploads are repeated.

Each request is a connection of its own; those at one moment share a run. The expected answers come from the table of refusals
in docs/RULES.md and from Python's `hashlib` and `hmac` (ci/expected.py); what an office file holds then, Python's `sqlite3`
reads.
"""

import dataclasses
import itertools

import tables
from days import Step, box_line, by_moment, obeyed
from expected import ID, LIMIT, MOMENT, OBEYED, answer, fetched, receipt
from messages import CUT_UPLOAD, REQUEST, get, post, put, signed
from pieces import Pieces, replay
from program import IN_MEMORY, answered, difference, shortened

LATER, WEEK_LATER, DAY_BEFORE = "20130524T000001Z", "20130531T000000Z", "20130523T000000Z"
A, B = b"/in/a.txt", b"/in/b.txt"
K2 = {"key": ("k2", b"s3cr3t")}
ADD_K2, DROP_A = "key add k2 link s3cr3t", "file drop in a.txt"
KEEP, REPLACE = obeyed(box_line()), obeyed(box_line(mode="replace"))
SIZE, SHORTER = 200_000, 150_000
LARGE, GREATEST = ((bytes(range(251)) * 33421)[:size] for size in [SIZE, LIMIT])
# One byte more than version 1 of the office file allows for a body.
MIDDLING = GREATEST[:1_048_577]


# ---- steps


def puts(path, data, number, at=MOMENT, **how):
    """An upload that gets this receipt."""
    return Step(put(path, data, **how), receipt(number, data), at)


def refuses(path, data, number, at=MOMENT, **how):
    """An upload that is refused."""
    return Step(put(path, data, **how), answer(number), at)


def finds(path, number, data, method="GET", **how):
    return Step(get(path, method, **how), fetched(number, data, method))


def misses(path, number, method="GET", **how):
    """A fetch that is refused."""
    return Step(get(path, method, **how), answer(number, method))


def disobeys(number, *lines, at=MOMENT, **how):
    """Commands that are refused."""
    return [Step(post(line, **how), answer(number), at) for line in lines]


FIRST = puts(A, b"abc", 1)


# ---- rows


@dataclasses.dataclass(frozen=True)
class Row:
    """Requests to a new office; then the number of its receipts, and the bytes and files of its box `in`, if it has one.

    In memory all requests come at one moment; without one, the row is for an office file only.
    """

    name: str
    steps: list
    counts: tuple = None
    in_memory: str = MOMENT


def boxes():
    """A box fills and closes; its files are kept or replaced; its quota limits the sum of all sizes."""
    yield Row("the published request", [Step(REQUEST, answer(27))])
    yield Row("an upload breaks off", [Step(REQUEST * 2 + CUT_UPLOAD, answer(27) * 2 + answer(6))])
    closing = [KEEP, FIRST, puts(B, b"x", 2), refuses(b"/in/c.txt", b"y", 32), obeyed(f"box close in {LATER}"),
               puts(A, b"abc", 1, LATER), refuses(b"/in/c.txt", b"y", 30, LATER)]
    yield Row("closing", closing, (2, 4, 2), LATER)
    yield Row("keeping", [KEEP, FIRST, refuses(A, b"abd", 31)], (1, 3, 1))
    yield Row("replacing", [REPLACE, FIRST, puts(A, b"abd", 2)], (2, 3, 1))
    lengths = [KEEP, Step(signed("PUT", A), answer(25)), puts(A, b"", 1), refuses(b"/out/a.txt", b"abc", 27)]
    yield Row("lengths", lengths, (1, 0, 1))
    quota = [obeyed(box_line(quota=3, files=5, mode="replace")), FIRST, refuses(B, b"x", 33), puts(B, b"", 2)]
    yield Row("the quota", quota, (2, 3, 2))


def names():
    """A path is not normalized; a name has at most 1024 bytes; files are fetched until they are dropped."""
    plus = b"PUT /in/a+b HTTP/1.1\r\nHost: files.example\r\nContent-Length: 0\r\n\r\n"
    path = b"/in/a/../b%20c"
    paths = [KEEP, puts(path, b"abc", 1), finds(path, 1, b"abc"), misses(b"/in/b%20c", 34), Step(plus, answer(8))]
    yield Row("paths", paths, (1, 3, 1))
    longest = b"/in/" + b"a" * 1024
    lengths = [KEEP, refuses(longest + b"a", b"abc", 28), puts(longest, b"abc", 1), finds(longest, 1, b"abc")]
    yield Row("names", lengths, (1, 3, 1))
    fetches = [KEEP, misses(A, 34), misses(b"/out/a.txt", 27), FIRST, finds(A, 1, b"abc"), finds(A, 1, b"abc", "HEAD"),
               misses(B, 34), obeyed(DROP_A), misses(A, 34)]
    yield Row("fetches", fetches, (1, 0, 0))


def keys():
    """A link's key uploads and fetches until it is revoked, and reaches only the boxes to which it is limited."""
    command = Step(signed("POST", b"/", **K2), answer(24))
    link = [KEEP, obeyed(ADD_K2), puts(A, b"abc", 1, **K2), finds(A, 1, b"abc", **K2), command, obeyed("key revoke k2"),
            misses(A, 20, **K2), *disobeys(36, f"key revoke {ID}"), *disobeys(35, "key  revoke k2")]
    yield Row("keys", link, (1, 3, 1))
    other, none = b"/b2/x", b"/none/x"
    before = [KEEP, obeyed(box_line("b2")), obeyed(ADD_K2), misses(other, 34, **K2), obeyed("key limit k2 in")]
    no_length = Step(signed("PUT", b"/b2/a.txt", **K2), answer(24))
    reaches = [puts(A, b"abc", 1, **K2), refuses(b"/b2/a.txt", b"abc", 24, **K2), no_length, misses(other, 24, **K2),
               misses(other, 24, "HEAD", **K2), misses(none, 24, **K2), misses(b"/", 24, **K2), misses(b"/in/zz", 34, **K2),
               misses(other, 34)]
    more = disobeys(36, "key limit k2 in", "key limit k2 none", "key limit k3 in", f"key limit {ID} in")
    more += disobeys(35, "key limit k2")
    both = [obeyed("key limit k2 b2"), misses(other, 34, **K2), misses(b"/in/zz", 34, **K2), misses(none, 24, **K2),
            obeyed("key revoke k2"), *disobeys(36, "key limit k2 b2")]
    yield Row("limits", before + reaches + more + both, (1, 3, 1))


def repeats():
    """An upload is repeated: by another key, after its file was dropped or replaced, and by links that are no longer valid."""
    yield Row("sharing", [KEEP, obeyed(ADD_K2), FIRST, puts(A, b"abc", 1, **K2)], (1, 3, 1))
    closed = obeyed(f"box close in {MOMENT}")
    dropping = [KEEP, FIRST, obeyed(DROP_A), puts(A, b"abc", 2), obeyed(DROP_A), closed, refuses(A, b"abc", 30)]
    yield Row("dropping", dropping, (2, 0, 0))
    yield Row("returning", [REPLACE, FIRST, puts(A, b"abd", 2), puts(A, b"abc", 3), puts(A, b"abc", 3)], (3, 3, 1))
    c2 = {"key": ("c2", b"s3cr3t")}
    past = refuses(A, b"abc", 23, date="20130517T000000Z")
    revoked = [refuses(A, b"abc", 20), misses(A, 20), *disobeys(20, "key revoke c2")]
    outliving = [KEEP, FIRST, obeyed("key add c2 clerk s3cr3t"), past, obeyed(f"key revoke {ID}"), *revoked,
                 finds(A, 1, b"abc", **c2)]
    yield Row("outliving", outliving, (1, 3, 1))


def errands():
    """One request of each kind."""
    lines = [ADD_K2, "key add k3 clerk s3cr3t", "key limit k2 in", "key revoke k2", box_line("out").replace("any", "begins a"),
             "office allow 900", f"box close in {LATER}", DROP_A]
    kinds = [obeyed(box_line(quota=10**12, files=9, mode="replace")), FIRST, puts(A, b"abc", 1), puts(B, b"x", 2),
             puts(A, b"abd", 3), puts(A, b"abc", 4), finds(A, 4, b"abc"), *map(obeyed, lines)]
    yield Row("errands", kinds, (4, 1, 1))


def large():
    """Uploads that are staged in several pieces."""
    wide = obeyed(box_line(quota=LIMIT, files=5))
    others = [LARGE + b"\0", LARGE[:-1], LARGE[:-1] + b"\xfb"]
    compared = [wide, puts(A, LARGE, 1), *(refuses(A, data, 31) for data in others), puts(A, LARGE, 1), finds(A, 1, LARGE)]
    yield Row("comparing", [*compared, puts(b"/in/a2.txt", b"", 2)], (2, SIZE, 2))
    cut_off = [Step(put(path, LARGE)[:SHORTER - SIZE], answer(6)) for path in [A, B]]
    whole = [wide, cut_off[0], misses(A, 34), puts(A, LARGE, 1), puts(b"/in/a2.txt", b"", 2), cut_off[1], misses(B, 34),
             finds(A, 1, LARGE)]
    yield Row("breaking off, and coming whole", whole, (2, SIZE, 2))
    filling = [wide, puts(A, GREATEST, 1), puts(b"/in/a2.txt", b"", 2), refuses(B, b"x", 33), puts(A, GREATEST, 1),
               finds(A, 1, GREATEST)]
    yield Row("filling", filling, (2, LIMIT, 2))
    unsigned = Step(put(A, MIDDLING, key=(ID, b"another")) + get(b"/in/zz"), answer(21) + answer(34))
    yield Row("a wrong signature", [wide, unsigned, misses(A, 34)], (0, 0, 0))


EARLY = {"date": DAY_BEFORE}
BAD_ALLOWANCES = ["office allow 901", "office allow 0900", "office allow 00"]
# Moments at which the published request is not too early by an allowance of 900, or is; and its end.
EDGES = [("20130523T234500Z", 27), ("20130523T234459Z", 22), ("20130524T235959Z", 27), ("20130525T000000Z", 23)]


def moments():
    """Opening hours follow the office's clock. An allowance makes a link valid earlier, and does not move its end."""
    hours = obeyed(box_line(days="0000100", hours="0000 0100"), expires=604800, **EARLY)
    for at, number in [("20130523T235959Z", 30), ("20130524T010000Z", 30), (MOMENT, 0), ("20130524T005959Z", 0)]:
        upload = refuses(A, b"abc", number, **EARLY) if number else puts(A, b"abc", 1, **EARLY)
        yield Row(f"hours at {at}", [dataclasses.replace(it, at=at) for it in [hours, upload]], in_memory=at)
    long = {"expires": 604800, **EARLY}
    allow = [obeyed("office allow 900", **long), *disobeys(35, *BAD_ALLOWANCES, **long)]
    for at, number in EDGES:
        steps = [*allow, Step(REQUEST, answer(number))]
        yield Row(f"an allowance at {at}", [dataclasses.replace(it, at=at) for it in steps], in_memory=at)
    at, none = "20130523T235959Z", Step(REQUEST, answer(22))
    steps = [none, obeyed("office allow 900", **long), obeyed("office allow 0", **long), none]
    yield Row("no allowance", [dataclasses.replace(it, at=at) for it in steps], in_memory=at)


def days():
    """Rows of several moments."""
    before, behind, last = "20130523T235959Z", "20130524T010000Z", "20130524T005959Z"
    uploads = [refuses(A, b"abc", 30, before, **EARLY), refuses(A, b"abc", 30, behind, **EARLY), puts(A, b"abc", 1, **EARLY),
               refuses(B, b"x", 30, behind, **EARLY), puts(B, b"x", 2, last, **EARLY)]
    yield Row("hours", [obeyed(box_line(days="0000100", hours="0000 0100")), *uploads], (2, 4, 2), None)
    expired = refuses(A, b"abc", 23, WEEK_LATER)
    yield Row("a week later", [KEEP, FIRST, expired, dataclasses.replace(FIRST, at="20130530T235959Z")], (1, 3, 1), None)
    first = [Step(REQUEST, answer(22), "20130523T235959Z"), obeyed("office allow 900")]
    allowed = [Step(REQUEST, answer(number), at) for at, number in EDGES]
    others = disobeys(35, *BAD_ALLOWANCES)
    last = [allowed[0], obeyed("office allow 0"), first[0]]
    yield Row("an allowance", first + allowed + others + last, None, None)


GROUPS = [boxes, names, keys, repeats, errands, large, moments, days]


def holds(file, counts):
    """What is wrong with the number of receipts and the totals of the box."""
    receipts = tables.rows(file, "SELECT COUNT(*) FROM receipts")[0]
    totals = tables.rows(file, "SELECT used, count FROM boxes WHERE name = 'in'")[0]
    return difference(receipts + totals, counts)


def test_rows(drop, check):
    """Each row over a file, with one connection for each request, and in memory."""
    for row in itertools.chain(*(group() for group in GROUPS)):
        file = drop.office(row.name)
        for at, asked, owed in by_moment(row.steps):
            check(f"{row.name} at {at}, a file", shortened(drop.replay(file, *asked, at=at), answered(*owed)))
        if row.counts:
            check(f"{row.name}, what is held", holds(file, row.counts))
        if row.in_memory:
            asked, owed = zip(*((step.asked, step.owed) for step in row.steps))
            check(f"{row.name}, in memory", shortened(drop.replay(IN_MEMORY, *asked, at=row.in_memory), answered(*owed)))


def test_clocks(drop, check):
    """Opening hours by clocks ahead of UTC, and the last hours that there are: at the office it is Saturday, 13:59."""
    closed = answer(30)
    moments = [("20130523T235959Z", closed), ("20130524T010000Z", closed), (MOMENT, FIRST.owed), ("20130524T005959Z", FIRST.owed)]
    for at, owed in moments:
        file = drop.office(f"ahead at {at}", "--east", "60")
        tables.add_box(file, tables.Box("in", days="0000100", from_minute=60, to_minute=120))
        check(f"hours at {at}, an hour east", difference(drop.replay(file, put(A, b"abc", **EARLY), at=at), answered(owed)))
    last = "99991231T235958Z"
    for east, owed in [(840, FIRST.owed), (839, closed)]:
        file = drop.office(f"{east} east", "--east", f"{east}")
        tables.add_box(file, tables.Box("in", days="0000010", from_minute=839, to_minute=840))
        check(f"the last hours, {east} east", difference(drop.replay(file, put(A, b"abc", date=last), at=last), answered(owed)))


def test_unchanged(drop, check):
    """What is refused changes nothing. A body that is too large is not read."""
    file = drop.office("unchanged")
    too_large = b"PUT /in/a.txt HTTP/1.1\r\nHost: files.example\r\nContent-Length: 8388609\r\n\r\n"
    before = [KEEP, FIRST, obeyed("key add c2 clerk s3cr3t")]
    check("before", difference(drop.replay(file, *(it.asked for it in before)), answered(*(it.owed for it in before))))
    for name, asked, number, at in [
        ("an expired link", put(A, b"abc"), 23, WEEK_LATER),
        ("another secret", put(A, MIDDLING, key=(ID, b"another")), 21, MOMENT),
        ("an upload that breaks off", put(B, LARGE)[:-1], 6, MOMENT),
        ("a body that is too large", too_large + LARGE, 5, MOMENT),
        ("other bytes", put(A, LARGE[:90]), 31, MOMENT), ("past the quota", put(B, LARGE), 33, MOMENT),
    ]:
        dump = tables.dump(file)
        check(name, shortened(drop.replay(file, asked, at=at), answered(answer(number))))
        check(f"{name}, the office", None if tables.dump(file) == dump else "it was changed")
    check("a revoked key", difference(drop.replay(file, post(f"key revoke {ID}")), answered(OBEYED)))
    dump = tables.dump(file)
    check("its upload", difference(drop.replay(file, put(A, b"abc")), answered(answer(20))))
    told = replay(drop, too_large + LARGE[:1000], Pieces(read=len(too_large)), file=file)
    check("a body that is not read", difference((told.run, told.reads, told.given), (answered(answer(5)), 1, len(too_large))))
    check("the office", None if tables.dump(file) == dump else "it was changed")


def test_kept(drop, check):
    """Whose receipt it is after another key repeated the upload, and a name that is not normalized, in the file and a link."""
    file = drop.office("kept")
    path = b"/in/a/../b%20c"
    steps = [KEEP, obeyed(ADD_K2), puts(path, b"abc", 1), puts(path, b"abc", 1, **K2)]
    check("two uploads", difference(drop.replay(file, *(it.asked for it in steps)), answered(*(it.owed for it in steps))))
    rows = tables.rows(file, "SELECT name, key_id FROM receipts JOIN files USING (box, name)")
    check("one receipt", difference(rows, [("a/../b c", ID)]))
    link = drop.link(file, "PUT", "in/a/../b c").out
    check("the link", None if link.startswith(b"http://files.example" + path + b"?") else f"{link}")
