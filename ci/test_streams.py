"""Runs the proved program `drop` over streams that come in pieces, are cut, end or fail at each place, and over outputs that
take a few bytes at a time, or fail; and over connections of a thousand messages.

ci/pieces.c bounds or refuses the program's reads and writes, and counts them. The expected answers come from the table of
refusals in docs/RULES.md and from Python's `hashlib` (ci/expected.py), the links of lists from Python's `hmac`, and the lines
on standard error from docs/USE.md.
"""

import dataclasses
import functools
import shutil
import subprocess
import tempfile

import pytest

import kit
import tables
from days import box_line
from expected import ID, LIMIT, MOMENT, OBEYED, answer, fetched, python_link, receipt
from listed import LINK_HEAD, WISH_HEAD, receipts, states, written
from messages import CUT_UPLOAD, REQUEST, get, post, put
from pieces import WHOLE, Pieces, broken, replay, run, until_failing
from program import CANNOT_WRITE, IN_MEMORY, answered, fault, malformed, shortened

NO_BOX, NOT_SIGNED = answer(27), answer(9)
SHORT = b"GET / HTTP/1.1\r\n\r\n"
GET = b"GET /b HTTP/1.1\r\n\r\n"
# Two requests, and an upload that breaks off.
TALK, TALKED = REQUEST * 2 + CUT_UPLOAD, NO_BOX * 2 + answer(6)
OPEN, OPEN_WIDE = post(box_line()), post(box_line(quota=10**9, files=9, mode="replace"))
ABC, RECEIPT = put(b"/in/a.txt", b"abc"), receipt(1, b"abc")
# An upload, and its fetch.
BOTH, BOTH_OWED = ABC + get(b"/in/a.txt"), RECEIPT + fetched(1, b"abc")
SIZE = 200_000
SESSIONS = 1000  # the most sessions of one run


@functools.cache
def body(size):
    """So many bytes, which repeat 0 to 250."""
    return (bytes(range(251)) * (size // 251 + 1))[:size]


def two_messages(size):
    """An upload that is not signed, with a body of this size, and a GET."""
    return b"PUT /a HTTP/1.1\r\nContent-Length: %d\r\n\r\n" % size + body(size) + GET


def long_head(size):
    return b"GET /a HTTP/1.1\r\nX-Long: " + b"a" * (size - 29) + b"\r\n\r\n"


def many_fields(count):
    return b"GET /a HTTP/1.1\r\n" + b"A: b\r\n" * count + b"\r\n"


# ---- single streams


@dataclasses.dataclass(frozen=True)
class Case:
    """A stream that is replayed so, with whole ones before and behind it; the expected run, and counts of its calls."""

    name: str
    stream: bytes
    owed: kit.Run
    how: Pieces = WHOLE
    before: bytes = b""
    behind: bytes = b""
    at: str = MOMENT
    counts: dict = dataclasses.field(default_factory=dict)

    def fault(self, drop):
        told = replay(drop, self.stream, self.how, before=self.before, behind=self.behind, at=self.at)
        counts = {name: getattr(told, name) for name in self.counts}
        return shortened(told.run, self.owed) or (None if counts == self.counts else f"{counts} and not {self.counts}")


# Streams that break a rule of framing.
BADLY_FRAMED = [
    (b"GET /a\r\n\r\n", 1), (many_fields(65), 1), (long_head(8193), 2),
    (b"PUT /a HTTP/1.1\r\nTransfer-Encoding: chunked\r\nContent-Length: x\r\n\r\n", 3),
    (b"PUT /a HTTP/1.1\r\nTransfer-Encoding: chunked\r\n\r\n", 3),
    *((b"PUT /a HTTP/1.1\r\nContent-Length: %s\r\n\r\nab" % length, number) for length, number in [
        (b"1\r\nContent-Length: 1", 4), (b"+1", 4), (b"00000000001", 4), (b"1a", 4), (b"8388609", 5), (b"9999999999", 5),
        (b"8388608", 6),
    ]),
]


def reads():
    """Reads of any size, and reads that end at each place of an upload and its fetch."""
    for at_once in [1, 2, 3, 7, 100, 331, 332]:
        yield Case(f"the request, {at_once} at once", REQUEST, answered(NO_BOX), Pieces(read=at_once))
    for how in [*(Pieces(read=at_once) for at_once in [1, 7, 4096]), *(Pieces(cut=place) for place in range(1, len(BOTH)))]:
        yield Case(f"an upload and its fetch, {how}", BOTH, answered(OBEYED, BOTH_OWED), how, OPEN)
    for at_once in [1, 4096, 10_000]:
        how = Pieces(read=at_once)
        for stream, owed in [(long_head(8192), NOT_SIGNED), (many_fields(64), NOT_SIGNED)]:
            yield Case(f"a head of {len(stream)} bytes, {at_once} at once", stream, answered(owed), how)
        for byte in [b"a", b"\n", b"\r", b"\0"]:
            yield Case(f"no head, {byte}, {at_once} at once", byte * 8192, answered(answer(2)), how)
            yield Case(f"no head yet, {byte}, {at_once} at once", byte * 8191, answered(), how)
        for stream, number in BADLY_FRAMED:
            yield Case(f"{stream[:60]}, {at_once} at once", stream, answered(answer(number)), how)


def bodies():
    """Bodies of all sizes, by reads of any size: each upload gets its receipt, and is fetched as it came."""
    sizes = [(size, at_once) for size in [0, 1, 65536, 65537, 1 << 20] for at_once in [1, 4096, 65536, 2_000_000]]
    sizes += [(SIZE, at_once) for at_once in [1, 17, 4096, 65537]] + [(LIMIT, at_once) for at_once in [4096, 65536, 9_000_000]]
    for size, at_once in sizes:
        stream = put(b"/in/a.txt", body(size)) + get(b"/in/a.txt")
        owed = answered(OBEYED, receipt(1, body(size)), fetched(1, body(size)))
        yield Case(f"{size} bytes, {at_once} at once", stream, owed, Pieces(read=at_once), OPEN_WIDE)
    for quota, owed in [(SIZE - 1, answer(33)), (SIZE, receipt(1, body(SIZE)))]:
        before = post(box_line(quota=quota))
        yield Case(f"a quota of {quota}", put(b"/in/a.txt", body(SIZE)), answered(OBEYED, owed), Pieces(read=4096), before)


def ends():
    """Streams that end within a message, or break a rule behind two messages."""
    lacking, no = answer(6), NOT_SIGNED
    for size, owed in [(0, b""), (1, b""), (37, b""), (38, lacking), (42, lacking), (43, no), (44, no), (62, no * 2)]:
        yield Case(f"two messages end after {size} bytes", two_messages(5)[:size], answered(owed), Pieces(read=7))
    for stream, number in BADLY_FRAMED:
        owed = answered(no * 2, answer(number))
        yield Case(f"{stream[:60]} behind two messages", two_messages(3) + stream, owed, Pieces(read=4096))


def broken_reads():
    """A read fails: what came whole is answered, no read follows, and the run goes on with the next stream."""
    for size, at_once in [(0, 100), (1, 100), (100, 100), (331, 100), (332, 100), (332, 332)]:
        number, owed = until_failing(size, at_once), NO_BOX * (size == len(REQUEST))
        how = Pieces(read=at_once, read_fails=number)
        counts = {"reads": number, "given": size, "writes": len(owed) // len(NO_BOX)}
        name = f"a read fails behind {size} bytes of the request, {at_once} at once"
        yield Case(name, REQUEST[:size], broken(owed), how, counts=counts)
    for size, whole in [(0, 0), (37, 0), (38, 0), (42, 0), (43, 1), (61, 1), (62, 2)]:
        for at_once in [1, 7, 4096]:
            how = Pieces(read=at_once, read_fails=until_failing(size, at_once))
            name = f"a read fails behind {size} bytes of two messages, {at_once} at once"
            yield Case(name, two_messages(5)[:size], broken(NOT_SIGNED * whole), how)
    for at_once in [1, 4096]:
        how = Pieces(read=at_once, read_fails=until_failing(len(ABC), at_once))
        yield Case(f"a read fails behind an upload, {at_once} at once", ABC, broken(OBEYED + RECEIPT), how, OPEN)
    stream = put(b"/in/b.txt", b"x")
    how = Pieces(read=100, read_fails=until_failing(len(stream), 100))
    owed = broken(OBEYED + RECEIPT + receipt(2, b"x") + fetched(1, b"abc"))
    yield Case("a run goes on behind a failed read", stream, owed, how, OPEN + ABC, get(b"/in/a.txt"))
    yield Case("the first read fails", TALK, broken(b""), Pieces(read_fails=1), counts={"reads": 1, "writes": 0})


def broken_writes():
    """A write fails, or takes nothing: a part of the answer was told, and no further write is made."""
    rooms = [(4096, 0, 0), (4096, 10, 10), (1, 99, 99), (0, 4096, 0), *((at_once, 30, 30) for at_once in [1, 7, 1000])]
    for at_once, room, size in rooms:
        how = Pieces(write=at_once, room=room)
        yield Case(f"room for {room} bytes, {at_once} at once", REQUEST, broken(NO_BOX[:size]), how)
    front, whole = OBEYED + receipt(1, body(5000)), fetched(1, body(5000))
    before, stream = OPEN_WIDE + put(b"/in/a.txt", body(5000)), get(b"/in/a.txt")
    for at_once in [1, 1000, 10_000]:
        for room in [0, 100, 181, 182, 2000, 4095, 4096, 4097, 5180, 5181]:
            how = Pieces(write=at_once, room=len(front) + room)
            owed = answered(front, whole) if room == len(whole) else broken(front + whole[:room])
            yield Case(f"a file's answer, room for {room} bytes, {at_once} at once", stream, owed, how, before)
    # The receipt stands though its answer broke off: the same upload on the next connection gets it.
    for size in [0, 10]:
        how = Pieces(write=10, write_fails=-(-len(OBEYED) // 10) + 1 + size // 10)
        owed = broken(OBEYED + RECEIPT[:size] + RECEIPT + receipt(2, b"x"))
        yield Case(f"an answer is lost after {size} bytes", ABC, owed, how, OPEN, ABC + put(b"/in/b.txt", b"x"))


def writes():
    """Outputs that take a few bytes at a time; how many writes an answer takes."""
    for at_once in [1, 7, 1000]:
        count = sum(-(-len(it) // at_once) for it in [OBEYED, RECEIPT, fetched(1, b"abc")])
        owed = answered(OBEYED, BOTH_OWED)
        yield Case(f"three answers, {at_once} at once", BOTH, owed, Pieces(write=at_once), OPEN, counts={"writes": count})
        count = -(-len(NO_BOX) // at_once)
        yield Case(f"a refusal, {at_once} at once", REQUEST, answered(NO_BOX), Pieces(write=at_once), counts={"writes": count})
    for at_once in [1, 1000]:
        owed = answered(OBEYED, RECEIPT, fetched(1, b"abc", "HEAD"))
        yield Case(f"a HEAD, {at_once} at once", ABC + get(b"/in/a.txt", "HEAD"), owed, Pieces(write=at_once), OPEN)
    yield Case("a command is one write", OPEN, answered(OBEYED), counts={"writes": 1})
    yield Case("a refusal is one write", REQUEST, answered(answer(23)), at="20130525T000000Z", counts={"writes": 1})
    yield Case("a receipt is one write", ABC, answered(OBEYED, RECEIPT), before=OPEN, counts={"writes": 2})


@pytest.mark.parametrize("group", [reads, bodies, ends, broken_reads, broken_writes, writes])
def test_cases(drop, check, group):
    cases = list(group())
    for case, wrong in zip(cases, kit.side_by_side(lambda it: it.fault(drop), cases)):
        check(case.name, wrong)


def test_file_writes(drop, check):
    """A file of up to 4096 bytes with its head is one write, and a longer one two."""
    file = drop.office("sizes")
    tables.add_box(file, tables.Box("in"))
    last = LIMIT + 184 - 4096
    for size, lengths in [(0, (1, 178, 178)), (3915, (1, 4096, 4096)), (3916, (2, 4096, 1)), (LIMIT, (2, 4096, last))]:
        tables.add_file(file, "in", f"{size}", body(size), ID)
        number = tables.rows(file, "SELECT MAX(number) FROM receipts")[0][0]
        told = replay(drop, get(b"/in/%d" % size), file=file)
        wrong = shortened(told.run, answered(fetched(number, body(size))))
        found = (told.writes, told.first, told.last)
        check(f"{size} bytes", wrong or (None if found == lengths else f"{found} and not {lengths}"))


# ---- each place, each read and each write in turn


def cut_streams():
    """Streams, with their answers, that are cut at each place."""
    yield "an upload that breaks off behind two requests", TALK, TALKED
    for length in [b": +3", b":", b": 00000000003", b": 3\r\nContent-Length: 3"]:
        yield f"a length, {length}", b"PUT / HTTP/1.1\r\nContent-Length" + length + b"\r\n\r\nabc", answer(4)
    yield "a body that is too large", b"PUT / HTTP/1.1\r\nContent-Length: 8388609\r\n\r\nabc", answer(5)
    for more in [b"", b"Content-Length: +3\r\n"]:
        yield f"a transfer coding {more}", b"PUT / HTTP/1.1\r\n" + more + b"Transfer-Encoding: identity\r\n\r\nabc", answer(3)
    yield "a beginning", REQUEST[:20], b""
    yield "no byte", b"", b""
    yield "no head", b"a" * 8192, answer(2)
    for stream, owed in [(long_head(8192), NOT_SIGNED), (many_fields(64), NOT_SIGNED), (many_fields(65), answer(1))]:
        yield f"a head of {len(stream)} bytes", stream, owed


def in_sessions(found, owed, times):
    """What is wrong, unless each of so many sessions was answered so."""
    if found == answered(owed * times):
        return None
    first = next((it for it in range(times) if found.out[it * len(owed):][:len(owed)] != owed), times)
    return f"session {first}: " + shortened(found, answered(owed * times))


def cut_fault(drop, stream, owed, first, times):
    """What is wrong if so many sessions of the stream are cut, the first one there, and each other one a byte further."""
    return in_sessions(replay(drop, stream, Pieces(cut=first), times=times).run, owed, times)


def test_cuts(drop, check):
    """Each place of each stream, in sessions one after another."""
    for name, stream, owed in cut_streams():
        for how in [Pieces(read=1), WHOLE]:
            check(f"{name}, {how}", shortened(replay(drop, stream, how).run, answered(owed)))
        firsts = range(1, len(stream), SESSIONS)
        faults = kit.side_by_side(lambda it: cut_fault(drop, stream, owed, it, min(SESSIONS, len(stream) - it)), firsts)
        for first, wrong in zip(firsts, faults):
            check(f"{name}, cut from {first} on", wrong)


def each_read(drop, at_once):
    """What is wrong if a read of the talk fails, for each read in turn, and behind the last one."""
    count = until_failing(len(TALK), at_once)

    def wrong(number):
        told = replay(drop, TALK, Pieces(read=at_once, write=at_once, read_fails=number), behind=TALK)
        whole = min(len(TALK), at_once * (number - 1)) // len(REQUEST)
        owed = broken(NO_BOX * whole + TALKED) if number <= count else answered(TALKED * 2)
        return shortened(told.run, owed) or (None if told.reads == min(number, count) else f"{told.reads} reads")

    return kit.side_by_side(wrong, range(1, count + 2))


def test_each_read(drop, check):
    """The whole messages before a failed read are answered, and so is the next connection."""
    for at_once in [4096, 11]:
        for number, wrong in enumerate(each_read(drop, at_once), 1):
            check(f"read {number} fails, {at_once} at once", wrong)


def parts(at_once):
    """What each write of the answers to the talk takes."""
    answers = [NO_BOX, NO_BOX, answer(6)]
    return [it[at:at + at_once] for it in answers for at in range(0, len(it), at_once)]


def test_each_write(drop, check):
    """A write fails or takes no byte, each in turn: the connection ends there, and the next one is answered."""
    for at_once in [4096, 11]:
        taken = parts(at_once)
        count = len(taken)
        hows = [Pieces(read=at_once, write=at_once, **{name: number})
                for name in ["write_fails", "write_stops"] for number in range(1, count + 1)]
        told = kit.side_by_side(lambda how: replay(drop, TALK, how, behind=TALK), hows)
        for how, it in zip(hows, told):
            number = how.write_fails or how.write_stops
            wrong = shortened(it.run, broken(b"".join(taken[:number - 1]) + TALKED))
            check(f"{how}", wrong or (None if it.writes == number + count else f"{it.writes} writes"))
    told = replay(drop, TALK, Pieces(read=1, write=1))
    wrong = None if told.writes == len(TALKED) else f"{told.writes} writes"
    check("a byte at once", shortened(told.run, answered(TALKED)) or wrong)


# ---- uploads over an office file, and over one in memory


def wide_office(drop, name):
    """An office file with a box, which has an empty file."""
    file = drop.office(name)
    tables.add_box(file, tables.Box("in", mode=1))
    tables.add_file(file, "in", "a2.txt", b"", ID)
    return file


def over_copy(drop, file, stream, how):
    """A replay over a copy of the office file, and whether its tables were changed."""
    with tempfile.TemporaryDirectory(dir=drop.folder) as folder:
        copied = shutil.copy(file, folder)
        told = replay(drop, stream, how, file=copied)
        return told, None if tables.dump(copied) == tables.dump(file) else "the tables were changed"


PLACES = [0, 1, 65535, 65536, 65537, 131071, 131072, 131073, 196607, 196608, 196609, 199999]


def broken_uploads():
    """Uploads that break off at the edges of their pieces: the stream, the most bytes per read, and whether a read fails."""
    whole = put(b"/in/a.txt", body(SIZE))
    for place in PLACES:
        for at_once in [4096, 65536, 1_000_000]:
            for fails in [False, True]:
                yield whole[:len(whole) - SIZE + place], at_once, fails
    yield put(b"/in/a.txt", body(LIMIT))[:-1], 65536, False


def upload_fault(drop, file, stream, at_once, fails):
    """What is wrong over a file, whose tables must stay, and in memory, where further requests show what is left."""
    how = Pieces(read=at_once)
    if fails:
        # The last read finds the end: this one fails.
        how = dataclasses.replace(how, read_fails=replay(drop, stream, how, before=OPEN_WIDE).reads)
    owed, ran = (b"", broken) if fails else (answer(6), answered)
    told, changed = over_copy(drop, file, stream, how)
    wrong = shortened(told.run, ran(owed)) or changed
    behind = get(b"/in/a.txt") + put(b"/in/b.txt", b"x") + get(b"/in/b.txt")
    told = replay(drop, stream, how, before=OPEN_WIDE, behind=behind)
    return wrong or shortened(told.run, ran(OBEYED + owed + answer(34) + receipt(1, b"x") + fetched(1, b"x")))


def test_broken_uploads(drop, check):
    """An upload that breaks off gets no receipt, and leaves nothing behind."""
    file = wide_office(drop, "wide")
    works = list(broken_uploads())
    for (stream, at_once, fails), wrong in zip(works, kit.side_by_side(lambda it: upload_fault(drop, file, *it), works)):
        check(f"an upload {'fails' if fails else 'ends'} after {len(stream)} bytes, {at_once} at once", wrong)


def test_lost_answers(drop, check):
    """A receipt stands in the office file though its answer broke off, and a retry gets it."""
    for room in [0, 10]:
        file = drop.office(f"lost-{room}")
        tables.add_box(file, tables.Box("in"))
        told = replay(drop, ABC, Pieces(room=room), file=file)
        check(f"room for {room} bytes", shortened(told.run, broken(RECEIPT[:room])))
        check(f"room for {room} bytes, again", shortened(drop.replay(file, ABC), answered(RECEIPT)))
        rows = tables.rows(file, "SELECT number, name, length FROM receipts")
        check(f"room for {room} bytes, receipts", None if rows == [(1, "a.txt", 3)] else f"{rows}")


# ---- a thousand messages


def test_thousand(drop, check):
    """A connection ends after a thousand messages, each answered by one write, whatever is read at once."""
    for more in [b"", REQUEST, b"GET /"]:
        for at_once, fits in [(1_000_000, lambda count: count <= 7), (1, lambda count: count >= 300_000)]:
            told = replay(drop, REQUEST * 1000 + more, Pieces(read=at_once))
            wrong = None if fits(told.reads) and told.writes == 1000 else f"{told.reads} reads, {told.writes} writes"
            check(f"{more[:9]} behind a thousand, {at_once} at once", shortened(told.run, answered(NO_BOX * 1000)) or wrong)


def thousands():
    """More than a thousand messages, and places at which they are cut: all of short ones; of others those in the first one, in
    the last, and where the feed's buffer ends."""
    yield "short", SHORT * 1001, NOT_SIGNED * 1000, range(1, len(SHORT) * 1001)
    for number in [0, 222, 999]:
        first = number * len(REQUEST)
        yield f"message {number}", REQUEST * 1000 + b"GET /", NO_BOX * 1000, range(max(1, first), first + len(REQUEST))


def test_thousand_cut(drop, check):
    """The same, wherever the stream is cut."""
    for name, stream, owed, places in thousands():
        firsts = places[::100]
        faults = kit.side_by_side(lambda it: cut_fault(drop, stream, owed, it, min(100, places.stop - it)), firsts)
        for first, wrong in zip(firsts, faults):
            check(f"a thousand, {name}, cut from {first} on", wrong)


def test_endless(drop, check):
    """A stream without an end: a thousand answers."""
    with subprocess.Popen(["yes", REQUEST.removesuffix(b"\n")], stdout=subprocess.PIPE) as endless:
        told = run(drop, ["replay", IN_MEMORY, "/dev/stdin", "--at", MOMENT], given=endless.stdout)
    check("no end", shortened(told.run, answered(NO_BOX * 1000)) or (None if told.writes == 1000 else f"{told.writes} writes"))


# ---- lists

CANNOT_READ = fault("cannot read the list")
WISHES = [[method, "in", name, MOMENT, "604800"] for method, name in [("PUT", "b.txt"), ("GET", "a,b.txt"), ("HEAD", "b.txt")]]
LINKS = [[*it, python_link(it[0], f"in/{it[2]}").decode().strip()] for it in WISHES]
PLACE = [f"--key={ID}", "--host=files.example", "--region=us-east-1"]


@dataclasses.dataclass(frozen=True)
class Listing:
    """A command that lists, over a copy of an office file: its input and its output."""

    drop: object
    file: object
    command: str
    more: tuple
    given: bytes
    owed: bytes

    def run(self, how, given=None):
        """Runs the command over a copy of its own, since an office file is held by one run at a time."""
        with tempfile.TemporaryDirectory(dir=self.drop.folder) as folder:
            with open(f"{folder}/given", "wb") as it:
                it.write(self.given if given is None else given)
            with open(f"{folder}/given", "rb") as it:
                return run(self.drop, [self.command, shutil.copy(self.file, folder), *self.more], how, given=it)


def listings(drop):
    """`manifest`, `compare` and `links` over an office with one receipt."""
    file = drop.office("lists")
    tables.add_box(file, tables.Box("in"))
    tables.add_file(file, "in", "a.txt", b"abc", ID)
    manifest = list(receipts(file))
    yield Listing(drop, file, "manifest", (), b"", written(manifest))
    yield Listing(drop, file, "compare", (), written(manifest), written(states(file, manifest)))
    yield Listing(drop, file, "links", tuple(PLACE), written([WISH_HEAD, *WISHES]), written([LINK_HEAD, *LINKS]))


def test_list_pieces(drop, check):
    """Whole lists, by reads and writes of any size; a byte order mark in pieces; and a row that is refused as the room ends."""
    of_receipts, compared, links = listings(drop)
    for listing in [of_receipts, compared, links]:
        for size, taken in [(1, 1), (1, 4096), (2, 7), (7, 2), (4096, 1)]:
            found = listing.run(Pieces(read=size, write=taken)).run
            check(f"{listing.command}, {size} read and {taken} written at once", shortened(found, answered(listing.owed)))
    for size in [1, 2, 3, 4, 4096]:
        found = compared.run(Pieces(read=size), b"\xef\xbb\xbf" + compared.given).run
        check(f"a byte order mark, {size} at once", shortened(found, answered(compared.owed)))
    for listing, number in [(compared, 2), (links, 4)]:
        found = listing.run(Pieces(write=1, room=len(listing.owed)), listing.given + b"bad\n" + listing.given).run
        owed = kit.Run(1, listing.owed, fault(f"row {number} is refused").err)
        check(f"{listing.command}, no more room", shortened(found, owed))


def read_fault(listing, place, at_once):
    """What is wrong if the read behind this place fails. The program's first read asks for one byte."""
    number = place + 1 if at_once == 1 else 1 + min(place, 2)
    told = listing.run(Pieces(read=at_once, cut=place or None, read_fails=number))
    owed = listing.owed if place == len(listing.given) else listing.owed[:len(told.run.out)]
    return shortened(told.run, kit.Run(1, owed, CANNOT_READ.err)) or (None if told.reads == number else f"{told.reads} reads")


def test_list_reads(drop, check):
    """A read fails at each place: the list breaks off, and no read follows; behind the last byte each row is answered."""
    works = [(listing, place, at_once) for listing in list(listings(drop))[1:] for at_once in [1, 4096]
             for place in range(len(listing.given) + 1)]
    for (listing, place, at_once), wrong in zip(works, kit.side_by_side(lambda it: read_fault(*it), works)):
        check(f"{listing.command}, a read fails behind {place} bytes, {at_once} at once", wrong)


def write_fault(listing, room, at_once):
    """What is wrong if there is room for so many bytes."""
    told = listing.run(Pieces(write=at_once, room=room))
    is_whole = room == len(listing.owed)
    return shortened(told.run, kit.Run(0 if is_whole else 1, listing.owed[:room], b"" if is_whole else CANNOT_WRITE.err))


def test_list_writes(drop, check):
    """A write fails at each place; the first write fails, or takes nothing, and none follows."""
    those = list(listings(drop))
    works = [(listing, room, at_once) for listing in those for at_once in [1, 4096] for room in range(len(listing.owed) + 1)]
    for (listing, room, at_once), wrong in zip(works, kit.side_by_side(lambda it: write_fault(*it), works)):
        check(f"{listing.command}, room for {room} bytes, {at_once} at once", wrong)
    for listing in those:
        for how in [Pieces(write_fails=1), Pieces(write=0)]:
            told = listing.run(how)
            wrong = None if told.writes == 1 else f"{told.writes} writes"
            check(f"{listing.command}, {how}", shortened(told.run, kit.Run(1, b"", CANNOT_WRITE.err)) or wrong)


def test_unread_lists(drop, check):
    """Links that cannot be signed: nothing is read, and nothing is written."""
    for host, region, key, secret, value in [
        *((host, "r", "k", "s", "host") for host in ["", "files example", "h\x7f", "é", "h" * 256]),
        *(("h", region, "k", "s", "region") for region in ["", "R", "r" * 33]),
        *(("h", "r", key, "s", "key") for key in ["", "a.b"]),
        *(("h", "r", "k", secret, "secret") for secret in ["", "two words"]),
    ]:
        file, given = drop.path("secret"), drop.path("wishes")
        file.write_text(secret)
        given.write_bytes(written([WISH_HEAD, *WISHES]))
        with open(given, "rb") as it:
            told = run(drop, ["links", f"key:{file}", f"--key={key}", f"--host={host}", f"--region={region}"], given=it)
        wrong = None if (told.reads, told.writes) == (0, 0) else f"{told.reads} reads, {told.writes} writes"
        check(f"links, {host[:9]!r}, {region[:9]!r}, {key!r}, {secret!r}", shortened(told.run, malformed(value)) or wrong)
