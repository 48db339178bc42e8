"""By hand, and done: has a program of version 1 make the office files that are kept in ci/version1, and asks it of each.

It takes the path of that program, the proved `drop` of a tree that makes office files of version 1. Everything is made by its
commands and by requests that Python's `hmac` signs (ci/test_replays.py), except that Python's `sqlite3` then rewrote one file
with another page size. ci/test_migrate.py does the same runs with today's program (ci/kept.py).
"""

import argparse
import contextlib
import pathlib
import sqlite3
import tempfile
import time

import kit
from expected import ID, MOMENT, SECRET, quoted, receipt
from kept import VERSION_1, Asked, Kept
from messages import get, post, put, signed
from program import Drop, answered
from samples import NAMES
from server import Server

FIRST, LAST = "19700101T000000Z", "99991231T235959Z"
BEFORE, LAST_OF_WEEK, AFTER_WEEK = "20130523T235959Z", "20130530T235959Z", "20130531T000000Z"
LINK_KEY = ("k2", b"s3cr3t")
ANY_TIME = f"{FIRST} {LAST} 1111111 0000 2400"
PLACE = ["--host", "files.example", "--region", "us-east-1"]
LIST = b"method,box,name,start,expires\nPUT,in,\"a,b \xc3\xa9.pdf\",20130524T000000Z,604800\nGET,in,a.txt,20130524T000000Z,1\n"
BAD_LIST = LIST + b"DELETE,in,a.txt,20130524T000000Z,1\n"


def at(moment, **how):
    """Arguments that sign a request to be valid from this moment on."""
    return {"date": moment, **how}


# ---- the runs for each office


def asked(*requests, moment=MOMENT):
    """One connection with these requests."""
    return Asked(["replay", "FILE", "STREAM", "--at", moment], b"".join(requests))


def said(*words, given=b""):
    return Asked(list(words), given=given)


def asks_of_links(key):
    """A link's own rules: its window, its key, its signature."""
    fetch = get(b"/in/a.txt", key=key)
    for moment in [FIRST, BEFORE, MOMENT, LAST_OF_WEEK, AFTER_WEEK, LAST]:
        yield asked(fetch, get(b"/in/a.txt", "HEAD", key=key), moment=moment)
    second = signed("GET", b"/in/a.txt", key=key, date="20130524T123456Z", expires=1)
    for moment in ["20130524T123455Z", "20130524T123456Z", "20130524T123457Z"]:
        yield asked(second, moment=moment)
    yield asked(get(b"/in/a.txt", key=("nobody", b"s3cr3t")), get(b"/in/a.txt", key=(key[0], b"another")))
    yield asked(signed("PUT", b"/in/a.txt", key=key), get(b"/none/a.txt", key=key), get(b"/", key=key), get(b"/in", key=key))
    yield asked(signed("GET", b"/in/a.txt", key=key, unsigned=[(b"Content-Length", b"1")]) + b"x", b"GET / HTTP/1.1\r\n\r\n")


def asks_of_desk(key):
    """A day at the desk, in a box of its own."""
    box = f"box add day.1 {ANY_TIME} 100 2 keep ends .txt,.a"
    first, second, third = (put(b"/day.1/%s.txt" % it, it * 3, key=key) for it in [b"a", b"b", b"c"])
    yield asked(post(box, key=key), post(box, key=key), post("box  close", key=key), post(f"key revoke {key[0]}!", key=key))
    yield asked(first, second, third, first, put(b"/day.1/a.txt", b"other", key=key), put(b"/day.1/a.pdf", b"", key=key))
    yield asked(get(b"/day.1/a.txt", key=key), get(b"/day.1/b.txt", "HEAD", key=key), get(b"/day.1/c.txt", key=key))
    yield asked(post("file drop day.1 a.txt", key=key), get(b"/day.1/a.txt", key=key), first, third)
    yield asked(post("key add day link s3cr3t", key=key), post("key add day clerk s3cr3t", key=key))
    by_link = {"key": ("day", b"s3cr3t")}
    yield asked(get(b"/day.1/b.txt", **by_link), post("key revoke day", **by_link), put(b"/day.1/b.txt", b"bbb", **by_link))
    yield asked(post("box close day.1 20130524T000001Z", key=key))
    yield asked(first, third, moment="20130524T000001Z")
    yield asked(post("key revoke day", key=key), get(b"/day.1/b.txt", **by_link), post("key revoke day", key=key))


def asks_of_words(key, manifest):
    """Commands that are not requests."""
    place = ["--key", key[0], *PLACE]
    yield said("link", "FILE", "PUT", "in/a b, \u00e9.txt", *place, "--start", MOMENT, "--expires", "604800")
    yield said("link", "FILE", "POST", "key revoke k2", *place, "--start", LAST, "--expires", "1")
    yield said("link", "FILE", "GET", "in/a.txt", "--key", "nobody", *PLACE, "--start", MOMENT, "--expires", "1")
    yield said("links", "FILE", *place, given=LIST)
    yield said("links", "FILE", *place, given=BAD_LIST)
    yield said("compare", "FILE", given=manifest)
    yield said("desk", "FILE", "key add by-word link s3cr3t")
    yield said("desk", "FILE", "-", given=b"key add by-word link s3cr3t\n")
    yield said("desk", "FILE", "box add")
    yield said("init", "FILE", "--clerk", "k", "--secret", "s")


def asks(key, manifest, own):
    """All runs for an office, in this order; the last ones say what it then keeps."""
    yield from own
    yield from asks_of_links(key)
    yield from asks_of_desk(key)
    yield from asks_of_words(key, manifest)
    yield said("manifest", "FILE")
    yield said("compare", "FILE", given=manifest)


# ---- the offices


CLERK = (ID, SECRET)


class Maker:
    """Makes one office with the program, and stops if an answer is not the expected one."""

    def __init__(self, program, folder):
        self.drop = Drop(program, folder)
        self.file = folder / "office"
        self.receipts = 0

    def init(self, *more, key=CLERK):
        ran = self.drop.run("init", self.file, "--clerk", key[0], "--secret", key[1].decode(), *more)
        assert ran == answered(), ran

    def desk(self, *lines):
        for line in lines:
            ran = self.drop.run("desk", self.file, line)
            assert ran.out == b"done\n", (line, ran)

    def put(self, path, data, moment=MOMENT, **how):
        """Uploads a file, which is new or replaces another."""
        self.receipts += 1
        ran = self.drop.replay(self.file, put(path, data, date=moment, **how), at=moment)
        assert ran == answered(receipt(self.receipts, data)), (path, ran)

    def put_all(self, path, files):
        """Uploads many small files in one run."""
        requests, owed = [], []
        for name, data in files:
            self.receipts += 1
            requests.append(put(path + name, data))
            owed.append(receipt(self.receipts, data))
        # a connection has at most a thousand requests
        assert len(requests) <= 1000
        ran = self.drop.replay(self.file, b"".join(requests))
        assert ran == answered(*owed), ran


def fresh(it):
    it.init()
    return CLERK, []


def of_hours(it, side):
    """An office whose clock is fourteen hours off, and a box with opening hours."""
    it.init(f"--{side}", "840")
    it.desk(f"box add in {FIRST} {LAST} 0000010 0100 0159 1000 5 keep any")
    # Saturday 25 May 2013, 01:00 to 01:59 by the office's clock
    begin, end = {"east": ("20130524T110000Z", "20130524T115900Z"), "west": ("20130525T150000Z", "20130525T155900Z")}[side]
    it.put(b"/in/a.txt", b"abc", begin)
    edge = {"east": ["20130524T105959Z", begin, "20130524T115859Z", end], "west": ["20130525T145959Z", begin, "20130525T155859Z", end]}
    own = [asked(put(b"/in/%d" % number, b"x", date=moment), put(b"/in/a.txt", b"abc", date=moment), moment=moment)
           for number, moment in enumerate(edge[side])]
    return CLERK, [*own, asked(put(b"/in/last", b"", date="99991231T235958Z"), moment="99991231T235958Z")]


def keys(it):
    """Keys of both roles with the shortest and longest ids and secrets, some revoked, including the first clerk's."""
    greatest = ("k" * 64, b"!" * 128)
    it.init()
    it.desk("key add - link ~", f"key add {'K' * 64} link {'~' * 128}", "key add gone link s3cr3t", f"key add {greatest[0]} clerk {'!' * 128}",
            "key add c2 clerk a/b+c=d", f"box add in {ANY_TIME} 1000 9 keep any", "box add b2 " + f"{ANY_TIME} 1000 9 replace any")
    it.put(b"/in/a.txt", b"abc", key=("gone", b"s3cr3t"))
    it.put(b"/in/b.txt", b"by a clerk")
    it.put(b"/b2/c.txt", b"by a link's key", key=("-", b"~"))
    it.desk("key revoke gone", f"key revoke {ID}", "key revoke c2")
    by = [("-", b"~"), ("K" * 64, b"~" * 128), ("gone", b"s3cr3t"), ("c2", b"a/b+c=d"), CLERK]
    own = [asked(get(b"/in/a.txt", key=key), put(b"/in/a.txt", b"abc", key=key), put(b"/b2/new", key[0].encode(), key=key),
                 post("key revoke -", key=key)) for key in by]
    return greatest, [*own, asked(post(f"key revoke {'k' * 64}", key=greatest), post("key add gone link again", key=greatest))]


def boxes(it):
    """Boxes with all rules, modes and hours, and with the least and greatest numbers; the office's clock is an hour east."""
    it.init("--east", "60")
    it.desk(
        f"box add in {ANY_TIME} 1000000000000 1000000 keep any", f"box add {'b' * 63} {LAST} {LAST} 0000000 2359 2400 0 0 replace any",
        "box add friday 20130101T000000Z 20130601T000000Z 0000100 0100 0200 100 9 keep any",
        "box add never 20130601T000000Z 20130101T000000Z 1111111 0000 0001 1 1 keep any",
        f"box add ends {ANY_TIME} 1000 9 keep ends .txt", f"box add ends.8 {ANY_TIME} 1000 9 replace ends " + ",".join(it * 32 for it in "abcdefgh"),
        f"box add -begins {ANY_TIME} 1000 9 keep begins 2013/", f"box add 0 {ANY_TIME} 1000 9 replace begins " + "é" * 32,
        f"box add small {ANY_TIME} 3 5 replace any", f"box add none {ANY_TIME} 0 1 keep any", "box close never 20130701T000000Z",
    )
    for path, data in [(b"/in/a.txt", b"abc"), (b"/friday/a", b"1"), (b"/ends/a.txt", b"2"), (b"/ends/.txt", b"3"),
                       (b"/ends.8/" + b"h" * 32, b"4"), (b"/-begins/2013/", b"5"), (b"/-begins/2013/a/b", b"6"),
                       (b"/0/" + quoted("é" * 32), b"7"), (b"/small/a", b"abc"), (b"/none/a", b"")]:
        it.put(path, data)
    it.put(b"/0/" + quoted("é" * 32), b"instead")
    tries = [b"/in/b", b"/%s/a" % (b"b" * 63), b"/friday/b", b"/never/a", b"/ends/a.TXT", b"/ends/b.txt", b"/ends.8/a", b"/ends.8/x" + b"a" * 32,
             b"/-begins/2012/a", b"/-begins/2013/c", b"/0/" + quoted("é" * 31), b"/small/b", b"/small/a", b"/none/b"]
    return CLERK, [asked(*(put(path, b"new!", date=moment) for path in tries), moment=moment)
                   for moment in ["20130523T235959Z", MOMENT, "20130524T005959Z", "20130524T010000Z", "20130601T000000Z"]]


SIZES = [0, 1, 65535, 65536, 65537, 131072, 1048575, 1048576]


def sizes(it):
    """Files of various sizes, each of one repeated letter."""
    it.init()
    it.desk(f"box add in {ANY_TIME} 1000000000000 100 keep any", f"box add out {ANY_TIME} 3000000 100 replace any")
    for number, size in enumerate(SIZES):
        it.put(b"/in/%d" % size, b"abcdefgh"[number:number + 1] * size)
    it.put(b"/out/file", b"x" * 1048576)
    it.put(b"/out/file", b"y" * 65537)
    own = [asked(get(b"/in/%d" % size), get(b"/in/%d" % size, "HEAD"), put(b"/in/%d" % size, b"abcdefgh"[number:number + 1] * size))
           for number, size in enumerate(SIZES)]
    own += [asked(put(b"/in/65536", b"d" * 65535 + b"e"), put(b"/in/more", b"m" * 1048577)), asked(put(b"/in/next", b"n" * 1048576)),
            asked(get(b"/in/next"), get(b"/out/file"), put(b"/out/file", b""), get(b"/out/file"))]
    return CLERK, own


def past(it):
    """Files that were replaced and dropped, full boxes and closed ones."""
    it.init()
    it.desk(f"box add in {ANY_TIME} 1000 9 replace any", f"box add kept {ANY_TIME} 1000 9 keep any", f"box add full {ANY_TIME} 1000 2 keep any",
            f"box add used {ANY_TIME} 5 9 keep any", f"box add closed {ANY_TIME} 1000 9 keep any", f"box add empty {ANY_TIME} 0 0 keep any",
            "key add k2 link s3cr3t")
    for path, data in [(b"/in/a.txt", b"abc"), (b"/in/a.txt", b"abd"), (b"/in/a.txt", b"abc"), (b"/in/a.txt", b""), (b"/kept/a", b"1"),
                       (b"/kept/b", b"2"), (b"/full/a", b"3"), (b"/full/b", b"4"), (b"/used/a", b"12345"), (b"/used/b", b""), (b"/closed/a", b"5")]:
        it.put(path, data, key=LINK_KEY)
    it.desk("file drop kept a", "file drop in a.txt", "box close closed 20130524T000000Z", "file drop full a")
    it.put(b"/full/c", b"6")
    it.put(b"/kept/a", b"1")
    it.put(b"/in/a.txt", b"abc")
    it.desk("file drop kept b", "key revoke k2")
    places = [b"/in/a.txt", b"/kept/a", b"/kept/b", b"/full/a", b"/full/b", b"/full/c", b"/used/a", b"/used/b", b"/closed/a", b"/empty/a"]
    own = [asked(*(get(path) for path in places)), asked(*(put(path, b"5") for path in places)), asked(*(get(path, "HEAD") for path in places)),
           asked(post("file drop full b"), put(b"/full/d", b"7"), put(b"/full/e", b"8"), put(b"/used/c", b"x"), put(b"/used/c", b"")),
           asked(post(f"box close closed {LAST}"), put(b"/closed/b", b"9"), put(b"/closed/a", b"5"))]
    return CLERK, own


ODD_NAMES = ["a,b.txt", '"', 'a"b,c', " ", "  two  ", ",", "=1+1", "'", ";", "\u00fcml\u00e4ut \u00df.pdf", "\u00a0", "\ufeff", "n" * 1024, "\u00e9" * 512, "..", "."]


def names(it):
    """Names with spaces, umlauts, commas, quotes, slashes and dots, and the longest ones."""
    it.init()
    it.desk(f"box add in {ANY_TIME} 100000 1000 keep any", f"box add out {ANY_TIME} 100000 1000 replace begins \u00fc")
    paths = [quoted(name, "/") for name in [*ODD_NAMES, *NAMES]]
    it.put_all(b"/in/", [(path, b"%d" % number) for number, path in enumerate(paths)])
    it.put_all(b"/out/", [(quoted(f"\u00fc {number % 3}, \"{number % 2}\""), b"%d" % number) for number in range(9)])
    it.desk('file drop in a"b,c', "file drop in   two  ")
    own = [asked(*(get(b"/in/" + path) for path in paths)), asked(*(put(b"/in/" + path, b"1") for path in paths)),
           asked(get(b"/in/" + b"n" * 1025), put(b"/in/%0A", b""), put(b"/in/%FF", b""), put(b"/out/u", b""))]
    return CLERK, own


def many(it):
    """Nine hundred receipts, most of which no longer have a file."""
    it.init()
    it.desk(f"box add in {ANY_TIME} 100000 1000 replace any", f"box add out {ANY_TIME} 100000 1000 keep any")
    it.put_all(b"/in/", [(b"%d.txt" % (number % 20), b"%d" % number) for number in range(600)])
    it.put_all(b"/out/", [(b"%03d" % number, b"x" * (number % 7)) for number in range(300)])
    it.desk(*(f"file drop out {number:03}" for number in range(0, 300, 30)))
    own = [asked(*(get(b"/in/%d.txt" % number) for number in range(20))), asked(*(put(b"/out/%03d" % number, b"x" * (number % 7)) for number in range(0, 300, 10)))]
    return CLERK, own


def filled(it):
    """The office that is broken in ci/test_migrate.py: what `fill` of ci/tables.py makes, at moments at which the boxes are open."""
    it.init()
    it.desk("key add k2 link s3cr3t", "key add k3 link s3cr3t", "key add c2 clerk !~", "key revoke c2",
            "box add in 20130101T000000Z 20130601T000000Z 1111111 0000 2400 1000000 3 replace any",
            f"box add ends {FIRST} {LAST} 1111100 0100 0200 1000000000000 9 keep ends .txt,.pdf",
            f"box add begins.1-2 {ANY_TIME} 1000000000000 9 keep begins 2013/",
            f"box add {'b' * 63} {LAST} {LAST} 0000000 2359 2400 1000000000000 1000000 replace any")
    it.put(b"/in/a.txt", b"abc")
    it.put(b"/in/" + quoted("\u00e9 ~"), b"", key=LINK_KEY)
    it.put(b"/ends/x.pdf", b"gone", "19700101T010000Z", key=("k3", b"s3cr3t"))
    it.put(b"/ends/y.txt", b"y" * 65537, "99991231T015959Z")
    it.put(b"/begins.1-2/2013/a", b"z" * 131072)
    it.desk("file drop ends x.pdf", "key revoke k3")
    return CLERK, [asked(get(b"/in/a.txt"), get(b"/ends/y.txt", "HEAD"), get(b"/begins.1-2/2013/a"), get(b"/ends/x.pdf"))]


def killed(it):
    """An office whose server was killed: what it confirmed last is only in the journal."""
    it.init()
    it.desk(f"box add in {ANY_TIME} 1000000 9 keep any", "key add k2 link s3cr3t")
    it.put(b"/in/a.txt", b"abc")
    server = Server(it.drop, it.file, 10)
    requests = [server.message("PUT", f"in/{number}", b"%d" % number * 9000) for number in range(4)]
    requests.append(server.message("POST", "file drop in 3"))
    with server:
        answer = server.ask(*requests)
        assert answer.count(b"HTTP/1.1 200 OK") == 5, answer
        server.process.kill()
        server.process.wait()
    assert it.file.with_name("office-wal").stat().st_size > 0
    now = time.strftime("%Y%m%dT%H%M%SZ", time.gmtime())
    return CLERK, [asked(*(get(b"/in/%d" % number, date=now) for number in range(4)), moment=now), asked(get(b"/in/a.txt"))]


def rewritten(it):
    """An office that another program rewrote, with small pages and another journal mode."""
    key, own = past(it)
    with contextlib.closing(sqlite3.connect(it.file, isolation_level=None)) as db:
        for line in ["PRAGMA journal_mode = DELETE", "PRAGMA page_size = 1024", "VACUUM"]:
            db.execute(line)
    return key, own


def east(it):
    return of_hours(it, "east")


def west(it):
    return of_hours(it, "west")


KINDS = [fresh, east, west, keys, boxes, sizes, past, names, many, filled, killed, rewritten]


def made(program, kind):
    """Makes an office of this kind, keeps it, and does the runs on a copy."""
    with tempfile.TemporaryDirectory(prefix="drop-version1-") as room:
        folder = pathlib.Path(room) / "made"
        folder.mkdir()
        it = Maker(program, folder)
        key, own = kind(it)
        kept = Kept(VERSION_1 / kind.__name__)
        # the program runs on a copy, since opening an office file may write to it
        kept.keep(it.file, b"", [])
        manifest = kit.run([program, "manifest", kept.copied(pathlib.Path(room) / "listed")])
        assert manifest.status == 0, manifest
        file, answers = kept.copied(pathlib.Path(room) / "asked"), []
        for ask in asks(key, manifest.out, own):
            answers.append(Asked(ask.words, ask.stream, ask.given, ask.run(program, file)))
        kept.keep(it.file, manifest.out, answers)
        print(f"{kept.name}: {len(answers)} runs")


def main():
    parser = argparse.ArgumentParser(description=__doc__.splitlines()[0])
    parser.add_argument("program", type=pathlib.Path, help="a `drop` of version 1")
    parser.add_argument("--only", action="append", help="a kind")
    words = parser.parse_args()
    for kind in KINDS:
        if not words.only or kind.__name__ in words.only:
            made(words.program.resolve(), kind)


if __name__ == "__main__":
    main()
