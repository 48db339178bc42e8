"""Runs the proved program `drop` on requests that are respelled on their way, as a proxy or another client may do.

A respelled request with the plain one's signed text gets the plain one's answer, byte for byte, at the same moment on a copy
of the same office file, and leaves the same manifest and tables. One with another signed text is refused. `drop init` makes
the offices, and Python's `sqlite3` furnishes them (ci/tables.py). Expected values come from Python's `urllib.parse`, `hashlib`
and `hmac` (ci/expected.py) and the table of refusals in docs/RULES.md. The requests are the same in each run.
"""

import dataclasses
import hashlib
import random
import re
import shutil
import typing

import kit
import tables
from expected import ID, MOMENT, OBEYED, SECRET, SIGNATURE, answer, canonical_request, decoded, fetched, quoted, receipt
from messages import HOST, REQUEST, changed, signed
from program import answered, difference

SEED = 20130524
SEVERAL = 4  # respellings in several ways at once, per plain request
TOGETHER = 250  # requests in one run, at most


# ---- requests in parts


@dataclasses.dataclass(frozen=True)
class Request:
    """A request in parts, as they are spelled. A parameter without `=` has the value None."""

    method: bytes
    path: bytes
    params: tuple
    fields: tuple
    body: bytes = b""
    version: bytes = b"HTTP/1.1"

    def target(self):
        pieces = [name if value is None else name + b"=" + value for name, value in self.params]
        return self.path + b"?" + b"&".join(pieces)

    def text(self):
        lines = [b" ".join([self.method, self.target(), self.version])]
        return b"\r\n".join([*lines, *(name + b":" + value for name, value in self.fields), b"", self.body])

    def param(self, name):
        """The decoded value of the first parameter of this name."""
        return next((decoded(value or b"") for found, value in self.params if decoded(found) == name), None)

    def signed_names(self):
        return (self.param(b"X-Amz-SignedHeaders") or b"").split(b";")

    def signed_text(self):
        """The canonical request, if each signed name has one field."""
        names = [name.lower() for name, _ in self.fields]
        if any(names.count(name) != 1 for name in self.signed_names()):
            return None
        return canonical_request(self.method, self.target(), b";".join(self.signed_names()), self.fields)


def parsed(text):
    """The parts of a request that has a query."""
    head, _, body = text.partition(b"\r\n\r\n")
    line, *fields = head.split(b"\r\n")
    method, target, version = line.split(b" ")
    path, _, query = target.partition(b"?")
    params = []
    for piece in query.split(b"&"):
        name, sign, value = piece.partition(b"=")
        params.append((name, value if sign else None))
    fields = tuple(field.partition(b":")[::2] for field in fields)
    return Request(method, path, tuple(params), fields, body, version)


# ---- ways to respell a request that keep its signed text


def either_case(source, text):
    return bytes(source.choice([byte, *bytes([byte]).swapcase()]) for byte in text)


def spelled(source, raw, barred, share):
    """Bytes, each escaped with digits of either case, or unescaped if allowed; this share of the latter is escaped too."""
    plain = set(range(0x21, 0x7F)).difference(b"+#%" + barred)
    pieces = []
    for byte in raw:
        by_itself = byte in plain and source.random() >= share
        pieces.append(bytes([byte]) if by_itself else b"%" + either_case(source, b"%02X" % byte))
    return b"".join(pieces)


def spelled_path(source, raw, share):
    """A path whose first byte is not escaped."""
    return raw[:1] + spelled(source, raw[1:], b"?", share)


def escaped(source, it):
    """The path, names and values with other escapes."""
    share = source.choice([0.02, 0.2, 0.7, 1])

    def each(name, value):
        value = None if value is None else spelled(source, decoded(value), b"&", share)
        return spelled(source, decoded(name), b"&=", share), value

    path = spelled_path(source, decoded(it.path), share)
    return dataclasses.replace(it, path=path, params=tuple(each(*param) for param in it.params))


def other_digits(source, it):
    """Escapes with digits of another case."""
    def other(text):
        return re.sub(rb"%..", lambda found: either_case(source, found[0]), text) if text else text

    params = tuple((other(name), other(value)) for name, value in it.params)
    return dataclasses.replace(it, path=other(it.path), params=params)


def reordered(source, it):
    """Parameters in another order."""
    return dataclasses.replace(it, params=tuple(source.sample(it.params, len(it.params))))


def bared(_, it):
    """Parameters with an empty value, with or without their `=`."""
    other = {None: b"", b"": None}
    return dataclasses.replace(it, params=tuple((name, other.get(value, value)) for name, value in it.params))


def cased(source, it):
    """Field names in letters of either case."""
    return dataclasses.replace(it, fields=tuple((either_case(source, name), value) for name, value in it.fields))


def padded(source, it):
    """More or fewer spaces and tabs round field values."""
    def blanks():
        return bytes(source.choice(b" \t") for _ in range(source.choice([0, 0, 1, 2, 5])))

    fields = tuple((name, blanks() + value.strip(b" \t") + blanks()) for name, value in it.fields)
    return dataclasses.replace(it, fields=fields)


def moved(source, it):
    """Fields in another order."""
    return dataclasses.replace(it, fields=tuple(source.sample(it.fields, len(it.fields))))


FURTHER = [
    (b"Accept", b" */*"), (b"Accept", b""), (b"accept-encoding", b" gzip, br"), (b"User-Agent", b" curl/8.0  (x; y)"),
    (b"X-Forwarded-For", b" 192.0.2.1, 10.0.0.1"), (b"X-Forwarded-Host", b" other.example"), (b"Via", b" 1.1 proxy"),
    (b"If-None-Match", b" *"), (b"If-Match", b' "0"'), (b"If-Modified-Since", b" Fri, 24 May 2013 00:00:00 GMT"),
    (b"Range", b" bytes=0-0"), (b"Content-Type", b" text/plain; charset=utf-8"),
    (b"Content-MD5", b" AAAAAAAAAAAAAAAAAAAAAA=="),
    (b"Connection", b" close"), (b"Connection", b" keep-alive"), (b"Expect", b" 100-continue"), (b"Cookie", b" a=1; a=2"),
    (b"Authorization", b" Basic eDp5"), (b"Date", b" Thu, 01 Jan 1970 00:00:00 GMT"), (b"X-Amzn-Trace-Id", b" Root=1"),
    (b"Forwarded", b' for="[2001:db8::1]"'), (b"X-HTTP-Method-Override", b" DELETE"), (b"Referer", b" \xc3\xa9\xff"),
]


def further(source, it):
    """More fields, none of them signed."""
    names = set(it.signed_names())
    fields = list(it.fields)
    for name, value in source.sample(FURTHER, source.randint(1, 6)):
        if name.lower() not in names:
            fields.insert(source.randint(0, len(fields)), (name, value))
    return dataclasses.replace(it, fields=tuple(fields))


def older(_, it):
    return dataclasses.replace(it, version=b"HTTP/1.0")


WAYS = [escaped, other_digits, reordered, bared, cased, padded, moved, further, older]


def respelled(source, it, ways):
    for way in ways:
        it = way(source, it)
    return it


def some_ways(source, least):
    return source.sample(WAYS, source.randint(least, len(WAYS)))


def respellings(source, it):
    """The names of the ways, and the respelled request: by each way alone, and by several at once.

    Each differs from the text of the plain request, and has its signed text.
    """
    for ways in [*([way] for way in WAYS), *(some_ways(source, 2) for _ in range(SEVERAL))]:
        other = respelled(source, it, ways)
        assert other.signed_text() == it.signed_text(), (it, other)
        if other.text() != it.text():
            yield ", ".join(way.__name__ for way in ways), other


# ---- offices


CLERK = (ID, SECRET)
LINK = ("k2", b"s3cr3t")
REVOKED = ("k3", b"s3cr3t")
UNKNOWN = ("k4", b"s3cr3t")
BOXES = [
    tables.Box("in", max_files=50), tables.Box("swap", quota=300, mode=1), tables.Box("shut", tables.OPENS, tables.M),
    tables.Box("small", quota=3), tables.Box("full", max_files=1), tables.Box("ends", rule_kind=1, rule_text=".txt,.pdf"),
]
# The existing files; the first has receipt 1.
FILES = [
    ("in", "kept.txt", b"kept"), ("in", "a b/\u00fc+%41.txt", b""), ("in", "large", b"l" * (tables.PIECE + 1)),
    ("swap", "s.txt", b"old"), ("shut", "in time.txt", b"before the hour"), ("full", "only", b"1"), ("small", "s", b"12"),
]
NEXT = len(FILES) + 1


def furnished(drop):
    """An office with boxes of all kinds, a clerk's key, a link's key, a revoked key, and files."""
    file = drop.office("furnished")
    tables.add_key(file, *LINK)
    tables.add_key(file, *REVOKED, revoked=1)
    for box in BOXES:
        tables.add_box(file, box)
    for place in FILES:
        tables.add_file(file, *place, ID)
    return file


# ---- plain requests


class Plain(typing.NamedTuple):
    """A request as the holder of a link sends it, its answer, and whether it changes the office."""

    name: str
    request: Request
    owed: bytes
    changes: bool = False


HOSTS = [b"files.example", b"Files.Example:8080", b"[2001:db8::1]:80"]
PARAMS = [b"", b"&note=", b"&a%2Fb=c%20d&a-=1&a=%25", b"&x-amz-date=1&X-Amz=2&%C3%A9=%FF", b"&~=~&Z&z=/?=%3c%7C"]
SIGNED_FIELDS = [
    (b"host", []), (b"host;x-amz-note", [(b"X-Amz-Note", b"two words")]),
    (b"host;range;x-amz-meta-a", [(b"Range", b"bytes=0-1"), (b"x-amz-meta-a", b"")]),
]


def asked(source, method, path, data=None, more=b"", key=None, date=None):
    """A request for a link signed by Python, for one of the hosts, regions and dates, with more parameters and signed fields."""
    names, fields = source.choice(SIGNED_FIELDS)
    how = {"names": names, "fields": [(b"Host", source.choice(HOSTS)), *fields], "expires": 604800}
    how["unsigned"] = [] if data is None else [(b"Content-Length", b"%d" % len(data))]
    how["region"] = source.choice(["us-east-1", "eu-central-1"])
    how["date"] = date or source.choice([MOMENT, "20130518T101112Z"])
    how["key"] = key or source.choice([CLERK, LINK])
    return parsed(signed(method, path, more + source.choice(PARAMS), **how) + (data or b""))


def commanded(source, line, path=b"/", key=CLERK, **how):
    return asked(source, "POST", path, more=b"&desk=" + quoted(line), key=key, **how)


def place(in_box, name):
    return b"/" + in_box.encode() + b"/" + quoted(name, "/")


NEW_NAMES = [
    "new.txt", "a b/c~.txt", "M\u00fcller & S\u00f6hne.pdf", "100% sure?.txt", "a+b=c&d;e#f", "up/../down//x", "%2Fx",
    "-_.~'(1)*!@$,:[]\"<>\\^`{|}", "\U0001f4e6",
]
DATA = [b"", b"new", b"GET / HTTP/1.1\r\n\r\n", bytes(range(256))]
ANY = "20130101T000000Z 20130601T000000Z 1111111 0000 2400"
DONE_LINES = [
    "key add k9 link !", "key add k8 clerk %2F+/", "key revoke k2", f"box add new {ANY} 100 2 keep any",
    f"box add x.1-2 {ANY} 5 1 replace ends \u00e9+,.pdf", "box close in 20130524T000000Z", "file drop in kept.txt",
    "file drop in a b/\u00fc+%41.txt",
]


def uploads(source, in_box, key=None):
    """Uploads that are accepted, and change the office."""
    for name in NEW_NAMES:
        data = source.choice(DATA)
        request = asked(source, "PUT", place(in_box, name), data, key=key)
        yield Plain(f"PUT {in_box}/{name}", request, receipt(NEXT, data), True)


def commands(source, lines):
    """Desk commands that are done."""
    for line in lines:
        yield Plain(f"POST {line}", commanded(source, line), OBEYED, True)


def changing(source):
    yield from uploads(source, "in")
    yield from uploads(source, "swap", LINK)
    for data in [b"", b"other bytes"]:
        yield Plain("PUT in the place of a file", asked(source, "PUT", b"/swap/s.txt", data), receipt(NEXT, data), True)
    yield from commands(source, DONE_LINES)


def standing(source):
    """Requests for existing files: to fetch them, and to put them once more."""
    for number, (in_box, name, data) in enumerate(FILES, 1):
        path = place(in_box, name)
        yield Plain(f"PUT {name} again", asked(source, "PUT", path, data), receipt(number, data))
        for method in ["GET", "HEAD"]:
            yield Plain(f"{method} {name}", asked(source, method, path), fetched(number, data, method))


# Requests that the rules of boxes and bodies refuse.
REFUSED = [
    (25, "PUT", b"/in/a", None), (26, "GET", b"/in/kept.txt", b"x"), (26, "HEAD", b"/in/kept.txt", b"x"),
    (27, "PUT", b"/none/a", b"x"), (27, "GET", b"/none/a", None), (27, "HEAD", b"/", None),
    (27, "GET", b"//in/kept.txt", None),
    (28, "PUT", b"/in/" + b"n" * 1025, b"x"), (28, "GET", b"/in/" + b"%C3%A9" * 513, None),
    (29, "PUT", b"/ends/a.doc", b"x"), (29, "PUT", b"/in/a%0Ab", b"x"), (29, "GET", b"/in/%FF", None),
    (29, "HEAD", b"/in/", None),
    (30, "PUT", b"/shut/new", b"x"), (30, "PUT", b"/shut/in%20time.txt", b"x"), (31, "PUT", b"/in/kept.txt", b"other"),
    (31, "PUT", b"/in/large", b"l" * tables.PIECE), (32, "PUT", b"/full/more", b""), (33, "PUT", b"/small/more", b"xy"),
    (33, "PUT", b"/swap/s.txt", b"x" * 301), (34, "GET", b"/in/none", None), (34, "HEAD", b"/in/KEPT.txt", None),
    (34, "GET", b"/ends/a.txt", None),
]


def refused(source):
    for number, method, path, data in REFUSED:
        yield Plain(f"{method} {path[:40]}, refused by {number}", asked(source, method, path, data), answer(number, method))


def barred(source, line):
    """Requests of each method that are refused because of their key, their signature or their moment."""
    for number, how in [
        (19, {"key": UNKNOWN}), (20, {"key": REVOKED}), (21, {"key": (ID, b"another")}), (21, {"key": ("k2", SECRET)}),
        (22, {"date": "20130524T000001Z", "key": CLERK}), (23, {"date": "20130517T000000Z", "key": CLERK}),
    ]:
        for method, data in [("PUT", b"new"), ("PUT", b"kept"), ("GET", None), ("HEAD", None)]:
            request = asked(source, method, b"/in/kept.txt", data, **how)
            yield Plain(f"{method} {data}, barred by {number}", request, answer(number, method))
        yield Plain(f"POST, barred by {number}", commanded(source, line, **how), answer(number))


def refused_commands(source):
    yield Plain("POST by a link's key", commanded(source, "key revoke k2", key=LINK), answer(24))
    yield Plain("POST with a body", asked(source, "POST", b"/", b"x", b"&desk=key%20revoke%20k2", CLERK), answer(26))
    for line in ["key revoke", "key revoke k2 ", "box close IN 20130524T000000Z", ""]:
        yield Plain(f"POST {line!r}", commanded(source, line), answer(35))
    yield Plain("POST to a box", commanded(source, "key revoke k2", b"/in"), answer(35))
    box = f"box add in {ANY} 1 1 keep any"
    for line in ["key revoke k3", f"key revoke {ID}", "key add k2 link x", "file drop in none", box]:
        yield Plain(f"POST {line!r}", commanded(source, line), answer(36))


# The refusal, and what is replaced by what in a GET that is admitted otherwise.
UNREADABLE = [
    (7, b"GET", b"DELETE"), (10, b"X-Amz-Date=", b"X-Amz-Day="), (10, b"&X-Amz-Expires=604800", b""),
    (10, b"&X-Amz-Expires", b"&twice=1&twice=1&X-Amz-Expires"), (11, b"SHA256", b"SHA512"), (12, b"/s3/", b"/S3/"),
    (13, b"Z&", b"z&"), (14, b"=604800", b"=604801"), (15, b"SignedHeaders=host", b"SignedHeaders=Host"),
    (16, b"&X-Amz-Signature=", b"&X-Amz-Signature=0"), (17, b"SignedHeaders=host", b"SignedHeaders=host;host-2"),
    (17, b"\r\nHost", b"\r\nHost: a\r\nHost"), (17, b"\r\nHost: ", b"\r\nHost: a  "),
    (18, b"\r\nHost", b"\r\nX-Amz-A: 1\r\nHost"),
]


def unreadable(source):
    for number, part, by in UNREADABLE:
        plain = asked(source, "GET", b"/in/kept.txt").text()
        assert part in plain, (part, plain)
        yield Plain(f"{part!r} by {by!r}", parsed(plain.replace(part, by, 1)), answer(number))
    unsigned = Request(b"GET", b"/in/kept.txt", ((b"note", b"1"), (b"x-amz-date", b"2")), ((b"Host", b" files.example"),))
    yield Plain("GET without a link", unsigned, answer(9))


def without_boxes(source):
    """Requests that an office without boxes refuses."""
    for method, data in [("PUT", b"x"), ("PUT", b""), ("GET", None), ("HEAD", None)]:
        for path in [b"/test.txt", b"/in/a%20b", b"/"]:
            yield Plain(f"{method} {path}, no box", asked(source, method, path, data, key=CLERK), answer(27, method))
    for line in [f"key revoke {ID}", "key revoke k2", "box close in 20130524T000000Z", "file drop in a"]:
        yield Plain(f"POST {line!r}, no box", commanded(source, line), answer(36))


def quiet(source):
    """Requests that leave a furnished office unchanged."""
    for _ in range(2):
        for kind in [standing(source), refused(source), barred(source, "key revoke k2"), refused_commands(source)]:
            yield from kind
        yield from unreadable(source)


# ---- runs over copies


class Left(typing.NamedTuple):
    """How a run ended, its office's manifest, the digest of the office file, and the content of the tables."""

    status: int
    err: bytes
    manifest: kit.Run
    file: str
    dump: list


def digest(file):
    """The SHA-256 of a file's bytes."""
    return hashlib.sha256(file.read_bytes()).hexdigest()


def over_copy(drop, office, number, requests):
    """The answers to requests in one connection to a copy of the office, and what is left."""
    file = drop.path(f"copy-{number}")
    shutil.copy(office, file)
    ran = drop.replay(file, b"".join(it.text() for it in requests))
    left = Left(ran.status, ran.err, drop.run("manifest", file), digest(file), tables.dump(file))
    for ending in ["", "-wal", "-shm"]:
        drop.path(file.name + ending).unlink(missing_ok=True)
    return ran.out, left


def one_by_one(out, requests):
    """The answers to these requests, and the bytes after them as one more answer, if any."""
    answers, at = [], 0
    for it in requests:
        end = out.find(b"\r\n\r\n", at) + 4
        if end >= 4 and it.method != b"HEAD":
            length = re.search(rb"\r\nContent-Length: ([0-9]+)\r\n", out[at:end])
            end += int(length[1]) if length else 0
        end = len(out) if end < 4 else end
        answers.append(out[at:end])
        at = end
    return answers + [out[at:]] * (at < len(out))


def unlike(found, owed):
    """How an answer differs from the expected one, or None."""
    return None if found == owed else f"{found[:400]} and not {owed[:400]}"


def unlike_left(found, owed):
    """What a run left differently from the expected one, or None."""
    names = [name for name, one, other in zip(Left._fields, found, owed) if one != other]
    return f"another {' and '.join(names)}: {found.status} {found.err}" if names else None


def ended_well(left):
    return None if left[:2] == (0, b"") and left.manifest.status == 0 else f"{left[:3]}"


def add_plain(drop, check, office, plains):
    """Checks plain requests that change nothing, in one run, for the expected answers. Returns the answers and what is left."""
    before = tables.dump(office)
    out, left = over_copy(drop, office, "plain", [it.request for it in plains])
    answers = one_by_one(out, [it.request for it in plains])
    check("as many answers", difference(len(answers), len(plains)))
    for it, found in zip(plains, answers):
        check(f"plain {it.name}", unlike(found, it.owed))
    check("the run", ended_well(left) or (None if left.dump == before else "the tables were changed"))
    check("the file", None if left.file == digest(office) else "it was written")
    return answers, left


def add_together(drop, check, office, items, unlike_end):
    """Checks items of a name, the expected answer and a request, many in one run: each answer, and what each run leaves."""
    runs = [items[at:at + TOGETHER] for at in range(0, len(items), TOGETHER)]

    def each(numbered):
        number, run = numbered
        return over_copy(drop, office, number, [request for _, _, request in run])

    for run, (out, left) in zip(runs, kit.side_by_side(each, enumerate(runs))):
        answers = one_by_one(out, [request for _, _, request in run])
        check("as many answers", difference(len(answers), len(run)))
        for (name, owed, _), found in zip(run, answers):
            check(name, unlike(found, owed))
        check("what a run leaves", unlike_end(left))
    return len(items)


def add_quiet(drop, check, office, plains, source):
    """Checks requests that change nothing and their respellings, many in one run."""
    answers, left = add_plain(drop, check, office, plains)
    items = []
    for it, owed in zip(plains, answers):
        items += [(f"{it.name}; {ways}", owed, other) for ways, other in respellings(source, it.request)]
    source.shuffle(items)
    return add_together(drop, check, office, items, lambda found: unlike_left(found, left))


def add_changing(drop, check, office, plains, source):
    """Checks requests that change the office and their respellings, each in a run on its own copy."""
    before = tables.dump(office)
    items, owners = [], []
    for it in plains:
        owners.append(len(items))
        items.append((it, "plain", it.request))
        items += [(it, ways, other) for ways, other in respellings(source, it.request)]
    found = kit.side_by_side(lambda item: over_copy(drop, office, item[0], [item[1][2]]), enumerate(items))
    plain = None
    for number, ((it, ways, _), (out, left)) in enumerate(zip(items, found)):
        if number in owners:
            plain = out, left
            wrong = unlike(out, it.owed) or ended_well(left) or ("nothing was changed" if left.dump == before else None)
        else:
            wrong = unlike(out, plain[0]) or unlike_left(left, plain[1])
        check(f"{it.name}; {ways}", wrong)
    return len(items) - len(plains)


# ---- other signed texts


def with_path(it, raw):
    return dataclasses.replace(it, path=quoted(raw, "/"))


def place_in(source, raw, least=1):
    """A position after the first byte."""
    return source.randint(least, max(len(raw) - 1, least))


def other_byte(source, it):
    raw = decoded(it.path)
    at = place_in(source, raw)
    others = [byte for byte in range(256) if raw[at:at + 1] != bytes([byte])]
    return with_path(it, raw[:at] + bytes([source.choice(others)]) + raw[at + 1:])


def other_case(_, it):
    return with_path(it, decoded(it.path).swapcase())


def byte_more(source, it):
    raw = decoded(it.path)
    at = source.randint(1, len(raw))
    return with_path(it, raw[:at] + source.choice([b"a", b"/", b" ", b"\0", b"\xff"]) + raw[at:])


def byte_less(source, it):
    raw = decoded(it.path)
    at = place_in(source, raw)
    return with_path(it, raw[:at] + raw[at + 1:])


def slash_twice(source, it, second=b"/"):
    pieces = it.path.split(b"/")
    at = source.randint(1, len(pieces) - 1)
    return dataclasses.replace(it, path=b"/".join(pieces[:at]) + b"/" + second + b"/".join(pieces[at:]))


def slash_escaped(source, it):
    return slash_twice(source, it, b"%2f")


def dots(source, it):
    return slash_twice(source, it, source.choice([b"./", b"x/../", b"%2e/"]))


def escaped_twice(source, it):
    raw = decoded(it.path)
    at = place_in(source, raw)
    return with_path(it, raw[:at] + b"%%%02X" % (raw[at:at + 1] or b"a")[0] + raw[at + 1:])


def with_params(it, *params):
    return dataclasses.replace(it, params=tuple(params))


def param_more(source, it):
    name = source.choice([b"further", b"x-amz-expires", b"X%2Damz-Expires", b"%20", b"list-type"])
    return with_params(it, *it.params, (name, source.choice([None, b"", b"1", b"%00"])))


def param_less(_, it):
    rest = [param for param in it.params if not decoded(param[0]).startswith(b"X-Amz-")]
    return with_params(it, *(param for param in it.params if param != rest[-1])) if rest else it


def param_of_other_name(_, it):
    *others, (name, value) = [param for param in it.params if param[0] != b"X-Amz-Signature"]
    signs = [param for param in it.params if param[0] == b"X-Amz-Signature"]
    return with_params(it, *others, (name + b"x", value), *signs) if not name.startswith(b"X-Amz-") else it


def with_value(it, name, part, by):
    """The request with the first occurrence of this part in the parameter's value replaced."""
    def other(value):
        raw = decoded(value or b"")
        assert part in raw, (part, raw)
        return quoted(raw.replace(part, by, 1))

    return with_params(it, *((found, other(value) if found == name else value) for found, value in it.params))


def other_expiry(source, it):
    return with_value(it, b"X-Amz-Expires", b"604800", source.choice([b"604799", b"1", b"86400"]))


def other_second(_, it):
    return with_value(it, b"X-Amz-Date", it.param(b"X-Amz-Date")[-3:], b"59Z")


def other_region(source, it):
    return with_value(it, b"X-Amz-Credential", b"-1/s3", source.choice([b"-2/s3", b"-1a/s3", b"/s3"]))


def other_key(_, it):
    """The request with another key of the furnished office, which has another secret."""
    key, *_ = it.param(b"X-Amz-Credential").split(b"/")
    return with_value(it, b"X-Amz-Credential", key + b"/", b"k2/" if key == ID.encode() else ID.encode() + b"/")


def other_command(_, it):
    line = it.param(b"desk")
    return with_value(it, b"desk", line, line + b"x") if line is not None else it


def signed_name_more(_, it):
    names = it.signed_names()
    it = with_value(it, b"X-Amz-SignedHeaders", names[-1], names[-1] + b";zz")
    return dataclasses.replace(it, fields=(*it.fields, (b"ZZ", b" 1")))


def other_method(source, it):
    others = {b"PUT", b"GET", b"HEAD", b"POST"}.difference([it.method])
    return dataclasses.replace(it, method=source.choice(sorted(others)))


def with_host(it, change):
    """The request with another value of the Host field."""
    fields = tuple((name, b" " + change(value.strip(b" \t")) if name == b"Host" else value) for name, value in it.fields)
    return dataclasses.replace(it, fields=fields)


def other_host(source, it):
    end = source.choice([b".", b":80", b".other.example", None])
    return with_host(it, lambda host: host + end if end else host.swapcase())


def space_in_host(_, it):
    return with_host(it, lambda host: host[:5] + b" " + host[5:])


def other_signed_value(source, it):
    """The request with other values of the signed fields except the host."""
    names = set(it.signed_names())
    by = source.choice([b" 1", b"=", b"."])
    fields = tuple((name, value + by if name.lower() in names and name != b"Host" else value) for name, value in it.fields)
    return dataclasses.replace(it, fields=fields)


def swapped_values(_, it):
    """The request with the name and the value of a parameter swapped."""
    params = [(value or b"x", name) if name == b"a-" else (name, value) for name, value in it.params]
    return with_params(it, *params)


# Each of these gives a request another signed text, or leaves it unchanged if it has nothing to change.
TURNS = [
    other_byte, other_case, byte_more, byte_less, slash_twice, slash_escaped, dots, escaped_twice, param_more, param_less,
    param_of_other_name, other_expiry, other_second, other_region, other_key, other_command, signed_name_more, other_method,
    other_host, space_in_host, other_signed_value, swapped_values,
]


def unserved_method(source, it):
    return dataclasses.replace(it, method=source.choice([b"DELETE", b"PATCH", b"OPTIONS", it.method.lower()]))


def param_twice(source, it):
    return with_params(it, *it.params, source.choice(it.params))


def signing_param_more(source, it):
    return with_params(it, *it.params, (source.choice([b"X-Amz-Foo", b"X-Amz-", b"X%2DAmz%2Dexpires"]), b"1"))


def signing_param_less(source, it):
    least = source.choice([param for param in it.params if param[0].startswith(b"X-Amz-")])
    return with_params(it, *(param for param in it.params if param != least))


def host_with_blanks(source, it):
    blanks = source.choice([b"  ", b"\t", b" \t", b"   "])
    return with_host(it, lambda host: host[:5] + blanks + host[5:])


def host_twice(source, it):
    host = next(value for name, value in it.fields if name == b"Host")
    return dataclasses.replace(it, fields=(*it.fields, (b"hOST", source.choice([host, b" other.example", b""]))))


def host_left_out(_, it):
    return dataclasses.replace(it, fields=tuple(field for field in it.fields if field[0] != b"Host"))


def unsigned_field(source, it):
    return dataclasses.replace(it, fields=(*it.fields, (source.choice([b"X-Amz-A", b"x-AMZ-acl", b"x-amz-"]), b" 1")))


# Each of these breaks the rule of this number; some of the results have no signed text at all.
BREACHES = [
    (7, unserved_method), (10, param_twice), (10, signing_param_more), (10, signing_param_less), (17, host_with_blanks),
    (17, host_twice), (17, host_left_out), (18, unsigned_field),
]


def turned(source, it):
    """Requests without the signed text of this one: what was done to it, the refusal, and the request.

    The request is also respelled in some ways.
    """
    for turn in TURNS:
        other = turn(source, it)
        if other != it:
            assert other.signed_text() not in (None, it.signed_text()), (turn, it, other)
            yield turn.__name__, 21, respelled(source, other, some_ways(source, 0))
    for number, breach in BREACHES:
        yield breach.__name__, number, respelled(source, breach(source, it), some_ways(source, 0))


def add_turned(drop, check, office, plains, source):
    """Checks that none of them is answered as the plain one is, and that they change nothing."""
    before = tables.dump(office)
    items = [(f"{it.name}; {name}", answer(number, other.method.decode()), other)
             for it in plains if it.owed.startswith(b"HTTP/1.1 200 ") for name, number, other in turned(source, it.request)]
    source.shuffle(items)

    def unlike_end(left):
        return ended_well(left) or (None if left.dump == before else "the tables were changed")

    return add_together(drop, check, office, items, unlike_end)


# ---- the published request


END = b"d404 HTTP"
# The refusal by an office without boxes, and what is replaced by what in the published request.
ROWS = [
    (27, HOST, HOST.replace(b": ", b":   ")), (27, b"\r\nHost", b"\r\nAccept: x\r\nHost"),
    (8, b"/test.txt?", b"%2Ftest.txt?"), (8, END, b"d404&% HTTP"), (8, END, b"d404&%4 HTTP"),
    (10, END, b"d404&X-Amz-Signature=" + SIGNATURE + b" HTTP"), (17, HOST, b"Host: a  b"),
]


def test_published(drop, check):
    """Changes of the published request, and the request cut off after each number of bytes.

    A cut-off one is no request, and the request on the next connection is answered.
    """
    office = drop.office("without-boxes")
    before = tables.dump(office)
    for number, part, by in ROWS:
        check(f"{part!r} by {by!r}", difference(drop.replay(office, changed(part, by)), answered(answer(number))))
    cuts = range(len(REQUEST))

    def each(cut):
        file = drop.path(f"cut-{cut}")
        shutil.copy(office, file)
        return drop.replay(file, REQUEST[:cut])

    for cut, found in zip(cuts, kit.side_by_side(each, cuts)):
        check(f"the first {cut} bytes", difference(found, answered()))
    found = drop.replay(office, *(stream for cut in cuts for stream in (REQUEST[:cut], REQUEST)))
    check("each cut, and the request behind it", difference(found, answered(*[answer(27)] * len(cuts))))
    check("the office stays", None if tables.dump(office) == before else "it was changed")


# ---- all


def test_respelled(drop, check):
    source = random.Random(SEED)
    office, bare = furnished(drop), drop.office("bare")
    stays, changes = list(quiet(source)), list(changing(source))
    bare_changes = list(commands(source, DONE_LINES[:2] + DONE_LINES[3:5]))
    alike = add_quiet(drop, check, office, stays, source)
    alike += add_quiet(drop, check, bare, list(without_boxes(source)), source)
    alike += add_changing(drop, check, office, changes, source)
    alike += add_changing(drop, check, bare, bare_changes, source)
    others = add_turned(drop, check, office, stays + changes, source)
    print(f"{alike} requests respelled, {others} of another signed text")
