"""Orders of links, each with the link that botocore's own signer makes of the same request: the path and the query
that botocore signed, with the parameters in canonical order and the signature last. The moments and the random texts are
fixed, so each run makes the same orders.

Botocore differs from S3 in three things, and no order here depends on them: it leaves some headers unsigned, such as
`user-agent`; it signs the value of `x-amz-content-sha256` instead of UNSIGNED-PAYLOAD; and it removes the form's
`content-type` from the request.
"""

import datetime
import functools
import urllib.parse

from botocore.auth import S3SigV4QueryAuth
from botocore.awsrequest import AWSRequest
from botocore.credentials import Credentials

from rows import Order
from samples import HOST, KEY_ID, NAMES, REGIONS, SECRET, random_text, clock_at

METHODS = ["GET", "PUT", "HEAD", "POST"]
HOSTS = [HOST, f"{HOST}:8080", "Files.Example", "[2001:db8::1]:80", "h" * 255]
MOMENTS = ["20130524T000000Z", "19700101T000000Z", "20000229T235959Z", "20380119T031408Z", "99991231T235959Z"]
KEYS = [
    (KEY_ID, SECRET),
    ("k", "!"),
    ("Desk_key-2", "".join(map(chr, range(0x21, 0x7F)))),
    ("-_" * 32, "%2F+/" * 25 + "=&?"),
]
SHOWN = {"response-content-type": "text/plain; charset=utf-8", "response-cache-control": "no-cache"}
# Names that sort before and after X-Amz-.., and names whose order changes once they are encoded.
SORTED = {"!": "1", "A": "", "X-Amz": "2", "X-Amz.": "3", "X-B": "/", "a": " ", "x-amz-date": "4", "~": "~"}
ENCODED = {"a/": "2", "a-": "1", "a": "0", "a b": "c/d", "a=": "&", "a+": "+", "ä": "\0", "é": "%41",
           b"\xff": b"\x80\n"}
RANGE = {"x-amz-note": "n", "range": "bytes=0-1"}
# A header name with each letter that a name may have, and values with each letter that they may have.
LETTERED = {
    "content-type": "text/plain; charset=utf-8",
    "abcdefghijklmnopqrstuvwxyz-0123456789_.": "".join(map(chr, range(0x21, 0x7F))),
    "x-amz-meta-long": "a b " * 100 + "c",
    "x-amz-content-sha256": "UNSIGNED-PAYLOAD",
    "if-match": "",
    "-": ":",
}


class BotocoreOrder(Order):
    """An order whose link botocore makes."""

    def link(self):
        moment = datetime.datetime.strptime(self.start, "%Y%m%dT%H%M%S%z")
        url = f"http://{self.host}{urllib.parse.quote(self.path, safe='/')}"
        headers = {"Host": self.host, **dict(self.headers)}
        request = AWSRequest(self.method, url, headers, params=dict(self.params))
        with clock_at(moment):
            S3SigV4QueryAuth(Credentials(*self.key), "s3", self.region, self.expires).add_auth(request)
        return in_canonical_order(request.url.removeprefix(f"http://{self.host}"))


def in_canonical_order(target):
    path, _, query = target.partition("?")

    def place(param):
        name = param.partition("=")[0]
        return name == "X-Amz-Signature", name

    return f"{path}?{'&'.join(sorted(query.split('&'), key=place))}"


def random_bytes(source):
    return source.randbytes(source.randint(0, 12))


def random_params(source):
    names = {random_text(source, 12).encode() for _ in range(source.randint(0, 8))}
    params = {name: random_bytes(source) for name in sorted(names)}
    return dict(source.sample(list(params.items()), len(params)))


def random_headers(source):
    letters = "abcdefghijklmnopqrstuvwxyz0123456789-_."
    names = {"x-" + "".join(source.choices(letters, k=source.randint(1, 62))) for _ in range(source.randint(0, 5))}
    names -= {"x-amz-content-sha256", "x-amzn-trace-id"}

    def value():
        return " ".join("".join(map(chr, source.choices(range(0x20, 0x7F), k=source.randint(0, 40)))).split())

    headers = {name: value() for name in sorted(names)}
    return dict(source.sample(list(headers.items()), len(headers)))


ORDER = functools.partial(BotocoreOrder, host=HOST, key=KEYS[0])


def orders_of_names(source):
    """Names of all kinds, each alone, with parameters and with a header."""
    number = 0
    for name in NAMES + [random_text(source) for _ in range(20)]:
        for params, headers in [({}, {}), (SHOWN, {}), ({}, {"x-amz-meta-note": f"number {number}"})]:
            number += 1
            yield ORDER(
                METHODS[number % 4],
                f"/in/{name}",
                params,
                headers,
                region=REGIONS[number % 3],
                expires=source.choice([1, 60, 86400, 604800]),
            )


def orders_at_edges():
    """Paths, parameters, headers, hosts, regions, keys and starts that are shortest, longest or odd."""
    for method in METHODS:
        yield ORDER(method, "/")
        yield ORDER(method, "//", {"desk": "key revoke k2"}, expires=604800)
        yield ORDER(method, "/in/a/../b c", SORTED)
        yield ORDER(method, bytes(range(0x2F, 0x100)) + bytes(range(0x2F)), ENCODED)
        yield ORDER(method, "/in/a", headers=RANGE)
        yield ORDER(method, "/in/b", ENCODED, LETTERED)
    yield from (ORDER("GET", "/in/host", SHOWN, RANGE, host=it) for it in HOSTS)
    yield from (ORDER("GET", "/in/region", SHOWN, RANGE, region=it) for it in ["a", "-" * 32, "0"])
    yield from (ORDER("PUT", "/in/key", SHOWN, RANGE, key=it) for it in KEYS)
    yield from (ORDER("PUT", "/in/start", SHOWN, RANGE, start=it) for it in MOMENTS)


def random_order(source):
    return ORDER(
        source.choice(METHODS),
        b"/" + random_bytes(source) + random_text(source).encode(),
        random_params(source),
        random_headers(source),
        host=source.choice(HOSTS),
        region=source.choice(REGIONS),
        key=source.choice(KEYS),
        start=source.choice(MOMENTS),
        expires=source.randint(1, 604800),
    )


def orders(source):
    """All orders."""
    yield from orders_of_names(source)
    yield from orders_at_edges()
    yield from (random_order(source) for _ in range(100))
