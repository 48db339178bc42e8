#!/usr/bin/env python3
"""samples.py FOLDER FILES: the streams of the bench for an office with FILES small files, each with the expected answers
(by Python's hmac and hashlib, with ci/expected.py). All messages of a stream have the same length."""
import hashlib, itertools, pathlib, sys

TOP = pathlib.Path(__file__).resolve().parents[2]
sys.path.insert(0, str(TOP / "ci"))
from expected import CREDENTIAL, DATE, QUERY, SECRET, answer, canonical_request, signature  # noqa: E402

HOST = b"examplebucket.s3.amazonaws.com"
NAMES, FETCHES, LARGE_FETCHES = 250, 1000, 20
KIB, MIB = 1 << 10, 1 << 20


def message(method, name, body=None, secret=SECRET):
    path = b"/bench/" + name
    target = path + b"?" + QUERY
    text = canonical_request(method, target, b"host", [(b"host", HOST)])
    target += b"&X-Amz-Signature=" + signature(secret, CREDENTIAL, DATE.decode(), text).encode()
    length = b"" if body is None else b"Content-Length: %d\r\n" % len(body)
    return method + b" " + target + b" HTTP/1.1\r\nHost: " + HOST + b"\r\n" + length + b"\r\n" + (body or b"")


def kept(number, body):
    text = b"receipt %d %d %s\n" % (number, len(body), hashlib.sha256(body).hexdigest().encode())
    return b"HTTP/1.1 200 OK\r\nContent-Type: text/plain\r\nContent-Length: %d\r\n\r\n" % len(text) + text


def found(number, body):
    digest = hashlib.sha256(body).hexdigest().encode()
    head = b"HTTP/1.1 200 OK\r\nContent-Type: application/octet-stream\r\nContent-Length: %d\r\n" % len(body)
    return head + b"X-Drop-Receipt: %d\r\nX-Drop-Sha256: %s\r\n\r\n" % (number, digest) + body


def body_of(name, size):
    """Bytes that differ for each name."""
    block = hashlib.sha256(name).digest()
    return (block * (size // len(block) + 1))[:size]


def write(folder, name, pairs):
    pairs = list(pairs)
    for ending, at in [("http", 0), ("answers", 1)]:
        with open(folder / f"{name}.{ending}", "wb") as file:
            file.writelines(pair[at] for pair in pairs)


def main(folder, files):
    # The requested names are spread among the small files' names, f000001 and so on.
    first, second = ([b"f%06d%c%04d" % (i * files // NAMES, mark, i) for i in range(NAMES)] for mark in b"ab")
    numbers = itertools.count(files + 1)
    large = b"f%06dlarge" % (files // 2)
    held = {large: (next(numbers), body_of(large, MIB))}
    held |= {name: (next(numbers), body_of(name, KIB)) for name in first + second}
    for stream, names in [("large", [large]), ("first", first), ("second", second)]:
        write(folder, stream, ((message(b"PUT", it, held[it][1]), kept(*held[it])) for it in names))
    gets = [first[i * 7 % NAMES] for i in range(FETCHES)]
    write(folder, "fetches", ((message(b"GET", it), found(*held[it])) for it in gets))
    write(folder, "wrong", ((message(b"GET", it, None, b"another secret"), answer(21)) for it in gets))
    write(folder, "large_fetches", [(message(b"GET", large), found(*held[large]))] * LARGE_FETCHES)


if __name__ == "__main__":
    main(pathlib.Path(sys.argv[1]), int(sys.argv[2]))
