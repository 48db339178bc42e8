#!/usr/bin/env python3
"""peer.py manifest|compare|list OFFICE: does what `drop manifest`, `drop compare` and `drop list OFFICE files` do, with
Python's `sqlite3`, `csv` and `hashlib`.
peer.py export OFFICE DIR: does what `drop export` does, with the same modules.
peer.py links OFFICE ID HOST REGION: does what `drop links` does, with `sqlite3`, `csv` and botocore's own signer.

The input list is read from standard input, the output list is written to standard output. More in README.md in this folder.
"""

import csv
import datetime
import hashlib
import os
import pathlib
import re
import sqlite3
import sys
import time
import urllib.parse

MANIFEST_HEAD = ["receipt", "box", "name", "length", "sha256", "moment", "key"]
FILES_HEAD = ["box", "name", "length", "sha256", "receipt", "moment", "key"]
FINDINGS_HEAD = ["receipt", "box", "name", "state"]
LINKS_HEAD = ["method", "box", "name", "start", "expires"]
RECEIPTS = "SELECT number, box, name, length, digest, moment, key_id FROM receipts ORDER BY number"
FILES = """SELECT files.box, files.name, length, digest, number, moment, key_id
    FROM files JOIN receipts ON number = receipt ORDER BY files.box, files.name"""
FILE = """SELECT files.receipt, pieces.bytes FROM files LEFT JOIN pieces USING (box, name)
    WHERE files.box = ? AND files.name = ? ORDER BY pieces.part"""
NUMBER = re.compile(r"[1-9][0-9]{0,9}")
LENGTH = re.compile(r"0|[1-9][0-9]{0,6}")
DIGEST = re.compile(r"[0-9a-f]{64}")
METHOD = re.compile(r"PUT|GET|HEAD")
BOX = re.compile(r"[a-z0-9.-]{1,63}")
NAME = re.compile(r"[^\x00-\x1f\x7f]{1,1024}")
EXPIRES = re.compile(r"[1-9][0-9]{0,5}")
MOMENT = "%Y%m%dT%H%M%SZ"


def manifest(db, _, out):
    out.writerow(MANIFEST_HEAD)
    for number, box, name, length, digest, moment, key in db.execute(RECEIPTS):
        out.writerow([number, box, name, length, digest.hex(), moment_text(moment), key])


def state(db, number, box, name, length, digest):
    """The state of a receipt's file."""
    found = db.execute(FILE, (box, name)).fetchall()
    if not found or found[0][0] != int(number):
        return "gone"
    data = b"".join(piece or b"" for _, piece in found)
    is_same = len(data) == int(length) and hashlib.sha256(data).hexdigest() == digest
    return "standing" if is_same else "differs"


def compare(db, given, out):
    check_head(given, MANIFEST_HEAD)
    out.writerow(FINDINGS_HEAD)
    for number, box, name, length, digest, _, _ in given:
        if not (NUMBER.fullmatch(number) and LENGTH.fullmatch(length) and DIGEST.fullmatch(digest)):
            raise SystemExit(f"receipt {number} is malformed")
        out.writerow([number, box, name, state(db, number, box, name, length, digest)])


def moment_text(moment):
    return time.strftime(MOMENT, time.gmtime(moment))


def list_files(db, _, out):
    out.writerow(FILES_HEAD)
    for box, name, length, digest, number, moment, key in db.execute(FILES):
        out.writerow([box, name, length, digest.hex(), number, moment_text(moment), key])


def part_of(name):
    """The part of a name that is kept in an exported file's name."""
    part = name.rpartition("/")[2].encode()[:200].decode(errors="ignore")
    part = re.sub(r"^\.+", lambda dots: "_" * len(dots[0]), re.sub(r'[\x00-\x1f\x7f/\\:*?"<>|]', "_", part))
    return re.sub(r"[. ]$", "_", part) or "_"


def export(db, _, out, folder):
    folder = pathlib.Path(folder)
    folder.mkdir(mode=0o700)
    with open(folder / "files.csv", "w", encoding="utf-8", newline="") as table, open(folder / "SHA256SUMS", "wb") as sums:
        rows = csv.writer(table, lineterminator="\n")
        rows.writerow(["path", "box", "name", "receipt", "length", "sha256", "moment", "key"])
        for box, name, _, _, number, moment, key in db.execute(FILES):
            data = b"".join(piece or b"" for _, piece in db.execute(FILE, (box, name)))
            path = f"{box}/{number}-{part_of(name)}"
            (folder / box).mkdir(mode=0o700, exist_ok=True)
            with open(os.open(folder / path, os.O_WRONLY | os.O_CREAT | os.O_EXCL, 0o600), "wb") as file:
                file.write(data)
            digest = hashlib.sha256(data).hexdigest()
            rows.writerow([path, box, name, number, len(data), digest, moment_text(moment), key])
            sums.write(f"{digest}  {path}\n".encode())


def is_wish(method, box, name, expires):
    """Whether the row requests a link, provided that its moment is valid."""
    forms = METHOD.fullmatch(method) and BOX.fullmatch(box) and NAME.fullmatch(name) and EXPIRES.fullmatch(expires)
    return forms and len(name.encode()) <= 1024 and int(expires) <= 604800


def links(db, given, out, key, host, region):
    import botocore.auth
    from botocore.awsrequest import AWSRequest
    from botocore.credentials import Credentials

    sys.path.insert(0, str(pathlib.Path(__file__).resolve().parents[2] / "ci"))
    from samples import clock_at

    secret = db.execute("SELECT secret FROM keys WHERE id = ?", (key,)).fetchone()[0].decode()
    credentials = Credentials(key, secret)
    check_head(given, LINKS_HEAD)
    out.writerow([*LINKS_HEAD, "link"])
    for method, box, name, start, expires in given:
        if not is_wish(method, box, name, expires):
            raise SystemExit(f"{name} is malformed")
        request = AWSRequest(method, f"http://{host}/{box}/{urllib.parse.quote(name)}")
        with clock_at(datetime.datetime.strptime(start, "%Y%m%dT%H%M%S%z")):
            botocore.auth.S3SigV4QueryAuth(credentials, "s3", region, int(expires)).add_auth(request)
        out.writerow([method, box, name, start, expires, request.url])


def check_head(given, head):
    if next(given, None) != head:
        raise SystemExit("the first row is not the head")


def main():
    task, office, *more = sys.argv[1:]
    db = sqlite3.connect(office)
    reader = open(0, encoding="utf-8", newline="")
    with open(1, "w", encoding="utf-8", newline="") as writer:
        given, out = csv.reader(reader, strict=True), csv.writer(writer, lineterminator="\n")
        {"manifest": manifest, "compare": compare, "list": list_files, "export": export, "links": links}[task](db, given, out, *more)
    db.close()


if __name__ == "__main__":
    main()
