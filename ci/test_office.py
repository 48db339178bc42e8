"""Runs the proved program `drop` on office files: `init`, `link`, and `replay` over a file.

`drop init` makes the files in their own folder. Python's `sqlite3` (ci/tables.py) and the command `sqlite3` fill, read and
damage them. Expected values come from Python's `hashlib` and `hmac` (ci/expected.py), the table of refusals in docs/RULES.md
and the fault lines in docs/USE.md.
"""

import dataclasses
import functools
import hashlib
import itertools
import os
import shutil
import stat

import kit
import tables
from expected import ID, MOMENT, SECRET, answer, fetched, python_link, receipt
from messages import REQUEST, get, put, sent, signed
from program import (
    CANNOT_OPEN, CANNOT_READ_SECRET, CANNOT_WRITE, CLERK, DAMAGED, DONE, EXISTS, FAILED, LINK, UNKNOWN, VERSION, answered,
    difference, fault, full_disk, help_of, malformed, not_offices, other_program, stock,
)

FILE_FAULTS = [CANNOT_OPEN, DAMAGED, VERSION]


# ---- init


def mode_of(file):
    return stat.S_IMODE(file.stat().st_mode)


def test_umasks(drop, check):
    for umask in [0o000, 0o022, 0o077, 0o277, 0o777]:
        file = drop.path(f"umask-{umask:03o}")
        found = drop.init(file, umask=umask)
        modes = {it.name: oct(mode_of(it)) for it in drop.folder.glob(file.name + "*")}
        wrong = [it for it in modes.values() if it != oct(0o600)]
        fault_line = difference(found, DONE) or (f"modes {modes}" if wrong or file.name not in modes else None)
        check(f"umask {umask:03o}", fault_line)


def office_rows(file):
    """The rows of the tables `office`, `rules` and `keys`, and the row counts of the other tables."""
    first = ["office", "rules", "keys"]
    others = [tables.rows(file, f"SELECT COUNT(*) FROM {name}")[0][0] for name in tables.TABLES if name not in first]
    return [*(tables.rows(file, f"SELECT * FROM {name}") for name in first), others]


def rows_of_new(east=0, allowance=0, secret=SECRET):
    """The expected `office_rows` of a new office."""
    return [[(1, 2, east)], [(1, allowance)], [(ID, 1, secret, 0)], [0] * 6]


def test_made(drop, check):
    """What a new office holds."""
    for words, east, allowance in [
        ([], 0, 0), (["--east", "60"], 60, 0), (["--west", "60"], -60, 0), (["--east", "840"], 840, 0), (["--west", "840"], -840, 0),
        (["--east", "840", "--west", "840"], 0, 0), (["--west=5", "--east=3"], -2, 0), (["--east", "0", "--west", "0"], 0, 0),
        (["--allowance", "0"], 0, 0), (["--allowance", "1"], 0, 1), (["--allowance=900", "--west=1"], -1, 900),
    ]:
        file = drop.path(f"made{'-'.join(words)}")
        found = drop.init(file, *words)
        owed = rows_of_new(east, allowance)
        rows = office_rows(file) if found == DONE else None
        check(f"init {words}", difference(found, DONE) or (None if rows == owed else f"{rows} and not {owed}"))
    greatest = ["--clerk", "k" * 64, "--secret", "~" * 128]
    file = drop.path("greatest")
    found = drop.run("init", file, *greatest)
    check("the greatest key", difference(found, DONE))
    found = drop.run("init", drop.path("hyphens"), "--clerk=-", "--secret=-/_")
    check("values that begin with a hyphen", difference(found, DONE))


def test_malformed_keys(drop, check):
    """A malformed value makes no file, whatever else is wrong."""
    gone = drop.path("no-folder") / "file"
    ids = ["", "a b", "a.b", "é", "k" * 65, "a\n"]
    secrets = ["", "two words", "é", "s" * 129, "a\t", "\x7f"]
    for file in [drop.path("malformed"), gone]:
        for name in ids:
            found = drop.run("init", file, "--clerk", name, "--secret", "s" if file != gone else "")
            check(f"clerk {name!r}", difference(found, malformed("clerk")))
        for secret in secrets:
            found = drop.run("init", file, "--clerk", "k", "--secret", secret)
            check(f"secret {secret!r}", difference(found, malformed("secret")))
    check("no file is made", "there is one" if drop.path("malformed").exists() else None)


ENDS = {"no end": b"", "LF": b"\n", "CR LF": b"\r\n"}


def secret_file(drop, name, data):
    file = drop.path(f"secret-{name}")
    file.write_bytes(data)
    return file


def test_secret_files(drop, check):
    """`--secret-file` makes the same office as `--secret`, and the secret is in no argument."""
    for name, data, secret in [
        ("LF", SECRET + b"\n", SECRET), ("CR LF", SECRET + b"\r\n", SECRET), ("no end", SECRET, SECRET), ("one byte", b"~\n", b"~"),
        *((f"128 bytes, {name}", b"!" * 128 + end, b"!" * 128) for name, end in ENDS.items()),
    ]:
        by_word, by_file = drop.path(f"word {name}"), drop.path(f"file {name}")
        found = drop.run("init", by_word, "--clerk", ID, f"--secret={secret.decode()}", "--east", "60")
        check(f"--secret, {name}", difference(found, DONE))
        words = ["init", by_file, "--clerk", ID, "--secret-file", secret_file(drop, name, data), "--east", "60"]
        found = drop.run(*words)
        check(f"--secret-file, {name}", difference(found, DONE))
        rows = [office_rows(it) if it.exists() else None for it in (by_word, by_file)]
        owed = rows_of_new(60, secret=secret)
        check(f"{name}, the offices", difference(rows, [owed, owed]))
        if len(secret) > 1:
            check(f"{name}, the words", "the secret is among them" if any(secret in os.fsencode(it) for it in words) else None)
    found = drop.run("init", drop.path("given"), "--clerk", ID, "--secret-file", "/dev/stdin", given=SECRET + b"\n")
    check("--secret-file /dev/stdin", difference(found, DONE))
    rows = office_rows(drop.path("given")) if found == DONE else None
    check("/dev/stdin, the office", difference(rows, rows_of_new()))


def test_malformed_secret_files(drop, check):
    """If the secret file holds no one-line secret or can't be read, no file is made, and an existing file is not checked."""
    there = drop.office("there")
    before = there.read_bytes()
    for name, data in [
        ("two lines", b"one\ntwo\n"), ("an empty line behind", b"one\n\n"), ("an empty line before", b"\none\n"), ("nothing", b""),
        ("an end", b"\n"), ("CR LF", b"\r\n"), ("CR", b"one\r"), ("LF CR", b"one\n\r"), ("CR CR LF", b"one\r\r\n"), ("CR within", b"o\rne\n"),
        ("a space", b"two words\n"), ("a space behind", b"one \n"), ("not ASCII", "é\n".encode()), ("0x7F", b"\x7f"), ("0x00", b"one\0\n"),
        ("many bytes", b"s" * 1000000), *((f"129 bytes, {name}", b"s" * 129 + end) for name, end in ENDS.items()),
        ("128 bytes and two ends", b"s" * 128 + b"\r\n\n"), ("128 bytes and more", b"s" * 128 + b"\r\ns"), ("128 bytes and CR", b"s" * 128 + b"\r"),
    ]:
        words = ["--clerk", ID, "--secret-file", secret_file(drop, name, data)]
        for file in [drop.path("none"), there]:
            check(f"{file.name}, {name}", difference(drop.run("init", file, *words), malformed("secret")))
    endless = drop.run("init", drop.path("none"), "--clerk", ID, "--secret-file", "/dev/zero")
    check("a secret without end", difference(endless, malformed("secret")))
    for name in [drop.path("gone"), drop.folder, ""]:
        for file in [drop.path("none"), there]:
            found = drop.run("init", file, "--clerk", ID, "--secret-file", name)
            check(f"{file.name}, the secret in {name!r}", difference(found, CANNOT_READ_SECRET))
        found = drop.run("init", drop.path("none"), "--clerk", "a b", "--secret-file", name)
        check(f"a clerk, and the secret in {name!r}", difference(found, malformed("clerk")))
    with open("/dev/null", "wb") as closed:
        found = drop.run("init", drop.path("none"), "--clerk", ID, "--secret-file", "/dev/stdin", given=closed)
    check("/dev/stdin without a byte", difference(found, malformed("secret")))
    check("no file is made", "there is one" if list(drop.folder.glob("none*")) else None)
    check("the office stays", None if there.read_bytes() == before else "it was changed")


def test_init_over(drop, check):
    """`init` over an existing file: an empty one becomes an office, any other stays unchanged."""
    empty = drop.path("empty")
    empty.touch()
    os.chmod(empty, 0o640)
    found = drop.init(empty)
    rows = office_rows(empty) if found == DONE else None
    well = rows == rows_of_new() and mode_of(empty) == 0o640
    check("init of a file of no bytes", difference(found, DONE) or (None if well else f"{rows}"))
    text, folder, other = drop.path("text"), drop.path("folder"), drop.path("other")
    text.write_bytes(b"not a database\n" * 1000)
    folder.mkdir()
    other_program(other)
    office = drop.office("twice")
    for file, owed in [(text, CANNOT_OPEN), (other, EXISTS), (office, EXISTS)]:
        before = file.read_bytes()
        found = drop.init(file)
        check(f"init of {file.name}", difference(found, owed))
        check(f"{file.name} stays", None if file.read_bytes() == before else "it was changed")
    check("init of a folder", difference(drop.init(folder), CANNOT_OPEN))
    check("the folder stays", None if folder.is_dir() and not list(folder.iterdir()) else "it was changed")


def test_init_that_fails(drop, check):
    """An `init` that fails after it created its file removes that file, and nothing else."""
    for name in ["file:name", ":memory:"]:
        found = drop.run("init", name, *CLERK)
        left = [it.name for it in drop.folder.iterdir() if it.name.startswith(name)]
        check(f"init {name}", difference(found, CANNOT_OPEN) or (f"{left} are left" if left else None))
    file, journal = drop.path("hot"), drop.path("hot-journal")
    journal.write_bytes(b"\xd9\xd5\x05\xf9 a journal that another program left")
    found = drop.init(file)
    left = sorted(it.name for it in drop.folder.glob("hot*"))
    check("init beside a journal", difference(found, CANNOT_OPEN) or (None if left == ["hot-journal"] else f"{left}"))
    file, log = drop.path("old"), drop.path("old-wal")
    log.mkdir()
    found = drop.init(file)
    left = sorted(it.name for it in drop.folder.glob("old*"))
    check("init beside a folder", difference(found, CANNOT_OPEN) or (None if left == ["old-wal"] else f"{left}"))
    check("init in no folder", difference(drop.init(drop.path("none") / "file"), CANNOT_OPEN))
    dangling = drop.path("dangling")
    dangling.symlink_to(drop.path("nowhere"))
    found = drop.init(dangling)
    well = dangling.is_symlink() and not drop.path("nowhere").exists()
    check("init of a link to nothing", difference(found, CANNOT_OPEN) or (None if well else "a file was made"))


# ---- command-line arguments


INIT = ["init", "no-file", *CLERK]
WORDS = [
    *(([*INIT, "--east", number], f"error: invalid value '{number}' for '--east <M>': {why}") for number, why in [
        ("841", "841 is not in 0..=840"), ("99999999999999999999", "number too large to fit in target type"),
        ("", "cannot parse integer from empty string"), ("1.5", "invalid digit found in string"),
        ("x", "invalid digit found in string"),
    ]),
    *(([*INIT, "--allowance", number], f"error: invalid value '{number}' for '--allowance <N>': {why}") for number, why in [
        ("901", "901 is not in 0..=900"), ("", "cannot parse integer from empty string"), ("1s", "invalid digit found in string"),
    ]),
    ([*INIT, "--allowance", "-1"], "error: unexpected argument '-1' found"),
    ([*INIT, "--allowance", "1", "--allowance", "1"], "error: the argument '--allowance <N>' cannot be used multiple times"),
    (["migrate"], "error: the following required arguments were not provided:"),
    (["migrate", "no-file", "more"], "error: unexpected argument 'more' found"),
    ([*INIT, "--west", "841"], "error: invalid value '841' for '--west <M>': 841 is not in 0..=840"),
    ([*INIT, "--west", "-1"], "error: unexpected argument '-1' found"),
    ([*INIT, "more"], "error: unexpected argument 'more' found"),
    ([*INIT, "--clerk", "again"], "error: the argument '--clerk <ID>' cannot be used multiple times"),
    ([*INIT, "--secret", "again"], "error: the argument '--secret <SECRET>' cannot be used multiple times"),
    ([*INIT, "--secret-file", "f"], "error: the argument '--secret <SECRET>' cannot be used with '--secret-file <SECRETFILE>'"),
    (["init", "no-file", "--clerk", "k", "--secret-file"],
     "error: a value is required for '--secret-file <SECRETFILE>' but none was supplied"),
    (["init", "no-file", "--clerk", "k", "--secret-file", "f", "--secret-file", "g"],
     "error: the argument '--secret-file <SECRETFILE>' cannot be used multiple times"),
    (["init", "no-file", "--secret-file", "f"], "error: the following required arguments were not provided:"),
    (["init", "no-file", "--clerk", "k"], "error: the following required arguments were not provided:"),
    (["init", *CLERK], "error: the following required arguments were not provided:"),
    (["link", "no-file", "GET"], "error: the following required arguments were not provided:"),
    (["replay", "no-file", "--at", MOMENT], "error: the following required arguments were not provided:"),
]


def test_words(drop, check):
    """Invalid arguments are reported before all else."""
    link = ["link", "no-file", "NONE", "none", *itertools.chain(*((f"--{k}", "") for k in list(LINK)[:-1]))]
    rows = [*WORDS, *((
        [*link, "--expires", number], f"error: invalid value '{number}' for '--expires <N>': {number} is not in 1..=604800"
    ) for number in ["0", "604801"])]
    for words, line in rows:
        found = drop.run(*words)
        well = found.status == 2 and not found.out and found.err.decode().splitlines()[0] == line
        check(f"drop {words}", None if well else f"{found} and not {line!r}")
    check("no file is made", "there is one" if drop.path("no-file").exists() else None)
    for command in ["init", "link", "migrate", "replay"]:
        owed = kit.Run(0, help_of(command), b"")
        for words in [[command, "--help"], ["help", command]]:
            check(f"drop {words}", difference(drop.run(*words), owed))


# ---- faults before the office is open


BAD_TARGETS = [
    "", "in", "/", "/a", "in/", "In/a", "a_b/a", "b" * 64 + "/a", "in/" + "a" * 1025, "in/a\nb", "in/\x7f", "in/a\x1f",
    "in a/b", "key revoke k2",
]


def test_link_faults(drop, check):
    """The first fault of a link is reported, and the office file is checked last."""
    gone, wrong = drop.path("gone"), dict(LINK)
    for name, value in [("region", "US"), ("host", "two words"), ("start", "now")]:
        wrong[name] = value
        check(f"link with {name} {value}", difference(drop.link(gone, "GET", "in/a", **wrong), malformed(name)))
    for target in BAD_TARGETS:
        check(f"target {target!r}", difference(drop.link(gone, "GET", target, **wrong), malformed("target")))
    for method in ["", "get", "DELETE", "GET ", "PATCH"]:
        found = drop.link(gone, method, "", **wrong)
        check(f"method {method!r}", difference(found, malformed("method")))
    for target in ["in/a", "key revoke", "key  revoke k2"]:
        check(f"POST {target}", difference(drop.link(gone, "POST", target), malformed("target")))
    for name, values in [
        ("start", ["", "20130524T000000", "20130532T000000Z", "19691231T235959Z"]),
        ("host", ["", "h" * 256, "é", "a\n"]), ("region", ["", "r" * 33, "us_east", "é"]),
    ]:
        for value in values:
            found = drop.link(gone, "PUT", "in/a", **{name: value})
            check(f"{name} {value!r}", difference(found, malformed(name)))
    found = drop.link(gone, "HEAD", "in/a", key="no key")
    check("the file before the key", difference(found, CANNOT_OPEN))
    check("no file is made", "there is one" if gone.exists() else None)


def test_replay_faults(drop, check):
    gone = drop.path("gone")
    for at in ["", "now", "20130532T000000Z"]:
        found = drop.run("replay", gone, "none", "none", "--at", at)
        check(f"replay at {at!r}", difference(found, malformed("at")))
    found = drop.run("replay", "memory:none", "none", "--at", "now")
    check("the file's word before the moment", difference(found, malformed("file")))
    found = drop.run("replay", gone, "none", "--at", MOMENT)
    check("the file before the streams", difference(found, CANNOT_OPEN))
    check("no file is made", "there is one" if gone.exists() else None)


def test_not_offices(drop, check):
    for file, owed in not_offices(drop):
        for found in [drop.link(file, "GET", "in/a.txt"), drop.replay(file, get(b"/in/a.txt"))]:
            check(f"{file.name}", difference(found, owed))
    check("nothing is made", "there is a file" if drop.path("nowhere").exists() else None)
    office = drop.office("held")
    with tables.opened(office) as db:
        db.execute("BEGIN EXCLUSIVE")
        check("a file that is held", difference(drop.link(office, "GET", "in/a.txt"), CANNOT_OPEN))


# ---- links


ORDERS = [
    ("GET", "in/a.txt", {}), ("PUT", "in/a.txt", {}), ("HEAD", "in/a.txt", {}),
    ("GET", "in/a/../b c", {}), ("GET", "in//", {}), ("PUT", "begins.1-2/é ~+%2F?&=#", {}),
    ("GET", "b" * 63 + "/" + "n" * 1024, {}), ("GET", "0/%", {}),
    ("GET", "in/a", {"host": "h"}), ("GET", "in/a", {"host": "!" * 255}), ("GET", "in/a", {"host": "files.example:8080"}),
    ("GET", "in/a", {"region": "r"}), ("GET", "in/a", {"region": "-" + "9" * 31}),
    ("GET", "in/a", {"start": "19700101T000000Z"}), ("GET", "in/a", {"start": "99991231T235959Z"}),
    ("GET", "in/a", {"start": "20240229T235959Z", "expires": "1"}), ("GET", "in/a", {"expires": "86400"}),
]
KEYS = [(ID, SECRET), ("k2", b"s3cr3t"), ("k3", b"s3cr3t"), ("c2", b"!~")]


def test_links(drop, check):
    """Links, byte for byte; those of revoked keys too."""
    file = drop.filled("links")
    before = tables.dump(file)
    for (method, target, values), (key, secret) in itertools.product(ORDERS, KEYS):
        found = drop.link(file, method, target, key=key, **values)
        owed = kit.Run(0, python_link(method, target, key, secret, **values), b"")
        check(f"link {method} {target!r} {values} by {key}", difference(found, owed))
    for key in ["", "k9", "K2", "k 2", "k" * 65, "é"]:
        check(f"key {key!r}", difference(drop.link(file, "GET", "in/a.txt", key=key), UNKNOWN))
    check("the office stays", None if tables.dump(file) == before else "it was changed")
    words = ["link", file, "GET", "in/a.txt", *itertools.chain(*((f"--{k}", v) for k, v in LINK.items()))]
    with full_disk() as full:
        check("a full disk", difference(drop.run(*words, out=full), CANNOT_WRITE))


def test_written_links(drop, check):
    """A link that `drop link` wrote is accepted by the office it was written for, within its time window."""
    file = drop.filled("written")
    for number, (target, data) in enumerate([("in/a/../b c", b"one"), ("ends/é ~+%2F.txt", b""), ("in/a.txt", b"abd")], 6):
        url = drop.link(file, "PUT", target, key="k2").out.strip()
        at = MOMENT if target.startswith("in/") else "20130524T010000Z"
        found = drop.replay(file, sent(url, "PUT", data), at=at)
        check(f"PUT {target}", difference(found, answered(receipt(number, data))))
        for method in ["GET", "HEAD"]:
            url = drop.link(file, method, target).out.strip()
            found = drop.replay(file, sent(url, method), at="20130530T235959Z")
            check(f"{method} {target}", difference(found, answered(fetched(number, data, method))))
            for moment, refusal in [("20130523T235959Z", 22), ("20130531T000000Z", 23)]:
                found = drop.replay(file, sent(url, method), at=moment)
                check(f"{method} {target} at {moment}", difference(found, answered(answer(refusal, method))))
    url = drop.link(file, "GET", "in/a.txt", key="k3").out.strip()
    check("a revoked key", difference(drop.replay(file, sent(url, "GET")), answered(answer(20))))


# ---- replays


def limited(drop, name, *boxes, words=()):
    file = drop.office(name, *words)
    for box in boxes:
        tables.add_box(file, box)
    return file


BOX = tables.Box("in", tables.OPENS, tables.CLOSES, quota=100, max_files=2)


def test_uploads(drop, check):
    """Uploads and fetches on one office file, each in its own run."""
    file = limited(drop, "uploads", BOX)
    abc = put(b"/in/a.txt", b"abc")
    steps = [
        ("abc", abc, MOMENT, receipt(1, b"abc")), ("x", put(b"/in/b.txt", b"x"), MOMENT, receipt(2, b"x")),
        ("a third file", put(b"/in/c.txt", b"y"), MOMENT, answer(32)), ("other bytes", put(b"/in/a.txt", b"abd"), MOMENT, answer(31)),
        ("GET", get(b"/in/a.txt"), MOMENT, fetched(1, b"abc")), ("HEAD", get(b"/in/a.txt", "HEAD"), MOMENT, fetched(1, b"abc", "HEAD")),
        ("no file", get(b"/in/c.txt"), MOMENT, answer(34)), ("no box", get(b"/out/c.txt"), MOMENT, answer(27)),
    ]
    for name, stream, at, owed in steps:
        check(f"uploads: {name}", difference(drop.replay(file, stream, at=at), answered(owed)))
    with tables.opened(file) as db:
        db.execute("UPDATE boxes SET closes = ?", (tables.M + 1,))
    before = tables.dump(file)
    for name, stream, owed in [("again", abc, receipt(1, b"abc")), ("closed", put(b"/in/c.txt", b"y"), answer(30))]:
        found = drop.replay(file, stream, at="20130524T000001Z")
        check(f"uploads: {name}", difference(found, answered(owed)))
    check("uploads: the tables stay", None if tables.dump(file) == before else "they were changed")
    with tables.opened(file) as db:
        db.execute("UPDATE keys SET role = 1")
        db.execute("INSERT INTO keys VALUES ('c2', 1, ?, 0)", (b"s3cr3t",))
        db.execute("UPDATE keys SET revoked = 1 WHERE id = ?", (ID,))
    check("uploads: revoked", difference(drop.replay(file, abc), answered(answer(20))))


def test_boxes(drop, check):
    """Boxes with other settings; each request is in its own run."""
    kept = tables.Box("in", tables.OPENS, tables.CLOSES, quota=100, max_files=2, mode=1)
    small = tables.Box("q", quota=3, max_files=5, mode=1)
    friday = dataclasses.replace(BOX, days="0000100", from_minute=60, to_minute=120)
    empty = put(b"/in/e", b"")
    for name, boxes, words, steps in [
        ("replace", [kept], [], [(put(b"/in/a.txt", b"abc"), MOMENT, receipt(1, b"abc")),
                                 (put(b"/in/a.txt", b"abd"), MOMENT, receipt(2, b"abd"))]),
        ("empty", [BOX], [], [(empty, MOMENT, receipt(1, b"")), (signed("PUT", b"/in/e"), MOMENT, answer(25))]),
        ("quota", [small], [], [(put(b"/q/a", b"abc"), MOMENT, receipt(1, b"abc")),
                                (put(b"/q/b", b"x"), MOMENT, answer(33)), (put(b"/q/c", b""), MOMENT, receipt(2, b""))]),
        ("hours", [friday], ["--east", "60"], [
            (put(b"/in/a", b"1"), MOMENT, receipt(1, b"1")), (put(b"/in/b", b"2"), "20130524T010000Z", answer(30)),
            (put(b"/in/b", b"2"), "20130524T005959Z", receipt(2, b"2")), (get(b"/in/a"), "20130524T010000Z", fetched(1, b"1")),
        ]),
        ("names", [tables.Box("in", rule_kind=1, rule_text=".a,.b")], [], [
            (put(b"/in/x.a", b"1"), MOMENT, receipt(1, b"1")), (put(b"/in/x.c", b"1"), MOMENT, answer(28 + 1)),
            (put(b"/in/" + b"a" * 1025, b"1"), MOMENT, answer(28)),
        ]),
    ]:
        file = limited(drop, f"box-{name}", *boxes, words=words)
        for number, (stream, at, owed) in enumerate(steps, 1):
            check(f"{name}: {number}", difference(drop.replay(file, stream, at=at), answered(owed)))
    totals = tables.rows(drop.path("box-replace"), "SELECT used, count FROM boxes")
    check("replace: the totals", None if totals == [(3, 1)] else f"{totals}")


def test_allowance(drop, check):
    """Offices made with and without an allowance: the published request, around its start and at its end."""
    for words, rows in [
        (["--allowance", "900"], [("20130523T234500Z", 27), ("20130523T234459Z", 22), ("20130524T235959Z", 27), ("20130525T000000Z", 23)]),
        (["--allowance", "1"], [("20130523T235959Z", 27), ("20130523T235958Z", 22), ("20130525T000000Z", 23)]),
        ([], [("20130523T235959Z", 22), (MOMENT, 27), ("20130525T000000Z", 23)]),
    ]:
        file = drop.office(f"allowance{'-'.join(words)}", *words)
        for at, number in rows:
            check(f"{words} at {at}", difference(drop.replay(file, REQUEST, at=at), answered(answer(number))))
    first = drop.office("first", "--allowance", "900")
    fetch = get(b"/in/a", date="19700101T000000Z")
    check("the first second", difference(drop.replay(first, fetch, at="19700101T000000Z"), answered(answer(27))))


def test_pieces(drop, check):
    """Files of several sizes, each with its expected pieces."""
    file = limited(drop, "pieces", tables.Box("in", quota=10**12, max_files=9))
    sizes = [10**6, 65536, 65537, 1048576, 1048577, 8388608, 0, 1]
    for number, size in enumerate(sizes, 1):
        data = b"a" * size
        path = f"/in/{size}".encode()
        check(f"{size} bytes", difference(drop.replay(file, put(path, data)), answered(receipt(number, data))))
        query = "SELECT part, length(bytes) FROM pieces WHERE name = ? ORDER BY part"
        found = tables.rows(file, query, str(size))
        owed = [(part, min(tables.PIECE, size - at)) for part, at in enumerate(range(0, size, tables.PIECE))]
        check(f"pieces of {size} bytes", None if found == owed else f"{found} and not {owed}")
        check(f"GET {size} bytes", difference(drop.replay(file, get(path)), answered(fetched(number, data))))
    check("the totals", difference(tables.rows(file, "SELECT used, count FROM boxes"), [(sum(sizes), len(sizes))]))
    found = drop.replay(file, put(b"/in/more", b"a" * 8388609))
    check("8388609 bytes", difference(found, answered(answer(5))))


def test_streamed(drop, check):
    """Uploads that come in pieces: one cut off, one of exactly the quota, one byte beyond it, and one with a wrong signature."""
    boxes = [tables.Box(name, quota=8388608, max_files=5) for name in ["in", "full"]]
    file = limited(drop, "streamed", *boxes)
    large, full = bytes(range(250)) * 800, b"f" * 8388608
    before = tables.dump(file)
    found = drop.replay(file, put(b"/in/large", large)[:-50000])
    check("150000 of 200000 bytes", difference(found, answered(answer(6))))
    wrong = put(b"/in/wrong", b"w" * 1048577)
    at = wrong.index(b"X-Amz-Signature=") + len(b"X-Amz-Signature=")
    wrong = wrong[:at] + (b"1" if wrong[at:at + 1] == b"0" else b"0") + wrong[at + 1:]
    check("1048577 bytes and a wrong signature", difference(drop.replay(file, wrong), answered(answer(21))))
    check("the tables stay", None if tables.dump(file) == before else "they are others")
    check("200000 bytes", difference(drop.replay(file, put(b"/in/large", large)), answered(receipt(1, large))))
    query = "SELECT part, length(bytes) FROM pieces WHERE name = ? ORDER BY part"
    found = tables.rows(file, query, "large")
    check("their parts", difference(found, [(0, 65536), (1, 65536), (2, 65536), (3, 3392)]))
    check("8388608 bytes", difference(drop.replay(file, put(b"/full/a", full)), answered(receipt(2, full))))
    check("their parts", difference(tables.rows(file, query, "a"), [(part, 65536) for part in range(128)]))
    check("a byte more", difference(drop.replay(file, put(b"/full/b", b"b")), answered(answer(33))))
    check("the first again", difference(drop.replay(file, put(b"/full/a", full)), answered(receipt(2, full))))


def test_staged(drop, check):
    """Rows left in the table `staged` are gone once the file was opened, and the office is otherwise unchanged."""
    whole = drop.filled("staged-whole")
    owed = drop.replay(whole, get(b"/in/a.txt"))
    for number, left in enumerate([
        ["INSERT INTO staged VALUES (0, x'616263')"], [f"INSERT INTO staged VALUES ({part}, zeroblob(65536))" for part in range(128)],
        ["INSERT INTO staged VALUES (-5, x'')", "INSERT INTO staged VALUES (9223372036854775807, x'00')"],
    ]):
        file = drop.path(f"staged-{number}")
        shutil.copy(whole, file)
        before = tables.dump(file)
        tables.run(file, left)
        check(f"{len(left)} rows staged", difference(drop.replay(file, get(b"/in/a.txt")), owed))
        check(f"{len(left)} rows staged: emptied", None if tables.dump(file) == before else "the tables are others")


def test_streams(drop, check):
    """Several streams in one run: each is a connection to the office as the previous one left it."""
    for name in ["file", "memory"]:
        file = limited(drop, "streams", BOX) if name == "file" else f"memory:{ID}/{SECRET.decode()}"
        owed = {"put": receipt(1, b"abc"), "get": fetched(1, b"abc")} if name == "file" else dict.fromkeys(["put", "get"], answer(27))
        abc, fetch, cut = put(b"/in/a.txt", b"abc"), get(b"/in/a.txt"), b"GET /"
        streams = [abc, fetch + fetch, cut, b"", abc]
        found = drop.replay(file, *streams)
        check(f"{name}: five streams", difference(found, answered(owed["put"], owed["get"] * 2, owed["put"])))
        first, last = drop.path(f"{name}-first"), drop.path(f"{name}-last")
        first.write_bytes(fetch)
        last.write_bytes(abc)
        words = ["replay", file, first, "no such file", last, "--at", MOMENT]
        owed_run = kit.Run(1, owed["get"], fault("cannot read no such file").err)
        check(f"{name}: a stream that is not there", difference(drop.run(*words), owed_run))
        words[3] = drop.folder
        owed_run = kit.Run(1, owed["get"] + owed["put"], FAILED.err)
        check(f"{name}: a stream that fails", difference(drop.run(*words), owed_run))
        with full_disk() as full:
            check(f"{name}: answers that fail", difference(drop.run("replay", file, first, last, "--at", MOMENT, out=full), FAILED))
    file = limited(drop, "unheard", BOX)
    stream = drop.path("unheard.http")
    stream.write_bytes(put(b"/in/a.txt", b"abc"))
    with full_disk() as full:
        drop.run("replay", file, stream, "--at", MOMENT, out=full)
    check("an answer that nobody hears", difference(drop.replay(file, put(b"/in/a.txt", b"abc")), answered(receipt(1, b"abc"))))


# ---- other programs on the file


def is_sound(drop, file):
    """Why a filled office doesn't answer as expected, or None."""
    streams = [get(b"/in/a.txt"), get(b"/ends/y.txt", "HEAD")]
    owed = answered(fetched(1, b"abc"), fetched(4, b"y" * (tables.PIECE + 1), "HEAD"))
    return difference(drop.replay(file, *streams), owed)


def test_stock(drop, check):
    file = drop.filled("stock")
    drop.replay(file, put(b"/in/new", b"new"))
    check("integrity_check", None if (said := stock(file, "PRAGMA integrity_check; PRAGMA foreign_key_check")) == "ok" else said)
    said = sorted(stock(file, ".tables").split())
    check(".tables", None if said == sorted(tables.TABLES) else f"{said}")
    for table, owed in zip(tables.TABLES, [1, 4, 4, 6, 5, 6, 1, 2, 0]):
        said = stock(file, f"SELECT COUNT(*) FROM {table}")
        check(f"rows of {table}", None if said == str(owed) else said)
    for command in ["VACUUM", "UPDATE boxes SET quota = quota + 1 WHERE quota < 1000000000000",
                    "UPDATE boxes SET max_files = 1000000", "PRAGMA journal_mode = DELETE", "ANALYZE; DROP TABLE sqlite_stat1",
                    "REINDEX", "UPDATE keys SET revoked = 1 WHERE id = 'k2'", "PRAGMA journal_mode = WAL"]:
        stock(file, command)
        check(f"opens behind {command}", is_sound(drop, file))


def refusals(drop, file):
    """The runs of `drop link` and `drop replay` on a file."""
    return [drop.link(file, "GET", "in/a.txt"), drop.replay(file, get(b"/in/a.txt"))]


def test_broken(drop, check):
    """Breaks each rule of the tables, one at a time."""
    whole = drop.filled("whole")
    check("the office before it is broken", is_sound(drop, whole))
    cases = [(it.name, functools.partial(tables.run, statements=it.statements)) for it in tables.breaks()]
    for table, old, new, statement in tables.LOOSENED:
        cases.append((statement, functools.partial(tables.loosened, table=table, old=old, new=new, statement=statement)))

    def each(case):
        number, (name, damage) = case
        file = drop.path(f"broken-{number}")
        shutil.copy(whole, file)
        damage(file)
        before = tables.dump(file)
        if before == tables.dump(whole):
            return f"{name}: nothing was broken"
        # Tables are recognised by their number of columns: no query finds a renamed column.
        owed = CANNOT_OPEN if "RENAME COLUMN" in name else DAMAGED
        wrong = [difference(found, owed) for found in refusals(drop, file)]
        if tables.dump(file) != before:
            wrong.append("the tables were changed")
        return next(filter(None, wrong), None)

    for (name, _), wrong in zip(cases, kit.side_by_side(each, list(enumerate(cases)))):
        check(f"broken: {name}", wrong)


def test_versions(drop, check):
    whole = drop.filled("versions")
    for version, others, owed in [
        (7, [], [VERSION]), (0, [], [VERSION]), (1, [], [VERSION]), (3, [], [VERSION]), (-1, [], [VERSION]), (2**62, [], [VERSION]),
        (7, ["UPDATE keys SET secret = x'20'"], [VERSION]), (7, ["DELETE FROM pieces"], [VERSION]),
        (7, ["DELETE FROM receipts WHERE number = 3"], [VERSION]),
        # The engine refuses these before their version is read.
        (7, ["UPDATE keys SET role = 7 WHERE id = 'k2'"], [VERSION, DAMAGED]), (7, ["UPDATE office SET east = 900"], [VERSION, DAMAGED]),
    ]:
        file = drop.path("version")
        shutil.copy(whole, file)
        tables.run(file, [f"UPDATE office SET version = {version}", *others])
        for found in refusals(drop, file):
            check(f"version {version} {others}", difference(found, *owed))
        check(f"init over version {version}", difference(drop.init(file), EXISTS, *owed[1:]))


# ---- files cut and changed


def is_bearable(found):
    """Why a run is neither a fault line of the file without an answer, nor answers as an office returns them; or None."""
    if found.status == 1:
        return None if found in FILE_FAULTS else f"{found}"
    well = found.status == 0 and not found.err and found.out.startswith(b"HTTP/1.1 ")
    if well and found.out.startswith(b"HTTP/1.1 200 OK\r\n"):
        fields, _, body = found.out.partition(b"\r\n\r\n")
        well = f"X-Drop-Sha256: {hashlib.sha256(body).hexdigest()}".encode() in fields
    return None if well else f"{found}"


def test_cut(drop, check):
    whole = drop.filled("cut-whole").read_bytes()
    size = len(whole)
    lengths = sorted({0, 1, 15, 16, 99, 100, 101, size - 1, *range(0, size, 4096), *range(512, size, 12289)})

    def each(length):
        file = drop.path(f"cut-{length}")
        file.write_bytes(whole[:length])
        return is_bearable(drop.replay(file, get(b"/in/a.txt")))

    for length, wrong in zip(lengths, kit.side_by_side(each, lengths)):
        check(f"the first {length} bytes", wrong)


def test_changed(drop, check):
    """Changes one byte, at some hundred places: all over the first page, and here and there after it."""
    whole = drop.filled("changed-whole").read_bytes()
    places = sorted({*range(0, 108), *range(108, 4096, 61), *range(4096, len(whole), 1009)})[:700]

    def each(place):
        file = drop.path(f"changed-{place}")
        file.write_bytes(whole[:place] + bytes([whole[place] ^ (1 << place % 8)]) + whole[place + 1:])
        wrong = is_bearable(drop.replay(file, get(b"/in/a.txt")))
        file.unlink()
        return wrong

    for place, wrong in zip(places, kit.side_by_side(each, places)):
        check(f"another byte {place}", wrong)
