"""Runs `drop list` and `drop export` of the proved program over an office of two thousand receipts, limited and revoked keys,
and names of every kind.

Expected values come from the tables as `sqlite3` reads them and from Python's `csv` and `hashlib`; `sha256sum --check` verifies
the sums too.
"""

import random
import resource
import signal
import stat

import kit
import tables
from expected import ID, SECRET
from listed import BOX_HEAD, FILE_HEAD, KEPT, KEY_HEAD, ascending, kept_files, read, unlike
from many_receipts import BOXES, KEYS, change, few, filled
from program import (
    CANNOT_OPEN, CANNOT_WRITE, VERSION, closed_pipe, difference, fault, full_disk, help_lines, help_of, malformed, not_offices,
)

PATH_HEAD = ["path", "box", "name", "receipt", "length", "sha256", "moment", "key"]
WHATS = ["keys", "boxes", "files"]
# Characters that some file system doesn't accept in a name.
NOT_TAKEN = set('/\\:*?"<>|') | {chr(code) for code in [*range(32), 127]}
NAMES = ["..", ".", "a/..", "a/../b", "../../etc/passwd", "/etc/passwd", ".hidden", "...x", "x.", "x. ", "x .", " ", "  ", "a/b/c",
         "a//", "/", "aux", "CON", "a:b", "a\\b", "*?", '"<>|', "\u00fc", "u\u0308", "\U0001f4c4.pdf", "n" * 1024, "\u00e9" * 512,
         "x" * 199 + "\u00e9", "x" * 198 + "\u00e9", "-rf", "~", "$HOME", "`id`", "a b", "a,b", "files.csv", "SHA256SUMS", "a\u2028b"]


# ---- expected values


def part_of(name):
    """A name in a path: its last part, with `_` for what some file system doesn't accept, and at most 200 bytes of it."""
    last = name.rsplit("/", 1)[-1]
    front = len(last) - len(last.lstrip("."))
    text = "".join("_" if letter in NOT_TAKEN or at < front else letter for at, letter in enumerate(last))
    text = text.encode()[:200].decode(errors="ignore")
    if text[-1:] in (".", " "):
        text = f"{text[:-1]}_"
    return text or "_"


# boxes with the name of a list that is written next to the folders
CALLED = {"files.csv": "files_csv", "sha256sums": "sha256_sums"}


def path_of(in_box, name, number):
    return f"{part_of(CALLED.get(in_box, in_box))}/{number}-{part_of(name)}"


def owed_paths(file, only=None):
    """The rows of files.csv, and the bytes under each path."""
    rows, data_of = [PATH_HEAD], {}
    for (in_box, name, length, digest, number, *rest), (*_, data) in zip(list(kept_files(file))[1:], ascending(file)):
        if only in (None, in_box):
            path = path_of(in_box, name, number)
            rows.append([path, in_box, name, number, length, digest, *rest])
            data_of[path] = data
    return rows, data_of


# ---- lists


def limit_keys(file):
    """Limits two keys, one of them to every box."""
    for key, boxes in [("k2", BOXES[:1]), ("-_" * 32, BOXES)]:
        for in_box in boxes:
            tables.limit_key(file, key, in_box)


def listed(drop, file, what, **how):
    return drop.run("list", file, what, **how)


def test_lists(drop, check):
    """Each list as the tables have it: of a new office, of one with every kind of box, of many files, and after changes."""
    empty, whole, many = drop.office("empty"), drop.filled("whole"), filled(drop, "many")
    limit_keys(many)
    for file in [empty, whole, many]:
        for what in WHATS:
            check(f"{what} of {file.name}", unlike(listed(drop, file, what), list(KEPT[what](file))))
    check("changes", change(drop, many, random.Random(7)))
    before = tables.dump(many)
    for what in WHATS:
        check(f"{what} behind changes", unlike(listed(drop, many, what), list(KEPT[what](many))))
    for secret in [SECRET, *KEYS.values()]:
        told = [what for what in WHATS if secret in listed(drop, many, what).out]
        check("no list tells a secret", f"it stands in {told}" if told else None)
    check("the office stays", None if tables.dump(many) == before else "it was changed")


def test_list_faults(drop, check):
    """What to list is checked before the file; and a list that cannot be written."""
    gone, file = drop.path("gone"), few(drop, "faults")
    for what in ["", "key", "Keys", "secrets", "keys boxes"]:
        check(f"list {what!r}", difference(listed(drop, gone, what), malformed("what")))
    for what in WHATS:
        check(f"list {what}, no file", difference(listed(drop, gone, what), CANNOT_OPEN))
        for failing in [full_disk, closed_pipe]:
            with failing() as out:
                check(f"{what} to a {failing.__name__}", difference(listed(drop, file, what, out=out), CANNOT_WRITE))
    version = few(drop, "version")
    tables.run(version, ["UPDATE office SET version = 7"])
    for other, owed in [*not_offices(drop), (version, VERSION)]:
        check(f"files of {other.name}", difference(listed(drop, other, "files"), owed))
        check(f"{other.name} exported", difference(exported(drop, other, "none"), owed))
        check("no folder is made", "there is one" if drop.path("none").exists() else None)
    with tables.opened(file) as db:
        db.execute("BEGIN EXCLUSIVE")
        check("a file that is held", difference(listed(drop, file, "boxes"), CANNOT_OPEN))
        check("a file that is held, exported", difference(exported(drop, file, "none"), CANNOT_OPEN))


# ---- exports


def exported(drop, file, folder, *more, **how):
    return drop.run("export", file, folder, *more, **how)


def files_below(folder):
    return {str(it.relative_to(folder)): it.read_bytes() for it in sorted(folder.rglob("*")) if it.is_file()}


def wrong_modes(folder):
    """The first path with wrong permissions, or that is neither a folder nor a file."""
    for it in [folder, *folder.rglob("*")]:
        mode = it.lstat().st_mode
        owed = 0o700 if stat.S_ISDIR(mode) else 0o600
        if stat.S_IMODE(mode) != owed or not (stat.S_ISDIR(mode) or stat.S_ISREG(mode)):
            return f"{it} has {mode:o}"
    return None


def unlike_folder(folder, file, only=None):
    """Why the folder does not hold these files, their lists and nothing else."""
    rows, data_of = owed_paths(file, only)
    found = files_below(folder)
    table, sums = found.pop("files.csv", b""), found.pop("SHA256SUMS", b"")
    if found != data_of:
        return f"{sorted(found.keys() ^ data_of.keys())[:4]}, or other bytes"
    owed = "".join(f"{row[5]}  {row[0]}\n" for row in rows[1:]).encode()
    checked = kit.run(["sha256sum", "--check", "--strict", "--quiet", "SHA256SUMS"], cwd=folder) if owed else None
    return (unlike(kit.Run(0, table, b""), rows) or (None if sums == owed else "other sums")
            or (f"sha256sum: {checked}" if checked and checked.status else None) or wrong_modes(folder))


def test_exports(drop, check):
    """Exports offices of every kind, whole and box by box."""
    empty, whole, many = drop.office("none-yet"), drop.filled("every"), filled(drop, "thousands")
    check("changes", change(drop, many, random.Random(9)))
    odd = few(drop, "odd")
    for in_box in [".", "..", "...a", "a.", "a", *CALLED, "sha256sums.", "files.csv."]:
        tables.add_box(odd, tables.Box(in_box))
        tables.add_file(odd, in_box, "same", in_box.encode(), ID)
    for name in NAMES:
        tables.add_file(odd, "in", name, name.encode() * 3, ID)
    for file in [empty, whole, many, odd]:
        before = tables.dump(file)
        folder = drop.path(f"{file.name}-out")
        check(f"{file.name} exported", difference(exported(drop, file, folder), kit.Run(0, b"", b"")))
        check(f"what was exported of {file.name}", unlike_folder(folder, file))
        check(f"{file.name} stays", None if tables.dump(file) == before else "it was changed")
    for in_box in [*BOXES, "no-such-box"]:
        folder = drop.path(f"only-{in_box}")
        check(f"box {in_box} exported", difference(exported(drop, many, folder, "--box", in_box), kit.Run(0, b"", b"")))
        check(f"what was exported of box {in_box}", unlike_folder(folder, many, in_box))


def test_names(drop, check):
    """Each name becomes one path component below its box, which no other file has."""
    file, folder = few(drop, "names"), drop.path("names-out")
    for name in NAMES:
        tables.add_file(file, BOXES[1], name, b"x", ID)
    exported(drop, file, folder)
    below = [it.name for it in (folder / BOXES[1]).iterdir()]
    for name, number in tables.rows(file, "SELECT name, receipt FROM files WHERE box = ?", BOXES[1]):
        owed = f"{number}-{part_of(name)}"
        taken = not set(owed) & NOT_TAKEN and len(owed.encode()) <= 255 and owed[-1] not in ". "
        check(f"name {name[:40]!r}", None if below.count(owed) == 1 and taken else f"{owed} is not there")


def test_export_faults(drop, check):
    """A folder that exists or cannot be made, and a disk that fills up."""
    file = few(drop, "export-faults")
    tables.add_file(file, "in", "large", b"x" * 3_000_000, ID)
    there, link, plain = drop.path("there"), drop.path("link"), drop.path("plain")
    there.mkdir()
    link.symlink_to(drop.path("nowhere"))
    plain.write_bytes(b"as it was")
    for folder in [there, link, plain, drop.path("no/such/folder"), "", "x" * 300]:
        check(f"a folder {str(folder)[-20:]!r}", difference(exported(drop, file, folder), fault("cannot make the folder")))
    check("they stay", None if plain.read_bytes() == b"as it was" and not list(there.iterdir()) else "they were changed")
    small = drop.path("small")
    found = exported(drop, file, small, preexec_fn=short_of_disk)
    whole = [path for path, data in owed_paths(file)[1].items() if (small / path).is_file() and (small / path).read_bytes() == data]
    owed = fault(f"cannot write to the folder: files that are whole: {len(whole)}")
    check("a file that is too large for the disk", difference(found, owed) or difference(len(whole), 1))
    check("its list", difference([row[0] for row in read((small / "files.csv").read_bytes())[1:]], whole))


def short_of_disk():
    """Limits files to a million bytes: a write of more fails, as on a full disk."""
    resource.setrlimit(resource.RLIMIT_FSIZE, (1_000_000, 1_000_000))
    signal.signal(signal.SIGXFSZ, signal.SIG_IGN)


# ---- command-line arguments


def test_words(drop, check):
    """The version, help, and invalid arguments."""
    found = drop.run("--version")
    check("the version", None if found.status == 0 and found.out.startswith(b"drop ") and not found.err else f"{found}")
    check("-V", difference(drop.run("-V"), found))
    missing = "error: the following required arguments were not provided:"
    for words in [["list"], ["list", "office"], ["export"], ["export", "office"]]:
        ran = drop.run(*words)
        well = ran.status == 2 and not ran.out and ran.err.decode().splitlines()[0] == missing
        check(f"drop {words}", None if well else f"{ran}")
    for command in ["list", "export"]:
        owed = kit.Run(0, help_of(command), b"")
        for words in [[command, "--help"], ["help", command]]:
            check(f"drop {words}", difference(drop.run(*words), owed))
    for head in [KEY_HEAD, BOX_HEAD, FILE_HEAD]:
        check(f"the head {head[0]}", None if ",".join(head) in help_lines("list") else "it is not shown")
    check("the head of files.csv", None if ",".join(PATH_HEAD) in help_lines("export") else "it is not shown")


