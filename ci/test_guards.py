"""Tries each guard of the lines of docs/DEPLOY.md with its bad case: what the lines would spoil stays, byte for byte, and the
status is not 0.

A folder stands in for the machine (ci/standins.py). The proved `drop` makes its office, and another one in a backup. Each block
is run by a shell of its own, without `-e`, as an administrator pastes it. The expected files are those before the block.
"""

import dataclasses
import hashlib
import os
import re
import shutil

import pytest

import kit
import tables
from nginx import replaced
from program import difference
from standins import INSTALL, RUNUSER, SYSTEMCTL, fallible, lines_to_run, moved, put

SHELLS = ["sh", "bash"]
# Each block by some of its words.
CREATE, SITE, BACKUP, CHECK, RESTORE, SECOND = [
    "openssl rand", "nginx -t", "sha256sum *", "sha256sum --check", "/before", "/first\n",
]
LIB, TO, PAIR, LOG = "lib/drop/", "backups/kept/", ["office", "office-wal"], "log/nginx/drop.log"


class New:
    """Bytes that were in no file before."""


def of_files(names, to, of):
    """These files of one folder become those of another."""
    return {to + name: of and of + name for name in names}


IN_BEFORE, IN_FIRST = (of_files(PAIR, LIB + name, LIB) for name in ["before-NOW/", "first/"])
NO_OFFICE, MADE = of_files(PAIR, LIB, None), {LIB + name: New for name in PAIR}
RESTORED = IN_BEFORE | of_files(PAIR, LIB, TO)
COPIED = of_files([*PAIR, "secret"], "backups/drop/NOW/", LIB)
SUMS = {"backups/drop/NOW/SHA256SUMS": New}
NO_SUMS = {"backups/drop/NOW/SHA256SUMS": b""}


@dataclasses.dataclass(frozen=True)
class Case:
    """A block that is run once."""

    name: str
    block: str
    before: str = ""  # lines that are run before, in `to`
    to: str = "to=/var/backups/kept"
    fails: str = ""  # the call that fails, as a pattern of the shell
    changes: dict = dataclasses.field(default_factory=dict)  # each changed file, with the one whose bytes it has then
    server: str = "start"  # what systemctl was told last about the server, which runs before
    is_done: bool = False  # whether the status is 0


CASES = [
    Case("a new machine", CREATE, "rm /var/lib/drop/*", changes=MADE | {LIB + "secret": New}, is_done=True),
    # `drop init` begins a new journal. The last line starts a server that runs already: its status is that of the block.
    Case("an office is there", CREATE, changes={LIB + "office-wal": New}, is_done=True),
    Case("a secret is there", CREATE, "rm /var/lib/drop/office*", changes=MADE, is_done=True),

    Case("no log", SITE, changes={LOG: b""}, is_done=True),
    Case("a log is there", SITE, "echo line >/var/log/nginx/drop.log", is_done=True),
    Case("nginx refuses the site", SITE, fails="nginx -t", changes={LOG: b""}),
    Case("nginx does not reload", SITE, fails="systemctl reload nginx", changes={LOG: b""}),

    Case("well", BACKUP, changes=COPIED | SUMS, is_done=True),
    Case("no folder", BACKUP, fails="install *"),
    Case("the server does not stop", BACKUP, fails="systemctl stop *"),
    Case("the disk is full", BACKUP, fails="cp *"),
    Case("no office", BACKUP, "rm /var/lib/drop/office*"),
    Case("no secret", BACKUP, "rm /var/lib/drop/secret"),
    Case("the server does not start", BACKUP, fails="systemctl start *", changes=COPIED, server="stop"),
    Case("no sums", BACKUP, fails="sha256sum *", changes=COPIED | NO_SUMS),

    Case("well", CHECK, is_done=True),
    Case("well, without a journal", CHECK, "rm office-wal; sed -i /-wal/d SHA256SUMS", is_done=True),
    Case("`to` is not set", CHECK, to=""),
    Case("`to` is empty", CHECK, to="to="),
    Case("no such folder", CHECK, to="to=/var/backups/none"),
    Case("no sums", CHECK, "rm SHA256SUMS"),
    Case("empty sums", CHECK, ": >SHA256SUMS"),
    *(Case(f"{how} {name}", CHECK, f"{lines} {name}") for name in [*PAIR, "secret"]
      for how, lines in [("a longer", "echo >>"), ("a cut", "truncate -s -1"), ("an empty", "truncate -s 0"), ("no", "rm")]),
    *(Case(f"{name} office with its sum", CHECK, f"{line} office; sha256sum office* secret >SHA256SUMS")
      for name, line in [("an empty", "truncate -s 0"), ("a cut", "truncate -s -4096"), ("no", "rm")]),
    Case("no folder for the copy", CHECK, fails="mktemp *"),
    Case("the disk is full", CHECK, fails="cp *"),
    Case("no manifest", CHECK, fails="drop manifest *"),
    Case("no comparison", CHECK, fails="drop compare *"),

    Case("well", RESTORE, changes=RESTORED, is_done=True),
    Case("well, without a journal", RESTORE, "rm office-wal", changes=RESTORED | {LIB + "office-wal": None}, is_done=True),
    Case("well, on a new machine", RESTORE, "rm /var/lib/drop/*", changes=of_files(PAIR, LIB, TO), is_done=True),
    Case("`to` is not set", RESTORE, to=""),
    Case("`to` is empty", RESTORE, to="to="),
    Case("no such folder", RESTORE, to="to=/var/backups/none"),
    Case("no office", RESTORE, "rm office"),
    Case("an empty office", RESTORE, ": >office"),
    Case("an empty folder", RESTORE, "rm *"),
    Case("no folder for the copy", RESTORE, fails="mktemp *"),
    Case("the disk is full", RESTORE, fails="cp *"),
    Case("no owner", RESTORE, fails="chown *"),
    Case("no folder `before`", RESTORE, fails="mkdir *"),
    Case("the server does not stop", RESTORE, fails="systemctl stop *"),
    Case("the office is not moved", RESTORE, fails="mv -t *", server="stop"),
    Case("the backup is not moved", RESTORE, fails="mv /*", changes=IN_BEFORE | NO_OFFICE, server="stop"),
    Case("the server does not start", RESTORE, fails="systemctl start *", changes=RESTORED, server="stop"),

    Case("well", SECOND, changes=IN_FIRST | MADE, is_done=True),
    Case("`first` is there", SECOND, "mkdir /var/lib/drop/first; echo first >/var/lib/drop/first/office"),
    Case("an empty `first` is there", SECOND, "mkdir /var/lib/drop/first"),
    Case("no secret", SECOND, "rm /var/lib/drop/secret"),
    Case("no folder for the new one", SECOND, fails="mktemp *"),
    Case("no new office", SECOND, fails="drop init *"),
    Case("no box", SECOND, fails="drop desk *"),
    Case("no folder `first`", SECOND, fails="mkdir *"),
    Case("no owner", SECOND, fails="chown *"),
    Case("the server does not stop", SECOND, fails="systemctl stop *"),
    Case("the office is not moved", SECOND, fails="mv -t *", server="stop"),
    Case("the new one is not moved", SECOND, fails="mv /*", changes=IN_FIRST | NO_OFFICE, server="stop"),
    Case("the server does not start", SECOND, fails="systemctl start *", changes=IN_FIRST | MADE, server="stop"),
]

# Guards that are lost: with each of these edits of a block some of its cases fail.
LOST = [
    (CREATE, "set -C; ", ""), (SITE, " && ", "\n"), (SITE, "[ -e /var/log/nginx/drop.log ] || ", ""),
    (BACKUP, "set -eu", "set -u"), (BACKUP, ' || rm -r "$to"', ""), (BACKUP, ' || rm -r "$to"', " || :"),
    (CHECK, "SHA256SUMS", "SHA256SUMS || :"), (CHECK, "    trap 'rm -r \"$check\"' EXIT\n", ""),
    (CHECK, '"$check"/office >', "office >"),
    (RESTORE, "set -eu\n", "set -eu"), (RESTORE, "set -eu", "set -u"), (RESTORE, 'test -s "${to:?}"/office', ":"),
    (RESTORE, "test -s", "test -e"), (RESTORE, "    trap 'rm -r \"$new\"' EXIT\n", ""),
    (SECOND, "set -eu", "set -u"), (SECOND, "mkdir -m", "mkdir -p -m"), (SECOND, "    trap 'rm -r \"$new\"' EXIT\n", ""),
]


def block_of(mark):
    """The block with these words."""
    [found] = [it for it in lines_to_run() if mark in it]
    return found


# ---- the machine


def put_office(drop, folder, file):
    """An office with one receipt, its journal, and its clerk's secret."""
    folder.mkdir(parents=True)
    office, secret = folder / "office", folder / "secret"
    secret.write_text("3kQz7mWx0PbT\n")
    drop.run("init", office, "--clerk", "clerk", "--secret-file", secret)
    tables.add_box(office, tables.Box("in"))
    tables.add_file(office, "in", file, b"hello\n", "clerk")
    ran = drop.run("desk", office, "office allow 1")
    if ran.status or not (folder / "office-wal").is_file():
        raise AssertionError(f"no office with a journal was made: {ran}")


def put_sums(folder):
    lines = [f"{hashlib.sha256(it.read_bytes()).hexdigest()}  {it.name}\n" for it in sorted(folder.iterdir())]
    (folder / "SHA256SUMS").write_text("".join(lines))


@pytest.fixture
def whole(drop):
    """The machine before a block."""
    root = drop.path("whole")
    for name in ["bin", "tmp", "state", "var/log/nginx", "etc/nginx/sites-available", "etc/nginx/sites-enabled",
                 "usr/share/doc/drop/examples"]:
        (root / name).mkdir(parents=True)
    put_office(drop, root / "var/lib/drop", "later.txt")
    put_office(drop, root / "var/backups/kept", "hello.txt")
    put_sums(root / "var/backups/kept")
    shutil.copy(kit.ROOT / "deploy/nginx.conf", root / "usr/share/doc/drop/examples")
    for unit in ["drop", "nginx"]:
        (root / "state" / unit).write_text("start\n")
    put(root / "bin", "real-install", INSTALL)
    own = {"install": "real-install", "chown": "true", "nginx": "true", "drop": drop.program}
    for name in ["cp", "mv", "rm", "mkdir", "find", "mktemp", "sha256sum", *own]:
        put(root / "bin", name, fallible(name, own.get(name)))
    put(root / "bin", "runuser", RUNUSER)
    put(root / "bin", "systemctl", SYSTEMCTL)
    return root


def files_of(root):
    """The files in the machine's folder `var`, and those left in `tmp`. Each moment in a name is NOW."""
    found = {}
    for top, mark in [("var", ""), ("tmp", "tmp: ")]:
        for it in (root / top).rglob("*"):
            if it.is_file():
                name = re.sub(r"\d{8}T\d{6}Z", "NOW", str(it.relative_to(root / top)))
                found[mark + name] = it.read_bytes()
    return found


def run_in(root, shell, lines, folder="", fails=""):
    """Runs these lines in this machine."""
    own = {"PATH": f"{root}/bin:{os.environ['PATH']}", "MACHINE": str(root), "TMPDIR": str(root / "tmp"), "FAILS": fails}
    return kit.run([shell, "-c", moved(root, lines)], cwd=root / folder, env=os.environ | own)


def changed(before, changes):
    """The files that are owed after these changes."""
    told = {name: before[it] if isinstance(it, str) else it for name, it in changes.items()}
    return {name: it for name, it in (before | told).items() if it is not None}


def compared(before, found, owed):
    """For each file whether it is as owed."""
    def word(name):
        data, wanted = found.get(name), owed.get(name)
        is_well = data and data not in before.values() if wanted is New else data == wanted
        return "as owed" if is_well else "gone" if data is None else "not owed" if wanted is None else "changed"
    return {name: word(name) for name in found | owed}


def fault_of(whole, number, shell, case, block):
    """What is wrong after this block in a copy of the machine, or None."""
    root = whole.with_name(f"machine-{number}")
    shutil.copytree(whole, root)
    run_in(root, shell, case.before, folder="var/backups/kept")
    before = files_of(root)
    ran = run_in(root, shell, f"{case.to}\n{block}", fails=case.fails)
    states = compared(before, files_of(root), changed(before, case.changes))
    server = (root / "state/drop").read_text().strip()
    shutil.rmtree(root)
    wrong = {name: it for name, it in states.items() if it != "as owed"}
    found, owed = (wrong, server, ran.status == 0), ({}, case.server, case.is_done)
    return difference(found, owed) and f"{difference(found, owed)}: {ran}"


def tried(whole, rows):
    """What is wrong with each of these rows: a shell, a case, and the lines of its block."""
    return kit.side_by_side(lambda row: fault_of(whole, row[0], *row[1]), list(enumerate(rows)))


def test_guards(whole, check):
    rows = [(shell, case, block_of(case.block)) for case in CASES for shell in SHELLS]
    for (shell, case, _), wrong in zip(rows, tried(whole, rows), strict=True):
        check(f"{shell}: {case.block.strip()}: {case.name}", wrong)


def test_lost_guards(whole, check):
    """The cases notice each lost guard."""
    for mark, old, new in LOST:
        lines = replaced(block_of(mark), [(old, new)])
        wrong = tried(whole, [("sh", case, lines) for case in CASES if case.block == mark])
        check(f"{mark.strip()}: {new!r} for {old!r}", None if any(wrong) else "no case fails")
