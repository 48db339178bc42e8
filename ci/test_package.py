"""Makes the Debian package of the proved `drop`, and installs, upgrades, removes and purges it in a Debian 12 made by `debootstrap`.

There a stand-in replaces systemd: it does what the unit says and logs its requests. Expected values come from the lines of
docs/DEPLOY.md, from the kept office files of version 1 (ci/kept.py), and from links made by boto3. It must be run as root.
"""

import hashlib
import os
import pathlib
import re
import shutil
import subprocess
import tempfile

import pytest

import kit
import s3
import tables
from browser import until
from expected import receipt
from front import asked
from kept import VERSION_1, Kept
from nginx import PAGE, listens
from program import difference

MIRROR = "http://deb.debian.org/debian"
PORT = 8333
OFFICE = "var/lib/drop/office"
OLDER = "1.0.0~older"  # a package built without a version has the program's own
BOX = "box add in 20200101T000000Z 20400101T000000Z 1111111 0000 2400 1000000000 1000 keep any"
PREPARED = {"DEBIAN_FRONTEND": "noninteractive", "LC_ALL": "C", "PATH": "/usr/sbin:/usr/bin:/sbin:/bin"}

# Replaces systemd when a service is started or stopped: runs the unit's program as the unit's user, if its condition holds.
# systemd's own command does all else.
SYSTEMCTL = r"""#!/bin/sh
unit=/lib/systemd/system/drop.service
case "$*" in
*start*drop*)
    echo start >>/asked.log
    office=$(sed -n 's/^ConditionPathExists=//p' $unit)
    [ -e "$office" ] || exit 0
    words=$(sed -n 's/^ExecStart=//p' $unit)
    setsid setpriv --reuid=drop --regid=drop --clear-groups $words >>/drop.log 2>&1 </dev/null &
    echo $! >/drop.pid
    ;;
*stop*drop*)
    echo stop >>/asked.log
    [ -e /drop.pid ] && kill "$(cat /drop.pid)" && rm /drop.pid
    exit 0
    ;;
*is-active*drop*) [ -e /drop.pid ] ;;
*daemon-reload*) ;;
*) SYSTEMD_OFFLINE=1 exec /usr/bin/systemctl.own "$@" ;;
esac
"""


class Machine:
    """A Debian in a folder, in which programs are run."""

    def __init__(self, root):
        self.root = root

    def path(self, name):
        return self.root / name

    def run(self, *words, given=b"", **own):
        return kit.run(["chroot", self.root, *words], given=given, env=PREPARED | own)

    def sh(self, lines):
        return self.run("sh", "-eu", "-c", lines)

    def install(self, package):
        """Installs a package with the command of docs/DEPLOY.md."""
        shutil.copy(package, self.path(f"root/{package.name}"))
        return self.sh(f"cd /root && apt-get install -y --allow-downgrades ./{package.name}")

    def log(self):
        """The requests to systemd since the last call."""
        file = self.path("asked.log")
        found = file.read_text().split() if file.exists() else []
        file.unlink(missing_ok=True)
        return found

    def manifest(self, file=f"/{OFFICE}"):
        return self.run("setpriv", "--reuid=drop", "--regid=drop", "--clear-groups", "drop", "manifest", file)

    def tables(self):
        """The names of the office's tables."""
        found = tables.rows(self.path(OFFICE), "SELECT name FROM sqlite_schema WHERE type = 'table' ORDER BY rowid")
        return [name for name, in found]

    def owner(self, name):
        ran = self.run("stat", "-c", "%U:%G %a", f"/{name}")
        return ran.out.decode().strip()

    def stop(self):
        self.run("systemctl", "stop", "drop")
        until("the server's end", lambda: not listens(PORT))

    def put_office(self, kept):
        """Replaces everything in the office's folder by an office file of version 1."""
        for it in self.path("var/lib/drop").iterdir():
            shutil.rmtree(it) if it.is_dir() else it.unlink()
        with tempfile.TemporaryDirectory() as folder:
            file = kept.copied(pathlib.Path(folder) / "it")
            for it in file.parent.iterdir():
                shutil.copy(it, self.path("var/lib/drop") / it.name)
        self.run("sh", "-c", "chown drop:drop /var/lib/drop/*; chmod 600 /var/lib/drop/*")

    def content(self, name=OFFICE):
        """The digest of the content of this office file's tables; of a copy, because reading a file may change its bytes."""
        with tempfile.TemporaryDirectory() as folder:
            for it in self.path(name).parent.glob("office*"):
                shutil.copy(it, folder)
            return hashlib.sha256("\n".join(tables.dump(f"{folder}/office")).encode(errors="surrogateescape")).hexdigest()


@pytest.fixture(scope="module")
def machine():
    with tempfile.TemporaryDirectory(prefix="drop-debian-", ignore_cleanup_errors=True) as folder:
        root = pathlib.Path(folder) / "root"
        ran = subprocess.run(["debootstrap", "--variant=minbase", "--include=adduser,systemd,openssl,curl", "bookworm", root, MIRROR],
                             capture_output=True, text=True, check=False)
        if ran.returncode:
            raise AssertionError(f"no Debian was made: {ran.stdout[-500:]} {ran.stderr[-500:]}")
        machine = Machine(root)
        machine.path("run/systemd/system").mkdir(parents=True)
        file = machine.path("usr/bin/systemctl")
        file.rename(file.with_name("systemctl.own"))
        file.write_text(SYSTEMCTL)
        file.chmod(0o755)
        try:
            yield machine
        finally:
            machine.run("systemctl", "stop", "drop")


def built(folder, version=None):
    """Makes the folder, and the package of this version in it."""
    folder.mkdir()
    own = {"PACKAGE_VERSION": version} if version else {}
    ran = kit.run(["bash", "deploy/package.sh", folder], cwd=kit.ROOT, env=os.environ | own)
    found = sorted(folder.glob("drop_*_amd64.deb"))
    if ran.status or not found:
        raise AssertionError(f"no package was made: {ran}")
    return found[-1]


def digest_of(file):
    return hashlib.sha256(pathlib.Path(file).read_bytes()).hexdigest()


@pytest.fixture(scope="module")
def older(module_folder):
    return built(module_folder / "older", OLDER)


@pytest.fixture(scope="module")
def newer(module_folder):
    return built(module_folder / "newer")


# ---- the package itself


def test_package(module_folder, newer, check):
    """Two builds have the same bytes; lintian finds no error; the package has all that is promised."""
    again = built(module_folder / "again")
    check("made twice", difference(digest_of(again), digest_of(newer)))
    ran = kit.run(["lintian", "--fail-on", "error", "--no-tag-display-limit", newer])
    check("lintian", f"{ran.out.decode()}" if ran.status else None)
    listed = kit.run(["dpkg-deb", "-c", newer]).out.decode()
    pages = [f"/usr/share/drop/page/{it.name}" for it in (kit.ROOT / "page").iterdir()]
    for name in ["/usr/bin/drop", "/usr/share/man/man1/drop.1.gz", "/lib/systemd/system/drop.service",
                 "/usr/share/doc/drop/examples/nginx.conf", "/usr/share/doc/drop/USE.md.gz", *pages]:
        check(f"it has {name}", None if f" .{name}\n" in listed else "it has not")
    check("files of root alone", difference({*re.findall(r"^\S+ (\S+)", listed, re.MULTILINE)}, {"root/root"}))


# ---- a machine's life: each test continues where the previous one ended


def lines_of(section):
    """The lines to run of this section of docs/DEPLOY.md."""
    part = re.search(rf"^## {section}\. .*?(?=^## )", PAGE.read_text(), re.MULTILINE | re.DOTALL)[0]
    return re.findall(r"^```sh\n(.*?)^```$", part, re.MULTILINE | re.DOTALL)


def link(machine, method, name, key="clerk"):
    secret = machine.path("var/lib/drop/secret").read_text().strip()
    call = {"PUT": "put_object", "GET": "get_object"}[method]
    client = s3.client(f"http://127.0.0.1:{PORT}", key, secret)
    return client.generate_presigned_url(call, Params={"Bucket": "in", "Key": name}, ExpiresIn=600)


def said(machine, method, name, data=None):
    status, _, body = asked(link(machine, method, name), method, data)
    return status, body


def owed_receipt(number, data):
    return 200, receipt(number, data).partition(b"\r\n\r\n")[2]


def test_install(machine, older, check):
    """Installing makes the user and the folder, enables the unit, and starts nothing."""
    ran = machine.install(older)
    check("installed", difference(ran.status, 0) and f"{ran}")
    check("the folder", difference(machine.owner("var/lib/drop"), "drop:drop 700"))
    check("no server", None if not listens(PORT) else "there is one")
    enabled = machine.path("etc/systemd/system/multi-user.target.wants/drop.service")
    check("the unit is enabled", None if enabled.is_symlink() else "it is not")
    check("nothing is in the folder", difference([*machine.path("var/lib/drop").iterdir()], []))
    machine.log()


def test_office(machine, check):
    """The lines of the page make an office, which then serves; a box is added, and a file is put and fetched."""
    for lines in lines_of(2):
        ran = machine.sh(lines)
        check("the lines of 2", difference(ran.status, 0) and f"{ran}")
    until("the server", lambda: listens(PORT))
    ran = machine.sh(f"""curl -sX POST "$(drop link key:/var/lib/drop/secret POST '{BOX}' --key clerk --host 127.0.0.1:{PORT} \\
        --region us-east-1 --start "$(date -u +%Y%m%dT%H%M%SZ)" --expires 600)" """)
    check("a box", difference(ran, kit.Run(0, b"done\n", b"")))
    check("put", difference(said(machine, "PUT", "a.txt", b"one"), owed_receipt(1, b"one")))
    check("get", difference(said(machine, "GET", "a.txt"), (200, b"one")))
    check("the office's rights", difference(machine.owner(OFFICE), "drop:drop 600"))
    machine.log()


def test_same_version(machine, newer, check):
    """An upgrade with an office of version 2 stops, replaces and starts the program, and makes no copy."""
    ran = machine.install(newer)
    check("upgraded", difference(ran.status, 0) and f"{ran}")
    until("the server", lambda: listens(PORT))
    check("stopped, then started", difference(machine.log(), ["stop", "start"]))
    check("no copy", difference([it.name for it in machine.path("var/lib/drop").glob("before-*")], []))
    check("the file stands", difference(said(machine, "GET", "a.txt"), (200, b"one")))
    check("the same receipt", difference(said(machine, "PUT", "a.txt", b"one"), owed_receipt(1, b"one")))


def test_manual(machine, check):
    """The manual page is readable, and has each command's help."""
    page = machine.path("usr/share/man/man1/drop.1.gz")
    ran = kit.run(["man", "--warnings", "-E", "UTF-8", "-l", page], env=os.environ | {"MANPAGER": "cat", "MANWIDTH": "200"})
    check("its page has no fault", difference((ran.status, ran.err), (0, b"")))
    text = ran.out.decode()
    for file in sorted({*(kit.ROOT / "ci").glob("*.help")} - {kit.ROOT / "ci" / "drop.help"}):
        lines = [it.strip() for it in file.read_text().splitlines() if it.startswith("  ")]
        lacking = [it for it in lines if it not in text]
        check(f"its page has {file.name}", f"lacks {lacking}" if lacking else None)


def test_migration(machine, older, newer, check):
    """An upgrade with an office of version 1: it is copied, migrated and served."""
    kept = Kept(VERSION_1 / "filled")
    machine.stop()
    machine.install(older)
    machine.stop()
    machine.put_office(kept)
    before = machine.content()
    machine.log()
    ran = machine.install(newer)
    check("upgraded from version 1", difference(ran.status, 0) and f"{ran}")
    until("the server", lambda: listens(PORT))
    check("stopped, then started", difference(machine.log(), ["stop", "start"]))
    copies = [it.relative_to(machine.root) for it in machine.path("var/lib/drop").glob("before-*")]
    found = [machine.content(it / "office") for it in copies]
    check("one copy, of the file as it was", difference(found, [before]))
    machine.stop()
    check("its receipts", difference(machine.manifest(), kit.Run(0, kept.manifest, b"")))
    check("its tables", difference(machine.tables(), tables.TABLES))


def test_damage(machine, older, newer, check):
    """An upgrade with a damaged office of version 1 fails, says so, and leaves the office unchanged."""
    machine.install(older)
    machine.stop()
    machine.put_office(Kept(VERSION_1 / "fresh"))
    with tables.opened(machine.path(OFFICE), unchecked=True) as it:
        it.execute("DELETE FROM keys")
    machine.run("sh", "-c", "chown drop:drop /var/lib/drop/*")
    before = machine.content()
    ran = machine.install(newer)
    told = (ran.out + ran.err).decode()
    check("a damaged office: apt fails", None if ran.status else "it does not")
    check("a damaged office: it is told", None if "the office file is damaged" in told else told[-600:])
    check("a damaged office: as it was", difference(machine.content(), before))
    check("a damaged office: not served", None if not listens(PORT) else "it is")
    shutil.rmtree(machine.path("var/lib/drop"))
    machine.run("install", "-d", "-m", "700", "-o", "drop", "-g", "drop", "/var/lib/drop")
    ran = machine.run("dpkg", "--configure", "-a")
    check("configured without it", difference(ran.status, 0) and f"{ran}")


def test_removal(machine, newer, check):
    """Removing keeps the office, and so does purging unless the answer to its question is yes; then nothing is left."""
    machine.put_office(Kept(VERSION_1 / "fresh"))
    machine.run("setpriv", "--reuid=drop", "--regid=drop", "--clear-groups", "drop", "migrate", f"/{OFFICE}")
    machine.run("systemctl", "start", "drop")
    until("the server", lambda: listens(PORT))
    machine.log()
    ran = machine.run("apt-get", "remove", "-y", "drop")
    check("removed", difference(ran.status, 0) and f"{ran}")
    check("removed: stopped", difference(machine.log(), ["stop"]))
    check("removed: the program", None if not machine.path("usr/bin/drop").exists() else "is there")
    check("removed: the office", None if machine.path(OFFICE).exists() else "is gone")
    ran = machine.install(newer)
    check("installed again", difference(ran.status, 0) and f"{ran}")
    until("the server", lambda: listens(PORT))
    ran = machine.run("apt-get", "purge", "-y", "drop")
    check("purged, and asked nobody", difference(ran.status, 0) and f"{ran}")
    check("purged: the office", None if machine.path(OFFICE).exists() else "is gone")
    machine.install(newer)
    machine.run("debconf-set-selections", given=b"drop drop/purge-office boolean true\n")
    ran = machine.run("apt-get", "purge", "-y", "drop")
    check("purged with a yes", difference(ran.status, 0) and f"{ran}")
    check("purged with a yes: the office", None if not machine.path("var/lib/drop").exists() else "is there")
    check("purged with a yes: the user", difference(machine.run("getent", "passwd", "drop").status, 2))
    left = [*machine.path("etc/systemd").rglob("*drop*"), *machine.path("var/lib/systemd").rglob("*drop*")]
    check("purged with a yes: the unit", difference(left, []))
