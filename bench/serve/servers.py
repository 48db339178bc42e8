"""The requests to the servers, and two of the servers that are compared: `drop serve` and nginx."""

import base64
import contextlib
import dataclasses
import hashlib
import os
import pathlib
import shutil
import socket
import subprocess
import time

import program
import tables
from expected import ID, python_link

HERE = pathlib.Path(__file__).resolve().parent
KIB, MIB, MOST = 1 << 10, 1 << 20, 8 << 20
BOX = "bench"
HOST = "127.0.0.1"
UPLOADS = {KIB: 20000, MIB: 600, MOST: 1000}  # links to new names, more than a row uses
FILES = {KIB: 1000, MIB: 40, MOST: 5}  # initial files: their sizes and numbers


def body_of(size):
    return b"b" * size


def free_ports(host, many):
    """`many` free ports, all different."""
    with contextlib.ExitStack() as stack:
        servers = [stack.enter_context(socket.create_server((host, 0))) for _ in range(many)]
        return [server.getsockname()[1] for server in servers]


def free_port():
    return free_ports(HOST, 1)[0]


def wait_for(port, host=HOST):
    """Waits at most a minute until something listens on the port."""
    for _ in range(1200):
        with contextlib.suppress(OSError), socket.create_connection((host, port)):
            return
        time.sleep(0.05)
    raise SystemExit(f"nothing listens at port {port}")


@dataclasses.dataclass(frozen=True)
class Row:
    """A kind of request. Each server has its own targets; each upload has a new name."""

    name: str
    method: str
    size: int = 0
    upload: bool = False
    bad: bool = False
    new: int = 0  # a new connection after this many requests; 0: never
    many: int = 1  # connections at the same time


ROWS = [
    Row("a wrong signature", "GET", KIB, bad=True),
    Row("GET of 1 KiB", "GET", KIB),
    Row("GET of 1 KiB, 64 connections", "GET", KIB, many=64),
    Row("GET of 1 KiB, a new connection each", "GET", KIB, new=1),
    Row("PUT of 1 KiB, new", "PUT", KIB, upload=True),
    Row("PUT of 1 MiB, new", "PUT", MIB, upload=True),
    Row("GET of 1 MiB", "GET", MIB),
    Row("PUT of 8 MiB, new", "PUT", MOST, upload=True),
    Row("GET of 8 MiB", "GET", MOST),
]


def first_files():
    """The name and the bytes of each initial file."""
    for size, many in FILES.items():
        for number in range(many):
            yield f"f{size}-{number:06d}", body_of(size)


def names_of(row, mark):
    if row.upload:
        return [f"{mark}-{number:06d}" for number in range(UPLOADS[row.size])]
    return [f"f{row.size}-{number:06d}" for number in range(FILES[row.size])]


# ---- servers


class Drop:
    """`drop serve` on a copy of an office with the initial files, or with the given files."""

    name = "drop serve"

    def __init__(self, file, folder, files=None):
        self.drop = program.Drop(file, folder)
        self.whole = self.drop.office("office" if files is None else "empty")
        tables.add_box(self.whole, tables.Box(BOX, max_files=10**6, mode=1))
        for name, body in first_files() if files is None else files:
            tables.add_file(self.whole, BOX, name, body, ID)

    def targets(self, row, names, port):
        start = time.strftime("%Y%m%dT%H%M%SZ", time.gmtime(time.time() - 60))
        host = f"{HOST}:{port}"
        for name in names:
            line = python_link(row.method, f"{BOX}/{name}", host=host, start=start).decode().strip()
            target = line.removeprefix(f"http://{host}")
            yield target[:-1] + ("0" if target[-1] != "0" else "1") if row.bad else target

    @contextlib.contextmanager
    def running(self, port):
        file = self.whole.with_name("served")
        for old in file.parent.glob("served*"):
            old.unlink()
        shutil.copyfile(self.whole, file)
        os.sync()
        words = [self.drop.program, "serve", file, "--listen", f"{HOST}:{port}", "--connections", "1000000"]
        with subprocess.Popen(words, stdout=subprocess.PIPE, stderr=subprocess.DEVNULL) as process:
            process.stdout.readline()
            yield process.pid
            process.kill()


class Nginx:
    """nginx with links by `secure_link` and uploads by `dav`."""

    name = "nginx"

    def __init__(self, folder):
        self.folder = folder
        files = folder / "nginx-files" / BOX
        files.mkdir(parents=True)
        for name, body in first_files():
            (files / name).write_bytes(body)
        for path in [folder, folder / "nginx-files", files]:
            path.chmod(0o777)

    def targets(self, row, names, port):
        expires = int(time.time()) + 86400
        for name in names:
            path = f"/{BOX}/{name}"
            digest = hashlib.md5(f"{expires}{path}{row.method} {'wrong' if row.bad else 'secret'}".encode()).digest()
            yield f"{path}?md5={base64.urlsafe_b64encode(digest).decode().rstrip('=')}&expires={expires}"

    @contextlib.contextmanager
    def running(self, port):
        text = (HERE / "nginx.conf.txt").read_text().replace("FOLDER", str(self.folder)).replace("PORT", str(port))
        settings = self.folder / "nginx.conf"
        settings.write_text(text)
        with subprocess.Popen(["nginx", "-c", settings], stderr=subprocess.DEVNULL) as process:
            wait_for(port)
            yield process.pid
            process.terminate()
