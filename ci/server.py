"""`drop serve` on a port of its own, an office for it, and third-party clients."""

import socket
import subprocess
import time
import urllib.parse

import kit
import s3
import tables
from expected import ID, SECRET
from front import free_port
from program import FAILED

SECONDS = 20


def add_boxes(file):
    for name in ["in", "out.1-2"]:
        tables.add_box(file, tables.Box(name, max_files=1000))


def open_office(drop, name):
    file = drop.office(name)
    add_boxes(file)
    return file


class Server:
    """A `drop serve` that runs inside `with`, and reports where it listens before it is used.

    It has exclusive access to the office file while it runs, so links are made before.
    """

    def __init__(self, drop, file, connections, patience=None, most_open=None, room=None):
        self.drop, self.file = drop, file
        self.address = f"127.0.0.1:{free_port()}"
        self.words = [drop.program, "serve", file, "--listen", self.address, "--connections", str(connections)]
        self.words += ["--patience", str(patience)] if patience is not None else []
        self.words += ["--open", str(most_open)] if most_open is not None else []
        self.words += ["--room", str(room)] if room is not None else []
        self.own = {}  # further arguments with which the process is started

    def __enter__(self):
        pipes = {"stdin": subprocess.DEVNULL, "stdout": subprocess.PIPE, "stderr": subprocess.PIPE}
        self.process = subprocess.Popen(self.words, cwd=self.drop.folder, **(pipes | self.own))
        self.line = self.process.stdout.readline()
        return self

    def link(self, method, target, key=ID):
        """The URL of a link that `drop link` writes for this server, valid from a minute ago on."""
        start = time.strftime("%Y%m%dT%H%M%SZ", time.gmtime(time.time() - 60))
        ran = self.drop.link(self.file, method, target, key=key, host=self.address, start=start)
        assert ran.status == 0, ran
        return ran.out.decode().strip()

    def message(self, method, target, data=None):
        """The bytes of a request for such a link."""
        parts = urllib.parse.urlsplit(self.link(method, target))
        length = "" if data is None else f"Content-Length: {len(data)}\r\n"
        head = f"{method} {parts.path}?{parts.query} HTTP/1.1\r\nHost: {parts.netloc}\r\n{length}\r\n"
        return head.encode() + (data or b"")

    def __exit__(self, *_):
        if self.process.poll() is None:
            self.process.kill()
        self.process.communicate()

    def connect(self, buffer=None):
        """A connection. If `buffer` is given, it has room for so many unread bytes."""
        it = socket.socket()
        it.settimeout(SECONDS)
        it.setsockopt(socket.IPPROTO_TCP, socket.TCP_NODELAY, 1)
        if buffer:
            it.setsockopt(socket.SOL_SOCKET, socket.SO_RCVBUF, buffer)
        host, _, port = self.address.partition(":")
        it.connect((host, int(port)))
        return it

    def ask(self, *parts, shut=True, pause=0.0):
        """What a connection receives that sends these bytes, and then closes its sending side."""
        with self.connect() as it:
            for part in parts:
                it.sendall(part)
                time.sleep(pause)
            if shut:
                it.shutdown(socket.SHUT_WR)
            return b"".join(iter(lambda: it.recv(1 << 16), b""))

    def end(self):
        """How the program ends, once its last connection was served."""
        out, err = self.process.communicate(timeout=SECONDS)
        return kit.Run(self.process.returncode, self.line + out, err or b"")

    def owed_end(self, failed, err=b""):
        line = f"listening on {self.address}\n".encode()
        return kit.Run(1, line, FAILED.err) if failed else kit.Run(0, line, err)


def curl(*words, given=b""):
    """The result of curl: its status and the body; with -i the head too."""
    return kit.run(["curl", "--silent", "--show-error", "--max-time", str(SECONDS), *words], given)


def boto_client(server):
    return s3.client(f"http://{server.address}", ID, SECRET.decode())
