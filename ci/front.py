"""An office behind a small web server: `drop serve`, which can be killed and restarted, and `Front`, which serves page/,
passes on everything else unchanged, and can be told to lose or to change what it passes on.
"""

import contextlib
import socket
import struct
import subprocess
import threading
import urllib.error
import urllib.request

import kit

PAGE = kit.ROOT / "page"
KINDS = {".html": "text/html; charset=utf-8", ".js": "text/javascript; charset=utf-8", ".css": "text/css",
         ".svg": "image/svg+xml"}
SECONDS = 30
BREAK = struct.pack("ii", 1, 0)  # SO_LINGER: closing the socket resets the connection


def free_port():
    """A port on which nobody listens."""
    with socket.create_server(("127.0.0.1", 0)) as server:
        return server.getsockname()[1]


def asked(url, method, data=None):
    """The status, the header fields and the body that Python's own client receives."""
    request = urllib.request.Request(url, data=data, method=method)
    try:
        with urllib.request.urlopen(request, timeout=SECONDS) as it:
            return it.status, dict(it.headers), it.read()
    except urllib.error.HTTPError as error:
        return error.code, dict(error.headers), error.read()


class Office:
    """A `drop serve` that can be killed and restarted at its port. If a file is given for it, the manifest is kept there."""

    def __init__(self, drop, file, manifest=None):
        self.drop, self.file, self.port, self.process = drop, file, free_port(), None
        self.published = ["--manifest", manifest] if manifest else []

    def start(self):
        words = [self.drop.program, "serve", self.file, "--listen", f"127.0.0.1:{self.port}", "--connections", "100000"]
        self.process = subprocess.Popen([*words, "--patience", "5", *self.published], stdin=subprocess.DEVNULL, stdout=subprocess.PIPE)
        line = self.process.stdout.readline()
        assert line == f"listening on 127.0.0.1:{self.port}\n".encode(), line

    def kill(self):
        if self.process:
            self.process.kill()
            self.process.communicate()
            self.process = None


class Front:
    """Serves page/, and passes each other request to the office on a connection of its own, byte for byte.

    `mode` says what happens to such a request. `through`: nothing. `lost`: it is not passed on, and the connection is reset.
    `swallowed`: the answer is not sent. `held`: half of the body is read, and the rest once `gate` is set. `other body` and
    `other answer`: the last byte is changed. If `mode` is bytes, they are the answer.
    """

    def __init__(self, office):
        self.office, self.mode, self.gate = office, "through", threading.Event()
        self.passed, self.hosts = [], set()
        self.server = socket.create_server(("127.0.0.1", 0), backlog=64)
        self.server.setsockopt(socket.SOL_SOCKET, socket.SO_RCVBUF, 4096)
        self.port = self.server.getsockname()[1]
        self.host = f"127.0.0.1:{self.port}"
        threading.Thread(target=self.accept, daemon=True).start()

    def accept(self):
        with contextlib.suppress(OSError):
            while True:
                threading.Thread(target=self.serve, args=[self.server.accept()[0]], daemon=True).start()

    def serve(self, peer):
        with contextlib.suppress(OSError), peer, peer.makefile("rb") as stream:
            while head := self.head(stream):
                method, target, _ = head.split(b"\r\n")[0].decode().split(" ")
                fields = dict(line.lower().split(b": ", 1) for line in head.split(b"\r\n")[1:-1])
                self.hosts.add(fields[b"host"].decode())
                length = int(fields.get(b"content-length", b"0"))
                file = PAGE / target.partition("?")[0].removeprefix("/")
                if file.parent == PAGE and file.is_file():
                    peer.sendall(self.static(file))
                    continue
                self.passed.append((method, target))
                mode, body = self.mode, b""
                if mode == "held":
                    body = stream.read(length // 2)
                    self.gate.wait(SECONDS)
                body += stream.read(length - len(body))
                answer = b"" if mode == "lost" else mode if isinstance(mode, bytes) else self.ask(head, body, mode)
                if mode in ("lost", "swallowed"):
                    peer.setsockopt(socket.SOL_SOCKET, socket.SO_LINGER, BREAK)
                    stream.close()
                    peer.close()
                    return
                peer.sendall(answer)

    @staticmethod
    def head(stream):
        """The lines of the next head, without the empty one at its end; empty if the peer has gone."""
        lines = []
        while (line := stream.readline()) != b"\r\n":
            if not line:
                return b""
            lines.append(line)
        return b"".join(lines)

    @staticmethod
    def static(file):
        data = file.read_bytes()
        lines = ["HTTP/1.1 200 OK", f"Content-Type: {KINDS[file.suffix]}", f"Content-Length: {len(data)}", "", ""]
        return "\r\n".join(lines).encode() + data

    def ask(self, head, body, mode):
        if mode == "other body":
            body = body[:-1] + bytes([body[-1] ^ 1])
        try:
            with socket.create_connection(("127.0.0.1", self.office.port), timeout=SECONDS) as it:
                it.sendall(head + b"\r\n" + body)
                it.shutdown(socket.SHUT_WR)
                answer = b"".join(iter(lambda: it.recv(1 << 16), b""))
        except ConnectionError:
            answer = b""
        if not answer:
            return b"HTTP/1.1 502 Bad Gateway\r\nContent-Type: text/html\r\nContent-Length: 13\r\n\r\n<h1>502</h1>\n"
        return answer[:-1] + bytes([answer[-1] ^ 1]) if mode == "other answer" else answer
