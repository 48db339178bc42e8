"""The two programs that docs/DEPLOY.md sets up, on ports of their own: `Office`, the `drop serve` of a unit, and `Front`, an
nginx of this user whose site is deploy/nginx.conf.

In the unit and the site only the ports, the paths and the host's name are replaced.
"""

import contextlib
import http.client
import os
import re
import shlex
import shutil
import signal
import socket
import ssl
import subprocess

import kit
import s3
from browser import until
from expected import ID, SECRET
from front import free_port

PAGE = kit.ROOT / "docs" / "DEPLOY.md"
HOST = "files.example"
SECONDS = 30  # timeout of each wait
NGINX = shutil.which("nginx", path=os.environ.get("PATH", "") + ":/usr/sbin")

# Debian's own configuration around a site, without its folders and its user.
AROUND = """
daemon off;
master_process off;
pid {folder}/nginx.pid;
error_log {folder}/main.log;
events {{ worker_connections 768; }}
http {{
    sendfile on;
    tcp_nopush on;
    types_hash_max_size 2048;
    include /etc/nginx/mime.types;
    default_type application/octet-stream;
    access_log {folder}/others.log;
    gzip on;
    client_body_temp_path {folder}/body;
    proxy_temp_path {folder}/proxy;
    fastcgi_temp_path {folder}/fastcgi;
    uwsgi_temp_path {folder}/uwsgi;
    scgi_temp_path {folder}/scgi;
    include {site};
}}
"""


def listens(port):
    with contextlib.suppress(OSError), socket.create_connection(("127.0.0.1", port), timeout=SECONDS):
        return True
    return False


def replaced(text, replacements):
    """The text with these replacements, each of which must occur in it."""
    for old, new in replacements:
        if old not in text:
            raise AssertionError(f"there is no {old!r}")
        text = text.replace(old, new)
    return text


class Office:
    """The `drop serve` of a unit, on another port and with another file; it can be restarted at its address."""

    def __init__(self, unit, folder, paths):
        self.folder, self.port, self.process = folder, free_port(), None
        self.address = f"127.0.0.1:{self.port}"
        line = re.search(r"^ExecStart=(.*)$", unit.read_text(), re.MULTILINE)[1]
        self.words = shlex.split(replaced(line, [*paths, ("127.0.0.1:8333", self.address)]))

    def start(self):
        pipes = {"stdin": subprocess.DEVNULL, "stdout": subprocess.PIPE, "stderr": subprocess.STDOUT}
        self.process = subprocess.Popen(self.words, cwd=self.folder, **pipes)
        line = self.process.stdout.readline().decode()
        return None if line == f"listening on {self.address}\n" else f"it said {line!r}"

    def end(self):
        """Waits until it ends by itself, and returns its status."""
        self.process.communicate(timeout=SECONDS)
        return self.process.returncode

    def stop(self, by=signal.SIGTERM):
        if self.process:
            self.process.send_signal(by)
            self.process.communicate()
        self.process = None

    def __enter__(self):
        return self

    def __exit__(self, *_):
        self.stop()


def paths_of(drop, file):
    """The replacements in the unit: the program's path and the office file's."""
    return [("/usr/bin/drop", str(drop.program)), ("/var/lib/drop/office", str(file))]


def certificate(folder):
    """Makes a certificate for the host, and its key, by the command of docs/DEPLOY.md."""
    line = next(it for it in joined(PAGE.read_text()) if it.startswith("openssl req"))
    ran = kit.run(shlex.split(line.replace(f"/etc/letsencrypt/live/{HOST}", str(folder))))
    if ran.status:
        raise AssertionError(f"no certificate was made: {ran}")


def joined(text):
    """The lines of the text; a line that ends in a backslash continues on the next."""
    return text.replace("\\\n", " ").splitlines()


class Connection(http.client.HTTPConnection):
    """A TLS connection to the front, whatever the host's name is."""

    def __init__(self, front, buffer=None):
        super().__init__(HOST, timeout=SECONDS)
        self.front, self.buffer = front, buffer

    def connect(self):
        self.sock = self.front.connect(self.buffer)


class Front:
    """An nginx of this user, whose site is deploy/nginx.conf."""

    def __init__(self, folder, office_port):
        self.folder, self.office_port = folder, office_port
        self.port, self.clear_port = free_port(), free_port()
        self.host = f"{HOST}:{self.port}"
        self.process, self.links = None, []

    def ports(self):
        """The replacements in the site, except for the host's name and the paths."""
        here = "127.0.0.1"
        return [("listen 443 ssl;", f"listen {here}:{self.port} ssl;"), ("listen 80;", f"listen {here}:{self.clear_port};"),
                ("    listen [::]:443 ssl;\n", ""), ("    listen [::]:80;\n", ""),
                (f"{here}:8333;", f"{here}:{self.office_port};")]

    def configure(self, site, paths, chain):
        """Configures it with this site, in which these paths are replaced; returns the command that runs it."""
        self.chain = chain
        text = replaced(site.read_text(), [*self.ports(), *((old, str(new)) for old, new in paths)])
        own = self.folder / "site.conf"
        own.write_text(text)
        (self.folder / "nginx.conf").write_text(AROUND.format(folder=self.folder, site=own))
        self.context = ssl.create_default_context(cafile=chain)
        self.words = [NGINX, "-p", self.folder, "-e", self.folder / "main.log", "-c", self.folder / "nginx.conf"]
        return self.words

    def start(self):
        self.process = subprocess.Popen(self.words, stdin=subprocess.DEVNULL)
        until("nginx", lambda: listens(self.port))

    def restart(self):
        """Restarts nginx, which then reads the site anew."""
        self.stop()
        self.start()

    def stop(self):
        if self.process:
            self.process.terminate()
            self.process.wait()

    def __enter__(self):
        return self

    def __exit__(self, *_):
        self.stop()

    def connect(self, buffer=None):
        plain = socket.socket()
        plain.settimeout(SECONDS)
        if buffer:
            plain.setsockopt(socket.SOL_SOCKET, socket.SO_RCVBUF, buffer)
        plain.connect(("127.0.0.1", self.port))
        return self.context.wrap_socket(plain, server_hostname=HOST)

    def begin(self, method, target, body=None, fields=(), buffer=None):
        """Sends this request, and returns its connection."""
        self.links.append(target)
        it = Connection(self, buffer)
        it.request(method, target, body, {"Host": self.host, **dict(fields)}, encode_chunked=True)
        return it

    def ask(self, method, target, body=None, fields=()):
        """The status, the body and the header fields of the answer to this request."""
        with contextlib.closing(self.begin(method, target, body, fields)) as it:
            answer = it.getresponse()
            return answer.status, answer.read(), answer.headers

    def said(self, method, target, body=None, fields=()):
        return self.ask(method, target, body, fields)[:2]

    def raw(self, text):
        """The status and the body of the answer to these bytes."""
        with self.connect() as it:
            it.sendall(text)
            return next_answer(it)

    def curl(self, *words):
        how = ["--silent", "--show-error", "--path-as-is", "--max-time", str(SECONDS), "--cacert", self.chain]
        return kit.run(["curl", *how, "--connect-to", f"{self.host}:127.0.0.1:{self.port}", *words])

    # -- links

    def link(self, method, name, box="in", key=ID, secret=SECRET.decode()):
        """The target of a link that boto3 makes for https."""
        call = {"PUT": "put_object", "GET": "get_object", "HEAD": "head_object"}[method]
        where = {"Bucket": box, "Key": name}
        client = s3.client(f"https://{self.host}", key, secret)
        url = client.generate_presigned_url(call, Params=where, ExpiresIn=600, HttpMethod=method)
        return url.removeprefix(f"https://{self.host}")


def next_answer(it):
    """The status and the body of the next answer on this connection."""
    answer = http.client.HTTPResponse(it)
    answer.begin()
    return answer.status, answer.read()
