"""An S3 server from Debian's packages as a peer: OpenStack Swift with its middleware `s3api`, on loopback, with one copy of each
file on one disk. More in README.md in this folder."""

import contextlib
import getpass
import http.client
import shutil
import subprocess
import time

from expected import python_link
from servers import BOX, HOST, first_files, free_port, free_ports, wait_for

KEY, SECRET, REGION = "bench:drop", b"a-secret-of-the-bench", "us-east-1"
STORES = ["account", "container", "object"]
INNER = "127.0.0.2"  # where the stores and memcached listen, so that their ports cannot clash with the proxy's
PROGRAMS = [*(f"swift-{it}-server" for it in ["proxy", *STORES]), "swift-ring-builder", "memcached"]
COMMON = """[DEFAULT]
bind_ip = {host}
bind_port = {port}
workers = 1
user = {user}
swift_dir = {folder}
log_level = CRITICAL
"""
STORE = COMMON + """devices = {folder}/nodes
mount_check = false
[pipeline:main]
pipeline = {kind}-server
[app:{kind}-server]
use = egg:swift#{kind}
"""
PROXY = COMMON + """[pipeline:main]
pipeline = catch_errors gatekeeper cache s3api tempauth proxy-server
[app:proxy-server]
use = egg:swift#proxy
account_autocreate = true
[filter:catch_errors]
use = egg:swift#catch_errors
[filter:gatekeeper]
use = egg:swift#gatekeeper
[filter:cache]
use = egg:swift#memcache
memcache_servers = {cache}
[filter:s3api]
use = egg:swift#s3api
location = {region}
allow_multipart_uploads = false
[filter:tempauth]
use = egg:swift#tempauth
user_bench_drop = {secret} .admin
"""


class Swift:
    """Swift's proxy, its three stores and memcached, each in one process."""

    name = "Swift"

    def __init__(self, folder):
        self.folder = folder / "swift"
        self.ports = dict(zip(["cache", *STORES], free_ports(INNER, 1 + len(STORES))))
        (self.folder / "nodes" / "disk").mkdir(parents=True)
        for kind in STORES:
            self.make_ring(kind)
            self.write_settings(f"{kind}-server", STORE, INNER, self.ports[kind], kind=kind)
        self.fill()

    @staticmethod
    def is_there():
        return all(map(shutil.which, PROGRAMS))

    def make_ring(self, kind):
        words = ["swift-ring-builder", self.folder / f"{kind}.builder"]
        device = f"r1z1-{INNER}:{self.ports[kind]}/disk"
        for step in [["create", "4", "1", "1"], ["add", device, "1"], ["rebalance"]]:
            subprocess.run([*words, *step], check=True, stdout=subprocess.DEVNULL)

    def write_settings(self, name, text, host, port, **values):
        values |= {"host": host, "port": port, "folder": self.folder, "user": getpass.getuser()}
        (self.folder / f"{name}.conf").write_text(text.format(**values))

    def link(self, method, target, port):
        """The request target of a presigned link."""
        start = time.strftime("%Y%m%dT%H%M%SZ", time.gmtime(time.time() - 60))
        host = f"{HOST}:{port}"
        words = {"key": KEY, "secret": SECRET, "host": host, "region": REGION, "start": start, "expires": "86400"}
        return python_link(method, target, **words).decode().strip().removeprefix(f"http://{host}")

    def targets(self, row, names, port):
        for name in names:
            yield self.link(row.method, f"{BOX}/{name}", port)

    def ask(self, port, method, wanted):
        """Requests each of these targets with its body; each answer must have status 200."""
        with contextlib.closing(http.client.HTTPConnection(HOST, port)) as connection:
            for target, body in wanted:
                connection.request(method, self.link(method, target, port), body)
                answer = connection.getresponse()
                text = answer.read()
                if answer.status != 200:
                    raise SystemExit(f"Swift answered {answer.status} to {method} of {target}: {text}")

    def fill(self):
        """Creates a bucket and the initial files."""
        port = free_port()
        with self.started(port):
            self.ask(port, "PUT", [(BOX, b""), *((f"{BOX}/{name}", body) for name, body in first_files())])

    @contextlib.contextmanager
    def running(self, port):
        """Runs Swift, which has answered one request, so that its first connections exist."""
        with self.started(port) as pid:
            name, _ = next(first_files())
            self.ask(port, "GET", [(f"{BOX}/{name}", None)])
            yield pid

    @contextlib.contextmanager
    def started(self, port):
        cache = f"{INNER}:{self.ports['cache']}"
        self.write_settings("proxy-server", PROXY, HOST, port, cache=cache, region=REGION, secret=SECRET.decode())
        words = [["memcached", "-l", INNER, "-p", str(self.ports["cache"]), "-u", getpass.getuser()]]
        words += [[f"swift-{kind}-server", self.folder / f"{kind}-server.conf"] for kind in [*STORES, "proxy"]]
        with contextlib.ExitStack() as stack:
            for it in words:
                process = stack.enter_context(subprocess.Popen(it, stdout=subprocess.DEVNULL, stderr=subprocess.DEVNULL))
                stack.callback(process.terminate)
            for inner in self.ports.values():
                wait_for(inner, INNER)
            wait_for(port)
            yield process.pid
