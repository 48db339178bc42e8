"""Runs Debian's nginx, as deploy/nginx.conf sets it up, in front of the proved `drop serve`, as deploy/drop.service starts
it, and drives both over TLS. Then it follows docs/DEPLOY.md line by line, in a folder that stands in for the machine.

ci/nginx.py runs both. Expected values come from Python's `hashlib`, the table of refusals in docs/RULES.md, and links made by
boto3.
"""

import contextlib
import http.client
import os
import pathlib
import re
import signal
import socket
import ssl
import stat
import threading
import time

import kit
import tables
from browser import Browser, until
from clerking import begin, saved, send
from expected import ID, LIMIT, receipt, refusal
from front import asked
from nginx import HOST, PAGE, SECONDS, Front, Office, certificate, next_answer, paths_of, replaced
from program import CANNOT_OPEN, difference
from server import boto_client, open_office
from shown import Case, lacks, of, receipt_facts
from standins import INSTALL, RUNUSER, moved, put

DEPLOY = kit.ROOT / "deploy"
UNIT = DEPLOY / "drop.service"
# The files served besides the office, with their content types.
PAGES = {**{f"{it}.html": "text/html; charset=utf-8" for it in ["put", "get", "clerk"]},
         **{f"{it}.js": "application/javascript; charset=utf-8"
            for it in ["drop", "shared", "texts", "clerk", "clerk_texts", "desk", "sign"]},
         "drop.css": "text/css", "drop.svg": "image/svg+xml"}
# The header fields of each answer of the front.
FIELDS = {"Cache-Control": "no-store", "Referrer-Policy": "no-referrer", "X-Content-Type-Options": "nosniff",
          "X-Frame-Options": "DENY"}
MOST_EXPOSED = 12  # in tenths of systemd-analyze's score
AWAY = (502, b"the office does not answer: try again\n")
IN_THE_CLEAR = (403, b"https: alone is served here, and a link is the same behind it\n")


def owed_receipt(number, data):
    return 200, receipt(number, data).partition(b"\r\n\r\n")[2]


def owed_refusal(number):
    status, body = refusal(number)
    return status, body.encode()


def target_of(drop, front, office_file, method, name):
    """The target of a link that `drop link` writes, for http."""
    start = time.strftime("%Y%m%dT%H%M%SZ", time.gmtime(time.time() - 60))
    ran = drop.link(office_file, method, name, host=front.host, start=start, expires="600")
    url = ran.out.decode().strip()
    if not url.startswith(f"http://{front.host}/"):
        raise AssertionError(f"no link: {ran}")
    return url.removeprefix(f"http://{front.host}")


# ---- what passes through the front


NAMES = ["a.txt", "a b/é.txt", "a%2Fb", "a/b//c", "//", "..", "../a", "a/../b", "./.", "x+y=z&?#%.bin", "%252F",
         "q" * 1024]


def add_names(front, check):
    """Links of boto3: the target and the Host arrive as they were signed."""
    for number, name in enumerate(NAMES, 1):
        data = name.encode() * number
        found = front.said("PUT", front.link("PUT", name), data)
        check(f"PUT {name[:20]}", difference(found, owed_receipt(number, data)))
        _, body = owed_receipt(number, data)
        digest = body.split()[3].decode()
        for method in ["GET", "HEAD"]:
            status, body, fields = front.ask(method, front.link(method, name))
            found = status, fields["X-Drop-Receipt"], fields["X-Drop-Sha256"], fields["Content-Length"], body
            owed = 200, str(number), digest, str(len(data)), data if method == "GET" else b""
            check(f"{method} {name[:20]}", difference(found, owed))
    target = front.link("GET", "a.txt")
    check("another signature", difference(front.said("GET", target[:-1] + "01"[target[-1] == "0"]), owed_refusal(21)))
    check("another name", difference(front.said("GET", target.replace("/a.txt", "/b.txt")), owed_refusal(21)))
    found = front.said("GET", target, fields={"Host": HOST}.items())
    check("another Host", difference(found, owed_refusal(21)))
    check("no file", difference(front.said("GET", front.link("GET", "none")), owed_refusal(34)))
    check("no file, HEAD", difference(front.said("HEAD", front.link("HEAD", "none")), (404, b"")))
    check("no box", difference(front.said("GET", front.link("GET", "a", box="none")), owed_refusal(27)))
    check("no length", difference(front.raw(head_of(front, "PUT", front.link("PUT", "new"))), owed_refusal(25)))
    check("not signed", difference(front.said("GET", "/"), owed_refusal(9)))
    for name in ["x-amz-a", "x-amz-a_b", "x-amz-a!"]:
        check(f"a field {name}", difference(front.said("GET", target, fields=[(name, "1")]), owed_refusal(18)))
    check("another method", difference(front.said("DELETE", target), owed_refusal(7)))
    for asked_for in [target, "/"]:
        _, _, fields = front.ask("GET", asked_for)
        check(f"fields with {asked_for[:9]}", difference({it: fields[it] for it in FIELDS}, FIELDS))


def head_of(front, method, target, *lines):
    front.links.append(target)
    return "\r\n".join([f"{method} {target} HTTP/1.1", f"Host: {front.host}", *lines, "", ""]).encode()


def add_climbing(front, check):
    """As docs/DEPLOY.md says, names that climb out of their box don't reach the office."""
    for name in ["../../a", "a/../../../b"]:
        status, _ = front.said("GET", front.link("GET", name))
        check(f"GET {name}", difference(status, 400))


def add_bodies(front, check):
    """Bodies up to the greatest size, however they are sent."""
    data = bytes(range(256)) * 4096
    pieces = [data[at:at + 30000] for at in range(0, len(data), 30000)]
    status, body = front.said("PUT", front.link("PUT", "chunks"), iter(pieces), [("Transfer-Encoding", "chunked")])
    number = int(body.split()[1]) if status == 200 else 0
    check("in chunks", difference((status, body), owed_receipt(number, data)))
    found = front.said("PUT", front.link("PUT", "no-chunk"), iter([]), [("Transfer-Encoding", "chunked")])
    check("no chunk", difference(found, owed_receipt(number + 1, b"")))
    for letter, size, expects in [("e", LIMIT, True), ("f", LIMIT, False), ("g", LIMIT + 1, True),
                                  ("h", LIMIT + 1, False), ("i", 3 * LIMIT, False)]:
        file = front.folder / f"{letter}.bin"
        file.write_bytes(letter.encode() * size)
        target = front.link("PUT", file.name)
        front.links.append(target)
        field = "Expect: 100-continue" if expects else "Expect:"
        ran = front.curl("-i", "-T", file, "-H", field, f"https://{front.host}{target}")
        goes_on, _, rest = ran.out.rpartition(b"HTTP/1.1 ")
        found = ran.status, int(rest[:3]), rest.partition(b"\r\n\r\n")[2]
        if size > LIMIT:
            owed = 0, *owed_refusal(5)
        else:
            number += 2 if expects else 1
            owed = 0, *owed_receipt(number, file.read_bytes())
        check(f"{size} bytes, Expect {expects}", difference(found, owed))
        if expects:
            said = "HTTP/1.1 100 Continue" in goes_on.decode()
            check(f"{size} bytes: 100 is said", difference(said, size == LIMIT))
    found = front.raw(head_of(front, "PUT", front.link("PUT", "much"), "Transfer-Encoding: chunked")
                      + b"800001\r\n" + bytes(LIMIT + 1) + b"\r\n0\r\n\r\n")
    check("too much in chunks", difference(found, owed_refusal(5)))


def add_heads(front, check):
    """Heads that are too long for nginx or for the office get the same refusal."""
    target = front.link("GET", "a.txt")
    for name, head in [
        ("a line of 9000 bytes", head_of(front, "GET", target + "&long=" + "a" * 9000)),
        ("a field of 9000 bytes", head_of(front, "GET", target, "Long: " + "a" * 9000)),
        ("two fields of 4500 bytes", head_of(front, "GET", target, *["Long: " + "a" * 4500] * 2)),
        ("ten fields of 4500 bytes", head_of(front, "GET", target, *["Long: " + "a" * 4500] * 10)),
    ]:
        check(name, difference(front.raw(head), owed_refusal(2)))
    found = front.raw(head_of(front, "GET", target, "Long: " + "a" * 7000))
    check("a field of 7000 bytes", difference(found[0], 200))
    found = front.raw(head_of(front, "GET", target, *["A: b"] * 70))
    check("seventy fields", difference(found, owed_refusal(1)))


# ---- slow peers


def others_are_answered(front, name, check, between=range(3)):
    """Checks that other peers are answered while the slow ones are connected."""
    target = front.link("GET", "a.txt")
    found = [front.said("GET", target) for _ in between]
    check(f"{name}: others are answered", difference(found, [(200, b"a.txt")] * len(found)))


def is_let_go(it):
    """Whether this silent peer received something, or its connection has ended."""
    it.setblocking(False)
    try:
        it.recv(1)
    except (BlockingIOError, ssl.SSLWantReadError):
        return False
    return True


def a_byte_a_second(it, data):
    """Sends the data at a byte per second, and yields before each byte so that the caller can act."""
    for at in range(len(data)):
        yield
        time.sleep(1)
        it.sendall(data[at:at + 1])


def add_slow(front, check):
    """Slow peers, each in parallel with one that is not slow."""
    data = b"slow"
    with front.connect() as it:
        head = head_of(front, "PUT", front.link("PUT", "slow"), f"Content-Length: {len(data)}", "Connection: close")
        it.sendall(head)
        others_are_answered(front, "a byte a second", check, a_byte_a_second(it, data))
        status, body = next_answer(it)
        number = int(body.split()[1]) if status == 200 else 0
        check("the slow one", difference((status, body), owed_receipt(number, data)))
    with contextlib.ExitStack() as stack:
        silent = [stack.enter_context(front.connect()) for _ in range(8)]
        silent += [stack.enter_context(socket.create_connection(("127.0.0.1", front.port), SECONDS)) for _ in range(8)]
        silent[0].sendall(head[:-2])
        others_are_answered(front, "silent peers", check)
        check("silent peers are still there", difference([is_let_go(it) for it in silent], [False] * 16))
    with contextlib.ExitStack() as stack:
        slow = [stack.enter_context(contextlib.closing(front.begin("GET", front.link("GET", "e.bin"), buffer=4096)))
                for _ in range(4)]
        answers = [it.getresponse() for it in slow]
        others_are_answered(front, "peers that take nothing", check)
        whole = [it.read() == b"e" * LIMIT for it in answers]
        check("peers that take all at last", None if all(whole) else f"{whole}")


# ---- pages, and what is not served


def add_pages(front, check):
    """The pages and their parts are served at their own paths only; in the clear, only certificate challenges are."""
    folder = front.folder / "drop"
    folder.mkdir()
    for file in [*sorted((kit.ROOT / "page").iterdir()), None]:
        name = file.name if file else "other.html"
        (folder / name).write_bytes(file.read_bytes() if file else b"other")
    for name in PAGES:
        status, body, fields = front.ask("GET", f"/{name}")
        found = status, body, fields["Content-Type"]
        check(name, difference(found, (200, (folder / name).read_bytes(), PAGES[name])))
        check(f"{name}, fields", difference({it: fields[it] for it in FIELDS}, FIELDS))
    check("all of the page is served", difference(sorted(PAGES), sorted(it.name for it in (kit.ROOT / "page").iterdir())))
    others = ["/other.html", "/", "/put.html/", "/put.html/a", "//put.html", "/drop/put.html", "/html/put.html",
              "/.well-known/acme-challenge/a"]
    for path in others:
        check(f"the office answers {path}", difference(front.said("GET", path), owed_refusal(9)))
    found = front.said("GET", front.link("GET", "../put.html"))
    check("a name that comes out at a page", difference(found, (200, (folder / "put.html").read_bytes())))
    check("what is nginx's own", difference(front.said("GET", "/.head")[0], 404))
    challenge = front.folder / "html" / ".well-known" / "acme-challenge"
    challenge.mkdir(parents=True)
    (challenge / "abc").write_bytes(b"abc")

    def in_the_clear(path):
        with contextlib.closing(http.client.HTTPConnection("127.0.0.1", front.clear_port, timeout=SECONDS)) as it:
            it.request("GET", path, headers={"Host": HOST})
            answer = it.getresponse()
            return answer.status, answer.read()

    check("a challenge in the clear", difference(in_the_clear("/.well-known/acme-challenge/abc"), (200, b"abc")))
    target = front.link("GET", "a.txt")
    check("a link in the clear", difference(in_the_clear(target), IN_THE_CLEAR))
    check("a page in the clear", difference(in_the_clear("/put.html"), IN_THE_CLEAR))


def add_browser(drop, front, office, check):
    """A stranger sends a file by put.html and fetches it by get.html, in chromium over TLS."""
    data, folder = bytes(range(256)) * 300, drop.path("browser")
    folder.mkdir()
    targets = {method: front.link(method, "dir/a stranger's file") for method in ["PUT", "GET"]}
    front.links += targets.values()
    with Browser(folder, "https") as browser:
        case = Case(drop, office, front, browser, {}, None)
        found = case.put(f"https://{front.host}{targets['PUT']}", "mine.bin", data)
        owed = receipt_facts(found["facts"].get("number"), data)
        check("put.html", difference((found["kind"], of(found, owed)), ("receipt", owed)))
        check("put.html, digests", lacks(found["checked"], "Checked: length and SHA-256"))
        by_hand = front.said("PUT", targets["PUT"], data)
        check("the same receipt by hand", difference(by_hand, owed_receipt(owed["number"], data)))
        found = case.fetch(f"https://{front.host}{targets['GET']}")
        check("get.html", difference((found["kind"], of(found, owed)), ("fetched", owed)))
        check("get.html, digests", lacks(found["checked"], "Checked: length and SHA-256"))
        case.click("#save")
        check("what is saved", difference(browser.downloaded(set()).read_bytes(), data))
        begin(case)
        found = send(case, "drop_file", box="in", name="dir/a stranger's file")
        check("clerk.html, a command", difference(found["kind"], "done"))
        check("clerk.html, it was done", difference(front.said("GET", targets["GET"]), owed_refusal(34)))
        send(case, "links", box="in", names="a.txt", get=True)
        address = saved(case)[0][0]["page"]
        page, _, link = address.partition("#")
        where = page, link.partition("?")[0]
        check("clerk.html, an address", difference(where, (f"https://{front.host}/get.html", f"http://{front.host}/in/a.txt")))
        check("clerk.html, its link", difference(case.fetch(link)["kind"], "fetched"))


def add_network(front, post, check):
    """The page's lines restrict the clerk's page and the desk commands to a network; all else is served as before."""
    lines = re.search(r"drop-clerk\.conf <<'END'\n(.*?)^END$", PAGE.read_text(), re.MULTILINE | re.DOTALL)[1]
    target, snippet = front.link("GET", "a.txt"), front.folder / "drop-clerk.conf"

    def found():
        front.restart()
        asks = [("GET", "/clerk.html"), ("HEAD", "/clerk.html"), ("POST", post), ("GET", target), ("GET", "/put.html")]
        return [front.said(method, path)[0] for method, path in asks]

    snippet.write_text(replaced(lines, [("allow 127.0.0.1;", "allow 192.0.2.1;")]))
    check("from elsewhere", difference(found(), [403, 403, 403, 200, 200]))
    check("from elsewhere, an upload", difference(front.said("PUT", front.link("PUT", "network"), b"network")[0], 200))
    snippet.write_text(lines)
    check("from the own network", difference(found(), [200] * 5))
    snippet.unlink()
    check("from anywhere", difference(found(), [200, 200, 400, 200, 200]))


# ---- an office that is down


def add_away(front, office, check):
    """The office is killed while nginx goes on."""
    put, get = front.link("PUT", "away"), front.link("GET", "away")
    status, body = front.said("PUT", put, b"before")
    number = int(body.split()[1]) if status == 200 else 0
    check("before", difference((status, body), owed_receipt(number, b"before")))
    office.stop(signal.SIGKILL)
    check("GET while it is away", difference(front.said("GET", get), AWAY))
    late = front.link("PUT", "late")
    check("PUT while it is away", difference(front.said("PUT", late, b"late"), AWAY))
    check("it starts again", office.start())
    check("GET behind it", difference(front.said("GET", get), (200, b"before")))
    check("the same PUT", difference(front.said("PUT", put, b"before"), owed_receipt(number, b"before")))
    check("the late PUT", difference(front.said("PUT", late, b"late"), owed_receipt(number + 1, b"late")))


# ---- the log


ROW = re.compile(r'127\.0\.0\.1 \S+T\S+ (\S+) ([A-Z]+|-) "([^"]*)" (\d{3}) \d+ \d+ [0-9.]+ (\S+)')


def add_log(front, check, secret):
    """The log has who requested what and with which status, and nowhere what makes a link valid."""
    log = front.folder / "drop.log"
    owed = [(ID, "PUT", "/in/a.txt", "200", "200"), (ID, "GET", "/in/a.txt", "200", "200"),
            (ID, "GET", "/in/away", "502", "502"), (ID, "HEAD", "/in/none", "404", "404"), (ID, "POST", "/", "200", "200"),
            ("-", "GET", "/put.html", "200", "-"), ("-", "GET", "/", "403", "403"), (ID, "PUT", "/in/g.bin", "400", "-")]
    front.said("GET", "/last")
    until("last line of the log", lambda: '"/last"' in log.read_text())
    lines = log.read_text().splitlines()
    rows = [ROW.fullmatch(line) for line in lines]
    odd = [line for line, row in zip(lines, rows) if not row]
    check("each line has its form", f"{odd[:3]}" if odd else None)
    found = {row.groups() for row in rows if row}
    for row in owed:
        check(f"the log tells {row}", None if row in found else "it is not there")
    check("the log tells each request", None if len(lines) >= len(front.links) else f"{len(lines)} lines")
    signatures = {it for link in front.links for it in re.findall(r"X-Amz-Signature=(\w{8})", link)}
    kept = {it: it.read_bytes() for it in front.folder.glob("*.log")}
    hidden = [b"X-Amz-", secret, *(it.encode() for it in signatures)]
    told = [it.name for it, data in kept.items() if any(word in data for word in hidden)]
    check("signatures are looked for", None if len(signatures) >= 40 else f"{len(signatures)}")
    check("the logs hold no signature", f"{told}" if told else None)
    others = [it.name for it, data in kept.items() if data and it != log]
    check("no other log was written", f"{others}" if others else None)


def test_front(drop, check):
    """An office behind nginx, from its start to its end."""
    file = open_office(drop, "office")
    certificate(drop.folder)
    with Office(UNIT, drop.folder, paths_of(drop, file)) as office, Front(drop.folder, office.port) as front:
        folders = ["/etc/letsencrypt/live/HOST", "/etc/nginx/snippets", "/var/log/nginx", "/var/www"]
        places = [("/usr/share/drop/page", drop.folder / "drop"), *((it, drop.folder) for it in folders), ("HOST", HOST)]
        words = front.configure(DEPLOY / "nginx.conf", places, drop.folder / "fullchain.pem")
        ran = kit.run([*words, "-t"])
        check("nginx takes the file", None if ran.status == 0 and b"warn" not in ran.err else f"{ran}")
        plain = {method: target_of(drop, front, file, method, "out.1-2/p q%") for method in ["PUT", "GET"]}
        secret = b"s3cr3t-of-a-key"
        post, late = [target_of(drop, front, file, "POST", f"key add {it} link {secret.decode()}") for it in ["k9", "k8"]]
        check("the office starts", office.start())
        front.start()
        add_names(front, check)
        add_climbing(front, check)
        number = len(NAMES) + 1
        check("a link for http", difference(front.said("PUT", plain["PUT"], b"plain"), owed_receipt(number, b"plain")))
        check("a link for http, GET", difference(front.said("GET", plain["GET"]), (200, b"plain")))
        check("a command", difference(front.said("POST", post), (200, b"done\n")))
        add_bodies(front, check)
        add_heads(front, check)
        add_slow(front, check)
        add_pages(front, check)
        add_browser(drop, front, office, check)
        add_network(front, late, check)
        add_away(front, office, check)
        add_log(front, check, secret)
    check("integrity", difference(tables.rows(file, "PRAGMA integrity_check"), [("ok",)]))


# ---- the unit


def test_unit(drop, check):
    """systemd finds no fault in the unit, and few rights."""
    unit = drop.path("drop.service")
    text = UNIT.read_text()
    unit.write_text(replaced(text, [("=/usr/bin/drop serve", f"={drop.program} serve")]))
    for line in ["StartLimitIntervalSec=0", "Restart=always", "RestartSec=1", "MemoryMax=80%", "OOMPolicy=stop"]:
        check(line, None if line in text.splitlines() else "the unit does not say it")
    ran = kit.run(["systemd-analyze", "verify", unit])
    faults = [line for line in ran.err.decode().splitlines() if unit.name in line]
    check("the unit's words", f"{faults or ran}" if ran.status or faults else None)
    ran = kit.run(["systemd-analyze", "security", "--offline=yes", "--no-pager", f"--threshold={MOST_EXPOSED}", unit])
    check("the unit's rights", None if ran.status == 0 else ran.out.decode().splitlines()[-1])


def test_restart(drop, check):
    """The unit's program ends with 0 after its last connection. It can be restarted then, and after a kill while it serves."""
    paths = [*paths_of(drop, open_office(drop, "office")), ("--connections 1000000", "--connections 2")]
    with Office(UNIT, drop.folder, paths) as office:
        def serves(name, method, file, data, owed):
            status, _, body = asked(link_past(office, method, file), method, data)
            check(f"{name}: {method} {file}", difference((status, body), owed))

        for start in ["the first start", "the second start"]:
            check(start, office.start())
            serves(start, "PUT", "a.txt", b"kept", owed_receipt(1, b"kept"))
            serves(start, "GET", "a.txt", None, (200, b"kept"))
            check(f"the end behind {start}", difference(office.end(), 0))
        check("the third start", office.start())
        check("a refusal", ended_by(office))
        check("it is killed as it serves", killed_within(office))
        start = "the start behind a kill"
        check(start, office.start())
        serves(start, "GET", "a.txt", None, (200, b"kept"))
        serves(start, "PUT", "b.txt", b"whole", owed_receipt(2, b"whole"))
        check(f"the end behind {start}", difference(office.end(), 0))


def link_past(office, method, file):
    """A link that boto3 makes for the office itself, without nginx."""
    call = {"PUT": "put_object", "GET": "get_object"}[method]
    return boto_client(office).generate_presigned_url(call, Params={"Bucket": "in", "Key": file})


def ended_by(office):
    """A connection that the office ends first: the system then keeps its port in use for a while."""
    with socket.create_connection(("127.0.0.1", office.port), SECONDS) as it:
        it.sendall(b"\r\n\r\n")
        found = *next_answer(it), it.recv(1)
    return difference(found, (*owed_refusal(1), b""))


def killed_within(office):
    """Kills the office during an upload, on a connection on which it has already answered."""
    links = link_past(office, "GET", "a.txt"), link_past(office, "PUT", "b.txt")
    get, put = (it.removeprefix(f"http://{office.address}") for it in links)
    with contextlib.closing(http.client.HTTPConnection(office.address, timeout=SECONDS)) as it:
        it.request("GET", get)
        found = it.getresponse().read()
        it.putrequest("PUT", put)
        it.putheader("Content-Length", "5")
        it.endheaders(b"who")
        office.stop(signal.SIGKILL)
    return difference(found, b"kept")


# ---- docs/DEPLOY.md, line by line


STAND_IN = """#!/bin/sh
echo "${0##*/} $*" >"$MACHINE/asked"
read -r status <"$MACHINE/told"
exit "$status"
"""
ASKED = ["apt-get", "certbot", "chown", "systemctl", "nginx", "between"]


class Machine:
    """A folder that stands in for a machine: this test does what the page asks of systemd and nginx."""

    def __init__(self, drop, check):
        self.drop, self.check, self.root = drop, check, drop.folder
        self.stack, self.office, self.front = contextlib.ExitStack(), None, None
        for name in ["bin", "tmp", "copy", "root", "etc/nginx/sites-available",
                     "etc/nginx/sites-enabled", "etc/nginx/snippets", "var/log/nginx", "var/www/html", "var/lib", "var/backups"]:
            (self.root / name).mkdir(parents=True)
        (self.root / "etc/nginx/sites-enabled/default").touch()
        for name in ["crates", "deploy", "docs", "page"]:
            (self.root / "copy" / name).symlink_to(kit.ROOT / name)
        for name, text in [*((it, STAND_IN) for it in ASKED), ("runuser", RUNUSER), ("install", INSTALL)]:
            put(self.root / "bin", name, text)
        for name in ["asked", "told"]:
            os.mkfifo(self.root / name)

    def here(self, text):
        return moved(self.root, text)

    def path(self, name):
        return pathlib.Path(self.here(name))

    def run(self, script):
        """Runs the script, and carries out what it requests."""
        attendant = threading.Thread(target=self.attend, daemon=True)
        attendant.start()
        where = f"{self.root}/bin:{self.root}/usr/bin:{os.environ['PATH']}"
        own = {"PATH": where, "MACHINE": str(self.root), "TMPDIR": str(self.root / "tmp"), "CURL_HOME": str(self.root),
               "SOURCE_DATE_EPOCH": "0"}
        (self.root / "script").write_text(script)
        ran = kit.run(["sh", "-eu", self.root / "script"], cwd=self.root / "copy", env=os.environ | own)
        (self.root / "asked").write_text("end")
        attendant.join()
        return ran

    def attend(self):
        while (words := (self.root / "asked").read_text().strip()) != "end":
            try:
                fault = self.do(words)
            except Exception as error:
                fault = repr(error)
            if not words.startswith("between"):
                self.check(words[:60], fault)
            (self.root / "told").write_text(f"{int(bool(fault))}\n")

    def do(self, words):
        """Does what these words request. Returns why not, if it could not."""
        match words.split():
            case ["apt-get", "install", *_, file] if file.endswith(".deb"):
                return self.install(file)
            case ["apt-get" | "certbot" | "chown", *_] | ["systemctl", "status", "drop"]:
                return None
            case ["systemctl", "start", "drop"] if not self.office:
                paths = [("/usr/bin/drop", str(self.root / "usr/bin/drop")), ("/var/lib/drop", self.here("/var/lib/drop"))]
                unit = self.root / "lib/systemd/system/drop.service"
                self.office = self.stack.enter_context(Office(unit, self.root, paths))
                return self.office.start()
            case ["systemctl", "stop", "drop"]:
                return self.office.stop()
            case ["systemctl", "start", "drop"]:
                return self.office.start()
            case ["nginx", "-t"]:
                return self.configure()
            case ["systemctl", "reload", "nginx"]:
                return self.front.start()
            case ["between", name]:
                return getattr(self, name)()
        return "nobody does this"

    def install(self, file):
        """Does what the package does, except for its user; ci/test_package.py tests the package itself."""
        if self.office:
            self.office.stop()
        ran = kit.run(["dpkg-deb", "-x", file, self.root])
        self.path("/var/lib/drop").mkdir(mode=0o700, exist_ok=True)
        return (f"{ran}" if ran.status else None) or (self.office and self.office.start())

    def configure(self):
        sites = list(self.path("/etc/nginx/sites-enabled/").iterdir())
        if [it.name for it in sites] != ["drop"]:
            return f"{sites}"
        self.front = self.stack.enter_context(Front(self.root, self.office.port))
        chain = self.path(f"/etc/letsencrypt/live/{HOST}/fullchain.pem")
        places = [(it, self.here(it)) for it in ["/etc/letsencrypt/", "/etc/nginx/snippets/", "/usr/share/", "/var/log/", "/var/www/"]]
        words = self.front.configure(sites[0], places, chain)
        lines = ["silent", f"cacert = {chain}", f"connect-to = {HOST}:443:127.0.0.1:{self.front.port}"]
        (self.root / ".curlrc").write_text("\n".join(lines))
        ran = kit.run([*words, "-t"])
        return None if ran.status == 0 and "HOST" not in sites[0].read_text() else f"{ran}"

    # -- checks between the lines of the page

    def asked(self, method, name, body=None):
        """The answer to a link that is signed with the page's secret."""
        secret = self.path("/var/lib/drop/secret").read_text().strip()
        self.front.host = HOST
        return self.front.said(method, self.front.link(method, name, key="clerk", secret=secret), body)

    def backed_up(self):
        """After the backup: another upload, and what no other program can do while the office is served."""
        self.check("a later upload", difference(self.asked("PUT", "later.txt", b"later"), owed_receipt(2, b"later")))
        file, copy = self.path("/var/lib/drop/office"), self.root / "copy.db"
        ran = kit.run(["sqlite3", file, f".backup {copy}"])
        well = ran.status and b"database is locked" in ran.err and copy.stat().st_size == 0
        self.check(".backup while it serves", None if well else f"{ran}")
        self.check("manifest while it serves", difference(self.drop.run("manifest", file), CANNOT_OPEN))
        modes = [oct(stat.S_IMODE(it.stat().st_mode)) for it in file.parent.iterdir()]
        self.check("office, journal and secret, and their rights", difference(modes, [oct(0o600)] * 3))
        log = self.path("/var/log/nginx/drop.log").stat()
        found = (oct(stat.S_IMODE(log.st_mode)), log.st_size > 0)
        self.check("the log's rights", difference(found, (oct(0o640), True)))

    def restored(self):
        """After the restore: the office is that of the backup."""
        self.check("the first file", difference(self.asked("GET", "hello.txt"), (200, b"hello\n")))
        self.check("the later file", difference(self.asked("GET", "later.txt"), owed_refusal(34)))
        self.check("the next number", difference(self.asked("PUT", "new.txt", b"new"), owed_receipt(2, b"new")))
        file, copy = self.path("/var/lib/drop/office"), self.root / "stopped.db"
        self.office.stop()
        ran = kit.run(["sqlite3", file, f".backup {copy}"])
        self.check(".backup while it is stopped", difference(ran, kit.Run(0, b"", b"")))
        self.check("the same manifest", difference(self.drop.run("manifest", copy), self.drop.run("manifest", file)))
        return self.office.start()


    def gone_on(self):
        """After the second office's start: it has nothing of the first, whose upload links stay valid; the first is intact."""
        self.check("the first's file", difference(self.asked("GET", "hello.txt"), owed_refusal(34)))
        self.check("the second's number", difference(self.asked("PUT", "hello.txt", b"second"), owed_receipt(1, b"second")))
        ran = self.drop.run("manifest", self.path("/var/lib/drop/first/office"))
        rows = [line.split(",")[:3] for line in ran.out.decode().splitlines()]
        self.check("the first's receipts", difference(rows[1:], [["1", "in", "hello.txt"], ["2", "in", "new.txt"]]))


def test_page(drop, check):
    """Runs the lines of the page in order, and compares their output with what it shows."""
    found = re.findall(r"^```(sh)?\n(.*?)^```$", PAGE.read_text(), re.MULTILINE | re.DOTALL)
    script, owed = [], {}
    for at, (kind, text) in enumerate(found):
        if kind:
            marks = {"cp -a /var/lib": "backed_up", "/before": "restored", "mv -t /var/lib/drop/first": "gone_on"}
            behind = next((name for mark, name in marks.items() if mark in text), None)
            script += [f"echo '@@ {at}'", text.rstrip("\n"), *([f"between {behind}"] if behind else [])]
        else:
            owed[at - 1] = text
    machine = Machine(drop, check)
    with machine.stack:
        ran = machine.run(machine.here("\n".join(script)))
        check("the page's lines", None if ran.status == 0 else f"{ran}")
    said = dict(re.findall(r"^@@ (\d+)\n((?:(?!@@ ).*\n?)*)", ran.out.decode(), re.MULTILINE))
    check("blocks with an output", difference(len(owed), 2))
    for at, text in owed.items():
        check(f"what block {at} prints", difference(said.get(str(at)), text))
    digest = owed_receipt(1, b"hello\n")[1].decode()
    check("the page's receipt", None if digest in "".join(owed.values()) else digest)
