"""Drives page/put.html and page/get.html in Debian's chromium, headless, over the proved program `drop serve`.

The WebDriver protocol controls the browser (ci/browser.py). A small web server between it and the office serves page/, passes
all else on unchanged, and can be told to lose or to change it (ci/front.py).
Expected values come from Python's `hashlib`, the table of refusals in docs/RULES.md, and the words below, in both
languages. `--shots FOLDER` keeps screenshots.
"""

import os
import re
import shlex
import time

import pytest

import expected
import kit
import tables
from browser import until
from expected import LIMIT
from front import PAGE, Front, Office
from program import Drop
from shown import (
    ENTER, RESULT, SPACE, TAB, digest, is_not, labels, lacks, loads_its_own, looks, of, opened_case, reaches_nothing_else,
    receipt_facts, receipts, tabbed,
)

DATA = bytes(range(256)) * 300
BOXES = [tables.Box("in", max_files=1000), tables.Box("closed", closes=1), tables.Box("full", max_files=0),
         tables.Box("small", quota=10), tables.Box("texts", rule_kind=1, rule_text=".txt")]
ODD = "Ä ö + ß %2F/b//c ~'().pdf"


def write_links(drop, file, front):
    """Makes all links of the tests by `drop link`, before the server starts, because only the server can then open the file."""
    def moment(seconds):
        return time.strftime("%Y%m%dT%H%M%SZ", time.gmtime(time.time() + seconds))

    def link(method, target, host=front.host, start=-60, expires=3600, **key):
        ran = drop.link(file, method, target, host=host, start=moment(start), expires=str(expires), **key)
        assert ran.status == 0, ran
        return ran.out.decode().strip()

    plain = f"files.example:{front.port}"
    names = ["empty", "large", "new", "faults", "changed", "keys", "progress", "dragged", "again"]
    links = {f"put {name}": link("PUT", f"in/{name}") for name in names}
    links |= {f"get {name}": link("GET", f"in/{name}") for name in ["faults", "absent", "keys"]}
    for method in ["put", "get"]:
        links[f"{method} dots"] = link(method.upper(), "in/../in/a")
        links[f"{method} a"] = link(method.upper(), "in/a b.txt")
        links[f"{method} odd"] = link(method.upper(), f"in/{ODD}")
        links[f"{method} respelled"] = link(method.upper(), "in/b/d e.txt").replace("/in/b/d%20e", "/in/b%2fd%20e")
        links[f"{method} plain"] = link(method.upper(), "in/plain", plain)
        links[f"{method} nowhere"] = link(method.upper(), "nowhere/a")
    return links | {
        "put closed": link("PUT", "closed/a"), "put full": link("PUT", "full/a"), "put small": link("PUT", "small/a"),
        "put wrong name": link("PUT", "texts/a.pdf"), "put long": link("PUT", "in/" + "Ä" * 300),
        "put expired": link("PUT", "in/a", start=-3600, expires=60), "put early": link("PUT", "in/a", start=3600),
        "put tampered": links["put new"].replace("/in/new", "/in/nex"), "put a dot": link("PUT", "in/."),
        "get elsewhere": link("GET", "in/a b.txt", "elsewhere.example"), "put limited": link("PUT", "small/a", key="limited"),
    }


@pytest.fixture(scope="module")
def shared_case(module_folder, shots):
    drop = Drop(kit.built("drop"), module_folder)
    file = drop.office("office")
    for box in BOXES:
        tables.add_box(file, box)
    tables.add_key(file, "limited", b"s3cr3t")
    tables.limit_key(file, "limited", "in")
    office = Office(drop, file)
    front = Front(office)
    with opened_case(drop, office, front, write_links(drop, file, front), shots) as it:
        yield it


# ---- tests


def test_put(case, check):
    found = case.put("put a", "my file.pdf", DATA)
    owed = receipt_facts(1, DATA)
    check("a receipt", is_not((found["kind"], found["title"], of(found, owed)), ("receipt", "Receipt 1", owed)))
    words = "Checked: length and SHA-256 from the office are those of your file."
    check("equal digests", lacks(found["checked"], words))
    check("its box and name", is_not(of(found, ["box", "name"]), {"box": "in", "name": "a b.txt"}))
    check("its moment", None if found["facts"].get("moment") else "there is none")
    page = case.browser.js("return document.body.innerText")
    check("harmless", lacks(page, "Sending the same file again is harmless: the office keeps it once"))
    check("the focus", is_not(found["focus"], "result_title"))
    check("the live region", lacks(found["live"], "Receipt 1", "The office has the file."))
    facts = case.browser.js("return Array.from(document.querySelectorAll('#facts dd'), (it) => it.textContent)")
    check("name, size and digest", is_not(facts, ["my file.pdf", "76,800 bytes", digest(DATA)]))
    passed = [("PUT", target_of(case.links["put a"]))]
    check("as it stands", is_not(case.front.passed, passed))
    case.shot("receipt")
    case.browser.find("#go").click()
    found = until("the same receipt", lambda: (it := case.result()) and "same" in (it["lead"] or "") and it)
    check("the same receipt again", is_not(of(found, owed), owed))
    check("it is said", lacks(found["lead"], "the same receipt as before", "nothing was changed", "harmless"))
    case.click("#de")
    found = case.result()
    words = ["Quittung 1", "dieselbe Quittung wie zuvor", "schadet nicht", "76.800 Bytes",
             "Geprüft: Länge und SHA-256 von der Stelle sind die Ihrer Datei."]
    check("in German", lacks(found["text"], *words))
    found = case.put("put a", "again.pdf", DATA)
    check("the same receipt of a new page", is_not(of(found, owed), owed))
    found = case.put("put empty", "empty", b"")
    owed = receipt_facts(2, b"")
    check("an empty file", is_not((found["kind"], of(found, owed)), ("receipt", owed)))
    found = case.put("put large", "large", b"l" * LIMIT)
    owed = receipt_facts(3, b"l" * LIMIT)
    check("the largest file", is_not((found["kind"], of(found, owed)), ("receipt", owed)))
    check("receipts", is_not(len(receipts(case)), 3))


def target_of(link):
    """The path and query of a link, unchanged."""
    return "/" + link.split("/", 3)[3]


def test_receipt_file(case, check):
    """The receipt is printed, and saved as a text file."""
    case.put("put a", "a", DATA)
    case.browser.js("window.print = () => { window.printed = true; }")
    case.click("#print")
    check("printed", is_not(case.browser.js("return window.printed"), True))
    case.browser.media("print")
    shown = "return ['header', '#work', '.acts', '#result'].map((it) => document.querySelector(it).offsetHeight > 0)"
    check("the receipt alone is printed", is_not(case.browser.js(shown), [False, False, False, True]))
    if case.shots:
        case.browser.shot(case.shots / "print.png")
    case.browser.media()
    for language, name, words in [
        ("en", "receipt-1.txt",
         ["Receipt 1", "Box: in", "Name in the box: a b.txt", "Length: 76,800 bytes", "Checked: ", "sha256sum"]),
        ("de", "Quittung-1.txt",
         ["Quittung 1", "Fach: in", "Name im Fach: a b.txt", "Länge: 76.800 Bytes", "Geprüft: ", "sha256sum"]),
    ]:
        case.click(f"#{language}")
        before = set(os.listdir(case.browser.downloads))
        case.click("#keep")
        file = case.browser.downloaded(before)
        text = file.read_text(encoding="utf-8")
        line = f"receipt 1 {len(DATA)} {digest(DATA)}"
        check(f"saved as {name}", is_not(file.name, name) or lacks(text, *words, line, case.front.host))


# For each refusal: its number, the page, the link, the bytes sent, and words about what happened and about the remedy.
REFUSALS = [
    (30, "put", "put closed", b"abc", ("The box is closed now.", "Try again when the box is open"),
     ("Das Fach ist jetzt geschlossen.", "wenn das Fach offen ist")),
    (23, "put", "put expired", b"abc", ("The link has expired.", "Ask the office for a new link."),
     ("Der Link ist abgelaufen.", "Bitten Sie die Stelle um einen neuen Link.")),
    (22, "put", "put early", b"abc", ("The link does not hold yet.", "Wait until the time from which the link holds"),
     ("Der Link gilt noch nicht.", "Warten Sie bis zu der Zeit")),
    (24, "put", "put limited", b"abc", ("The key that signed the link may not do this, or not in this box.", "Ask the office for a new link."),
     ("darf das nicht oder nicht in diesem Fach.", "Bitten Sie die Stelle um einen neuen Link.")),
    (31, "put", "put a", b"other", ("The office already keeps a file under this name, and its bytes are others.",
                                    "ask the office for a link with another name"),
     ("unter diesem Namen schon eine Datei mit anderen Bytes", "einen Link mit einem anderen Namen")),
    (21, "put", "put tampered", b"abc", ("The signature does not match", "Copy the whole link once more"),
     ("Die Signatur passt nicht", "Kopieren Sie noch einmal den ganzen Link")),
    (21, "put", "get a", b"abc", ("The signature does not match", "open it with get.html"),
     ("Die Signatur passt nicht", "öffnen Sie ihn mit get.html")),
    (21, "get", "put a", None, ("The signature does not match", "open it with put.html"),
     ("Die Signatur passt nicht", "öffnen Sie ihn mit put.html")),
    (27, "put", "put nowhere", b"abc", ("The office has no box of this name.", "It must add the box"),
     ("Die Stelle hat kein Fach dieses Namens.", "Sie muss das Fach anlegen")),
    (27, "get", "get nowhere", None, ("The office has no box of this name.", "It must add the box"),
     ("Die Stelle hat kein Fach dieses Namens.", "Sie muss das Fach anlegen")),
    (34, "get", "get absent", None, ("There is no file of this name in the box.", "try again later"),
     ("Im Fach liegt keine Datei dieses Namens.", "versuchen Sie es später erneut")),
    (32, "put", "put full", b"abc", ("The box holds as many files as it may.", "Ask the office to make room"),
     ("Das Fach enthält schon so viele Dateien, wie es darf.", "Platz zu schaffen")),
    (33, "put", "put small", b"0123456789a", ("The box has too little room for this file.", "Ask the office to make room"),
     ("Im Fach ist zu wenig Platz für diese Datei.", "Platz zu schaffen")),
    (29, "put", "put wrong name", b"abc", ("The box takes no file of this name.", "a link with another name"),
     ("Das Fach nimmt keine Datei dieses Namens an.", "einen Link mit einem anderen Namen")),
    (9, "put", "/in/unsigned", b"abc", ("The link is not signed.", "Copy the whole link once more"),
     ("Der Link ist nicht signiert.", "Kopieren Sie noch einmal den ganzen Link")),
    (8, "put", "/in/a+b?x=1", b"abc", ("The link is not written as links are.", "Copy the whole link once more"),
     ("Der Link ist nicht so geschrieben, wie Links es sind.", "Kopieren Sie noch einmal den ganzen Link")),
]


def test_refusals(case, check):
    """Each refusal is shown with its number, what happened and what to do, in both languages."""
    for number, page, link, data, english, german in REFUSALS:
        found = case.fetch(link) if page == "get" else case.put(link, "b", data)
        name = f"refusal {number}, {page} of {link}"
        _, line = expected.refusal(number)
        told = (found["kind"], found["title"], found["facts"].get("office_says"))
        check(name, is_not(told, ("refused", f"Refused: number {number}", line.strip())))
        check(f"{name}, words", lacks(found["what"], english[0]) or lacks(found["remedy"], english[1]))
        check(f"{name}, announced", lacks(found["live"], f"Refused: number {number}. {found['what']}")
              or is_not(found["focus"], "result_title"))
        if number == 30:
            case.shot("refused")
        case.speak("de")
        found = case.result()
        check(f"{name}, German", is_not(found["title"], f"Abgelehnt: Nummer {number}")
              or lacks(found["what"], german[0]) or lacks(found["remedy"], german[1]))
    check("nothing was kept", is_not(len(receipts(case)), 3))


def test_table(case, check):
    """Each refusal of docs/RULES.md has a text and a remedy in both languages, which have the same texts."""
    case.open("put", "put a")
    texts = case.browser.js("return TEXTS")
    numbers = [row[0] for row in expected.table_of_refusals()]
    for language in ["en", "de"]:
        table = texts[language]
        check(f"numbers, {language}", is_not(sorted(table["refusals"], key=int), sorted(numbers, key=int)))
        remedies = {f"remedy_{remedy}" for _, remedy in table["refusals"].values()}
        lacking = {it for it in remedies if it not in table and not (f"{it}_put" in table and f"{it}_get" in table)}
        check(f"remedies, {language}", is_not(lacking, set()))
    marks = re.compile(r"\{\w+\}")
    keys = {language: {key: set(marks.findall(str(value))) for key, value in texts[language].items()} for language in texts}
    check("the same texts", is_not(keys["de"], keys["en"]))
    same = {key for key in texts["en"] if texts["en"][key] == texts["de"][key]}
    check("each is translated", is_not(same, {"digest", "paste"}))
    code = "".join((PAGE / name).read_text(encoding="utf-8") for name in ["drop.js", "shared.js", "put.html", "get.html"])
    def bare(keys):
        return {re.sub("_(get|put|title)$", "", key) for key in keys if not key.startswith("remedy_")}
    unused = bare(texts["en"]) - bare(re.findall(r'"(\w+)"', code)) - {"refusals"}
    check("each is used", is_not(unused, set()))


def test_too_large(case, check):
    """A file that is too large is reported instead of being sent."""
    before = len(case.front.passed)
    case.open("put", "put new")
    case.choose("large", b"l" * (LIMIT + 1))
    found = case.result()
    check("too large", is_not(found["title"], "Not sent: it would be refused with number 5")
          or lacks(found["what"], "more than 8,388,608 bytes") or lacks(found["remedy"], "Make the file smaller"))
    case.click("#go")
    found = case.result()
    check("it is not sent", is_not((found["kind"], len(case.front.passed)), ("refused", before)))
    case.click("#de")
    found = case.result()
    check("too large, German", is_not(found["title"], "Nicht gesendet: Sie würde mit Nummer 5 abgelehnt")
          or lacks(found["what"], "mehr als 8.388.608 Bytes") or lacks(found["remedy"], "Verkleinern Sie die Datei"))


FAULTS = b"faults" * 100


def test_faults(case, check):
    """A lost upload or answer is reported, and "try again" tries again; the office keeps the file once."""
    case.open("put", "put faults")
    case.choose("f", FAULTS)
    rows = [
        ("lost", "lost", "The connection was lost", "Die Verbindung ist abgebrochen"),
        ("swallowed", "lost", "The connection was lost", "Die Verbindung ist abgebrochen"),
        (expected.answer(40), "refused", "Refused: number 40", "Abgelehnt: Nummer 40"),
        (b"HTTP/1.1 302 Found\r\nContent-Length: 0\r\n\r\n", "strange", "none of the office’s", "nicht von der Stelle"),
        ("gone", "away", "The office does not answer just now", "Die Stelle antwortet gerade nicht"),
    ]
    for mode, kind, english, german in rows:
        if mode == "gone":
            case.office.kill()
        case.front.mode = "through" if mode == "gone" else mode
        case.click("#again" if case.browser.js(RESULT) else "#go")
        found = case.result(kind)
        name = f"put, {mode if isinstance(mode, str) else kind}"
        check(name, lacks(found["title"], english) or lacks(found["text"], "Sending the same file again is harmless")
              or is_not(found["again"], "Try again") or lacks(found["live"], found["title"]))
        if mode == "gone":
            case.shot("away")
        case.click("#de")
        found = case.result(kind)
        check(f"{name}, German", lacks(found["title"], german) or is_not(found["again"], "Erneut versuchen")
              or lacks(found["text"], "schadet nicht"))
        case.click("#en")
    case.office.start()
    case.front.mode = b"HTTP/1.1 413 Payload Too Large\r\nContent-Length: 0\r\n\r\n"
    case.click("#again")
    found = case.result("refused")
    check("too large for the web server", is_not(found["title"], "Refused: number 5")
          or lacks(found["remedy"], "Make the file smaller"))
    case.front.mode = "through"
    case.click("#go")
    found = case.result("receipt")
    owed = receipt_facts(4, FAULTS)
    check("tried again", is_not(of(found, owed), owed))
    check("kept once", is_not(len(receipts(case)), 4))


def test_faults_of_get(case, check):
    """A lost answer to a fetch is reported, and "try again" tries again."""
    case.open("get", "get faults")
    case.office.kill()
    case.click("#go")
    check("get, gone", lacks(case.result("away")["text"], "status 502"))
    case.office.start()
    case.front.mode = "lost"
    case.click("#again")
    check("get, lost", lacks(case.result("lost")["text"], "The connection was lost", "not the whole"))
    case.front.mode = "through"
    case.click("#again")
    check("get, tried again", is_not(case.result("fetched")["facts"]["office_digest"], digest(FAULTS)))


def test_changed(case, check):
    """Bytes that were changed on the way are reported."""
    case.open("put", "put changed")
    case.choose("c", b"changed")
    case.front.mode = "other body"
    case.click("#go")
    found = case.result()
    told = found["title"], found["facts"]["own_digest"], found["facts"]["office_digest"]
    owed = "The office has other bytes", digest(b"changed"), digest(b"changee")
    check("another file arrived", is_not(told, owed) or lacks(found["lead"], "changed on the way"))
    case.open("get", "get a")
    case.front.mode = "other answer"
    case.click("#go")
    found = case.result()
    check("another file came", is_not((found["title"], found["save"]), ("Other bytes arrived", None)))
    case.front.mode = "through"
    case.click("#again")
    found = until("the file", lambda: (it := case.result("fetched"))["save"] and it)
    check("fetched again", is_not(found["facts"]["own_digest"], digest(DATA)))


def test_get(case, check):
    """A file that was put under an odd name is fetched, compared and saved; the links arrive unchanged."""
    for number, (name, saved) in enumerate([("odd", "c ~'().pdf"), ("respelled", "d e.txt")], 6):
        data = name.encode() * 1000
        before = len(case.front.passed)
        found = case.put(f"put {name}", "x", data)
        owed = receipt_facts(number, data)
        check(f"{name} put", is_not((found["kind"], of(found, owed)), ("receipt", owed)))
        found = case.fetch(f"get {name}")
        check(f"{name} fetched", is_not((found["kind"], of(found, owed)), ("fetched", owed))
              or lacks(found["checked"], "Checked: length and SHA-256") or is_not(found["focus"], "result_title")
              or lacks(found["live"], "The file has arrived. Checked"))
        if name == "odd":
            check("its name", is_not(found["facts"]["name"], ODD))
            case.shot("fetched")
        owed = [("PUT", target_of(case.links[f"put {name}"])), ("GET", target_of(case.links[f"get {name}"]))]
        check(f"{name} as it stands", is_not(case.front.passed[before:], owed))
        check(f"{name} to save", is_not(found["save"], f"Save the file as “{saved}”"))
        before = set(os.listdir(case.browser.downloads))
        case.click("#save")
        file = case.browser.downloaded(before)
        check(f"{name} saved", is_not((file.name, file.read_bytes() == data), (saved, True)))


def test_links(case, check):
    """Text that is no link, or a link that a browser would not send unchanged, is reported, and nothing is sent."""
    before = len(case.front.passed)
    rows = [
        ("", "No link was given."), ("in/a?x", "is not a link"), ("ftp://files.example/in/a", "is not a link"),
        (case.links["put dots"], "is . or .. alone"), (case.links["put a dot"], "is . or .. alone"),
        ("/in/%2e%2E?x=1", "is . or .. alone"), ("/in/a?x='", "characters that every browser rewrites"),
    ]
    for link, words in rows:
        case.open("put", link)
        shown = case.browser.js("const it = (id) => document.getElementById(id); return ["
                                "it('fault_text').innerText, it('work').hidden, it('live').textContent]")
        check(f"link {link[:20]!r}", lacks(shown[0], words) or is_not(shown[1:], [True, shown[0]]))
        if link == case.links["put dots"]:
            case.shot("dots")
    check("nothing was sent", is_not(len(case.front.passed), before))
    case.open("get", "")
    paste = "const it = document.getElementById('pasted'); it.value = arguments[0]; it.focus()"
    case.browser.js(paste, case.links["get a"])
    case.browser.press(ENTER)
    case.browser.wait_for("return !document.getElementById('work').hidden")
    check("the focus behind it", is_not(case.browser.active(), "link_title"))
    case.click("#go")
    check("a link that is pasted", is_not(case.result()["facts"]["office_digest"], digest(DATA)))
    found = case.fetch(target_of(case.links["get a"]))
    check("path and query alone", is_not(found["facts"].get("office_digest"), digest(DATA)))
    case.open("get", "")
    case.browser.js(paste, f"http://{case.front.host}/get.html#{case.links['get a']}")
    case.browser.press(ENTER)
    case.click("#go")
    check("an address of the page that is pasted", is_not(case.result()["facts"]["office_digest"], digest(DATA)))
    case.open("get", f"http://elsewhere.example/get.html#{target_of(case.links['get a'])}")
    note = case.browser.js("return document.getElementById('link_note').innerText")
    check("a page of another host", lacks(note, "This link is for elsewhere.example", case.front.host))
    case.open("get", "get elsewhere")
    note = case.browser.js("return document.getElementById('link_note').innerText")
    check("a link for another host", lacks(note, "This link is for elsewhere.example", case.front.host))


def test_chosen_again(case, check):
    """A changed file is read again when it is chosen again; a file that can't be read is not kept."""
    case.open("put", "put again")
    for data in [b"first", b"second"]:
        case.browser.js("document.getElementById('file').dispatchEvent(new Event('click'))")
        case.choose("again", data)
        facts = f"return document.getElementById('facts').innerText.includes('{digest(data)}')"
        case.browser.wait_for(facts)
    case.click("#go")
    check("what was chosen last", is_not(case.result()["facts"]["office_digest"], digest(b"second")))
    case.browser.js("Blob.prototype.arrayBuffer = () => Promise.reject(new DOMException('gone', 'NotFoundError'))")
    case.browser.js("document.getElementById('file').dispatchEvent(new Event('click'))")
    case.choose("again", b"third")
    found = case.result("unreadable")
    check("a file that is gone", lacks(found["what"], "Choose the file again") or is_not(found["again"], None))
    case.click("#go")
    said = case.browser.js("return document.getElementById('live').textContent")
    check("it is not sent", lacks(said, "Choose a file first."))


def test_left_meanwhile(case, check):
    """A file whose digest is still being computed when another link is opened is not shown as that link's file."""
    case.open("get", "get a")
    case.browser.js("""window.held = [];
        const digest = crypto.subtle.digest.bind(crypto.subtle);
        crypto.subtle.digest = (...it) => new Promise((go) => { window.held.push(() => go(digest(...it))); });""")
    case.click("#go")
    case.browser.wait_for("return window.held.length === 1")
    case.browser.js("location.hash = arguments[0]", f"#{case.links['get keys']}")
    case.browser.wait_for("return document.getElementById('link_facts').innerText.includes('keys')")
    case.browser.js("window.held[0]()")
    time.sleep(0.5)
    check("a file of the link before", is_not(case.result_now(), None))


def test_keyboard(case, check):
    """Works with Tab, Enter and Space only; choosing the file is left to the browser."""
    case.open("put", "put keys")
    check("the order", is_not(tabbed(case, 4), ["de", "en", "file", "go"]))
    case.browser.press(ENTER)
    said = case.browser.js("return ['live', 'facts'].map((it) => document.getElementById(it).innerText)")
    check("without a file", is_not(case.browser.active(), "file") or lacks(said[0], "Choose a file first.")
          or lacks(said[1], "Choose a file first."))
    outline = "return getComputedStyle(document.getElementById('file_label')).outlineStyle"
    check("the focus is seen", is_not(case.browser.js(outline), "solid"))
    case.choose("keys", b"keys")
    case.browser.js("document.getElementById('file').focus()")
    check("the button behind it", is_not(tabbed(case, 1), ["go"]))
    case.front.gate.clear()
    case.front.mode = "held"
    case.browser.press(ENTER)
    case.browser.wait_for("return !document.getElementById('progress').hidden")
    check("stop has the focus", is_not(case.browser.active(), "stop"))
    case.browser.press(ENTER)
    found = case.result()
    check("stopped", is_not((found["kind"], found["title"], found["focus"]), ("stopped", "Stopped", "result_title")))
    case.front.mode = "through"
    case.front.gate.set()
    check("again is next", is_not(tabbed(case, 1), ["again"]))
    case.browser.press(SPACE)
    found = case.result("receipt")
    check("a receipt by keys", is_not(found["facts"]["office_digest"], digest(b"keys")))
    check("what comes behind it", is_not(tabbed(case, 2), ["print", "keep"]))
    before = set(os.listdir(case.browser.downloads))
    case.browser.press(ENTER)
    check("kept by keys", lacks(case.browser.downloaded(before).read_text(encoding="utf-8"), digest(b"keys")))


def test_keyboard_of_get(case, check):
    """A file that is fetched and saved by Tab and Enter."""
    case.open("get", "get keys")
    check("fetch", is_not(tabbed(case, 3), ["de", "en", "go"]))
    case.browser.press(ENTER)
    case.result("fetched")
    case.browser.press(TAB)
    before = set(os.listdir(case.browser.downloads))
    case.browser.press(ENTER)
    check("saved by keys", is_not(case.browser.downloaded(before).read_bytes(), b"keys"))


NETWORK = {"offline": False, "latency": 0, "downloadThroughput": -1, "uploadThroughput": -1}


def test_progress(case, check):
    """The progress of an upload is shown and announced while it lasts."""
    case.open("put", "put progress")
    case.choose("p", b"p" * LIMIT)
    case.browser.wait_for("return document.querySelectorAll('#facts .code').length")
    case.browser.js("""window.said = [];
        new MutationObserver(() => window.said.push(document.getElementById("live").textContent)).observe(
            document.getElementById("live"), {childList: true, characterData: true, subtree: true});""")
    case.browser.cdp("Network.enable")
    case.browser.cdp("Network.emulateNetworkConditions", **NETWORK | {"uploadThroughput": 200000})
    case.click("#go")
    shown = case.browser.wait_for("const it = document.getElementById('so_far').textContent;"
                                  "return /^[1-9]/.test(it) ? it : null")
    check("how much", None if re.fullmatch(r"\d+ % – [\d,]+ of 8,388,608 bytes", shown) else shown)
    bar = case.browser.js("return document.getElementById('bar').value")
    check("the bar", None if 0 < bar <= 100 else bar)
    label = case.browser.find("#bar").label()
    check("the bar’s name", is_not((label, case.browser.find("#bar").role()), ("Sending", "progressbar")))
    case.browser.wait_for("return /% –/.test(document.getElementById('live').textContent)")
    case.shot("sending")
    case.browser.cdp("Network.emulateNetworkConditions", **NETWORK)
    case.browser.cdp("Network.disable")
    found = case.result()
    check("then the receipt", is_not(found["facts"].get("office_digest"), digest(b"p" * LIMIT)))
    said = case.browser.js("return window.said")
    check("it is said", None if said[0] == "Sending" and "% – " in said[1] and "Receipt" in said[-1] else said)


def test_dropped(case, check):
    """A file that is dragged onto the page."""
    case.open("put", "put dragged")
    case.browser.js("""const data = new DataTransfer();
        for (const it of ["one", "two"]) data.items.add(new File([it], it + ".txt"));
        const zone = document.getElementById("zone");
        for (const it of ["dragover", "drop"]) {
          zone.dispatchEvent(new DragEvent(it, {dataTransfer: data, bubbles: true, cancelable: true}));
        }""")
    case.browser.wait_for("return document.querySelectorAll('#facts .code').length")
    text = case.browser.js("return document.getElementById('facts').innerText")
    check("the first is taken", lacks(text, "one.txt", digest(b"one"), "Only one file can be sent with a link"))
    case.click("#go")
    check("it is sent", is_not(case.result()["facts"].get("office_digest"), digest(b"one")))


def test_insecure(case, check):
    """On plain http the browser computes no digest, and the page says what that means."""
    host = f"files.example:{case.front.port}"
    found = case.put("put plain", "plain", b"plain", host)
    said = case.browser.js("return document.getElementById('facts').innerText")
    check("no digest here", lacks(said, "not computed here", "http, not https", "sha256sum"))
    facts = found["facts"]
    told, owed = (found["title"], facts["office_digest"]), (f"Receipt {facts['number']}", digest(b"plain"))
    check("a receipt that is not checked", is_not(told, owed) or is_not(facts.get("own_digest"), None)
          or lacks(found["checked"], "Not checked", "sha256sum"))
    case.shot("insecure")
    found = case.fetch("get plain", host)
    check("a file that is not checked", is_not(found["save"], "Save the file as “plain”")
          or lacks(found["checked"], "Not checked"))


def test_reader(case, check):
    """Controls have names; results are in named regions; the page declares its language."""
    speech = {"de": ("button", "Deutsch"), "en": ("button", "English")}
    case.put("put a", "a", DATA)
    owed = speech | {"file": ("button", "Choose a file"), "go": ("button", "Send the file"), "print": ("button", "Print"),
                     "keep": ("button", "Save the receipt as a text file")}
    check("names", is_not(labels(case), owed))
    case.click("#de")
    owed = speech | {"file": ("button", "Datei auswählen"), "go": ("button", "Datei senden"),
                     "print": ("button", "Drucken"), "keep": ("button", "Quittung als Textdatei speichern")}
    check("names, German", is_not(labels(case), owed))
    page = "return [document.documentElement.lang, document.title, document.getElementById('de').ariaPressed]"
    check("the page’s language", is_not(case.browser.js(page), ["de", "Datei senden", "true"]))
    case.fetch("get a")
    owed = speech | {"go": ("button", "Fetch it again"), "save": ("link", "Save the file as “a b.txt”")}
    check("names of get", is_not(labels(case), owed))
    case.open("put", "")
    owed = speech | {"pasted": ("textbox", "Link"), "": ("button", "Use this link")}
    check("names without a link", is_not(labels(case), owed))
    live = case.browser.find("#live")
    kept = case.browser.js("const it = document.getElementById('live'); return [it.ariaLive, it.hidden]")
    check("the live region", is_not((live.role(), kept), ("status", ["polite", False])))
    case.put("put closed", "a", DATA)
    region = case.browser.find("#result")
    check("the result’s region", is_not((region.role(), region.label()), ("region", "Refused: number 30")))
    case.browser.cdp("Emulation.setUserAgentOverride", userAgent=case.browser.agent, acceptLanguage="de-AT,de")
    case.open("put", "put a")
    check("German by the browser", is_not(case.browser.js(page), ["de", "Datei senden", "true"]))
    case.browser.cdp("Emulation.setUserAgentOverride", userAgent=case.browser.agent, acceptLanguage="fr-FR,fr")
    case.open("put", "put a")
    check("English for others", is_not(case.browser.js(page), ["en", "Send a file", "false"]))
    case.browser.cdp("Emulation.setUserAgentOverride", userAgent=case.browser.agent, acceptLanguage="en-US,en")


def test_hints(case, check):
    """The lines for curl that are shown without JavaScript work, with links that no browser sends unchanged."""
    file = case.drop.path("by hand")
    for method in ["put", "get"]:
        lines = re.findall("<code>(.*)</code>", (PAGE / f"{method}.html").read_text(encoding="utf-8"))
        check(f"lines of {method}", is_not(len(lines), 2))
        for line in lines:
            file.write_bytes(DATA if method == "put" else b"")
            words = shlex.split(line.replace("LINK", case.links[f"{method} dots"]))
            ran = kit.run([file if it in ("FILE", "DATEI") else it for it in words])
            well = ran.status == 0 and file.read_bytes() == DATA and (method == "get" or digest(DATA) in ran.out.decode())
            check(line, None if well else f"{ran}")


def test_looks(case, check):
    def opened(page, link):
        case.open(page, link)
        if page == "put" and link == "put a":
            case.shot("start")

    def stopped():
        case.put("put dragged", "stopped", b"x" * 100)

    states = [("a start", lambda: opened("put", "put a")), ("a receipt", lambda: case.put("put a", "n" * 60, DATA)),
              ("a refusal", lambda: case.put("put closed", "a", b"abc")), ("other bytes", stopped),
              ("a file", lambda: case.fetch("get odd")), ("no link", lambda: opened("put", "")),
              ("a long name", lambda: opened("put", "put long")), ("dots", lambda: opened("get", case.links["put dots"]))]
    looks(case, check, states)


def test_own_origin(case, check):
    """Nothing is loaded from elsewhere, and nothing could be."""
    for page, link in [("put", "put a"), ("get", "get a")]:
        _ = case.put(link, "a", DATA) if page == "put" else case.fetch(link)
        loads_its_own(case, check, page)
    reaches_nothing_else(case, check)
    case.browser.ask("POST", "/se/log", {"type": "browser"})
    case.put("put a", "a", DATA)
    case.click("#de")
    complains_of_nothing(case, check)
    owed = {case.front.host, f"files.example:{case.front.port}"}
    check("hosts that were asked", is_not(case.front.hosts <= owed, True))


def complains_of_nothing(case, check):
    """Checks that the browser logged nothing since its log was last read."""
    log = [it["message"] for it in case.browser.ask("POST", "/se/log", {"type": "browser"})]
    check("the browser complains of nothing", is_not(log, []))


