"""Drives page/clerk.html in Debian's chromium, headless, over the proved program `drop serve`, as ci/test_page.py drives the pages
for strangers.

Expected values come from the links that `drop link` and `drop links` write on a copy of the office file, the rows of its
tables, the table of refusals in docs/RULES.md, and the words below, in both languages. `--shots FOLDER` keeps screenshots.
"""

import csv
import datetime
import os
import pathlib
import re

import pytest

import expected
import kit
import tables
from browser import until
from clerking import (
    EAST, FAULTS, HIDDEN, KINDS, WORD, again, begin, both, copied, copy_of, field_fault, field_of, fill, opened, owed_links,
    page_of, rows, said_refusal, saved, send, use_key, utc,
)
from expected import ID, SECRET
from front import PAGE, Front, Office, asked
from program import Drop
from shown import (
    ENTER, TAB, digest, is_not, labels, lacks, loads_its_own, looks, opened_case, reaches_nothing_else, receipts, tabbed,
)

ZONE = "Asia/Kolkata"  # the browser's, four and a half hours ahead of the office
BOXES = [tables.Box("in", max_files=1000), tables.Box("closed", closes=1)]
COMMANDS = ["add_box", "close_box", "add_key", "revoke_key", "drop_file"]
NAMES = ["a b.txt", "Ä ö ß €.pdf", "100%", "%2F", "it's", "a//b", "/c", "d/", "~'()*!.txt", "a+b=c&d?#",
         ",\"quoted\"", " blanks ", "😀"]
DOTS = ["..", "../in/a", "a/../b", "./x", "a/."]


@pytest.fixture(scope="module")
def shared_case(module_folder, shots):
    drop = Drop(kit.built("drop"), module_folder)
    file = drop.office("office", "--east", str(EAST))
    for box in BOXES:
        tables.add_box(file, box)
    tables.add_key(file, "partner", b"s3cr3t")
    tables.add_key(file, "revoked", b"s3cr3t", revoked=1)
    office = Office(drop, file, module_folder / "published.csv")
    with opened_case(drop, office, Front(office), {}, shots) as it:
        it.browser.cdp("Emulation.setTimezoneOverride", timezoneId=ZONE)
        yield it


# ---- texts


def test_texts(case, check):
    """Both languages have the same texts; each is translated and used; each refusal that a form can get has a text."""
    opened(case)
    texts = case.browser.js("return CLERK_TEXTS")
    marks = re.compile(r"\{\w+\}")
    keys = {language: {key: set(marks.findall(value)) for key, value in texts[language].items()} for language in texts}
    check("the same texts", is_not(keys["de"], keys["en"]))
    same = {key for key in texts["en"] if texts["en"][key] == texts["de"][key]}
    check("each is translated", is_not(same, {"link_host", "region"}))
    code = "".join((PAGE / name).read_text(encoding="utf-8") for name in ["clerk.js", "desk.js", "clerk.html"])
    named = {*re.findall(r'"(\w+)"', code)}
    made = {f"done_{form}" for form in COMMANDS} | {"bad_ends", "bad_begins"}
    made |= {"lost_desk", "strange_desk", "barred_desk", "barred_desk_title"}
    unused = {key for key in texts["en"] if not key.startswith("desk_")} - named - made
    check("each is used", is_not(unused, set()))
    owed = {f"desk_{number}" for number in [19, 20, 21, 22, 23, 24, 35, 40]} | {f"desk_36_{form}" for form in COMMANDS}
    found = {key for key in texts["en"] if key.startswith("desk_") and not key.endswith("_do")}
    check("refusals", is_not(found, owed))
    remedies = {key.removesuffix("_do") for key in texts["en"] if key.endswith("_do")}
    check("remedies", is_not(remedies, owed | {"desk_other"}))


# ---- the key


KEY_FAULTS = [
    ({"id": ""}, "use_key_id", "An id has 1 to 64 letters"), ({"id": "a b"}, "use_key_id", "An id has 1 to 64 letters"),
    ({"secret": ""}, "use_key_secret", "A secret has 1 to 128"), ({"secret": "ö"}, "use_key_secret", "A secret has 1 to 128"),
    ({"clock": "1"}, "use_key_clock", "Write it like +01:00"), ({"clock": "+14:01"}, "use_key_clock", "Write it like +01:00"),
    ({"host": "Files.example"}, "use_key_host", "no host as browsers send it"),
    ({"host": "files.example:80"}, "use_key_host", "no host as browsers send it"),
    ({"host": "a/b"}, "use_key_host", "no host as browsers send it"), ({"region": "EU"}, "use_key_region", "A region has 1 to 32"),
]


def test_fields_of_key(case, check):
    """A wrong field is reported, and nothing is sent."""
    opened(case)
    before = len(case.front.passed)
    for values, field, words in KEY_FAULTS:
        good = {"id": ID, "secret": WORD, "clock": "+01:00", "host": case.front.host, "region": "us-east-1"}
        fill(case, "use_key", **good | values)
        case.browser.js("document.getElementById('use_key').requestSubmit()")
        case.browser.wait_for(f"return document.getElementById('{field}_bad').textContent")
        field_fault(case, check, f"the key, {values}", field, words)
    fill(case, "use_key", id=ID, region="us-east-1")
    for name, data, typed, words in [
        ("two lines", b"one\ntwo\n", "", "does not hold one line"), ("empty", b"", "", "does not hold one line"),
        ("long", b"s" * 200, "", "does not hold one line"), ("both", b"one\n", "two", "not both"),
    ]:
        fill(case, "use_key", secret=typed, clock="-03:30")
        case.browser.find("#use_key_file").type(case.file(f"secret {name}", data))
        case.click("#use_key_go")
        case.browser.wait_for("return document.getElementById('use_key_file_bad').textContent")
        field_fault(case, check, f"a file with a secret, {name}", "use_key_file", words)
        case.speak("de")
        said = case.browser.js(FAULTS)[0]["use_key_file"]
        check(f"a file with a secret, {name}, German", None if re.search("genau eine Zeile|nicht beides", said) else said)
        case.speak("en")
    check("nothing was sent", is_not(len(case.front.passed), before))
    opened(case, "key=k-1&east=-210&host=office.example&region=eu-1&secret=never")
    preset = ("const value = (it) => document.getElementById(`use_key_${it}`).value;"
              "return ['id', 'secret', 'clock', 'host', 'region'].map(value)")
    check("what the address presets", is_not(case.browser.js(preset), ["k-1", "", "-03:30", "office.example", "eu-1"]))
    case.browser.js("location.hash = '#key=k-2&east=90&secret=never'")
    case.browser.wait_for("return document.getElementById('use_key_id').value === 'k-2'")
    owed = ["k-2", "", "+01:30", case.front.host, "us-east-1"]
    check("what another address presets", is_not(case.browser.js(preset), owed))


def test_key(case, check):
    """A right key, typed and from a file. Its secret is sent and stored nowhere, and is gone with the page."""
    begun = len(case.front.passed)
    found = begin(case)
    check("a clerk’s key", is_not((found["title"], found["focus"]), ("The key is right", "result_title"))
          or lacks(found["live"], "The key is right. The office knows this key as a clerk’s."))
    both(case, check, "its words", ["The office knows this key as a clerk’s."],
         ["Der Schlüssel stimmt", "Schlüssel der Verwaltung"])
    shown = case.browser.js("return document.getElementById('key_facts').innerText")
    check("what is said of it", lacks(shown, ID, "clerk: signs links, and gives commands", "UTC+01:00", case.front.host))
    hidden = case.browser.js(HIDDEN, ["use_key", "forget", "task_links", "task_add_box", "insecure"])
    check("what is offered", is_not(hidden, [True, False, False, False, True]))
    case.shot("clerk-start")
    kept = case.browser.js("""return [localStorage.length, sessionStorage.length, document.cookie, document.body.innerHTML,
        Array.from(document.querySelectorAll("input"), (it) => it.value)]""")
    check("nothing is stored", is_not(kept[:3], [0, 0, ""]))
    check("nothing is shown", "it is there" if WORD in kept[3] or WORD in kept[4] else None)
    sent = case.front.passed[begun:]
    hits = [it for it in sent if WORD in it[1] or expected.quoted(WORD).decode() in it[1]]
    check("it is not sent", is_not((hits, [it[0] for it in sent]), ([], ["POST"])))
    case.click("#forget")
    hidden = case.browser.js(HIDDEN, ["use_key", "forget", "work", "result"])
    check("it is forgotten", is_not((hidden, case.browser.active()), ([False, True, True, True], "key_title")))
    case.browser.find("#use_key_file").type(case.file("secret", SECRET + b"\r\n"))
    check("a secret from a file", is_not(use_key(case, secret="")["kind"], "keyed"))
    case.browser.ask("POST", "/url", {"url": f"http://{case.front.host}/get.html"})
    case.browser.ask("POST", "/back", {})
    case.browser.wait_for("return document.getElementById('languages') && !document.getElementById('languages').hidden")
    hidden = case.browser.js(HIDDEN, ["use_key", "work"])
    check("it is gone with the page", is_not(hidden, [False, True]))


LATE = "const now = Date.now; Date.now = () => now() + arguments[0]"


def test_wrong_keys(case, check):
    """Wrong keys and wrong clocks are each explained in words."""
    opened(case)
    use_key(case, secret="another")
    said_refusal(case, check, "a wrong secret", 21, ["the secret is not the one of this key", "Give the right secret"],
                 ["Das Geheimnis ist nicht das dieses Schlüssels", "das richtige Geheimnis"])
    case.shot("clerk-refused")
    check("it is asked again", is_not(case.browser.js(HIDDEN, ["use_key", "work"]), [False, True]))
    use_key(case, key="nobody")
    said_refusal(case, check, "an unknown key", 19, ["no key of this id", "Look at the id"],
                 ["keinen Schlüssel mit dieser Kennung"])
    use_key(case, key="revoked", secret="s3cr3t")
    said_refusal(case, check, "a revoked key", 20, ["has revoked this key", "use another one"],
                 ["Schlüssel widerrufen", "einen anderen"])
    use_key(case, key="partner", secret="s3cr3t")
    said_refusal(case, check, "a key of role link", 24, ["may give no commands", "use a clerk’s key"],
                 ["darf keine Befehle erteilen"])
    offered = ["use_key", "task_links", *(f"task_{it}" for it in COMMANDS), "key_note"]
    check("links alone are offered", is_not(case.browser.js(HIDDEN, offered), [True, False, *[True] * 5, False]))
    for number, shift, english, german in [
        (22, 3600, "this device’s clock is ahead of the office’s", "geht gegenüber der Uhr der Stelle vor"),
        (23, -3600, "this device’s clock is behind the office’s", "geht gegenüber der Uhr der Stelle nach"),
    ]:
        opened(case)
        case.browser.js(LATE, 1000 * shift)
        use_key(case)
        said_refusal(case, check, f"a clock {shift} s ahead", number, [english, "Set the clock of this device right"],
                     [german, "Stellen Sie die Uhr dieses Geräts richtig"])
        case.browser.js(LATE, -1000 * shift)
        check(f"the clock set right, {shift}", is_not(again(case)["kind"], "keyed"))


# ---- commands


OPENS, CLOSES = utc(2026, 1, 31, 23, 30), utc(2039, 12, 31, 22, 59)
BOX = {"box": "tender-7", "opens": field_of(OPENS), "closes": field_of(CLOSES), "day_5": False, "day_6": False, "from": "08:00",
       "to": "24:00", "quota": "250", "files": "120", "replace": True, "ends": True, "rule": ".pdf, .zip"}


def row_of(case, box):
    """The settings of a box in the tables, from when it opens to the text of its rule."""
    [row] = rows(case, "SELECT * FROM boxes WHERE name = ?", box)
    return row[1:11]


def test_box(case, check):
    """A box is opened, extended and closed; times are shown by both clocks."""
    begin(case)
    fill(case, "add_box", **BOX)
    hints = case.browser.js("const hint = (it) => document.getElementById(`add_box_${it}_hint`).textContent;"
                            "return ['opens', 'closes', 'to'].map(hint)")
    check("the local clock, opens", lacks(hints[0], "By this device’s clock: Feb 1, 2026, 5:00:00", "20260131T233000Z"))
    check("the local clock, closes", lacks(hints[1], "Jan 1, 2040, 4:29:00", "20391231T225900Z"))
    owed = "By this device’s clock, on the first day: Sun 12:30 PM to Mon 04:30 AM."
    check("the local clock, hours", is_not(hints[2].replace("\u202f", " "), owed))
    found = send(case, "add_box")
    told = found["kind"], found["title"], found["lead"]
    check("a box is opened", is_not(told, ("done", "Done", "The box “tender-7” is there.")))
    both_clocks = ["Feb 1, 2026, 12:30", "(UTC+01:00)", "Feb 1, 2026, 5:00:00"]
    check("its beginning by both clocks", lacks(found["facts"].get("from_then"), *both_clocks))
    both(case, check, "its words", ["The box “tender-7” is there."], ["Erledigt", "Das Fach „tender-7“ ist angelegt."])
    case.shot("clerk-box")
    row = (int(OPENS.timestamp()), int(CLOSES.timestamp()), "1111100", 480, 1440, 250 * 10**6, 120, 1, 1, ".pdf,.zip")
    check("its row", is_not(row_of(case, "tender-7"), row))
    send(case, "add_box")
    said_refusal(case, check, "the same box", 36, ["has a box of this name already", "take another name"],
                 ["schon ein Fach dieses Namens"])
    found = send(case, "add_box", box="plain", any=True, keep=True, **{"from": "0:00", "quota": "0", "files": "0", "begins": False})
    check("a box with few words", is_not(found["kind"], "done"))
    found = send(case, "add_box", box="begins", begins=True, rule="offer-", closes="2039-01-01T00:00")
    check("a box of a beginning", is_not(found["kind"], "done"))
    found = [row_of(case, it)[5:] for it in ["plain", "begins"]]
    check("their rows", is_not(found, [(0, 0, 0, 0, ""), (0, 0, 0, 2, "offer-")]))
    for name, moment in [("extended", utc(2040, 6, 1)), ("closed", utc(2026, 2, 1))]:
        found = send(case, "close_box", box="tender-7", moment=field_of(moment))
        well = is_not((found["kind"], found["lead"]), ("done", "The box “tender-7” has its new end."))
        check(f"a box is {name}", well or lacks(found["facts"].get("until_then"), "(UTC+01:00)"))
        check(f"{name}, its row", is_not(row_of(case, "tender-7")[1], int(moment.timestamp())))
    both(case, check, "closed, its words", ["has its new end"], ["Für das Fach „tender-7“ ist ein neues Ende festgelegt."])
    send(case, "close_box", box="nowhere")
    said_refusal(case, check, "no box", 36, ["no box of this name", "Look at the name"], ["kein Fach dieses Namens"])


BOX_FAULTS = [
    ({"box": "Tender"}, "box", "A box has a name of 1 to 63 small letters"), ({"opens": ""}, "opens", "Give date and time."),
    ({"closes": BOX["opens"]}, "closes", "The end must lie behind the beginning."),
    ({"from": "25:00"}, "from", "Write it like 08:00"),
    ({"from": "12:00", "to": "12:00"}, "to", "The end must lie behind the beginning."),
    ({"quota": "1,5"}, "quota", "A whole number"),
    ({"quota": "1000001"}, "quota", "A whole number"), ({"files": "-1"}, "files", "A whole number"),
    ({"rule": ".a,,.b"}, "rule", "1 to 8 endings"), ({"rule": "a b"}, "rule", "1 to 8 endings"),
    ({"rule": "ö" * 17}, "rule", "1 to 8 endings"),
    ({"ends": False, "begins": True, "rule": "a,b"}, "rule", "A beginning of 1 to 64 bytes"),
]


def test_fields(case, check):
    """If fields of the commands or of the links are wrong, nothing is sent."""
    begin(case)
    before = len(case.front.passed)

    def tried(form, good, values, field, words, focus=None):
        fill(case, form, **good | values)
        case.click(f"#{form}_go")
        field_fault(case, check, f"{form}, {str(values)[:50]}", f"{form}_{field}", words, focus)

    for values, field, words in BOX_FAULTS:
        tried("add_box", BOX, values, field, words)
    no_day = {f"day_{at}": False for at in range(7)}
    tried("add_box", BOX, no_day, "days", "Choose one day at least.", "add_box_day_0")
    case.speak("de")
    check("no day, German", lacks(case.browser.js(FAULTS)[0].get("add_box_days"), "Wählen Sie mindestens einen Tag aus."))
    case.speak("en")
    tried("add_key", {}, {"id": "é"}, "id", "An id has 1 to 64")
    tried("drop_file", {"box": "in"}, {"name": ""}, "name", "A name has 1 to 1024 bytes")
    tried("drop_file", {"box": "in"}, {"name": "ä" * 513}, "name", "an umlaut has two")
    tried("drop_file", {"box": "in"}, {"name": "a\tb"}, "name", "such as a tab")
    links = {"box": "in", "names": "a", "start": "2026-01-01T00:00", "end": "2026-01-02T00:00"}
    for values, field, words in [
        ({"box": ""}, "box", "A box has a name"), ({"names": "\n\n"}, "names", "Write at least one name."),
        ({"names": "a\n\nb\tc"}, "names", "Line 3 is no name"), ({"names": "a\n" + "ä" * 513}, "names", "Line 2 is no name"),
        ({"end": "2026-01-08T00:01"}, "end", "for 7 days at most"), ({"end": "2026-01-01T00:00"}, "end", "must lie behind"),
    ]:
        tried("links", links, values, field, words)
    check("nothing was sent", is_not(len(case.front.passed), before))


def test_keys(case, check):
    """Keys are added with secrets made by the page, used, and revoked."""
    begin(case)
    found = send(case, "add_key", id="tender-2")
    secret = found["facts"].get("secret") or ""
    check("a key is added", is_not((found["kind"], found["lead"]), ("done", "The office has the key “tender-2”."))
          or (None if re.fullmatch("[0-9a-f]{64}", secret) else secret))
    both(case, check, "its words", ["shown here alone, this once"],
         ["Die Stelle hat den Schlüssel „tender-2“.", "nur dieses eine Mal"])
    case.shot("clerk-secret")
    before = set(os.listdir(case.browser.downloads))
    case.click("#keep")
    file = case.browser.downloaded(before)
    check("its secret is saved", is_not((file.name, file.read_text()), ("secret-tender-2.txt", secret + "\n")))
    copied(case, check, "#copy_secret", secret)
    found = rows(case, "SELECT role, CAST(secret AS TEXT), revoked FROM keys WHERE id = 'tender-2'")
    check("its row", is_not(found, [(0, secret, 0)]))
    found = send(case, "add_key", id="second", clerk=True)
    another = found["facts"]["secret"]
    check("another secret", None if another != secret else "it is the same")
    check("a clerk’s key", is_not(rows(case, "SELECT role FROM keys WHERE id = 'second'"), [(1,)]))
    case.click("#forget")
    left = case.browser.js("return document.documentElement.innerHTML")
    check("no secret is left behind a key that is forgotten", "it is there" if another in left else None)
    begin(case)
    send(case, "add_key", id="tender-2")
    said_refusal(case, check, "an id twice", 36, ["gives no id twice"], ["vergibt keine Kennung zweimal"])
    check("no secret of it", is_not(case.result_now()["facts"].get("secret"), None))
    add_revoked(case, check)


def add_revoked(case, check):
    """The added key is revoked, and the page's own key too."""
    [link] = owed_links(case, "PUT", "in", ["by key"], "tender-2")
    check("its link is good", is_not(asked(link, "PUT", b"by key")[0], 200))
    found = send(case, "revoke_key", id="tender-2")
    check("a key is revoked", is_not((found["kind"], found["lead"]), ("done", "The key “tender-2” is revoked.")))
    both(case, check, "revoked, its words", ["is revoked"], ["Der Schlüssel „tender-2“ ist widerrufen."])
    check("its link is refused", is_not(asked(link, "PUT", b"by key")[::2], (403, expected.refusal(20)[1].encode())))
    send(case, "revoke_key", id="tender-2")
    said_refusal(case, check, "revoked twice", 36, ["is revoked already"], ["schon widerrufen"])
    send(case, "revoke_key", id=ID)
    send(case, "revoke_key", id="second")
    said_refusal(case, check, "the own key revoked", 20, ["has revoked this key"], ["Schlüssel widerrufen"])
    case.office.kill()
    with tables.opened(case.office.file) as db:
        db.execute("UPDATE keys SET revoked = 0 WHERE id = ?", [ID])
    case.office.start()


def test_drop(case, check):
    """Files are dropped from their box, whatever their names are."""
    for name in ["a/../b", "Ä ö ' % // .pdf"]:
        [link] = owed_links(case, "PUT", "in", [name])
        check(f"{name} is put", is_not(asked(link, "PUT", b"x")[0], 200))
    begin(case)
    for name in ["a/../b", "Ä ö ' % // .pdf"]:
        found = send(case, "drop_file", box="in", name=name)
        told = found["kind"], found["lead"]
        check(f"{name} is dropped", is_not(told, ("done", f"“{name}” is taken out of the box “in”.")))
        check(f"{name} is gone", is_not(rows(case, "SELECT COUNT(*) FROM files WHERE name = ?", name), [(0,)]))
    both(case, check, "its words", ["is taken out of the box “in”"], ["ist aus dem Fach „in“ genommen"])
    send(case, "drop_file", box="in", name="a/../b")
    said_refusal(case, check, "dropped twice", 36, ["no file of this name", "Else look at box and name"],
                 ["keine Datei dieses Namens"])


ELSEWHERE = b"HTTP/1.1 302 Found\r\nLocation: /put.html\r\nContent-Length: 0\r\n\r\n"
BARRED = b"HTTP/1.1 403 Forbidden\r\nContent-Length: 0\r\n\r\n"
MODES = [
    ("lost", "lost", "The connection was lost", "Die Verbindung ist abgebrochen"),
    (expected.answer(40), "refused", "Refused: number 40", "Abgelehnt: Nummer 40"),
    (ELSEWHERE, "strange", "none of the office’s", "nicht von der Stelle"),
    (BARRED, "barred", "Not allowed from here", "Von hier nicht erlaubt"),
    ("gone", "away", "The office does not answer just now", "Die Stelle antwortet gerade nicht"),
    ("swallowed", "lost", "The connection was lost", "Die Verbindung ist abgebrochen"),
]


def test_faults(case, check):
    """A lost command or answer is reported with a warning, and "try again" sends the same command again."""
    begin(case)
    fill(case, "add_key", id="unsure")
    secret = None
    for mode, kind, english, german in MODES:
        if mode == "gone":
            case.office.kill()
        case.front.mode = "through" if mode == "gone" else mode
        found = again(case) if secret else send(case, "add_key")
        secret = secret or found["facts"].get("secret")
        name = f"a command, {mode if isinstance(mode, str) else kind}"
        check(name, is_not((found["kind"], found["again"], found["focus"]), (kind, "Try again", "result_title"))
              or lacks(found["live"], found["title"]))
        unsure = kind != "barred"
        both(case, check, f"{name}, words", [english, *["Perhaps it was done, perhaps not."] * unsure],
             [german, *["Vielleicht wurde es getan, vielleicht nicht."] * unsure])
        if kind != "barred":
            check(f"{name}, the same secret", is_not(found["facts"].get("secret"), secret))
        if mode == "gone":
            case.shot("clerk-away")
            case.office.start()
    case.front.mode = "through"
    again(case)
    said_refusal(case, check, "it was done the first time", 36, ["the first was probably done, with the secret that was shown"],
                 ["beim ersten Mal getan, mit dem Geheimnis"])
    check("its secret is still there", is_not(case.result_now()["facts"].get("secret"), secret))
    case.front.mode = "lost"
    found = send(case, "drop_file", box="in", name="a")
    both(case, check, "a file that is perhaps dropped", ["look first whether another file has come"], ["Sehen Sie aber zuerst nach"])
    case.front.mode = "through"
    found = rows(case, "SELECT CAST(secret AS TEXT) FROM keys WHERE id = 'unsure'")
    check("the secret that was shown", is_not(found, [(secret,)]))
    opened(case)
    case.office.kill()
    found = use_key(case)
    check("the key, gone", is_not((found["kind"], found["again"]), ("away", "Try again")) or lacks(found["text"], "status 502"))
    case.office.start()
    check("the key, tried again", is_not(again(case)["kind"], "keyed"))


# ---- links


START = "20260130T233000Z"
HELD = {"start": field_of(utc(2026, 1, 30, 23, 30)), "end": field_of(utc(2026, 2, 6, 23, 30))}


def link_of_drop(case, copy, method, name, **where):
    """The link that `drop link` prints for this name."""
    ran = case.drop.link(copy, method, f"in/{name}", **{"host": case.front.host, "start": START, "expires": "604800"} | where)
    assert ran.status == 0, ran
    return ran.out.decode().removesuffix("\n")


def test_one_link(case, check):
    """A link is that of `drop link`; the page's address for it is shown too, if a browser can send the link."""
    begin(case)
    copy = copy_of(case)
    for method, name in [("PUT", NAMES[1]), ("GET", "ä" * 512), ("PUT", DOTS[0])]:
        found = send(case, "links", box="in", names=name, **{method.lower(): True}, **HELD)
        link = link_of_drop(case, copy, method, name)
        [row], _ = saved(case)
        check(f"{method} {name[:20]!r}", is_not((found["title"], row["link"]), ("One link", link)))
        page = "" if name in DOTS else page_of(case, method, link)
        shown = case.browser.js("return document.querySelector('#made code').textContent")
        check(f"{method} {name[:20]!r}, the page’s address", is_not((row["page"], shown), (page, page or link)))
    both(case, check, "a name that no browser sends", ["No browser can send this name", "curl --path-as-is"],
         ["Diesen Namen kann kein Browser senden", "curl --path-as-is"])
    case.shot("clerk-dots")
    copied(case, check, "#copy_0", link)
    case.browser.js("navigator.clipboard.writeText = async () => { throw new DOMException('no'); }")
    case.click("#copy_0")
    case.browser.wait_for("return document.getElementById('copied').textContent.includes('by the keyboard')")
    check("it is selected", is_not(case.browser.js("return String(getSelection())"), link))
    opened(case)
    use_key(case, host="files.example", region="eu-1")
    send(case, "links", box="in", names="a.txt", **HELD)
    [row], _ = saved(case)
    link = link_of_drop(case, copy, "PUT", "a.txt", host="files.example", region="eu-1")
    check("another host", is_not((row["link"], row["page"]), (link, f"http://files.example/put.html#{link}")))


def test_odd_names(case, check):
    """Links for odd names are those of `drop link`; names that may be mistakes are pointed out."""
    begin(case)
    copy, names = copy_of(case), [*NAMES, *DOTS, NAMES[0]]
    for method in ["PUT", "GET"]:
        send(case, "links", box="in", names="\n".join(names), **{method.lower(): True}, **HELD)
        both(case, check, f"notes, {method}", ["begins or ends with a space", "stands more than once"],
             ["beginnt oder endet mit einem Leerzeichen", "steht mehr als einmal da"])
        made, _ = saved(case)
        check(f"names, {method}", is_not([it["name"] for it in made], names))
        for row in made:
            link = link_of_drop(case, copy, method, row["name"])
            page = "" if row["name"] in DOTS else page_of(case, method, link)
            check(f"{method} {row['name']!r}", is_not((row["link"], row["page"]), (link, page)))
    case.shot("clerk-links")


def test_many_links(case, check):
    """120 links of each method are those of `drop links`, row by row; how many are made is shown and announced."""
    names = [f"{number:03} {NAMES[number % len(NAMES)].strip()}" for number in range(120)]
    begin(case)
    for method in ["PUT", "GET"]:
        case.browser.js("""window.said = []; window.bars = [];
            const seen = (id, act) => new MutationObserver(act).observe(document.getElementById(id),
              {attributes: true, childList: true, characterData: true, subtree: true});
            seen("live", () => window.said.push(document.getElementById("live").textContent));
            seen("progress", () => window.bars.push([document.getElementById("progress").hidden,
              document.getElementById("bar").value, document.getElementById("so_far").textContent]));""")
        found = send(case, "links", box="in", names="\n".join(names) + "\n\n", **{method.lower(): True}, **HELD)
        check(f"120 links, {method}", is_not((found["kind"], found["title"]), ("links", "120 links"))
              or lacks(found["facts"].get("until_then"), "Feb 7, 2026, 12:30", "(UTC+01:00)", "Feb 7, 2026, 5:00:00"))
        made, text = saved(case)
        owed = owed_links(case, method, "in", names, start=START, expires=604800)
        check(f"120 links, {method}, as drop links", is_not([it["link"] for it in made], owed))
        check(f"120 links, {method}, names", is_not([it["name"] for it in made], names))
        check(f"120 links, {method}, rows", is_not({(it["method"], it["box"], it["start"], it["expires"]) for it in made},
                                                   {(method, "in", START, "604800")}))
        pages = [page_of(case, method, it) for it in owed]
        check(f"120 links, {method}, addresses", is_not([it["page"] for it in made], pages))
        copied(case, check, "#copy_all", "".join(f"{it}\n" for it in pages))
        bars = case.browser.js("return window.bars")
        check(f"the bar, {method}", is_not((bars[0][0], bars[-1][0]), (False, True))
              or (None if [False, 50, "60 of 120 links"] in bars else f"{bars}"))
        said = case.browser.js("return window.said")
        check(f"it is said, {method}", None if said[0] == "The links are being made" and "60 of 120 links" in said else said)
    ran = case.drop.run("links", copy_of(case), "--key", ID, "--host", case.front.host, "--region", "us-east-1",
                        given="".join(f"{it.rpartition(',http')[0].rpartition(',http')[0]}\n" for it in
                                      ["method,box,name,start,expires,http,http", *text.splitlines()[1:]]).encode())
    check("the file as drop links", is_not("".join(f"{it.rpartition(',')[0]}\n" for it in text.splitlines()), ran.out.decode()))


def test_many_more(case, check):
    """Making links is stopped; and more links are made than are shown."""
    begin(case)
    fill(case, "links", box="in", names="\n".join(map(str, range(20000))), **HELD)
    case.click("#links_go")
    case.browser.wait_for("return document.activeElement.id === 'stop'")
    case.browser.press(ENTER)
    found = case.result("stopped")
    both(case, check, "stopped", ["Stopped", "No links were kept."], ["Angehalten", "Die Links wurden verworfen."])
    found = send(case, "links", names="\n".join(map(str, range(1000))))
    check("a thousand", is_not(found["title"], "1,000 links") or lacks(found["text"], "The first 200 are shown."))
    made, _ = saved(case)
    shown = case.browser.js("return document.querySelectorAll('#made li').length")
    check("all are saved", is_not((len(made), shown), (1000, 200)))


def sent_by(row):
    """What a stranger sends by the link of this row, and the answer."""
    data = row["name"].encode() * 9
    status, _, body = asked(row["link"], "PUT", data)
    return data, (status, body.decode())


def test_tender(case, check):
    """A whole tender, during which the office is never stopped.

    The clerk's page opens a box and makes 120 links. Strangers send by put.html and by their own program, and find their
    receipts in the published manifest. The page closes the box, and late uploads are refused. Then the clerk fetches all.
    """
    before = len(receipts(case))
    serves = case.office.process
    now = datetime.datetime.now(datetime.timezone.utc)
    held = {"start": field_of(now), "end": field_of(now + datetime.timedelta(hours=1))}
    names = [f"offer {number:03}/Ä ' %.pdf" for number in range(120)]
    begin(case)
    found = send(case, "add_box", box="tender", opens=held["start"], closes=held["end"], quota="1", files="120")
    check("tender: a box", is_not(found["kind"], "done"))
    made = {}
    for method in ["PUT", "GET"]:
        send(case, "links", box="tender", names="\n".join(names), **{method.lower(): True}, **held)
        made[method] = saved(case)[0]
    sent = [sent_by(row) for row in made["PUT"][2:-1]]
    owed = [(200, f"receipt {before + at} {len(data)} {digest(data)}\n") for at, (data, _) in enumerate(sent, 1)]
    check("tender: a program’s uploads", is_not([answer for _, answer in sent], owed))
    known = [[str(before + at), "tender", name, str(len(data)), digest(data)]
             for at, ((data, _), name) in enumerate(zip(sent, names[2:]), 1)]
    found = until("the receipts are published", lambda: (it := published(case)[-len(known):]) and it[-1][2] == names[-2] and it)
    check("tender: the receipts are published", is_not([row[:5] for row in found], known))
    for row in made["PUT"][:2]:
        found = case.put(row["page"].partition("#")[2], "mine.pdf", row["name"].encode() * 9)
        check("tender: put.html", is_not((found["kind"], found["facts"].get("name")), ("receipt", row["name"])))
    begin(case)
    found = send(case, "close_box", box="tender", moment=field_of(now - datetime.timedelta(minutes=1)))
    check("tender: closed", is_not(found["kind"], "done"))
    check("tender: who is late", is_not(sent_by(made["PUT"][-1])[1], (403, expected.refusal(30)[1])))
    found = case.put(made["PUT"][-1]["page"].partition("#")[2], "late.pdf", b"late")
    check("tender: who is late, put.html", is_not(found["title"], "Refused: number 30"))
    fetched = [asked(row["link"], "GET")[::2] for row in made["GET"][:-1]]
    check("tender: all is fetched", is_not(fetched, [(200, name.encode() * 9) for name in names[:-1]]))
    found = case.fetch(made["GET"][0]["page"].partition("#")[2])
    check("tender: get.html", is_not(found["kind"], "fetched"))
    check("tender: the office was never stopped", is_not((case.office.process, serves.poll()), (serves, None)))
    listed = [it.split(",", 3)[1:3] for it in receipts(case)[before:]]
    check("tender: the manifest", is_not(sorted(listed), sorted(["tender", name] for name in names[:-1])))


AUTHORITY = """[tsa]
default_tsa = trial
[trial]
serial = authority.serial
default_policy = 1.2.3.4
digests = sha256
signer_digest = sha256
ess_cert_id_alg = sha256
"""


# ---- keyboard only, screen readers, a telephone


def test_keyboard(case, check):
    """The key, a link and a command, with Tab, Enter and Space only."""
    opened(case, f"east=60&key={ID}")
    order = [it for it in tabbed(case, 7)]
    check("the order", is_not(order, ["de", "en", "use_key_id", "use_key_secret", "use_key_file", "use_key_clock", ""]))
    case.browser.press(TAB)
    check("the button", is_not(case.browser.active(), "use_key_go"))
    case.browser.js("document.getElementById('use_key_secret').focus()")
    case.browser.press(*WORD, ENTER)
    check("the key by keys", is_not(case.result(*KINDS)["kind"], "keyed"))
    case.browser.js("document.querySelector('#task_links summary').focus()")
    case.browser.press(ENTER)
    check("it is opened", is_not(case.browser.js("return document.getElementById('task_links').open"), True))
    check("its fields", is_not(tabbed(case, 3), ["links_put", "links_box", "links_names"]))
    case.browser.js("document.getElementById('links_box').focus()")
    case.browser.press(*"in", TAB, *"by keys", TAB)
    reached = [case.browser.active()]
    while reached[-1] != "links_go" and len(reached) < 20:
        reached += tabbed(case, 1)
    check("the fields behind them", is_not(list(dict.fromkeys(reached)), ["links_start", "links_end", "links_go"]))
    case.browser.press(ENTER)
    found = case.result("links")
    check("a link by keys", is_not((found["title"], found["focus"]), ("One link", "result_title")))
    check("what comes behind it", is_not(tabbed(case, 3), ["copy_all", "keep", "copy_0"]))
    outline = "return getComputedStyle(document.activeElement).outlineStyle"
    check("the focus is seen", is_not(case.browser.js(outline), "solid"))
    case.browser.js("document.querySelector('#task_add_key summary').focus()")
    case.browser.press(ENTER, TAB, *"by-keys", TAB, TAB, ENTER)
    until("the key", lambda: (it := case.result_now()) and it["kind"] == "done")
    check("a command by keys", lacks(case.result_now()["lead"], "by-keys"))


def test_reader(case, check):
    """Each control has a name; hints and faults belong to their fields; results are in named regions."""
    opened(case)
    owed = {"de": ("button", "Deutsch"), "en": ("button", "English"), "use_key_id": ("textbox", "Id of the key"),
            "use_key_secret": ("textbox", "Secret"), "use_key_clock": ("textbox", "The office’s clock, ahead of UTC by"),
            "use_key_go": ("button", "Use this key")}
    found = labels(case)
    check("names, the key", is_not({it: found.get(it) for it in owed}, owed))
    check("a file’s name", lacks(found["use_key_file"][1], "Or a file with the secret"))
    begin(case)
    case.browser.js("for (const it of document.querySelectorAll('details')) it.open = true")
    case.speak("de")
    nameless = [name for name, (_, label) in labels(case).items() if not label.strip()]
    check("each control has a name", is_not(nameless, []))
    check("days, German", is_not(case.browser.find("#add_box_day_0").label(), "Montag"))
    page = "return [document.documentElement.lang, document.title]"
    check("the page’s language", is_not(case.browser.js(page), ["de", "Verwaltung der Stelle"]))
    case.speak("en")
    check("days", is_not(case.browser.find("#add_box_day_0").label(), "Monday"))
    described = case.browser.js("""return Array.from(document.querySelectorAll("form [aria-describedby]"), (it) =>
        it.getAttribute("aria-describedby").split(" ").every((id) => document.getElementById(id)))""")
    check("what describes fields is there", None if described and all(described) else f"{described}")
    ids = case.browser.js("return Array.from(document.querySelectorAll('[id]'), (it) => it.id)")
    check("ids stand once", is_not(len(ids), len(set(ids))))
    send(case, "close_box", box="nowhere")
    region = case.browser.find("#result")
    check("the result’s region", is_not((region.role(), region.label()), ("region", "Refused: number 36")))
    send(case, "links", box="in", names="one", **HELD)
    check("the copy button’s name", is_not(case.browser.find("#copy_0").label(), "Copy the address for one"))
    live = case.browser.find("#live")
    check("the live region", is_not(live.role(), "status"))


def test_looks(case, check):
    """The page looks right narrow, wide, light and dark."""
    def all_open():
        begin(case)
        case.browser.js("for (const it of document.querySelectorAll('details')) it.open = true")

    def wrong():
        all_open()
        send_nothing = "for (const it of ['add_box', 'links', 'drop_file']) document.getElementById(it).requestSubmit()"
        case.browser.js(send_nothing)

    def many():
        begin(case)
        send(case, "links", box="in", names="\n".join(["ä" * 300, "a/../b", *NAMES]), **HELD)

    def secret():
        begin(case)
        send(case, "add_key", id=f"looks-{len(case.front.passed)}")

    looks(case, check, [("the key", lambda: opened(case)), ("all forms", all_open), ("wrong fields", wrong), ("links", many),
                        ("a secret", secret)])


def test_insecure(case, check):
    """Over plain http from another host, the page says why it can't sign, and offers nothing."""
    opened(case, host=f"files.example:{case.front.port}")
    shown = case.browser.js("return document.getElementById('insecure').innerText")
    hidden = case.browser.js(HIDDEN, ["insecure", "key", "work"])
    check("it says why", is_not(hidden, [False, True, True]) or lacks(shown, "http, not https", "drop link and drop desk"))
    case.shot("clerk-insecure")
    case.speak("de")
    shown = case.browser.js("return document.getElementById('insecure').innerText")
    check("it says why, German", lacks(shown, "http statt https", "drop link und drop desk"))


def test_own_origin(case, check):
    """Nothing is loaded from elsewhere, and nothing could be."""
    case.browser.ask("POST", "/se/log", {"type": "browser"})
    begin(case)
    send(case, "links", box="in", names="a", **HELD)
    case.click("#de")
    loads_its_own(case, check, "clerk")
    log = [it["message"] for it in case.browser.ask("POST", "/se/log", {"type": "browser"})]
    others = [it for it in log if "400 (Bad Request)" not in it]
    check("the browser complains of nothing but the empty command", is_not(others, []))
    reaches_nothing_else(case, check)


# ---- the end


def published(case):
    """The rows of the manifest that the office publishes."""
    with open(case.office.published[1], encoding="utf-8", newline="") as reader:
        return list(csv.reader(reader))


def test_end(case, check):
    """The office ends: the published manifest is its own, and is stamped; each file is exported, and the sums are right."""
    folder = case.drop.folder
    case.office.kill()
    manifest = case.drop.run("manifest", case.office.file)
    kept = pathlib.Path(case.office.published[1])
    check("end: the manifest", is_not((manifest.status, kept.read_bytes()), (0, manifest.out)))
    exported = case.drop.run("export", case.office.file, folder / "exported")
    check("end: the export", is_not(exported, kit.Run(0, b"", b"")))
    sums = kit.run(["sha256sum", "--check", "--strict", "--quiet", "SHA256SUMS"], cwd=folder / "exported")
    check("end: the sums", is_not(sums, kit.Run(0, b"", b"")))
    with open(folder / "exported" / "files.csv", encoding="utf-8", newline="") as reader:
        rows = list(csv.DictReader(reader))
    there = {row[0]: row[4] for row in published(case)[1:]}
    check("end: each file has the digest of its receipt", is_not([it for it in rows if there[it["receipt"]] != it["sha256"]], []))
    tender = [(folder / "exported" / it["path"]).read_bytes() == it["name"].encode() * 9 for it in rows if it["box"] == "tender"]
    check("end: the tender’s files", is_not(tender, [True] * 119))
    for name, (status, line) in stamped(folder, kept).items():
        owed = (0, "Verification: OK") if name == "of the manifest" else (1, "Verification: FAILED")
        check(f"end: a stamp, {name}", is_not((status, line), owed))


def stamped(folder, manifest):
    """Has a trial authority of openssl stamp the manifest. Returns the results of verifying it for that one and another."""
    def openssl(*words):
        return kit.run(["openssl", *words], cwd=folder)

    (folder / "authority.cnf").write_text(AUTHORITY)
    (folder / "authority.serial").write_text("01\n")
    openssl("req", "-x509", "-newkey", "ec", "-pkeyopt", "ec_paramgen_curve:prime256v1", "-nodes", "-days", "30", "-subj", "/CN=A trial",
            "-addext", "extendedKeyUsage=critical,timeStamping", "-keyout", "authority.key", "-out", "authority.pem")
    openssl("ts", "-query", "-data", manifest, "-sha256", "-cert", "-out", "manifest.tsq")
    openssl("ts", "-reply", "-config", "authority.cnf", "-queryfile", "manifest.tsq", "-signer", "authority.pem", "-inkey",
            "authority.key", "-out", "manifest.tsr")
    (folder / "other.csv").write_bytes(manifest.read_bytes().replace(b"offer 000", b"offer 900"))
    found = {}
    for name, data in [("of the manifest", manifest), ("of another", "other.csv")]:
        tried = openssl("ts", "-verify", "-data", data, "-in", "manifest.tsr", "-CAfile", "authority.pem")
        found[name] = tried.status, tried.out.decode().strip().splitlines()[-1]
    return found
