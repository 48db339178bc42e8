"""Helpers for tests of page/clerk.html: what they do and find in a browser, and the links expected of `drop links`."""

import csv
import datetime
import io
import os
import pathlib
import shutil

import expected
import tables
from expected import ID, SECRET
from shown import is_not, lacks

WORD = SECRET.decode()
EAST = 60
KINDS = ("keyed", "done", "refused", "lost", "stopped", "away", "strange", "barred", "links")

FILL = """
const [form, values] = arguments;
const task = document.getElementById("task_" + form);
if (task) task.open = true;
for (const [name, value] of Object.entries(values)) {
  const field = document.getElementById(form + "_" + name);
  if (typeof value === "boolean") field.checked = value; else field.value = value;
  field.dispatchEvent(new Event("input", {bubbles: true}));
}
"""
FAULTS = """
const bad = Array.from(document.querySelectorAll("[id$=_bad]")).filter((it) => it.textContent);
return [Object.fromEntries(bad.map((it) => [it.id.slice(0, -4), it.textContent])), document.activeElement.id,
        document.getElementById("live").textContent, Array.from(document.querySelectorAll("[aria-invalid=true]"), (it) => it.id)];
"""
HIDDEN = "return arguments[0].map((it) => document.getElementById(it).closest('[hidden]') !== null)"


def fill(case, form, **values):
    case.browser.js(FILL, form, values)


def send(case, form, **values):
    """Fills in the form and sends it; returns the result, in the words of the page."""
    fill(case, form, **values)
    case.browser.js("document.getElementById('result').hidden = true")
    case.click(f"#{form}_go")
    return case.result(*KINDS)


def again(case):
    case.browser.js("document.getElementById('result').dataset.kind = ''")
    case.click("#again")
    return case.result(*KINDS)


def opened(case, preset="east=60", host=None):
    """Opens the page anew."""
    case.open("clerk", preset, host)
    case.browser.wait_for("return !document.getElementById('languages').hidden")


def use_key(case, key=ID, secret=WORD, **more):
    return send(case, "use_key", id=key, secret=secret, **more)


def begin(case, **key):
    """Opens the page with a key that the office knows as a clerk's."""
    opened(case)
    found = use_key(case, **key)
    assert found["kind"] == "keyed", found
    return found


def rows(case, query, *values):
    """Rows of the office's tables; the office is stopped while they are read."""
    case.office.kill()
    found = tables.rows(case.office.file, query, *values)
    case.office.start()
    return found


def spoken(case, language, words):
    """Which of these words the result lacks in a language."""
    case.speak(language)
    found = case.result_now()
    return lacks(found["title"] + "\n" + found["text"], *words)


def both(case, check, name, english, german):
    check(name, spoken(case, "en", english))
    check(f"{name}, German", spoken(case, "de", german))
    case.speak("en")


def said_refusal(case, check, name, number, english, german):
    """Checks that the result is this refusal, with its number, its line and the words."""
    found = case.result_now()
    told = found["kind"], found["title"], found["facts"].get("office_says"), found["focus"]
    check(name, is_not(told, ("refused", f"Refused: number {number}", expected.refusal(number)[1].strip(), "result_title"))
          or lacks(found["live"], f"Refused: number {number}. {found['what']}"))
    both(case, check, f"{name}, words", ["What to do: ", *english],
         [f"Abgelehnt: Nummer {number}", "Was Sie tun können: ", *german])


def field_fault(case, check, name, field, words, focus=None):
    """Checks that only this field is reported as wrong, next to it and to a screen reader, and has the focus."""
    bad, active, live, invalid = case.browser.js(FAULTS)
    well = is_not((list(bad), active), ([field], focus or field)) or lacks(bad[field], words)
    check(name, well or lacks(live, words) or is_not(invalid, [] if focus else [field]))


# ---- moments


def field_of(moment, zone=datetime.timezone(datetime.timedelta(minutes=EAST))):
    """The text of a field for date and time, by the office's clock."""
    return moment.astimezone(zone).strftime("%Y-%m-%dT%H:%M")


def utc(*parts):
    return datetime.datetime(*parts, tzinfo=datetime.timezone.utc)


# ---- links


def copy_of(case):
    """A copy of the office file, to which a running server has exclusive access."""
    copy = case.drop.path("copy")
    for ending in ["", "-wal"]:
        pathlib.Path(f"{copy}{ending}").unlink(missing_ok=True)
    case.office.kill()
    for ending in ["", "-wal"]:
        if os.path.exists(f"{case.office.file}{ending}"):
            shutil.copy(f"{case.office.file}{ending}", f"{copy}{ending}")
    case.office.start()
    return copy


def owed_links(case, method, box, names, key=ID, start=None, expires=3600):
    """The links that `drop links` writes for these names."""
    start = start or datetime.datetime.now(datetime.timezone.utc).strftime("%Y%m%dT%H%M00Z")
    out = io.StringIO()
    csv.writer(out, lineterminator="\n").writerows([["method", "box", "name", "start", "expires"],
                                                    *([method, box, name, start, expires] for name in names)])
    words = ["--key", key, "--host", case.front.host, "--region", "us-east-1"]
    ran = case.drop.run("links", copy_of(case), *words, given=out.getvalue().encode())
    assert ran.status == 0, ran
    return [row["link"] for row in csv.DictReader(io.StringIO(ran.out.decode()))]


def saved(case):
    """The rows of the CSV file that the page offers to save, and its text."""
    before = set(os.listdir(case.browser.downloads))
    case.click("#keep")
    text = case.browser.downloaded(before).read_bytes().decode()
    return list(csv.DictReader(io.StringIO(text, newline=""))), text


def copied(case, check, button, owed):
    """Checks what this button copies, and that the page reports it."""
    case.browser.js("navigator.clipboard.writeText = async (it) => { window.copy = it; }")
    case.click(button)
    case.browser.wait_for("return document.getElementById('copied').textContent")
    said = case.browser.js("return ['copied', 'live'].map((it) => document.getElementById(it).textContent)")
    check(f"copied by {button}", is_not((case.browser.js("return window.copy"), said), (owed, ["Copied.", "Copied."])))


def page_of(case, method, link):
    return f"http://{case.front.host}/{method.lower()}.html#{link}"
