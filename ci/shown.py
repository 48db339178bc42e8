"""Helpers for tests of page/: what they do and find in a browser, and what is expected of a receipt."""

import contextlib
import hashlib

from browser import Browser, Element, until

RESULT = """
const result = document.getElementById("result");
if (result.hidden) return null;
const all = {kind: result.dataset.kind, title: document.getElementById("result_title").textContent, text: result.innerText};
const facts = Array.from(result.querySelectorAll("[data-fact]"));
all.facts = Object.fromEntries(facts.map((it) => [it.dataset.fact, it.textContent]));
for (const id of ["what", "remedy", "lead", "checked", "save", "again"]) {
  const it = document.getElementById(id);
  all[id] = it && it.textContent;
}
all.focus = document.activeElement.id;
all.live = document.getElementById("live").textContent;
return all;
"""


class Case:
    """A test's office, front and browser, the links that it needs, and files to choose."""

    def __init__(self, drop, office, front, browser, links, shots):
        self.drop, self.office, self.front, self.browser = drop, office, front, browser
        self.links, self.shots = links, shots

    def file(self, name, data):
        file = self.drop.path("files") / name
        file.parent.mkdir(exist_ok=True)
        file.write_bytes(data)
        return str(file)

    def open(self, page, link, host=None):
        self.front.mode = "through"
        self.browser.open(host or self.front.host, page, self.links.get(link, link))

    def choose(self, name, data):
        self.browser.find("#file").type(self.file(name, data))

    def result(self, *kinds):
        """The result that is shown, once it is of one of these kinds."""
        kinds = kinds or ("receipt", "fetched", "refused", "lost", "stopped", "away", "strange", "unreadable")
        def shown():
            found = self.browser.js(RESULT)
            return found if found and found["kind"] in kinds else None
        return until(f"a result {kinds}", shown)

    def result_now(self):
        """The result that is shown, or None."""
        return self.browser.js(RESULT)

    def click(self, selector):
        self.browser.find(selector).click()

    def speak(self, language):
        """Switches the language by a script, which is faster than `click`."""
        self.browser.js("document.getElementById(arguments[0]).click()", language)

    def put(self, link, name, data, host=None):
        self.open("put", link, host)
        self.choose(name, data)
        self.click("#go")
        return self.result()

    def fetch(self, link, host=None):
        self.open("get", link, host)
        self.click("#go")
        return self.result()

    def shot(self, name):
        """Saves screenshots: in both languages, narrow and wide, light and dark."""
        if not self.shots:
            return
        for width in [320, 1280]:
            self.browser.width(width)
            for scheme in ["light", "dark"]:
                self.browser.media(prefers_color_scheme=scheme)
                for language in ["en", "de"]:
                    self.speak(language)
                    self.browser.shot(self.shots / f"{name}-{language}-{width}-{scheme}.png")
        self.click("#en")
        self.browser.media()
        self.browser.width(1280)


@contextlib.contextmanager
def opened_case(drop, office, front, links, shots):
    """A case whose office runs and whose browser is open."""
    office.start()
    try:
        with Browser(drop.folder) as browser:
            yield Case(drop, office, front, browser, links, shots)
    finally:
        office.kill()


def digest(data):
    return hashlib.sha256(data).hexdigest()


def is_not(found, owed):
    return None if found == owed else f"{found!r} and not {owed!r}"


def lacks(text, *words):
    """Which of the words a text lacks."""
    missing = [word for word in words if word not in (text or "")]
    return f"{missing} not in {text!r}" if missing else None


def receipt_facts(number, data):
    digests = {"office_digest": digest(data), "own_digest": digest(data)}
    return {"number": str(number), "length": f"{len(data):,} bytes"} | digests


def of(found, owed):
    """Those facts of a result that are expected, without the others."""
    return {name: found["facts"].get(name) for name in owed}


# ---- on each page


TAB, ENTER, SPACE = "\ue004", "\ue007", " "


def receipts(case):
    """The receipts of the office, from a manifest; the office is stopped meanwhile."""
    case.office.kill()
    ran = case.drop.run("manifest", case.office.file)
    case.office.start()
    assert ran.status == 0, ran
    return ran.out.decode().splitlines()[1:]


def tabbed(case, times):
    """What has the focus after each of so many Tabs."""
    order = []
    for _ in range(times):
        case.browser.press(TAB)
        order.append(case.browser.active())
    return order


CONTROLS = "button, input, a, progress, select, textarea, summary, [tabindex='0']"
SEEN = "return arguments[0].id === 'file' ? arguments[0].closest('[hidden]') === null : arguments[0].offsetParent !== null"


def labels(case):
    """Role and accessible name of each control that is shown."""
    found = [it for it in case.browser.all(CONTROLS) if case.browser.js(SEEN, {Element.KEY: it.id})]
    return {case.browser.js("return arguments[0].id", {Element.KEY: it.id}): (it.role(), it.label()) for it in found}


BACKGROUND = "return getComputedStyle(document.body).backgroundColor"
# The lowest contrast of any text that is shown with its background, by WCAG 2.2.
CONTRAST = """
const parse = (it) => it.match(/[\\d.]+/g).map(Number);
const light = (it) => it.slice(0, 3).map((c) => c / 255).map((c) => c <= 0.04045 ? c / 12.92 : ((c + 0.055) / 1.055) ** 2.4)
  .reduce((sum, c, at) => sum + c * [0.2126, 0.7152, 0.0722][at], 0);
const back = (it) => {
  const colour = parse(getComputedStyle(it).backgroundColor);
  return (colour.length === 3 || colour[3] > 0) ? colour : back(it.parentElement);
};
const written = (it) => Array.from(it.childNodes).some((part) => part.nodeType === 3 && part.data.trim());
const texts = Array.from(document.body.querySelectorAll("*")).filter((it) => it.offsetParent && written(it));
return Math.min(...texts.map((it) => {
  const [a, b] = [light(parse(getComputedStyle(it).color)), light(back(it))];
  return (Math.max(a, b) + 0.05) / (Math.min(a, b) + 0.05);
}));
"""


def looks(case, check, states):
    """Checks each state: no sideways scrolling on a phone; enough contrast, light and dark. Then checks that nothing moves if
    that is not wanted."""
    for name, reach in states:
        reach()
        case.browser.width(320)
        for language in ["en", "de"]:
            case.speak(language)
            wide = case.browser.js("return [innerWidth, document.documentElement.scrollWidth]")
            check(f"320 pixels, {name}, {language}", is_not(wide, [320, 320]))
        small = case.browser.js("const all = document.querySelectorAll('button, .button, summary, .choice');"
                                "return Array.from(all, (it) => it.offsetHeight).filter((it) => it && it < 44)")
        check(f"large enough for a finger, {name}", is_not(small, []))
        case.browser.width(1280)
        for scheme in ["light", "dark"]:
            case.browser.media(prefers_color_scheme=scheme)
            contrast = case.browser.js(CONTRAST)
            check(f"contrast, {name}, {scheme}", None if contrast >= 4.5 else contrast)
        dark = case.browser.js(BACKGROUND)
        case.browser.media()
        check(f"dark, {name}", None if dark != case.browser.js(BACKGROUND) else dark)
    case.browser.media(prefers_reduced_motion="reduce")
    moving = case.browser.js("return Array.from(document.querySelectorAll('*'), (it) => getComputedStyle(it))"
                             ".filter((it) => it.animationName !== 'none' || it.transitionDuration !== '0s').length")
    check("reduced motion", is_not(moving, 0))
    case.browser.media()


def loads_its_own(case, check, page):
    """Checks that all that the page has loaded is from its own origin."""
    names = case.browser.js("return performance.getEntriesByType('resource').map((it) => it.name)")
    far = [it for it in names if not it.startswith(f"http://{case.front.host}/")]
    check(f"{page} loads from its own origin", is_not((far, len(names) >= 4), ([], True)))


def reaches_nothing_else(case, check):
    """Checks that nothing can be loaded from elsewhere."""
    elsewhere = f"http://files.example:{case.front.port}/put.html"
    for what, script in [
        ("fetch", "fetch(url, {mode: 'no-cors'}).then(() => done('loaded'), () => done('barred'))"),
        ("a picture", "const it = new Image(); it.onload = () => done('loaded'); it.onerror = () => done('barred');"
                      "it.src = url"),
        ("a script in the page", "const it = document.createElement('script'); it.textContent = 'window.ran = 1';"
                                 "document.body.append(it); done(window.ran ? 'loaded' : 'barred')"),
    ]:
        whole = f"const [url, done] = arguments; {script}"
        found = case.browser.ask("POST", "/execute/async", {"script": whole, "args": [elsewhere]})
        check(f"{what} is barred", is_not(found, "barred"))
