"""Debian's chromium, headless, driven by the WebDriver protocol over HTTP, with only Python's `urllib`."""

import base64
import contextlib
import json
import os
import pathlib
import shutil
import subprocess
import time
import urllib.error
import urllib.request

from front import free_port

SECONDS = 30


def until(what, call, seconds=SECONDS):
    """Repeats the call until its result is true, and returns that result."""
    end = time.monotonic() + seconds
    while not (found := call()):
        if time.monotonic() > end:
            raise AssertionError(f"{what}: not within {seconds} seconds")
        time.sleep(0.02)
    return found


class Element:
    KEY = "element-6066-11e4-a52e-4f735466cecf"

    def __init__(self, browser, value):
        self.browser, self.id = browser, value[self.KEY]

    def ask(self, method, path, body=None):
        return self.browser.ask(method, f"/element/{self.id}{path}", body)

    def click(self):
        self.ask("POST", "/click", {})

    def type(self, text):
        self.ask("POST", "/value", {"text": text})

    def label(self):
        return self.ask("GET", "/computedlabel")

    def role(self):
        return self.ask("GET", "/computedrole")


class Browser:
    """A session of chromium's driver, in a folder of its own. For https it accepts any certificate."""

    def __init__(self, folder, scheme="http"):
        self.folder, self.port, self.opened, self.path = folder, free_port(), 0, ""
        self.scheme = scheme
        self.downloads = folder / "downloads"
        self.downloads.mkdir()
        pipes = {"stdin": subprocess.DEVNULL, "stdout": subprocess.DEVNULL, "stderr": subprocess.DEVNULL}
        environment = os.environ | {"HOME": str(folder), "XDG_CONFIG_HOME": str(folder), "TMPDIR": str(folder)}
        self.driver = subprocess.Popen(["chromedriver", f"--port={self.port}"], cwd=folder, env=environment, **pipes)

    def __enter__(self):
        until("the driver", self.is_ready)
        options = {"binary": shutil.which("chromium"), "args": [
            "--headless=new", "--no-sandbox", "--disable-dev-shm-usage", "--disable-gpu", "--in-process-gpu",
            "--no-first-run", "--lang=en-US",
            "--window-size=1000,700", "--disable-background-networking", "--disable-component-update",
            "--disable-extensions", "--hide-scrollbars", f"--user-data-dir={self.folder / 'profile'}",
            "--host-resolver-rules=MAP files.example 127.0.0.1",
        ], "prefs": {"download.default_directory": str(self.downloads), "intl.accept_languages": "en-US,en"}}
        wanted = {"browserName": "chrome", "pageLoadStrategy": "eager", "goog:chromeOptions": options,
                  "goog:loggingPrefs": {"browser": "ALL"}, "acceptInsecureCerts": self.scheme == "https"}
        found = self.call("POST", "/session", {"capabilities": {"alwaysMatch": wanted}})
        self.path = f"/session/{found['sessionId']}"
        self.agent = self.js("return navigator.userAgent")
        return self

    def __exit__(self, *_):
        with contextlib.suppress(Exception):
            self.ask("DELETE", "")
        self.driver.terminate()
        try:
            self.driver.wait(10)
        except subprocess.TimeoutExpired:
            self.driver.kill()

    def is_ready(self):
        try:
            return self.call("GET", "/status")["ready"]
        except OSError:
            return False

    def call(self, method, path, body=None):
        data = None if body is None else json.dumps(body).encode()
        request = urllib.request.Request(f"http://127.0.0.1:{self.port}{path}", data=data, method=method)
        try:
            with urllib.request.urlopen(request, timeout=60) as it:
                return json.load(it)["value"]
        except urllib.error.HTTPError as error:
            raise AssertionError(f"{method} {path}: {error.read().decode()[:400]}") from None

    def ask(self, method, path, body=None):
        return self.call(method, self.path + path, body)

    def cdp(self, command, **params):
        return self.ask("POST", "/goog/cdp/execute", {"cmd": command, "params": params})

    def js(self, script, *values):
        return self.ask("POST", "/execute/sync", {"script": script, "args": list(values)})

    def wait_for(self, script, *values):
        return until(script, lambda: self.js(script, *values))

    def open(self, host, page, link):
        """Loads a page anew with this link."""
        self.opened += 1
        self.ask("POST", "/url", {"url": f"{self.scheme}://{host}/{page}.html?{self.opened}#{link}"})

    def find(self, selector):
        return Element(self, self.ask("POST", "/element", {"using": "css selector", "value": selector}))

    def all(self, selector):
        found = self.ask("POST", "/elements", {"using": "css selector", "value": selector})
        return [Element(self, value) for value in found]

    def press(self, *keys):
        """Presses and releases each key, on whatever has the focus."""
        actions = [{"type": kind, "value": key} for key in keys for kind in ("keyDown", "keyUp")]
        self.ask("POST", "/actions", {"actions": [{"type": "key", "id": "keys", "actions": actions}]})

    def active(self):
        return self.js("return document.activeElement && document.activeElement.id")

    def width(self, pixels, height=900):
        size = {"width": pixels, "height": height, "deviceScaleFactor": 1}
        self.cdp("Emulation.setDeviceMetricsOverride", mobile=pixels < 600, **size)

    def media(self, kind="", **features):
        named = [{"name": name.replace("_", "-"), "value": value} for name, value in features.items()]
        self.cdp("Emulation.setEmulatedMedia", media=kind, features=named)

    def shot(self, file):
        """Saves a screenshot of the whole page."""
        size = self.js("return [document.documentElement.clientWidth, document.documentElement.scrollHeight]")
        clip = {"x": 0, "y": 0, "width": size[0], "height": size[1], "scale": 1}
        found = self.cdp("Page.captureScreenshot", format="png", captureBeyondViewport=True, clip=clip)
        pathlib.Path(file).write_bytes(base64.b64decode(found["data"]))

    def downloaded(self, before):
        """The one file downloaded since `before`, once it is complete."""
        def new():
            names = set(os.listdir(self.downloads)) - before
            return names and not any(name.endswith(".crdownload") or name.startswith(".") for name in names) and names
        names = until("a download", new)
        assert len(names) == 1, names
        return self.downloads / names.pop()
