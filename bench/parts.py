#!/usr/bin/env python3
"""Runs the benches one after the other, and prints one Markdown text: the tables of docs/PERFORMANCE.md, each beside its peers of
the same run. README.md beside this says more.
"""

import argparse
import contextlib
import dataclasses
import importlib.util
import pathlib
import re
import shutil
import subprocess
import sys
import tempfile
import time

from shared import load, machine

HERE = pathlib.Path(__file__).resolve().parent
PYTHON = [sys.executable, "-B"]
# What a part needs besides Python: a test whether it is installed, and what provides it.
NEEDS = {
    "rt": (lambda: shutil.which("rt"), "the toolchain's command rt"),
    "cc": (lambda: shutil.which("cc"), "Debian's package gcc"),
    "openssl": (lambda: pathlib.Path("/usr/include/openssl/evp.h").exists(), "Debian's package libssl-dev"),
    "botocore": (lambda: importlib.util.find_spec("botocore"), "Debian's package python3-botocore"),
    "nginx": (lambda: shutil.which("nginx"), "Debian's package nginx-light"),
    "wrk": (lambda: shutil.which("wrk"), "Debian's package wrk"),
    "perf": (lambda: shutil.which("perf"), "Debian's package linux-perf"),
    "strace": (lambda: shutil.which("strace"), "Debian's package strace"),
}


@dataclasses.dataclass(frozen=True)
class Part:
    """A bench: its command, with placeholders that the run fills in, and arguments for many rounds or few."""

    title: str
    command: list
    many: list
    few: list
    needs: list
    more: list = dataclasses.field(default_factory=list)

    def words(self, given, quick):
        words = [*self.command, *(self.few if quick else self.many), *self.more]
        return [str(given.get(word, word)) for word in words]

    def lacks(self):
        return [package for name in self.needs for is_there, package in [NEEDS[name]] if not is_there()]


PARTS = {
    "links": Part("Links (`bench/links/run.sh`)", [HERE / "links/run.sh"], ["20000"], ["2000"], ["rt", "cc", "botocore"], ["OWN"]),
    "office": Part("An office in memory (`bench/office/run.sh`)", [HERE / "office/run.sh"], ["40"], ["2"],
                   ["rt", "cc", "openssl"], ["OWN"]),
    "engine": Part("The engine (`bench/engine/run.sh`)", [HERE / "engine/run.sh"], ["10"], ["2"], ["rt"], ["OWN"]),
    "file": Part("An office file (`bench/file/run.py`)", [*PYTHON, HERE / "file/run.py", "DROP"], ["--rounds", "10"],
                 ["--rounds", "2"], [], ["--folder", "FOLDER"]),
    "lists": Part("Lists (`bench/lists/run.py`)", [*PYTHON, HERE / "lists/run.py", "DROP"], ["--rounds", "5"],
                  ["--rounds", "1"], ["botocore"], ["--folder", "FOLDER"]),
    "serve": Part("The server (`bench/serve.sh`)", [HERE / "serve.sh", "DROP"], ["--rounds", "3", "--seconds", "3"],
                  ["--rounds", "1", "--seconds", "1"], ["cc", "nginx", "wrk", "perf", "strace"],
                  ["--profile", "--folder", "FOLDER"]),
}


def version(name, words, form):
    """The version that a program reports."""
    if not shutil.which(words[0]):
        return f"no {name}"
    ran = subprocess.run(words, capture_output=True, text=True, check=False)
    found = re.search(form, ran.stdout + ran.stderr)
    return f"{name} {found[1] if found else 'of no known version'}"


def versions():
    nginx = version("nginx", ["nginx", "-v"], r"nginx/(\S+)")
    return f"{nginx}, {version('OpenSSL', ['openssl', 'version'], r'OpenSSL (.+?) ')}"


def result(name, words, part, quick, folder):
    """The text for a part, and whether the part succeeded."""
    if lacks := part.lacks():
        return f"Not run: lacking is {', '.join(lacks)}.\n", False
    given = {"DROP": words.drop.resolve(), "FOLDER": folder, "OWN": folder / name}
    ran = subprocess.run(part.words(given, quick), capture_output=True, text=True, errors="replace", check=False)
    if ran.returncode == 0:
        return ran.stdout, True
    last = "\n".join(ran.stderr.splitlines()[-10:])
    return f"{ran.stdout}\nFailed, with status {ran.returncode}:\n\n```\n{last}\n```\n", False


def run_part(name, words, folder):
    part, begun, before = PARTS[name], time.monotonic(), load()
    print(f"{name} ..", file=sys.stderr, flush=True)
    text, ran = result(name, words, part, words.quick, folder)
    took = time.monotonic() - begun
    print(f"{name}: {'done' if ran else 'NOT RUN'}, {took:.0f} s", file=sys.stderr, flush=True)
    return f"## {part.title}\n\n{took:.0f} s; {before} before, {load()} after\n\n{text.strip()}\n", ran


@contextlib.contextmanager
def folder_of(words):
    """The given folder, where the benches' programs stay; otherwise a temporary one."""
    if words.folder:
        words.folder.mkdir(parents=True, exist_ok=True)
        yield words.folder.resolve()
    else:
        with tempfile.TemporaryDirectory(prefix="drop-bench-", dir="/var/tmp") as name:
            yield pathlib.Path(name)


def main():
    parser = argparse.ArgumentParser(description=__doc__)
    parser.add_argument("drop", type=pathlib.Path, help="the built program")
    parser.add_argument("--quick", action="store_true", help="few rounds: the figures are rough")
    parser.add_argument("--only", action="append", choices=PARTS, help="this part alone, and others that are named so")
    parser.add_argument("--folder", type=pathlib.Path, help="on a disk, outside of this repository; proved programs stay there")
    words = parser.parse_args()
    if not words.drop.is_file():
        parser.error(f"there is no {words.drop}")
    head, before, texts, well = f"{machine()}, {versions()}", load(), [], True
    with folder_of(words) as folder:
        try:
            for name in [it for it in PARTS if it in (words.only or PARTS)]:
                text, ran = run_part(name, words, folder)
                texts.append(text)
                well = well and ran
        finally:
            print("\n".join([f"{head}; {before} before, {load()} after\n", *texts]))
    return 0 if well else 1


if __name__ == "__main__":
    sys.exit(main())
