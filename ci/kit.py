"""What the tests of built programs share: the toolchain, programs run in parallel, and the test count of a script."""

import atexit
import concurrent.futures
import dataclasses
import functools
import importlib.machinery
import importlib.util
import os
import pathlib
import shutil
import subprocess
import sys
import tempfile

ROOT = pathlib.Path(__file__).resolve().parent.parent
SECONDS = 60


def toolchain():
    """The toolchain's folder: the parent of the folder of its command `rt`."""
    command = shutil.which("rt")
    if not command:
        sys.exit("there is no command rt")
    return pathlib.Path(command).resolve().parent.parent


def rt():
    """The command `rt` as a module."""
    loader = importlib.machinery.SourceFileLoader("rt", str(toolchain() / "bin" / "rt"))
    module = importlib.util.module_from_spec(importlib.util.spec_from_loader("rt", loader))
    loader.exec_module(module)
    return module


def built(crate, ending=""):
    """A program's file as built by `rt ci`, or by `rt run` in the crate's folder."""
    file = ROOT / "crates" / crate / "out" / f"{crate}{ending}"
    if not file.is_file():
        sys.exit(f"there is no {file.relative_to(ROOT)}: `rt ci` builds it")
    return file


@functools.cache
def library(source):
    """This C file, built by the toolchain's compiler, as a library to be loaded before others."""
    folder = tempfile.mkdtemp(prefix="drop-")
    atexit.register(shutil.rmtree, folder)
    made = pathlib.Path(folder) / pathlib.Path(source).with_suffix(".so").name
    clang = [toolchain() / "toolchain/bin/clang", "-O1", "-fPIC", "-Wall", "-Wextra", "-Werror", "-shared", "-nostdlib"]
    subprocess.run([*clang, "-o", made, source], cwd=ROOT, check=True, stdout=subprocess.DEVNULL)
    return made


@dataclasses.dataclass(frozen=True)
class Run:
    """What a program wrote, and its status; a signal's number is negative."""

    status: int
    out: bytes
    err: bytes


def run(words, given=b"", out=subprocess.PIPE, err=subprocess.PIPE, **how):
    """Runs a command with these bytes, or an open file, as input. Output to the caller's own `out` or `err` is not returned."""
    how |= {"stdout": out, "stderr": err, "timeout": SECONDS, "check": False}
    how |= {"input": given} if isinstance(given, bytes) else {"stdin": given}
    ended = subprocess.run(words, **how)
    return Run(ended.returncode, ended.stdout or b"", ended.stderr or b"")


def side_by_side(call, items):
    """The results of the call for each item, in order; as many run at once as there are processors."""
    with concurrent.futures.ThreadPoolExecutor(len(os.sched_getaffinity(0))) as pool:
        return list(pool.map(call, items))


class Count:
    """How many tests passed, failed and were skipped."""

    def __init__(self):
        self.passed = 0
        self.failed = 0
        self.skipped = 0

    def add(self, name, fault):
        """A test passed if it has no fault."""
        if fault:
            self.failed += 1
            print(f"{name}: {fault}")
        else:
            self.passed += 1

    def skip(self, name, reason):
        self.skipped += 1
        print(f"{name}: {reason}")

    def end(self):
        skipped = f", {self.skipped} skipped" if self.skipped else ""
        print(f"{self.passed} passed, {self.failed} failed{skipped}")
        sys.exit(self.failed > 0 or self.passed == 0)
