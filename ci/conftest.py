"""Fixtures and options of the tests, and the count of a run: its last line is `N passed, M failed`.

A test checks many rows with `check`, and fails at its end with the faults of all wrong rows. The count includes each row, and
one for a test without rows. The time and the count of each module are printed above the last line.
"""

import pathlib
import random
import shutil

import pytest

import kit
from expected import LIMIT
from program import Drop
from samples import clock_at


def pytest_addoption(parser):
    parser.addoption("--shots", type=pathlib.Path, help="a folder for pictures of the pages")
    parser.addoption("--kills", type=int, default=50, help="how often a server is killed")
    parser.addoption("--seed", type=int, default=random.SystemRandom().randrange(10**9), help="of the kills")
    parser.addoption("--size", type=int, default=LIMIT, help="bytes of the upload that is stopped")


# ---- fixtures


class Check:
    """The rows that a test checks: how many were right, and what is wrong with the others."""

    def __init__(self):
        self.passed, self.faults = 0, []

    def __call__(self, name, fault):
        """A row is right if it has no fault."""
        if fault:
            self.faults.append(f"{name}: {fault}")
        else:
            self.passed += 1


@pytest.fixture
def check():
    return Check()


@pytest.fixture
def tmp_path(tmp_path):
    """A folder of the test's own, deleted after it."""
    yield tmp_path
    shutil.rmtree(tmp_path, ignore_errors=True)


@pytest.fixture(scope="module")
def module_folder(tmp_path_factory):
    """A folder of the module's own, deleted after it."""
    folder = tmp_path_factory.mktemp("module")
    yield folder
    shutil.rmtree(folder, ignore_errors=True)


@pytest.fixture
def drop(tmp_path):
    """The program as `rt ci` has built it, and a folder of the test's own."""
    return Drop(kit.built("drop"), tmp_path)


@pytest.fixture(scope="session")
def shots(pytestconfig):
    """The folder for pictures of the pages, if they are wanted."""
    folder = pytestconfig.getoption("shots")
    if folder:
        folder.mkdir(parents=True, exist_ok=True)
    return folder


@pytest.fixture
def case(shared_case):
    """The module's office, front and browser; a test that failed may have left the office stopped."""
    if not shared_case.office.process:
        shared_case.office.start()
    return shared_case


@pytest.fixture
def stopped_clock():
    """Botocore signs at one fixed moment."""
    with clock_at():
        yield


# ---- the count


@pytest.hookimpl(hookwrapper=True)
def pytest_runtest_makereport(item, call):
    """A test fails if any of its rows is wrong. Its report says how many rows passed and failed."""
    report = (yield).get_result()
    rows = item.funcargs.get("check", Check()) if call.when == "call" else Check()
    has_raised = report.failed
    if rows.faults and has_raised:
        report.sections.append(("rows that failed", "\n".join(rows.faults)))
    elif rows.faults:
        report.outcome, report.longrepr = "failed", "\n".join(rows.faults)
    is_one = call.when == "call" and report.passed and not rows.passed
    report.rows = rows.passed + is_one, len(rows.faults) + has_raised


class Counts:
    """The time and the rows of each module."""

    def __init__(self):
        self.modules = {}

    def add(self, name, seconds, passed, failed):
        before = self.modules.get(name, (0, 0, 0))
        self.modules[name] = tuple(map(sum, zip(before, (seconds, passed, failed))))

    def pytest_runtest_logreport(self, report):
        passed, failed = getattr(report, "rows", (0, 1))
        self.add(pathlib.Path(report.location[0]).stem, report.duration, passed, failed)

    def pytest_collectreport(self, report):
        if report.failed:
            self.add(pathlib.Path(report.nodeid).stem, 0, 0, 1)

    def pytest_unconfigure(self):
        for name, (seconds, passed, failed) in self.modules.items():
            print(f"{name.removeprefix('test_'):16} {seconds:7.1f} s   {passed} passed, {failed} failed")
        _, passed, failed = map(sum, zip((0, 0, 0), *self.modules.values()))
        print(f"{passed} passed, {failed} failed")


def pytest_configure(config):
    if not hasattr(config, "workerinput"):
        config.pluginmanager.register(Counts())
