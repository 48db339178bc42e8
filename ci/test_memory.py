"""Runs the proved programs with each allocation refused, one at a time.

The programs that `rt ci` builds from crates/drop, crates/rows and the tests of crates/streams run unchanged, with ci/heap.c
loaded before the C library. The allocations are refused one per run, from number 1 up to the first number at
which none is left; for `init`, `desk`, `link`, `migrate` and lists over an office file, only a sample of them. The program must
return its whole right answer, or report the lack of memory in the way expected there, and never anything else. What the
office then holds is checked too: by further requests if it lives in memory, and else in the tables of its file.

Each command line of `drop` is a row. Each session is a row in memory and one over a file. Each row of crates/rows is one, and
so is the keeper's.
"""

import collections
import dataclasses
import functools
import itertools
import os
import shutil
import tempfile

import pytest

import kit
import listed
import tables
from expected import ID, MOMENT, OBEYED, SECRET, answer, fetched, python_link, receipt
from kept import VERSION_1, Kept
from messages import CUT_UPLOAD, REQUEST, get, post, put
from program import IN_MEMORY, LINK, answered, fault, help_of
from steps import Step, commands, opens, states_of, take_out, uploads

STREAM = "data/row1.http"
DROP = kit.ROOT / "crates" / "drop"
TRY_AGAIN = kit.Run(0, answer(40), b"")
OUT_OF_MEMORY = fault("out of memory")
HELPED = ["init", "desk", "link", "links", "manifest", "compare", "list", "export", "replay", "serve", "migrate"]
# The run of a program whose table cannot be read; it answered nothing.
UNREAD = kit.Run(1, b"", b"Error: Kind(OutOfMemory)\n")
LEAST_REFUSALS = 2000  # over all sessions


def refusing(number, words, given=b""):
    """Runs the words with this allocation refused. Returns the run, and whether there was such an allocation."""
    heard, told = os.pipe()
    env = {"REFUSED_ALLOCATION": str(number), "REFUSAL_TOLD_TO": str(told), "LD_PRELOAD": str(kit.library("ci/heap.c")),
           "PATH": "/usr/bin:/bin"}
    try:
        run = kit.run(words, given, cwd=DROP, env=env, pass_fds=[told])
    finally:
        os.close(told)
        is_refused = os.read(heard, 1) == b"!"
        os.close(heard)
    return run, is_refused


@pytest.fixture
def program():
    return kit.built("drop")


class Wrong(Exception):
    """A run had an unexpected result."""


def each_refusal(words, given, right, others):
    """For each allowed run, the right one or another: the numbers of the refused allocations that led to it."""
    came = {it: [] for it in [right, *others]}
    for number in itertools.count(1):
        run, is_refused = refusing(number, words, given)
        if run not in came:
            raise Wrong(f"with allocation {number} refused: {run}")
        if not is_refused:
            break
        came[run].append(number)
    if run != right:
        raise Wrong(f"without a refused allocation: {run}")
    if not any(came[it] for it in others):
        raise Wrong("no allocation that was refused had an effect")
    return came


def test_drop(program, check):
    """Command lines: a right request, one at a wrong moment, and some for which nothing is replayed."""
    replay = ["replay", IN_MEMORY, STREAM, "--at"]
    for words, right in [
        ([*replay, MOMENT], answered(answer(27))),
        ([*replay, "20130525T000000Z"], answered(answer(23))),
        ([*replay, "now"], fault("malformed value: at")),
        (["serve", "none", "--connections", "1", "--listen", "now"], fault("malformed value: listen")),
        (["--help"], kit.Run(0, help_of("drop"), b"")),
        *(([name, "--help"], kit.Run(0, help_of(name), b"")) for name in HELPED),
        (["replay"], kit.run([program, "replay"])),
        *((words, kit.run([program, *words])) for words in [
            ["init", "none", "--clerk", "k"], ["init", "none", "--clerk", "k", "--secret", "s", "--secret-file", "f"],
        ]),
        (["init", "none", "--clerk", "k", "--secret-file", "none"], fault("cannot read the secret")),
        (["init", "none", "--clerk", "k", "--secret-file", "/dev/stdin"], fault("malformed value: secret")),
    ]:
        name = f"drop {' '.join(words)}"
        others = [OUT_OF_MEMORY] + [TRY_AGAIN] * right.out.startswith(b"HTTP/1.1 ")
        try:
            came = each_refusal([program, *words], b"", right, others)
        except Wrong as wrong:
            check(name, str(wrong))
            continue
        check(name, None)
        again = came.get(TRY_AGAIN, [])
        others = f"{len(came[OUT_OF_MEMORY])} times out of memory, {len(again)} refusal 40"
        print(f"{name}: {others}, {len(came[right])} its answer")


def sampled():
    """The first hundred numbers, then every seventeenth: a run over an office file makes thousands of allocations."""
    return itertools.chain(range(1, 101), itertools.count(101, 17))


def each_office(program, name, words, prepare, right, others, check, done=(), given=b""):
    """Like `each_refusal`, over an office file, for a sample of the numbers.

    `prepare` sets up the file before each run. It returns a function that takes whether the run carried out the request,
    and returns what is then wrong with the file. The runs in `done` carried it out too, besides the right one.
    """
    came = {it: [] for it in [right, *others]}
    for number in sampled():
        wrong_file = prepare()
        run, is_refused = refusing(number, [program, *words], given)
        wrong = wrong_file(run == right or run in done) if run in came else f"{run}"
        if wrong or not is_refused:
            break
        came[run].append(number)
    if not is_refused and run != right:
        wrong = f"{run}"
    check(name, wrong and f"with allocation {number} refused: {wrong}")
    print(f"{name}: {', '.join(f'{len(numbers)} times {it.out or it.err}'[:60] for it, numbers in came.items())}")


def test_offices(program, tmp_path, check):
    """`init`, `desk`, `link` and `migrate`: a run without enough memory makes no file, changes none and obeys no command."""
    file, whole = tmp_path / "office", tmp_path / "whole"
    init = ["--clerk", ID, "--secret", SECRET.decode()]
    done = kit.Run(0, b"", b"")
    made = kit.run([program, "init", whole, *init])
    if made != done:
        check("an office file", f"{made}")
        return
    tables.add_box(whole, tables.Box("in"))

    def gone():
        for it in tmp_path.glob("office*"):
            it.unlink()
        return lambda is_made: None if is_made == bool(list(tmp_path.glob("office*"))) else "a file is left, or none was made"

    def copied(other=whole):
        gone()
        shutil.copy(other, file)
        before = tables.dump(file)
        return lambda is_right: None if is_right or tables.dump(file) == before else "the tables were changed"

    link = ["link", file, "GET", "in/a.txt", *itertools.chain(*((f"--{k}", v) for k, v in LINK.items()))]
    line = kit.Run(0, python_link("GET", "in/a.txt"), b"")
    each_office(program, "drop init", ["init", file, *init], gone, done, [OUT_OF_MEMORY], check)
    in_file = ["init", file, "--clerk", ID, "--secret-file", "/dev/stdin"]
    each_office(program, "drop init --secret-file", in_file, gone, done, [OUT_OF_MEMORY], check, given=SECRET + b"\n")
    each_office(program, "drop link", link, copied, line, [OUT_OF_MEMORY], check)
    box = "box add b 20130101T000000Z 20130601T000000Z 1111111 0000 2400 100 2 keep ends .pdf,.zip"
    told, closed_badly = kit.Run(0, b"done\n", b""), kit.Run(1, b"done\n", OUT_OF_MEMORY.err)
    for name, line, given in [("drop desk", box, b""), ("drop desk -", "-", box.encode())]:
        words = ["desk", file, line]
        each_office(program, name, words, copied, told, [OUT_OF_MEMORY, closed_badly], check, [closed_badly], given)
    old = Kept(VERSION_1 / "past").copied(tmp_path / "kept")
    of_version_1 = functools.partial(copied, old)
    each_office(program, "drop migrate", ["migrate", file], of_version_1, told, [OUT_OF_MEMORY, closed_badly], check, [closed_badly])


# ---- sessions: each allocation, in memory and over a file


@dataclasses.dataclass(frozen=True)
class Probe:
    """A request that shows what an office holds: its answers, each with the number of done steps from which it is expected."""

    asked: bytes
    answers: tuple

    def owed(self, done):
        return [owed for least, owed in self.answers if least <= done][-1]


@dataclasses.dataclass(frozen=True)
class Session:
    """A connection with these steps; if the office lives in memory, another one follows with the probes."""

    name: str
    steps: tuple
    probes: tuple = ()


A, LARGE = b"/in/a.txt", bytes(range(256)) * 274
OPENED, UPLOADED = opens("in"), uploads(1, "in", "a.txt", b"abc")
REFUSED = Step(put(A, b"abd"), answer(31))
FETCHED = [Step(get(A, method), fetched(1, b"abc", method)) for method in ["GET", "HEAD"]]
DROPPED = Step(post("file drop in a.txt"), OBEYED, functools.partial(take_out, box="in", name="a.txt", length=3))
GONE = Step(get(A, "HEAD"), answer(34, "HEAD"))
K2 = {"key": ("k2", b"s3cr3t")}


def every_kind():
    """One connection with every kind of request, and what an office holds after each of its steps."""
    steps = [
        opens("in", 10**6, 3), UPLOADED, Step(UPLOADED.asked, UPLOADED.owed), REFUSED, opens("out", mode="replace"),
        uploads(2, "out", "b", b"abc"), uploads(3, "out", "b", b"abd", b"abc"), *FETCHED, uploads(4, "in", "large", LARGE),
        Step(get(b"/in/large"), fetched(4, LARGE)),
        commands("key add k2 link s3cr3t", "INSERT INTO keys VALUES ('k2', 0, CAST('s3cr3t' AS BLOB), 0)"),
        Step(get(A, **K2), fetched(1, b"abc")), commands("key limit k2 in", "INSERT INTO key_box VALUES ('k2', 'in')"),
        commands("office allow 60", "UPDATE rules SET allowance = 60"), commands("key revoke k2", "UPDATE keys SET revoked = 1 WHERE id = 'k2'"),
        Step(get(A, **K2), answer(20)), DROPPED, GONE,
        commands(f"box close in {MOMENT}", f"UPDATE boxes SET closes = {tables.M} WHERE name = 'in'"),
        Step(put(b"/in/z", b"z"), answer(30)),
    ]
    numbers = [(least, receipt(number, b"z")) for least, number in [(1, 1), (2, 2), (6, 3), (7, 4), (10, 5)]]
    probes = [
        Probe(get(A), ((0, answer(27)), (1, answer(34)), (2, fetched(1, b"abc")), (18, answer(34)))),
        Probe(get(b"/out/b"), ((0, answer(27)), (5, answer(34)), (6, fetched(2, b"abc")), (7, fetched(3, b"abd")))),
        Probe(get(A, **K2), ((0, answer(19)), (12, fetched(1, b"abc")), (16, answer(20)))),
        Probe(get(b"/out/b", **K2), ((0, answer(19)), (12, fetched(3, b"abd")), (14, answer(24)), (16, answer(20)))),
        Probe(get(b"/none/a", date="20130524T000100Z"), ((0, answer(22)), (15, answer(27)))),
        Probe(get(b"/in/large"), ((0, answer(27)), (1, answer(34)), (10, fetched(4, LARGE)))),
        Probe(put(b"/in/z", b"z"), ((0, answer(27)), *numbers, (20, answer(30)))),
    ]
    return Session("every kind of request", steps, probes)


def sessions():
    """The published request, alone and before a cut-off upload; an upload; two to one name; a file's life; and all kinds."""
    published = Step(REQUEST, answer(27))
    uploaded = ((0, answer(27)), (1, answer(34)), (2, fetched(1, b"abc")))
    replaced = [opens("out", mode="replace"), uploads(1, "out", "b", b"abc"), uploads(2, "out", "b", b"abd", b"abc")]
    yield Session("the published request", [published])
    yield Session("two requests and half an upload", [published, published, Step(CUT_UPLOAD, answer(6))])
    yield Session("an upload", [OPENED, UPLOADED], [Probe(get(A), uploaded)])
    yield Session("other bytes in a box that keeps", [OPENED, UPLOADED, REFUSED], [Probe(get(A), uploaded)])
    probe = Probe(get(b"/out/b"), (*uploaded, (3, fetched(2, b"abd"))))
    yield Session("other bytes in a box that replaces", replaced, [probe])
    probe = Probe(get(A), (*uploaded, (5, answer(34))))
    yield Session("a file that is dropped", [OPENED, UPLOADED, *FETCHED, DROPPED, GONE], [probe])
    yield every_kind()


def right_run(session, probes):
    owed = [step.owed for step in session.steps] + [probe.owed(len(session.steps)) for probe in probes]
    return kit.Run(0, b"".join(owed), b"")


def bearable(session, probes):
    """The possible runs if one allocation is refused, and how many steps are done in each.

    The answers are right up to a refusal 40, which ends its connection, or up to the fault line, which ends all of them.
    """
    again, total, runs = answer(40), len(session.steps), {}
    for done in range(total + 1):
        front = b"".join(step.owed for step in session.steps[:done])
        later = [probe.owed(done) for probe in probes]
        runs[kit.Run(1, front, OUT_OF_MEMORY.err)] = done
        if done < total:
            runs[kit.Run(0, front + again + b"".join(later), b"")] = done
    for number in range(len(later)):
        runs[kit.Run(0, front + b"".join(later[:number]) + again, b"")] = total
        runs[kit.Run(1, front + b"".join(later[:number + 1]), OUT_OF_MEMORY.err)] = total
    return runs | {right_run(session, probes): total}


def in_memory(program, streams, runs):
    """Returns a function of a number that returns its run, whether there was such an allocation, and what is wrong."""
    def one(number):
        run, is_refused = refusing(number, [program, "replay", IN_MEMORY, *streams, "--at", MOMENT])
        return run, is_refused, None if run in runs else f"{run}"

    return one


def over_file(program, stream, runs, whole, states):
    """Like `in_memory`, over a copy of an office file: its tables must be those after the done steps."""
    def one(number):
        with tempfile.TemporaryDirectory(dir=whole.parent) as room:
            file = shutil.copy(whole, room)
            run, is_refused = refusing(number, [program, "replay", file, stream, "--at", MOMENT])
            done = runs.get(run)
            well = done is not None and sorted(tables.dump(file)) == states[done]
        wrong = f"{run}" if done is None else f"the tables are not those behind {done} requests"
        return run, is_refused, None if well else wrong

    return one


def each_number(one, begin):
    """The result for each number, up to the first without an allocation to refuse; many run in parallel."""
    for first in itertools.count(begin, 32):
        for number, (run, is_refused, wrong) in enumerate(kit.side_by_side(one, range(first, first + 32)), first):
            yield number, run, is_refused, wrong
            if not is_refused:
                return


def swept(name, one, right, check, begin=1):
    """Refuses each allocation from this number on, one per run. Returns how many there were, and the first that led to a 40."""
    kinds, first = collections.Counter(), 0
    for number, run, is_refused, wrong in each_number(one, begin):
        if wrong or not is_refused and run != right:
            check(name, f"with allocation {number} refused: {wrong or run}"[:1000])
            return 0, begin
        kind = "its answers" if run == right else "out of memory" if run.status else "refusal 40"
        kinds[kind] += is_refused
        first = first or (number if kind == "refusal 40" else 0)
    refused = number - begin
    print(f"{name}: {refused} refused, {', '.join(f'{many} times {kind}' for kind, many in kinds.items())}")
    check(name, None if kinds["refusal 40"] else "no allocation that was refused was answered with 40")
    return refused, first


def test_sessions(program, tmp_path, check):
    """Each session, in memory and over a file.

    The allocations made by opening the file are refused in the first session only. The others begin a little before the first
    number at which that one was answered with 40.
    """
    whole, total, begin = tmp_path / "swept", 0, 1
    made = kit.run([program, "init", whole, "--clerk", ID, "--secret", SECRET.decode()])
    check("an office file for sessions", None if made == kit.Run(0, b"", b"") else f"{made}")
    for number, session in enumerate(sessions()):
        stream, second = tmp_path / f"session-{number}.http", tmp_path / f"probes-{number}.http"
        stream.write_bytes(b"".join(step.asked for step in session.steps))
        second.write_bytes(b"".join(probe.asked for probe in session.probes))
        streams = [stream, second] if session.probes else [stream]
        one = in_memory(program, streams, bearable(session, session.probes))
        total += swept(f"{session.name}, in memory", one, right_run(session, session.probes), check)[0]
        states = states_of(session.steps, shutil.copy(whole, tmp_path / f"states-{number}"), lambda file: sorted(tables.dump(file)))
        one = over_file(program, stream, bearable(session, ()), whole, states)
        refused, answered = swept(f"{session.name}, over a file", one, right_run(session, ()), check, begin)
        total, begin = total + refused, begin if number else max(1, answered - 32)
    print(f"sessions: {total} allocations refused in all")
    check("allocations refused in sessions", None if total >= LEAST_REFUSALS else f"{total} are too few")


def broken_off(right):
    """The runs that wrote the beginning of the right list, some rows or none, and then lacked memory."""
    lines = right.out.splitlines(True)
    return [kit.Run(1, b"".join(lines[:number]), OUT_OF_MEMORY.err) for number in range(len(lines) + 1)]


def test_lists(program, tmp_path, check):
    """`manifest`, `compare`, `list`, `export` and `links` change no office file.

    If memory is refused, they write the beginning of the list.
    """
    file, whole = tmp_path / "lists", tmp_path / "whole-lists"
    made = kit.run([program, "init", whole, "--clerk", ID, "--secret", SECRET.decode()])
    if made != kit.Run(0, b"", b""):
        check("an office file for lists", f"{made}")
        return
    tables.add_box(whole, tables.Box("in"))
    for name, data in [("a,b.txt", b"abc"), ("é", b""), ("b.txt", b"x" * 70_000)]:
        tables.add_file(whole, "in", name, data, ID)

    def copied():
        for it in tmp_path.glob("lists*"):
            it.unlink()
        shutil.rmtree(tmp_path / "exported", ignore_errors=True)
        shutil.copy(whole, file)
        before = tables.dump(file)
        return lambda _: None if tables.dump(file) == before else "the tables were changed"

    receipts = list(listed.receipts(whole))
    place = {name: LINK[name] for name in ["key", "host", "region"]}
    wishes = [[method, "in", "a,b.txt", MOMENT, "604800"] for method in ["PUT", "GET", "HEAD"]]
    links = [[*wish, python_link(wish[0], "in/a,b.txt").decode().strip()] for wish in wishes]
    for words, given, owed in [
        (["manifest", file], [], receipts), (["compare", file], receipts, listed.states(whole, receipts)),
        (["links", file, *(f"--{name}={value}" for name, value in place.items())], [listed.WISH_HEAD, *wishes], [listed.LINK_HEAD, *links]),
        *((["list", file, what], [], owed(whole)) for what, owed in listed.KEPT.items()),
        (["export", file, tmp_path / "exported"], [], []),
    ]:
        right = kit.Run(0, listed.written(owed), b"")
        named = " ".join(it for it in words if isinstance(it, str) and not it.startswith("--"))
        each_office(program, f"drop {named}", words, copied, right, broken_off(right), check, given=listed.written(given))


def rows():
    """Each row with its expected output."""
    folder = kit.ROOT / "crates" / "rows"
    pairs = zip((folder / "stdin").read_bytes().splitlines(True), (folder / "stdout").read_bytes().splitlines(True))
    return [(row, owed) for row, owed in pairs if not row.startswith(b"#") and row.strip()]


def test_rows(check):
    """Each row by itself."""
    program = kit.built("rows")

    def each(pair):
        row, owed = pair
        others = [kit.Run(0, b"memory\n", b""), kit.Run(0, b"refusal 40\n", b""), UNREAD]
        try:
            return each_refusal([program], row, kit.Run(0, owed, b""), others)
        except Wrong as wrong:
            return wrong

    refused = 0
    pairs = rows()
    for (row, _), came in zip(pairs, kit.side_by_side(each, pairs)):
        is_wrong = isinstance(came, Wrong)
        check(row.decode().strip()[:80], str(came) if is_wrong else None)
        refused += 0 if is_wrong else sum(map(len, came.values()))
    print(f"rows: {len(pairs)} with {refused} allocations refused in all")


def test_keeper(check):
    """Each call of the keeper in memory, by the test that repeats a call to which memory was refused."""
    program = kit.built("streams", "_tests")
    name = "in_memory::keeps_each_change"
    right, again = (kit.Run(0, f"{number} refused\n\ntest result: ok\n".encode(), b"") for number in (0, 1))
    try:
        came = each_refusal([program, name], b"", right, [again])
    except Wrong as wrong:
        check(name, str(wrong))
        return
    check(name, None)
    print(f"keeper: {len(came[again])} times a call was refused, and the next one was right")


