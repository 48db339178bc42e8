"""Proves crates by the code of `rt ci`: each as soon as those that it stands on are proved, and as many in parallel as processors
and memory allow. Newer versions of `rt` keep what they prove on this machine, and a later run takes it over, also in another
checkout; older ones prove everything anew.

The code of `rt` does the work, and its counts are the last line. Four things are different here:

- `rt` allows each check more memory than it was ever seen to take, so few run in parallel. Here it is less than half as much.
- The program `drop` comes first, with the crates below it. Other checks only take what processors these leave idle. With `--built
  FILE`, that file is made once `drop` is built, so that its tests can begin. Of both kinds those come first that have the most
  work behind them, by the seconds in ci/seconds.txt. `rt` counts lines.
- Several processors take a quarter more time together than one takes alone. So a check has more than one only where no other
  check of its kind could begin on them, and only as many as let the last check end first, by the seconds in ci/seconds.txt.
- With `--program`, Rattle's own compiler builds the program, which stays in `crates/NAME/out`. It takes half as long as LLVM, whose
  program is a tenth faster. Without, both build it at the same time, and `rt` compares what both programs write.

Before it begins, it says how long it will take. Then it shows a line that moves: how many crates are proved, which are at work,
for how long, and how many minutes are left. The output of `rt` goes to a file, which that line names.
"""

import argparse
import concurrent.futures
import contextlib
import functools
import heapq
import os
import pathlib
import re
import shutil
import sys
import tempfile
import threading
import time

import kit

RT = kit.rt()
# A check takes less than this share of the memory that `rt` estimates for it: up to 3 GB were seen.
SHARE = 0.45
# The processor seconds of each crate: of its proof, and of the proof of its tests.
SECONDS = pathlib.Path(__file__).with_name("seconds.txt")
# The seconds for each line of a crate that is not listed there.
PER_LINE = 0.05
# The share of a check that several processors do in parallel.
PARALLEL = 0.5
# The share of a check's memory that each processor more takes, as `rt` has it.
MORE_MEMORY = 0.6
# The share of the free memory that checks may take.
MOST_MEMORY = 0.85
# A task that took less than this share of its seconds was taken over from an earlier run.
WHOLE = 0.2
# What an earlier run proved is taken over within so many seconds. While a task is younger, nobody knows whether its processors will
# be free at once, so no other begins.
SETTLES = 5
# The program whose tests take long.
TESTED = "drop"
# How many other checks run while it is built, and by how much their priority is lower.
OTHERS, NICER = 2, 9
# How often the line is written anew, in seconds, and the lines that are shown of a log that ends in a failure.
EVERY, TAIL = 1, 40
# What a task without work gives, by its kind; any other gives True. `rt` unpacks what its task for must-fail edits gives.
NOTHING = {"edits": ([], [], [])}
# The line of a log that has the counts.
COUNTS = re.compile(r"^\d+ passed, \d+ failed$", re.M)


def known_seconds():
    """The processor seconds by crate and kind of proof: `proof` or `tests`."""
    found = {}
    for line in SECONDS.read_text(encoding="utf-8").splitlines():
        if line and not line.startswith("#"):
            crate, proof, tests = line.split()
            found |= {(crate, "proof"): float(proof), (crate, "tests"): float(tests)}
    return found


def minutes(seconds):
    return f"{int(seconds) // 60} min {int(seconds) % 60:02} s"


class Progress:
    """The line that says how far the proofs are. Where nobody looks, each crate that ends has a line."""

    def __init__(self, log, out=sys.stderr):
        self.log, self.out, self.begin = log, out, time.monotonic()
        self.crates, self.tasks, self.left, self.at_work, self.took = 0, {}, {}, {}, {}
        self.turn, self.has_ended = threading.Lock(), threading.Event()

    def expect(self, tasks):
        """Says how long these tasks will take from nothing."""
        self.tasks, self.left = tasks, {it: tasks[it][1] for it in tasks if tasks[it][1]}
        self.crates = len({crate for crate, *_ in self.left})
        lanes = RT.processors()
        about = expected(tasks, lanes) / 60
        self.say(f"proving {self.crates} crates on {lanes} processors: about {about:.0f} min from nothing")

    def watched(self, key, call):
        """The call of a task, during which the line names it."""

        def watching(given, jobs):
            begin = time.monotonic()
            with self.turn:
                self.at_work[key] = begin
            is_well = call(given, jobs)
            with self.turn:
                del self.at_work[key]
                if is_well and self.left.pop(key, None):
                    self.took[key] = time.monotonic() - begin
            self.show(key)
            return is_well

        return watching

    def minutes_left(self):
        """How many minutes are left, if this machine goes on as fast as it has proved so far. What was only taken over doesn't
        count."""
        now, proved = time.monotonic(), [it for it in self.took if self.took[it] > WHOLE * self.tasks[it][1]]
        speed = sum(self.took[it] for it in proved) / sum(self.tasks[it][1] for it in proved) if proved else 1
        seconds = {it: max(1, self.left[it] - (now - self.at_work.get(it, now)) / speed) for it in self.left}
        return speed * expected({it: (waits, seconds.get(it, 0)) for it, (waits, *_) in self.tasks.items()}, RT.processors()) / 60

    def line(self):
        with self.turn:
            done = self.crates - len({crate for crate, *_ in self.left})
            names = ", ".join(dict.fromkeys(crate for crate, *_ in self.at_work))
            left = f"about {self.minutes_left():.0f} min left" if self.left else "none left"
        took = minutes(time.monotonic() - self.begin)
        return f"{done} of {self.crates} crates proved; at work: {names or 'none'}; {took}, {left}; log: {self.log}"

    def show(self, key=None):
        """Writes the line over the last one, or, where nobody looks, below it once a task has ended."""
        if self.out.isatty():
            width = shutil.get_terminal_size().columns - 1
            print(f"\r{self.line()[:width]:{width}}", end="", file=self.out, flush=True)
        elif key in self.took:
            self.say(self.line())

    def say(self, text):
        print(text, file=self.out, flush=True)

    @contextlib.contextmanager
    def shown(self):
        """Keeps the line moving."""

        def move():
            while not self.has_ended.wait(EVERY):
                self.show()

        mover = threading.Thread(target=move, daemon=True)
        mover.start()
        try:
            yield
        finally:
            self.has_ended.set()
            mover.join()
            if self.out.isatty():
                self.say("")


class Lanes:
    """Runs the tasks of `rt`: each once those that it waits for have ended, first those with the longest chain behind them, and as
    many as processors and memory allow. Until the tested program is built, the others run on what processors it leaves idle."""

    def __init__(self, tasks, built=None):
        self.tasks, self.built, self.all = tasks, built, RT.processors()
        self.pools = {True: concurrent.futures.ThreadPoolExecutor(len(tasks)),
                      # on Linux this is the priority of a thread and of the processes that it makes
                      False: concurrent.futures.ThreadPoolExecutor(len(tasks), initializer=os.nice, initargs=[NICER])}
        self.memory = MOST_MEMORY * RT.free()
        self.left, self.running, self.began = [it for it in in_order(tasks) if tasks[it][1]], {}, {}
        # a crate without tests has a task for them all the same, with no seconds
        self.given = {it: NOTHING.get(it[1], True) for it in tasks if not tasks[it][1]}

    def begin(self):
        """Begins the tasks for which there is room."""
        for is_first in [True, False]:
            left = [it for it in self.left if is_for_program(it) == is_first]
            for key, jobs in best_tasks(self.tasks, left, self.given, self.seconds_left(is_first), self.free(is_first)):
                while jobs > 1 and self.needs(key, jobs) > self.memory:
                    jobs -= 1
                needs = self.needs(key, jobs)
                if self.running and needs > self.memory:
                    return
                self.left.remove(key)
                self.memory -= needs
                self.running[self.pools[is_first].submit(self.tasks[key][3], self.given, jobs)] = key, needs, jobs
                self.began[key] = time.monotonic()

    def settles_in(self):
        """In how many seconds it is known that no task that runs is only taken over; None if it is known now."""
        begun = [self.began[key] for key, *_ in self.running.values()]
        left = max(begun) + SETTLES - time.monotonic() if begun else 0
        return left if left > 0 else None

    def seconds_left(self, is_first):
        """The tasks of this kind that run, each with its processors and how many seconds it will still take."""
        now, at_work = time.monotonic(), [(key, jobs) for key, _, jobs in self.running.values() if is_for_program(key) == is_first]
        return [(max(1, seconds_with(self.tasks, key, jobs) - (now - self.began[key])), key, jobs) for key, jobs in at_work]

    def free(self, is_first):
        """How many processors more tasks for the tested program, or other tasks, may have."""
        at_work = [(key, jobs) for key, _, jobs in self.running.values()]
        is_building = any(map(is_for_program, [*self.left, *(key for key, _ in at_work)]))
        most = self.all if is_first or not is_building else min(OTHERS, self.all)
        return most - sum(jobs for key, jobs in at_work if is_for_program(key) == is_first)

    def needs(self, key, jobs):
        """The memory that the task takes with so many processors."""
        return self.tasks[key][2] * (1 + MORE_MEMORY * (jobs - 1))

    def run(self):
        """Runs them all, and returns what each gave."""
        first = concurrent.futures.FIRST_COMPLETED
        while self.left or self.running:
            if self.settles_in() is None:
                self.begin()
            for it in concurrent.futures.wait(self.running, timeout=self.settles_in(), return_when=first).done:
                key, needs, _ = self.running.pop(it)
                self.memory += needs
                self.given[key] = it.result()
                if self.built and key == (TESTED, "proof") and self.given[key]:
                    self.built.touch()
        return self.given


def in_order(tasks):
    """The tasks: first those for the tested program, and of each kind those with the longest chain behind them first."""
    behind = {it: tasks[it][1] for it in tasks}
    for key in reversed(tasks):
        for it in tasks[key][0]:
            behind[it] = max(behind[it], tasks[it][1] + behind[key])
    return sorted(tasks, key=lambda it: (not is_for_program(it), -behind[it]))


def is_for_program(key):
    """Whether this task proves the tested program, or a crate below it."""
    return key[1] == "proof" and key[0] in with_below([TESTED])


def next_tasks(tasks, left, given, free):
    """The tasks to begin now on the free processors, each with how many of them it has. Each has one, and the first has those that
    are left over."""
    ready = [it for it in left if all(below in given for below in tasks[it][0])][:max(free, 0)]
    return [(it, 1 if at else 1 + free - len(ready)) for at, it in enumerate(ready)]


def best_tasks(tasks, left, given, running, free):
    """The tasks to begin now on the free processors, each with how many of them it has: the first has as many as let the last one
    end first, if those that follow begin as `next_tasks` has it. `running` has those of the same kind."""
    begun = next_tasks(tasks, left, given, free)
    if not begun:
        return begun
    (first, _), *rest = begun
    at_work = {key for _, key, _ in running}
    lanes = free + sum(jobs for _, _, jobs in running)
    elsewhere = {it for it in tasks if it not in left and it not in at_work}

    def end(way):
        beginning = [(seconds_with(tasks, key, jobs), key, jobs) for key, jobs in way]
        behind = [it for it in left if it not in dict(way)]
        return simulated(tasks, behind, elsewhere, lanes, [*running, *beginning])

    ways = [[(first, jobs), *((key, 1) for key, _ in rest[:free - jobs])] for jobs in range(1, free + 1)]
    return min(ways, key=end)


def seconds_with(tasks, key, jobs):
    """How many seconds the task takes with so many processors."""
    return tasks[key][1] * (1 - PARALLEL + PARALLEL / jobs)


def expected(tasks, lanes):
    """How many seconds the tasks will take on so many processors."""
    left = [it for it in in_order(tasks) if tasks[it][1]]
    return simulated(tasks, left, {it for it in tasks if not tasks[it][1]}, lanes, [])


def simulated(tasks, left, given, lanes, running):
    """How many seconds these tasks will take on so many processors, of which some run already."""
    left, given, running, now = [*left], {*given}, [*running], 0
    heapq.heapify(running)
    while left or running:
        for key, jobs in next_tasks(tasks, left, given, lanes - sum(it[2] for it in running)):
            left.remove(key)
            heapq.heappush(running, (now + seconds_with(tasks, key, jobs), key, jobs))
        now, key, _ = heapq.heappop(running)
        given.add(key)
    return now


def arrange(progress, wants_program, built):
    """Has the code of `rt` run its tasks in our lanes, and tell how far they are."""
    compile_by, known = RT.Crate.compile_by, known_seconds()

    def in_our_lanes(tasks):
        ours = {}
        for key, (waits, lines, needs, call) in tasks.items():
            seconds = known.get(key, PER_LINE * lines) if lines else 0
            ours[key] = waits, seconds, SHARE * needs, keeping(key, progress.watched(key, call))
        progress.expect(ours)
        ending = getattr(RT, "ending", contextlib.nullcontext)
        with ending():
            return Lanes(ours, built).run()

    def keeping(key, call):
        """The call; the program that it makes is copied here, before `rt` removes the copy of the crates that it works on."""

        def kept(given, jobs):
            is_well = call(given, jobs)
            folder = pathlib.Path("crates", key[0], "out")
            made = folder / f"{key[0]}{RT.BACKENDS['rattle']}"
            if wants_program and is_well and key[1] == "proof" and made.is_file():
                (kit.ROOT / folder).mkdir(parents=True, exist_ok=True)
                shutil.copy2(made, kit.ROOT / folder / key[0])
            return is_well

        return kept

    def compile_quickly(crate, backend, words, to):
        """Compiles with Rattle's own compiler alone."""
        return compile_by(crate, backend, words, to) if backend == "rattle" else 0

    def compile_together(crate, backend, words, to):
        if backend == "rattle":
            return others.pop(crate.name).result()
        others[crate.name] = compilers.submit(compile_by, crate, "rattle", words, to)
        return compile_by(crate, backend, words, to)

    others, compilers = {}, concurrent.futures.ThreadPoolExecutor()
    RT.in_lanes = in_our_lanes
    RT.Crate.compile_by = compile_quickly if wants_program else compile_together


@functools.cache
def dependencies():
    """What each crate of this repository stands on."""
    stands_on = {}
    for line in (kit.ROOT / "crates.txt").read_text(encoding="utf-8").splitlines():
        if line and not line.startswith("#"):
            name, _, below = line.partition(":")
            stands_on[name] = below.split()
    return stands_on


def with_below(names):
    """These crates and those of this repository that they stand on."""
    stands_on, found, left = dependencies(), set(), list(names)
    while left:
        name = left.pop()
        if name in stands_on and name not in found:
            found.add(name)
            left += stands_on[name]
    return found


@contextlib.contextmanager
def copy_of(names):
    """Works in a copy of the repository that has these crates alone, and those below them."""
    wanted = with_below(names)
    with tempfile.TemporaryDirectory(prefix="drop-prove-") as folder:
        room = pathlib.Path(folder)
        shutil.copy("HANDLES", room)
        lines = pathlib.Path("crates.txt").read_text(encoding="utf-8").splitlines(keepends=True)
        (room / "crates.txt").write_text("".join(it for it in lines if it.partition(":")[0] in wanted), encoding="utf-8")
        for name in wanted:
            shutil.copytree(f"crates/{name}", room / "crates" / name, ignore=shutil.ignore_patterns("out"))
        os.chdir(room)
        try:
            yield
        finally:
            os.chdir(kit.ROOT)


def proved(names):
    """Proves the crates of these names, and those below them; all if none is given. Returns the status of `rt ci`, which works on a
    copy if names are given: only without any it leaves libraries and programs in `crates/NAME/out`."""
    try:
        if hasattr(RT, "where_disk_lasts"):
            return RT.where_disk_lasts(RT.ci, False, names)
        # an older `rt` proves all that lies below the folder where it works
        with copy_of(names) if names else contextlib.nullcontext():
            return RT.ci()
    except SystemExit as stopped:
        return stopped.code or 2


def main():
    parser = argparse.ArgumentParser(description="Proves crates, and those that they stand on, in parallel.")
    how = "build the program with Rattle's own compiler, and keep it in crates/NAME/out"
    parser.add_argument("--program", action="store_true", help=how)
    parser.add_argument("--built", type=pathlib.Path, metavar="FILE", help="make this file once `drop` is built")
    parser.add_argument("crates", nargs="*", metavar="CRATE", help="these crates; all if none is given")
    given = parser.parse_args()
    os.chdir(kit.ROOT)
    os.environ.pop("CI", None)
    handle, log = tempfile.mkstemp(prefix="drop-prove-", suffix=".log")
    progress = Progress(log)
    arrange(progress, given.program, given.built)
    with open(handle, "w", encoding="utf-8") as out, progress.shown():
        with contextlib.redirect_stdout(out), contextlib.redirect_stderr(out):
            status = proved(given.crates)
        for key, seconds in sorted(progress.took.items(), key=lambda it: -it[1]):
            print(f"{' '.join(key)}: {seconds:.0f} s", file=out)
    text = pathlib.Path(log).read_text(encoding="utf-8")
    if status:
        print(*text.splitlines()[-TAIL:], sep="\n", file=sys.stderr)
    progress.say(f"{'not proved' if status else 'proved'} in {minutes(time.monotonic() - progress.begin)}; log: {log}")
    if not given.program:
        print(*COUNTS.findall(text)[-1:], flush=True)
    sys.exit(status)


if __name__ == "__main__":
    main()
