"""Tries the edits `crates/*/edits/*.edit`, each of which the prover must refuse: many in one check, and several checks in
parallel.

It runs after `rt ci`, over the libraries that `rt ci` leaves. Only a proved crate has one. Besides the lines that `rt` knows, a file has a line `fn: NAME`: the function that must be refused, as a check prints it. The code of `rt` applies
the edits and runs the checks.

A check looks at the functions that its edits name and at the lemmas of their proofs (`--only`). The functions that they call
are taken at their contracts, which `rt ci` proves: a hole stands for each of their proofs that has a file (`--allow-holes`).
Edits of the bodies of different functions share a check, since callers see only contracts. In a shared check an edit counts
as refused only if its own function is refused, for its own goals or for a name. An edit that is not settled this way is tried
alone, and so are edits of constants, types and specs. An edit that names no function is tried over the whole crate, by the
rule of `rt`. What the first check of a crate proves is kept in a folder: each later check starts from a copy of it.

If a proof file names what an edit removed, or a lemma that the file depends on does, the refusal shows less: it may be for the
name alone. Such an edit counts, and is reported. In a shared check it counts if the function's own proof file names what is
gone. A lemma that was not admitted may be due to another edit, so such an edit is tried alone.

A line `guards: CLAUSE ..` names clauses of the function that the edit must leave unproved; `ensures` is the only clause of a
function that has one without a name. `--guards` writes these lines, from what the checks say. A clause that is only refused for
a name does not count.

The harmless edits `ci/controls/NAME/*.edit` are tried along with the others, and must be found still proved. Each edit that is
not refused, and each harmless edit that is refused, is named. The last line is `N passed, M failed`, or `N passed, M failed, K
skipped`.

Each edit that passes is recorded on this machine under a hash of all that its try read: the toolchain, the crate with its edit
and the crates below it. A later run, in any checkout here, tries only the others; `--anew` tries all.

The whole gate has a time limit, which a slow machine may reach. No check begins after `--minutes`. Edits that were not tried by
then are named and counted as skipped, and a later run tries them.
"""

import argparse
import collections
import concurrent.futures
import copy
import dataclasses
import functools
import hashlib
import math
import os
import pathlib
import re
import resource
import shutil
import sys
import tempfile
import time

import kit
from clauses import public_clauses

RT = kit.rt()
# The version of what counts as a refusal: it changes with that, so that nothing that was kept before counts.
RULES = 4
KEPT = pathlib.Path(os.environ.get("XDG_CACHE_HOME") or pathlib.Path.home() / ".cache") / "drop-edits"
# The public clauses that no wrong body can break, each with the reason.
UNGUARDED = pathlib.Path(__file__).with_name("unguarded.txt")
# The crates whose functions are tests.
OF_TESTS = ["examples", "trials", "streams", "stores", "peers", "caches"]
# At least this many edits share a check, if there are that many: each check first reads the crate and those below it.
FEWEST = 64
# What a function's proof consists of, and a proof with a hole.
PROOF_FILES = ["Answers.antt", "Invariants.antt", "Proof.antt"]
HOLE = "use Rattle.{place}.Statement.{{statement}}\n\npub {name}_spec : {{M : Type 1}} → statement M\n{name}_spec = ?\n"
# A check takes less than this share of the memory that `rt` estimates for it: up to 2 GB were seen, 3.6 in `sqlkeeper`.
SHARE = 0.5
# The share of the free memory that checks may take.
MOST_MEMORY = 0.85
HEAD = re.compile(r"^( *)(?:pub(?:\([^)]*\))? )?(?:final )?fn (\w+)", re.M)
VERDICT = re.compile(r"^fn (\S+): (.*)$")
# A goal that a check left open: its text, and its name.
GOAL = re.compile(r"note: \S+: (.*) \(`(\S+)`\)")
# The clauses that an edit guards.
GUARDS = re.compile(r"^guards: (.*)$", re.M)
# The words of `rt` for a proof file that names what an edit removed; NAMES also matches a lemma that depends on such a file.
GONE = re.compile(r"has no field|is not in scope|has no `")
NAMES = re.compile(rf"{GONE.pattern}|was not admitted")
# The declaration of a proof file that an error is in.
ERROR_IN = re.compile(r": error: `([\w.+-]+)`")
# What a check with holes says of a function that it proves.
PROVED = ("no holes", "depends on a hole in ")
STILL_PROVED = "NOT REFUSED: the crate is still proved with this edit"
BY_A_NAME = "refused, since a proof file names what it took away"
NO_TIME = "SKIPPED: there was no time to try it"


@dataclasses.dataclass(frozen=True)
class Edit:
    """An edit. It may share a check if it changes only the body of the function that must be refused."""

    name: str
    path: pathlib.Path
    text: str
    function: str
    is_of_a_body: bool
    is_harmless: bool

    def guards(self):
        """The clauses that the edit must leave unproved."""
        return " ".join(GUARDS.findall(self.text)).split()

    def guarding(self, clauses):
        """The edit with these clauses in the place of its own, if there are any."""
        text = GUARDS.sub("", self.text).replace("\n\n", "\n")
        line = f"guards: {' '.join(clauses)}\n" if clauses else ""
        return dataclasses.replace(self, text=re.sub(r"^(fn: .*\n)", rf"\1{line}", text, count=1, flags=re.M))

    def fault_of(self, fault, clauses):
        """What is wrong with the edit, given what was wrong with it as a refusal, and the clauses that it leaves unproved."""
        if not self.is_harmless:
            lost = [it for it in self.guards() if it not in clauses]
            lacks = f"NOT GUARDED: it leaves these proved: {' '.join(lost)}" if lost else None
            return lacks if fault in (None, BY_A_NAME) else fault
        if fault == STILL_PROVED:
            return None
        return fault or "REFUSED: it changes nothing, so the refusals of others may be as empty"

    def __str__(self):
        return f"{self.name}: {'shares a check' if self.is_of_a_body else 'alone'}, {self.function or 'any function'}"


def sum_of_tools():
    """A hash of the programs that try the edits, and of the toolchain's description of itself."""
    told, tools = hashlib.sha256(), kit.toolchain()
    for file in [*(tools / "bin" / name for name in ["rattle", "rt", "rtlib.py"]), tools / "WHAT"]:
        told.update(repr((file.name, file.read_bytes())).encode())
    return told.hexdigest()


def sum_of(crate):
    """A hash of the sources of the crate and of those below it, and of the dependencies of each."""
    told = hashlib.sha256()
    for it in sorted([crate, *crate.below()], key=lambda it: it.name):
        told.update(repr((it.name, sorted(it.of_kit), sorted(dep.name for dep in it.deps))).encode())
        for file in RT.rtlib.files_of(it.folder):
            source = pathlib.Path(file)
            told.update(repr((os.path.relpath(file, it.folder), source.read_bytes())).encode())
    return told.hexdigest()


class Kept:
    """The edits that passed in earlier runs on this machine: one file each, named by a hash of all that was read."""

    def __init__(self, anew):
        self.anew, self.tools, self.sums, self.names = anew, sum_of_tools(), {}, {}

    def name(self, crate, edit):
        """The name of the edit's file. Its crate's hash is that of the first call: of what the run then reads."""
        if crate.name not in self.sums:
            self.sums[crate.name] = sum_of(crate)
        told = repr((RULES, self.tools, self.sums[crate.name], edit.name, edit.is_harmless, edit.text))
        return hashlib.sha256(told.encode()).hexdigest()

    def holds(self, crate, edit):
        """Whether the edit passed in an earlier run."""
        self.names[edit.name] = KEPT / self.name(crate, edit)
        return not self.anew and self.names[edit.name].is_file()

    def keep(self, crate, edit):
        """Records that the edit passed, unless a file that was read has changed meanwhile, or nothing can be written."""
        if sum_of(crate) == self.sums[crate.name]:
            try:
                KEPT.mkdir(parents=True, exist_ok=True)
                self.names[edit.name].write_text(f"{edit.name}\n", encoding="utf-8")
            except OSError:
                pass


def function_at(source, place):
    """The name of the function whose body contains this place of a source; None if no body does. `rt fmt` begins and ends
    a body at the indentation of its head. A `const fn` does not count as a function, since constants may depend on it."""
    for head in reversed([*HEAD.finditer(source, 0, place)]):
        indent = head[1]
        begin = re.compile(rf"^{indent}(?:\S.* )?\{{$", re.M).search(source, head.start())
        end = source.find(f"\n{indent}}}\n", head.end())
        if begin and begin.end() <= place < end:
            return head[2]
    return None


def lies_in(folder, text, function):
    """Whether each change lies in the body of the function of that name. A new text may begin with the old one, such as a head."""
    file, old = "", ""
    for line in text.splitlines():
        word, _, told = line.partition(": ")
        if word == "file":
            file = told.strip()
        if word == "old":
            old = told
        if word == "new":
            source = (folder / file).read_text(encoding="utf-8")
            place, same = source.find(old), len(os.path.commonprefix([old, told]))
            if function.split("::")[-1] not in (function_at(source, place), function_at(source, place + same)):
                return False
    return True


def edits_in(folder, crate, count, is_harmless=False):
    """The edits of a folder, by name. A file that is not an edit, or cannot be applied, counts as failed."""
    edits = []
    for path in sorted(it for it in folder.glob("*") if it.suffix != ".md"):
        name = f"{crate.name}/{path.stem}"
        text = path.read_text(encoding="utf-8") if path.suffix == ".edit" else ""
        fault = RT.edited(text, crate.folder)[1]
        if fault:
            count.add(name, f"BAD EDIT: {fault}")
        else:
            function = "".join(re.findall(r"^fn: (\S+)$", text, re.M)[:1])
            edits.append(Edit(name, path, text, function, lies_in(pathlib.Path(crate.folder), text, function), is_harmless))
    return edits


def with_holes(crate, functions, folder):
    """A copy of the crate in this folder, with a hole for each function's proof that has a file, but for these functions."""
    shutil.copytree(crate.folder, folder, ignore=shutil.ignore_patterns("edits", "out"))
    proofs = pathlib.Path(folder, "proofs")
    for place in {it.parent for name in PROOF_FILES for it in proofs.rglob(name)}:
        parts = place.relative_to(proofs).parts
        if "::".join([crate.name, *parts]) not in functions:
            for name in PROOF_FILES:
                (place / name).unlink(missing_ok=True)
            hole = HOLE.format(place=".".join([crate.name, "proofs", *parts]), name=place.name)
            (place / "Proof.antt").write_text(hole, encoding="utf-8")
    holed = copy.copy(crate)
    holed.folder = str(folder)
    return holed


def applied(crate, group):
    """The crate's texts with these edits, or None if one cannot be combined with the others."""
    return RT.edited("\n".join(it.text for it in group), crate.folder)[0] if group else {}


@dataclasses.dataclass(frozen=True)
class Reading:
    """What a check printed, its status, and the changed texts that it read."""

    status: int
    said: str
    texts: dict

    def fault(self):
        """Why the check refuses no edit, by the rule of `rt`; None if it refuses the crate."""
        lines = self.said.rstrip("\n").split("\n")
        unread = next((it for it in lines if RT.unread(it, self.texts)), None)
        if unread:
            return f"BAD EDIT: the prover cannot read the edited text: {unread[:200]}"
        if RT.rtlib.STALE.search(self.said):
            return "BAD EDIT: the kept work of a library could not be used"
        if self.status == 0:
            return STILL_PROVED
        if self.status != 1 or not lines[-1].startswith(("logic=not-proved", "holes=", "only=")):
            return "BAD EDIT: it did not reach the prover: " + " / ".join([*lines[:3], *lines[-3:]])
        return None

    def verdict(self, function):
        """What the check says of the function, and which of its goals it left open; empty if it doesn't name the function."""
        goals = []
        for line in self.said.splitlines():
            goals += GOAL.findall(line)
            if found := VERDICT.match(line):
                if found[1] == function:
                    return found[2], goals
                goals = []
        return "", []

    def clauses(self, function):
        """The clauses of the function that the check does not prove, by the names of their goals."""
        said, unsolved = self.verdict(function)
        errors = [it for it in self.errors(function) if not NAMES.search(it)]
        goals = re.findall(r"`([\w.+-]+)`", said.partition("`search` did not prove")[2])
        goals += [it[1] for it in map(ERROR_IN.search, errors) if it] + [name for _, name in unsolved]
        return sorted({it.rpartition("-clause-")[2] if "-clause-" in it else "ensures" for it in goals if it.startswith("returns")})

    def errors(self, function):
        """The errors in the function's own proof files."""
        folder = "/".join(["proofs", *function.split("::")[1:]])
        return re.findall(rf"^(?:\./)?{re.escape(folder)}/\w+\.antt:\d+:\d+: error: .*$", self.said, re.M)

    def lacks_names(self, function, names=NAMES):
        """Whether a proof file of the function names something that no longer exists."""
        return any(names.search(it) for it in self.errors(function))

    def refuses(self, function):
        """Whether the prover refuses the function for its own goals: the search leaves one open, or an answer is no proof."""
        crate, _, rest = function.replace("::", ".").partition(".")
        own = re.escape(f"Rattle.{crate}.proofs.{rest}.")
        said, goals = self.verdict(function)
        # whether a call's precondition holds says nothing about the function's promise
        is_own = any("requires holds at this call" not in goal for goal, _ in goals)
        is_open = re.match(r"no proof: expected answers in [^ ;]+; `search` did not prove `", said) and is_own
        is_wrong = re.match(rf"not proved(?:$|; it stands on `{own})", said) and self.errors(function)
        return bool(is_open or is_wrong) and not self.lacks_names(function)

    def settles(self, edit):
        """Whether this check of several edits refuses this one, for goals of its own function or for a name in its proof."""
        return not self.fault() and (self.refuses(edit.function) or self.lacks_names(edit.function, GONE))

    def fault_beside(self, edit):
        """What to report of an edit that this check of several settles."""
        return None if self.refuses(edit.function) else BY_A_NAME

    def fault_alone(self, edit):
        """Why this check of one edit doesn't count as its refusal."""
        fault = self.fault()
        if fault or not edit.function or self.refuses(edit.function):
            return fault
        if self.lacks_names(edit.function):
            return BY_A_NAME
        said = self.verdict(edit.function)[0] or "there is no such function"
        if said.startswith(PROVED):
            return STILL_PROVED
        return f"BAD EDIT: refused, but not in {edit.function}, or for no goal of its own: {said[:200]}"


def times_of(crate):
    """When each file of the crate's library was written."""
    return [os.lstat(f"{at}/{name}").st_ctime for at, _, names in os.walk(crate.rlib) for name in ["", *names]]


@functools.cache
def is_built(crate):
    """Whether the crate's library is newer than what it is made of: its own sources and the libraries below. A run that takes
    over a library makes some of its files look newer, so for a library below the oldest file counts."""
    times, sources = times_of(crate), [*map(os.path.getmtime, RT.rtlib.files_of(crate.folder))]
    below = [min(times_of(it), default=math.inf) for it in crate.deps]
    return bool(times) and min(times) >= max(sources + below)


class Trial:
    """A crate's edits, those that may share a check and those that may not, and what their first check proved."""

    def __init__(self, crate, edits, folder, lanes):
        self.crate, self.folder, self.lanes = crate, folder / crate.name, lanes
        self.folder.mkdir(parents=True, exist_ok=True)
        self.shared = [it for it in edits if it.is_of_a_body]
        self.alone = [it for it in edits if not it.is_of_a_body]
        self.need, self.is_begun, self.is_warm = SHARE * RT.need(crate), False, False
        self.edits, self.checks, self.seconds = len(edits), 0, 0

    def lacks(self):
        """Those of the crate and the crates below it whose libraries are missing."""
        return [it.name for it in [*self.crate.below(), self.crate] if not is_built(it)]

    def left(self):
        """The edits that are still to be tried."""
        return [*self.shared, *self.alone]

    def group(self):
        """The next edits that share a check, each of another function; the functions with the most edits come first."""
        of_function = collections.Counter(it.function for it in self.shared)
        most, group = max(FEWEST, math.ceil(len(self.shared) / self.lanes)), []
        for edit in sorted(self.shared, key=lambda it: -of_function[it.function]):
            is_new = all(edit.function != it.function for it in group)
            if len(group) < most and is_new and applied(self.crate, [*group, edit]):
                group.append(edit)
        return group

    def take(self):
        """The edits of the next check, or None if there is none now: all other checks wait for the first."""
        if self.is_begun and not self.is_warm:
            return None
        self.is_begun = True
        group = self.group() or self.alone[:1]
        self.shared = [it for it in self.shared if it not in group]
        self.alone = [it for it in self.alone if it not in group]
        return group or None

    def check(self, group):
        """Checks the functions that these edits name, over a copy of what is kept; the first check uses the folder itself."""
        begin, texts, functions = time.monotonic(), applied(self.crate, group), [it.function for it in group]
        words, crate = ["--jobs", "1"], self.crate
        with tempfile.TemporaryDirectory(prefix="edits-", dir=self.folder.parent) as room:
            kept = self.folder
            if self.is_warm:
                # antt replaces an old file with a new one, so linked files stay as they are
                kept = shutil.copytree(self.folder, f"{room}/kept", copy_function=os.link)
            if all(functions):
                words += ["--allow-holes", *(word for it in functions for word in ("--only", it.partition("::")[2]))]
                crate = with_holes(self.crate, functions, f"{room}/crate")
            ran = RT.checked(crate, texts, words, str(kept))
        return Reading(ran.returncode, ran.stdout, texts), time.monotonic() - begin

    def heard(self, group, reading, seconds):
        """Returns the edits that their check settles, each with why it is not refused, and the clauses that it leaves unproved.
        The others are to be tried alone."""
        self.checks, self.seconds, self.is_warm = self.checks + 1, self.seconds + seconds, True
        if len(group) == 1:
            return [(group[0], reading.fault_alone(group[0]), reading.clauses(group[0].function))]
        refused = [it for it in group if reading.settles(it)]
        self.alone += [it for it in group if it not in refused]
        return [(it, reading.fault_beside(it), reading.clauses(it.function)) for it in refused]


def settled(trials, jobs, last):
    """Runs the checks in parallel, as many as processors and memory allow, and yields each edit with its crate, its fault, and the
    clauses that it leaves unproved. No check begins after the moment `last` of the monotonic clock."""
    running = {}
    with concurrent.futures.ThreadPoolExecutor(jobs) as pool:
        while begin_checks(trials, running, pool, jobs, last) or running:
            for ended in concurrent.futures.wait(running, return_when=concurrent.futures.FIRST_COMPLETED).done:
                trial, group = running.pop(ended)
                found = trial.heard(group, *ended.result())
                refused = sum(fault in (None, BY_A_NAME) for _, fault, _ in found)
                print(f"{trial.crate.name}: {refused} of {len(group)} edits refused, {ended.result()[1]:.0f} s", flush=True)
                yield from ((trial.crate, *it) for it in found)
    is_over = time.monotonic() > last
    for trial in trials:
        fault = NO_TIME if is_over else f"NOT TRIED: there is no library of {', '.join(trial.lacks())} as it stands"
        yield from ((trial.crate, it, fault, []) for it in trial.left())


def begin_checks(trials, running, pool, jobs, last):
    """Begins the checks for which there is room, those of the first crates first. Returns whether any may follow later: none
    does after the moment `last`."""
    if time.monotonic() > last:
        return False
    memory = MOST_MEMORY * (RT.free() + sum(it.need for it, _ in running.values()))
    for trial in trials:
        if trial.lacks():
            continue
        while not running or len(running) < jobs and trial.need + sum(it.need for it, _ in running.values()) <= memory:
            group = trial.take()
            if group is None:
                break
            running[pool.submit(trial.check, group)] = trial, group
    return any(it.left() and not it.lacks() for it in trials)


def edits_of_crates(names, count, kept):
    """The crates that have edits of these names (CRATE or CRATE/EDIT; all if no name is given), each with the edits still to be
    tried. The others count as passed."""
    of_crates = []
    for crate in RT.rtlib.crates_below(str(kit.ROOT)):
        edits = edits_in(pathlib.Path(crate.folder) / "edits", crate, count)
        edits += edits_in(kit.ROOT / "ci" / "controls" / crate.name, crate, count, is_harmless=True)
        edits = [it for it in edits if not names or it.name in names or crate.name in names]
        new = [it for it in edits if not kept.holds(crate, it)]
        for it in edits:
            if it not in new:
                count.add(it.name, None)
        if len(new) < len(edits):
            print(f"{crate.name}: {len(edits) - len(new)} of its {len(edits)} edits were tried by an earlier run on this machine")
        of_crates += [(crate, new)] if new else []
    return of_crates


def trials_of(of_crates, folder, jobs):
    """What is to be tried; the crate that needs the most memory comes first."""
    return sorted((Trial(*it, folder, jobs) for it in of_crates), key=lambda it: -it.need)


def guards_of(crates):
    """The edits that guard each clause: by the names of its function and of the clause. A method that implements one of a trait
    guards the trait's clause."""
    guards = collections.defaultdict(list)
    for crate in crates:
        for edit in edits_in(pathlib.Path(crate.folder) / "edits", crate, kit.Count()):
            for clause in edit.guards():
                guards[edit.function, clause].append(edit.name)
    return guards


def show_clauses(names, count):
    """Prints each public clause of these crates (all if no name is given) with the edits that guard it."""
    crates = [it for it in RT.rtlib.crates_below(str(kit.ROOT)) if it.name not in OF_TESTS and not it.is_program]
    guards = guards_of(crates)
    reasons = dict(line.split(": ", 1) for line in UNGUARDED.read_text(encoding="utf-8").splitlines())
    for crate in crates:
        for clause in public_clauses(crate) if not names or crate.name in names else []:
            own = guards[clause.function, clause.name]
            block, _, method = clause.function.rpartition("::")
            impl = re.compile(rf"{re.escape(block.rpartition('::')[2])}([A-Z]\w*)?::{method}$")
            own = own + [name for (function, it), edits in guards.items() if it == clause.name and clause.is_of_a_trait
                         and impl.search(function) for name in edits]
            own = " ".join(own) or reasons.get(str(clause))
            count.add(str(clause), None if own else "no edit guards it")
            if own:
                print(f"{clause}: {own}")


def main():
    parser = argparse.ArgumentParser(description="Tries the edits that the prover must refuse.")
    parser.add_argument("--jobs", type=int, default=RT.processors(), help="checks side by side, where memory allows")
    parser.add_argument("--only", action="append", default=[], metavar="CRATE[/EDIT]", help="these alone")
    parser.add_argument("--keep", type=pathlib.Path, metavar="FOLDER", help="keep what is proved of the crates there")
    parser.add_argument("--list", action="store_true", help="prove nothing: tell how each edit would be tried")
    parser.add_argument("--clauses", action="store_true", help="prove nothing: tell which edits guard each public clause")
    parser.add_argument("--guards", action="store_true", help="write into each edit which clauses it leaves unproved")
    parser.add_argument("--anew", action="store_true", help="try also what earlier runs on this machine tried")
    parser.add_argument("--minutes", type=float, default=math.inf, help="begin no check after so many")
    given = parser.parse_args()
    begin, count, kept = time.monotonic(), kit.Count(), Kept(given.anew)
    if given.clauses:
        show_clauses(given.only, count)
        count.end()
    of_crates = edits_of_crates(given.only, count, kept)
    if given.list:
        print(*(it for _, edits in of_crates for it in edits), sep="\n")
        sys.exit(count.failed > 0)
    # its first call sets a signal handler, which only the main thread may do
    RT.rtlib.guarded()
    with tempfile.TemporaryDirectory(prefix="edits-") as room:
        trials = trials_of(of_crates, given.keep or pathlib.Path(room), given.jobs)
        for crate, edit, fault, clauses in settled(trials, given.jobs, begin + 60 * given.minutes):
            if fault == NO_TIME:
                count.skip(edit.name, fault)
                continue
            if given.guards and fault in (None, BY_A_NAME) and not edit.is_harmless:
                edit = edit.guarding(clauses)
                edit.path.write_text(edit.text, encoding="utf-8")
                kept.holds(crate, edit)
            wrong = edit.fault_of(fault, clauses)
            count.add(edit.name, wrong)
            if fault == BY_A_NAME and not wrong:
                print(f"{edit.name}: {BY_A_NAME}")
            if not wrong:
                kept.keep(crate, edit)
    used = resource.getrusage(resource.RUSAGE_CHILDREN)
    for it in trials:
        print(f"{it.crate.name}: {it.edits} edits in {it.checks} checks, {it.seconds:.0f} s of them together")
    print(f"{time.monotonic() - begin:.0f} s, {used.ru_utime + used.ru_stime:.0f} s of processors")
    count.end()


if __name__ == "__main__":
    main()
