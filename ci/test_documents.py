"""Runs the lines of docs/USE.md and README.md's five lines, unchanged, in an empty folder with the proved `drop`, and compares
their output with the blocks that follow them; only the port is replaced.

It tests on the program what the page's table on boto3 says about links. Then it compares the page's tables of refusals and
of fault lines with docs/RULES.md, with the texts in the code and with each other; its desk commands with docs/RULES.md and
the help; and the lengths in docs/PROVED.md with the files. It checks that each named path and module exists, and in the tables
of docs/PROVED.md each named call and clause. README.md has at most 90 lines, and all documents together at most 25,000 words.

The expected values are in the documents themselves, and for names and texts in the tree.
"""

import os
import re
import shlex
import sys

import boto3
import botocore.config
import pytest

import kit
from expected import answer, receipt, table_of_refusals
from front import free_port
from nginx import replaced
from program import answered, difference
from s3 import request, target_of
from samples import HOST, KEY_ID, SECRET

README = kit.ROOT / "README.md"
PAGE = kit.ROOT / "docs" / "USE.md"
PROVED = kit.ROOT / "docs" / "PROVED.md"
DOCUMENTS = [README, *sorted((kit.ROOT / "docs").glob("*.md"))]
CRATES = sorted(it.name for it in (kit.ROOT / "crates").iterdir())
ADDRESS = "127.0.0.1:8080"
FIVE = re.compile(r"^## Five lines\n.*?(?=^## )", re.MULTILINE | re.DOTALL)


def blocks(text):
    """The blocks of lines to run, each with the output shown after it, or None."""
    found = re.findall(r"^```(\w*)\n(.*?)^```$", text, re.MULTILINE | re.DOTALL)
    behind = [*found[1:], ("none", "")]
    return [(lines, shown if not other else None)
            for (kind, lines), (other, shown) in zip(found, behind, strict=True) if kind == "sh"]


def run_blocks(drop, check, name, parts):
    """Runs these blocks in order, in one shell and an empty folder."""
    folder = drop.folder / name
    tools, home = folder / "tools", folder / "home"
    for it in [tools, home, folder / "empty"]:
        it.mkdir(parents=True)
    (tools / "drop").symlink_to(drop.program)
    python = tools / "python3"
    python.write_text(f'#!/bin/sh\nexec {shlex.quote(sys.executable)} "$@"\n')
    python.chmod(0o755)
    address = f"127.0.0.1:{free_port()}"
    script = "".join(f"echo '@@ {at}'\n{lines}" for at, (lines, _) in enumerate(parts)) + "wait\n"
    file = folder / "script"
    file.write_text(replaced(script, [(ADDRESS, address)]))
    own = {"PATH": f"{tools}:{os.environ['PATH']}", "HOME": str(home), "CURL_HOME": str(home), "LC_ALL": "C.UTF-8"}
    ran = kit.run(["sh", "-eu", file], cwd=folder / "empty", env=os.environ | own)
    check(f"{name}: its lines", None if (ran.status, ran.err) == (0, b"") else f"{ran}")
    said = dict(re.findall(r"^@@ (\d+)\n((?:(?!@@ ).*\n?)*)", ran.out.decode().replace(address, ADDRESS), re.MULTILINE))
    for at, (_, owed) in enumerate(parts):
        check(f"{name}: what block {at} prints", difference(said.get(str(at)), owed or ""))


def five_lines(check):
    """README's block, which is also the page's first."""
    parts = blocks(FIVE.search(README.read_text())[0])
    check("one block in README", difference(len(parts), 1))
    commands = parts[0][0].replace("\\\n", "").splitlines()
    found = [re.search(r"\b(?:drop (?:init|desk|link|serve)|curl)\b", it)[0] for it in commands]
    check("five lines", difference(found, ["drop init", "drop desk", "drop link", "drop serve", "curl"]))
    check("the same on the page", difference(blocks(PAGE.read_text())[0], parts[0]))
    return parts


def test_readme(drop, check):
    run_blocks(drop, check, "README", five_lines(check))


def test_page(drop, check):
    run_blocks(drop, check, "USE", blocks(PAGE.read_text()))


def boto3_link(more=None, expires=600, **settings):
    """The target of a link to put in/a.txt, as boto3 makes it in path style."""
    config = botocore.config.Config(s3={"addressing_style": "path"}, **settings)
    s3 = boto3.client("s3", region_name="us-east-1", endpoint_url=f"http://{HOST}", aws_access_key_id=KEY_ID,
                      aws_secret_access_key=SECRET, config=config)
    wanted = {"Bucket": "in", "Key": "a.txt"} | (more or {})
    return target_of(s3.generate_presigned_url("put_object", Params=wanted, ExpiresIn=expires))


# What is passed to boto3 so that a header is signed, and the field that must be sent.
SIGNED = [("ContentType", "text/plain", "Content-Type", "text/plain"),
          ("ContentMD5", "1B2M2Y8AsgTpgAmY7PhCfg==", "Content-MD5", "1B2M2Y8AsgTpgAmY7PhCfg=="),
          ("Metadata", {"note": "one"}, "X-Amz-Meta-Note", "one")]


@pytest.mark.usefixtures("stopped_clock")
def test_boto3(drop, check):
    """Rows of the page's table on boto3: the program refuses such a link with the number given there."""
    rows = dict(re.findall(r"^\| (.+?) \| .*\b(?:with|gets) (\d+) \|$", PAGE.read_text(), re.MULTILINE))
    file = drop.filled("boto3")

    def ask(name, target, owed, fields=()):
        found = drop.replay(file, request("PUT", target, {"Content-Length": "0", **dict(fields)}))
        check(f"boto3: {name}", difference(found, answered(owed)))

    def owed(row):
        return answer(int(rows[row]), "PUT")

    old, long = boto3_link(), boto3_link(expires=604801, signature_version="s3v4")
    well = "AWSAccessKeyId=" in old and "Signature=" in old and "X-Amz-Expires=604801" in long
    check("boto3: what it signs", None if well else f"{old}, {long}")
    ask("the old kind", old, owed('no `signature_version="s3v4"`'))
    ask("a long time", long, owed("`ExpiresIn` over 604800"))
    for given, value, field, sent in SIGNED:
        target = boto3_link({given: value}, signature_version="s3v4")
        ask(f"{given}, not sent", target, owed("`ContentType`, `ContentMD5`, `Metadata` in `Params`"))
        ask(f"{given}, sent", target, receipt(6, b""), [(field, sent)])


def test_refusals(check):
    """Each refusal has its row, with its word and its status, in the order of the rules."""
    found = re.findall(r"^\| (\d+) \| (\w+) \| (\d+) \| [^|]+ \| [^|]+ \|$", PAGE.read_text(), re.MULTILINE)
    owed = [(number, word, status) for number, word, status, _ in table_of_refusals()]
    numbers = [int(it[0]) for it in owed]
    check("the numbers of the rules", difference(numbers, [*range(1, 37), 40]))
    check("the numbers of the page", difference([int(it[0]) for it in found], numbers))
    for row in owed:
        check(f"refusal {row[0]}", None if row in found else "has no such row")


def texts_of(enum):
    """The text of each variant of this enum, its name, and the type of what it holds."""
    form = re.compile(rf"^pub(?:\(crate\))? enum {enum}\b.*?^}}", re.MULTILINE | re.DOTALL)
    [body] = [it for file in (kit.ROOT / "crates").glob("*/src/**/*.rt") for it in form.findall(file.read_text())]
    return re.findall(r"""#\[error\("(.+?)"\)\]\n +(\w+)(?:\((?:&'a )?(\w+)\))?""", body)


def blanked(text):
    """The line with `{0}` for each variable part: a word in capitals, or one in `<>` or `{}`."""
    return re.sub(r"\b[A-Z]{2,}\b|<\w+>|\{\w+\}", "{0}", text)


def warnings_of_code():
    """The warnings that the program can print, besides its faults."""
    source = (kit.ROOT / "crates" / "commands" / "src" / "watching.rt").read_text()
    return {it.replace("\\\n", "") for it in re.findall(r'"\\\ndrop: ([^"]+)"', source)}


def lines_of_code():
    """The lines that the program can print."""
    source = (kit.ROOT / "crates" / "commands" / "src" / "faults.rt").read_text()
    main = (kit.ROOT / "crates" / "drop" / "src" / "main.rt").read_text()
    lines = {*re.findall(r'=> "([^"]+)",', main)} | warnings_of_code()
    for text, _, inner in texts_of("Fault"):
        if text != "{0}":
            lines.add(text)
            continue
        # The conversions in this file turn some of these into other faults, so their own texts are never printed.
        others = re.findall(rf"\b{inner}::(\w+)(?:\(\w+\))? => Fault::(?!Desk|List)", source)
        lines |= {its for its, name, _ in texts_of(inner) if name not in others}
    return lines


def test_faults(check):
    """Each fault line is in the table once, with what it means, its cause and what to do.

    They are those that the code can print, with a word in capitals, or one in `<>`, for each variable part.
    """
    form = re.compile(r"^\| `(drop: [^`]+)` \| (.+) \|$", re.MULTILINE)
    rows = [(line, rest.split(" | ")) for line, rest in form.findall(PAGE.read_text())]
    owed = [line for line, _ in rows]
    check("fault lines", None if owed and len(owed) == len(set(owed)) else f"{owed}")
    for line, cells in rows:
        check(line, difference(len(cells), 3))
    page = {blanked(line.removeprefix("drop: ")) for line in owed}
    code = {blanked(line) for line in lines_of_code()}
    check("fault lines of the code", f"there are {len(code)} alone" if len(code) < 10 else None)
    for line in sorted(page | code):
        lacks = "the code" if line not in code else "docs/USE.md"
        check(f"the line {line}", None if line in page & code else f"{lacks} has no such line")


def test_commands(check):
    """The desk commands that the page explains are those of docs/RULES.md and of the help."""
    rules, words = (kit.ROOT / "docs" / "RULES.md").read_text(), (kit.ROOT / "ci" / "desk.help").read_text()
    row = re.compile(r"^\| `((?:box|file|key|office) [a-z]+ [A-Z ]+)` \| ", re.MULTILINE)
    owed = row.findall(rules)
    check("commands of the desk", None if len(owed) == 7 else f"{owed}")
    check("those of the page", difference(row.findall(PAGE.read_text()), owed))
    check("those of the help", difference(re.findall(r"^  ((?:box|file|key|office) [a-z]+ [A-Z ]+)$", words, re.MULTILINE), owed))


def test_words(check):
    """docs/USE.md shows the words of page/ that precede the office's line in a saved receipt."""
    answers = re.findall(r'^ +answer: "(.+)",$', (kit.ROOT / "page" / "texts.js").read_text(), re.MULTILINE)
    check("two languages of page/", difference(len(answers), 2))
    for it in answers:
        check(f"docs/USE.md: {it}", None if f"`{it}:`" in PAGE.read_text() else "is not there")


# A path from the top of the tree. Words in capitals are placeholders for names, and `out` is what a run leaves.
PATH = re.compile(r"(?<![\w/.*-])(?:\.ci|bench|ci|crates|deploy|docs|page)/[\w*-]?[\w./*-]*")
# A crate, and modules of its `specs`.
MODULES = re.compile(rf"`({'|'.join(CRATES)})`([ \n]`[A-Z][a-z]\w*`(?:(?:, | and | |\n)+`[A-Z][a-z]\w*`)*)")
# A crate, and one file of its own.
OWN = re.compile(rf"`({'|'.join(CRATES)})`[ \n]`((?:src|specs|proofs|edits)/[\w./]+)`")
# An edit, by its crate and its name.
EDIT = re.compile(rf"`({'|'.join(CRATES)})/([a-z]\w+)`")


def named(document):
    """The paths that a document names, as globs."""
    text = document.read_text()
    for found in PATH.findall(text):
        path = found.rstrip(".,-")
        if not re.search(r"\b[A-Z]{2,}\b(?!\.md)|/out\b", path):
            yield path
    for crate, modules in MODULES.findall(text):
        yield from (f"crates/{crate}/specs/{it}.antt" for it in re.findall(r"`(\w+)`", modules))
    yield from (f"crates/{crate}/{file}" for crate, file in OWN.findall(text))
    yield from (f"crates/{crate}/edits/{edit}.edit" for crate, edit in EDIT.findall(text))


def test_names(check):
    """What the documents name in the tree exists."""
    for document in DOCUMENTS:
        for path in sorted({*named(document)}):
            there = next(kit.ROOT.glob(path), None)
            check(f"{document.name}: {path}", None if there else "is not there")


def length(modules):
    """The number of lines of all modules that a cell names."""
    files = [kit.ROOT / "crates" / crate / "specs" / f"{it}.antt"
             for crate, names in MODULES.findall(modules) for it in re.findall(r"`(\w+)`", names)]
    return sum(len(it.read_text().splitlines()) for it in files)


def test_lengths(check):
    """The lengths of definitions in docs/PROVED.md, in lines to the nearest ten; small differences pass."""
    text = PROVED.read_text()
    rows = re.findall(r"^\| (\d+) \| ([^|]+) \| (\d+) \| [^|]+ \|$", text, re.MULTILINE)
    check("numbers of definitions", difference([int(it[0]) for it in rows], [*range(1, 18)]))
    found = [(number, length(modules), int(said)) for number, modules, said in rows]
    for number, lines, said in found:
        check(f"definitions {number}", None if abs(lines - said) <= 10 else f"have {lines} lines and not {said}")
    said, others = map(int, re.search(r"some (\d+) in all\. The other modules of `specs/`, some (\d+) lines", text).groups())
    lines = sum(it[1] for it in found)
    specs = sum(len(it.read_text().splitlines()) for it in (kit.ROOT / "crates").glob("*/specs/*.antt"))
    for name, has, told in [("all definitions", lines, said), ("the other modules", specs - lines, others)]:
        check(name, None if abs(has - told) <= 100 else f"have {has} lines and not {told}")


HEAD = re.compile(r"^( *)(pub(?:\(\w+\))? )?(?:const )?fn (\w+)")
OWNER = re.compile(r"^(?:pub )?(impl|trait)\b(?:<(?:[^<>]|<[^<>]*>)*>)? ((?:[\w:]+(?:<[^<>]*>)? for )?)(\w+)")


def public_calls():
    """The clause names of each public function of the libraries, by `crate::name` or `crate::Type::name`."""
    calls = {}
    for file in sorted((kit.ROOT / "crates").glob("*/src/**/*.rt")):
        owner, of_trait, clauses = [file.relative_to(kit.ROOT / "crates").parts[0]], False, None
        for line in file.read_text().splitlines():
            if line.startswith("}"):
                owner, of_trait, clauses = owner[:1], False, None
            if found := OWNER.match(line):
                owner, of_trait = [owner[0], found[3]], found[1] == "trait" or bool(found[2])
            elif found := HEAD.match(line):
                clauses = calls.setdefault("::".join([*owner, found[3]]), set()) if found[2] == "pub " or of_trait else None
            elif (found := re.match(r" +ghost (\w+):", line)) and of_trait:
                calls.setdefault("::".join([*owner, found[1]]), set())
            elif (found := re.match(r" +ensures\*? (\w+) \{", line)) and clauses is not None:
                clauses.add(found[1])
    return calls


def fault_of_call(calls, crates, name, clauses):
    """What is wrong with a call that a table names with these clauses, in a part about these crates."""
    parts = name.split("::")
    if len(parts) > 1 and parts[0] in CRATES:
        crates, parts = [parts[0]], parts[1:]
    found = [calls[it] for it in ("::".join([crate, *parts]) for crate in crates) if it in calls]
    if not found:
        return "there is no such call"
    lacking = [it for it in clauses if not any(it in has for has in found)]
    return f"has no clause {', '.join(lacking)}" if lacking else None


def rows_of_calls(document):
    """The crates that each part is about, and the first column of each row of a table of calls in it."""
    crates, in_table = CRATES, False
    for line in document.read_text().splitlines():
        if line.startswith("#"):
            crates = [it for it in re.findall(r"`(\w+)`", line) if it in CRATES] or CRATES
        if in_table and line.startswith("| "):
            yield crates, line.split(" | ")[0]
        in_table = line.startswith("| Call |") or (in_table and line.startswith("|"))


def test_clauses(check):
    """If clauses follow a call in brackets, some public call of this name has them."""
    calls = public_calls()
    for document in DOCUMENTS:
        for name, clauses in re.findall(r"`([\w:]+)`\s\[([a-z]\w*(?:,\s\w+)*)\]", document.read_text()):
            has = [its for call, its in calls.items() if f"::{call}".endswith(f"::{name}")]
            there = any({*re.findall(r"\w+", clauses)} <= its for its in has)
            check(f"{document.name}: {name} [{clauses}]", None if there else "there is no such call with these clauses")


def test_calls(check):
    """The calls in the first column of docs/PROVED.md's tables exist, each in its crate.

    If several calls precede one bracket, the last has these clauses, and so has each of the others that has named clauses.
    """
    calls = public_calls()
    named_ones = [call for call, its in calls.items() if its]
    rows = [*rows_of_calls(PROVED)]
    check("tables of calls", None if rows else "there are none")
    for crates, cell in rows:
        for names, clauses in re.findall(r"((?:`[\w:]+`(?:, |; )?)+)(?: ?\[([\w, ]+)\])?", cell):
            names, clauses = re.findall(r"`([\w:]+)`", names), re.findall(r"\w+", clauses)
            for name in names:
                owes = name == names[-1] or any(f"{it}::{name}" in named_ones for it in crates)
                check(f"{name} {clauses}", fault_of_call(calls, crates, name, clauses if owes else []))


MOST_LINES, MOST_WORDS = 90, 25000


def test_sizes(check):
    """README.md and the documents are short."""
    lines = len(README.read_text().splitlines())
    check("lines of README", f"{lines} and not at most {MOST_LINES}" if lines > MOST_LINES else None)
    words = sum(len(it.read_text().split()) for it in DOCUMENTS)
    check("words of all documents", f"{words} and not at most {MOST_WORDS}" if words > MOST_WORDS else None)
