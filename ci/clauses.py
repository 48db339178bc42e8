"""The public clauses of the crates: what each public function ensures, and each method of a public trait, as their sources say.

A function is public if its module is, or if its name, or that of its type, is passed on by a `pub use`. It has the name that a
check of its crate gives it: a method stands below its type, wherever the `impl` is.
"""

import dataclasses
import pathlib
import re

import kit

HEAD = re.compile(r"^(?P<indent> *)(?P<pub>pub )?(?:final |const |unsafe )*fn (?P<name>\w+)")
BLOCK = re.compile(r"^(?:pub )?(?P<kind>impl|trait)\b(?P<rest>.*)$")
ENSURES = re.compile(r"^ *ensures\*? ?(\w*) ?\{")
MODULE = re.compile(r"^(pub )?mod (\w+);", re.M)
TYPE = re.compile(r"^pub (?:struct|enum|union) (\w+)", re.M)
PASSED_ON = re.compile(r"^pub use ([^;]+);", re.M)


@dataclasses.dataclass(frozen=True)
class Clause:
    """A clause of a function; `ensures` is the only one of a function."""

    function: str
    name: str
    is_of_a_trait: bool

    def __str__(self):
        return f"{self.function} {self.name}"


@dataclasses.dataclass(frozen=True)
class Module:
    """A file of a crate: its path in the crate, and whether others can name what it has."""

    path: str
    text: str
    is_public: bool


def modules_of(crate, file, path, is_public):
    """The module of this file, and those below it."""
    text = file.read_text(encoding="utf-8")
    yield Module(path, text, is_public)
    folder = file.parent if file.stem in ("lib", "main") else file.with_suffix("")
    for pub, name in MODULE.findall(text):
        below = folder / f"{name}.rt"
        if below.is_file():
            yield from modules_of(crate, below, f"{path}::{name}", is_public and bool(pub))


def without_brackets(text):
    """The text without what stands in angle brackets."""
    while text != (text := re.sub(r"<[^<>]*>", "", text.replace("->", ""))):
        pass
    return text


def after_brackets(text):
    """What stands in the angle brackets that the text begins with, and what stands behind them."""
    depth = 0
    for at, it in enumerate(text):
        depth += (it == "<") - (it == ">" and text[at - 1] != "-")
        if not depth:
            return text[1:at], text[at + 1:]
    return "", text


def block_name(rest, kind):
    """The name that a check gives to what an `impl` or a trait has: its type, and behind it the trait that it implements. Behind the
    type of an `impl` that is not for all its parameters stand the names of these."""
    words = without_brackets(rest).partition("{")[0].partition(" where ")[0].strip()
    if kind == "trait":
        return re.match(r"\w+", words)[0], True
    trait, _, name = words.rpartition(" for ")
    last = [re.split(r"::", it.strip().lstrip("&").strip())[-1] for it in (name, trait) if it.strip()]
    params, of = after_brackets(rest) if rest.startswith("<") else ("", rest)
    found = re.match(r"\s*\w+<(.*)>\s*\{$", of)
    if not trait and found:
        own = re.findall(r"(?:^|, )(\w+)", without_brackets(params))
        names = re.findall(r"\w+", re.sub(r"'\w+", "", found[1]))
        last += [f"+{it}" for it in names] if set(names) - set(own) else []
    return "".join(last), False


def functions_in(module):
    """The functions of a module: the block that each is in, its name, whether it is marked as public, and its clauses."""
    block, is_trait, lines = "", False, module.text.splitlines()
    for at, line in enumerate(lines):
        if found := BLOCK.match(line):
            block, is_trait = block_name(found["rest"], found["kind"])
        elif line == "}":
            block, is_trait = "", False
        if head := HEAD.match(line):
            yield block, is_trait, head["name"], bool(head["pub"]) or is_trait, clauses_from(lines[at:], head["indent"])


def clauses_from(lines, indent):
    """The names of the clauses of the function that begins with the first line."""
    names = []
    for line in lines:
        if found := ENSURES.match(line):
            names.append(found[1])
        if line in (f"{indent}{{", f"{indent}{{}}") or line.endswith(";") or line == lines[0] and line.endswith("{"):
            break
    return ["ensures"] if len(names) == 1 else [it or "ensures" for it in names]


def public_clauses(crate):
    """The public clauses of a crate."""
    source = pathlib.Path(crate.folder) / "src"
    modules = [*modules_of(crate, source / "lib.rt", crate.name, True)]
    place_of = {name: module.path for module in modules for name in TYPE.findall(module.text)}
    passed_on = {it for module in modules for names in PASSED_ON.findall(module.text) for it in re.findall(r"\w+", names)}
    for module in modules:
        for block, is_trait, name, is_marked, clauses in functions_in(module):
            of = block.partition("+")[0]
            path = "::".join(filter(None, [place_of.get(of, module.path), block, name]))
            if is_marked and (module.is_public or (of or name) in passed_on):
                yield from (Clause(path, it, is_trait) for it in clauses)
