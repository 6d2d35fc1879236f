"""The functions in the sources of a crate: where each begins, and how the prover names it."""

import re
from functools import cache
from pathlib import Path
from typing import NamedTuple

# A list of generic parameters. The arrow of a function's type closes no list.
FLAT = r"<(?:->|[^<>])*>"
NESTED = rf"<(?:->|[^<>]|{FLAT})*>"
GENERICS = rf"<(?:->|[^<>]|{NESTED})*>"
FUNCTION = re.compile(r'( *)(pub )?(?:pub\([\w ]+\) )?(?:(?:const|unsafe|extern "C") )*fn (\w+)')
# An impl: its parameters, the trait with its first argument, of which the first argument may stand behind it, and the type.
IMPL = re.compile(rf"(?:unsafe )?impl({GENERICS})? (?:(\w+)(?:<(\w+)(?:<(\w+)>)?.*>)? for )?([\w:]+)")
# The files whose functions belong to the module of their folder.
ROOTS = ("lib", "main", "mod")


class Function(NamedTuple):
    """A function. `line` is that of its name, and `begin` that of its first attribute, both from 1. The prover calls it `proved_as`, which is `path`
    unless its impl is for one type among those that its type can be made of, as `impl Reader<Hop>`."""

    path: str
    line: int
    begin: int
    is_public: bool
    proved_as: str


def modules(file):
    """The module of a file, from the top of its crate, as a list of names."""
    return [it for it in Path(file).with_suffix("").parts[1:] if it not in ROOTS]


@cache
def home(crate, file, name):
    """The module of a type. A method belongs to this one, also if its impl is in another file."""
    defines = re.compile(rf"^ *(?:pub(?:\([\w ]+\))? )?(?:struct|enum) {name}\b", re.M)
    found = [it for it in sorted((crate / "src").rglob("*.rt")) if defines.search(it.read_text(encoding="utf-8"))]
    return modules(found[0].relative_to(crate)) if len(found) == 1 else modules(file)


def made_of(block):
    """The words of an impl's type behind its name that are no parameters of the impl: `Hop` in `impl Reader<Hop>`."""
    words = re.match(GENERICS, block.string[block.end() :])
    return [it for it in re.findall(r"(?<!')\b\w+", words[0]) if it not in re.findall(r"\w+", block[1] or "")] if words else []


def functions(crate, file, text):
    """The functions of a file of a crate. `text` is what it has, which can differ from the file in `crate`."""
    lines, block = text.splitlines(), None
    begin = lambda at: begin(at - 1) if at and lines[at - 1].lstrip().startswith("#[") else at
    for at, line in enumerate(lines):
        if line.startswith("}"):
            block = None
        elif found := IMPL.match(line):
            block = found
        elif found := FUNCTION.match(line):
            module, owner, proved = modules(file), [], None
            if found[1] and block:
                parameters, trait, *arguments = [it or "" for it in block.groups()[:-1]]
                name = block[5].rpartition("::")[2]
                module = module if trait else home(crate, file, name)
                owner = ["".join([name, trait, *(it for it in arguments if it not in re.findall(r"\w+", parameters))])]
                if not trait and made_of(block):
                    proved = "::".join([*modules(file), "+".join([name, *made_of(block)]), found[3]])
            path = "::".join([*module, *owner, found[3]])
            yield Function(path, at + 1, begin(at) + 1, bool(found[2]), proved or path)


def edited(crate, edit):
    """The functions that an edit changes, each with its file."""
    for file, old, _ in edit.changes():
        text = (crate / file).read_text(encoding="utf-8")
        there = [*functions(crate, file, text)]
        for at in edit.places(text, old):
            line = text.count("\n", 0, at + len(old)) + 1
            held = [it for it in there if it.line <= line]
            yield from ((file, it) for it in held[-1:])
