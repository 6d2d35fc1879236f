"""What the lines '# shows:' of wrong bodies name.

A name is a call, as `Net::new`; a clause of a call, as `Net::new.ok`; a definition of specs/; or a field of a record, as `AnswersLine.told`. Behind a call,
the names of its clauses stand alone, as in `Net::new` `ok` `names`.
"""

import re
from collections import defaultdict
from pathlib import Path
from typing import NamedTuple

import faults as edits

TOP = Path(__file__).resolve().parents[1]
FUNCTION = re.compile(r'( *)(pub )?(?:pub\([\w ]+\) )?(?:(?:const|unsafe|extern "C") )*fn (\w+)')
BLOCK = re.compile(r"(?:unsafe )?(?:impl(?:<.*?>)? (?:[\w:]+(?:<.*>)? for )?|(?:pub )?(?:trait|struct|enum) )([\w:]+)")
# What an impl says of a trait's method, as `next_gives` of an iterator.
GHOST = re.compile(r"    ghost (\w+) = ")
CLAUSE = re.compile(r"\s*(ensures|requires)\*? (?:named )?(\w+) \{")
RECORD = re.compile(r" *(?:pub )?record (\w+)")
FIELD = re.compile(r" +pub (\w+) :")
DEFINITION = re.compile(r"(?:(?:pub|abbrev|unfoldable|opaque|data|record) )*(\w+)\b")
QUOTED = re.compile(r"`([^`]+)`")
# Of places with one name, those of the first kind that has any are meant.
KINDS = ["call", "function", "ensures", "requires", "type", "definition"]


class Place(NamedTuple):
    kind: str
    path: str
    line: int


def source_places(file):
    """The names in a source file, each with its place: functions and their clauses, also with their type before them, and types."""
    path, owner, names = file.relative_to(TOP).as_posix(), "", []
    for at, line in enumerate(file.read_text(encoding="utf-8").splitlines(), 1):
        if block := BLOCK.match(line):
            owner = block[1].rpartition("::")[2]
            yield owner, Place("type", path, at)
        elif function := FUNCTION.match(line):
            names = [function[3], *([f"{owner}::{function[3]}"] if function[1] else [])]
            yield from ((it, Place("call" if function[2] else "function", path, at)) for it in names)
        elif ghost := GHOST.match(line):
            yield f"{owner}::{ghost[1]}", Place("call", path, at)
        elif clause := CLAUSE.match(line):
            yield from ((f"{it}.{clause[2]}", Place(clause[1], path, at)) for it in names)
        elif line.strip() == "{":
            names = []


def spec_places(file):
    """The definitions in a file of specs/ and the fields of its records, each behind the name of its record."""
    path, record, seen = file.relative_to(TOP).as_posix(), "", set()
    for at, line in enumerate(file.read_text(encoding="utf-8").splitlines(), 1):
        if begun := RECORD.match(line):
            record = begun[1]
        found = DEFINITION.match(line)
        field = FIELD.match(line)
        name = found[1] if found else f"{record}.{field[1]}" if field else None
        if name and name not in seen:
            seen.add(name)
            yield name, Place("definition", path, at)


class Sources:
    """The names in the sources of each crate."""

    def __init__(self):
        self.of = {it.name: defaultdict(set) for it in sorted(TOP.glob("crates/*"))}
        for crate, places in self.of.items():
            for file in sorted((TOP / "crates" / crate / "src").rglob("*.rt")):
                for name, place in source_places(file):
                    places[name].add(place)
            for file in sorted((TOP / "crates" / crate / "specs").rglob("*.antt")):
                for name, place in spec_places(file):
                    places[name].add(place)

    def places(self, name, crates):
        """The places that a name leads to, in these crates: those of one kind."""
        crate, colons, rest = name.partition("::")
        if colons and crate in self.of:
            name, crates = rest, [crate]
        found = [place for it in crates for place in self.of[it].get(name, ())]
        kind = min((it.kind for it in found), key=KINDS.index, default="")
        # A type has a block for each of its impls.
        return sorted({it for it in found if it.kind == kind})[: 1 if kind == "type" else None]


def shown(sources, crate, line):
    """What a line '# shows:' names: clauses of the calls before them, fields of records, and calls that have no such clause. A name that nothing has
    is returned too."""
    crates, calls, is_after_clause = [crate, *sources.of], [], False
    for it in QUOTED.findall(line):
        clauses = [f"{call}.{it}" for call in calls if sources.places(f"{call}.{it}", crates)]
        if "." in it:
            yield it
            is_after_clause = True
        elif clauses:
            yield from clauses
            yield from (call for call in calls if f"{call}.{it}" not in clauses)
            is_after_clause = True
        elif sources.places(it, crates):
            calls, is_after_clause = [*([] if is_after_clause else calls), it], False
        else:
            yield it
    if not is_after_clause:
        yield from calls


def unknown():
    """The names in lines '# shows:' that lead to nothing."""
    sources = Sources()
    for file in sorted(TOP.glob("wrong/*/*.edit")):
        for line in edits.Edit(file).said("# shows"):
            for name in shown(sources, file.parent.name, line):
                if not sources.places(name, [file.parent.name]) and not sources.places(name, sources.of):
                    yield f"{file.relative_to(TOP)}: {name} does not exist"
