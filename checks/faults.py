"""Planted faults: edits that a check must find.

The faults of a check are the files NAME.edit in its folder faults/. They have the form of the wrong bodies in wrong/:

    file: page/viewer/steps.js            the file to change, from the top of the repository
    old: push ? loopIn(hops) : []         a text that occurs once in that file
    new: []                               the text that replaces it
    # body: no look for loops             what is wrong then
    # says: the loop of a planted order:  what the check must print

'old:' and 'new:' can be repeated, and so can 'file:'. With the line '# everywhere' a text may occur more than once, and each occurrence is replaced.
With a line '# in: answer_telling_alone' it has to occur once in the function of this name.
The command can-fail of a check makes the edit in a copy of the repository and runs the check there, or the command that a line '# by:' has, such as
'package/version --check'. It must fail, and print what '# says:' has. A line '# builds:' names a program that is built with the edit, without a proof.

A check that waits no longer for a program prints 'timed out'. A busy machine may be the cause, so that alone finds no fault, whatever else the check
prints. The line '# hangs' marks a fault by which the check waits in vain: it is found all the same.
"""

import argparse
import os
import re
import shutil
import subprocess
import sys
import tempfile
from pathlib import Path

import unproved

TOP = Path(__file__).resolve().parent.parent
# What a check prints where it waits no longer, as the exceptions of Python do.
LATE = "timed out"


class BadEdit(Exception):
    """An edit cannot be made."""


class Edit:
    """The lines of an edit."""

    def __init__(self, path):
        self.path, self.lines = path, path.read_text(encoding="utf-8").splitlines()

    def said(self, word):
        """The texts after a word."""
        return [it.removeprefix(f"{word}: ") for it in self.lines if it.startswith(f"{word}: ")]

    def changes(self):
        """The file, the old text and the new text of each replacement."""
        file = old = ""
        for line in self.lines:
            word, _, text = line.partition(": ")
            if word == "file":
                file = text
            elif word == "old":
                old = text
            elif word == "new":
                yield file, old, text

    def places(self, text, old):
        """Where a text occurs that an edit replaces, in the function that it names if it names one."""
        begin, end = 0, len(text)
        for name in self.said("# in"):
            found = re.search(rf"^( *)(?:pub )?(?:extern \"C\" )?fn {name}\b", text, re.M)
            begin = found.start() if found else end
            end = text.find(f"\n{found[1]}}}", begin) if found else end
        return [begin + it.start() for it in re.finditer(re.escape(old), text[begin:end])]

    def make_in(self, folder):
        """Makes the edit in a folder that has copies of the files."""
        for name, old, new in self.changes():
            file = Path(folder, name)
            text = file.read_text(encoding="utf-8")
            places = self.places(text, old)
            if len(places) != 1 and not (places and "# everywhere" in self.lines):
                raise BadEdit(f"{old.strip()[:60]!r} occurs {len(places)} times in {name}")
            for at in reversed(places):
                text = text[:at] + new + text[at + len(old) :]
            file.write_text(text, encoding="utf-8")


def edits(check, names):
    """The planted faults of a check: all, or those that are named."""
    there = {it.stem: it for it in sorted((TOP / "checks" / check / "faults").glob("*.edit"))}
    if unknown := {*names} - {*there}:
        sys.exit(f"{check} has no fault {min(unknown)}")
    return [Edit(there[it]) for it in names or there]


def copy(folder, parts, built):
    """Copies parts of the repository, with or without what was built in their folders out."""
    without = shutil.ignore_patterns("target", "__pycache__", *([] if built else ["out"]))
    for it in parts:
        if (TOP / it).is_dir():
            shutil.copytree(TOP / it, folder / it, symlinks=True, ignore=without)
        else:
            shutil.copy2(TOP / it, folder / it)


def ran(words, **how):
    """Runs a check. Returns its status and its output."""
    it = subprocess.run([*map(str, words)], stdout=subprocess.PIPE, stderr=subprocess.STDOUT, text=True, errors="replace", **how)
    return it.returncode, it.stdout


def is_found(check, name, says, words, hangs=False, **how):
    """Runs a check, and prints and returns whether it fails and prints what it must. A check that timed out has found nothing, unless the fault hangs."""
    status, said = ran(words, **how)
    told = next((it for it in said.splitlines() if says in it), "")
    late = "" if hangs else next((it for it in said.splitlines() if LATE in it), "")
    is_well = status == 1 and bool(told) and not late
    why = f"the check waited in vain: {late}" if late else f"status {status}, {said[-300:].strip()}"
    print(f"{check}: found: {name}: {told[:200]}" if is_well else f"{check}: NOT FOUND: {name}: {why}", flush=True)
    return is_well


def is_green(check, words, **how):
    """Runs a check without a fault, and prints and returns whether it passes."""
    status, said = ran(words, **how)
    wrong = [it for it in said.splitlines() if "WRONG" in it] if status else []
    print(f"{check}: {'NOT ' if status else ''}green without a fault: {' '.join(wrong)[:1000] or said[-300:].strip()}", flush=True)
    return not status


def try_edit(edit, parts, words_over, built=False):
    """Makes an edit in a copy of these parts of the repository, and returns whether the check finds it. `words_over` takes the copy and the edit, and
    returns the command that runs the check."""
    check, by = edit.path.parents[1].name, [word for it in edit.said("# by") for word in it.split()]
    with tempfile.TemporaryDirectory(prefix=f"{check}-") as name:
        folder = Path(name)
        copy(folder, parts, built)
        try:
            edit.make_in(folder)
        except (BadEdit, OSError) as error:
            print(f"{check}: BAD EDIT: {edit.path.name}: {error}", flush=True)
            return False
        words = [folder / by[0], *by[1:]] if by else words_over(folder, edit)
        return is_found(check, edit.path.stem, edit.said("# says")[0], words, "# hangs" in edit.lines)


# What the programs are built from, and what the checks read.
BUILT_FROM = ("VERSION", "crates", "crates.txt", "HANDLES", "checks", "docs", "examples")


def build(folder, edit):
    """Builds the program that the line '# builds:' of an edit names, in a copy of the repository and without a proof. Returns the program, or None."""
    name = edit.said("# builds")[0]
    program = folder / "crates" / name / "out" / name
    said = unproved.build(folder / "crates" / name, program)
    if said:
        print(f"{edit.path.name} was not built\n{said[-3000:]}", flush=True)
    return None if said else program


def words(description):
    """The parser for a command can-fail. Its arguments are faults; without any, all are tried."""
    words = argparse.ArgumentParser(description=description, formatter_class=argparse.RawDescriptionHelpFormatter)
    words.add_argument("faults", nargs="*", metavar="FAULT")
    return words


def end(found):
    """Ends a command can-fail, with the status 1 if a fault was not found."""
    sys.exit(0 if all(found) else 1)


def plant_between(name, parts, usage):
    """Plants the faults of a check that looks at the program revroute, over a copy of these parts of the repository. The
    check runs checks/between of the copy, which runs the program that the words name. A fault with a line '# builds:' is one of the
    program itself, which is then built without a proof."""
    known = words(usage)
    known.add_argument("--program", type=Path, default=TOP / "revroute")
    asked = known.parse_args()
    os.environ["REVROUTE"] = str(asked.program.resolve())

    def words_over(folder, edit):
        program = build(folder, edit) if edit.said("# builds") else folder / "checks" / "between"
        return [folder / "checks" / name / "check", program] if program else ["false"]

    planted = edits(name, asked.faults)
    end([try_edit(it, BUILT_FROM if it.said("# builds") else parts, words_over) for it in planted])
