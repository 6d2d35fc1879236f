"""Proves crates of this repository, each after those below it, and builds them."""

import re
import shutil
import subprocess
import sys
import tarfile
import tempfile
import time
from concurrent.futures import FIRST_COMPLETED, ThreadPoolExecutor, wait
from pathlib import Path

import crates

# Proved libraries, each packed into one file. A library is a folder that has sources in it, and rt ci refuses sources
# outside of a crate.
PROVED = crates.BUILT / "proved"
# What the checker printed when it proved a program, for proof/axioms.
WORDS = crates.BUILT / "axioms"
# A hash of the sources of each crate that rt ci has proved, written by proof/gate.
PASSED = crates.BUILT / "gate"
# The folder where proved libraries are unpacked, outside of the clone. It is deleted when the command ends.
ROOM = tempfile.TemporaryDirectory(prefix="revroute-proved-")
# Each job loads what it needs, so too many jobs cost more than they save. With four jobs, revroute with its 6
# functions takes as long as with one, and 20 seconds more of one processor. With at most two jobs for large crates, a
# first answer took three minutes longer.
MOST_JOBS = 4
FUNCTIONS_OF_A_JOB = 20
# Libraries beside the one that others wait for: how many jobs they have together, and how they give way to it.
JOBS_BESIDE = 2
NICENESS_BESIDE = 5
# In seconds: longer than rt ci takes for all crates on one processor.
MOST_TIME_BESIDE = 4 * 3600


def own_rlib(name):
    return Path(ROOM.name, f"{name}.rlib")


def packed(name):
    return PROVED / f"{name}.tar"


def pack(name):
    """Packs a library that was just proved."""
    made = packed(name).with_suffix(".new")
    with tarfile.open(made, "w") as file:
        file.add(own_rlib(name), name)
    made.replace(packed(name))


def unpack(names):
    """Unpacks those of these libraries that are packed, unless this was done before."""
    for it in names:
        if packed(it).is_file() and not own_rlib(it).exists():
            with tarfile.open(packed(it)) as file:
                file.extractall(ROOM.name)
            Path(ROOM.name, it).rename(own_rlib(it))


def gate_rlib(name):
    return crates.CRATES / name / "out" / "rlib" / f"{name}.rlib"


def has_passed(name):
    """Whether rt ci has proved a crate from the sources as they are now."""
    stamp = PASSED / name
    return stamp.is_file() and stamp.read_text() == crates.stamp(name)


def are_proved_by_the_gate(names):
    """Whether rt ci has proved these libraries from the sources as they are now, and has left them. Libraries that other
    commands of rt leave have a stamp beside them, and fit only the libraries that these commands built below them."""
    return all(has_passed(it) and gate_rlib(it).is_dir() and not (gate_rlib(it).parent / "stamp").exists() for it in names)


def useful_jobs(name):
    """The number of jobs that shorten the proof of a crate."""
    return max(1, min(MOST_JOBS, -(-crates.functions(name) // FUNCTIONS_OF_A_JOB)))


class NotProved(Exception):
    """A crate could not be proved or built. Has its name, and the output of the toolchain."""


class Progress:
    """Reports on standard error the progress of the proofs of a crate and of those below it."""

    def __init__(self, name):
        self.name, self.begun, self.moves, self.running = name, time.monotonic(), sys.stderr.isatty(), {}

    def clock(self):
        seconds = int(time.monotonic() - self.begun)
        return f"{seconds // 60}:{seconds % 60:02}"

    def moved(self):
        if self.moves:
            print(f"\r\033[K{self.name}: proving {', '.join(self.running)}  {self.clock()}", end="", file=sys.stderr, flush=True)

    def told(self, text):
        print(f"{chr(13) + chr(27) + '[K' if self.moves else ''}{self.name}: {text}, {self.clock()}", file=sys.stderr, flush=True)

    def failed(self, crate, said):
        for it in [*self.running.values()]:
            it.terminate()
        self.told(f"{crate} is not proved or not built")
        print(said, end="", file=sys.stderr)
        sys.exit(crates.FAILED)


def said_by(run, progress):
    """Waits for a started rattle, and returns its output."""
    while True:
        try:
            return run.communicate(timeout=1)[0]
        except subprocess.TimeoutExpired:
            progress.moved()


def prove(progress, name, words, niceness=0):
    """Proves and builds one crate, and returns what was said."""
    run = progress.running[name] = crates.rattle("build", *words, niceness=niceness, cwd=crates.CRATES / name)
    said = said_by(run, progress)
    del progress.running[name]
    proved = re.search(r"^logic=proved functions=(\d+)", said, re.M)
    if run.returncode or not proved:
        killed = f"{name}: killed by signal {-run.returncode}; is there enough memory?\n" if run.returncode < 0 else ""
        raise NotProved(name, said + killed)
    progress.told(f"{name} is proved, {proved[1]} functions")
    return said


def prove_library(progress, name, jobs, niceness):
    """Proves and builds one library, and keeps it with a hash of its sources."""
    stamp = PROVED / f"{name}.stamp"
    stamp.unlink(missing_ok=True)
    words = [*crates.words(name, own_rlib, jobs), "--statements", "-o", str(own_rlib(name))]
    prove(progress, name, words, niceness)
    pack(name)
    stamp.write_text(crates.stamp(name))


def keep_words(name, said):
    """Keeps what the checker printed when it proved a program, with a hash of the sources."""
    WORDS.mkdir(parents=True, exist_ok=True)
    made = WORDS / f"{name}.new"
    made.write_text(f"{crates.stamp(name)}\n{said}")
    made.replace(WORDS / name)


def kept_words(name):
    """What was kept for a program with its present sources, or an empty text."""
    kept = WORDS / name
    stamp, _, said = kept.read_text().partition("\n") if kept.is_file() else ("", "", "")
    return said if stamp == crates.stamp(name) else ""


def is_kept(name):
    """Whether a library was proved from the sources as they are now."""
    stamp = PROVED / f"{name}.stamp"
    return packed(name).is_file() and stamp.is_file() and stamp.read_text() == crates.stamp(name)


def are_kept(names):
    return all(map(is_kept, names))


def longest_lines(names):
    """For each library the bytes of the files on the longest line of libraries that begins with it, in which each one uses
    the one before. Bytes tell better than functions how long a proof takes."""
    lengths = {}
    for it in sorted(names, key=lambda it: -len(crates.below(it))):
        above = [lengths[other] for other in lengths if it in crates.below(other)]
        lengths[it] = sum(file.stat().st_size for file in crates.sources(it)) + max(above, default=0)
    return lengths


def prove_each(progress, names, jobs):
    """Proves libraries, each after those below it. One at a time gets all jobs that it can use: of those that are ready,
    the one with the longest line above it. The others that are ready share JOBS_BESIDE jobs of a low priority, if there is
    memory for them, so that no processor is idle while the first one uses fewer."""
    most = min(jobs + JOBS_BESIDE, crates.jobs_in_memory())
    lengths = longest_lines(names)
    left, running, first = sorted(names, key=lambda it: -lengths[it]), {}, None
    with ThreadPoolExecutor(most) as pool:
        while left or running:
            waiting = {*left, *(it for it, _ in running.values())}
            for it in [it for it in left if not waiting.intersection(crates.below(it))]:
                free = most - sum(given for _, given in running.values())
                if free > 0:
                    # A library that already runs beside keeps its priority, so one with a shorter line must not overtake it.
                    if not first and all(lengths[it] >= lengths[other] for other, _ in running.values()):
                        first = it
                    most_of_it, niceness = (jobs, 0) if it == first else (JOBS_BESIDE, NICENESS_BESIDE)
                    given = min(useful_jobs(it), most_of_it, free)
                    left.remove(it)
                    running[pool.submit(prove_library, progress, it, given, niceness)] = it, given
            for it in wait(running, return_when=FIRST_COMPLETED).done:
                name, _ = running.pop(it)
                first = None if name == first else first
                try:
                    it.result()
                except NotProved as why:
                    progress.failed(*why.args)


def libraries(progress, name, jobs):
    """Proves the libraries below a crate, except those that were proved since their last edit. Returns where each
    is."""
    names, anew = crates.below(name), []
    if are_proved_by_the_gate(names):
        return gate_rlib
    for it in names:
        # A built crate fits only the libraries that it was built with.
        if not is_kept(it) or set(anew).intersection(crates.below(it)):
            anew.append(it)
    unpack(it for it in names if it not in anew)
    prove_each(progress, anew, jobs)
    return own_rlib


def proved_as_said(said):
    """The crates of which rt ci says in its output that they are proved."""
    text = said.read_text(errors="replace") if said.exists() else ""
    return {*re.findall(r"^rt: (\w+) (?:proved$|is kept:)", text, re.M)}


def libraries_beside(name, said):
    """Returns where the libraries below a crate are: those that proof/build keeps, or those of an rt ci that is
    running. The output of this rt ci goes to the file `said`. It has ended if there is a file of this name with the
    ending .ended. Until then this waits until the output says that each library is proved. It ends with a message if
    the output is gone, or if that takes too long, as it would if rt ci had other words for it."""
    names, ended = crates.below(name), said.with_name(f"{said.name}.ended")
    if are_kept(names):
        unpack(names)
        return own_rlib
    until = time.monotonic() + MOST_TIME_BESIDE
    while not ended.exists() and (unsaid := {*names} - proved_as_said(said)):
        time.sleep(1)
        if not said.exists() or time.monotonic() > until:
            sys.exit(f"{name} waits in vain for rt ci: {said} does not say 'rt: {min(unsaid)} proved', by the words of the toolchain in toolchain.txt")
    missing = [it for it in names if not gate_rlib(it).is_dir()]
    if missing:
        sys.exit(f"rt ci has not proved {missing[0]}, a library below {name}")
    return gate_rlib


def link(made):
    """Links what was compiled into a program, and puts it in its place."""
    kit, compiled = crates.kit(), made.with_suffix(".o")
    made.replace(compiled)
    words = ["--target", "x86_64-unknown-linux-gnu", "--toolchain", kit / "toolchain", "-o", made]
    words += [compiled, kit / "c" / "libos_c.a", kit / "c" / "liblibc_c.a"]
    linked = subprocess.run([kit / "bin" / "rattle-link", *words], stdout=subprocess.PIPE, stderr=subprocess.STDOUT, text=True, errors="replace")
    if linked.returncode:
        print(linked.stdout, end="", file=sys.stderr)
        sys.exit(crates.FAILED)
    compiled.unlink()


def build(name, beside=None):
    """Builds the crate into out, unless this was done from the sources as they are now. `beside` is the file with the output of an
    rt ci that is running."""
    progress, jobs = Progress(name), crates.jobs()
    to = crates.BUILT / (name if crates.is_program(name) else f"lib{name}.a")
    # The gate leaves a program, but not a static library, where it was proved.
    left = crates.CRATES / name / "out" / name
    stamp, sources = to.with_name(f"{to.name}.stamp"), crates.stamp(name)
    if to.is_file() and stamp.is_file() and stamp.read_text() == sources:
        # proof/run goes by times: this says that an edit was undone.
        to.touch()
        return
    made = to.with_name(f"{to.name}.new")
    if has_passed(name) and left.is_file():
        shutil.copy(left, made)
    else:
        rlib_of = libraries_beside(name, beside) if beside else libraries(progress, name, jobs)
        words = crates.words(name, rlib_of, min(jobs, useful_jobs(name)))
        words += ["--toolchain", str(crates.kit() / "toolchain"), "--backend", "llvm", "--list-axioms", "-o", str(made)]
        try:
            keep_words(name, prove(progress, name, words))
        except NotProved as why:
            progress.failed(*why.args)
        if crates.is_program(name):
            link(made)
    made.replace(to)
    stamp.write_text(sources)
