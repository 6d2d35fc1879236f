"""The crates of this repository, as crates.txt lists them, and the commands by which the toolchain proves one."""

import hashlib
import os
import re
import shutil
import subprocess
import sys
from functools import cache
from pathlib import Path

TOP = Path(__file__).resolve().parent.parent
CRATES = TOP / "crates"
BUILT = TOP / "out"
# The most memory that one job of a check needs, in bytes. The highest value measured was 2.3 GB.
ROOM_OF_A_JOB = 2_500_000_000
# The folders of a crate that a proof reads.
PARTS = "src", "specs", "proofs"
# A line that is only a comment, of code or of antt's text.
COMMENT = re.compile(rb"^[ \t]*(?://|--).*\n", re.M)
# The status if something cannot be proved or built.
FAILED = 70
NO_TOOLCHAIN = "There is no command rt. Rattle's toolchain proves and builds revroute: README.md says where to get it, and what to do without it."


@cache
def kit():
    """The folder of the toolchain that the command rt belongs to. It is compared with the one that toolchain.txt names."""
    rt = shutil.which("rt")
    if not rt:
        print(NO_TOOLCHAIN, file=sys.stderr)
        sys.exit(FAILED)
    if subprocess.run([TOP / "proof" / "toolchain"]).returncode:
        sys.exit(1)
    os.environ["TOOLCHAIN_IS_COMPARED"] = "yes"
    return Path(rt).resolve().parent.parent


@cache
def listed():
    """The libraries that each crate uses, from the repository and the toolchain. Then the crates that are static
    libraries."""
    uses, static = {}, set()
    for line in (TOP / "crates.txt").read_text().splitlines():
        head, colon, names = line.partition("#")[0].partition(":")
        if colon:
            name, *kind = head.split()
            uses[name] = names.split()
            static.update([name] if "staticlib" in kind else [])
    return uses, static


def below(name):
    """The crates of the repository that a crate depends on, each after those that it uses."""
    uses, _ = listed()
    found = []
    for it in uses[name]:
        if it in uses:
            found += [low for low in [*below(it), it] if low not in found]
    return found


def is_static(name):
    return name in listed()[1]


def is_program(name):
    return (CRATES / name / "src" / "main.rt").is_file()


def sources(name, parts=PARTS):
    """The files that a crate is proved from."""
    for part in parts:
        yield from (it for it in sorted((CRATES / name / part).rglob("*")) if it.is_file())


def functions(name):
    """The number of functions of a crate."""
    return sum(len(re.findall(r"^ *(?:pub(?:\(crate\))? )?(?:(?:const|unsafe|extern \"C\") )*fn ", it.read_text(), re.M)) for it in (CRATES / name / "src").rglob("*.rt"))


@cache
def stamp(name, is_of_contracts=False):
    """A hash of everything that the proof of a crate reads: its files, the toolchain, and the crates below it. The stamp
    of its contracts has less, what decides which bodies meet them: no proof, and no line that is only a comment."""
    uses, static = listed()
    made = hashlib.sha256(f"{uses[name]} {name in static} {(kit() / 'KIT-ID').read_text()}".encode())
    for file in sources(name, ("src", "specs") if is_of_contracts else PARTS):
        text = file.read_bytes()
        made.update(f"\0{file.relative_to(CRATES)}\0".encode() + (COMMENT.sub(b"", text) if is_of_contracts else text))
    for it in below(name):
        made.update(stamp(it, is_of_contracts).encode())
    return made.hexdigest()


def jobs_in_memory():
    """The number of jobs that there is memory for."""
    memory = next(it for it in Path("/proc/meminfo").read_text().splitlines() if it.startswith("MemAvailable:"))
    return max(1, 1024 * int(memory.split()[1]) // ROOM_OF_A_JOB)


def jobs():
    """The number of jobs that there are processors and memory for."""
    return min(len(os.sched_getaffinity(0)), jobs_in_memory())


def words(name, rlib_of, jobs):
    """The arguments with which rattle checks or builds a crate, in the folder of the crate. `rlib_of` returns where
    each library below it is."""
    uses, static = listed()
    made = ["--crate-name", name, f"src/{'main' if is_program(name) else 'lib'}.rt"]
    for it in ["std", *uses[name]]:
        made += ["--extern", f"{it}={rlib_of(it) if it in uses else kit() / 'rlibs' / f'{it}.rlib'}"]
    for it in dict.fromkeys([kit() / "rlibs", *(rlib_of(it).parent for it in below(name))]):
        made += ["-L", f"dependency={it}"]
    made += ["--crate-type", "staticlib"] if name in static else []
    made += ["--antt-project", kit() / "rattle" / "logic" / "antt-project.json", "--logic-built", kit() / "logic_built"]
    return [str(it) for it in [*made, "--jobs", jobs]]


def rattle(*words, niceness=0, **how):
    """Starts the toolchain's rattle with a lower priority by so much, and with standard output and standard error on
    one pipe."""
    return subprocess.Popen(["nice", "-n", str(niceness), kit() / "bin" / "rattle", *words], stdout=subprocess.PIPE, stderr=subprocess.STDOUT, text=True, errors="replace", **how)
