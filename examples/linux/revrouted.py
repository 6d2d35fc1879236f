"""What the labs know about the daemon revrouted: where it is, its configuration, its command line, and how it is built."""

import os
import shutil
import subprocess
import sys
from pathlib import Path

TOP = Path(__file__).resolve().parents[2]
NAME = "revrouted"
# What the daemon is built from, besides the library, and what builds it. Both are in the repository only.
SOURCES, BUILDS, CANNOT = TOP / "daemon", TOP / "package" / "build-daemon", 3
# Where daemons with planted faults are built. What they are built over stays there.
PLANTED = TOP / "out" / "daemon-faults"
# Planted faults are edits of these, in the form of checks/faults.py.
FAULTS = Path(__file__).resolve().parent / "daemon-faults"
CONFIGURATION = """
router = {number}
interfaces = ["r*"]
announce = [{announced}]
state = "{state}"
control = "{state}.control"
hello = {hello}
dead = {dead}
"""


# The seconds between two hellos, and of silence until a neighbour is gone, as by default.
HELLO_AND_DEAD = 1.0, 4.0


class NotThere(Exception):
    """The daemon cannot be run or built here, and why."""


def find_program(named=None):
    """The program: as named, as the repository builds it, or as installed."""
    found = named or (made() if BUILDS.is_file() else shutil.which(NAME))
    if not found:
        raise NotThere(f"{NAME} is not installed")
    return Path(found).resolve()


def made():
    ran = subprocess.run([BUILDS], stdout=subprocess.PIPE, text=True)
    if ran.returncode == CANNOT:
        raise NotThere(ran.stdout.strip())
    if ran.returncode:
        sys.exit(ran.returncode)
    return ran.stdout.splitlines()[-1]


def configuration(number, folder, announced, timers, costs={}):
    """The text of a configuration: the number of the router, the folder of what it keeps, its prefixes, the seconds between two
    hellos and of silence until a neighbour is gone, and the costs of interfaces."""
    listed = ", ".join(f'"{it}"' for it in announced)
    text = CONFIGURATION.format(number=number, state=folder, announced=listed, hello=timers[0], dead=timers[1])
    return text + "".join(f"[interface.{name}]\ncost = {cost}\n" for name, cost in costs.items())


class Daemon:
    """How a network of daemon_network.py runs the daemon. The timers are the seconds between two hellos and of silence until a
    neighbour is gone."""

    def __init__(self, program, timers):
        self.program, self.timers = program, timers

    def commands(self, network, name):
        yield words(self.program, network.write_configuration(name))


def words(program, file):
    """The command that runs a daemon with a configuration file, in the foreground."""
    return [program, "run", "--config", file]


def faults():
    """The planted faults."""
    sys.path.insert(0, str(TOP / "checks"))
    from faults import Edit

    return [*map(Edit, sorted(FAULTS.glob("*.edit")))]


def build(edit):
    """Builds the daemon with a planted fault in a copy, and returns the program."""
    if not (SOURCES / "Cargo.toml").is_file():
        raise NotThere("its sources are not here")
    if not shutil.which("cargo"):
        raise NotThere("there is no cargo")
    to, copy = PLANTED, PLANTED / "daemon"
    to.mkdir(parents=True, exist_ok=True)
    shutil.rmtree(copy, ignore_errors=True)
    shutil.copytree(SOURCES, copy, ignore=shutil.ignore_patterns("target", "out"))
    if not (to / "embed").is_symlink():
        (to / "embed").symlink_to(TOP / "embed")
    try:
        edit.make_in(to)
    except Exception as why:
        raise NotThere(f"the edit does not fit the sources: {why}") from None
    # The quickest build will do: all that counts is what it does.
    settings = {"CARGO_TARGET_DIR": str(to / "target"), "CARGO_PROFILE_RELEASE_LTO": "off", "CARGO_PROFILE_RELEASE_OPT_LEVEL": "1"}
    ran = subprocess.run(
        ["cargo", "build", "--release", "--offline", "--quiet"],
        cwd=copy,
        env={**os.environ, **settings},
        stdout=subprocess.PIPE,
        stderr=subprocess.STDOUT,
        text=True,
    )
    if ran.returncode:
        raise NotThere(f"it is not built: {ran.stdout[-1000:]}")
    return shutil.copy2(to / "target" / "release" / NAME, to / edit.path.stem)
