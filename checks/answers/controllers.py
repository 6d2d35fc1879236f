"""Runs the controllers in examples/pipe over drawn changes, and follows the routers' tables after each push."""

import json
import re
import shutil
import subprocess
import sys
import tempfile
from itertools import zip_longest
from pathlib import Path

import plain
import shared
from drawn import CHANGES, Drawn
from phases import has_cycle

TOP = Path(__file__).resolve().parents[2]
PIPE = TOP / "examples" / "pipe"
# Seeds, the most nodes of a network, and the number of changes. Each begins with a line that is refused, since there is no network yet.
STORIES = [(50, 4, 60), (51, 8, 80), (52, 12, 80), (55, 30, 60)]
PUSH = re.compile(r"(\d+): (\w+) -> (\w+)")
LIST = re.compile(r"(\d+): (\[.*\])")
PATIENCE = 60


def loop_in(table):
    """The nodes of a loop in a table, or None."""
    for x in table:
        way = []
        while x in table and x not in way:
            way.append(x)
            x = table[x]
        if x in way:
            return way[way.index(x) :]
    return None


def hop_of(text):
    return int(text) if text.isdigit() else text


def stop(name, why):
    sys.exit(f"answers: WRONG: {name}: {why}")


def follow(name, said, wanted):
    """Makes the pushes that a controller has printed. No push may close a loop, and they must be the wanted ones."""
    table, made = {}, []
    for at, line in enumerate(said.splitlines()):
        push = PUSH.fullmatch(line)
        if not push:
            stop(name, f"no push: {line!r}")
        router, old, new = int(push[1]), hop_of(push[2]), hop_of(push[3])
        if table.get(router, plain.CUT) != old:
            stop(name, f"push {at}, {line!r}: the router has {table.get(router)}")
        table[router] = new
        made.append([router, new])
        if loop := loop_in(table):
            stop(name, f"push {at}, {line!r}: a loop {loop}")
    compare(name, made, wanted)


def follow_ways(name, said, wanted):
    """Makes the pushes of ways that a controller has printed. No push may close a cycle, and they must be the wanted ones."""
    table, made = {}, []
    for at, line in enumerate(said.splitlines()):
        push = LIST.fullmatch(line)
        if not push:
            stop(name, f"no push of ways: {line!r}")
        made.append([int(push[1]), json.loads(push[2])])
        table |= [made[-1]]
        if has_cycle(table):
            stop(name, f"push {at}, {line!r}: a cycle in {table}")
    compare(name, made, wanted)


def compare(name, made, wanted):
    for at, (push, other) in enumerate(zip_longest(made, wanted)):
        if push != other:
            stop(name, f"push {at} is {push} and not {other}")


def pushes_of(changes):
    """What controllers have to push for these changes, by the plain program: hops, and ways; and how many changes are refused."""
    session = plain.Session()
    values = [it[2] for it in map(session.answer, changes) if it]
    hops = [push for it in values for push in it.get("changed", [])]
    ways = [push for it in values if "changed" in it for push in it["shrink"] + it["grow"]]
    return hops, ways, sum("refused" in it for it in values)


def check(program):
    """Checks each controller."""
    names = ["controller.py", "ways_controller.py", "controller.sh"]
    if not shutil.which("jq"):
        shared.skip("the controller in bash", "jq")
        names.remove("controller.sh")
    with tempfile.TemporaryDirectory(prefix="answers-") as folder:
        Path(folder, "revroute").symlink_to(program)
        for seed, nodes, count in STORIES:
            changes = Drawn(seed, nodes).draw(count, CHANGES)
            (hops, ways, refused), given = pushes_of(changes), b"\n".join(changes)
            for name in names:
                ran = subprocess.run([PIPE / name], cwd=folder, input=given, capture_output=True, timeout=PATIENCE)
                if name == "ways_controller.py":
                    follow_ways(name, ran.stdout.decode(), ways)
                else:
                    follow(name, ran.stdout.decode(), hops)
                said = ran.stderr.decode().splitlines()
                if ran.returncode or len(said) != refused or not all(it.startswith("refused: ") for it in said):
                    stop(name, f"status {ran.returncode}, {refused} refusals, and it said {said[-3:]}")
