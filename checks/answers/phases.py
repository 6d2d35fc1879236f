#!/usr/bin/env python3
"""Changes drawn networks, pushes the new ways to routers in two phases, and follows their tables after each push.

usage: checks/answers/phases.py [PROGRAM] [CHANGES]

The answers to each change, to ways, nearest and phases have to be those of plain.py. After each push, and with random ways
taken away, the table that the routers hold must have no cycle, and after the last push of both phases it must be that of the
answer to ways. Some phases are interrupted by the next change. The same pushes are also made with the lists that grow first,
and in one phase: both must make cycles, or the check is blind. PROGRAM is revroute, by default ./revroute, and CHANGES is
3,000.
"""

import json
import random
import sys
from pathlib import Path
from subprocess import PIPE, Popen

sys.dont_write_bytecode = True
sys.path.insert(0, str(Path(__file__).resolve().parent))
import plain  # noqa: E402

SEED, MOST_NODES, CHANGES_OF_A_NETWORK = 11, 9, 50
TOP = Path(__file__).resolve().parent.parent.parent


class Asked:
    """The program and the plain one, which have to answer alike."""

    def __init__(self, program):
        self.run = Popen([program, "serve", "--json", "--alone"], stdin=PIPE, stdout=PIPE)
        self.session = plain.Session()

    def ask(self, *request):
        line = json.dumps(request).encode()
        self.run.stdin.write(line + b"\n")
        self.run.stdin.flush()
        found, value = self.run.stdout.readline().decode(errors="replace").rstrip("\n"), self.session.answer(line)[1]
        if found != plain.in_json(value):
            sys.exit(f"phases: WRONG: {line[:200]!r}: {found[:300]!r} and not {plain.in_json(value)[:300]!r}")
        return value

    def close(self):
        self.run.stdin.close()
        self.run.wait()


def has_cycle(table):
    """Whether some nodes of a table of ways send to one another in a cycle."""
    left = dict(table)
    while ended := [x for x, ways in left.items() if not any(y in left for y in ways)]:
        for x in ended:
            del left[x]
    return bool(left)


def cycles(table, pushes):
    """At how many moments there is a cycle while these lists are pushed."""
    table, count = dict(table), 0
    for x, ways in pushes:
        table[x] = ways
        count += has_cycle(table)
    return count


def request(draw, network):
    """A change of a network."""
    u, v = draw.sample(range(network.size), 2)
    links = sorted(network.links)
    cut = ["cut", *draw.choice(links)] if links else ["join", u, v]
    return draw.choice([cut, cut, cut, ["join", u, v], ["join", u, v], ["dest", u], ["batch", [cut, ["join", u, v]]]])


class Routers:
    """Routers that hold ways, and what was seen while they got them."""

    def __init__(self, draw):
        self.draw, self.table, self.seen = draw, {}, {"two phases": 0, "grow first": 0, "one phase": 0}

    def push(self, pushes):
        """Pushes lists in any order, and returns whether the phase was not interrupted."""
        whole = self.draw.random() < 0.8
        order = self.draw.sample(pushes, len(pushes) if whole else self.draw.randint(0, len(pushes)))
        for x, ways in order:
            self.table[x] = ways
            part = {x: [y for y in ways if self.draw.random() < 0.7] for x, ways in self.table.items()}
            self.seen["two phases"] += has_cycle(self.table) + has_cycle(part)
        return whole

    def follow(self, asked):
        """Brings the routers to the ways of the network."""
        network = asked.session.network
        ways = asked.ask("ways")["ways"]
        asked.ask("nearest", self.draw.randrange(network.size))
        phases = asked.ask("phases", [self.table.get(x, []) for x in range(network.size)])
        wanted = {x: [] if it in (plain.HERE, plain.CUT) else it for x, it in enumerate(ways)}
        self.seen["grow first"] += cycles(self.table, phases["grow"] + phases["shrink"])
        self.seen["one phase"] += cycles(self.table, [[x, ways] for x, ways in wanted.items() if ways != self.table.get(x)])
        if self.push(phases["shrink"]) and self.push(phases["grow"]) and self.table != wanted:
            sys.exit(f"phases: WRONG: the routers hold {self.table} and not {wanted}")


def look(program, changes):
    """Makes that many changes, and returns what was seen."""
    draw = random.Random(SEED)
    asked, routers = Asked(program), Routers(draw)
    for at in range(changes):
        if at % CHANGES_OF_A_NETWORK == 0:
            size = draw.randint(3, MOST_NODES)
            ranks = draw.sample(range(size), size)
            links = [[u, v] for place, u in enumerate(ranks) for v in ranks[:place] if draw.random() < 2.5 / size]
            asked.ask("net", size, draw.choice(ranks), links)
            routers.table = dict.fromkeys(range(size), [])
        else:
            asked.ask(*request(draw, asked.session.network))
        routers.follow(asked)
    asked.close()
    seen = routers.seen
    if seen["two phases"] or not seen["grow first"] or not seen["one phase"]:
        sys.exit(f"phases: WRONG: cycles at so many moments: {seen}")
    others = f"grow first {seen['grow first']}, one phase {seen['one phase']}"
    return f"phases: {changes} changes, no cycle; {others}"


if __name__ == "__main__":
    program, changes, *_ = [*sys.argv[1:], *[TOP / "revroute", "3000"][len(sys.argv) - 1 :]]
    print(look(Path(program).resolve(), int(changes)))
