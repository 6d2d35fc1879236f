#!/usr/bin/env python3
"""Pushes drawn pairs of tables in the order of plain.py, hop by hop, and follows every walk after each push.

usage: checks/answers/orders.py [PAIRS]

No push may make a loop that was not in the old table, and no node may be without a route that has one in both tables. The
same pairs are pushed with the withdrawn routes first and by number alone: both must lose routes, and the second must make
loops, or the check is blind. PAIRS is 10,000 if it is not given. `check` compares the order of revroute with that of plain.py.
"""

import random
import sys
from pathlib import Path

sys.dont_write_bytecode = True
sys.path.insert(0, str(Path(__file__).resolve().parent))
from plain import CUT, HERE, pushes  # noqa: E402

SEED, MOST_NODES = 7, 9


def drawn(draw):
    """An old table, often with loops, and a new one without: hops of a new table lead to nodes earlier in a drawn list."""
    nodes = [*range(draw.randint(2, MOST_NODES))]
    old = {x: draw.choice([CUT, HERE, *nodes, *nodes]) for x in nodes}
    ranks = draw.sample(nodes, len(nodes))
    new = {x: HERE if at == 0 else draw.choice([CUT, *ranks[:at], *ranks[:at]]) for at, x in enumerate(ranks)}
    for x in draw.sample(nodes, draw.randint(0, len(nodes) // 2)):
        old[x] = new[x]
    return old, new


def ends(table):
    """Where the walk of each node ends: at the destination, at a node that is cut off, or never, so with None."""
    found = {}
    for x in table:
        met = []
        while x not in found and x not in met and type(table[x]) is int:
            met.append(x)
            x = table[x]
        last = found[x] if x in found else None if x in met else table[x]
        found.update(dict.fromkeys([*met, x], last))
    return found


def harm(old, new, order):
    """How many routes are lost, and at how many moments there is a new loop, while these pushes are made."""
    before, after, table, lost, loops = ends(old), ends(new), dict(old), 0, 0
    kept = [x for x in old if before[x] == after[x] == HERE]
    for x in order:
        table[x] = new[x]
        now = ends(table)
        lost += sum(now[x] != HERE for x in kept)
        loops += has_new_loop(old, table)
    return lost, loops


def has_new_loop(old, table):
    """Whether some loop of the table is no loop of the old one."""
    rounds = (way for way in map(lambda x: way_back(table, x), table) if way)
    return any(any(old[x] != table[x] for x in way) for way in rounds)


def way_back(table, x):
    """The nodes of the loop of x, or none if x is on no loop."""
    way = [x]
    while type(table[way[-1]]) is int and len(way) <= len(table):
        if table[way[-1]] == x:
            return way
        way.append(table[way[-1]])
    return []


def look(pairs):
    """Pushes that many pairs in the three orders, and returns what was seen."""
    draw, seen = random.Random(SEED), {name: [0, 0] for name in ("push order", "withdrawn first", "by number")}
    for _ in range(pairs):
        old, new = drawn(draw)
        order = [x for x, _ in pushes(old, new)]
        last = ends(new)
        orders = order, sorted(order, key=lambda x: last[x] == HERE), sorted(order)
        for counts, nodes in zip(seen.values(), orders):
            for at, number in enumerate(harm(old, new, nodes)):
                counts[at] += number
    if seen["push order"] != [0, 0] or not seen["withdrawn first"][0] or not all(seen["by number"]):
        sys.exit(f"orders: WRONG: {seen}, each with routes lost and new loops")
    lost = f"withdrawn first {seen['withdrawn first'][0]}, by number {seen['by number'][0]} and {seen['by number'][1]} loops"
    return f"orders: {pairs} pairs of tables, no route lost and no new loop; {lost}"


if __name__ == "__main__":
    print(look(int(sys.argv[1]) if len(sys.argv) > 1 else 10_000))
