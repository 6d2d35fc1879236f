"""A mesh whose links fail and come back. The program pushes the changed next hops to the forwarding tables of the
nodes, one by one, and after each push it checks that the tables have no loop. Sometimes the next link fails or comes
back before everything is pushed; then the pushes continue from the tables as they are. Once everything is pushed, the
program follows the tables from every node."""

import random

import revroute
from revroute import NoHop

SIDE, HOME, CHANGES = 20, 0, 2000


def lost(table, up):
    """The nodes from which the tables lead into a loop, over a link that is down, or to a node without a next hop."""
    leads, found = {HOME}, []
    for start, hop in enumerate(table):
        way, node = [], start
        while node not in leads and node not in way and ({node, table[node]} in up):
            way.append(node)
            node = table[node]
        if node in leads:
            leads.update(way)
        elif hop is not NoHop.CUT_OFF:
            found.append(start)
    return found


def goes_round(table, node):
    """Whether the tables lead from a node back to itself."""
    at = table[node]
    for _ in table:
        if isinstance(at, NoHop) or at == node:
            break
        at = table[at]
    return at == node


def forget(table, u, v):
    """Removes the hops over a failed link from the tables."""
    for node, other in ((u, v), (v, u)):
        if table[node] == other:
            table[node] = NoHop.CUT_OFF


def change(draw, network, table, up, down):
    """Makes a link fail or come back."""
    if down and draw.random() < 0.5:
        link = down.pop(draw.randrange(len(down)))
        network.join(*link)
        up.add(link)
    else:
        link = draw.choice([*up])
        forget(table, *link)
        network.cut(*link)
        up.remove(link)
        down.append(link)


def push(pushes, table):
    for node, hop in pushes:
        table[node] = hop
        # A new loop would contain the node that was pushed.
        if goes_round(table, node):
            raise SystemExit(f"a loop passes node {node}: {table}")


def main():
    draw, nodes = random.Random(1), range(SIDE * SIDE)
    links = [(x, y) for x in nodes for y in (x - 1, x - SIDE) if y >= 0 and (y == x - SIDE or x % SIDE)]
    network = revroute.Network(len(nodes), HOME, links)
    table, is_settled = [NoHop.CUT_OFF for _ in nodes], True
    up, down = {*map(frozenset, links)}, []
    for changes in range(CHANGES + 1):
        if changes:
            change(draw, network, table, up, down)
        pushes = network.changed() if is_settled else network.pushes(table)
        is_interrupted = changes < CHANGES and draw.random() < 0.25
        last = draw.randint(0, len(pushes)) if is_interrupted else len(pushes)
        push(pushes[:last], table)
        is_settled = last == len(pushes)
        if is_settled and (lost(table, up) or table.count(NoHop.CUT_OFF) != network.report.cut_off):
            raise SystemExit(f"the tables are wrong: {table}")
    print(f"{CHANGES} changes, some before all was pushed: no loop after any push, every table leads home")


main()
