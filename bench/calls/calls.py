"""Times the calls of the package as timing.rs does, and a mesh that changes step by step, by calls and by lines."""

import ctypes
import random
import sys
from array import array
from pathlib import Path
from time import perf_counter_ns

import revroute

RUNS, ROUNDS, TABLES, STEPS = 9, 10, 200, 2000


def best(what, given=lambda: ()):
    """The shortest time of several runs. Each run gets new arguments."""
    times = []
    for _ in range(RUNS):
        words = given()
        begin = perf_counter_ns()
        what(*words)
        times.append(perf_counter_ns() - begin)
    return min(times)


def tell(name, time, count):
    print(name, round(time / count, 1))


def read_input():
    read = [line.split() for line in sys.stdin]
    nodes, dest = next((int(u), int(v)) for word, u, v in read if word == "net")
    links = [(int(u), int(v)) for word, u, v in read if word == "link"]
    return nodes, dest, links, [(word, int(u), int(v)) for word, u, v in read if word in ("cut", "add")]


def tell_hops(nodes, dest, links):
    network = revroute.Network(nodes, dest, links)
    reader, way_reader = network.reader(), network.way_reader()
    order = random.Random(1).sample(range(nodes), nodes)
    library = ctypes.CDLL(str(Path(revroute.__file__).with_name("librevroute.so")))
    # any call of one number: it is given one that the library takes for a session with no network
    number, empty = library.revroute_close, array("Q", [0])
    number.argtypes, number.restype = [ctypes.c_size_t], None
    place = empty.buffer_info()[0]

    def call_numbers():
        for _ in range(ROUNDS):
            for _ in order:
                number(place)

    def ask():
        for _ in range(ROUNDS):
            for node in order:
                network.next_hop(node)

    def read():
        for _ in range(ROUNDS):
            for node in order:
                reader.next_hop(node)

    def read_ways():
        for choice in range(ROUNDS):
            for node in order:
                way_reader.way(node, choice)

    def pass_by():
        for _ in range(ROUNDS):
            for _ in order:
                pass

    def ask_ways():
        for _ in range(ROUNDS):
            for node in order:
                network.ways(node)

    loop = best(pass_by)
    tell("hop", best(ask) - loop, nodes * ROUNDS)
    tell("reader", best(read) - loop, nodes * ROUNDS)
    tell("way-reader", best(read_ways) - loop, nodes * ROUNDS)
    tell("ways", best(ask_ways) - loop, nodes * ROUNDS)
    tell("ctypes", best(call_numbers) - loop, nodes * ROUNDS)
    buffer = array("I", bytes(4 * nodes))
    tell("hops", best(lambda: [network.hops_into(buffer) for _ in range(TABLES)]), TABLES)


def tell_changes(nodes, dest, links, changes):
    def change(network):
        for word, u, v in changes:
            getattr(network, word)(u, v)
            network.next_hop(dest)

    def change_by_lines(session):
        for word, u, v in changes:
            session.answer(f'["{word}",{u},{v}]')
            session.next_hop(dest)

    def asked():
        session = revroute.Session()
        session.answer(f'["net",{nodes},{dest},{[[*it] for it in links]}]')
        return (session,)

    network = revroute.Network(nodes, dest, links)
    change(network)
    hops = [hop if isinstance(hop, int) else -1 for hop in network.hops()]
    print("table", sum(node * hop for node, hop in enumerate(hops)) % (1 << 32))
    tell("change", best(change, lambda: (revroute.Network(nodes, dest, links),)), len(changes))
    tell("line", best(change_by_lines, asked), len(changes))


def mesh(size=1000, reach=(1, 2, 3, 5)):
    """1,000 nodes and 4,180 links: rings of four widths, and some links across. Each points to the lower number."""
    draw = random.Random(3)
    links = {(max(x, (x + step) % size), min(x, (x + step) % size)) for x in range(size) for step in reach}
    while len(links) < 4180:
        v, u = sorted(draw.sample(range(size), 2))
        links.add((u, v))
    return size, sorted(links)


def drawn_steps(links):
    """Failures and repairs, each of one link."""
    draw, up, down, steps = random.Random(4), [*links], [], []
    for _ in range(STEPS):
        fails = not down or draw.random() < 0.5
        some, others = (up, down) if fails else (down, up)
        link = some.pop(draw.randrange(len(some)))
        others.append(link)
        steps.append(("cut" if fails else "join", *link))
    return steps


def tell_mesh():
    """A step is a change and the update of the table of next hops. Both ways must end with the same table."""
    size, links = mesh()
    steps, tables = drawn_steps(links), []

    def by_calls():
        network = revroute.Network(size, 0, links)
        table = [it if isinstance(it, int) else -1 for it in network.hops()]
        for word, u, v in steps:
            getattr(network, word)(u, v)
            for node, hop in network.changed():
                table[node] = hop if isinstance(hop, int) else -1
        tables.append(table)

    def by_lines():
        session = revroute.Session()
        session.answer(f'["net",{size},0,{[[*it] for it in links]}]')
        for word, u, v in steps:
            session.answer(f'["{word}",{u},{v}]')
            table = [int(it) if it.isdigit() else -1 for it in session.answer('["hops"]').split(" ")[1:]]
        tables.append(table)

    tell("mesh", best(by_calls), STEPS)
    tell("mesh-lines", best(by_lines), STEPS)
    if any(it != tables[0] for it in tables):
        sys.exit("the tables differ")


nodes, dest, links, changes = read_input()
tell_hops(nodes, dest, links)
tell_changes(nodes, dest, links, changes)
tell_mesh()
