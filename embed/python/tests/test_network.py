"""Compares networks by calls with sessions by lines, and tests networkx graphs if networkx is installed."""

import array
import collections
import copy
import doctest
import gc
import importlib.util
import json
import os
import pickle
import random
import signal
import threading
import types
import unittest
import warnings
from concurrent.futures import ThreadPoolExecutor
from unittest import mock

import revroute
import revroute.network
from revroute import Network, NoHop, NoSuchNode, Refused, _calls

HAS_NETWORKX = importlib.util.find_spec("networkx") is not None
HAS_NUMPY = importlib.util.find_spec("numpy") is not None


def drawn(draw, nodes):
    """Links without a cycle, since each points to the lower number."""
    return [(u, v) for u in range(nodes) for v in range(u) if draw.random() < 0.4]


def drawn_edit(draw, nodes):
    behind = nodes + draw.choice((0, 0, 0, 0, 1))
    return draw.choice(["cut", "add", "join"]), draw.randrange(behind), draw.randrange(behind)


def leads(links, start, end):
    """Whether links lead from one node to another."""
    found = [start]
    for node in found:
        found += [v for u, v in links if u == node and v not in found]
    return end in found


def make(links, edit):
    """Makes an accepted edit in a list of links."""
    kind, u, v = edit
    if kind == "cut":
        links[:] = [it for it in links if it not in ((u, v), (v, u))]
    elif kind == "join" and leads(links, v, u):
        links.append((v, u))
    else:
        links.append((u, v))


def shows(refused, edit, links, nodes):
    """Whether the evidence shows why an edit is refused, if these are the links before it."""
    _, u, v = edit
    joined = (u, v) in links or (v, u) in links
    if refused.number == 7:
        walk = refused.nodes
        steps = [*zip(walk, walk[1:])]
        return walk[0] == walk[-1] and (u, v) in steps and all(it == (u, v) or it in links for it in steps)
    return {
        4: all(it >= nodes and it in (u, v) for it in refused.nodes) and len(refused.nodes) == 1,
        5: refused.nodes == (u,) == (v,),
        6: refused.nodes == (u, v) and joined,
        8: refused.nodes == (u, v) and not joined,
    }[refused.number]


def in_change(before):
    """Does something while the network is in a call, and then makes the library's call for a change."""
    true_call = _calls.change

    def call(*words):
        before()
        return true_call(*words)

    return mock.patch.object(_calls, "change", call)


class ByLines:
    """The same network, only by lines."""

    def __init__(self, nodes, dest, links):
        self.session, self.nodes = revroute.Session(), nodes
        self.session.answer(f'["net",{nodes},{dest},{[list(it) for it in links]}]')

    def numbers(self, word):
        return [*map(int, self.session.answer(f'["{word}"]').split()[1:])]

    def hops(self):
        return [{"here": NoHop.HERE, "cut": NoHop.CUT_OFF}.get(it) or int(it) for it in self.session.answer('["hops"]').split()[1:]]

    def walk(self, node):
        found = self.session.answer(f'["walk",{node}]').split()[1:]
        return None if found[-1] == "cut" else [*map(int, found)]

    def links(self):
        return [tuple(map(int, it.split(">"))) for it in self.session.answer('["links"]').split()[1:]]


def push_order(before, hops):
    """The nodes whose hop differs: first those whose route leads to the destination, and then the others. Both are
    ordered by how many of the nodes are on the node's route, itself included, and then by number. A number that is not
    a node of one of the networks is cut off there."""
    nodes = range(max(len(before), len(hops)))
    old, new = ([*table, *[NoHop.CUT_OFF] * (len(nodes) - len(table))] for table in (before, hops))

    def group(x):
        lost, wave = (new[x] != NoHop.HERE, 0) if isinstance(new[x], NoHop) else group(new[x])
        return lost, wave + (new[x] != old[x])

    return sorted((x for x in nodes if new[x] != old[x]), key=lambda x: (group(x), x))


def distances(nodes, dest, links):
    """The distance of each node, by a breadth-first search from the destination against the links."""
    found, reached = [None] * nodes, [dest]
    found[dest] = 0
    for node in reached:
        for tail, head in links:
            if head == node and found[tail] is None:
                found[tail] = found[node] + 1
                reached.append(tail)
    return found


def ways(node, far, links):
    """The heads of the links of a node that have a distance, by distance and then by number."""
    heads = [head for tail, head in links if tail == node and far[head] is not None]
    return sorted(heads, key=lambda head: (far[head], head))


def phases(old, new):
    """The pushes of both phases between two tables of lists: the nodes that lose a way, those that keep one first, and
    then the nodes whose list differs once these have their lists."""
    held, shrinks = [*old], []
    for x, (before, after) in enumerate(zip(old, new)):
        if not {*before} <= {*after}:
            held[x] = [way for way in after if way in before]
            shrinks.append((x, held[x]))
    return sorted(shrinks, key=lambda push: not push[1]), [(x, after) for x, after in enumerate(new) if held[x] != after]


def has_cycle(table):
    """Whether nodes are left after all nodes were removed, again and again, that have no way to a node that is left."""
    left, last = {*range(len(table))}, None
    while left != last:
        left, last = {x for x in left if left & {*table[x]}}, left
    return bool(left)


def drawn_table(draw, hops):
    """A table with some of these hops, and some random ones, often with loops."""
    kept = draw.choice((0, 0.25, 0.5, 0.75, 1))
    nodes = range(len(hops))
    others = [(NoHop.CUT_OFF, NoHop.HERE, draw.choice(nodes), draw.choice(nodes)) for _ in nodes]
    return [hop if draw.random() < kept else draw.choice(some) for hop, some in zip(hops, others)]


def goes_round(table, node):
    """Whether a table leads from a node back to itself."""
    at = table[node]
    for _ in table:
        if at == node or isinstance(at, NoHop):
            break
        at = table[at]
    return at == node


class NetworkTests(unittest.TestCase):
    def look(self, network, lines, before):
        """Compares the answers to all questions, and the changed hops with those before."""
        hops = lines.hops()
        self.assertEqual(network.hops(), hops)
        self.assertEqual([network.next_hop(x) for x in range(lines.nodes)], hops)
        self.assertEqual(network.counts(), lines.numbers("counts"))
        self.assertEqual(network.links(), lines.links())
        self.assertEqual([network.walk(x) for x in range(lines.nodes)], [lines.walk(x) for x in range(lines.nodes)])
        self.assertEqual(network.changed(), [(x, hops[x]) for x in push_order(before, hops)])
        self.assertEqual(network.table(), dict(enumerate(hops)))
        self.look_at_ways(network)
        return hops

    def look_at_ways(self, network):
        """Compares the ways, the nearest routes and the distances with those of a search of the links."""
        links = network.links()
        far = distances(len(network), network.dest, links)
        for x in range(len(network)):
            self.assertEqual(network.ways(x), ways(x, far, links))
            self.assertEqual(network.distance(x), far[x])
            route = None if far[x] is None else [x]
            while route and route[-1] != network.dest:
                route.append(ways(route[-1], far, links)[0])
            self.assertEqual(network.nearest(x), route)
        self.assertEqual(network.all_ways(), {x: ways(x, far, links) for x in range(len(network))})

    def update_ways(self, network, draw, held):
        """Makes the pushes of both phases, each in a random order. If the table has no cycle, no push makes one."""
        links = network.links()
        far = distances(len(network), network.dest, links)
        new = [ways(x, far, links) for x in range(len(network))]
        may_cycle, (shrinks, growths) = has_cycle(held), phases(held, new)
        for table in (held, dict(enumerate(held)), {x: tuple(some) for x, some in enumerate(held) if some}):
            self.assertEqual((network.shrink(table), network.grow(table)), (shrinks, growths))
        for pushes in (shrinks, growths):
            self.assertEqual(network.grow(held), growths)
            for node, some in draw.sample(pushes, len(pushes)):
                held[node] = some
                self.assertTrue(may_cycle or not has_cycle(held), held)
            self.assertEqual(network.shrink(held), [])
        self.assertEqual((held, network.grow(held)), (new, []))

    def test_routers_that_hold_all_their_ways_get_new_ones_in_two_phases(self):
        for seed in range(60):
            draw = random.Random(seed)
            nodes = draw.randrange(1, 9)
            network, held = Network(nodes, draw.randrange(nodes), drawn(draw, nodes)), [[] for _ in range(nodes)]
            for _ in range(20):
                self.update_ways(network, draw, held)
                self.update_ways(network, draw, [draw.choices(range(nodes + 2), k=draw.randrange(4)) for _ in range(nodes)])
                try:
                    network.batch([drawn_edit(draw, nodes)])
                except Refused:
                    network.move_dest(draw.randrange(nodes))

    def test_a_change_keeps_its_pushes_until_the_next_one(self):
        for seed in range(60):
            draw = random.Random(seed)
            nodes = draw.randrange(1, 9)
            network, kept = Network(nodes, draw.randrange(nodes), drawn(draw, nodes)), ([], [])
            for _ in range(20):
                before = [*network.all_ways().values()]
                with_ways = draw.random() < 0.7
                try:
                    (network.batch_with_ways if with_ways else network.batch)([drawn_edit(draw, nodes)])
                    if with_ways:
                        kept = phases(before, [*network.all_ways().values()])
                except Refused:
                    network.move_dest(draw.randrange(nodes))
                self.assertEqual((network.change_shrink(), network.change_grow()), kept)

    def test_a_change_with_ways_names_nodes_and_is_refused_as_any_other(self):
        network = Network(3, "a", [("b", "a"), ("c", "b"), ("c", "a")], names="abc")
        self.assertEqual((network.change_shrink(), network.change_grow()), ([], []))
        for batch in (network.batch, network.batch_with_ways):
            with self.assertRaises(Refused) as refused:
                batch([("cut", "c", "a"), ("add", "a", "c")])
            self.assertEqual((refused.exception.at, refused.exception.nodes), (1, ("a", "c", "b", "a")))
            self.assertRaises(ValueError, batch, [("move", "a", "b")])
            self.assertRaises(NoSuchNode, batch, [("cut", "a", "d")])
        network.batch_with_ways([("cut", "b", "a")])
        self.assertEqual((network.change_shrink(), network.change_grow()), ([("c", ["a"]), ("b", [])], [("b", ["c"])]))
        network.close()
        for call in (network.change_shrink, network.change_grow, lambda: network.batch_with_ways([])):
            self.assertRaises(ValueError, call)

    def test_a_table_has_the_ways_that_a_router_may_hold(self):
        network = Network(3, 0, [(1, 0), (2, 0)])
        network.add(1, 2)
        self.assertEqual(network.grow([[], [0], [0]]), [(1, [0, 2])])
        network.batch([("cut", 1, 2), ("add", 2, 1)])
        # With the confirmed ways alone, 2 would get its way to 1 while 1 may have received its way to 2.
        self.assertEqual((network.shrink([[], [0], [0]]), network.grow([[], [0], [0]])), ([], [(2, [0, 1])]))
        self.assertEqual((network.shrink([[], [0, 2], [0]]), network.grow([[], [0, 2], [0]])), ([(1, [0])], [(2, [0, 1])]))

    def test_a_table_of_ways_can_name_what_is_gone_and_no_other_keys(self):
        network = Network(3, "a", [("b", "a"), ("c", "b"), ("c", "a")], names="abc")
        self.assertEqual(network.all_ways(), {"a": [], "b": ["a"], "c": ["a", "b"]})
        table = {"b": ["gone", "a"], "c": ("b", None)}
        self.assertEqual((network.shrink(table), network.grow(table)), ([("b", ["a"]), ("c", ["b"])], [("c", ["a", "b"])]))
        self.assertEqual(network.grow([[], ["a"]]), [("c", ["a", "b"])])
        self.assertRaises(NoSuchNode, network.shrink, {"d": []})
        numbered = Network(2, 0, [(1, 0)])
        for gone in (2, -1, (1 << 32) - 1, 1 << 80):
            self.assertEqual((numbered.shrink({1: [gone, 0]}), numbered.grow([[], [gone]])), ([(1, [0])], [(1, [0])]))
        for phase in (numbered.shrink, numbered.grow):
            for table in ({2: []}, {-1: []}):
                self.assertRaises(NoSuchNode, phase, table)
            self.assertRaises(ValueError, phase, [[], [], []])
            for table in (None, 7, "ab", {1: "0"}, {1: 0}, {1: {0: 1}}, {1: {0}}, {1: None}, {1: [0.0]}, {"1": []}, numbered.table()):
                self.assertRaises(TypeError, phase, table)
        numbered.close()
        for call in (numbered.all_ways, lambda: numbered.shrink({}), lambda: numbered.grow({})):
            self.assertRaises(ValueError, call)

    def push_drawn(self, network, draw, hops):
        """Makes the pushes of a random table. A new loop would contain the node that was pushed."""
        before = drawn_table(draw, hops)
        wanted = [(x, hops[x]) for x in push_order(before, hops)]
        shuffled = {x: before[x] for x in draw.sample(range(len(hops)), len(hops))}
        for table in (before, shuffled, {x: hop for x, hop in shuffled.items() if hop is not NoHop.CUT_OFF}):
            self.assertEqual(network.pushes(table), wanted)
        for node, hop in network.pushes(before):
            before[node] = hop
            self.assertFalse(goes_round(before, node), before)
        self.assertEqual((before, network.pushes(before)), (hops, []))

    def test_calls_tell_what_lines_tell(self):
        accepted = refused = 0
        for seed in range(60):
            draw = random.Random(seed)
            nodes = draw.randrange(1, 9)
            links, dest = drawn(draw, nodes), draw.randrange(nodes)
            network, lines = Network(nodes, dest, links), ByLines(nodes, dest, links)
            before = self.look(network, lines, [])
            for _ in range(30):
                edits = [drawn_edit(draw, nodes) for _ in range(draw.randrange(4))]
                one, dest = drawn_edit(draw, nodes), draw.randrange(nodes + 1)
                call, line, asked = draw.choice(
                    [
                        (lambda: getattr(network, one[0])(*one[1:]), [*one], [one]),
                        (lambda: network.batch(edits), ["batch", [[*it] for it in edits]], edits),
                        (lambda: network.move_dest(dest), ["dest", dest], None),
                    ]
                )
                links = network.links()
                told = lines.session.answer(str(line).replace("'", '"'))
                try:
                    report = call()
                    self.assertEqual("turned {} cut {}".format(*report), told)
                    self.assertEqual(network.report, report)
                    before = self.look(network, lines, before)
                    self.push_drawn(network, draw, before)
                    accepted += 1
                except Refused as it:
                    self.assertEqual(f"refused {it.number}", told)
                    self.assertEqual((network.hops(), network.links()), (before, links))
                    refused += 1
                    if asked is None:
                        self.assertEqual((it.nodes, it.at), ((dest,), 0))
                    else:
                        for edit in asked[: it.at]:
                            make(links, edit)
                        self.assertTrue(shows(it, asked[it.at], links, nodes), (it, asked, links))
        self.assertGreater(min(accepted, refused), 400)

    def test_each_refusal_has_its_number(self):
        for number, nodes, links in (
            (4, 0, []),
            (4, 2, [(0, 2)]),
            (4, 2, [(0, -1)]),
            (5, 2, [(1, 1)]),
            (6, 2, [(0, 1), (1, 0)]),
            (7, 3, [(0, 1), (1, 2), (2, 0)]),
            (9, 4097, []),
            (9, 1 << 40, []),
        ):
            with self.assertRaises(Refused) as met:
                Network(nodes, 0, links)
            self.assertEqual(met.exception.number, number, links)
        self.assertRaisesRegex(ValueError, "number of nodes is -1", Network, -1, 0)
        network = Network(3, 0, [(1, 0), (2, 1)])
        for number, change in ((8, lambda: network.cut(0, 2)), (8, lambda: network.cut(9, 2)), (7, lambda: network.add(0, 2)), (4, lambda: network.move_dest(3)), (9, lambda: network.batch([("cut", 0, 1)] * 1025))):
            with self.assertRaises(Refused) as met:
                change()
            self.assertEqual(met.exception.number, number)
            again = pickle.loads(pickle.dumps(met.exception))
            self.assertEqual([str(again), again.nodes, again.at], [str(met.exception), met.exception.nodes, met.exception.at])
        self.assertEqual(network.links(), [(1, 0), (2, 1)])

    def test_refusals_say_what_is_wrong(self):
        network = Network(5, 0, [(1, 0), (2, 0), (3, 1), (3, 2), (4, 3)])
        for call, words in (
            (lambda: network.join(1, 5), "refused 4: there is no node 5"),
            (lambda: network.add(1, 1), "refused 5: a link would join node 1 with itself"),
            (lambda: network.add(0, 1), "refused 6: more than one link would join 0 and 1"),
            (lambda: network.cut(0, 4), "refused 8: no link joins 0 and 4"),
            (lambda: network.cut(99, 1), "refused 8: there is no node 99"),
            (lambda: network.cut(1, -9), "refused 8: there is no node -9"),
            (lambda: network.batch([("cut", 1, 0), ("cut", 2, 1 << 40)]), f"refused 8, edit 1: there is no node {1 << 40}"),
            (lambda: network.batch([("cut", 1, 0), ("cut", 0, 1)]), "refused 8, edit 1: no link joins 0 and 1"),
            (lambda: network.move_dest(7), "refused 4: there is no node 7"),
            (lambda: Network(3, 7, [(0, 1)]), "refused 4: there is no node 7"),
            (lambda: Network(0, 0), "refused 4: there is no node 0"),
        ):
            with self.assertRaises(Refused) as met:
                call()
            self.assertEqual(str(met.exception), words)
        for count in (-1, -(1 << 40)):
            with self.assertRaisesRegex(ValueError, f"the number of nodes is {count}") as wrong:
                Network(count, 0)
            self.assertNotIsInstance(wrong.exception, Refused)
        with self.assertRaises(Refused) as met:
            Network(3, 0, [(0, 1), (2, 1), (1, 2)])
        self.assertEqual((met.exception.number, {*met.exception.nodes}), (6, {1, 2}))
        with self.assertRaises(Refused) as met:
            network.add(0, 4)
        self.assertEqual({*met.exception.nodes} - {1, 2}, {0, 3, 4})
        self.assertIn(" ".join(map(str, met.exception.nodes)), str(met.exception))
        named = Network(3, "a", [("b", "a"), ("c", "b")], names="abc")
        with self.assertRaises(Refused) as met:
            named.add("a", "c")
        walk = met.exception.nodes
        self.assertEqual({*zip(walk, walk[1:])}, {("a", "c"), ("c", "b"), ("b", "a")})

    def test_numbers_of_no_node_are_told_as_they_were_asked(self):
        network = Network(3, 0, [(1, 0), (2, 1)])
        for number in (3, -1, (1 << 32) - 1, 1 << 32, 1 << 80, -(1 << 80)):
            for call, nodes, at in (
                (lambda: network.join(1, number), (number,), 0),
                (lambda: network.cut(number, 1), (number, 1), 0),
                (lambda: network.cut(-7, number), (-7, number), 0),
                (lambda: network.batch([("join", 2, 0), ("add", number, -7)]), (number,), 1),
                (lambda: network.batch([("cut", 0, number)] * 1030), (), 1024),
                (lambda: network.move_dest(number), (number,), 0),
                (lambda: Network(3, number), (number,), 0),
                (lambda: Network(3, -7, [(0, 1), (number, 2)]), (number,), 0),
            ):
                with self.assertRaises(Refused) as met:
                    call()
                self.assertEqual((met.exception.nodes, met.exception.at), (nodes, at))
            self.assertRaises(NoSuchNode, network.next_hop, number)
            self.assertRaises(NoSuchNode, network.walk, number)
        self.assertEqual(network.links(), [(1, 0), (2, 1)])

    def test_what_is_no_number_is_an_error(self):
        network = Network(3, 0, [(1, 0), (2, 1)])
        for wrong in ("1", 1.0, None, (1, 2), b"\1", [1], object()):
            for call in (
                lambda: network.next_hop(wrong),
                lambda: network.walk(wrong),
                lambda: network.cut(1, wrong),
                lambda: network.batch([("cut", wrong, 0)]),
                lambda: network.move_dest(wrong),
                lambda: Network(wrong, 0),
                lambda: Network(3, wrong),
                lambda: Network(3, 0, [(0, wrong)]),
            ):
                self.assertRaises(TypeError, call)
        for links in ([0, 1], [(0, 1, 2)], [(0,)], 7):
            self.assertRaises((TypeError, ValueError), Network, 3, 0, links)
        self.assertRaises((TypeError, ValueError), network.batch, [("cut", 1)])
        self.assertEqual(network.hops(), [NoHop.HERE, 0, 1])

    def test_what_has_an_index_is_a_number(self):
        class One:
            def __index__(self):
                return 1

        network = Network(3, One(), [(0, One()), (2, One())])
        self.assertEqual((network.next_hop(One()), network.walk(One()), network.next_hop(True)), (NoHop.HERE, [1], NoHop.HERE))
        network.cut(0, One())
        self.assertEqual(network.links(), [(2, 1)])
        with self.assertRaises(Refused) as met:
            network.cut(One(), 1 << 40)
        self.assertEqual(met.exception.nodes, (1, 1 << 40))
        network.batch([("add", 0, One()), ("cut", One(), 2)])
        self.assertEqual(network.links(), [(0, 1)])
        network.move_dest(0)
        network.move_dest(One())
        self.assertEqual((network.links(), network.dest), ([(0, 1)], 1))

    def test_it_tells_what_it_is(self):
        network = Network(3, 1, [(0, 1)])
        self.assertEqual(repr(network), "<revroute.Network of 3 nodes and 1 links, destination 1>")
        self.assertEqual((network.dest, network.size, network.report), (1, (3, 1), (0, 1)))
        network.move_dest(0)
        self.assertEqual((network.dest, network.report), (0, (1, 1)))
        network.close()
        self.assertEqual(repr(network), "<revroute.Network, closed>")
        self.assertEqual(repr(Network(2, "a", names="ab")), "<revroute.Network of 2 nodes and 0 links, destination 'a'>")
        for copied in (copy.deepcopy, pickle.dumps):
            self.assertRaises(TypeError, copied, Network(1, 0))

    def test_a_copy_has_the_links_and_hops_and_changes_alone(self):
        for seed in range(40):
            draw = random.Random(seed)
            nodes = draw.randrange(1, 9)
            names = None if seed % 2 else [f"node {x}" for x in range(nodes)]
            name = (lambda x: x) if names is None else names.__getitem__
            links = [(name(u), name(v)) for u, v in drawn(draw, nodes)]
            network = Network(nodes, name(draw.randrange(nodes)), links, names=names)
            network.move_dest(name(draw.randrange(nodes)))
            was = network.links(), network.dest, network.hops(), network.table()
            for other in (network.copy(), copy.copy(network)):
                self.assertEqual((other.links(), other.dest, other.hops(), other.table()), was)
                self.assertEqual(other.report.cut_off, network.report.cut_off)
                self.assertTrue(all(hop is NoHop.CUT_OFF or not count for hop, count in zip(other.hops(), other.counts())))
                other.move_dest(name(draw.randrange(nodes)))
                other.batch([("cut", u, v) for u, v in other.links()])
                self.assertEqual((network.links(), network.dest, network.hops(), network.table()), was)
        network.close()
        self.assertRaises(ValueError, network.copy)

    def test_a_network_has_nodes(self):
        network, named = Network(3, 0, [(1, 0)]), Network(2, "a", names=["a", 1])
        self.assertEqual((len(network), len(named)), (3, 2))
        self.assertEqual([it for it in (-1, 0, 2, 3, 1 << 40, "0", 1.0, None, (0, 1)) if it in network], [0, 2])
        self.assertEqual([it for it in ("a", 1, 0, "b", None) if it in named], ["a", 1])
        self.assertTrue(network)

    def test_the_name_of_the_last_version_warns(self):
        network = Network(3, 0, [(1, 0), (2, 1)])
        with self.assertWarnsRegex(DeprecationWarning, "move is deprecated: use move_dest") as met:
            self.assertEqual(network.move(2), (3, 0))
        self.assertEqual((network.dest, met.filename), (2, __file__))
        with self.assertWarnsRegex(DeprecationWarning, r"size\(\) is deprecated"):
            self.assertEqual(network.size(), (3, 2))

    def test_the_version_is_that_of_the_library(self):
        self.assertEqual(revroute.__version__, revroute.version())

    def test_a_question_waits_for_a_change_of_another_thread(self):
        is_in, goes_on, asked = threading.Event(), threading.Event(), []

        def before():
            is_in.set()
            goes_on.wait(20)

        network = Network(5, 0, [(1, 0), (2, 0), (3, 1), (3, 2), (4, 3)])
        with in_change(before), ThreadPoolExecutor(3) as pool:
            changing = pool.submit(network.cut, 1, 0)
            is_in.wait(20)
            asking = [pool.submit(network.next_hop, 1), pool.submit(network.hops)]
            threading.Event().wait(0.1)
            asked = [it.done() for it in asking]
            goes_on.set()
            self.assertEqual(changing.result(20), (1, 0))
            self.assertEqual([it.result(20) for it in asking], [3, [NoHop.HERE, 3, 0, 2, 3]])
        self.assertEqual(asked, [False, False])

    def test_threads_with_one_network_see_one_change_after_the_other(self):
        network = Network(3, 0, [(1, 0), (2, 0), (2, 1)])

        def flap(_):
            network.batch([("cut", 1, 0), ("join", 1, 0)])
            return network.next_hop(1), network.walk(2)

        with ThreadPoolExecutor(8) as pool:
            for hop, walk in pool.map(flap, range(2000)):
                self.assertIn((hop, walk), [(0, [2, 0])])

    def test_a_call_that_interrupts_another_is_an_error(self):
        refused = []

        def handle(*_):
            for call in (network.hops, lambda: network.next_hop(1), lambda: network.cut(2, 1), network.close):
                with self.assertRaisesRegex(RuntimeError, "the network is in a call"):
                    call()
                refused.append(call)

        before = signal.signal(signal.SIGUSR1, handle)
        signal.alarm(20)
        try:
            network = Network(3, 0, [(1, 0), (2, 1)])
            with in_change(lambda: signal.raise_signal(signal.SIGUSR1)):
                self.assertEqual(network.cut(1, 0), (6, 2))
        finally:
            signal.alarm(0)
            signal.signal(signal.SIGUSR1, before)
        self.assertEqual(len(refused), 4)
        self.assertEqual(network.next_hop(1), NoHop.CUT_OFF)

    def test_a_child_is_refused_a_network_that_was_in_a_call(self):
        is_in, goes_on = threading.Event(), threading.Event()
        network, other = Network(2, 0, [(1, 0)]), Network(2, 1, [(1, 0)])
        with in_change(lambda: (is_in.set(), goes_on.wait(20))), ThreadPoolExecutor(1) as pool:
            changing = pool.submit(network.cut, 1, 0)
            is_in.wait(20)
            with warnings.catch_warnings():
                warnings.simplefilter("ignore", DeprecationWarning)
                child = os.fork()
            if not child:
                signal.alarm(5)
                try:
                    network.next_hop(1)
                except RuntimeError:
                    os._exit(not (other.next_hop(0) == 1 and other.move_dest(0) == (1, 0)))
                os._exit(1)
            self.assertEqual(os.waitpid(child, 0)[1], 0)
            goes_on.set()
            self.assertEqual(changing.result(20), (0, 1))

    def test_links_and_neighbors_are_those_of_the_list(self):
        draw = random.Random(7)
        for _ in range(50):
            count = draw.randrange(1, 12)
            names = draw.choice([None, [f"node {it}" for it in range(count)]])
            pairs = [(u, v) for u in range(count) for v in range(u) if draw.random() < 0.3]
            name = (lambda it: it) if names is None else names.__getitem__
            network = Network(count, name(0), [(name(u), name(v)) for u, v in pairs], names=names)
            before = network.links(), network.changed(), network.report, network.counts()
            for u in range(count):
                near = [v for v in range(count) if (u, v) in pairs or (v, u) in pairs]
                self.assertEqual(network.neighbors(name(u)), [*map(name, near)])
                self.assertEqual([v for v in range(count) if network.has_link(name(u), name(v))], near)
            self.assertEqual((network.links(), network.changed(), network.report, network.counts()), before)
            for bad in (count, -1, 1 << 40) if names is None else (0, "node"):
                self.assertRaises(revroute.NoSuchNode, network.neighbors, bad)
                self.assertRaises(revroute.NoSuchNode, network.has_link, name(0), bad)
                self.assertRaises(revroute.NoSuchNode, network.has_link, bad, name(0))

    def test_what_is_saved_makes_the_network_again(self):
        draw = random.Random(11)
        for _ in range(50):
            count = draw.randrange(1, 12)
            names = draw.choice([None, [f"node {it}" for it in range(count)], [(it, "x") for it in range(count)]])
            name = (lambda it: it) if names is None else names.__getitem__
            pairs = [(u, v) for u in range(count) for v in range(u) if draw.random() < 0.3]
            network = Network(count, name(0), [(name(u), name(v)) for u, v in pairs], names=names)
            network.move_dest(name(draw.randrange(count)))
            saved = network.save()
            if names is None or isinstance(names[0], str):
                saved = json.loads(json.dumps(saved))
            if pairs:
                network.cut(*map(name, pairs[0]))
                network.join(*map(name, pairs[0]))
            again = Network(**saved)
            self.assertEqual((len(again), again.save()), (count, Network(**again.save()).save()))
            wanted = {frozenset((name(u), name(v))) for u, v in pairs}
            self.assertEqual({frozenset(it) for it in again.links()}, wanted)
            self.assertEqual((again.dest, [*map(tuple, saved["links"])]), (saved["dest"], again.links()))
        session = revroute.Session()
        self.assertIsNone(session.save())
        session.answer('["net",5,0,[[0,1],[1,2],[3,4]]]')
        line = session.save()
        self.assertEqual(json.loads(line), ["net", 5, 0, [[1, 0], [2, 1], [3, 4]]])
        session.answer(line)
        self.assertEqual((session.save(), session.report), (line, (10, 2)))

    def test_what_is_left_behind_is_closed(self):
        networks = [Network(2, 0, [(1, 0)]) for _ in range(100)]
        ends = [it._session._end for it in networks]
        gc.disable()
        try:
            del networks
            self.assertFalse([it for it in ends if it.alive])
        finally:
            gc.enable()

    def test_what_is_no_node_is_an_error(self):
        network = Network(2, 0, [(1, 0)])
        self.assertRaises(IndexError, network.next_hop, 2)
        self.assertRaises(IndexError, network.walk, -1)
        self.assertRaises(TypeError, network.walk, "1")
        for question in (network.ways, network.nearest, network.distance):
            self.assertRaises(IndexError, question, 2)
            self.assertRaises(IndexError, question, -1)
            self.assertRaises(TypeError, question, "1")
        named = Network(2, "a", [("b", "a")], names=["a", "b"])
        for question in (named.walk, named.ways, named.nearest, named.distance):
            self.assertRaises(KeyError, question, 1)
        self.assertRaises(KeyError, named.cut, "a", "c")
        self.assertRaises(ValueError, named.batch, [("turn", "a", "b")])
        self.assertRaises(ValueError, Network, 2, "a", [], names=["a"])
        self.assertRaises(ValueError, Network, 2, "a", [], names=["a", "a"])

    def test_names_are_those_of_the_caller(self):
        network = Network(4, ("home", 1), [("x", ("home", 1)), (None, "x")], names=["x", ("home", 1), None, 7])
        self.assertEqual(network.walk(None), [None, "x", ("home", 1)])
        self.assertEqual(network.hops(), [("home", 1), NoHop.HERE, "x", NoHop.CUT_OFF])
        self.assertEqual(network.join(7, None).cut_off, 0)
        self.assertEqual(network.changed(), [(7, None)])
        self.assertEqual(network.links(), [("x", ("home", 1)), (None, "x"), (7, None)])
        self.assertEqual((network.ways(7), network.ways(("home", 1))), ([None], []))
        self.assertEqual((network.nearest(7), network.distance(7)), ([7, None, "x", ("home", 1)], 3))

    def test_a_table_can_be_changed_while_its_pushes_are_made(self):
        network = Network(5, "a", [("b", "a"), ("c", "a"), ("d", "b"), ("d", "c"), ("e", "d")], names="abcde")
        table, pushed = {}, []
        for node, hop in network.pushes(table):
            pushed.append(node)
            table[node] = hop
        self.assertEqual((pushed, table), ([*"abcde"], network.table()))
        del table["b"]
        network.cut("b", "a")
        for node, hop in network.pushes(table):
            self.assertEqual((node, hop), ("d", "c"))
            table[node] = hop
            break
        network.join("b", "a")
        self.assertEqual(network.pushes(table), [("b", "a")])
        table |= network.pushes(table)
        self.assertEqual((table, network.pushes(table)), (network.table(), []))

    def test_a_node_without_a_hop_is_as_one_that_is_cut_off(self):
        network = Network(4, 0, [(1, 0), (2, 1)])
        settled, cut = [NoHop.HERE, 0, 1, NoHop.CUT_OFF], NoHop.CUT_OFF
        self.assertEqual(network.hops(), settled)
        for table in ({}, [], (), {3: cut}, {3: None}, [None] * 4, [cut] * 4, [None, cut], {1: None, 0: cut}):
            self.assertEqual(network.pushes(table), [*enumerate(settled[:3])], table)
        some = dict(enumerate(settled[:3]))
        for table in (
            settled,
            tuple(settled),
            settled[:3],
            [*settled[:3], None],
            collections.deque(settled),
            collections.UserList(settled),
            dict(enumerate(settled)),
            some,
            collections.ChainMap({3: None}, some),
            types.MappingProxyType(some),
        ):
            self.assertEqual(network.pushes(table), [], table)

    def test_a_wrong_table_has_no_pushes(self):
        network = Network(3, 0, [(1, 0), (2, 1)])
        for node in (3, -1, (1 << 32) - 1, (1 << 32) - 2, 1 << 32, 1 << 80):
            for table in ({node: 0}, {1: node}, {node: None}, [NoHop.HERE, node], [NoHop.HERE, 0, node]):
                with self.assertRaises(NoSuchNode) as met:
                    network.pushes(table)
                self.assertEqual(met.exception.node, node)
        for table in ([NoHop.HERE, 0, 1, None], [None] * 5, range(4)):
            self.assertRaises(ValueError, network.pushes, table)
        for table in (None, 7, {1, 2}, iter([0]), object(), {"1": 0}, {1: "0"}, {1: 1.0}, ["0"], [[0]], {(): 0}):
            self.assertRaises(TypeError, network.pushes, table)
        named = Network(2, "a", [("b", "a")], names=["a", "b"])
        for table in ({"c": "a"}, {"b": "c"}, {0: "a"}, {"b": 0}, ["c"], [1]):
            self.assertRaises(NoSuchNode, named.pushes, table)
        self.assertRaises(TypeError, named.pushes, {"b": []})
        self.assertEqual(network.pushes(network.table()), [])

    def test_none_can_be_the_name_of_a_node(self):
        network = Network(3, "home", [(None, "home"), ("x", None)], names=[None, "home", "x"])
        self.assertEqual(network.table(), {None: "home", "home": NoHop.HERE, "x": None})
        self.assertEqual(network.pushes({"x": None}), [("home", NoHop.HERE), (None, "home")])
        self.assertEqual(network.pushes(["home", NoHop.HERE]), [("x", None)])
        self.assertEqual(network.pushes(network.table()), [])

    def test_hops_are_written_into_buffers(self):
        network = Network(3, 0, [(1, 0)])
        wanted = [Network.HERE, 0, Network.CUT_OFF]
        numbers = array.array("I", [7] * 4)
        self.assertEqual(network.hops_into(numbers), 3)
        self.assertEqual([*numbers], [*wanted, 7])
        view = memoryview(bytearray(12)).cast("I")
        self.assertEqual((network.hops_into(view), [*view]), (3, wanted))
        self.assertRaises(ValueError, network.hops_into, array.array("I", [7] * 2))
        for wrong in (bytes(12), bytearray(12), array.array("Q", [7] * 3), array.array("f", [7] * 3), memoryview(array.array("I", [7] * 8))[::2], [7] * 3, None):
            self.assertRaises(TypeError, network.hops_into, wrong)

    @unittest.skipUnless(HAS_NUMPY, "numpy is not installed")
    def test_numbers_of_numpy_are_numbers(self):
        import numpy

        network = Network(numpy.int64(3), numpy.uint32(0), [(numpy.int32(1), 0)])
        hops = numpy.full(4, 7, numpy.uint32)
        self.assertEqual((network.hops_into(hops), [*hops]), (3, [Network.HERE, 0, Network.CUT_OFF, 7]))
        self.assertRaises(TypeError, network.hops_into, numpy.zeros(3, numpy.float32))
        self.assertEqual(network.pushes(numpy.array([1, 0, 2])), [(0, NoHop.HERE), (2, NoHop.CUT_OFF)])
        self.assertEqual(network.next_hop(numpy.int64(1)), 0)

    def test_a_closed_network_is_an_error(self):
        with Network(2, 0, [(1, 0)]) as network:
            pass
        for call in (network.table, lambda: network.pushes({}), lambda: network.pushes([NoHop.HERE, 0])):
            self.assertRaises(ValueError, call)
        for call in (network.hops, network.changed, network.links, network.counts, lambda: network.walk(1), lambda: network.cut(1, 0)):
            self.assertRaisesRegex(ValueError, "the network is closed", call)
        for call in (network.save, network.copy, lambda: network.neighbors(1), lambda: network.has_link(1, 0)):
            self.assertRaisesRegex(ValueError, "the network is closed", call)
        self.assertRaises(ValueError, network.hops_into, array.array("I", [7] * 2))
        for call in (lambda: network.next_hop(1), lambda: network.batch([]), lambda: network.move_dest(1), lambda: network.size, lambda: network.dest):
            self.assertRaises(ValueError, call)

    @unittest.skipUnless(HAS_NETWORKX, "networkx is not installed")
    def test_graphs_become_networks(self):
        import networkx

        for seed in range(20):
            graph = networkx.gnp_random_graph(40, 0.08, seed=seed)
            graph = networkx.relabel_nodes(graph, {node: f"node {node * 7 % 40}" for node in graph})
            network = Network.from_networkx(graph, "node 3")
            near = networkx.node_connected_component(graph, "node 3")
            self.assertEqual(network.report, (0, 40 - len(near)) if len(near) == 40 else network.report)
            for node in graph:
                route = network.walk(node)
                self.assertEqual(route is not None, node in near)
                if route:
                    self.assertEqual((route[0], route[-1]), (node, "node 3"))
                    self.assertTrue(all(graph.has_edge(u, v) for u, v in zip(route, route[1:])))
            links = network.to_networkx()
            self.assertTrue(networkx.is_directed_acyclic_graph(links))
            self.assertEqual({*map(frozenset, links.edges)}, {*map(frozenset, graph.edges)})
            # the nodes by their steps from the destination, and then by their order in the graph
            steps = networkx.single_source_shortest_path_length(graph, "node 3")
            self.assertEqual([*links], sorted(graph, key=lambda node: steps.get(node, 40)))
            self.assertEqual({node: len(network.walk(node)) - 1 for node in near}, dict(steps))
            self.assertEqual({node: network.distance(node) for node in near}, dict(steps))
            self.assertEqual(networkx.get_node_attributes(links, "distance"), dict(steps))
            for node in near:
                self.assertEqual([*links.successors(node)], network.ways(node))
                self.assertEqual([steps[it] for it in network.nearest(node)], [*range(steps[node], -1, -1)])
        edges = networkx.DiGraph([("b", "a"), ("c", "b")])
        self.assertEqual(Network.from_networkx(edges, "a").walk("c"), ["c", "b", "a"])
        both, parallel = networkx.DiGraph([(1, 2), (2, 1)]), networkx.MultiGraph([(1, 2), (1, 2), (2, 3)])
        for doubled in (both, parallel, networkx.MultiDiGraph(both)):
            with self.assertRaises(Refused) as met:
                Network.from_networkx(doubled, 1)
            self.assertEqual((met.exception.number, {*met.exception.nodes}), (6, {1, 2}))
            self.assertIn("networkx.Graph(graph) merges them", str(met.exception))
            self.assertEqual(Network.from_networkx(networkx.Graph(doubled), 1).walk(2), [2, 1])
        self.assertEqual(Network.from_networkx(networkx.MultiGraph([(1, 2), (2, 3)]), 1).walk(3), [3, 2, 1])
        # links that point away are steps too: node 0 is nearer than node 9, which points to it
        away = networkx.DiGraph([(9, 0), (5, 0)])
        self.assertEqual([*Network.from_networkx(away, 5).to_networkx()], [5, 0, 9])
        weighted = networkx.Graph([("b", "a", {"weight": 9}), ("c", "a", {"weight": 1}), ("c", "b", {"weight": 1})])
        self.assertEqual(Network.from_networkx(weighted, "a").walk("b"), ["b", "a"])
        with self.assertRaises(KeyError) as met:
            Network.from_networkx(edges, "d")
        self.assertEqual(str(met.exception), "there is no node 'd' in the network")
        self.assertRaises(NoSuchNode, Network.from_networkx, networkx.Graph([("a", "b")]), "d")


def load_tests(loader, tests, pattern):
    for it in (revroute, revroute.network):
        tests.addTests(doctest.DocTestSuite(it))
    return tests


if __name__ == "__main__":
    unittest.main()
