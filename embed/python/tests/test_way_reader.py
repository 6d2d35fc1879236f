"""Tests readers of ways, while their network or session changes."""

import copy
import doctest
import gc
import pickle
import random
import threading
import unittest
from concurrent.futures import ThreadPoolExecutor

import revroute
import revroute.way_reader
from revroute import Network, NoSuchNode, Session

SIDE = 6
NODES = SIDE * SIDE
CHANGES = 600
LINKS = [(x, x - 1) for x in range(NODES) if x % SIDE] + [(x, x - SIDE) for x in range(SIDE, NODES)]
NEIGHBOURS = {*LINKS, *((v, u) for u, v in LINKS)}


def change_all(network):
    """Makes links fail and come back. At most three are down at a time."""
    for at in range(CHANGES):
        edits = [("cut", *LINKS[at * 7 % len(LINKS)])]
        if at >= 3:
            edits.insert(0, ("join", *LINKS[(at - 3) * 7 % len(LINKS)]))
        network.batch(edits)


def follow(reader, node, drawn):
    """Follows ways that are chosen at random from a node, where nothing changes. Returns the nodes."""
    nodes = [node]
    while (way := reader.way(nodes[-1], drawn.getrandbits(64))) is not None:
        nodes.append(way)
        if len(nodes) > NODES:
            raise AssertionError(nodes)
    return nodes


def read_along(reader, is_over, seed):
    """Reads until the changes are over. Each way must be a neighbour. Returns the number of reads, and then the ways of
    all nodes and a walk from each."""
    reads, drawn = 0, random.Random(seed)
    while not is_over.is_set():
        for node in range(NODES):
            way = reader.way(node, drawn.getrandbits(32))
            for it in [*reader.ways(node), *([] if way is None else [way])]:
                if (node, it) not in NEIGHBOURS:
                    raise AssertionError((node, it))
            reads += 1
    return reads, [reader.ways(node) for node in range(NODES)], [follow(reader, node, drawn) for node in range(NODES)]


class WayReaderTest(unittest.TestCase):
    def test_the_examples(self):
        self.assertEqual(doctest.testmod(revroute.way_reader).failed, 0)

    def test_threads_read_while_a_network_changes(self):
        for threads in (1, 4):
            network, is_over = Network(NODES, 0, LINKS), threading.Event()
            with ThreadPoolExecutor(threads) as pool, network.way_reader() as first:
                reading = [pool.submit(read_along, first.copy(), is_over, it) for it in range(threads)]
                try:
                    change_all(network)
                finally:
                    is_over.set()
                for it in reading:
                    reads, ways, walks = it.result(20)
                    self.assertGreater(reads, 0)
                    self.assertEqual(ways, [network.ways(node) for node in range(NODES)])
                    self.assertEqual([walk[-1] for walk in walks], [0] * NODES)

    def test_threads_may_share_a_reader(self):
        network, is_over = Network(NODES, 0, LINKS), threading.Event()
        with ThreadPoolExecutor(4) as pool:
            reader = network.way_reader()
            reading = [pool.submit(read_along, reader, is_over, it) for it in range(4)]
            try:
                change_all(network)
            finally:
                is_over.set()
            for it in reading:
                self.assertEqual(it.result(20)[1], [network.ways(node) for node in range(NODES)])

    def test_a_reader_does_not_wait_for_the_network(self):
        network = Network(2, 0, [(1, 0)])
        reader = network.way_reader()
        with network._session._lock, ThreadPoolExecutor(1) as pool:
            self.assertEqual(pool.submit(reader.ways, 1).result(20), [0])
            self.assertEqual(pool.submit(reader.way, 1, 5).result(20), 0)
            self.assertEqual(pool.submit(reader.copy).result(20).ways(1), [0])

    def test_a_reader_has_the_first_five_ways(self):
        network = Network(10, 0, [*((x, 0) for x in range(1, 7)), *((7, x) for x in range(1, 7)), (8, 7), (8, 0)])
        reader = network.way_reader()
        self.assertEqual([reader.ways(it) for it in (0, 1, 7, 8, 9)], [[], [0], [1, 2, 3, 4, 5], [0, 7], []])
        self.assertEqual([reader.way(7, it) for it in range(-1, 7)], [1, 1, 2, 3, 4, 5, 1, 2])
        self.assertEqual([reader.way(8, it) for it in (1 << 32, (1 << 32) + 1, (1 << 70) - 1)], [0, 7, 7])
        self.assertEqual([reader.way(it, 3) for it in (0, 9)], [None, None])
        network.cut(1, 0)
        self.assertEqual((reader.ways(1), reader.ways(7)), ([7], [2, 3, 4, 5, 6]))
        network.join(1, 0)
        self.assertEqual((reader.ways(1), reader.ways(7)), ([0, 7], [2, 3, 4, 5, 6]))

    def test_after_each_call_a_reader_has_the_ways(self):
        network = Network(4, 0, [(1, 0), (2, 1), (2, 3), (3, 0)])
        reader = network.way_reader()
        for change in (lambda: None, lambda: network.cut(1, 0), lambda: network.move_dest(2), lambda: network.join(1, 0)):
            change()
            self.assertEqual([reader.ways(it) for it in range(4)], [network.ways(it) for it in range(4)])

    def test_a_reader_learns_of_each_change(self):
        network = Network(4, 0, [(1, 0), (2, 1), (2, 3), (3, 0)])
        reader = network.way_reader()

        def read(latest):
            reader.learn(latest)
            return [reader.ways(it) for it in range(4)]

        with ThreadPoolExecutor(1) as pool:
            for at in range(400):
                (network.join if at % 2 else network.cut)(1, 0)
                wanted = [network.ways(it) for it in range(4)]
                self.assertEqual(pool.submit(read, network.way_reader()).result(20), wanted)

    def test_a_reader_learns_only_from_readers_of_its_kind_and_network(self):
        network, session = Network(2, 0, [(1, 0)]), Session()
        reader = network.way_reader()
        for other in (reader, reader.copy(), network.way_reader()):
            self.assertIsNone(reader.learn(other))
        for other in (network.copy().way_reader(), Network(2, 0, [(1, 0)]).way_reader(), session.way_reader()):
            self.assertRaises(ValueError, reader.learn, other)
        for other in (None, network, 0, network.reader()):
            self.assertRaises(TypeError, reader.learn, other)
        self.assertRaises(TypeError, network.reader().learn, reader)
        later, closed = network.way_reader(), network.way_reader()
        network.close()
        closed.close()
        reader.learn(later)
        for one, other in ((reader, closed), (closed, reader), (closed, closed)):
            self.assertRaises(ValueError, one.learn, other)
        self.assertEqual(reader.ways(1), [0])

    def test_a_reader_stays_through_all_networks_of_a_session(self):
        session = Session()
        reader = session.way_reader()
        self.assertEqual((reader.ways(2), reader.way(2, 0)), ([], None))
        session.answer('["net",3,0,[[0,1],[1,2]]]')
        self.assertEqual((reader.ways(2), reader.way(2, 9)), ([1], 1))
        session.take('["net",2,1,[[0,1]]]\n')
        self.assertEqual([reader.ways(it) for it in (0, 1, 2, 4095)], [[1], [], [], []])
        session.take('["cut",0,1]')
        self.assertEqual(reader.ways(0), [1])
        session.finish()
        self.assertEqual(reader.ways(0), [])

    def test_what_is_no_node_is_an_error(self):
        network, session = Network(2, 0, [(1, 0)]), Session()
        for reader, outside in ((network.way_reader(), 2), (session.way_reader(), 4096)):
            for node in (outside, -1, 1 << 32, 1 << 70):
                for call in (reader.ways, lambda it, of=reader: of.way(it, 1)):
                    with self.assertRaises(NoSuchNode) as raised:
                        call(node)
                    self.assertEqual(raised.exception.node, node)
            for node in (None, "0", 0.5):
                self.assertRaises(TypeError, reader.ways, node)
                self.assertRaises(TypeError, reader.way, node, 1)
            for choice in (None, "0", 0.5):
                self.assertRaises(TypeError, reader.way, 1, choice)

    def test_names_are_those_of_the_caller(self):
        network = Network(3, "a", [("b", "a"), ("c", "b")], names=["a", "b", "c"])
        with network.way_reader() as reader, reader.copy() as other:
            for it in (reader, other):
                self.assertEqual((it.ways("c"), it.way("c", 7), it.ways("a"), it.way("a", 7)), (["b"], "b", [], None))
                self.assertRaises(NoSuchNode, it.ways, 0)
                self.assertRaises(NoSuchNode, it.way, 0, 0)

    def test_a_reader_outlives_its_network_and_other_readers(self):
        network = Network(2, 0, [(1, 0)])
        reader = network.way_reader()
        other = reader.copy()
        network.close()
        self.assertEqual(reader.ways(1), [0])
        reader.close()
        reader.close()
        self.assertEqual(other.way(1, 3), 0)
        self.assertRaises(ValueError, network.way_reader)

    def test_a_closed_reader_is_an_error(self):
        with Network(2, 0, [(1, 0)]).way_reader() as reader:
            self.assertEqual(repr(reader), "<revroute.WayReader>")
        self.assertEqual(repr(reader), "<revroute.WayReader, closed>")
        for call in (reader.copy, lambda: reader.ways(1), lambda: reader.way(1, 0), reader.__enter__().copy):
            self.assertRaises(ValueError, call)

    def test_a_reader_is_copied_by_its_call_alone(self):
        reader = Network(2, 0, [(1, 0)]).way_reader()
        for call in (copy.copy, copy.deepcopy, pickle.dumps):
            self.assertRaises(TypeError, call, reader)

    def test_what_is_left_after_is_closed(self):
        readers = [Network(2, 0, [(1, 0)]).way_reader() for _ in range(100)]
        ends = [it._end for it in readers]
        gc.disable()
        try:
            del readers
            self.assertFalse([it for it in ends if it.alive])
        finally:
            gc.enable()


if __name__ == "__main__":
    unittest.main()
