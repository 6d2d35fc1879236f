"""Tests readers, while their network or session changes."""

import copy
import doctest
import gc
import os
import pickle
import signal
import threading
import unittest
from concurrent.futures import ThreadPoolExecutor

import revroute
import revroute.reader
from revroute import Network, NoHop, NoSuchNode, Session

SIDE = 6
NODES = SIDE * SIDE
CHANGES = 4000
LINKS = [(x, x - 1) for x in range(NODES) if x % SIDE] + [(x, x - SIDE) for x in range(SIDE, NODES)]


def change_all(network):
    """Makes links fail and come back. At most three are down at a time."""
    for at in range(CHANGES):
        edits = [("cut", *LINKS[at * 7 % len(LINKS)])]
        if at >= 3:
            edits.insert(0, ("join", *LINKS[(at - 3) * 7 % len(LINKS)]))
        network.batch(edits)


def read_along(reader, is_over):
    """Walks until the changes are over. Returns the number of walks, and the hops that it reads then."""
    walks = 0
    while not is_over.is_set():
        for node in range(NODES):
            route = reader.walk(node)
            if route is not None and (route[0], route[-1]) != (node, 0):
                raise AssertionError(route)
            walks += 1
    return walks, [reader.next_hop(node) for node in range(NODES)]


class ReaderTest(unittest.TestCase):
    def test_the_examples(self):
        self.assertEqual(doctest.testmod(revroute.reader).failed, 0)

    def test_threads_read_while_a_network_changes(self):
        for threads in (1, 4):
            network, is_over = Network(NODES, 0, LINKS), threading.Event()
            with ThreadPoolExecutor(threads) as pool, network.reader() as first:
                reading = [pool.submit(read_along, first.copy(), is_over) for _ in range(threads)]
                try:
                    change_all(network)
                finally:
                    is_over.set()
                for it in reading:
                    walks, hops = it.result(20)
                    self.assertGreater(walks, 0)
                    self.assertEqual(hops, network.hops())

    def test_threads_may_share_a_reader(self):
        network, is_over = Network(NODES, 0, LINKS), threading.Event()
        with ThreadPoolExecutor(4) as pool:
            reader = network.reader()
            reading = [pool.submit(read_along, reader, is_over) for _ in range(4)]
            change_all(network)
            is_over.set()
            for it in reading:
                self.assertEqual(it.result(20)[1], network.hops())

    def test_a_reader_does_not_wait_for_the_network(self):
        network = Network(2, 0, [(1, 0)])
        reader = network.reader()
        with network._session._lock, ThreadPoolExecutor(1) as pool:
            self.assertEqual(pool.submit(reader.walk, 1).result(20), [1, 0])
            self.assertEqual(pool.submit(reader.next_hop, 1).result(20), 0)
            self.assertEqual(pool.submit(reader.copy).result(20).next_hop(1), 0)

    def test_after_each_call_a_reader_has_the_hops(self):
        network = Network(4, 0, [(1, 0), (2, 1), (2, 3), (3, 0)])
        reader = network.reader()
        for change in (lambda: None, lambda: network.cut(1, 0), lambda: network.move_dest(2), lambda: network.join(1, 0)):
            change()
            self.assertEqual([reader.next_hop(it) for it in range(4)], network.hops())
            self.assertEqual([reader.walk(it) for it in range(4)], [network.walk(it) for it in range(4)])

    def test_a_reader_learns_of_each_change(self):
        network = Network(4, 0, [(1, 0), (2, 1), (2, 3), (3, 0)])
        reader = network.reader()

        def read(latest):
            reader.learn(latest)
            return [reader.next_hop(it) for it in range(4)]

        with ThreadPoolExecutor(1) as pool:
            for at in range(400):
                (network.join if at % 2 else network.cut)(1, 0)
                self.assertEqual(pool.submit(read, network.reader()).result(20), network.hops())

    def test_two_threads_may_learn_from_each_other(self):
        network = Network(2, 0, [(1, 0)])
        one, other = network.reader(), network.reader()

        def learn_often(reader, another):
            for _ in range(2000):
                reader.learn(another)
            return reader.next_hop(1)

        with ThreadPoolExecutor(2) as pool:
            learning = [pool.submit(learn_often, one, other), pool.submit(learn_often, other, one)]
            self.assertEqual([it.result(20) for it in learning], [0, 0])

    def test_a_reader_learns_only_from_readers_of_its_network(self):
        network, session = Network(2, 0, [(1, 0)]), Session()
        reader = network.reader()
        for other in (reader, reader.copy(), network.reader()):
            self.assertIsNone(reader.learn(other))
        for other in (network.copy().reader(), Network(2, 0, [(1, 0)]).reader(), session.reader()):
            self.assertRaises(ValueError, reader.learn, other)
        for other in (None, network, 0):
            self.assertRaises(TypeError, reader.learn, other)
        later, closed = network.reader(), network.reader()
        network.close()
        closed.close()
        reader.learn(later)
        for one, other in ((reader, closed), (closed, reader), (closed, closed)):
            self.assertRaises(ValueError, one.learn, other)
        self.assertEqual(reader.next_hop(1), 0)

    def test_a_reader_stays_through_all_networks_of_a_session(self):
        session = Session()
        reader = session.reader()
        self.assertEqual((reader.next_hop(2), reader.walk(2)), (NoHop.CUT_OFF, None))
        session.answer('["net",3,0,[[0,1],[1,2]]]')
        self.assertEqual((reader.next_hop(2), reader.walk(2)), (1, [2, 1, 0]))
        session.take('["net",2,1,[[0,1]]]\n')
        self.assertEqual([reader.next_hop(it) for it in (0, 1, 2, 4095)], [1, NoHop.HERE, NoHop.CUT_OFF, NoHop.CUT_OFF])
        session.take('["cut",0,1]')
        self.assertEqual(reader.next_hop(0), 1)
        session.finish()
        self.assertEqual(reader.next_hop(0), NoHop.CUT_OFF)

    def test_a_route_may_have_as_many_nodes_as_a_network(self):
        reader = Network(4096, 0, [(x, x - 1) for x in range(1, 4096)]).reader()
        for node in (62, 63, 64, 511, 512, 4095):
            self.assertEqual(reader.walk(node), [*range(node, -1, -1)])

    def test_what_is_no_node_is_an_error(self):
        network, session = Network(2, 0, [(1, 0)]), Session()
        for reader, outside in ((network.reader(), 2), (session.reader(), 4096)):
            for node in (outside, -1, 1 << 32, 1 << 70):
                for call in (reader.next_hop, reader.walk):
                    with self.assertRaises(NoSuchNode) as raised:
                        call(node)
                    self.assertEqual(raised.exception.node, node)
            for node in (None, "0", 0.5):
                self.assertRaises(TypeError, reader.next_hop, node)
                self.assertRaises(TypeError, reader.walk, node)

    def test_names_are_those_of_the_caller(self):
        with Network(3, "a", [("b", "a"), ("c", "b")], names=["a", "b", "c"]).reader() as reader, reader.copy() as other:
            for it in (reader, other):
                self.assertEqual((it.next_hop("c"), it.next_hop("a"), it.walk("c")), ("b", NoHop.HERE, ["c", "b", "a"]))
                self.assertRaises(NoSuchNode, it.next_hop, 0)

    def test_a_reader_outlives_its_network_and_other_readers(self):
        network = Network(2, 0, [(1, 0)])
        reader = network.reader()
        other = reader.copy()
        network.close()
        self.assertEqual(reader.next_hop(1), 0)
        reader.close()
        reader.close()
        self.assertEqual(other.walk(1), [1, 0])
        self.assertRaises(ValueError, network.reader)

    def test_a_child_has_a_reader_of_its_own(self):
        network = Network(4, 0, [(1, 0), (2, 1), (2, 3), (3, 0)])
        reader = network.reader()
        child = os.fork()
        if not child:
            signal.alarm(5)
            network.cut(1, 0)
            os._exit(not (reader.walk(2) == [2, 3, 0] and reader.copy().next_hop(2) == 3))
        self.assertEqual(os.waitpid(child, 0)[1], 0)
        self.assertEqual(reader.walk(2), [2, 1, 0])

    def test_a_closed_reader_is_an_error(self):
        with Network(2, 0, [(1, 0)]).reader() as reader:
            self.assertEqual(repr(reader), "<revroute.Reader>")
        self.assertEqual(repr(reader), "<revroute.Reader, closed>")
        for call in (reader.copy, lambda: reader.next_hop(1), lambda: reader.walk(1), reader.__enter__().copy):
            self.assertRaises(ValueError, call)

    def test_a_reader_is_copied_by_its_call_alone(self):
        reader = Network(2, 0, [(1, 0)]).reader()
        for call in (copy.copy, copy.deepcopy, pickle.dumps):
            self.assertRaises(TypeError, call, reader)

    def test_what_is_left_after_is_closed(self):
        readers = [Network(2, 0, [(1, 0)]).reader() for _ in range(100)]
        ends = [it._end for it in readers]
        gc.disable()
        try:
            del readers
            self.assertFalse([it for it in ends if it.alive])
        finally:
            gc.enable()


if __name__ == "__main__":
    unittest.main()
