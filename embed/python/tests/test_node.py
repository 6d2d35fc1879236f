"""Tests routers without a controller."""

import copy
import doctest
import os
import pickle
import signal
import struct
import threading
import unittest
import warnings
from concurrent.futures import ThreadPoolExecutor
from unittest import mock

import revroute
import revroute.node
from revroute import MESSAGE_LENGTH, LaterStart, Node, NodeTable, NotAMessage, Outdated, Unwritten

ROUTERS = 5
QUESTIONS = revroute.node.questions


def write(node):
    """Says that the table is written as it is now."""
    node.written(node.table().state)


def that_knows(message, boot):
    """The message of a sender that knows this boot number of its receiver."""
    return message[:24] + boot.to_bytes(8, "big") + message[32:]


def ends_well(what):
    """Whether a child of this process finishes its task in time."""
    with warnings.catch_warnings():
        # that it is forked while threads run is what is tried
        warnings.simplefilter("ignore", DeprecationWarning)
        child = os.fork()
    if child:
        return os.waitpid(child, 0)[1] == 0
    signal.alarm(5)
    try:
        what()
        os._exit(0)
    except BaseException:
        os._exit(1)


def ring(**policy):
    """Routers in a ring. Router 0 is the gateway."""
    nodes = [Node.gateway(0, 1), *(Node(me, 1, **policy) for me in range(1, ROUTERS))]
    for me, node in enumerate(nodes):
        for other in ((me - 1) % ROUTERS, (me + 1) % ROUTERS):
            node.know(other)
            node.link_up(other)
        write(node)
    return nodes


def pass_on(nodes, me, to):
    nodes[to].hear(nodes[me].say(to))
    write(nodes[to])


def settle(nodes):
    """Delivers news until nobody has any. Then says everything again, as a daemon does from time to time, until nothing
    has changed three times. A router that waits for acknowledgements may take its next step only when it hears
    something."""
    links = [(me, to) for me in range(len(nodes)) for to in range(len(nodes)) if nodes[me].say(to)]
    still = 0
    for _ in range(1_000):
        before = [(it.height, it.ways(), it.distance) for it in nodes]
        while news := [link for link in links if nodes[link[0]].has_news(link[1])]:
            pass_on(nodes, *news[0])
        for link in links:
            pass_on(nodes, *link)
        still = still + 1 if [(it.height, it.ways(), it.distance) for it in nodes] == before else 0
        if still == 3:
            return
    raise AssertionError("routers do not come to rest")


class NodeTest(unittest.TestCase):
    def test_the_examples(self):
        self.assertEqual(doctest.testmod(revroute.node).failed, 0)

    def test_a_ring_heals(self):
        for policy in ({}, {"ceiling": 16}, {"ceiling": 16, "lower": False}, {"wait": False}, {"height": 7, "wait": False, "lower": False}):
            nodes = ring(**policy)
            settle(nodes)
            for node in nodes[1:]:
                nearest = nodes[node.ways()[0]]
                self.assertEqual(node.distance, nearest.distance + 1)
            for me, other in ((0, 1), (1, 0)):
                nodes[me].link_down(other)
                write(nodes[me])
            settle(nodes)
            self.assertEqual([it.distance for it in nodes], [0, 4, 3, 2, 1])
            self.assertEqual([it.ways() for it in nodes], [[], [2], [3], [4], [0]])
            self.assertTrue(nodes[2].lets_in(1) and nodes[1].sends_to(2) and not nodes[2].sends_to(1))

    def test_routes_have_the_least_costs(self):
        """Gateway 0 is dear for router 1 and cheap for router 2. So router 1 sends over router 2, at 2 + 3. Once that link
        is lost, it sends to the gateway."""
        nodes = [Node.gateway(0, 1), Node(1, 1, ceiling=16), Node(2, 1, ceiling=16)]
        for me, costs in enumerate(({1: 1, 2: 1}, {0: 9, 2: 2}, {0: 3, 1: 7})):
            for other, cost in costs.items():
                nodes[me].know(other, cost)
                nodes[me].know(other)
                nodes[me].link_up(other)
            write(nodes[me])
        settle(nodes)
        self.assertEqual([(it.height, it.distance) for it in nodes], [(0, 0), (5, 5), (3, 3)])
        self.assertEqual(nodes[1].ways(), [2, 0])
        for me, other in ((1, 2), (2, 1)):
            nodes[me].link_down(other)
            write(nodes[me])
        settle(nodes)
        self.assertEqual([(it.height, it.distance) for it in nodes], [(0, 0), (9, 9), (3, 3)])

    def test_a_cost_changes_and_ways_stay(self):
        """The link to the gateway gets cheap for router 1, so it sends over it. Then it gets dear for router 2, whose other
        route, over router 1, is dearer still."""
        nodes = [Node.gateway(0, 1), Node(1, 1, ceiling=16), Node(2, 1, ceiling=16)]
        for me, costs in enumerate(({1: 1, 2: 1}, {0: 9, 2: 2}, {0: 3, 1: 7})):
            for other, cost in costs.items():
                nodes[me].know(other, cost)
                nodes[me].link_up(other)
            write(nodes[me])
        settle(nodes)
        for me, cost, picture in ((1, 4, [(0, []), (4, [0, 2]), (3, [0])]), (2, 9, [(0, []), (4, [0]), (9, [0, 1])])):
            nodes[me].set_cost(0, cost)
            self.assertTrue(nodes[me].ways())
            self.assertRaises(Unwritten, nodes[me].say, 0)
            write(nodes[me])
            settle(nodes)
            self.assertEqual([(it.distance, it.ways()) for it in nodes], picture)
        before = nodes[1].table()
        self.assertRaises(ValueError, nodes[1].set_cost, 0, 0)
        self.assertEqual(nodes[1].table(), before)
        nodes[1].set_cost(7, 2)
        self.assertEqual(nodes[1].ways(), before[0])

    def test_a_node_speaks_only_once_its_table_is_written(self):
        node = Node(1, 1)
        node.know(2)
        self.assertIsNone(node.say(2))
        self.assertFalse(node.has_news(2))
        for event in (lambda: node.link_up(2), lambda: node.link_down(2), lambda: node.link_up(3)):
            event()
            self.assertRaises(Unwritten, node.say, 2)
            self.assertRaises(Unwritten, node.has_news, 2)
            event()
            write(node)
            node.has_news(2)

    def test_only_the_last_table_can_be_confirmed(self):
        node = Node.gateway(0, 1)
        for other in (9, 5, 7):
            node.know(other)
            node.link_up(other)
        early = node.table()
        self.assertEqual(early, NodeTable([], [9, 5, 7], 3))
        node.link_down(5)
        self.assertEqual((node.table(), node.gates()), (NodeTable([], [9, 7], 4), [9, 7]))
        for state in (early.state, 0, 5, 2**64 - 1):
            self.assertRaises(Outdated, node.written, state)
            self.assertRaises(Unwritten, node.say, 9)
        node.written(4)
        self.assertEqual(len(node.say(9)), MESSAGE_LENGTH)
        node.written(4)
        self.assertRaises(Outdated, node.written, early.state)
        for state in (-1, 2**64):
            self.assertRaises(OverflowError, node.written, state)
        self.assertRaises(TypeError, node.written)
        self.assertRaises(TypeError, node.written, node.table())

    def test_a_table_is_of_one_moment(self):
        """A thread reads the table again and again while another one makes events. In each table the gates are those of
        its number."""
        node, ends = Node.gateway(0, 1), threading.Event()
        for other in range(1, 100):
            node.know(other)

        def read():
            tables = []
            while not ends.is_set():
                tables.append(node.table())
            return tables

        with ThreadPoolExecutor(1) as pool:
            reading = pool.submit(read)
            for state in range(20_000):
                node.link_up(state % 99 + 1) if state // 99 % 2 == 0 else node.link_down(state % 99 + 1)
            ends.set()
            for table in reading.result():
                rounds, at = divmod(table.state, 99)
                wanted = range(1, at + 1) if rounds % 2 == 0 else range(at + 1, 100)
                self.assertEqual(table.gates, [*wanted])

    def test_a_handler_may_come_between_ways_and_gates(self):
        node, ways = Node.gateway(0, 1), QUESTIONS.revroute_node_ways
        node.know(1)
        events = iter([node.link_up])

        def interrupted(*words):
            status = ways(*words)
            for event in events:
                event(1)
            return status

        with mock.patch.object(QUESTIONS, "revroute_node_ways", interrupted):
            self.assertEqual(node.table(), NodeTable([], [1], 1))

    def test_a_boot_number_that_did_not_grow_is_noticed(self):
        neighbour, node = Node(2, 1), Node(1, 5)
        neighbour.know(1)
        neighbour.link_up(1)
        write(neighbour)
        greeting, before = neighbour.say(1), node.table()
        node.know(2)
        for later in (6, 2**40, 2**64 - 1):
            self.assertRaises(LaterStart, node.hear, that_knows(greeting, later))
            self.assertRaises(NotAMessage, node.hear, b"G" + that_knows(greeting, later)[1:])
        self.assertEqual(node.table(), before)
        self.assertIsNone(node.say(2))
        for boot in (0, 4, 5):
            node.hear(that_knows(neighbour.say(1), boot))
        self.assertEqual(node.table().state, before.state + 3)

    def test_what_is_not_newer_changes_nothing(self):
        node, neighbour = Node(1, 1), Node(2, 1)
        for it, other in ((node, 2), (neighbour, 1)):
            it.know(other)
            it.link_up(other)
            write(it)
        early, late = neighbour.say(1), neighbour.say(1)
        self.assertEqual((early[:-8], early < late), (late[:-8], True))
        self.assertFalse(neighbour.has_news(1))
        node.hear(late)
        state = node.table().state
        write(node)
        for old in (late, early, late):
            node.hear(old)
            self.assertEqual(node.table().state, state)
            self.assertIsNotNone(node.say(2))
        node.hear(neighbour.say(1))
        self.assertRaises(Unwritten, node.say, 2)

    def test_one_old_message_does_not_come_back(self):
        """A gateway 0 and routers 1, 2 and 3 on a line. Router 1 says to router 2 that it knows no distance, before it hears
        of the gateway. Once all is quiet, this message is heard again and again."""

        def hear(at, data):
            before = node[at].height, node[at].distance, node[at].table()[:2]
            node[at].hear(data)
            write(node[at])
            return (node[at].height, node[at].distance, node[at].table()[:2]) != before

        def exchange(rounds, links):
            pairs = [it for a, b in links for it in ((a, b), (b, a))]
            return sum(hear(b, node[a].say(b)) for _ in range(rounds) for a, b in pairs)

        line = [(0, 1), (1, 2), (2, 3)]
        for words in ({}, {"ceiling": 4}):
            node = [Node.gateway(0, 1), *(Node(me, 1, me, **words, wait=False) for me in (1, 2, 3))]
            for pair in line:
                for a, b in (pair, pair[::-1]):
                    node[a].know(b)
                    node[a].link_up(b)
                    write(node[a])
            exchange(3, line[1:])
            old = node[1].say(2)
            exchange(30, line)
            self.assertEqual(exchange(6, line), 0)
            self.assertEqual([it.distance for it in node], [0, 1, 2, 3])
            for _ in range(1000):
                self.assertFalse(hear(2, old))
            self.assertEqual(exchange(6, line), 0)

    def test_a_link_counts_while_it_works_both_ways(self):
        """Routers 0 to 4 in a ring, of which router 0 is the gateway. All messages from 2 to 1 are lost. Router 1 does
        not hear router 2, and loses the link. It says so, and router 2 loses the link too, as a cut would have it. Once
        messages arrive again, both have it back."""

        def hear_all(lost):
            said = [(me, to, nodes[me].say(to)) for me in range(ROUTERS) for to in ((me - 1) % ROUTERS, (me + 1) % ROUTERS)]
            for me, to, message in said:
                if (me, to) != lost:
                    nodes[to].hear(message)
                    while nodes[to].act():
                        pass
                    write(nodes[to])

        def pass_ticks(count, lost=None):
            losses = []
            for _ in range(count):
                hear_all(lost)
                for me, node in enumerate(nodes):
                    if node.tick(patience):
                        losses.append(me)
                        while node.act():
                            pass
                        write(node)
            return losses

        for patience in (3, 4, 9):
            nodes = ring(ceiling=ROUTERS)
            self.assertEqual(pass_ticks(30), [])
            self.assertEqual([it.distance for it in nodes], [0, 1, 2, 2, 1])
            self.assertEqual(pass_ticks(2 * patience, (2, 1)), [1, 2])
            self.assertFalse(nodes[1].lets_in(2) or nodes[2].sends_to(1) or nodes[1].sends_to(2) or nodes[2].lets_in(1))
            self.assertEqual(pass_ticks(30, (2, 1)), [])
            self.assertEqual([it.distance for it in nodes], [0, 1, 3, 2, 1])
            self.assertEqual(pass_ticks(30), [])
            self.assertEqual([it.distance for it in nodes], [0, 1, 2, 2, 1])
            self.assertTrue(nodes[1].lets_in(2) and nodes[2].sends_to(1))

    def test_a_router_does_not_wait_for_a_neighbour_that_it_does_not_hear(self):
        """Router 2 has links to routers 1 and 3. Router 1 has a way, and 3 is never heard. Router 3 may have its route over
        this router, so this one comes down only once the link to 3 is lost."""
        node, form = Node(2, 1, ceiling=9, wait=False), struct.Struct(">4s3I6Q")
        for other in (1, 3):
            node.know(other)
            node.link_up(other)
        for tick in range(1, 6):
            node.hear(form.pack(b"FRN\2", 1, 2, 4, 1, 1, 1, 4, 1, tick))
            while node.act():
                pass
            write(node)
            self.assertEqual((node.ways(), node.height), ([1], 2**32 - 1))
            self.assertEqual(node.tick(5), tick == 5)
        self.assertEqual((node.ways(), node.height), ([1], 5))

    def test_the_policy_goes_on_until_it_rests(self):
        """A router rises above two neighbours, of heights 3 and 9. Then it comes down to its distance, which is 4."""
        node, form = Node(1, 1, 2, wait=False), struct.Struct(">4s3I6Q")
        for other in (2, 3):
            node.know(other)
            node.link_up(other)
        for other, height in ((2, 3), (3, 9)):
            node.hear(form.pack(b"FRN\2", other, 1, height, 1, 1, 1, height, 1, 1))
        self.assertEqual((node.height, node.distance, node.table().state), (10, 4, 4))
        write(node)
        self.assertTrue(node.act())
        self.assertRaises(Unwritten, node.say, 2)
        self.assertEqual((node.height, node.distance, node.table().state), (4, 4, 5))
        write(node)
        self.assertFalse(node.act())
        self.assertEqual((node.height, node.table().state), (4, 5))
        self.assertIsNotNone(node.say(2))
        self.assertFalse(Node.gateway(0, 1).act())

    def test_what_is_no_message_changes_nothing(self):
        node = Node(1, 1)
        node.know(2)
        node.link_up(2)
        write(node)
        message = node.say(2)
        self.assertEqual((len(message), message[:4]), (MESSAGE_LENGTH, b"FRN\2"))
        for noise in (b"", message[1:], message + b"\0", bytes(MESSAGE_LENGTH), b"FRN\1" + message[4:]):
            self.assertRaises(NotAMessage, node.hear, noise)
            self.assertEqual(node.say(2)[:-8], message[:-8])
        for other in (None, 7, "message"):
            self.assertRaises(TypeError, node.hear, other)
        neighbour = Node(2, 1)
        neighbour.know(1)
        neighbour.link_up(1)
        write(neighbour)
        node.hear(bytearray(neighbour.say(1)))
        self.assertRaises(Unwritten, node.say, 2)

    def test_words(self):
        node = Node(1, 2**64 - 1, 2**63 - 1)
        self.assertEqual((node.height, node.distance, node.ways(), node.gates()), (2**63 - 1, None, [], []))
        self.assertEqual((Node(1, 1).height, Node(1, 1, ceiling=9).height, Node(1, 1, 7, ceiling=9).height), (0, 2**32 - 1, 7))
        for height in (2**63, 2**64 - 1):
            self.assertRaises(ValueError, Node, 1, 1, height)
        self.assertRaises(OverflowError, Node, 1, 1, 2**64)
        self.assertRaises(ValueError, node.know, 1)
        self.assertRaises(ValueError, node.know, 2, 0)
        for number in (-1, 2**32):
            self.assertRaises(OverflowError, node.know, number)
            self.assertRaises(OverflowError, node.know, 2, number)
            self.assertRaises(OverflowError, Node, number, 1)
        self.assertRaises(OverflowError, Node, 1, 2**64)
        self.assertRaises(OverflowError, Node.gateway, 1, -1)
        self.assertRaises(TypeError, Node, 1, None)
        for other in range(2, 100):
            node.know(other)
        self.assertFalse(node.lets_in(2) or node.sends_to(2))
        self.assertRaises(TypeError, copy.copy, node)
        self.assertRaises(TypeError, pickle.dumps, node)

    def test_a_closed_node_refuses_calls(self):
        with Node.gateway(0, 1) as node:
            self.assertEqual(repr(node), "<revroute.Node>")
        node.close()
        self.assertEqual(repr(node), "<revroute.Node, closed>")
        questions = (node.ways, node.gates, node.table, lambda: node.height, lambda: node.say(1), lambda: node.lets_in(1))
        for call in (*questions, node.act, lambda: node.tick(1), lambda: node.written(0), lambda: node.hear(b"")):
            self.assertRaises(ValueError, call)

    def test_a_child_has_nodes_of_its_own(self):
        def ask():
            node.link_up(2)
            assert node.gates() == [2]
            node.close()

        node = Node.gateway(0, 1)
        node.know(2)
        self.assertTrue(ends_well(ask))
        self.assertEqual((node.gates(), node.table().state), ([], 0))

    def test_a_child_does_not_wait_for_a_node_that_was_in_a_call(self):
        """Without a lock of its own the child would wait for ever for a thread that it does not have."""

        def ask():
            for call in (node.ways, lambda: node.link_up(1), lambda: node.height):
                try:
                    call()
                except RuntimeError:
                    continue
                raise AssertionError("the node is used")
            node.close()
            assert other.height == 7

        def waits(*words):
            is_in.set()
            goes_on.wait(20)
            return height(*words)

        is_in, goes_on, height = threading.Event(), threading.Event(), QUESTIONS.revroute_node_height
        node, other = Node(1, 1, 3), Node(2, 1, 7)
        with mock.patch.object(QUESTIONS, "revroute_node_height", waits), ThreadPoolExecutor(1) as pool:
            found = pool.submit(lambda: node.height)
            is_in.wait(20)
            with mock.patch.object(QUESTIONS, "revroute_node_height", height):
                is_well = ends_well(ask)
            goes_on.set()
            self.assertEqual(found.result(), 3)
        self.assertTrue(is_well)
        self.assertEqual(node.height, 3)


if __name__ == "__main__":
    unittest.main()
