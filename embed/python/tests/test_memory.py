"""Calls without memory: the heap that checks/embed/check puts under the library refuses each of its allocations in
turn. Then each allocation of Python is refused."""

import ctypes
import unittest

import revroute
from revroute._calls import library

try:
    from _testcapi import remove_mem_hooks, set_nomemory
except ImportError:
    set_nomemory = None

LINES = ['["net",4,0,[[0,1],[1,2],[2,3]]]', '["cut",1,0]', '["add",3,0]', '["walk",1]']
CHAIN, CUT = LINES[:2]


class NoText:
    """A buffer that cannot be made into text."""

    def __getitem__(self, _):
        raise MemoryError


def poor(what, first, last):
    """Does something while Python's allocations from `first` to `last` are refused. Returns the exception, or None."""
    set_nomemory(first, last)
    try:
        what()
    except BaseException as fault:
        remove_mem_hooks()
        return fault
    finally:
        remove_mem_hooks()


def ask_poor(session, line, first, last):
    """Asks while Python's allocations from `first` to `last`, or all after `first`, are refused. Returns the
    result."""
    set_nomemory(first, last)
    try:
        return session.answer(line)
    except BaseException as fault:
        remove_mem_hooks()
        return fault
    finally:
        remove_mem_hooks()


class MemoryTest(unittest.TestCase):
    def test_without_memory_there_is_no_node_and_no_neighbour(self):
        left = ctypes.c_long.in_dll(library, "refusing_left")
        for make in (lambda: revroute.Node(1, 1), lambda: revroute.Node.gateway(1, 1)):
            left.value = 1
            self.assertRaises(MemoryError, make)
        left.value = 1
        self.assertRaises(ValueError, revroute.Node, 1, 1, 2**64 - 1)
        left.value = 0
        node = revroute.Node(1, 1)
        # One allocation is for the list of ways, one for that of gates, and one for the neighbours.
        for number in (1, 2, 2, 1):
            left.value = number
            self.assertRaises(MemoryError, node.know, 2)
        left.value = 1
        self.assertRaises(ValueError, node.know, 1)
        node.link_up(2)
        node.written(node.table().state)
        self.assertIsNone(node.say(2))
        left.value = 0
        node.know(2)
        left.value = 1
        node.link_up(2)
        node.written(node.table().state)
        self.assertIsNotNone(node.say(2))
        left.value = 0

    def test_without_memory_the_session_is_as_it_was(self):
        left = ctypes.c_long.in_dll(library, "refusing_left")
        with revroute.Session() as session:
            for line in LINES:
                number, is_met = 0, True
                while is_met:
                    links = session.answer('["links"]')
                    number += 1
                    left.value = number
                    try:
                        session.answer(line)
                        is_met = False
                    except MemoryError:
                        self.assertEqual(session.answer('["links"]'), links)
                left.value = 0
                self.assertGreater(number, 1, line)
            self.assertEqual(session.answer('["links"]'), "links 1>2 2>3 3>0")
        self.assertEqual(ctypes.c_long.in_dll(library, "refusing_held").value, 0)

    def test_an_answer_that_is_lost_is_no_want_of_memory_and_can_be_asked_for_again(self):
        with revroute.Session() as session:
            session.answer(CHAIN)
            for line, wanted in ((CUT, "turned 12 cut 3"), ('["net",1,0,[]]', "turned 0 cut 0")):
                buffer, answer, room = session._room
                session._room = buffer, NoText(), room
                with self.assertRaises(revroute.AnswerLost):
                    session.answer(line)
                session._room = buffer, answer, room
                self.assertEqual(session.last_answer(), wanted)
            self.assertEqual(session.answer('["links"]'), "links")

    def test_a_route_without_memory_changes_nothing(self):
        left = ctypes.c_long.in_dll(library, "refusing_left")
        with revroute.Session() as session:
            session.answer(CHAIN)
            left.value = 1
            self.assertRaises(MemoryError, session.walk, 3)
            left.value = 0
            self.assertEqual(session.walk(3), [3, 2, 1, 0])

    def test_ways_without_memory_change_nothing(self):
        left = ctypes.c_long.in_dll(library, "refusing_left")
        with revroute.Session() as session:
            session.answer(CHAIN)
            for question, wanted in ((session.nearest, [3, 2, 1, 0]), (session.ways, [2])):
                left.value = 1
                self.assertRaises(MemoryError, question, 3)
                left.value = 0
                self.assertEqual(question(3), wanted)
            # The session keeps the room for a list of this length, and a distance needs none.
            left.value = 1
            self.assertEqual((session.ways(2), session.distance(3)), ([1], 3))
            left.value = 0

    def test_pieces_go_on_where_memory_was_missing(self):
        left = ctypes.c_long.in_dll(library, "refusing_left")
        given, number, wanted = "\n".join(LINES).encode() + b"\n", 0, ["turned 6 cut 0", "turned 12 cut 3", "turned 3 cut 0", "walk 1 2 3 0"]
        refused = 1
        while refused:
            number, refused = number + 1, 0
            with revroute.Session() as session:
                found = []
                for piece in (given[:11], given[11:60], given[60:]):
                    left.value = number
                    while piece is not None:
                        try:
                            found += session.take(piece)
                            piece = None
                        except MemoryError:
                            refused, piece = refused + 1, b""
                    left.value = 0
                self.assertEqual(found, wanted, number)
        self.assertGreater(number, 3)
        self.assertEqual(ctypes.c_long.in_dll(library, "refusing_held").value, 0)

    def test_an_answer_to_a_piece_that_is_lost_can_be_asked_for_again(self):
        with revroute.Session() as session:
            buffer, answer, room = session._room
            session._room = buffer, NoText(), room
            self.assertRaises(revroute.AnswerLost, session.take, f"{CHAIN}\n{CUT}\n")
            session._room = buffer, answer, room
            self.assertEqual(session.last_answer(), "turned 6 cut 0")
            self.assertEqual(session.take(b""), ["turned 12 cut 3"])

    def test_without_memory_the_network_is_as_it_was(self):
        left = ctypes.c_long.in_dll(library, "refusing_left")
        network = revroute.Network(4, 0, [(0, 1), (1, 2), (2, 3)])
        for change in (
            lambda: network.add(0, 3),
            lambda: network.cut(1, 0),
            lambda: network.batch([("add", 3, 0), ("join", 1, 3)]),
            lambda: network.move_dest(2),
            lambda: revroute.Network(3, 0, [(0, 1), (1, 2), (2, 0)]),
        ):
            number, is_met = 0, True
            while is_met:
                was = network.links(), network.changed(), network.report
                number += 1
                left.value = number
                try:
                    change()
                    is_met = False
                except MemoryError:
                    left.value = 0
                    self.assertEqual((network.links(), network.changed(), network.report), was)
                except revroute.Refused as refused:
                    self.assertEqual((refused.number, refused.nodes[0]), (7, refused.nodes[-1]))
                    is_met = False
                left.value = 0
            self.assertGreater(number, 1)
        self.assertEqual((network.walk(0), network.dest), ([0, 3, 2], 2))
        network.close()
        self.assertEqual(ctypes.c_long.in_dll(library, "refusing_held").value, 0)

    def test_there_is_no_push_order_without_memory(self):
        left = ctypes.c_long.in_dll(library, "refusing_left")
        found, number = None, 0
        while found is None:
            number += 1
            left.value = number
            try:
                found = revroute.push_order([revroute.NoHop.HERE, 2], [None, 2, 0])
            except MemoryError:
                self.assertEqual(left.value, 0)
            left.value = 0
        self.assertEqual(found, [(0, revroute.NoHop.CUT_OFF), (2, 0)])
        self.assertGreater(number, 1)
        self.assertEqual(ctypes.c_long.in_dll(library, "refusing_held").value, 0)

    def test_pushes_without_memory_change_nothing(self):
        left = ctypes.c_long.in_dll(library, "refusing_left")
        with revroute.Network(4, 0, [(0, 1), (1, 2), (2, 3)]) as network:
            found, number = None, 0
            while found is None:
                number += 1
                left.value = number
                try:
                    found = network.pushes({1: 2, 2: 3, 3: 1})
                except MemoryError:
                    self.assertEqual(left.value, 0)
                left.value = 0
            self.assertEqual(found, [(0, revroute.NoHop.HERE), (1, 0), (2, 1), (3, 2)])
            self.assertGreater(number, 1)
        self.assertEqual(ctypes.c_long.in_dll(library, "refusing_held").value, 0)

    def test_ways_of_all_and_their_phases_without_memory_change_nothing(self):
        left = ctypes.c_long.in_dll(library, "refusing_left")
        with revroute.Network(3, 0, [(1, 0), (2, 1), (2, 0)]) as network:
            table = {1: [2, 0], 2: [1]}
            for question, wanted in (
                (network.all_ways, {0: [], 1: [0], 2: [0, 1]}),
                (lambda: network.shrink(table), [(1, [0])]),
                (lambda: network.grow(table), [(2, [0, 1])]),
            ):
                found, number = None, 0
                while found is None:
                    number += 1
                    left.value = number
                    try:
                        found = question()
                    except MemoryError:
                        self.assertEqual(left.value, 0)
                    left.value = 0
                self.assertEqual(found, wanted)
                self.assertGreater(number, 1)
        self.assertEqual(ctypes.c_long.in_dll(library, "refusing_held").value, 0)

    def test_a_change_with_ways_without_memory_changes_nothing(self):
        left = ctypes.c_long.in_dll(library, "refusing_left")
        with revroute.Network(3, 0, [(1, 0), (2, 1), (2, 0)]) as network:
            for call, wanted in (
                (lambda: network.batch_with_ways([("cut", 1, 0)]), (1, 0)),
                (network.change_shrink, [(2, [0]), (1, [])]),
                (network.change_grow, [(1, [2])]),
            ):
                found, number = None, 0
                while found is None:
                    number += 1
                    links = network.links()
                    left.value = number
                    try:
                        found = call()
                    except MemoryError:
                        self.assertEqual(left.value, 0)
                        self.assertEqual(network.links(), links)
                    left.value = 0
                self.assertEqual(found, wanted)
                self.assertGreater(number, 1)
        self.assertEqual(ctypes.c_long.in_dll(library, "refusing_held").value, 0)

    def test_without_memory_there_is_no_reader(self):
        left = ctypes.c_long.in_dll(library, "refusing_left")
        for kind in ("reader", "way_reader"):
            network, reader, number = revroute.Network(3, 0, [(0, 1), (1, 2)]), None, 0
            while reader is None:
                number += 1
                left.value = number
                try:
                    reader = getattr(network, kind)()
                except MemoryError:
                    self.assertEqual(left.value, 0)
                left.value = 0
            self.assertGreater(number, 1)
            left.value = 1
            self.assertRaises(MemoryError, reader.copy)
            left.value = 0
            network.cut(1, 0)
            self.assertFalse(reader.walk(2) if kind == "reader" else reader.ways(2))
            network.close()
            reader.close()
            self.assertEqual(ctypes.c_long.in_dll(library, "refusing_held").value, 0)

    @unittest.skipUnless(set_nomemory, "Python has no heap that refuses")
    def test_where_python_has_no_memory_a_change_of_a_network_is_made_or_not(self):
        for many in (1, 2):
            number, met = 0, True
            while met:
                number += 1
                with revroute.Network(4, 0, [(0, 1), (1, 2), (2, 3)]) as network:
                    met = poor(lambda: network.cut(1, 0), number, number + many)
                    made = network.report, network.next_hop(3)
                if isinstance(met, MemoryError):
                    self.assertEqual(made, ((6, 0), 2), number)
                else:
                    self.assertEqual(made, ((12, 3), revroute.NoHop.CUT_OFF), number)
                    self.assertIn(type(met), (type(None), revroute.AnswerLost))
            self.assertGreater(number, 1)

    @unittest.skipUnless(set_nomemory, "Python has no heap that refuses")
    def test_where_python_has_no_memory_a_change_is_no_want_of_memory(self):
        # where more than two are refused, Python has not the memory to raise another fault than MemoryError
        for many in (1, 2):
            number, is_met = 0, True
            while is_met:
                number += 1
                with revroute.Session() as session:
                    session.answer(CHAIN)
                    found = ask_poor(session, CUT, number, number + many)
                    is_met = isinstance(found, BaseException)
                    if isinstance(found, MemoryError):
                        self.assertEqual(session.answer(CUT), "turned 12 cut 3", number)
                    elif is_met:
                        self.assertIsInstance(found, revroute.AnswerLost)
                        self.assertEqual(session.last_answer(), "turned 12 cut 3", number)
                    self.assertEqual(session.answer('["walk",3]'), "walk 3 cut")
            self.assertGreater(number, 1)

    @unittest.skipUnless(set_nomemory, "Python has no heap that refuses")
    def test_a_buffer_that_could_not_grow_is_as_it_was(self):
        links = ",".join(f"[{x},{x - 1}]" for x in range(1, 2048))
        wanted = " ".join(["walk", *map(str, range(2047, -1, -1))])
        number, found = 0, None
        while found != wanted:
            number += 1
            with revroute.Session() as session:
                session.answer(f'["net",2048,0,[{links}]]')
                found = ask_poor(session, '["walk",2047]', number, number + 1)
                self.assertEqual(session.answer('["walk",2047]'), wanted, number)
        self.assertGreater(number, 1)


if __name__ == "__main__":
    unittest.main()
