"""Tests the session of the installed package."""

import array
import copy
import doctest
import gc
import importlib.metadata
import os
import pickle
import signal
import threading
import unittest
import warnings
from concurrent.futures import ThreadPoolExecutor
from pathlib import Path
from unittest import mock

import revroute
import revroute.session
from revroute import _calls
from revroute._calls import library

EXAMPLES = Path(__file__).resolve().parents[3] / "examples"
CHAIN = '["net",4,0,[[0,1],[1,2],[2,3]]]'
CHAIN_LINKS = "links 1>0 2>1 3>2"


def answers(lines):
    """The answers of a new session to all lines."""
    with revroute.Session() as session:
        return [it for it in map(session.answer, lines) if it is not None]


def examples():
    for path in sorted(EXAMPLES.glob("*.jsonl")):
        yield path.name, path.read_bytes().split(b"\n"), path.with_suffix(".answers").read_text().splitlines()


def push_order(before, hops):
    """The nodes whose hop differs: first those whose route leads to the destination, and then the others. Both are
    ordered by how many of the nodes are on the node's route, itself included, and then by number. A number that is not
    a node of one of the networks is cut off there."""
    nodes = range(max(len(before), len(hops)))
    old, new = ([*table, *[revroute.NoHop.CUT_OFF] * (len(nodes) - len(table))] for table in (before, hops))

    def group(x):
        lost, wave = (new[x] != revroute.NoHop.HERE, 0) if isinstance(new[x], revroute.NoHop) else group(new[x])
        return lost, wave + (new[x] != old[x])

    return sorted((x for x in nodes if new[x] != old[x]), key=lambda x: (group(x), x))


class LongerThanItIs(bytes):
    """Bytes whose type reports another length than they have."""

    def __len__(self):
        return 1 << 40


class NullBehindALength:
    """An object that ctypes passes as a null pointer."""

    _as_parameter_ = None

    def __len__(self):
        return 5


class TextOfItsOwn(str):
    def encode(self, *_):
        return LongerThanItIs(b"[]")

    def __len__(self):
        return 1 << 40


def in_call(before=lambda: None, behind=lambda: None):
    """Makes the library's call, and does something before and after it, while the session is in the call."""
    true_call = library.revroute_answer

    def call(*words):
        before()
        status = true_call(*words)
        behind()
        return status

    return mock.patch.object(library, "revroute_answer", call)


def ends_well(what):
    """Whether a child of this process finishes its task in time."""
    with warnings.catch_warnings():
        # that it is forked while threads run is what is tried
        warnings.simplefilter("ignore", DeprecationWarning)
        child = os.fork()
    if child:
        return os.waitpid(child, 0)[1] == 0
    signal.alarm(5)
    try:
        what()
        os._exit(0)
    except BaseException:
        os._exit(1)


def raises(fault, what, *words):
    try:
        what(*words)
    except fault:
        return
    raise AssertionError(f"no {fault.__name__}")


class SessionTest(unittest.TestCase):
    def test_each_example_has_its_answers(self):
        self.assertTrue([*examples()])
        for name, lines, wanted in examples():
            with self.subTest(name):
                self.assertEqual(answers(lines), wanted)

    def test_text_and_bytes_are_answered_alike(self):
        for name, lines, wanted in examples():
            with self.subTest(name):
                self.assertEqual(answers([it.decode() for it in lines]), wanted)

    def look_at_changes(self, session, before, after):
        """Checks that the nodes whose hop has changed are listed in push order, and that a table with the hops from
        before has the same pushes."""
        rerouted = push_order(before, after)
        changed = [(x, after[x] if x < len(after) else revroute.NoHop.CUT_OFF) for x in rerouted]
        self.assertEqual(session.changed(), changed)
        if len(before) == len(after):
            self.assertEqual(session.pushes(before), changed)
            self.assertEqual(session.pushes(dict(enumerate(before))), changed)

    def test_after_a_network_the_difference_is_told(self):
        before = []
        with revroute.Session() as session:
            for nodes, dest, links in (
                (4, 0, [[0, 1], [1, 2], [2, 3]]),
                (7, 0, [[1, 0], [2, 6], [3, 1], [4, 0], [5, 4], [6, 4]]),
                (3, 2, [[0, 1], [1, 2]]),
                (3, 0, [[0, 1], [1, 2]]),
                (3, 0, [[0, 1], [1, 2]]),
                (6, 5, [[4, 5], [3, 4], [2, 3], [1, 2], [0, 1]]),
                (1, 0, []),
                (5, 4, []),
            ):
                session.answer(f'["net",{nodes},{dest},{links}]')
                after = session.hops()
                self.look_at_changes(session, before, after)
                for x in range(len(after), len(before)):
                    self.assertRaises(revroute.NoSuchNode, session.next_hop, x)
                before = after

    def test_a_wrong_table_has_no_pushes(self):
        with revroute.Session() as session:
            self.assertEqual([session.pushes(it) for it in ({}, [])], [[], []])
            self.assertRaises(ValueError, session.pushes, [revroute.NoHop.HERE])
            self.assertRaises(revroute.NoSuchNode, session.pushes, {0: 0})
            session.answer(CHAIN)
            self.assertEqual(session.pushes({1: 0, 2: 1}), [(0, revroute.NoHop.HERE), (3, 2)])
            for table in ({4: 0}, {0: 4}, [-1], [1 << 40]):
                self.assertRaises(revroute.NoSuchNode, session.pushes, table)
            self.assertRaises(ValueError, session.pushes, [None] * 5)
            self.assertRaises(TypeError, session.pushes, None)
            with mock.patch.object(revroute.Session, "size", revroute.Size(5, 3)):
                self.assertRaises(ValueError, session.pushes, {})

    def test_there_are_two_phases_of_numbers(self):
        with revroute.Session() as session:
            self.assertEqual([session.all_ways(), session.shrink({}), session.grow([])], [{}, [], []])
            self.assertRaises(ValueError, session.shrink, [[]])
            self.assertRaises(revroute.NoSuchNode, session.grow, {0: []})
            session.answer(CHAIN)
            self.assertEqual(session.all_ways(), {0: [], 1: [0], 2: [1], 3: [2]})
            table = {1: [2], 2: [1, 9]}
            self.assertEqual((session.shrink(table), session.grow(table)), ([(2, [1]), (1, [])], [(1, [0]), (3, [2])]))
            with mock.patch.object(revroute.Session, "size", revroute.Size(5, 3)):
                self.assertRaises(ValueError, session.shrink, {})
        for call in (session.all_ways, lambda: session.shrink({}), lambda: session.grow({})):
            self.assertRaises(ValueError, call)

    def test_questions_tell_what_lines_tell(self):
        accepted = 0
        for name, lines, _ in examples():
            with self.subTest(name), revroute.Session() as session:
                for line in lines:
                    before, answer = session.hops(), session.answer(line)
                    after = session.hops()
                    if not (answer or "").startswith("turned "):
                        self.assertEqual(after, before)
                        continue
                    accepted += 1
                    self.look_at_changes(session, before, after)
                    self.assertEqual([session.next_hop(x) for x in range(len(after))], after)
                    self.assertEqual(session.last_answer(), answer)
                    told = [it.value if isinstance(it, revroute.NoHop) else str(it) for it in after]
                    self.assertEqual(" ".join(["hops", *told]), session.answer('["hops"]'))
                    self.assertEqual(" ".join(["counts", *map(str, session.counts())]), session.answer('["counts"]'))
                    self.assertEqual("turned {} cut {}".format(*session.report), answer)
                    links = session.links()
                    self.assertEqual(" ".join(["links", *(f"{u}>{v}" for u, v in links)]), session.answer('["links"]'))
                    self.assertEqual(session.size, (len(after), len(links)))
                    self.assertEqual(session.next_hop(session.dest), revroute.NoHop.HERE)
                    for x in range(len(after)):
                        told = " ".join(map(str, session.walk(x) or [x, "cut"]))
                        self.assertEqual(f"walk {told}", session.answer(f'["walk",{x}]'))
                        self.look_at_ways(session, x)
        self.assertGreater(accepted, 10)

    def look_at_ways(self, session, x):
        """Compares the ways of a node and its nearest route with those that lines give."""
        route = session.nearest(x)
        self.assertEqual(" ".join(map(str, ["nearest", *(route or [x, "cut"])])), session.answer(f'["nearest",{x}]'))
        self.assertEqual(session.distance(x), None if route is None else len(route) - 1)
        told = ",".join(map(str, session.ways(x))) or ("here" if x == session.dest else "cut")
        self.assertEqual(f"ways {told}", session.answer(f'["ways",{x}]'))

    def test_pieces_of_any_length_have_the_answers_of_their_lines(self):
        for name, lines, wanted in examples():
            given = b"\n".join(lines)
            for length in (1, 2, 3, 7, 64, len(given)):
                with self.subTest(name, length=length), revroute.Session() as session:
                    pieces = (given[at : at + length] for at in range(0, len(given), length))
                    found = [answer for piece in pieces for answer in session.take(piece)]
                    last = session.finish()
                    self.assertEqual(found + ([] if last is None else [last]), wanted)

    def test_a_line_that_is_too_long_is_not_taken(self):
        with revroute.Session() as session:
            self.assertEqual(session.take(b" " * 16_777_216), [])
            for _ in range(2):
                self.assertRaises(revroute.LineTooLong, session.take, b" ")
            self.assertRaises(ValueError, session.finish)
            self.assertEqual(session.answer(CHAIN), "turned 6 cut 0")

    def test_a_line_that_has_begun_is_not_asked_by_answer(self):
        with revroute.Session() as session:
            self.assertEqual(session.take('["lin'), [])
            self.assertEqual(session.answer(CHAIN), "turned 6 cut 0")
            self.assertEqual(session.take(memoryview(b'ks"]\n\n \n[]')), [CHAIN_LINKS])
            self.assertEqual(session.finish(), "refused 2")
            self.assertIsNone(session.finish())

    def test_the_names_of_the_last_version_warn(self):
        with revroute.Session() as session:
            session.answer('["net",4,0,[[1,0],[2,1],[2,0]]]')
            session.answer('["cut",1,0]')
            for old, new in (
                (session.next_hops, session.hops()),
                (session.rerouted, [node for node, _ in session.changed()]),
                (lambda: session.route(2), session.walk(2)),
                (lambda: session.report(), session.report),
                (lambda: session.size(), session.size),
            ):
                with self.assertWarns(DeprecationWarning) as met:
                    self.assertEqual(old(), new)
                self.assertEqual(met.filename, __file__)

    def test_before_the_first_network_there_is_nothing_to_tell(self):
        with revroute.Session() as session:
            self.assertEqual([session.hops(), session.counts()], [[], []])
            self.assertEqual([session.changed(), session.links()], [[], []])
            self.assertEqual([session.report, session.size, session.dest], [None, None, None])
            self.assertRaises(IndexError, session.next_hop, 0)
            for question in (session.walk, session.ways, session.nearest, session.distance):
                self.assertRaises(IndexError, question, 0)

    def test_what_is_no_node_has_no_hop(self):
        with revroute.Session() as session:
            session.answer(CHAIN)
            for node in (-1, 4, 1 << 32, (1 << 32) - 1, (1 << 32) + 1, 1 << 70):
                self.assertRaises(IndexError, session.next_hop, node)
                for question in (session.walk, session.ways, session.nearest, session.distance):
                    self.assertRaises(IndexError, question, node)
            self.assertRaises(TypeError, session.next_hop, "1")
            self.assertRaises(TypeError, session.walk, 1.0)
            self.assertRaises(TypeError, session.ways, 1.0)
        numbers = (lambda: session.report), (lambda: session.size), (lambda: session.dest)
        lists = session.hops, session.changed, session.counts, session.links
        of_nodes = (lambda: session.next_hop(1)), (lambda: session.walk(1)), (lambda: session.ways(1)), (lambda: session.nearest(1))
        for question in (*numbers, *lists, *of_nodes):
            self.assertRaises(ValueError, question)
        self.assertRaises(ValueError, session.pushes, {})

    def test_threads_with_a_session_each_answer_alike(self):
        for name, lines, wanted in examples():
            with self.subTest(name), ThreadPoolExecutor(8) as pool:
                for found in pool.map(answers, [lines] * 64):
                    self.assertEqual(found, wanted)

    def test_threads_with_one_session_wait_for_each_other(self):
        with revroute.Session() as session, ThreadPoolExecutor(8) as pool:
            session.answer(CHAIN)
            for found in pool.map(session.answer, ['["links"]'] * 1000):
                self.assertEqual(found, CHAIN_LINKS)

    def test_sessions_share_nothing(self):
        with revroute.Session() as one, revroute.Session() as other:
            one.answer(CHAIN)
            self.assertEqual(other.answer('["links"]'), "refused 3")
            other.answer('["net",2,0,[[0,1]]]')
            self.assertEqual(one.answer('["links"]'), CHAIN_LINKS)

    def test_the_buffer_grows_with_the_answer(self):
        links = ",".join(f"[{x},{x - 1}]" for x in range(1, 1024))
        with revroute.Session() as session:
            session.answer(f'["net",1024,0,[{links}]]')
            self.assertEqual(session.answer('["links"]'), " ".join(["links", *(f"{x}>{x - 1}" for x in range(1, 1024))]))
            self.assertEqual(session.answer('["walk",1023]'), " ".join(["walk", *map(str, range(1023, -1, -1))]))

    def test_what_is_no_request_is_answered(self):
        with revroute.Session() as session:
            for line, wanted in [
                ("", None),
                (b" \t\r", None),
                (b"\xff", "refused 1"),
                ("\0", "refused 1"),
                ("[]", "refused 2"),
                ('["links"]\r', "refused 3"),
            ]:
                self.assertEqual(session.answer(line), wanted, line)

    def test_one_line_feed_at_the_end_is_no_part_of_a_line(self):
        with revroute.Session() as session:
            session.answer(CHAIN + "\n")
            for line, wanted in [
                ("\n", None),
                ("\r\n", None),
                ("\n\n", "refused 1"),
                ('["links"]\n', CHAIN_LINKS),
                ('["links"]\r\n', CHAIN_LINKS),
                ('\n["links"]\n', CHAIN_LINKS),
            ]:
                self.assertEqual(session.answer(line), wanted, line)
                self.assertEqual(session.answer(line.encode()), wanted, line)

    def test_the_lines_of_a_file_are_asked_as_they_are_read(self):
        for path in sorted(EXAMPLES.glob("*.jsonl")):
            wanted = path.with_suffix(".answers").read_text().splitlines()
            for how in ({"mode": "r"}, {"mode": "rb"}):
                with self.subTest(path.name, **how), path.open(**how) as lines:
                    self.assertEqual(answers(lines), wanted)

    def test_what_has_bytes_is_a_line(self):
        line = CHAIN.encode()
        with revroute.Session() as session:
            for it in (bytearray(line), memoryview(line), memoryview(line + line)[: len(line)], array.array("B", line), LongerThanItIs(line)):
                self.assertEqual(session.answer(it), "turned 6 cut 0", type(it))
            self.assertEqual(session.answer(LongerThanItIs(b" " * (1 << 20))), None)
            self.assertEqual(session.answer(TextOfItsOwn('["links"]')), CHAIN_LINKS)

    def test_what_has_no_bytes_is_no_line(self):
        with revroute.Session() as session:
            for it in (None, 7, 7.5, ["links"], NullBehindALength(), object()):
                with self.assertRaisesRegex(TypeError, "a line is a str, or bytes, .* and no " + type(it).__name__):
                    session.answer(it)
            with self.assertRaises(ValueError):
                session.answer('"\ud800"')

    def test_a_closed_session_answers_no_more(self):
        session = revroute.Session()
        session.answer(CHAIN)
        session.close()
        session.close()
        with self.assertRaises(ValueError):
            session.answer('["links"]')

    def test_a_session_is_not_copied(self):
        with revroute.Session() as session:
            for copied in (copy.copy, copy.deepcopy, pickle.dumps):
                with self.assertRaises(TypeError):
                    copied(session)

    def test_what_is_left_behind_is_closed(self):
        closed = [revroute.Session() for _ in range(100)]
        for it in closed:
            it.answer(CHAIN)
        ends = [it._end for it in closed]
        del it, closed
        gc.collect()
        self.assertFalse([it for it in ends if it.alive])

    def test_a_thread_can_take_a_session_over(self):
        session, found = revroute.Session(), []
        session.answer(CHAIN)
        thread = threading.Thread(target=lambda: found.append(session.answer('["links"]')))
        thread.start()
        thread.join()
        session.close()
        self.assertEqual(found, [CHAIN_LINKS])

    def test_a_call_that_interrupts_another_is_refused(self):
        refused = []

        def handle(*_):
            for what in (lambda: session.answer('["links"]'), session.last_answer, session.close):
                raises(RuntimeError, what)
                refused.append(what)

        before = signal.signal(signal.SIGUSR1, handle)
        signal.alarm(20)
        try:
            with revroute.Session() as session:
                for when in ("before", "behind"):
                    with in_call(**{when: lambda: signal.raise_signal(signal.SIGUSR1)}):
                        self.assertEqual(session.answer(CHAIN), "turned 6 cut 0")
                self.assertEqual(session.answer('["links"]'), CHAIN_LINKS)
        finally:
            signal.alarm(0)
            signal.signal(signal.SIGUSR1, before)
        self.assertEqual(len(refused), 6)

    def test_a_child_has_a_session_of_its_own(self):
        def ask():
            assert session.answer('["cut",1,0]') == "turned 12 cut 3"
            session.close()

        with revroute.Session() as session:
            session.answer(CHAIN)
            self.assertTrue(ends_well(ask))
            self.assertEqual(session.answer('["links"]'), CHAIN_LINKS)

    def test_a_child_is_refused_a_session_that_was_in_a_call(self):
        def ask():
            for _ in range(2):
                raises(RuntimeError, session.answer, '["links"]')
            session.close()
            assert other.answer('["links"]') == CHAIN_LINKS

        is_in, goes_on = threading.Event(), threading.Event()
        with revroute.Session() as session, revroute.Session() as other:
            other.answer(CHAIN)
            with in_call(lambda: (is_in.set(), goes_on.wait(20))), ThreadPoolExecutor(1) as pool:
                found = pool.submit(session.answer, CHAIN)
                is_in.wait(20)
                with mock.patch.object(library, "revroute_answer", _calls.load().revroute_answer):
                    is_well = ends_well(ask)
                goes_on.set()
                self.assertEqual(found.result(), "turned 6 cut 0")
            self.assertTrue(is_well)
            self.assertEqual(session.answer('["links"]'), CHAIN_LINKS)

    def test_a_child_of_a_handler_goes_on_with_the_call(self):
        children = []

        def fork():
            with warnings.catch_warnings():
                warnings.simplefilter("ignore", DeprecationWarning)
                children.append(os.fork())

        with revroute.Session() as session:
            with in_call(behind=fork):
                found = session.answer(CHAIN)
            if not children[0]:
                signal.alarm(5)
                os._exit(not (found == "turned 6 cut 0" and session.answer('["links"]') == CHAIN_LINKS))
            self.assertEqual(os.waitpid(children[0], 0)[1], 0)

    def test_the_last_answer_can_be_asked_for_again(self):
        with revroute.Session() as session:
            self.assertIsNone(session.last_answer())
            session.answer(CHAIN)
            self.assertEqual(session.last_answer(), "turned 6 cut 0")
            self.assertEqual(session.last_answer(), "turned 6 cut 0")
            session.answer("")
            self.assertIsNone(session.last_answer())

    def test_the_package_has_the_version_of_the_library(self):
        self.assertEqual(importlib.metadata.version("revroute"), revroute.version())


def load_tests(loader, tests, pattern):
    tests.addTests(doctest.DocTestSuite(revroute.session))
    return tests


if __name__ == "__main__":
    unittest.main()
