"""Push orders between two tables that no network has made, compared with their definition."""

import doctest
import random
import unittest

import revroute.tables
from revroute import Network, NoHop, NoSuchNode, Refused, push_order

HERE, CUT_OFF = NoHop.HERE, NoHop.CUT_OFF


def group(old, new, node):
    """Whether the walk of a node in the new table misses the destination, and how many nodes on it have another hop in the
    old table, the node itself included."""
    count = 0
    while not isinstance(node, NoHop):
        count += old[node] != new[node]
        node = new[node]
    return node is not HERE, count


def order_of(old, new):
    """The definition: the nodes whose hop differs. Those with a route in the new table come first. Both parts are by wave,
    and within a wave by number."""
    return sorted((x for x in range(len(new)) if old[x] != new[x]), key=lambda x: (group(old, new, x), x))


def has_loop(table):
    for node in range(len(table)):
        for _ in table:
            node = table[node]
            if isinstance(node, NoHop):
                break
        else:
            return True
    return False


def padded(table, nodes):
    return [*table, *[CUT_OFF] * (nodes - len(table))]


class PushOrders(unittest.TestCase):
    def draw_table(self, draw, length, nodes, has_loops):
        """A random table. Its hops lead to lower numbers if it has no loop."""
        ends = [HERE, CUT_OFF]
        return [draw.choice([*ends, *(range(nodes if has_loops else x))]) for x in range(length)]

    def test_orders_are_those_of_the_definition(self):
        draw = random.Random(20261127)
        for _ in range(3000):
            lengths = draw.randrange(10), draw.randrange(10)
            nodes = max(lengths)
            given = self.draw_table(draw, lengths[0], nodes, True)
            new = self.draw_table(draw, lengths[1], nodes, False)
            old, wanted = padded(given, nodes), padded(new, nodes)
            self.assertEqual(push_order(given, new), [(x, wanted[x]) for x in order_of(old, wanted)])
            self.assertEqual(push_order(dict(enumerate(given)), new), push_order(given, new))
            could_loop = has_loop(old)
            for node, hop in push_order(given, new):
                old[node] = hop
                self.assertTrue(could_loop or not has_loop(old))
            self.assertEqual((old, push_order(old, new)), (wanted, []))

    def test_a_loop_has_its_nodes(self):
        draw = random.Random(7)
        met = 0
        for _ in range(2000):
            length = draw.randrange(1, 9)
            old, new = (self.draw_table(draw, length, length, True) for _ in range(2))
            if not has_loop(new):
                push_order(old, new)
                continue
            with self.assertRaises(Refused) as refused:
                push_order(old, new)
            nodes, met = refused.exception.nodes, met + 1
            self.assertEqual((refused.exception.number, nodes[0], len({*nodes})), (7, nodes[-1], len(nodes) - 1))
            self.assertTrue(all(new[u] == v for u, v in zip(nodes, nodes[1:])))
        self.assertGreater(met, 500)

    def test_tables_are_refused_for_the_first_reason(self):
        loop = [HERE, 2, 1]
        for old, new in (([3], loop), (loop, [4]), ([], [-1]), ([2**40], [])):
            with self.assertRaises(NoSuchNode):
                push_order(old, new)
        for table in ([HERE] * 4097, {4096: None}, {2**40: 0}):
            for old, new in ((table, loop), (loop, table)):
                with self.assertRaises(Refused) as refused:
                    push_order(old, new)
                self.assertEqual((refused.exception.number, refused.exception.nodes), (9, ()))
        with self.assertRaises(Refused) as refused:
            push_order([], loop)
        self.assertEqual((refused.exception.number, refused.exception.nodes), (7, (1, 2, 1)))
        for wrong in (5, {1, 2}, None):
            self.assertRaises(TypeError, push_order, wrong, [])
            self.assertRaises(TypeError, push_order, [], wrong)
        self.assertRaises(TypeError, push_order, ["a"], [])
        self.assertEqual(push_order([], [HERE] * 4096), [(x, HERE) for x in range(4096)])

    def test_nodes_can_have_names(self):
        old = {"home": HERE, "a": "home", "b": "a"}
        new = {"home": HERE, "b": "home", "a": "b"}
        self.assertEqual(push_order(old, new), [("b", "home"), ("a", "b")])
        self.assertEqual(push_order(old, {}), [("home", CUT_OFF), ("a", CUT_OFF), ("b", CUT_OFF)])
        self.assertRaises(NoSuchNode, push_order, old, {"a": "c"})
        with self.assertRaises(Refused) as refused:
            push_order(old, {"a": "b", "b": "a"})
        self.assertEqual(sorted({*refused.exception.nodes}), ["a", "b"])

    def test_orders_are_those_of_a_network(self):
        network = Network(5, 0, [(1, 0), (2, 0), (3, 1), (3, 2), (4, 3)])
        before = network.hops()
        network.cut(1, 0)
        self.assertEqual(push_order(before, network.hops()), network.changed())
        self.assertEqual(push_order({}, network.table()), network.pushes({}))


def load_tests(loader, tests, pattern):
    tests.addTests(doctest.DocTestSuite(revroute.tables))
    return tests


if __name__ == "__main__":
    unittest.main()
