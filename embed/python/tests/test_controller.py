"""Tests the controller with routers that confirm a push, refuse it, or do not answer."""

import doctest
import random
import unittest

import revroute.controller
from revroute import Network, NoHop
from revroute.controller import Controller

SIDE = 5
LINKS = [(x, y) for x in range(SIDE * SIDE) for y in (x - 1, x - SIDE) if y >= 0 and (y == x - SIDE or x % SIDE)]


class Routers:
    """Drawn routers: what each has, and the pushes that are on their way to it."""

    def __init__(self, seed):
        self.draw, self.hops, self.late, self.pushed = random.Random(seed), {}, {}, 0

    def push(self, node, hop):
        answer = self.draw.choice([True, True, True, False, None])
        if answer:
            self.set(node, hop)
        elif answer is None:
            self.late[node] = hop
        return answer

    def set(self, node, hop):
        self.hops[node], self.pushed = hop, self.pushed + 1
        at = hop
        for _ in self.hops:
            at = self.hops.get(at)
        assert at is None or isinstance(at, NoHop), f"a loop is reached from {node}"

    def arrive(self):
        """A push whose answer was lost arrives after all, or is lost too. Returns the router, and what it has then."""
        node, hop = self.late.popitem()
        if self.draw.random() < 0.5:
            self.set(node, hop)
        return node, self.hops.get(node, NoHop.CUT_OFF)

    def forget(self, u, v):
        """A link fails. Either or both of its routers lose their routes over it: the other may only have lost its carrier."""
        for node, other in self.draw.choice([[(u, v)], [(v, u)], [(u, v), (v, u)]]):
            if self.hops.get(node) == other:
                self.hops[node] = NoHop.CUT_OFF
            if self.late.get(node) == other:
                del self.late[node]


class TestController(unittest.TestCase):
    def test_the_examples(self):
        self.assertEqual(doctest.testmod(revroute.controller).failed, 0)

    def test_no_route_is_withdrawn_too_early(self):
        """Router 3 gives no answer, and may still send over router 2, which is cut off."""
        network = Network(5, 0, [(2, 0), (3, 2), (3, 4), (4, 0), (1, 0)])
        silent, pushed = set(), []

        def push(node, hop):
            pushed.append(node)
            return None if node in silent else True

        controller = Controller(network, push)
        controller.update()
        silent.add(3)
        pushed.clear()
        controller.retire(2, 0)
        controller.retire(3, 2)
        controller.update()
        self.assertEqual(pushed, [3])
        controller.answered(3, 4)
        controller.update()
        self.assertEqual(pushed, [3, 2])

    def test_no_loop_and_all_pushed(self):
        for seed in range(20):
            routers = Routers(seed)
            network = Network(SIDE * SIDE, 0, LINKS)
            controller, down = Controller(network, routers.push), []
            for _ in range(100):
                self.event(routers, controller, down)
                controller.update(lambda: routers.draw.random() < 0.05)
                if not controller.pushes() and not controller.unconfirmed:
                    self.all_pushed(network, routers)
            for link in down:
                controller.up(*link)
            while controller.pushes():
                while routers.late:
                    controller.answered(*routers.arrive())
                controller.update()
            self.all_pushed(network, routers)
            self.assertGreater(routers.pushed, 50)

    def test_a_link_that_comes_back_at_once(self):
        """No hop of the network differs then, but the router has lost its route."""
        network, pushed = Network(3, 0, [(1, 0), (2, 1)]), []
        controller = Controller(network, lambda *push: pushed.append(push) or True)
        controller.update()
        self.assertEqual(pushed, [(0, NoHop.HERE), (1, 0), (2, 1)])
        controller.down(1, 0)
        controller.up(1, 0)
        controller.update()
        self.assertEqual(pushed[3:], [(1, 0)])
        controller.up(1, 0)
        controller.update()
        self.assertEqual(pushed[4:], [(1, 0)])
        network.batch([("cut", 1, 0), ("join", 1, 0)])
        self.assertEqual((network.changed(), network.pushes(controller.table)), ([], []))
        del controller.table[1]
        self.assertEqual(network.pushes(controller.table), [(1, 0)])

    def all_pushed(self, network, routers):
        self.assertEqual([routers.hops.get(it, NoHop.CUT_OFF) for it in range(SIDE * SIDE)], network.hops())

    def event(self, routers, controller, down):
        """A late push arrives, a link comes back, or one fails."""
        kind = routers.draw.randrange(3)
        if kind == 0 and routers.late:
            controller.answered(*routers.arrive())
        elif kind == 1 and down:
            controller.up(*down.pop(0))
        else:
            link = routers.draw.choice([it for it in LINKS if it not in down])
            down.append(link)
            unconfirmed = [it for it in link if it in routers.late]
            routers.forget(*link)
            controller.down(*link)
            for node in unconfirmed:
                if node not in routers.late:
                    controller.answered(node, routers.hops.get(node, NoHop.CUT_OFF))


if __name__ == "__main__":
    unittest.main()
