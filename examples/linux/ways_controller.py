"""A controller for Linux routers that hold all their ways: a router turns to its next way by itself when a link loses its carrier.

Each router is a network namespace, and its link to the router r2 is a device called r2. A router has a nexthop object for the
neighbour of each way, and a route over it. The nearest way has the lowest metric, so the kernel uses it. When a link loses its
carrier, the kernels at both ends delete the nexthop object of their device, with its route, and use the next metric.
"""

import json
import math
import subprocess

import revroute

SECONDS_TO_ANSWER = 10
# The metric of the last route of each router with ways, which drops. All ways have lower ones.
LAST = 4_000_000


class WaysController:
    """The ways of all routers to one gateway.

    Report what happens to links by `down` and `up`, at once or later, in the order in which it happened. Both routers of a link may
    report it. After each report go through `pushing()`. If the next event comes in the middle, stop there, report it, and begin a
    new `pushing()`: nothing has to be undone.

    After all pushes, the routers in `stale` lack ways that their kernels have refused: go through `pushing()` again later. Those in
    `silent` gave no answer. They get no pushes until `ask` is called for them, and until then the others get only ways that close
    no cycle with those that they may hold. After a restart, call `ask` for each router. After `ask`, go through `pushing()`.
    """

    def __init__(self, addresses, gateway, links, target):
        """`addresses` has an address of each router by its name, on any of its devices. `links` are pairs of routers, and must
        close no cycle: the second router of each should be nearer to the gateway. The routes are for `target`, an address behind
        the gateway."""
        self.addresses, self.target = addresses, target
        self.ids = {name: at for at, name in enumerate(addresses, 1)}
        self.network = revroute.Network(len(addresses), gateway, links, names=[*addresses])
        # the links in the network: another cut or join of one of them would be refused
        self.links = {frozenset(link) for link in links}
        # all ways that each router may hold; a router that is missing here has none
        self.table = {}
        # the highest metric that each router may have
        self.highest = {}
        # routers that may hold fewer ways than the table says
        self.stale = set()
        # routers that gave no answer
        self.silent = set()

    def down(self, u, v):
        """A link has failed. For one that is to be taken down, call this before, and take it down once `pushing()` has ended."""
        self.mark(u, v)
        if frozenset((u, v)) in self.links:
            self.network.cut(u, v)
            self.links.remove(frozenset((u, v)))

    def up(self, u, v):
        """A link has come back. If nobody has reported that it failed, it has flapped."""
        self.mark(u, v)
        if frozenset((u, v)) not in self.links:
            # a link to its nearer end keeps routes short
            self.network.join(*sorted((u, v), key=self.distance, reverse=True))
            self.links.add(frozenset((u, v)))

    def distance(self, router):
        """How many links lead from a router to the gateway; infinity if it is cut off."""
        distance = self.network.distance(router)
        return math.inf if distance is None else distance

    def mark(self, u, v):
        """Each router of a link may have lost its way over it, even if the link is up again; or it may still hold it."""
        self.stale |= {it for it in (u, v) if self.table.get(it)}

    def pushing(self):
        """Pushes what the kernels do not have yet, and yields each router once it has confirmed its push.

        Routers get new ways only after all that answer have confirmed that they dropped old ones.
        """
        for phase, push in self.phases():
            for router, ways in phase():
                if router not in self.silent and push(router, ways):
                    yield router

    def phases(self):
        return (self.shrinks, self.shrink), (self.grows, self.grow)

    def shrinks(self):
        """The routers that lose ways, each with those that it keeps."""
        return self.network.shrink(self.table)

    def grows(self):
        """The routers that get ways, or may have lost some that they should have, each with all its ways."""
        return self.network.grow({**self.table, **dict.fromkeys(self.stale, ())})

    def shrink(self, router, ways):
        """Deletes the other ways of a router. Those that it keeps stay in their order: if that is not the new one, `grows` lists the
        router. Returns whether the router has confirmed."""
        # the kernel may have deleted them already: then there is nothing to flush, which is no error
        lines = [f"nexthop flush dev {it}" for it in self.table[router] if it not in ways]
        is_done = self.ip(router, *lines)
        if is_done is None:
            return False
        if not is_done:
            # what it holds now is not known, so it says that itself
            return self.ask(router)
        self.table[router] = [it for it in self.table[router] if it in ways]
        if not ways:
            self.stale.discard(router)
        return True

    def grow(self, router, ways):
        """Gives a router its ways, the nearest first, without those that could close a cycle. If the kernel refuses one, because its
        link has no carrier, that is left out as well. Returns whether the router has answered."""
        ways = self.without_cycles(router, ways)
        self.table[router] = [*ways, *(it for it in self.table.get(router, ()) if it not in ways)]
        # without this one, a router that has lost its ways would use its default route, which could lead back to it
        lines = [f"route replace unreachable {self.target} metric {LAST}"]
        for metric, way in enumerate(ways, 1):
            lines += [f"nexthop replace id {self.ids[way]} via {self.addresses[way]} dev {way} onlink"]
            lines += [f"route replace {self.target} nhid {self.ids[way]} metric {metric}"]
        has_all = self.ip(router, *lines)
        if has_all is None:
            return False
        if has_all:
            self.table[router] = ways
            self.stale.discard(router)
        else:
            self.stale.add(router)
        # what is left at higher metrics is a second route for one of the ways, unless the kernel has deleted it
        old, self.highest[router] = self.highest.get(router, 0), len(ways)
        self.ip(router, *(f"route del {self.target} metric {it}" for it in range(len(ways) + 1, old + 1)))
        return router not in self.silent

    def without_cycles(self, router, ways):
        """The ways that close no cycle with those that routers may hold. Once all have confirmed that they dropped old ones, these
        are all ways."""
        return [it for it in ways if router not in self.reached(it)]

    def reached(self, router):
        """The routers that the packets of a router may come to, itself included."""
        found, more = set(), {router}
        while more:
            found |= more
            more = {way for it in more for way in self.table.get(it, ())} - found
        return found

    def ask(self, router):
        """Has a router say which ways it holds, and returns whether it has answered. Before you call this for a router that gave no
        answer, make sure that no earlier push can still arrive there."""
        if (said := self.run(router, "-json", "route", "show", self.target)) is None or said.returncode:
            self.silent.add(router)
            return False
        routes = sorted((it for it in json.loads(said.stdout) if "dev" in it), key=lambda it: it["metric"])
        self.table[router] = [*dict.fromkeys(it["dev"] for it in routes)]
        self.highest[router] = routes[-1]["metric"] if routes else 0
        self.stale.discard(router)
        self.silent.discard(router)
        return True

    def ip(self, router, *lines):
        """Has `ip` do all that the lines say, also after one that is refused. Returns whether none was refused, or None if the
        router gives no answer."""
        if not lines:
            return True
        said = self.run(router, "-force", "-batch", "-", given="".join(f"{it}\n" for it in lines))
        if said is None:
            self.silent.add(router)
            return None
        return not said.returncode

    def run(self, router, *words, given=""):
        """Runs `ip` on a router. Returns None if that takes too long."""
        words = ["ip", "-netns", router, *words]
        try:
            return subprocess.run(words, input=given, text=True, capture_output=True, timeout=SECONDS_TO_ANSWER)
        except subprocess.TimeoutExpired:
            return None
