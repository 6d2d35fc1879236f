"""A controller for Linux routers: it follows links that fail and come back, and pushes each changed hop by `ip route`.

Each router is a network namespace, and its link to the router r2 is a device called r2.

When a link fails, Linux deletes the routes over it only at an end that is set down. An end that loses its carrier keeps its route,
and uses it again once the link is back. So a router may have its route or have lost it. The controller takes it that it has it,
and pushes it again.
"""

import subprocess

import revroute
from revroute import NoHop


# The metric of the last route of each router, which drops. The others have none, which counts as 0.
LAST = 4_000_000


class Controller:
    """The routes of all routers to one gateway.

    After each call of `down`, `up` or `retire`, go through `pushing()`. If the next event comes in the middle, stop there, report
    it, and begin a new `pushing()`: nothing has to be undone. Take a retired link down only once its `pushing()` has ended. If it
    fails before, or later, that is an event as any other.
    """

    def __init__(self, addresses, gateway, links, target):
        """`addresses` has an address of each router by its name, on any of its devices. `links` are pairs of routers, and must
        close no cycle: the second router of each should be nearer to the gateway. The routes are for `target`, an address behind
        the gateway."""
        self.addresses, self.target = addresses, target
        self.network = revroute.Network(len(addresses), gateway, links, names=[*addresses])
        # the links in the network: another cut or join of one of them would be refused
        self.links = {frozenset(link) for link in links}
        # the hop that each router may have, and no other; a router that is missing here has no route
        self.table = {}
        # routers that may have lost the hop that the table has
        self.stale = set()

    def down(self, u, v):
        """A link has failed."""
        self.mark(u, v)
        self.retire(u, v)

    def up(self, u, v):
        """A link has come back. If nobody has reported that it failed, it has flapped."""
        self.mark(u, v)
        if frozenset((u, v)) not in self.links:
            self.network.join(u, v)
            self.links.add(frozenset((u, v)))

    def retire(self, u, v):
        """A link is to be taken down, and still carries packets."""
        if frozenset((u, v)) in self.links:
            self.network.cut(u, v)
            self.links.remove(frozenset((u, v)))

    def mark(self, u, v):
        """A router that sends over a link may have lost its route."""
        self.stale |= {router for router, other in ((u, v), (v, u)) if self.table.get(router) == other}

    def pushing(self):
        """Pushes what the kernels may lack, hop by hop, and yields each router once it has confirmed its hop."""
        for router, hop in self.pushes():
            self.push(router, hop)
            self.table[router] = hop
            self.stale.discard(router)
            yield router

    def pushes(self):
        """The routers to be pushed, each with its hop: first those that may have lost the hop that they are to keep, and then those
        whose hop in the table is not the settled one, in push order."""
        kept = ((router, self.table[router]) for router in sorted(self.stale))
        again = [(router, hop) for router, hop in kept if hop == self.network.next_hop(router)]
        return again + self.network.pushes(self.table)

    def push(self, router, hop):
        """Gives a router its hop, and returns once its kernel has it. Without a hop the router drops packets, also beside
        a default route: that could lead back to the router."""
        if hop is NoHop.HERE:
            return
        if router not in self.table:
            # when the kernel deletes the route to the hop, this one is left
            self.route(router, "replace", "unreachable", self.target, "metric", str(LAST))
        if hop is NoHop.CUT_OFF:
            self.route(router, "replace", "unreachable", self.target)
        else:
            self.route(router, "replace", self.target, "via", self.addresses[hop], "dev", hop, "onlink")

    def route(self, router, *words):
        subprocess.run(["ip", "-netns", router, "route", *words], check=True, stdout=subprocess.DEVNULL)
