"""A controller for routers that may not answer. It keeps a table of what they have confirmed, and pushes the difference to the
next hops of the network, in an order in which no push makes a loop (docs/PUSHING.md).

>>> import revroute
>>> from revroute.controller import Controller
>>> def push(router, hop):
...     print(router, hop)  # send the hop to the router
...     return True  # once the router has confirmed it
>>> controller = Controller(revroute.Network(3, 0, [(1, 0), (2, 0), (2, 1)]), push)
>>> controller.update()
0 NoHop.HERE
1 0
2 0
>>> controller.down(1, 0)
>>> controller.update()
1 2
"""

from __future__ import annotations

from typing import Any, Callable, Generic, Optional, Union

from .network import Name, Network
from .session import NoHop


class Controller(Generic[Name]):
    """The hops of routers, which are the nodes of a network.

    `push(node, hop)` gives a router its hop. It returns True if the router has confirmed it, False if the router has certainly
    kept its old one, and None if there is no answer. A hop is a node, or `NoHop.HERE` or `NoHop.CUT_OFF`, for which the router's
    route is withdrawn.

    `network` is changed only by this controller. `table` has the hop that each router has confirmed last, and `unconfirmed` the
    routers that have given no answer to their last push. Calls are for one thread at a time. They raise what the calls of the
    network raise, and what `push` raises; then `update` can be called again.
    """

    def __init__(self, network: Network[Name], push: Callable[[Name, Union[Name, NoHop]], Optional[bool]]) -> None:
        self.network, self.push = network, push
        self.table: dict[Name, Union[Name, NoHop]] = {}
        self.unconfirmed: set[Name] = set()
        # routers that may have lost the hop that the table has
        self.stale: set[Name] = set()
        # the links in the network: another cut or join of one of them would be Refused
        self.links: set[frozenset[Any]] = {frozenset(link) for link in network.links()}

    def retire(self, u: Name, v: Name) -> None:
        """A link is to be taken down, and still carries packets."""
        if frozenset((u, v)) in self.links:
            self.network.cut(u, v)
            self.links.remove(frozenset((u, v)))

    def down(self, u: Name, v: Name) -> None:
        """A link has failed. Each of its routers may have lost its route over the link, or may still have it."""
        self._mark(u, v)
        self.retire(u, v)

    def up(self, u: Name, v: Name) -> None:
        """A link has come back. If nobody has reported that it failed, it has flapped."""
        self._mark(u, v)
        if frozenset((u, v)) not in self.links:
            self.network.join(u, v)
            self.links.add(frozenset((u, v)))

    def _mark(self, u: Name, v: Name) -> None:
        """A router that sends over a link may have lost its route."""
        self.stale |= {router for router, other in ((u, v), (v, u)) if self.table.get(router) == other}

    def pushes(self) -> list[tuple[Name, Union[Name, NoHop]]]:
        """What is to be pushed: first the hops that routers may have lost and are to keep, and then what differs from the table."""
        kept = [(node, self.table[node]) for node in self.stale]
        again = [(node, hop) for node, hop in kept if hop == self.network.next_hop(node)]
        return again + self.network.pushes(self.table)

    def update(self, interrupted: Callable[[], bool] = lambda: False) -> None:
        """Pushes the hops that the routers do not have yet, until an event waits (`interrupted`) or a router refuses."""
        for node, hop in self.pushes():
            if interrupted():
                return
            route = self.network.walk(node)
            # its new route, and the node itself
            if not self.unconfirmed.isdisjoint(route or [node]):
                continue
            # a node that is cut off has no route: others may still send over it until they have theirs
            if not route and any(map(self.network.walk, self.unconfirmed)):
                continue
            confirmed = self.push(node, hop)
            if confirmed is None:  # the router may have its old hop or the new one
                self.unconfirmed.add(node)
            elif confirmed:
                self.table[node] = hop
                self.stale.discard(node)
            else:  # its link is down, and the event is not here yet
                return

    def answered(self, node: Name, hop: Union[Name, NoHop]) -> None:
        """An unconfirmed router has reported its hop, and no earlier push can still arrive."""
        self.unconfirmed.discard(node)
        self.stale.discard(node)
        self.table[node] = hop
