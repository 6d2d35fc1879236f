"""Routing for one destination by full link reversal.

A Network has directed links that never form a cycle. They lead to the destination from every node that is connected
with it. After each change of the network, the engine reverses links until this holds again.

>>> import revroute
>>> network = revroute.Network(5, 0, [(1, 0), (2, 0), (3, 1), (3, 2), (4, 3)])
>>> network.walk(4)
[4, 3, 1, 0]
>>> network.cut(1, 0)
Report(turned=1, cut_off=0)
>>> network.changed()
[(3, 2), (1, 3)]

Changes. Each starts a round, and returns its Report or raises Refused, which says why and names the nodes:

    cut(u, v)         removes the link between u and v
    add(u, v)         adds a link from u to v
    join(u, v)        adds a link from u to v, or from v to u if the first would close a cycle
    batch(edits)      makes edits such as ("cut", u, v) in order, and then one round
    batch_with_ways(edits)   does the same, and keeps what to push to routers that hold all their ways
    move_dest(dest)   makes dest the destination

Questions:

    next_hop(node)    the next hop of a node; table(), hops() and hops_into(buffer) have those of all nodes
    walk(node)        the nodes on the route from a node to the destination
    ways(node)        all nodes to which the links of a node point, nearest first; all_ways() has those of all nodes
    nearest(node)     the nodes on its nearest route, a route of the fewest links; distance(node) has their number
    changed()         the nodes whose next hop the last change changed, with the new hop, in push order
    pushes(table)     the nodes whose hop in your table is not their next hop, with the next hop, in push order
    shrink(table)     for routers that hold all their ways: the nodes that lose a way, with the ways that they keep
    grow(table)       once routers have confirmed these: the nodes whose ways still differ, with all their ways
    change_shrink()   what shrink returns for the ways before the last batch_with_ways, without a table; also change_grow()
    has_link(u, v)    whether a link connects two nodes; neighbors(node) lists those that a link connects with a node
    counts(), links(), report, size, dest, len(network), x in network

If forwarding tables get their hops in push order, no new loop appears in them. This is a complete controller. `send`
gives a router its hop, and returns once the router has confirmed it:

>>> table, send = {}, print
>>> for node, hop in network.pushes(table):
...     send(node, hop)
...     table[node] = hop
0 NoHop.HERE
2 0
3 2
1 3
4 3
>>> network.pushes(table)
[]

`push_order(old, new)` has the pushes from a table of your own to another one, whatever method made them.
`revroute.controller` has a controller for routers that may not answer.

While one thread changes the network, other threads can read next hops or ways. Give each of them a reader. It never
waits for a change:

    reader()          a Reader, with next_hop(node), walk(node), copy() and close()
    way_reader()      a WayReader, with ways(node), way(node, choice), copy() and close()

`copy()` makes another network, to try changes on. `save()` returns the arguments that make this network again.
`Network.from_networkx(graph, dest)` makes a network from a networkx graph and keeps its names. `to_networkx()` makes a
networkx graph.

A `Session` answers lines of text, as the program `revroute run` does.

A `Node` is the state machine of one router, in a network without a controller.
"""

from .network import Network, Refused
from .node import MESSAGE_LENGTH, LaterStart, Node, NodeTable, NotAMessage, Outdated, Unwritten
from .reader import Reader, WalkTooLong
from .session import AnswerLost, LineTooLong, NoHop, NoSuchNode, Report, Session, Size, version
from .tables import push_order
from .way_reader import WayReader

__version__ = version()
__all__ = [
    "AnswerLost",
    "LaterStart",
    "LineTooLong",
    "MESSAGE_LENGTH",
    "Network",
    "NoHop",
    "NoSuchNode",
    "Node",
    "NodeTable",
    "NotAMessage",
    "Outdated",
    "Reader",
    "Refused",
    "Report",
    "Session",
    "Size",
    "Unwritten",
    "WalkTooLong",
    "WayReader",
    "__version__",
    "push_order",
    "version",
]
