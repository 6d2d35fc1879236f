"""A network and its routes. Nodes have numbers, or names that the caller chooses."""

from __future__ import annotations

import ctypes
from array import array
from collections import deque
from operator import index
from typing import TYPE_CHECKING, Any, Callable, Generic, Hashable, Iterable, Mapping, NoReturn, Optional, Sequence
from typing import TypeVar, Union

from . import _calls
from ._calls import library, questions
from .reader import Reader
from .session import NoHop, NoSuchNode, Report, Session, Size, _deprecate, _hop, _packed_table, _packed_ways, _Why
from .way_reader import WayReader

if TYPE_CHECKING:
    import networkx

Name = TypeVar("Name", bound=Hashable)

# Passed to the library for a number that does not fit into 32 bits. No network has a node with this number.
_NO_NODE = 0xFFFFFFFF
_ONE = ctypes.c_size_t(1)
_KINDS = {"cut": _calls.CUT, "add": _calls.ADD, "join": _calls.JOIN}
_REASONS = {
    4: "there is no node {0!r}",
    5: "a link would join node {0!r} with itself",
    6: "more than one link would join {0!r} and {1!r}",
    7: "the links would lead round: {0}",
    8: "no link joins {0!r} and {1!r}",
    9: "there would be more than 4,096 nodes, 32,768 links or 1,024 edits",
}


class Refused(ValueError):
    """A network, a change or a table is refused. Nothing has changed.

    `number` says why, as in the answer `refused` of a session, and `nodes` has the nodes that show it:

    - 4: there is no such node. `nodes` has its name or number.
    - 5: a link would connect a node with itself. `nodes` has this node.
    - 6: more than one link would connect two nodes. `nodes` has both.
    - 7: the links would contain a cycle, or a new table contains one. `nodes` has its nodes, with the first one again
      at the end.
    - 8: no link connects two nodes. `nodes` has both. If one of them does not exist, the text names it.
    - 9: there would be more nodes, links or edits than the limits. `nodes` is empty.

    `at` is the index of the first refused edit in a batch, counted from 0. If there are too many, it is the limit,
    1,024 edits.

    >>> network = Network(3, 0, [(1, 0), (2, 1)])
    >>> try:
    ...     network.batch([("cut", 1, 0), ("cut", 0, 2)])
    ... except Refused as refused:
    ...     refused.number, refused.nodes, refused.at
    (8, (0, 2), 1)
    """

    def __init__(self, number: int, nodes: Sequence[Any] = (), at: int = 0, unknown: Sequence[Any] = ()) -> None:
        """`unknown` has those of the nodes that do not exist, if a link between them is cut."""
        self.number, self.nodes, self.at, self._unknown = number, tuple(nodes), at, tuple(unknown)
        words = [" ".join(map(repr, nodes))] if number == _calls.CLOSED_WALK else nodes
        edit = f", edit {at}" if at and number != _calls.TOO_MANY else ""
        reason = f"there is no node {unknown[0]!r}" if unknown else _REASONS[number].format(*words)
        super().__init__(f"refused {number}{edit}: {reason}")

    def __reduce__(self) -> Any:
        return Refused, (self.number, self.nodes, self.at, self._unknown)


class Network(Generic[Name]):
    """A network whose links lead to the destination from every node that is connected with it.

    >>> network = Network(5, 0, [(1, 0), (2, 0), (3, 1), (3, 2), (4, 3)])
    >>> network
    <revroute.Network of 5 nodes and 5 links, destination 0>
    >>> network.cut(1, 0)
    Report(turned=1, cut_off=0)
    >>> network.changed()
    [(3, 2), (1, 3)]
    >>> network.cut(1, 0)
    Traceback (most recent call last):
    revroute.network.Refused: refused 8: no link joins 1 and 0

    Nodes are numbered from 0. With `names`, or by `from_networkx`, they have the caller's names in all calls and
    answers. `len(network)` is the number of nodes, and `x in network` tells whether there is a node x.

    A change succeeds as a whole, and then the links lead to the destination again. Otherwise it raises Refused or
    MemoryError, and nothing changes. An unknown name raises NoSuchNode. An unknown number raises Refused in a change
    or a new network, and NoSuchNode in a question. A call on a closed network raises ValueError.

    Any thread may call, but only one at a time: others wait. A call that would wait for itself raises RuntimeError, as
    for a Session.

    Costs, for n nodes and m links:

    - `next_hop`, `distance`, `dest`, `size` and `report`: O(1).
    - `reader`: O(4,096) for the first reader, and O(1) for each later one.
    - `way_reader`: O(4,096 + m log d) for the first reader, and O(1) for each later one. Each change then costs what
      `batch_with_ways` costs.
    - `walk` and `changed`: linear in the length of the result.
    - `ways`: O(d log d) for d links at the node. `nearest`: O(k d) for a route of k nodes. The first of these calls or
      of `distance` in a network costs O(n + m) more.
    - `hops`, `hops_into`, `table`, `pushes` and `counts`: O(n).
    - `has_link`: O(d) for d links at the two nodes.
    - `links`, `neighbors`, `save` and `copy`: O(n + m).
    - `all_ways`: O(n + m). `shrink` and `grow`: O(n + m + k) for k ways in the table.
    - `move_dest` and a new network: O(n + m), plus the round.
    - `cut`, `add`, `join` and `batch`: O(d) for each edit, and if nodes turn O(d log d) for each of them and for each
      node that had one of these as its next hop. A link that is added may cost a search, and O(n + m). The first
      change, and each one while nodes that have links are cut off, costs O(n) more.
    - `batch_with_ways`: the same, and O(d log d) for each node whose ways may have changed. The first one costs
      O(n + m) more.
    """

    HERE, CUT_OFF = 0xFFFFFFFF, 0xFFFFFFFE
    """What `hops_into` writes for the destination (HERE), and for a node that is cut off (CUT_OFF)."""

    def __init__(self, nodes: int, dest: Name, links: Iterable[tuple[Name, Name]] = (), *, names: Optional[Sequence[Name]] = None) -> None:
        count = index(nodes)
        if count < 0:
            raise ValueError(f"the number of nodes is {count}, and may not be less than 0")
        if names is not None and len(names) != count:
            raise ValueError("there is not one name for each node")
        self._names = None if names is None else list(names)
        self._numbers = None if names is None else {name: at for at, name in enumerate(names)}
        if self._numbers is not None and len(self._numbers) != count:
            raise ValueError("two nodes have one name")
        # The nodes in their order. Then the number of nodes that next_hop can ask for directly, which is 0 if nodes
        # have names.
        self._nodes: Sequence[Name] = range(count) if self._names is None else self._names  # type: ignore[assignment]
        self._bound = count if names is None else 0
        ends = [self._number(node) for u, v in links for node in (u, v)]
        self._session = Session()
        self._session._kind = "network"
        self._live = self._session._live
        count = min(count, _NO_NODE)
        home = self._number(dest)
        words = count, _clamped(home), _packed(ends), len(ends) // 2
        made = self._session._begin_round(library.revroute_open, _closed_walk_of, *words)
        self._reported(made, lambda at: [*ends, home])

    @classmethod
    def from_networkx(cls, graph: Any, dest: Name) -> Network[Name]:
        """Makes a network from a networkx graph. Its nodes can be any hashable objects.

        The links of a directed graph point as its edges do. In an undirected graph each link points to the end that is
        fewer steps away from the destination. If both ends are equally far, it points to the one that comes first in
        the graph. Such links form no cycle.

        Nodes are numbered by their steps from the destination, whichever way edges point, and then by their order in
        the graph. A next hop has the lowest number, so in an undirected graph all routes have the fewest hops at first.

        At most one link joins two nodes. So parallel edges of a multigraph, and edges of a directed graph both ways,
        raise Refused with the number 6. Its text says how to merge them. Attributes of edges, as `weight`, are not
        used.
        """
        if dest not in graph:
            raise NoSuchNode(dest)
        steps = _steps(graph, dest)
        names = sorted(graph, key=lambda name: steps.get(name, len(graph)))
        links = graph.edges()
        if not graph.is_directed():
            place = {name: at for at, name in enumerate(names)}
            links = [(u, v) if place[u] > place[v] else (v, u) for u, v in links]
        try:
            return cls(len(names), dest, links, names=names)
        except Refused as refused:
            if refused.number == _calls.TWICE:
                refused.args = (f"{refused}: networkx.Graph(graph) merges them into one edge without a direction",)
            raise

    def to_networkx(self) -> networkx.DiGraph:
        """The links as they point now, as a directed networkx graph.

        Each node that is not cut off has its distance as the attribute `distance`, and `graph.successors(node)` has its
        ways in their order: nearest first.
        """
        import networkx

        graph = networkx.DiGraph()
        with self._session._lock:
            graph.add_nodes_from(self._nodes)
            for node in self._nodes:
                graph.add_edges_from((node, way) for way in self.ways(node))
            # What is added here are the links of nodes that are cut off.
            graph.add_edges_from(self.links())
            dest = self.dest
        distances = networkx.single_source_shortest_path_length(graph.reverse(copy=False), dest)
        networkx.set_node_attributes(graph, dict(distances), "distance")
        return graph

    def cut(self, u: Name, v: Name) -> Report:
        """Removes the link between two nodes, whichever way it points."""
        return self._edit(_calls.CUT, u, v)

    def add(self, u: Name, v: Name) -> Report:
        """Adds a link from u to v. Raises Refused if it would close a cycle."""
        return self._edit(_calls.ADD, u, v)

    def join(self, u: Name, v: Name) -> Report:
        """Adds a link from u to v, or from v to u if the first would close a cycle."""
        return self._edit(_calls.JOIN, u, v)

    def batch(self, edits: Iterable[tuple[str, Name, Name]]) -> Report:
        """Makes edits in order, and then one round. If one edit is refused, none is made. An edit is a tuple of "cut",
        "add" or "join" and its two nodes."""
        return self._change(_calls.change, self._made(edits))

    def batch_with_ways(self, edits: Iterable[tuple[str, Name, Name]]) -> Report:
        """Makes edits as `batch` does, and keeps what has to be pushed to routers that hold all their ways:
        `change_shrink` and `change_grow` return it. It looks only at nodes whose ways may have changed, and needs no
        table.

        >>> network = Network(4, 0, [(1, 0), (2, 0), (2, 1), (3, 2)])
        >>> network.batch_with_ways([("cut", 1, 0)])
        Report(turned=1, cut_off=0)
        >>> network.change_shrink(), network.change_grow()
        ([(2, [0]), (1, [])], [(1, [2])])
        """
        return self._change(library.revroute_change_with_ways, self._made(edits))

    def move_dest(self, dest: Name) -> Report:
        """Makes `dest` the destination."""
        home = self._number(dest)
        made = self._session._begin_round(library.revroute_move_dest, None, _clamped(home))
        return self._reported(made, lambda at: [home])

    def move(self, dest: Name) -> Report:
        """Deprecated: use `move_dest`."""
        _deprecate("move", "move_dest")
        return self.move_dest(dest)

    def next_hop(self, node: Name) -> Union[Name, NoHop]:
        """The next hop of a node: where it forwards traffic for the destination, or why it does not."""
        try:
            if 0 <= node < self._bound:  # type: ignore[operator]
                hop = _calls.next_hop(self._live, node)
                if hop < _calls.NO_HOP:
                    return hop  # type: ignore[no-any-return]
        except (TypeError, ctypes.ArgumentError):
            pass
        hop = self._session.next_hop(self._number(node))
        return hop if isinstance(hop, NoHop) else self._name(hop)

    def reader(self) -> Reader[Name]:
        """A reader of the next hops, for another thread. Once a network has had a reader, each change stores every
        changed hop a second time, for the readers."""
        session = self._session
        return Reader(session._open_reader, session._reader_table, self._names, self._numbers, len(self._nodes))

    def way_reader(self) -> WayReader[Name]:
        """A reader of the first ways of nodes, for another thread. Once a network has had such a reader, each change
        stores the ways that it has changed for the readers."""
        session = self._session
        return WayReader(session._open_way_reader, session._reader_table, self._names, self._numbers, len(self._nodes))

    def hops(self) -> list[Union[Name, NoHop]]:
        """The next hop of each node, in the order of the nodes."""
        names, least = self._names, _calls.NO_HOP
        return [_hop(it) if it >= least else it if names is None else names[it] for it in self._session._hops()]  # type: ignore[misc]

    def hops_into(self, buffer: Any) -> int:
        """Writes the number of each node's next hop to the front of a buffer, and returns how many there are. If a
        node has no next hop, it writes HERE or CUT_OFF. The buffer has unsigned 32-bit numbers: it can be an array, a
        memoryview, or a numpy array of uint32."""
        view = memoryview(buffer)
        if view.readonly or view.itemsize != 4 or view.format.lstrip("@=<") not in ("I", "L") or not view.c_contiguous:
            raise TypeError("the buffer has to be one of numbers of 32 bits without a sign, in one piece, that can be written")
        room = view.nbytes // 4
        return self._session._fill((ctypes.c_uint32 * room).from_buffer(view.cast("B")), room)

    def changed(self) -> list[tuple[Name, Union[Name, NoHop]]]:
        """The nodes whose next hop the last change changed, each with its new next hop. They are in push order: each
        node after the changed nodes on its new route. For a new network these are all nodes that are not cut off."""
        return self._told(self._session._changed())

    def table(self) -> dict[Name, Union[Name, NoHop]]:
        """The next hop of each node, by its name or number.

        >>> Network(4, 0, [(1, 0), (2, 1)]).table()
        {0: <NoHop.HERE: 'here'>, 1: 0, 2: 1, 3: <NoHop.CUT_OFF: 'cut'>}
        """
        return dict(zip(self._nodes, self.hops()))

    def pushes(
        self, table: Union[Mapping[Name, Union[Name, NoHop, None]], Sequence[Union[Name, NoHop, None]]]
    ) -> list[tuple[Name, Union[Name, NoHop]]]:
        """The nodes whose hop in your table is not their next hop, each with its next hop. They are in push order:
        each node after those of them on its route.

        Keep a table of the hops that your routers have confirmed, and push the difference after each change:

        >>> network = Network(4, 0, [(1, 0), (2, 1), (2, 3), (3, 0)])
        >>> table = {}
        >>> for node, hop in network.pushes(table):
        ...     # send the hop to the router, and wait until it has confirmed
        ...     table[node] = hop
        >>> network.cut(1, 0)
        Report(turned=1, cut_off=0)
        >>> network.pushes(table)
        [(2, 3), (1, 2)]

        If the next change comes before you have pushed everything, make it, and ask again: nothing has to be undone.
        At no moment does the table have a loop that it did not have before.

        The table is a mapping from nodes to hops, or a sequence of hops in the order of the nodes. A hop is a node,
        NoHop.HERE or NoHop.CUT_OFF, or None, which means CUT_OFF unless a node has that name. A node without an entry
        has CUT_OFF. The table may have loops.

        Raises NoSuchNode if a node or a hop of the table is not a node of the network, and ValueError if a sequence
        has more hops than the network has nodes.
        """
        count = len(self._nodes)
        return self._told(self._session._pushes(_packed_table(table, count, self._numbers), count))

    def shrink(self, table: Union[Mapping[Name, Sequence[Name]], Sequence[Sequence[Name]]]) -> list[tuple[Name, list[Name]]]:
        """What to push first to routers that hold all their ways: each node that loses a way, with the ways that it
        keeps. Nodes that keep one come first, and then those that keep none.

        Keep a table of the ways that each router may hold: those that it has confirmed last, and those of each later
        push that it has not confirmed. After each change make the pushes of `shrink`, wait until all routers have
        confirmed them, and then make those of `grow`:

        >>> network = Network(4, 0, [(1, 0), (2, 0), (2, 1), (3, 2)])
        >>> table = {}
        >>> def update():
        ...     for phase in network.shrink, network.grow:
        ...         for node, ways in phase(table):
        ...             # send the ways to the router; before the next phase, wait until all have confirmed
        ...             table[node] = ways
        >>> update()
        >>> network.cut(1, 0)
        Report(turned=1, cut_off=0)
        >>> network.shrink(table), network.grow(table)
        ([(2, [0]), (1, [])], [(1, [2])])
        >>> update()
        >>> network.shrink(table), network.grow(table)
        ([], [])

        The pushes of one phase can be made in any order, and at the same time. If the ways in the table have no cycle,
        no packet goes round one at any moment, whatever links fail meanwhile. If the network changes before all is
        confirmed, begin with `shrink` again.

        The table is a mapping from nodes to sequences of nodes, or a sequence of such sequences in the order of the
        nodes. A node without an entry has no ways. A way that is not a node of the network is one that the node loses,
        since routers may still hold ways to nodes that are gone. The table may have cycles.

        Raises NoSuchNode if a key of the table is not a node of the network, ValueError if a sequence has more lists
        than the network has nodes, and MemoryError if memory runs out.
        """
        return self._phase(questions.revroute_shrink, table)

    def grow(self, table: Union[Mapping[Name, Sequence[Name]], Sequence[Sequence[Name]]]) -> list[tuple[Name, list[Name]]]:
        """What to push once all routers have confirmed the pushes of `shrink`: each node whose list then still differs,
        with all its ways, nearest first. The table and the exceptions are those of `shrink`. The result is the same
        for the table that was given to `shrink` and for the table after its pushes."""
        return self._phase(questions.revroute_grow, table)

    def change_shrink(self) -> list[tuple[Name, list[Name]]]:
        """What the last change by `batch_with_ways` has to push first to routers that hold all their ways: the nodes that
        lose a way, each with the ways that it keeps, in the order of `shrink`. Before such a change it is empty.

        These are the pushes that `shrink` returns for the ways before the change. Use them if your routers hold these
        ways: if all pushes of earlier changes are confirmed. Otherwise, and after a change by another call, use
        `shrink` with the ways that routers may hold. Refused changes and changes by other calls leave the pushes as
        they are.

        Raises MemoryError if memory runs out.
        """
        return self._named_pushes(self._session._pushed(questions.revroute_change_shrink))

    def change_grow(self) -> list[tuple[Name, list[Name]]]:
        """What to push once all routers have confirmed the pushes of `change_shrink`: each node whose list then still
        differs, with all its ways, nearest first. All else is as for `change_shrink`."""
        return self._named_pushes(self._session._pushed(questions.revroute_change_grow))

    def counts(self) -> list[int]:
        """How often each node turned in the last round, in the order of the nodes."""
        return self._session.counts()

    def links(self) -> list[tuple[Name, Name]]:
        """The links as (tail, head), in rising order of the nodes' numbers."""
        return [(self._name(u), self._name(v)) for u, v in self._session.links()]

    def has_link(self, u: Name, v: Name) -> bool:
        """Whether a link connects two nodes, whichever way it points. O(d) for d links at them, and one step for each
        node that has links and is cut off.

        >>> network = Network(3, 0, [(1, 0), (2, 1)])
        >>> network.has_link(1, 2), network.has_link(0, 2), network.has_link(1, 1)
        (True, False, False)

        Raises NoSuchNode if one of them is not a node.
        """
        ends = [self._known(u), self._known(v)]
        # To cut one link twice is always refused: the first cut if there is no link, and otherwise the second.
        twice = [_calls.CUT, *ends] * 2
        made = self._session._begin_round(_calls.change, None, _packed(twice), ctypes.c_size_t(2))
        return isinstance(made, _Why) and made.at == 1

    def neighbors(self, node: Name) -> list[Name]:
        """The nodes that a link connects with a node, whichever way it points, in the order of the nodes. O(n + m).

        >>> Network(4, 0, [(1, 0), (2, 1), (3, 0)]).neighbors(1)
        [0, 2]

        Raises NoSuchNode if there is no such node.
        """
        number = self._known(node)
        links = self._session.links()
        return [self._name(it) for it in sorted(v if u == number else u for u, v in links if number in (u, v))]

    def walk(self, node: Name) -> Optional[list[Name]]:
        """The nodes on the route from a node to the destination, both included. None if the node is cut off."""
        return self._named(self._session.walk(self._number(node)))

    def ways(self, node: Name) -> list[Name]:
        """The ways of a node: the nodes to which its links point, nearest first. They are ordered by their distance,
        and then by number. The destination has none, and neither has a node that is cut off. The first call of
        `ways`, `distance`, `nearest` or `batch_with_ways`, or the first reader of ways, measures the distances of all
        nodes, and each later change keeps them up to date.

        A router may hold all its ways, and send each packet to any of them. Whichever ways routers take, and whatever
        links fail, no packet visits a node twice.

        >>> network = Network(5, 0, [(2, 0), (1, 2), (3, 0), (4, 1), (4, 3)])
        >>> network.ways(4), network.nearest(4), network.distance(4)
        ([3, 1], [4, 3, 0], 2)
        >>> network.next_hop(4), network.walk(4)
        (1, [4, 1, 2, 0])
        """
        return [self._name(it) for it in self._session.ways(self._number(node))]

    def all_ways(self) -> dict[Name, list[Name]]:
        """The ways of each node, by its name or number.

        >>> Network(4, 0, [(1, 0), (2, 1), (2, 0)]).all_ways()
        {0: [], 1: [0], 2: [0, 1], 3: []}
        """
        return {node: [self._name(it) for it in ways] for node, ways in zip(self._nodes, self._session._all_ways())}

    def nearest(self, node: Name) -> Optional[list[Name]]:
        """The nodes on the nearest route from a node to the destination, both included: each is the first way of the
        one before. No route along the links is shorter. None if the node is cut off."""
        return self._named(self._session.nearest(self._number(node)))

    def distance(self, node: Name) -> Optional[int]:
        """The distance of a node: the fewest links that lead from it down to the destination. None if the node is cut
        off."""
        return self._session.distance(self._number(node))

    @property
    def report(self) -> Report:
        """The report of the last round."""
        return self._session.report or Report(0, 0)

    @property
    def size(self) -> Size:
        """The number of nodes and of links."""
        return self._session.size or Size(0, 0)

    @property
    def dest(self) -> Name:
        """The destination."""
        dest = self._session.dest
        return self._name(0 if dest is None else dest)

    def save(self) -> dict[str, Any]:
        """The arguments that make this network again: `Network(**network.save())`. They are the number of nodes, the
        destination, the links as they point now, and the names, or None.

        The other network is as `copy` would make it. If JSON can hold the names, it can hold what `save` returns, and
        what it makes of that can be used in the same way.

        >>> import json
        >>> network = Network(3, 0, [(1, 0), (2, 1), (2, 0)])
        >>> network.cut(1, 0)
        Report(turned=1, cut_off=0)
        >>> network.save()
        {'nodes': 3, 'dest': 0, 'links': [(1, 2), (2, 0)], 'names': None}
        >>> Network(**json.loads(json.dumps(network.save()))).table() == network.table()
        True
        """
        with self._session._lock:
            dest, links = self.dest, self.links()
        names = None if self._names is None else list(self._names)
        return {"nodes": len(self._nodes), "dest": dest, "links": links, "names": names}

    def copy(self) -> Network[Name]:
        """A network with the same names, links, destination and next hops, to try changes on. Its `report`, `counts` and
        `changed` are those of a new network with these links, in which only nodes that are cut off turn. It has no
        readers.

        >>> network = Network(3, 0, [(1, 0), (2, 1), (2, 0)])
        >>> other = network.copy()
        >>> other.cut(1, 0)
        Report(turned=1, cut_off=0)
        >>> network.walk(1), other.walk(1)
        ([1, 0], [1, 2, 0])
        """
        return Network(**self.save())

    def __copy__(self) -> Network[Name]:
        return self.copy()

    def __len__(self) -> int:
        return len(self._nodes)

    def __contains__(self, node: object) -> bool:
        if self._numbers is not None:
            return node in self._numbers
        try:
            return 0 <= index(node) < len(self._nodes)  # type: ignore[arg-type]
        except TypeError:
            return False

    def close(self) -> None:
        """Frees the memory."""
        self._session.close()

    def __enter__(self) -> Network[Name]:
        return self

    def __exit__(self, *_: object) -> None:
        self.close()

    def __reduce__(self) -> NoReturn:
        raise TypeError("a network can neither be pickled nor copied deeply: `copy` makes another one")

    def __repr__(self) -> str:
        if self._session._is_closed:
            return "<revroute.Network, closed>"
        nodes, links = self.size
        return f"<revroute.Network of {nodes} nodes and {links} links, destination {self.dest!r}>"

    def _edit(self, kind: int, u: Name, v: Name) -> Report:
        if self._numbers is None:
            edit: Any = [kind, u, v]
        else:
            edit = [kind, self._number(u), self._number(v)]
        made = self._session._begin_round(_calls.change, library.revroute_closed_walk, _packed(edit), _ONE)
        return made if isinstance(made, Report) else self._reported(made, lambda at: [*map(index, edit[1:])])

    def _made(self, edits: Iterable[tuple[str, Name, Name]]) -> list[int]:
        """The numbers of these edits: three for each."""
        made: list[int] = []
        for kind, u, v in edits:
            if kind not in _KINDS:
                raise ValueError(f"no edit is of the kind {kind!r}")
            made += _KINDS[kind], self._number(u), self._number(v)
        return made

    def _change(self, call: Any, edits: list[int]) -> Report:
        words = _packed(edits), ctypes.c_size_t(len(edits) // 3)
        made = self._session._begin_round(call, library.revroute_closed_walk, *words)
        return self._reported(made, lambda at: edits[3 * at + 1 : 3 * at + 3])

    def _reported(self, made: Union[Report, _Why], given: Callable[[int], list[int]]) -> Report:
        """The report of a round, or raises Refused. Numbers that did not fit into 32 bits are shown as the caller gave
        them."""
        if isinstance(made, Report):
            return made
        unknown = (it for it in given(made.at) if _clamped(it) == _NO_NODE)
        nodes = [next(unknown) if it == _NO_NODE else self._name(it) for it in made.nodes]
        missing = [node for it, node in zip(made.nodes, nodes) if made.number == _calls.NO_LINK and it >= len(self._nodes)]
        raise Refused(made.number, nodes, made.at, missing)

    def _number(self, node: Name) -> int:
        if self._numbers is None:
            return index(node)  # type: ignore[arg-type]
        try:
            return self._numbers[node]
        except KeyError:
            raise NoSuchNode(node) from None

    def _known(self, node: Name) -> int:
        """The number of a node. Raises NoSuchNode if there is no such node."""
        number = self._number(node)
        if not 0 <= number < len(self._nodes):
            raise NoSuchNode(number)
        return number

    def _name(self, number: int) -> Name:
        return self._names[number] if self._names is not None else number  # type: ignore[return-value]

    def _named(self, route: Optional[list[int]]) -> Optional[list[Name]]:
        """A route by the names of its nodes, if they have names."""
        return None if route is None else [self._name(it) for it in route]

    def _told(self, hops: list[tuple[int, int]]) -> list[tuple[Name, Union[Name, NoHop]]]:
        """Nodes with their hops, by their names if they have names."""
        return [(self._name(node), self._hop_of(hop)) for node, hop in hops]

    def _phase(self, question: Any, table: Any) -> list[tuple[Name, list[Name]]]:
        return self._named_pushes(self._session._phase(question, *_packed_ways(table, len(self._nodes), self._numbers)))

    def _named_pushes(self, pushes: list[tuple[int, list[int]]]) -> list[tuple[Name, list[Name]]]:
        """Pushes of ways, by the names of their nodes if they have names."""
        return [(self._name(node), [self._name(it) for it in ways]) for node, ways in pushes]

    def _hop_of(self, hop: int) -> Union[Name, NoHop]:
        return self._name(hop) if hop < _calls.NO_HOP else _hop(hop)  # type: ignore[return-value]


def _closed_walk_of(session: Any, nodes: int, dest: int, *words: Any) -> int:
    """Finds the cycle of refused links, with the arguments of `revroute_open`."""
    return library.revroute_closed_walk_of(nodes, *words)  # type: ignore[no-any-return]


def _packed(numbers: list[int]) -> bytes:
    """The numbers as the bytes of an array. A number that does not fit into 32 bits becomes one that is not a node."""
    try:
        return array("I", numbers).tobytes()
    except OverflowError:
        return array("I", map(_clamped, numbers)).tobytes()


def _clamped(number: int) -> int:
    number = index(number)
    return number if 0 <= number < _NO_NODE else _NO_NODE


def _steps(graph: Any, dest: Any) -> dict[Any, int]:
    """How many steps each node is away from the destination, whichever way edges point. Only nodes that are connected
    with it are included."""
    ways = (graph.succ, graph.pred) if graph.is_directed() else (graph.adj,)
    steps, open_nodes = {dest: 0}, deque([dest])
    while open_nodes:
        node = open_nodes.popleft()
        for other in (it for way in ways for it in way[node]):
            if other not in steps:
                steps[other] = steps[node] + 1
                open_nodes.append(other)
    return steps
