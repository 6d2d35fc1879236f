"""Readers of ways: other threads ask them for the ways of nodes while one thread changes a network."""

from __future__ import annotations

import ctypes
from operator import index
from typing import Optional

from . import _calls
from ._calls import questions
from .reader import Name, TableCalls, TableReader

# The most ways of a node that a reader reads.
_MOST_WAYS = 5


class WayReader(TableReader[Name]):
    """Reads the first ways of nodes while another thread changes the network. `Network.way_reader` and
    `Session.way_reader` make one. It is to `Network.ways` what a `Reader` is to next hops.

    >>> import revroute
    >>> network = revroute.Network(4, 0, [(1, 0), (2, 1), (2, 3), (3, 0)])
    >>> reader = network.way_reader()
    >>> reader.ways(2)
    [1, 3]
    >>> network.cut(1, 0)
    Report(turned=1, cut_off=0)
    >>> reader.ways(2)
    [3]

    No read waits for a change: the ways of a node are one load. All readers of ways of a network read one table, which
    has the first five ways of each node, or all if there are fewer. Once there is such a reader, each accepted change
    pushes the changed ways to this table before its call returns. Nodes that lose ways come first, and then those that
    get new ones. So at every moment the table has no cycle, whichever of its ways each node uses. Two reads can be of
    different tables, but a reader never goes back to an earlier table. It can `learn` what another reader knows.

    A reader outlives its network, and then reads its last ways. A call on a closed reader raises ValueError. Any
    thread may call. Give each thread its own reader, made by `copy`: in an interpreter without a global lock, calls on
    one reader wait for each other.

    Costs: all calls are O(1).
    """

    _table_calls = TableCalls(
        _calls.WayReaderHandle,
        questions.revroute_way_reader_copy,
        questions.revroute_way_reader_learn,
        questions.revroute_way_reader_close,
    )

    def ways(self, node: Name) -> list[Name]:
        """The first ways of a node, nearest first, all of one moment. There are at most five. The destination has none,
        and neither has a node that is cut off.

        The reader of a session accepts every number below 4,096. If the network has no such node, it has no way.

        Raises NoSuchNode if there is no such node.
        """
        number, length, ways = self._number(node), ctypes.c_size_t(), (ctypes.c_uint32 * _MOST_WAYS)()
        with self._lock:
            status = questions.revroute_way_reader_ways(self._at, number, ways, _MOST_WAYS, ctypes.byref(length))
        if status != _calls.ANSWERED:
            self._refuse()
        return [self._name(it) for it in ways[: length.value]]

    def way(self, node: Name, choice: int) -> Optional[Name]:
        """One of the first ways of a node: the one at the index `choice` modulo their number. None if it has none.

        `choice` is any integer, of which the lowest 32 bits count. It can be a hash of what the packets of a flow have
        in common. Then a flow keeps its way as long as the ways of the node are the same.

        >>> import revroute
        >>> reader = revroute.Network(3, 0, [(1, 0), (2, 1), (2, 0)]).way_reader()
        >>> [reader.way(2, choice) for choice in range(4)], reader.way(0, 7)
        ([0, 1, 0, 1], None)

        Raises NoSuchNode if there is no such node.
        """
        choice = index(choice) & 0xFFFFFFFF
        try:
            if 0 <= node < self._bound:  # type: ignore[operator]
                way = _calls.way_reader_way(self._live, node, choice)
                if way < _calls.NO_HOP:
                    return way  # type: ignore[no-any-return]
        except (TypeError, ctypes.ArgumentError):
            pass
        number = self._number(node)
        with self._lock:
            way = questions.revroute_way_reader_way(self._at, number, choice)
        if way == _calls.NO_HOP:
            self._refuse()
        return self._name(way) if way < _calls.NO_HOP else None
