"""Readers: other threads ask them for next hops while one thread changes a network."""

from __future__ import annotations

import ctypes
import weakref
from contextlib import nullcontext
from operator import index
from threading import RLock
from typing import Any, ClassVar, ContextManager, Generic, Hashable, NamedTuple, NoReturn, Optional, Sequence, TypeVar, Union

from . import _calls
from ._calls import questions
from .session import _HAS_LOCK, NoHop, NoSuchNode, _hop

Name = TypeVar("Name", bound=Hashable)
Same = TypeVar("Same", bound="TableReader[Any]")

# The most nodes that a network can have, and the most nodes of a reader's walk.
_MOST = 4096
_UNLOCKED = nullcontext()


class WalkTooLong(Exception):
    """A reader's walk visited 4,096 nodes and did not end, because hops were pushed meanwhile. Walk again."""


class TableCalls(NamedTuple):
    """The calls on one kind of readers, and the kind of their handles."""

    handle: Any
    copy: Any
    learn: Any
    close: Any


class TableReader(Generic[Name]):
    """What a `Reader` and a `WayReader` have in common."""

    _table_calls: ClassVar[TableCalls]

    def __init__(
        self, opened: Any, table: object, names: Optional[Sequence[Name]] = None, numbers: Any = None, nodes: int = _MOST
    ) -> None:
        """Only for the package. `opened` opens the handle that it gets, as a reader of the table. The nodes are 0 to
        `nodes` - 1."""
        self._table, self._names, self._numbers, self._count = table, names, numbers, nodes
        self._bound = nodes if numbers is None and _HAS_LOCK else 0
        self._handle = self._table_calls.handle()
        self._at, self._live = ctypes.byref(self._handle), ctypes.c_void_p(ctypes.addressof(self._handle))
        self._lock: ContextManager[Any] = RLock()
        if _HAS_LOCK:
            self._lock = _UNLOCKED
        status = opened(self._at)
        if status == _calls.NO_MEMORY:
            raise MemoryError
        if status != _calls.ANSWERED:
            self._refuse()
        self._end = weakref.finalize(self, self._table_calls.close, self._at)
        self._end.atexit = False

    def copy(self: Same) -> Same:
        """One more reader of the same table, for another thread."""
        with self._lock:
            opened = lambda other: self._table_calls.copy(self._at, other)  # noqa: E731
            return type(self)(opened, self._table, self._names, self._numbers, self._count)

    def learn(self: Same, other: Same) -> None:
        """Learns what another reader of the same kind and of the same network knows. From then on this reader reads the
        last table that the other one knew, or a later one.

        A new reader knows what the network has then. So a thread can hand on its changes: it makes a reader after them,
        and gives it to a thread whose reader learns from it. Then it is proved that this reader sees the changes.

        >>> import revroute
        >>> network = revroute.Network(4, 0, [(1, 0), (2, 1), (2, 3), (3, 0)])
        >>> reader = network.reader()
        >>> network.cut(1, 0)
        Report(turned=1, cut_off=0)
        >>> reader.learn(network.reader())
        >>> reader.next_hop(2)
        3

        Raises ValueError if the other reader is one of another network, or if one of the two is closed.
        """
        if type(other) is not type(self):
            raise TypeError("a reader learns from another reader of its kind")
        if other._table is not self._table:
            raise ValueError("the readers are of two networks")
        first, second = sorted((self, other), key=id)
        with first._lock, second._lock:
            # The library wants two readers.
            status = _calls.ANSWERED if other is self else self._table_calls.learn(self._at, other._at)
            if status != _calls.ANSWERED or not self._end.alive:
                self._refuse()

    def close(self) -> None:
        """Frees the memory. A second call does nothing."""
        with self._lock:
            self._end()

    def _number(self, node: Name) -> int:
        """The number of a node. Raises NoSuchNode if there is no such node."""
        if self._numbers is not None:
            try:
                return self._numbers[node]  # type: ignore[no-any-return]
            except KeyError:
                raise NoSuchNode(node) from None
        number = index(node)  # type: ignore[arg-type]
        if not 0 <= number < self._count:
            raise NoSuchNode(number)
        return number

    def _name(self, number: int) -> Name:
        return self._names[number] if self._names is not None else number  # type: ignore[return-value]

    def _refuse(self) -> NoReturn:
        raise ValueError("the reader is closed")

    def __enter__(self: Same) -> Same:
        return self

    def __exit__(self, *_: object) -> None:
        self.close()

    def __reduce__(self) -> NoReturn:
        raise TypeError("a reader can neither be copied so nor pickled: `copy` makes another one")

    def __repr__(self) -> str:
        name = type(self).__name__
        return f"<revroute.{name}>" if self._end.alive else f"<revroute.{name}, closed>"


class Reader(TableReader[Name]):
    """Reads next hops while another thread changes the network. `Network.reader` and `Session.reader` make one.

    >>> import revroute
    >>> network = revroute.Network(4, 0, [(1, 0), (2, 1), (2, 3), (3, 0)])
    >>> reader = network.reader()
    >>> reader.walk(2)
    [2, 1, 0]
    >>> network.cut(1, 0)
    Report(turned=1, cut_off=0)
    >>> reader.walk(2)
    [2, 3, 0]

    No read waits for a change: a hop is one load. All readers of a network read one table. Once there is a reader,
    each accepted change pushes the changed hops to this table, in push order, before its call returns. So at every
    moment the table has no loop. Two reads can be of different tables, but a reader never goes back to an earlier
    table. It can `learn` what another reader knows.

    A reader outlives its network, and then reads its last hops. A call on a closed reader raises ValueError. Any
    thread may call. Give each thread its own reader, made by `copy`: in an interpreter without a global lock, calls on
    one reader wait for each other.

    Costs: `next_hop`, `copy` and `learn` are O(1), and `walk` is linear in the length of its result.
    """

    _table_calls = TableCalls(
        _calls.ReaderHandle, questions.revroute_reader_copy, questions.revroute_reader_learn, questions.revroute_reader_close
    )

    def next_hop(self, node: Name) -> Union[Name, NoHop]:
        """The next hop of a node, or why it has none, as for `Network.next_hop`.

        The reader of a session accepts every number below 4,096. If the network has no such node, it is cut off.

        >>> import revroute
        >>> session = revroute.Session()
        >>> reader = session.reader()
        >>> reader.next_hop(1)
        <NoHop.CUT_OFF: 'cut'>
        >>> session.answer('["net",2,0,[[0,1]]]')
        'turned 1 cut 0'
        >>> reader.next_hop(1), reader.next_hop(0)
        (0, <NoHop.HERE: 'here'>)

        Raises NoSuchNode if there is no such node.
        """
        try:
            if 0 <= node < self._bound:  # type: ignore[operator]
                hop = _calls.reader_next_hop(self._live, node)
                if hop < _calls.NO_HOP:
                    return hop  # type: ignore[no-any-return]
        except (TypeError, ctypes.ArgumentError):
            pass
        number = self._number(node)
        with self._lock:
            hop = questions.revroute_reader_next_hop(self._at, number)
        if hop == _calls.NO_HOP:
            self._refuse()
        return self._name(hop) if hop < _calls.NO_HOP else _hop(hop)  # type: ignore[return-value]

    def walk(self, node: Name) -> Optional[list[Name]]:
        """Walks hop by hop from a node to the destination, and returns the nodes, both ends included. Returns None if
        the walk ends at a node that is cut off.

        Later steps can read later hops. So while another thread makes a change, a walk can visit a node again, or end
        at a node that is cut off although its first node has a route before and after. If that matters, walk again.

        Raises NoSuchNode if there is no such node, and WalkTooLong if the walk has visited 4,096 nodes.
        """
        number, length = self._number(node), ctypes.c_size_t()
        room, status = 0, _calls.TOO_SHORT
        while status == _calls.TOO_SHORT:
            if room == _MOST:
                raise WalkTooLong(f"the walk has met {_MOST:,} nodes and has not ended")
            room = min(8 * room or 64, _MOST)
            nodes = (ctypes.c_uint32 * room)()
            with self._lock:
                status = questions.revroute_reader_walk(self._at, number, nodes, room, ctypes.byref(length))
        if status == _calls.NO_NETWORK:
            self._refuse()
        return [self._name(it) for it in nodes[: length.value]] if status == _calls.ANSWERED else None
