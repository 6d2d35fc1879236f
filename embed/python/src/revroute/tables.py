"""The push order between two tables, without a network."""

from __future__ import annotations

import ctypes
from collections.abc import Mapping, Sequence
from operator import index
from typing import Any, Optional, TypeVar, Union

from . import _calls
from ._calls import library
from .network import Refused
from .session import NoHop, _hop, _packed_table

Name = TypeVar("Name")

_MOST_NODES = 4096


def push_order(
    old: Union[Mapping[Name, Union[Name, NoHop, None]], Sequence[Union[Name, NoHop, None]]],
    new: Union[Mapping[Name, Union[Name, NoHop, None]], Sequence[Union[Name, NoHop, None]]],
) -> list[tuple[Name, Union[Name, NoHop]]]:
    """The nodes whose hop differs in two tables of your own, each with its hop in the new one. They are in push order:
    each node after those of them on its walk in the new table, and nodes without a route last.

    Any method may have made the tables: this needs no network. Give the old table these hops one after the other. At
    the end it is the new table, and at no moment does it have a loop that it did not have before. So the old table may
    have loops, and the new one may not. A node that has a route in both tables has one at every moment.

    >>> push_order([NoHop.HERE, 0, 1, None], [NoHop.HERE, 2, 3, 0])
    [(3, 0), (2, 3), (1, 2)]
    >>> push_order({}, {"a": NoHop.HERE, "b": "a"})
    [('a', <NoHop.HERE: 'here'>), ('b', 'a')]

    A table is a sequence of hops in the order of the nodes, or a mapping from nodes to hops. A hop is a node,
    NoHop.HERE or NoHop.CUT_OFF, or None, which means CUT_OFF unless a node has that name. A node without an entry has
    CUT_OFF. If both tables are mappings and not all nodes are numbers, the nodes are their keys. Nodes that may be
    pushed in any order come by number, or in the order of the keys.

    Raises, for the first reason that holds:

    - Refused with number 9 if there are more than 4,096 nodes.
    - NoSuchNode if a hop of a table is not a node of one of the tables.
    - Refused with number 7 if the new table has a loop. `nodes` has the loop of the lowest node that is on one, from this
      node on, with this node again at the end.
    - MemoryError if memory runs out.

    O(n) for n nodes.
    """
    names = _names_of(old, new)
    numbers = None if names is None else {name: at for at, name in enumerate(names)}
    count = max(_length(old), _length(new)) if names is None else len(names)
    if count > _MOST_NODES:
        raise Refused(_calls.TOO_MANY)
    before, after = _packed_table(old, count, numbers), _packed_table(new, count, numbers)
    # There is room for an order, which has at most all nodes, and for a loop, which has one of them twice.
    places, length, refusal = (ctypes.c_uint32 * (count + 1))(), ctypes.c_size_t(), _calls.Refusal()
    status = library.revroute_push_order(before, count, after, count, places, count + 1, ctypes.byref(length), ctypes.byref(refusal))
    if status == _calls.NO_MEMORY:
        raise MemoryError
    nodes, hops = places[: length.value], memoryview(after).cast("I")

    def name(number: int) -> Any:
        return number if names is None else names[number]

    def hop_of(node: int) -> Any:
        return _hop(hops[node]) if hops[node] >= _calls.NO_HOP else name(hops[node])

    if status == _calls.REFUSED:
        raise Refused(refusal.number, [name(it) for it in nodes])
    return [(name(it), hop_of(it)) for it in nodes]


def _names_of(old: Any, new: Any) -> Optional[list[Any]]:
    """The nodes of two tables, if they are mappings and not all nodes are numbers."""
    if not isinstance(old, Mapping) or not isinstance(new, Mapping):
        return None
    names = list(dict.fromkeys([*old, *new]))
    return None if all(isinstance(it, int) for it in names) else names


def _length(table: Any) -> int:
    """The number of nodes of a table whose nodes have numbers."""
    if isinstance(table, Mapping):
        return max(map(index, table), default=-1) + 1
    if not hasattr(table, "__getitem__"):
        raise TypeError(f"a table is a mapping from nodes to hops or a sequence of hops, and no {type(table).__name__}")
    return len(table)
