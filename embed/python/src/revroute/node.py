"""The state machine of one router, in a network without a controller."""

from __future__ import annotations

import ctypes
import os
import weakref
from operator import index
from threading import RLock, get_ident
from typing import Any, NamedTuple, NoReturn, Optional

from . import _calls
from ._calls import questions

MESSAGE_LENGTH = 64
_MOST = {4: 0xFFFFFFFF, 8: 0xFFFFFFFFFFFFFFFF}
# How many neighbours there is room for in the first try.
_FEW = 16
# The caller of a node that was in a call of another thread at a fork. No thread of the child has this number.
_GONE = 0
_nodes: weakref.WeakValueDictionary[int, Node] = weakref.WeakValueDictionary()


class Unwritten(Exception):
    """The ways and gates of the node have to be written first, and then `Node.written` has to be called.

    >>> node = Node.gateway(0, boot=1)
    >>> node.know(1)
    >>> node.link_up(1)
    >>> node.say(1)
    Traceback (most recent call last):
    revroute.node.Unwritten: write the ways and gates, and then call `written`
    """


class Outdated(Exception):
    """An event came after the ways and gates were handed out. Nothing has changed: write the `Node.table` as it is
    now.

    >>> node = Node.gateway(0, boot=1)
    >>> node.know(1)
    >>> table = node.table()
    >>> node.link_up(1)
    >>> node.written(table.state)
    Traceback (most recent call last):
    revroute.node.Outdated: an event came after the ways and gates were handed out
    """


class NotAMessage(ValueError):
    """The bytes are not a message of a node. Nothing has changed.

    >>> Node.gateway(0, boot=1).hear(b"hello")
    Traceback (most recent call last):
    revroute.node.NotAMessage: the bytes are not a message
    """


class LaterStart(Exception):
    """A neighbour knows a start of this router with a greater boot number. Nothing has changed. Either `boot` was not
    greater than at all earlier starts, or another router has the number of this one. What a `Node` promises does not hold
    then: start it again with a greater `boot`, or with a number of its own."""


class NodeTable(NamedTuple):
    """What a router writes to its forwarding table.

    >>> Node.gateway(0, boot=1).table()
    NodeTable(ways=[], gates=[], state=0)
    """

    ways: list[int]
    """The neighbours to which packets may be sent, the nearest first, and equally near ones by number."""
    gates: list[int]
    """The neighbours from which packets are let in, in the order in which they were made known. All others have to be
    dropped."""
    state: int
    """The number of the node's state, which `Node.written` takes."""


def _number(value: int, size: int = 4) -> int:
    """A number of this many bytes."""
    number = index(value)
    if not 0 <= number <= _MOST[size]:
        raise OverflowError(f"{number} is not a number of {8 * size} bits")
    return number


class Node:
    """The state machine of one router, for one destination, in a network without a controller. Each router runs its
    own, and they exchange messages.

    Events are `link_up`, `link_down`, `tick` if a link is lost, `hear` of a message that is taken, and `act` if it
    changes something. After an event, write the ways and gates of `table` to the forwarding table, and then call
    `written`. Only then `say` has messages. So at no moment do the links that routers use contain a loop, whatever
    happens to messages and whichever routers restart. docs/NODES.md has all rules for this. Among them: each router
    drops packets from neighbours that it does not let in, and `boot` is greater at each start.

    >>> import revroute
    >>> def write(node):
    ...     table = node.table()
    ...     # write table.ways and table.gates to the forwarding table
    ...     node.written(table.state)
    >>> gateway, router = revroute.Node.gateway(0, boot=1), revroute.Node(1, boot=1, ceiling=16)
    >>> gateway.know(1), router.know(0, cost=2)
    (None, None)
    >>> gateway.link_up(1), router.link_up(0)
    (None, None)
    >>> write(gateway), write(router)
    (None, None)
    >>> for _ in range(2):
    ...     router.hear(gateway.say(1))
    ...     write(router)
    ...     gateway.hear(router.say(0))
    ...     write(gateway)
    >>> router.ways(), router.distance, gateway.gates()
    ([0], 2, [1])

    `me` is the number of the router, which no other router has. `boot` is greater than at all earlier starts of this
    router. `height` is the height at which it starts: without it 0, or 2^32 - 1 with a `ceiling`.

    Without a `ceiling`, a router that has no way rises above all its neighbours: this is full link reversal, and
    routers that are cut off from all gateways rise for ever. With `lower`, such a router lowers its height to its
    distance if a way with a smaller distance stays a way. With a `ceiling`, a router rises if no neighbour offers its
    height or less, and at once to 2^32 - 1, the height of a router without a route. A neighbour offers its own height
    and the cost of the link together, if that is below the ceiling. The router comes down to its best offer once each
    neighbour at a link that is up is let in. So once all is quiet, routes have the least costs, if these are below
    the ceiling, and routers that are cut off are silent. With `wait`, a router keeps its old height and ways until
    the neighbours that it lets in have acknowledged a greater height. No choice can make a loop.

    Raises OverflowError if `boot` or `height` has more than 64 bits or another number has more than 32, ValueError if
    `height` is 2^63 or more, since neighbours have to be able to rise above it, and MemoryError if memory runs out. A call on a
    closed node raises ValueError. Any thread may call. Calls on one node wait for each other. The child of `os.fork` has
    its own copies of all nodes, but only one of the two processes may send messages. If another thread was in a call on a
    node during the fork, a call on this node raises RuntimeError in the child.

    Costs: all calls are O(d) for d known neighbours, except that `ways` and `table` are O(d log d), and that a start,
    `height`, `written` and `close` are O(1).
    """

    def __init__(
        self,
        me: int,
        boot: int,
        height: Optional[int] = None,
        *,
        ceiling: Optional[int] = None,
        lower: bool = True,
        wait: bool = True,
    ) -> None:
        rise = _calls.FULL if ceiling is None else _calls.TOP
        if height is None:
            height = 0 if ceiling is None else _MOST[4]
        policy = _calls.Policy(rise, _number(ceiling or 0), bool(lower), bool(wait))
        words = _number(me), _number(boot, 8), _number(height, 8), ctypes.byref(policy)
        self._start(lambda at: questions.revroute_node_open(at, *words))

    @classmethod
    def gateway(cls, me: int, boot: int) -> Node:
        """A gateway: a router that takes packets out of the network, and sends them to no neighbour. One destination
        may have several gateways."""
        words = _number(me), _number(boot, 8)
        node = cls.__new__(cls)
        node._start(lambda at: questions.revroute_node_open_gateway(at, *words))
        return node

    def _start(self, opened: Any) -> None:
        self._lock, self._handle = RLock(), _calls.NodeHandle()
        self._caller: Optional[int] = None
        self._at = ctypes.byref(self._handle)
        status = opened(self._at)
        if status == _calls.NO_MEMORY:
            raise MemoryError
        if status == _calls.REFUSED:
            raise ValueError("a router starts at a height below 2^63")
        self._end = weakref.finalize(self, questions.revroute_node_close, self._at)
        self._end.atexit = False
        _nodes[id(self)] = self

    def know(self, neighbour: int, cost: int = 1) -> None:
        """Makes a neighbour known. `cost` is what it costs this router to send a packet to it. The neighbour may know
        another cost for the other direction. The link to it is down until `link_up`. A neighbour that is known stays as
        it is, with its cost: `set_cost` changes that.

        Raises ValueError if it is the router itself or the cost is 0, OverflowError if a number has more than 32 bits,
        and MemoryError if memory runs out. Then nothing has changed.
        """
        status = self._call(questions.revroute_node_know, _number(neighbour), _number(cost))
        if status == _calls.REFUSED:
            raise ValueError("a router is no neighbour of itself" if cost else "a link costs 1 or more")
        if status == _calls.NO_MEMORY:
            raise MemoryError

    def link_up(self, neighbour: int) -> None:
        """An event: the link to a neighbour comes up. It counts as up until `tick` ends that. If the neighbour is not
        known, no link changes."""
        self._call(questions.revroute_node_link_up, _number(neighbour))

    def link_down(self, neighbour: int) -> None:
        """An event: the link to a neighbour goes down. What was heard on it is kept."""
        self._call(questions.revroute_node_link_down, _number(neighbour))

    def set_cost(self, neighbour: int, cost: int) -> None:
        """An event: it costs this router something else to send a packet to a neighbour. What was heard on the link
        stays. If the neighbour is not known, no link changes.

        Raises ValueError if the cost is 0. Then nothing has changed.
        """
        if self._call(questions.revroute_node_set_cost, _number(neighbour), _number(cost)) == _calls.REFUSED:
            raise ValueError("a link costs 1 or more")

    def tick(self, patience: int) -> bool:
        """Notices links that do not work both ways. Call this at a steady interval, such as that at which you say
        messages again. A link counts as up no longer once its neighbour has said nothing to this start of the router
        for `patience` calls: because it does not hear the router, or is not heard. Then the neighbour is no way, its
        gate closes, and the router does not wait for it. The node goes on saying messages over such a link, and the
        link counts as up again once the neighbour says something to this start. Calls are counted anew when the link
        comes up, and when the neighbour starts again. A neighbour that was not heard for as many calls is told so by
        the messages for it, so the link does not count at its end either.

        Returns whether a link was lost so, which is an event as `link_down` is; if not, it is none."""
        return bool(self._call(questions.revroute_node_tick, _number(patience)))

    def act(self) -> bool:
        """Lets the policy change the height once more. Returns whether something has changed, which is an event; if not, it
        is none. Each event takes one step of the policy, so call this after an event until it returns False."""
        return bool(self._call(questions.revroute_node_act))

    def hear(self, message: bytes) -> None:
        """An event: a message is heard. It is taken if it is for this router, from a known neighbour, and newer than all
        that were taken from this neighbour: of a greater boot number, or of the same one with a greater stamp. Any other
        message is ignored, and is no event: a repeated one, for example.

        Raises, for the first reason that holds, and then it was no event and nothing has changed:

        - NotAMessage if the bytes are not a message, because of their number or their header.
        - LaterStart if the message is for this router and from a known neighbour, which knows a start of this router with
          a greater boot number.
        """
        message = bytes(memoryview(message))
        status = self._call(questions.revroute_node_hear, message, len(message))
        if status == _calls.NO_MESSAGE:
            raise NotAMessage("the bytes are not a message")
        if status == _calls.LATER_START:
            raise LaterStart("a neighbour knows a later start of this router")

    def table(self) -> NodeTable:
        """What to write to the forwarding table: the ways and gates of one moment, and the number of the state that has
        them. Close the gates that are not listed, change the ways, and then open gates. Then call `written` with the
        number."""
        with self._lock:
            while True:
                ways, state = self._listed(questions.revroute_node_ways)
                gates, same = self._listed(questions.revroute_node_gates)
                # They differ if a signal handler has made a call between the two.
                if state == same:
                    return NodeTable(ways, gates, state)

    def written(self, state: int) -> None:
        """Call this once the ways and gates of a `table` are written, with the `state` of that table. From then on `say`
        has messages, until the next event.

        >>> import revroute
        >>> node = revroute.Node.gateway(0, boot=1)
        >>> table = node.table()
        >>> node.link_up(1)  # while the table is written
        >>> node.written(table.state)
        Traceback (most recent call last):
        revroute.node.Outdated: an event came after the ways and gates were handed out
        >>> node.written(node.table().state)

        Raises Outdated if an event came after the table was handed out.
        """
        if self._call(questions.revroute_node_written, _number(state, 8)) == _calls.OUTDATED:
            raise Outdated("an event came after the ways and gates were handed out")

    def say(self, neighbour: int) -> Optional[bytes]:
        """The message for a neighbour. None if it is not known, or if you have not said that the link to it is up. A
        link that `tick` has lost has messages. One may be said as often as you like, and has another stamp each time.
        Messages may be lost, so say one to each neighbour again after some time.

        Raises Unwritten if the ways and gates are not written.
        """
        message, length = ctypes.create_string_buffer(MESSAGE_LENGTH), ctypes.c_size_t()
        words = _number(neighbour), message, MESSAGE_LENGTH, ctypes.byref(length)
        status = self._call(questions.revroute_node_say, *words)
        self._expect_written(status)
        return message.raw if status == _calls.ANSWERED else None

    def has_news(self, neighbour: int) -> bool:
        """Whether `say` has a message for a neighbour which differs from the last one that was said to it by more than
        its stamp.

        Raises Unwritten if the ways and gates are not written.
        """
        news = ctypes.c_uint32()
        self._expect_written(self._call(questions.revroute_node_has_news, _number(neighbour), ctypes.byref(news)))
        return bool(news.value)

    def ways(self) -> list[int]:
        """The neighbours to which packets may be sent now, the nearest first, and equally near ones by number. The router
        may send packets to any of them. A gateway has none."""
        return self._listed(questions.revroute_node_ways)[0]

    def gates(self) -> list[int]:
        """The neighbours from which packets are let in now, in the order in which they were made known. All others have
        to be dropped."""
        return self._listed(questions.revroute_node_gates)[0]

    def _listed(self, question: Any) -> tuple[list[int], int]:
        """The neighbours that a question lists, and the number of the node's state."""
        room, length, state = _FEW, ctypes.c_size_t(), ctypes.c_uint64()
        while True:
            places = (ctypes.c_uint32 * room)()
            status = self._call(question, places, room, ctypes.byref(length), ctypes.byref(state))
            if status != _calls.TOO_SHORT:
                return places[: length.value], state.value
            room = length.value

    @property
    def distance(self) -> Optional[int]:
        """The cost of the nearest route from this router to a gateway, by what it has heard: 0 at a gateway. None if there
        is no way, or if no way has a distance."""
        distance = ctypes.c_uint32()
        status = self._call(questions.revroute_node_distance, ctypes.byref(distance))
        return distance.value if status == _calls.ANSWERED else None

    @property
    def height(self) -> int:
        """The height in use."""
        height = ctypes.c_uint64()
        self._call(questions.revroute_node_height, ctypes.byref(height))
        return height.value

    def lets_in(self, neighbour: int) -> bool:
        """Whether packets from a neighbour are let in. All others have to be dropped."""
        return bool(self._call(questions.revroute_node_lets_in, _number(neighbour)))

    def sends_to(self, neighbour: int) -> bool:
        """Whether packets may be sent to a neighbour."""
        return bool(self._call(questions.revroute_node_sends_to, _number(neighbour)))

    def close(self) -> None:
        """Frees the memory. A second call does nothing."""
        with self._lock:
            self._end()

    def _call(self, call: Any, *words: Any) -> int:
        with self._lock:
            before = self._caller
            if before == _GONE:
                raise RuntimeError("another thread was in a call on the node as this process was forked")
            if not self._end.alive:
                raise ValueError("the node is closed")
            # A signal handler may make a call while this thread is in one.
            self._caller = get_ident()
            try:
                return call(self._at, *words)  # type: ignore[no-any-return]
            finally:
                self._caller = before

    def _inherit(self) -> None:
        """Makes the node usable in the child of a fork, or unusable if another thread was in a call on it."""
        self._lock = RLock()
        if self._caller not in (None, get_ident()):
            self._caller = _GONE
            self._end.detach()

    def _expect_written(self, status: int) -> None:
        if status == _calls.UNWRITTEN:
            raise Unwritten("write the ways and gates, and then call `written`")

    def __enter__(self) -> Node:
        return self

    def __exit__(self, *_: object) -> None:
        self.close()

    def __reduce__(self) -> NoReturn:
        raise TypeError("a node can neither be copied nor pickled")

    def __repr__(self) -> str:
        return "<revroute.Node>" if self._end.alive else "<revroute.Node, closed>"


def _inherit_nodes() -> None:
    for node in list(_nodes.values()):
        node._inherit()


os.register_at_fork(after_in_child=_inherit_nodes)
