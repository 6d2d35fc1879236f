"""A session that answers lines: a line has a request in JSON, and its answer is a line of text.

>>> with Session() as session:
...     session.answer('["net",4,0,[[0,1],[1,2],[2,3]]]')
...     session.answer('["walk",3]')
'turned 6 cut 0'
'walk 3 2 1 0'

The requests and their answers are those of the program `revroute run`. A refused request has an answer too, with a
number:

>>> Session().answer('["walk",3]')
'refused 3'
"""

from __future__ import annotations

import ctypes
import enum
import json
import os
import sys
import warnings
import weakref
from array import array
from collections.abc import Mapping, Sequence
from operator import index
from threading import RLock, get_ident
from typing import TYPE_CHECKING, Any, Callable, NamedTuple, NoReturn, Optional, Union

from . import _calls
from ._calls import library, questions

if TYPE_CHECKING:
    from .reader import Reader
    from .way_reader import WayReader

_FIRST_ROOM = 4096
# How many numbers there is room for in the first try.
_FEW = 64
# The caller of a session that was in a call of another thread at a fork. No thread of the child has this number.
_GONE = 0

# A handle without a network. A question that does not take the session's lock gets this handle while a call of another
# thread may change the session, and so learns that it has to wait. In an interpreter without a global lock it always
# gets this handle.
_elsewhere = _calls.Handle()
_ELSEWHERE = ctypes.addressof(_elsewhere)
_HAS_LOCK = getattr(sys, "_is_gil_enabled", lambda: True)()
_sessions: weakref.WeakValueDictionary[int, Session] = weakref.WeakValueDictionary()


class AnswerLost(Exception):
    """The change was made, but there was no memory for the answer. `Session.last_answer` and `Network.report` have
    it."""


class LineTooLong(ValueError):
    """A line has more than 16,777,216 bytes.

    >>> Session().take(16_777_217 * b" ")
    Traceback (most recent call last):
    revroute.session.LineTooLong: a line has more than 16,777,216 bytes
    """


class NoSuchNode(KeyError, IndexError):
    """The network has no such node. `node` is the name or number that was asked for.

    >>> from revroute import Network
    >>> Network(2, 0, [(1, 0)]).walk(2)
    Traceback (most recent call last):
    revroute.session.NoSuchNode: there is no node 2 in the network
    """

    def __init__(self, node: object) -> None:
        super().__init__(node)
        self.node = node

    def __str__(self) -> str:
        return f"there is no node {self.node!r} in the network"


class NoHop(enum.Enum):
    """What a node has instead of a next hop.

    >>> from revroute import Network
    >>> Network(3, 0, [(1, 0)]).hops()
    [<NoHop.HERE: 'here'>, 0, <NoHop.CUT_OFF: 'cut'>]
    """

    HERE = "here"
    """The node is the destination."""
    CUT_OFF = "cut"
    """No links connect the node with the destination, whichever way they point."""


_VALUES = {NoHop.HERE: _calls.HERE, NoHop.CUT_OFF: _calls.CUT_OFF}


class Report(NamedTuple):
    """The report of a round.

    >>> from revroute import Network
    >>> network = Network(3, 0, [(1, 0), (2, 1)])
    >>> network.cut(2, 1)
    Report(turned=0, cut_off=1)
    >>> network.add(0, 2)
    Report(turned=1, cut_off=0)
    """

    turned: int
    """The number of turns. In a turn, a node reverses all its links."""
    cut_off: int
    """The number of nodes that are cut off from the destination."""

    def __call__(self) -> Report:
        """Deprecated: `report` was a call of Session."""
        _deprecate("report()", "report, without a call")
        return self


class Size(NamedTuple):
    """The size of a network.

    >>> from revroute import Network
    >>> Network(3, 0, [(1, 0)]).size
    Size(nodes=3, links=1)
    """

    nodes: int
    """The number of nodes. They are numbered from 0."""
    links: int
    """The number of links."""

    def __call__(self) -> Size:
        """Deprecated: `size` was a call of Session."""
        _deprecate("size()", "size, without a call")
        return self


def _deprecate(old: str, new: str) -> None:
    """Warns the caller of a caller that it uses a name of the last version."""
    warnings.warn(f"{old} is deprecated: use {new}", DeprecationWarning, stacklevel=3)


class _Why(NamedTuple):
    """Why a call is refused: the number that lines use, the nodes that show it, and the index of the edit."""

    number: int
    nodes: tuple[int, ...]
    at: int


def _pushes_of(numbers: list[int]) -> list[tuple[int, list[int]]]:
    """The pushes that are written as numbers: for each push its node, how many ways it gets, and these ways."""
    pushes, at = [], 0
    while at < len(numbers):
        end = at + 2 + numbers[at + 1]
        pushes.append((numbers[at], numbers[at + 2 : end]))
        at = end
    return pushes


def _hop(value: int) -> Union[int, NoHop]:
    return NoHop.HERE if value == _calls.HERE else NoHop.CUT_OFF if value == _calls.CUT_OFF else value


def _packed_table(table: Any, count: int, numbers: Optional[dict[Any, int]] = None) -> bytes:
    """The hops of a caller's table as the library expects them: one for each of `count` nodes. If nodes have names,
    `numbers` has the number of each name."""

    def number_of(node: Any) -> int:
        if numbers is not None:
            if node in numbers:
                return numbers[node]
        elif 0 <= (number := index(node)) < count:
            return number
        raise NoSuchNode(node)

    def value_of(hop: Any) -> int:
        if isinstance(hop, NoHop):
            return _VALUES[hop]
        is_node = hop is not None or (numbers is not None and None in numbers)
        return number_of(hop) if is_node else _calls.CUT_OFF

    values = array("I", [_calls.CUT_OFF]) * count
    if isinstance(table, Mapping):
        for node, hop in table.items():
            values[number_of(node)] = value_of(hop)
    elif not hasattr(table, "__getitem__"):
        raise TypeError(f"a table is a mapping from nodes to hops or a sequence of hops, and no {type(table).__name__}")
    elif len(table) > count:
        raise ValueError(f"the table has {len(table)} hops, and the network {count} nodes")
    else:
        for at, hop in enumerate(table):
            values[at] = value_of(hop)
    return values.tobytes()


def _packed_ways(table: Any, count: int, numbers: Optional[dict[Any, int]] = None) -> tuple[bytes, bytes]:
    """The ways of a caller's table as the library expects them: where the list of each of `count` nodes begins, and the
    ways of all lists. A way that is not a node becomes a number that no node has."""

    def number_of(node: Any) -> int:
        if numbers is not None:
            return numbers.get(node, _calls.NO_HOP)
        return number if 0 <= (number := index(node)) < count else _calls.NO_HOP

    lists: list[Any] = [()] * count
    if isinstance(table, Mapping):
        for node, ways in table.items():
            at = number_of(node)
            if at == _calls.NO_HOP:
                raise NoSuchNode(node)
            lists[at] = ways
    elif not hasattr(table, "__getitem__") or isinstance(table, (str, bytes)):
        raise TypeError(f"a table is a mapping from nodes to their ways or a sequence of lists, and no {type(table).__name__}")
    elif len(table) > count:
        raise ValueError(f"the table has {len(table)} lists, and the network {count} nodes")
    else:
        lists[: len(table)] = table
    starts, found = array("Q", (0,)), array("I")
    for ways in lists:
        if not hasattr(ways, "__getitem__") or isinstance(ways, (str, bytes, Mapping)):
            raise TypeError(f"the ways of a node are a sequence of nodes, and no {type(ways).__name__}")
        found.extend(map(number_of, ways))
        starts.append(len(found))
    return starts.tobytes(), found.tobytes()


class Session:
    """Answers lines as the program `revroute run` does. A session holds the network that the lines so far have made.
    It begins without a network.

    Any thread may call, but only one at a time: others wait until the call has returned. Sessions share nothing, so
    threads that have one each run side by side. The memory is freed at the end of a `with` block, by `close`, or with
    the last reference.

    A call that would wait for itself raises RuntimeError. Such a call comes from a signal handler, or from anything
    else that has interrupted a call on this session. It also comes from the child of `os.fork` if another thread was
    in a call on this session during the fork. The child can use all other sessions, and has its own copies of them.

    Costs, for n nodes and m links:

    - `next_hop`, `distance`, `dest`, `size` and `report`: O(1).
    - `reader`: O(4,096) for the first reader, and O(1) for each later one.
    - `way_reader`: O(4,096 + m log d) for the first reader, and O(1) for each later one. A line that
      begins a round then costs that too.
    - `walk` and `changed`: linear in the length of the result.
    - `ways`: O(d log d) for d links at the node. `nearest`: O(k d) for a route of k nodes. The first of these calls or
      of `distance` in a network costs O(n + m) more.
    - `hops`, `pushes` and `counts`: O(n).
    - `links` and `save`: O(n + m).
    - `all_ways`: O(n + m). `shrink` and `grow`: O(n + m + k) for k ways in the table.
    - `answer`, `take` and `finish`: O(b) for b bytes of lines and answers, plus the same calls of a Network.
    """

    # What a fault is about: a Network has a session too.
    _kind = "session"

    def __init__(self) -> None:
        self._handle = _calls.Handle()
        self._lock = RLock()
        self._caller: Optional[int] = None
        self._length, self._count, self._taken = ctypes.c_size_t(), ctypes.c_size_t(), ctypes.c_size_t()
        # Pieces that are not taken completely, each with its address and length. Then the answers to return, and how
        # many bytes of the first piece are taken.
        self._pieces: list[tuple[bytes, int, int]] = []
        self._answers: list[str] = []
        self._begun = 0
        self._is_closed = self._answered = False
        self._lost: Optional[AnswerLost] = None
        # Tells the tables of different sessions apart, which the library cannot do.
        self._reader_table = object()
        self._make_room(_FIRST_ROOM)
        self._at, self._length_at = ctypes.byref(self._handle), ctypes.byref(self._length)
        self._count_at, self._taken_at = ctypes.byref(self._count), ctypes.byref(self._taken)
        self._round, self._refusal = array("Q", (0, 0)), _calls.Refusal()
        self._round_at, self._refusal_at = ctypes.c_void_p(self._round.buffer_info()[0]), ctypes.byref(self._refusal)
        self._address = ctypes.addressof(self._handle) if _HAS_LOCK else _ELSEWHERE
        self._live = ctypes.c_void_p(self._address)
        self._end = weakref.finalize(self, library.revroute_close, self._at)
        self._end.atexit = False
        _sessions[id(self)] = self

    def _make_room(self, room: int) -> None:
        buffer = ctypes.create_string_buffer(room)
        self._room = buffer, memoryview(buffer).cast("B"), room

    def answer(self, line: Union[str, bytes, bytearray, memoryview]) -> Optional[str]:
        """Answers a line. A refused request has an answer too. Returns None for a blank line, which has only spaces,
        tabs and carriage returns.

        A line is a str, or bytes or another buffer. It may end with one newline, so you can pass the lines of a file
        as you read them. The answer has no newline.

        Raises:

        - MemoryError if memory runs out. The session is unchanged.
        - AnswerLost if memory runs out after the line was answered.
        - TypeError if the line is neither a str nor a buffer.
        - ValueError if the text cannot be encoded as UTF-8, as with a lone surrogate, or if the session is closed.
        - RuntimeError if the call would wait for itself.
        """
        if type(line) is str:
            line = line.encode()
        elif type(line) is not bytes:
            line = _bytes_of(line)
        size = len(line) - line.endswith(b"\n")
        with self._lock:
            self._begin_call()
            try:
                return self._asked(library.revroute_answer, line, size)
            finally:
                self._caller = None

    def _begin_call(self) -> None:
        """Takes the session for a call, or raises why the call cannot have it."""
        if self._caller is not None:
            self._refuse()
        if self._is_closed:
            raise ValueError(f"the {self._kind} is closed")
        if self._lost is None:
            self._lost = AnswerLost("the call is answered, but there was no memory for the answer")
        self._caller = get_ident()

    def _asked(self, call: Any, *words: Any) -> Optional[str]:
        """The answer to a line, from one of the calls that write it into a buffer. The buffer grows if it is too
        short."""
        self._answered = False
        while True:
            buffer, answer, room = self._room
            if call is library.revroute_take:
                status = self._outside(call, *words, buffer, room, self._length_at, self._taken_at)
            else:
                status = self._outside(call, *words, buffer, room, self._length_at)
            if status == _calls.ANSWERED:
                self._answered = True
                try:
                    return str(answer[: self._length.value], "ascii")
                except MemoryError:
                    self._lose()
            if status == _calls.NO_MEMORY:
                raise MemoryError
            if status == _calls.TOO_LONG:
                raise LineTooLong("a line has more than 16,777,216 bytes")
            if status != _calls.TOO_SHORT:
                return None
            self._make_room(max(self._length.value, 2 * room))

    def _outside(self, call: Any, *words: Any) -> int:
        """Makes a call that may change the session. The interpreter's lock is released for it."""
        self._live.value = _ELSEWHERE
        try:
            return call(self._at, *words)  # type: ignore[no-any-return]
        except ctypes.ArgumentError:
            # The arguments have the right types, so only memory can have been missing.
            raise MemoryError from None
        finally:
            self._live.value = self._address

    def _lose(self) -> NoReturn:
        """Raises AnswerLost. The exception was made earlier, since there may be no memory for one now."""
        lost, self._lost = self._lost, None
        raise lost or MemoryError from None

    def _begin_round(self, call: Any, closed_walk: Any, *words: Any) -> Union[Report, _Why]:
        """Makes one of the calls that begin a round, with these arguments, and returns its result. If it is refused
        for a cycle, `closed_walk` is called with the same arguments to find it."""
        with self._lock:
            self._begin_call()
            self._live.value = _ELSEWHERE
            try:
                status = call(self._at, *words, self._round_at, self._refusal_at)
                if status == _calls.ANSWERED:
                    try:
                        return Report._make(self._round)
                    except MemoryError:
                        self._lose()
                if status == _calls.NO_MEMORY:
                    raise MemoryError
                if status == _calls.NO_NETWORK:
                    raise ValueError("there is no network")
                it = self._refusal
                if it.number == _calls.CLOSED_WALK:
                    nodes = self._places(ctypes.c_uint32, lambda *places: closed_walk(self._at, *words, *places))
                else:
                    nodes = {_calls.RANGE: [it.u], _calls.SELF_LINK: [it.u], _calls.TOO_MANY: []}.get(it.number, [it.u, it.v])
                return _Why(it.number, tuple(nodes), it.at)
            except ctypes.ArgumentError:
                raise MemoryError from None
            finally:
                self._live.value = self._address
                self._caller = None

    def take(self, piece: Union[str, bytes, bytearray, memoryview]) -> list[str]:
        """Answers the lines that end in a piece of input, and returns the list of answers. A piece can be cut
        anywhere, as from a socket. The bytes after its last newline are kept until their line ends.

        >>> with Session() as session:
        ...     session.take(b'["net",3,0,[[0,1],[1,2]]]\\n["wa')
        ...     session.take(b'lk",2]\\n["links"]')
        ...     session.finish()
        ['turned 3 cut 0']
        ['walk 2 1 0']
        'links 1>0 2>1'

        `answer` neither reads nor changes the bytes that are kept.

        Raises:

        - MemoryError if memory runs out, and AnswerLost if it runs out after a line was answered; `last_answer` has
          this answer. The session keeps the rest of the piece and the answers so far. `take(b"")` continues with them.
        - LineTooLong if a line is too long. Nothing after the beginning of this line can be taken, so every later call
          raises it again.
        - The other exceptions of `answer`.
        """
        if type(piece) is not bytes:
            piece = _bytes_of(piece)
        with self._lock:
            self._begin_call()
            try:
                if piece:
                    address = ctypes.cast(ctypes.c_char_p(piece), ctypes.c_void_p).value or 0
                    self._pieces.append((piece, address, len(piece)))
                fresh: list[str] = []
                while self._pieces:
                    self._take_line(*self._pieces[0])
                answers, self._answers = self._answers, fresh
                return answers
            finally:
                self._caller = None

    def _take_line(self, piece: bytes, address: int, size: int) -> None:
        """Takes one line of the first piece, or removes the piece if all of it is taken. What a call has taken is
        added only before the next call, since the addition needs memory."""
        self._begun += self._taken.value
        self._taken.value = 0
        if self._begun == size:
            self._begun = 0
            del self._pieces[0]
            return
        self._answers.append("")
        text = None
        try:
            text = self._asked(library.revroute_take, address + self._begun, size - self._begun)
        finally:
            if text is None:
                self._answers.pop()
            else:
                self._answers[-1] = text

    def finish(self) -> Optional[str]:
        """Call this at the end of the input. It answers the line that has begun. Returns None if none has begun, or if
        it is blank.

        Raises MemoryError if memory runs out, and then the session is unchanged; AnswerLost if it runs out after the
        line was answered; ValueError if `take` has not taken all of its pieces.
        """
        with self._lock:
            self._begin_call()
            try:
                if self._pieces:
                    raise ValueError("a piece is not taken to its end")
                return self._asked(library.revroute_finish)
            finally:
                self._caller = None

    def last_answer(self) -> Optional[str]:
        """The answer to the last line again, or None if it had none. Use it after AnswerLost."""
        with self._lock:
            if self._caller is not None:
                self._refuse()
            return str(self._room[1][: self._length.value], "ascii") if self._answered else None

    def next_hop(self, node: int) -> Union[int, NoHop]:
        """The next hop of a node: where it forwards traffic for the destination, or why it does not.

        >>> with Session() as session:
        ...     session.answer('["net",4,0,[[0,1],[1,2]]]')
        ...     session.next_hop(2), session.next_hop(0), session.next_hop(3)
        'turned 3 cut 1'
        (1, <NoHop.HERE: 'here'>, <NoHop.CUT_OFF: 'cut'>)

        Raises NoSuchNode if there is no such node. Before the first network there are none.
        """
        return _hop(self._number_of(questions.revroute_next_hop, node))

    def _number_of(self, question: Any, node: int) -> int:
        """The number with which a question about a node is answered."""
        number = index(node)
        with self._lock:
            self._begin_call()
            try:
                value = int(question(self._at, number)) if 0 <= number < _calls.NO_HOP else _calls.NO_SUCH_NODE
            finally:
                self._caller = None
        if value in (_calls.NO_SUCH_NODE, _calls.NO_HOP):
            raise NoSuchNode(number)
        return value

    def reader(self) -> Reader[int]:
        """A reader of the next hops, for another thread. It keeps working when a later network replaces this one. It
        accepts every number below 4,096: if the network has no such node, it is cut off. Once a session has had a
        reader, each change stores every changed hop a second time, for the readers."""
        from .reader import Reader

        return Reader(self._open_reader, self._reader_table)

    def way_reader(self) -> WayReader[int]:
        """A reader of the first ways of nodes, for another thread. It keeps working when a later network replaces this
        one. It accepts every number below 4,096: if the network has no such node, it has no way. Once a session has had
        such a reader, a line that begins a round also lists the ways of all nodes again, and stores those that it has
        changed for the readers. A question does not."""
        from .way_reader import WayReader

        return WayReader(self._open_way_reader, self._reader_table)

    def _open_reader(self, reader: Any) -> int:
        return self._opened(questions.revroute_reader_open, reader)

    def _open_way_reader(self, reader: Any) -> int:
        return self._opened(questions.revroute_way_reader_open, reader)

    def _opened(self, call: Any, reader: Any) -> int:
        with self._lock:
            self._begin_call()
            try:
                return int(call(self._at, reader))
            finally:
                self._caller = None

    def hops(self) -> list[Union[int, NoHop]]:
        """The next hop of each node, in the order of the nodes. Empty before the first network."""
        return [*map(_hop, self._hops())]

    def next_hops(self) -> list[Union[int, NoHop]]:
        """Deprecated: use `hops`."""
        _deprecate("next_hops", "hops")
        return self.hops()

    def _hops(self) -> list[int]:
        return self._filled(questions.revroute_hops, ctypes.c_uint32)

    def changed(self) -> list[tuple[int, Union[int, NoHop]]]:
        """The nodes whose next hop the last accepted round changed, each with its new next hop. They are in push
        order: each node after the changed nodes on its new route. Refused requests and questions do not change this
        list.

        A number that is not a node of the network before or after the round counts as cut off there, and before the
        first network all numbers do. So if the new network is smaller, the nodes that are gone and had a hop are on
        the list, with CUT_OFF.

        >>> with Session() as session:
        ...     session.answer('["net",4,0,[[1,0],[2,1],[3,0]]]')
        ...     session.answer('["net",3,0,[[1,0],[2,0]]]')
        ...     session.changed()
        'turned 0 cut 0'
        'turned 0 cut 0'
        [(2, 0), (3, <NoHop.CUT_OFF: 'cut'>)]
        """
        return [(node, _hop(hop)) for node, hop in self._changed()]

    def rerouted(self) -> list[int]:
        """Deprecated: the nodes of `changed`, without their hops."""
        _deprecate("rerouted", "changed, which has the nodes and their hops")
        return [node for node, _ in self._changed()]

    def pushes(
        self, table: Union[Mapping[int, Union[int, NoHop, None]], Sequence[Union[int, NoHop, None]]]
    ) -> list[tuple[int, Union[int, NoHop]]]:
        """The nodes whose hop in your table is not their next hop, each with its next hop, in push order.

        The table and the exceptions are as for `Network.pushes`. Before the first network there are no nodes.

        >>> with Session() as session:
        ...     session.answer('["net",4,0,[[1,0],[2,1],[2,3],[3,0]]]')
        ...     table = session.hops()
        ...     session.answer('["cut",1,0]')
        ...     session.pushes(table)
        'turned 0 cut 0'
        'turned 1 cut 0'
        [(2, 3), (1, 2)]
        """
        size = self.size
        count = size.nodes if size else 0
        hops = self._pushes(_packed_table(table, count), count)
        return [(node, _hop(hop)) for node, hop in hops]

    def shrink(self, table: Union[Mapping[int, Sequence[int]], Sequence[Sequence[int]]]) -> list[tuple[int, list[int]]]:
        """What to push first to routers that hold all their ways: each node that loses a way, with the ways that it
        keeps.

        The table and the exceptions are as for `Network.shrink`. Before the first network there are no nodes.

        >>> with Session() as session:
        ...     session.answer('["net",4,0,[[1,0],[2,0],[2,1],[3,2]]]')
        ...     table = session.all_ways()
        ...     session.answer('["cut",1,0]')
        ...     session.shrink(table), session.grow(table)
        'turned 0 cut 0'
        'turned 1 cut 0'
        ([(2, [0]), (1, [])], [(1, [2])])
        """
        return self._phase(questions.revroute_shrink, *_packed_ways(table, self._nodes()))

    def grow(self, table: Union[Mapping[int, Sequence[int]], Sequence[Sequence[int]]]) -> list[tuple[int, list[int]]]:
        """What to push once all routers have confirmed the pushes of `shrink`: each node whose list then still differs,
        with all its ways, nearest first. See `Network.grow`."""
        return self._phase(questions.revroute_grow, *_packed_ways(table, self._nodes()))

    def _nodes(self) -> int:
        size = self.size
        return size.nodes if size else 0

    def counts(self) -> list[int]:
        """How often each node turned in the last round, in the order of the nodes. Empty before the first network."""
        return self._filled(questions.revroute_counts, ctypes.c_uint64)

    def links(self) -> list[tuple[int, int]]:
        """The links as (tail, head), in rising order. Empty before the first network.

        >>> with Session() as session:
        ...     session.answer('["net",3,0,[[0,1],[1,2]]]')
        ...     session.links()
        'turned 3 cut 0'
        [(1, 0), (2, 1)]
        """
        return [(it.tail, it.head) for it in self._filled(questions.revroute_links, _calls.Link)]

    def walk(self, node: int) -> Optional[list[int]]:
        """The nodes on the route from a node to the destination, both included. None if the node is cut off.

        >>> with Session() as session:
        ...     session.answer('["net",4,0,[[0,1],[1,2]]]')
        ...     session.walk(2), session.walk(3)
        'turned 3 cut 1'
        ([2, 1, 0], None)

        Raises NoSuchNode if there is no such node. Before the first network there are none.
        """
        return self._of_node(questions.revroute_walk, node) or None

    def _of_node(self, question: Any, node: int) -> list[int]:
        """The nodes that a question about a node writes. It writes none for a node that is cut off."""
        number = index(node)
        found = self._filled(question, ctypes.c_uint32, number) if 0 <= number < _calls.NO_HOP else []
        if not found:
            # This raises NoSuchNode if there is no such node.
            self.next_hop(number)
        return found

    def route(self, node: int) -> Optional[list[int]]:
        """Deprecated: use `walk`."""
        _deprecate("route", "walk")
        return self.walk(node)

    def ways(self, node: int) -> list[int]:
        """The ways of a node: the nodes to which its links point, nearest first. They are ordered by their distance,
        and then by number. The destination has none, and neither has a node that is cut off.

        >>> with Session() as session:
        ...     session.answer('["net",5,0,[[2,0],[1,2],[3,0],[4,1],[4,3]]]')
        ...     session.ways(4), session.nearest(4), session.distance(4)
        'turned 0 cut 0'
        ([3, 1], [4, 3, 0], 2)

        Raises NoSuchNode if there is no such node. Before the first network there are none.
        """
        return self._of_node(questions.revroute_ways, node)

    def all_ways(self) -> dict[int, list[int]]:
        """The ways of each node. Empty before the first network.

        >>> with Session() as session:
        ...     session.answer('["net",4,0,[[1,0],[2,1],[2,0]]]')
        ...     session.all_ways()
        'turned 0 cut 1'
        {0: [], 1: [0], 2: [0, 1], 3: []}
        """
        return dict(enumerate(self._all_ways()))

    def nearest(self, node: int) -> Optional[list[int]]:
        """The nodes on the nearest route from a node to the destination, both included: each is the first way of the
        one before. No route along the links is shorter. None if the node is cut off.

        Raises NoSuchNode if there is no such node.
        """
        return self._of_node(questions.revroute_nearest, node) or None

    def distance(self, node: int) -> Optional[int]:
        """The distance of a node: the fewest links that lead from it down to the destination. None if the node is cut
        off.

        Raises NoSuchNode if there is no such node.
        """
        distance = self._number_of(questions.revroute_distance, node)
        return None if distance == _calls.CUT_OFF else distance

    def save(self) -> Optional[str]:
        """A line that makes this network again in another session: a request `net`, with the links as they point now.
        None before the first network.

        The other session has the same nodes, links, directions, destination and next hops. Its `report`, `counts` and
        `changed` are those of a new network, in which only nodes that are cut off turn.

        >>> with Session() as session, Session() as other:
        ...     session.answer('["net",4,0,[[0,1],[1,2]]]')
        ...     session.save()
        ...     other.answer(session.save())
        ...     other.links() == session.links(), other.hops() == session.hops()
        'turned 3 cut 1'
        '["net",4,0,[[1,0],[2,1]]]'
        'turned 0 cut 1'
        (True, True)
        """
        with self._lock:
            size, dest, links = self.size, self.dest, self.links()
        return None if size is None else json.dumps(["net", size.nodes, dest, links], separators=(",", ":"))

    @property
    def report(self) -> Optional[Report]:
        """The report of the last round. None before the first network.

        >>> with Session() as session:
        ...     session.answer('["net",4,0,[[0,1],[1,2]]]')
        ...     session.report, session.size, session.dest
        'turned 3 cut 1'
        (Report(turned=3, cut_off=1), Size(nodes=4, links=2), 0)
        """
        found = _calls.Round()
        return Report(found.turned, found.cut_off) if self._told(questions.revroute_report, found) else None

    @property
    def dest(self) -> Optional[int]:
        """The destination. None before the first network."""
        with self._lock:
            self._begin_call()
            try:
                found = int(questions.revroute_dest(self._at))
            finally:
                self._caller = None
        return None if found == _calls.NO_HOP else found

    @property
    def size(self) -> Optional[Size]:
        """The number of nodes and of links. None before the first network."""
        nodes, links = ctypes.c_uint32(), ctypes.c_size_t()
        return Size(nodes.value, links.value) if self._told(questions.revroute_size, nodes, links) else None

    def _told(self, question: Any, *numbers: Any) -> bool:
        """Whether there is a network. If there is, the question writes these numbers."""
        places = [*map(ctypes.byref, numbers)]
        with self._lock:
            self._begin_call()
            try:
                return bool(question(self._at, *places) == _calls.ANSWERED)
            finally:
                self._caller = None

    def _filled(self, question: Any, item: Any, *words: int) -> list[Any]:
        """All numbers or links that a question writes."""
        with self._lock:
            self._begin_call()
            try:
                return self._places(item, lambda *places: question(self._at, *words, *places))
            finally:
                self._caller = None

    def _places(self, item: Any, fill: Callable[..., int], room: int = _FEW) -> list[Any]:
        """All items that `fill` writes, with as much room as it asks for. The caller must have the session."""
        while True:
            values = (item * room)()
            status = fill(values, room, self._count_at)
            if status == _calls.NO_MEMORY:
                raise MemoryError
            if status == _calls.NO_TABLE:
                raise ValueError("the table is one of a network that another thread has replaced")
            if status != _calls.TOO_SHORT:
                found: list[Any] = values[: self._count.value] if status == _calls.ANSWERED else []
                return found
            room = self._count.value

    def _fill(self, places: Any, room: int) -> int:
        """Writes all next hops into the caller's array, and returns their number."""
        with self._lock:
            self._begin_call()
            try:
                status = questions.revroute_hops(self._at, places, room, self._count_at)
                if status == _calls.TOO_SHORT:
                    raise ValueError(f"there is room for {room} of {self._count.value} hops")
                return self._count.value
            finally:
                self._caller = None

    def _changed(self) -> list[tuple[int, int]]:
        """The rerouted nodes, with their next hops."""
        return self._with_hops(questions.revroute_changed, _FEW)

    def _pushes(self, table: bytes, count: int) -> list[tuple[int, int]]:
        """The nodes to push for a table of `count` hops, with their next hops."""
        return self._with_hops(questions.revroute_pushes, count, table, count)

    def _all_ways(self) -> list[list[int]]:
        """The ways of each node, in the order of the nodes."""
        with self._lock:
            self._begin_call()
            try:
                nodes, links = self._extent()
                starts = (ctypes.c_size_t * (nodes + 1))()
                ways = self._places(ctypes.c_uint32, lambda *places: questions.revroute_all_ways(self._at, starts, nodes + 1, *places), links)
                return [ways[begin:end] for begin, end in zip(starts[:nodes], starts[1:])]
            finally:
                self._caller = None

    def _phase(self, question: Any, starts: bytes, ways: bytes) -> list[tuple[int, list[int]]]:
        """The pushes of a phase for a table of ways: nodes with the ways that they get."""
        words = starts, len(starts) // 8, ways, len(ways) // 4
        with self._lock:
            self._begin_call()
            try:
                nodes, links = self._extent()
                numbers = self._places(ctypes.c_uint32, lambda *places: question(self._at, *words, *places), 2 * nodes + links)
            finally:
                self._caller = None
        return _pushes_of(numbers)

    def _pushed(self, question: Any) -> list[tuple[int, list[int]]]:
        """The pushes of a phase that the session keeps."""
        with self._lock:
            self._begin_call()
            try:
                numbers = self._places(ctypes.c_uint32, lambda *places: question(self._at, *places))
            finally:
                self._caller = None
        return _pushes_of(numbers)

    def _extent(self) -> tuple[int, int]:
        """The number of nodes and of links, or zeros before the first network. The caller must have the session."""
        nodes, links = ctypes.c_uint32(), ctypes.c_size_t()
        questions.revroute_size(self._at, ctypes.byref(nodes), ctypes.byref(links))
        return nodes.value, links.value

    def _with_hops(self, question: Any, room: int, *words: Any) -> list[tuple[int, int]]:
        """The nodes that a question writes, with their next hops at that moment. A node that is gone has CUT_OFF."""
        with self._lock:
            self._begin_call()
            try:
                nodes = self._places(ctypes.c_uint32, lambda *places: question(self._at, *words, *places), room)
                return [(node, self._hop_or_none(node)) for node in nodes]
            finally:
                self._caller = None

    def _hop_or_none(self, node: int) -> int:
        hop: int = _calls.next_hop(self._at, node)
        return _calls.CUT_OFF if hop == _calls.NO_SUCH_NODE else hop

    def close(self) -> None:
        """Ends the session, and frees its memory. A second call does nothing."""
        with self._lock:
            if self._caller == get_ident():
                self._refuse()
            self._is_closed = True
            self._address = self._live.value = _ELSEWHERE
            self._end()

    def _refuse(self) -> NoReturn:
        if self._caller == get_ident():
            raise RuntimeError(f"the {self._kind} is in a call that this one has interrupted")
        raise RuntimeError(f"another thread was in a call on the {self._kind} as this process was forked")

    def _inherit(self) -> None:
        """Makes the session usable in the child of a fork, or unusable if another thread was in a call on it."""
        self._lock = RLock()
        if self._caller not in (None, get_ident()):
            self._caller = _GONE
            self._address = self._live.value = _ELSEWHERE
            self._end.detach()

    def __enter__(self) -> Session:
        return self

    def __exit__(self, *_: object) -> None:
        self.close()

    def __reduce__(self) -> NoReturn:
        raise TypeError("a session can neither be copied nor pickled")


def _inherit_sessions() -> None:
    for session in list(_sessions.values()):
        session._inherit()


os.register_at_fork(after_in_child=_inherit_sessions)


def _bytes_of(line: Union[str, bytes, bytearray, memoryview]) -> bytes:
    """The bytes of a line. It ignores methods that a caller's subclass overrides."""
    if isinstance(line, str):
        return str.encode(line)
    try:
        return bytes(memoryview(line))
    except TypeError:
        raise TypeError(f"a line is a str, or bytes, a bytearray or another buffer, and no {type(line).__name__}") from None


def version() -> str:
    """The version of the library."""
    length, room = ctypes.c_size_t(), 64
    while True:
        text = ctypes.create_string_buffer(room)
        if library.revroute_version(text, room, ctypes.byref(length)) == _calls.ANSWERED:
            return text.raw[: length.value].decode("ascii")
        room = length.value
