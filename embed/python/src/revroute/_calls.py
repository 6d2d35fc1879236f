"""The calls of `embed/c/revroute.h`, as C declares them.

`library` releases the interpreter's lock while a call runs. `questions` keeps it, since its calls are short.
"""

from __future__ import annotations

import ctypes
from pathlib import Path
from typing import Any

# The status NULL_ARRAY, 11, is never returned: no argument here is null.
ANSWERED, BLANK, TOO_SHORT, NO_MEMORY, NO_NETWORK, NO_ROUTE, REFUSED, NO_WALK, BEGUN, TOO_LONG, NO_TABLE = range(11)
UNWRITTEN, NO_MESSAGE, LINK_DOWN, OUTDATED, LATER_START = range(12, 17)
HERE, CUT_OFF, NO_SUCH_NODE, NO_HOP = range(0xFFFFFFFF, 0xFFFFFFFB, -1)
CUT, ADD, JOIN = range(3)
FULL, TOP = range(2)
UNKNOWN_EDIT, RANGE, SELF_LINK, TWICE, CLOSED_WALK, NO_LINK, TOO_MANY = 2, *range(4, 10)


class Handle(ctypes.Structure):
    """The handle of a session. Only the library reads it, and it is never copied."""

    _fields_ = [("at", ctypes.c_void_p)]


class ReaderHandle(ctypes.Structure):
    """The handle of a reader. Only the library reads it, and it is never copied."""

    _fields_ = [("at", ctypes.c_void_p)]


class WayReaderHandle(ctypes.Structure):
    """The handle of a reader of ways. Only the library reads it, and it is never copied."""

    _fields_ = [("at", ctypes.c_void_p)]


class NodeHandle(ctypes.Structure):
    """The handle of a node. Only the library reads it, and it is never copied."""

    _fields_ = [("at", ctypes.c_void_p)]


class Policy(ctypes.Structure):
    """When a node changes its height."""

    _fields_ = [("rise", ctypes.c_uint32), ("ceiling", ctypes.c_uint32), ("lower", ctypes.c_uint32), ("wait", ctypes.c_uint32)]


class Link(ctypes.Structure):
    """A link."""

    _fields_ = [("tail", ctypes.c_uint32), ("head", ctypes.c_uint32)]


class Round(ctypes.Structure):
    """The report of a round."""

    _fields_ = [("turned", ctypes.c_uint64), ("cut_off", ctypes.c_uint64)]


class Refusal(ctypes.Structure):
    """Why a call is refused, with the nodes that show it, and the index of the edit."""

    _fields_ = [("number", ctypes.c_uint32), ("u", ctypes.c_uint32), ("v", ctypes.c_uint32), ("at", ctypes.c_size_t)]


_number, _wide, _size = ctypes.c_uint32, ctypes.c_uint64, ctypes.c_size_t
# Links, edits, hops and tables of ways are passed as bytes. The two numbers of a round are passed by their address.
_given, _round, _handle = ctypes.c_char_p, ctypes.c_void_p, ctypes.POINTER(Handle)
_reader, _way_reader, _node = ctypes.POINTER(ReaderHandle), ctypes.POINTER(WayReaderHandle), ctypes.POINTER(NodeHandle)
_text, _length, _numbers = ctypes.POINTER(ctypes.c_char), ctypes.POINTER(_size), ctypes.POINTER(_number)
_ended = [_round, ctypes.POINTER(Refusal)]
_WORDS: dict[str, list[Any]] = {
    "answer": [_handle, ctypes.c_char_p, _size, _text, _size, _length],
    "take": [_handle, ctypes.c_void_p, _size, _text, _size, _length, _length],
    "finish": [_handle, _text, _size, _length],
    "open": [_handle, _number, _number, _given, _size, *_ended],
    "change": [_handle, _given, _size, *_ended],
    "change_with_ways": [_handle, _given, _size, *_ended],
    "move_dest": [_handle, _number, *_ended],
    "closed_walk": [_handle, _given, _size, _numbers, _size, _length],
    "closed_walk_of": [_number, _given, _size, _numbers, _size, _length],
    "next_hop": [_handle, _number],
    "hops": [_handle, _numbers, _size, _length],
    "changed": [_handle, _numbers, _size, _length],
    "pushes": [_handle, _given, _size, _numbers, _size, _length],
    "push_order": [_given, _size, _given, _size, _numbers, _size, _length, ctypes.POINTER(Refusal)],
    "counts": [_handle, ctypes.POINTER(_wide), _size, _length],
    "links": [_handle, ctypes.POINTER(Link), _size, _length],
    "walk": [_handle, _number, _numbers, _size, _length],
    "ways": [_handle, _number, _numbers, _size, _length],
    "distance": [_handle, _number],
    "nearest": [_handle, _number, _numbers, _size, _length],
    "all_ways": [_handle, _length, _size, _numbers, _size, _length],
    "shrink": [_handle, _given, _size, _given, _size, _numbers, _size, _length],
    "grow": [_handle, _given, _size, _given, _size, _numbers, _size, _length],
    "change_shrink": [_handle, _numbers, _size, _length],
    "change_grow": [_handle, _numbers, _size, _length],
    "report": [_handle, ctypes.POINTER(Round)],
    "dest": [_handle],
    "size": [_handle, _numbers, _length],
    "reader_open": [_handle, _reader],
    "reader_copy": [_reader, _reader],
    "reader_learn": [_reader, _reader],
    "reader_next_hop": [_reader, _number],
    "reader_walk": [_reader, _number, _numbers, _size, _length],
    "reader_close": [_reader],
    "way_reader_open": [_handle, _way_reader],
    "way_reader_copy": [_way_reader, _way_reader],
    "way_reader_learn": [_way_reader, _way_reader],
    "way_reader_ways": [_way_reader, _number, _numbers, _size, _length],
    "way_reader_way": [_way_reader, _number, _number],
    "way_reader_close": [_way_reader],
    "node_open": [_node, _number, _wide, _wide, ctypes.POINTER(Policy)],
    "node_open_gateway": [_node, _number, _wide],
    "node_know": [_node, _number, _number],
    "node_link_up": [_node, _number],
    "node_set_cost": [_node, _number, _number],
    "node_link_down": [_node, _number],
    "node_tick": [_node, _number],
    "node_act": [_node],
    "node_hear": [_node, ctypes.c_char_p, _size],
    "node_written": [_node, _wide],
    "node_say": [_node, _number, _text, _size, _length],
    "node_has_news": [_node, _number, _numbers],
    "node_ways": [_node, _numbers, _size, _length, ctypes.POINTER(_wide)],
    "node_gates": [_node, _numbers, _size, _length, ctypes.POINTER(_wide)],
    "node_distance": [_node, _numbers],
    "node_height": [_node, ctypes.POINTER(_wide)],
    "node_lets_in": [_node, _number],
    "node_sends_to": [_node, _number],
    "node_close": [_node],
    "version": [_text, _size, _length],
    "close": [_handle],
}


def load(kind: Any = ctypes.CDLL) -> Any:
    """The library, with the types of its calls."""
    path = Path(__file__).with_name("librevroute.so")
    try:
        library = kind(str(path))
    except OSError as error:
        raise ImportError(f"{error}: embed/build makes a wheel that carries the library") from error
    for name, words in _WORDS.items():
        call = getattr(library, f"revroute_{name}")
        call.argtypes, call.restype = words, _number
    for name in ("close", "reader_close", "way_reader_close", "node_close"):
        getattr(library, f"revroute_{name}").restype = None
    return library


library, questions = load(), load(ctypes.PyDLL)
# These four have no types, since ctypes takes longer to check them than the calls take. `next_hop`, `reader_next_hop`
# and `way_reader_way` must get a c_void_p and a number below the number of nodes, and the last one a choice below 2^32.
# `change` must get a handle, bytes, a c_size_t, a c_void_p and a refusal.
next_hop, change = load(ctypes.PyDLL).revroute_next_hop, load().revroute_change
reader_next_hop, way_reader_way = load(ctypes.PyDLL).revroute_reader_next_hop, load(ctypes.PyDLL).revroute_way_reader_way
next_hop.argtypes = change.argtypes = reader_next_hop.argtypes = way_reader_way.argtypes = None
