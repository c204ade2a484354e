"""The versioned cache of one node of TxCache, over its library for C.

A Node keeps results of calls, each with the stamps of your database's history on which it holds. Give it each event with the tags
of what it changed, and it closes the results that depend on them. `lookup` answers with a result that holds at one of the
stamps asked for, or with None.

    with Node(1024, 64) as node:
        key = Key(1, 7)
        node.insert(key, Reach(0, 0), [Tag.id(1, 7)], b"ink")
        node.lookup(key, 0, 9).value        # b"ink"
        node.event(1, [Tag.id(1, 7)])       # 1: it is closed
        node.lookup(key, 1, 9)              # None
"""

import ctypes as c
from typing import NamedTuple, Optional

from . import _library

LAST_FUNCTION = 63
MAX_ARGS = 4
LAST_TABLE = 15
LAST_STAMP = 4_294_967_294
MAX_CAPACITY = 1_048_576  # entries of a node
MAX_RECENT = 4096  # events whose tags it keeps
MAX_VALUE_LEN = 1_048_576
MAX_ASKS = 4096  # of the functions of an outermost call, all together
FIRST_ROOM = 1024  # a longer value is asked for twice

_DONE, _MISS, _KEPT, _NO_ROOM, _CLOSED, _ALREADY_OPEN, _BAD_ARGUMENT, _EMPTY_RANGE, _BAD_REACH, _OUT_OF_ORDER, _VALUE_TOO_LONG, _NO_MEMORY = range(12)


class Refused(Exception):
    """A call was refused, and the node is as it was."""


class OutOfOrder(Refused):
    """The event is not the one after `processed`, the stamp of the last that was taken."""

    def __init__(self, processed):
        super().__init__(f"the event is not the one after {processed}")
        self.processed = processed


_REFUSALS = {
    _CLOSED: "the node is closed",
    _BAD_ARGUMENT: f"a number is above its limit: a capacity is from 1 to {MAX_CAPACITY:,}, recent events from 1 to {MAX_RECENT:,}, a stamp at most {LAST_STAMP:,}",
    _EMPTY_RANGE: "the range of stamps ends before it begins",
    _BAD_REACH: "the last known stamp of the entry is below its first",
    _VALUE_TOO_LONG: f"the value is longer than {MAX_VALUE_LEN:,} bytes",
}


def _refuse(number, processed=0):
    if number == _OUT_OF_ORDER:
        raise OutOfOrder(processed)
    if number == _NO_MEMORY:
        raise MemoryError
    raise Refused(_REFUSALS[number])


class _Handle(c.Structure):
    _fields_ = [("slot", c.c_void_p), ("is_open", c.c_bool)]


class _Key(c.Structure):
    _fields_ = [("function", c.c_uint8), ("count", c.c_uint8), ("args", c.c_uint32 * MAX_ARGS)]


class _Tag(c.Structure):
    _fields_ = [("table", c.c_uint8), ("kind", c.c_uint8), ("number", c.c_uint32)]


class _Reach(c.Structure):
    _fields_ = [("lo", c.c_uint32), ("known", c.c_uint32), ("is_still", c.c_bool)]


class _Stored(c.Structure):
    _fields_ = [("reach", _Reach), ("has_evicted", c.c_bool), ("evicted", _Key), ("evicted_lo", c.c_uint32)]


class _Counts(c.Structure):
    _fields_ = [(name, c.c_uint64) for name in ("lookups", "hits", "stored", "kept", "evicted")]


class _Totals(c.Structure):
    _fields_ = [("entries", c.c_size_t), ("bytes", c.c_size_t), ("trimmed", c.c_uint64)]


def _declared(found):
    """The library, with the types of its functions of a node."""
    node, size = c.POINTER(_Handle), c.c_size_t
    parameters = {
        "open": [node, size, size],
        "close": [node],
        "lookup": [node, c.POINTER(_Key), c.c_uint32, c.c_uint32, c.POINTER(_Reach), c.c_char_p, size, c.POINTER(size)],
        "insert": [node, c.POINTER(_Key), c.POINTER(_Reach), c.POINTER(_Tag), size, c.c_char_p, size, c.POINTER(_Stored)],
        "event": [node, c.c_uint32, c.POINTER(_Tag), size, c.POINTER(size), c.POINTER(c.c_uint32)],
        "sweep": [node, c.c_uint32, c.POINTER(size)],
        "trim": [node, size, c.POINTER(size)],
        "totals": [node, c.POINTER(_Totals)],
        "count": [node, c.c_uint8, c.POINTER(_Counts)],
    }
    for name, kinds in parameters.items():
        function = getattr(found, f"txc_node_{name}")
        function.argtypes, function.restype = kinds, c.c_uint32
    return found


_TXC = _declared(_library.load())


def _number(value, most):
    """Returns the number, which ctypes would cut to its type without a word. Fails with Refused if it is above a limit."""
    if not 0 <= value <= most:
        raise Refused(f"{value} is not from 0 to {most:,}")
    return value


class Key:
    """A call: a function's number, and up to four arguments."""

    def __init__(self, function, *args):
        if len(args) > MAX_ARGS:
            raise Refused(f"a call has at most {MAX_ARGS} arguments, and was given {len(args)}")
        for it in args:
            _number(it, 2**32 - 1)
        self.function, self.args = _number(function, LAST_FUNCTION), args
        self._key = _Key(function, len(args), args)

    def __eq__(self, other):
        return isinstance(other, Key) and (self.function, self.args) == (other.function, other.args)

    def __hash__(self):
        return hash((self.function, self.args))

    def __repr__(self):
        return f"f{self.function}({','.join(map(str, self.args))})"


class Tag(NamedTuple):
    """Rows that a result depends on, or that an event changed."""

    table: int
    kind: int
    number: int

    @staticmethod
    def all(table):
        """Every row of the table."""
        return Tag(_number(table, LAST_TABLE), 0, 0)

    @staticmethod
    def id(table, number):
        """The row with that id."""
        return Tag(_number(table, LAST_TABLE), 1, _number(number, 2**32 - 1))

    @staticmethod
    def group(table, number):
        """The rows of that group."""
        return Tag(_number(table, LAST_TABLE), 2, _number(number, 2**32 - 1))


class Reach(NamedTuple):
    """The stamps from `lo` to `known` on which a result is known to hold, and whether it may hold on, until an event matches one of
    its tags."""

    lo: int
    known: int
    is_still: bool = True


class Hit(NamedTuple):
    reach: Reach
    value: bytes


class Stored(NamedTuple):
    """The reach after the events that a result had missed; and the entry that was dropped for it, by its key and first stamp."""

    reach: Reach
    evicted: Optional[tuple]


class Counts(NamedTuple):
    """Counts of the answers about the calls of one function."""

    lookups: int
    hits: int
    stored: int
    kept: int
    evicted: int


class Totals(NamedTuple):
    """The number of entries of a node, the bytes of their values in all, and the number of entries that trims have dropped."""

    entries: int
    bytes: int
    trimmed: int


def _tags(tags):
    return (_Tag * len(tags))(*tags), len(tags)


class Node:
    """A node for at most `capacity` entries, that keeps the tags of the last `recent` events. Threads share one by a lock of
    yours: ctypes lets other threads run during a call."""

    def __init__(self, capacity, recent):
        self._handle = _Handle(None, False)
        number = _TXC.txc_node_open(self._handle, _number(capacity, 2**64 - 1), _number(recent, 2**64 - 1))
        if number != _DONE:
            _refuse(number)
        self._buffer = c.create_string_buffer(FIRST_ROOM)

    def close(self):
        """Frees the node. A node that is closed stays so."""
        _TXC.txc_node_close(self._handle)

    def __enter__(self):
        return self

    def __exit__(self, *_):
        self.close()

    def __del__(self):
        if hasattr(self, "_handle"):
            self.close()

    def lookup(self, key, lo, hi):
        """A result of the key that holds at some stamp from lo to hi, both included; or None. A value of more than 1,024 bytes is looked up
        twice, and counts so."""
        reach, length, buffer = _Reach(), c.c_size_t(), self._buffer
        words = self._handle, key._key, _number(lo, 2**32 - 1), _number(hi, 2**32 - 1), reach
        number = _TXC.txc_node_lookup(*words, buffer, len(buffer), length)
        if number == _NO_ROOM:
            buffer = c.create_string_buffer(length.value)
            number = _TXC.txc_node_lookup(*words, buffer, len(buffer), length)
        if number == _MISS:
            return None
        if number != _DONE:
            _refuse(number)
        return Hit(Reach(reach.lo, reach.known, reach.is_still), buffer[:length.value])

    def insert(self, key, reach, tags, value):
        """Inserts a result that was computed from the states of its reach, and depends on the tags. None where a result of the key
        that begins there ends no earlier, and stays."""
        stored, given = _Stored(), _Reach(_number(reach.lo, 2**32 - 1), _number(reach.known, 2**32 - 1), reach.is_still)
        number = _TXC.txc_node_insert(self._handle, key._key, given, *_tags(tags), bytes(value), len(value), stored)
        if number == _KEPT:
            return None
        if number != _DONE:
            _refuse(number)
        evicted = stored.evicted
        return Stored(Reach(stored.reach.lo, stored.reach.known, stored.reach.is_still),
                      (Key(evicted.function, *evicted.args[:evicted.count]), stored.evicted_lo) if stored.has_evicted else None)

    def event(self, stamp, tags):
        """Takes the event that made the state `stamp`, with the tags of what it changed, and counts the results that it closed."""
        closed, processed = c.c_size_t(), c.c_uint32()
        number = _TXC.txc_node_event(self._handle, _number(stamp, 2**32 - 1), *_tags(tags), closed, processed)
        if number != _DONE:
            _refuse(number, processed.value)
        return closed.value

    def sweep(self, horizon):
        """Drops the results that hold at no stamp from `horizon` on, and counts them."""
        swept = c.c_size_t()
        number = _TXC.txc_node_sweep(self._handle, _number(horizon, 2**32 - 1), swept)
        if number != _DONE:
            _refuse(number)
        return swept.value

    def trim(self, most):
        """Keeps the longest prefix of the results, the most recently used first, whose values have at most `most` bytes in all. Returns how many it
        dropped. Call it after insertions, and the node stays within a budget of bytes."""
        dropped = c.c_size_t()
        number = _TXC.txc_node_trim(self._handle, _number(most, 2**64 - 1), dropped)
        if number != _DONE:
            _refuse(number)
        return dropped.value

    def totals(self):
        """Returns what the node holds in all."""
        totals = _Totals()
        number = _TXC.txc_node_totals(self._handle, totals)
        if number != _DONE:
            _refuse(number)
        return Totals(totals.entries, totals.bytes, totals.trimmed)

    def counts(self, function):
        """The counts of a function."""
        counts = _Counts()
        number = _TXC.txc_node_count(self._handle, _number(function, 255), counts)
        if number != _DONE:
            _refuse(number)
        return Counts(*(getattr(counts, name) for name in Counts._fields))
