"""The site of a cache: its database is a table of versions, a row a place, and its transactions are the pages. All that the cache asks of the library is
here. Its rows are in the library's plain store, since they are written a hundred times as often as one is asked for, and by its id alone.

Threads share it, and no lock of ours is held: a call keeps the interpreter's own, so that it is alone, and gets its answer in a room that no other call has
meanwhile. (A lock would be held by a thread that waits for the interpreter's, behind all others, and for long where the machine is busy.)"""

import ctypes as c
import struct
import time
from types import SimpleNamespace
from typing import Any, Callable, Iterable, List, NamedTuple, Optional, Sequence, Tuple

from . import _calls
from ._calls import ANSWERED, COMPUTE, DONE, MISS, NO_MEMORY, NO_ROOM
from .errors import TxCacheError
from .node import MAX_ASKS, MAX_VALUE_LEN, _Handle, _Key, _Totals

MAX_ENTRIES = 65_536  # of the node of a cache
MAX_PINS = 1024
PLACES, MAX_PLACES = 1_048_576, 16_777_216  # by default, and at most
UNCHANGING_PLACE = MAX_PLACES  # of no tag
_TABLES = 16  # the version of a place is a row of one of so many tables: the library has no more
_ROWS_OF_A_TABLE = 15  # that an event names, beside their one group: with one more it would name the whole table
_LONGEST_EVENT, _SHORTEST_EVENT = _ROWS_OF_A_TABLE * _TABLES, 8  # rows
_LONG, _SHORT = 0.004, 0.001  # seconds that an event takes: beyond, the next is of half as many rows; below, of twice as many
_EVER = 2**64 - 1  # a pin is never renewed: the present of the table of versions may be the middle of a step
_QUICK = "call", "commit", "member_at", "read_stamp", "query_rows", "put"
_TXC = SimpleNamespace(**_calls.one_at_a_time({**vars(_calls.declared(long_ones=())), **{f"quick_{name}": _calls.undeclared(name) for name in _QUICK}}))
_CALL, _COMMIT, _MEMBER_AT, _READ_STAMP, _QUERY_ROWS, _PUT = (getattr(_TXC, f"quick_{name}") for name in _QUICK)
_AS_KEY = struct.Struct("=BB2x16s").pack  # as the library has a key of four arguments
_FIRST, _NO_GROUP = c.c_size_t(0), c.c_uint32(0)
_FIRST_ROOM = 4096  # bytes of the buffer for values, which becomes as long as the longest that was a hit
_TRIMMED = 256  # entries, about, that are dropped at once


class Refused(TxCacheError):
    """The library did not do what was asked, by the number that it returned."""

    def __init__(self, call: str, number: int):
        super().__init__(f"{call} returned {number}")
        self.number = number


class Member(NamedTuple):
    """A pin at which a page may still be serialised."""

    stamp: int
    moment: int


class Totals(NamedTuple):
    """The number of results, the bytes of their values in all, and the number of results that were dropped for the budget."""

    entries: int
    bytes: int
    trimmed: int


class CallKey:
    """A call, as it is asked for; of one whose arguments stand for themselves these. `at` is where the library reads it."""

    __slots__ = "digest", "level", "args", "at"

    def __init__(self, level: int, digest: bytes, args: Optional[Tuple[Any, ...]]):
        self.digest, self.level, self.args = digest, level, args
        self.at = c.byref(_Key.from_buffer_copy(_AS_KEY(level, 4, digest)))


def _do(call: Callable[..., int], *words) -> None:
    number = call(*words)
    if number != DONE:
        raise _error(call, number)


def _error(call: Callable[..., int], number: int) -> Exception:
    return refusal(getattr(call, "__name__", "the library"), number)


def refusal(name: str, number: int) -> Exception:
    """Returns what is raised where a call of the library returned this number."""
    return MemoryError(name) if number == NO_MEMORY else Refused(name, number)


class _Room:
    """Where the library writes what it answers to one call. `byref` once, since it takes as long as a short call."""

    __slots__ = "buffer", "length", "size", "stamp", "moment", "receipt", "query", "size_at", "stamp_at", "moment_at", "receipt_at", "query_at"

    def __init__(self) -> None:
        self.buffer, self.length = c.create_string_buffer(_FIRST_ROOM), c.c_size_t(_FIRST_ROOM)
        self.size, self.stamp, self.moment, self.receipt, self.query = c.c_size_t(), c.c_uint32(), c.c_uint64(), _calls.Receipt(), _calls.Query(0, 1, 0, 0)
        self.size_at, self.stamp_at, self.moment_at, self.receipt_at, self.query_at = map(c.byref, (self.size, self.stamp, self.moment, self.receipt, self.query))


class Versions:
    """A site with a node of `capacity` entries. `longest` bounds the bytes of a value."""

    longest = MAX_VALUE_LEN
    hit: Optional[Callable[..., Optional[bytes]]] = None  # the value of an outermost call whose key is known, if it is cached

    def __init__(self, capacity: int, recent: int = 4096):
        self._site, self._rows = _Handle(None, False), 4 * _TABLES
        self._at = c.byref(self._site)
        self._free: List[_Room] = []  # a room is taken from here for a call, and put back after it; one whose call failed is dropped
        _do(_TXC.site_open, self._site, _calls.Settings(c.sizeof(_calls.Settings), 0, capacity, recent, _EVER, 0, _calls.STORE_PLAIN))

    def close(self) -> None:
        self.trim(0)  # in steps
        _TXC.site_close(self._site)

    def _room(self) -> _Room:
        try:
            return self._free.pop()
        except IndexError:
            return _Room()

    # ---- steps

    def touch(self, places: Sequence[int], version: int) -> None:
        """Gives these places a version. Other threads run between its events; no page reads its middle, since none reads the present. How long an event takes
        depends on how many results it closes, so that its rows become fewer or more."""
        body = str(version).encode()
        for layer in _layers(places):
            at = 0
            while at < len(layer):
                some = layer[at:at + self._rows]
                took = self._put(some, body)
                at += len(some)
                if took > _LONG:
                    self._rows = max(_SHORTEST_EVENT, self._rows // 2)
                elif took < _SHORT and len(some) == self._rows:
                    self._rows = min(_LONGEST_EVENT, self._rows * 2)

    def _put(self, places: Sequence[int], body: bytes) -> float:
        """Returns the seconds of the event itself, which no other thread interrupts."""
        site, txn, stamp, table, row = self._at, c.c_uint64(), c.c_uint32(), c.c_uint8(), c.c_uint32()
        words = _NO_GROUP, c.c_char_p(body), c.c_size_t(len(body))
        _do(_TXC.begin_write, site, txn)
        try:
            for place in places:
                table.value, row.value = place % _TABLES, place // _TABLES
                number = _PUT(site, txn, table, row, *words)
                if number:
                    raise _error(_TXC.put, number)
            begun = time.thread_time()
            _do(_TXC.commit_write, site, txn, stamp)
            return time.thread_time() - begun
        except BaseException:
            _TXC.abort(site, txn)
            raise

    def pin(self, moment: int) -> int:
        """Pins the newest state, as of this moment. Returns its stamp."""
        stamp = c.c_uint32()
        _do(_TXC.pin, self._site, moment, stamp)
        return stamp.value

    def keep(self, before: int) -> int:
        """Lets go what no page can read any more once the pins before a moment are retired. Returns the stamp below which nothing is read."""
        kept = _calls.Kept()
        _do(_TXC.keep, self._site, before, 0, kept)
        return kept.horizon

    def totals(self) -> Totals:
        """Returns what is cached in all."""
        totals = _Totals()
        _do(_TXC.site_totals, self._site, totals)
        return Totals(totals.entries, totals.bytes, totals.trimmed)

    def trim(self, most: int) -> None:
        """Drops the results that were used longest ago, until the values of the others have at most `most` bytes in all. Other threads run between its
        steps."""
        dropped, found = c.c_size_t(), self.totals()
        step = max(1, found.bytes * _TRIMMED // max(1, found.entries))
        for left in [*range(found.bytes - step, most, -step), most] if found.bytes > most else ():
            _do(_TXC.site_trim, self._site, left, dropped)

    def is_read(self) -> bool:
        """Returns True if a page is open."""
        count = c.c_size_t()
        _do(_TXC.open_transactions, self._site, count)
        return count.value > 0

    # ---- pages

    def begin(self, now: int, staleness: int, at_least: int) -> Optional[c.c_uint64]:
        """Begins a page at the pins of these bounds. Returns its number; None if there is no such pin, and then no page is begun."""
        txn, room = c.c_uint64(), self._room()
        _do(_TXC.begin, self._at, now, staleness, at_least, txn)
        number = _MEMBER_AT(self._at, txn, _FIRST, room.stamp_at, room.moment_at)
        self._free.append(room)
        if number == DONE:
            return txn
        _TXC.abort(self._at, txn)
        if number != MISS:
            raise _error(_TXC.member_at, number)
        return None

    def member(self, txn: c.c_uint64, at: int) -> Optional[Member]:
        """Returns a member, counted from the newest; None past the last."""
        room = self._room()
        number, found = _TXC.member_at(self._at, txn, at, room.stamp_at, room.moment_at), Member(room.stamp.value, room.moment.value)
        self._free.append(room)
        if number == DONE:
            return found
        if number != MISS:
            raise _error(_TXC.member_at, number)
        return None

    def read_stamp(self, txn: c.c_uint64) -> Optional[int]:
        """Returns the stamp at which the page's next query runs; None where it would pin the present."""
        room = self._room()
        number, stamp = _READ_STAMP(self._at, txn, room.stamp_at), room.stamp.value
        self._free.append(room)
        if number == DONE:
            return stamp
        if number != MISS:
            raise _error(_TXC.read_stamp, number)
        return None

    @staticmethod
    def key(level: int, digest: bytes, args: Optional[Tuple[Any, ...]] = None) -> CallKey:
        """Returns the call of a function's level and a digest."""
        return CallKey(level, digest, args)

    def call(self, txn: c.c_uint64, key: CallKey) -> Optional[bytes]:
        """Returns the value of a call; None where its function is to be computed."""
        try:  # by hand, since it is most of what a hit does
            room = self._free.pop()
        except IndexError:
            room = _Room()
        number = _CALL(self._at, txn, key.at, room.buffer, room.length, room.size_at)
        if number == NO_ROOM:
            number = self._told_once_more(txn, room)
        if number == DONE or number == ANSWERED:
            data = room.buffer[:room.size.value]
            self._free.append(room)
            return data
        self._free.append(room)
        if number == COMPUTE:
            return None
        raise _error(_TXC.call, number)

    def _told_once_more(self, txn: c.c_uint64, room: _Room) -> int:
        """Has the value that was too long for the buffer be told again, with a longer one."""
        room.length.value = min(MAX_VALUE_LEN, 2 * room.size.value)
        room.buffer = c.create_string_buffer(room.length.value)
        return _TXC.answer(self._at, txn, room.buffer, room.length, room.size)

    def ask(self, txn: c.c_uint64, place: int) -> None:
        """Asks for the version of a place: what the function that the page computes gives depends on it from then on."""
        room = self._room()
        query = room.query
        query.table, query.first = place % _TABLES, place // _TABLES
        number = _QUERY_ROWS(self._at, txn, room.query_at, room.size_at)
        self._free.append(room)
        if number != ANSWERED:
            raise _error(_TXC.query_rows, number)

    def finish(self, txn: c.c_uint64, data: bytes) -> None:
        """Says what the function that the page computes gives. The library does not return it: there is no room."""
        room = self._room()
        number = _TXC.finish(self._at, txn, data, len(data), None, 0, room.size_at)
        self._free.append(room)
        if number not in (DONE, ANSWERED, NO_ROOM):
            raise _error(_TXC.finish, number)

    def give_up(self, txn: c.c_uint64) -> None:
        """Gives up the open call, with the calls around it, if there is one."""
        _TXC.give_up(self._site, txn)

    def commit(self, txn: c.c_uint64) -> Tuple[int, Optional[Member]]:
        """Ends a page. Returns how many answers it had, and the pin at which all are right."""
        room = self._room()
        _do(_COMMIT, self._at, txn, room.receipt_at)
        receipt = room.receipt
        found = receipt.answers, Member(receipt.stamp, receipt.moment) if receipt.has_pin else None
        self._free.append(room)
        return found

    def abort(self, txn: c.c_uint64) -> None:
        _TXC.abort(self._site, txn)


def _layers(places: Sequence[int]) -> List[List[int]]:
    """Deals places out to lists, each with at most `_ROWS_OF_A_TABLE` of each table."""
    layers: List[List[int]] = []
    counts = [0] * _TABLES
    for place in places:
        at = counts[place % _TABLES] // _ROWS_OF_A_TABLE
        counts[place % _TABLES] += 1
        if at == len(layers):
            layers.append([])
        layers[at].append(place)
    return layers


class Places:
    """The places of tags, by a hash: `count` of them, and two tags may share one, so that what depends on either is computed again for both. Its length
    is how many have changed, and so have a row in the table of versions."""

    def __init__(self, count: int = PLACES) -> None:
        self.count, self._changed, self._length = count, bytearray(count), 0

    def __len__(self) -> int:
        return self._length

    def of(self, tag: str) -> int:
        return hash(tag) % self.count

    def changed(self, tags: Iterable[str]) -> Sequence[int]:
        """Returns the places of tags that have changed, each once."""
        places = sorted({hash(it) % self.count for it in tags})
        for place in places:
            if not self._changed[place]:
                self._changed[place] = True
                self._length += 1
        return places
