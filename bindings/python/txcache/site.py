"""Transactions of TxCache whose functions you compute, over its library for C.

A Site has a database, its pins and a node. A function is a Python function with a number: what it asks next, or gives, is determined by
its arguments and what it was answered so far.

    @cacheable(0)
    def highest(call, item):
        return str(max((int(row.body) for row in call.rows(Query.group(1, item))), default=0)).encode()

    with Site(None, 100, 64) as site:
        with site.write() as write:
            write.put(1, 1, 7, b"110")
        with site.read(now=0, staleness=30_000) as page:
            page(highest, 7)        # b"110"
        page.receipt.stamp          # the state in which each answer is right
        with site.write(at=page.receipt.stamp) as write:
            write(highest, 7)       # what the page showed is to be so still, else the block ends with Conflict
            write.put(1, 2, 7, b"130")

Threads share a site, each with blocks of its own, and blocks stand within blocks. A site has one lock, held for single calls of the library, and never
while a function is computed.
"""

import collections
import ctypes as c
import os
import threading
from typing import NamedTuple, Optional

from . import _calls
from ._calls import ALREADY_OPEN, ANSWERED, BAD_ARGUMENT, CLOSED, COMPUTE, CONFLICT, DONE, MID_CALL, MISS, NO_MEMORY, NO_ROOM, NOT_OPEN, REFUSED
from .node import FIRST_ROOM, MAX_ASKS, MAX_VALUE_LEN, Key, Refused, Totals, _Handle, _number, _Totals

MAX_EVENTS = 1_048_576  # that a site stores
MAX_BODY_LEN = 65_536
MAX_CHANGES = 256  # of a transaction
MAX_MATCHING = 65_536  # versions of rows that a query finds
MAX_OPEN = 65_536

_U32, _U64 = 2**32 - 1, 2**64 - 1
_SAID = {
    CLOSED: "the site is closed",
    BAD_ARGUMENT: f"a number of the call is above its limit, or a body is longer than {MAX_BODY_LEN:,} bytes",
    ALREADY_OPEN: "the site is open already",
    NOT_OPEN: "the transaction is not open, or no function is computed",
    MID_CALL: "a call is open",
    CONFLICT: "the commit conflicts with a later one, which changed rows that were read",
}
_ASKED = f"the call has made {MAX_ASKS:,} queries and calls"
_CHANGES_FULL = f"the transaction has {MAX_CHANGES} changes, and keeps no more"
_FAILED = {  # what REFUSED means, by the call of the library
    "txc_call": f"the call failed: {_ASKED}, a function called one whose number is not lower, or memory was short",
    "txc_finish": f"the call failed: {_ASKED}, or memory was short",
    "txc_put": _CHANGES_FULL, "txc_remove": _CHANGES_FULL, "txc_begin": f"no transaction can begin: {MAX_OPEN:,} are open",
    "txc_begin_write": f"no transaction can begin: {MAX_OPEN:,} are open, or as many stamps are held",
    "txc_query_rows": f"the query failed: more than {MAX_MATCHING:,} versions match, or the stamp at which the transaction began can be read no more",
    "txc_commit_write": "the commit failed since its store had no memory, and may be made again",
    "txc_pin": f"the present can't be pinned: 1,024 pins or {MAX_OPEN:,} stamps are held",
    "txc_keep": "the site can't be tidied: its database or its node is broken, or its store of rows failed",
    "txc_site_trim": "the site can't be trimmed: its node is broken",
}
_EVENTS_FULL = "the {0:,} events that the site has room for are used up, or "  # before the cause, where a site stores its events
_APPENDING = "txc_commit_write", "txc_pin"
_STORES = {"sql": _calls.STORE_SQL, "plain": _calls.STORE_PLAIN}
_TXC = _calls.declared()
_forks = 0  # how many times this process has come out of a fork


def _count_fork():
    global _forks
    _forks += 1


os.register_at_fork(after_in_child=_count_fork)


class Conflict(Refused):
    """Another transaction changed the rows that were read: nothing is committed."""


class GivenUp(Refused):
    """A function asks, or gives a value, whose call was given up since something in it failed; or one that has ended asks."""


def _refuse(number, ask, cause=None):
    """Raises the exception for the number that a call of the library returned. `cause` is what REFUSED means then, if that is known."""
    if number == NO_MEMORY:
        raise MemoryError
    if number == CONFLICT:
        raise Conflict(_SAID[number])
    if number == REFUSED and (cause or ask.__name__ in _FAILED):
        raise Refused(cause or _FAILED[ask.__name__])
    raise Refused(_SAID.get(number, f"{ask.__name__} returned {number}"))


class Row(NamedTuple):
    table: int
    id: int
    group: int
    body: bytes


class Query(NamedTuple):
    table: int
    kind: int
    first: int = 0
    last: int = 0

    @staticmethod
    def all(table):
        return Query(table, 0)

    @staticmethod
    def id(table, number):
        return Query(table, 1, number)

    @staticmethod
    def group(table, number):
        return Query(table, 2, number)

    @staticmethod
    def range(table, first, last):
        return Query(table, 3, first, last)


class Kept(NamedTuple):
    """The number of pins that were retired, the horizon that is left, below which nothing is read, and the number of results that were dropped."""

    retired: int
    horizon: int
    swept: int


class Receipt(NamedTuple):
    """The number of answers that it explains; and the stamp and moment of the state in which each is right, if one exists."""

    answers: int
    stamp: Optional[int]
    moment: Optional[int]


class Member(NamedTuple):
    """A pin at which all that a transaction was answered is right."""

    stamp: int
    moment: int


def cacheable(number):
    """Gives a function its number. It is called with a `call`, of which it asks, and its arguments, and gives bytes."""

    def named(function):
        function.cacheable = number
        return function

    return named


class _Function:
    """The transaction of a function, until the function ends: its queries and calls."""

    def __init__(self, transaction):
        self._transaction = transaction

    def rows(self, query):
        """Returns the rows of a query."""
        return self._asked().rows(query)

    def __call__(self, function, *args):
        """Returns the value of a call."""
        return self._asked()(function, *args)

    def _asked(self):
        if self._transaction is None:
            raise GivenUp("the function has ended")
        return self._transaction


class _Transaction:
    """An open transaction, by its number; 0 once it has ended. In mid-call it is asked by the thread that computes its functions, alone."""

    _number = 0

    def __init__(self, site, number):
        self._site, self._number = site, number
        self._depth, self._thread, self._is_given_up = 0, None, False

    def __enter__(self):
        return self

    def __del__(self):
        # in any thread, maybe one that holds a lock: so this waits for none
        if self._number:
            self._site._forgotten.append(self._number)

    @property
    def number(self):
        """The number by which `Site.abort` aborts it; 0 once it has ended. A later transaction has a greater one."""
        return self._number

    def rows(self, query):
        """Returns the rows of a query."""
        words = map(_number, query, (255, 255, _U32, _U32))
        site, count = self._site, c.c_size_t()
        with site._turn():
            self._check()
            number = _TXC.query_rows(site._handle, self._number, _calls.Query(*words), count)
            rows = self._rows(count.value) if number == ANSWERED else []
        if number != ANSWERED:
            self._refuse(number, _TXC.query_rows)
        return rows

    def _rows(self, count):
        row, site, rows = _calls.Row(), self._site, []
        buffer, size = pair = site._buffer()
        for at in range(count):
            body = buffer
            number = _TXC.row_at(site._handle, self._number, at, row, body, FIRST_ROOM, size)
            if number == NO_ROOM:
                body = c.create_string_buffer(size.value)
                number = _TXC.row_at(site._handle, self._number, at, row, body, len(body), size)
            if number != DONE:
                self._refuse(number, _TXC.row_at)
            rows.append(Row(row.table, row.id, row.group, body[: size.value]))
        site._buffers.append(pair)
        return rows

    def __call__(self, function, *args):
        """Returns the value of a call."""
        number, value = self._told(_TXC.call, Key(function.cacheable, *args)._key)
        if number == COMPUTE:
            return self._computed(function, args)
        if number not in (DONE, ANSWERED):
            self._refuse(number, _TXC.call)
        return value

    def _computed(self, function, args):
        """Returns the value of the function that is computed, with no lock held. If that fails, the whole call is given up."""
        asking = _Function(self)
        try:
            given = bytes(function(asking, *args))
            number, value = self._told(_TXC.finish, given, len(given))
            if number not in (DONE, ANSWERED):
                _refuse(number, _TXC.finish, f"the function gives {len(given):,} bytes, of at most {MAX_VALUE_LEN:,}" if len(given) > MAX_VALUE_LEN else None)
            return value
        except BaseException:
            self._give_up()
            raise
        finally:
            asking._transaction = None
            self._is_given_up &= self._depth > 1
            self._depth -= 1

    def _told(self, ask, *words):
        """Makes a call of the library that may write a value. Returns its number, and the value: one that is longer than the buffer is asked for
        again."""
        site = self._site
        with site._turn():
            self._check()
            buffer, size = pair = site._buffer()
            number = ask(site._handle, self._number, *words, buffer, FIRST_ROOM, size)
            if number == COMPUTE:
                self._thread, self._depth = threading.get_ident(), self._depth + 1
            if number == NO_ROOM:
                buffer = c.create_string_buffer(size.value)
                number = _TXC.answer(site._handle, self._number, buffer, len(buffer), size)
            value = buffer[: size.value] if number in (DONE, ANSWERED) else b""
            site._buffers.append(pair)
            return number, value

    def _ask(self, ask, *words):
        with self._site._turn():
            self._check()
            return ask(self._site._handle, self._number, *words)

    def _check(self):
        if self._depth:
            if self._thread != threading.get_ident():
                raise Refused("another thread computes a function of this transaction")
            if self._is_given_up:
                raise GivenUp("the function's call was given up")

    def _refuse(self, number, ask):
        """Refuses what was asked. Within a function, that has ended the open call, unless an argument was bad."""
        if self._depth and number != BAD_ARGUMENT:
            self._give_up()
        _refuse(number, ask, f"{_FAILED['txc_query_rows']}; or {_ASKED}, or memory was short" if self._depth and ask is _TXC.query_rows else None)

    def _give_up(self):
        """Gives the open call up, with the calls around it: none of their functions asks any more."""
        if not self._is_given_up:
            self._is_given_up = True
            if self._site._is_ours():
                with self._site._lock:
                    _TXC.give_up(self._site._handle, self._number)

    def _abort(self):
        number, self._number = self._number, 0
        if number and self._site._is_ours():
            with self._site._lock:
                _TXC.abort(self._site._handle, number)

    def _end(self, ask, out):
        """Commits. If that fails, aborts."""
        try:
            number = self._ask(ask, out)
            if number != DONE:
                _refuse(number, ask, self._site._cause(ask))
            self._number = 0
        except BaseException:
            self._abort()
            raise

    def read_stamp(self):
        """Returns the stamp of the state that the next query reads; None if that pins the present first."""
        stamp = c.c_uint32()
        number = self._ask(_TXC.read_stamp, stamp)
        if number not in (DONE, MISS):
            _refuse(number, _TXC.read_stamp)
        return stamp.value if number == DONE else None


class _Page(_Transaction):
    """A transaction that only reads. It has a receipt once the block has ended."""

    receipt = None

    def __exit__(self, kind, error, trace):
        if kind:
            self._abort()
            return
        receipt = _calls.Receipt()
        self._end(_TXC.commit, receipt)
        pin = (receipt.stamp, receipt.moment) if receipt.has_pin else (None, None)
        self.receipt = Receipt(receipt.answers, *pin)

    def members(self):
        """Returns the pins at which all that was answered is right, the newest first."""
        stamp, moment, members = c.c_uint32(), c.c_uint64(), []
        with self._site._turn():
            self._check()
            number = DONE
            while number == DONE:
                number = _TXC.member_at(self._site._handle, self._number, len(members), stamp, moment)
                members += [Member(stamp.value, moment.value)] * (number == DONE)
        if number != MISS:
            _refuse(number, _TXC.member_at)
        return members


class _Write(_Transaction):
    """A transaction that writes; it is committed where the block ends well, and given up where that is refused. It does not see
    its own changes, and uses no cache: each function is computed."""

    stamp = None

    def put(self, table, number, group, body):
        self._do(_TXC.put, _number(table, 255), _number(number, _U32), _number(group, _U32), body, len(body))

    def remove(self, table, number):
        self._do(_TXC.remove, _number(table, 255), _number(number, _U32))

    def _do(self, ask, *words):
        number = self._ask(ask, *words)
        if number != DONE:
            _refuse(number, ask)

    def __exit__(self, kind, error, trace):
        if kind:
            self._abort()
            return
        stamp = c.c_uint32()
        self._end(_TXC.commit_write, stamp)
        self.stamp = stamp.value


class Site:
    """A database, its pins, and a node of so many entries, which keeps the tags of the last `recent` events; 0 is 65,536 entries, and 4,096 events. It has
    room for `events` commits and pins, which it stores; or, where that is None, no bound on them, and none is stored: `keep` lets go what no transaction
    can read any more. A forked child can use no site of its parent.

    With `max_bytes` the values of the node's results have at most so many bytes in all, after each call. Before it keeps a value it drops the results that
    were used longest ago, until there is room. A value of more bytes is answered and not kept.

    Before a query a transaction that only reads pins the present, if it may still read that and its newest pin is more than `renew_after` milliseconds
    old. The default is 20,000 here, and 0 in C and Rust.

    `store` is where the current rows are: "sql" is a table of SQLite in memory, and "plain" are ordered maps, in which a change takes a small part of
    the time. Both return the same."""

    def __init__(self, events=None, capacity=0, recent=0, renew_after=20_000, max_bytes=None, store="sql"):
        self._handle, self._lock, self._born = _Handle(None, False), threading.RLock(), _forks
        self._forgotten, self._buffers, self._events = collections.deque(), [], events
        if events == 0 or max_bytes == 0:
            raise Refused("events and max_bytes are at least 1, or None")
        if store not in _STORES:
            raise ValueError(f"store is {store!r}, and is one of {', '.join(map(repr, _STORES))}")
        words = (_number(it, _U64) for it in (events or 0, capacity, recent, renew_after, max_bytes or 0, _STORES[store]))
        self._do(_TXC.site_open, _calls.Settings(c.sizeof(_calls.Settings), *words))

    def __enter__(self):
        return self

    def __exit__(self, *_):
        if self._is_ours():
            self.close()

    def __del__(self):
        # no other thread has it, so that the lock is free
        if hasattr(self, "_buffers") and self._is_ours():
            _TXC.site_close(self._handle)

    def close(self):
        """Frees all of it, and aborts what is open. A site that is closed stays so."""
        with self._turn():
            _TXC.site_close(self._handle)

    def read(self, now, staleness, at_least=0):
        """Begins a transaction that only reads, at `now` in milliseconds."""
        return _Page(self, self._begun(_TXC.begin, _number(now, _U64), _number(staleness, _U64), _number(at_least, _U32)))

    def write(self, at=None):
        """Begins a transaction that writes, over the newest state, which stays until it ends; or over that of the stamp `at`, such as a receipt's,
        which does not stay. It is committed only if no later event changed what it has read."""
        if at is None:
            return _Write(self, self._begun(_TXC.begin_write))
        return _Write(self, self._begun(_TXC.begin_write_at, _number(at, _U32)))

    def _begun(self, begin, *words):
        txn = c.c_uint64()
        self._do(begin, *words, txn)
        return txn.value

    def pin(self, moment):
        """Pins the newest state, with this moment in milliseconds, for transactions that begin later. Returns its stamp."""
        stamp = c.c_uint32()
        self._do(_TXC.pin, _number(moment, _U64), stamp)
        return stamp.value

    def keep(self, now, age):
        """Tidies, whatever is open: retires the pins that no transaction uses and that are more than `age` before `now`, both in milliseconds, and
        drops what no transaction can read any more. Call it now and then: there is room for 1,024 pins."""
        kept = _calls.Kept()
        self._do(_TXC.keep, _number(now, _U64), _number(age, _U64), kept)
        return Kept(kept.retired, kept.horizon, kept.swept)

    def trim(self, most):
        """Keeps the longest prefix of the node's results, the most recently used first, whose values have at most `most` bytes in all, whatever is open.
        Returns how many it dropped. A site that was made with `max_bytes` does so itself."""
        dropped = c.c_size_t()
        self._do(_TXC.site_trim, _number(most, _U64), dropped)
        return dropped.value

    def totals(self):
        """Returns what the node holds in all."""
        totals = _Totals()
        self._do(_TXC.site_totals, totals)
        return Totals(totals.entries, totals.bytes, totals.trimmed)

    def open_transactions(self):
        """Returns how many transactions are open."""
        count = c.c_size_t()
        self._do(_TXC.open_transactions, count)
        return count.value

    def oldest_open(self):
        """Returns the number of the open transaction that began first; None if none is open."""
        txn = c.c_uint64()
        with self._turn():
            number = _TXC.oldest_open(self._handle, txn)
        if number not in (DONE, MISS):
            _refuse(number, _TXC.oldest_open)
        return txn.value if number == DONE else None

    def abort(self, number):
        """Aborts an open transaction, as one that was forgotten: its owner's calls fail from then on."""
        self._do(_TXC.abort, _number(number, _U64))

    def _do(self, ask, *words):
        with self._turn():
            number = ask(self._handle, *words)
        if number != DONE:
            _refuse(number, ask, self._cause(ask, *words) if number == REFUSED else None)

    def _cause(self, ask, *words):
        """Returns why a call of the library was refused, if this site knows more than the call's name says."""
        if ask is _TXC.begin_write_at and self.open_transactions() < MAX_OPEN:
            return f"the stamp {words[0]} can't be read: it is below the oldest that can, or beyond the newest"
        if ask.__name__ in _APPENDING and self._events is not None:
            return _EVENTS_FULL.format(self._events) + _FAILED[ask.__name__]
        return _FAILED["txc_begin"] if ask is _TXC.begin_write_at else None

    def _is_ours(self):
        return self._born == _forks

    def _turn(self):
        """Returns the lock, for a `with` around single calls of the library. First aborts what was collected."""
        if not self._is_ours():
            raise Refused("the site is one of the parent of this process")
        if self._forgotten:
            self._abort_forgotten()
        return self._lock

    def _abort_forgotten(self):
        with self._lock:
            while self._forgotten:
                _TXC.abort(self._handle, self._forgotten.popleft())

    def _buffer(self):
        """Returns a buffer with room for a short value or body, and one for a length. Under the lock; then it goes back."""
        return self._buffers.pop() if self._buffers else (c.create_string_buffer(FIRST_ROOM), c.c_size_t())
