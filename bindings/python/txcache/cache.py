"""A cache of the results of functions, beside a service's own database: all that a page shows is of one moment."""

import contextlib
import functools
import logging
import os
import threading
import time
import weakref
from time import monotonic
from typing import Any, Callable, Dict, List, Optional, Sequence, Tuple

from . import _page, _values
from ._computing import Works
from ._fast import FASTEST
from ._follower import Follower, Step
from ._forms import Growth
from ._function import CacheInfo, Function
from ._page import LONGEST, Page, Receipt
from ._pins import Pin, State
from ._store import PURGE_AGE, Store
from ._thread import Bell, keep_looking
from ._versions import MAX_ENTRIES, MAX_PINS, MAX_PLACES, PLACES, Places
from .errors import AuditError, NotSeen, SnapshotLost

__all__ = ["CacheInfo", "Function", "Page", "Receipt", "TxCache"]

LOG = logging.getLogger("txcache")
MAX_SNAPSHOTS = 4  # that are open at once, beside those in which pages compute
MAX_USED_SNAPSHOTS = 16  # that are open at once
TRIM_SHARE = 8  # of the budget of bytes: where so much more was computed it is trimmed before its time
KEPT_PINS = MAX_PINS // 4
KEEP_EVERY = 2  # steps: what a keep drops at once keeps the library's lock
PURGE_EVERY = 60.0  # seconds
LOOK_TIME = 0.5  # seconds that a look may take beside its wait for the next
_INHERITED: List[Any] = []  # of a parent: never called and never closed by its child
_CACHES: "weakref.WeakSet[TxCache]" = weakref.WeakSet()


class TxCache:
    """A cache beside a store. Nothing is opened before the first page.

    `capacity` bounds its entries, `max_bytes` the bytes of their values, and `places` the rows of its table of versions, one for each tag that has changed.
    A thread looks at the database every `refresh` seconds while pages are read; with `thread=False` a page looks as it begins.
    No snapshot is open for longer than `hold` seconds. `connections` bounds those that read. `audit` is the share of pages that are computed again,
    uncached, and compared: a difference goes to `on_audit_error`, or is raised."""

    def __init__(self, store: Store, capacity: int = 65_536, max_bytes: Optional[int] = None, refresh: float = 0.5, hold: float = 10.0, connections: int = 4,
                 audit: float = 0.0, *, places: int = PLACES, thread: bool = True, on_audit_error: Optional[Callable[[AuditError], None]] = None,
                 versions: Callable[[int], Any] = FASTEST):
        if max_bytes is not None and max_bytes < 0:
            raise ValueError(f"max_bytes is {max_bytes}, and is at least 0")
        for name, count, most in (("capacity", capacity, MAX_ENTRIES), ("places", places, MAX_PLACES)):
            if not 1 <= count <= most:
                raise ValueError(f"{name} is {count}, and is from 1 to {most:,}")
        if not 0 <= audit <= 1:
            raise ValueError(f"audit is {audit}, and is a share from 0 to 1")
        if connections < 1:
            raise ValueError(f"connections is {connections}, and is at least 1")
        for name, value in (("refresh", refresh), ("hold", hold)):
            if not 0 < value < LONGEST:
                raise ValueError(f"{name} is {value} seconds, and is more than 0 and less than {LONGEST:,.0f}")
        self.store, self.refresh, self.hold, self.audit, self.on_audit_error = store, refresh, hold, audit, on_audit_error
        self._capacity, self._max_bytes, self._max_places, self._connections, self._has_thread = capacity, max_bytes, places, connections, thread
        self._make_versions = versions
        self._functions: Dict[str, Function] = {}
        self._growth = Growth()
        self._reset()
        _CACHES.add(self)

    def _reset(self) -> None:
        self._opening, self._stepping = threading.Lock(), threading.RLock()
        self._works, self._places = Works(), Places(self._max_places)
        self._versions: Any = None
        self._follower: Optional[Follower] = None
        self._state = State()
        self._least: Tuple[Any, Optional[int], int] = (None, None, 0)  # of a state and the oldest open snapshot: the first stamp at which a page may begin
        self._numbers: Dict[int, int] = {}
        self._is_to_be_cold, self._steps = False, 0
        self._failure: Optional[SnapshotLost] = None  # of the newest look that failed
        self._computed_bytes = 0  # since the last trim
        self._trimming = threading.Lock()
        self._bell: Optional[Bell] = None
        self._last_page = self._last_purge = self._last_try = time.monotonic()
        self._lost, self._cold = 0, 0

    # ---- functions

    def cacheable(self, body: Optional[Callable[..., Any]] = None, *, key: Optional[Callable[..., Any]] = None, codec: Optional[_values.Codec] = None) -> Any:
        """Makes a function of `db` and plain data cacheable. `key` makes plain data of its arguments; `codec` is (dumps, loads) of its values."""
        if body is None:
            return functools.partial(self.cacheable, key=key, codec=codec)
        function = Function(self, body, key, codec)
        if function.name in self._functions:
            raise TypeError(f"there are two cacheable functions {function.name}")
        self._functions[function.name] = function
        return function

    # ---- pages

    def read(self, max_age: float = 5.0, after: Optional[str] = None) -> Page:
        """Returns a page, for `with`: all that is called in it is of one moment, at most `max_age` seconds ago, that sees the transaction of the token
        `after`."""
        return Page(self, max_age, after)

    def run(self, view: Callable[..., Any], *args: Any, max_age: float = 5.0, after: Optional[str] = None, **named: Any) -> Any:
        """Returns what a view gives within a page. One that loses its snapshot is made again, once."""
        for is_last in (False, True):
            try:
                with self.read(max_age, after):
                    return view(*args, **named)
            except SnapshotLost:
                if is_last:
                    raise
                self._look_again()

    async def arun(self, view: Callable[..., Any], *args: Any, max_age: float = 5.0, after: Optional[str] = None, **named: Any) -> Any:
        """As `run`, in a thread: what a function computes or waits for stops no other coroutine."""
        import asyncio  # here, since it takes longer to import than all else

        return await asyncio.to_thread(functools.partial(self.run, view, *args, max_age=max_age, after=after, **named))

    def clear(self) -> None:
        """Has all calls be computed again."""
        with self._stepping:
            self._state = self._state._replace(era=self._state.era + 1)

    def close(self) -> None:
        """Ends the thread, the connections and the library's site. The next page opens all again."""
        with self._opening:
            if self._versions is None:
                return
            self._bell.end()
            with self._stepping:
                versions, follower = self._versions, self._follower
        follower.close()
        versions.close()
        self._reset()

    def stats(self) -> Dict[str, Any]:
        """Returns counts since the cache was opened; how many results are cached, and the bytes of their values; the age of its newest snapshot, in
        seconds; the connections that read; the places of tags that have changed."""
        pins, versions = self._state.pins, self._versions
        entries, count, trimmed = versions.totals() if versions is not None else (0, 0, 0)
        return {"entries": entries, "bytes": count, "trimmed": trimmed, "hits": sum(it.hits for it in self._functions.values()), "computed": sum(it.computed for it in self._functions.values()), "lost": self._lost,
                "cold": self._cold, "age": time.monotonic() - pins[-1].moment if pins else None, "connections": getattr(getattr(self.store, "readers", None), "count", 0),
                "places": len(self._places)}

    # ---- the parts that pages use

    def _open(self) -> None:
        if self._versions is None:
            with self._opening:
                if self._versions is None:
                    self.store.prepare(self._connections, self.hold)
                    versions = self._make_versions(self._capacity)
                    self._follower = Follower(self.store, self.hold, every=self.refresh + LOOK_TIME, is_read=versions.is_read)
                    self._bell = Bell()
                    self._versions = versions
                    if self._has_thread:
                        threading.Thread(target=keep_looking, args=(weakref.ref(self), self._bell, self.refresh), name="txcache", daemon=True).start()

    def _begin(self, max_age: float, after: Optional[str]) -> Tuple[int, int]:
        """Begins a page: its transaction, and the number in its keys."""
        if self._versions is None:
            self._open()
        self._last_page = begun = monotonic()
        oldest, pins = begun - max_age, self._state.pins
        if not pins or pins[-1].moment < oldest or begun - self._last_try > self.refresh:
            self._look_if_old(begun, max_age)
        at_least = self._stamp_of(after) if after is not None else 0
        for _ in range(3):
            state = self._state
            if state.pins:
                newest, known = state.pins[-1].moment, self._least
                least = known[2] if known[0] is state and known[1] == self._follower.oldest else self._oldest_open_stamp(state)
                now, since = int((newest if newest > begun else begun) * 1e6), int(oldest * 1e6) if oldest > 0 else 0
                txn = self._versions.begin(now, now - since, at_least if at_least > least else least)
                # one that began under a number which is no more may have a pin of the next
                if txn is not None and self._state.era == state.era:
                    return txn, state.era
                if txn is not None:
                    self._versions.abort(txn)
                if state.pins[-1].moment < begun - max_age:
                    break  # a new one was just taken, of a server that is so far behind another
            self._look()
        pins = self._state.pins
        newest = f": the newest is of {time.monotonic() - pins[-1].moment:.1f} seconds ago" if pins else ""
        raise SnapshotLost(f"no snapshot of the last {max_age} seconds{newest}")

    def _look_if_old(self, begun: float, max_age: float) -> None:
        """Takes a snapshot if the newest is too old for a page; or if none is open, or, with no thread, it is to be refreshed, and then if that fails a
        page may still have hits."""
        if self._is_older(begun - max_age):
            self._look(lambda: not self._is_older(begun - max_age))
        elif begun - self._last_try > self.refresh and (self._follower.oldest is None or not self._has_thread and self._is_older(begun - self.refresh)):
            self._look_again()

    def _is_older(self, moment: float) -> bool:
        pins = self._state.pins
        return not pins or pins[-1].moment < moment

    def _look_again(self) -> None:
        """Takes a snapshot if one is to be had."""
        with contextlib.suppress(SnapshotLost):
            self._look()

    def _look(self, is_enough: Callable[[], bool] = lambda: False) -> None:
        """Takes a snapshot: gives what changed a version, and then pins that. Threads take turns. One that waited for its turn takes none if that of another
        is enough; if another failed meanwhile, it fails too, so that threads wait once for a lock of the database, and not one behind the other."""
        known = self._failure
        with self._stepping:
            failure = self._failure
            if failure is not None and failure is not known:
                raise type(failure)(*failure.args)
            if is_enough():
                return
            self._last_try = time.monotonic()
            if self._is_to_be_cold:
                self._follower.forget("the last step was not finished")
            try:
                step = self._follower.look()
            except SnapshotLost as error:
                self._failure, self._last_try = type(error)(*error.args), time.monotonic()
                raise
            self._failure = None
            self._is_to_be_cold = True  # until all of the step is done
            self._take(step)
            self._is_to_be_cold = False

    def _take(self, step: Step) -> None:
        if step.cold:
            # before there is a pin at which what is cached under the former number would seem to hold
            self._cold += 1
            self._state = State((), self._state.era + 1)
        self._versions.touch(self._places.changed(step.tags), step.number)
        stamp = self._versions.pin(_us(step.moment))
        self._numbers[stamp] = step.number
        before, pin = self._state, Pin(stamp, step.moment, step.number, self._follower.mark)
        self._state = State((*before.pins[self._count_old(before.pins, step.moment):], pin), before.era, stamp if step.cold else before.first)
        self._tidy()

    def _count_old(self, pins: Sequence[Pin], now: float) -> int:
        """Returns how many pins, the oldest first, are too old, or too many beside one more."""
        count = max(0, len(pins) + 1 - KEPT_PINS)
        while count < len(pins) and pins[count].moment < now - self.hold:
            count += 1
        return count

    def _tidy(self) -> None:
        """Lets go the snapshots that are too many, and what no page can read any more."""
        self._follower.trim(MAX_SNAPSHOTS, MAX_USED_SNAPSHOTS)
        self._steps += 1
        if self._steps % KEEP_EVERY:
            return
        horizon = self._versions.keep(_us(self._state.pins[0].moment))
        if len(self._numbers) > 2 * MAX_PINS:
            self._numbers = {stamp: number for stamp, number in self._numbers.items() if stamp >= horizon}

    def _oldest_open_stamp(self, state: State) -> int:
        """Returns the stamp from which on each pin has its snapshot open; if none is, the first of what is cached now."""
        oldest, known = self._follower.oldest, self._least
        if known[0] is state and known[1] == oldest:
            return known[2]
        found = next((it.stamp for it in state.pins if it.number >= oldest), state.first) if oldest is not None else state.first
        self._least = state, oldest, max(state.first, found)
        return self._least[2]

    def _stamp_of(self, token: str) -> int:
        """Returns the first stamp that sees the transaction of a token. Fails with NotSeen if a new snapshot does not."""
        for is_last in (False, True):
            found = next((it.stamp for it in self._state.pins if self.store.sees(it.mark, token)), None)
            if found is not None:
                return found
            if not is_last:
                self._look()
        raise NotSeen("a new snapshot does not see the transaction of the token")

    def _number_of(self, stamp: Optional[int]) -> int:
        """Returns the number of the snapshot in which a stamp is read."""
        number = self._numbers.get(stamp) if stamp is not None else None
        if number is None:
            raise SnapshotLost("the page's moment is kept no more")
        return number

    def _finish(self, txn: Any, function: Function, data: bytes) -> None:
        """Says what a function gives. A value that is too long for the library is replaced by a mark, and the function is computed again
        for each page: in any state in which the mark holds it gives the same."""
        if len(data) > self._versions.longest:
            if not function.is_too_long:
                function.is_too_long = True
                LOG.warning("%s gave a value of %d bytes, which is computed for each page: at most %d are cached", function.name, len(data) - 1, self._versions.longest - 1)
            data = _values.TOO_LONG
        self._versions.finish(txn, data)
        self._computed_bytes += len(data)

    def _has_grown(self) -> bool:
        """Returns True if so much was computed since the last trim that there may be far more than the budget."""
        return self._max_bytes is not None and self._computed_bytes > self._max_bytes // TRIM_SHARE

    def _trim_soon(self) -> None:
        """After a page: has the thread trim, or, with none, trims."""
        if self._has_thread:
            self._bell.ring()
        else:
            self._trim()

    # ---- beside pages

    def _trim(self) -> None:
        """Drops what was used longest ago, so that the values that are left are within the budget of bytes."""
        if self._max_bytes is not None and self._computed_bytes and self._trimming.acquire(False):
            try:
                self._computed_bytes = 0
                self._versions.trim(self._max_bytes)
            finally:
                self._trimming.release()

    def _rest_or_look(self) -> None:
        """The work of the thread, every `refresh` seconds."""
        now = time.monotonic()
        if now - self._last_page > self.hold:
            self._follower.let_go()
        else:
            self._look()
        if now - self._last_purge > PURGE_EVERY:
            self._last_purge = now
            try:
                self.store.purge(PURGE_AGE)
            except Exception as error:  # this role may not, or a writer is in the way: another process will
                LOG.debug("no notes were purged: %s", error)

    def _leave_to_the_parent(self) -> None:
        """Begins cold, in a child after a fork, and touches nothing of its parent's."""
        _INHERITED.append((self._versions, self._follower, self._works, self._stepping, self.store.forget()))
        self._growth = Growth()
        self._reset()


def _us(seconds: float) -> int:
    return int(seconds * 1e6) if seconds > 0 else 0


def _after_fork_in_child() -> None:
    _page.note_fork()
    for it in list(_CACHES):
        it._leave_to_the_parent()


os.register_at_fork(after_in_child=_after_fork_in_child)
