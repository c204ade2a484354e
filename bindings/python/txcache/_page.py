"""A page: all that is called in its block is of one moment."""

import contextvars
import logging
import os
import random
import time
from _thread import RLock  # as threading.RLock() makes it, with a call less
from dataclasses import dataclass
from time import monotonic
from typing import TYPE_CHECKING, Any, Callable, Dict, List, Optional, Sequence, Tuple

from . import _values
from ._computing import Again, Frame
from ._hand import Hand, HandOfFrame, HandOfSnapshot
from ._layout import Db, Read, Row, refuse_time_and_chance
from ._store import Snapshot, db_of
from ._values import TOO_LONG
from ._versions import MAX_ASKS, UNCHANGING_PLACE
from .errors import AuditError, OutsideSnapshot, SnapshotLost

if TYPE_CHECKING:
    from ._function import Function
    from .cache import TxCache

LOG = logging.getLogger("txcache")
MAX_ROW_TAGS = 128  # of one function: beyond that it depends on whole tables, since the library keeps at most 16 places of each of its tables apart
MAX_TRIES = 64  # of a call that has more to ask than there may be asks, as long as its own calls are computed meanwhile
LONGEST = 1e9  # seconds
ENDED = -1  # in the place of a page's process: a task or thread that was begun within the page may still have it
PAGE: "contextvars.ContextVar[Optional[Page]]" = contextvars.ContextVar("txcache_page", default=None)
_process = os.getpid()


def note_fork() -> None:
    """Notes, in a child after a fork, that the pages which are open are its parent's."""
    global _process
    _process = os.getpid()


@dataclass(frozen=True)
class Receipt:
    """The moment of all that a page showed, as time.time() has it, and how old it was as the page ended; the number of its snapshot; how many calls
    were hits and how many were computed. A page that showed nothing has no moment."""

    moment: Optional[float]
    age: Optional[float]
    snapshot: Optional[int]
    hits: int
    computed: int


class Page:
    """The reads of a block of `TxCache.read`. It has a receipt once the block has ended."""

    # most pages change few of these, and so each begins with its class's
    _frames: Sequence[Frame] = ()  # the functions that stand open
    _asks = _inner_computed = _tries = 0  # of the outermost call: since it was made last, and how often it ran out of asks
    _ahead: Optional[Frame] = None  # the call within it that is to be made first, since it ran out of asks
    _uses: Sequence[int] = ()  # the snapshots that stay open for this page
    _stamp: Optional[int] = None  # at which the next query runs, where it is known; only a hit, or what is given up, changes it
    _snapshot: Optional[Snapshot] = None  # of that stamp, where it was asked for
    _failed: Optional[BaseException] = None
    _direct: Optional[Snapshot] = None  # in which functions are computed uncached
    hand: Optional[Hand] = None  # of the function that runs
    _shown: Optional[List[Tuple["Function", Sequence[Any], Dict[str, Any], bytes]]] = None  # of a page that is audited
    _has_shown = _has_renewed = False
    _end: Optional[Tuple[float, Any, Optional[int]]] = None
    hits = computed = _txn = 0
    lost: Optional[SnapshotLost] = None  # what a call raised, whoever caught it

    def __init__(self, cache: "TxCache", max_age: float, after: Optional[str]):
        if not 0 <= max_age < LONGEST:
            raise ValueError(f"max_age is {max_age} seconds, and is from 0 to less than {LONGEST:,.0f}")
        self.cache, self.max_age, self.after = cache, max_age, after
        self._process, self._turn = _process, RLock()
        if cache.audit > 0 and random.random() < cache.audit:
            self._shown = []

    def __enter__(self) -> "Page":
        around = PAGE.get()
        if around is not None and around._process == _process:
            raise RuntimeError("a page is open already: a page stands within no other")
        if self._txn:
            raise RuntimeError("a page is used once: cache.read() gives another")
        self._txn, self._era = self.cache._begin(self.max_age, self.after)
        self._token = PAGE.set(self)
        return self

    def __exit__(self, kind: Any, error: Any, trace: Any) -> None:
        PAGE.reset(self._token)
        if self._process != _process:
            return
        try:
            self._ended(error)
        finally:
            self._process = ENDED
            if self._uses:
                self._leave_snapshots()

    def _ended(self, error: Optional[BaseException]) -> None:
        if error is None:
            cache = self.cache
            pin = cache._versions.commit(self._txn)[1]
            self._end = monotonic(), pin, pin and cache._numbers.get(pin[0])
            if self._shown and pin is not None:
                self._audit()
            if self.computed and cache._has_grown():
                cache._trim_soon()
            return
        self.cache._versions.abort(self._txn)
        if isinstance(error, SnapshotLost):
            self.cache._lost += 1
            LOG.warning("a page lost its snapshot: %s", error)

    @property
    def receipt(self) -> Optional[Receipt]:
        """The receipt of the page, once the block has ended well; else None."""
        if self._end is None:
            return None
        ended, pin, number = self._end
        if pin is None:
            return Receipt(None, None, None, self.hits, self.computed)
        age = ended - pin[1] / 1e6
        return Receipt(time.time() - (monotonic() - ended) - age, age, number, self.hits, self.computed)

    # ---- calls

    def answer(self, function: "Function", args: Sequence[Any], named: Dict[str, Any]) -> Any:
        """Returns the value of a call."""
        if self._process != _process or not self._turn.acquire(False):
            raise self._not_its_turn(function.name)
        try:
            if self._frames or self._direct is not None:
                return self._answer_within(function, args, named)
            data = None if named or self._shown is not None else self._hit(function, args)
            if data is None:
                data = self._outermost(function, args, named)
            return _values.decode(data, function.codec)
        finally:
            self._turn.release()

    def _answer_within(self, function: "Function", args: Sequence[Any], named: Dict[str, Any]) -> Any:
        """Returns the value of a call of a function that is computed, or audited."""
        if self._direct is not None:
            return self._directly(function, args, named, lambda it: it)
        return _values.decode(self._inner(function, args, named), function.codec)

    def _hit(self, function: "Function", args: Sequence[Any]) -> Optional[bytes]:
        """Returns the value of an outermost call, if its key is known and it is cached; else None, and nothing was done."""
        cache = self.cache
        era, forms, _, known = function.known
        hit = cache._versions.hit
        if hit is None or era != self._era or forms is not cache._growth.forms:
            return None
        data = hit(self._txn, known, args)
        if data is None or data == TOO_LONG:
            return None
        self._stamp = self._snapshot = None  # it may hold in fewer of them
        self._has_shown = True
        self.hits += 1
        function.hits += 1
        return data

    def _not_its_turn(self, name: str) -> RuntimeError:
        """Returns why this thread may not use the page now."""
        if self._process == ENDED:
            return RuntimeError(f"{name}: the page has ended, within which this task or thread was begun: it opens a page of its own")
        if self._process != _process:
            return RuntimeError(f"{name}: the page was begun before a fork, by the parent")
        return RuntimeError(f"{name}: another thread uses this page")

    def _outermost(self, function: "Function", args: Sequence[Any], named: Dict[str, Any]) -> bytes:
        self._tries = 0
        data = self._made(function, args, named)
        self._has_shown = True
        if self._shown is not None:
            self._shown.append((function, args, named, data))
        return data

    def _made(self, function: "Function", args: Sequence[Any], named: Dict[str, Any]) -> bytes:
        """Makes an outermost call, again as long as that leads further."""
        while True:
            self._forms, self._failed, self._asks, self._inner_computed, self._ahead = self.cache._growth.forms, None, 0, 0, None
            try:
                return self._data(function, args, named)
            except BaseException as error:
                # a function may have caught what was not for it
                found = self._failed if isinstance(self._failed, (Again, SnapshotLost)) else error
                self._give_up()
                if isinstance(found, SnapshotLost) and not self._has_shown and not self._has_renewed:
                    self._renew()
                elif not isinstance(found, Again):
                    if isinstance(found, SnapshotLost):
                        self.lost = found
                    else:
                        self._has_shown = True  # its error shows something of the page's moment
                    if found is error:
                        raise
                    raise found
            if self._ahead is not None:
                self._made(self._ahead.function, self._ahead.args, self._ahead.named)

    def _inner(self, function: "Function", args: Sequence[Any], named: Dict[str, Any]) -> bytes:
        caller = self._frames[-1]
        self._refuse_after_failure(caller)
        try:
            self._go_down(caller, function)
            return self._data(function, args, named)
        except BaseException as error:
            self._failed = self._failed or error
            raise

    def _go_down(self, caller: Frame, function: "Function") -> None:
        """Counts a call of a function that is computed. Fails with RecursionError if it stands above, and has the outermost call be made again if the
        caller's level is too low for it."""
        if any(it.function is function for it in self._frames):
            raise RecursionError(f"{function.name} calls itself")
        self.cache._growth.has_called(caller.function, function)
        level = self._forms.level(function)
        if level >= caller.level:
            self.cache._growth.raise_level(caller.function, level + 1)
            raise Again
        self._count_ask(caller)

    def _refuse_after_failure(self, frame: Frame) -> None:
        """No answer says what a function does after it caught the failure of another, so it may ask nothing more."""
        if self._failed is not None:
            raise RuntimeError(f"{frame.function.name} went on after a function that it called, or a query, had failed") from self._failed

    def _count_ask(self, frame: Frame) -> None:
        """Counts an ask of the outermost call; each open function has one more left, for what it gives. If there are no more, the call within which it
        ran out is made by itself, and then the outermost call again: what is cached by then is one ask."""
        frame.asks += 1
        self._asks += 1
        if self._asks + len(self._frames) > MAX_ASKS:
            self._tries += 1
            if self._tries < MAX_TRIES and (self._inner_computed or len(self._frames) > 1):
                self._ahead = self._frames[1] if len(self._frames) > 1 else None
                raise Again
            raise ValueError(f"{self._frames[0].function.name} asks for more than {MAX_ASKS - 1:,} tables, rows and calls, with those of the functions that it calls")

    def _data(self, function: "Function", args: Sequence[Any], named: Dict[str, Any]) -> bytes:
        """Returns the value of a call, as bytes."""
        cache = self.cache
        key = function.key(self._era, self._forms, args, named)
        if key.digest in cache._works.known:
            cache._works.wait(key.digest, self._may_read)
        data = cache._versions.call(self._txn, key)
        if data is None:
            return self._computed_data(function, key, args, named)
        self._stamp = self._snapshot = None  # it may hold in fewer of them
        if data == TOO_LONG:
            return self._uncached_data(function, args, named)
        self.hits += 1
        function.hits += 1
        return data

    def _computed_data(self, function: "Function", key: Any, args: Sequence[Any], named: Dict[str, Any]) -> bytes:
        cache, frame = self.cache, Frame(function, args, named, key.level)
        around, self.hand = self.hand, HandOfFrame(self, frame)
        self._frames = [*self._frames, frame]
        work = cache._works.begin(key.digest, self._stamp_now())
        try:
            value = function.body(Db(self._snapshot_now().layout, self._read, self.hand), *args, **named)
            self.hand.has_returned()
            self._refuse_after_failure(frame)
            self._ask_once(frame)
            data = _values.encode(value, function.codec)
            cache._finish(self._txn, function, data)
        finally:
            cache._works.end(key.digest, work)
            self._end_hand(around)
            self._frames = self._frames[:-1]
        self._asks += 1
        self._inner_computed += bool(self._frames)
        self.computed += 1
        function.computed += 1
        return data

    def _uncached_data(self, function: "Function", args: Sequence[Any], named: Dict[str, Any]) -> bytes:
        """Returns the value of a call that is known to be too long for the library: it is computed, in the snapshot of the next query."""
        self._direct = self._snapshot_now()
        try:
            data = self._directly(function, args, named, lambda it: _values.encode(it, function.codec))
        finally:
            self._direct = None
        self.computed += 1
        function.computed += 1
        return data

    def _directly(self, function: "Function", args: Sequence[Any], named: Dict[str, Any], keep: Callable[[Any], Any]) -> Any:
        """Computes a call uncached, in the one snapshot of `_direct`, and returns what `keep` makes of its value."""
        around, self.hand = self.hand, HandOfSnapshot(self._direct, function.name, self.cache.store)
        try:
            value = function.body(db_of(self._direct, self.hand), *args, **named)
            self.hand.has_returned()
            return keep(value)
        finally:
            self._end_hand(around)

    def _end_hand(self, around: Optional[Hand]) -> None:
        """Ends what the function that runs reads by hand; the one around it, if there is one, continues."""
        hand, self.hand = self.hand, around
        hand.close()

    def _give_up(self) -> None:
        self._frames = ()
        self._stamp = self._snapshot = None
        self.cache._versions.give_up(self._txn)

    def _renew(self) -> None:
        """Begins the page again, of which nothing was shown."""
        self._has_renewed = True
        self._stamp = self._snapshot = None
        self._leave_snapshots()
        self.cache._versions.abort(self._txn)
        self.cache._look_again()
        self._txn, self._era = self.cache._begin(self.max_age, self.after)

    # ---- reads

    def _read(self, read: Read) -> List[Row]:
        if self._process != _process or not self._turn.acquire(False):
            raise self._not_its_turn("db")
        try:
            if not self._frames:
                raise RuntimeError("db is used after its function has returned")
            return self._read_within(self._frames[-1], read)
        finally:
            self._turn.release()

    def _read_within(self, frame: Frame, read: Read) -> List[Row]:
        self._refuse_after_failure(frame)
        try:
            if read.tags is None:
                return self._read_by_tables(frame, read)
            self._ask(frame, read.tags, read.wholes)
            return self._in_snapshot(lambda it: it.rows(read))
        except BaseException as error:
            self._failed = self._failed or error
            raise

    def within(self, frame: Frame, what: str, read: Callable[[], Any]) -> Any:
        """Reads for a function, which must be the one that runs."""
        if self._process != _process or not self._turn.acquire(False):
            raise self._not_its_turn(what)
        try:
            if not self._frames or self._frames[-1] is not frame:
                raise OutsideSnapshot(f"{what} of {frame.function.name} is used within another function: ask each function's own db")
            self._refuse_after_failure(frame)
            try:
                return read()
            except BaseException as error:
                self._failed = self._failed or error
                raise
        finally:
            self._turn.release()

    def _read_by_tables(self, frame: Frame, read: Read) -> List[Row]:
        refuse_time_and_chance(read.query)
        growth = self.cache._growth
        growth.has_asked(frame.function, read.query)
        tables = self._forms.tables(read.query)
        self._ask(frame, sorted(tables), sorted(tables))
        rows, touched = self._in_snapshot(lambda it: it.rows_and_tables(read.query, read.args))
        if touched - tables:
            growth.add_tables(read.query, touched)
            raise Again
        return rows

    def _ask(self, frame: Frame, tags: Sequence[str], wholes: Sequence[str]) -> None:
        """Asks the versions of tags, so that the library knows where the result holds."""
        for tag, whole in zip(tags, wholes):
            place = self.cache._places.of(tag if len(frame.places) < MAX_ROW_TAGS else whole)
            if place not in frame.places:
                self._count_ask(frame)
                self.cache._versions.ask(self._txn, place)
                frame.places.add(place)

    def _ask_once(self, frame: Frame) -> None:
        """Has a function that asked nothing ask for a place that never changes, since the library keeps only what depends on a row."""
        if not frame.asks:
            self._count_ask(frame)
            self.cache._versions.ask(self._txn, UNCHANGING_PLACE)

    def _stamp_now(self) -> Optional[int]:
        """Returns the stamp at which the next query runs."""
        if self._stamp is None:
            self._stamp = self.cache._versions.read_stamp(self._txn)
        return self._stamp

    def _snapshot_now(self) -> Snapshot:
        """Returns the snapshot in which the next query reads, which stays open for this page."""
        if self._snapshot is None:
            number, follower = self.cache._number_of(self._stamp_now()), self.cache._follower
            if number in self._uses:
                self._snapshot = follower.snapshot(number)
            else:
                self._snapshot = follower.use(number)
                self._uses = [*self._uses, number]
        return self._snapshot

    def _leave_snapshots(self) -> None:
        uses, self._uses = self._uses, ()
        for it in uses:
            self.cache._follower.leave(it)

    def _in_snapshot(self, read: Callable[[Snapshot], Any]) -> Any:
        """Reads in the snapshot of the next query. If that was closed meanwhile, for one in which nothing had changed, in that one."""
        snapshot = self._snapshot_now()
        try:
            return read(snapshot)
        except SnapshotLost:
            self._snapshot = None
            other = self._snapshot_now()
            if other is snapshot:
                raise
            return read(other)

    def _may_read(self, stamp: int) -> bool:
        at = 0
        while True:
            member = self.cache._versions.member(self._txn, at)
            if member is None or member[0] < stamp:
                return False
            if member[0] == stamp:
                return True
            at += 1

    # ---- audit

    def _audit(self) -> None:
        """Computes what was shown again, uncached, in the one snapshot of the receipt."""
        token = PAGE.set(self)
        try:
            self._direct = self.cache._follower.snapshot(self.receipt.snapshot)
            for function, args, named, data in self._shown:
                if not self._gives(function, args, named, data):
                    self._report(function, args)
        except SnapshotLost:
            pass  # nothing can be said of it any more
        finally:
            PAGE.reset(token)

    def _gives(self, function: "Function", args: Sequence[Any], named: Dict[str, Any], data: bytes) -> bool:
        """Returns True if a call gives now what was shown. Equal values may have other bytes, and values that know no equality have the same."""
        try:
            again = self._directly(function, args, named, lambda it: _values.encode(it, function.codec))
        except SnapshotLost:
            raise
        except Exception:
            LOG.exception("an audited function failed")
            return False
        return again == data or _values.decode(again, function.codec) == _values.decode(data, function.codec)

    def _report(self, function: "Function", args: Sequence[Any]) -> None:
        error = AuditError(f"{function.name}{tuple(args)!r} is not what it gives, uncached, in the snapshot {self.receipt.snapshot}")
        LOG.error("%s", error)
        self.cache.clear()
        if self.cache.on_audit_error is None:
            raise error
        self.cache.on_audit_error(error)
