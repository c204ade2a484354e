"""The snapshots that are open, in their order, and the steps from one to the next."""

import logging
import threading
import time
from dataclasses import dataclass
from typing import Any, Callable, Dict, FrozenSet, List, NamedTuple, Optional

from ._store import Snapshot, Store
from .errors import SnapshotLost, SnapshotRefused

LOG = logging.getLogger("txcache")
AIR_EVERY = 0.1  # seconds: more often the store is not asked whether it wants all snapshots to be let go


class Step(NamedTuple):
    """The result of a look: the snapshot's number, a moment of which it has all commits, and the tags that it is the first to see changed. Where `cold` says
    why, nothing is known of what changed, and all that is cached must go."""

    number: int
    moment: float
    tags: FrozenSet[str]
    cold: str


@dataclass
class _Held:
    number: int
    snapshot: Snapshot
    taken: float


class Follower:
    """Looks at a store. A snapshot has the number of its step. One in which nothing has changed has the number of the one before, and takes its place once
    that is half as old as it may be. None stays open for longer than `hold` seconds, if its owner looks every `every` seconds. `is_read` returns True if a page
    is open, which may lose a snapshot."""

    def __init__(self, store: Store, hold: float, clock: Callable[[], float] = time.monotonic, every: float = 0.0, is_read: Callable[[], bool] = lambda: True):
        if hold <= 0:
            raise ValueError(f"hold is {hold} seconds, and is more than 0")
        self.store, self.hold, self._clock, self._every, self._is_read = store, hold, clock, min(every, hold / 4), is_read
        self._held: List[_Held] = []
        self._lock, self._looks = threading.Lock(), threading.Lock()
        self._mark: Any = None
        self._forgotten = ""  # why the mark was dropped, until a snapshot is taken again
        self._number, self._aired, self._shown = 0, float("-inf"), float("-inf")
        self._uses: Dict[int, int] = {}
        self.oldest: Optional[int] = None  # the number from which on all snapshots are open

    def look(self) -> Step:
        """Takes a new snapshot. Fails with SnapshotRefused, and closes all so that a transaction that changes a table continues; with SnapshotLost
        if the server is away; with NotInstalled. After each the next look follows on from the last snapshot that was taken."""
        with self._looks:
            self._let_old_go()
            moment = self._clock()
            if moment - self._aired > AIR_EVERY:
                self._aired = moment
                if self.store.wants_air(self._is_read()):
                    self.let_go()
                    self.store.air()
                    moment = self._clock()
            try:
                found = self.store.look(self._mark, is_wanted=not self._held or self._is_half_old())
            except SnapshotRefused as error:
                self.let_go()
                LOG.warning("no snapshot was taken, and all are let go: %s", error)
                raise
            except SnapshotLost as error:
                LOG.warning("the database did not answer: %s", error)
                raise
            except Exception as error:
                self.forget(f"a look failed: {str(error) or type(error).__name__}")
                raise
            if found.tags is None:
                found = found._replace(reason=self._forgotten or found.reason)
                LOG.log(logging.WARNING if self._number else logging.INFO, "the cache begins cold: %s", found.reason)
                self.let_go()
            self._mark, self._forgotten = found.mark, ""
            # of one server, what a later snapshot shows is no older
            self._shown = moment - found.delay if found.tags is None else max(self._shown, moment - found.delay)
            return self._taken(found.snapshot, moment, found.tags, found.reason)._replace(moment=self._shown)

    def _taken(self, snapshot: Optional[Snapshot], moment: float, tags: Optional[FrozenSet[str]], reason: str) -> Step:
        with self._lock:
            if tags is None or tags or not self._number:
                self._number += 1
            number = self._number
            before = next((it for it in self._held if it.number == number), None)
            over = before.snapshot if before else None
            if before and snapshot and not before.snapshot.is_lost and moment - before.taken <= self.hold / 2:
                over = snapshot  # the one before is young, and connections have joined it
            elif snapshot:
                self._held = [it for it in self._held if it is not before] + [_Held(number, snapshot, moment)]
                self.oldest = self._first_of_all_open()
            else:
                over = None
        if over:
            over.close()
        return Step(number, moment, tags or frozenset(), reason)

    def _is_half_old(self) -> bool:
        """Returns True if the newest snapshot is to be replaced, though nothing may have changed."""
        with self._lock:
            last = self._held[-1] if self._held else None
            return last is None or last.snapshot.is_lost or self._clock() - last.taken > self.hold / 2

    def _first_of_all_open(self) -> Optional[int]:
        numbers = [it.number for it in self._held]
        for number, after in zip(numbers[-2::-1], numbers[:0:-1]):
            if number != after - 1:
                return after
        return numbers[0] if numbers else None

    def _let_old_go(self) -> None:
        """Closes the snapshots that would be too old before the next look."""
        limit = self._clock() - self.hold + self._every
        if self._held and self._held[0].taken < limit:
            self._close_if(lambda it: it.taken < limit)

    def trim(self, most: int, most_used: int) -> None:
        """Closes the oldest snapshots that no page uses, so that at most `most` are open, and then the oldest, so that at most `most_used` are."""
        count = len(self._held) - most
        if count == 1 and not self._uses:
            over = {self._held[0].number}
        elif count > 0:
            numbers = self.numbers
            spare = [it for it in numbers[:-1] if not self._uses.get(it)][:count]
            left = [it for it in numbers if it not in spare]
            over = {*spare, *left[:-most_used]}
        else:
            return
        self._close_if(lambda it: it.number in over)

    def use(self, number: int) -> Snapshot:
        """Returns the snapshot of a number, and has it stay open beyond those that are, until it is left. Fails with SnapshotLost if it is open no more."""
        with self._lock:
            found = self._found(number)
            self._uses[number] = self._uses.get(number, 0) + 1
            return found

    def leave(self, number: int) -> None:
        with self._lock:
            self._uses[number] = self._uses.get(number, 1) - 1
            if not self._uses[number]:
                del self._uses[number]

    def let_go(self, below: Optional[int] = None) -> None:
        """Closes the snapshots below a number, or all, also those in use. The cached results stay, and the next look follows on."""
        self._close_if(lambda it: below is None or it.number < below)

    def _close_if(self, is_over: Callable[[_Held], bool]) -> None:
        with self._lock:
            over = [it for it in self._held if is_over(it)]
            self._held = [it for it in self._held if not is_over(it)]
            self.oldest = self._first_of_all_open()
        for it in over:
            it.snapshot.close()

    def snapshot(self, number: int) -> Snapshot:
        """Returns the snapshot of a number. Fails with SnapshotLost if it is open no more."""
        with self._lock:
            return self._found(number)

    def _found(self, number: int) -> Snapshot:
        for it in self._held:
            if it.number == number:
                return it.snapshot
        raise SnapshotLost(f"the snapshot {number} is closed; open are {', '.join(str(it.number) for it in self._held) or 'none'}")

    @property
    def mark(self) -> Any:
        """Where the newest snapshot stands among the store's commits."""
        return self._mark

    def forget(self, reason: str) -> None:
        """Has the next look begin cold, for this reason."""
        self.let_go()
        self._mark, self._forgotten = None, reason

    @property
    def numbers(self) -> List[int]:
        """The numbers of the snapshots that are open, the oldest first."""
        with self._lock:
            return [it.number for it in self._held]

    def close(self) -> None:
        with self._looks:
            self.let_go()
            self._mark = None
        self.store.close()
