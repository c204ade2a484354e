"""The work of threads: the functions that stand open, the calls that others may wait for, and the word to make a call again."""

import threading
from typing import TYPE_CHECKING, Any, Callable, Dict, List, Optional, Sequence, Set

if TYPE_CHECKING:
    from ._function import Function


class Again(BaseException):
    """The outermost call is to be made again: forms have grown, or what it calls is cached by now. No function is to catch it."""


class Frame:
    """A function that is computed: the places that it asked, and how many things in all."""

    __slots__ = "function", "args", "named", "level", "places", "asks"

    def __init__(self, function: "Function", args: Sequence[Any], named: Dict[str, Any], level: int):
        self.function, self.args, self.named, self.level, self.asks = function, args, named, level, 0
        self.places: Set[int] = set()


class Work:
    """A call that a thread computes, in the snapshot of a stamp. `turn` is held until it has ended."""

    __slots__ = "stamp", "owner", "turn"

    def __init__(self, stamp: Optional[int]):
        self.stamp, self.owner, self.turn = stamp, threading.get_ident(), threading.Lock()
        self.turn.acquire()


class Works:
    """The calls that are computed now, by their keys."""

    def __init__(self) -> None:
        self.known: Dict[bytes, List[Work]] = {}
        self._lock = threading.Lock()

    def wait(self, key: bytes, may_read: Callable[[int], bool]) -> None:
        """Waits for another thread that computes the call in a snapshot which the page may read too. Calls go down by levels, so no threads wait in a circle."""
        with self._lock:
            works = list(self.known.get(key, ()))
        found = next((it for it in works if it.stamp is not None and it.owner != threading.get_ident() and may_read(it.stamp)), None)
        if found:
            with found.turn:
                pass

    def begin(self, key: bytes, stamp: Optional[int]) -> Work:
        work = Work(stamp)
        with self._lock:
            self.known.setdefault(key, []).append(work)
        return work

    def end(self, key: bytes, work: Work) -> None:
        with self._lock:
            left = self.known[key]
            left.remove(work)
            if not left:
                del self.known[key]
        work.turn.release()
