"""For how long the library's calls keep the interpreter's lock, which is the only one that all threads of a cache want: each call's longest time."""

import contextlib
import os
import threading
import time
from typing import Any, Callable, Dict, Iterator, NamedTuple
from unittest import mock


class Hold(NamedTuple):
    """A call of the library, and the milliseconds of the processor's time that it took; beside those its thread stood in the queue for a core of the machine
    for so many, since other processes ran there."""

    section: str
    ms: float
    queued: float

    def said(self) -> Dict[str, Any]:
        return {name: it if isinstance(it, str) else round(it, 2) for name, it in self._asdict().items()}


NONE = Hold("", 0.0, 0.0)


class Holds:
    """The longest hold of each call. No thread takes the interpreter's lock away within one: they are calls of C that keep it."""

    def __init__(self) -> None:
        self._own = threading.local()
        self.by_section: Dict[str, Hold] = {}

    def _queued(self) -> float:
        file = getattr(self._own, "file", None)
        if file is None:
            file = self._own.file = os.open("/proc/thread-self/schedstat", os.O_RDONLY)
        return int(os.pread(file, 64, 0).split()[1]) / 1e6

    def timed(self, call: Callable[..., int]) -> Callable[..., int]:
        name = call.__name__

        def run(*words: Any) -> int:
            queued, worked = self._queued(), time.thread_time()
            number = call(*words)
            hold = Hold(name, (time.thread_time() - worked) * 1e3, self._queued() - queued)
            if hold.ms > self.by_section.get(name, NONE).ms:
                self.by_section[name] = hold
            return number

        run.__name__ = name
        return run

    @property
    def longest(self) -> Hold:
        return max(self.by_section.values(), key=lambda it: it.ms, default=NONE)

    @contextlib.contextmanager
    def watching(self) -> Iterator["Holds"]:
        """Has the calls of all caches timed."""
        from txcache import _versions

        with contextlib.ExitStack() as stack:
            for name, call in list(vars(_versions._TXC).items()):
                stack.enter_context(mock.patch.object(_versions._TXC, name, self.timed(call)))
            for name in _versions._QUICK:
                stack.enter_context(mock.patch.object(_versions, f"_{name.upper()}", getattr(_versions._TXC, f"quick_{name}")))
            yield self
