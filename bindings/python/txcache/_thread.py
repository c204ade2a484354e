"""The thread of a cache: it looks at the database while pages are read, and trims."""

import logging
import threading
import time
from typing import TYPE_CHECKING, Callable, Optional

from .errors import NotInstalled, SnapshotLost

if TYPE_CHECKING:
    from .cache import TxCache

LOG = logging.getLogger("txcache")


class Bell:
    """The signal that the thread of a cache waits for, beside the time: that something is to be trimmed, or that it is to end."""

    def __init__(self) -> None:
        self._event, self.has_ended = threading.Event(), False

    def ring(self) -> None:
        self._event.set()

    def end(self) -> None:
        self.has_ended = True
        self._event.set()

    def wait(self, seconds: float) -> None:
        self._event.wait(seconds)
        self._event.clear()


def keep_looking(cache_of: Callable[[], Optional["TxCache"]], bell: Bell, refresh: float) -> None:
    """The thread of a cache, which ends with it."""
    last, due = "", time.monotonic() + refresh
    while True:
        bell.wait(max(0.0, due - time.monotonic()))
        cache = cache_of()
        if cache is None or bell.has_ended:
            return
        is_due = time.monotonic() >= due
        last = _beside_pages(cache, bell, is_due, last)
        if is_due:
            due = time.monotonic() + refresh
        del cache


def _beside_pages(cache: "TxCache", bell: Bell, is_due: bool, last: str) -> str:
    """Looks at the database, if that is due, and trims. Returns what the triggers lack, which is logged if it is another than the last time."""
    try:
        if is_due:
            cache._rest_or_look()
        cache._trim()
    except SnapshotLost:
        pass  # the follower has logged it
    except NotInstalled as error:
        if str(error) != last:
            LOG.error("no page takes a snapshot until the triggers are intact: %s", error)
        return str(error)
    except Exception:
        if not bell.has_ended:
            LOG.exception("the database was not looked at")
    return last if not is_due else ""
