"""Exceptions of the package, beside the errors of a service's own functions and queries."""

from typing import Iterable


class TxCacheError(Exception):
    """An error of the cache itself."""


class NotInstalled(TxCacheError):
    """The database is not as `install` leaves it. `lines` has a line for each fault."""

    def __init__(self, lines: Iterable[str]):
        self.lines = list(lines)
        super().__init__("; ".join(self.lines))


class SnapshotLost(TxCacheError):
    """A snapshot of the database ended before its time: its connection was lost, or it was closed."""


class SnapshotRefused(SnapshotLost):
    """No snapshot was taken, since another transaction holds a lock on a table, as an ALTER TABLE does, or waits for one."""


class OutsideSnapshot(TxCacheError, RuntimeError):
    """A statement would leave the snapshot of a cacheable function, as a write or a commit does; or the function has returned, or none runs."""


class NotSeen(TxCacheError):
    """A new snapshot does not see the transaction of a token: it has not committed, or wrote into another database."""


class AuditError(TxCacheError):
    """A value that a page was shown is not what its function gives, uncached, in the snapshot of the page's receipt."""
