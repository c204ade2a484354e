"""A hot standby: what a snapshot of it has seen, and how old that is.

A snapshot of a standby lists no transaction as in progress, so that its numbers alone do not say which ones it sees. The numbers of the transactions whose
notes it has, from its xmin on, say it: all below are over.
"""

import time
from collections import deque
from dataclasses import replace
from typing import TYPE_CHECKING, Deque, FrozenSet, Iterable, List, NamedTuple, Optional, Tuple

from ._driver import Link
from ._layout import literal
from .errors import NotInstalled, SnapshotRefused

if TYPE_CHECKING:
    from .postgres import Mark

MAX_SEEN = 100_000  # numbers that a follower remembers: beyond that it begins cold
CATCH_UP = 0.05  # seconds for which a look waits until all is replayed that had been received
NAP = 0.002  # seconds between two questions meanwhile
KEPT_PLACES = 64  # of the log, one of each look
NEVER = 1e9  # seconds behind, where nothing says how many
PROMOTED = "the standby was promoted"

# Of the notes that this snapshot sees and the last did not: the numbers of their transactions, and the tags of the followed tables.
_IS_NEW = "n.xact >= '{xmin}'::xid8 AND NOT EXISTS (SELECT FROM unnest('{{{seen}}}'::xid8[]) AS s WHERE s = n.xact)"
_FOLLOWED = """SELECT pg_is_in_recovery(), ARRAY(SELECT DISTINCT n.xact::text::bigint FROM txcache.notes n WHERE {is_new} LIMIT {most_numbers}),
    ARRAY(SELECT DISTINCT n.relation || ':' || k FROM txcache.notes n, unnest(''::text || n.keys) AS k
        WHERE {is_new} AND n.relation = ANY (ARRAY[{relations}]::text[]) LIMIT {most_tags})"""

# Where the log was replayed to and received to; whether the primary is connected; and how long ago the last transaction that was replayed had ended.
# The end that the primary told last is shown to roles that may read statistics.
_REPLAY = """
SELECT pg_is_in_recovery(), coalesce(pg_last_wal_replay_lsn() - '0/0', 0), coalesce(greatest(pg_last_wal_receive_lsn(), r.latest_end_lsn) - '0/0', 0),
    r.pid IS NOT NULL, extract(epoch FROM clock_timestamp() - pg_last_xact_replay_timestamp())::float8
FROM (SELECT) AS one LEFT JOIN pg_stat_wal_receiver r ON true
"""


def refuse(link: Link, command: str) -> None:
    """Fails with NotInstalled if the server is a standby, where nothing can be written."""
    if link.ask("SELECT pg_is_in_recovery()")[0][0]:
        raise NotInstalled([f"the server is a standby: run {command} on the primary"])


def _is_new(last: "Mark") -> str:
    """Returns the condition of notes that the snapshot of a mark does not have."""
    return _IS_NEW.format(xmin=last.xmin, seen=",".join(map(str, last.seen or ())))


def followed(link: Link, mark: "Mark", last: Optional["Mark"], relations: Iterable[str], most: int) -> Tuple["Mark", List[str]]:
    """Returns the mark of the snapshot that is open on a connection, with the numbers that it has seen, and the tags that it is the first to see, at most so many.
    Fails with SnapshotRefused if the server was promoted meanwhile, since the snapshot may be of either kind."""
    before = last or replace(mark, seen=frozenset())
    (is_standby, numbers, tags), = link.ask(_FOLLOWED.format(is_new=_is_new(before), relations=", ".join(map(literal, relations)), most_numbers=MAX_SEEN + 1, most_tags=most))
    if not is_standby:
        raise SnapshotRefused("the standby was promoted while its snapshot was taken")
    return replace(mark, seen=_still_of_use(before.seen.union(numbers), mark.xmin)), tags


def _still_of_use(seen: FrozenSet[int], xmin: int) -> FrozenSet[int]:
    return frozenset(it for it in seen if it >= xmin)


def why_cold(last: "Mark", mark: "Mark") -> str:
    """Returns why what changed between two snapshots of a standby is not known, or an empty text."""
    if mark.xmin < last.xmin:
        return "the server is another, or has begun anew"
    if len(last.seen or ()) > MAX_SEEN:
        return f"more than {MAX_SEEN} transactions ended while an older one was open on the primary"
    return ""


class _Found(NamedTuple):
    is_standby: bool
    replayed: int
    received: int
    is_connected: bool
    since: Optional[float]


class Replay:
    """The delay of a standby behind its primary. A look that found the primary connected knows one place of the log and when it had been received: once that is
    replayed, what the standby shows is no older."""

    def __init__(self) -> None:
        self._places: Deque[Tuple[float, int]] = deque(maxlen=KEPT_PLACES)

    def delay(self, link: Link) -> Optional[float]:
        """Returns how many seconds a snapshot that is taken next may be behind the primary; None if the server is none that replays. It waits for a moment
        until what had been received is replayed."""
        asked = time.monotonic()
        first = found = _found(link)
        if first.is_standby and first.is_connected:
            self._places.append((asked, first.received))
        while found.is_standby and first.is_connected and found.replayed < first.received and time.monotonic() < asked + CATCH_UP:
            time.sleep(NAP)
            found = _found(link)
        if not found.is_standby:
            self._places.clear()
            return None
        by_place = min((asked - when for when, place in self._places if place <= found.replayed), default=NEVER)
        return max(0.0, min(by_place, NEVER if found.since is None else found.since))


def _found(link: Link) -> _Found:
    (is_standby, replayed, received, is_connected, since), = link.ask(_REPLAY)
    return _Found(is_standby, int(replayed), int(received), is_connected, since)
