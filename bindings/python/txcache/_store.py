"""The database as a cache follows it: the snapshots of a database, and what changed between one and the next."""

from typing import TYPE_CHECKING, Any, FrozenSet, List, NamedTuple, Optional, Protocol, Sequence, Tuple

from ._layout import Db, Layout, Read, Row, refuse_time_and_chance

if TYPE_CHECKING:
    from ._cursor import Result, Statement
    from ._hand import Hand

MAX_TAGS = 20_000  # tags of one step: a step of more begins cold
PURGE_AGE = 600.0  # seconds: notes that an older purge saw the end of are deleted


class Snapshot(Protocol):
    """An open read-only transaction: all that is read through it is of one moment."""

    layout: Layout
    is_lost: bool  # True once a read has found that its transaction has ended: then the next look takes its place

    def rows(self, read: Read) -> List[Row]:
        """Returns the rows of a query."""

    def rows_and_tables(self, query: str, args: Sequence[Any]) -> Tuple[List[Row], FrozenSet[str]]:
        """Returns the rows of a query, and the tables that it read, by their tags."""

    def by_hand(self, statement: "Statement", is_named: bool) -> "Tuple[Result, FrozenSet[str]]":
        """Returns what a statement gives; and the tables that it read, by their tags, unless those were named."""

    def close(self) -> None:
        """Lets it go."""


class Look(NamedTuple):
    """A new snapshot, where it stands among the database's commits, and the tags of what changed since the last; None and why where that
    is not known, and all that is cached must go. No snapshot if nothing has changed since, and none was asked for. `delay` is how many seconds
    before it was taken it may stand, as on a server that follows another."""

    snapshot: Optional[Snapshot]
    mark: Any
    tags: Optional[FrozenSet[str]]
    reason: str = ""
    delay: float = 0.0


class Store(Protocol):
    """A database beside which a service caches. `cursor_kind` makes its cursors."""

    cursor_kind: Any

    def prepare(self, connections: int, hold: float) -> None:
        """Has at most so many connections read, and snapshots that stay open for so many seconds."""

    def forget(self) -> Any:
        """Begins with nothing open, in a child after a fork. Returns all that its parent has open, which it may neither use nor close."""

    def purge(self, age: float) -> int:
        """Deletes the notes that a purge of so many seconds ago saw the end of. Returns how many."""

    def look(self, last: Any, is_wanted: bool = True) -> Look:
        """Takes a snapshot, and says what changed since the mark of the last. Fails with SnapshotRefused, SnapshotLost or NotInstalled."""

    def wants_air(self, is_read: bool) -> bool:
        """Returns True if all snapshots must be closed, and `air` called. It waits for longer if a page is open, which may lose one."""

    def air(self) -> None:
        """Does what no snapshot may be open for."""

    def sees(self, mark: Any, token: str) -> bool:
        """Returns True if the snapshot of the mark sees the transaction of the token."""

    def close(self) -> None:
        """Closes all connections."""


def db_of(snapshot: Snapshot, hand: "Optional[Hand]" = None) -> Db:
    """Returns the reads of a snapshot with no cache."""

    def run(read: Read) -> List[Row]:
        if read.tags is not None:
            return snapshot.rows(read)
        refuse_time_and_chance(read.query)
        return snapshot.rows_and_tables(read.query, read.args)[0]

    return Db(snapshot.layout, run, hand)
