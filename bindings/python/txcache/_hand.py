"""The reads of one call of a function by cursors: in its snapshot, and asked of the version table before."""

from typing import TYPE_CHECKING, Any, Callable, List, Mapping, NoReturn, Optional

from ._computing import Again, Frame
from ._cursor import OWN, Cursor, Result, Source, Statement, is_write, refuse_all_but_reading
from ._layout import refuse_time_and_chance
from .errors import OutsideSnapshot

if TYPE_CHECKING:
    from ._page import Page
    from ._store import Snapshot

INSTEAD = "a cacheable function reads in one snapshot, which ends by itself; write outside of it, by a connection of your own"


class Hand:
    """Runs the statements of one call of a function, until that has returned. Its reads are found by each statement, unless it `is_named`."""

    __slots__ = "name", "store", "is_over", "is_named", "_has_run", "_ends"

    def __init__(self, name: str, store: Any):
        self.name, self.store = name, store
        self.is_over = self.is_named = self._has_run = False
        self._ends: Optional[List[Callable[[], None]]] = None

    def cursor(self, source: Source = OWN, words: Optional[Mapping[str, Any]] = None) -> Cursor:
        self.refuse_if_over("db.cursor()")
        return self.store.cursor_kind(self, source, words)

    def reads(self, tags: Mapping[str, str]) -> None:
        """Has cursors read what is named from now on, with nothing looked up: tags, each with its table's."""
        self.refuse_if_over("db.reads()")
        if self._has_run:
            raise ValueError(f"db.reads(..) in {self.name} comes after a cursor has read: call it before")
        self.is_named = True
        self._ask(tags)

    def execute(self, statement: Statement) -> Result:
        """Runs a statement. Fails with OutsideSnapshot if it is no query that reads, or the function has returned."""
        self.refuse_if_over("a cursor")
        refuse_all_but_reading(statement.query, self.name)
        if not self.is_named:
            refuse_time_and_chance(statement.query)
        self._has_run = True
        try:
            return self._run(statement)
        except Exception as error:
            if is_write(error):
                raise OutsideSnapshot(f"{statement.query[:64]!r} in {self.name} writes: {INSTEAD}") from error
            raise

    def _ask(self, tags: Mapping[str, str]) -> None:
        """Notes what is read, if a result depends on it."""

    def _run(self, statement: Statement) -> Result:
        raise NotImplementedError

    def refuse(self, what: str) -> NoReturn:
        """Fails with OutsideSnapshot: what was asked would leave the snapshot."""
        self.refuse_if_over(what)
        raise OutsideSnapshot(f"{what} in {self.name} would leave its snapshot: {INSTEAD}")

    def refuse_if_over(self, what: str) -> None:
        if self.is_over:
            raise OutsideSnapshot(f"{what} is used after {self.name} has returned: ask for another in each function, and let the function return rows")

    def at_end(self, end: Callable[[], None]) -> None:
        """Has something be called once the function has returned, or failed, before its value is kept."""
        self._ends = [*(self._ends or ()), end]

    def has_returned(self) -> None:
        """Ends what was opened by `at_end`. Its value may read until it is kept, as a queryset does."""
        while self._ends:
            self._ends.pop()()

    def close(self) -> None:
        try:
            self.has_returned()
        finally:
            self.is_over = True


class HandOfSnapshot(Hand):
    """Reads with no cache, in one snapshot, and keeps no account of what it reads."""

    __slots__ = ("_snapshot",)

    def __init__(self, snapshot: "Snapshot", name: str, store: Any):
        super().__init__(name, store)
        self._snapshot = snapshot

    def _run(self, statement: Statement) -> Result:
        return self._snapshot.by_hand(statement, self.is_named)[0]


class HandOfFrame(Hand):
    """The hand of a function that is computed for a page. The function remembers the tables that its statements were found to read."""

    __slots__ = "_page", "_frame"

    def __init__(self, page: "Page", frame: Frame):
        super().__init__(frame.function.name, page.cache.store)
        self._page, self._frame = page, frame

    def _ask(self, tags: Mapping[str, str]) -> None:
        self._page.within(self._frame, "db.reads()", lambda: self._page._ask(self._frame, list(tags), list(tags.values())))

    def _run(self, statement: Statement) -> Result:
        return self._page.within(self._frame, "a cursor", lambda: self._named(statement) if self.is_named else self._found(statement))

    def _named(self, statement: Statement) -> Result:
        return self._page._in_snapshot(lambda it: it.by_hand(statement, True))[0]

    def _found(self, statement: Statement) -> Result:
        page, function = self._page, self._frame.function
        page.cache._growth.has_asked(function, function)
        tables = sorted(page._forms.tables(function))
        page._ask(self._frame, tables, tables)
        result, touched = page._in_snapshot(lambda it: it.by_hand(statement, False))
        if touched.difference(tables):
            page.cache._growth.add_tables(function, touched)
            raise Again
        return result
