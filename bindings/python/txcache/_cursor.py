"""Cursors of a function's snapshot, of its own or of a framework, and what they refuse: all that would leave the snapshot."""

import contextlib
import re
import sqlite3
from typing import TYPE_CHECKING, Any, Iterator, List, Mapping, NamedTuple, Optional, Sequence, Union

from ._layout import QUOTED
from .errors import OutsideSnapshot

if TYPE_CHECKING:
    from ._driver import Link
    from ._hand import Hand

_READS = re.compile(r"[\s(]*(select|with|values|table)\b", re.I)
_READ_ONLY = "25006"  # of PostgreSQL's errors: a write in a transaction that only reads
_NO_FILE = sqlite3.connect(":memory:", check_same_thread=False)  # to which a cursor of SQLite belongs by name


class Source:
    """The makers of connections that run statements, and of their cursors: here as the store makes its own. Connections of one source are lent to no other."""

    settings = ""  # what each transaction on PostgreSQL sets for itself, in SQL

    def connect(self, store: Any) -> "Link":
        """Returns a new connection to a PostgreSQL store."""
        return store.connect()

    def prepare(self, link: sqlite3.Connection) -> None:
        """Gives a connection to a SQLite store the functions that statements call."""

    def cursor(self, connection: Any, statement: "Statement") -> Any:
        """Returns a cursor of the driver."""
        found = connection.cursor(**statement.words)
        for name, value in statement.attributes.items():
            setattr(found, name, value)
        return found


OWN = Source()


class Statement(NamedTuple):
    """A statement that a function runs; its arguments, where it has some; and how its cursor is made: `words` are those of the driver's `cursor()`."""

    query: str
    args: Union[None, Sequence[Any], Mapping[str, Any]]
    source: Source = OWN
    words: Mapping[str, Any] = {}
    attributes: Mapping[str, Any] = {}


class Result(NamedTuple):
    """All that a statement gave."""

    description: Any
    rows: List[Any]
    count: int


def run(connection: Any, it: Statement) -> Result:
    """Runs a statement, and fetches all that it gives."""
    with contextlib.closing(it.source.cursor(connection, it)) as cursor:
        cursor.execute(*((it.query,) if it.args is None else (it.query, it.args)))
        return Result(cursor.description, cursor.fetchall() if cursor.description else [], cursor.rowcount)


def refuse_all_but_reading(query: Any, name: str) -> None:
    """Fails with OutsideSnapshot if a text is not one query that reads; with TypeError if it is no text."""
    if not isinstance(query, str):
        raise TypeError(f"a query of {name} is a str, and not {type(query).__name__}: of a composed one give as_string(..)")
    plain = QUOTED.sub(" ", query)
    if re.search(r";\s*\S", plain):
        raise OutsideSnapshot(f"{query[:64]!r} in {name} is more than one statement: execute each by itself")
    if not _READS.match(plain):
        raise OutsideSnapshot(f"{query[:64]!r} in {name} is no query that reads: a cacheable function asks SELECT, WITH, VALUES or TABLE alone; "
                              "write outside of it, by a connection of your own")


def is_write(error: BaseException) -> bool:
    """Returns True if the database refused a statement since it writes."""
    state = getattr(error, "sqlstate", None) or getattr(error, "pgcode", None)
    return state == _READ_ONLY or isinstance(error, sqlite3.OperationalError) and "readonly database" in str(error)


class Connection:
    """The stand-in for a connection: it gives cursors, and refuses all that would leave the snapshot."""

    closed, notices = 0, ()

    def __init__(self, hand: "Hand", source: Source = OWN):
        self._hand, self._source = hand, source

    def cursor(self, *_: Any, **words: Any) -> "Cursor":
        return self._hand.cursor(self._source, {name: it for name, it in words.items() if name in ("cursor_factory", "row_factory")})

    @property
    def autocommit(self) -> bool:
        return True

    @autocommit.setter
    def autocommit(self, is_on: bool) -> None:
        if not is_on:
            self._hand.refuse("autocommit = False")

    def close(self) -> None:
        """Does nothing: the connection is the snapshot's."""

    def __getattr__(self, name: str) -> Any:
        if name.startswith("_"):
            raise AttributeError(name)
        self._hand.refuse(name)


class Cursor:
    """A DB-API cursor that reads in the snapshot of one call of a function. It fetches as it executes, so nothing is read later. `row_factory` and
    `tzinfo_factory`, once set, are set of the driver's cursor."""

    arraysize, description, rowcount, lastrowid, query = 1, None, -1, None, None
    _settable = "row_factory", "tzinfo_factory"

    def __init__(self, hand: "Hand", source: Source = OWN, words: Optional[Mapping[str, Any]] = None):
        self._hand, self._source, self._words, self._rows = hand, source, words or {}, None

    @property
    def connection(self) -> Connection:
        return Connection(self._hand, self._source)

    def execute(self, query: str, args: Any = None, **_: Any) -> "Cursor":
        """Runs one query that reads. Fails with OutsideSnapshot if it is another statement, or its function has returned."""
        self._rows = None
        attributes = {name: it for name in self._settable if (it := getattr(self, name, None)) is not None}
        found = self._hand.execute(Statement(query, args, self._source, self._words, attributes))
        self.description, self._rows, self.rowcount = found.description, iter(found.rows), found.count
        return self

    def _given(self) -> Iterator[Any]:
        self._hand.refuse_if_over("the cursor")
        if self._rows is None:
            raise ValueError("the cursor has no rows: execute a query first")
        return self._rows

    def fetchone(self) -> Any:
        return next(self._given(), None)

    def fetchmany(self, size: Optional[int] = None) -> List[Any]:
        rows = self._given()
        return [it for _, it in zip(range(self.arraysize if size is None else size), rows)]

    def fetchall(self) -> List[Any]:
        return list(self._given())

    def __iter__(self) -> "Cursor":
        return self

    def __next__(self) -> Any:
        return next(self._given())

    def close(self) -> None:
        self._rows = None

    def __enter__(self) -> "Cursor":
        return self

    def __exit__(self, *_: Any) -> None:
        self.close()

    def setinputsizes(self, *_: Any) -> None:
        """Does nothing, as DB-API allows."""

    setoutputsize = setinputsizes

    def _refused(self, name: str) -> None:
        self._hand.refuse(f"cursor.{name}")

    def executemany(self, *_: Any, **__: Any) -> Any:
        self._refused("executemany")

    def executescript(self, *_: Any, **__: Any) -> Any:
        self._refused("executescript")

    def callproc(self, *_: Any, **__: Any) -> Any:
        self._refused("callproc")

    def __getattr__(self, name: str) -> Any:
        if name.startswith("_") or name in Cursor._settable:
            raise AttributeError(name)
        self._refused(name)


class SqliteCursor(Cursor, sqlite3.Cursor):
    """The same of a SQLite file: a `sqlite3.Cursor` by its type."""

    def __init__(self, hand: "Hand", source: Source = OWN, words: Optional[Mapping[str, Any]] = None):
        sqlite3.Cursor.__init__(self, _NO_FILE)
        Cursor.__init__(self, hand, source, words)
