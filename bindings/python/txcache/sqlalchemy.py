"""Sessions of SQLAlchemy in the snapshot of a cacheable function.

    from txcache.sqlalchemy import session

    @cache.cacheable
    def bids(db, item):
        return session(db).query(Bid).filter_by(item_id=item).all()

Their reads are found and remembered as what `db.cursor()` reads, or named by `db.reads(..)`. Rows that a function returns are detached: what it is to show
of their relationships it loads itself, by `joinedload` or its like.
"""

import contextvars
import importlib.util
import sqlite3
import threading
from typing import Any, Optional, Sequence

from ._cursor import Connection as DbConnection
from ._cursor import Source
from ._driver import Link
from ._hand import INSTEAD, Hand
from .errors import OutsideSnapshot, SnapshotLost

try:
    from sqlalchemy import create_engine
    from sqlalchemy.engine import Engine
    from sqlalchemy.exc import DBAPIError
    from sqlalchemy.orm import Session
    from sqlalchemy.pool import NullPool
except ImportError as error:
    raise ImportError("txcache.sqlalchemy needs SQLAlchemy 1.4 or later: apt-get install python3-sqlalchemy, or pip install 'txcache[sqlalchemy]'") from error

__all__ = ["SnapshotSession", "session"]
_HAND: "contextvars.ContextVar[Optional[Hand]]" = contextvars.ContextVar("txcache_sqlalchemy", default=None)  # for which a connection is made


def session(db: Any, **words: Any) -> "SnapshotSession":
    """Returns a session that reads in the snapshot of the function whose `db` this is, until that returns. `words` are those of SQLAlchemy's `Session`."""
    hand: Hand = db.hand
    hand.refuse_if_over("session(db)")
    found = SnapshotSession(hand, _engine_of(hand.store), words)
    hand.at_end(found.end)
    return found


class SnapshotSession(Session):
    """A session that only reads. A flush, a commit and a rollback fail with OutsideSnapshot."""

    def __init__(self, hand: Hand, engine: "_Engine", words: Any):
        self._hand, token = hand, _HAND.set(hand)
        try:
            self._connection = engine.of_snapshots.connect()
        finally:
            _HAND.reset(token)
        self._facade = self._connection.connection.dbapi_connection
        super().__init__(bind=self._connection, **words)

    def get_bind(self, *args: Any, **words: Any) -> Any:
        self._hand.refuse_if_over("the session")
        return super().get_bind(*args, **words)

    def flush(self, objects: Optional[Sequence[Any]] = None) -> None:
        if not self._is_clean():
            self._hand.refuse("session.flush()")

    def commit(self) -> None:
        self._hand.refuse("session.commit()")

    def rollback(self) -> None:
        self._hand.refuse("session.rollback()")

    def begin_nested(self) -> None:
        self._hand.refuse("session.begin_nested()")

    def close(self) -> None:
        """Detaches what was read. It ends no transaction, since that is the snapshot's."""
        self._facade.is_ending = True
        try:
            super().close()
        finally:
            self._facade.is_ending = False

    def end(self) -> None:
        """Detaches the rows that a function returns, once it has returned, so that to keep them asks nothing."""
        self.close()
        self._facade.is_ending = True
        self._connection.close()


class _Facade(DbConnection):
    """The connection that SQLAlchemy sees. The end of a session asks for a rollback, which is none."""

    is_ending, encoding = False, "UTF8"

    def rollback(self) -> None:
        if not self.is_ending:
            self._hand.refuse("rollback")


class _Engine(Source):
    """The parts of SQLAlchemy for one store: an engine that opens connections, as SQLAlchemy prepares them, to join snapshots; and one whose connections are
    those of functions."""

    def __init__(self, store: Any):
        is_file = hasattr(store, "path")
        self._driver = "sqlite3" if is_file else next((it for it in ("psycopg2", "psycopg") if importlib.util.find_spec(it)), "psycopg2")
        url = "sqlite://" if is_file else f"postgresql+{self._driver}://"
        open_one = store._connect if is_file else lambda: importlib.import_module(self._driver).connect(store.dsn)
        self._opening = create_engine(url, creator=open_one, poolclass=NullPool)
        with self._opening.connect():
            pass  # SQLAlchemy asks for the server's version, over a connection that joins nothing
        self.of_snapshots = Engine(NullPool(_facade, dialect=self._opening.dialect, reset_on_return=None), self._opening.dialect, self._opening.url)

    def connect(self, store: Any) -> Link:
        fairy = self._opening.raw_connection()
        fairy.detach()
        return Link.over(fairy.dbapi_connection, self._driver)

    def prepare(self, link: sqlite3.Connection) -> None:
        prepare = self._opening.dialect.on_connect()
        if prepare:
            prepare(link)


def _facade() -> _Facade:
    hand = _HAND.get()
    if hand is None:
        raise OutsideSnapshot(f"a connection of txcache.sqlalchemy is opened outside of session(db): {INSTEAD}")
    return _Facade(hand, _engine_of(hand.store))


_LOCK = threading.Lock()


def _engine_of(store: Any) -> _Engine:
    found = vars(store).get("_of_sqlalchemy")
    if found is None:
        with _LOCK:
            found = vars(store).get("_of_sqlalchemy")
            if found is None:
                try:
                    found = store._of_sqlalchemy = _Engine(store)
                except DBAPIError as error:
                    raise SnapshotLost(f"no connection for SQLAlchemy: {error.orig}") from error
    return found
