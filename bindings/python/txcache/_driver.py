"""A connection to PostgreSQL by psycopg 3 or psycopg2, whichever there is."""

import importlib
import importlib.util
import threading
from typing import Any, List, Optional, Sequence, Tuple

from ._cursor import Result, Statement, run

DRIVERS = "psycopg", "psycopg2"
_BYTEA = 17
_IDLE = 0  # of libpq's statuses of a transaction


def drivers() -> List[str]:
    """Returns the names of the drivers that this Python has."""
    return [it for it in DRIVERS if importlib.util.find_spec(it)]


class Link:
    """A connection in which each statement is a transaction of its own unless BEGIN says otherwise. Threads take turns by `lock`."""

    def __init__(self, dsn: str, driver: Optional[str] = None):
        name = driver or next(iter(drivers()), None)
        if name is None:
            raise ImportError("there is no driver of PostgreSQL: install psycopg, or psycopg2")
        self._take(importlib.import_module(name).connect(dsn), name)

    @classmethod
    def over(cls, connection: Any, driver: str) -> "Link":
        """Returns a link over a connection that a driver has opened."""
        link = cls.__new__(cls)
        link._take(connection, driver)
        return link

    def _take(self, connection: Any, name: str) -> None:
        self.driver, self.lock, self._connection = importlib.import_module(name), threading.RLock(), connection
        self._connection.autocommit = True
        self._has_sets = name == "psycopg"  # psycopg2 keeps the rows of the last statement alone
        if name == "psycopg":
            self._connection.prepare_threshold = None  # nothing is prepared, so a pooler may lend each transaction another connection
        else:
            extensions = importlib.import_module("psycopg2.extensions")
            as_bytes = extensions.new_type((_BYTEA,), "BYTES", lambda value, cursor: None if value is None else bytes(self.driver.BINARY(value, cursor)))
            extensions.register_type(as_bytes, self._connection)

    def ask(self, text: str, args: Sequence[Any] = ()) -> List[Tuple[Any, ...]]:
        """Returns the rows of a statement."""
        return self.named(text, args)[1]

    def run(self, statement: Statement) -> Result:
        """Returns all that the statement of a function gives, over a cursor of the kind that the statement names."""
        with self.lock:
            return run(self._connection, statement)

    def named(self, text: str, args: Sequence[Any] = ()) -> Tuple[List[str], List[Tuple[Any, ...]]]:
        """Returns the names of the columns of a statement, and its rows."""
        with self.lock, self._connection.cursor() as cursor:
            cursor.execute(text, tuple(args) or None)
            if cursor.description is None:
                return [], []
            return [it[0] for it in cursor.description], cursor.fetchall()

    def last(self, text: str) -> List[Tuple[Any, ...]]:
        """Returns the rows of the last of some statements, which go to the server at once."""
        with self.lock, self._connection.cursor() as cursor:
            cursor.execute(text)
            while self._has_sets and cursor.nextset():
                pass
            return cursor.fetchall()

    @property
    def is_idle(self) -> bool:
        """True if no transaction is open."""
        return int(self._connection.info.transaction_status) == _IDLE

    def is_broken(self, error: BaseException) -> bool:
        """Returns True if the connection is gone, after an error of a statement."""
        return bool(self._connection.closed) or isinstance(error, self.driver.InterfaceError)

    def close(self) -> None:
        try:
            self._connection.close()
        except self.driver.Error:
            pass
