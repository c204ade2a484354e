"""The backend `txcache.django`: Django's own for the database "OF", over connections of the function that runs."""

import functools
from typing import Any, Dict, Optional

from django.conf import settings
from django.db import DEFAULT_DB_ALIAS, connections
from django.db.backends.base.operations import BaseDatabaseOperations
from django.db.utils import load_backend

from .._cursor import Connection, Cursor, SqliteCursor
from .._hand import Hand
from ..errors import OutsideSnapshot
from ._cache import of_alias, running_hand


def DatabaseWrapper(settings_dict: Dict[str, Any], alias: str = DEFAULT_DB_ALIAS) -> Any:  # noqa: N802, the name that Django asks for
    """Returns the wrapper of an alias, of a class beside Django's own for its database."""
    of = of_alias(alias)
    connections[of]  # its settings get their defaults
    found = connections.databases[of]
    return _class_over(load_backend(found["ENGINE"]).DatabaseWrapper)({**found, **_OWN, "ENGINE": settings_dict["ENGINE"], "TEST": {**found["TEST"], "MIRROR": of}}, alias)


_OWN = {"ATOMIC_REQUESTS": False, "AUTOCOMMIT": True, "CONN_MAX_AGE": None}


@functools.lru_cache(None)
def _class_over(base: type) -> type:
    return type("DatabaseWrapper", (_OfFunction, base), {"__module__": __name__})


class _Facade(Connection):
    """The connection that Django sees, which is of no function: each cursor is of the one that runs."""

    def __init__(self, wrapper: "_OfFunction"):
        self._wrapper = wrapper

    @property
    def _hand(self) -> Hand:
        return running_hand(self._wrapper.alias)

    def cursor(self, *_: Any, **__: Any) -> Cursor:
        return self._wrapper.create_cursor()


class _OfFunction:
    """The difference from Django's own wrapper of a database: it opens nothing, and refuses all that writes or would end a transaction."""

    def __init__(self, settings_dict: Dict[str, Any], alias: str):
        super().__init__(settings_dict, alias)
        self.of = of_alias(alias)
        self.features = connections[self.of].features  # some of which ask the server
        self.autocommit, self.connection = True, _Facade(self)
        self.ops.last_executed_query = functools.partial(BaseDatabaseOperations.last_executed_query, self.ops)  # others ask the connection, or its driver

    def ensure_connection(self) -> None:
        running_hand(self.alias)

    connect = ensure_connection

    def create_cursor(self, name: Optional[str] = None) -> Cursor:
        hand = running_hand(self.alias)
        source = vars(hand.store).get("_of_django")
        if source is None:
            source = hand.store._of_django = hand.store.source()
        if self.vendor == "sqlite":
            return _FileCursor(hand, source)
        cursor = Cursor(hand, source)
        cursor.tzinfo_factory = self.tzinfo_factory if settings.USE_TZ else None
        return cursor

    @property
    def pg_version(self) -> int:
        return connections[self.of].pg_version

    def _refuse(self, what: str) -> None:
        running_hand(self.alias).refuse(f'{what} of the alias "{self.alias}"')

    def commit(self) -> None:
        self._refuse("commit")

    def rollback(self) -> None:
        self._refuse("rollback")

    def savepoint(self) -> None:
        self._refuse("savepoint")

    def set_autocommit(self, autocommit: bool, force_begin_transaction_with_broken_autocommit: bool = False) -> None:
        if not autocommit:
            self._refuse("transaction.atomic, or autocommit = False,")

    def schema_editor(self, *_: Any, **__: Any) -> None:
        raise OutsideSnapshot(f'the alias "{self.alias}" only reads, and has no migrations: migrate --database {self.of}; DATABASE_ROUTERS has "txcache.django.Router"')

    def close(self) -> None:
        """Does nothing: connections are those of the cache."""

    close_if_unusable_or_obsolete = close

    def is_usable(self) -> bool:
        return True


class _FileCursor(SqliteCursor):
    """Django writes `%s` where SQLite takes `?`."""

    def execute(self, query: str, params: Any = None) -> Cursor:
        if params is not None:
            from django.db.backends.sqlite3.base import FORMAT_QMARK_REGEX

            query = FORMAT_QMARK_REGEX.sub("?", query).replace("%%", "%")
        return super().execute(query, params)
