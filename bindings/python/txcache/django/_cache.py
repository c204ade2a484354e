"""The cache that the settings name, and its store: the database of the alias "OF"."""

import sqlite3
import threading
from typing import Any, Dict, Optional

from django.conf import settings
from django.core.exceptions import ImproperlyConfigured
from django.db import connections
from django.db.utils import load_backend

from .._cursor import Source, Statement
from .._driver import Link
from .._layout import literal
from .._page import PAGE
from .._hand import Hand
from ..cache import TxCache
from ..errors import OutsideSnapshot
from ..sqlite import SqliteStore

ENGINE = "txcache.django"
_LOCK = threading.Lock()
_made: Optional[TxCache] = None


def is_ours(alias: Optional[str]) -> bool:
    """Returns True if an alias reads in the snapshots of functions."""
    return connections.databases.get(alias, {}).get("ENGINE") == ENGINE


def of_alias(alias: str) -> str:
    """Returns the alias of the database that one of ours reads."""
    of = connections.databases[alias].get("OF")
    if of not in connections.databases or is_ours(of):
        raise ImproperlyConfigured(f'DATABASES["{alias}"]["OF"] is {of!r}, and is the alias of a database: {{"ENGINE": "{ENGINE}", "OF": "default"}}')
    return of


def alias_of_cache() -> str:
    found = [it for it in connections.databases if is_ours(it)]
    if len(found) != 1:
        raise ImproperlyConfigured(f'{len(found)} of DATABASES have the ENGINE "{ENGINE}", and one has: "txcache": {{"ENGINE": "{ENGINE}", "OF": "default"}}')
    return found[0]


def the_cache() -> TxCache:
    """Returns the cache of the settings, with the OPTIONS of its alias. Nothing is opened before the first page."""
    global _made
    with _LOCK:
        if _made is None:
            alias = alias_of_cache()
            tables = getattr(settings, "TXCACHE_TABLES", None)
            if tables is None:
                raise ImproperlyConfigured('TXCACHE_TABLES names of each table the columns by which rows are looked up: {"shop_bid": ["id", "item_id"]}')
            _made = TxCache(store_of(of_alias(alias), tables), **connections.databases[alias].get("OPTIONS", {}))
        return _made


def running_hand(alias: str) -> Hand:
    """Returns what the function that runs reads by. Fails with OutsideSnapshot if none of the alias's cache does."""
    page = PAGE.get()
    hand = page.hand if page is not None else None
    instead = f'call a function of txcache.django.cache in a page, or read by .using("{of_alias(alias)}")'
    if hand is None or hand.is_over:
        raise OutsideSnapshot(f'the alias "{alias}" is used outside of a cacheable function: {instead}')
    if hand.store is not the_cache().store:
        raise OutsideSnapshot(f'the alias "{alias}" is used in {hand.name}, which is of another cache: {instead}')
    return hand


def wrapper_of(of: str) -> Any:
    """Returns Django's own wrapper of a database, which no alias has: it makes connections."""
    connections[of]  # its settings get their defaults
    found = connections.databases[of]
    return load_backend(found["ENGINE"]).DatabaseWrapper(found, of)


def parameters_of(of: str) -> Dict[str, Any]:
    """Returns the words by which Django connects to PostgreSQL, without those of its cursors."""
    return {name: it for name, it in wrapper_of(of).get_connection_params().items() if name not in ("cursor_factory", "connection_factory")}


def store_of(of: str, tables: Any) -> Any:
    vendor = wrapper_of(of).vendor
    if vendor == "sqlite":
        return FileStore(of, tables)
    if vendor != "postgresql":
        raise ImproperlyConfigured(f'the database "{of}" is of {vendor}, and is of postgresql or sqlite')
    from ._server import ServerStore

    return ServerStore(of, tables)


class FileStore(SqliteStore):
    """The file of an alias, as its settings name it now: a test's runner changes them."""

    def __init__(self, of: str, tables: Any):
        self.of = of
        super().__init__("", tables, detect_types=sqlite3.PARSE_DECLTYPES | sqlite3.PARSE_COLNAMES)

    @property
    def path(self) -> str:
        name = str(connections.databases[self.of]["NAME"])
        if ":memory:" in name or "mode=memory" in name:
            raise ImproperlyConfigured(f'the database "{self.of}" is in memory, where no other connection can follow it: DATABASES["{self.of}"]["TEST"]["NAME"] names a file')
        return name

    @path.setter
    def path(self, _: str) -> None:
        """Does nothing: the settings have the name."""

    def source(self) -> Source:
        return _OfFile(self.of)


class _OfFile(Source):
    """Statements of Django over a snapshot of a SQLite file."""

    def __init__(self, of: str):
        self.of = of

    def prepare(self, link: sqlite3.Connection) -> None:
        # Django registers its functions on what `factory` gives
        wrapper_of(self.of).get_new_connection({"database": "", "factory": lambda *_, **__: link})

    def cursor(self, connection: Any, statement: Statement) -> Any:
        return connection.cursor()


class OfServer(Source):
    """Statements of Django over connections that it has prepared, which join snapshots of a PostgreSQL server."""

    def __init__(self, of: str):
        self.of = of
        self.settings = f"SET LOCAL TIME ZONE {literal(wrapper_of(of).timezone_name)}; "

    def connect(self, store: Any) -> Link:
        connection = wrapper_of(self.of).get_new_connection(parameters_of(self.of))
        connection.set_client_encoding("UTF8")
        return Link.over(connection, "psycopg2")
