"""A PostgreSQL database beside which a service caches.

Triggers write a note of each changed row, beside the transaction's own number. A snapshot is a REPEATABLE READ transaction that stays open for
some seconds. Which transactions ended between two snapshots the server says itself, so commits need no order and no writer waits.
"""

import contextlib
import hashlib
import re
import threading
from dataclasses import dataclass, field
from typing import Any, Dict, FrozenSet, Iterable, Iterator, List, Mapping, Optional, Sequence, Tuple, Union

from . import _standby
from ._cursor import OWN, Cursor, Result, Source, Statement
from ._driver import Link
from ._layout import Layout, Name, Read, Row, dicts, literal, lookups_of
from ._postgres_schema import Catalog, Installer, array, faults_of_schema, own_of
from ._store import MAX_TAGS, PURGE_AGE, Look
from .errors import NotInstalled, SnapshotLost, SnapshotRefused, TxCacheError

CONNECTIONS = 4  # that read, unless a cache says otherwise
LOCK_TIMEOUT = 0.5  # seconds for which a snapshot waits for the lock of a table
INSTALL_TIMEOUT = 5.0  # seconds for which `install` waits for the lock of a table
IDLE_TIMEOUT = 30.0  # seconds after which the server ends a snapshot of which nothing was asked
_TOKEN = re.compile(r"([0-9a-f]{16})-([0-9a-f]{1,16})")

_LOOK = "SELECT * FROM txcache.look({oids}, {beyond}, '{{{running}}}', ARRAY[{relations}]::text[], {most})"
_LOCKED = "SELECT relation::bigint FROM pg_locks WHERE pid = pg_backend_pid() AND locktype = 'relation' AND relation <> 'pg_catalog.pg_locks'::regclass"
_RELATIONS = """
WITH RECURSIVE up(oid, root) AS (SELECT it, it FROM unnest({oids}) AS it UNION ALL SELECT up.oid, i.inhparent FROM up JOIN pg_inherits i ON i.inhrelid = up.root)
SELECT up.oid::bigint, up.root::bigint, c.relkind::text, n.nspname, c.relname, c.oid < 16384 FROM up JOIN pg_class c ON c.oid = up.root JOIN pg_namespace n ON n.oid = c.relnamespace
"""
_INDEXES = "i", "I", "t"  # and what lies beside a table's rows: the table itself is locked too, as are those of a view
_LOCK_NOT_AVAILABLE = "55P03"
_ROLLED_BACK = "40"
_OF_SERVER = "08", "57", "53", "40"  # classes of errors: of the connection, of a server that ends, of its resources, of a transaction that is to be tried again
MAX_SPARE = 2  # connections that are kept for the next snapshots
_KIND_NAMES = {"r": "table", "p": "table", "m": "materialized view", "f": "foreign table", "S": "sequence", "c": "type"}


@dataclass(frozen=True)
class Mark:
    """Where a snapshot stands among the transactions of a server: `running` are those in progress, all below `xmax`."""

    server: str
    xmin: int
    xmax: int
    running: FrozenSet[int]
    upto: int
    shape: str
    seen: Optional[FrozenSet[int]] = None  # of a standby, in the place of `running`: the numbers from `xmin` on whose notes it has

    @staticmethod
    def of(text: str, server: str, upto: str, shape: str) -> "Mark":
        xmin, xmax, running = text.split(":")
        return Mark(server, int(xmin), int(xmax), frozenset(map(int, filter(None, running.split(",")))), int(upto), shape)

    def sees(self, xact: int) -> bool:
        """Returns True if the transaction was over when the snapshot was taken."""
        if self.seen is not None:
            return xact < self.xmin or xact in self.seen
        return xact < self.xmax and xact not in self.running


class PostgresStore:
    """The database of a connection string. `tables` names of each table the columns by which rows are looked up; a tuple is several together, and none
    follows the whole table. Each open snapshot has a connection, beside those that read."""

    cursor_kind = Cursor

    def __init__(self, dsn: str, tables: Mapping[str, Sequence[Union[str, Tuple[str, ...]]]], *, lock_timeout: float = LOCK_TIMEOUT,
                 idle_timeout: float = IDLE_TIMEOUT, driver: Optional[str] = None):
        self.dsn, self._driver = dsn, driver
        self._names = {it: Name.parse(it) for it in tables}
        self._lookups = {it: lookups_of(columns) for it, columns in tables.items()}
        self._lock_timeout, self._idle_timeout, self._connections = lock_timeout, idle_timeout, CONNECTIONS
        self.forget()

    def prepare(self, connections: int, hold: float) -> None:
        if connections < 1:
            raise ValueError(f"connections is {connections}, and is at least 1")
        self._connections, self._idle_timeout = connections, max(self._idle_timeout, 2 * hold)
        self.readers.limit = connections

    def forget(self) -> Any:
        """Begins with nothing open, in a child after a fork. Returns all that its parent has open, which it may neither use nor close."""
        inherited = vars(self).get("_spare"), vars(self).get("readers")
        self._tables: Optional[_Tables] = None
        self._replay = _standby.Replay()
        self._spare: List[Link] = []
        self._lock = threading.Lock()
        self.readers = Readers(self, self._connections)
        return inherited

    @property
    def settings(self) -> str:
        """Returns the settings that each transaction makes for itself: where a pooler stands between, the next one has another connection."""
        return (f"SET LOCAL lock_timeout = {max(1, int(self._lock_timeout * 1000))}; "
                f"SET LOCAL idle_in_transaction_session_timeout = {max(1, int(self._idle_timeout * 1000))}; ")

    def connect(self) -> Link:
        return Link(self.dsn, self._driver)

    # ---- the triggers

    def install(self, reader: Optional[str] = None) -> List[str]:
        """Writes the triggers and lets the role `reader` read the notes. It takes each table's lock for a moment, and may be run again.
        Returns a line for each table; fails with NotInstalled, whose lines say which tables it could not write and why."""
        with contextlib.closing(self.connect()) as link:
            _standby.refuse(link, "install")
            faults = self._catalog_of(link).missing
            if faults:
                raise NotInstalled(faults)
            installer = Installer(link, INSTALL_TIMEOUT)
            installer.schema(reader)
            catalog = self._catalog_of(link)
            standing, lines, refused = catalog.triggers(), [], catalog.faults_of_tables()
            for table, found in catalog.found.items():
                refused[table] += catalog.faults_of_partitions(table, standing[table])
                if not refused[table]:
                    try:
                        lines.append(f"{table}: {'installed' if installer.table(found, self._lookups[table], standing[table]) else 'stands'}")
                    except link.driver.Error as error:
                        refused[table].append(f"{table}: {str(error).strip().splitlines()[0]}")
            faults = [line for it in refused.values() for line in it]
            if faults:
                raise NotInstalled(faults + lines)
            return lines

    def check(self, reader: Optional[str] = None) -> List[str]:
        """Returns a line for each fault: none if the triggers stand, and this role can follow them and read the tables; so can the role `reader`, if one is
        named."""
        with contextlib.closing(self.connect()) as link:
            link.ask("BEGIN ISOLATION LEVEL REPEATABLE READ READ ONLY")
            return self._faults(link, self._catalog_of(link), reader)

    def purge(self, age: float = PURGE_AGE) -> int:
        """Deletes the notes of transactions that were over when a purge of `age` seconds ago or more looked. Returns how many."""
        with contextlib.closing(self.connect()) as link:
            _standby.refuse(link, "purge")
            link.ask("BEGIN ISOLATION LEVEL READ COMMITTED")
            (deleted,), = link.ask("SELECT txcache.purge(%s::double precision)", (age,))
            link.ask("COMMIT")
            return deleted

    def uninstall(self) -> List[str]:
        """Drops the triggers of these tables, and the schema if no other table has one, in one transaction. Returns a line for each table. Fails with
        TxCacheError, and then all stand as they did, if the lock of a table is not to be had."""
        with contextlib.closing(self.connect()) as link:
            _standby.refuse(link, "uninstall")
            catalog = self._catalog_of(link)
            standing = catalog.triggers()
            try:
                is_whole = Installer(link, INSTALL_TIMEOUT).uninstall(standing.values())
            except link.driver.Error as error:
                raise TxCacheError(f"nothing was uninstalled, run it again: {str(error).strip().splitlines()[0]}") from error
            lines = catalog.missing + [f"{it}: {'uninstalled' if own_of(standing[it]) else 'no trigger stood'}" for it in catalog.found]
            return lines if is_whole else lines + ["the schema txcache stays: triggers of other tables stand"]

    def _catalog_of(self, link: Link) -> Catalog:
        return Catalog(link, self._names, self._lookups)

    @staticmethod
    def _faults(link: Link, catalog: Catalog, reader: Optional[str] = None) -> List[str]:
        of_tables = [line for it in catalog.faults_of_tables().values() for line in it]
        of_schema, of_triggers = faults_of_schema(link, reader), of_tables or catalog.faults_of_triggers()
        return of_schema + catalog.missing + of_triggers + catalog.faults_of_reading(reader)

    # ---- tokens

    def token(self, cursor: Any) -> str:
        """Returns the token of the transaction that is open on a cursor, of any driver: a page that begins `after` it sees what it wrote."""
        cursor.execute("SELECT pg_current_xact_id()::text AS xact, s.system_identifier::text AS system, d.oid::text AS base "
                       "FROM pg_control_system() s, pg_database d WHERE d.datname = current_database()")
        row = cursor.fetchone()
        xact, system, base = (row["xact"], row["system"], row["base"]) if isinstance(row, Mapping) else row
        return f"{_digest(system, base)}-{int(xact):x}"

    def sees(self, mark: Mark, token: str) -> bool:
        """Returns True if the transaction of a token was over when the snapshot of a mark was taken."""
        parts = _TOKEN.fullmatch(token)
        if not parts:
            raise ValueError(f"{token[:64]!r} is no token of a PostgreSQL store")
        return parts[1] == _digest(*mark.server.split(" ")[:2]) and mark.sees(int(parts[2], 16))

    # ---- snapshots

    def look(self, last: Optional[Mark] = None, is_wanted: bool = True) -> Look:
        """Takes a snapshot, and says what changed since the mark of the last."""
        while True:
            with self._lock:
                kept = self._spare.pop() if self._spare else None
            try:
                return self._looked(kept or self.connected(), last)
            except SnapshotRefused:
                raise
            except SnapshotLost:
                if kept is None:
                    raise  # one that was kept may have ended long ago

    def _looked(self, link: Link, last: Optional[Mark]) -> Look:
        try:
            if last is None:
                return self._first(link, "the first snapshot")
            found = self._next(link, last)
            if isinstance(found, Look):
                return found
            link.ask("ROLLBACK")
            return self._first(link, found)
        except link.driver.Error as error:
            link.close()
            raise self._meaning(link, error) from error
        except BaseException:
            link.close()
            raise

    def _begin(self, names: Iterable[Name]) -> str:
        """Returns what begins a transaction and locks its tables. Neither takes the snapshot: what follows does, and then no TRUNCATE can come between."""
        lock = f"LOCK TABLE {', '.join(it.quoted for it in names)} IN ACCESS SHARE MODE" if names else ""
        return f"BEGIN ISOLATION LEVEL REPEATABLE READ READ ONLY; {self.settings}{lock}"

    def _first(self, link: Link, reason: str) -> Look:
        """Takes a snapshot of which nothing is known from before."""
        before = self._catalog_of(link)
        faults = self._faults(link, before)
        if faults:
            raise NotInstalled(faults)
        delay = self._replay.delay(link)
        link.ask(self._begin([it.name for it in before.found.values()]))
        catalog = self._catalog_of(link)
        faults = self._faults(link, catalog)
        if faults:
            raise NotInstalled(faults)
        if catalog.found != before.found:
            raise SnapshotRefused("a table was changed while its snapshot was taken")
        oids = {it.oid: it.name.tag for it in catalog.found.values()}
        mark, _ = _marked(link.ask(_look(oids, None)))
        if delay is not None:
            mark, _ = _standby.followed(link, mark, None, oids.values(), MAX_TAGS + 1)
        self._tables = _Tables(catalog.layout(), oids, [it.name for it in catalog.found.values()])
        return Look(PostgresSnapshot(self, link, self._tables), mark, None, reason, delay or 0.0)

    def _next(self, link: Link, last: Mark) -> Union[Look, str]:
        """Takes the snapshot after the last; or returns why the cache must begin cold."""
        tables = self._tables
        if tables is None:
            return "the store was closed"
        try:
            delay = self._replay.delay(link) if last.seen is not None else None
            if last.seen is not None and delay is None:
                return _standby.PROMOTED
            mark, tags = _marked(link.last(f"{self._begin(tables.names)}; {_look(tables.oids, last if delay is None else None)}"))
            if delay is not None:
                mark, tags = _standby.followed(link, mark, last, tables.oids.values(), MAX_TAGS + 1)
        except link.driver.Error as error:
            if type(self._meaning(link, error)) is not NotInstalled:
                raise
            return str(error).strip().splitlines()[0]
        reason = _why_cold(last, mark, tags)
        return reason or Look(PostgresSnapshot(self, link, tables), mark, frozenset(tags), delay=delay or 0.0)

    @staticmethod
    def _meaning(link: Link, error: Exception) -> Exception:
        """Returns the error of ours for one of the driver's."""
        state = _state_of(error)
        said = (str(error).strip().splitlines() or [type(error).__name__])[0]
        if state == _LOCK_NOT_AVAILABLE:
            return SnapshotRefused(f"the lock of a table was waited for: {said}")
        if link.is_broken(error) or not state or state[:2] in _OF_SERVER:
            return SnapshotLost(f"the server did not answer: {said}")
        return NotInstalled([said])

    def connected(self, source: Source = OWN) -> Link:
        """Returns a new connection. Fails with SnapshotLost if there is none."""
        try:
            return source.connect(self)
        except ImportError:
            raise
        except Exception as error:
            raise SnapshotLost(f"no connection to the database: {(str(error).strip().splitlines() or [''])[0]}") from error

    def put_back(self, link: Link) -> None:
        """Ends the transaction of a connection, and keeps the connection for the next snapshot."""
        try:
            link.ask("ROLLBACK")
        except link.driver.Error:
            link.close()
            return
        with self._lock:
            if len(self._spare) < MAX_SPARE:
                self._spare.append(link)
                return
        link.close()

    def wants_air(self, is_read: bool) -> bool:
        return False

    def air(self) -> None:
        pass

    def close(self) -> None:
        """Closes the connections that no open snapshot has."""
        with self._lock:
            links, self._spare, self._tables = self._spare, [], None
        for it in links:
            it.close()
        self.readers.close()


def _state_of(error: Exception) -> str:
    return getattr(error, "sqlstate", None) or getattr(error, "pgcode", None) or ""


def _look(oids: Mapping[int, str], last: Optional[Mark]) -> str:
    """Returns what takes a snapshot of tables, and says what changed since the last, if there was one."""
    beyond, running = (f"'{last.xmax}'", ",".join(map(str, last.running))) if last else ("NULL", "")
    return _LOOK.format(oids=array(oids), beyond=beyond, running=running, relations=", ".join(map(literal, oids.values())), most=MAX_TAGS + 1)


def _marked(rows: Sequence[Sequence[Any]]) -> Tuple[Mark, List[str]]:
    (*words, found), = rows
    return Mark.of(*words), found or []


def _digest(system: str, base: str) -> str:
    return hashlib.blake2b(f"{system} {base}".encode(), digest_size=8).hexdigest()


def _why_cold(last: Mark, mark: Mark, tags: Sequence[str]) -> str:
    """Returns why what changed between two snapshots is not known, or an empty text."""
    if mark.server != last.server or mark.xmax < last.xmax:
        return "the server is another, or has begun anew"
    if mark.shape != last.shape:
        return "the tables, or functions, views, policies or types of the database, were changed"
    if last.xmin < mark.upto:
        return "notes were purged that the last snapshot had not seen"
    if len(tags) > MAX_TAGS:
        return f"more than {MAX_TAGS} tags changed"
    return _standby.why_cold(last, mark) if last.seen is not None else ""


@dataclass(frozen=True)
class _Tables:
    """The tables of a store, as snapshots of one shape have them."""

    layout: Layout
    oids: Dict[int, str]  # to the names in tags
    names: List[Name]
    relations: Dict[int, Union[str, FrozenSet[str]]] = field(default_factory=dict)  # what `Readers` found: tags, or the name of what has no triggers


class PostgresSnapshot:
    """A transaction that holds a snapshot, and the locks of its tables. Queries run on connections that join it."""

    def __init__(self, store: PostgresStore, link: Link, tables: _Tables):
        self.layout, self.tables, self.is_open, self.is_lost = tables.layout, tables, True, False
        self._store, self._link, self._name = store, link, None
        self._lock = threading.Lock()

    def rows(self, read: Read) -> List[Row]:
        return self._store.readers.rows(self, read.query, read.args)

    def rows_and_tables(self, query: str, args: Sequence[Any]) -> Tuple[List[Row], FrozenSet[str]]:
        return self._store.readers.rows_and_tables(self, query, args)

    def by_hand(self, statement: Statement, is_named: bool) -> Tuple[Result, FrozenSet[str]]:
        return self._store.readers.by_hand(self, statement, is_named)

    def name(self) -> str:
        """Returns the name by which another connection joins it."""
        with self._lock:
            if self._name is None:
                self._name = self._ask("SELECT pg_export_snapshot()")
            return self._name

    def check(self) -> None:
        """Fails with SnapshotLost if the transaction has ended. Rows that another connection read before in its snapshot count if it has not."""
        with self._lock:
            self._ask("SELECT 1")

    def _ask(self, text: str) -> Any:
        if not self.is_open:
            raise SnapshotLost("the snapshot was let go")
        try:
            (found,), = self._link.ask(text)
            return found
        except self._link.driver.Error as error:
            self.is_lost = True
            raise SnapshotLost(f"the snapshot's connection was lost: {error}") from error

    def close(self) -> None:
        with self._lock:
            if not self.is_open:
                return
            self.is_open = False
        self._store.readers.leave(self)
        self._store.put_back(self._link)


class _Reader:
    """A connection that joins snapshots. While it `is_clean` its transaction has asked nothing; else, if it `has_locks`, it holds all that
    the snapshot's own does."""

    def __init__(self, link: Link, source: Source):
        self.link, self.source, self.snapshot, self.has_locks, self.is_clean = link, source, None, False, True

    def join(self, snapshot: PostgresSnapshot, settings: str, has_locks: bool) -> None:
        if self.snapshot is snapshot and self.has_locks == has_locks and (has_locks or self.is_clean):
            return
        self.leave()
        lock = f"LOCK TABLE {', '.join(it.quoted for it in snapshot.tables.names)} IN ACCESS SHARE MODE" if has_locks and snapshot.tables.names else ""
        self.link.ask(f"BEGIN ISOLATION LEVEL REPEATABLE READ READ ONLY; SET TRANSACTION SNAPSHOT {literal(snapshot.name())}; {settings}{self.source.settings}{lock}")
        self.snapshot, self.has_locks, self.is_clean = snapshot, has_locks, True
        if has_locks:
            snapshot.check()  # from its locks to ours there was no moment with none

    def leave(self) -> None:
        self.snapshot = None
        self.link.ask("ROLLBACK")


class Readers:
    """The connections that read, at most `limit`. A thread that finds none free waits."""

    def __init__(self, store: PostgresStore, limit: int):
        self._store, self.limit, self._count = store, limit, 0
        self._free: List[_Reader] = []
        self._changed = threading.Condition()

    @property
    def count(self) -> int:
        return self._count

    def rows(self, snapshot: PostgresSnapshot, query: str, args: Sequence[Any]) -> List[Row]:
        with self._lent(snapshot, True) as reader:
            names, rows = reader.link.named(query, args)
        return dicts(names, rows)

    def rows_and_tables(self, snapshot: PostgresSnapshot, query: str, args: Sequence[Any]) -> Tuple[List[Row], FrozenSet[str]]:
        """Returns the rows of a query, and the tables that the server locked for it: the transaction held no lock before."""
        with self._lent(snapshot, False) as reader:
            reader.is_clean = False
            names, rows = reader.link.named(query, args)
            oids = [it for it, in reader.link.ask(_LOCKED)]
            tables = self._tables_of(reader.link, snapshot.tables, oids)
            snapshot.check()
        return dicts(names, rows), tables

    def by_hand(self, snapshot: PostgresSnapshot, statement: Statement, is_named: bool) -> Tuple[Result, FrozenSet[str]]:
        """Returns what a statement gives, over a connection of its source; and the tables that the server locked for it, unless those were named."""
        with self._lent(snapshot, is_named, statement.source) as reader:
            reader.is_clean = False
            result = reader.link.run(statement)
            tables: FrozenSet[str] = frozenset()
            if not is_named:
                tables = self._tables_of(reader.link, snapshot.tables, [it for it, in reader.link.ask(_LOCKED)])
                snapshot.check()
        return result, tables

    @staticmethod
    def _tables_of(link: Link, tables: _Tables, oids: Sequence[int]) -> FrozenSet[str]:
        unknown = [it for it in oids if it not in tables.relations]
        found: Dict[int, Union[str, FrozenSet[str]]] = {}
        if unknown:
            chains: Dict[int, List[Tuple]] = {it: [] for it in unknown}
            for oid, *words in link.ask(_RELATIONS.format(oids=array(unknown))):
                chains[oid].append(words)
            found = {oid: _seen(oid, chain, tables.oids) for oid, chain in chains.items()}
            tables.relations.update(found)
        seen = [tables.relations[it] for it in oids]
        for it in seen:
            if isinstance(it, str):
                raise ValueError(f"the query reads {it}, on which no triggers stand: tell the store of it, or give the tags, of a cursor by db.reads(..)")
        return frozenset().union(*seen)

    @contextlib.contextmanager
    def _lent(self, snapshot: PostgresSnapshot, has_locks: bool, source: Source = OWN) -> Iterator[_Reader]:
        """Lends a connection that has joined a snapshot."""
        reader = self._joined(snapshot, has_locks, source)
        is_kept = False
        try:
            yield reader
            if reader.link.is_idle:
                raise ValueError("the query ended the transaction in which it ran: what it read is of no snapshot")
            is_kept = True
            if not snapshot.is_open:
                raise SnapshotLost("the snapshot was let go")
        except reader.link.driver.Error as error:
            if reader.link.is_broken(error):
                with contextlib.suppress(SnapshotLost):
                    snapshot.check()  # it may be lost too, and then it is not begun anew in it
                raise SnapshotLost(f"a reading connection was lost: {error}") from error
            if _state_of(error)[:2] == _ROLLED_BACK:  # a standby that has waited for too long replays a lock, or what a vacuum removed
                raise SnapshotLost(f"the server ended the query's transaction: {error}") from error
            raise
        finally:
            self._give_back(reader, is_kept)

    def _joined(self, snapshot: PostgresSnapshot, has_locks: bool, source: Source) -> _Reader:
        while True:
            reader, is_new = self._take(snapshot, source)
            try:
                reader.join(snapshot, self._store.settings, has_locks)
                return reader
            except reader.link.driver.Error as error:
                is_broken = reader.link.is_broken(error)
                self._give_back(reader, False)
                if is_new or not is_broken:
                    snapshot.is_lost = True
                    raise SnapshotLost(f"the snapshot could not be joined: {error}") from error
                # one that was kept may have ended long ago
            except BaseException:
                self._give_back(reader, False)
                raise

    def _take(self, snapshot: PostgresSnapshot, source: Source) -> Tuple[_Reader, bool]:
        """Returns a free connection of a source, one that has joined the snapshot if there is such, or a new one; and whether it is new. If there may be no more
        beside those of other sources, one of these is closed."""
        with self._changed:
            while not self._free and self._count >= self.limit:
                self._changed.wait()
            fit = [it for it in self._free if it.source is source]
            found = next((it for it in fit if it.snapshot is snapshot), None) or next(reversed(fit), None)
            other = None if found or self._count < self.limit else self._free[0]
            if found or other:
                self._free.remove(found or other)
            if found:
                return found, False
            self._count += not other
        try:
            if other:
                other.link.close()
            return _Reader(self._store.connected(source), source), True
        except BaseException:
            self._forget()
            raise

    def _give_back(self, reader: _Reader, is_joined: bool) -> None:
        with self._changed:
            if is_joined and reader.snapshot is not None and reader.snapshot.is_open:
                self._free.append(reader)
                self._changed.notify()
                return
        try:
            reader.leave()
        except reader.link.driver.Error:
            reader.link.close()
            self._forget()
            return
        with self._changed:
            self._free.append(reader)
            self._changed.notify()

    def _forget(self) -> None:
        with self._changed:
            self._count -= 1
            self._changed.notify()

    def leave(self, snapshot: PostgresSnapshot) -> None:
        """Ends the transactions that joined a snapshot; those that read now end once they have."""
        with self._changed:
            joined = [it for it in self._free if it.snapshot is snapshot]
            self._free = [it for it in self._free if it.snapshot is not snapshot]
        for it in joined:
            self._give_back(it, False)

    def close(self) -> None:
        with self._changed:
            free, self._free = self._free, []
            self._count -= len(free)
            self._changed.notify_all()
        for it in free:
            it.link.close()


def _seen(oid: int, chain: Sequence[Sequence], oids: Mapping[int, str]) -> Union[str, FrozenSet[str]]:
    """Returns the tags of the tables that a relation is, or is a partition of; or its name, where no triggers stand on it."""
    told = frozenset(f"{oids[root]}:" for root, *_ in chain if root in oids)
    if told:
        return told
    if not chain:
        return f"the relation {oid}"
    _, kind, schema, name, is_of_system = next(it for it in chain if it[0] == oid)
    if kind in _INDEXES or kind == "v" and not is_of_system:
        return frozenset()
    return f"the {'catalog' if is_of_system else _KIND_NAMES.get(kind, 'relation')} {schema}.{name}"
