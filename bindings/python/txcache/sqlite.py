"""A SQLite file in WAL mode, beside which a service caches.

Triggers of the file's own write a note of each changed row, from any connection. There is one writer at a time, so the numbers of notes are in the
order of the commits. A snapshot is a connection with a read transaction open.
"""

import contextlib
import json
import os
import re
import secrets
import sqlite3
import sys
import threading
import time
from typing import Any, Dict, FrozenSet, Iterable, Iterator, List, Mapping, NamedTuple, Optional, Sequence, Set, Tuple, Union

from ._cursor import Result, Source, SqliteCursor, Statement, run
from ._layout import NULL, Columns, Kind, Layout, Name, Read, Relation, Row, dicts, literal, lookups_of, prefix_of, quote
from ._store import MAX_TAGS, PURGE_AGE, Look
from .errors import NotInstalled, SnapshotLost

VERSION = 1
MAX_LOG = 8 << 20  # bytes that the write-ahead log grows by before no snapshot stays open: while one is, the log can't begin anew
AIR_AGAIN = 10.0  # seconds after which a log that could not begin anew is tried again, if no page is open
_NOTES = 1000  # that are read at once
BUSY_TIMEOUT = 5.0  # seconds for which `install` and `purge` wait for a writer
BOOLEANS = "0", "1"
_TOKEN = re.compile(r"([0-9a-f]{16})-s([0-9a-f]{1,16})")
_UNWATCHED = None if sys.version_info >= (3, 11) else lambda *words: sqlite3.SQLITE_OK  # the authorizer that asks nothing
_CATALOGS = "sqlite_master", "sqlite_schema"
_PURE_TABLES = "json_each", "json_tree"  # functions that stand where a table does, and read none

_SCHEMA = """
CREATE TABLE IF NOT EXISTS txcache_notes (number INTEGER PRIMARY KEY AUTOINCREMENT, relation TEXT NOT NULL, keys TEXT NOT NULL);
CREATE TABLE IF NOT EXISTS txcache_state (version INTEGER NOT NULL, name TEXT NOT NULL, upto INTEGER NOT NULL);
CREATE TABLE IF NOT EXISTS txcache_purges (below INTEGER NOT NULL, made REAL NOT NULL);
"""
_NEWEST = "SELECT coalesce(max(seq), 0) FROM sqlite_sequence WHERE name = 'txcache_notes'"


class Mark(NamedTuple):
    """Where a snapshot stands: the file, its last note, its shape; and `version`, by which the file says that it has changed: a number that means
    something to one connection alone, after the number of that."""

    file: Tuple[int, int]
    name: str
    newest: int
    shape: int
    upto: int
    version: Tuple[int, int]


class _Link(sqlite3.Connection):
    """A connection, and the sources of statements that have prepared it."""

    sources: FrozenSet[Source] = frozenset()


class SqliteStore:
    """The file of a path. `tables` names of each table the columns by which rows are looked up; a tuple is several together, and none follows the whole
    table. `detect_types` is that of `sqlite3.connect`."""

    cursor_kind = SqliteCursor

    def __init__(self, path: Union[str, "os.PathLike[str]"], tables: Mapping[str, Sequence[Union[str, Tuple[str, ...]]]], *, max_log: int = MAX_LOG,
                 detect_types: int = 0):
        self.path, self.max_log, self._detect_types = os.fspath(path), max_log, detect_types
        self._names = {it: Name.parse(it) for it in tables}
        if any(it.schema for it in self._names.values()):
            raise ValueError("a table of a SQLite file has no schema before its name")
        self._lookups = {it: lookups_of(columns) for it, columns in tables.items()}
        self._noted = {it.table for it in self._names.values()}
        self.forget()

    def prepare(self, connections: int, hold: float) -> None:
        """A snapshot is one connection, whose threads take turns: there is nothing to bound."""

    def forget(self) -> Any:
        """Begins with nothing open, in a child after a fork. Returns all that its parent has open, which it may neither use nor close."""
        inherited = vars(self).get("_probe"), vars(self).get("_spare")
        self._lock = threading.RLock()
        self._probe: Optional[sqlite3.Connection] = None
        self._probes = 0
        self._spare: List[sqlite3.Connection] = []
        self._file: Optional[Tuple[int, int]] = None
        self._layout: Optional[Layout] = None
        self._read_by: Dict[str, FrozenSet[str]] = {}
        self._aired, self._left = 0.0, 0  # when the log was copied last, and how long it was after that
        return inherited

    # ---- the triggers

    def install(self, reader: Optional[str] = None) -> List[str]:
        """Writes the triggers into the file, and has it keep a write-ahead log. It may be run again. Returns a line for each table."""
        _refuse_roles(reader)
        with contextlib.closing(self._connect(is_writing=True)) as link:
            link.execute("PRAGMA journal_mode = WAL")
            with _writing(link):
                faults = self._faults_of_tables(link)
                if faults:
                    raise NotInstalled(faults)
                for text in filter(str.strip, _SCHEMA.split(";")):
                    link.execute(text)
                link.execute("INSERT INTO txcache_state SELECT ?, ?, 0 WHERE NOT EXISTS (SELECT 1 FROM txcache_state)", (VERSION, secrets.token_hex(8)))
                link.execute("UPDATE txcache_state SET version = ?", (VERSION,))
                return [self._install_table(link, given) for given in self._names]

    def _install_table(self, link: sqlite3.Connection, given: str) -> str:
        table = self._names[given].table
        stand = _triggers(link, table)
        wanted = _trigger_texts(link, table, self._lookups[given] | _noted(stand))
        if stand == wanted:
            return f"{given}: stands"
        for name in stand:
            link.execute(f"DROP TRIGGER {quote(name)}")
        for text in wanted.values():
            link.execute(text)
        return f"{given}: installed"

    def check(self, reader: Optional[str] = None) -> List[str]:
        """Returns a line for each fault: none if the triggers stand."""
        _refuse_roles(reader)
        with contextlib.closing(self._connect()) as link:
            link.execute("BEGIN")
            return self._faults(link)

    def purge(self, age: float = PURGE_AGE) -> int:
        """Deletes the notes that existed when a purge of `age` seconds ago or more looked. Returns how many."""
        with contextlib.closing(self._connect(is_writing=True)) as link, _writing(link):
            below, = link.execute("SELECT max(below) FROM txcache_purges WHERE made <= ?", (time.time() - age,)).fetchone()
            upto, = link.execute("SELECT upto FROM txcache_state").fetchone()
            deleted = 0
            if below is not None and below > upto:
                deleted = link.execute("DELETE FROM txcache_notes WHERE number <= ?", (below,)).rowcount
                link.execute("UPDATE txcache_state SET upto = ?", (below,))
                link.execute("DELETE FROM txcache_purges WHERE below < ?", (below,))
            link.execute(f"INSERT INTO txcache_purges SELECT ({_NEWEST}), ?", (time.time(),))
            return deleted

    def uninstall(self) -> List[str]:
        """Drops the triggers of these tables, and the notes where no other table has one. Returns a line for each table."""
        with contextlib.closing(self._connect(is_writing=True)) as link, _writing(link):
            lines = []
            for given, name in self._names.items():
                stand = _triggers(link, name.table)
                lines.append(f"{given}: {'uninstalled' if stand else 'no trigger stood'}")
                for trigger in stand:
                    link.execute(f"DROP TRIGGER {quote(trigger)}")
            if link.execute("SELECT count(*) FROM sqlite_master WHERE type = 'trigger' AND name LIKE 'txcache\\_%' ESCAPE '\\'").fetchone()[0]:
                return lines + ["the notes stay: triggers of other tables stand"]
            for table in ("txcache_notes", "txcache_state", "txcache_purges"):
                link.execute(f"DROP TABLE IF EXISTS {table}")
            return lines

    def _faults(self, link: sqlite3.Connection) -> List[str]:
        (mode,), = link.execute("PRAGMA journal_mode")
        lines = [] if mode == "wal" else [f"the file's journal mode is {mode}, and not wal"]
        if not link.execute("SELECT 1 FROM sqlite_master WHERE type = 'table' AND name = 'txcache_state'").fetchone():
            return [*lines, "the notes are not there"]
        (version,), = link.execute("SELECT version FROM txcache_state")
        if version != VERSION:
            return [*lines, f"the notes are of version {version}, and not {VERSION}"]
        faults = self._faults_of_tables(link)
        if not faults:
            for given, name in self._names.items():
                stand = _triggers(link, name.table)
                noted = _noted(stand)
                if not stand or stand != _trigger_texts(link, name.table, noted):
                    faults.append(f"{given}: its triggers are {'not those of version ' + str(VERSION) if stand else 'not there'}")
                elif self._lookups[given] - noted:
                    faults.append(f"{given}: its triggers do not note {', '.join(map(' and '.join, sorted(self._lookups[given] - noted)))}")
        return lines + faults

    def _faults_of_tables(self, link: sqlite3.Connection) -> List[str]:
        return [f"{given}: {it}" for given, name in self._names.items() for it in _faults_of_table(link, name.table, self._lookups[given])]

    # ---- tokens

    def token(self, cursor: Any) -> str:
        """Returns the token of the transaction that is open on a cursor, or on a connection: a page that begins `after` it sees what it wrote."""
        (name,), = cursor.execute("SELECT name FROM txcache_state").fetchall()
        (newest,), = cursor.execute(_NEWEST).fetchall()
        return f"{name}-s{newest:x}"

    def sees(self, mark: Mark, token: str) -> bool:
        """Returns True if the snapshot of a mark sees the notes of the token's transaction."""
        parts = _TOKEN.fullmatch(token)
        if not parts:
            raise ValueError(f"{token[:64]!r} is no token of a SQLite store")
        return parts[1] == mark.name and int(parts[2], 16) <= mark.newest

    # ---- snapshots

    def look(self, last: Optional[Mark] = None, is_wanted: bool = True) -> Look:
        """Takes a snapshot, and says what changed since the mark of the last; none if the file has not changed and none is asked for."""
        with self._lock:
            try:
                return self._looked(last, is_wanted)
            except sqlite3.Error as error:
                self.close()
                raise SnapshotLost(f"the file was not read: {error}") from error
            except OSError as error:
                raise SnapshotLost(f"there is no file: {error}") from error

    def _looked(self, last: Optional[Mark], is_wanted: bool) -> Look:
        if self._probe is None or self._file != self._identity():
            self.close()
            self._file = self._identity()
            self._probe = self._connect()
            self._probes += 1
            if self._file != self._identity():
                raise SnapshotLost("the file was changed for another while it was opened")
        # read before the snapshot is taken: a commit between the two is found by the next look
        version = self._probes, self._probe.execute("PRAGMA data_version").fetchone()[0]
        if last is not None and not is_wanted and version == last.version and last.file == self._file:
            return Look(None, last, frozenset())
        link = self._spare.pop() if self._spare else self._connect()
        try:
            return self._taken(link, last, version)
        except BaseException:
            link.close()
            raise

    def _taken(self, link: sqlite3.Connection, last: Optional[Mark], version: Tuple[int, int]) -> Look:
        link.execute("BEGIN")
        (shape,), = link.execute("PRAGMA schema_version")
        # the first that reads, so it takes the snapshot
        if last is None or last.file != self._file or last.shape != shape or self._layout is None:
            faults = self._faults(link)
            if faults:
                raise NotInstalled(faults)
            self._read_by = {}
            self._layout = Layout([_relation(link, it, name, self._lookups[it]) for it, name in self._names.items()], "?", BOOLEANS)
            (shape,), = link.execute("PRAGMA schema_version")
        (newest, name, upto), = link.execute(f"SELECT ({_NEWEST}), name, upto FROM txcache_state")
        mark = Mark(self._file, name, newest, shape, upto, version)
        tags, reason = None, _why_cold(last, mark)
        if not reason:
            tags = self._tags_since(link, last.newest) if newest > last.newest else frozenset()
            reason = f"more than {MAX_TAGS} tags changed" if len(tags) > MAX_TAGS else ""
        return Look(SqliteSnapshot(self, link, self._file, self._layout, self._read_by), mark, None if reason else tags, reason)

    def _tags_since(self, link: sqlite3.Connection, last: int) -> FrozenSet[str]:
        cursor, found = link.execute("SELECT relation, CAST(keys AS BLOB) FROM txcache_notes WHERE number > ?", (last,)), set()
        while len(found) <= MAX_TAGS:
            rows = cursor.fetchmany(_NOTES)
            keys = json.loads("[" + b",".join([it for _, it in rows]).decode("utf-8", "replace") + "]")
            for (relation, _), them in zip(rows, keys):
                if relation in self._noted:
                    found.add(f"{relation}:")
                    found.update([f"{relation}:{it}" for it in them])
            if len(rows) < _NOTES:
                break
        return frozenset(found)

    def put_back(self, link: sqlite3.Connection, file: Tuple[int, int]) -> None:
        """Ends the transaction of a connection, and keeps the connection for the next snapshot if its file is still the one that is followed."""
        with self._lock:
            try:
                if link.in_transaction:
                    link.execute("ROLLBACK")
                if self._probe is not None and len(self._spare) < 2 and file == self._file:
                    self._spare.append(link)
                    return
            except sqlite3.Error:
                pass
            link.close()

    def wants_air(self, is_read: bool) -> bool:
        """Returns True if the log has grown by more than `max_log` bytes since it was copied; if no page is open, by half of that, or if it is so long still
        and was copied some time ago."""
        size, limit = self._log_size(), self.max_log if is_read else self.max_log // 2
        self._left = min(self._left, size)
        return size - self._left > limit or not is_read and size > limit and time.monotonic() > self._aired + AIR_AGAIN

    def air(self) -> None:
        """Copies the log into the file, so that it begins again at its head. If a reader or writer of another process is in the way it does what it can, and the log
        grows."""
        with contextlib.suppress(sqlite3.Error), contextlib.closing(self._connect(is_writing=True)) as link:
            link.execute("PRAGMA busy_timeout = 200")
            link.execute("PRAGMA wal_checkpoint(TRUNCATE)").fetchall()
        self._aired, self._left = time.monotonic(), self._log_size()

    def _log_size(self) -> int:
        try:
            return os.stat(self.path + "-wal").st_size
        except OSError:
            return 0

    def close(self) -> None:
        """Closes the connections that no open snapshot has."""
        with self._lock:
            links = self._spare + ([self._probe] if self._probe else [])
            self._spare, self._probe, self._layout = [], None, None
            for it in links:
                it.close()

    def _identity(self) -> Tuple[int, int]:
        found = os.stat(self.path)
        return found.st_dev, found.st_ino

    def _connect(self, is_writing: bool = False) -> sqlite3.Connection:
        os.stat(self.path)  # a missing file would be made
        link = sqlite3.connect(self.path, isolation_level=None, check_same_thread=False, timeout=BUSY_TIMEOUT, detect_types=self._detect_types, factory=_Link)
        if not is_writing:
            link.execute("PRAGMA query_only = 1")
        return link


def _refuse_roles(reader: Optional[str]) -> None:
    if reader is not None:
        raise ValueError("a SQLite file has no roles")


def _why_cold(last: Optional[Mark], mark: Mark) -> str:
    """Returns why what changed between two snapshots is not known, or an empty text."""
    if last is None:
        return "the first snapshot"
    if mark.file != last.file or mark.name != last.name or mark.newest < last.newest:
        return "the file is another"
    if mark.shape != last.shape:
        return "the schema of the file was changed"
    if last.newest < mark.upto:
        return "notes were purged that the last snapshot had not seen"
    return ""


class SqliteSnapshot:
    """A connection with a read transaction open. Threads take turns. `read_by` has the tables of queries that were compiled before."""

    def __init__(self, store: SqliteStore, link: sqlite3.Connection, file: Tuple[int, int], layout: Layout, read_by: Dict[str, FrozenSet[str]]):
        self.layout, self.is_open, self._read_by = layout, True, read_by
        self._store, self._link, self._file, self._lock = store, link, file, threading.RLock()

    @property
    def is_lost(self) -> bool:
        return not self.is_open

    def rows(self, read: Read) -> List[Row]:
        return self._rows(read.query, read.args)

    def _rows(self, query: str, args: Sequence[Any]) -> List[Row]:
        with self._lock:
            if not self.is_open:
                raise SnapshotLost("the snapshot was let go")
            with self._still_within():
                cursor = self._link.execute(query, tuple(args))
                return dicts([it[0] for it in cursor.description or ()], cursor.fetchall())

    @contextlib.contextmanager
    def _still_within(self) -> Iterator[None]:
        """Fails with SnapshotLost if what runs in it has ended the transaction."""
        try:
            yield
        finally:
            if self.is_open and not self._link.in_transaction:
                self.close()
                raise SnapshotLost("a query ended the snapshot's transaction")

    def rows_and_tables(self, query: str, args: Sequence[Any]) -> Tuple[List[Row], FrozenSet[str]]:
        with self._lock:
            if not self.is_open:
                raise SnapshotLost("the snapshot was let go")
            tables = self._tables(query, args)
            return self._rows(query, args), tables

    def by_hand(self, statement: Statement, is_named: bool) -> Tuple[Result, FrozenSet[str]]:
        with self._lock:
            if not self.is_open:
                raise SnapshotLost("the snapshot was let go")
            if statement.source not in self._link.sources:
                statement.source.prepare(self._link)
                self._link.sources |= {statement.source}
            tables = frozenset() if is_named else self._tables(statement.query, statement.args or ())
            with self._still_within():
                return run(self._link, statement), tables

    def _tables(self, query: str, args: Any) -> FrozenSet[str]:
        """Returns the tables that a query reads, as it was found to before, if it was."""
        tables = self._read_by.get(query)
        if tables is None:
            tables = self._read_by[query] = self._tables_of(query, args)
        return tables

    def _tables_of(self, query: str, args: Any) -> FrozenSet[str]:
        """Returns the tables that a query reads, as SQLite's own compiler says."""
        seen = self._compiled(query, args)
        if any(table in _CATALOGS for table, _ in seen):
            seen = self._compiled(query, args)  # the first use of a function that stands where a table does reads the catalog, and only that
        told = {it.name.table.lower(): it.tag for it in self.layout.relations.values()}
        views = {it.lower() for it, in self._link.execute("SELECT name FROM sqlite_master WHERE type = 'view'")}
        for table, base in seen:
            if base != "main" or table.lower() not in told and table.lower() not in views and table not in _PURE_TABLES:
                raise ValueError(f"the query reads {table}, on which no triggers stand: tell the store of it, or give the tags, of a cursor by db.reads(..)")
        return frozenset(told[table.lower()] for table, _ in seen if table.lower() in told)

    def _compiled(self, query: str, args: Any) -> Set[Tuple[str, str]]:
        """Returns the tables that the compiler asks to read, each with its database."""
        seen = set()

        def asked(act: int, table: Optional[str], column: Optional[str], base: Optional[str], within: Optional[str]) -> int:
            if act == sqlite3.SQLITE_READ:
                seen.add((table or "", base or "main"))
            return sqlite3.SQLITE_OK

        self._link.set_authorizer(asked)
        try:
            self._link.execute("EXPLAIN " + query, args if isinstance(args, Mapping) else tuple(args)).fetchall()
        finally:
            self._link.set_authorizer(_UNWATCHED)
        return seen

    def close(self) -> None:
        with self._lock:
            if not self.is_open:
                return
            self.is_open = False
        self._store.put_back(self._link, self._file)


@contextlib.contextmanager
def _writing(link: sqlite3.Connection) -> Iterator[None]:
    link.execute("BEGIN IMMEDIATE")
    try:
        yield
    except BaseException:
        link.execute("ROLLBACK")
        raise
    link.execute("COMMIT")


# ---- tables


def _columns(link: sqlite3.Connection, table: str) -> Dict[str, Tuple[str, int]]:
    """Returns the declared type of each column of a table, and its place in the primary key, from 1, or 0."""
    return {it[1]: (it[2].upper(), it[5]) for it in link.execute(f"PRAGMA table_info({quote(table)})")}


def _kind(declared: str) -> Optional[Kind]:
    """Returns the type of a column by the affinity of its declared type, as SQLite derives it."""
    if "INT" in declared:
        return Kind.INTEGER
    if any(it in declared for it in ("CHAR", "CLOB", "TEXT")):
        return Kind.TEXT
    return Kind.BOOLEAN if declared in ("BOOL", "BOOLEAN") else None


def _text_of_table(link: sqlite3.Connection, table: str) -> Optional[str]:
    found = link.execute("SELECT sql FROM sqlite_master WHERE type = 'table' AND name = ?", (table,)).fetchone()
    return found[0] if found else None


def _faults_of_table(link: sqlite3.Connection, table: str, lookups: FrozenSet[Columns]) -> Iterable[str]:
    """Returns why a table can't be followed."""
    text = _text_of_table(link, table)
    if text is None:
        return [f"there is no table {table}"]
    if re.match(r"\s*CREATE\s+VIRTUAL\b", text, re.I):
        return ["it is a virtual table"]
    faults, columns = [], _columns(link, table)
    for column in sorted({it for lookup in lookups for it in lookup}):
        declared = columns.get(column, (None, 0))[0]
        if declared is None:
            faults.append(f"it has no column {column}")
        elif _kind(declared) is None:
            faults.append(f"the column {column} is of type {declared or 'none'}, and not integer, text or boolean")
        elif _kind(declared) is Kind.TEXT and not _is_binary(link, table, column):
            faults.append(f"the column {column} has another collation than BINARY")
    for index, columns_of_index in _unique_indexes(link, table):
        if any(name is None for name, _ in columns_of_index):
            faults.append(f"its unique index {index} is over an expression")
        elif any(collation != "BINARY" for _, collation in columns_of_index):
            faults.append(f"its unique index {index} has another collation than BINARY")
    return faults


def _is_binary(link: sqlite3.Connection, table: str, column: str) -> bool:
    """Returns True if the texts of a column are compared byte by byte. A compound query compares by the collation of its first column."""
    try:
        (count,), = link.execute(f"SELECT count(*) FROM (SELECT {quote(column)} FROM {quote(table)} WHERE 0 UNION SELECT 'a' UNION SELECT 'A' UNION SELECT 'a ')")
    except sqlite3.OperationalError:  # a collation that this connection does not have
        return False
    return count == 3


def _unique_indexes(link: sqlite3.Connection, table: str) -> List[Tuple[str, List[Tuple[Optional[str], str]]]]:
    """Returns the unique indexes of a table: of each its columns, None for an expression, with their collations."""
    names = [it[1] for it in link.execute(f"PRAGMA index_list({quote(table)})") if it[2]]
    return [(it, [(row[2], row[4]) for row in link.execute(f"PRAGMA index_xinfo({quote(it)})") if row[5]]) for it in sorted(names)]


def _rowid(link: sqlite3.Connection, table: str) -> Optional[str]:
    """Returns a name of the row's number that no column has, or None where the table has none."""
    columns = {it.lower() for it in _columns(link, table)}
    for name in ("rowid", "_rowid_", "oid"):
        if name not in columns:
            try:
                link.execute(f"SELECT {name} FROM {quote(table)} LIMIT 0")
            except sqlite3.OperationalError:
                return None
            return name
    return None


def _relation(link: sqlite3.Connection, given: str, name: Name, lookups: FrozenSet[Columns]) -> Relation:
    columns = _columns(link, name.table)
    key = sorted((place, it) for it, (_, place) in columns.items() if place)
    order = ", ".join(quote(it) for _, it in key) or _rowid(link, name.table) or "1"
    return Relation(given, name, lookups, {it: _kind(columns[it][0]) for lookup in lookups for it in lookup}, order)


# ---- triggers


def _triggers(link: sqlite3.Connection, table: str) -> Dict[str, str]:
    """Returns the texts of our triggers on a table, by their names."""
    found = link.execute("SELECT name, sql FROM sqlite_master WHERE type = 'trigger' AND tbl_name = ? AND name LIKE 'txcache\\_%' ESCAPE '\\'", (table,))
    return dict(found.fetchall())


def _noted(triggers: Mapping[str, str]) -> FrozenSet[Columns]:
    """Returns the lookups that triggers note, as the first line of each says."""
    found = set()
    for text in triggers.values():
        head = re.search(r"-- (\[.*\])\n", text)
        with contextlib.suppress(ValueError, TypeError):
            version, lookups = json.loads(head[1]) if head else (None, ())
            found |= set(map(tuple, lookups)) if version == VERSION else set()
    return frozenset(found)


def _trigger_texts(link: sqlite3.Connection, table: str, lookups: FrozenSet[Columns]) -> Dict[str, str]:
    """Returns the triggers that note the changes of a table.

    REPLACE deletes rows for which no trigger fires: those that a key finds in the way are noted before."""
    ordered = sorted(lookups)
    note, head = "INSERT INTO txcache_notes (relation, keys)", f"-- {json.dumps([VERSION, ordered])}"
    old, new, other = (_note_values(table, ordered, row) for row in ("OLD", "NEW", "it"))
    keys = [[name for name, _ in columns] for _, columns in _unique_indexes(link, table)]
    rowid = _rowid(link, table)
    keys += [[rowid]] if rowid else []
    in_the_way = [f"{note} SELECT {other} FROM {quote(table)} AS it WHERE {' AND '.join(f'it.{_quoted(name)} = NEW.{_quoted(name)}' for name in key)}" for key in keys]
    own = [rowid] if rowid else [it for it, (_, place) in _columns(link, table).items() if place]
    is_other = f" AND NOT ({' AND '.join(f'it.{_quoted(name)} IS OLD.{_quoted(name)}' for name in own)})" if own else ""
    bodies = {"insert": ("AFTER INSERT", f"{note} SELECT {new};"), "delete": ("AFTER DELETE", f"{note} SELECT {old};"),
              "update": ("AFTER UPDATE", f"{note} SELECT {old} UNION SELECT {new};")}
    if in_the_way:
        bodies.update(before_insert=("BEFORE INSERT", " ".join(f"{it};" for it in in_the_way)),
                      before_update=("BEFORE UPDATE", " ".join(f"{it}{is_other};" for it in in_the_way)))
    return {f"txcache_{table}_{name}": f"CREATE TRIGGER {quote(f'txcache_{table}_{name}')} {when} ON {quote(table)} FOR EACH ROW BEGIN {head}\n{body} END"
            for name, (when, body) in bodies.items()}


def _quoted(name: str) -> str:
    return name if name in ("rowid", "_rowid_", "oid") else quote(name)


def _note_values(table: str, lookups: Sequence[Columns], row: str) -> str:
    texts = [f"{literal(prefix_of(it))} || " + " || ',' || ".join(f"coalesce({row}.{quote(column)}, '{NULL}')" for column in it) for it in lookups]
    return f"{literal(table)}, json_array({', '.join(texts)})"
