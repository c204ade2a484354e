"""The objects that `install` makes in a PostgreSQL database, and whether they are intact: the schema `txcache`, its notes, and a trigger on each table."""

import hashlib
import json
import re
from dataclasses import dataclass
from typing import Dict, FrozenSet, Iterable, List, Mapping, NamedTuple, Optional, Tuple

from ._driver import Link
from ._layout import NULL, Columns, Kind, Layout, Name, Relation, literal, prefix_of, quote

VERSION = 1
COMMENT = f"TxCache, version {VERSION}"
SAFE_PATH = "SET search_path = pg_catalog, pg_temp"
KINDS = {"smallint": Kind.INTEGER, "integer": Kind.INTEGER, "bigint": Kind.INTEGER, "text": Kind.TEXT, "character varying": Kind.TEXT,
         "uuid": Kind.UUID, "boolean": Kind.BOOLEAN}
BOOLEANS = "false", "true"
_ROW_TRIGGER = 29  # of pg_trigger.tgtype: after each row that is inserted, updated or deleted

# The catalog rows of the tables and of their partitions, with whatever else changes what a query of them gives; and whether policies
# hide rows of them. TRUNCATE and what rewrites a table change its relfilenode.
_SHAPE = """
DECLARE them oid[]; tree text;
BEGIN
    WITH RECURSIVE t(oid, made) AS (SELECT unnest(tables), NULL::xid UNION SELECT i.inhrelid, i.xmin FROM pg_inherits i JOIN t ON i.inhparent = t.oid)
    SELECT array_agg(DISTINCT oid), concat(count(made), ',', sum(made::text::bigint)) INTO them, tree FROM t;
    RETURN (SELECT concat_ws(' ', tree,
        (SELECT concat(sum(hashtextextended(concat(oid, ' ', relfilenode, ' ', xmin), 0)), ' ', count(*) FILTER (WHERE relrowsecurity AND row_security_active(oid)))
            FROM pg_class WHERE oid = ANY (them)),
        (SELECT sum(hashtextextended(concat(oid, ' ', tgenabled, ' ', xmin), 0)) FROM pg_trigger WHERE tgrelid = ANY (them)),
        (SELECT sum(hashtextextended(xmin::text, attrelid::bigint * 65536 + attnum)) FROM pg_attribute WHERE attrelid = ANY (them) AND attnum > 0),
        (SELECT concat(count(*), ',', sum(hashtextextended(concat(oid, ' ', xmin), 0))) FROM pg_policy WHERE polrelid = ANY (them)),
        (SELECT concat(count(*), ',', sum(xmin::text::bigint)) FROM pg_proc WHERE oid >= 16384),
        (SELECT concat(count(*), ',', sum(r.xmin::text::bigint)) FROM pg_rewrite r JOIN pg_class c ON c.oid = r.ev_class
            WHERE r.oid >= 16384 AND c.relpersistence <> 't'),
        (SELECT concat(count(*), ',', sum(xmin::text::bigint)) FROM pg_enum WHERE oid >= 16384)));
END
"""

# The question of a look, in one statement whose plans the server keeps: the snapshot's numbers, the server's, the number that was purged last, the shape of the
# tables; and the tags of rows that the snapshot sees and one did not that had seen all below `beyond` but those `running`. The server's own processes have
# other numbers once it has started again after one of its processes died; its start time is then as it was.
_LOOK = """
BEGIN
    SELECT pg_current_snapshot()::text, concat(s.system, ' ', (SELECT oid FROM pg_database WHERE datname = current_database()), ' ',
            extract(epoch FROM pg_postmaster_start_time()), ' ', c.system_identifier, ' ',
            (SELECT min(pid) FROM pg_stat_get_activity(NULL) WHERE datid IS NULL AND usesysid IS NULL)),
        s.upto::text, txcache.shape(tables) INTO snapshot, server, purged, form
    FROM txcache.state s, pg_control_system() c;
    IF beyond IS NOT NULL THEN
        tags := ARRAY(SELECT DISTINCT n.relation || ':' || k FROM
            (SELECT relation, keys FROM txcache.notes WHERE xact >= beyond UNION ALL
             SELECT relation, keys FROM txcache.notes WHERE xact = ANY (running)) AS n, unnest(''::text || n.keys) AS k
            WHERE n.relation = ANY (relations) LIMIT most);
    END IF;
END
"""

# A purge writes down the number below which all transactions are over, and deletes the notes below the greatest such number that a purge
# wrote down long enough ago. Where another purge is at work it does nothing.
_PURGE = """
DECLARE upon xid8; deleted bigint := 0;
BEGIN
    PERFORM FROM txcache.state FOR UPDATE SKIP LOCKED;
    IF NOT FOUND THEN
        RETURN 0;
    END IF;
    SELECT p.below INTO upon FROM txcache.purges p WHERE p.made <= clock_timestamp() - make_interval(secs => age) ORDER BY p.below DESC LIMIT 1;
    IF upon > (SELECT s.upto FROM txcache.state s) THEN
        DELETE FROM txcache.notes n WHERE n.xact < upon;
        GET DIAGNOSTICS deleted = ROW_COUNT;
        UPDATE txcache.state SET upto = upon;
        DELETE FROM txcache.purges p WHERE p.below < upon;
    END IF;
    INSERT INTO txcache.purges (below) SELECT pg_snapshot_xmin(pg_current_snapshot());
    RETURN deleted;
END
"""

_TABLES = """
CREATE SCHEMA IF NOT EXISTS txcache;
CREATE TABLE IF NOT EXISTS txcache.notes (xact xid8 NOT NULL DEFAULT pg_current_xact_id(), relation text NOT NULL, keys text[] NOT NULL);
CREATE INDEX IF NOT EXISTS notes_xact ON txcache.notes (xact);
CREATE TABLE IF NOT EXISTS txcache.state (system bigint NOT NULL, upto xid8 NOT NULL);
CREATE TABLE IF NOT EXISTS txcache.purges (below xid8 NOT NULL, made timestamptz NOT NULL DEFAULT clock_timestamp());
ALTER TABLE txcache.notes REPLICA IDENTITY FULL;
ALTER TABLE txcache.state REPLICA IDENTITY FULL;
ALTER TABLE txcache.purges REPLICA IDENTITY FULL;
"""

# The state is that of this server. Notes of another, as a restored dump has, would stand above all numbers of this one.
_STATE = """
DELETE FROM txcache.notes WHERE (SELECT system FROM txcache.state) IS DISTINCT FROM (SELECT system_identifier FROM pg_control_system());
DELETE FROM txcache.purges WHERE (SELECT system FROM txcache.state) IS DISTINCT FROM (SELECT system_identifier FROM pg_control_system());
DELETE FROM txcache.state WHERE system <> (SELECT system_identifier FROM pg_control_system());
INSERT INTO txcache.state SELECT system_identifier, pg_snapshot_xmin(pg_current_snapshot()) FROM pg_control_system()
    WHERE NOT EXISTS (SELECT FROM txcache.state);
"""

# Plans that are kept go by the indexes: a catalog, or the notes, may be short when the plan is made. A scan without an index then seems
# expensive, and would be compiled.
_PLANS = "SET plan_cache_mode = force_generic_plan SET enable_seqscan = off SET jit = off"
_LOOK_OF = "txcache.look(oid[], xid8, xid8[], text[], integer)"

_FUNCTIONS = f"""
CREATE OR REPLACE FUNCTION txcache.shape(tables oid[]) RETURNS text LANGUAGE plpgsql STABLE {SAFE_PATH} {_PLANS}
    AS $txcache${_SHAPE}$txcache$;
CREATE OR REPLACE FUNCTION txcache.look(tables oid[], beyond xid8, running xid8[], relations text[], most integer,
        OUT snapshot text, OUT server text, OUT purged text, OUT form text, OUT tags text[]) LANGUAGE plpgsql STABLE {SAFE_PATH} {_PLANS}
    AS $txcache${_LOOK}$txcache$;
CREATE OR REPLACE FUNCTION txcache.purge(age double precision) RETURNS bigint LANGUAGE plpgsql SECURITY DEFINER {SAFE_PATH}
    AS $txcache${_PURGE}$txcache$;
REVOKE ALL ON FUNCTION txcache.shape(oid[]), {_LOOK_OF}, txcache.purge(double precision) FROM PUBLIC;
COMMENT ON SCHEMA txcache IS {literal(COMMENT)};
"""

_READER = f"""
GRANT USAGE ON SCHEMA txcache TO {{role}};
GRANT SELECT ON txcache.notes, txcache.state TO {{role}};
GRANT EXECUTE ON FUNCTION txcache.shape(oid[]), {_LOOK_OF}, txcache.purge(double precision) TO {{role}};
"""

_RELATIONS = """
SELECT c.oid::bigint, n.nspname, c.relname, c.relkind::text, c.relpersistence::text, row_security_active(c.oid),
    EXISTS (SELECT FROM pg_inherits i WHERE i.inhparent = c.oid), pg_get_userbyid(c.relowner),
    ARRAY(SELECT a.attname::text FROM pg_index i CROSS JOIN unnest(i.indkey) WITH ORDINALITY AS k(number, place) JOIN pg_attribute a ON a.attrelid = i.indrelid AND a.attnum = k.number
        WHERE i.indrelid = c.oid AND i.indisprimary ORDER BY k.place)
FROM pg_class c JOIN pg_namespace n ON n.oid = c.relnamespace WHERE c.oid = ANY ({oids})
"""

_COLUMNS = """
SELECT a.attrelid::bigint, a.attname, format_type(a.atttypid, NULL), coalesce(c.collisdeterministic, true)
FROM pg_attribute a LEFT JOIN pg_collation c ON c.oid = a.attcollation WHERE a.attrelid = ANY ({oids}) AND a.attnum > 0 AND NOT a.attisdropped
"""

# Each table and each of its partitions, with our triggers that stand on it.
_TRIGGERS = """
WITH RECURSIVE t(root, oid) AS (SELECT it, it FROM unnest({oids}) AS it UNION SELECT root, inhrelid FROM pg_inherits JOIN t ON inhparent = t.oid)
SELECT t.root::bigint, t.root = t.oid, t.oid::regclass::text, c.relkind::text, g.tgname, g.tgparentid = 0, g.tgenabled::text,
    g.tgtype = {kind} AND g.tgqual IS NULL AND g.tgattr::text = '' AND p.prosecdef AND p.proconfig = ARRAY['search_path=pg_catalog, pg_temp']
        AND n.nspname = 'txcache', p.oid::regprocedure::text, p.prosrc
FROM t JOIN pg_class c ON c.oid = t.oid LEFT JOIN pg_trigger g ON g.tgrelid = t.oid AND g.tgname LIKE 'txcache\\_%'
LEFT JOIN pg_proc p ON p.oid = g.tgfoid LEFT JOIN pg_namespace n ON n.oid = p.pronamespace
ORDER BY t.root <> t.oid, t.oid
"""


class Standing(NamedTuple):
    """A trigger on a table, or on one of its partitions; all None from `trigger` on where none stands there."""

    is_root: bool
    place: str
    kind: str
    trigger: Optional[str]
    is_own: Optional[bool]
    enabled: Optional[str]
    is_whole: Optional[bool]
    function: Optional[str]
    text: Optional[str]


def label(name: Name) -> str:
    """Returns the name of a table's trigger, and of its function."""
    return "txcache_" + hashlib.blake2b(name.tag.encode(), digest_size=8).hexdigest()


def source(name: Name, lookups: Iterable[Columns]) -> str:
    """Returns the text of a table's trigger function. Its first line says which lookups it notes."""
    ordered = sorted(lookups)
    keys = {row: ", ".join([f"{literal(prefix_of(it))} || " + " || ',' || ".join(f"coalesce({row}.{quote(column)}::text, '{NULL}')" for column in it)
                            for it in ordered]) for row in ("OLD", "NEW")}
    return f"""-- {json.dumps([VERSION, name.tag, ordered])}
DECLARE old_keys text[]; new_keys text[];
BEGIN
    IF TG_OP = 'UPDATE' THEN
        IF OLD *= NEW THEN
            RETURN NULL;
        END IF;
    END IF;
    IF TG_OP <> 'INSERT' THEN
        old_keys := ARRAY[{keys["OLD"]}]::text[];
    END IF;
    IF TG_OP <> 'DELETE' THEN
        new_keys := ARRAY[{keys["NEW"]}]::text[];
    END IF;
    IF old_keys = new_keys THEN
        new_keys := NULL;
    END IF;
    INSERT INTO txcache.notes (relation, keys) VALUES ({literal(name.tag)}, coalesce(old_keys, '{{}}') || coalesce(new_keys, '{{}}'));
    RETURN NULL;
END
"""


def noted(text: str, name: Name) -> Optional[FrozenSet[Columns]]:
    """Returns the lookups that a trigger function notes, if this version wrote it for this table, and it was not changed since."""
    head = re.match(r"-- (.*)\n", text)
    try:
        version, _, lookups = json.loads(head[1]) if head else (None, None, None)
        found = frozenset(map(tuple, lookups)) if version == VERSION else None
    except (ValueError, TypeError):
        return None
    return found if found is not None and text == source(name, found) else None


def array(oids: Iterable[int]) -> str:
    """Returns oids as they stand in SQL."""
    return f"'{{{','.join(map(str, oids))}}}'::oid[]"


@dataclass(frozen=True)
class Found:
    """A table as the catalog has it."""

    oid: int
    name: Name
    kind: str
    persistence: str
    has_policies: bool
    has_children: bool
    owner: str
    key: Tuple[str, ...]
    columns: Mapping[str, Tuple[str, bool]]


class Catalog:
    """The tables of a store, as the transaction that is open on a connection sees them."""

    def __init__(self, link: Link, names: Mapping[str, Name], lookups: Mapping[str, FrozenSet[Columns]]):
        self.link, self.names, self.lookups, self.missing = link, names, lookups, []
        self.oids: Dict[str, int] = {}
        for given, name in names.items():
            (oid,), = link.ask("SELECT to_regclass(%s)::oid::bigint", (name.quoted,))
            if oid is None:
                self.missing.append(f"{given}: there is no such table, or {name.schema or 'the search_path'} is out of reach")
            else:
                self.oids[given] = oid
        self.found = self._described() if self.oids else {}

    def _described(self) -> Dict[str, Found]:
        oids = array(self.oids.values())
        columns: Dict[int, Dict[str, Tuple[str, bool]]] = {it: {} for it in self.oids.values()}
        for oid, column, kind, is_plain in self.link.ask(_COLUMNS.format(oids=oids)):
            columns[oid][column] = kind, is_plain
        rows = {row[0]: Found(row[0], Name(row[1], row[2]), *row[3:8], tuple(row[8]), columns[row[0]]) for row in self.link.ask(_RELATIONS.format(oids=oids))}
        return {given: rows[oid] for given, oid in self.oids.items() if oid in rows}

    def faults_of_tables(self) -> Dict[str, List[str]]:
        """Returns of each table why it can't be followed."""
        return {given: [f"{given}: {it}" for it in self._faults(found, self.lookups[given])] for given, found in self.found.items()}

    @staticmethod
    def _faults(found: Found, lookups: FrozenSet[Columns]) -> Iterable[str]:
        if found.kind not in _WITH_TRIGGERS:
            yield f"it is {_KIND_NAMES.get(found.kind, 'no table')}, and not an ordinary or partitioned table"
        if found.persistence == "t":
            yield "it is a temporary table"
        if found.kind == "r" and found.has_children:
            yield "other tables inherit from it"
        if found.has_policies:
            yield "policies hide rows of it from this role"
        for column in sorted({it for lookup in lookups for it in lookup}):
            kind, is_plain = found.columns.get(column, (None, True))
            if kind is None:
                yield f"it has no column {column}"
            elif kind not in KINDS:
                yield f"the column {column} is of type {kind}, and not of {', '.join(KINDS)}"
            elif not is_plain:
                yield f"the column {column} has a collation that is not deterministic"

    def triggers(self) -> Dict[str, List[Standing]]:
        """Returns of each table the triggers that stand on it and on its partitions, itself first."""
        by_oid: Dict[int, List[Standing]] = {it.oid: [] for it in self.found.values()}
        if by_oid:
            for root, *words in self.link.ask(_TRIGGERS.format(oids=array(by_oid), kind=_ROW_TRIGGER)):
                by_oid[root].append(Standing(*words))
        return {given: by_oid[found.oid] for given, found in self.found.items()}

    def faults_of_triggers(self) -> List[str]:
        """Returns why the notes of the tables' rows would not be written."""
        lines = []
        for given, standing in self.triggers().items():
            name, wanted = self.found[given].name, self.lookups[given]
            mine = {it.place: it for it in standing if it.trigger == label(name)}
            lines += self.faults_of_partitions(given, standing)
            for place in {it.place: None for it in standing if it.kind in _WITH_TRIGGERS}:
                fault = self._fault(mine.get(place), name, wanted)
                lines += [f"{given}: {fault.format(place)}"] if fault else []
        return lines

    @staticmethod
    def faults_of_partitions(given: str, standing: Iterable[Standing]) -> List[str]:
        """Returns which partitions of a table are no tables, such as foreign ones, whose rows change with no trigger."""
        others = {it.place: it.kind for it in standing if it.kind not in _WITH_TRIGGERS and not it.is_root}
        return [f"{given}: its partition {place} is {_KIND_NAMES.get(kind, 'no table')}" for place, kind in others.items()]

    @staticmethod
    def _fault(standing: Optional[Standing], name: Name, wanted: FrozenSet[Columns]) -> str:
        if standing is None:
            return "no trigger stands on {}"
        notes = noted(standing.text, name)
        if notes is None or not standing.is_whole:
            return f"the trigger on {{}} is not that of version {VERSION}"
        if standing.enabled != "A":
            return "the trigger on {} is not ENABLE ALWAYS"
        if wanted - notes:
            return f"the trigger on {{}} does not note {', '.join(map(' and '.join, sorted(wanted - notes)))}"
        return ""

    def faults_of_reading(self, reader: Optional[str]) -> List[str]:
        """Returns which tables this role, or the role `reader`, may not read."""
        lines = []
        for role in _roles(self.link, reader):
            query = _MAY_NOT_SELECT.format(oids=array(it.oid for it in self.found.values()), role=role.text)
            refused = {oid for oid, in self.link.ask(query)} if self.found else set()
            lines += [f"{given}: {role} may not read it: GRANT SELECT, and USAGE of its schema" for given, it in self.found.items() if it.oid in refused]
        return lines

    def layout(self) -> Layout:
        """Returns the tables for readers."""
        relations = []
        for given, found in self.found.items():
            kinds = {it: KINDS[found.columns[it][0]] for lookup in self.lookups[given] for it in lookup}
            order = ", ".join(map(quote, found.key)) or "tableoid, ctid"
            relations.append(Relation(given, found.name, self.lookups[given], kinds, order))
        return Layout(relations, "%s", BOOLEANS)


_WITH_TRIGGERS = "r", "p"  # kinds of relations: ordinary and partitioned tables
_KIND_NAMES = {"v": "a view", "m": "a materialized view", "f": "a foreign table", "S": "a sequence", "c": "a composite type", "i": "an index"}


_MAY_FOLLOW = f"""SELECT has_table_privilege({{role}}, 'txcache.notes', 'SELECT'), has_table_privilege({{role}}, 'txcache.state', 'SELECT'),
    has_function_privilege({{role}}, 'txcache.shape(oid[])', 'EXECUTE'), has_function_privilege({{role}}, '{_LOOK_OF}', 'EXECUTE')"""
_MAY_READ = f"{_MAY_FOLLOW}, has_schema_privilege({{role}}, 'txcache', 'USAGE'), has_function_privilege({{role}}, 'txcache.purge(double precision)', 'EXECUTE')"


_MAY_NOT_SELECT = """SELECT c.oid::bigint FROM pg_class c WHERE c.oid = ANY ({oids})
    AND NOT (has_table_privilege({role}, c.oid, 'SELECT') AND has_schema_privilege({role}, c.relnamespace, 'USAGE'))"""


_TEXTS = {"shape": _SHAPE, "look": _LOOK, "purge": _PURGE}


class _Role(NamedTuple):
    """A role as it stands in SQL, and as it is told of."""

    text: str
    label: str

    def __str__(self) -> str:
        return self.label


def _roles(link: Link, reader: Optional[str]) -> List[_Role]:
    """Returns this role; and the role `reader`, if that is named and there is such."""
    found = [_Role("current_user", "this role")]
    if reader is not None and link.ask("SELECT FROM pg_roles WHERE rolname = %s", (reader,)):
        found.append(_Role(literal(reader), f"the role {reader}"))
    return found


def _comment(link: Link) -> Optional[str]:
    found = link.ask("SELECT obj_description(oid, 'pg_namespace') FROM pg_namespace WHERE nspname = 'txcache'")
    return found[0][0] or "without its comment" if found else None


def _functions(link: Link) -> Dict[str, str]:
    return dict(link.ask("SELECT p.proname::text, p.prosrc FROM pg_proc p JOIN pg_namespace n ON n.oid = p.pronamespace "
                         "WHERE n.nspname = 'txcache' AND p.proname IN ('shape', 'look', 'purge')"))


def faults_of_schema(link: Link, reader: Optional[str] = None) -> List[str]:
    """Returns why this role, or the role `reader`, can't read from the schema `txcache`."""
    comment = _comment(link)
    if comment != COMMENT:
        return [f"the schema txcache is {'not there' if comment is None else repr(comment)}, and not {COMMENT!r}"]
    if _functions(link) != _TEXTS:
        return [f"the functions of the schema txcache are not those of version {VERSION}"]
    roles = _roles(link, reader)
    if reader is not None and len(roles) == 1:
        return [f"there is no role {reader}"]
    for role in roles:
        if not link.ask(f"SELECT has_schema_privilege({role.text}, 'txcache', 'USAGE')")[0][0]:
            return [f"{role} may not use the schema txcache: install --reader ROLE"]
        if not all(link.ask(_MAY_FOLLOW.format(role=role.text))[0]):
            return [f"{role} may not read the notes: install --reader ROLE"]
    if link.ask("SELECT system FROM txcache.state") != link.ask("SELECT system_identifier FROM pg_control_system()"):
        return ["the notes are those of another server, as of a restored dump"]
    return []


def own_of(standing: Iterable[Standing]) -> List[Standing]:
    """Returns the triggers of ours that stand on a table itself, and so on its partitions."""
    return [it for it in standing if it.is_root and it.is_own]


class Installer:
    """Writes the schema and the triggers, a transaction for each table."""

    def __init__(self, link: Link, lock_timeout: float):
        self._link, self._limit = link, f"SET LOCAL lock_timeout = {int(lock_timeout * 1000)}; "

    def _transaction(self, text: str) -> None:
        try:
            self._link.ask(f"BEGIN ISOLATION LEVEL READ COMMITTED; {self._limit}{text}; COMMIT")
        except self._link.driver.Error:
            self._link.ask("ROLLBACK")
            raise

    def schema(self, reader: Optional[str]) -> None:
        """Makes the objects that a database has once. Objects that exist are left alone: tables that snapshots read would be waited for."""
        stands = _comment(self._link) == COMMENT and _functions(self._link) == _TEXTS
        self._transaction(("" if stands else _TABLES + _FUNCTIONS) + _STATE)
        if reader and not all(self._link.ask(_MAY_READ.format(role=literal(reader)))[0]):
            self._transaction(_READER.format(role=quote(reader)))

    def table(self, found: Found, lookups: FrozenSet[Columns], standing: Iterable[Standing]) -> bool:
        """Makes a table's trigger stand, which notes the lookups of another service too if it did. Returns False if all stands."""
        name, standing = label(found.name), list(standing)
        mine = [it for it in standing if it.trigger == name]
        notes = [noted(it.text, found.name) for it in mine]
        lookups = lookups.union(*filter(None, notes))
        stale = [it for it in standing if it.is_root and it.is_own and (it.trigger != name or not it.is_whole)]
        is_whole = all(it.is_whole and it.enabled == "A" for it in mine) and all(it == lookups for it in notes)
        if is_whole and not stale and {it.place for it in mine} == {it.place for it in standing}:
            return False
        self._transaction(self._text(found, lookups, stale, any(it.is_root and it.is_whole for it in mine), dict.fromkeys(it.place for it in standing)))
        return True

    @staticmethod
    def _text(found: Found, lookups: Iterable[Columns], stale: Iterable[Standing], stands: bool, places: Iterable[str]) -> str:
        name = quote(label(found.name))
        function = f"txcache.{name}()"
        # under the lock no writer is at work: all that wrote before are over, and none has the function's former text
        words = [f"LOCK TABLE {found.name.quoted} IN SHARE ROW EXCLUSIVE MODE",
                 f"CREATE OR REPLACE FUNCTION {function} RETURNS trigger LANGUAGE plpgsql SECURITY DEFINER {SAFE_PATH} "
                 f"AS $txcache${source(found.name, lookups)}$txcache$",
                 f"REVOKE ALL ON FUNCTION {function} FROM PUBLIC", f"GRANT EXECUTE ON FUNCTION {function} TO {quote(found.owner)}"]
        words += [f"DROP TRIGGER {quote(it.trigger)} ON {it.place}" for it in stale]
        if not stands:
            words.append(f"CREATE TRIGGER {name} AFTER INSERT OR UPDATE OR DELETE ON {found.name.quoted} FOR EACH ROW EXECUTE FUNCTION {function}")
        words += [f"ALTER TABLE {it} ENABLE ALWAYS TRIGGER {name}" for it in places]
        return "; ".join(words)

    def uninstall(self, tables: Iterable[Iterable[Standing]]) -> bool:
        """Drops the triggers of tables with their functions, and the schema if no table of another service has its trigger still, all or nothing. Returns
        False if the schema stays."""
        texts = sorted(f"DROP TRIGGER {quote(it.trigger)} ON {it.place}; DROP FUNCTION {it.function}" for standing in tables for it in own_of(standing))
        try:
            self._link.ask(f"BEGIN ISOLATION LEVEL READ COMMITTED; {'; '.join([self._limit.rstrip('; '), *texts])}")
            (others,), = self._link.ask("SELECT count(*) FROM pg_trigger g JOIN pg_proc p ON p.oid = g.tgfoid JOIN pg_namespace n ON n.oid = p.pronamespace "
                                        "WHERE n.nspname = 'txcache'")
            self._link.ask("COMMIT" if others else "DROP SCHEMA IF EXISTS txcache CASCADE; COMMIT")
        except self._link.driver.Error:
            self._link.ask("ROLLBACK")
            raise
        return not others
