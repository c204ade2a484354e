"""The tables that a service told of: their names and lookups, the tags of their rows, and the queries of `row` and `rows`.

A tag is a text. `public.items:` is the whole table; `public.items:id=7` are its rows with that id. The triggers write the tags of each
changed row, as it was and as it is, and a reader names those of what it reads. Two lookups may share a tag, and then one is computed
again for a change of the other; what matters is that triggers and readers write one text.
"""

import enum
import re
import uuid
from dataclasses import dataclass
from typing import TYPE_CHECKING, Any, Callable, Dict, FrozenSet, Iterable, List, Mapping, NamedTuple, Optional, Sequence, Tuple, Union

if TYPE_CHECKING:
    from ._cursor import Cursor
    from ._hand import Hand

Columns = Tuple[str, ...]
Row = Dict[str, Any]
NULL = "~"  # the text of NULL in a tag
MAX_COLUMNS = 4  # of one lookup
_PART = r'"((?:[^"]|"")+)"|([^".]+)'


class Kind(enum.Enum):
    """The types of columns whose values have one text."""

    INTEGER = "an int"
    TEXT = "a str"
    UUID = "a UUID or its text"
    BOOLEAN = "a bool"


@dataclass(frozen=True)
class Name:
    """The name of a table, qualified by its schema or not."""

    schema: Optional[str]
    table: str

    @staticmethod
    def parse(text: str) -> "Name":
        """Reads `items`, `shop.items` or `shop."an odd.name"`: each part is the name as the database has it, in its case."""
        parts = re.fullmatch(rf"(?:(?:{_PART})\.)?(?:{_PART})", text)
        if not parts:
            raise ValueError(f"{text!r} is no name of a table")
        quoted_schema, schema, quoted_table, table = parts.groups()
        return Name(quoted_schema.replace('""', '"') if quoted_schema else schema, quoted_table.replace('""', '"') if quoted_table else table)

    @property
    def quoted(self) -> str:
        """The name as it stands in SQL."""
        return quote(self.table) if self.schema is None else f"{quote(self.schema)}.{quote(self.table)}"

    @property
    def tag(self) -> str:
        """The name as it stands in tags."""
        return self.table if self.schema is None else f"{self.schema}.{self.table}"


def quote(name: str) -> str:
    """Returns a name as it stands in SQL."""
    if not name or "\0" in name or "\\" in name:
        raise ValueError(f"{name!r} is no name: it is empty, or has a backslash")
    return '"' + name.replace('"', '""') + '"'


def literal(text: str) -> str:
    """Returns a text as it stands in SQL, where backslashes stand for themselves."""
    return "'" + text.replace("'", "''") + "'"


def lookups_of(columns: Iterable[Union[str, Sequence[str]]]) -> FrozenSet[Columns]:
    """Returns the lookups of a table, each the names of its columns in order."""
    found = set()
    for it in columns:
        lookup = (it,) if isinstance(it, str) else tuple(sorted(it))
        if not 1 <= len(lookup) <= MAX_COLUMNS or len(set(lookup)) < len(lookup):
            raise ValueError(f"{it!r} is no lookup: it has from 1 to {MAX_COLUMNS} columns, each once")
        found.add(lookup)
    return frozenset(found)


def prefix_of(lookup: Columns) -> str:
    """Returns the part of a lookup's tags before the values."""
    return ",".join(lookup) + "="


class Read(NamedTuple):
    """A query, its arguments, and the tags of what it reads; None where they are the tables that it is found to read. `wholes` are the tags of
    their tables, which may be used instead."""

    query: str
    args: Tuple[Any, ...]
    tags: Optional[Tuple[str, ...]]
    wholes: Tuple[str, ...] = ()


@dataclass(frozen=True)
class Relation:
    """A table as the database has it: its full name, the types of the columns by which it is looked up, and the order of its rows, in SQL."""

    given: str
    name: Name
    lookups: FrozenSet[Columns]
    kinds: Mapping[str, Kind]
    order: str

    @property
    def tag(self) -> str:
        """The tag of the whole table."""
        return f"{self.name.tag}:"


class _Way:
    """The lookup of a table's rows by some of its columns: the parts that are the same each time. Fails with ValueError if the store was not told of them."""

    def __init__(self, relation: Relation, columns: Iterable[str]):
        lookup = tuple(sorted(columns))
        if lookup and lookup not in relation.lookups:
            told = ", ".join(" and ".join(it) for it in sorted(relation.lookups)) or "no column"
            raise ValueError(f"the table {relation.given!r} is looked up by {told}, and not by {' and '.join(lookup)}")
        self.relation, self.wholes, self.queries = relation, (relation.tag,), {}
        self.prefix = relation.tag + (prefix_of(lookup) if lookup else "")
        self.columns = [(it, f"{relation.given}.{it}", relation.kinds[it]) for it in lookup]


class Layout:
    """The tables of a store as one snapshot has them. `mark` stands for an argument in SQL, and `booleans` are the texts of False and True."""

    def __init__(self, relations: Iterable[Relation], mark: str, booleans: Tuple[str, str]):
        self.relations = {it.given: it for it in relations}
        self._mark, self._booleans = mark, booleans
        self._ways: Dict[Any, _Way] = {}

    def relation(self, table: str) -> Relation:
        found = self.relations.get(table)
        if found is None:
            raise ValueError(f"the store was not told of the table {table!r}, only of {', '.join(self.relations) or 'none'}")
        return found

    def lookup(self, table: str, columns: Mapping[str, Any], limit: Optional[int] = None) -> Read:
        """Returns the query for the rows of a table whose columns have these values."""
        way = self._way(table, columns)
        values = self._values(way, columns)
        shape = limit, *[value is None for value, _ in values]
        query = way.queries.get(shape)
        if query is None:
            query = way.queries[shape] = self._query(way, [value is None for value, _ in values], limit)
        return Read(query, tuple([value for value, _ in values if value is not None]), (self._tag(way, values),), way.wholes)

    def _way(self, table: str, columns: Iterable[str]) -> _Way:
        key = table, *columns
        way = self._ways.get(key)
        if way is None:
            way = self._ways[key] = _Way(self.relation(table), columns)
        return way

    def _query(self, way: _Way, nulls: Sequence[bool], limit: Optional[int]) -> str:
        """Returns the text of a query by columns, of which each has a value, or is NULL."""
        where = [f"{quote(it)} " + ("IS NULL" if is_null else "= \0") for (it, _, _), is_null in zip(way.columns, nulls)]
        query = f"SELECT * FROM {way.relation.name.quoted}" + (f" WHERE {' AND '.join(where)}" if where else "")
        query += f" ORDER BY {way.relation.order}" + (f" LIMIT {limit}" if limit else "")
        has_args = not all(nulls)
        return (query.replace("%", "%%") if has_args and self._mark == "%s" else query).replace("\0", self._mark)

    def tags(self, given: Iterable[Union[str, Sequence[Any]]]) -> Dict[str, str]:
        """Returns the tags of tables, each its name, and of rows, each a table, its columns and their values by turns; each with its table's."""
        found = {}
        for it in given:
            table, *words = (it,) if isinstance(it, str) else it
            if len(words) % 2:
                raise ValueError(f"{it!r} is no tag: it is a table, or (table, column, value)")
            columns = dict(zip(words[::2], words[1::2]))
            way = self._way(table, columns)
            found[self._tag(way, self._values(way, columns))] = way.relation.tag
        return found

    def _values(self, way: _Way, columns: Mapping[str, Any]) -> List[Tuple[Any, str]]:
        """Returns the value of each column, as the database takes it, and its text."""
        return [self._value(label, kind, columns[name]) for name, label, kind in way.columns]

    def _value(self, column: str, kind: Kind, value: Any) -> Tuple[Any, str]:
        if value is None:
            return None, NULL
        if kind is Kind.INTEGER and isinstance(value, int) and not isinstance(value, bool):
            return int(value), str(int(value))
        if kind is Kind.TEXT and isinstance(value, str):
            return str.__str__(value), str.__str__(value)
        if kind is Kind.BOOLEAN and isinstance(value, bool):
            return value, self._booleans[value]
        if kind is Kind.UUID and isinstance(value, (str, uuid.UUID)):
            text = str(value if isinstance(value, uuid.UUID) else uuid.UUID(value))
            return text, text
        raise TypeError(f"the column {column} takes {kind.value}, and not {value!r} of type {type(value).__name__}")

    @staticmethod
    def _tag(way: _Way, values: Sequence[Tuple[Any, str]]) -> str:
        return way.prefix + ",".join([text for _, text in values])


class Db:
    """Reads of a service's database, all in one snapshot. `run` gives the rows of a `Read`, and `hand` runs the statements of cursors."""

    def __init__(self, layout: Layout, run: Callable[[Read], List[Row]], hand: "Optional[Hand]" = None):
        self._layout, self._run, self.hand = layout, run, hand

    def row(self, table: str, /, **columns: Any) -> Optional[Row]:
        """Returns the row whose columns have these values, or None. Fails with ValueError if there are more."""
        if not columns:
            raise ValueError("row takes a column and its value")
        found = self._run(self._layout.lookup(table, columns, limit=2))
        if len(found) > 1:
            raise ValueError(f"the table {table!r} has more than one row with {', '.join(f'{it} = {value!r}' for it, value in columns.items())}")
        return found[0] if found else None

    def rows(self, table: str, /, **columns: Any) -> List[Row]:
        """Returns the rows whose columns have these values, or all, in the order of the primary key, else in the order in which they lie."""
        return self._run(self._layout.lookup(table, columns))

    def sql(self, query: str, args: Sequence[Any] = (), tags: Optional[Iterable[Union[str, Sequence[Any]]]] = None) -> List[Row]:
        """Returns the rows of any query. `tags` are those of all that it reads, and nothing checks them: a table, or (table, column, value).
        Without them they are the tables that the database says it read."""
        if isinstance(tags, str):
            raise TypeError(f"tags is a list, as [{tags!r}]")
        refuse_all_but_one_query(query)
        found = None if tags is None else self._layout.tags(tags)
        return self._run(Read(query, tuple(args), None) if found is None else Read(query, tuple(args), tuple(found), tuple(found.values())))

    def cursor(self, **words: Any) -> "Cursor":
        """Returns a DB-API cursor that reads in the snapshot until the function has returned. `words` are those of the driver's own `cursor()`. Its
        reads are found as those of `sql`, and remembered by the function, unless `reads` has named it."""
        return self.hand.cursor(words=words)

    def reads(self, *tags: Union[str, Sequence[Any]]) -> None:
        """Names all that cursors read from now on, and nothing checks it: a table, or (table, column, value). It comes before the first query of a cursor."""
        self.hand.reads(self._layout.tags(tags))


def dicts(names: Sequence[str], rows: Iterable[Sequence[Any]]) -> List[Row]:
    """Returns rows by the names of their columns. Fails with ValueError if two columns have one name."""
    if len(set(names)) < len(names):
        twice = next(it for it in names if list(names).count(it) > 1)
        raise ValueError(f"two columns of the query are named {twice!r}")
    return [dict(zip(names, row)) for row in rows]


# Texts, names and comments: a semicolon in one of them ends no statement.
QUOTED = re.compile(r"""\be'(?:[^'\\]|''|\\.)*'|'(?:[^']|'')*'|"(?:[^"]|"")*"|\$(\w*)\$.*?\$\1\$|--[^\n]*|/\*.*?\*/""", re.I | re.S)
_ENDS = re.compile(r"\s*(begin|start|commit|end|rollback|abort|savepoint|release|prepare|discard)\b", re.I)


def refuse_all_but_one_query(query: str) -> None:
    """Fails with ValueError if a text is several statements, or one that begins or ends a transaction: what it then read would be of no snapshot."""
    plain = QUOTED.sub(" ", query)
    if re.search(r";\s*\S", plain):
        raise ValueError(f"{query[:64]!r} is more than one statement")
    found = _ENDS.match(plain)
    if found:
        raise ValueError(f"the query is {found[1]!r}, which begins or ends a transaction")


# Words, functions, functions without an argument and texts of times that depend on the time, on chance or on the session.
_WORDS = "current_date|current_time|current_timestamp|localtime|localtimestamp"
_CALLS = (r"now|clock_timestamp|statement_timestamp|transaction_timestamp|timeofday|age|random|random_normal|randomblob|setseed|gen_random_uuid"
          r"|gen_random_bytes|uuid_generate_v\w+|uuidv4|uuidv7|nextval|currval|lastval|setval|last_insert_rowid|changes|total_changes|pg_sleep\w*"
          r"|txid_current\w*|pg_current_xact_id\w*|pg_current_snapshot|pg_backend_pid|pg_postmaster_start_time|pg_conf_load_time")
_EMPTY_CALLS = "date|time|datetime|julianday|unixepoch"
_TEXTS = "now|today|tomorrow|yesterday"
_CLOCK = re.compile(rf'\b({_WORDS})\b|\b({_CALLS})"?\s*\(|\b({_EMPTY_CALLS})\s*\(\s*\)|\'\s*({_TEXTS})\s*\'', re.I)


def refuse_time_and_chance(query: str) -> None:
    """Fails with ValueError if the text of a query names a clock, chance, or a number of the session: with no tags given no commit would
    tell that its rows are others now."""
    found = _CLOCK.search(query)
    if found:
        name = next(filter(None, found.groups()))
        raise ValueError(f"the query names {name!r}: give what depends on the time or on chance as an argument, or give the tags, of a cursor by db.reads(..)")
