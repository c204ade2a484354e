"""Names, lookups, texts of values, and what `db.sql` takes: no database is needed."""

import enum
import unittest
import uuid

from txcache._layout import Db, Kind, Layout, Name, Read, Relation, dicts, lookups_of, refuse_time_and_chance

UUID = uuid.UUID("a0eebc99-9c0b-4ef8-bb6d-6bb9bd380a11")


class Color(str, enum.Enum):
    RED = "red"


class Level(enum.IntEnum):
    LOW = 1


def layout(mark="%s"):
    kinds = {"id": Kind.INTEGER, "name": Kind.TEXT, "key": Kind.UUID, "open": Kind.BOOLEAN, "100%": Kind.INTEGER}
    lookups = lookups_of(["id", "name", "key", "open", "100%", ("name", "id")])
    return Layout([Relation("items", Name("public", "items"), lookups, kinds, '"id"')], mark, ("false", "true"))


class Names(unittest.TestCase):
    def test_parts_and_quotes(self):
        self.assertEqual(Name.parse("items"), Name(None, "items"))
        self.assertEqual(Name.parse("two.items").quoted, '"two"."items"')
        self.assertEqual(Name.parse('two."an odd.name"'), Name("two", "an odd.name"))
        self.assertEqual(Name.parse('"a""b"').quoted, '"a""b"')
        self.assertEqual(Name.parse("user").quoted, '"user"')
        self.assertEqual(Name.parse("items; DROP TABLE other; --").quoted, '"items; DROP TABLE other; --"')

    def test_what_is_no_name(self):
        for it in ("", ".", "a.", ".b", "a.b.c", 'a"b'):
            with self.assertRaises(ValueError, msg=it):
                Name.parse(it)
        for it in ("a\0b", "a\\b"):
            with self.assertRaises(ValueError):
                Name.parse(it).quoted

    def test_lookups(self):
        self.assertEqual(lookups_of(["id", ("b", "a")]), {("id",), ("a", "b")})
        for it in ([()], [("a", "a")], [("a", "b", "c", "d", "e")]):
            self.assertRaises(ValueError, lookups_of, it)


class Values(unittest.TestCase):
    def tag(self, **columns):
        return layout().lookup("items", columns).tags[0]

    def test_one_text_for_a_value_by_its_columns_type(self):
        rows = [({"id": 7}, "id=7"), ({"id": Level.LOW}, "id=1"), ({"id": -0}, "id=0"), ({"name": "a"}, "name=a"), ({"name": Color.RED}, "name=red"),
                ({"key": UUID}, f"key={UUID}"), ({"key": str(UUID).upper()}, f"key={UUID}"), ({"key": "{" + str(UUID) + "}"}, f"key={UUID}"),
                ({"open": True}, "open=true"), ({"id": None}, "id=~"), ({"id": 7, "name": "a"}, "id,name=7,a"), ({"name": None, "id": 7}, "id,name=7,~")]
        for columns, text in rows:
            self.assertEqual(self.tag(**columns), f"public.items:{text}", columns)

    def test_another_type_is_a_type_error(self):
        for columns in ({"id": "7"}, {"id": " 7"}, {"id": 7.0}, {"id": True}, {"name": 7}, {"name": b"a"}, {"key": 7}, {"open": 1}, {"open": "true"}, {"id": [7]}):
            with self.assertRaises(TypeError, msg=columns) as raised:
                self.tag(**columns)
            self.assertIn(f"items.{next(iter(columns))}", str(raised.exception))
        self.assertRaises(ValueError, self.tag, key="no uuid")

    def test_what_was_not_told_of(self):
        self.assertRaisesRegex(ValueError, "not told of the table 'bids'", layout().lookup, "bids", {})
        self.assertRaisesRegex(ValueError, "looked up by .* and not by seller", layout().lookup, "items", {"seller": 1})
        self.assertRaisesRegex(ValueError, "and not by key and name", layout().lookup, "items", {"name": "a", "key": UUID})

    def test_queries(self):
        self.assertEqual(layout().lookup("items", {}), Read('SELECT * FROM "public"."items" ORDER BY "id"', (), ("public.items:",), ("public.items:",)))
        self.assertEqual(layout("?").lookup("items", {"id": 7, "name": None}, 2).query,
                         'SELECT * FROM "public"."items" WHERE "id" = ? AND "name" IS NULL ORDER BY "id" LIMIT 2')
        self.assertIn('"100%%" = %s', layout().lookup("items", {"100%": 1}).query)

    def test_tags_of_a_query(self):
        self.assertEqual(tuple(layout().tags(["items", ("items", "id", 7), ("items", "name", "a", "id", 7), "items"])),
                         ("public.items:", "public.items:id=7", "public.items:id,name=7,a"))
        for it in (["bids"], [("items", "id")], [("items", "seller", 1)]):
            self.assertRaises(ValueError, layout().tags, it)


class Reads(unittest.TestCase):
    def db(self, rows):
        return Db(layout(), lambda read: rows)

    def test_row_and_rows(self):
        self.assertEqual(self.db([{"id": 7}]).row("items", id=7), {"id": 7})
        self.assertIsNone(self.db([]).row("items", id=7))
        self.assertRaisesRegex(ValueError, "more than one row with id = 7", self.db([{}, {}]).row, "items", id=7)
        self.assertRaises(ValueError, self.db([]).row, "items")
        self.assertEqual(self.db([{}, {}]).rows("items"), [{}, {}])

    def test_sql(self):
        seen = []
        db = Db(layout(), lambda read: seen.append(read) or [])
        db.sql("SELECT 1", [2], tags=["items"])
        db.sql("SELECT 1", tags=[])
        db.sql("SELECT 1")
        self.assertEqual(seen, [Read("SELECT 1", (2,), ("public.items:",), ("public.items:",)), Read("SELECT 1", (), ()), Read("SELECT 1", (), None)])
        self.assertRaises(TypeError, db.sql, "SELECT 1", (), "items")

    def test_two_columns_of_one_name(self):
        self.assertEqual(dicts(["a", "b"], [(1, 2)]), [{"a": 1, "b": 2}])
        self.assertRaisesRegex(ValueError, "named 'a'", dicts, ["a", "b", "a"], [])

    def test_time_and_chance_are_refused_by_name(self):
        refused = ["SELECT now()", "SELECT * FROM a WHERE t < NOW ( )", "SELECT current_date", "SELECT Random() FROM a", "SELECT 'now'::timestamp", "SELECT date()",
                   "SELECT datetime('now', '-1 day')", "SELECT nextval('s')", "SELECT age(t) FROM a", "SELECT clock_timestamp()", "SELECT gen_random_uuid()",
                   'SELECT pg_catalog."now"()', "SELECT julianday()", "SELECT DATE 'today'"]
        for it in refused:
            with self.assertRaises(ValueError, msg=it):
                refuse_time_and_chance(it)
        for it in ("SELECT date(t) FROM a", "SELECT known(a) FROM a", "SELECT snow, random FROM a", "SELECT currently FROM a", "SELECT unixepoch(t) FROM a"):
            refuse_time_and_chance(it)


if __name__ == "__main__":
    unittest.main()
