"""The store of a PostgreSQL database: what the triggers note, what a snapshot sees, and what is refused."""

import io
import os
import random
import subprocess
import sys
import threading
import time
import unittest
import uuid
from unittest import mock

from txcache import _driver
from txcache._store import db_of
from txcache.errors import NotInstalled, SnapshotLost, SnapshotRefused, TxCacheError

from . import skipped, until
from .server import server

UUID = uuid.UUID("a0eebc99-9c0b-4ef8-bb6d-6bb9bd380a11")
ITEMS = "CREATE TABLE items (id int PRIMARY KEY, grp int, name text, key uuid, open boolean, v int DEFAULT 0)"
TOLD = {"items": ["id", "grp", "name", "key", "open", ("grp", "open")]}


class Case(unittest.TestCase):
    """A database of its own for each test, and a follower of it."""

    driver = None
    number = 0

    @classmethod
    def setUpClass(cls):
        cls.server = server()

    def setUp(self):
        Case.number += 1
        self.base = f"t{Case.number}"
        top = self.link("postgres")
        top.ask(f"CREATE DATABASE {self.base}")
        self.it, self.mark, self.held = self.link(), None, None

    def link(self, base=None, user="txc"):
        link = _driver.Link(self.server.dsn(base or self.base, user), self.driver)
        self.addCleanup(link.close)
        return link

    def ask(self, text, *args):
        return self.it.ask(text, args)

    def store(self, tables=None, tables_text=ITEMS, user="txc", **more):
        from txcache.postgres import PostgresStore

        for text in filter(None, [tables_text]):
            self.ask(text)
        store = PostgresStore(self.server.dsn(self.base, user), tables or TOLD, driver=self.driver, **more)
        self.addCleanup(store.close)
        return store

    def follow(self, tables=None, tables_text=ITEMS, **more):
        self.s = self.store(tables, tables_text, **more)
        self.s.install()
        self.assertEqual(self.look(), "the first snapshot")

    def look(self):
        """The tags since the last look, or why the cache begins cold."""
        found = self.s.look(self.mark)
        if self.held:
            self.held.close()
        self.mark, self.held = found.mark, found.snapshot
        self.addCleanup(found.snapshot.close)
        return found.reason if found.tags is None else sorted(found.tags)

    def db(self):
        return db_of(self.held)

    def changed(self, text, *args):
        self.ask(text, *args)
        return self.look()


def tags(*keys, table="public.items"):
    return sorted({f"{table}:", *(f"{table}:{it}" for it in keys)})


class Notes(Case):
    """The first table of section 2 of what was found in the trial, and of its holes."""

    def setUp(self):
        super().setUp()
        self.follow({"items": ["id", "grp"]})

    def test_what_was_undone_is_not_noted(self):
        self.assertEqual(self.look(), [])
        self.assertEqual(self.changed("BEGIN; SAVEPOINT a; INSERT INTO items VALUES (1, 10); ROLLBACK TO a; INSERT INTO items VALUES (2, 20); COMMIT"), tags("id=2", "grp=20"))
        self.assertEqual(self.changed("BEGIN; INSERT INTO items VALUES (3, 30); ROLLBACK"), [])

    def test_each_kind_of_statement_notes_the_row_as_it_was_and_as_it_is(self):
        self.assertEqual(self.changed("INSERT INTO items VALUES (2, 20)"), tags("id=2", "grp=20"))
        self.assertEqual(self.changed("UPDATE items SET id = 5, grp = NULL"), tags("id=2", "grp=20", "id=5", "grp=~"))
        self.assertEqual(self.changed("INSERT INTO items VALUES (5, 7) ON CONFLICT (id) DO UPDATE SET grp = 8"), tags("id=5", "grp=~", "grp=8"))
        if int(self.ask("SHOW server_version_num")[0][0]) >= 150000:
            self.assertEqual(self.changed("MERGE INTO items USING (VALUES (5, 9), (6, 9)) AS n(id, grp) ON n.id = items.id WHEN MATCHED THEN UPDATE SET grp = n.grp "
                                          "WHEN NOT MATCHED THEN INSERT (id, grp) VALUES (n.id, n.grp)"), tags("id=5", "grp=8", "grp=9", "id=6"))
        self.assertEqual(self.changed("DELETE FROM items WHERE id = 5"), tags("id=5", self.last_group()))
        self.copy("11\t1\n12\t1\n")
        self.assertEqual(self.look(), tags("id=11", "id=12", "grp=1"))

    def last_group(self):
        return "grp=9" if int(self.ask("SHOW server_version_num")[0][0]) >= 150000 else "grp=8"

    def copy(self, rows):
        with self.it._connection.cursor() as cursor:
            if self.driver == "psycopg2":
                cursor.copy_expert("COPY items (id, grp) FROM STDIN", io.StringIO(rows))
            else:
                with cursor.copy("COPY items (id, grp) FROM STDIN") as copy:
                    copy.write(rows)

    def test_a_row_that_stays_as_it_was_is_not_noted(self):
        self.changed("INSERT INTO items VALUES (1, 10, 'a', NULL, true, 0)")
        self.assertEqual(self.changed("UPDATE items SET v = v, name = 'a'"), [])
        self.assertEqual(self.changed("UPDATE items SET v = v + 1"), tags("id=1", "grp=10"))

    def test_a_row_of_types_with_no_equality_and_one_that_is_equal_and_reads_otherwise(self):
        self.held.close()
        self.ask("ALTER TABLE items ADD j json, ADD n numeric, ADD p point; INSERT INTO items (id, j, n) VALUES (1, '{}', 1.0)")
        self.look()
        self.assertEqual(self.changed("UPDATE items SET n = 1.00"), tags("id=1", "grp=~"))
        self.assertEqual(self.changed("UPDATE items SET j = '{ }'"), tags("id=1", "grp=~"))

    def test_a_replica_and_a_superuser(self):
        self.assertEqual(self.changed("SET session_replication_role = replica; INSERT INTO items VALUES (1, 1); RESET session_replication_role"), tags("id=1", "grp=1"))

    def test_two_phase_commit_is_noted_as_it_is_seen(self):
        self.assertEqual(self.changed("BEGIN; INSERT INTO items VALUES (40, 4); PREPARE TRANSACTION 'x'"), [])
        self.assertEqual(self.changed("INSERT INTO items VALUES (41, 4)"), tags("id=41", "grp=4"))
        self.assertEqual(self.changed("COMMIT PREPARED 'x'"), tags("id=40", "grp=4"))

    def test_a_transaction_that_was_open_at_the_last_look_follows_once(self):
        other = self.link()
        other.ask("BEGIN; INSERT INTO items VALUES (1, 1)")
        self.ask("INSERT INTO items VALUES (2, 2)")
        self.assertEqual(self.look(), tags("id=2", "grp=2"))
        self.assertEqual(self.look(), [])
        other.ask("COMMIT")
        self.assertEqual(self.look(), tags("id=1", "grp=1"))
        self.assertEqual(self.look(), [])

    def test_the_writers_settings_do_not_change_a_text(self):
        self.assertEqual(self.changed("SET extra_float_digits = -15; SET DateStyle = German; SET search_path = pg_temp; INSERT INTO public.items VALUES (7, 70)"),
                         tags("id=7", "grp=70"))

    def test_cascades(self):
        self.ask("CREATE TABLE top (id int PRIMARY KEY, grp int); CREATE TABLE low (id int PRIMARY KEY, grp int REFERENCES top ON DELETE CASCADE ON UPDATE CASCADE);"
                 "INSERT INTO top VALUES (1, 1), (2, 1); INSERT INTO low VALUES (10, 1), (11, 1), (12, 2)")
        self.mark = None
        self.follow({"top": ["id"], "low": ["id", "grp"]}, None)
        self.assertEqual(self.changed("DELETE FROM top WHERE id = 1"),
                         sorted(tags("id=1", table="public.top") + tags("id=10", "id=11", "grp=1", table="public.low")))
        self.assertEqual(self.changed("UPDATE top SET id = 5 WHERE id = 2"),
                         sorted(tags("id=2", "id=5", table="public.top") + tags("id=12", "grp=2", "grp=5", table="public.low")))

    def test_many_tags_begin_cold(self):
        self.assertEqual(len(self.changed("INSERT INTO items SELECT n, 1 FROM generate_series(1, 19998) n")), 20_000)
        self.assertEqual(self.changed("INSERT INTO items SELECT n, 1 FROM generate_series(20001, 40000) n"), "more than 20000 tags changed")
        self.assertEqual(self.look(), [])


class Partitions(Case):
    def setUp(self):
        super().setUp()
        self.follow({"items": ["id", "grp"]}, "CREATE TABLE items (id int PRIMARY KEY, grp int) PARTITION BY RANGE (id);"
                    "CREATE TABLE p1 PARTITION OF items FOR VALUES FROM (0) TO (100); CREATE TABLE p2 PARTITION OF items FOR VALUES FROM (100) TO (200)")

    def test_rows_of_partitions(self):
        self.assertEqual(self.changed("INSERT INTO p1 VALUES (5, 1)"), tags("id=5", "grp=1"))
        self.assertEqual(self.changed("UPDATE items SET id = 150"), tags("id=5", "id=150", "grp=1"))
        self.assertEqual(db_of(self.held).rows("items", grp=1), [{"id": 150, "grp": 1}])

    def test_each_change_of_a_partition_begins_cold(self):
        self.ask("INSERT INTO items VALUES (5, 1), (150, 1)")
        self.look()
        shape = "the tables, or functions, views, policies or types of the database, were changed"
        for text in ("TRUNCATE p2", "CREATE TABLE p3 PARTITION OF items FOR VALUES FROM (200) TO (300)", "ALTER TABLE items DETACH PARTITION p3",
                     "ALTER TABLE items ATTACH PARTITION p3 FOR VALUES FROM (200) TO (300)", "DROP TABLE p3"):
            self.held.close()
            self.assertEqual(self.changed(text), shape, text)
            self.assertEqual(self.s.check(), [], text)
        self.held.close()
        self.ask("ALTER TABLE p1 DISABLE TRIGGER ALL")
        self.assertRaisesRegex(NotInstalled, "items: the trigger on p1 is not ENABLE ALWAYS", self.look)
        self.s.install()
        self.assertEqual(self.look(), shape)

    def test_a_partition_is_its_table(self):
        with self.subTest("a query of a partition"):
            rows, tables = self.held.rows_and_tables("SELECT * FROM p1", ())
            self.assertEqual((rows, tables), ([], {"public.items:"}))


class Shape(Case):
    """Statements that change the fingerprint of the tables, and others that do not."""

    def test_the_fingerprint(self):
        self.follow(tables_text=ITEMS + "; CREATE VIEW seen AS SELECT id FROM items; CREATE TYPE mood AS ENUM ('x');"
                    "CREATE FUNCTION f() RETURNS int LANGUAGE sql STABLE AS 'SELECT 1'; CREATE ROLE someone_%s" % self.base)
        shape = "the tables, or functions, views, policies or types of the database, were changed"
        cold = ["TRUNCATE items", "BEGIN; TRUNCATE items; TRUNCATE items; COMMIT", "ALTER TABLE items ADD COLUMN w int DEFAULT 5", "ALTER TABLE items ALTER COLUMN v TYPE bigint",
                "CREATE OR REPLACE FUNCTION f() RETURNS int LANGUAGE sql STABLE AS 'SELECT 2'", "CREATE OR REPLACE VIEW seen AS SELECT id FROM items WHERE id > 3",
                "ALTER TYPE mood ADD VALUE 'y'", f"GRANT SELECT ON items TO someone_{self.base}", "VACUUM FULL items", "CLUSTER items USING items_pkey",
                "CREATE POLICY q ON items USING (id > 5)", "DROP POLICY q ON items"]
        for text in cold:
            self.held.close()
            self.assertEqual(self.changed(text), shape, text)
        for text in ("VACUUM items", "ANALYZE items", "VACUUM FREEZE items", "CREATE INDEX ON items (v)", "REINDEX TABLE items", "CREATE TEMP TABLE tt (x int)",
                     "CREATE TEMP VIEW tv AS SELECT 1", "CREATE TABLE unrelated (x int)", "BEGIN; ALTER TABLE items ADD COLUMN zz int; ROLLBACK"):
            self.held.close()
            self.assertEqual(self.changed(text), [], text)

    def test_a_trigger_that_was_off_for_a_while(self):
        self.follow()
        self.held.close()
        (name,), = self.ask("SELECT tgname FROM pg_trigger WHERE tgname LIKE 'txcache%'")
        self.ask(f"ALTER TABLE items DISABLE TRIGGER {name}; INSERT INTO items (id) VALUES (1); ALTER TABLE items ENABLE ALWAYS TRIGGER {name}")
        self.assertIn("were changed", self.look())
        self.held.close()
        self.ask(f"ALTER TABLE items DISABLE TRIGGER {name}")
        self.assertRaisesRegex(NotInstalled, "is not ENABLE ALWAYS", self.look)
        self.ask(f"DROP TRIGGER {name} ON items")
        self.assertRaisesRegex(NotInstalled, "no trigger stands on items", self.look)

    def test_what_is_no_snapshot_waits(self):
        """TRUNCATE and a rewriting ALTER are not of a moment: they wait for the snapshots, and these give way."""
        self.follow(lock_timeout=0.2)
        self.ask("INSERT INTO items (id) VALUES (1)")
        self.look()
        self.assertEqual(len(self.db().rows("items")), 1)
        done = threading.Thread(target=self.link().ask, args=("TRUNCATE items",))
        done.start()
        self.assertTrue(until(lambda: self.ask("SELECT 1 FROM pg_locks WHERE NOT granted")))
        self.assertEqual(len(self.db().rows("items")), 1)
        self.assertRaises(SnapshotRefused, self.s.look, self.mark)
        self.assertTrue(done.is_alive())
        self.held.close()
        done.join(60)
        self.assertFalse(done.is_alive())
        self.assertIn("were changed", self.look())

    def test_each_part_of_the_fingerprint(self):
        self.follow(tables_text=ITEMS + "; CREATE POLICY q ON items USING (id > 5)")
        for text in ("ALTER TABLE items RENAME COLUMN v TO w", "ALTER POLICY q ON items USING (id > 6)"):
            self.held.close()
            self.assertIn("were changed", self.changed(text), text)

    def test_the_lock_comes_before_the_snapshot(self):
        """A TRUNCATE is of no moment: had the snapshot been taken while its lock was waited for, the table would be empty in it."""
        self.follow(lock_timeout=60.0)
        self.ask("INSERT INTO items (id) VALUES (1)")
        self.held.close()
        other, found = self.link(), []
        other.ask("BEGIN; TRUNCATE items; INSERT INTO items (id) VALUES (2)")
        look = threading.Thread(target=lambda: found.append(self.s.look(self.mark)))
        look.start()
        self.assertTrue(until(lambda: self.ask("SELECT 1 FROM pg_locks WHERE NOT granted")))
        other.ask("COMMIT")
        look.join()
        self.addCleanup(found[0].snapshot.close)
        self.assertEqual([it["id"] for it in db_of(found[0].snapshot).rows("items")], [2])

    def test_a_look_goes_to_the_server_once(self):
        self.follow()
        self.held.close()
        self.ask("INSERT INTO items (id) VALUES (1)")
        with mock.patch.object(_driver.Link, "last", autospec=True, side_effect=_driver.Link.last) as last, mock.patch.object(_driver.Link, "named") as named:
            found = self.s.look(self.mark)
        self.addCleanup(found.snapshot.close)
        self.assertEqual((last.call_count, named.call_count, len(found.tags)), (1, 0, 7))

    def test_a_look_goes_by_the_indexes_and_is_not_compiled(self):
        """Its plans are kept, so they are made with no number at hand, and nothing says that few notes are above it. The notes lie in no order, as after purges."""
        self.follow()
        self.ask("INSERT INTO txcache.notes SELECT (n * 7919 % 20000 + 10)::text::xid8, 'public.items', '{id=1}' FROM generate_series(1, 20000) AS n")
        self.ask("ANALYZE txcache.notes")
        for setting in ("LOAD 'auto_explain'", "SET auto_explain.log_min_duration = 0", "SET auto_explain.log_nested_statements = on", "SET client_min_messages = log"):
            self.ask(setting)
        said = []
        if hasattr(self.it._connection, "add_notice_handler"):
            self.it._connection.add_notice_handler(lambda it: said.append(it.message_primary))
        self.ask("SELECT * FROM txcache.look((SELECT array_agg(oid) FROM pg_class WHERE relname = 'items'), '3', '{5,7}', '{public.items}', 100)")
        plans = "\n".join(said or self.it._connection.notices)
        self.assertIn("notes_xact", plans)
        for word in ("Seq Scan on notes", "Seq Scan on pg_attribute", "JIT"):
            self.assertNotIn(word, plans)

    def test_a_new_lookup_of_another_service_keeps_those_of_the_first(self):
        self.follow({"items": ["id"]})
        first = self.s
        second = self.store({"items": ["grp"]}, None)
        self.assertRaisesRegex(NotInstalled, "does not note grp", second.look)
        self.assertEqual(second.install(), ["items: installed"])
        self.assertEqual((first.install(), second.install()), (["items: stands"], ["items: stands"]))
        self.assertEqual((first.check(), second.check()), ([], []))
        self.assertIn("were changed", self.look())
        self.assertEqual(self.changed("INSERT INTO items VALUES (1, 2)"), tags("id=1", "grp=2"))


class Install(Case):
    def test_odd_names(self):
        self.follow({"user": ["id"], "two.items": ["id"], 'two."a b.c"': ["select", ("select", "100%")]},
                    'CREATE TABLE "user" (id int PRIMARY KEY); CREATE SCHEMA two; CREATE TABLE two.items (id int PRIMARY KEY); '
                    'CREATE TABLE two."a b.c" ("select" int, "100%" int)')
        self.assertEqual(self.changed('INSERT INTO "user" VALUES (1)'), tags("id=1", table="public.user"))
        self.assertEqual(self.changed('INSERT INTO two.items VALUES (1)'), tags("id=1", table="two.items"))
        self.assertEqual(self.changed('INSERT INTO two."a b.c" VALUES (1, 2)'), tags("select=1", "100%,select=2,1", table="two.a b.c"))
        self.assertEqual(self.db().rows('two."a b.c"', **{"select": 1, "100%": 2}), [{"select": 1, "100%": 2}])
        self.assertRaisesRegex(NotInstalled, "there is no such table", self.store({"items; DROP TABLE other; --": ["id"]}, None).install)

    def test_what_is_refused(self):
        self.ask("CREATE COLLATION loose (provider = icu, locale = 'und', deterministic = false); CREATE DOMAIN number AS int;"
                 "CREATE TABLE parent (id int); CREATE TABLE child () INHERITS (parent); CREATE VIEW v AS SELECT 1 AS id; CREATE MATERIALIZED VIEW m AS SELECT 1 AS id;"
                 "CREATE TABLE odd (d date, t timestamptz, f float8, n numeric, c char(3), l text COLLATE loose, k number, j jsonb)")
        refused = [({"parent": []}, "other tables inherit from it"), ({"v": []}, "it is a view"), ({"m": ["id"]}, "it is a materialized view"), ({"odd": ["gone"]}, "has no column gone"),
                   ({"odd": ["l"]}, "a collation that is not deterministic"), ({"nowhere": []}, "no such table")]
        refused += [({"odd": [it]}, f"the column {it} is of type") for it in "dtfnckj"]
        for told, why in refused:
            self.assertRaisesRegex(NotInstalled, why, self.store(told, None).install)
            self.assertRaises(NotInstalled, self.store(told, None).look)
        self.assertEqual(self.store({"odd": []}, None).install(), ["odd: installed"])

    def test_a_foreign_table(self):
        """Its rows change with no trigger: it is refused as a table, as a partition, and where a query with no tags reads it."""
        if not self.ask("SELECT 1 FROM pg_available_extensions WHERE name = 'file_fdw'"):
            self.skipTest(skipped("foreign tables", "the server has no file_fdw, which is in postgresql-contrib"))
        with open(f"{self.server.folder}/{self.base}.csv", "w", encoding="utf-8") as file:
            file.write("1\n")
        os.chmod(file.name, 0o644)
        of_file = f"SERVER files OPTIONS (filename '{file.name}', format 'csv')"
        self.ask(f"CREATE EXTENSION file_fdw; CREATE SERVER files FOREIGN DATA WRAPPER file_fdw; CREATE FOREIGN TABLE far (id int) {of_file};"
                 f"CREATE TABLE parts (id int) PARTITION BY RANGE (id); CREATE FOREIGN TABLE p1 PARTITION OF parts FOR VALUES FROM (0) TO (9) {of_file}")
        for told, why in (({"far": ["id"]}, "far: it is a foreign table"), ({"parts": ["id"]}, "parts: its partition p1 is a foreign table")):
            self.assertRaisesRegex(NotInstalled, why, self.store(told, None).install)
            self.assertIn(why, "; ".join(self.store(told, None).check()))
            self.assertRaises(NotInstalled, self.store(told, None).look)
        self.follow()
        for query in ("SELECT * FROM far", "SELECT count(*) FROM items JOIN far USING (id)"):
            self.assertRaisesRegex(ValueError, "the query reads the foreign table public.far, on which no triggers stand", self.db().sql, query)
        self.assertEqual(self.db().sql("SELECT * FROM far", tags=[]), [{"id": 1}])

    def test_an_owner_who_is_no_superuser_and_a_reader(self):
        base = self.base
        self.ask(f"CREATE ROLE owner_{base} LOGIN; CREATE ROLE app_{base} LOGIN; CREATE ROLE guest_{base} LOGIN; GRANT CREATE ON DATABASE {base} TO owner_{base};"
                 f"CREATE SCHEMA o AUTHORIZATION owner_{base}; GRANT USAGE ON SCHEMA o TO app_{base}, guest_{base}")
        owner, app, guest = (self.link(user=f"{it}_{base}") for it in ("owner", "app", "guest"))
        owner.ask(f"CREATE TABLE o.items (id int PRIMARY KEY, v int); GRANT SELECT, INSERT ON o.items TO app_{base}, guest_{base}; "
                  f"CREATE TABLE o.parts (id int PRIMARY KEY) PARTITION BY RANGE (id)")
        told = {"o.items": ["id"], "o.parts": ["id"]}
        self.assertEqual(self.store(told, None, user=f"owner_{base}").install(reader=f"app_{base}"), ["o.items: installed", "o.parts: installed"])
        owner.ask("CREATE TABLE o.p1 PARTITION OF o.parts FOR VALUES FROM (0) TO (9)")
        self.s = self.store({"o.items": ["id"]}, None, user=f"app_{base}")
        self.assertEqual(self.s.check(), [])
        self.look()
        guest.ask("INSERT INTO o.items VALUES (7)")
        self.assertEqual(self.look(), tags("id=7", table="o.items"))
        self.assertEqual(self.db().row("o.items", id=7), {"id": 7, "v": None})
        self.s.purge()
        for text in ("SELECT * FROM txcache.notes", "SELECT txcache.purge(0)"):
            self.assertRaises(guest.driver.Error, guest.ask, text)
        (function,), = self.ask("SELECT tgfoid::regproc::text FROM pg_trigger WHERE tgrelid = 'o.items'::regclass")
        self.ask(f"GRANT CREATE ON SCHEMA public TO guest_{base}; GRANT USAGE ON SCHEMA txcache TO guest_{base}")
        guest.ask("CREATE TABLE mine (id int)")
        self.assertRaisesRegex(guest.driver.Error, "permission denied for function",
                               guest.ask, f"CREATE TRIGGER t AFTER INSERT ON mine FOR EACH ROW EXECUTE FUNCTION {function}()")
        self.assertRaises(app.driver.Error, app.ask, "INSERT INTO txcache.notes (relation, keys) VALUES ('a', '{}')")
        self.assertIn("this role may not read the notes", self.store({"o.items": ["id"]}, None, user=f"guest_{base}").check()[0])

    def test_check_names_each_table_that_a_role_may_not_read(self):
        base, reader = self.base, f"app-{self.base}"
        self.ask(f"CREATE ROLE owner_{base} LOGIN; CREATE ROLE \"{reader}\" LOGIN; GRANT CREATE ON DATABASE {base} TO owner_{base}; CREATE SCHEMA o AUTHORIZATION owner_{base}")
        owner = self.link(user=f"owner_{base}")
        owner.ask("CREATE TABLE o.items (id int PRIMARY KEY); CREATE TABLE o.parts (id int PRIMARY KEY)")
        told = {"o.items": ["id"], "o.parts": ["id"]}
        of_owner, of_reader = (self.store(told, None, user=it) for it in (f"owner_{base}", reader))
        of_owner.install()
        self.assertIn(f"the role {reader} may not use the schema txcache", of_owner.check(reader)[0])
        of_owner.install(reader)
        self.assertEqual(of_owner.check(), [])
        lines = [f"{it}: the role {reader} may not read it: GRANT SELECT, and USAGE of its schema" for it in told]
        self.assertEqual(of_owner.check(reader), lines)
        owner.ask(f"GRANT SELECT ON o.items, o.parts TO \"{reader}\"")
        self.assertEqual(of_owner.check(reader), lines)
        owner.ask(f"GRANT USAGE ON SCHEMA o TO \"{reader}\"; REVOKE SELECT ON o.parts FROM \"{reader}\"")
        self.assertEqual(of_owner.check(reader), lines[1:])
        fault = "o.parts: this role may not read it: GRANT SELECT, and USAGE of its schema"
        self.assertEqual(of_reader.check(), [fault])
        with self.assertRaises(NotInstalled) as caught:
            of_reader.look()
        self.assertEqual(caught.exception.lines, [fault])
        owner.ask(f"GRANT SELECT ON o.parts TO \"{reader}\"")
        self.assertEqual((of_owner.check(reader), of_reader.check()), ([], []))
        first = of_reader.look()
        self.addCleanup(first.snapshot.close)
        owner.ask(f"REVOKE SELECT ON o.parts FROM \"{reader}\"")
        self.assertRaisesRegex(NotInstalled, "o.parts: this role may not read it", of_reader.look, first.mark)
        self.assertEqual(of_owner.check("nobody"), ["there is no role nobody"])

    def test_uninstall_is_all_or_nothing(self):
        self.ask("CREATE TABLE parts (id int PRIMARY KEY)")
        told = {"items": ["id"], "parts": ["id"]}
        self.follow(told)
        self.held.close()
        other = self.link()
        with mock.patch("txcache.postgres.INSTALL_TIMEOUT", 0.3):
            for held in told:
                other.ask(f"BEGIN; LOCK TABLE {held} IN ACCESS SHARE MODE")
                self.assertRaisesRegex(TxCacheError, "nothing was uninstalled, run it again: .*lock timeout", self.s.uninstall)
                other.ask("COMMIT")
                self.assertEqual(self.s.check(), [])
        self.assertEqual(self.s.uninstall(), ["items: uninstalled", "parts: uninstalled"])
        self.assertEqual(self.s.uninstall(), ["items: no trigger stood", "parts: no trigger stood"])
        self.assertEqual(self.ask("SELECT count(*) FROM pg_trigger WHERE tgname LIKE 'txcache%'"), [(0,)])

    def test_uninstall_leaves_the_tables_of_another_service(self):
        self.ask("CREATE TABLE parts (id int PRIMARY KEY)")
        self.follow({"items": ["id"]})
        self.held.close()
        other = self.store({"parts": ["id"]}, None)
        other.install()
        self.assertEqual(self.s.uninstall(), ["items: uninstalled", "the schema txcache stays: triggers of other tables stand"])
        self.assertEqual(other.check(), [])
        self.assertEqual(other.uninstall(), ["parts: uninstalled"])

    def test_policies_are_refused(self):
        base = self.base
        self.follow()
        self.held.close()
        self.ask(f"CREATE ROLE app_{base} LOGIN; GRANT SELECT ON items TO app_{base}; ALTER TABLE items ENABLE ROW LEVEL SECURITY; CREATE POLICY q ON items USING (id > 5)")
        self.s.install(reader=f"app_{base}")
        self.assertEqual(self.s.check(), [])
        self.assertRaisesRegex(NotInstalled, "policies hide rows", self.store(None, None, user=f"app_{base}").look)

    def test_the_command(self):
        self.ask(ITEMS)
        room = self.server.folder
        with open(f"{room}/shop_{self.base}.py", "w", encoding="utf-8") as file:
            file.write("from txcache.postgres import PostgresStore\nstore = PostgresStore("
                       f"'host=/nowhere', {{'items': ['id']}}, driver={self.driver!r})\n")

        def run(command, *words):
            ran = subprocess.run([sys.executable, "-m", "txcache", command, f"shop_{self.base}:store", "--dsn", self.server.dsn(self.base), *words], cwd=room,
                                 stdout=subprocess.PIPE, stderr=subprocess.STDOUT, text=True,
                                 env={**os.environ, "PYTHONPATH": os.path.dirname(os.path.dirname(os.path.abspath(__file__)))})
            return ran.returncode, ran.stdout.splitlines()

        self.assertEqual(run("check"), (1, ["the schema txcache is not there, and not 'TxCache, version 1'", "items: no trigger stands on items"]))
        self.assertEqual(run("install"), (0, ["items: installed"]))
        self.assertEqual(run("install"), (0, ["items: stands"]))
        self.assertEqual(run("check"), (0, ["all triggers stand"]))
        self.assertEqual(run("purge"), (0, ["0 notes deleted"]))
        self.ask("DROP TABLE items")
        self.assertEqual(run("check")[0], 1)
        self.ask(ITEMS)
        self.assertEqual(run("install"), (0, ["items: installed"]))
        self.assertEqual(run("uninstall"), (0, ["items: uninstalled"]))
        self.assertEqual(self.ask("SELECT count(*) FROM pg_namespace WHERE nspname = 'txcache'"), [(0,)])

    def test_a_function_that_somebody_changed_and_a_restored_dump(self):
        self.follow()
        (function,), = self.ask("SELECT tgfoid::regproc::text FROM pg_trigger WHERE tgname LIKE 'txcache%'")
        self.ask(f"CREATE OR REPLACE FUNCTION {function}() RETURNS trigger LANGUAGE plpgsql SECURITY DEFINER SET search_path = pg_catalog, pg_temp AS 'BEGIN RETURN NULL; END'")
        self.assertRaisesRegex(NotInstalled, "not that of version 1", self.look)
        self.assertEqual(self.s.install(), ["items: installed"])
        self.assertEqual(self.s.check(), [])
        self.ask("UPDATE txcache.state SET system = 1; INSERT INTO txcache.notes VALUES ('99999999999', 'public.items', '{}')")
        self.assertRaisesRegex(NotInstalled, "another server", self.look)
        self.s.install()
        self.assertEqual(self.s.check(), [])
        self.assertEqual(self.ask("SELECT count(*) FROM txcache.notes"), [(0,)])

    def test_a_renamed_table(self):
        self.follow()
        self.held.close()
        self.ask("ALTER TABLE items RENAME TO things")
        self.assertRaisesRegex(NotInstalled, "no such table", self.look)
        self.s = self.store({"things": ["id"]}, None)
        self.assertRaisesRegex(NotInstalled, "no trigger stands on things", self.s.look)
        self.s.install()
        self.mark = None
        self.look()
        self.assertEqual(self.changed("INSERT INTO things (id) VALUES (1)"), tags("id=1", table="public.things"))


class Purge(Case):
    def test_by_numbers(self):
        self.follow()
        self.changed("INSERT INTO items (id) VALUES (1)")
        other = self.link()
        other.ask("BEGIN; INSERT INTO items (id) VALUES (2)")
        self.assertEqual(self.s.purge(0.0), 0)
        self.assertEqual(self.s.purge(0.0), 1)
        other.ask("COMMIT")
        self.assertEqual(self.look(), tags("id=2", "grp=~", "name=~", "key=~", "open=~", "grp,open=~,~"))
        self.assertEqual(self.s.purge(600.0), 0)
        self.ask("INSERT INTO items (id) VALUES (3)")
        self.assertEqual([self.s.purge(0.0), self.s.purge(0.0)], [1, 1])
        self.assertEqual(self.look(), "notes were purged that the last snapshot had not seen")
        self.assertEqual(self.look(), [])

    def test_under_a_publication_of_all_tables(self):
        self.follow()
        self.ask("CREATE PUBLICATION everything FOR ALL TABLES; INSERT INTO items (id) VALUES (1)")
        self.s.purge(0.0)
        self.assertEqual(self.s.purge(0.0), 1)


class Tokens(Case):
    def test_a_snapshot_sees_a_token_or_not(self):
        self.follow()
        other = self.link()
        other.ask("BEGIN; INSERT INTO items (id) VALUES (1)")
        with other._connection.cursor() as cursor:
            token = self.s.token(cursor)
        self.assertRegex(token, r"^[0-9a-f]{16}-[0-9a-f]+$")
        self.ask("INSERT INTO items (id) VALUES (2)")  # so that the token's number is below that of one that is over
        self.look()
        self.assertFalse(self.s.sees(self.mark, token))
        other.ask("COMMIT")
        self.assertFalse(self.s.sees(self.mark, token))
        self.look()
        self.assertTrue(self.s.sees(self.mark, token))
        self.assertFalse(self.s.sees(self.mark, token[::-1].replace("-", "0", 1)[:16].ljust(16, "0") + "-1"))
        for it in ("", "x", "1-2", token + " "):
            self.assertRaises(ValueError, self.s.sees, self.mark, it)

    def test_a_token_of_an_undone_transaction_is_seen(self):
        self.follow()
        other = self.link()
        other.ask("BEGIN")
        with other._connection.cursor() as cursor:
            token = self.s.token(cursor)
        other.ask("ROLLBACK")
        self.look()
        self.assertTrue(self.s.sees(self.mark, token))


class Reading(Case):
    def setUp(self):
        super().setUp()
        self.follow(tables_text=ITEMS + f"; INSERT INTO items VALUES (7, 70, 'a', '{UUID}', true, 1), (8, 70, 'b', NULL, NULL, 2), (9, NULL, 'A', NULL, false, 3)")

    def test_row_and_rows(self):
        db = self.db()
        self.assertEqual(db.row("items", id=7), {"id": 7, "grp": 70, "name": "a", "key": db.row("items", id=7)["key"], "open": True, "v": 1})
        self.assertIsNone(db.row("items", id=70))
        self.assertEqual([it["id"] for it in db.rows("items", grp=70)], [7, 8])
        self.assertEqual([it["id"] for it in db.rows("items", grp=None)], [9])
        self.assertEqual([it["id"] for it in db.rows("items", open=True, grp=70)], [7])
        self.assertEqual([it["id"] for it in db.rows("items", key=str(UUID).upper())], [7])
        self.assertEqual([it["id"] for it in db.rows("items", name="A")], [9])
        self.assertEqual([it["id"] for it in db.rows("items")], [7, 8, 9])
        self.assertRaises(ValueError, db.row, "items", grp=70)

    def test_the_tag_of_a_read_is_the_one_that_the_triggers_write(self):
        layout = self.held.layout
        asked = [{"id": 7}, {"grp": 70}, {"name": "a"}, {"key": "{" + str(UUID).upper() + "}"}, {"open": True}, {"open": True, "grp": 70}]
        noted = self.changed("UPDATE items SET v = v + 1 WHERE id = 7")
        self.assertEqual(noted, sorted([tag for it in asked for tag in layout.lookup("items", it).tags] + ["public.items:"]))
        noted = self.changed("UPDATE items SET v = v + 1 WHERE id = 8")
        self.assertIn(layout.lookup("items", {"open": None, "grp": 70}).tags[0], noted)

    def test_a_table_with_no_key_is_read_in_the_order_in_which_it_lies(self):
        self.ask("CREATE TABLE lone (grp int, v int); INSERT INTO lone VALUES (1, 3), (1, 1), (1, 2)")
        self.mark, self.held = None, None
        self.follow({"lone": ["grp"]}, None)
        self.assertEqual([it["v"] for it in self.db().rows("lone", grp=1)], [3, 1, 2])

    def test_a_snapshot_stays_as_it_was(self):
        db = self.db()
        self.ask("UPDATE items SET v = 100; DELETE FROM items WHERE id = 8")
        self.assertEqual([it["v"] for it in db.rows("items")], [1, 2, 3])
        self.assertEqual([it["v"] for it in db.sql("SELECT v FROM items ORDER BY id")], [1, 2, 3])
        old = self.held
        found = self.s.look(self.mark)
        self.addCleanup(found.snapshot.close)
        self.assertEqual([it["v"] for it in db_of(found.snapshot).rows("items")], [100, 100])
        self.assertEqual([it["v"] for it in db_of(old).rows("items")], [1, 2, 3])

    def test_a_query_that_fails_spoils_nothing(self):
        db = self.db()
        for query in ("SELECT 1 / (id - id) AS it FROM items", "SELECT nothing FROM items", "UPDATE items SET v = 1", "SEL"):
            for tags_of_it in (None, ["items"]):
                with self.assertRaises(self.it.driver.Error, msg=query) as raised:
                    db.sql(query, (), tags_of_it)
                self.assertNotIsInstance(raised.exception, SnapshotLost)
                self.assertEqual(len(db.rows("items")), 3)

    def test_bytes_and_a_percent_sign(self):
        self.assertEqual(self.db().sql("SELECT '\\x01ff'::bytea AS it", tags=[]), [{"it": b"\x01\xff"}])
        self.assertEqual(len(self.db().sql("SELECT * FROM items WHERE name LIKE 'a%'", tags=["items"])), 1)
        self.assertEqual(len(self.db().sql("SELECT * FROM items WHERE name LIKE %s || '%%'", ("a",), tags=["items"])), 1)
        self.assertRaisesRegex(ValueError, "named 'id'", self.db().sql, "SELECT id, v AS id FROM items")

    def test_the_tables_of_a_query_are_those_that_the_server_locked(self):
        self.ask("CREATE TABLE other (id int PRIMARY KEY); CREATE TABLE untold (id int PRIMARY KEY); CREATE VIEW seen AS SELECT * FROM items; CREATE SEQUENCE s;"
                 "CREATE MATERIALIZED VIEW old AS SELECT 1 AS it; CREATE FUNCTION total() RETURNS bigint LANGUAGE plpgsql STABLE AS $$ BEGIN RETURN (SELECT count(*) FROM items); END $$;"
                 "CREATE FUNCTION maybe(n int) RETURNS bigint LANGUAGE plpgsql STABLE AS $$ BEGIN IF n > 0 THEN RETURN (SELECT count(*) FROM items); END IF; RETURN 0; END $$")
        self.mark, self.held = None, None
        self.follow({"items": ["id"], "other": []}, None)
        items, other = "public.items:", "public.other:"
        for query, args, tables in [("SELECT * FROM items WHERE id = 7", (), {items}), ("SELECT * FROM items WHERE false", (), {items}), ("SELECT total()", (), {items}),
                                    ("SELECT maybe(0)", (), set()), ("SELECT maybe(1)", (), {items}), ("SELECT * FROM seen", (), {items}),
                                    ("SELECT 1 WHERE 2 = %s AND EXISTS (SELECT FROM items)", (1,), {items}), ("SELECT 1", (), set()),
                                    ("SELECT i.id FROM items i JOIN other o USING (id)", (), {items, other}), ("WITH a AS (SELECT * FROM other) SELECT * FROM a", (), {other})]:
            self.assertEqual(self.held.rows_and_tables(query, args)[1], tables, query)
        for query, name in [("SELECT * FROM untold", "table public.untold"), ("SELECT * FROM old", "materialized view public.old"), ("SELECT last_value FROM s", "sequence public.s"),
                            ("SELECT count(*) FROM pg_class", "catalog pg_catalog.pg_class"), ("SELECT * FROM pg_settings", "catalog pg_catalog.pg_settings")]:
            self.assertRaisesRegex(ValueError, f"the query reads the {name}, on which no triggers stand", self.db().sql, query)
        self.assertRaisesRegex(ValueError, "the query names 'now'", self.db().sql, "SELECT count(*) FROM items WHERE now() > '2000-01-01'")
        self.assertEqual(len(self.db().sql("SELECT * FROM untold", tags=[])), 0)

    def test_many_threads_read_by_few_connections(self):
        self.assertEqual(self.s.readers.count, 0)
        seen, db = [], self.db()

        def read():
            for _ in range(20):
                seen.append((len(db.rows("items", grp=70)), len(db.sql("SELECT * FROM items"))))

        threads = [threading.Thread(target=read) for _ in range(12)]
        for it in threads:
            it.start()
        for it in threads:
            it.join()
        self.assertEqual((len(seen), set(seen)), (240, {(2, 3)}))
        self.assertEqual(self.s.readers.count, 4)
        self.held.close()
        self.assertEqual(self.ask("SELECT count(*) FROM pg_stat_activity WHERE datname = current_database() AND state LIKE 'idle in%'"), [(0,)])


class Faults(Case):
    def kill(self):
        self.ask("SELECT pg_terminate_backend(pid) FROM pg_stat_activity WHERE pid <> pg_backend_pid() AND datname = current_database()")

    def test_killed_connections_are_lost_snapshots_and_the_follower_goes_on(self):
        self.follow()
        self.ask("INSERT INTO items (id) VALUES (1)")
        self.look()
        self.assertEqual(len(self.db().rows("items")), 1)
        (pid,), = self.held._link.ask("SELECT pg_backend_pid()")
        self.ask("SELECT pg_terminate_backend(pid) FROM pg_stat_activity WHERE pid NOT IN (pg_backend_pid(), %s) AND datname = current_database()", pid)
        self.assertRaises(SnapshotLost, self.db().rows, "items")
        self.assertEqual(len(self.db().rows("items")), 1)  # by another connection, which joined
        self.kill()
        self.assertRaises(SnapshotLost, self.db().rows, "items")
        self.assertRaises(SnapshotLost, self.db().sql, "SELECT * FROM items")
        self.held.close()
        self.ask("INSERT INTO items (id, grp) VALUES (2, 5)")
        self.assertIn("public.items:id=2", self.look())  # connections that were kept are dead too, and no matter
        self.assertEqual(len(self.db().rows("items")), 2)

    def test_a_killed_holder_and_a_truncate_behind_it(self):
        """A read after the snapshot's own connection is gone does not count: the table may be another by then."""
        self.follow()
        self.ask("INSERT INTO items (id) VALUES (1)")
        self.look()
        self.held.name()
        self.ask("SELECT pg_terminate_backend(pid) FROM pg_stat_activity WHERE datname = current_database() AND state = 'idle in transaction'")
        self.ask("TRUNCATE items")
        self.assertRaises(SnapshotLost, self.db().rows, "items")
        self.assertRaises(SnapshotLost, self.db().sql, "SELECT * FROM items")

    def test_a_holder_that_dies_while_a_query_runs(self):
        self.follow()
        self.assertEqual(self.held.rows_and_tables("SELECT count(*) AS it FROM items", ())[1], {"public.items:"})
        (pid,), = self.held._link.ask("SELECT pg_backend_pid()")
        other = self.link()
        other.ask("BEGIN; SELECT pg_advisory_xact_lock(7)")

        def end():
            until(lambda: self.ask("SELECT 1 FROM pg_locks WHERE NOT granted"))
            self.ask("SELECT pg_terminate_backend(%s)", pid)
            until(lambda: not self.ask("SELECT 1 FROM pg_stat_activity WHERE pid = %s", pid))
            other.ask("COMMIT")

        ending = threading.Thread(target=end)
        ending.start()
        self.assertRaises(SnapshotLost, self.held.rows_and_tables, "SELECT count(*) AS it, pg_advisory_xact_lock(7) FROM items", ())
        ending.join()

    def test_a_reader_that_joined_keeps_truncate_away_by_its_own_locks(self):
        self.follow()
        self.ask("INSERT INTO items (id) VALUES (1)")
        self.look()
        self.db().rows("items")
        (pid,), = self.held._link.ask("SELECT pg_backend_pid()")
        self.ask("SELECT pg_terminate_backend(%s)", pid)
        other = self.link()
        other.ask("SET lock_timeout = '200ms'")
        self.assertRaises(other.driver.Error, other.ask, "TRUNCATE items")
        self.assertEqual(len(self.db().rows("items")), 1)

    def test_an_idle_snapshot_is_ended_by_the_server(self):
        self.follow(idle_timeout=0.3)
        self.assertTrue(until(lambda: not self.ask("SELECT 1 FROM pg_stat_activity WHERE datname = current_database() AND state = 'idle in transaction'")))
        self.assertRaises(SnapshotLost, self.db().rows, "items")

    def test_no_server(self):
        from txcache.postgres import PostgresStore

        store = PostgresStore("host=/nowhere", TOLD, driver=self.driver)
        self.assertRaisesRegex(SnapshotLost, "no connection", store.look)

    def test_a_restart_begins_cold(self):
        self.follow()
        self.held.close()
        self.server.stop()
        self.assertRaises(SnapshotLost, self.look)
        self.server.start()
        self.assertEqual(self.look(), "the server is another, or has begun anew")
        self.it = self.link()
        self.assertEqual(self.changed("INSERT INTO items (id) VALUES (1)")[0], "public.items:")

    def test_a_killed_server_process_begins_cold(self):
        """The server then begins anew by itself, and its start time stays: commits that were not yet on disk may be gone."""
        self.follow()
        (pid,), = self.ask("SELECT pg_backend_pid()")
        started = self.ask("SELECT pg_postmaster_start_time()")
        self.ask("CHECKPOINT")  # so that it recovers soon
        os.kill(pid, 9)
        ended, found = time.monotonic() + 300, None
        while found is None and time.monotonic() < ended:
            try:
                found = self.look()
            except SnapshotLost:
                time.sleep(0.2)
        self.assertEqual(found, "the server is another, or has begun anew")
        self.it = self.link()
        self.assertEqual(self.ask("SELECT pg_postmaster_start_time()"), started)

    def test_a_transaction_in_another_database_does_not_make_looks_slow(self):
        self.follow()
        other = self.link("postgres")
        other.ask("BEGIN; SELECT pg_current_xact_id()")
        self.ask("SET synchronous_commit = off; INSERT INTO items SELECT n FROM generate_series(1, 3000) n; ANALYZE txcache.notes")
        self.ask("DO $$ BEGIN FOR n IN 1..3000 LOOP UPDATE items SET v = v + 1 WHERE id = n; COMMIT; END LOOP; END $$")
        self.look()
        self.look()
        plan = "\n".join(it for it, in self.ask("EXPLAIN SELECT * FROM txcache.notes WHERE xact >= %s::text::xid8", str(self.mark.xmax)))
        self.assertLess(self.mark.xmin, self.mark.xmax - 3000)
        self.assertIn("Index", plan)
        begun = time.monotonic()
        self.assertEqual(self.look(), [])
        self.assertLess(time.monotonic() - begun, 30.0)


class History(Case):
    """Random commits, each look against all rows: where no tag of a read was noted, the read finds the same in both snapshots."""

    def test_random_histories(self):
        rand = random.Random(5)
        told = {"items": ["id", "grp"]}
        self.follow(told)
        writers = [self.link() for _ in range(3)]
        open_for = [0, 0, 0]
        reads = [("items", {"id": it}) for it in range(6)] + [("items", {"grp": it}) for it in (0, 1, 2, None)] + [("items", {})]
        before = [self.db().rows(table, **columns) for table, columns in reads]
        checked = 0
        for _ in range(120):
            for at, writer in enumerate(writers):
                if not open_for[at]:
                    writer.ask("BEGIN; SET LOCAL lock_timeout = '20ms'")
                    open_for[at] = rand.randrange(1, 4)
                number, group = rand.randrange(6), rand.choice(["0", "1", "2", "NULL"])
                text = rand.choice([f"INSERT INTO items VALUES ({number}, {group}) ON CONFLICT (id) DO UPDATE SET grp = excluded.grp, v = items.v + 1",
                                    f"UPDATE items SET v = v + 1 WHERE id = {number}", f"DELETE FROM items WHERE id = {number}",
                                    f"SAVEPOINT s; UPDATE items SET grp = {group} WHERE id = {number}; ROLLBACK TO s"])
                try:
                    writer.ask(text)
                    open_for[at] -= 1
                    if not open_for[at]:
                        if rand.random() < 0.2:
                            writer.ask(f"PREPARE TRANSACTION 'p{at}'")
                            writer.ask(f"{rand.choice(['COMMIT', 'ROLLBACK'])} PREPARED 'p{at}'")
                        else:
                            writer.ask(rand.choice(["COMMIT", "COMMIT", "ROLLBACK"]))
                except writer.driver.Error:
                    writer.ask("ROLLBACK")
                    open_for[at] = 0
            noted = set(self.look())
            after = [self.db().rows(table, **columns) for table, columns in reads]
            for (table, columns), old, new in zip(reads, before, after):
                if not noted & set(self.held.layout.lookup(table, columns).tags):
                    checked += 1
                    self.assertEqual(old, new, (table, columns))
            before = after
        self.assertGreater(checked, 100)


# What the triggers write is the server's, whichever driver asked: with the second driver the tests are those of what goes over a connection.
OF_ANY_DRIVER = Notes, Partitions, Shape, Purge, History
OF_EACH_DRIVER = Install, Tokens, Reading, Faults


def load_tests(loader, tests, pattern):
    """Returns the tests by each driver that there is; where there is none, by the one that is looked for first, which says that it skips them."""
    suite = unittest.TestSuite()
    for at, name in enumerate(_driver.drivers() or _driver.DRIVERS[:1]):
        for case in OF_EACH_DRIVER if at else OF_ANY_DRIVER + OF_EACH_DRIVER:
            suite.addTests(loader.loadTestsFromTestCase(type(f"{case.__name__}By{name.capitalize()}", (case,), {"driver": name, "__module__": __name__})))
    return suite


if __name__ == "__main__":
    unittest.main()
