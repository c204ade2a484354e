"""The store of a SQLite file: what the triggers note, what a snapshot sees, and what is refused."""

import os
import random
import shutil
import sqlite3
import subprocess
import sys
import tempfile
import threading
import unittest

from txcache._layout import Read
from txcache._store import db_of
from txcache.errors import NotInstalled, SnapshotLost
from txcache.sqlite import SqliteStore

ITEMS = "CREATE TABLE items (id INTEGER PRIMARY KEY, grp INTEGER, name TEXT, open BOOLEAN, v INTEGER DEFAULT 0)"
TOLD = {"items": ["id", "grp", "name", "open", ("grp", "open")]}


def tags(*keys, table="items"):
    return sorted({f"{table}:", *(f"{table}:{it}" for it in keys)})


class Case(unittest.TestCase):
    def setUp(self):
        self.room = tempfile.mkdtemp(prefix="txcache-sqlite-")
        self.addCleanup(shutil.rmtree, self.room)
        self.path = f"{self.room}/a.db"
        self.it, self.mark, self.held = self.link(), None, None

    def link(self):
        link = sqlite3.connect(self.path, isolation_level=None, check_same_thread=False, timeout=5)
        self.addCleanup(link.close)
        return link

    def ask(self, text, *args):
        if args or ";" not in text:
            return self.it.execute(text, args).fetchall()
        return self.it.executescript(text)

    def store(self, tables=None, tables_text=ITEMS, **more):
        for text in filter(None, [tables_text]):
            self.ask(text)
        store = SqliteStore(self.path, tables or TOLD, **more)
        self.addCleanup(store.close)
        return store

    def follow(self, tables=None, tables_text=ITEMS, **more):
        self.s = self.store(tables, tables_text, **more)
        self.s.install()
        self.mark = None
        self.assertEqual(self.look(), "the first snapshot")

    def look(self):
        """The tags since the last look, or why the cache begins cold."""
        found = self.s.look(self.mark)
        if self.held:
            self.held.close()
        self.mark, self.held = found.mark, found.snapshot
        self.addCleanup(found.snapshot.close)
        return found.reason if found.tags is None else sorted(found.tags)

    def changed(self, text, *args):
        self.ask(text, *args)
        return self.look()

    def db(self):
        return db_of(self.held)


class Notes(Case):
    def test_what_was_undone_is_not_noted(self):
        self.follow({"items": ["id", "grp"]})
        self.assertEqual(self.look(), [])
        self.assertEqual(self.changed("BEGIN; SAVEPOINT s; INSERT INTO items (id, grp) VALUES (3, 30); ROLLBACK TO s; INSERT INTO items (id, grp) VALUES (4, 40); COMMIT"),
                         tags("id=4", "grp=40"))
        self.assertEqual(self.changed("BEGIN; INSERT INTO items (id, grp) VALUES (5, 50); ROLLBACK"), [])

    def test_each_kind_of_statement_notes_the_row_as_it_was_and_as_it_is(self):
        self.follow({"items": ["id", "grp"]})
        self.assertEqual(self.changed("INSERT INTO items (id, grp) VALUES (1, 10), (2, NULL)"), tags("id=1", "grp=10", "id=2", "grp=~"))
        self.assertEqual(self.changed("UPDATE items SET id = 5, grp = 6 WHERE id = 2"), tags("id=2", "grp=~", "id=5", "grp=6"))
        self.assertLessEqual({"items:id=5", "items:grp=6", "items:grp=41"},
                             set(self.changed("INSERT INTO items (id, grp) VALUES (5, 1) ON CONFLICT (id) DO UPDATE SET grp = 41")))
        self.assertEqual(self.changed("DELETE FROM items"), tags("id=1", "grp=10", "id=5", "grp=41"))
        self.link().execute("INSERT INTO items (id, grp) VALUES (70, 7)")
        self.assertEqual(self.look(), tags("id=70", "grp=7"))

    def test_replace_deletes_rows_for_which_no_trigger_fires(self):
        self.follow({"log": ["id", "grp"]}, "CREATE TABLE log (id INTEGER PRIMARY KEY, grp INTEGER, name TEXT UNIQUE, a INTEGER, b INTEGER, UNIQUE (a, b))")
        self.changed("INSERT INTO log VALUES (1, 10, 'a', 1, 1), (2, 20, 'b', 1, 2), (3, 30, 'c', 1, 3)")
        self.assertEqual(set(self.changed("INSERT OR REPLACE INTO log VALUES (1, 11, 'a', 1, 1)")), set(tags("id=1", "grp=10", "grp=11", table="log")))
        self.assertLessEqual({"log:id=2", "log:grp=20"}, set(self.changed("INSERT OR REPLACE INTO log VALUES (9, 90, 'b', 5, 5)")))
        self.assertLessEqual({"log:id=9", "log:grp=90"}, set(self.changed("UPDATE OR REPLACE log SET name = 'b' WHERE id = 1")))
        self.assertLessEqual({"log:id=3", "log:grp=30"}, set(self.changed("REPLACE INTO log VALUES (50, 5, 'z', 1, 3)")))

    def test_an_update_of_no_key_writes_one_note(self):
        """The row itself is in nobody's way."""
        self.follow({"log": ["id"], "flat": ["a"]}, "CREATE TABLE log (id INTEGER PRIMARY KEY, name TEXT UNIQUE, v INTEGER);"
                    "CREATE TABLE flat (a TEXT, b INTEGER, v INTEGER, PRIMARY KEY (a, b)) WITHOUT ROWID")
        self.changed("INSERT INTO log VALUES (1, 'a', 0); INSERT INTO flat VALUES ('x', 1, 0), ('x', 2, 0)")
        for text, keys in (("UPDATE log SET v = 1", [("log", '["id=1"]')]), ("UPDATE flat SET v = 1 WHERE b = 2", [("flat", '["a=x"]')]),
                           ("UPDATE OR REPLACE flat SET b = 1 WHERE b = 2", [("flat", '["a=x"]')] * 2)):
            (last,), = self.ask("SELECT max(number) FROM txcache_notes")
            self.ask(text)
            self.assertEqual(self.ask("SELECT relation, keys FROM txcache_notes WHERE number > ?", last), keys, text)

    def test_replace_by_the_rows_number(self):
        self.follow({"log": ["grp"]}, "CREATE TABLE log (grp INTEGER, rowid TEXT)")
        self.changed("INSERT INTO log (_rowid_, grp) VALUES (7, 10)")
        self.assertEqual(self.changed("INSERT OR REPLACE INTO log (_rowid_, grp) VALUES (7, 11)"), tags("grp=10", "grp=11", table="log"))
        self.mark = None
        self.follow({"flat": ["a", "grp"]}, "CREATE TABLE flat (a TEXT PRIMARY KEY, grp INTEGER) WITHOUT ROWID")
        self.changed("INSERT INTO flat VALUES ('x', 1)")
        self.assertEqual(self.changed("INSERT OR REPLACE INTO flat VALUES ('x', 2)"), tags("a=x", "grp=1", "grp=2", table="flat"))

    def test_cascades(self):
        self.follow({"low": ["id", "top"]}, "PRAGMA foreign_keys = 1; CREATE TABLE top (id INTEGER PRIMARY KEY); "
                    "CREATE TABLE low (id INTEGER PRIMARY KEY, top INTEGER REFERENCES top ON DELETE CASCADE ON UPDATE CASCADE)")
        self.changed("INSERT INTO top VALUES (1), (2); INSERT INTO low VALUES (60, 1), (61, 2)")
        self.assertEqual(self.changed("DELETE FROM top WHERE id = 1"), tags("id=60", "top=1", table="low"))
        self.assertEqual(self.changed("UPDATE top SET id = 5 WHERE id = 2"), tags("id=61", "top=2", "top=5", table="low"))

    def test_the_tag_of_a_read_is_the_one_that_the_triggers_write(self):
        self.follow()
        layout = self.held.layout
        for row, asked in [((7, 70, "a", True), [{"id": 7}, {"grp": 70}, {"name": "a"}, {"open": True}, {"grp": 70, "open": True}]),
                           ((-8, None, 'it"s ~ \\ , = é\n', False), [{"id": -8}, {"grp": None}, {"name": 'it"s ~ \\ , = é\n'}, {"open": False}, {"open": False, "grp": None}]),
                           ((2**63 - 1, "12", "", 1.0), [{"id": 2**63 - 1}, {"grp": 12}, {"name": ""}, {"open": True}]), ((9, 9.0, 5, "1"), [{"grp": 9}, {"name": "5"}, {"open": True}])]:
            noted = self.changed("INSERT INTO items VALUES (?, ?, ?, ?, 0)", *row)
            for columns in asked:
                self.assertEqual(len([it for it in self.db().rows("items", **columns) if it["id"] == row[0]]), 1, columns)
                self.assertIn(layout.lookup("items", columns).tags[0], noted)

    def test_many_tags_begin_cold(self):
        self.follow({"items": ["id"]})
        fill = "WITH RECURSIVE n(n) AS (SELECT ? UNION ALL SELECT n + 1 FROM n WHERE n < ?) INSERT INTO items (id) SELECT n FROM n"
        self.assertEqual(len(self.changed(fill, 1, 19_999)), 20_000)
        self.assertEqual(self.changed(fill, 20_001, 40_000), "more than 20000 tags changed")
        self.assertEqual(self.look(), [])


class Shape(Case):
    def test_what_changes_the_schema_begins_cold(self):
        self.follow()
        for text in ("ALTER TABLE items ADD COLUMN w INTEGER DEFAULT 5", "VACUUM", "CREATE VIEW seen AS SELECT * FROM items", "CREATE TABLE other (id INTEGER)"):
            self.held.close()
            self.assertEqual(self.changed(text), "the schema of the file was changed", text)
        self.held.close()
        self.ask("DROP TRIGGER txcache_items_insert")
        self.assertRaisesRegex(NotInstalled, "items: its triggers are not those of version 1", self.look)
        self.assertEqual(self.s.install(), ["items: installed"])
        self.assertEqual(self.look(), "the schema of the file was changed")

    def test_another_file_at_the_path_begins_cold(self):
        self.follow()
        self.ask("PRAGMA wal_checkpoint(TRUNCATE)")
        self.held.close()
        self.it.close()
        shutil.copy(self.path, f"{self.room}/b.db")
        os.replace(f"{self.room}/b.db", self.path)
        self.it = self.link()
        self.assertEqual(self.look(), "the file is another")
        self.assertEqual(self.changed("INSERT INTO items (id) VALUES (1)")[:2], ["items:", "items:grp,open=~,~"])
        os.remove(self.path)
        self.assertRaises(SnapshotLost, self.look)

    def test_a_new_lookup_of_another_service_keeps_those_of_the_first(self):
        self.follow({"items": ["id"]})
        second = self.store({"items": ["grp"]}, None)
        self.assertRaisesRegex(NotInstalled, "do not note grp", second.look)
        self.assertEqual(second.install(), ["items: installed"])
        self.assertEqual((self.s.install(), second.install()), (["items: stands"], ["items: stands"]))
        self.assertEqual(self.look(), "the schema of the file was changed")
        self.assertEqual(self.changed("INSERT INTO items (id, grp) VALUES (1, 2)"), tags("id=1", "grp=2"))

    def test_what_is_refused(self):
        self.ask("CREATE TABLE odd (d DATE, f REAL, b BLOB, a, n NUMERIC, c TEXT COLLATE NOCASE, r TEXT COLLATE RTRIM, t TEXT);"
                 "CREATE TABLE folded (id INTEGER PRIMARY KEY, name TEXT, UNIQUE (name COLLATE NOCASE)); CREATE TABLE computed (id INTEGER PRIMARY KEY, name TEXT);"
                 "CREATE UNIQUE INDEX up ON computed (upper(name)); CREATE VIEW v AS SELECT 1 AS id; CREATE VIRTUAL TABLE found USING fts5(body)")
        refused = [({"odd": [it]}, f"the column {it} is of type") for it in "dfban"] + [({"odd": [it]}, f"the column {it} has another collation") for it in "cr"]
        refused += [({"odd": ["gone"]}, "it has no column gone"), ({"folded": ["id"]}, "has another collation than BINARY"), ({"computed": ["id"]}, "is over an expression"),
                    ({"v": ["id"]}, "there is no table v"), ({"found": []}, "it is a virtual table"), ({"nowhere": []}, "there is no table nowhere")]
        for told, why in refused:
            self.assertRaisesRegex(NotInstalled, why, self.store(told, None).install)
        self.assertEqual(self.store({"odd": ["t"], "user": ["select"]}, 'CREATE TABLE user ("select" INTEGER)').install(), ["odd: installed", "user: installed"])
        self.assertRaises(ValueError, SqliteStore, self.path, {"main.items": []})

    def test_not_installed(self):
        store = self.store()
        self.assertEqual(store.check(), ["the file's journal mode is delete, and not wal", "the notes are not there"])
        self.assertRaises(NotInstalled, store.look)
        self.assertRaises(SnapshotLost, SqliteStore(f"{self.room}/none.db", TOLD).look)
        self.assertFalse(os.path.exists(f"{self.room}/none.db"))
        store.install()
        store.close()
        self.link().execute("PRAGMA journal_mode = DELETE")
        self.assertEqual(store.check(), ["the file's journal mode is delete, and not wal"])

    def test_a_renamed_table(self):
        self.follow({"items": ["id"]})
        self.held.close()
        self.ask("ALTER TABLE items RENAME TO things")
        self.assertRaisesRegex(NotInstalled, "there is no table items", self.look)
        self.s = self.store({"things": ["id"]}, None)
        self.assertRaisesRegex(NotInstalled, "not those of version", self.s.look)
        self.s.install()
        self.mark = None
        self.look()
        self.assertEqual(self.changed("INSERT INTO things (id) VALUES (1)"), tags("id=1", table="things"))


class Purge(Case):
    def test_by_numbers(self):
        self.follow({"items": ["id"]})
        self.changed("INSERT INTO items (id) VALUES (1)")
        self.assertEqual([self.s.purge(0.0), self.s.purge(0.0)], [0, 1])
        self.assertEqual(self.changed("INSERT INTO items (id) VALUES (2)"), tags("id=2"))
        self.ask("INSERT INTO items (id) VALUES (3)")
        self.assertEqual([self.s.purge(600.0), self.s.purge(0.0), self.s.purge(0.0)], [0, 2, 0])
        self.assertEqual(self.look(), "notes were purged that the last snapshot had not seen")
        self.assertEqual(self.look(), [])


class Reading(Case):
    def setUp(self):
        super().setUp()
        self.follow(tables_text=ITEMS + "; INSERT INTO items VALUES (7, 70, 'a', 1, 1), (8, 70, 'b', NULL, 2), (9, NULL, 'A', 0, 3)")

    def test_row_and_rows(self):
        db = self.db()
        self.assertEqual(db.row("items", id=7), {"id": 7, "grp": 70, "name": "a", "open": 1, "v": 1})
        self.assertIsNone(db.row("items", id=70))
        for columns, ids in [({"grp": 70}, [7, 8]), ({"grp": None}, [9]), ({"grp": 70, "open": True}, [7]), ({"name": "A"}, [9]), ({}, [7, 8, 9])]:
            self.assertEqual([it["id"] for it in db.rows("items", **columns)], ids)
        self.assertRaises(ValueError, db.row, "items", grp=70)
        for columns in ({"id": " 7"}, {"id": 7.0}, {"id": True}, {"open": 1}):
            self.assertRaises(TypeError, db.rows, "items", **columns)

    def test_a_snapshot_stays_as_it_was(self):
        db = self.db()
        self.ask("UPDATE items SET v = 100; DELETE FROM items WHERE id = 8")
        self.assertEqual([it["v"] for it in db.rows("items")], [1, 2, 3])
        found = self.s.look(self.mark)
        self.addCleanup(found.snapshot.close)
        self.assertEqual([it["v"] for it in db_of(found.snapshot).rows("items")], [100, 100])
        self.assertEqual([it["v"] for it in db.sql("SELECT v FROM items ORDER BY id")], [1, 2, 3])

    def test_a_file_that_did_not_change_needs_no_snapshot(self):
        self.assertIsNone(self.s.look(self.mark, is_wanted=False).snapshot)
        self.ask("UPDATE items SET v = 100 WHERE id = 7")
        found = self.s.look(self.mark, is_wanted=False)
        self.addCleanup(found.snapshot.close)
        self.assertIn("items:id=7", found.tags)

    def test_the_number_of_a_files_changes_is_a_connections_own(self):
        """A new connection counts anew."""
        self.s.close()
        self.ask("UPDATE items SET v = 0 WHERE id = 7")  # nobody counts it
        found = self.s.look(self.mark, is_wanted=False)
        self.assertIsNotNone(found.snapshot)
        self.addCleanup(found.snapshot.close)

    def test_a_query_that_fails_spoils_nothing(self):
        for query in ("SELECT nothing FROM items", "UPDATE items SET v = 1", "SEL", "SELECT abs(-9223372036854775808) FROM items"):
            for given in (None, ["items"]):
                self.assertRaises(sqlite3.Error, self.db().sql, query, (), given)
                self.assertEqual(len(self.db().rows("items")), 3)
        self.assertRaises(SnapshotLost, self.held.rows, Read("COMMIT", (), ()))
        self.assertRaises(SnapshotLost, self.db().rows, "items")

    def test_the_tables_of_a_query_are_those_that_the_compiler_names(self):
        self.ask("CREATE TABLE other (id INTEGER PRIMARY KEY); CREATE TABLE untold (id INTEGER PRIMARY KEY); CREATE VIEW seen AS SELECT * FROM items")
        self.follow({"items": ["id"], "other": []}, None)
        for query, args, tables in [("SELECT * FROM items WHERE 0", (), {"items:"}), ("SELECT 1 WHERE EXISTS (SELECT 1 FROM other)", (), {"other:"}), ("SELECT 1", (), set()),
                                    ("SELECT count(*) FROM items JOIN other ON 1", (), {"items:", "other:"}), ("SELECT * FROM seen WHERE id = ?", (7,), {"items:"}),
                                    ("WITH a AS (SELECT * FROM ITEMS) SELECT * FROM a", (), {"items:"}), ("SELECT value FROM json_each('[1]')", (), set())]:
            self.assertEqual(self.held.rows_and_tables(query, args)[1], tables, query)
            self.assertEqual(self.held.rows_and_tables(query, args)[1], tables, query)
        for query, name in [("SELECT * FROM untold", "untold"), ("SELECT * FROM sqlite_master", "sqlite_master"), ("SELECT count(*) FROM txcache_notes", "txcache_notes")]:
            self.assertRaisesRegex(ValueError, f"the query reads {name}, on which no triggers stand", self.db().sql, query)
        self.assertRaisesRegex(ValueError, "'now'", self.db().sql, "SELECT datetime('now') FROM items")
        self.assertRaisesRegex(ValueError, "named 'id'", self.db().sql, "SELECT id, v AS id FROM items")

    def test_many_threads_take_turns(self):
        seen, db = [], self.db()

        def read():
            for _ in range(50):
                seen.append((len(db.rows("items", grp=70)), len(db.sql("SELECT * FROM items"))))

        threads = [threading.Thread(target=read) for _ in range(8)]
        for it in threads:
            it.start()
        for it in threads:
            it.join()
        self.assertEqual((len(seen), set(seen)), (400, {(2, 3)}))

    def test_tokens(self):
        other = self.link()
        other.execute("BEGIN")
        other.execute("INSERT INTO items (id) VALUES (1)")
        token = self.s.token(other.cursor())
        self.assertRegex(token, r"^[0-9a-f]{16}-s[0-9a-f]+$")
        self.look()
        self.assertFalse(self.s.sees(self.mark, token))
        other.execute("COMMIT")
        self.assertFalse(self.s.sees(self.mark, token))
        self.look()
        self.assertTrue(self.s.sees(self.mark, token))
        self.assertFalse(self.s.sees(self.mark, "0" * 16 + "-s1"))
        for it in ("", "x", token + " ", token.replace("-s", "-")):
            self.assertRaises(ValueError, self.s.sees, self.mark, it)

    def fill_the_log(self, least):
        """Writes until the log is longer."""
        for _ in range(1000):
            if self.s._log_size() > least:
                return
            self.ask("INSERT INTO items (name) VALUES (?)", "x" * 30_000)
        self.fail("the log grows no more")

    def wants(self):
        """Returns whether the store wants air: while a page is open, and while none is."""
        return self.s.wants_air(True), self.s.wants_air(False)

    def test_the_log_is_copied_where_no_snapshot_is_open(self):
        self.s.max_log = 400_000
        self.assertEqual(self.wants(), (False, False))
        self.fill_the_log(210_000)
        self.assertEqual(self.wants(), (False, True))
        self.fill_the_log(410_000)
        self.assertEqual(self.wants(), (True, True))
        self.held.close()
        self.s.air()
        self.assertEqual((self.wants(), self.s._log_size()), ((False, False), 0))
        self.fill_the_log(210_000)
        self.assertEqual(self.wants(), (False, True))

    def test_a_log_that_cannot_begin_anew_is_let_grow(self):
        """Else each look would end the snapshots of pages, for nothing."""
        self.s.max_log = 400_000
        self.fill_the_log(410_000)
        self.s.air()  # with a snapshot open, as of another process
        left = self.s._log_size()
        self.assertGreater(left, 400_000)
        self.assertEqual(self.wants(), (False, False))
        self.s._aired -= 11
        self.assertEqual(self.wants(), (False, True))
        self.fill_the_log(left + 210_000)
        self.s._aired += 11
        self.assertEqual(self.wants(), (False, True))
        self.fill_the_log(left + 410_000)
        self.assertEqual(self.wants(), (True, True))
        self.held.close()
        self.s.air()
        self.assertEqual((self.wants(), self.s._log_size()), ((False, False), 0))

    def test_a_log_that_began_anew_by_another_process(self):
        self.s.max_log = 400_000
        self.fill_the_log(410_000)
        self.s.air()
        self.held.close()
        self.ask("PRAGMA wal_checkpoint(TRUNCATE)")
        self.assertEqual((self.wants(), self.s._log_size()), ((False, False), 0))
        self.fill_the_log(410_000)
        self.assertEqual(self.wants(), (True, True))

    def test_what_another_process_does_with_the_log_ends_no_snapshot(self):
        self.ask("INSERT INTO items (id) VALUES (1)")
        self.look()
        self.ask("UPDATE items SET v = 7")
        for text in ("PRAGMA wal_checkpoint(PASSIVE)", "PRAGMA wal_checkpoint(RESTART)", "PRAGMA wal_checkpoint(TRUNCATE)", "VACUUM"):
            program = f"import sqlite3; sqlite3.connect({self.path!r}, timeout=0.1, isolation_level=None).execute({text!r}).fetchall()"
            subprocess.run([sys.executable, "-c", program], check=True)
            self.assertEqual(self.db().row("items", id=1)["v"], 0)
        self.assertEqual(self.look(), "the schema of the file was changed")  # VACUUM counts as that
        self.assertEqual(self.db().row("items", id=1)["v"], 7)


class Command(Case):
    def test_the_command(self):
        self.ask(ITEMS)
        with open(f"{self.room}/shop.py", "w", encoding="utf-8") as file:
            file.write(f"from txcache.sqlite import SqliteStore\nclass Cache: pass\ncache = Cache()\ncache.store = SqliteStore({self.path!r}, {{'items': ['id']}})\n")

        def run(*words):
            ran = subprocess.run([sys.executable, "-m", "txcache", *words], cwd=self.room, stdout=subprocess.PIPE, stderr=subprocess.STDOUT, text=True,
                                 env={**os.environ, "PYTHONPATH": os.path.dirname(os.path.dirname(os.path.abspath(__file__)))})
            return ran.returncode, ran.stdout.splitlines()

        self.assertEqual(run("check", "shop:cache"), (1, ["the file's journal mode is delete, and not wal", "the notes are not there"]))
        self.assertEqual(run("install", "shop:cache"), (0, ["items: installed"]))
        self.assertEqual(run("install", "shop:cache.store"), (0, ["items: stands"]))
        self.assertEqual(run("check", "shop:cache"), (0, ["all triggers stand"]))
        self.assertRaisesRegex(ValueError, "no roles", SqliteStore(self.path, {"items": ["id"]}).check, "app")
        self.assertEqual(run("purge", "shop:cache"), (0, ["0 notes deleted"]))
        self.assertEqual(run("uninstall", "shop:cache"), (0, ["items: uninstalled"]))
        self.assertEqual(self.ask("SELECT name FROM sqlite_master WHERE name LIKE 'txcache%'"), [])
        self.assertEqual(run("check", "shop")[0], 1)
        self.assertEqual(run("check", "shop:cache", "--dsn", "dbname=shop"), (1, ["txcache: this store has no connection string, so --dsn names none"]))


class History(Case):
    """Random commits, each look against all rows: where no tag of a read was noted, the read finds the same in both snapshots."""

    def test_random_histories(self):
        rand = random.Random(5)
        self.follow({"items": ["id", "grp"]}, "CREATE TABLE items (id INTEGER PRIMARY KEY, grp INTEGER, name TEXT UNIQUE, v INTEGER DEFAULT 0)")
        reads = [{"id": it} for it in range(6)] + [{"grp": it} for it in (0, 1, 2, None)] + [{}]
        before = [self.db().rows("items", **columns) for columns in reads]
        checked = 0
        for _ in range(500):
            self.ask("BEGIN")
            for _ in range(rand.randrange(3)):
                number, group, name = rand.randrange(6), rand.choice(["0", "1", "2", "NULL"]), rand.choice("abc")
                self.ask(rand.choice([f"INSERT OR REPLACE INTO items (id, grp, name) VALUES ({number}, {group}, '{name}')", f"DELETE FROM items WHERE id = {number}",
                                      f"UPDATE OR REPLACE items SET name = '{name}', v = v + 1 WHERE id = {number}", f"UPDATE OR REPLACE items SET id = {number} WHERE name = '{name}'",
                                      f"INSERT INTO items (id, grp) VALUES ({number}, {group}) ON CONFLICT DO UPDATE SET grp = {group}, v = v + 1"]))
            self.ask(rand.choice(["COMMIT", "COMMIT", "ROLLBACK"]))
            noted = set(self.look())
            after = [self.db().rows("items", **columns) for columns in reads]
            for columns, old, new in zip(reads, before, after):
                if not noted & set(self.held.layout.lookup("items", columns).tags):
                    checked += 1
                    self.assertEqual(old, new, columns)
            before = after
        self.assertGreater(checked, 1000)


if __name__ == "__main__":
    unittest.main()
