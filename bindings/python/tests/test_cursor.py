"""Cursors in a function's snapshot, over both stores."""

import sqlite3
import threading
import time
import unittest
from unittest import mock

from txcache import OutsideSnapshot, SnapshotLost, TxCache, _driver

from . import beside, by_hand, until
from .cases import Case, OfPostgres, over_each_store


def first(cursor):
    return [row[0] for row in cursor]


class Cursors(Case):
    def functions(self, cache):
        super().functions(cache)
        self.mark = mark = "%s" if isinstance(self, OfPostgres) else "?"

        @cache.cacheable
        def prices(db, item):
            return first(db.cursor().execute(f"SELECT price FROM bids WHERE item = {mark} ORDER BY id", (item,)))

        @cache.cacheable
        def either(db, name):
            with db.cursor() as cursor:
                cursor.execute(f"SELECT count(*) FROM {name}")
                return cursor.fetchone()[0]

        @cache.cacheable
        def named(db, item):
            db.reads(("bids", "item", item))
            return first(db.cursor().execute(f"SELECT price FROM bids WHERE item = {mark} ORDER BY id", [item]))

        @cache.cacheable
        def both(db, item):
            cursor = db.cursor()
            cursor.execute("SELECT sum(balance) FROM accounts")
            total, = cursor.fetchone()
            found = max(prices(item), default=None)
            return int(total), found, cursor.execute("SELECT count(*) FROM items").fetchall()[0][0]

        self.prices, self.either, self.named, self.both = prices, either, named, both

    def asks(self, body):
        """Calls a function of this body, once, in a page of its own."""
        self.number = getattr(self, "number", 0) + 1
        body.__qualname__ += str(self.number)
        return self.page((self.cache.cacheable(body),), max_age=0.0)[0]

    def test_what_it_reads_is_found_and_remembered_by_the_function(self):
        self.open()
        self.assertEqual(self.page((self.prices, 7)), [[110, 90]])
        self.assertEqual(self.page((self.prices, 7), (self.prices, 8)), [[110, 90], []])
        self.assertEqual(self.counts(), (1, 1))
        self.write("UPDATE accounts SET balance = 1 WHERE id = 0")
        self.assertEqual(self.page((self.prices, 7), max_age=0.0), [[110, 90]])
        self.assertEqual(self.counts(), (1, 0))
        self.write("INSERT INTO bids VALUES (3, 8, 5)")
        self.assertEqual(self.page((self.prices, 8), (self.prices, 7), max_age=0.0), [[5], [110, 90]])
        self.assertEqual(self.counts(), (0, 2))

    def test_a_function_that_reads_another_table_is_called_again(self):
        cache = self.open()
        self.page((self.either, "bids"))
        self.assertEqual(cache._growth.forms.tables(self.either), {self.tag("bids")})
        self.page((self.either, "items"))
        self.assertEqual(cache._growth.forms.tables(self.either), {self.tag("bids"), self.tag("items")})
        self.write("DELETE FROM items WHERE id = 8")
        self.assertEqual(self.page((self.either, "items"), (self.either, "bids"), max_age=0.0), [1, 2])

    def tag(self, table):
        return f"public.{table}:" if isinstance(self, OfPostgres) else f"{table}:"

    def test_what_is_named_is_not_looked_up(self):
        cache = self.open()
        with mock.patch.object(type(cache._growth), "add_tables", side_effect=AssertionError):
            self.assertEqual(self.page((self.named, 7)), [[110, 90]])
            self.write("INSERT INTO bids VALUES (3, 8, 5)")
            self.assertEqual(self.page((self.named, 7), max_age=0.0), [[110, 90]])
            self.assertEqual(self.counts(), (1, 0))
            self.write("INSERT INTO bids VALUES (4, 7, 6)")
            self.assertEqual(self.page((self.named, 7), (self.named, 8), max_age=0.0), [[110, 90, 6], [5]])
            self.assertEqual(self.asks(lambda db: db.reads() or first(db.cursor().execute("SELECT now() IS NULL" if self.mark == "%s" else "SELECT random() IS NULL"))), [False])

    def test_naming_comes_first(self):
        self.open()

        def late(db):
            db.cursor().execute("SELECT 1 FROM bids")
            db.reads("bids")

        self.assertRaisesRegex(ValueError, r"db.reads\(..\) in .*late.* comes after a cursor has read: call it before", self.asks, late)
        self.assertRaisesRegex(ValueError, "was not told of the table 'others'", self.asks, lambda db: db.reads("others"))

    def test_nested_functions_read_by_their_own(self):
        self.open()
        self.assertEqual(self.page((self.both, 7)), [(400, 110, 2)])
        self.write("INSERT INTO bids VALUES (3, 7, 130)")
        self.assertEqual(self.page((self.both, 7), max_age=0.0), [(400, 130, 2)])
        self.assertEqual(self.cache._growth.forms.tables(self.both), {self.tag("accounts"), self.tag("items")})

    def test_it_reads_in_the_pages_snapshot(self):
        """A value that is cached, then one by a cursor: both of the old snapshot, though the database has moved on."""
        cache = self.open(refresh=1000.0)
        self.page((self.balance, 0))
        self.write("UPDATE accounts SET balance = 93 WHERE id = 0", "UPDATE accounts SET balance = 107 WHERE id = 1")
        cache._look()
        with cache.read(60.0):
            self.assertEqual(self.balance(0), 100)
            self.assertEqual(self.both(7)[0], 400)
        number = cache.cacheable(lambda db, it: db.cursor().execute(f"SELECT balance FROM accounts WHERE id = {self.mark}", (it,)).fetchone()[0])
        self.assertEqual(self.page((self.balance, 0), (number, 1)), [100, 100])
        self.assertEqual(self.page((number, 1), (self.balance, 0), max_age=0.0), [107, 93])

    def test_what_would_leave_the_snapshot(self):
        self.open()
        seen = []

        def leaves(act):
            def body(db):
                cursor = db.cursor()
                before = cursor.execute("SELECT balance FROM accounts WHERE id = 0").fetchone()
                if not seen:
                    self.write("UPDATE accounts SET balance = 5 WHERE id = 0")
                seen.append(1)
                with self.assertRaisesRegex(OutsideSnapshot, "body") as caught:
                    act(cursor)
                self.assertRegex(str(caught.exception), "write outside of it, by a connection of your own|execute each by itself")
                self.assertEqual(cursor.execute("SELECT balance FROM accounts WHERE id = 0").fetchone(), before)
                return before[0]
            return body

        self.page((self.balance, 0))
        for act in (lambda it: it.connection.commit(), lambda it: it.connection.rollback(), lambda it: it.connection.set_session(readonly=False),
                    lambda it: setattr(it.connection, "autocommit", False), lambda it: it.connection.cursor().execute("COMMIT"), lambda it: it.executescript("COMMIT"),
                    lambda it: it.executemany("INSERT INTO bids VALUES (9, 9, 9)", []), lambda it: it.callproc("f"), lambda it: it.copy_expert("COPY bids TO STDOUT", None)):
            self.assertIn(self.asks(leaves(act)), (5, 100))
        for text in ("ROLLBACK", "COMMIT", " /* SELECT */ END", "BEGIN", "SAVEPOINT a", "SELECT 1; COMMIT", "SELECT ';' ; ROLLBACK", "INSERT INTO bids VALUES (9, 9, 9)", "DELETE FROM bids",
                     "SET TRANSACTION READ WRITE", "PRAGMA query_only = 0", "LOCK TABLE bids", "EXPLAIN SELECT 1", "DISCARD ALL"):
            self.assertIn(self.asks(leaves(lambda it: it.execute(text))), (5, 100))
        self.assertEqual(self.page((self.prices, 9), max_age=0.0), [[]])

    def test_a_write_that_looks_like_a_query(self):
        self.open()
        text = "WITH it AS (INSERT INTO bids VALUES (9, 9, 9) RETURNING id) SELECT id FROM it" if self.mark == "%s" else "WITH it(id) AS (SELECT 9) INSERT INTO bids SELECT id, id, id FROM it"
        self.assertRaisesRegex(OutsideSnapshot, "writes: a cacheable function reads in one snapshot", self.asks, lambda db: db.cursor().execute(text))
        self.assertEqual(self.page((self.prices, 9), max_age=0.0), [[]])

    def test_it_ends_with_its_function(self):
        cache = self.open()
        kept = []

        @cache.cacheable
        def keeps(db):
            cursor = db.cursor()
            cursor.execute("SELECT id FROM items")
            kept.extend((cursor, db))
            return 1

        @cache.cacheable
        def lends(db):
            return within()

        @cache.cacheable
        def within(db):
            return kept[0].execute("SELECT 1").fetchone()[0]

        with cache.read():
            keeps()
            for act in (lambda: kept[0].execute("SELECT 1"), kept[0].fetchone, kept[0].fetchall, lambda: list(kept[0]), kept[0].connection.cursor, lambda: kept[0].connection.commit(),
                        kept[1].cursor, lambda: kept[1].reads("bids")):
                self.assertRaisesRegex(OutsideSnapshot, "is used after .*keeps has returned: ask for another in each function", act)
            self.assertRaisesRegex(OutsideSnapshot, "after .*keeps has returned", lends)

    def test_it_is_of_one_function_and_one_thread(self):
        cache = self.open()
        lent, said = [], []

        @cache.cacheable
        def inner(db):
            return lent[0].execute("SELECT 1").fetchone()[0]

        @cache.cacheable
        def outer(db):
            lent[:] = [db.cursor()]
            other = threading.Thread(target=lambda: said.append(self.error_of(lent[0].execute, "SELECT 1")))
            other.start()
            other.join()
            return inner()

        with cache.read():
            self.assertRaisesRegex(OutsideSnapshot, "outer is used within another function: ask each function's own db", outer)
        self.assertIn("another thread uses this page", said[0])

    @staticmethod
    def error_of(act, *words):
        try:
            act(*words)
            return ""
        except RuntimeError as error:
            return str(error)

    def test_a_failed_query_ends_its_function(self):
        cache = self.open()

        @cache.cacheable
        def catches(db):
            try:
                db.cursor().execute("SELECT none FROM items")
            except Exception:
                return db.cursor().execute("SELECT 1").fetchone()

        with cache.read():
            self.assertRaisesRegex(RuntimeError, "went on after a function that it called, or a query, had failed", catches)
            self.assertEqual(self.balance(0), 100)

    def test_time_and_chance_and_what_has_no_triggers(self):
        self.open()
        self.write("CREATE TABLE others (id INTEGER)")
        for text, said in (("SELECT current_date", "names 'current_date'"), ("SELECT id FROM others", "others, on which no triggers stand"), ("SELECT now()", "names 'now'")):
            self.assertRaisesRegex(ValueError, said, self.asks, lambda db: db.cursor().execute(text))
        self.assertRaisesRegex(TypeError, "is a str, and not bytes", self.asks, lambda db: db.cursor().execute(b"SELECT 1"))

    def test_the_ways_to_fetch(self):
        self.open()

        words = self.words_of_rows()

        def fetches(db):
            cursor = db.cursor()
            self.assertEqual(isinstance(cursor, sqlite3.Cursor), self.mark == "?")
            cursor.execute("SELECT id, item FROM bids ORDER BY id")
            self.assertEqual([it[0] for it in cursor.description], ["id", "item"])
            self.assertEqual((cursor.fetchmany(), cursor.fetchmany(5), cursor.fetchone(), cursor.fetchall()), ([(1, 7)], [(2, 7)], None, []))
            by_name = "SELECT id FROM bids WHERE id = " + ("%(it)s" if self.mark == "%s" else ":it")
            self.assertEqual(cursor.execute(by_name, {"it": 2}).fetchall(), [(2,)])
            cursor.close()
            self.assertRaisesRegex(ValueError, "has no rows: execute a query first", cursor.fetchone)
            with db.cursor(**words) as cursor:
                if self.mark == "?":
                    cursor.row_factory = sqlite3.Row
                return dict(cursor.execute("SELECT id, price FROM bids WHERE id = 2").fetchone())

        self.assertEqual(self.asks(fetches), {"id": 2, "price": 90})

    def words_of_rows(self):
        if self.mark == "?":
            return {}
        if _driver.drivers()[0] == "psycopg2":
            from psycopg2.extras import RealDictCursor

            return {"cursor_factory": RealDictCursor}
        from psycopg.rows import dict_row

        return {"row_factory": dict_row}

    def test_a_snapshot_that_is_replaced_meanwhile(self):
        """A newer snapshot in which nothing has changed takes the place of one that is half as old as it may be, while a function reads."""
        cache, follower = self.open(hold=0.4, refresh=1000.0), []

        @cache.cacheable
        def slow(db):
            cursor = db.cursor()
            seen = [cursor.execute("SELECT sum(balance) FROM accounts").fetchone()[0]]
            for _ in range(2):
                time.sleep(0.21)
                cache._look()
                follower.append(cache._follower.numbers)
                seen.append(cursor.execute("SELECT sum(balance) FROM accounts").fetchone()[0])
            return [int(it) for it in seen]

        for _ in range(5):  # a busy machine may take longer than `hold`
            try:
                self.assertEqual(self.page((slow,), max_age=0.0), [[400, 400, 400]])
                return
            except SnapshotLost:
                continue
        self.fail(f"no page was made: {follower}")

    def test_audited(self):
        self.open(audit=1.0)
        self.assertEqual(self.page((self.both, 7), (self.named, 7), (self.prices, 7)), [(400, 110, 2), [110, 90], [110, 90]])
        self.write("INSERT INTO bids VALUES (3, 7, 130)")
        self.assertEqual(self.page((self.both, 7), (self.named, 7), max_age=0.0), [(400, 130, 2), [110, 90, 130]])

    def test_a_value_that_is_too_long(self):
        cache = self.open()
        length = cache._make_versions(1).longest + 1
        long = cache.cacheable(lambda db: first(db.cursor().execute("SELECT id FROM bids ORDER BY id")) and b"a" * length)
        for _ in range(2):
            self.assertEqual(len(self.page((long,))[0]), length)


class OfAServer(Case):
    def test_a_holder_that_dies_while_a_query_runs(self):
        """A read counts only if the snapshot's own connection was alive after it: else a TRUNCATE may have come between."""
        cache = self.open(refresh=1000.0)
        slow = cache.cacheable(lambda db, number: db.cursor().execute(f"SELECT count(*), pg_advisory_xact_lock({number}) FROM items").fetchone()[0])
        self.page((self.balance, 0), (slow, 1))
        (pid,), = cache._follower.snapshot(1)._link.ask("SELECT pg_backend_pid()")
        other = self.writer()
        other.ask("BEGIN; SELECT pg_advisory_xact_lock(7)")

        def end():
            until(lambda: self.it.ask("SELECT 1 FROM pg_locks WHERE NOT granted"))
            self.it.ask("SELECT pg_terminate_backend(%s)", (pid,))
            until(lambda: not self.it.ask("SELECT 1 FROM pg_stat_activity WHERE pid = %s", (pid,)))
            other.ask("COMMIT")

        ending = threading.Thread(target=end)
        ending.start()
        with cache.read(60.0):
            self.balance(0)
            self.assertRaises(SnapshotLost, slow, 7)
        ending.join()


class BesideWriters(Case):
    def test_no_page_is_torn(self):
        where = self.server.dsn(self.base) if isinstance(self, OfPostgres) else f"{self.room}/beside.db"
        if isinstance(self, OfPostgres):
            for table in ("items", "bids", "accounts"):
                self.it.ask(f"DROP TABLE {table}")
        beside.prepare(where)
        self.cache = cache = TxCache(beside.store_of(where), hold=60.0, versions=self.versions)
        self.addCleanup(cache.close)
        mark = "%s" if isinstance(self, OfPostgres) else "?"

        @cache.cacheable
        def top(db, item):
            return db.row("items", id=item)["top"]

        @cache.cacheable
        def highest(db, item):
            return db.cursor().execute(f"SELECT max(price) FROM bids WHERE item = {mark}", (item,)).fetchone()[0]

        @cache.cacheable
        def pair(db, item):
            db.reads(("accounts", "pair", item))
            return first(db.cursor().execute(f"SELECT balance FROM accounts WHERE pair = {mark} ORDER BY id", (item,)))

        @cache.cacheable
        def copy(db, item):
            cursor = db.cursor()
            cursor.execute(f"SELECT top, balance FROM copies WHERE id = {mark}", (item,))
            return (*cursor.fetchone(), top(item), int(cursor.execute("SELECT sum(balance) FROM accounts").fetchone()[0]))

        counts = by_hand.counts_beside_writers(
            where, cache, lambda item: [highest(item), pair(item), copy(item), top(item)],
            lambda it: it[0] == it[3] == it[2][0] == it[2][2] and it[1][0] == it[2][1] and sum(it[1]) == 200 and it[2][3] == 200 * beside.ITEMS)
        self.assertEqual((counts["torn"], counts["cold"]), (0, 1), counts)
        self.assertLessEqual(counts["connections"], 4)


def load_tests(loader, tests, pattern):
    suite = unittest.TestSuite(over_each_store(loader, it) for it in (Cursors, BesideWriters))
    suite.addTests(loader.loadTestsFromTestCase(type("OfAServerOfPostgres", (OfPostgres, OfAServer), {"__module__": __name__})))
    return suite


if __name__ == "__main__":
    unittest.main()
