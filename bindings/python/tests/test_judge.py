"""A judge: random histories of a database, with pages of a cache beside it. Each answer is compared with what its function gives over the rows of the
snapshot that the page's receipt names, as they were when that snapshot was taken; and what a page of no age was shown, with the rows of now."""

import contextlib
import os
import random
import sqlite3
import unittest

from txcache._layout import Read
from txcache._fast import FASTEST
from txcache.cache import TxCache
from txcache.errors import SnapshotLost

from . import model
from .cases import OfPostgres, OfSqlite
from .cases import Case as CacheCase

HISTORIES = int(os.environ.get("TXC_HISTORIES", 0))  # of each store; by default those for which `make test` has time
ACTS = 16  # of one history
TABLES = "items", "bids", "accounts"
SUM, MOST = "SELECT sum(balance) AS it FROM accounts", "SELECT max(price) AS it FROM bids WHERE price > -1000"
FEW = range(7, 10), range(1, 6), range(4)  # the ids of rows of each table


def functions(cacheable):
    """The functions of pages, by their names."""

    @cacheable
    def bids(db, item):
        return [row["price"] for row in db.rows("bids", item=item)]

    @cacheable
    def highest(db, item):
        return max(bids(item), default=None)

    @cacheable
    def item(db, number):
        return db.row("items", id=number)

    @cacheable
    def sold_by(db, seller):
        return [(row["id"], highest(row["id"])) for row in db.rows("items", seller=seller)]

    @cacheable
    def balance(db, number):
        return db.row("accounts", id=number)["balance"]

    @cacheable
    def total(db):
        return int(db.sql(SUM)[0]["it"])

    @cacheable
    def most(db):
        return db.sql(MOST, tags=["bids"])[0]["it"]

    @cacheable
    def either(db, number):
        """Reads by the result of an earlier read."""
        return sum(row["balance"] for row in db.rows("accounts", pair=number % 2)) if balance(number) > 100 else total()

    @cacheable
    def fails(db, number):
        return 100 // (balance(number) - 100)

    @cacheable
    def all_of(db, seller):
        return sold_by(seller), total(), either(1), len(db.rows("bids"))

    return {name: it for name, it in locals().items() if name != "cacheable"}


CALLS = [("bids", FEW[0]), ("highest", FEW[0]), ("item", FEW[0]), ("sold_by", (1, 2, None)), ("balance", range(5)), ("total", ()), ("most", ()), ("either", FEW[2]),
         ("fails", FEW[2]), ("all_of", (1, None))]


class OverRows:
    """The `db` of a function, over all rows of a database, by their tables."""

    def __init__(self, tables):
        self._tables = tables

    def row(self, table, **columns):
        return next(iter(self.rows(table, **columns)), None)

    def rows(self, table, **columns):
        return [row for row in self._tables[table] if all(row[name] == value for name, value in columns.items())]

    def sql(self, query, args=(), tags=None):
        if query == SUM:
            return [{"it": sum(row["balance"] for row in self._tables["accounts"])}]
        return [{"it": max((row["price"] for row in self._tables["bids"]), default=None)}]


def outcome(function, *args):
    """Returns the value of a call, or the type of its error."""
    try:
        return function(*args)
    except (ZeroDivisionError, TypeError) as error:
        return type(error)


def statements(rand):
    """Some changes of rows."""
    item, bid, account = (rand.choice(it) for it in FEW)
    some = [f"UPDATE accounts SET balance = balance + {rand.randrange(-1, 2)} WHERE id = {account}", f"UPDATE accounts SET pair = {rand.randrange(2)} WHERE id = {account}",
            f"INSERT INTO bids (id, item, price) VALUES ({bid}, {item}, {rand.randrange(200)}) ON CONFLICT (id) DO UPDATE SET item = excluded.item, price = excluded.price",
            f"DELETE FROM bids WHERE id = {bid}", f"UPDATE items SET seller = {rand.choice(('1', '2', 'NULL'))} WHERE id = {item}", f"DELETE FROM items WHERE id = {item}",
            f"INSERT INTO items (id, seller, top) VALUES ({item}, {rand.choice(('1', '2', 'NULL'))}, 0) ON CONFLICT (id) DO UPDATE SET top = items.top + 1",
            f"UPDATE bids SET id = {rand.choice(FEW[1])} WHERE id = {bid}"]
    changes = [rand.choice(some) for _ in range(rand.randrange(1, 3))]
    if rand.random() < 0.2:
        return ["SAVEPOINT a", *changes, rand.choice(("ROLLBACK TO a", "RELEASE a"))]
    return changes


class Writer:
    """A connection whose transactions stay open over several acts."""

    begins = "BEGIN IMMEDIATE"

    def __init__(self, ask, errors, prepares):
        self.ask, self._errors, self._prepares, self.left = ask, errors, prepares, 0

    def step(self, rand):
        """Goes on for a step, and returns True if a transaction may have been committed by it."""
        try:
            if not self.left:
                self.ask(self.begins if not self._prepares else f"BEGIN ISOLATION LEVEL {rand.choice(('READ COMMITTED', 'REPEATABLE READ', 'SERIALIZABLE'))}; SET LOCAL lock_timeout = '5ms'")
                self.left = rand.randrange(1, 4)
            for text in statements(rand):
                self.ask(text)
            self.left -= 1
            return not self.left and self._end(rand)
        except self._errors:
            self.ask("ROLLBACK")
            self.left = 0
            return False

    def _end(self, rand):
        if self._prepares and rand.random() < 0.2:
            self.ask(f"PREPARE TRANSACTION '{self._prepares}'")
            self.ask(f"{rand.choice(('COMMIT', 'ROLLBACK'))} PREPARED '{self._prepares}'")
        else:
            self.ask(rand.choice(("COMMIT", "COMMIT", "ROLLBACK")))
        return True

    def finish(self):
        if self.left:
            self.left = 0
            try:
                self.ask("COMMIT")
            except self._errors:
                pass


class SqliteActs(OfSqlite):
    def writers(self):
        return [Writer(self.it.execute, sqlite3.Error, "")]

    def now(self):
        link = self.reading = vars(self).get("reading") or self.writer()
        return {it: [dict(zip([column[0] for column in found.description], row)) for row in found] for it in TABLES for found in [link.execute(f"SELECT * FROM {it} ORDER BY id")]}

    def lose_connections(self):
        for it in self.cache._follower._held:
            it.snapshot.close()
        self.cache.store.close()

    def change_the_schema(self, rand):
        self.it.execute(rand.choice(("ALTER TABLE items ADD COLUMN more INTEGER DEFAULT 3", "ALTER TABLE items DROP COLUMN more", "VACUUM", "CREATE INDEX IF NOT EXISTS i ON bids (item)",
                                     "DROP INDEX IF EXISTS i")))

    def change_unseen(self, rand):
        self.it.execute("DROP TRIGGER txcache_accounts_update")
        self.it.execute(f"UPDATE accounts SET balance = {rand.randrange(90, 110)} WHERE id = 0")
        self.cache.store.install()


class PostgresActs(OfPostgres):
    def writers(self):
        return [Writer(link.ask, link.driver.Error, f"{self.base}_{at}") for at, link in enumerate(self.links)]

    def make(self):
        super().make()
        self.links = [self.writer() for _ in range(3)]
        self.own = [it.ask("SELECT pg_backend_pid()")[0][0] for it in (*self.links, self.it)]

    def now(self):
        found = {}
        for it in TABLES:
            names, rows = self.it.named(f"SELECT * FROM {it} ORDER BY id")
            found[it] = [dict(zip(names, row)) for row in rows]
        return found

    def lose_connections(self):
        self.it.ask("SELECT pg_terminate_backend(pid) FROM pg_stat_activity WHERE datname = current_database() AND pid <> ALL (%s)", (self.own,))

    def change_the_schema(self, rand):
        self.it.ask(rand.choice(("ALTER TABLE items ADD COLUMN more int DEFAULT 3", "ALTER TABLE items DROP COLUMN more", "VACUUM FULL bids",
                                 "BEGIN; TRUNCATE bids; INSERT INTO bids VALUES (1, 7, 5); COMMIT", "CREATE OR REPLACE VIEW v AS SELECT 1 AS it", "VACUUM accounts")))

    def change_unseen(self, rand):
        self.it.ask("ALTER TABLE accounts DISABLE TRIGGER USER")
        self.it.ask(f"UPDATE accounts SET balance = {rand.randrange(90, 110)} WHERE id = 0")
        self.cache.store.install()


class Judge(unittest.TestCase):
    """A cache for each history, and one database for all."""

    versions, histories, begin = FASTEST, 1, CacheCase.setUp

    def setUp(self):
        self.begin()
        self.counts = {"pages": 0, "lost": 0, "judged": 0, "hits": 0, "computed": 0, "cold": 0}

    def test_random_histories(self):
        for seed in range(self.histories):
            with self.subTest(seed=seed):
                self.history(random.Random(seed))
        self.counts["errors"] = self.errors
        self.assertGreater(self.counts["judged"], self.counts["pages"] // 2, self.counts)
        self.assertGreater(self.counts["hits"], self.counts["pages"] // 4, self.counts)
        self.assertGreater(self.counts["pages"], 4 * self.histories, self.counts)

    errors = 0

    def history(self, rand):
        self.rand, self.seen, self.at_work = rand, {}, self.writers()
        self.cache = TxCache(self.new_store(), thread=False, refresh=rand.choice((1e-6, 1e-6, 1000.0)), hold=rand.choice((0.05, 1000.0, 1000.0)),
                             capacity=rand.choice((3, 65_536, 65_536)), connections=rand.choice((1, 2)), versions=self.versions)
        self.functions = functions(self.cache.cacheable)
        self.cache._open()
        self.look_closely()
        try:
            for _ in range(ACTS):
                self.act()
        finally:
            for it in self.at_work:
                it.finish()
            self.count()
            self.cache.close()

    def count(self):
        stats = self.cache.stats()
        for name in ("hits", "computed", "cold"):
            self.counts[name] += stats[name]

    def look_closely(self):
        """Has all rows of each snapshot be read as it is taken: those of one number are the same."""
        store_look, look = self.cache.store.look, self.cache._follower.look

        def look_and_read(*words, **named):
            found = store_look(*words, **named)
            self.newest = found.snapshot and {it: found.snapshot.rows(Read(f"SELECT * FROM {it} ORDER BY id", (), (it,))) for it in TABLES}
            return found

        def look_and_compare():
            step = look()
            if self.newest is not None:
                self.assertEqual(self.seen.setdefault(step.number, self.newest), self.newest)
            return step

        self.cache.store.look, self.cache._follower.look = look_and_read, look_and_compare

    def act(self):
        at = self.rand.random()
        if at < 0.52:
            self.page()
        elif at < 0.60:
            self.page_after()
        elif at < 0.96:
            self.disturb()
        else:
            for it in self.at_work:
                it.finish()
            self.cache._follower.let_go()
            self.change()

    def change(self):
        at = self.rand.random()
        if at < 0.4:
            with contextlib.suppress(sqlite3.Error, getattr(getattr(self.it, "driver", sqlite3), "Error")):
                self.change_the_schema(self.rand)
        elif at < 0.6:
            self.change_unseen(self.rand)
        else:
            self.cache.store.purge(0.0)

    def disturb(self):
        """Does what may happen at any time, also while a page is open."""
        at = self.rand.random()
        if at < 0.7:
            self.rand.choice(self.at_work).step(self.rand)
        elif at < 0.85:
            self.cache._look_again()
        elif at < 0.9:
            self.cache._follower.let_go()
        elif at < 0.94:
            self.lose_connections()
        elif at < 0.97:
            self.rand.choice(list(self.functions.values())).cache_clear()
        else:
            self.cache.clear()

    def page(self, **more):
        max_age, is_calm = self.rand.choice((0.0, 0.001, 1000.0, 1000.0)), self.rand.random() < 0.6
        now = self.now() if max_age == 0.0 and is_calm else None
        self.counts["pages"] += 1
        shown = []
        try:
            with self.cache.read(max_age, **more) as page:
                for _ in range(self.rand.randrange(1, 5)):
                    name, args = self.rand.choice(CALLS)
                    args = (self.rand.choice(args),) if args else ()
                    shown.append((name, args, outcome(self.functions[name], *args)))
                    if not is_calm:
                        self.disturb()
        except SnapshotLost:
            self.counts["lost"] += 1
            return None
        return self.judge(page.receipt, shown, now)

    def judge(self, receipt, shown, now):
        if receipt.snapshot is None:
            return None
        self.counts["judged"] += 1
        rows = self.seen[receipt.snapshot]
        alone = functions(lambda body: lambda *args: body(OverRows(rows), *args))
        self.assertEqual([(name, args, outcome(alone[name], *args)) for name, args, _ in shown], shown)
        if now is not None:
            self.assertEqual(rows, now)
        return rows

    def page_after(self):
        """A page sees what a transaction wrote, by its token."""
        for it in self.at_work:
            it.finish()
        cursor, number = self.cursor(), self.rand.randrange(1000, 10**6)
        cursor.execute("BEGIN")
        cursor.execute(f"INSERT INTO items (id, seller, top) VALUES ({number}, NULL, 0)")
        token = self.cache.store.token(cursor)
        cursor.execute("COMMIT")
        rows = self.page(after=token)
        if rows is not None:
            self.assertIn(number, [row["id"] for row in rows["items"]])
        for it in self.at_work:
            it.finish()
        self.write(f"DELETE FROM items WHERE id = {number}")


def load_tests(loader, tests, pattern):
    suite = unittest.TestSuite()
    for store, few in ((SqliteActs, 300), (PostgresActs, 50)):
        count = HISTORIES or few
        for name, versions, histories in (("", FASTEST, count), ("OverAModel", model.Versions, count // 10)):
            made = type(f"Judge{store.__name__}{name}", (store, Judge), {"__module__": __name__, "versions": versions, "histories": histories})
            suite.addTests(loader.loadTestsFromTestCase(made))
    return suite


if __name__ == "__main__":
    unittest.main()
