"""Cases of a cache over both stores."""

import logging
import shutil
import sqlite3
import tempfile
import unittest

from txcache import _driver
from txcache._fast import FASTEST
from txcache._versions import Versions
from txcache.cache import TxCache
from txcache.sqlite import SqliteStore

from . import model
from .server import server

TOLD = {"items": ["id", "seller"], "bids": ["id", "item"], "accounts": ["id", "pair"]}
TABLES = ["CREATE TABLE items (id INTEGER PRIMARY KEY, seller INTEGER, top INTEGER)", "CREATE TABLE bids (id INTEGER PRIMARY KEY, item INTEGER, price INTEGER)",
          "CREATE TABLE accounts (id INTEGER PRIMARY KEY, pair INTEGER, balance INTEGER)",
          "INSERT INTO items VALUES (7, 1, 110), (8, 1, 0)", "INSERT INTO bids VALUES (1, 7, 110), (2, 7, 90)",
          "INSERT INTO accounts VALUES (0, 0, 100), (1, 0, 100), (2, 1, 100), (3, 1, 100)"]


class OfSqlite:
    """A database of SQLite for each test."""

    def make(self):
        self.room = tempfile.mkdtemp(prefix="txcache-cache-")
        self.addCleanup(shutil.rmtree, self.room)
        self.it = self.writer()
        for text in TABLES:
            self.it.execute(text)
        self.new_store().install()

    def new_store(self, told=None):
        return SqliteStore(f"{self.room}/a.db", told or TOLD)

    def writer(self):
        link = sqlite3.connect(f"{self.room}/a.db", isolation_level=None, timeout=20, check_same_thread=False)
        self.addCleanup(link.close)
        return link

    def write(self, *texts, link=None):
        link = link or self.it
        link.execute("BEGIN IMMEDIATE")
        for text in texts:
            link.execute(text)
        link.execute("COMMIT")

    def cursor(self):
        return self.it.cursor()


class OfPostgres:
    """A database of PostgreSQL for each test."""

    number = 0

    def make(self):
        OfPostgres.number += 1
        self.server, self.base = server(), f"c{OfPostgres.number}"
        top = _driver.Link(self.server.dsn("postgres"))
        top.ask(f"CREATE DATABASE {self.base}")
        top.close()
        self.it = self.writer()
        for text in TABLES:
            self.it.ask(text)
        self.new_store().install()

    def new_store(self, told=None):
        from txcache.postgres import PostgresStore

        return PostgresStore(self.server.dsn(self.base), told or TOLD, lock_timeout=0.3)

    def writer(self):
        link = _driver.Link(self.server.dsn(self.base))
        self.addCleanup(link.close)
        return link

    def write(self, *texts, link=None):
        (link or self.it).ask(f"BEGIN; {'; '.join(texts)}; COMMIT")

    def cursor(self):
        return self.it._connection.cursor()


class Case(unittest.TestCase):
    versions = FASTEST

    def setUp(self):
        logging.getLogger("txcache").setLevel(logging.CRITICAL)
        self.addCleanup(logging.getLogger("txcache").setLevel, logging.NOTSET)
        self.make()

    def open(self, **more):
        words = {"thread": False, "refresh": 0.001, "versions": self.versions, **more}
        self.cache = TxCache(self.new_store(words.pop("told", None)), **words)
        self.addCleanup(self.cache.close)
        self.functions(self.cache)
        return self.cache

    def functions(self, cache):
        @cache.cacheable
        def bids(db, item):
            return [row["price"] for row in db.rows("bids", item=item)]

        @cache.cacheable
        def highest(db, item):
            return max(bids(item), default=None)

        @cache.cacheable
        def balance(db, number):
            return db.row("accounts", id=number)["balance"]

        @cache.cacheable
        def pair(db, number):
            return sum(row["balance"] for row in db.rows("accounts", pair=number))

        @cache.cacheable
        def total(db):
            return int(db.sql("SELECT sum(balance) AS it FROM accounts")[0]["it"])

        self.bids, self.highest, self.balance, self.pair, self.total = bids, highest, balance, pair, total

    def page(self, *calls, max_age=60.0, **more):
        with self.cache.read(max_age, **more) as self.last:
            return [function(*args) for function, *args in calls]

    def counts(self):
        return self.last.receipt.hits, self.last.receipt.computed


def over_each_store(loader, case):
    """Returns a case's tests over each store: with the site of the library, and with a plain model of it. Over SQLite also with no extension of C."""
    suite = unittest.TestSuite()
    kinds = [(store, *it) for store in (OfSqlite, OfPostgres) for it in (("", FASTEST), ("OverAModel", model.Versions))]
    if FASTEST is not Versions:
        kinds.append((OfSqlite, "ByCtypes", Versions))
    for store, name, versions in kinds:
        made = type(f"{case.__name__}{store.__name__}{name}", (store, case), {"__module__": case.__module__, "versions": versions})
        suite.addTests(loader.loadTestsFromTestCase(made))
    return suite
