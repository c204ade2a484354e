"""Sessions of SQLAlchemy in a function's snapshot, over both stores."""

import importlib.util
import pickle
import subprocess
import sys
import unittest
from unittest import mock

from txcache import OutsideSnapshot, TxCache

from . import beside, by_hand, skipped
from .cases import Case, OfPostgres, OfSqlite
from .server import server

if not importlib.util.find_spec("sqlalchemy"):
    raise unittest.SkipTest(skipped("SQLAlchemy", "there is no python3-sqlalchemy"))

import sqlalchemy
from sqlalchemy import Column, Integer, func, select, text
from sqlalchemy.orm import Session, declarative_base, foreign, joinedload, relationship, remote, selectinload
from sqlalchemy.orm.exc import DetachedInstanceError

from txcache.sqlalchemy import _Engine, session

Base = declarative_base()


class Bid(Base):
    __tablename__ = "bids"
    id = Column(Integer, primary_key=True)
    item_id = Column("item", Integer)
    price = Column(Integer)
    item = relationship("Item", primaryjoin=lambda: foreign(Bid.item_id) == remote(Item.id), viewonly=True)


class Account(Base):
    __tablename__ = "accounts"
    id = Column(Integer, primary_key=True)
    pair = Column(Integer)
    balance = Column(Integer)


class Item(Base):
    __tablename__ = "items"
    id = Column(Integer, primary_key=True)
    top = Column(Integer)
    bids = relationship(Bid, primaryjoin=lambda: foreign(Bid.item_id) == Item.id, order_by=Bid.id, viewonly=True)
    accounts = relationship(Account, primaryjoin=lambda: foreign(Account.pair) == Item.id, order_by=Account.id, viewonly=True)


def functions(cache):
    """Ten functions over the three classes."""
    found = {}

    def add(body):
        found[body.__name__] = cache.cacheable(body)

    @add
    def item(db, number):
        return session(db).get(Item, number)

    @add
    def top(db, number):
        return session(db).query(Item.top).filter_by(id=number).scalar()

    @add
    def highest(db, number):
        return max(it.price for it in session(db).get(Item, number).bids)  # lazy

    @add
    def eager(db, number):
        return session(db).query(Item).options(joinedload(Item.bids), selectinload(Item.accounts)).filter_by(id=number).one()

    @add
    def bids(db, number):
        return session(db).query(Bid).filter(Bid.item_id == number).order_by(Bid.id).all()

    @add
    def tops_of_bids(db, number):
        return {it.item.top for it in session(db).query(Bid).filter_by(item_id=number)}  # lazy, the other way

    @add
    def balances(db, number):
        return session(db).execute(select(Account.balance).where(Account.pair == number).order_by(Account.id)).scalars().all()

    @add
    def total(db):
        return int(session(db).query(func.sum(Account.balance)).scalar())

    @add
    def named(db, number):
        db.reads(("accounts", "pair", number))
        return [it.balance for it in session(db).query(Account).filter_by(pair=number).order_by(Account.id)]

    @add
    def whole(db, number):
        with session(db) as its:
            it = its.get(Item, number)
            return it.top, sum(account.balance for account in it.accounts), max(bid.price for bid in found["bids"](number)), found["top"](number)

    return found


def shown(its, number):
    eager = its["eager"](number)
    return {"item": its["item"](number).top, "top": its["top"](number), "highest": its["highest"](number), "eager": eager.top, "eager's": max(it.price for it in eager.bids),
            "bids": max(it.price for it in its["bids"](number)), "of bids": max(its["tops_of_bids"](number)), "whole": its["whole"](number)[0],
            "whole's": its["whole"](number)[2], "last": its["whole"](number)[3], "balances": sum(its["balances"](number)), "named": sum(its["named"](number)),
            "accounts": sum(it.balance for it in eager.accounts), "sum": its["whole"](number)[1], "total": its["total"]() // beside.ITEMS}


def is_whole(it):
    sums = ("balances", "named", "accounts", "sum", "total")
    return {it[name] for name in sums} == {200} and len({value for name, value in it.items() if name not in sums}) == 1


class Sessions(Case):
    def setUp(self):
        super().setUp()
        if isinstance(self, OfPostgres):
            self.write("DROP TABLE items", "DROP TABLE bids", "DROP TABLE accounts")
        self.where = self.server.dsn(self.base) if isinstance(self, OfPostgres) else f"{self.room}/beside.db"
        beside.prepare(self.where)
        self.cache = TxCache(beside.store_of(self.where), thread=False, refresh=0.001, hold=60.0)
        self.addCleanup(self.cache.close)
        self.its = functions(self.cache)

    def asks(self, body):
        """Calls a function of this body, once, in a page of its own."""
        self.number = getattr(self, "number", 0) + 1
        body.__qualname__ += str(self.number)
        return self.page((self.cache.cacheable(body),), max_age=0.0)[0]

    def change(self, *texts):
        with beside.asker(self.where) as ask:
            for it in texts:
                ask(it)

    def test_ten_functions(self):
        for expected in (False, True):
            with self.cache.read() as page:
                self.assertTrue(is_whole(shown(self.its, 1)))
            self.assertEqual(not page.receipt.computed, expected)
        self.change("UPDATE bids SET price = 7 WHERE id = 5")
        self.assertEqual(self.page((self.its["highest"], 1), (self.its["bids"], 1), max_age=0.0)[0], 7)
        self.assertEqual(self.page((self.its["named"], 1), (self.its["item"], 1), max_age=0.0)[0], [100, 100])
        self.assertEqual(self.counts(), (2, 0))

    def test_rows_are_detached_and_kept_with_what_was_loaded(self):
        with self.cache.read():
            for _ in range(2):
                found = self.its["eager"](2)
                self.assertEqual(([it.price for it in found.bids], [it.balance for it in found.accounts]), ([0] * 4, [100, 100]))
                self.assertIsNone(sqlalchemy.inspect(found).session)
                self.assertRaises(DetachedInstanceError, lambda: self.its["item"](2).bids)
            self.assertEqual(pickle.loads(pickle.dumps(found)).bids[0].price, 0)

    def test_what_would_leave_the_snapshot(self):
        def leaves(act, is_spent=False):
            def body(db):
                its = session(db)
                before = its.get(Item, 1).top
                self.change("UPDATE items SET top = top + 1 WHERE id = 1")
                with self.assertRaisesRegex(OutsideSnapshot, "body.*write outside of it, by a connection of your own"):
                    act(its)
                self.assertEqual(session(db).query(Item.top).filter_by(id=1).scalar(), before)
                if not is_spent:
                    its.expunge_all()
                    self.assertEqual(its.get(Item, 1).top, before)
            return body

        def adds(its):
            its.add(Bid(id=99, item_id=1, price=1))
            its.flush()

        def changes(its):
            its.get(Item, 1).top = 77
            its.query(Bid).all()  # flushes

        for act in (lambda it: it.commit(), lambda it: it.rollback(), lambda it: it.begin_nested(), adds, changes,
                    lambda it: it.execute(text("COMMIT")), lambda it: it.execute(text("DELETE FROM bids")), lambda it: it.query(Bid).delete(),
                    lambda it: it.connection().connection.set_isolation_level(1),
                    lambda it: it.connection().connection.commit()):
            self.asks(leaves(act))
        # after these SQLAlchemy has the session go on no further
        for act in (lambda it: it.connection().get_transaction().commit(), lambda it: it.connection().get_transaction().rollback(),
                    lambda it: it.bulk_insert_mappings(Bid, [{"id": 98, "item_id": 1, "price": 1}] * 2)):
            self.asks(leaves(act, is_spent=True))
        self.assertEqual(self.page((self.its["bids"], 1), max_age=0.0)[0][-1].id, 7)

    def test_it_ends_with_its_function(self):
        kept = []

        @self.cache.cacheable
        def keeps(db):
            its = session(db)
            kept[:] = its, db, its.get(Item, 1)

        with self.cache.read():
            keeps()
            self.assertIsNone(sqlalchemy.inspect(kept[2]).session)
            self.assertRaises(DetachedInstanceError, lambda: kept[2].bids)
            for act in (lambda: kept[0].get(Item, 2), lambda: kept[0].query(Item).all(), lambda: kept[0].execute(select(Item)), kept[0].commit, lambda: session(kept[1])):
                self.assertRaisesRegex(OutsideSnapshot, "is used after .*keeps has returned: ask for another in each function", act)
        self.assertRaisesRegex(OutsideSnapshot, r"outside of session\(db\)", Session(bind=kept[0].bind.engine).get, Item, 1)

    def test_audited(self):
        self.cache.audit = 1.0
        for number in (1, 2, 1):
            with self.cache.read():
                self.assertTrue(is_whole(shown(self.its, number)))
            self.change("UPDATE items SET top = 0 WHERE id = 1")

    def test_no_page_is_torn_beside_writers(self):
        counts = by_hand.counts_beside_writers(self.where, self.cache, lambda number: shown(self.its, number), is_whole)
        self.assertEqual((counts["torn"], counts["cold"]), (0, 1), counts)
        self.assertLessEqual(counts["connections"], 4)


class OverAFile(OfSqlite, Sessions):
    pass


class OverAServer(OfPostgres, Sessions):
    def make(self):
        server()
        if not importlib.util.find_spec("psycopg2") and sqlalchemy.__version__ < "2":
            self.skipTest(skipped("psycopg2", "SQLAlchemy 1.4 has no other driver"))
        super().make()

    def test_types_of_the_server(self):
        """The driver does for SQLAlchemy's types as it asks on the connections that join snapshots, and on no others."""
        self.change("CREATE TABLE things (id uuid PRIMARY KEY, said jsonb, raw bytea, made timestamptz, words text[])",
                    "INSERT INTO things VALUES ('00000000-0000-0000-0000-000000000007', '{\"a\": [1]}', '\\x0102', '2026-01-02 03:04:05+00', '{a,b}')")
        from sqlalchemy.dialects.postgresql import ARRAY, BYTEA, JSONB, TIMESTAMP, UUID

        from txcache.postgres import PostgresStore

        things = sqlalchemy.Table("things", sqlalchemy.MetaData(), Column("id", UUID(as_uuid=True)), Column("said", JSONB), Column("raw", BYTEA), Column("made", TIMESTAMP(timezone=True)),
                                  Column("words", ARRAY(sqlalchemy.Text)))
        store = PostgresStore(self.where, {"things": ["id"]})
        store.install()
        cache = TxCache(store, connections=1)
        self.addCleanup(cache.close)

        @cache.cacheable
        def found(db, again):
            return tuple(session(db).execute(select(things)).one())

        @cache.cacheable
        def own(db, again):
            return repr(db.rows("things"))

        with cache.read(), sqlalchemy.create_engine("postgresql+psycopg2://", creator=lambda: __import__("psycopg2").connect(self.where)).connect() as link:
            first, opening = own(0), mock.patch.object(_Engine, "connect", autospec=True, side_effect=_Engine.connect)
            opened = opening.start()
            self.addCleanup(opening.stop)
            self.assertEqual((found(0), found(1), own(1)), (*[tuple(link.execute(select(things)).one())] * 2, first))
            self.assertEqual((cache.stats()["connections"], opened.call_count), (1, 1))


class Missing(unittest.TestCase):
    def test_without_sqlalchemy(self):
        ran = subprocess.run([sys.executable, "-c", "import sys; sys.modules['sqlalchemy'] = None; import txcache.sqlalchemy"], stderr=subprocess.PIPE, text=True)
        self.assertIn("ImportError: txcache.sqlalchemy needs SQLAlchemy 1.4 or later: apt-get install python3-sqlalchemy, or pip install 'txcache[sqlalchemy]'", ran.stderr)


del Sessions, Case  # they run over a store alone

if __name__ == "__main__":
    unittest.main()
