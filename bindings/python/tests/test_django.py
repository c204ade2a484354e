"""A Django alias that reads in a function's snapshot, over both stores."""

import importlib.util
import io
import subprocess
import sys
import threading
import time
import unittest

from txcache import OutsideSnapshot, TxCache

from . import beside, by_hand, skipped
from .cases import Case, OfPostgres, OfSqlite
from .server import server

if not importlib.util.find_spec("django"):
    raise unittest.SkipTest(skipped("Django", "there is no python3-django"))

import django
from django.conf import settings
from django.core.exceptions import ImproperlyConfigured

if not settings.configured:
    settings.configure(DATABASES={"default": {"ENGINE": "django.db.backends.sqlite3", "NAME": "none"},
                                  "txcache": {"ENGINE": "txcache.django", "OF": "default", "OPTIONS": {"hold": 60.0}}}, USE_TZ=True,
                       INSTALLED_APPS=["txcache.django"], DATABASE_ROUTERS=["txcache.django.Router"], TXCACHE_TABLES=beside.TOLD, DEFAULT_AUTO_FIELD="django.db.models.AutoField")
    django.setup()

import django.test.utils
from django.core.management import CommandError, call_command
from django.core.signals import request_finished, request_started
from django.db import connections, models, transaction
from django.db.models import Count, Max, Sum
from django.db.models.functions import TruncDay
from django.db.utils import OperationalError

from txcache.django import Router, _cache


class Item(models.Model):
    top = models.IntegerField()

    class Meta:
        app_label, db_table, managed = "txcache", "items", False


class Bid(models.Model):
    item = models.ForeignKey(Item, models.CASCADE, db_column="item", related_name="bids")
    price = models.IntegerField()

    class Meta:
        app_label, db_table, managed = "txcache", "bids", False


class Account(models.Model):
    pair = models.ForeignKey(Item, models.CASCADE, db_column="pair", related_name="accounts")
    balance = models.IntegerField()

    class Meta:
        app_label, db_table, managed = "txcache", "accounts", False


class Thing(models.Model):
    made, day = models.DateTimeField(), models.DateField()
    amount, said, raw, is_new = models.DecimalField(max_digits=8, decimal_places=2), models.JSONField(), models.BinaryField(), models.BooleanField()

    class Meta:
        app_label, db_table, managed = "txcache", "things", False


def its(model):
    return model.objects.using("txcache")


def functions(cache):
    """Ten functions over the three models."""
    found = {}

    def add(body):
        found[body.__name__] = cache.cacheable(body)

    @add
    def item(db, number):
        return its(Item).get(pk=number)

    @add
    def highest(db, number):
        return its(Bid).filter(item=number).aggregate(it=Max("price"))["it"]

    @add
    def bids(db, number):
        return its(Bid).filter(item=number).order_by("pk")  # evaluated as it is kept

    @add
    def eager(db, number):
        return its(Item).prefetch_related("bids", "accounts").get(pk=number)

    @add
    def tops_of_bids(db, number):
        return {it.item.top for it in its(Bid).filter(item=number)}  # lazy

    @add
    def joined(db, number):
        return list(its(Bid).select_related("item").filter(item=number))

    @add
    def balances(db, number):
        return list(its(Item).get(pk=number).accounts.values_list("balance", flat=True).iterator())

    @add
    def total(db):
        with connections["txcache"].cursor() as cursor:
            cursor.execute("SELECT sum(balance) FROM accounts WHERE id >= %s", [0])
            return int(cursor.fetchone()[0])

    @add
    def named(db, number):
        db.reads(("accounts", "pair", number))
        return its(Account).filter(pair=number).aggregate(it=Sum("balance"))["it"]

    @add
    def whole(db, number):
        row = its(Item).annotate(count=Count("bids")).get(pk=number)
        return row.top, row.count, max(it.price for it in found["bids"](number)), sum(it.balance for it in row.accounts.all())

    return found


def shown(its, number):
    eager, joined, whole = its["eager"](number), its["joined"](number), its["whole"](number)
    return {"item": its["item"](number).top, "highest": its["highest"](number), "bids": max(it.price for it in its["bids"](number)), "eager": eager.top,
            "eager's": max(it.price for it in eager.bids.all()), "of bids": max(its["tops_of_bids"](number)), "joined": joined[0].item.top, "joined's": max(it.price for it in joined),
            "whole": whole[0], "whole's": whole[2], "sums": {sum(its["balances"](number)), its["named"](number), whole[3], sum(it.balance for it in eager.accounts.all()),
                                                             its["total"]() // beside.ITEMS}}


def is_whole(it):
    return it["sums"] == {200} and len({value for name, value in it.items() if name != "sums"}) == 1


class Aliases(Case):
    def setUp(self):
        super().setUp()
        self.where = self.server.dsn(self.base) if isinstance(self, OfPostgres) else f"{self.room}/beside.db"
        if isinstance(self, OfPostgres):
            self.write("DROP TABLE items", "DROP TABLE bids", "DROP TABLE accounts")
        with beside.asker(self.where) as ask:
            for it in beside.TABLES:
                ask(it)
        self.addCleanup(self.forget)
        self.forget()
        connections.databases["default"].clear()
        connections.databases["default"].update(self.settings())
        self.said = io.StringIO()
        call_command("txcache", "install", stdout=self.said)
        self.cache = _cache.the_cache()
        self.addCleanup(self.cache.close)
        self.its = functions(self.cache)

    @staticmethod
    def forget():
        """Has the next connection be of the settings as they are then."""
        _cache._made = None
        for alias in ("default", "txcache"):
            if hasattr(connections._connections, alias):
                connections[alias].close()
                del connections[alias]

    def asks(self, body):
        """Calls a function of this body, once, in a page of its own."""
        self.number = getattr(self, "number", 0) + 1
        body.__qualname__ += str(self.number)
        return self.page((self.cache.cacheable(body),), max_age=0.0)[0]

    def change(self, *texts):
        with beside.asker(self.where) as ask:
            for it in texts:
                ask(it)

    def test_ten_functions(self):
        for expected in (False, True):
            with self.cache.read() as page:
                self.assertTrue(is_whole(shown(self.its, 1)))
            self.assertEqual(not page.receipt.computed, expected)
        self.change("UPDATE bids SET price = 7 WHERE id = 5")
        self.assertEqual(self.page((self.its["highest"], 1), (self.its["bids"], 1), max_age=0.0)[0], 7)
        self.assertEqual(self.page((self.its["named"], 1), (self.its["item"], 1), max_age=0.0)[0], 200)
        self.assertEqual(self.counts(), (2, 0))

    def test_what_would_leave_the_snapshot(self):
        def leaves(act):
            def body(db):
                before = its(Item).get(pk=1).top
                self.change("UPDATE items SET top = top + 1 WHERE id = 1")
                with self.assertRaisesRegex(OutsideSnapshot, "write outside of it, by a connection of your own|read it again by .using"):
                    act()
                self.assertEqual((its(Item).get(pk=1).top, its(Item).filter(pk=1).values_list("top", flat=True)[0]), (before, before))
            return body

        def atomic():
            with transaction.atomic(using="txcache"):
                self.fail("an atomic block was entered")

        def executes(text):
            with connections["txcache"].cursor() as cursor:
                cursor.execute(text)

        link = connections["txcache"]
        for act in (atomic, lambda: transaction.set_autocommit(False, using="txcache"), lambda: link.commit(), lambda: link.rollback(), lambda: link.savepoint(),
                    lambda: setattr(link.connection, "autocommit", False), lambda: link.connection.commit(), lambda: executes("COMMIT"), lambda: executes("DELETE FROM bids"),
                    lambda: its(Bid).create(pk=99, item_id=1, price=1), lambda: its(Bid).filter(item=1).delete(), lambda: its(Bid).update(price=1),
                    lambda: its(Bid).bulk_create([Bid(pk=98, item_id=1, price=1)]), lambda: Item(pk=1, top=5).save(using="txcache"), lambda: its(Item).get(pk=1).save(),
                    lambda: its(Item).get(pk=1).delete()):
            self.asks(leaves(act))
        self.assertEqual(Bid.objects.filter(item=1).order_by("-pk")[0].pk, 7)

    def test_outside_of_a_function(self):
        other = TxCache(beside.store_of(self.where))
        self.addCleanup(other.close)
        said = r'the alias "txcache" is used outside of a cacheable function: call a function of txcache.django.cache in a page, or read by .using\("default"\)'
        kept = []

        @self.cache.cacheable
        def keeps(db):
            kept[:] = its(Item).all(), its(Bid).iterator(), connections["txcache"].cursor()
            kept[2].execute("SELECT 1 FROM bids")

        strange = other.cacheable(lambda db: its(Item).count())
        with self.cache.read():
            keeps()
            bid = self.its["bids"](1)[0]
            for act in (lambda: its(Item).count(), lambda: list(kept[0]), lambda: bid.item, lambda: connections["txcache"].cursor(), lambda: Item.objects.using("txcache").create(top=1),
                        lambda: list(kept[1])):
                self.assertRaisesRegex(OutsideSnapshot, said, act)
            self.assertRaisesRegex(OutsideSnapshot, "is used after .* has returned: ask for another in each function", kept[2].execute, "SELECT 1")
        with other.read():
            self.assertRaisesRegex(OutsideSnapshot, "which is of another cache: call a function of txcache.django.cache", strange)
        self.assertRaisesRegex(OutsideSnapshot, said, its(Item).count)
        self.assertEqual(Item.objects.count(), beside.ITEMS)

    def test_it_is_of_the_thread_of_its_function(self):
        """A snapshot that a function reads is no other thread's, though the alias is."""
        said = []

        def reads():
            try:
                its(Item).count()
            except OutsideSnapshot as error:
                said.append(str(error))

        def body(db):
            other = threading.Thread(target=reads)
            other.start()
            other.join()
            return its(Item).count()

        self.assertEqual(self.asks(body), beside.ITEMS)
        self.assertIn("used outside of a cacheable function", said[0])

    def test_the_router(self):
        with self.cache.read():
            item = self.its["item"](1)
        self.assertRaisesRegex(OutsideSnapshot, "a row of Item was read by the alias 'txcache', and may be old: read it again by .using\\('default'\\)", item.save)
        self.assertRaisesRegex(OutsideSnapshot, "or give its key alone", lambda: Bid(item=item, price=1))
        Bid(pk=77, item_id=item.pk, price=3).save()
        self.assertEqual(Bid.objects.get(pk=77).item, Item.objects.get(pk=1))
        self.assertEqual((Router().allow_migrate("txcache", "auth"), Router().allow_migrate("default", "auth")), (False, None))
        with self.assertRaisesRegex(OutsideSnapshot, "only reads, and has no migrations: migrate --database default"):
            connections["txcache"].schema_editor()

    def test_the_command(self):
        self.assertEqual(self.said.getvalue().splitlines(), [f"{it}: installed" for it in beside.TOLD])
        said = io.StringIO()
        for words in (["check"], ["install"], ["purge"]):
            call_command("txcache", *words, stdout=said)
        self.assertEqual(said.getvalue().splitlines(), ["all triggers stand", *[f"{it}: stands" for it in beside.TOLD], "0 notes deleted"])
        call_command("txcache", "uninstall", stdout=said)
        self.assertRaisesRegex(CommandError, "not there", call_command, "txcache", "check")

    def test_requests_and_settings(self):
        connections["txcache"]  # a wrapper of this thread
        request_started.send(None)
        request_finished.send(None)
        with self.cache.read():
            self.its["item"](1)
        request_finished.send(None)
        self.assertEqual(connections["txcache"].settings_dict["TEST"]["MIRROR"], "default")
        self.assertEqual(django.test.utils.get_unique_databases_and_mirrors()[1], {"txcache": "default"})
        for of in (None, "none", "txcache"):
            connections.databases["txcache"]["OF"] = of
            self.assertRaisesRegex(ImproperlyConfigured, f'DATABASES\\["txcache"\\]\\["OF"\\] is {of!r}, and is the alias of a database', _cache.of_alias, "txcache")
        connections.databases["txcache"]["OF"] = "default"

    def test_types(self):
        """The alias returns the same as Django's own."""
        is_file = not isinstance(self, OfPostgres)
        types = "datetime, day date, amount decimal, said text, raw blob, is_new bool" if is_file else "timestamptz, day date, amount numeric(8, 2), said jsonb, raw bytea, is_new boolean"
        self.change(f"CREATE TABLE things (id integer PRIMARY KEY, made {types})")
        self.cache.close()
        self.forget()
        settings.TXCACHE_TABLES = {**beside.TOLD, "things": ["id"]}
        self.addCleanup(setattr, settings, "TXCACHE_TABLES", beside.TOLD)
        call_command("txcache", "install", stdout=self.said)
        self.cache = _cache.the_cache()
        self.addCleanup(self.cache.close)
        made = django.utils.timezone.now()
        Thing.objects.create(pk=1, made=made, day=made.date(), amount="1.50", said={"a": [1, "%s"]}, raw=b"\x00\x01", is_new=True)

        def query(alias):
            rows = Thing.objects.using(alias).annotate(trunc=TruncDay("made")).filter(made__date=made.date(), said__a__0=1, is_new=True)
            return [(*row[:5], bytes(row[5]), *row[6:]) for row in rows.values_list("id", "made", "day", "amount", "said", "raw", "is_new", "trunc")]

        self.assertEqual(self.asks(lambda db: query("txcache")), query("default"))
        self.assertEqual(self.asks(lambda db: its(Thing).get()).made, Thing.objects.get().made)

    def test_with_debug(self):
        with django.test.utils.override_settings(DEBUG=True):
            self.assertEqual(self.asks(lambda db: its(Item).filter(pk=1).count()), 1)
            self.assertIn("COUNT", connections["txcache"].queries[-1]["sql"])
            self.assertRaises(django.db.DatabaseError, self.asks, lambda db: its(Item).extra(where=["none = 1"]).count())

    def test_failures_and_audit(self):
        self.assertRaises(OperationalError if not isinstance(self, OfPostgres) else django.db.ProgrammingError, self.asks, lambda db: its(Item).extra(where=["none = 1"]).count())
        self.cache.audit = 1.0
        for number in (1, 2, 1):
            with self.cache.read():
                self.assertTrue(is_whole(shown(self.its, number)))
            self.change("UPDATE items SET top = 0 WHERE id = 1")
            time.sleep(0.01)

    def test_no_page_is_torn_beside_writers(self):
        counts = by_hand.counts_beside_writers(self.where, self.cache, lambda number: shown(self.its, number), is_whole)
        self.assertEqual((counts["torn"], counts["cold"]), (0, 1), counts)
        self.assertLessEqual(counts["connections"], 4)


class OverAFile(OfSqlite, Aliases):
    def settings(self):
        return {"ENGINE": "django.db.backends.sqlite3", "NAME": self.where}

    def test_a_file_in_memory(self):
        connections.databases["default"]["NAME"] = "file:a?mode=memory&cache=shared"
        self.assertRaisesRegex(ImproperlyConfigured, r'is in memory, where no other connection can follow it: DATABASES\["default"\]\["TEST"\]\["NAME"\] names a file', self.page,
                               (self.its["item"], 1))


class OverAServer(OfPostgres, Aliases):
    def make(self):
        server()
        if not importlib.util.find_spec("psycopg2"):
            self.skipTest(skipped("psycopg2", "Django 3.2 has no other driver"))
        super().make()

    def settings(self):
        return {"ENGINE": "django.db.backends.postgresql", "NAME": self.base, "USER": "txc", "HOST": self.server.folder, "TIME_ZONE": "Asia/Tokyo"}


class Missing(unittest.TestCase):
    def test_without_django(self):
        ran = subprocess.run([sys.executable, "-c", "import sys; sys.modules['django'] = None; import txcache.django"], stderr=subprocess.PIPE, text=True)
        self.assertIn("ImportError: txcache.django needs Django 3.2 or later: apt-get install python3-django, or pip install 'txcache[django]'", ran.stderr)


del Aliases, Case  # they run over a store alone

if __name__ == "__main__":
    unittest.main()
