"""A cache beside a hot standby: what it follows, how old its pages are, what replay waits for, and a promotion."""

import json
import logging
import random
import threading
import time
import unittest
from collections import Counter

from txcache import SnapshotLost, TxCache, _standby
from txcache.errors import NotInstalled, NotSeen, SnapshotRefused

from . import beside, until
from .cases import TABLES, TOLD
from .standby import Standby, follows, link, pair

SECONDS = 4.0


def setUpModule():
    global PRIMARY, STANDBY
    PRIMARY, STANDBY = pair()


def tearDownModule():
    STANDBY.remove()
    PRIMARY.remove()


class Case(unittest.TestCase):
    """A database of its own for each test, on a primary and its standby."""

    number = 0

    def setUp(self):
        logging.getLogger("txcache").setLevel(logging.CRITICAL)
        self.addCleanup(logging.getLogger("txcache").setLevel, logging.NOTSET)
        Case.number += 1
        self.base, self.primary, self.standby = f"s{Case.number}", PRIMARY, STANDBY
        self.make()

    def make(self):
        top = link(self.primary)
        top.ask(f"CREATE DATABASE {self.base}")
        top.close()
        self.it = self.linked(self.primary)
        for text in TABLES:
            self.it.ask(text)
        self.store_at(self.primary).install()
        top = link(self.standby)
        self.assertTrue(follows(self.it, top))
        top.close()
        self.there = self.linked(self.standby)

    def linked(self, server):
        it = link(server, self.base)
        self.addCleanup(it.close)
        return it

    def store_at(self, server, **more):
        from txcache.postgres import PostgresStore

        store = PostgresStore(server.dsn(self.base), TOLD, **more)
        self.addCleanup(store.close)
        return store

    def follows(self):
        self.assertTrue(follows(self.it, self.there))

    def open(self, server=None, **more):
        self.cache = cache = TxCache(self.store_at(server or self.standby), **{"thread": False, "refresh": 0.001, **more})
        self.addCleanup(cache.close)

        @cache.cacheable
        def balance(db, number):
            return db.row("accounts", id=number)["balance"]

        @cache.cacheable
        def total(db):
            return int(db.sql("SELECT sum(balance) AS it FROM accounts")[0]["it"])

        self.balance, self.total = balance, total
        return cache

    def page(self, *calls, max_age=60.0, **more):
        with self.cache.read(max_age, **more) as self.last:
            return [function(*args) for function, *args in calls]


class Following(Case):
    """Looks of a store at the standby."""

    def setUp(self):
        super().setUp()
        self.store, self.mark = self.store_at(self.standby), None
        self.assertEqual(self.look(), "the first snapshot")

    def look(self):
        found = self.store.look(self.mark)
        found.snapshot.close()
        self.mark = found.mark
        return found.reason if found.tags is None else {it.split(":")[1] for it in found.tags}

    def test_a_transaction_that_was_open_at_the_last_look_follows_once(self):
        """Its number is below those that the last snapshot saw, which lists none in progress."""
        slow = self.linked(self.primary)
        slow.ask("BEGIN")
        slow.ask("UPDATE accounts SET balance = 1 WHERE id = 0")
        self.it.ask("UPDATE accounts SET balance = 2 WHERE id = 1")
        self.follows()
        self.assertEqual(self.look(), {"", "id=1", "pair=0"})
        self.assertLess(self.mark.xmin, self.mark.xmax - 1)
        self.assertEqual([self.look(), self.look()], [set(), set()])
        slow.ask("COMMIT")
        self.it.ask("UPDATE accounts SET balance = 3 WHERE id = 2")
        self.follows()
        self.assertEqual(self.look(), {"", "id=0", "pair=0", "id=2", "pair=1"})
        self.assertEqual(self.look(), set())

    def test_random_transactions_are_followed_once_each(self):
        """Savepoints, rollbacks and prepared ones, over three connections: the tags of each are in the first look that sees its rows."""
        rand, links, seen = random.Random(1), [self.linked(self.primary) for _ in range(3)], Counter()
        self.it.ask("CREATE TABLE done (id integer)")
        self.follows()
        wanted = {}
        for n in range(60):
            at = links[n % 3]
            if not at.is_idle:
                at.ask(rand.choice(["COMMIT", "ROLLBACK", "COMMIT"]))
            at.ask("BEGIN")
            wanted[n] = f"id={n + 10}"
            at.ask(f"SAVEPOINT a; INSERT INTO bids VALUES ({n + 10}, 7, {n}); INSERT INTO done VALUES ({n}); {rand.choice(['ROLLBACK TO a', 'RELEASE a'])}")
            if rand.random() < 0.2:
                at.ask(f"PREPARE TRANSACTION 'p{n}'")
                links[(n + 1) % 3].ask("ROLLBACK")
                at.ask(f"COMMIT PREPARED 'p{n}'")
            if n % 4 == 0:
                self.follows()
                seen.update(self.look())
        for it in links:
            if not it.is_idle:
                it.ask("COMMIT")
        self.follows()
        seen.update(self.look())
        committed = {wanted[n] for n, in self.it.ask("SELECT id FROM done")}
        self.assertEqual({it for it in seen if it.startswith("id=")}, committed)
        self.assertEqual([seen[it] for it in committed], [1] * len(committed))

    def test_more_numbers_than_are_remembered_begin_cold(self):
        slow = self.linked(self.primary)
        slow.ask("BEGIN")
        slow.ask("UPDATE accounts SET balance = 1 WHERE id = 0")
        self.look()
        most, _standby.MAX_SEEN = _standby.MAX_SEEN, 5
        try:
            for n in range(7):
                self.it.ask(f"UPDATE accounts SET balance = {n} WHERE id = 1")
            self.follows()
            self.assertEqual(self.look(), {"", "id=1", "pair=0"})
            self.assertIn("more than 5 transactions", self.look())
            slow.ask("COMMIT")
            self.follows()
            self.assertIn("more than 5 transactions", self.look())
            self.assertEqual(self.look(), set())
        finally:
            _standby.MAX_SEEN = most

    def test_notes_that_were_purged_on_the_primary(self):
        self.it.ask("UPDATE accounts SET balance = 1 WHERE id = 1")
        primary = self.store_at(self.primary)
        primary.purge(0.0)
        self.it.ask("UPDATE accounts SET balance = 2 WHERE id = 1")
        self.assertGreater(primary.purge(0.0), 0)
        self.follows()
        self.assertIn("purged", self.look())
        self.assertEqual(self.look(), set())

    def test_the_shape_is_that_of_the_primary(self):
        self.it.ask("ALTER TABLE accounts ADD COLUMN more integer")
        self.follows()
        self.assertIn("were changed", self.look())
        self.it.ask("ALTER TABLE accounts DISABLE TRIGGER USER")
        self.follows()
        self.assertRaises(NotInstalled, self.look)


class Commands(Case):
    def test_what_is_run_on_a_standby(self):
        store = self.store_at(self.standby)
        self.assertEqual(store.check(), [])
        for name in ("install", "purge", "uninstall"):
            with self.assertRaisesRegex(NotInstalled, f"the server is a standby: run {name} on the primary"):
                getattr(store, name)()
        self.it.ask("ALTER TABLE accounts DISABLE TRIGGER USER")
        self.follows()
        self.assertEqual([it for it in store.check() if "accounts" not in it], [])
        self.assertEqual(len(store.check()), 1)


class Pages(Case):
    def test_hits_and_changes(self):
        cache = self.open(refresh=1e-6)
        calls = [(self.balance, 0), (self.balance, 1), (self.total,)]
        self.assertEqual(self.page(*calls), [100, 100, 400])
        self.assertEqual(self.page(*calls), [100, 100, 400])
        self.assertEqual(self.last.receipt.hits, 3)
        self.it.ask("BEGIN; UPDATE accounts SET balance = 93 WHERE id = 0; UPDATE accounts SET balance = 107 WHERE id = 1; COMMIT")
        self.follows()
        self.assertEqual(self.page(*calls, max_age=0.0), [93, 107, 400])
        self.assertEqual(cache.stats()["cold"], 1)

    def test_a_token_of_the_primary(self):
        self.open()
        cursor = self.it._connection.cursor()
        self.there.ask("SELECT pg_wal_replay_pause()")
        try:
            cursor.execute("BEGIN")
            cursor.execute("UPDATE accounts SET balance = 5 WHERE id = 0")
            token = self.cache.store.token(cursor)
            cursor.execute("COMMIT")
            self.assertRaises(NotSeen, self.page, (self.balance, 0), after=token)
        finally:
            self.there.ask("SELECT pg_wal_replay_resume()")
        self.follows()
        self.assertEqual(self.page((self.balance, 0), after=token), [5])

    def test_a_token_of_what_is_in_progress(self):
        """A later one has ended, and an older one has not: a snapshot of the standby sees the later one alone."""
        self.open()
        slow = self.linked(self.primary)
        tokens = []
        for at, number in ((slow, 0), (self.it, 1)):
            cursor = at._connection.cursor()
            cursor.execute("BEGIN")
            cursor.execute(f"UPDATE accounts SET balance = 5 WHERE id = {number}")
            tokens.append(self.cache.store.token(cursor))
        self.it.ask("COMMIT")
        self.follows()
        self.assertRaises(NotSeen, self.page, (self.balance, 0), after=tokens[0])
        self.assertEqual(self.page((self.balance, 0), (self.balance, 1), after=tokens[1]), [100, 5])
        slow.ask("COMMIT")
        self.follows()
        self.assertEqual(self.page((self.balance, 0), (self.balance, 1), after=tokens[0]), [5, 5])

    def is_young(self):
        """The pages that are made now become young, however slow the machine is."""

        def age():
            self.page((self.balance, 0))
            return self.last.receipt.age

        self.assertTrue(until(lambda: age() < 0.5, 30.0))

    def test_the_delay_is_of_the_age(self):
        self.open()
        self.is_young()
        self.there.ask("SELECT pg_wal_replay_pause()")
        try:
            self.it.ask("UPDATE accounts SET balance = 5 WHERE id = 0")
            time.sleep(1.2)
            self.assertEqual(self.page((self.balance, 0)), [100])
            self.assertGreater(self.last.receipt.age, 1.0)
            with self.assertRaisesRegex(SnapshotLost, "no snapshot of the last 0.5 seconds"):
                self.page((self.balance, 0), max_age=0.5)
        finally:
            self.there.ask("SELECT pg_wal_replay_resume()")
        self.follows()
        self.is_young()
        self.assertEqual(self.page((self.balance, 0)), [5])

    def test_a_standby_that_has_lost_its_primary(self):
        """All is replayed that was received, and the primary goes on."""
        self.open()
        self.is_young()
        (place,), = self.there.ask("SHOW primary_conninfo")
        self.connect_to("")
        try:
            self.assertTrue(until(lambda: not self.there.ask("SELECT FROM pg_stat_wal_receiver")))
            self.it.ask("UPDATE accounts SET balance = 5 WHERE id = 0")
            time.sleep(1.2)
            self.assertEqual(self.page((self.balance, 0)), [100])
            self.assertGreater(self.last.receipt.age, 1.0)
            self.assertRaises(SnapshotLost, self.page, (self.balance, 0), max_age=0.5)
        finally:
            self.connect_to(place)
        self.follows()
        self.is_young()
        self.assertEqual(self.page((self.balance, 0)), [5])

    def connect_to(self, place):
        text = place.replace("'", "''")
        self.there.ask(f"ALTER SYSTEM SET primary_conninfo = '{text}'")
        self.there.ask("SELECT pg_reload_conf()")

    def test_a_primary_that_is_idle_makes_no_page_old(self):
        self.open()
        self.follows()
        time.sleep(1.0)
        self.assertGreater(self.there.ask("SELECT extract(epoch FROM clock_timestamp() - pg_last_xact_replay_timestamp())::float8")[0][0], 0.9)
        self.is_young()

    def test_what_is_written_with_no_commit_makes_no_page_old(self):
        """The last commit was long ago, and the log goes on."""
        self.open(refresh=0.05, thread=True)
        self.page((self.balance, 0), max_age=0.0)
        time.sleep(1.0)
        ended = threading.Event()

        def write():
            own = link(self.primary, self.base)
            own.ask("BEGIN")
            for n in range(10**6):
                if ended.is_set():
                    break
                own.ask(f"INSERT INTO bids SELECT {1000 + 500 * n} + it, 7, it FROM generate_series(1, 500) AS it")
            own.ask("ROLLBACK")
            own.close()

        thread = threading.Thread(target=write)
        thread.start()
        ages = []
        while len(ages) < 10:
            try:
                self.page((self.balance, 0), max_age=5.0)
                ages.append(self.last.receipt.age)
            except SnapshotLost:
                ages.append(9.0)
            time.sleep(0.1)
        ended.set()
        thread.join()
        self.assertLess(sorted(ages)[5], 0.9, ages)

    def test_an_alter_table_gets_through(self):
        """On the primary it waits for nobody; on the standby replay waits for the snapshots, which give way."""
        cache, ended, shown, last = self.open(thread=True, refresh=0.5), threading.Event(), Counter(), []

        def read():
            while not ended.is_set():
                try:
                    with cache.read(max_age=5.0):
                        shown[self.balance(0) + self.balance(1)] += 1
                except SnapshotLost as error:
                    shown["lost"] += 1
                    last[:] = [error]
                except Exception as error:  # which ends the thread, and is shown below
                    last[:] = [error]
                    raise
                time.sleep(0.01)

        thread, waits = threading.Thread(target=read), []
        thread.start()
        for n in range(4):
            time.sleep(0.4)
            self.it.ask(f"ALTER TABLE accounts ADD COLUMN more{n} integer")
            begun = time.monotonic()
            self.follows()
            waits.append(time.monotonic() - begun)
        is_read = until(lambda: shown[200] > 5)
        ended.set()
        thread.join()
        self.assertTrue(is_read, (shown, last))
        self.assertLessEqual(set(shown), {200, "lost"})
        self.assertLess(min(waits), 2.0, waits)
        self.assertLess(max(waits), 10.0, waits)  # one, on a machine with nothing else to do

    def test_a_snapshot_that_recovery_cancels(self):
        """A page that waits for longer than the standby does has `SnapshotLost`, and the next is well."""
        self.there.ask("ALTER SYSTEM SET max_standby_streaming_delay = '100ms'")
        self.there.ask("SELECT pg_reload_conf()")
        try:
            cache = self.open(refresh=1000.0)

            @cache.cacheable
            def slow(db, seconds):
                return db.sql("SELECT pg_sleep(%s)::text, sum(balance) AS it FROM accounts", (seconds,), tags=["accounts"])[0]["it"]

            with self.assertRaises(SnapshotLost), cache.read():
                self.balance(0)
                self.it.ask("ALTER TABLE accounts ADD COLUMN more integer")
                slow(5.0)
            self.follows()
            self.assertEqual(self.page((self.balance, 0), (slow, 0.0), max_age=0.0), [100, 400])
        finally:
            self.there.ask("ALTER SYSTEM RESET max_standby_streaming_delay")
            self.there.ask("SELECT pg_reload_conf()")


class Promotion(Case):
    """A standby of its own for each test, which is promoted."""

    def make(self):
        self.standby = Standby(PRIMARY)
        self.addCleanup(self.standby.remove)
        super().make()

    def test_a_promotion_begins_cold(self):
        """A prepared transaction outlives it, whose number the snapshots before did not list."""
        cache = self.open(refresh=1e-6)
        self.it.ask("BEGIN; UPDATE accounts SET balance = 93 WHERE id = 0; UPDATE accounts SET balance = 107 WHERE id = 1; PREPARE TRANSACTION 'moved'")
        self.it.ask("UPDATE accounts SET balance = 101 WHERE id = 3")
        self.follows()
        self.assertEqual(self.page((self.balance, 0), (self.balance, 1), max_age=0.0), [100, 100])
        start = self.there.ask("SELECT pg_postmaster_start_time()")
        self.promote_while_a_snapshot_is_taken()
        self.assertEqual(self.there.ask("SELECT pg_is_in_recovery(), pg_postmaster_start_time()"), [(False, start[0][0])])
        self.there.ask("COMMIT PREPARED 'moved'")
        self.it.ask("ROLLBACK PREPARED 'moved'")
        self.assertEqual(self.page((self.balance, 0), (self.balance, 1), max_age=0.0), [93, 107])
        self.assertEqual(cache.stats()["cold"], 2)
        self.there.ask("UPDATE accounts SET balance = 7 WHERE id = 0")
        self.assertEqual(self.page((self.balance, 0), max_age=0.0), [7])
        self.assertEqual(cache.stats()["cold"], 2)

    def promote_while_a_snapshot_is_taken(self):
        """It may be of either kind, and is not taken."""
        store = self.store_at(self.standby)
        mark = store.look().mark
        before = _standby.followed

        def promoted(*args):
            _standby.followed = before
            self.standby.promote()
            return before(*args)

        _standby.followed = promoted
        self.addCleanup(setattr, _standby, "followed", before)
        self.assertRaises(SnapshotRefused, store.look, mark)
        self.assertEqual(store.look(mark).reason, _standby.PROMOTED)

    def read(self, pages, seed, counts):
        rand = random.Random(seed)
        while not self.is_over.is_set():
            try:
                with pages.cache.read(max_age=rand.choice((0.0, 0.1, 1.0, 5.0))):
                    found = pages.shown(rand.randrange(beside.ITEMS), rand)
            except SnapshotLost:
                counts["lost"] += 1
                continue
            counts["pages"] += 1
            counts["torn"] += not pages.is_whole(found)

    def write(self, where):
        for it in [beside.started("write", where, SECONDS / 2, seed) for seed in range(3)]:
            self.assertGreater(json.loads(it.communicate()[0])["commits"], 5)

    def test_no_page_is_torn(self):
        """Writers on the primary, pages at the standby, which is promoted in the middle and written to from then on."""
        self.base = "torn"
        top = link(self.primary)
        top.ask("CREATE DATABASE torn")
        top.close()
        at, there = self.primary.dsn(self.base), self.standby.dsn(self.base)
        beside.prepare(at)
        self.follows()
        each, self.is_over = [(beside.Pages(there), Counter()) for _ in range(2)], threading.Event()
        running = [threading.Thread(target=self.read, args=(pages, seed, counts)) for pages, counts in each for seed in range(2)]
        for it in running:
            it.start()
        try:
            self.write(at)
            self.assertTrue(until(lambda: all(counts["pages"] > 20 for _, counts in each)), each)
            self.standby.promote()
            before = [counts["pages"] for _, counts in each]
            self.write(there)
            self.assertTrue(until(lambda: all(counts["pages"] > 20 + it for it, (_, counts) in zip(before, each))), each)
        finally:
            self.is_over.set()
            for it in running:
                it.join()
        self.assertEqual([counts["torn"] for _, counts in each], [0, 0])
        self.assertTrue(all(2 <= pages.cache.stats()["cold"] < 6 for pages, _ in each), each)  # on a busy machine a look that is late begins cold too
        self.assertGreater(sum(pages.cache.stats()["hits"] for pages, _ in each), 20)
        self.each_gives_what_its_query_gives(each[0][0], there)
        for pages, _ in each:
            pages.cache.close()

    def each_gives_what_its_query_gives(self, pages, where):
        with beside.asker(where) as ask:
            for item in range(beside.ITEMS):
                with pages.cache.read(max_age=0.0):
                    shown = pages.shown(item, random.Random(1))
                self.assertEqual([(shown["top"], shown["balance"])], ask(f"SELECT top, balance FROM copies WHERE id = {item}"))


if __name__ == "__main__":
    unittest.main()
