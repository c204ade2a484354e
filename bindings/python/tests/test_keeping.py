"""Snapshots that a cache keeps open, closes and follows; and its children after a fork."""

import contextlib
import gc
import os
import pickle
import random
import time
import unittest
import weakref

from txcache._layout import Read
from txcache._page import PAGE
from txcache._store import db_of
from txcache.cache import TxCache
from txcache.errors import AuditError, NotInstalled, SnapshotLost

from . import until
from .cases import Case, over_each_store


class Keeping(Case):
    def test_a_thread_looks_while_pages_are_read_and_then_lets_all_go(self):
        cache = self.open(thread=True, refresh=0.05, hold=2.0)
        self.page((self.balance, 0))
        self.write("UPDATE accounts SET balance = 5 WHERE id = 0")
        written = time.monotonic()
        while cache._state.pins[-1].moment <= written and time.monotonic() < written + 20:
            time.sleep(0.05)
        self.assertEqual(self.page((self.balance, 0), max_age=time.monotonic() - written), [5])
        while cache._follower.numbers and time.monotonic() < written + 40:
            time.sleep(0.05)
        self.assertEqual(cache._follower.numbers, [])
        self.assertEqual(self.page((self.balance, 0), max_age=0.2), [5])
        self.assertEqual(cache.stats()["cold"], 1)

    def test_the_thread_ends_with_its_cache(self):
        cache = TxCache(self.new_store(), refresh=0.02, versions=self.versions)
        with cache.read():
            pass
        gone = weakref.ref(cache)
        del cache
        self.assertTrue(until(lambda: gc.collect() and False or gone() is None))

    def test_few_snapshots_are_open(self):
        cache = self.open(refresh=1e-6)
        for n in range(20):
            self.write(f"UPDATE accounts SET balance = {n} WHERE id = 0")
            self.assertEqual(self.page((self.balance, 0), max_age=0.0), [n])
        self.assertLessEqual(len(cache._follower.numbers), 4)
        self.assertLessEqual(len(cache._state.pins), 256)

    def test_a_snapshot_in_which_a_page_computes_stays(self):
        cache = self.open(refresh=1e-6)
        with cache.read(max_age=60.0):
            self.assertEqual(self.balance(0), 100)
            for n in range(10):
                self.write(f"UPDATE accounts SET balance = {n} WHERE id = 0")
                cache._look()
            self.assertEqual((self.balance(1), self.balance(0)), (100, 100))
            self.assertEqual(cache._follower.numbers, [1, 9, 10, 11])
            self.assertEqual(cache._follower.oldest, 9)
            for n in range(20):
                self.write(f"UPDATE accounts SET balance = {n} WHERE id = 0")
                cache._look()
            self.assertEqual(self.balance(2), 100)
        self.write("UPDATE accounts SET balance = 5 WHERE id = 0")
        self.assertEqual(self.page((self.balance, 0), (self.balance, 3), max_age=0.0), [5, 100])
        self.assertEqual(cache._follower.numbers, [29, 30, 31, 32])

    def test_a_snapshot_that_is_gone(self):
        cache = self.open(refresh=1000.0)
        self.page((self.balance, 0))
        cache._follower.let_go()
        self.assertEqual(self.page((self.balance, 1)), [100])  # nothing was shown yet: it begins anew
        with self.assertRaises(SnapshotLost):
            with cache.read():
                self.balance(0)
                cache._follower.let_go()
                self.balance(2)
        self.assertEqual(cache.stats()["lost"], 1)
        tries = []

        def view():
            tries.append(self.balance(0))
            if len(tries) == 1:
                cache._follower.let_go()
            return self.balance(3)

        self.assertEqual((cache.run(view, max_age=60.0), len(tries)), (100, 2))

    def test_a_page_begins_where_snapshots_are_open(self):
        cache = self.open(refresh=1000.0)
        self.page((self.balance, 0))
        self.write("UPDATE accounts SET balance = 5 WHERE id = 0")
        cache._look()
        cache._follower.let_go(below=2)
        self.assertEqual(self.page((self.balance, 0), (self.balance, 1)), [5, 100])

    def test_while_the_database_is_away_pages_of_hits_are_answered(self):
        cache = self.open(refresh=1e-6)
        self.page((self.balance, 0))
        look, tries = cache.store.look, []
        cache.store.look = lambda *words, **named: tries.append(1) or (_ for _ in ()).throw(SnapshotLost("away"))
        cache._follower.let_go()
        self.assertEqual(self.page((self.balance, 0)), [100])
        self.assertRaises(SnapshotLost, self.page, (self.balance, 1))
        self.assertRaises(SnapshotLost, self.page, (self.balance, 0), max_age=0.0)
        cache.store.look = look
        self.assertEqual(self.page((self.balance, 0), (self.balance, 1)), [100, 100])
        self.assertEqual((self.counts(), cache.stats()["cold"]), ((1, 1), 1))
        self.assertGreater(len(tries), 1)

    def test_an_error_shown_is_something_shown(self):
        cache = self.open(refresh=1000.0)

        @cache.cacheable
        def missing(db, n):
            return db.row("accounts", id=n)["balance"]

        with self.assertRaises(SnapshotLost):
            with cache.read():
                self.assertRaises(TypeError, missing, 99)
                cache._follower.let_go()
                self.balance(0)

    def test_a_snapshot_that_was_let_go_is_read_no_more(self):
        """Its connection may have another by then."""
        store = self.new_store()
        self.addCleanup(store.close)
        first = store.look()
        first.snapshot.close()
        self.write("UPDATE accounts SET balance = 5 WHERE id = 0")
        second = store.look(first.mark)
        self.addCleanup(second.snapshot.close)
        self.assertRaises(SnapshotLost, db_of(first.snapshot).rows, "accounts")
        self.assertRaises(SnapshotLost, db_of(first.snapshot).sql, "SELECT * FROM accounts")
        self.assertEqual(db_of(second.snapshot).row("accounts", id=0)["balance"], 5)

    def test_a_query_that_ends_its_transaction(self):
        cache, store = self.open(), self.new_store()
        self.addCleanup(store.close)

        @cache.cacheable
        def ends(db, text):
            return db.sql(text, tags=["accounts"])

        for text in ("COMMIT", " /* ; */ rollback", "SELECT 1; COMMIT", "SELECT 'a;b', \";\"; BEGIN"):
            self.assertRaisesRegex(ValueError, "more than one statement|begins or ends a transaction", self.page, (ends, text))
        self.assertEqual(self.page((ends, "SELECT ';' AS it; -- the end")), [[{"it": ";"}]])
        found = store.look().snapshot
        self.addCleanup(found.close)
        self.write("UPDATE accounts SET balance = 5 WHERE id = 0")
        self.assertRaises((ValueError, SnapshotLost), found.rows, Read("COMMIT", (), ()))
        with contextlib.suppress(SnapshotLost):
            self.assertEqual(db_of(found).row("accounts", id=0)["balance"], 100)

    def test_no_page_is_at_the_present(self):
        """If the pins within a page's bounds were retired as it began, the library would pin the present, which may be the middle of a step."""
        cache = self.open(refresh=1000.0)
        self.page((self.balance, 0), (self.balance, 1))
        self.write("UPDATE accounts SET balance = 93 WHERE id = 0", "UPDATE accounts SET balance = 107 WHERE id = 1")
        begin = cache._versions.begin

        def begin_where_no_pin_is(now, staleness, at_least):
            cache._versions.begin = begin
            return begin(now, staleness, 2**32 - 2)

        cache._versions.begin = begin_where_no_pin_is
        self.assertEqual(self.page((self.balance, 0), (self.balance, 1)), [100, 100])
        self.assertEqual((self.last.receipt.snapshot, cache._follower.numbers), (1, [1, 2]))

    def test_a_miss_is_read_at_the_pin_that_is_there(self):
        """However old that is: the library renews none by itself."""
        cache, looks = self.open(refresh=1000.0), []
        self.page((self.balance, 0))
        look = cache.store.look
        cache.store.look = lambda *words, **named: looks.append(1) or look(*words, **named)
        time.sleep(0.05)
        self.assertEqual(self.page((self.balance, 1)), [100])
        self.assertEqual((looks, self.last.receipt.snapshot), ([], 1))

    def test_a_child_of_a_page_has_pages_of_its_own(self):
        self.open()
        out, into = os.pipe()
        with self.cache.read():
            self.balance(0)
            child = os.fork()
            if child == 0:
                try:
                    os.write(into, pickle.dumps(self.page((self.balance, 0), (self.balance, 1))))
                finally:
                    os._exit(0)
            os.waitpid(child, 0)
        self.assertEqual(pickle.loads(os.read(out, 1000)), [100, 100])

    def test_the_log_is_copied_beside_pages(self):
        """The store is told whether a page is open, which may lose its snapshot."""
        cache, told = self.open(refresh=1000.0), []
        cache.store.wants_air = told.append
        self.page((self.balance, 0))
        cache._follower._aired -= 1
        cache._look()
        with cache.read():
            self.balance(0)
            cache._follower._aired -= 1
            cache._look()
        cache._follower._aired -= 1
        cache._look()
        self.assertEqual(told, [False, False, True, False])

    def test_what_is_logged(self):
        cache = self.open(audit=1.0)

        @cache.cacheable
        def other_each_time(db):
            return random.random()

        with self.assertLogs("txcache", "INFO") as logged:
            self.assertRaises(AuditError, self.page, (other_each_time,))
            cache.audit = 0.0
            with self.assertRaises(SnapshotLost):
                with cache.read():
                    self.balance(0)
                    cache._follower.let_go()
                    self.balance(1)
        said = "\n".join(logged.output)
        for it in ("begins cold: the first snapshot", "other_each_time() is not what it gives", "a page lost its snapshot"):
            self.assertIn(it, said)

    def test_triggers_that_do_not_stand_are_logged_once(self):
        cache = self.open(thread=True, refresh=0.02)
        with self.assertLogs("txcache", "ERROR") as logged:
            looks = []
            cache.store.look = lambda *words, **named: looks.append(1) or (_ for _ in ()).throw(NotInstalled(["no trigger stands on accounts"]))
            self.assertRaises(NotInstalled, self.page, (self.balance, 0))
            self.assertTrue(until(lambda: len(looks) > 4))
        self.assertEqual(logged.output, ["ERROR:txcache:no page takes a snapshot until the triggers are intact: no trigger stands on accounts"])

    def test_notes_are_purged_beside_pages(self):
        cache, purged = self.open(), []
        cache.store.purge = lambda age: purged.append(age)
        self.page((self.balance, 0))
        cache._rest_or_look()
        cache._last_purge -= 61
        cache._rest_or_look()
        cache._rest_or_look()
        self.assertEqual(purged, [600.0])
        cache.store.purge = lambda age: 1 // 0
        cache._last_purge -= 61
        cache._rest_or_look()

    def test_cold_leaves_nothing_behind(self):
        cache = self.open()
        self.page((self.balance, 0), (self.bids, 7))
        cache._is_to_be_cold = True  # as a step that failed midway leaves it
        self.write("UPDATE accounts SET balance = 5 WHERE id = 0")
        self.assertEqual(self.page((self.balance, 0), (self.bids, 7), max_age=0.0), [5, [110, 90]])
        self.assertEqual((self.counts(), cache.stats()["cold"]), ((0, 2), 2))

    def test_a_step_that_fails_midway_begins_cold(self):
        cache = self.open()
        self.page((self.balance, 0))
        self.write("UPDATE accounts SET balance = 5 WHERE id = 0")
        pin = cache._versions.pin
        cache._versions.pin = lambda moment: (_ for _ in ()).throw(MemoryError())
        self.assertRaises(MemoryError, self.page, (self.balance, 0), max_age=0.0)
        cache._versions.pin = pin
        self.assertEqual(self.page((self.balance, 0), max_age=0.0), [5])
        self.assertEqual(cache.stats()["cold"], 2)

    def test_after_a_fork_the_child_begins_cold(self):
        cache = self.open(thread=True, refresh=0.05)
        self.page((self.balance, 0))
        out, into = os.pipe()
        with cache.read():
            self.balance(0)
            child = os.fork()
            if child == 0:
                said = []
                try:
                    try:
                        self.balance(0)
                    except RuntimeError as error:
                        said.append(str(error))
                    parent = cache._follower
                    said.append(parent is None)
                    PAGE.set(None)
                    said.append(self.page((self.balance, 0), (self.balance, 1)))
                    said.append(self.counts())
                finally:
                    os.write(into, pickle.dumps(said))
                    os._exit(0)
            os.waitpid(child, 0)
            self.assertEqual(self.balance(1), 100)
        said = pickle.loads(os.read(out, 10_000))
        self.assertIn("begun before a fork", said[0])
        self.assertEqual(said[1:], [True, [100, 100], (0, 2)])
        self.write("UPDATE accounts SET balance = 5 WHERE id = 0")
        self.assertEqual(self.page((self.balance, 0), max_age=0.0), [5])


def load_tests(loader, tests, pattern):
    return over_each_store(loader, Keeping)


if __name__ == "__main__":
    unittest.main()
