"""Threads that read pages at once."""

import random
import threading
import time
import unittest

from txcache._store import db_of
from txcache.errors import SnapshotLost, SnapshotRefused

from . import until
from .cases import Case, over_each_store


class Threads(Case):
    def test_who_asks_for_what_another_computes_waits_for_it(self):
        cache = self.open(refresh=1000.0)
        computing, computed, values = threading.Barrier(9), [], []

        @cache.cacheable
        def slow(db, n):
            computed.append(threading.get_ident())
            time.sleep(0.2)
            return db.row("accounts", id=n)["balance"]

        self.page((self.balance, 1))

        def ask():
            computing.wait()
            with cache.read():
                values.append(slow(0))

        threads = [threading.Thread(target=ask) for _ in range(8)]
        for it in threads:
            it.start()
        computing.wait()
        for it in threads:
            it.join()
        self.assertEqual((values, len(computed)), ([100] * 8, 1))

    def test_if_it_fails_he_computes_for_himself(self):
        cache = self.open(refresh=1000.0)
        tries, begun = [], threading.Event()

        @cache.cacheable
        def fails_once(db):
            tries.append(1)
            begun.set()
            if len(tries) == 1:
                time.sleep(0.2)
                raise ZeroDivisionError
            return 7

        self.page((self.balance, 1))
        said = []

        def first():
            try:
                self.page((fails_once,))
            except ZeroDivisionError:
                said.append("failed")

        one = threading.Thread(target=first)
        one.start()
        begun.wait()
        with cache.read():
            self.assertEqual(fails_once(), 7)
        one.join()
        self.assertEqual((said, len(tries)), (["failed"], 2))

    def test_nobody_waits_for_a_snapshot_that_he_may_not_read(self):
        cache = self.open(refresh=1000.0)
        begun, go_on, said = threading.Event(), threading.Event(), []

        @cache.cacheable
        def slow(db):
            balance = db.row("accounts", id=0)["balance"]
            if not begun.is_set():
                begun.set()
                go_on.wait(40)
            return balance

        def first():
            with cache.read():
                said.append(slow())

        one = threading.Thread(target=first)
        one.start()
        begun.wait()
        self.write("UPDATE accounts SET balance = 5 WHERE id = 0")
        time.sleep(0.01)
        asked = time.monotonic()
        with cache.read(max_age=0.0):
            self.assertEqual(slow(), 5)
        self.assertLess(time.monotonic() - asked, 30)
        go_on.set()
        one.join()
        self.assertEqual(said, [100])

    def test_a_look_that_waits_lets_pages_begin(self):
        cache = self.open(refresh=1000.0)
        self.page((self.balance, 0))
        look, waits, go_on = cache.store.look, threading.Event(), threading.Event()
        cache.store.look = lambda *words, **named: (waits.set(), go_on.wait(40), look(*words, **named))[2]
        looking = threading.Thread(target=cache._look)
        looking.start()
        waits.wait()
        begun = time.monotonic()
        self.assertEqual(self.page((self.balance, 0), (self.balance, 1)), [100, 100])
        self.assertLess(time.monotonic() - begun, 30)
        go_on.set()
        looking.join()

    def many_that_look(self, look, count=8):
        """Has threads begin a page each that wants a new snapshot, of which one looks once all wait. Returns their values or errors, and how many looked."""
        cache, said, looks, own = self.cache, [], [], self.cache.store.look
        asked, lock = [], threading.Lock()
        take = cache._look

        def note_and_take(*words):
            with lock:
                asked.append(1)
            take(*words)

        def wait_and_look(*words, **named):
            looks.append(1)
            self.assertTrue(until(lambda: len(asked) == count))
            time.sleep(0.3)  # until the last waits for its turn
            return look(own, *words, **named)

        def begin():
            try:
                with cache.read(max_age=0.05):
                    said.append(self.balance(0))
            except SnapshotLost as error:
                said.append(type(error))

        cache._look, cache.store.look = note_and_take, wait_and_look
        threads = [threading.Thread(target=begin) for _ in range(count)]
        for it in threads:
            it.start()
        for it in threads:
            it.join()
        cache._look, cache.store.look = take, own
        return said, len(looks)

    def test_a_lock_of_the_database_is_waited_for_once(self):
        """And not by each thread that wants a snapshot, one behind the other."""
        self.open(refresh=1000.0)
        self.page((self.balance, 0))
        time.sleep(0.06)

        def refuse(*words, **named):
            raise SnapshotRefused("a lock")

        self.assertEqual(self.many_that_look(refuse), ([SnapshotRefused] * 8, 1))
        self.write("UPDATE accounts SET balance = 5 WHERE id = 0")
        self.assertEqual(self.page((self.balance, 0), max_age=0.0), [5])  # what failed before is over

    def test_a_failure_is_over_once_another_look_succeeds(self):
        cache = self.open(refresh=1000.0)
        self.page((self.balance, 0))
        cache._failure = SnapshotRefused("before")
        cache._look()
        self.assertIsNone(cache._failure)

    def test_a_page_of_hits_waits_for_no_lock_that_was_just_waited_for(self):
        """It looks once `refresh` seconds have gone since the last look ended, not since it began."""
        cache, ended = self.open(refresh=1000.0), []
        self.page((self.balance, 0))

        def refuse(*words, **named):
            time.sleep(0.05)
            ended.append(time.monotonic())
            raise SnapshotRefused("a lock")

        cache.store.look = refuse
        self.assertRaises(SnapshotRefused, self.page, (self.balance, 0), max_age=0.0)
        self.assertGreaterEqual(cache._last_try, ended[0])
        self.assertEqual(self.page((self.balance, 0)), [100])
        self.assertEqual(len(ended), 1)

    def test_a_page_that_begins_within_a_cold_step(self):
        """A result that is cached from before seems to hold at the pin of a cold step, of which no tags are known: no page may have both."""
        cache = self.open(refresh=1000.0)
        self.page((self.balance, 0))
        self.write("UPDATE accounts SET balance = 93 WHERE id = 0", "UPDATE accounts SET balance = 107 WHERE id = 1")
        pin, shown = cache._versions.pin, []

        def pin_and_let_a_page_begin(moment):
            stamp = pin(moment)
            self.other = threading.Thread(target=lambda: shown.extend(self.page((self.balance, 0), (self.balance, 1))))
            self.other.start()
            self.other.join(0.3)
            return stamp

        cache._versions.pin = pin_and_let_a_page_begin
        cache._is_to_be_cold = True
        cache._look()
        self.other.join()
        self.assertEqual(shown, [93, 107])

    def test_a_page_is_not_begun_under_a_number_that_is_no_more(self):
        cache = self.open(refresh=1000.0)
        self.page((self.balance, 0))
        self.write("UPDATE accounts SET balance = 93 WHERE id = 0", "UPDATE accounts SET balance = 107 WHERE id = 1")
        begin = cache._versions.begin

        def a_cold_step_and_then_begin(*words):
            cache._versions.begin = begin
            cache._is_to_be_cold = True
            cache._look()
            return begin(*words)

        cache._versions.begin = a_cold_step_and_then_begin
        self.assertEqual(self.page((self.balance, 0), (self.balance, 1)), [93, 107])

    def test_a_function_that_sleeps_lets_others_read(self):
        cache = self.open(refresh=1000.0)
        begun, go_on = threading.Event(), threading.Event()

        @cache.cacheable
        def slow(db):
            begun.set()
            go_on.wait(40)
            return 1

        self.page((self.balance, 0))
        one = threading.Thread(target=self.page_of, args=(cache, slow))
        one.start()
        begun.wait()
        for _ in range(50):
            with cache.read():
                self.balance(0), self.balance(1)
        go_on.set()
        one.join()

    @staticmethod
    def page_of(cache, function):
        with cache.read():
            function()

    def test_writers_beside_readers(self, seconds=4.0):
        cache = self.open(thread=True, refresh=0.05)
        ended, torn, pages, errors, least = time.monotonic() + seconds, [], [], [], 24  # pages, also where the machine is slow

        def write(seed):
            rand, link = random.Random(seed), self.writer()
            while time.monotonic() < ended or len(pages) < least:
                n, by = rand.randrange(2), rand.randrange(-9, 9)
                self.write(f"UPDATE accounts SET balance = balance - {by} WHERE id = {2 * n}", f"UPDATE accounts SET balance = balance + {by} WHERE id = {2 * n + 1}", link=link)
                time.sleep(0.005)

        def read(seed):
            rand = random.Random(seed)
            while time.monotonic() < ended or len(pages) < least:
                n = rand.randrange(2)
                calls = [(self.balance, 2 * n), (self.balance, 2 * n + 1), (self.pair, n), (self.total,)]
                rand.shuffle(calls)
                try:
                    with cache.read(max_age=rand.choice((0.0, 0.1, 1.0, 5.0))):
                        shown = {(function, *args): function(*args) for function, *args in calls}
                except SnapshotLost as error:
                    errors.append(error)
                    continue
                pages.append(1)
                if (shown[self.balance, 2 * n] + shown[self.balance, 2 * n + 1], shown[self.pair, n], shown[(self.total,)]) != (200, 200, 400):
                    torn.append(shown)

        threads = [threading.Thread(target=write, args=(it,)) for it in range(2)] + [threading.Thread(target=read, args=(it,)) for it in range(4)]
        for it in threads:
            it.start()
        for it in threads:
            it.join()
        self.assertEqual(torn, [])
        self.assertLess(len(errors), len(pages))
        found = self.new_store().look().snapshot
        self.addCleanup(found.close)
        with cache.read(max_age=0.0):
            shown = [self.balance(it) for it in range(4)] + [self.pair(0), self.pair(1)]
        self.assertEqual(shown, [db_of(found).row("accounts", id=it)["balance"] for it in range(4)] + [200, 200])


def load_tests(loader, tests, pattern):
    return over_each_store(loader, Threads)


if __name__ == "__main__":
    unittest.main()
