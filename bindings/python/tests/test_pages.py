"""Pages: what they show, of which moment, and what is refused."""

import threading
import time
import unittest

from txcache.cache import TxCache
from txcache.errors import NotInstalled, NotSeen

from .cases import Case, over_each_store


class Pages(Case):
    def test_hits_and_changes(self):
        self.open()
        self.assertEqual(self.page((self.highest, 7), (self.bids, 7)), [110, [110, 90]])
        self.assertEqual(self.counts(), (1, 2))
        self.assertEqual(self.page((self.highest, 7), (self.bids, 7)), [110, [110, 90]])
        self.assertEqual(self.counts(), (2, 0))
        self.write("INSERT INTO bids VALUES (3, 7, 130)")
        self.assertEqual(self.page((self.highest, 7), (self.bids, 7), max_age=0.0), [130, [110, 90, 130]])
        self.write("INSERT INTO bids VALUES (4, 8, 1)")
        self.assertEqual(self.page((self.highest, 7), max_age=0.0), [130])
        self.assertEqual(self.counts(), (1, 0))
        self.write("DELETE FROM bids WHERE item = 7")
        self.assertEqual(self.page((self.highest, 7), (self.total,), max_age=0.0), [None, 400])

    def test_a_page_is_of_one_moment(self):
        """An old value, and one that is computed now: both of the old snapshot, also where one was computed in the new one before."""
        cache = self.open(refresh=1000.0)
        self.page((self.balance, 0))
        self.write("UPDATE accounts SET balance = 93 WHERE id = 0", "UPDATE accounts SET balance = 107 WHERE id = 1")
        cache._look()
        self.assertEqual(self.page((self.bids, 7), (self.balance, 0), (self.balance, 1)), [[110, 90], 100, 100])
        self.assertEqual(self.page((self.balance, 0), max_age=0.0), [93])
        self.assertEqual(sum(self.page((self.balance, 1), (self.balance, 0), (self.pair, 0))), 400)

    def test_the_receipt(self):
        cache = self.open()
        before = time.time()
        self.page((self.balance, 0), (self.balance, 0))
        receipt = self.last.receipt
        self.assertTrue(before - 0.1 <= receipt.moment <= time.time() and 0 <= receipt.age < 5)
        self.assertEqual((receipt.snapshot, receipt.hits, receipt.computed), (1, 1, 1))
        with cache.read() as page:
            pass
        self.assertIsNone(page.receipt.moment)
        self.assertEqual((self.balance.cache_info().hits, self.balance.cache_info().computed), (1, 1))
        self.assertEqual({key: cache.stats()[key] for key in ("hits", "computed", "lost", "cold", "places")}, {"hits": 1, "computed": 1, "lost": 0, "cold": 1, "places": 0})

    def test_places(self):
        """They are those of tags that have changed, at most so many; tags that share one are computed again together."""
        cache = self.open(places=2)
        self.page(*((self.balance, n) for n in range(4)))
        self.write("UPDATE accounts SET balance = 5")
        self.assertEqual(self.page(*((self.balance, n) for n in range(4)), max_age=0.0), [5] * 4)
        self.assertLessEqual(cache.stats()["places"], 2)
        self.assertGreater(cache.stats()["places"], 0)

    def test_nothing_is_opened_before_the_first_page(self):
        cache = TxCache(self.new_store(), versions=lambda capacity: self.fail("opened"))
        cache.cacheable(lambda db: 1)
        self.assertIsNone(cache._follower)

    def test_clearing(self):
        cache = self.open()
        self.page((self.highest, 7), (self.balance, 0))
        self.bids.cache_clear()
        self.page((self.highest, 7), (self.bids, 7), (self.balance, 0))
        self.assertEqual(self.counts(), (2, 2))
        cache.clear()
        self.page((self.highest, 7), (self.balance, 0))
        self.assertEqual(self.counts(), (0, 3))
        cache.close()
        self.page((self.balance, 0))
        self.assertEqual(self.counts(), (0, 1))

    def test_tokens(self):
        cache = self.open(refresh=1000.0)
        self.page((self.balance, 0))
        link = self.cursor()
        link.execute("BEGIN")
        link.execute("UPDATE accounts SET balance = 5 WHERE id = 0")
        token = cache.store.token(link)
        self.assertRaises(NotSeen, self.page, (self.balance, 0), after=token)
        self.assertEqual(self.page((self.balance, 0)), [100])
        link.execute("COMMIT")
        self.assertEqual(self.page((self.balance, 0), after=token), [5])
        self.assertEqual(self.page((self.balance, 0), after=token), [5])
        self.assertRaises(ValueError, self.page, (self.balance, 0), after="no token")

    def test_what_is_refused(self):
        cache = self.open()
        self.assertRaisesRegex(RuntimeError, "outside of a page", self.balance, 0)
        with cache.read():
            with self.assertRaisesRegex(RuntimeError, "open already"):
                with cache.read():
                    pass
            self.assertEqual(self.balance(0), 100)
        with self.assertRaisesRegex(TypeError, "coroutine or generator"):
            @cache.cacheable
            async def late(db):
                pass
        with self.assertRaisesRegex(TypeError, "coroutine or generator"):
            @cache.cacheable
            def each(db):
                yield 1
        with self.assertRaisesRegex(TypeError, "two cacheable functions"):
            self.functions(cache)
        for words, said in (({"audit": 2}, "audit is 2"), ({"refresh": 0}, "refresh is 0 seconds"), ({"max_bytes": -5}, "max_bytes is -5"), ({"hold": -1}, "hold is -1 seconds"),
                            ({"capacity": 70_000}, "capacity is 70000, and is from 1 to 65,536"), ({"connections": 0}, "connections is 0"),
                            ({"places": 0}, "places is 0, and is from 1 to 16,777,216"), ({"places": 1 << 25}, "places is 33554432, and is from 1 to 16,777,216")):
            self.assertRaisesRegex(ValueError, said, TxCache, self.new_store(), **words)
        for age in (-1, float("inf")):
            self.assertRaisesRegex(ValueError, f"max_age is {age} seconds", cache.read, age)
        self.assertRaisesRegex(TypeError, "the argument number has a value of type builtins.list", self.page, (self.balance, [1]))

    def test_db_is_its_functions_own(self):
        cache = self.open()
        kept, said = [], []

        @cache.cacheable
        def keeps(db):
            kept.append(db)
            return 1

        @cache.cacheable
        def hands_on(db):
            other = threading.Thread(target=lambda: said.append(self.error_of(db.row, "accounts", id=0)))
            other.start()
            other.join()
            return 2

        with cache.read():
            keeps()
            self.assertRaisesRegex(RuntimeError, "after its function has returned", kept[0].row, "accounts", id=0)
            hands_on()
        self.assertIn("another thread uses this page", said[0])

    @staticmethod
    def error_of(function, *args, **named):
        try:
            return function(*args, **named)
        except RuntimeError as error:
            return str(error)

    def test_a_page_that_two_threads_use(self):
        cache = self.open()
        inside, go_on = threading.Event(), threading.Event()
        said = []

        @cache.cacheable
        def slow(db):
            inside.set()
            go_on.wait(10)
            return 1

        with cache.read() as page:
            def ask():
                try:
                    inside.wait(10)
                    page.answer(self.balance, (0,), {})
                except RuntimeError as error:
                    said.append(str(error))
                finally:
                    go_on.set()

            other = threading.Thread(target=ask)
            other.start()
            self.assertEqual(slow(), 1)
            other.join()
        self.assertIn("another thread uses this page", said[0])

    def test_not_installed(self):
        store = self.new_store({"items": ["id", "top"]})
        cache = TxCache(store, versions=self.versions, thread=False)
        self.addCleanup(cache.close)
        with self.assertRaisesRegex(NotInstalled, "not note top"):
            with cache.read():
                pass

    def test_the_example(self):
        cache = self.open(thread=True, refresh=0.05, told={"items": ["id", "seller"], "bids": ["id", "item"]})
        cache_of = cache

        @cache_of.cacheable
        def view(db, item):
            return self.highest(item), self.bids(item)

        with cache.read(max_age=5.0) as page:
            shown = self.highest(7), self.bids(7)
        self.assertEqual(shown, (110, [110, 90]))
        self.assertEqual((page.receipt.hits, page.receipt.computed), (1, 2))
        self.assertEqual(cache.run(lambda: view(7)), shown)


def load_tests(loader, tests, pattern):
    return over_each_store(loader, Pages)


if __name__ == "__main__":
    unittest.main()
