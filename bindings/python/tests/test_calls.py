"""Calls of functions within a page: their levels, their keys, their errors, and what they ask."""

import sqlite3
import unittest
from unittest import mock

from txcache._versions import MAX_ASKS

from .cases import Case, over_each_store


class Calls(Case):
    def test_functions_and_their_levels(self):
        cache = self.open()
        order = []

        @cache.cacheable
        def outer(db, n):
            order.append("outer")
            return middle(n) + middle(n + 1)

        @cache.cacheable
        def middle(db, n):
            order.append("middle")
            return inner(n)

        @cache.cacheable
        def inner(db, n):
            order.append("inner")
            return n

        @cache.cacheable
        def endless(db, n):
            return endless(n + 1)

        self.assertEqual(self.page((outer, 10)), [21])
        del order[:]
        self.assertEqual(self.page((outer, 10), (middle, 10), (inner, 11)), [21, 10, 11])
        self.assertEqual(order, [])
        self.assertEqual(self.page((outer, 11)), [23])
        self.assertEqual(order, ["outer", "middle", "inner"])
        self.assertRaisesRegex(RecursionError, "endless calls itself", self.page, (endless, 1))
        self.assertEqual(self.page((inner, 1)), [1])

    def test_what_a_key_asks_never_changes(self):
        """A function's level rises while entries of its callers stand: its keys are new, and theirs."""
        cache = self.open()
        ways = ["flat"]

        @cache.cacheable
        def caller(db):
            return lower()

        @cache.cacheable
        def lower(db):
            return self.balance(0) if ways[0] == "deep" else 1

        self.page((caller,))
        ways[0] = "deep"
        before = cache._growth.forms
        lower.cache_clear()
        self.page((lower,), (caller,))
        after = cache._growth.forms
        self.assertEqual((before.level(lower), after.level(lower), before.level(caller), after.level(caller)), (1, 2, 2, 3))
        self.assertGreater(after.number(caller), before.number(caller))

    def test_errors(self):
        cache = self.open()

        @cache.cacheable
        def wrong(db, n):
            db.row("accounts", id=n)
            return 1 // n

        @cache.cacheable
        def catches(db, n):
            try:
                return wrong(n)
            except ZeroDivisionError:
                return 5

        @cache.cacheable
        def catches_and_asks(db, n):
            try:
                return wrong(n)
            except ZeroDivisionError:
                return db.row("accounts", id=1)["balance"]

        @cache.cacheable
        def bad_query(db):
            return db.sql("SELECT nothing FROM accounts")

        with cache.read():
            self.assertEqual(self.balance(0), 100)
            self.assertRaises(ZeroDivisionError, wrong, 0)
            self.assertRaises(ZeroDivisionError, wrong, 0)
            for function in (catches, catches_and_asks):
                with self.assertRaisesRegex(RuntimeError, "went on after") as raised:
                    function(0)
                self.assertIsInstance(raised.exception.__cause__, ZeroDivisionError)
            self.assertRaises((sqlite3.Error, getattr(self.it, "driver", sqlite3).Error), bad_query)
            self.assertEqual((wrong(1), catches(1), self.balance(1), self.total()), (1, 1, 100, 400))
        self.assertEqual((wrong.cache_info().computed, wrong.cache_info().hits), (1, 1))

    def test_tables_of_a_query_are_found_once(self):
        self.open()
        self.assertEqual(self.page((self.total,)), [400])
        self.assertEqual(self.page((self.total,)), [400])
        self.assertEqual(self.counts(), (1, 0))
        self.write("UPDATE bids SET price = 1 WHERE id = 1")
        self.assertEqual(self.page((self.total,), max_age=0.0), [400])
        self.assertEqual(self.counts(), (1, 0))
        self.write("UPDATE accounts SET balance = 101 WHERE id = 3")
        self.assertEqual(self.page((self.total,), max_age=0.0), [401])

    def test_many_rows_in_one_function(self):
        cache = self.open()
        self.write(*(f"INSERT INTO accounts VALUES ({n}, {n}, 1)" for n in range(10, 110)))

        @cache.cacheable
        def many(db, n):
            return sum(db.row("accounts", id=it)["balance"] for it in range(10, 10 + n))

        self.assertEqual(self.page((many, 100)), [100])
        self.write("UPDATE accounts SET balance = 6 WHERE id = 105")
        self.assertEqual(self.page((many, 100), max_age=0.0), [105])
        self.write("UPDATE accounts SET balance = 7 WHERE id = 0")
        self.page((many, 100), (many, 5), max_age=0.0)

    def test_as_many_calls_as_may_be(self):
        cache = self.open()

        @cache.cacheable
        def one(db, n):
            return n

        @cache.cacheable
        def sum_of(db, n):
            return sum(one(it) for it in range(n))

        self.assertEqual(self.page((sum_of, 2000)), [sum(range(2000))])  # 6,000 asks while none is cached: made again, and then they are
        self.assertEqual(one.cache_info().computed, 2000)
        self.assertEqual(self.page((sum_of, MAX_ASKS - 1)), [sum(range(MAX_ASKS - 1))])
        self.assertRaisesRegex(ValueError, "sum_of asks for more than 4,095", self.page, (sum_of, MAX_ASKS))
        self.assertEqual(self.page((sum_of, MAX_ASKS - 1)), [sum(range(MAX_ASKS - 1))])
        self.assertEqual(self.counts(), (1, 0))

        @cache.cacheable
        def sum_of_sums(db):
            return sum(sum_of(it) for it in (3000, 3500, 4000))

        one.cache_clear()
        self.assertEqual(self.page((sum_of_sums,)), [sum(map(sum, map(range, (3000, 3500, 4000))))])

    def test_more_asks_than_may_be_in_one_function(self):
        """None of them is a call, so that nothing is won where it is made again."""
        cache, runs = self.open(), []

        @cache.cacheable
        def reads(db, n):
            runs.append(n)
            return sum(len(db.sql("SELECT id FROM accounts WHERE id = 0", tags=[("accounts", "id", it)])) for it in range(n))

        with mock.patch("txcache._page.MAX_ROW_TAGS", 10**6), mock.patch("txcache._page.MAX_ASKS", 50):
            self.assertEqual(self.page((reads, 49)), [49])
            self.assertRaisesRegex(ValueError, "asks for more than 49", self.page, (reads, 60))
        self.assertEqual(runs, [49, 60])


def load_tests(loader, tests, pattern):
    return over_each_store(loader, Calls)


if __name__ == "__main__":
    unittest.main()
