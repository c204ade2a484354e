"""Values of functions: long ones, their budget of bytes, and whether an audit finds them again."""

import logging
import time
import unittest

from txcache.errors import AuditError

from .cases import Case, over_each_store


class Values(Case):
    def test_values(self):
        cache = self.open()
        made = []

        @cache.cacheable
        def mutable(db, n):
            made.append([n])
            return made[-1]

        @cache.cacheable(codec=(lambda it: str(it).encode(), lambda data: int(data)))
        def number(db, n):
            return n

        @cache.cacheable(key=lambda things: tuple(things))
        def length(db, things):
            return len(things)

        with cache.read():
            first = mutable(1)
            first.append(2)
            made[0].append(3)
            self.assertEqual((mutable(1), number(5), number(5), length([1, 2]), length(things=[1, 2])), ([1], 5, 5, 2, 2))

        @cache.cacheable
        def unpicklable(db):
            return lambda: 1

        self.assertRaisesRegex(TypeError, "there is no codec", self.page, (unpicklable,))

    def test_long_values(self):
        cache = self.open()

        @cache.cacheable
        def long(db, n):
            return bytes(n) + b"%d" % db.row("accounts", id=0)["balance"]

        @cache.cacheable
        def ends(db, n):
            return long(n)[-3:]

        for n in (1024, 200_000, self.versions.longest - 4):
            for _ in range(2):
                self.assertEqual(self.page((long, n), (ends, n)), [bytes(n) + b"100", b"100"])
            self.assertEqual(self.counts(), (2, 0))
        self.write("UPDATE accounts SET balance = 93 WHERE id = 0")
        self.assertEqual(self.page((long, 1024), (ends, 1024), max_age=0.0), [bytes(1024) + b"93", b"\x0093"])

    def test_values_that_are_too_long_are_computed_for_each_page(self):
        cache, runs = self.open(refresh=1000.0), []
        self.page((self.balance, 0))
        cache._versions.longest = 100

        @cache.cacheable
        def inner(db):
            return db.row("accounts", id=0)["balance"]

        @cache.cacheable
        def long(db):
            runs.append(1)
            return bytes(100 - inner() + db.row("accounts", id=0)["balance"]) + b"%d" % inner()

        @cache.cacheable
        def ends(db):
            return long()[-3:] + b"%d" % db.row("accounts", id=1)["balance"]

        logging.getLogger("txcache").setLevel(logging.WARNING)
        with self.assertLogs("txcache", logging.WARNING) as said:
            self.assertEqual(self.page((long,), (ends,)), [bytes(100) + b"100", b"100100"])
            self.assertEqual(self.page((long,)), [bytes(100) + b"100"])
        self.assertEqual([it.getMessage().split(" ", 1)[1] for it in said.records], ["gave a value of 103 bytes, which is computed for each page: at most 99 are cached"])
        self.assertEqual((self.counts(), len(runs)), ((0, 1), 4))  # one more for its level
        # within an old snapshot it is of that
        self.write("UPDATE accounts SET balance = 93 WHERE id = 0", "UPDATE accounts SET balance = 107 WHERE id = 1")
        cache._look()
        ends.cache_clear()
        self.assertEqual(self.page((self.balance, 0), (ends,), (long,)), [100, b"100100", bytes(100) + b"100"])
        self.assertEqual(self.page((ends,), (long,), max_age=0.0), [b"\x0093107", bytes(100) + b"93"])

    def test_a_budget_of_bytes(self):
        for thread in (False, True):
            with self.subTest(thread=thread):
                cache = self.open(max_bytes=20_000, thread=thread, refresh=1000.0)

                @cache.cacheable
                def long(db, n):
                    return bytes(999)

                for n in range(100):
                    self.page((long, n))
                ended = time.monotonic() + 30
                while cache.stats()["bytes"] > 23_000 and time.monotonic() < ended:
                    time.sleep(0.01)  # the thread is on its way
                found = cache.stats()
                self.assertTrue(15_000 < found["bytes"] <= 23_000 and found["bytes"] == 1000 * found["entries"] and found["entries"] + found["trimmed"] == 100, found)
                self.page((long, 99), (long, 0))
                self.assertEqual(self.counts(), (1, 1))

    def test_audit(self):
        cache = self.open(audit=1.0)
        self.page((self.highest, 7), (self.bids, 7), (self.total,))
        self.write("INSERT INTO bids VALUES (3, 7, 130)")
        self.page((self.highest, 7), (self.bids, 7), (self.total,), max_age=0.0)

        @cache.cacheable
        def too_few_tags(db):
            return int(db.sql("SELECT sum(balance) AS it FROM accounts", tags=[("accounts", "id", 0)])[0]["it"])

        self.page((too_few_tags,))
        self.write("UPDATE accounts SET balance = 0 WHERE id = 3")
        self.assertRaisesRegex(AuditError, "too_few_tags", self.page, (too_few_tags,), max_age=0.0)
        self.page((too_few_tags,), max_age=0.0)
        told = []
        cache.on_audit_error = told.append
        self.write("UPDATE accounts SET balance = 50 WHERE id = 3")
        self.assertEqual(self.page((too_few_tags,), max_age=0.0), [300])
        self.assertEqual(len(told), 1)

    def test_an_audit_is_of_the_receipts_snapshot(self):
        cache = self.open(audit=1.0, refresh=1000.0)
        with cache.read() as page:
            self.assertEqual(self.balance(0), 100)
            self.write("UPDATE accounts SET balance = 5 WHERE id = 0")
            cache._look()
        self.assertEqual(page.receipt.snapshot, 1)


def load_tests(loader, tests, pattern):
    return over_each_store(loader, Values)


if __name__ == "__main__":
    unittest.main()
