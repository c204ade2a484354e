"""A site's calls, each once, and its refusals."""

import contextlib
import random
import unittest
from unittest import mock

from txcache.node import LAST_STAMP, MAX_ASKS, MAX_CAPACITY, MAX_VALUE_LEN, Refused, Totals
from txcache.site import _TXC, MAX_EVENTS, Conflict, Kept, Query, Site, _refuse, cacheable


@cacheable(0)
def highest(call, item):
    return str(max((int(row.body) for row in call.rows(Query.group(1, item))), default=0)).encode()


@cacheable(1)
def twice(call, item):
    return call(highest, item) + b" " + call(highest, item)


@cacheable(2)
def rows(call, *asked):
    return repr(call.rows(Query(*asked))).encode()


class Transactions(unittest.TestCase):
    events, store = None, "sql"

    def setUp(self):
        self.site = Site(self.events, 100, 64, store=self.store)
        self.bid(1, b"110")

    def tearDown(self):
        self.site.close()

    def bid(self, number, body):
        with self.site.write() as write:
            write.put(1, number, 7, body)
        return write.stamp

    def seen(self):
        """The stamp at which the highest bid was read."""
        with self.site.read(now=1000, staleness=30_000) as page:
            page(highest, 7)
        return page.receipt.stamp

    def change(self, at, body, wanted=b"110"):
        """Reads the first bid over a state, and changes it."""
        with self.site.write(at=at) as write:
            self.assertEqual([row.body for row in write.rows(Query.id(1, 1))], [wanted])
            write.put(1, 1, 7, body)
        return write.stamp

    def test_a_receipt_explains_each_answer(self):
        with self.site.read(now=1000, staleness=30_000) as page:
            self.assertEqual(page(twice, 7), b"110 110")
        first = page.receipt
        self.bid(2, b"130")
        with self.site.read(now=2000, staleness=30_000) as page:
            self.assertEqual(page(highest, 7), b"110")
        self.assertEqual(page.receipt, first)
        with self.site.read(now=40_000, staleness=30_000) as page:
            self.assertEqual(page(twice, 7), b"130 130")
        self.assertGreater(page.receipt.stamp, first.stamp)

    def test_an_error_gives_the_transaction_up(self):
        for begin in (lambda: self.site.read(now=0, staleness=0), self.site.write):
            with self.assertRaises(ZeroDivisionError), begin():
                1 / 0
        with self.site.write() as write:
            self.assertEqual([row.body for row in write.rows(Query.all(1))], [b"110"])
            write.remove(1, 1)
        with self.site.write() as write:
            self.assertEqual(write.rows(Query.all(1)), [])

    def test_what_is_refused(self):
        with self.site.read(now=0, staleness=0) as page:
            self.assertRaises(Refused, lambda: page.rows(Query.all(1)))
        with self.site.write() as write:
            self.assertRaises(Refused, lambda: write.put(1, 1, 7, bytes(65_537)))

    def test_bodies_are_any_bytes(self):
        bodies = [b"", bytes(range(256)), b'{"id": 7}' * 2_000, bytes(65_536)]
        with self.site.write() as write:
            for number, body in enumerate(bodies):
                write.put(2, number, 9, body)
        with self.site.write() as write:
            self.assertEqual([row.body for row in write.rows(Query.group(2, 9))], bodies)

    def test_values_are_long(self):
        for count in (1024, 1025, 200_000, MAX_VALUE_LEN):
            long = cacheable(2)(lambda call, it: bytes(it))
            around = cacheable(3)(lambda call, it: call(long, it)[:9])
            with self.site.write() as write:
                self.assertEqual(write(long, count), bytes(count))
            for _ in range(2):  # computed, and from the node
                with self.site.read(now=1000, staleness=30_000) as page:
                    self.assertEqual(page(long, count), bytes(count))
            with self.site.read(now=1000, staleness=30_000) as page:
                self.assertEqual(page(around, count), bytes(9))

    def test_a_function_asks_often(self):
        def reads(count):
            return cacheable(2)(lambda call, it: bytes(len([call.rows(Query.id(1, it)) for _ in range(count)]) % 7))
        with self.site.read(now=1000, staleness=30_000) as page:
            self.assertEqual(page(reads(300), 1), bytes(300 % 7))
            self.assertEqual(page(reads(MAX_ASKS - 1), 2), bytes((MAX_ASKS - 1) % 7))  # what it gives is an ask too
            self.assertRaises(Refused, lambda: page(reads(MAX_ASKS), 3))

    def test_a_trim_leaves_a_budget(self):
        long = cacheable(2)(lambda call, it: bytes(1000 * len(call.rows(Query.id(1, 1)))))
        self.assertEqual(self.site.totals(), Totals(0, 0, 0))
        with self.site.read(now=1000, staleness=30_000) as page:
            for it in range(5):
                page(long, it)
            self.assertEqual(self.site.totals(), Totals(5, 5000, 0))
            self.assertEqual(self.site.trim(5000), 0)
            self.assertEqual(self.site.trim(2999), 3)
            self.assertEqual(self.site.totals(), Totals(2, 2000, 3))
            self.assertEqual(page(long, 0), bytes(1000))
        self.assertEqual(self.site.trim(0), 3)
        self.assertEqual(self.site.totals(), Totals(0, 0, 6))
        self.assertRaises(Refused, lambda: self.site.trim(-1))

    def test_a_site_is_never_over_its_budget(self):
        many = cacheable(2)(lambda call, it, count: bytes(count * len(call.rows(Query.id(1, 1)))))
        for wrong in (0, -1, 2**64):
            self.assertRaises(Refused, lambda: Site(max_bytes=wrong))
        with Site(max_bytes=5000) as site:
            with site.write() as write:
                write.put(1, 1, 7, b"110")
            with site.read(now=1000, staleness=30_000) as page:
                for it in range(300):
                    page(many, it, it * 37 % 6000)  # some alone are over the budget
                    self.assertLessEqual(site.totals().bytes, 5000)
                held = site.totals()
                self.assertEqual(page(many, 1000, 5001), bytes(5001))
                self.assertEqual(site.totals(), held)  # it was not kept, and nothing went for it
                self.assertEqual(page(many, 1001, 5000), bytes(5000))
                self.assertEqual(site.totals()[:2], (1, 5000))

    def test_without_a_budget_nothing_is_trimmed(self):
        many = cacheable(2)(lambda call, it: bytes(100_000 * len(call.rows(Query.id(1, 1)))))
        with self.site.read(now=1000, staleness=30_000) as page:
            for it in range(100):
                page(many, it)
        self.assertEqual(self.site.totals(), Totals(100, 10_000_000, 0))

    def test_an_update_is_not_lost(self):
        stamp = self.seen()
        self.assertEqual(self.seen(), stamp)
        self.assertEqual(self.change(stamp, b"120"), stamp + 1)
        self.assertRaises(Conflict, lambda: self.change(stamp, b"115"))
        self.assertEqual(self.change(None, b"125", wanted=b"120"), stamp + 2)

    def test_what_a_function_reads_is_read(self):
        stamp = self.seen()
        with self.site.write(at=stamp) as write:
            self.assertEqual(write(twice, 7), b"110 110")
            self.assertRaises(ZeroDivisionError, lambda: write(cacheable(2)(lambda call: 1 / 0)))
            self.assertRaises(Refused, lambda: write(cacheable(2)(lambda call: bytes(MAX_VALUE_LEN + 1))))
            write.put(2, 1, 0, b"seen")
        self.bid(2, b"130")
        with self.assertRaises(Conflict), self.site.write(at=stamp) as write:
            self.assertEqual(write(highest, 7), b"110")
            write.put(2, 1, 0, b"late")
        with self.site.write(at=stamp) as write:
            self.assertEqual(write.rows(Query.all(3)), [])
            write.put(3, 1, 0, b"other")

    def test_what_cannot_begin(self):
        for events in (0, MAX_EVENTS + 1, -1, 2**64):
            self.assertRaises(Refused, lambda: Site(events, 100, 64))
        self.assertRaises(Refused, lambda: Site(None, MAX_CAPACITY + 1))
        Site(None, MAX_CAPACITY).close()
        for stamp in (-1, 2, LAST_STAMP, LAST_STAMP + 1, 2**32):
            self.assertRaises(Refused, lambda: self.site.write(at=stamp))
        for stamp in (-1, LAST_STAMP + 1, 2**32 + 1):
            self.assertRaises(Refused, lambda: self.site.read(0, 0, at_least=stamp))
        with self.site.read(0, 0, at_least=LAST_STAMP):
            pass

    def test_each_failure_says_what_failed(self):
        with self.site.write() as write:
            for number in range(256):
                write.put(2, number, 0, b"")
            self.assertRaisesRegex(Refused, "the transaction has 256 changes, and keeps no more", write.put, 2, 256, 0, b"")
        self.assertRaisesRegex(Refused, "the stamp 9 can't be read: it is below the oldest that can, or beyond the newest", self.site.write, 9)
        self.assertRaisesRegex(Refused, "4294967296 is not from 0 to 4,294,967,295", self.site.write, 2**32)
        with self.site.write() as write:
            self.assertRaisesRegex(Refused, "a body is longer than 65,536 bytes", write.put, 1, 1, 7, bytes(65_537))
        with self.site.read(1000, 30_000) as page:
            self.assertRaisesRegex(Refused, "the function gives 1,048,577 bytes, of at most 1,048,576", page, cacheable(2)(lambda call: bytes(MAX_VALUE_LEN + 1)))
            self.assertRaisesRegex(Refused, "the call has made 4,096 queries and calls", page, cacheable(2)(lambda call: [call.rows(Query.id(1, 1)) for _ in range(5000)]))
            self.assertRaisesRegex(Refused, "a function called one whose number is not lower", page, cacheable(0)(lambda call: call(twice, 7)))
        with Site(1, store=self.store) as site:
            with site.write() as write:
                write.put(1, 1, 7, b"")
            self.assertRaisesRegex(Refused, "the 1 events that the site has room for are used up, or the present can't be pinned", site.pin, 0)
            with self.assertRaisesRegex(Refused, "the 1 events that the site has room for are used up, or the commit failed"), site.write() as write:
                write.put(1, 2, 7, b"")
        self.assertRaisesRegex(Refused, "events and max_bytes are at least 1, or None", Site, 0)
        self.assertRaisesRegex(Refused, "txc_keep returned 99", _refuse, 99, _TXC.keep)

    def test_below_the_horizon_nothing_is_read(self):
        self.assertEqual(self.bid(1, b"120"), 2)
        self.assertEqual(self.site.keep(0, 0).horizon, 2)
        with self.assertRaises(Refused), self.site.write(at=1) as write:
            write.rows(Query.all(1))
        self.assertEqual(self.change(2, b"130", wanted=b"120"), 3)

    def test_numbers_are_not_cut(self):
        with self.site.write() as write:
            for wrong in (lambda: write.put(257, 1, 7, b"1"), lambda: write.remove(1, 2**32 + 1), lambda: write.rows(Query.all(257)),
                          lambda: write.rows(Query.id(1, 2**32 + 1))):
                self.assertRaises(Refused, wrong)
        with self.site.write() as write:
            self.assertEqual([row.body for row in write.rows(Query.all(1))], [b"110"])

    def test_pins_stay_for_their_age(self):
        self.seen()
        newest = self.bid(2, b"130")
        self.assertEqual(self.site.keep(2000, 30_000).retired, 0)
        self.assertEqual(self.site.keep(40_000, 30_000), Kept(1, newest, 1))


class StoredTransactions(Transactions):
    events = 1000


class PlainTransactions(Transactions):
    store = "plain"


class StoredPlainTransactions(Transactions):
    events, store = 1000, "plain"


class Stores(unittest.TestCase):
    def test_a_store_has_a_name(self):
        for wrong in ("sqlite", "SQL", 1, None):
            self.assertRaisesRegex(ValueError, f"store is {wrong!r}, and is one of 'sql', 'plain'", Site, store=wrong)
        Site().close()

    def test_a_number_that_is_no_store_is_refused(self):
        with mock.patch.dict("txcache.site._STORES", {"other": 2}):
            self.assertRaises(Refused, Site, store="other")

    def test_both_return_the_same(self):
        for seed in range(20):
            said = [self.played(random.Random(seed), store) for store in ("sql", "plain")]
            self.assertEqual(*said)

    def played(self, rand, store):
        """Returns what queries return beside changes, all by chance."""
        said, stamps = [], [0]
        with Site(None, 100, 64, store=store) as site:
            for step in range(60):
                with site.write() as write:
                    for _ in range(rand.randrange(1, 6)):
                        table, number = rand.randrange(3), rand.choice((0, 1, 5, 2**32 - 1, rand.randrange(40)))
                        if rand.random() < 0.3:
                            write.remove(table, number)
                        else:
                            write.put(table, number, rand.choice((0, 7, 2**32 - 1)), bytes(rand.randrange(30)))
                stamps += [write.stamp, site.pin(1000 * step)]
                said.append(site.keep(1000 * step, 20_000))
                at = rand.choice([it for it in stamps if it >= said[-1].horizon])
                with contextlib.suppress(Conflict), site.write(at=at) as old, site.read(1000 * step, 20_000) as page:
                    for asked in (Query.all(rand.randrange(3)), Query.id(rand.randrange(3), rand.randrange(6)), Query.group(rand.randrange(3), 7),
                                  Query.range(rand.randrange(3), rand.randrange(20), rand.choice((25, 2**32 - 1)))):
                        said += [old.rows(asked), page(rows, *asked)]
                said.append((page.receipt, old.stamp))
        return said
