"""Many transactions open at one site: in blocks within blocks, in threads, forgotten, and in a forked child."""

import ctypes
import gc
import os
import sys
import threading
import unittest
from concurrent.futures import ThreadPoolExecutor

from txcache import _library
from txcache.node import MAX_VALUE_LEN
from txcache.site import Conflict, GivenUp, Member, Query, Refused, Site, cacheable


@cacheable(0)
def bids(call, item):
    return b",".join(row.body for row in call.rows(Query.group(1, item)))


@cacheable(1)
def fails(call):
    raise ZeroDivisionError


class ManyTransactions(unittest.TestCase):
    events = None

    def setUp(self):
        self.site = Site(self.events, renew_after=20_000)
        self.addCleanup(lambda: self.site.close())
        self.bid(1, 7, b"110")

    def bid(self, number, item, body):
        with self.site.write() as write:
            write.put(1, number, item, body)
        return write.stamp

    def page(self):
        return self.site.read(now=1000, staleness=30_000)

    def is_none_open(self):
        self.assertEqual((self.site.open_transactions(), self.site.oldest_open()), (0, None))

    def test_nobody_waits_for_anothers_function(self):
        begun, written = threading.Barrier(9, timeout=20), threading.Barrier(9, timeout=20)

        @cacheable(3)
        def twice(call, item):
            before = bids(call, 7)
            begun.wait()
            written.wait()
            return before + b" " + bids(call, 7)

        def shown(item):
            with self.page() as page:
                text = page(twice, item)
            return text, page.receipt.answers, page.receipt.moment

        with ThreadPoolExecutor(8) as threads:
            pages = [threads.submit(shown, item) for item in range(8)]
            begun.wait()
            self.assertEqual(self.site.open_transactions(), 8)
            self.bid(2, 7, b"130")
            self.site.keep(1000, 0)
            written.wait()
            self.assertEqual([it.result() for it in pages], [(b"110 110", 1, 1000)] * 8)
        self.is_none_open()

    def test_blocks_within_blocks(self):
        @cacheable(2)
        def outer(call):
            before = call(bids, 7)
            self.bid(2, 7, b"130")
            with self.site.read(now=40_000, staleness=100) as other:
                newer = other(bids, 7)
            return before + b" " + newer + b" " + bids(call, 7)

        with self.page() as first, self.page() as second:
            self.assertEqual(first(bids, 7), b"110")
            self.assertEqual(second(outer), b"110 110,130 110")
            with self.site.write() as write:
                write.put(1, 3, 7, b"150")
            self.assertEqual(first(bids, 7), b"110")
        self.assertEqual(first.receipt.moment, second.receipt.moment)
        self.is_none_open()

    def test_writers_within_writers(self):
        with self.assertRaises(Conflict), self.site.write() as outer:
            self.assertEqual(len(outer.rows(Query.group(1, 7))), 1)
            self.bid(2, 7, b"130")
            self.site.keep(0, 0)
            self.assertEqual(len(outer.rows(Query.group(1, 7))), 1)
            outer.put(1, 3, 7, b"115")
        self.is_none_open()

    def test_what_ends_by_an_exception_is_aborted(self):
        with self.assertRaises(ZeroDivisionError), self.page() as page, self.site.write() as write:
            write.remove(1, 1)
            page(fails)
        self.is_none_open()
        self.assertRaises(Refused, lambda: page(bids, 7))
        self.assertRaises(Refused, lambda: write.rows(Query.all(1)))
        self.assertEqual((page.number, write.number, page.receipt, write.stamp), (0, 0, None, None))

    def test_what_is_collected_is_aborted(self):
        page, write = self.page(), self.site.write()
        write.remove(1, 1)
        cycle = [page]
        cycle.append(cycle)
        self.assertEqual(self.site.open_transactions(), 2)
        del page, write, cycle
        gc.collect()
        self.is_none_open()
        self.page()
        self.is_none_open()

    def test_a_finaliser_waits_for_no_lock(self):
        pages, held, is_over, is_collected = [self.page()], threading.Event(), threading.Event(), threading.Event()

        def hold():
            with self.site._lock:
                held.set()
                is_over.wait()

        def collect():
            pages.clear()
            is_collected.set()

        threads = [threading.Thread(target=it) for it in (hold, collect)]
        threads[0].start()
        held.wait()
        threads[1].start()
        has_waited = not is_collected.wait(10)
        is_over.set()
        for it in threads:
            it.join()
        self.assertFalse(has_waited)
        self.is_none_open()

    def test_another_thread_is_refused_in_mid_call(self):
        def tried(ask):
            with ThreadPoolExecutor(1) as thread:
                return thread.submit(ask).exception()

        @cacheable(2)
        def asks_elsewhere(call):
            for ask in (lambda: call(bids, 7), lambda: bids(call, 7), lambda: page(bids, 7), page.read_stamp, page.members, lambda: write(bids, 7)):
                refused.append(type(tried(ask)))
            return bids(call, 7)

        refused = []
        with self.page() as page, self.site.write() as write:
            self.assertEqual(page(asks_elsewhere), b"110")
            self.assertIsNone(tried(lambda: page(bids, 7)))
        self.assertEqual(refused, [Refused] * 5 + [type(None)])
        self.assertEqual(page.receipt.answers, 2)

    def test_no_function_asks_once_its_call_was_given_up(self):
        @cacheable(2)
        def goes_on(call):
            for function, args in ((bids, (7,)), (fails, ())):
                try:
                    call(function, *args)
                except ZeroDivisionError:
                    pass
            self.assertRaises(GivenUp, lambda: call.rows(Query.all(1)))
            self.assertRaises(GivenUp, lambda: call(bids, 7))
            self.assertRaises(GivenUp, lambda: page(bids, 7))
            return b"as if nothing had been"

        @cacheable(2)
        def upward(call):
            self.assertRaises(Refused, lambda: call(goes_on))
            return bids(call, 7)

        @cacheable(2)
        def too_long(call):
            self.assertRaises(Refused, lambda: call(cacheable(1)(lambda call: bytes(MAX_VALUE_LEN + 1))))
            return b""

        with self.page() as page:
            for function in (goes_on, upward, too_long):
                self.assertRaises(GivenUp, lambda: page(function))
            self.assertEqual(page(bids, 7), b"110")
        self.assertEqual(page.receipt.answers, 1)

    def test_a_bad_argument_gives_nothing_up(self):
        @cacheable(2)
        def careless(call):
            self.assertRaises(Refused, lambda: call.rows(Query.all(16)))
            self.assertRaises(Refused, lambda: call.rows(Query.all(256)))
            self.assertRaises(Refused, lambda: call(bids, 1, 2, 3, 4, 5))
            return bids(call, 7)

        with self.page() as page:
            self.assertEqual(page(careless), b"110")
        self.assertEqual(page.receipt.answers, 1)

    def test_a_function_that_has_ended_asks_nothing(self):
        kept = []

        @cacheable(2)
        def keeps(call):
            kept.append(call)
            return bids(call, 7)

        with self.page() as page:
            page(keeps)
            self.assertRaises(GivenUp, lambda: kept[0](bids, 7))
            self.assertRaises(GivenUp, lambda: kept[0].rows(Query.all(1)))
        self.assertEqual(page.receipt.answers, 1)

    def test_forgotten_ones_are_aborted_by_their_numbers(self):
        first, second = self.page(), self.site.write()
        self.assertEqual((self.site.open_transactions(), self.site.oldest_open()), (2, first.number))
        self.assertGreater(second.number, first.number)
        self.site.abort(first.number)
        self.assertRaises(Refused, lambda: self.site.abort(first.number))
        self.assertRaises(Refused, lambda: first(bids, 7))
        self.assertEqual(self.site.oldest_open(), second.number)
        self.site.abort(second.number)
        self.is_none_open()

    def test_pins_and_stamps(self):
        with self.site.read(now=1000, staleness=500) as page:
            self.assertEqual((page.members(), page.read_stamp()), ([], None))
        first, second = self.site.pin(900), self.site.pin(950)
        self.bid(2, 7, b"130")
        with self.site.read(now=1000, staleness=500) as page:
            self.assertEqual(page.members(), [Member(second, 950), Member(first, 900)])
            self.assertEqual((page.read_stamp(), page(bids, 7)), (second, b"110"))
        self.assertEqual(page.receipt[1:], (second, 950))
        with self.site.write(at=first) as write:
            self.assertEqual(write.read_stamp(), first)

    def test_a_forked_child_is_refused(self):
        page = self.page()

        def tried():
            for ask in (self.site.write, self.page, lambda: page(bids, 7), page.members, self.site.open_transactions, lambda: self.site.keep(0, 0), self.site.close):
                self.assertRaises(Refused, ask)
            self.assertRaises(Refused, lambda: page.__exit__(None, None, None))
            with self.assertRaises(ZeroDivisionError), page:
                1 / 0
            with self.site:
                pass
            with Site() as own, own.write() as write:
                self.assertEqual(write.rows(Query.all(1)), [])

        child = os.fork()
        if not child:
            try:
                tried()
                os._exit(0)
            except BaseException:
                sys.excepthook(*sys.exc_info())
                os._exit(1)
        self.assertEqual(os.waitpid(child, 0)[1], 0)
        self.assertEqual(page(bids, 7), b"110")
        page.__exit__(None, None, None)
        self.assertEqual(page.receipt.answers, 1)

    def test_a_fork_while_the_lock_is_held(self):
        held, is_over = threading.Event(), threading.Event()

        def hold():
            with self.site._lock:
                held.set()
                is_over.wait()

        thread = threading.Thread(target=hold)
        thread.start()
        held.wait()
        child = os.fork()
        if not child:
            try:
                self.site.read(0, 0)
            except Refused:
                del self.site
                gc.collect()
                os._exit(0)
            os._exit(1)
        status = os.waitpid(child, 0)[1]
        is_over.set()
        thread.join()
        self.assertEqual(status, 0)

    def test_a_site_is_closed_beside_what_is_open(self):
        page, write = self.page(), self.site.write()
        self.site.close()
        for ask in (lambda: page(bids, 7), lambda: write.put(1, 1, 1, b"1"), self.site.write):
            self.assertRaises(Refused, ask)
        self.assertRaises(Refused, lambda: page.__exit__(None, None, None))
        del page, write


class ManyStoredTransactions(ManyTransactions):
    events = 10_000


class Random(unittest.TestCase):
    """Eight threads at random beside a plain model: what each page was answered is the model's at the stamp of its receipt."""

    def test_eight_threads(self):
        site, states, lock = Site(None, 64, 64, 5), {0: {}}, threading.Lock()

        @cacheable(1)
        def group(call, number):
            return b",".join(row.body for row in call.rows(Query.group(1, number)))

        @cacheable(2)
        def both(call, one, other):
            return call(group, one) + b";" + call(group, other)

        def write(rng):
            with lock:  # the model's, for all of it: so its states are in the order of the stamps
                number, to, body = rng.randrange(16), rng.randrange(4), str(rng.randrange(1000)).encode()
                with site.write() as it:
                    it.put(1, number, to, body)
                newest = states[max(states)]
                states[it.stamp] = {**newest, number: (to, body)}

        def page(rng, now):
            asked = []
            with site.read(now, rng.randrange(100)) as it:
                for _ in range(rng.randrange(1, 4)):
                    one, other = rng.randrange(4), rng.randrange(4)
                    asked.append((one, other, it(both, one, other)))
            return it.receipt.stamp, asked

        def act(seed):
            import random
            rng, shown = random.Random(seed), []
            for now in range(0, 3000, 10):
                if rng.random() < 0.3:
                    write(rng)
                elif rng.random() < 0.05:
                    site.keep(now, 200)
                else:
                    shown.append(page(rng, now))
            return shown

        with ThreadPoolExecutor(8) as threads:
            shown = [it for pages in threads.map(act, range(8)) for it in pages]
        stamps = sorted(states)
        for stamp, asked in shown:
            at = max(it for it in stamps if it <= stamp)
            of = lambda number: b",".join(body for _, (to, body) in sorted(states[at].items()) if to == number)
            for one, other, text in asked:
                self.assertEqual(text, of(one) + b";" + of(other))
        self.assertEqual(site.open_transactions(), 0)
        self.assertGreater(len(shown), 1000)
        site.close()


class Abi(unittest.TestCase):
    def test_a_library_of_another_header_is_refused(self):
        class Other:
            txc_abi = staticmethod(lambda: 1)

        self.assertRaises(ImportError, lambda: _library._checked(Other(), "other.so"))
        self.assertRaises(ImportError, lambda: _library._checked(object(), "older.so"))
        self.assertEqual(_library.load(ctypes.PyDLL).txc_abi(), _library.ABI)


if __name__ == "__main__":
    unittest.main()
