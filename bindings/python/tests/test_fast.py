"""The extension of C: it says what ctypes says, keeps no reference that it should give back and gives back none that it should keep."""

import ctypes as c
import gc
import os
import sqlite3
import subprocess
import sys
import tempfile
import threading
import time
import unittest
from unittest import mock

from txcache import _fast
from txcache._fast import FASTEST
from txcache._versions import Refused, Versions
from txcache.cache import TxCache
from txcache.sqlite import SqliteStore

from . import skipped
from .cases import Case, OfSqlite

HAS_IT = _fast._C is not None
IS_WATCHED = "asan" in os.environ.get("LD_PRELOAD", "")  # by a sanitizer, which keeps what was freed
PYTHON = os.path.dirname(os.path.dirname(os.path.abspath(__file__)))


def memory() -> int:
    """Returns the memory of this process, in KiB."""
    with open("/proc/self/status", encoding="ascii") as file:
        return next(int(line.split()[1]) for line in file if line.startswith("VmRSS:"))


class Extension(unittest.TestCase):
    def setUp(self):
        if not HAS_IT:
            self.skipTest(skipped("the extension of C", "it was not built, or TXC_FAST is 0"))


class Sites(Extension):
    """A site by the extension, and one by ctypes."""

    def setUp(self):
        super().setUp()
        self.fast, self.slow = FASTEST(64), Versions(64)
        self.addCleanup(self.fast.close)
        self.addCleanup(self.slow.close)
        for it in (self.fast, self.slow):
            it.touch([0, 17], 1)
            it.pin(1000)

    def keyed(self, number, args=None, level=1):
        digest = b"%016d" % number
        return self.fast.key(level, digest, args), self.slow.key(level, digest, args)

    def computed(self, versions, key, data):
        """Has a call be computed, which depends on the place 17."""
        txn = versions.begin(1000, 1000, 0)
        self.assertIsNone(versions.call(txn, key))
        versions.ask(txn, 17)
        versions.finish(txn, data)
        return versions.commit(txn)

    def test_it_says_what_ctypes_says(self):
        for number, data in enumerate((b"p", b"\0" * 4096, b"x" * 4097, b"y" * 70_000, bytes(range(256)))):
            said = []
            for versions, key in zip((self.fast, self.slow), self.keyed(number)):
                first = self.computed(versions, key, data)
                txn = versions.begin(1000, 1000, 0)
                found = versions.call(txn, key)
                stamp = versions.read_stamp(txn)
                said.append((first, found == data, stamp, [versions.member(txn, at) for at in range(2)], versions.commit(txn)))
            self.assertEqual(*[str([(it[0][0], tuple(it[0][1])), *it[1:3], [tuple(pin) if pin else None for pin in it[3]], it[4][0], tuple(it[4][1])]) for it in said])
            self.assertEqual(said[0][1], True)

    def test_there_is_no_page_at_no_pin(self):
        for it in (self.fast, self.slow):
            self.assertIsNone(it.begin(1000, 0, 10**6))
            self.assertIsNone(it.begin(10**9, 5, 0))

    def test_a_page_of_no_call_has_no_pin(self):
        self.assertEqual([it.commit(it.begin(1000, 1000, 0)) for it in (self.fast, self.slow)], [(0, None)] * 2)

    def test_what_is_refused_has_the_number(self):
        for it in (self.fast, self.slow):
            for call, words in ((it.commit, (99,)), (it.read_stamp, (99,)), (it.member, (99, 0)), (it.ask, (99, 0)), (it.finish, (99, b"x")), (it.call, (99, it.key(1, b"%016d" % 1)))):
                with self.assertRaisesRegex(Refused, "returned 14") as caught:
                    call(*words)
                self.assertEqual(caught.exception.number, 14)

    def test_numbers_that_are_none_are_refused(self):
        for words, error in ((("1", 1, 1), TypeError), ((-1, 1, 1), OverflowError), ((1, 2**64, 1), OverflowError), ((1, 1, 2**32), OverflowError), ((1, 1), TypeError)):
            self.assertRaises(error, self.fast.begin, *words)
        self.assertRaisesRegex(TypeError, "by its key", self.fast.call, 1, b"key")
        self.assertRaisesRegex(TypeError, "a dictionary", self.fast.hit, 1, [], ())
        self.assertRaisesRegex(TypeError, "are keys", self.fast.hit, 1, {(1,): b"key"}, (1,))
        self.assertRaises(TypeError, self.fast.finish, 1, "text")
        self.assertRaises(OverflowError, self.fast.key, 64, b"%016d" % 1)
        self.assertRaisesRegex(ValueError, "has 16 bytes, and this one 3", self.fast.key, 1, b"abc")
        self.assertRaises(TypeError, self.fast.key, 1, b"%016d" % 1, [1])

    def test_a_hit_is_of_equal_arguments_of_the_same_types(self):
        known = {(it,): self.keyed(number, (it,))[0] for number, it in enumerate((1, "1", b"1", None))}
        for args, key in known.items():
            self.computed(self.fast, key, repr(args).encode())
        txn = self.fast.begin(1000, 1000, 0)
        for args in known:
            self.assertEqual(self.fast.hit(txn, known, args), repr(args).encode())
        self.assertEqual([self.fast.hit(txn, known, args) for args in ((True,), (1.0,), (2,), ([],), ())], [None] * 5)
        self.assertEqual(self.fast.commit(txn)[0], 4)

    def test_what_is_asked_is_the_place(self):
        """A result goes with the place that it asked for, and with no other."""
        for versions, key in zip((self.fast, self.slow), self.keyed(1)):
            self.computed(versions, key, b"of 17")
            for place, data in ((16, b"of 17"), (33, b"of 17"), (1, b"of 17"), (17, None)):
                versions.touch([place], 2)
                stamp = versions.pin(2000 + place)
                txn = versions.begin(2000 + place, 0, stamp)
                self.assertEqual(versions.call(txn, key), data)
                versions.give_up(txn)
                versions.abort(txn)

    def test_a_call_within_a_call_is_of_a_lower_level(self):
        for versions, outer, inner in zip((self.fast, self.slow), self.keyed(1, level=2), self.keyed(2, level=1)):
            txn = versions.begin(1000, 1000, 0)
            self.assertIsNone(versions.call(txn, outer))
            self.assertIsNone(versions.call(txn, inner))
            versions.ask(txn, 17)
            versions.finish(txn, b"inner")
            versions.finish(txn, b"outer")
            self.assertEqual((versions.call(txn, inner), versions.call(txn, outer), outer.level), (b"inner", b"outer", 2))
            self.assertEqual(versions.commit(txn)[0], 3)

    def test_a_hit_that_is_none_leaves_no_call_open(self):
        key = self.keyed(1, (1,))[0]
        txn = self.fast.begin(1000, 1000, 0)
        self.assertIsNone(self.fast.hit(txn, {(1,): key}, (1,)))
        self.assertEqual(self.fast.commit(txn), (0, None))

    def test_references_stay_as_they_are(self):
        digest, args, data = b"%016d" % 10**15, (10**30,), b"v" * 1000
        key = self.fast.key(1, digest, args)
        self.computed(self.fast, key, data)
        known, number = {args: key}, 10**15
        them = digest, args, args[0], data, key, known, _fast._C.Key, number

        def some():
            txn = self.fast.begin(number, number, 0)
            self.fast.hit(txn, known, args), self.fast.hit(txn, known, (10**30,)), self.fast.call(txn, key), self.fast.member(txn, 0), self.fast.read_stamp(txn)
            self.fast.commit(txn)
            self.fast.key(1, digest, args).digest, key.args, key.level
            for call, words in ((self.fast.commit, (txn,)), (self.fast.key, (1, args)), (self.fast.hit, (txn, {args: args}, args)), (self.fast.finish, (txn, data))):
                self.assertRaises(Exception, call, *words)

        some()
        before = [sys.getrefcount(it) for it in them]
        for _ in range(200):
            some()
        self.assertEqual([sys.getrefcount(it) for it in them], before)
        del them
        known.clear()
        gc.collect()
        self.assertEqual((key.args, key.digest), (args, digest))

    @unittest.skipIf(IS_WATCHED, "a sanitizer keeps what was freed")
    def test_memory_stays_flat(self):
        digest, args = b"%016d" % 1, (1,)
        key = self.fast.key(1, digest, args)
        self.computed(self.fast, key, b"v" * 2000)

        def some():
            for _ in range(20_000):
                txn = self.fast.begin(1000, 1000, 0)
                self.fast.hit(txn, {args: key}, args), self.fast.call(txn, self.fast.key(1, digest, (2,)))
                self.fast.commit(txn)

        some()
        before = memory()
        some()
        self.assertLess(memory() - before, 2_000)  # 20,000 objects that stay are more

    def test_a_site_that_is_no_more_frees_what_it_has(self):
        def some():
            for _ in range(300):
                _fast._C.Site(_fast._library.path(), self.fast._site, c.addressof(self.fast._site), _fast._C.Key, str)

        some()
        before, count = memory(), sys.getrefcount(self.fast._site)
        some()
        if not IS_WATCHED:
            self.assertLess(memory() - before, 600)
        self.assertEqual(sys.getrefcount(self.fast._site), count)
        self.assertRaises(ImportError, _fast._C.Site, "/no/such/library", None, 0, _fast._C.Key, str)
        self.assertRaisesRegex(ImportError, "txc_begin", _fast._C.Site, _fast._C.__file__, None, 0, _fast._C.Key, str)


class Choice(unittest.TestCase):
    """Which of the two serves."""

    def said(self, **more):
        words = "from txcache import _fast; print(_fast.FASTEST.__name__)"
        return subprocess.run([sys.executable, "-c", words], stdout=subprocess.PIPE, stderr=subprocess.STDOUT, text=True, cwd=PYTHON, env={**os.environ, **more}).stdout

    def test_ctypes_serves_where_it_is_not_wanted_or_not_there(self):
        self.assertEqual(self.said(TXC_FAST="0"), "Versions\n")
        with tempfile.TemporaryDirectory() as folder:
            os.symlink(os.path.abspath(_fast._library.path()), f"{folder}/libtxc_c.so")
            self.assertEqual(self.said(TXC_LIBRARY=folder), "Versions\n")
        if HAS_IT:
            self.assertEqual(self.said(), "FastVersions\n")

    def test_one_of_another_form_is_not_taken(self):
        if not HAS_IT:
            self.skipTest(skipped("the extension of C", "it was not built, or TXC_FAST is 0"))
        with mock.patch.object(_fast._library, "ABI", 1):
            self.assertRaisesRegex(ImportError, f"TXC_ABI {_fast._C.ABI}, and this package needs 1 and 1: make library again", _fast._loaded)
        with mock.patch.object(_fast, "FORM", 0):
            self.assertRaisesRegex(ImportError, "is of form 1 .* needs 0", _fast._loaded)


class Pages(OfSqlite, Case):
    """Hits of pages whose keys are known."""

    def setUp(self):
        if not HAS_IT:
            self.skipTest(skipped("the extension of C", "it was not built, or TXC_FAST is 0"))
        super().setUp()
        self.open()
        self.assertEqual([self.page((self.balance, 0), (self.highest, 7)) for _ in range(2)], [[100, 110]] * 2)
        self.assertEqual(self.counts(), (2, 0))

    def test_a_function_that_was_cleared(self):
        self.bids.cache_clear()
        self.assertEqual(self.page((self.balance, 0), (self.highest, 7)), [100, 110])
        self.assertEqual(self.counts(), (1, 2))

    def test_a_cache_that_was_cleared(self):
        self.cache.clear()
        self.assertEqual(self.page((self.balance, 0), (self.highest, 7)), [100, 110])
        self.assertEqual(self.counts(), (0, 3))

    def test_no_hit_waits_for_what_another_thread_computes(self):
        began, goes_on = threading.Event(), threading.Event()

        @self.cache.cacheable
        def slow(db, number):
            began.set()
            return goes_on.wait(60)

        thread = threading.Thread(target=self.cache.run, args=(slow, 1), kwargs={"max_age": 60.0})
        thread.start()
        self.assertTrue(began.wait(60))
        self.assertEqual(self.page((self.balance, 0), (self.highest, 7)), [100, 110])
        self.assertEqual(self.counts(), (2, 0))
        goes_on.set()
        thread.join()


class Threads(Extension):
    def test_pages_beside_looks_and_trims(self):
        """Threads that read and compute beside calls by ctypes: each value is that of its arguments."""
        with tempfile.TemporaryDirectory() as room:
            store = SqliteStore(f"{room}/a.db", {"a": ["id"]})
            link = sqlite3.connect(f"{room}/a.db", isolation_level=None)
            link.execute("CREATE TABLE a (id INTEGER PRIMARY KEY, b INTEGER)")
            store.install()
            cache = TxCache(store, capacity=300, max_bytes=20_000, refresh=0.005)

            @cache.cacheable
            def value(db, number):
                return (number, "x" * (number % 700))

            wrong, ended = [], time.monotonic() + 2

            def read(seed):
                number = seed
                while time.monotonic() < ended:
                    number = (number * 48_271 + 11) % 2_147_483_647
                    with cache.read(60.0):
                        for it in range(4):
                            asked = (number + it) % 500
                            if value(asked) != (asked, "x" * (asked % 700)):
                                wrong.append(asked)

            threads = [threading.Thread(target=read, args=(seed,)) for seed in range(1, 7)]
            for it in threads:
                it.start()
            for it in threads:
                it.join()
            link.close()
            hits = cache.stats()["hits"]
            cache.close()
            self.assertEqual(wrong, [])
            self.assertGreater(hits, 100)


if __name__ == "__main__":
    unittest.main()
