"""The site beneath a cache: what threads have of their own in it."""

import ctypes
import threading
import time
import unittest
from unittest import mock

from txcache import _calls, _versions


def digest(number):
    return number.to_bytes(16, "big")


class Rooms(unittest.TestCase):
    def setUp(self):
        self.versions = _versions.Versions(64)
        self.addCleanup(self.versions.close)
        self.versions.touch([1], 1)
        self.versions.pin(1)
        txn = self.begun()
        for number in range(2):
            self.versions.call(txn, self.key(number))
            self.versions.ask(txn, 1)
            self.versions.finish(txn, self.value(number))
        self.versions.commit(txn)

    def begun(self):
        return self.versions.begin(1, 1, 0)

    def key(self, number):
        return self.versions.key(0, digest(number))

    @staticmethod
    def value(number):
        return b"%d" % number * 10_000  # longer than a room is at first

    def hit(self, number, into):
        txn = self.begun()
        into[number] = self.versions.call(txn, self.key(number))
        self.versions.commit(txn)

    def side_by_side(self, after):
        """Has two threads ask for a hit each, which stop as `after` says once the library has answered. Returns what they got."""
        found, real = {}, _versions._CALL

        def call(*words):
            number = real(*words)
            after()
            return number

        with mock.patch("txcache._versions._CALL", call):
            threads = [threading.Thread(target=self.hit, args=(number, found), daemon=True) for number in range(2)]
            for it in threads:
                it.start()
            for it in threads:
                it.join(30)
        return found

    def test_a_hit_is_read_where_nobody_else_writes(self):
        """Each thread reads its value once both have been answered."""
        both = threading.Barrier(2)
        for _ in range(3):  # with new rooms, with longer ones, and with those that are free
            self.assertEqual(self.side_by_side(lambda: both.wait(30)), {0: self.value(0), 1: self.value(1)})

    def test_a_thread_that_stops_in_mid_hit_holds_nobody_up(self):
        """As one does that waits for the interpreter's lock."""
        others, first = {}, threading.Lock()

        def after():
            if first.acquire(False):
                other = threading.Thread(target=self.all_else, args=(others,), daemon=True)
                other.start()
                other.join(60)
                others["has ended"] = not other.is_alive()

        self.assertEqual(self.side_by_side(after), {0: self.value(0), 1: self.value(1)})
        self.assertEqual(others, {0: self.value(0), 1: self.value(1), "entries": 2, "has ended": True})

    def all_else(self, found):
        for number in range(2):
            self.hit(number, found)
        self.versions.touch([2, 3], 2)
        self.versions.pin(2)
        self.versions.keep(2)
        self.versions.trim(10**9)
        found["entries"] = self.versions.totals().entries

    def test_a_room_of_a_call_that_failed_is_used_no_more(self):
        before = len(self.versions._free)
        with mock.patch("txcache._versions._CALL", side_effect=KeyboardInterrupt):
            self.assertRaises(KeyboardInterrupt, self.versions.call, self.begun(), self.key(0))
        self.assertEqual(len(self.versions._free), before - 1)

    def test_its_rows_are_in_the_plain_store(self):
        with mock.patch.object(_versions._TXC, "site_open", side_effect=_versions._TXC.site_open) as opened:
            _versions.Versions(64).close()
        (_, settings), = [it.args for it in opened.call_args_list]
        self.assertEqual((settings.size, settings.store), (ctypes.sizeof(_calls.Settings), _calls.STORE_PLAIN))

    def test_without_the_interpreters_lock_calls_take_turns(self):
        at_once, most = [0], [0]

        def work():
            at_once[0] += 1
            most[0] = max(most[0], at_once[0])
            time.sleep(0.005)
            at_once[0] -= 1
            return 7

        calls = _calls.one_at_a_time({"one": work, "other": work}, has_lock=False)
        threads = [threading.Thread(target=it) for it in list(calls.values()) * 4]
        for it in threads:
            it.start()
        for it in threads:
            it.join()
        self.assertEqual((most, calls["one"](), calls["one"].__name__), ([1], 7, "work"))
        self.assertIs(_calls.one_at_a_time({"one": work}, has_lock=True)["one"], work)


if __name__ == "__main__":
    unittest.main()
