"""The follower of snapshots: over a SQLite file, and over a store that says what a test wants."""

import logging
import os
import shutil
import sqlite3
import tempfile
import threading
import unittest

from txcache._follower import Follower
from txcache._layout import Layout
from txcache._store import Look, db_of
from txcache.errors import NotInstalled, SnapshotLost, SnapshotRefused
from txcache.sqlite import SqliteStore


class Snapshot:
    layout = Layout([], "?", ("0", "1"))

    def __init__(self):
        self.is_open, self.is_lost = True, False

    def close(self):
        self.is_open = False


class Told:
    """A store whose looks are a list: a set of tags, a text (cold), None (no snapshot was needed) or an error."""

    def __init__(self, *looks):
        self.looks, self.marks, self.snapshots, self.needs_air, self.aired = list(looks), [], [], (), 0

    def look(self, last, is_wanted=True):
        self.marks.append((last, is_wanted))
        found = self.looks.pop(0)
        if isinstance(found, Exception):
            raise found
        if found is None:
            return Look(None, last, frozenset())
        self.snapshots.append(Snapshot())
        mark = len(self.marks)
        return Look(self.snapshots[-1], mark, None, found) if isinstance(found, str) else Look(self.snapshots[-1], mark, frozenset(found))

    def wants_air(self, is_read):
        return is_read in self.needs_air

    def air(self):
        self.aired += 1

    def close(self):
        pass


class Looks(unittest.TestCase):
    def setUp(self):
        logging.getLogger("txcache").setLevel(logging.ERROR)
        self.addCleanup(logging.getLogger("txcache").setLevel, logging.NOTSET)
        self.now = 0.0

    def follower(self, *looks, hold=10.0, every=0.0):
        self.store = Told(*looks)
        self.is_read = False
        return Follower(self.store, hold, lambda: self.now, every, lambda: self.is_read)

    def open(self):
        return [it.is_open for it in self.store.snapshots]

    def test_a_step_has_a_number_and_its_tags(self):
        it = self.follower("the first snapshot", {"a"}, {"b"})
        steps = [it.look() for _ in range(3)]
        self.assertEqual([(step.number, step.tags, step.cold) for step in steps],
                         [(1, frozenset(), "the first snapshot"), (2, {"a"}, ""), (3, {"b"}, "")])
        self.assertEqual((it.numbers, self.open()), ([1, 2, 3], [True] * 3))
        self.assertIs(it.snapshot(2), self.store.snapshots[1])
        self.assertEqual([last for last, _ in self.store.marks], [None, 1, 2])

    def test_the_moment_is_before_the_snapshot(self):
        it = self.follower("the first snapshot")
        look = self.store.look
        self.store.look = lambda *words, **named: setattr(self, "now", 5.0) or look(*words, **named)
        self.assertEqual(it.look().moment, 0.0)

    def test_where_nothing_changed_the_new_one_takes_over_in_time(self):
        it = self.follower("the first snapshot", set(), set(), {"a"}, set(), hold=10.0)
        numbers = []
        for self.now in (0.0, 5.0, 6.0, 7.0, 8.0):
            numbers.append(it.look().number)
        self.assertEqual((numbers, it.numbers), ([1, 1, 1, 2, 2], [1, 2]))
        self.assertEqual(self.open(), [False, False, True, True, False])
        self.assertEqual([last for last, _ in self.store.marks], [None, 1, 2, 3, 4])

    def test_one_that_was_lost_is_replaced_though_nothing_changed(self):
        it = self.follower("the first snapshot", set(), set(), hold=10.0)
        it.look()
        it.look()
        self.assertEqual(self.open(), [True, False])
        self.store.snapshots[0].is_lost = True
        self.assertEqual((it.look().number, self.open()), (1, [False, False, True]))
        self.assertEqual([is_wanted for _, is_wanted in self.store.marks], [True, False, True])
        self.assertIs(it.snapshot(1), self.store.snapshots[2])

    def test_none_is_held_for_too_long(self):
        it = self.follower("the first snapshot", {"a"}, {"b"}, hold=10.0)
        for self.now in (0.0, 4.0, 11.0):
            it.look()
        self.assertEqual((it.numbers, self.open()), ([2, 3], [False, True, True]))
        self.assertRaisesRegex(SnapshotLost, "the snapshot 1 is closed; open are 2, 3", it.snapshot, 1)
        it.let_go()
        self.assertEqual(it.numbers, [])

    def test_none_becomes_too_old_before_the_next_look(self):
        it = self.follower("the first snapshot", {"a"}, {"b"}, every=1.5)
        for self.now, held in ((0.0, [1]), (8.5, [1, 2]), (8.6, [2, 3])):
            it.look()
            self.assertEqual(it.numbers, held)

    def test_what_is_used_stays(self):
        it = self.follower("the first snapshot", *({"a"} for _ in range(9)))
        for number in range(1, 11):
            self.assertEqual(it.look().number, number)
            it.trim(3, 5)
            if number in (1, 3, 6):
                it.use(number)
            if number == 5:
                self.assertEqual((it.numbers, it.oldest), ([1, 3, 5], 5))
        self.assertEqual((it.numbers, it.oldest), ([1, 3, 6, 10], 10))
        it.leave(3)
        it.trim(3, 5)
        self.assertEqual(it.numbers, [1, 6, 10])
        self.assertRaises(SnapshotLost, it.use, 3)
        it.trim(0, 2)
        self.assertEqual((it.numbers, it.oldest), ([6, 10], 10))

    def test_what_is_forgotten_begins_cold(self):
        it = self.follower("the first snapshot", "the first snapshot")
        it.look()
        it.forget("a step was not done")
        self.assertEqual((it.numbers, it.look().number, self.store.marks[-1]), ([], 2, (None, True)))

    def test_where_nothing_changes_a_store_is_asked_for_a_new_one_in_time(self):
        it = self.follower("the first snapshot", None, None, set(), hold=10.0)
        for self.now in (0.0, 4.0, 6.0, 12.0):
            it.look()
        self.assertEqual([is_wanted for _, is_wanted in self.store.marks], [True, False, True, True])
        self.assertEqual((it.numbers, self.open()), ([1], [False, True]))

    def test_cold_lets_all_go(self):
        it = self.follower("the first snapshot", {"a"}, "the server is another")
        it.look(), it.look()
        self.assertEqual((it.look().cold, it.numbers, self.open()), ("the server is another", [3], [False, False, True]))

    def test_a_lock_that_is_waited_for_lets_all_go_and_the_next_look_follows_on(self):
        it = self.follower("the first snapshot", SnapshotRefused("a lock"), {"a"})
        it.look()
        self.assertRaises(SnapshotRefused, it.look)
        self.assertEqual((it.numbers, self.open()), ([], [False]))
        step = it.look()
        self.assertEqual((step.number, step.tags, self.store.marks[-1]), (2, {"a"}, (1, True)))

    def test_a_server_that_is_away_and_comes_back_is_followed_on(self):
        it = self.follower("the first snapshot", SnapshotLost("away"), SnapshotLost("away"), set())
        it.look()
        for _ in range(2):
            self.assertRaises(SnapshotLost, it.look)
        self.assertEqual((it.look().number, self.store.marks[-1][0]), (1, 1))

    def test_triggers_that_do_not_stand_begin_cold(self):
        it = self.follower("the first snapshot", NotInstalled(["items: no trigger"]), "the first snapshot")
        it.look()
        self.assertRaises(NotInstalled, it.look)
        self.assertEqual((it.numbers, it.look().number, self.store.marks[-1][0]), ([], 2, None))

    def test_air(self):
        it = self.follower("the first snapshot", set(), set())
        it.look()
        self.store.needs_air, self.now = (False, True), 0.05
        it.look()
        self.assertEqual(self.store.aired, 0)  # it was asked a moment ago
        self.now = 0.2
        it.look()
        self.assertEqual((self.store.aired, it.numbers, self.open()), (1, [1], [False, False, True]))

    def test_air_waits_for_pages(self):
        it = self.follower("the first snapshot", set(), set(), set())
        it.look()
        self.store.needs_air, self.now, self.is_read = (False,), 0.2, True
        it.look()
        self.assertEqual((self.store.aired, self.open()), (0, [True, False]))
        self.store.needs_air, self.now = (False, True), 0.4
        it.look()
        self.assertEqual((self.store.aired, self.open()), (1, [False, False, True]))
        self.store.needs_air, self.now, self.is_read = (False,), 0.6, False
        it.look()
        self.assertEqual((self.store.aired, it.numbers), (2, [1]))

    def test_what_is_logged(self):
        it = self.follower("the first snapshot", SnapshotRefused("a lock"), SnapshotLost("away"), "another file")
        logging.getLogger("txcache").setLevel(logging.NOTSET)
        with self.assertLogs("txcache", logging.INFO) as logged:
            it.look()
            self.assertRaises(SnapshotRefused, it.look)
            self.assertRaises(SnapshotLost, it.look)
            it.look()
        self.assertEqual([record.getMessage() for record in logged.records],
                         ["the cache begins cold: the first snapshot", "no snapshot was taken, and all are let go: a lock", "the database did not answer: away",
                          "the cache begins cold: another file"])

    def test_a_cold_begin_after_a_look_that_failed_names_its_fault(self):
        it = self.follower("the first snapshot", NotInstalled(["items: no trigger"]), SnapshotLost("away"), "the first snapshot", {"a"}, "another file")
        logging.getLogger("txcache").setLevel(logging.NOTSET)
        with self.assertLogs("txcache", logging.INFO) as logged:
            it.look()
            self.assertRaises(NotInstalled, it.look)
            self.assertRaises(SnapshotLost, it.look)
            steps = [it.look() for _ in range(3)]
        fault = "a look failed: items: no trigger"
        self.assertEqual([step.cold for step in steps], [fault, "", "another file"])
        self.assertEqual([(it.levelname, it.getMessage()) for it in logged.records if "cold" in it.getMessage()],
                         [(level, f"the cache begins cold: {reason}") for level, reason in (("INFO", "the first snapshot"), ("WARNING", fault), ("WARNING", "another file"))])

    def test_hold_has_a_limit(self):
        self.assertRaisesRegex(ValueError, "hold is 0 seconds", Follower, Told(), 0)


class OverAFile(unittest.TestCase):
    def test_pages_of_each_number_stay_of_one_moment(self):
        room = tempfile.mkdtemp(prefix="txcache-follower-")
        self.addCleanup(shutil.rmtree, room)
        link = sqlite3.connect(f"{room}/a.db", isolation_level=None)
        self.addCleanup(link.close)
        link.execute("CREATE TABLE items (id INTEGER PRIMARY KEY, v INTEGER)")
        link.execute("INSERT INTO items VALUES (1, 0), (2, 0)")
        store = SqliteStore(f"{room}/a.db", {"items": ["id"]}, max_log=1 << 20)
        store.install()
        it = Follower(store, 10.0)
        self.addCleanup(it.close)
        it.look()
        ended = threading.Event()

        def write():
            own = sqlite3.connect(f"{room}/a.db", isolation_level=None, timeout=10)
            for _ in range(300):
                own.executescript("BEGIN IMMEDIATE; UPDATE items SET v = v + 1 WHERE id = 1; UPDATE items SET v = v - 1 WHERE id = 2; COMMIT")
            own.close()
            ended.set()

        writer = threading.Thread(target=write)
        writer.start()
        steps, sums = 0, set()
        while not ended.is_set() or steps == 0:
            step = it.look()
            steps += bool(step.tags)
            for number in it.numbers[-3:]:
                sums.add(sum(row["v"] for row in db_of(it.snapshot(number)).rows("items")))
            it.let_go(below=step.number - 3)
        writer.join()
        it.look()
        self.assertEqual((sums, db_of(it.snapshot(it.numbers[-1])).row("items", id=1)["v"]), ({0}, 300))
        self.assertGreater(steps, 1)
        self.assertLess(os.path.getsize(f"{room}/a.db-wal"), 8 << 20)


if __name__ == "__main__":
    unittest.main()
