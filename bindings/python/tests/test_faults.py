"""Faults beside pages: connections and servers killed, processes that stop, triggers that were off for a while, a full disk."""

import json
import os
import random
import signal
import subprocess
import sys
import tempfile
import threading
import time
import unittest
from collections import Counter

from txcache import NotInstalled, SnapshotLost

from . import beside
from .cases import Case, OfPostgres, OfSqlite

PYTHON = os.path.dirname(os.path.dirname(os.path.abspath(__file__)))


class Child:
    """A process with a cache (tests/child.py)."""

    def __init__(self, where, **settings):
        self.process = subprocess.Popen([sys.executable, "-m", "tests.child", where, json.dumps(settings)], stdin=subprocess.PIPE, stdout=subprocess.PIPE, text=True, cwd=PYTHON)

    def page(self, max_age):
        self.process.stdin.write(f"{max_age}\n")
        self.process.stdin.flush()
        return json.loads(self.process.stdout.readline())

    def shown(self, max_age):
        """Returns the values of a page that keeps its snapshot: on a slow machine some are too old before they end."""
        return next((it for it in (self.page(max_age) for _ in range(50)) if it != "SnapshotLost"), None)

    def stop(self):
        self.process.send_signal(signal.SIGSTOP)

    def go_on(self):
        self.process.send_signal(signal.SIGCONT)

    def end(self):
        self.process.kill()
        self.process.communicate()


class Stopped(Case):
    def child(self, **settings):
        child = Child(self.where(), **settings)
        self.addCleanup(child.end)
        return child

    def move(self):
        self.write("UPDATE accounts SET balance = 93 WHERE id = 0", "UPDATE accounts SET balance = 107 WHERE id = 1")

    def test_a_process_that_was_stopped_goes_on(self):
        child = self.child(hold=0.5, refresh=0.1, idle_timeout=1.0)
        self.assertEqual(child.shown(0.0), [100, 100])
        child.stop()
        self.move()
        self.go_by(child)
        child.go_on()
        self.assertIn(child.page(60.0), ([100, 100], [93, 107], "SnapshotLost"))
        self.assertEqual([child.shown(age) for age in (0.0, 60.0)], [[93, 107]] * 2)

    def test_a_process_that_was_killed_leaves_nothing_behind(self):
        child = self.child()
        self.assertEqual(child.page(0.0), [100, 100])
        child.end()
        self.move()
        self.change_a_table()
        self.open()
        self.assertEqual(self.page((self.balance, 0), (self.balance, 1)), [93, 107])


class StoppedBesideSqlite(OfSqlite, Stopped):
    def where(self):
        return f"{self.room}/a.db"

    def change_a_table(self):
        self.it.execute("VACUUM")

    def go_by(self, child):
        time.sleep(1.0)


class StoppedBesidePostgres(OfPostgres, Stopped):
    def where(self):
        return self.server.dsn(self.base)

    def change_a_table(self):
        self.it.ask("SET lock_timeout = '20s'; ALTER TABLE accounts ADD COLUMN more integer; RESET lock_timeout")

    def go_by(self, child):
        """The server ends the snapshots of a process that says nothing, so that VACUUM and ALTER TABLE go on."""
        self.it.ask("SET lock_timeout = '60s'; ALTER TABLE accounts ADD COLUMN other integer; RESET lock_timeout")
        self.assertEqual(self.it.ask("SELECT count(*) FROM pg_stat_activity WHERE datname = current_database() AND state = 'idle in transaction'"), [(0,)])


class TriggersOff(Case):
    def test_triggers_that_were_off_for_a_while(self):
        """Where they stand again before the next look, that sees that they did not; else pages are refused until they do."""
        cache = self.open(thread=True, refresh=0.05)
        for is_seen in (False, True):
            self.page((self.balance, 0), (self.balance, 1))
            cache._follower.let_go()
            with cache._stepping:
                self.off()
                self.write(f"UPDATE accounts SET balance = {is_seen + 5} WHERE id = 0")
                if not is_seen:
                    cache.store.install()
            if is_seen:
                with self.assertRaises(NotInstalled):
                    self.page((self.balance, 0), max_age=0.0)
                cache.store.install()
            self.assertEqual(self.page((self.balance, 0), (self.balance, 1), max_age=0.0), [is_seen + 5, 100])
        self.assertEqual(cache.stats()["cold"], 3)


class TriggersOffOfSqlite(OfSqlite, TriggersOff):
    def off(self):
        self.it.execute("DROP TRIGGER txcache_accounts_update")


class TriggersOffOfPostgres(OfPostgres, TriggersOff):
    def off(self):
        self.write("ALTER TABLE accounts DISABLE TRIGGER USER")


class AServer(OfPostgres, Case):
    def test_a_server_that_is_killed_and_begins_anew(self):
        cache = self.open(refresh=1e-6)
        self.page((self.balance, 0))
        self.server.stop("immediate")
        for _ in range(3):
            self.assertEqual(self.page((self.balance, 0)), [100])
            self.assertRaises(SnapshotLost, self.page, (self.balance, 0), max_age=0.0)
            self.assertRaises(SnapshotLost, self.page, (self.balance, 1))
        self.server.start()
        self.write("UPDATE accounts SET balance = 5 WHERE id = 0", link=self.writer())
        self.assertEqual(self.page((self.balance, 0), (self.balance, 1), max_age=0.0), [5, 100])
        self.assertEqual(cache.stats()["cold"], 2)

    def test_connections_that_are_killed_under_pages(self, seconds=3.0):
        """Pages are whole or lost, and what is cached stays."""
        dsn = self.server.dsn(self.base)
        for table in ("items", "bids", "accounts"):
            self.it.ask(f"DROP TABLE {table}")
        beside.prepare(dsn)
        pages, counts, ended = beside.Pages(dsn), Counter(), time.monotonic() + seconds
        self.addCleanup(pages.cache.close)
        running = [threading.Thread(target=pages.read, args=(seconds, seed, counts)) for seed in range(3)] + [threading.Thread(target=beside.write, args=(f"{dsn} application_name=writer", seconds, 1))]
        for it in running:
            it.start()
        while time.monotonic() < ended:
            time.sleep(random.Random(3).random() / 5)
            self.it.ask("SELECT pg_terminate_backend(pid) FROM pg_stat_activity WHERE datname = current_database() AND application_name <> 'writer' "
                        "AND pid <> pg_backend_pid()")
        for it in running:
            it.join()
        self.assertEqual((counts["torn"], pages.cache.stats()["cold"]), (0, 1))
        self.assertGreater(counts["pages"], 10)

    def test_an_alter_table_beside_pages(self):
        """It waits for the snapshots, which give way."""
        cache, ended, shown, lost = self.open(thread=True, refresh=0.5), threading.Event(), [], []

        def read():
            while not ended.is_set():
                try:
                    with cache.read(max_age=1.0):
                        shown.append(self.balance(0) + self.balance(1))
                except SnapshotLost as error:
                    lost.append(error)
                time.sleep(0.01)

        readers, waits = [threading.Thread(target=read) for _ in range(2)], []
        for it in readers:
            it.start()
        for n in range(6):
            if n == 4:
                ended.set()  # from now on the cache is idle, and its snapshot is open
            time.sleep(0.3)
            begun = time.monotonic()
            self.it.ask(f"ALTER TABLE accounts ADD COLUMN more{n} integer")
            waits.append(time.monotonic() - begun)
        for it in readers:
            it.join()
        self.assertLessEqual(set(shown), {200})
        self.assertLess(max(waits), 10.0, waits)  # two, on a machine with nothing else to do


class FullDisk(unittest.TestCase):
    def run_in(self, *words):
        with tempfile.TemporaryDirectory(prefix="txcache-full-") as room:
            how = [it.replace("ROOM", room) for it in words]
            return subprocess.run(how, cwd=PYTHON, stdout=subprocess.PIPE, stderr=subprocess.STDOUT, text=True, timeout=600)

    def test_a_full_disk(self):
        """On a file system of two megabytes, where one may be mounted; by SQLite's own limit in any case."""
        mounted = "mount -t tmpfs -o size=2m tmpfs ROOM && exec " + f"{sys.executable} -m tests.full_disk ROOM"
        for namespace in ("-m", "-rm"):
            ran = self.run_in("unshare", namespace, "sh", "-c", f"{mounted} || echo not mounted")
            if "not mounted" not in ran.stdout and "unshare:" not in ran.stdout:
                self.assertEqual(ran.stdout, "passed\n")
                break
        self.assertEqual(self.run_in(sys.executable, "-m", "tests.full_disk", "ROOM", "--pages").stdout, "passed\n")


def load_tests(loader, tests, pattern):
    suite = unittest.TestSuite()
    for case in (StoppedBesideSqlite, StoppedBesidePostgres, TriggersOffOfSqlite, TriggersOffOfPostgres, AServer, FullDisk):
        suite.addTests(loader.loadTestsFromTestCase(case))
    return suite


if __name__ == "__main__":
    unittest.main()
