"""Pages over a file only, or over a server only."""

import os
import sqlite3
import threading
import time
import unittest

from txcache.errors import NotInstalled, SnapshotLost

from .cases import Case, OfPostgres, OfSqlite


class OverAFile(Case):
    """Cases of a file only."""

    def test_another_file_at_the_path(self):
        """A connection of the former file, whose snapshot was open meanwhile, is not used for the next."""
        cache = self.open()
        self.page((self.balance, 0), (self.balance, 1))
        other = sqlite3.connect(f"{self.room}/b.db", isolation_level=None)
        self.it.execute(f"VACUUM INTO '{self.room}/c.db'")
        os.replace(f"{self.room}/c.db", f"{self.room}/b.db")
        other.close()
        other = sqlite3.connect(f"{self.room}/b.db", isolation_level=None)
        self.addCleanup(other.close)
        other.execute("PRAGMA journal_mode = WAL")
        other.execute("UPDATE accounts SET balance = 5 WHERE id = 0")
        os.replace(f"{self.room}/b.db", f"{self.room}/a.db")
        for end in ("-wal", "-shm"):
            os.replace(f"{self.room}/b.db{end}", f"{self.room}/a.db{end}")
        for balance in (5, 6, 7):
            self.assertEqual(self.page((self.balance, 0), (self.balance, 1), max_age=0.0), [balance, 100])
            other.execute(f"UPDATE accounts SET balance = {balance + 1} WHERE id = 0")
        self.assertEqual(cache.stats()["cold"], 2)


class OverAServer(Case):
    """Cases of a server only."""

    def test_an_alter_table_waits_little_for_a_cache_busy_or_idle(self):
        cache = self.open(thread=True, refresh=0.2)
        ended, shown, lost = threading.Event(), [], []

        def read():
            while not ended.is_set():
                try:
                    with cache.read(max_age=1.0):
                        shown.append(self.balance(0) + self.balance(1))
                except SnapshotLost as error:
                    lost.append(error)
                time.sleep(0.002)

        readers = [threading.Thread(target=read) for _ in range(2)]
        for it in readers:
            it.start()
        for is_busy in (True, False):
            self.page((self.balance, 2))
            begun = time.monotonic()
            self.write(f"ALTER TABLE accounts ADD COLUMN more{int(is_busy)} integer")
            self.assertLess(time.monotonic() - begun, 10)  # two, on a machine with nothing else to do
            ended.set()
            for it in readers:
                it.join()
        self.assertEqual(set(shown), {200})
        self.assertIn("more0", self.page((self.row, 0), max_age=0.0)[0])

    def functions(self, cache):
        super().functions(cache)

        @cache.cacheable
        def row(db, number):
            return db.row("accounts", id=number)

        self.row = row

    def test_killed_connections_drop_nothing_cached(self):
        cache = self.open(refresh=1000.0)
        self.page((self.balance, 0), (self.balance, 1), (self.total,))
        self.it.ask("SELECT pg_terminate_backend(pid) FROM pg_stat_activity WHERE pid <> pg_backend_pid() AND datname = current_database()")
        self.assertEqual(self.page((self.balance, 0)), [100])
        self.write("UPDATE accounts SET balance = 5 WHERE id = 0")
        self.assertEqual(self.page((self.balance, 0), (self.balance, 1), (self.balance, 2), max_age=0.0), [5, 100, 100])
        self.assertEqual((self.counts(), cache.stats()["cold"]), ((1, 2), 1))

    def test_killed_connections_of_a_database_in_which_nothing_changes(self):
        """A page that computes finds its snapshot lost, and begins anew in one that takes its place."""
        cache = self.open(refresh=1000.0)
        self.page((self.balance, 0))
        for number in (1, 2, 3):
            self.it.ask("SELECT pg_terminate_backend(pid) FROM pg_stat_activity WHERE pid <> pg_backend_pid() AND datname = current_database()")
            self.assertEqual(self.page((self.balance, number), (self.balance, 0)), [100, 100])
        self.assertEqual((self.counts(), cache.stats()["cold"], cache.stats()["lost"]), ((1, 1), 1, 0))

    def test_a_truncate_and_a_disabled_trigger(self):
        cache = self.open()
        self.page((self.balance, 0), (self.bids, 7))
        cache._follower.let_go()
        self.write("TRUNCATE bids")
        self.assertEqual(self.page((self.balance, 0), (self.bids, 7), max_age=0.0), [100, []])
        cache._follower.let_go()
        self.write("ALTER TABLE accounts DISABLE TRIGGER USER")
        self.assertRaisesRegex(NotInstalled, "not ENABLE ALWAYS", self.page, (self.balance, 0), max_age=0.0)
        self.write("UPDATE accounts SET balance = 5 WHERE id = 0")
        cache.store.install()
        self.assertEqual(self.page((self.balance, 0), max_age=0.0), [5])
        self.assertEqual(cache.stats()["cold"], 3)


def load_tests(loader, tests, pattern):
    suite = unittest.TestSuite()
    for name, store, case in (("OverSqlite", OfSqlite, OverAFile), ("OverPostgres", OfPostgres, OverAServer)):
        suite.addTests(loader.loadTestsFromTestCase(type(name, (store, case), {"__module__": __name__})))
    return suite


if __name__ == "__main__":
    unittest.main()
