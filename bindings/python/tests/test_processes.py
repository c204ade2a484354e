"""Many processes under one PostgreSQL: prefork workers of which one is killed, a server that is killed and started, and a pooler in transaction mode."""

import http.client
import json
import logging
import os
import random
import signal
import subprocess
import sys
import threading
import time
import unittest
from collections import Counter

from txcache import _driver

from . import beside, until
from .pooler import Pooler
from .server import another, server

PYTHON = os.path.dirname(os.path.dirname(os.path.abspath(__file__)))
WORKERS = 4


def made(it, name):
    top = _driver.Link(it.dsn("postgres"))
    top.ask(f"CREATE DATABASE {name}")
    top.close()
    return it.dsn(name)


class Service:
    """The example's service, asked by HTTP."""

    def __init__(self, dsn):
        self.process = subprocess.Popen([sys.executable, f"{PYTHON}/examples/prefork.py", dsn, "0", str(WORKERS)], stdout=subprocess.PIPE, stderr=subprocess.DEVNULL, text=True,
                                        cwd=PYTHON, env={**os.environ, "PYTHONPATH": PYTHON})
        self.workers = []
        self.port = int(self.process.stdout.readline().split()[1])
        threading.Thread(target=self.listen, daemon=True).start()

    def listen(self):
        for line in self.process.stdout:
            self.workers.append(int(line.split()[1]))

    def ask(self, item, max_age=5.0):
        """Returns the status and what the page shows; 0 where the worker ended meanwhile."""
        link = http.client.HTTPConnection("127.0.0.1", self.port, timeout=60)
        try:
            link.request("GET", f"/{item}?max_age={max_age}")
            answer = link.getresponse()
            return answer.status, json.loads(answer.read())
        except (OSError, http.client.HTTPException):
            return 0, {}
        finally:
            link.close()

    def close(self):
        self.process.terminate()
        self.process.communicate()


class Prefork(unittest.TestCase):
    def setUp(self):
        self.server = another()
        self.addCleanup(self.server.remove)
        self.dsn = made(self.server, "shop")
        self.service = Service(f"{self.dsn} application_name=prefork")
        self.addCleanup(self.service.close)
        self.counts, self.workers, self.is_over = Counter(), Counter(), threading.Event()

    def write(self, seed):
        """Changes a bid and its item's highest together, and goes on where the server was away."""
        rand = random.Random(seed)
        while not self.is_over.is_set():
            try:
                link = _driver.Link(self.dsn)
                while not self.is_over.wait(0.01):
                    item = rand.randrange(10)
                    link.ask(f"BEGIN; SELECT FROM items WHERE id = {item} FOR UPDATE; UPDATE bids SET price = {rand.randrange(1000)} WHERE id = {3 * item + rand.randrange(3)}; "
                             f"UPDATE items SET top = (SELECT max(price) FROM bids WHERE item = {item}) WHERE id = {item}; COMMIT")
                    self.counts["commits"] += 1
            except Exception:
                time.sleep(0.05)

    def read(self, seed):
        rand = random.Random(seed)
        while not self.is_over.is_set():
            status, shown = self.service.ask(rand.randrange(10), rand.choice((0.1, 5.0, 5.0)))
            self.counts[status] += 1
            if status == 200:
                self.counts["hits"] += shown["hits"]
                self.counts["torn"] += shown["top"] != max(shown["bids"])
                self.workers[shown["worker"]] += 1

    def connections(self):
        link = _driver.Link(self.server.dsn("postgres"))
        try:
            return link.ask("SELECT count(*) FROM pg_stat_activity WHERE application_name = 'prefork'")[0][0]
        finally:
            link.close()

    def have_shown(self, count, more):
        """Waits until so many workers have shown pages."""
        before = Counter(self.workers)
        self.assertTrue(until(lambda: sum(it > before[worker] + more for worker, it in self.workers.items()) >= count), self.workers)

    def test_a_killed_worker_and_a_killed_server(self):
        running = [threading.Thread(target=self.write, args=(seed,)) for seed in range(2)] + [threading.Thread(target=self.read, args=(seed,)) for seed in range(4)]
        for it in running:
            it.start()
        try:
            self.have_shown(WORKERS, 5)
            many = self.connections()
            self.assertLessEqual(many, (WORKERS + 1) * (16 + 4 + 2))
            victim = max(self.workers)
            os.kill(victim, signal.SIGKILL)
            self.assertTrue(until(lambda: len(self.service.workers) == WORKERS + 1))
            self.have_shown(WORKERS, 5)
            self.assertIn(self.service.workers[-1], self.workers)
            self.server.stop("immediate")
            self.assertTrue(until(lambda: self.counts[503] > 2))
            self.server.start()
            self.have_shown(WORKERS, 5)
        finally:
            self.is_over.set()
            for it in running:
                it.join()
        self.assertEqual(self.counts["torn"], 0)
        self.assertGreater(self.counts["hits"], self.counts[200] / 2)
        self.each_worker_shows_what_stands()

    def each_worker_shows_what_stands(self):
        link, workers = _driver.Link(self.dsn), set()
        for n in range(400):
            item = n % 10
            status, shown = self.service.ask(item, 0.0)
            self.assertEqual((status, shown["bids"]), (200, [it for it, in link.ask(f"SELECT price FROM bids WHERE item = {item} ORDER BY id")]))
            workers.add(shown["worker"])
            if len(workers) == WORKERS and n > 30:
                break
        link.close()
        self.assertGreater(len(workers), 1)
        self.assertLessEqual(workers, set(self.service.workers))


class Pooled(unittest.TestCase):
    """Through pgbouncer in transaction mode."""

    def setUp(self):
        self.pooler = Pooler(server())
        self.addCleanup(self.pooler.close)
        logging.getLogger("txcache").setLevel(logging.CRITICAL)
        self.addCleanup(logging.getLogger("txcache").setLevel, logging.NOTSET)

    def test_no_page_is_torn(self):
        made(server(), "pooled")
        where = self.pooler.dsn("pooled")
        beside.prepare(where)
        counts = beside.both(where, 3.0, writers=3, readers=2, threads=3)
        self.assertEqual(counts["torn"], 0, counts)
        self.assertTrue(2 <= counts["cold"] < 6, counts)
        self.assertGreater(counts["pages"], 5)
        self.assertGreater(counts["hits"], 0)
        self.assertLess(counts["lost"], counts["pages"], counts)

    def test_a_snapshot_is_joined_and_its_settings_end_with_it(self):
        """The page's own connection, and those that read, are other ones of the pool each time."""
        made(server(), "pooled_settings")
        where = self.pooler.dsn("pooled_settings")
        beside.prepare(where)
        pages = beside.Pages(where, thread=False, refresh=1e-6)
        self.addCleanup(pages.cache.close)
        with beside.asker(where) as ask:
            before = ask("SHOW lock_timeout"), ask("SHOW idle_in_transaction_session_timeout")
            for n in range(5):
                with pages.cache.read(max_age=0.0):
                    self.assertTrue(pages.is_whole(pages.shown(n, random.Random(n))))
                ask(f"UPDATE accounts SET balance = balance WHERE id = {n}; UPDATE items SET top = 0 WHERE id = 0")
            pages.cache.close()
            for _ in range(5):
                self.assertEqual((ask("SHOW lock_timeout"), ask("SHOW idle_in_transaction_session_timeout")), before)
        self.assertEqual({it["pool_mode"] for it in self.pooler.told("POOLS") if it["database"] == "pooled_settings"}, {"transaction"})


if __name__ == "__main__":
    unittest.main()
