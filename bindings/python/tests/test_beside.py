"""Writers beside readers, in threads and processes, over an invariant of four tables (tests/beside.py)."""

import logging
import os
import random
import shutil
import tempfile
import unittest

from txcache import _driver

from . import beside
from .server import server

SECONDS = float(os.environ.get("TXC_SECONDS", 4))


class Beside:
    def test_no_page_is_torn(self):
        logging.getLogger("txcache").setLevel(logging.CRITICAL)
        self.addCleanup(logging.getLogger("txcache").setLevel, logging.NOTSET)
        beside.prepare(self.where)
        counts = beside.both(self.where, SECONDS)
        print(f"{self.where.split(' ')[-1]}: {dict(counts)}" if SECONDS > 30 else "", end="\n" if SECONDS > 30 else "")
        self.assertEqual(counts["torn"], 0)
        self.assertGreater(counts["pages"], 5)
        self.assertGreater(counts["commits"], 5)
        self.assertLess(counts["lost"], counts["pages"], counts)
        self.assertEqual(counts["cold"], 2)
        self.each_gives_what_its_query_gives()

    def each_gives_what_its_query_gives(self):
        pages, rand = beside.Pages(self.where), random.Random(1)
        self.addCleanup(pages.cache.close)
        with beside.asker(self.where) as ask:
            for item in range(beside.ITEMS):
                with pages.cache.read(max_age=0.0):
                    shown = pages.shown(item, rand)
                (top, balance), = ask(f"SELECT top, balance FROM copies WHERE id = {item}")
                self.assertEqual((shown["top"], shown["balance"], shown["highest"]), (top, balance, ask(f"SELECT max(price) FROM bids WHERE item = {item}")[0][0]))


class OverAFile(Beside, unittest.TestCase):
    def setUp(self):
        room = tempfile.mkdtemp(prefix="txcache-beside-")
        self.addCleanup(shutil.rmtree, room)
        self.where = f"{room}/a.db"


class OverAServer(Beside, unittest.TestCase):
    def setUp(self):
        it = server()
        top = _driver.Link(it.dsn("postgres"))
        top.ask("CREATE DATABASE beside")
        self.addCleanup(top.close)
        self.where = it.dsn("beside")


if __name__ == "__main__":
    unittest.main()
