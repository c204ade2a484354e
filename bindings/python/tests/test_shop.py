"""The web shop, asked by HTTP while its customers buy: the half by TxCache never tears, and the half by a plain cache does."""

import contextlib
import json
import os
import re
import shutil
import subprocess
import sys
import time
import unittest
import urllib.request

from . import until
from .server import server

PYTHON = os.path.dirname(os.path.dirname(os.path.abspath(__file__)))
CHROMIUM = shutil.which("chromium") or shutil.which("chromium-browser")


@contextlib.contextmanager
def shop(*words):
    """Starts the shop, and gives its address."""
    env = {**os.environ, "PYTHONPATH": PYTHON}
    running = subprocess.Popen([sys.executable, f"{PYTHON}/examples/shop_web", "--port", "0", *words], stdout=subprocess.PIPE, stderr=subprocess.PIPE, text=True, env=env)
    try:
        line = running.stdout.readline()
        if not line.startswith("http://"):
            raise AssertionError(running.communicate()[1])
        yield line.split()[0]
    finally:
        running.terminate()
        running.communicate()


def get(address, cookie=""):
    asked = urllib.request.Request(address, headers={"Cookie": cookie} if cookie else {})
    with urllib.request.urlopen(asked, timeout=60) as answer:
        return answer.read().decode()


class Stay(urllib.request.HTTPRedirectHandler):
    def redirect_request(self, *words):
        return None


def buy(address, product):
    """Buys, and returns the cookie that the shop gives."""
    try:
        urllib.request.build_opener(Stay).open(f"{address}buy/{product}", data=b"", timeout=60)
    except urllib.error.HTTPError as error:
        if error.code != 303:
            raise
        return error.headers["Set-Cookie"].partition(";")[0]
    raise AssertionError("a purchase leads to the page")


class Asked(unittest.TestCase):
    def look(self, *words):
        with shop("--customers", "3", "--pause", "0.05", *words) as address:
            seen, begun = [], time.monotonic()
            torn = lambda: bool(seen) and seen[-1]["plain"]["torn"] >= 3 and len(seen) >= 20

            def ask():
                seen.append(json.loads(get(f"{address}page.json")))
                return torn()

            self.assertTrue(until(ask, 60.0), f"the plain half did not tear on {len(seen)} pages in {time.monotonic() - begun:.0f} s")
            self.assertEqual([it["txcache"]["faults"] for it in seen], [[]] * len(seen))
            self.assertEqual(seen[-1]["txcache"]["torn"], 0)
            self.assertTrue(any(it["plain"]["faults"] for it in seen))
            self.assertTrue(all(0 <= it["txcache"]["age"] <= 3.0 + time.monotonic() - begun for it in seen))
            html = get(address)
            self.assertRegex(html, '<section id="txcache" class="whole">.*Stock, orders and the till agree')
            self.assertRegex(html, r"0 of \d+ pages torn.*<section id=\"plain\"")
            # the numbers on the page agree, whoever adds them
            left = html[:html.index('id="plain"')]
            rows = [list(map(int, it)) for it in re.findall(r'<tr><td>\w+, (\d+)</td><td[^>]*>(\d+)</td><td[^>]*>(\d+)</td><td[^>]*>(\d+)</td></tr>', left)]
            self.assertEqual(([it[1] + it[2] for it in rows], [it[0] * it[2] for it in rows]), ([60] * 6, [it[3] for it in rows]))
            self.assertIn(f'>{sum(it[3] for it in rows)}</td></tr></table>', left)

    def test_a_file(self):
        self.look()

    def test_postgresql(self):
        from txcache import _driver

        link = _driver.Link(server().dsn("postgres"))
        link.ask("DROP DATABASE IF EXISTS shop_web")
        link.ask("CREATE DATABASE shop_web")
        link.close()
        self.look("--postgres", server().dsn("shop_web"))

    def test_who_buys_sees_it_on_the_next_page(self):
        with shop("--customers", "0") as address:
            before = json.loads(get(f"{address}page.json"))
            cookie = buy(address, 2)
            after = json.loads(get(f"{address}page.json", cookie))
            ordered = [it for it in (sum(q for _, q, _ in shown["txcache"]["values"][3]) for shown in (before, after))]
            self.assertEqual(ordered[0], 0)
            self.assertIn(ordered[1], (1, 2, 3))
            self.assertEqual(after["txcache"]["values"][2], 60 - ordered[1])
            self.assertGreater(sum(after["txcache"]["hits"]), 0)
            self.assertEqual(json.loads(get(f"{address}page.json", "token=0-s1"))["txcache"]["faults"], [])
            self.assertRaises(urllib.error.HTTPError, get, f"{address}other")
            self.assertRaises(urllib.error.HTTPError, buy, address, 99)

    def test_in_a_browser(self):
        if not CHROMIUM:
            print("skipped: chromium, since it is not installed", flush=True)
            self.skipTest("chromium is not installed")
        with shop("--customers", "3", "--pause", "0.05") as address:
            until(lambda: json.loads(get(f"{address}page.json"))["plain"]["torn"] > 3, 60.0)
            words = [CHROMIUM, "--headless", "--no-sandbox", "--disable-gpu", "--disable-dev-shm-usage", "--dump-dom", address]
            ran = subprocess.run(words, stdout=subprocess.PIPE, stderr=subprocess.PIPE, text=True, timeout=300)
            self.assertRegex(ran.stdout, '(?s)<section id="txcache" class="whole">.*0 of', ran.stderr[-2000:])


if __name__ == "__main__":
    unittest.main()
