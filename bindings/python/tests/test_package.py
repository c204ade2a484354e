"""The wheel, and the package as `pip` installs it with no network."""

import ast
import glob
import importlib.util
import os
import re
import shutil
import subprocess
import sys
import tempfile
import unittest
import zipfile

from . import skipped

PYTHON = os.path.dirname(os.path.dirname(os.path.abspath(__file__)))
LIBRARY = os.environ.get("TXC_LIBRARY") or os.path.normpath(f"{PYTHON}/../out")


def run(words, **how):
    return subprocess.run(words, stdout=subprocess.PIPE, stderr=subprocess.STDOUT, text=True, **how)


class Package(unittest.TestCase):
    def setUp(self):
        self.room = tempfile.mkdtemp(prefix="txcache-package-")
        self.addCleanup(shutil.rmtree, self.room)
        # no index answers, and the package is not found by chance
        self.env = {key: it for key, it in os.environ.items() if not key.startswith(("PIP_", "PYTHON", "TXC_"))}
        self.env.update(PIP_INDEX_URL="http://127.0.0.1:1/simple", PIP_RETRIES="0", PIP_DISABLE_PIP_VERSION_CHECK="1", TXC_LIBRARY=LIBRARY)

    def test_pip_installs_it_into_a_bare_venv_with_no_network(self):
        if not importlib.util.find_spec("ensurepip"):
            self.skipTest(skipped("pip", "there is no ensurepip"))
        made = run([sys.executable, "-m", "venv", f"{self.room}/venv"])
        self.assertEqual(made.returncode, 0, made.stdout)
        installed = run([f"{self.room}/venv/bin/pip", "install", "--quiet", PYTHON], env=self.env, cwd=self.room)
        self.assertEqual(installed.returncode, 0, installed.stdout)
        del self.env["TXC_LIBRARY"]
        for example in ("example.py", "page.py"):
            # a copy, so that the package is the installed one
            shutil.copy(f"{PYTHON}/{example}", self.room)
            ran = run([f"{self.room}/venv/bin/python", f"{self.room}/{example}"], env=self.env, cwd=self.room)
            self.assertEqual(ran.returncode, 0, ran.stdout)

        with open(f"{self.room}/shop.py", "w", encoding="utf-8") as file:
            file.write(self.readmes_example())
        ran = run([f"{self.room}/venv/bin/python", f"{self.room}/shop.py"], env=self.env, cwd=self.room)
        self.assertEqual((ran.returncode, ran.stdout), (0, "110 [110, 90] (1, 2)\n"), ran.stdout)

    @staticmethod
    def readmes_example():
        """The example of a service's own database as it stands in the README, over a file."""
        with open(f"{PYTHON}/README.md", encoding="utf-8") as file:
            text = re.search(r"```python\n(.*?)```", file.read(), re.S)[1]
        first, second = text.index("from txcache.postgres"), text.index("\ncache =")
        text = f"{text[:first]}from txcache.sqlite import SqliteStore{text[second:]}".replace('PostgresStore("dbname=shop"', 'SqliteStore("shop.db"')
        return ("import sqlite3\nfrom txcache.sqlite import SqliteStore\ncursor = sqlite3.connect('shop.db', isolation_level=None).cursor()\n"
                "cursor.execute('CREATE TABLE items (id INTEGER PRIMARY KEY, seller INTEGER)')\n"
                "cursor.execute('CREATE TABLE bids (id INTEGER PRIMARY KEY, item INTEGER, price INTEGER)')\n"
                "cursor.execute('INSERT INTO bids VALUES (1, 7, 110), (2, 7, 90)')\n"
                "SqliteStore('shop.db', {'items': ['id', 'seller'], 'bids': ['id', 'item']}).install()\n"
                f"{text}\nprint(*shown, (page.receipt.hits, page.receipt.computed))\n")

    def test_it_is_of_python_3_9(self):
        for path in glob.glob(f"{PYTHON}/txcache/**/*.py", recursive=True):
            with open(path, encoding="utf-8") as file:
                ast.parse(file.read(), path, feature_version=(3, 9))

    def test_the_wheel_is_for_this_machine_and_has_the_library(self):
        made = [run([sys.executable, f"{PYTHON}/build_wheel.py", f"{self.room}/{it}"], env=self.env, cwd=self.room) for it in "ab"]
        self.assertEqual([it.returncode for it in made], [0, 0], made[0].stdout)
        first, second = (glob.glob(f"{self.room}/{it}/*.whl")[0] for it in "ab")
        has_extension = os.path.exists(f"{LIBRARY}/_fast_c.abi3.so")
        self.assertEqual(os.path.basename(first), f"txcache-0.1-{'cp39-abi3' if has_extension else 'py3-none'}-linux_{os.uname().machine}.whl")
        with open(first, "rb") as one, open(second, "rb") as other:
            self.assertEqual(one.read(), other.read())
        with zipfile.ZipFile(first) as wheel:
            self.assertIn("txcache/libtxc_c.so", wheel.namelist())
            self.assertEqual("txcache/_fast_c.abi3.so" in wheel.namelist(), has_extension)
            self.assertIn(f"Tag: {os.path.basename(first)[len('txcache-0.1-'):-len('.whl')]}\n", wheel.read("txcache-0.1.dist-info/WHEEL").decode())
            recorded = {it.split(",")[0] for it in wheel.read("txcache-0.1.dist-info/RECORD").decode().splitlines()}
            self.assertEqual(recorded, set(wheel.namelist()))

    def test_with_no_library_it_says_what_comes_first(self):
        self.env["TXC_LIBRARY"] = self.room
        made = run([sys.executable, f"{PYTHON}/build_wheel.py", self.room], env=self.env)
        self.assertEqual((made.returncode, "make library first" in made.stdout), (1, True), made.stdout)
        loaded = run([sys.executable, "-c", "import txcache.node"], env={**self.env, "PYTHONPATH": PYTHON})
        self.assertIn(f"there is no libtxc_c.so in {self.room}: make library first", loaded.stdout)


if __name__ == "__main__":
    unittest.main()
