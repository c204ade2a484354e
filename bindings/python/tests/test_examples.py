"""The examples of frameworks, from the wheel, in a `venv` that sees Debian's packages."""

import glob
import importlib.util
import os
import shutil
import subprocess
import sys
import tempfile
import unittest

from . import skipped
from .test_package import LIBRARY, PYTHON, run

EXAMPLES = f"{PYTHON}/examples"


class Examples(unittest.TestCase):
    @classmethod
    def setUpClass(cls):
        if not importlib.util.find_spec("ensurepip"):
            raise unittest.SkipTest(skipped("pip", "there is no ensurepip"))
        cls.room = tempfile.mkdtemp(prefix="txcache-examples-")
        cls.addClassCleanup(shutil.rmtree, cls.room)
        cls.env = {key: it for key, it in os.environ.items() if not key.startswith(("PIP_", "PYTHON", "TXC_"))}
        made = [run([sys.executable, "-m", "venv", "--system-site-packages", f"{cls.room}/venv"]), run([sys.executable, f"{PYTHON}/build_wheel.py", cls.room], env={**cls.env, "TXC_LIBRARY": LIBRARY})]
        made += [run([f"{cls.room}/venv/bin/pip", "install", "--quiet", "--no-index", "--no-deps", *glob.glob(f"{cls.room}/*.whl")], env=cls.env, cwd=cls.room)]
        for it in made:
            assert it.returncode == 0, it.stdout

    def printed(self, name, package):
        """Returns the text that an example prints, which is 60 lines at most."""
        if not importlib.util.find_spec(package.lower()):
            self.skipTest(skipped(package, f"there is no python3-{package.lower()}"))
        with open(f"{EXAMPLES}/{name}", encoding="utf-8") as file:
            self.assertLessEqual(len(file.readlines()), 60)
        shutil.copy(f"{EXAMPLES}/{name}", self.room)  # a copy, so that the package is the installed one
        ran = subprocess.run([f"{self.room}/venv/bin/python", f"{self.room}/{name}"], env=self.env, cwd=self.room, stdout=subprocess.PIPE, stderr=subprocess.PIPE, text=True)
        self.assertEqual((ran.returncode, ran.stderr), (0, ""))
        return ran.stdout.splitlines()

    def test_sqlalchemy(self):
        self.assertEqual(self.printed("sqlalchemy_page.py", "SQLAlchemy"), [
            "a lamp [90, 110] highest 110; 0 hits, 2 computed", "a lamp [90, 110, 120] highest 120; 0 hits, 2 computed", "a lamp [90, 110, 120] highest 120; 1 hits, 1 computed"])

    def test_flask(self):
        self.assertEqual(self.printed("flask_page.py", "Flask"), ["{'bids': [90], 'highest': 90}", "{'bids': [90, 110], 'highest': 110}", "4 hits, 2 computed"])

    def test_django(self):
        self.assertEqual(self.printed("django_page.py", "Django")[2:], [
            "{'name': 'a lamp', 'bids': [90], 'highest': 90}", "{'name': 'a lamp', 'bids': [90, 110], 'highest': 110}", "0 hits, 4 computed"])


if __name__ == "__main__":
    unittest.main()
