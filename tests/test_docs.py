"""The check of the documents: a link that leads nowhere, a crate that uses one of a layer above, a landing of too many words.

usage: python3 -m unittest discover -s tests -p test_docs.py      at the top of the repository
"""
import shutil
import subprocess
import sys
import tempfile
import unittest
from pathlib import Path
from unittest import mock

ROOT = Path(__file__).resolve().parent.parent
sys.path.insert(0, str(ROOT / "scripts"))

import claims
import pages
import sources


class Links(unittest.TestCase):
    def setUp(self):
        folder = tempfile.TemporaryDirectory(prefix="docs-")
        self.addCleanup(folder.cleanup)
        self.room = Path(folder.name).resolve()
        self.file("there.md", "# A title\n")
        self.file("pin.rt", "/// A pin.\npub struct Pin;\n")

    def file(self, name: str, text: str) -> Path:
        path = self.room / name
        path.parent.mkdir(parents=True, exist_ok=True)
        path.write_text(text)
        return path

    def faults(self, text: str, name: str = "page.md") -> list[str]:
        return [said for _, said in claims.links_of(self.file(name, text))]

    def test_links_that_lead_somewhere(self):
        good = "[a](there.md), [b](there.md#a-title), [`Pin`](pin.rt), [c](#here), [d](https://example.org/x)\n\n# Here\n\n`[e](gone.md)` is code.\n"
        self.assertEqual(self.faults(good), [])

    def test_a_file_that_is_not_there(self):
        self.assertEqual(self.faults("[a](gone.md)"), ["links to gone.md, which is not there"])

    def test_a_place_that_is_not_there(self):
        self.assertEqual(self.faults("[a](there.md#another-title)"), ["links to there.md#another-title, and there is no such place"])

    def test_a_name_that_its_file_does_not_have(self):
        self.assertEqual(self.faults("[`Pin::stamp`](pin.rt)"), ["links to pin.rt, which has no `Pin::stamp`"])

    def test_each_of_several_links_in_backticks(self):
        self.assertEqual(len(self.faults("[`a`](gone.md), [`b`](gone.md) and `code` [`c`](gone.md)")), 3)

    def test_a_page_that_git_does_not_keep(self):
        with mock.patch.object(pages, "OUT", self.room / "out"):
            self.file("out/made.md", "")
            self.assertEqual(self.faults("[a](out/made.md)"), ["links to out/made.md, which git does not keep"])
            self.assertEqual(self.faults("[a](made.md)", "out/page.md"), [])


class Layers(unittest.TestCase):
    LAYERS = (sources.Layer("values", "", ["txc_stamp"]), sources.Layer("stores", "", ["txc_db"]))

    def faults(self, used: dict[str, list[str]]) -> list[str]:
        with mock.patch.object(sources, "layers", return_value=self.LAYERS), mock.patch.object(sources, "used", return_value=used):
            return [said for _, said in claims.layered()]

    def test_a_crate_uses_its_own_layer_and_those_below(self):
        self.assertEqual(self.faults({"txc_stamp": ["thiserror"], "txc_db": ["txc_stamp"]}), [])

    def test_a_crate_that_uses_one_above(self):
        self.assertEqual(self.faults({"txc_stamp": ["txc_db"], "txc_db": []}), ["has txc_stamp, which uses txc_db of a layer above"])

    def test_a_crate_in_no_layer(self):
        self.assertEqual(self.faults({"txc_stamp": [], "txc_db": [], "txc_tags": []}), ["has txc_tags in no layer"])


class Check(unittest.TestCase):
    def test_the_check_fails_by_a_link_and_by_a_long_landing(self):
        with tempfile.TemporaryDirectory(prefix="docs-") as folder:
            room = Path(folder) / "copy"
            shutil.copytree(ROOT, room, ignore=shutil.ignore_patterns(".git", "out", "target", "__pycache__"))
            with open(room / "README.md", "a") as readme:
                readme.write("\nSee [another page](docs/GONE.md).\n")
            with open(room / "CHANGELOG.md", "a") as log:
                log.write(f"\n## 2026-11-21: too long\n\n{'- A word.' * 50}\n")
            ran = subprocess.run([sys.executable, "scripts/docs.py", "--check"], cwd=room, capture_output=True, text=True)
            self.assertEqual(ran.returncode, 1, ran.stderr)
            self.assertIn("README.md links to docs/GONE.md, which is not there\n", ran.stderr)
            self.assertIn("words of the landing 2026-11-21: too long, and may have 80\n", ran.stderr)


if __name__ == "__main__":
    unittest.main()
