"""What pages show: blocks of commands, figures and pictures, and their words; and the answer to the name of a wrong body.

usage: python3 -m unittest discover -s tests -p test_shown.py      at the top of the repository
"""
import argparse
import sys
import tempfile
import unittest
from pathlib import Path
from unittest import mock

ROOT = Path(__file__).resolve().parent.parent
sys.path.insert(0, str(ROOT / "scripts"))

import blocks
import edits
import figures
import mutant
import pictures
import words

PAGE = """# A page

<!-- run -->
    cd room     # a comment
    make demo

<!-- prints -->
    a .. c

- a list
    whose line goes on

<!-- file: it.py -->
```python
print(1)
```

    nothing says how
"""


class Blocks(unittest.TestCase):
    def test_blocks_have_the_kind_of_the_comment_above(self):
        found = list(blocks.blocks(PAGE))
        self.assertEqual([(it.kind, it.word) for it in found], [("run", ""), ("prints", ""), ("file", "it.py"), ("", "")])
        self.assertEqual(found[0].lines, ["cd room     # a comment", "make demo"])
        self.assertEqual(found[2].lines, ["print(1)"])

    def test_a_block_that_nothing_says_how_to_run(self):
        found = list(blocks.faults(PAGE))
        self.assertEqual((len(found), "at line 18 with no comment" in found[0]), (1, True))

    def test_what_is_printed_comes_of_a_command(self):
        self.assertIn("no block `run`", list(blocks.faults("<!-- prints -->\n    a\n"))[0])

    def test_a_part_is_of_its_file(self):
        self.assertEqual(list(blocks.faults("<!-- part: tests/test_shown.py -->\n    import blocks\n")), [])
        self.assertIn("does not have: import nothing", list(blocks.faults("<!-- part: tests/test_shown.py -->\n    import nothing\n"))[0])

    def test_long_commands_are_passed_over(self):
        self.assertNotIn("make demo", blocks.script_of(PAGE))
        self.assertIn("cd room", blocks.script_of(PAGE))

    def test_what_is_shown_is_compared(self):
        self.assertTrue(blocks.like(["a .. c"], ["a b c"]))
        self.assertTrue(blocks.like(["a", "..", "c"], ["a", "b", "b", "c"]))
        self.assertTrue(blocks.like(["a", "..", "c"], ["a", "c"]))
        self.assertTrue(blocks.like([".."], ["a", "b"]))
        self.assertFalse(blocks.like(["a"], ["a", "b"]))
        self.assertFalse(blocks.like(["a (1)"], ["a (2)"]))

    def judged(self, output: str, status: int = 0):
        return blocks.judged("page", PAGE, output, status)

    def test_a_session_that_goes_well(self):
        self.assertIsNone(self.judged("\n@@ block 0\na b c\n\n@@ block 1\n\n@@ block 2\n\n@@ block 3\n\n@@ block end\n"))

    def test_a_session_that_prints_another_text(self):
        self.assertIn("another output", self.judged("\n@@ block 0\nb\n\n@@ block 1\n\n@@ block 2\n\n@@ block 3\n\n@@ block end\n"))

    def test_a_session_that_fails(self):
        self.assertIn("page:4: ended with 1", self.judged("\n@@ block 0\nno room\n", 1))

    def test_a_session_in_bash(self):
        page = "<!-- file: a.txt -->\n    one two\n    three\n\n<!-- edit: a.txt -->\n    one too\n\n<!-- run -->\n    cat a.txt\n\n<!-- prints -->\n    one too\n    three\n"
        with tempfile.TemporaryDirectory() as room:
            ran = blocks.subprocess.run(["bash"], input=blocks.script_of(page), cwd=room, capture_output=True, text=True)
        self.assertIsNone(blocks.judged("page", page, ran.stdout, ran.returncode))


class Figures(unittest.TestCase):
    TEXT = "# date: 2026-12-01\n# commit: 12345678\n# command: bench/it.py\n# machine: 4 cores at 2.5 GHz\n# load: 3\n# proved: no\n\tHits\tTime\na\t1,024\t12 µs\nb\t2\t3 µs\n"

    def test_a_file_is_its_table_and_its_head(self):
        it = figures.parse("it", self.TEXT)
        self.assertEqual((it.cell("a", "Time"), figures.text_of(it)), ("12 µs", self.TEXT))
        self.assertIn("| b | 2 | 3 µs |", it.markdown([2]))
        self.assertNotIn("1,024", it.markdown([2]))

    def test_a_head_that_lacks_a_line(self):
        with self.assertRaisesRegex(figures.BadResult, "no line `# commit"):
            figures.parse("it", self.TEXT.replace("# commit: 12345678\n", ""))

    def test_a_row_that_is_too_short(self):
        with self.assertRaisesRegex(figures.BadResult, "a row of 2 cells"):
            figures.parse("it", self.TEXT.replace("b\t2\t3 µs", "b\t2"))

    def test_a_figure_of_a_page(self):
        with mock.patch.object(figures, "read", return_value=figures.parse("it", self.TEXT)):
            self.assertIsNone(figures.fault("it / a / Hits", "0 of 1,024 "))
            self.assertIn("the result is 12", figures.fault("it / a / Time", "13 µs "))
            self.assertIn("not exactly one row `c`", figures.fault("it / c / Time", "13 µs "))
            self.assertIn("not TABLE / ROW / COLUMN", figures.fault("it", "13 µs "))

    def test_what_a_command_prints(self):
        options = argparse.Namespace(commit="87654321", command="", proved=False)
        text = "Measured on 2026-12-02 by `x`, on 4 cores at 2.5 GHz, load 1, proved.\n\n| | Hits | Time |\n|---|---|---|\n| a | 1 | 2 µs |\n"
        with mock.patch.object(figures, "names", return_value=["it"]), mock.patch.object(figures, "read", return_value=figures.parse("it", self.TEXT)):
            found = list(figures.given(text, options))
        self.assertEqual([(it.name, it.head["commit"], it.head["proved"], it.rows) for it in found], [("it", "87654321", "yes", [["a", "1", "2 µs"]])])


class Pictures(unittest.TestCase):
    def test_each_says_in_words_what_it_shows(self):
        for name, draw in pictures.PICTURES.items():
            it = draw()
            self.assertGreater(len(it.says.split()), 40, name)
            self.assertIn(f'<desc id="desc">{it.says}</desc>', it.svg().replace("&amp;", "&"))

    def test_a_page_gets_its_image_once(self):
        text = pictures.fill("a\n\n<!-- picture: entry -->\n\nb\n", ROOT / "docs/X.md")
        self.assertIn("](pictures/entry.svg)\n\nb\n", text)
        self.assertEqual(pictures.fill(text, ROOT / "docs/X.md"), text)

    def test_a_picture_that_nothing_draws(self):
        with self.assertRaises(LookupError):
            pictures.fill("<!-- picture: none -->\n", ROOT / "docs/X.md")


class Words(unittest.TestCase):
    def said(self, place: str, *sentences: str) -> list:
        return [text for text, _ in words.said_badly(place, sentences)]

    def test_rows_fit_sentences(self):
        self.assertEqual(len(self.said("documents", "What a hit shows.", "Nobody waits.", "It goes on.", "A page is made anew.")), 4)

    def test_questions_code_and_quotations_do_not_count(self):
        self.assertEqual(self.said("documents", "What is it?", "It says `goes on`.", 'It says "once more".', "You want to read."), [])

    def test_comments_of_public_items_alone(self):
        text = "/// What a hit shows.\npub fn a() {}\n\n/// What is private.\nfn b() {}\n"
        self.assertEqual(list(words.comments_of_items(text)), ["What a hit shows."])

    def test_each_row_says_what_to_write(self):
        for row in words.rows_of_words():
            self.assertTrue(row.instead and row.why and row.where <= {"documents", "items", "errors", "bindings"}, row)


class Mutants(unittest.TestCase):
    def test_a_name(self):
        body = mutant.named(ROOT, "lookup_gives_a_still_valid_entry_an_open_end")
        self.assertEqual(body.crate, "txc_node")
        self.assertTrue(any(line.startswith("  +") for line in mutant.shown(body)))

    def test_an_unknown_name_is_answered_with_the_nearest(self):
        with self.assertRaisesRegex(edits.CannotTry, "nearest are txc_node/lookup_gives_a_still_valid_entry_an_open_end"):
            mutant.named(ROOT, "lookup_gives_a_stil_valid_entry_an_open_end")

    def test_what_the_verifier_says(self):
        body = mutant.named(ROOT, "lookup_gives_a_still_valid_entry_an_open_end")
        trial = edits.Trial(body, body.functions(ROOT))
        said = ("note: src/versions.rt:41:1: it is not proved that what the function ensures holds when it returns (`it`); the facts known there allow ..\n"
                "note: `it` of proofs/versions/meets/Answers.antt must prove: c.result ≡ x\n  names you can use, by step:\n"
                "note: `it` of proofs/versions/meets/Answers.antt may be false: the known facts allow `c.result` = `true`, `c.args.lo` = `1`, `c.well_formed.0` = `mir`\n"
                "note: `it` of proofs/versions/other/Answers.antt must prove: c\n")
        self.assertEqual(list(mutant.messages(trial, said)), ["src/versions.rt:41:1: it is not proved that what the function ensures holds when it returns (`it`)",
                                                              "The goal: c.result ≡ x", "It is false, for example, for result = true, lo = 1."])

    def test_a_name_of_several_crates(self):
        names = [it.name for it in mutant.wrong_bodies.read(ROOT)]
        twice = next((it for it in names if names.count(it) > 1), None)
        if twice:
            with self.assertRaisesRegex(edits.CannotTry, f"crates have a wrong body {twice}"):
                mutant.named(ROOT, twice)


if __name__ == "__main__":
    unittest.main()
