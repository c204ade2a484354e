#!/usr/bin/env python3
"""Tests of scripts/edits.py that need no prover, over small repositories of their own.

usage: tests/test_edits.py
"""

from __future__ import annotations

import io
import os
import subprocess
import sys
import tempfile
import unittest
from contextlib import redirect_stderr, redirect_stdout
from pathlib import Path
from unittest import mock

sys.path.insert(0, str(Path(__file__).resolve().parent.parent / "scripts"))
sys.dont_write_bytecode = True

import changed_since
import edits
import wrong_bodies

CRATES = "low:\nhigh: low\n"
SPEC = """-- Whether two numbers are next to each other.
pub abbrev IsNext : ℕ -> ℕ -> Type 0
IsNext n m = m ≡ step n

-- The number behind one.
pub abbrev step : ℕ -> ℕ
step n = n + 1
"""
OTHER_SPEC = """-- Of no contract here.
pub abbrev far : ℕ
far = 7
"""
SOURCE = """//! Numbers.

ghost use Rattle.low.specs.Next.{IsNext};

/// The greatest number.
pub const MOST: u64 = 9;

pub struct Count {
    now: u64,
}

impl Model for Count {
    ghost Value = { λ t. t.now };
}

impl Count {
    /// Goes one number on.
    pub fn go(&mut self)
        ensures next { IsNext self.old self.new }
    {
        // one
        self.now += 1;
    }

    /// Returns the number.
    pub fn now(&self) -> u64
        ensures now { result ≡ self.now }
    {
        self.now
    }
}

/// Returns the first number.
pub fn first() -> u64
    ensures first { result ≡ 0 }
{
    0
}
"""
EDITS = """== a_step_is_two
old:         self.now += 1;
new:         self.now += 2;

== now_is_zero (gate)
old:         self.now
    }
new:         0
    }

== the_greatest_is_less
function: Count::go
old: pub const MOST: u64 = 9;
new: pub const MOST: u64 = 8;

== the_first_is_one
old: {
    0
new: {
    1
"""
PAIR = "old:         self.now += 1;\nnew:         self.now += 2;\n"
# Text of lib.edits, the line of its first fault, and what is said there.
BAD_TEXTS = {
    "text before the first head": (f"a step\n== one\n{PAIR}", 1, "before the first `== NAME`"),
    "another mark": (f"== one (gates)\n{PAIR}", 1, "neither `== NAME` nor `== NAME (gate)`"),
    "no name": (f"==\n{PAIR}", 1, "neither `== NAME` nor `== NAME (gate)`"),
    "a name twice": (f"== one\n{PAIR}\n== one\n{PAIR}", 5, "the name `one` stands at crates/low/wrong-bodies/lib.edits:1 too"),
    "a file that is not there": (f"== one\nfile: src/no.rt\n{PAIR}", 2, "there is no file crates/low/src/no.rt"),
    "an old that stands nowhere": ("== one\nold: self.gone\nnew: 0\n", 2, "stands there 0 times"),
    "an old that stands twice": ("== one\nold:     pub fn\nnew: fn\n", 2, "stands there 2 times"),
    "an old without text": ("== one\nold:\nnew: 0\n", 2, "stands there 0 times"),
    "an old without new": ("== one\nold:         self.now += 1;\n", 2, "has no `new:` behind it"),
    "two olds in a row": (f"== one\nold:         self.now += 1;\n{PAIR}", 2, "has no `new:` behind it"),
    "a new without old": ("== one\nnew: 0\n", 2, "has no `old:` before it"),
    "nothing changed": ("== one\n", 1, "it changes nothing"),
    "the same text": ("== one\nold:         self.now += 1;\nnew:         self.now += 1;\n", 2, "the same as its `old:`"),
    "a line of nothing": (f"== one\nfirst\n{PAIR}", 2, "belongs to no `old:`"),
    "two functions named": (f"== one\nfunction: go\nfunction: now\n{PAIR}", 3, "names one function, once"),
    "no function changed": ("== one\nold: MOST: u64 = 9\nnew: MOST: u64 = 8\n", 1, "it changes what is no function"),
    "texts that overlap": (f"== one\n{PAIR}old: now += 1\nnew: now += 3\n", 4, "overlaps"),
}


class Repository(unittest.TestCase):
    """A repository of two crates in a folder of its own."""

    def setUp(self) -> None:
        room = tempfile.TemporaryDirectory(prefix="edits-test-")
        self.addCleanup(room.cleanup)
        self.root = Path(room.name)
        self.write("crates.txt", CRATES)
        self.write("crates/low/specs/Next.antt", SPEC)
        self.write("crates/low/specs/Far.antt", OTHER_SPEC)
        self.write("crates/low/src/lib.rt", SOURCE)
        self.write("crates/high/src/lib.rt", "//! Nothing.\n")
        self.write("crates/low/wrong-bodies/lib.edits", EDITS)

    def write(self, file: str, text: str) -> None:
        path = self.root / file
        path.parent.mkdir(parents=True, exist_ok=True)
        path.write_text(text, encoding="utf-8")

    def command(self, *words: str) -> tuple[int, str, str]:
        """Returns what the command line ends with, and what it prints."""
        out, err = io.StringIO(), io.StringIO()
        with mock.patch.object(edits, "ROOT", self.root), mock.patch.object(sys, "argv", ["edits.py", *words]):
            with redirect_stdout(out), redirect_stderr(err):
                status = edits.main()
        return status, out.getvalue(), err.getvalue()


class Reading(Repository):
    def test_reads_names_texts_and_marks(self) -> None:
        found = wrong_bodies.read(self.root)
        self.assertEqual([it.label for it in found],
                         ["low/a_step_is_two", "low/now_is_zero", "low/the_greatest_is_less", "low/the_first_is_one"])
        self.assertEqual([it.is_in_gate for it in found], [False, True, False, False])
        self.assertEqual([(it.old, it.new) for it in found[1].changes], [("        self.now\n    }", "        0\n    }")])
        self.assertEqual([it.end for body in found for it in body.functions(self.root)], ["Count::go", "Count::now", "Count::go", "first"])
        self.assertEqual([it.is_within_functions(self.root) for it in found], [True, True, False, True])
        self.assertEqual(edits.named(self.root, []), ["low/now_is_zero"])

    def test_bad_texts(self) -> None:
        for kind, (text, line, why) in BAD_TEXTS.items():
            with self.subTest(kind):
                self.write("crates/low/wrong-bodies/lib.edits", text)
                status, _, said = self.command("--check")
                self.assertEqual(status, 2)
                self.assertTrue(said.startswith(f"crates/low/wrong-bodies/lib.edits:{line}: "), said)
                self.assertIn(why, said.split("\n")[0])

    def test_a_file_of_no_source(self) -> None:
        self.write("crates/low/wrong-bodies/no.edits", f"== one\n{PAIR}")
        status, _, said = self.command("--check")
        self.assertEqual(status, 2)
        self.assertTrue(said.startswith("crates/low/wrong-bodies/no.edits:1: no source has this file"), said)

    def test_a_name_twice_in_two_files(self) -> None:
        self.write("crates/low/src/more.rt", "pub fn more() {\n    first();\n}\n")
        self.write("crates/low/wrong-bodies/more.edits", "== a_step_is_two\nold:     first();\nnew:\n")
        status, _, said = self.command("--check")
        self.assertEqual((status, said), (2, "crates/low/wrong-bodies/more.edits:1: the name `a_step_is_two` stands at "
                                             "crates/low/wrong-bodies/lib.edits:1 too\n"))

    def test_a_fault_stops_a_trial(self) -> None:
        self.write("crates/low/wrong-bodies/lib.edits", f"== one (gates)\n{PAIR}")
        for words in (["--kept", "low"], ["--named"], ["--since", "HEAD"], ["low/one"]):
            self.assertEqual(self.command(*words)[0], 2)

    def test_what_is_asked_for_has_to_be_there(self) -> None:
        for words in (["--kept", "middle"], ["--kept", "low/no"], ["--since", "no-such-commit"]):
            self.assertEqual(self.command(*words)[0], 2)

    def test_good_files(self) -> None:
        self.assertEqual(self.command("--check"), (0, "", ""))

    def test_bare(self) -> None:
        self.write("crates/low/wrong-bodies/lib.edits", f"== one\n{PAIR}")
        at = SOURCE.split("\n").index("    pub fn now(&self) -> u64") + 1
        status, said, _ = self.command("--bare", "low")
        self.assertEqual((status, said.split("\n")[0]), (0, f"crates/low/src/lib.rt:{at}: Count::now"))
        self.assertIn("2 of 3 public functions have no wrong body", said)


class Rounds(Repository):
    def test_no_two_of_a_function(self) -> None:
        self.write("crates/low/wrong-bodies/lib.edits", EDITS + f"\n== a_step_is_three\n{PAIR.replace('2', '3')}")
        trials = [edits.Trial(it, it.functions(self.root)) for it in wrong_bodies.read(self.root)]
        found = [[it.body.name for it in trial] for trial in edits.rounds(self.root, trials)]
        self.assertEqual(found, [["the_greatest_is_less"], ["a_step_is_two", "now_is_zero", "the_first_is_one"], ["a_step_is_three"]])


class Judging(Repository):
    def judged(self, said: str) -> edits.Trial:
        body = wrong_bodies.read(self.root)[0]
        trial = edits.Trial(body, body.functions(self.root))
        edits.judge(trial, said.split("\n"))
        return trial

    def verdict(self, said: str) -> str:
        return self.judged(said).verdict

    def is_by_a_name(self, *errors: str) -> bool:
        """Returns whether a function is refused by a name alone where its proof has these errors."""
        heads = [f"./proofs/lib/Count/go/Answers.antt:{at}:2: error: {it}" for at, it in enumerate(errors, 1)]
        trial = self.judged("\n".join([*heads, "fn low::Count::go: not proved", "help: the crate has no `more`"]))
        self.assertEqual(trial.verdict, "refused")
        return trial.said.startswith(edits.BY_NAMES)

    def test_verdicts(self) -> None:
        self.assertEqual(self.verdict("fn low::Count::go: not proved"), "refused")
        self.assertEqual(self.verdict("fn low::Count::now: not proved"), "")
        self.assertEqual(self.verdict("fn low::Count::go: not proved; it waits for `low::first`"), "")
        self.assertEqual(self.verdict("fn low::Count::go: proved"), "")
        self.assertEqual(self.verdict("fn low::Count::go: could not tell"), "")
        self.assertEqual(self.verdict("fn low::Count::go: no proof: the borrow checker does not cover it"), "bad")

    def test_by_a_name_alone(self) -> None:
        self.assertTrue(self.is_by_a_name("`returns`: record `Start` has no field `more`"))
        self.assertTrue(self.is_by_a_name("`returns`: record `Start`\n  has no field `more`", "`returns`: `more` is not\nin scope"))
        self.assertFalse(self.is_by_a_name("`returns`: record `Start`\n  has no field `more`", "`arith` found no proof"))
        self.assertFalse(self.is_by_a_name("`returns`: `1` is not `2`"))
        self.assertFalse(self.is_by_a_name())

    def tried(self, said: dict[str, str]) -> tuple[int, str, list[list[str]]]:
        """Returns what a trial ends with, where a check says this of each wrong body; its last line; and what was checked together."""
        checks = []

        def check(_: Path, trials: list[edits.Trial], __: str) -> str:
            checks.append([it.body.name for it in trials])
            return "\n".join(said.get(it.body.name, "") for it in trials)

        with mock.patch.object(edits, "check", check), mock.patch.object(edits, "look_for_libraries"), mock.patch.dict("os.environ", JOBS="1"):
            status, out, _ = self.command("--kept", "low")
        return status, out.rstrip("\n").split("\n")[-1], checks

    def test_all_are_refused(self) -> None:
        said = {"a_step_is_two": "fn low::Count::go: not proved", "now_is_zero": "fn low::Count::now: not proved",
                "the_greatest_is_less": "fn low::Count::go: not proved", "the_first_is_one": "fn low::first: not proved"}
        status, last, checks = self.tried(said)
        self.assertEqual((status, last), (0, "4 refused, 0 proved"))
        self.assertEqual(checks, [["a_step_is_two", "now_is_zero", "the_first_is_one"], ["the_greatest_is_less"]])

    def test_one_is_proved(self) -> None:
        said = {"a_step_is_two": "fn low::Count::go: proved", "now_is_zero": "fn low::Count::now: not proved",
                "the_greatest_is_less": "fn low::Count::go: not proved", "the_first_is_one": "fn low::first: not proved; it waits for another"}
        status, last, checks = self.tried(said)
        self.assertEqual((status, last), (1, "2 refused, 1 proved, 1 bad"))
        self.assertEqual(checks[2:], [["a_step_is_two"], ["the_first_is_one"]])

    def test_a_check_is_killed(self) -> None:
        self.assertEqual(self.tried({})[:2], (1, "0 refused, 0 proved, 4 bad"))

    def test_the_prover_does_not_know_a_function(self) -> None:
        said = {"a_step_is_two": "error: the crate has no function `Count::go`", "now_is_zero": "fn low::Count::now: not proved",
                "the_greatest_is_less": "fn low::Count::go: not proved", "the_first_is_one": "fn low::first: not proved"}
        status, last, checks = self.tried(said)
        self.assertEqual((status, last), (1, "3 refused, 0 proved, 1 bad"))
        self.assertEqual(checks[1], ["now_is_zero", "the_first_is_one"])


class Libraries(Repository):
    def setUp(self) -> None:
        super().setUp()
        self.write("crates/high/src/lib.rt", "pub fn zero() -> u64 {\n    0\n}\n")
        self.write("crates/high/wrong-bodies/lib.edits", "== one\nold:     0\nnew:     1\n")

    def commands_of(self, *words: str) -> tuple[int, list[str]]:
        """Returns what a command line ends with, and the commands that it runs."""
        ran = mock.Mock(return_value=subprocess.CompletedProcess([], 0, "fn high::zero: not proved\n"))
        with mock.patch.object(edits.subprocess, "run", ran):
            status, _, _ = self.command(*words)
        return status, [" ".join(it.args[0][:2]) for it in ran.call_args_list]

    def test_a_missing_library(self) -> None:
        self.assertEqual(self.commands_of("high"), (0, ["rt lib", "rattle check"]))
        self.assertEqual(self.commands_of("--kept", "high"), (2, []))

    def test_a_library_of_now(self) -> None:
        self.write("crates/low/out/rlib/low.rlib/format", "low\n")
        self.assertEqual(self.commands_of("high"), (0, ["rattle check"]))
        self.assertEqual(self.commands_of("--kept", "high"), (0, ["rattle check"]))

    def test_a_library_of_older_sources(self) -> None:
        self.write("crates/low/out/rlib/low.rlib/format", "low\n")
        os.utime(self.root / "crates/low/out/rlib/low.rlib/format", (0, 0))
        self.assertEqual(self.commands_of("high"), (0, ["rt lib", "rattle check"]))


class Since(Repository):
    def setUp(self) -> None:
        super().setUp()
        self.git("init", "--quiet")
        self.commit()

    def git(self, *words: str) -> None:
        who = ["-c", "user.name=test", "-c", "user.email=test@localhost", "-c", "commit.gpgsign=false"]
        subprocess.run(["git", *who, *words], cwd=self.root, check=True, stdout=subprocess.DEVNULL)

    def commit(self) -> None:
        self.git("add", "--all")
        self.git("commit", "--quiet", "--message", "a state")

    def due_after(self, file: str, old: str, new: str) -> list[str]:
        """Returns the names of those that are due after a commit that changes a text."""
        text = (self.root / file).read_text(encoding="utf-8")
        self.assertEqual(text.count(old), 1)
        self.write(file, text.replace(old, new))
        self.commit()
        return [it.name for it in changed_since.due(self.root, "HEAD~1", wrong_bodies.read(self.root))]

    def test_nothing(self) -> None:
        self.assertEqual(changed_since.due(self.root, "HEAD", wrong_bodies.read(self.root)), [])

    def test_a_contract(self) -> None:
        self.assertEqual(self.due_after("crates/low/src/lib.rt", "{ result ≡ self.now }", "{ self.now ≡ result }"), ["now_is_zero"])

    def test_a_body(self) -> None:
        self.assertEqual(self.due_after("crates/low/src/lib.rt", "        self.now += 1;", "        let _ = 0;\n        self.now += 1;"),
                         ["a_step_is_two", "the_greatest_is_less"])

    def test_a_comment(self) -> None:
        for old, new in (("/// Goes one number on.", "/// Goes on."), ("        // one\n", ""), ("/// Returns the first number.\n", "")):
            self.assertEqual(self.due_after("crates/low/src/lib.rt", old, new), [])
            wrong_bodies.text_of.cache_clear()
            wrong_bodies.functions.cache_clear()
        self.assertEqual(self.due_after("crates/low/specs/Next.antt", "-- The number behind one.", "-- The next number."), [])

    def test_an_edit(self) -> None:
        self.assertEqual(self.due_after("crates/low/wrong-bodies/lib.edits", "self.now += 2;", "self.now += 3;"), ["a_step_is_two"])

    def test_the_mark_and_the_order_of_edits(self) -> None:
        self.assertEqual(self.due_after("crates/low/wrong-bodies/lib.edits", "== a_step_is_two", "== a_step_is_two (gate)"), [])

    def test_a_definition_that_a_contract_names(self) -> None:
        self.assertEqual(self.due_after("crates/low/specs/Next.antt", "m ≡ step n", "m ≡ step (step n)"), ["a_step_is_two", "the_greatest_is_less"])

    def test_a_definition_below_one(self) -> None:
        self.assertEqual(self.due_after("crates/low/specs/Next.antt", "step n = n + 1", "step n = n + 2"), ["a_step_is_two", "the_greatest_is_less"])

    def test_a_definition_of_no_contract(self) -> None:
        self.assertEqual(self.due_after("crates/low/specs/Far.antt", "far = 7", "far = 8"), [])

    def test_the_model_of_a_type(self) -> None:
        self.assertEqual(self.due_after("crates/low/src/lib.rt", "{ λ t. t.now }", "{ λ t. t.now + 0 }"),
                         ["a_step_is_two", "now_is_zero", "the_greatest_is_less"])


if __name__ == "__main__":
    unittest.main()
