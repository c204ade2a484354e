"""The gate fails for each thing that it must see: shown in a repository of two crates, whose `rt` and `rattle` are scripts that say what
those of the kit would."""

import os
import pathlib
import re
import shutil
import subprocess
import tempfile
import unittest

ROOT = pathlib.Path(__file__).resolve().parent.parent
# The scripts of the gate that run as they are.
REAL = ("prove.py", "cpu.py", "processes.py", "run.py", "script_files.py", "test.py", "with_tests.py", "unproved.py", "callers.py", "check.py", "ci.py",
        "edits.py", "wrong_bodies.py", "changed_since.py", "sources.py")
STUB = "#!/bin/sh\n"
# A run takes a second of one core, and has the least weight in the gate.
TIME = 1_800
# Says that each crate is proved, but for those that are named in LACKS, and ends as KILLED says.
RT = r"""#!/bin/sh
case "$1 $2" in
"doc ") echo "$KIT/START-HERE.md" ;;
"ci ")
    passed=0 failed=0
    for crate in low high; do
        if [ "$crate" = "$KILLED" ]; then failed=1; printf 'rt: the check was killed, most likely for memory: once more\nrt: %s NOT PROVED\n' "$crate"
        elif [ "$crate" != "$LACKS" ]; then passed=$((passed + 1)); echo "rt: $crate proved"
        fi
    done
    echo "$passed passed, $failed failed"
    exit $failed ;;
"try --test")
    for module in $(sed -n 's/^mod \(.*\);$/\1/p' src/lib.rt); do
        for name in $(sed -n '/^ *#\[test\]$/{n;s/^fn \([a-z]*\).*/\1/p;}' "src/$module.rt"); do
            if [ "$name" = "$FAILS" ]; then echo "test $module::$name ... FAILED"; else echo "test $module::$name ... ok"; fi
        done
    done ;;
esac
"""
# Says of a wrong body of the function `low::one` that it is not proved, or what VERDICT says.
RATTLE = r"""#!/bin/sh
[ "$1" = check ] || exit 0
[ "$VERDICT" = killed ] && kill -9 $$
echo "fn low::one: ${VERDICT:-not proved: it is not proved that the answer is one}"
[ "$VERDICT" = proved ]
"""
EDIT = "== answers_two (gate)\nold:     {}\nnew:     2\n"


class Gate(unittest.TestCase):
    """Runs scripts/prove.py in a made-up repository."""

    def setUp(self) -> None:
        self.room = pathlib.Path(tempfile.mkdtemp(prefix="gate-tests-"))
        self.addCleanup(shutil.rmtree, self.room)
        self.root, kit = self.room / "repository", self.room / "kit"
        for name in filter(lambda it: (ROOT / "scripts" / it).exists(), REAL):
            self.write(f"repository/scripts/{name}", (ROOT / "scripts" / name).read_text(encoding="utf-8"))
        for name in ("docs.py", "examples.py", "library.py", "run_examples.sh"):
            self.write(f"repository/scripts/{name}", STUB)
        self.write("repository/scripts/boundary.py", f"{STUB}echo '3 passed, 0 failed'\n")
        self.write("repository/Makefile", "prove:\n\t@scripts/prove.py\ntest-all:\n\t@echo '5 passed, 0 failed'\n")
        self.write("repository/crates.txt", "low:\nhigh: low\n")
        self.write("repository/HANDLES", "")
        self.write("repository/docs/gate.tsv", "")
        for crate in ("low", "high"):
            self.write(f"repository/crates/{crate}/src/lib.rt", "pub fn one() -> u8 {\n    1\n}\n")
        self.write("repository/crates/low/wrong-bodies/lib.edits", EDIT.format("1"))
        self.write("repository/tests/crates.txt.in", "txc_tests: low\n")
        self.write("repository/tests/txc_tests/src/lib.rt.in", "#[cfg(test)]\nmod first;\n#[cfg(test)]\nmod second;\n")
        self.write("repository/tests/txc_tests/src/db/stores.rt.in", "const SEED: u64 = 1;\n")
        self.write("repository/tests/txc_tests/src/first.rt.in", "//! First.\n\nfn main() {}\n\n#[test]\nfn one() {}\n")
        self.write("repository/tests/txc_tests/src/second.rt.in", "#[test]\nfn two() {}\n")
        for name in ("rt", "rtlib.py", "rattle"):
            self.write(f"kit/bin/{name}", {"rt": RT, "rattle": RATTLE}.get(name, ""))
        self.write("kit/toolchain/bin/clang", STUB)
        self.write("kit/rlibs/std.rlib", "")
        self.env = {**os.environ, "KIT": str(kit), "PATH": f"{kit}/bin:{os.environ['PATH']}", "RT_JOBS": "1"}
        subprocess.run(["git", "init", "--quiet"], cwd=self.root, check=True)

    def write(self, name: str, text: str) -> None:
        path = self.room / name
        path.parent.mkdir(parents=True, exist_ok=True)
        path.write_text(text, encoding="utf-8")
        path.chmod(0o755)

    def gate(self, script: str = "prove.py", **env: str) -> tuple[str, str, int]:
        """All that the gate said, its last line, and its status."""
        ran = subprocess.run([f"scripts/{script}"], cwd=self.root, env={**self.env, **env}, stdout=subprocess.PIPE, stderr=subprocess.STDOUT, text=True,
                             timeout=TIME, check=False)
        return ran.stdout, ran.stdout.rstrip().rpartition("\n")[2], ran.returncode

    def assert_fails(self, ended: tuple[str, str, int], last: str, said: str) -> None:
        self.assertEqual((ended[1], ended[2]), (last, 1), ended[0])
        self.assertRegex(ended[0], said)

    def test_all_passes(self) -> None:
        """Two proofs, three tests, a wrong body, three of the library, and the examples."""
        said, last, status = self.gate()
        self.assertEqual((last, status), ("10 passed, 0 failed", 0), said)
        self.assertRegex(said, r"(?m)^prove: 2 of 2 crates, minute 0$")
        self.assertRegex(said, r"(?m)^all: \d+ core seconds, ")

    def test_a_test_fails(self) -> None:
        self.assert_fails(self.gate(FAILS="two"), "9 passed, 1 failed", "(?m)^  second::two$")

    def test_a_test_is_left_out(self) -> None:
        self.write("repository/tests/txc_tests/src/lib.rt.in", "#[cfg(test)]\nmod first;\n")
        self.assert_fails(self.gate(), "9 passed, 1 failed", "(?m)^  second::two$")

    def test_a_test_is_not_found_in_the_files(self) -> None:
        self.write("repository/tests/txc_tests/src/second.rt.in", "#[test]\nfn two() {}\n\nmod inner {\n    #[test]\nfn three() {}\n}\n")
        self.assert_fails(self.gate(), "10 passed, 2 failed", "second::three .it is not found in the files.")

    def test_tests_do_not_end(self) -> None:
        self.write("repository/scripts/test.py", f"{STUB}kill -9 $$\n")
        self.assert_fails(self.gate(), "7 passed, 1 failed", "FAILED: test.py: 0 of 3 were tried")

    def test_a_script_counts_other_tests(self) -> None:
        self.write("repository/scripts/test.py", f"{STUB}echo '2 passed, 0 failed'\n")
        self.assert_fails(self.gate(), "9 passed, 1 failed", "FAILED: test.py: 2 of 3 were tried")

    def test_a_wrong_body_is_proved(self) -> None:
        self.assert_fails(self.gate(VERDICT="proved"), "9 passed, 1 failed", "edits.py low: 0 refused, 1 proved")

    def test_a_wrong_body_does_not_apply(self) -> None:
        self.write("repository/crates/low/wrong-bodies/lib.edits", EDIT.format("3"))
        self.assert_fails(self.gate(), "0 passed, 1 failed", "has to stand once in src/lib.rt, and stands there 0 times")

    def test_a_check_of_a_wrong_body_is_killed(self) -> None:
        self.assert_fails(self.gate(VERDICT="killed"), "9 passed, 1 failed", "edits.py low: 0 refused, 0 proved, 1 bad")

    def test_a_crate_has_no_proof(self) -> None:
        self.assert_fails(self.gate(LACKS="high"), "9 passed, 1 failed", "(?m)^FAILED: high is not proved$")

    def test_a_crate_is_not_in_the_list(self) -> None:
        self.write("repository/crates/other/src/lib.rt", "pub fn one() {}\n")
        self.assert_fails(self.gate(), "10 passed, 1 failed", "(?m)^FAILED: other is not proved$")

    def test_a_check_is_killed_for_memory(self) -> None:
        self.assert_fails(self.gate(KILLED="high"), "9 passed, 1 failed", "most likely for memory")

    def test_the_library_plays_otherwise(self) -> None:
        self.write("repository/scripts/boundary.py", f"{STUB}echo 'FAILED: 200 scripts'; echo '2 passed, 1 failed'; exit 1\n")
        self.assert_fails(self.gate(), "9 passed, 1 failed", "(?m)^FAILED: 200 scripts$")

    def test_the_library_is_not_compiled(self) -> None:
        self.write("repository/scripts/library.py", f"{STUB}echo 'library: it does not compile'; exit 1\n")
        self.assert_fails(self.gate(), "10 passed, 1 failed", "FAILED: library.py: ended with status 1")

    def test_test_all_runs_where_the_library_has_changed(self) -> None:
        said, last, status = self.gate("ci.py")
        self.assertEqual((last, status), ("15 passed, 0 failed", 0), said)
        subprocess.run(["python3", "-c", "import callers; callers.note_passed()"], cwd=self.root / "scripts", check=True)
        self.assertEqual(self.gate("ci.py")[1:], ("10 passed, 0 failed", 0))
        self.write("repository/bindings/c/txc.h", "")
        self.assertEqual(self.gate("ci.py")[1:], ("15 passed, 0 failed", 0))

    def test_test_all_fails(self) -> None:
        self.write("repository/Makefile", "prove:\n\t@scripts/prove.py\ntest-all:\n\t@echo '4 passed, 1 failed'; exit 1\n")
        self.assert_fails(self.gate("ci.py"), "14 passed, 1 failed", "test-all: 4 passed, 1 failed")


class Layer(unittest.TestCase):
    """The layer of the library for callers."""

    def test_it_is_what_no_program_stands_on(self) -> None:
        rows = dict(re.findall(r"^(\w+)(?: staticlib)?: *(.*)$", (ROOT / "crates.txt").read_text(encoding="utf-8"), re.M))

        def below(crate: str) -> set[str]:
            return {crate}.union(*(below(it) for it in rows[crate].split() if it in rows))

        programs = [it.parent.parent.name for it in ROOT.glob("crates/*/src/main.rt")]
        text = (ROOT / "scripts/callers.py").read_text(encoding="utf-8")
        named = re.findall(r'"(\w+)"', re.search(r"^CRATES = \((.*?)\)", text, re.M | re.S)[1])
        self.assertEqual({*named}, below("txc_c").difference(*(below(it) for it in programs)))


if __name__ == "__main__":
    unittest.main()
