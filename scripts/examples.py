#!/usr/bin/env python3
"""Writes the examples with what they print as constants of the tests: those of mode node, with their reports, in
tests/txc_tests/src/run/run/examples.rt.in, and those of mode world in tests/txc_tests/src/world/world/examples.rt.in.

usage: examples.py [--check]      --check writes nothing, and ends with 1 where a file is not what would be written
"""
import pathlib, re, sys

# Longer scripts are no constants of a test: the gate runs the program itself over them (scripts/run_examples.sh).
MOST_BYTES = 1_500

# Nor are the worlds that are written for a reader, but for the first one: the prover goes over all constants of a table in one function.
FOR_READERS = {"a_page_beside_a_commit", "a_session_line_by_line"}

HEAD = """//! The scripts of examples/ with their output: written by scripts/examples.py, which the gate compares.

use txc_script_settings::Mode;

/// Each example: its name, a mode, its script, its output in that mode, and the status of the program after it.
pub const EXAMPLES: [(&str, Mode, &str, &str, u8); %d] = [
"""

WORLDS = """//! The scripts of worlds in examples/ with their replies: written by scripts/examples.py, which the gate compares.

/// Each example: its name, its settings, its script, its replies, and the status of the program after it.
pub const EXAMPLES: [(&str, &str, &str, &str, u8); %d] = [
"""


def literal(text):
    """A text as a string literal, one line of the text a line."""
    lines = text.replace("\\", "\\\\").replace('"', '\\"').split("\n")
    ends = [*(line + "\\n" for line in lines[:-1]), *lines[-1:]]
    ends = [line for line in ends if line]
    return '"' + ("\\\n" + " " * 9).join(ends) + '"'


def scripts(files):
    """The scripts that are short enough, each with its output and the status of the program after it."""
    for script in sorted(files):
        if script.stat().st_size <= MOST_BYTES:
            replies = script.with_suffix(".out").read_text()
            refused = re.search(r"(^|[a-z0-9] )refused |^line \d+: malformed$", replies, re.M)
            yield script, replies, "1" if refused else "0"


def table(head, rows):
    """The constants of these rows of values."""
    text = ["    (\n" + "".join(f"        {value},\n" for value in row) + "    ),\n" for row in rows]
    return head % len(text) + "".join(text) + "];\n"


def of_nodes(folder):
    rows = []
    for script, replies, status in scripts(folder.glob("*.txc")):
        outputs = [("Mode::Node", replies)]
        if script.with_suffix(".report").is_file():
            outputs.append(("Mode::Report", script.with_suffix(".report").read_text()))
        for mode, output in outputs:
            rows.append([literal(script.stem), mode, literal(script.read_text()), literal(output), status])
    return table(HEAD, rows)


def of_worlds(folder):
    rows = []
    for script, replies, status in scripts([folder / "9_transactions.txw", *folder.glob("worlds/*.txw")]):
        if script.stem in FOR_READERS:
            continue
        file = script.with_suffix(".settings")
        settings = file.read_text() if file.is_file() else ""
        rows.append([literal(script.stem), literal(settings), literal(script.read_text()), literal(replies), status])
    return table(WORLDS, rows)


def main():
    root = pathlib.Path(__file__).resolve().parent.parent
    tests = root / "tests"
    examples = root / "examples"
    written = {
        tests / "txc_tests/src/run/run/examples.rt.in": of_nodes(examples),
        tests / "txc_tests/src/world/world/examples.rt.in": of_worlds(examples),
    }
    for target, text in written.items():
        if "--check" not in sys.argv[1:]:
            target.write_text(text)
        elif not target.is_file() or target.read_text() != text:
            sys.exit(f"{target.relative_to(root)} is not what scripts/examples.py writes: run it")


main()
