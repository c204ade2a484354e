#!/usr/bin/env python3
"""Counts the instructions that a call of a node of 1,024 entries takes by itself, whatever else the machine does, by
`valgrind --tool=callgrind`.

usage: node_calls.py PROGRAM..

A PROGRAM is bench/node_bench, proved and built over a commit: its source goes to crates/node_bench of a clone, with the line
`node_bench: txc_stamp txc_tags txc_node anyhow` in crates.txt, and `rt run -- none 10 1` is run there. Each line: the call, and
of each program the instructions of one. What the caller makes for it, a key, an entry or a set, is taken off.
"""
import re
import subprocess
import sys
import tempfile

# the calls, and what makes what they take
CALLS = {"find": "key", "lookup": "key", "locked": "key", "insert": "entry", "events": "sets", "closing": "sets"}
NAMES = {
    "find": "`find`, a hit",
    "lookup": "`lookup`, a hit",
    "locked": "the same in two halves, with a copy of what it shows",
    "insert": "`insert`, which drops an entry",
    "events": "`event`, which closes none",
    "closing": "`event`, which closes one",
}
CAPACITY = 1_024
TIMES = 1_000


def count(program, operation, number):
    """The instructions of a run."""
    with tempfile.NamedTemporaryFile() as out:
        words = ["valgrind", "--quiet", "--tool=callgrind", f"--callgrind-out-file={out.name}", program, operation]
        subprocess.run([*words, str(CAPACITY), str(number)], stdout=subprocess.DEVNULL, stderr=subprocess.DEVNULL, check=True)
        return int(re.search(r"^(?:summary|totals): (\d+)", out.read().decode(), re.M)[1])


def one(program, operation):
    """Returns the time of one call."""
    return (count(program, operation, TIMES) - count(program, operation, 1)) / (TIMES - 1)


def main():
    programs = sys.argv[1:]
    made = {(program, part): one(program, part) for program in programs for part in set(CALLS.values())}
    for call, part in CALLS.items():
        shown = [f"{one(program, call) - made[program, part]:7,.0f}" for program in programs]
        print(f"{NAMES[call]:55} {' '.join(shown)}", flush=True)


if __name__ == "__main__":
    main()
