#!/usr/bin/env python3
"""Counts the instructions of the store's and the node's operations beside those of another tree.

usage: bench/trees.py COMMIT [store|node]

The programs are bench/store_bench and bench/node_bench of this tree and of COMMIT, compiled with no proof. Of the store one row of 1,000 has none or 1,000
kept versions, and all queries are of the newest stamp. It prints a table in markdown: instructions of one operation (by callgrind, with all that it
calls), and of how many times those of COMMIT they are; and last the memory of the process with 50,000 dead versions.
"""

import os
import re
import shutil
import subprocess
import sys
import tempfile
from typing import Iterator

ROOT = os.path.dirname(os.path.dirname(os.path.abspath(__file__)))
sys.path.insert(0, f"{ROOT}/scripts")

import node_calls  # noqa: E402: what follows lies beside this file or in scripts
import unproved  # noqa: E402

ROWS, KEPT, DEAD, COUNT = 1000, 1000, 50_000, 2000
# Each program and the libraries that it uses.
PROGRAMS = {
    "store_bench": "anyhow thiserror txc_stamp txc_tags txc_rows txc_stream txc_db",
    "node_bench": "txc_stamp txc_tags txc_node anyhow",
}
# Of each operation: its line for the program, how many times it is run, and what is done before.
WRITES = {
    "a put of a changed row": ("write_1", 400, []),
    "a commit of one put": ("commit_1", 400, []),
    "a new id": ("add", 400, []),
    "a change of group": ("move", 400, []),
    "a purge of 500": ("purge", 1, ["write_1 500"]),
    "a vacuum of 500": ("vacuum", 1, ["commit_1 500"]),
}


def built(name: str, commit: str, room: str) -> str:
    """Returns the program of that name and commit, made in the room."""
    copy, crate = f"{room}/copy", f"{room}/copy/crates/{name}"
    os.makedirs(copy)
    taken = subprocess.run(["git", "-C", ROOT, "archive", commit], capture_output=True, check=True).stdout
    subprocess.run(["tar", "-x", "-C", copy], input=taken, check=True)
    os.makedirs(f"{crate}/src")
    sources = f"{copy}/bench/{name}"
    for folder, _, files in os.walk(sources):
        for file in files:
            if file.endswith(".rt.in"):
                shutil.copy(f"{folder}/{file}", f"{crate}/src/{file.removesuffix('.in')}")
    with open(f"{copy}/crates.txt", "a", encoding="utf-8") as it:
        it.write(f"{name}: {PROGRAMS[name]}\n")
    said = unproved.build(crate, f"{room}/{name}", ["--steps", "1"])
    if said:
        sys.exit(f"{said[-3000:]}\ntrees.py: {name} of {commit} was not compiled")
    return f"{room}/{name}"


def instructions(program: str, lines: "list[str]", room: str) -> int:
    """Returns how many instructions the program takes for these lines."""
    with open(f"{room}/lines", "w", encoding="utf-8") as it:
        it.writelines(f"{line}\n" for line in lines)
    with open(f"{room}/lines", encoding="utf-8") as it:
        ran = subprocess.run(["valgrind", "--tool=callgrind", "--callgrind-out-file=/dev/null", program], stdin=it, capture_output=True, text=True, check=True)
    return int(re.search(r"Collected : (\d+)", ran.stderr)[1])


def per_one(program: str, before: "list[str]", line: str, count: int, room: str) -> float:
    """Returns the instructions of one of so many of the line."""
    made = [f"rows {ROWS}", *before]
    return (instructions(program, [*made, f"{line} {2 * count}"], room) - instructions(program, [*made, f"{line} {count}"], room)) / count


def query(program: str, operation: str, kept: int, room: str) -> float:
    """Returns the instructions of a query of the row with so many kept versions: every other one of two rows' queries."""
    kept_lines = [f"hot {kept}"] if kept else []
    both = per_one(program, [*kept_lines, "ids 2"], operation, COUNT, room)
    other = per_one(program, [*kept_lines, "ids 1"], operation, COUNT, room)
    return 2 * both - other


def written(program: str, line: str, count: int, before: "list[str]", room: str) -> float:
    """Returns the instructions of one such write, without what comes before it."""
    made = [f"rows {ROWS}", f"write_1 {ROWS // 2}", "purge 1", "vacuum 1", *before]
    return (instructions(program, [*made, f"{line} {count}"], room) - instructions(program, made, room)) / count


def memory(program: str) -> int:
    """Returns the kilobytes of the process with so many dead versions."""
    lines = f"rows {ROWS}\nwrite_1 {DEAD}\n"
    ran = subprocess.run(["/usr/bin/time", "-f", "%M", program], input=lines, capture_output=True, text=True, check=True)
    return int(ran.stderr.split()[-1])


def shown(name: str, old: float, new: float) -> str:
    return f"| {name} | {old:,.0f} | {new:,.0f} | {new / old:.2f} |"


def of_the_store(programs: "list[str]", room: str) -> Iterator[str]:
    """Yields the rows of the table that the store's operations have."""
    for operation, name in (("id", "a query by id"), ("group", "a query of a group of ten"), ("range", "a query of a range of ten")):
        for kept in (0, KEPT):
            yield shown(f"{name}, {kept:,} versions kept of one row", *(query(it, operation, kept, room) for it in programs))
    for name, (line, count, before) in WRITES.items():
        yield shown(name, *(written(it, line, count, before, room) for it in programs))
    yield shown(f"KB of the process with {DEAD:,} dead", *map(memory, programs))


def of_the_node(programs: "list[str]", _room: str) -> Iterator[str]:
    """Yields the rows of the table that the node's calls have."""
    for call, part in node_calls.CALLS.items():
        yield shown(node_calls.NAMES[call], *(node_calls.one(it, call) - node_calls.one(it, part) for it in programs))


KINDS = {"store": ("store_bench", of_the_store), "node": ("node_bench", of_the_node)}


def main() -> int:
    words = sys.argv[1:]
    if not words or words[0].startswith("-") or not set(words[1:]) <= set(KINDS):
        print(__doc__)
        return 2
    for kind in words[1:] or KINDS:
        name, rows = KINDS[kind]
        with tempfile.TemporaryDirectory() as room:
            programs = []
            for tree, commit in (("old", words[0]), ("new", "HEAD")):
                os.makedirs(f"{room}/{tree}")
                programs.append(built(name, commit, f"{room}/{tree}"))
            print(f"| One of | {words[0]} | now | |\n|---|---|---|---|")
            for line in rows(programs, room):
                print(line, flush=True)
    return 0


if __name__ == "__main__":
    sys.exit(main())
