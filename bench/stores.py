#!/usr/bin/env python3
"""Measures the two stores of rows side by side, at tables of 1,000, 65,536 and 1,000,000 rows of 8 bytes: puts, queries by id, vacuums, and what a row takes.

usage: bench/stores.py [--rows N,..] [FOLDER]
       bench/stores.py [--rows N,..] --rattle [PROGRAM]
  FOLDER    of the library for C, by default bindings/out; its header is taken from there too
  --rattle  the same of VersionRows by itself: of bench/store_bench, which is compiled with no proof where no PROGRAM is given
  --rows    other sizes, the least first

It prints a table in markdown: instructions of one (by callgrind, which no other work of the machine changes) and microseconds of processor time (the least of five
rounds) over a table of SQLite and over slots, and of how many times those of SQLite the instructions over slots are. Through C follow the bars, and the exit status is
1 if one of them is missed.
"""

from __future__ import annotations

import argparse
import glob
import math
import os
import re
import subprocess
import sys
import tempfile
import time
from typing import NamedTuple

ROOT = os.path.dirname(os.path.dirname(os.path.abspath(__file__)))
sys.path[:0] = [f"{ROOT}/scripts", f"{ROOT}/bench"]

import library  # noqa: E402: what follows lies in scripts or beside this file
import trees  # noqa: E402

SIZES = (1000, 65_536, 1_000_000)
ROUNDS = 5
DEAD = 10_000
# A step of the package for Python touches so many tags, and so many steps are made.
TAGS, STEPS = 500, 100
# The greatest shares of SQLite's instructions at the least size; of how many times a put may grow; nanoseconds of a step, and bytes of a row.
PUT_SHARE, QUERY_SHARE, GROWTH, STEP_NS, ROW_BYTES = 0.2, 0.35, 3, 10_000_000, 250


class Operation(NamedTuple):
    """What is measured: its line's name, how many are counted and timed at once, of how many parts one is, and what comes before."""

    line: str
    count: int
    parts: int = 1
    before: str = ""


C = {
    "a touched tag, of a commit of six": Operation("six", 20, 6),
    "a commit of one put": Operation("put", 60),
    "a commit of a new row at a random id": Operation("new", 60),
    "a query by id, of a transaction of six": Operation("query", 100, 6),
    f"a vacuum after {DEAD:,} puts": Operation("vacuum", 1, 1, f"dirty {DEAD}"),
}
RATTLE = {
    "a put of a changed row": Operation("write_1", 60),
    "a new row at a random id": Operation("random", 60),
    "a query by id, of all versions": Operation("id", 500),
    "a query by id, of the current one": Operation("current", 500),
    f"a vacuum after {DEAD:,} puts": Operation("purge", 1, 1, f"write_1 {DEAD}"),
}


class Program:
    """A program at work over one store, one line at a time; under callgrind, if its instructions are counted."""

    def __init__(self, words: list[str], first: list[str], room: str = ""):
        self.counts = f"{tempfile.mkdtemp(dir=room)}/counts" if room else ""
        valgrind = ["valgrind", "--tool=callgrind", "--instr-atstart=no", f"--callgrind-out-file={self.counts}"] if room else []
        self.process = subprocess.Popen([*valgrind, *words], stdin=subprocess.PIPE, stdout=subprocess.PIPE, stderr=subprocess.DEVNULL, text=True)
        for it in first:
            self.run(it)

    def __enter__(self) -> Program:
        return self

    def __exit__(self, *_: object) -> None:
        assert self.process.stdin
        self.process.stdin.close()
        self.process.wait()

    def run(self, line: str) -> int:
        """Returns the number that the line is answered."""
        assert self.process.stdin and self.process.stdout
        self.process.stdin.write(f"{line}\n")
        self.process.stdin.flush()
        answer = self.process.stdout.readline().strip()
        if not answer.isdecimal():
            sys.exit(f"stores.py: {line}: {answer or 'no answer'}")
        return int(answer)

    def _control(self, *words: str) -> None:
        subprocess.run(["callgrind_control", *words, str(self.process.pid)], check=True, stdout=subprocess.DEVNULL, stderr=subprocess.DEVNULL)

    def instructions(self, line: str) -> int:
        """Returns how many instructions the line takes."""
        self._control("-i", "on")
        self._control("-z")
        self.run(line)
        self._control("-d", "line")
        self._control("-i", "off")
        last = max(glob.glob(f"{self.counts}.*"), key=lambda it: int(it.rpartition(".")[2]))
        with open(last, encoding="utf-8") as it:
            return int(re.findall(r"^totals: (\d+)$", it.read(), re.M)[0])

    def seconds(self, line: str) -> float:
        """Returns the processor time that the line takes."""
        clock = (~self.process.pid << 3) | 2  # of that process
        begun = time.clock_gettime(clock)
        self.run(line)
        return time.clock_gettime(clock) - begun

    def memory(self) -> int:
        """Returns the bytes of the process."""
        with open(f"/proc/{self.process.pid}/statm", encoding="ascii") as it:
            return int(it.read().split()[1]) * os.sysconf("SC_PAGE_SIZE")


class Store(NamedTuple):
    """A program over one of the two stores, and the lines that come before the filling."""

    words: list[str]
    first: list[str]

    def program(self, rows: int, room: str = "") -> Program:
        """Returns the program with so many rows."""
        return Program(self.words, [*self.first, f"rows {rows}"], room)


def instructions(store: Store, rows: int, operations: dict[str, Operation], room: str) -> dict[str, float]:
    """Returns the instructions of one of each."""
    found = {}
    with store.program(rows, room) as it:
        for name, (line, count, parts, before) in operations.items():
            if before:
                it.run(before)
            found[name] = it.instructions(f"{line} {count}") / count / parts
    return found


def seconds(store: Store, rows: int, operations: dict[str, Operation]) -> dict[str, float]:
    """Returns the seconds of one of each, the least of some rounds."""
    found = dict.fromkeys(operations, math.inf)
    with store.program(rows) as it:
        for _ in range(ROUNDS):
            for name, (line, count, parts, before) in operations.items():
                if before:
                    it.run(before)
                found[name] = min(found[name], it.seconds(f"{line} {count}") / count / parts)
    return found


def table(stores: list[Store], sizes: list[int], operations: dict[str, Operation], room: str) -> dict[tuple[str, int], list[float]]:
    """Prints the table, and returns the instructions over the two stores, by name and size."""
    print("| One of | Rows | SQLite: instructions | SQLite: µs | Plain: instructions | Plain: µs | Instructions, of SQLite's |\n|---|---|---|---|---|---|---|")
    found = {}
    for rows in sizes:
        counts = [instructions(it, rows, operations, room) for it in stores]
        times = [seconds(it, rows, operations) for it in stores]
        for name in operations:
            sql, plain = found[name, rows] = [it[name] for it in counts]
            took = [1e6 * it[name] for it in times]
            print(f"| {name} | {rows:,} | {sql:,.0f} | {took[0]:,.1f} | {plain:,.0f} | {took[1]:,.1f} | {plain / sql:.2f} |", flush=True)
    return found


def judged(name: str, value: float, most: float) -> bool:
    """Prints whether a bar is met, and returns it."""
    is_met = value <= most
    print(f"{name}: {value:,.2f}, at most {most:,}: {'met' if is_met else 'MISSED'}", flush=True)
    return is_met


def live_bytes(store: Store, line: str) -> int:
    """Returns how many bytes are live after the line beside those before it."""
    with Program(store.words, store.first) as it:
        before = it.run("bytes 1")
        it.run(line)
        return it.run("bytes 1") - before


def bars(stores: list[Store], sizes: list[int], found: dict[tuple[str, int], list[float]]) -> bool:
    """Prints each bar and whether it is met, and returns whether all are."""
    touched, query = list(C)[0], list(C)[3]
    least, greatest = sizes[0], sizes[-1]
    print()
    share = lambda name: found[name, least][1] / found[name, least][0]
    met = [judged(f"{touched} at {least:,} rows, of SQLite's instructions", share(touched), PUT_SHARE)]
    met.append(judged(f"{query} at {least:,} rows, of SQLite's instructions", share(query), QUERY_SHARE))
    met.append(judged(f"{touched} at {greatest:,} rows, of its instructions at {least:,}", found[touched, greatest][1] / found[touched, least][1], GROWTH))
    with stores[1].program(greatest) as it:
        met.append(judged(f"ms of the longest of {STEPS} steps of {TAGS} tags at {greatest:,} rows", it.run(f"step {STEPS}") / 1e6, STEP_NS / 1e6))
    for line in ("rows", "random"):
        order = {"rows": "by id", "random": "at random"}[line]
        met.append(judged(f"bytes of a row, {greatest:,} that came {order}", live_bytes(stores[1], f"{line} {greatest}") / greatest, ROW_BYTES))
    middle = sizes[len(sizes) // 2]
    with stores[0].program(least) as it:
        print(f"over SQLite: {it.run(f'step {STEPS}') / 1e6:.2f} ms of the longest step at {least:,} rows, "
              f"{live_bytes(stores[0], f'rows {middle}') / middle:,.0f} bytes of a row of {middle:,}")
    return all(met)


def through_c(folder: str, sizes: list[int], room: str) -> bool:
    """Prints the table and the bars, and returns whether all are met."""
    wraps = ",".join(f"--wrap={it}" for it in ("malloc", "realloc", "free"))
    made = f"{room}/calls"
    library.told([library.compiler(), "-O2", f"-Wl,{wraps}", "-I", folder, f"{ROOT}/bench/library_stores/calls.c", f"{folder}/libtxc_c.a", "-o", made])
    stores = [Store([made, it], []) for it in ("sql", "plain")]
    return bars(stores, sizes, table(stores, sizes, C, room))


def in_rattle(program: str, sizes: list[int], room: str) -> None:
    """Prints the table, and the bytes of a row by what the process has."""
    shape = ["spaced 2", "bytes 8"]
    stores = [Store([program], [f"{it} 1", *shape]) for it in ("alone", "plain")]
    table(stores, sizes, RATTLE, room)
    print()
    for rows in sizes[1:]:
        found = []
        for store in stores:
            with Program(store.words, store.first) as it:
                before = it.memory()
                it.run(f"rows {rows}")
                found.append((it.memory() - before) / rows)
        print(f"bytes of a row of {rows:,}, by what the process has: {found[0]:,.0f} over SQLite, {found[1]:,.0f} plain", flush=True)


def main() -> int:
    given = argparse.ArgumentParser(usage=__doc__.split("usage: ")[1])
    given.add_argument("--rows", default=",".join(map(str, SIZES)))
    given.add_argument("--rattle", action="store_true")
    given.add_argument("path", nargs="?")
    words = given.parse_args()
    sizes = [int(it) for it in words.rows.split(",")]
    with tempfile.TemporaryDirectory(prefix="stores-") as room:
        if words.rattle:
            in_rattle(words.path or trees.built("store_bench", "HEAD", room), sizes, room)
            return 0
        return 0 if through_c(words.path or f"{ROOT}/bindings/out", sizes, room) else 1


if __name__ == "__main__":
    sys.exit(main())
