#!/usr/bin/env python3
"""Measures what a client's calls cost on one thread, and the parts of a hit by themselves, from outside of the program
client_bench. bench/client.sh runs it.

usage: times.py PROGRAM [--stored] [--capacities N..] [--records N..] [--times]
       times.py PROGRAM --figures

CAPACITIES are the most entries of the node (1024 65536), RECORDS the lengths to which its history and the database's are
brought (1000 1000000); the entries alone take some of them, so that a short history may be longer. Of each pair there is a
column: the instructions of one call (by callgrind, where valgrind is there) and its blocks (by the allocator of
scripts/refuse.c). Both are the same on a loaded machine. Times are measured only where they are asked for: nanoseconds of
processor time, the least of seven rounds in which the operations take turns.

With --stored the nodes store their records: a hit is then made of more parts. The program obeys lines. What a line costs is
read before and after it; the same line with the number 0 is taken off, and what the beginning of a transaction or the making
of a key takes, since these have rows of their own. Last comes a hit beside the sum of its parts.

Two rows say little. By itself the making of a key is left out by the compiler, and so is a front that is lengthened again by
one that shows no more. So a look-up at a plain node, a record and an answer hold a key each, and the sum holds four. Where the
node is large, times of both look-ups at the plain node wait for memory, which in a hit only the first does. A difference of
times may be below 0.

With --figures it prints the one table of docs/FIGURES.md, below a line with the day, the machine and the command: pipe it to
scripts/figures.py.
"""

import argparse
import os
import re
import shutil
import subprocess
import sys
import tempfile
import time
from typing import NamedTuple

sys.path.insert(0, f"{os.path.dirname(os.path.abspath(__file__))}/..")
from world import made_refuse

# as in keys.rt and bench.rt
GROUPS = 64
CALLS = 16
# the most records of a node, and the most events
ROOM = 1_048_576
ROUNDS = 7


class Operation(NamedTuple):
    """An operation that the program repeats for one line, each time with some calls."""

    text: str
    times: int
    each: int = 1
    # an operation that each call has in it, and what part of one
    off: str = ""
    share: int = 1
    # the records that a call makes at the node, where they are counted
    records: int = 0


# The first need the entries that were made at the beginning; the parts change none; the last drop some.
ON_ENTRIES = {
    "begin": Operation("begin and commit", 100),
    "hit": Operation("a hit", 40, CALLS, "begin", CALLS, records=1),
    "lookup": Operation("a hit at the locked node", 480, off="key", records=1),
    "insert": Operation("an insertion at the locked node, which drops an entry", 480, off="lookup"),
}
PARTS = {
    "key": Operation("a key made", 1_600),
    "find": Operation("a hit at a plain node, by `find`", 1_600, off="key"),
    "touch": Operation("a hit at a plain node, by `lookup`", 1_600, off="key"),
    "value": Operation("a copy of the value", 1_600),
    "tags": Operation("a copy of its tags", 1_600),
    "record": Operation("a record with its box, appended", 1_600, off="key"),
    "again": Operation("a front made again", 1_600),
    "longer": Operation("a front lengthened", 1_600),
    "lock": Operation("a lock taken and let go", 1_600),
    "answer": Operation("an answer in the list of sixteen", 1_600, off="key"),
}
DROPPING = {
    "miss": Operation("a miss with one query of no row", 20, CALLS, "begin", CALLS, records=2),
    "nested": Operation("a nested call: a hit inside, one query", 20, CALLS, "begin", CALLS, records=3),
    "advance": Operation("`advance`, of a pin", 160),
    "close": Operation("`advance`, of a commit that closes an entry", 160),
}
ALL = {**ON_ENTRIES, **DROPPING, **PARTS}
# how often each part comes in a hit, and in one of a node that stores its record
HIT = {"key": 1, "touch": 1, "value": 2, "tags": 1, "again": 1, "longer": 3, "lock": 1, "answer": 1}
STORED_HIT = {**HIT, "value": 3, "tags": 2, "record": 1}
# what docs/FIGURES.md shows: the operations, and the nodes and histories of its columns
SHOWN = ["begin", "hit", "lookup", "insert", "miss", "nested", "advance", "close", "touch"]
COLUMNS = {"1,024 entries": (1_024, 1_000), "65,536": (65_536, 1_000), "1,024, long history": (1_024, 1_000_000)}


class Run:
    """The program at work, one line at a time."""

    rounds = 1

    def __init__(self, words, environment=None):
        environment = {**os.environ, **(environment or {})}
        self.process = subprocess.Popen(words, stdin=subprocess.PIPE, stdout=subprocess.PIPE, text=True, env=environment)

    def obey(self, line, wanted=None):
        """Returns the program's reply to the line."""
        self.process.stdin.write(f"{line}\n")
        self.process.stdin.flush()
        answer = self.process.stdout.readline()
        if not answer or wanted not in (None, int(answer)):
            sys.exit(f"times.py: {line}: {answer or 'no answer'} in place of {wanted}")
        return int(answer)

    def cost(self, line, wanted):
        before = self.read()
        self.obey(line, wanted)
        return self.read() - before

    def begin(self):
        """Begins the measurement."""

    def close(self):
        self.process.stdin.close()
        self.process.wait()


class Timed(Run):
    """By the processor time of the process, in nanoseconds."""

    rounds = ROUNDS

    def __init__(self, words, room):
        super().__init__(words)

    def read(self):
        return time.clock_gettime_ns((~self.process.pid << 3) | 2)


class Blocks(Run):
    """By the blocks that the process asks for."""

    def __init__(self, words, room):
        self.count = f"{room}/count"
        with open(self.count, "wb") as file:
            file.write(bytes(8))
        super().__init__(words, {"LD_PRELOAD": made_refuse(room), "REFUSE_COUNT": self.count})

    def read(self):
        with open(self.count, "rb") as file:
            return int.from_bytes(file.read(8), "little")


class Instructions(Run):
    """By the instructions of the process. From `begin` on callgrind makes a file of them before each answer is written."""

    def __init__(self, words, room):
        self.out = f"{tempfile.mkdtemp(dir=room)}/out"
        self.dumps, self.total = 0, 0
        flags = ["--instr-atstart=no", "--dump-before=write", f"--callgrind-out-file={self.out}"]
        super().__init__(["valgrind", "--quiet", "--tool=callgrind", *flags, *words])

    def begin(self):
        subprocess.run(["callgrind_control", "-i", "on", str(self.process.pid)], check=True, capture_output=True)
        self.obey("key 0", 0)

    def read(self):
        while os.path.exists(f"{self.out}.{self.dumps + 1}"):
            self.dumps += 1
            with open(f"{self.out}.{self.dumps}", encoding="utf-8") as file:
                self.total += int(re.search(r"^(?:summary|totals): (\d+)", file.read(), re.M)[1])
        return self.total


def fill(run, capacity, records):
    """Sets up rows and entries, and histories of so many records; says how many there are."""
    entries = capacity - GROUPS
    run.obey(f"rows {GROUPS}", GROUPS)
    run.obey("pins 1", 1)
    run.obey("records 0", 2)
    run.obey(f"entries {entries}", entries)
    more = max(0, records - 1 - run.obey("records 0"))
    run.obey(f"events {more}", more)
    run.obey("pins 1", 1)
    return run.obey("records 0")


def prepare(run, name, times):
    """Makes the records that the operation needs to run so many times."""
    if name == "nested":
        # so that the node has the inner calls
        run.obey(f"nested {GROUPS // CALLS}", GROUPS)
    if name == "advance":
        run.obey(f"events {times}", times)
    if name == "close":
        run.obey(f"miss {times // CALLS}", times)
        run.obey(f"changes {times}", times)


def once(run, name, operation):
    """Returns the time of one call of the operation, with the time that is to be taken off."""
    prepare(run, name, operation.times)
    calls = operation.times * operation.each
    before = run.obey("records 0") if operation.records else 0
    nothing = run.cost(f"{name} 0", 0)
    spent = run.cost(f"{name} {operation.times}", 0 if name == "begin" else calls)
    made = run.obey("records 0") - before if operation.records else 0
    if made != operation.records * calls:
        sys.exit(f"times.py: {name}: {made} records of {calls} calls")
    return (spent - nothing) / calls


def measured(run, operations, spent):
    """The least of the rounds, in which the operations take turns."""
    for _ in range(run.rounds):
        for name, operation in operations.items():
            taken = once(run, name, operation)
            spent[name] = min(spent.get(name, taken), taken)


def costs(run, capacity, records):
    """Returns the number of records, and the time of one call of each operation."""
    there = fill(run, capacity, records)
    run.begin()
    spent = {}
    measured(run, {**ON_ENTRIES, **PARTS}, spent)
    measured(run, DROPPING, spent)
    run.close()
    return there, {name: spent[name] - spent.get(it.off, 0) / it.share for name, it in ALL.items()}


def shown(number):
    return f"{number:,.0f}" if abs(number) >= 100 else f"{number:,.1f}"


def table(title, columns, parts):
    """A row of each operation, and the sum of the parts of a hit; a column of each node and history."""
    heads = [f"{capacity:,} entries, {records:,} records" for capacity, records, _ in columns]
    print(f"\n| {title} | {' | '.join(heads)} |")
    print("|---" * (1 + len(columns)) + "|")
    for name, operation in ALL.items():
        print(f"| {operation.text} | {' | '.join(shown(spent[name]) for *_, spent in columns)} |")
    sums = [sum(times * spent[part] for part, times in parts.items()) for *_, spent in columns]
    print(f"| the parts of a hit, together | {' | '.join(map(shown, sums))} |")
    ratios = [spent["hit"] / it if it else 0 for (*_, spent), it in zip(columns, sums)]
    print(f"| a hit beside them | {' | '.join(f'{it:.2f}' for it in ratios)} |", flush=True)


def column(program, kind, capacity, records, is_stored=False):
    """Returns the number of records, and the time of one call of each operation, in a run of its own."""
    with tempfile.TemporaryDirectory() as room:
        words = [os.path.abspath(program), str(capacity), str(ROOM), *["stored"] * is_stored]
        return costs(kind(words, room), capacity, records)


def machine():
    """Returns a line on the machine, and how busy it is."""
    with open("/proc/cpuinfo", encoding="utf-8") as it:
        name = re.search(r"^model name\s*: (.*)", it.read(), re.M)
    return f"{os.cpu_count()} cores of {name[1].strip() if name else 'an unknown kind'}, load {os.getloadavg()[0]:.1f}"


def figures(program):
    """The table of docs/FIGURES.md, below the line that says when, where and how it was made."""
    print(f"Measured on {time.strftime('%Y-%m-%d')} by `bench/client_bench/times.py --figures`, on {machine()}; instructions of one call.\n")
    made = [column(program, Instructions, *it)[1] for it in COLUMNS.values()]
    blocks = column(program, Blocks, *COLUMNS["1,024 entries"])[1]
    print(f"| One of | {' | '.join(COLUMNS)} | Blocks |")
    print("|---" * (2 + len(COLUMNS)) + "|")
    for name in SHOWN:
        print(f"| {ALL[name].text} | {' | '.join(f'{it[name]:,.0f}' for it in made)} | {blocks[name]:.1f} |")


def main():
    words = argparse.ArgumentParser(usage=__doc__.partition("usage: ")[2].partition("\n")[0])
    words.add_argument("program")
    words.add_argument("--stored", action="store_true")
    words.add_argument("--capacities", nargs="+", type=int, default=[1_024, 65_536])
    words.add_argument("--records", nargs="+", type=int, default=[1_000, 1_000_000])
    words.add_argument("--times", action="store_true")
    words.add_argument("--figures", action="store_true")
    options = words.parse_args()
    if options.figures:
        return figures(options.program)
    parts = STORED_HIT if options.stored else HIT
    kinds = {"Blocks of one call": Blocks}
    if shutil.which("valgrind"):
        kinds = {"Instructions of one call": Instructions, **kinds}
    if options.times:
        kinds["Nanoseconds of one call"] = Timed
    for title, kind in kinds.items():
        columns = []
        for capacity in options.capacities:
            for records in options.records:
                columns.append((capacity, *column(options.program, kind, capacity, records, options.stored)))
        table(title, columns, parts)
    of_parts = ", ".join(f"{times} of {ALL[part].text}" for part, times in parts.items())
    print(f"\nThe parts of a hit: {of_parts}.")


if __name__ == "__main__":
    main()
