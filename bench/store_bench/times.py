#!/usr/bin/env python3
"""Times what the program store_bench does, by its processor time. bench/store.sh runs it.

usage: times.py PROGRAM ROWS.. / EVENTS..
  ROWS     the sizes of the first table, the least first
  EVENTS   the lengths of the history, at the first size

Each line: the operation, and the processor time of one run of it. Queries by id, by group and of a range, beside 500 old
bodies, name few different ids again and again, or all of the table in turn; a range has the ids of a group. A commit stands beside the store's own write of the same changes,
and the same commit once more, which changes nothing, shows what it reads; all three without what it takes to make
the changes. Then come removals, changes of group and new ids above the others, by the store's own writes, its purges of
500 old bodies, and purges of as many as there are rows, or of the most rows. With PURGES=N there are N purges of 500 alone. Last comes
what the greatest size and the longest history take, as multiples of what the least take.
"""

import os
import subprocess
import sys
import time

FEW = 200
# of each kind of query its operation, how many runs at a time, and whether few ids are named
QUERIES = {
    "few ids": ("id", 20000, True),
    "all ids": ("id", 20000, False),
    "few groups": ("group", 5000, True),
    "all groups": ("group", 5000, False),
    "few ranges": ("range", 5000, True),
    "all ranges": ("range", 5000, False),
    "a table": ("table", 50, False),
    "the large": ("refused", 50, False),
}
# so many times, of which the least counts
ROUNDS = 5
# of each size of a commit how many runs at a time
CHANGES = {1: 40, 256: 1}
# so many changes at a time of commits that change nothing
AGAIN = 2560
# the store's own writes of one row each, and how many at a time
ONES = {"a removal": "remove", "a change of group": "move", "a new id": "add"}
ONE = 40
# so many versions die before a purge
DYING = 500


class Bench:
    """The program at work, one line at a time."""

    def __init__(self, program):
        self.process = subprocess.Popen([program], stdin=subprocess.PIPE, stdout=subprocess.PIPE, text=True)
        # the clock of the processor time of that process
        self.clock = (~self.process.pid << 3) | 2
        self.run("vacuum 1", 1)

    def run(self, line, wanted):
        """The nanoseconds that the line takes; the program must answer the count that is wanted, if one is."""
        before = time.clock_gettime_ns(self.clock)
        self.process.stdin.write(line + "\n")
        self.process.stdin.flush()
        answer = self.process.stdout.readline()
        spent = time.clock_gettime_ns(self.clock) - before
        self.answer = answer.strip()
        if not self.answer or wanted not in (None, int(self.answer)):
            sys.exit(f"times.py: {line}: {self.answer or 'no answer'} in place of {wanted}")
        return spent

    def least(self, name, times, each):
        """The least nanoseconds of one run, of some rounds."""
        return min(self.run(f"{name} {times}", times * each) for _ in range(ROUNDS)) / times

    def close(self):
        self.process.stdin.close()
        self.process.wait()


def shown(nanoseconds):
    for unit, size in (("ms", 1e6), ("us", 1e3)):
        if nanoseconds >= size:
            return f"{nanoseconds / size:8.2f} {unit}"
    return f"{nanoseconds:8.1f} ns"


def line(name, nanoseconds, more=""):
    print(f"  {name:20} {shown(nanoseconds)}{more}", flush=True)


def queries(bench, rows):
    """The time of each kind of query, by its name."""
    found = {"id": 1, "group": 10, "range": 10, "table": 1000, "refused": int(rows + DYING > 1024)}
    spent = {}
    for name, (operation, times, few) in QUERIES.items():
        bench.run(f"ids {FEW if few else rows}", FEW if few else rows)
        spent[name] = bench.least(operation, times, found[operation])
        line(name + (", refused" if name == "the large" and found[operation] else ""), spent[name])
    print(f"  a range is {spent['all ranges'] / spent['all groups']:.2f} times as dear as a group", flush=True)
    return spent


def commits(bench, count):
    """The times of one commit and of what it reads, beside one write, each without the making of the changes."""
    spent = {"commit": [], "write": []}
    made = bench.least(f"changes_{count}", AGAIN // count, count)
    for _ in range(ROUNDS):
        for name, each in spent.items():
            each.append(bench.run(f"{name}_{count} {CHANGES[count]}", CHANGES[count] * count) / CHANGES[count])
    pairs = [(c - made, w - made) for c, w in zip(spent["commit"], spent["write"])]
    ratio = sorted(c / w for c, w in pairs)[len(pairs) // 2]
    commit, write = (sum(side) / len(pairs) for side in zip(*pairs))
    line(f"commit {count}", commit, f"   write {shown(write)}   ratio {ratio:.2f}")
    reading = bench.least(f"again_{count}", AGAIN // count, count) - made
    line("  what it reads", reading)
    return {f"commit {count}": commit, f"read by commit {count}": reading}


def vacuums(bench):
    """The times of a vacuum that stays, and of one that moves the horizon by one event and drops one version."""
    bench.run("vacuum 1", 1)
    spent = {"vacuum, stays": bench.least("vacuum", 1_000_000, 1)}
    moves = []
    for _ in range(ROUNDS):
        bench.run("commit_1 1", 1)
        bench.run("write_1 1", 1)
        moves.append(bench.run("vacuum 1", 1))
    spent["vacuum, moves"] = min(moves)
    for name, nanoseconds in spent.items():
        line(name, nanoseconds)
    return spent


def writes(bench):
    """The times of the store's own writes of one row, and of purges of what died by changes."""
    spent = {name: bench.least(operation, ONE, 1) for name, operation in ONES.items()}
    bench.run("purge 1", 1)
    written, purged = [], []
    for _ in range(int(os.environ.get("PURGES", ROUNDS))):
        written.append(bench.run(f"write_1 {DYING}", DYING))
        purged.append(bench.run("purge 1", 1))
    spent[f"purge of {DYING}"] = min(purged)
    for name, nanoseconds in spent.items():
        line(name, nanoseconds, f"   writing them {shown(min(written))}" if name.startswith("purge") else "")
    return spent


def halves(bench, rows):
    """Measures purges beside the writing of what they drop: of half of all versions as old bodies, and of the most rows."""
    for name, operation, count in (("old bodies", "write_1", rows), ("removed rows", "remove", rows * 3 // 5)):
        bench.run("purge 1", 1)
        spent = bench.run(f"{operation} {count}", count)
        # rows that were removed go with the second purge, where something was written between
        purged = [bench.run("purge 1", 1)]
        bench.run("add 1", 1)
        purged.append(bench.run("purge 1", 1))
        print(f"  {count} {name}: written in {shown(spent)}, purged in {shown(sum(purged))}", flush=True)


def measured(bench, rows):
    """All times at this size and this length of the history, of queries beside some versions that have died."""
    bench.run(f"commit_1 {DYING}", DYING)
    spent = queries(bench, rows)
    spent |= vacuums(bench)
    for count in CHANGES:
        spent |= commits(bench, count)
    spent |= writes(bench)
    return spent


def main():
    program, words = sys.argv[1], sys.argv[2:]
    cut = words.index("/")
    sizes, histories = [int(it) for it in words[:cut]], [int(it) for it in words[cut + 1:]]
    by_rows, by_events = {}, {}
    for rows in sizes:
        bench = Bench(program)
        setting_up = bench.run(f"rows {rows}", rows)
        print(f"rows {rows}, set up in {setting_up / 1e9:.1f} s", flush=True)
        by_rows[rows] = measured(bench, rows)
        if "PURGES" not in os.environ:
            halves(bench, rows)
        bench.close()
    for events in histories:
        bench = Bench(program)
        bench.run(f"rows {sizes[0]}", sizes[0])
        pins = bench.run(f"pins {events}", events)
        print(f"events {events} over {sizes[0]} rows, {pins / events:.0f} ns a pin", flush=True)
        by_events[events] = measured(bench, sizes[0])
        bench.close()
    compare("rows", by_rows, lambda name: name != "the large")
    compare("events", by_events, lambda name: True)


def compare(of, spent, is_wanted):
    """Returns the time of the greatest size, as a multiple of that of the least."""
    if len(spent) < 2:
        return
    least, most = min(spent), max(spent)
    print(f"{of} {most} against {least}")
    for name in filter(is_wanted, spent[least]):
        print(f"  {name:20} {spent[most][name] / spent[least][name]:8.2f}")


if __name__ == "__main__":
    main()
