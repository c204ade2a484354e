#!/usr/bin/env python3
"""Times programs store_bench side by side, as some trees build it: the stores of the others beside that of the last. bench/store.sh
--beside runs it.

usage: beside.py [--alone] [--last] PROGRAM.. OTHER ROWS..
  --alone   times the store without a database
  --last    the memory and the long purges alone
  PROGRAM   its processor time is shown as a share of that of OTHER
  ROWS      the sizes of the first table

They do each operation in turn, in some rounds. A line shows the least that each took, and of each but the last two shares: of the least
times, and of the medians. Queries and what a commit reads are asked where no version has died, then 500, then as many as half of the
rows; puts, by the store alone and by commits, where few have died and where half have. Then come the longest of 3,000 puts of one row,
and the memory of the process after 50,000 more. Alone, a query looks at all versions of a row, old ones too, and what a commit reads is
asked by id; and rows that were removed are purged last.
"""

import os
import sys
from statistics import median

from times import Bench, shown

ROUNDS = 10
# each operation, how many at a time, and what it answers for one
QUERIES = {"by id": ("id", 20_000, 1), "group of ten": ("group", 4_000, 10), "range of ten": ("range", 4_000, 10)}
WRITES = {"a put of a changed row": ("write_1", 400, 1), "256 puts in one write": ("write_256", 1, 256)}
COMMITS = {"a commit of one put": ("commit_1", 40, 1), "a commit of 256 puts": ("commit_256", 1, 256)}
ONES = {"a new id": ("add", 100), "a removal": ("remove", 40), "a change of group": ("move", 100)}
PURGED = 50_000
LONGEST = 3_000
# the table is made anew where half of it is gone, and at least so much
LEAST_REMADE = 1024


def timed(benches, operation, times, each, before=None):
    """The times of each, which take turns, where one answers so much, or all the same where it is not said what. A line may come
    before each round."""
    spent = [[] for _ in benches]
    for _ in range(ROUNDS):
        if before:
            every(benches, before, 1)
        for bench, own in zip(benches, spent):
            own.append(bench.run(f"{operation} {times}", each and times * each) / times)
        if len({bench.answer for bench in benches}) > 1:
            sys.exit(f"beside.py: {operation}: {', '.join(bench.answer for bench in benches)}")
    return spent


def show(name, spent):
    least, middle = [min(own) for own in spent], [median(own) for own in spent]
    shares = [f"{least[at] / least[-1]:7.2f} {middle[at] / middle[-1]:5.2f}" for at in range(len(spent) - 1)]
    print(f"  {name:36} {' '.join(map(shown, least))} {' '.join(shares)}", flush=True)


def every(benches, line, wanted):
    return [bench.run(line, wanted) for bench in benches]


def purges(benches, dying, rounds=ROUNDS):
    """The times of purges of so many versions that have died since the purge before."""
    spent = [[] for _ in benches]
    for _ in range(rounds):
        every(benches, f"write_1 {dying}", dying)
        for bench, own in zip(benches, spent):
            own.append(bench.run("purge 1", 1))
    return spent


def memory(bench):
    """The memory of the process, in MB."""
    with open(f"/proc/{bench.process.pid}/statm", encoding="ascii") as it:
        return int(it.read().split()[1]) * os.sysconf("SC_PAGE_SIZE") / 1e6


def queries(benches, rows, state, is_alone):
    every(benches, f"ids {rows}", rows)
    for name, (operation, times, each) in QUERIES.items():
        # alone, it answers old versions too
        show(f"{name}, {state}", timed(benches, operation, times, None if is_alone else each))
    if is_alone:
        show(f"what a commit reads by id, {state}", timed(benches, "current", 20_000, 1))
        return
    # commits that change nothing read the last versions alone
    every(benches, "commit_1 1", 1)
    show(f"a commit of nothing, {state}", timed(benches, "again_1", 2_000, 1))


def puts(benches, state, operations, before=None):
    for name, (operation, times, each) in operations.items():
        show(f"{name}, {state}", timed(benches, operation, times, each, before))


def measured(benches, rows, is_alone):
    """The times of all but what comes last."""
    change, operations = ("write_1", WRITES) if is_alone else ("commit_1", {**WRITES, **COMMITS})
    queries(benches, rows, "none dead", is_alone)
    every(benches, f"{change} 500", 500)
    queries(benches, rows, "500 dead", is_alone)
    if is_alone:
        puts(benches, "few dead", operations, before="purge 1")
        every(benches, "purge 1", 1)
    every(benches, f"{change} {rows // 2}", rows // 2)
    queries(benches, rows, "half dead", is_alone)
    if not is_alone:
        puts(benches, "few dead", operations)
        every(benches, f"write_1 {rows // 2}", rows // 2)
    puts(benches, "half dead", operations)
    for name, (operation, times) in ONES.items():
        show(name, timed(benches, operation, times, 1))
    every(benches, "purge 1", 1)
    show("a purge of 500", purges(benches, 500))
    longest = [[max(bench.run("write_1 1", 1) for _ in range(LONGEST))] for bench in benches]
    show(f"the longest of {LONGEST:,} puts", longest)


def measured_last(benches, rows, is_alone):
    """The memory, and the times of long purges."""
    every(benches, f"write_1 {PURGED}", PURGED)
    sizes = "".join(f"{memory(bench):11.0f}" for bench in benches)
    print(f"  memory with {PURGED:,} dead, MB {sizes}", flush=True)
    first, more = every(benches, "purge 1", 1), purges(benches, PURGED, 2)
    show(f"a purge of {PURGED:,}", [[one, *own] for one, own in zip(first, more)])
    if not is_alone:
        return
    show("a put and a purge each time", timed(benches, "keep", 400, 1))
    removed = rows * 3 // 5
    if removed < LEAST_REMADE:
        return
    every(benches, f"remove {removed}", removed)
    # rows that were removed go with the second purge, where something was written between
    first = every(benches, "purge 1", 1)
    every(benches, "add 1", 1)
    second = every(benches, "purge 1", 1)
    show("purges after 60 in 100 were removed", [[sum(own)] for own in zip(first, second)])


def main():
    words = sys.argv[1:]
    is_alone, is_last = "--alone" in words, "--last" in words
    programs = [it for it in words if not it.isdecimal() and not it.startswith("--")]
    for rows in [int(it) for it in words if it.isdecimal()]:
        benches = [Bench(it) for it in programs]
        print(f"{rows} rows", flush=True)
        if is_alone:
            every(benches, "alone 1", 0)
        every(benches, f"rows {rows}", rows)
        if not is_last:
            measured(benches, rows, is_alone)
        measured_last(benches, rows, is_alone)
        for bench in benches:
            bench.close()


if __name__ == "__main__":
    main()
