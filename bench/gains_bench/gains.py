#!/usr/bin/env python3
"""Measures what the cache gains and what consistency costs, from outside of the program gains_bench. bench/gains.sh runs it.

usage: gains.py PROGRAM [--no-instructions] [--sizes QUERIES..] [--pages N] [--capacities N..]

The program's own time passes by a millisecond a page, so what it shows is the same on every machine: only times are of the
machine. A page is two calls of functions of so many queries; every second page is of two functions at one item, and shows by
its own bytes whether it is torn. An item is written every other millisecond.

  queries        the page's queries at the newest stamp, with no cache
  transactions   the page's calls in one transaction, which shows a state that is not older than the staleness
  plain          each call by itself: what the node has of it, from the oldest pin that is fresh to the newest stamp, or else
                 what it comes to at the newest stamp

First comes a line of each run: the mode, the staleness, how often the node is kept, its entries, the queries of a function,
and of the pages that were counted how many there were, and how many hits, misses, torn pages and refused pages. They are
counted once a run is past its beginning, which takes the staleness and two seconds more of the program's time, and over the
staleness or a multiple of it: what was computed at first is too old all at once. Then come tables in markdown.

The cost of a page is by instructions (callgrind, where valgrind is there) and by processor time. Of each, a run with the same
writes and the same keeping and no page is taken off. Its pins are of the same moments, so that the store is made anew in both
at once. Instructions are of as many seconds as the staleness, six at least.
"""

import argparse
import glob
import os
import re
import shutil
import subprocess
import sys
import tempfile
import time
from typing import NamedTuple

ROOM = 1 << 19
EVERY_MOMENT, EVERY_SECOND = 1, 1000
BEGINNING = 2_000
# what is counted by instructions is a number of whole seconds, so that the keeping is in all alike
SECOND = 1_000


class Setting(NamedTuple):
    """The way in which pages are made, and the milliseconds between two keeps of the node."""

    mode: str
    staleness: int
    keep: int
    capacity: int = 65_536

    def words(self, queries):
        return [self.mode, *map(str, (queries, self.staleness, self.keep, self.capacity, ROOM))]

    def idle(self):
        """The same writes and the same keeping, with no page."""
        return self._replace(mode="idle")

    def shown(self):
        if self.mode == "queries":
            return "no cache"
        name = {"transactions": "the cache", "plain": "a plain cache"}[self.mode]
        kept = ", kept each millisecond" if self.keep == EVERY_MOMENT else ""
        return f"{name}, {self.staleness / 1000:g} s{kept}"


SETTINGS = [
    Setting("queries", 0, EVERY_SECOND),
    Setting("transactions", 0, EVERY_SECOND),
    Setting("transactions", 0, EVERY_MOMENT),
    *(Setting("transactions", staleness, EVERY_SECOND) for staleness in (1_000, 5_000, 30_000)),
    Setting("plain", 0, EVERY_MOMENT),
    *(Setting("plain", staleness, EVERY_SECOND) for staleness in (1_000, 5_000, 30_000)),
]


class Counts(NamedTuple):
    pages: int
    hits: int
    misses: int
    torn: int
    refused: int

    def since(self, before):
        return Counts(*(now - then for now, then in zip(self, before)))


class Run:
    """The program at work, one line at a time."""

    def __init__(self, words):
        self.process = subprocess.Popen(words, stdin=subprocess.PIPE, stdout=subprocess.PIPE, text=True)

    def obey(self, line):
        self.process.stdin.write(f"{line}\n")
        self.process.stdin.flush()
        answer = self.process.stdout.readline()
        if not answer:
            sys.exit(f"gains.py: {line}: no answer")
        return answer.split()

    def counts(self):
        return Counts(*map(int, self.obey("counts")[3:]))

    def spent(self):
        """The processor time of the process, in nanoseconds."""
        return time.clock_gettime_ns((~self.process.pid << 3) | 2)

    def close(self):
        self.process.stdin.close()
        self.process.wait()


class Traced(Run):
    """The same under callgrind, which counts nothing before `count`."""

    def __init__(self, words, room):
        self.room = tempfile.mkdtemp(dir=room)
        self.dumps = 0
        out = f"--callgrind-out-file={self.room}/out"
        super().__init__(["valgrind", "--quiet", "--tool=callgrind", "--instr-atstart=no", out, *words])

    def control(self, *words):
        subprocess.run(["callgrind_control", *words, str(self.process.pid)], check=True, capture_output=True)

    def count(self):
        self.control("-i", "on")
        self.dumped()

    def dumped(self):
        """The instructions since the last dump."""
        self.dumps += 1
        self.control(f"--dump={self.dumps}")
        newest = max(glob.glob(f"{self.room}/out.*"), key=os.path.getmtime)
        with open(newest, encoding="utf-8") as file:
            return int(re.search(r"^(?:summary|totals): (\d+)", file.read(), re.M)[1])


class Found(NamedTuple):
    counts: Counts
    # of a page
    nanoseconds: float
    instructions: float | None


def warmed(run, setting):
    for _ in range(2):
        run.obey((setting.staleness + BEGINNING) // 2)
    return run


def timed(program, setting, queries, pages):
    """Returns the counts of the pages, and the processor time of each."""
    run = warmed(Run([program, *setting.words(queries)]), setting)
    before, start = run.counts(), run.spent()
    run.obey(pages)
    spent = run.spent() - start
    counts = run.counts().since(before)
    run.close()
    return counts, spent / pages


def traced(program, setting, queries, pages, room):
    """The instructions of each page."""
    run = warmed(Traced([program, *setting.words(queries)], room), setting)
    run.count()
    run.obey(0)
    nothing = run.dumped()
    run.obey(pages)
    spent = run.dumped()
    run.close()
    return (spent - nothing) / pages


class Measuring:
    def __init__(self, program, options, room):
        self.program, self.options, self.room = program, options, room
        self.idle = {}

    def pages_to_trace(self, setting):
        # over some rebuilds of the store, between which queries cost more and more
        return max(6 * SECOND, setting.staleness)

    def pages_to_time(self, setting):
        # every page of these takes all its queries
        if setting.mode == "queries" or setting.keep > max(setting.staleness, EVERY_MOMENT):
            return SECOND
        period = max(SECOND, setting.staleness)
        return period * -(-self.options.pages // period)

    def cost(self, setting, queries, pages, kind):
        if kind == "ns":
            return timed(self.program, setting, queries, pages)[1]
        return traced(self.program, setting, queries, pages, self.room)

    def cost_of_idle(self, setting, pages, kind):
        """The same writes for as long: a commit costs more where more versions are kept."""
        key = setting.idle(), pages, kind
        if key not in self.idle:
            self.idle[key] = self.cost(setting.idle(), 1, pages, kind)
        return self.idle[key]

    def of(self, setting, queries):
        pages = self.pages_to_time(setting)
        counts, nanoseconds = timed(self.program, setting, queries, pages)
        if setting.mode == "queries":
            counts = counts._replace(hits=0, misses=2 * counts.pages)
        print(setting.mode, setting.staleness, setting.keep, setting.capacity, queries, *counts, flush=True)
        nanoseconds -= self.cost_of_idle(setting, pages, "ns")
        instructions = None
        if self.options.instructions:
            pages = self.pages_to_trace(setting)
            instructions = self.cost(setting, queries, pages, "instructions")
            instructions -= self.cost_of_idle(setting, pages, "instructions")
        return Found(counts, nanoseconds, instructions)


def named(size):
    return "1 query" if size == 1 else f"{size} queries"


def percent(part, whole):
    return f"{100 * part / max(1, whole):.1f} %"


def table_of_costs(found, sizes, unit):
    """A row of each setting: hits, torn pages, and what a page costs at each size."""
    print(f"\n| Pages, and how old they may be | Hits | Torn | {' | '.join(map(named, sizes))} |")
    print("|---" * (3 + len(sizes)) + "|")
    for setting in SETTINGS:
        counts = found[setting, sizes[0]].counts
        costs = [shown_cost(found[setting, size], unit) for size in sizes]
        hits = "" if setting.mode == "queries" else percent(counts.hits, counts.hits + counts.misses)
        # half of the pages are of two functions at one item
        torn = percent(counts.torn, counts.pages / 2)
        print(f"| {setting.shown()} | {hits} | {torn} | {' | '.join(costs)} |", flush=True)


def shown_cost(found, unit):
    if unit == "ns":
        return f"{found.nanoseconds / 1000:,.1f}"
    return f"{found.instructions:,.0f}"


def table_of_capacities(measuring, capacities, queries, staleness):
    """A row of each size of the node: hits and torn pages, at one staleness."""
    print(f"\n| Entries | The cache, {staleness // 1000} s: hits | A plain cache: hits | Torn |")
    print("|---" * 4 + "|")
    for capacity in capacities:
        pair = []
        for mode in ("transactions", "plain"):
            setting = Setting(mode, staleness, EVERY_SECOND, capacity)
            pair.append(timed(measuring.program, setting, queries, measuring.pages_to_time(setting))[0])
        plain = pair[1]
        shown = [percent(it.hits, it.hits + it.misses) for it in pair]
        print(f"| {capacity:,} | {shown[0]} | {shown[1]} | {percent(plain.torn, plain.pages / 2)} |", flush=True)


def words():
    all_words = argparse.ArgumentParser(usage=__doc__.partition("usage: ")[2].partition("\n")[0])
    all_words.add_argument("program")
    all_words.add_argument("--no-instructions", dest="instructions", action="store_false")
    all_words.add_argument("--sizes", nargs="+", type=int, default=[1, 10, 60])
    all_words.add_argument("--pages", type=int, default=8_000)
    all_words.add_argument("--capacities", nargs="*", type=int, default=[256, 512, 1_024, 2_048, 4_096, 65_536])
    return all_words.parse_args()


def main():
    options = words()
    options.instructions = options.instructions and bool(shutil.which("valgrind"))
    with tempfile.TemporaryDirectory() as room, open("/proc/loadavg", encoding="utf-8") as load:
        print("load", load.read().split()[0], flush=True)
        measuring = Measuring(os.path.abspath(options.program), options, room)
        found = {(it, size): measuring.of(it, size) for size in options.sizes for it in SETTINGS}
        units = ["instructions", "ns"] if options.instructions else ["ns"]
        for unit in units:
            print(f"\nA page, in {'instructions' if unit == 'instructions' else 'microseconds of processor time'}:")
            table_of_costs(found, options.sizes, unit)
        if options.capacities:
            table_of_capacities(measuring, options.capacities, options.sizes[0], 5_000)


if __name__ == "__main__":
    main()
