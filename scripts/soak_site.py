#!/usr/bin/env python3
"""Checks that a site goes through ten million events in generations: with no page torn and no bid lost, in a process that does not grow, and
with nodes that stay warm. Beside the gate.

usage: soak_site.py [THREADS [EVENTS [GENERATIONS [BIDS [SECONDS [stored]]]]]]
  by default 3 threads, 1,000,000 events in each of 11 generations, 4 bids after each page, and 900 seconds at most

The program's source lies in bench/soak_site; it is compiled with no proof. Its visitors read pages and bid, and judge them: each bid is
an event. With the last word the site's events are stored, and its plan has room for as many.
This script reads the size of the process from outside (VmRSS of /proc/PID/status), and prints the greatest of each generation; how many
lookups and hits there were in the last second of the generation before, and in the first of this; which share of the last LOOKUPS
there and of the first here were hits; and how long no visitor was there. It fails where a page was torn or refused or a bid lost, where
there were fewer generations, where the greatest size of the last one is more than GROWTH_KB above that of the second, or where
the share of hits is less than WARM of what it was before. Where no events are stored it also fails if the size at the end of a
generation is more than GROWTH_KB above that at a third of its time.
"""
import os
import re
import shutil
import subprocess
import sys
import tempfile
import time

import unproved
import with_tests

ROOT = with_tests.ROOT
GROWTH_KB = 4_096
WARM = 0.9
LOOKUPS = 3_000
GENERATION = re.compile(r"generation (\d+): (\d+) to (\d+) ms, (\d+) pages, (\d+) torn, (\d+) refused, (\d+) bids, (\d+) seen, (\d+) conflicts, at (\d+)")


def built(room):
    """The program, in the folder, from a copy of the repository."""
    copy, crate = f"{room}/copy", f"{room}/copy/crates/soak_site"
    os.makedirs(copy)
    with_tests.copy(copy)
    shutil.copytree(f"{ROOT}/bench/soak_site", crate, copy_function=lambda at, to: shutil.copy2(at, to.removesuffix(".in")))
    with open(f"{copy}/crates.txt", "a", encoding="utf-8") as it:
        it.write("soak_site: txc_site anyhow\n")
    said = unproved.build(crate, f"{room}/soak_site", ["--steps", "1"])
    if said:
        sys.exit(f"{said[-3000:]}\nsoak_site.py: the program was not compiled")
    return f"{room}/soak_site"


def size(process):
    """What the process has in memory now, in KB; none once it has ended."""
    try:
        with open(f"/proc/{process.pid}/status", encoding="utf-8") as it:
            return next((int(line.split()[1]) for line in it if line.startswith("VmRSS:")), None)
    except OSError:
        return None


def run(program, words, most):
    """What it printed, and its sizes by the moment in milliseconds. A minute after its time it is killed."""
    sizes, begun = [], time.time()
    with tempfile.TemporaryFile("w+") as said:
        process = subprocess.Popen([program, *words], stdout=said, stderr=subprocess.STDOUT)
        while process.poll() is None:
            now = size(process)
            sizes += [(time.monotonic() * 1000, now)] if now else []
            if time.time() - begun > most + 60:
                process.kill()
            time.sleep(0.05)
        said.seek(0)
        return said.read(), sizes, time.time() - begun


def counted(looks):
    """The lookups and the hits from the first of these looks to the last."""
    return (looks[-1][1] - looks[0][1], looks[-1][2] - looks[0][2]) if len(looks) > 1 else (0, 0)


def share(looks):
    lookups, hits = counted(looks)
    return hits / max(lookups, 1)


class Generation:
    """What its visitors did, and what the first of them saw of the nodes: the moment, the lookups and the hits by then."""

    def __init__(self, line):
        self.number, self.begun, self.ended, self.pages, self.torn, self.refused, self.bids, self.seen, self.conflicts, self.stamp = map(int, line)
        self.looks = []

    def between(self, first, last):
        """The lookups and the hits between two moments, as far as they were looked at."""
        return counted([it for it in self.looks if first <= it[0] <= last])

    def first_share(self):
        """Which share of its first lookups were hits."""
        return share([it for it in self.looks if it[1] - self.looks[0][1] <= LOOKUPS])

    def last_share(self):
        return share([it for it in self.looks if self.looks[-1][1] - it[1] <= LOOKUPS])


def read(said):
    found = []
    for line in said.splitlines():
        head = GENERATION.match(line)
        if head:
            found.append(Generation(head.groups()))
        elif re.fullmatch(r"  \d+ \d+ \d+", line):
            found[-1].looks.append(tuple(map(int, line.split())))
    return found


def sizes_of(it, sizes, ahead):
    """What the process had in memory during a generation, in order."""
    return [kb for at, kb in sizes if it.begun <= at - ahead <= it.ended] or [0]


def text_of(it, before, most, wrong):
    """The line of a generation; what it lacks of the one before comes to what is wrong."""
    text = f"{it.number:2}: {it.ended - it.begun:,} ms, {it.pages:,} pages, {it.bids:,} bids, {it.conflicts:,} conflicts, at {it.stamp:,}, {most:,} KB at most"
    if before:
        asked, had = before.between(before.looks[-1][0] - 1000, before.looks[-1][0])
        ask, hits = it.between(it.begun, it.begun + 1000)
        last, first = before.last_share(), it.first_share()
        text += f"; hits {had:,} of {asked:,} before, {hits:,} of {ask:,} after ({last:.3f}, {first:.3f}), {it.begun - before.ended:,} ms between"
        wrong += [f"{it.number} is cold"] if first < WARM * last else []
    return text


def judge(said, sizes, seconds, generations, is_stored):
    """Prints what came, and returns what was not as it is to be."""
    found, wrong, most, before, bids = read(said), [], [], None, 0
    print("".join(f"{it}\n" for it in re.findall(r"^  refused at .*$", said, re.M)), end="")
    # the program's clock, where that is another than this one's
    ahead = sizes[0][0] - found[0].begun if found and abs(sizes[0][0] - found[0].begun) > 10_000 else 0
    for it in found:
        bids += it.bids
        within = sizes_of(it, sizes, ahead)
        third, end = within[len(within) // 3], within[-1]
        most.append(max(within))
        print(f"{text_of(it, before, most[-1], wrong)}; {third:,} KB after a third, {end:,} KB at the end")
        if not is_stored and end > third + GROWTH_KB:
            wrong.append(f"{it.number}: {third:,} KB after a third, {end:,} KB at the end")
        if it.torn or it.refused or it.seen != bids:
            wrong.append(f"{it.number}: {it.torn} torn, {it.refused} refused, {bids - it.seen} lost")
        before = it
    print(f"{sum(it.pages for it in found):,} pages, {bids:,} bids, {sum(it.stamp for it in found):,} events in {seconds:.0f} s; {max(kb for _, kb in sizes):,} KB at most")
    if len(found) != generations or f"ended, {generations} generations" not in said:
        wrong.append(f"{len(found)} generations of {generations}; {said[-200:]}")
    if len(most) > 2 and most[-1] > most[1] + GROWTH_KB:
        wrong.append(f"{most[1]:,} KB in the second generation, {most[-1]:,} KB in the last")
    return wrong


def main():
    numbers = [int(it.replace(",", "")) for it in sys.argv[1:6]]
    numbers += [3, 1_000_000, 11, 4, 900][len(numbers):]
    with tempfile.TemporaryDirectory() as room:
        said, sizes, seconds = run(built(room), [*map(str, numbers), *sys.argv[6:7]], numbers[4])
    wrong = judge(said, sizes, seconds, numbers[2], "stored" in sys.argv[6:7])
    if wrong:
        sys.exit("\n".join(["soak_site.py: not so", *wrong]))


if __name__ == "__main__":
    main()
