#!/usr/bin/env python3
"""Simulates the gate over the seconds of docs/gate.tsv: how long it takes by the clock, and which crates wait for one another.

usage: scripts/chain.py [--jobs N] [--memory GB] [CORES..]      by default 4 and 2 cores, 22 GB free
  N        as RT_JOBS=N has it, so many checks at once: by default as many as scripts/prove.py chooses; 0 as `rt` chooses, by memory,
           with more jobs a check where cores are free

It schedules as `rt ci` does: first the task with the longest chain of others behind it, by lines of .rt; the wrong bodies of
must-fail/, if there are any, fill what proofs leave free, and the tests, the library for callers and those that are marked `(gate)` fill
what is left of the cores, two at once.
"""
import argparse
import os
import pathlib
import subprocess

import cpu
import prove
import sources
from sources import ROOT

KIT = pathlib.Path(subprocess.run(["rt", "doc"], capture_output=True, text=True, check=True).stdout.strip()).parent
# How much sooner a check ends with so many jobs, measured at txc_tags and txc_world, and how much more memory each takes, as rt has it.
SOONER = {1: 1, 2: 1.57, 3: 1.9, 4: 2.1}
MORE = 0.6


def seconds():
    """The seconds of one core, by crate and kind."""
    return {(it.crate, it.kind): it.cpu for it in cpu.read(ROOT / "docs/gate.tsv")}


def lines(crate, ending):
    files = [it for part in ("src", "specs", "proofs") for it in (ROOT / "crates" / crate / part).rglob(f"*{ending}")]
    return sum(it.read_bytes().count(b"\n") for it in files)


def below(crate, used):
    """The libraries below a crate, those of the repository and those of the kit."""
    found, left = set(), [*used[crate]]
    while left:
        it = left.pop()
        if it not in found:
            found.add(it)
            left += used.get(it, [])
    return found


def need(crate, used):
    """The memory that `rt` puts by for a check, in GB."""
    libraries = below(crate, used)
    kit = [KIT / f"rlibs/{it}.rlib/toolchain/checked.a" for it in libraries - used.keys()]
    loaded = sum(it.stat().st_size for it in kit if it.is_file())
    others = sum(lines(it, ".rt") for it in libraries & used.keys())
    return (1e9 + 1e6 * lines(crate, ".rt") + 2e5 * lines(crate, ".antt") + 8e4 * others + min(5 * loaded, 2.5e9)) / 1e9


class Gate:
    """The tasks of a gate, each with what it waits for, its seconds, its memory and its place in the queue."""

    def __init__(self, cores, jobs, memory):
        self.cores, self.fixed, self.memory = cores, prove.lanes(cores, memory) if jobs is None else jobs, 0.85 * memory
        taken, used = seconds(), sources.used()
        self.tasks = {}
        for crate in sources.lowest_first():
            waits = [(it, "proof") for it in used[crate] if it in used]
            wanted = need(crate, used)
            self.tasks[crate, "proof"] = (waits, taken.get((crate, "proof"), 0) + taken.get((crate, "build"), 0), wanted)
            if (crate, "must-fail") in taken:
                self.tasks[crate, "must-fail"] = ([(crate, "proof")], taken[crate, "must-fail"], wanted)
        self.behind = {}
        for key in reversed(self.tasks):
            own = lines(key[0], ".rt") if key[1] == "proof" else 0
            self.behind[key] = own + max((self.behind[it] for it in self.behind if key in self.tasks[it][0]), default=0)
        self.beside = [((it, "tests"), [], taken.get((it, "tests"), 0)) for it in ("all", "bindings")]
        self.beside += [((crate, kind), [(crate, "proof")], used) for (crate, kind), used in taken.items() if kind == "named"]

    def jobs_of(self, key, ready, running):
        """With how many jobs a task begins now, or 0 where it has to wait."""
        room = self.memory - sum(it[2] for it in running.values())
        idle = (self.fixed or self.cores) - sum(it[1] for it in running.values())
        wanted = self.tasks[key][2]
        if idle <= 0 or not self.fixed and running and wanted > room:
            return 0
        if self.fixed or key[1] != "proof":
            return 1
        proofs = [it for it in ready if it[1] == "proof"]
        spare = min(4, idle // (len(proofs) - proofs.index(key)), 1 + int((room / wanted - 1) / MORE))
        return max(1, spare)

    def begin(self, left, running, ended, work):
        for key in [it for it in left if all(wait in ended for wait in self.tasks[it][0])]:
            ready = [it for it in left if all(wait in ended for wait in self.tasks[it][0])]
            jobs = self.jobs_of(key, ready, running)
            if jobs:
                left.remove(key)
                running[key] = (key, jobs, self.tasks[key][2] * (1 + MORE * (jobs - 1)))
                work[key] = self.tasks[key][1] / SOONER[jobs]

    def run(self):
        """The seconds by the clock, and when each task ended: second by second, so that what runs beside takes idle cores."""
        left = sorted(self.tasks, key=lambda it: (it[1] != "proof", -self.behind[it]))
        running, ended, work, now = {}, {}, {}, 0
        beside, at_side = [*self.beside], {}
        while left or running or beside or at_side:
            self.begin(left, running, ended, work)
            for it in [it for it in beside if all(wait in ended for wait in it[1])]:
                if len(at_side) < (prove.BESIDE if left or running else self.cores):
                    beside.remove(it)
                    at_side[it[0]] = it[2]
            now += 1
            idle = self.cores - sum(it[1] for it in running.values())
            for key in [*at_side]:
                share = min(1, max(idle, 0.1) / len(at_side))
                at_side[key] -= share
                if at_side[key] <= 0:
                    ended[at_side.pop(key) and key] = now
            for key in [*running]:
                work[key] -= 1
                if work[key] <= 0:
                    ended[key] = now
                    del running[key]
        return now, ended


def main():
    words = argparse.ArgumentParser(usage=__doc__.partition("usage: ")[2].partition("\n")[0])
    words.add_argument("--jobs", type=int)
    words.add_argument("--memory", type=int, default=22)
    words.add_argument("cores", nargs="*", type=int)
    given = words.parse_args()
    for cores in given.cores or [4, 2]:
        gate = Gate(cores, given.jobs, given.memory)
        clock, ended = gate.run()
        whole = sum(it[1] for it in gate.tasks.values()) + sum(it[2] for it in gate.beside)
        print(f"{cores} cores: {clock / 60:.0f} minutes by the clock, {whole / 60:.0f} of one core")
        key, chain = max((it for it in ended if it in gate.tasks), key=ended.get), []
        while key:
            chain.append(f"{key[0]}{'' if key[1] == 'proof' else ' ' + key[1]} {gate.tasks[key][1]}")
            key = max(gate.tasks[key][0], key=ended.get, default=None)
        print("  the longest chain: " + ", ".join(reversed(chain)))


if __name__ == "__main__":
    main()
