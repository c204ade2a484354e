#!/usr/bin/env python3
"""Runs a command, and prints what rattle took below it, by crate and kind: seconds of one core and by the clock, and memory.

usage: scripts/cpu.py [--table FILE] COMMAND..      as `scripts/cpu.py --table docs/gate.tsv rt ci`
  FILE     is written with the rows, for docs/GATE.md's table and scripts/chain.py

The kinds: a proof, the tests (compiled and run with no proof), what two compilers make of a program, the wrong bodies of
must-fail/, if there are any, and those that scripts/edits.py tries. It looks at the processes four times a second, so the last quarter of a second of
each is missed. That, and all else that the command ran, stands under `other`. Seconds of two runs on two machines compare in
*tags*: one tag is what the proof of txc_tags took of one core in the same run. The exit status is the command's.
"""

import argparse
import dataclasses
import os
import resource
import subprocess
import sys
import threading
import time

import processes

TICKS = os.sysconf("SC_CLK_TCK")
# How often the processes are looked at.
PAUSE = 0.25
TAG = ("txc_tags", "proof")
# The scripts below which everything is tests.
TESTS = {"test.py": "all", "library.py": "bindings", "boundary.py": "bindings"}
# How many rows are named as those that took longest.
LONGEST = 5


def label(pid: int) -> tuple[str, str] | None:
    """The crate that this process works on, and the kind of its work."""
    words = processes.words(pid)
    script = os.path.basename(words[1]) if words[1:2] else ""
    if script in TESTS:
        return TESTS[script], "tests"
    if "--crate-name" not in words:
        return None
    crate, folder = words[words.index("--crate-name") + 1], os.readlink(f"/proc/{pid}/cwd")
    if "/rt-edit" in folder:
        return crate, "must-fail"
    if "/round-" in folder:
        return crate, "named"
    return crate, "build" if "--crate-checked" in words else "proof"


def stolen() -> float:
    """The seconds that the host gave to others since the machine began, of all cores together."""
    with open("/proc/stat", encoding="utf-8") as it:
        return int(it.readline().split()[8]) / TICKS


def used() -> float:
    """The seconds of one core that all commands took that have ended."""
    it = resource.getrusage(resource.RUSAGE_CHILDREN)
    return it.ru_utime + it.ru_stime


@dataclasses.dataclass
class Seen:
    """One process: its crate and kind, its ticks, when it was seen first and last, and its largest size in KB."""

    of: tuple[str, str]
    ticks: int
    first: float
    last: float
    peak: int


@dataclasses.dataclass
class Row:
    """A crate and a kind: seconds of one core and by the clock, the largest process in MB, and the second of the run at which it began."""

    crate: str
    kind: str
    cpu: float
    clock: float
    peak: int | None = None
    begun: float | None = None

    def cells(self) -> list[str]:
        return [self.crate, self.kind, *("" if it is None else f"{it:.0f}" for it in (self.cpu, self.clock, self.peak, self.begun))]


class Watcher:
    """Looks at the processes below one, from a thread of its own, while it is entered."""

    def __init__(self, top: int) -> None:
        self.top, self.seen = top, dict[tuple[int, int], Seen]()
        self.begun, self.stolen, self.used = time.time(), stolen(), used()
        self.is_over, self.thread = threading.Event(), threading.Thread(target=self.watch, daemon=True)

    def __enter__(self) -> "Watcher":
        self.thread.start()
        return self

    def __exit__(self, *_: object) -> None:
        self.is_over.set()
        self.thread.join()

    def watch(self) -> None:
        while not self.is_over.wait(PAUSE):
            self.look()

    def look(self) -> None:
        """Notes the time and the size of each labelled process, by its id and start."""
        stats, now = processes.stats(), time.time()
        for pid, stat in stats.items():
            found, at = None, pid
            try:
                while at in stats and at != self.top:
                    # what a label stands above belongs to it: the tests run rattle too
                    found, at = label(at) or found, stats[at].parent
            except OSError:
                continue
            if found and at == self.top:
                before = self.seen.get((pid, stat.start))
                peak = max(processes.peak(pid), before.peak if before else 0)
                self.seen[pid, stat.start] = Seen(found, stat.ticks, before.first if before else now, now, peak)

    def rows(self) -> list[Row]:
        """A row for each crate and kind; then what belongs to none; the whole; and stolen seconds."""
        rows, seen = [], [*self.seen.values()]
        for of in sorted({it.of for it in seen}):
            own = [it for it in seen if it.of == of]
            first, last = min(it.first for it in own), max(it.last for it in own)
            rows.append(Row(*of, sum(it.ticks for it in own) / TICKS, last - first, max(it.peak for it in own) >> 10, first - self.begun))
        whole, clock = used() - self.used, time.time() - self.begun
        other = Row("", "other", whole - sum(it.cpu for it in rows), 0)
        return [*rows, other, Row("", "all", whole, clock), Row("", "stolen", stolen() - self.stolen, 0)]


def tag(rows: list[Row]) -> float | None:
    """The seconds of one core of the tag, if it was proved in this run."""
    return next((it.cpu for it in rows if (it.crate, it.kind) == TAG and it.cpu > 0), None)


def in_tags(rows: list[Row], seconds: float) -> str:
    """So many seconds, as tags."""
    one = tag(rows)
    return f"{seconds / one:.1f}" if one else "-"


def table(rows: list[Row], cores: int) -> str:
    """The rows as one table, with what took longest before it and the whole after it."""
    shown = [it for it in rows if it.kind not in ("all", "stolen")]
    whole, lost = (next(it for it in rows if it.kind == kind) for kind in ("all", "stolen"))
    longest = sorted((it for it in shown if it.crate), key=lambda it: -it.clock)[:LONGEST]
    lines = ["longest by the clock: " + ", ".join(f"{it.crate} ({it.kind}) {it.clock / 60:.1f} min" for it in longest)] if longest else []
    lines.append(f"{'crate':18} {'kind':9} {'core s':>8} {'tags':>6} {'clock s':>8} {'peak MB':>8} {'began at':>8}")
    for it in shown:
        began, peak = "" if it.begun is None else f"{it.begun / 60:.1f}", "" if it.peak is None else it.peak
        lines.append(f"{it.crate:18} {it.kind:9} {it.cpu:8.0f} {in_tags(rows, it.cpu):>6} {it.clock:8.0f} {peak:>8} {began:>8}")
    one = tag(rows)
    lines.append(f"all: {whole.cpu:.0f} core seconds, {in_tags(rows, whole.cpu)} tags; by the clock {whole.clock / 60:.1f} minutes, "
                 f"{in_tags(rows, whole.clock)} tags; {cores} cores, {lost.cpu:.0f} seconds of them stolen")
    lines.append(f"a tag is {one:.0f} core seconds" if one else "no tag: txc_tags was not proved in this run")
    return "\n".join(lines)


def write(rows: list[Row], file: str) -> None:
    """Writes the rows into a file, for docs/GATE.md and scripts/chain.py."""
    rows = [*rows, Row("", "cores", processes.cores(), 0)]
    with open(file, "w", encoding="utf-8") as to:
        to.writelines("\t".join(it.cells()) + "\n" for it in rows)


def read(file: str | os.PathLike[str]) -> list[Row]:
    """The rows of such a file, in which the last cells may be empty or missing."""
    rows = []
    with open(file, encoding="utf-8") as it:
        for line in it:
            crate, kind, *cells = line.rstrip("\n").split("\t")
            numbers = [int(cell) if cell else None for cell in cells]
            rows.append(Row(crate, kind, numbers[0] or 0, numbers[1] or 0, *numbers[2:]))
    return rows


def main() -> int:
    words = argparse.ArgumentParser(usage=__doc__.partition("usage: ")[2].partition("\n")[0])
    words.add_argument("--table")
    words.add_argument("command", nargs=argparse.REMAINDER)
    given = words.parse_args()
    with Watcher(os.getpid()) as watcher:
        status = subprocess.run(given.command, check=False).returncode
    rows = watcher.rows()
    print(table(rows, processes.cores()))
    if given.table:
        write(rows, given.table)
    return status


if __name__ == "__main__":
    sys.exit(main())
