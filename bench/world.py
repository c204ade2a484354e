#!/usr/bin/env python3
"""Counts where the instructions of a line of mode world go: of hits, misses, nested calls, single steps, pages between writers and
the keeper's lines.

usage: bench/world.py PROGRAM [--times N] [--top N] [KIND..]      PROGRAM: txcache as `rt run` built it in crates/txcache

Each kind is a few lines that are said again and again. They are counted as the difference of two runs, with N times (1,000)
and with twice as many: instructions by callgrind, and blocks by the allocator of scripts/refuse.c. What else stands in a
script to hold them, as the beginning and the end of a transaction, is taken off as a kind of its own. For each kind come the
functions in which most of the instructions are, one line each.
"""

import argparse
import os
import re
import subprocess
import sys
import tempfile
from collections import Counter

SETTINGS = "row_cap = 1048576\ncapacity = 65536"
# the calls of one transaction
CALLS = 16


def beginning(rows):
    """So many rows of table 1, two in each group, a pin, and a node that has taken all of that."""
    lines = [f"put 1 {id} {id // 2} v{id:07}" for id in range(rows)]
    return [*lines, "pin 1000", *["advance 0"] * (rows + 1)]


def pages(times, calls):
    """Transactions of so many calls, of which `calls` gives the lines by their numbers."""
    lines = []
    for time in range(times):
        if time % CALLS == 0:
            lines.append("ro 0 1000 0 0")
        lines += calls(time)
        if time % CALLS == CALLS - 1 or time == times - 1:
            lines.append("commit 0")
    return lines


def begin_and_commit(times):
    return [*beginning(8), *["ro 0 1000 0 0", "commit 0"] * times]


def hits(times):
    """Calls of eight keys that the node has."""
    first = pages(8, lambda time: [f"call 0 f0({time})", "finish 0"])
    return [*beginning(8), *first, *pages(times, lambda time: [f"call 0 f0({time % 8})", "finish 0"])]


def single_steps(times):
    first = pages(8, lambda time: [f"call 0 f0({time})", "finish 0"])
    return [*beginning(8), *first, *pages(times, lambda time: [f"call 0 f0({time % 8})", "step 0"])]


def misses(times):
    """Calls of one query, each of a key of its own: of these ids there is no row but the first eight."""
    return [*beginning(8), *pages(times, lambda time: [f"call 0 f0({time})", "finish 0"])]


def nested_calls(times):
    """Calls that call one that the node has, and ask one query."""
    first = pages(1, lambda time: ["call 0 f1(2)", "finish 0"])
    return [*beginning(8), *first, *pages(times, lambda time: [f"call 0 f2(2,{time})", "finish 0"])]


def pages_between_writers(times):
    """A writer reads a row and changes it; the present is pinned, the node takes both events, and a page calls."""
    lines = beginning(8)
    for time in range(times):
        row, now = time % 8, 2000 + time
        lines += ["rw 1", f"call 1 f0({row})", "finish 1", f"write 1 put 1 {row} {row // 2} w{time:07}", "commit 1"]
        lines += [f"pin {now}", "advance 0", "advance 0", f"ro 0 {now} 0 0"]
        lines += [f"call 0 f0({row})", "finish 0", "commit 0", f"tidy {now} 10"]
    return lines


def puts(times):
    return [*beginning(8), *[f"put 1 {time % 8} {time % 8 // 2} w{time:07}" for time in range(times)]]


def pins(times):
    lines = beginning(8)
    for time in range(times):
        lines += [f"pin {2000 + time}", f"tidy {2000 + time} 10"]
    return lines


def advances(times):
    """Events of a row that no entry rests on, taken by the node; less the puts that make them."""
    return [*puts(times), *["advance 0"] * times]


def queries(times):
    return [*beginning(8), *[f"query 9 by-id 1 {time % 8}" for time in range(times)]]


# Of each kind its scripts, how many lines one time is, and what is taken off it: a kind, and for how many times of its own
# one time of that.
KINDS = {
    "begin and commit": (begin_and_commit, 2, None),
    "a hit: call, finish": (hits, 2, ("begin and commit", CALLS)),
    "a hit: call, step": (single_steps, 2, ("begin and commit", CALLS)),
    "a miss: call, finish": (misses, 2, ("begin and commit", CALLS)),
    "a nested call: call, finish": (nested_calls, 2, ("begin and commit", CALLS)),
    "a page between writers": (pages_between_writers, 13, None),
    "put": (puts, 1, None),
    "pin, tidy": (pins, 2, None),
    "advance": (advances, 1, ("put", 1)),
    "query": (queries, 1, None),
}


class Costs:
    def __init__(self, program, refuse, room, mode="world", settings=SETTINGS):
        self.program, self.refuse, self.room = program, refuse, room
        self.words = [mode, "--settings", settings]

    def run(self, words, script, environment=None):
        with open(script, encoding="ascii") as file:
            ran = subprocess.run([*words, self.program, *self.words], stdin=file, capture_output=True, env={**os.environ, **(environment or {})}, text=True)
        if ran.returncode or "refused" in ran.stdout:
            sys.exit(f"world.py: {script}: status {ran.returncode}: {ran.stderr[-200:]}")

    def instructions(self, script):
        """The instructions by function."""
        out = f"{self.room}/out"
        self.run(["valgrind", "--quiet", "--tool=callgrind", f"--callgrind-out-file={out}"], script)
        said = subprocess.run(["callgrind_annotate", "--threshold=100", "--show-percs=no", "--auto=no", out], capture_output=True, text=True, check=True)
        functions = Counter()
        for line in said.stdout.splitlines():
            found = re.match(r"\s*([\d,]+)\s+\S*?:(\S.*?)(?: \[.*\])?$", line)
            if found:
                name = re.sub(r"(::<#\w+>)?('\d+)?$", "", found[2])
                functions[name] += int(found[1].replace(",", ""))
        return functions

    def blocks(self, script):
        name = f"{self.room}/count"
        with open(name, "wb") as file:
            file.write(bytes(8))
        self.run([], script, {"LD_PRELOAD": self.refuse, "REFUSE_COUNT": name})
        with open(name, "rb") as file:
            return int.from_bytes(file.read(8), "little")

    def of(self, make, times):
        """Returns the instructions of one time by function, and the blocks."""
        found = []
        for count in (times, 2 * times):
            script = f"{self.room}/script"
            with open(script, "w", encoding="ascii") as file:
                file.write("\n".join(make(count)) + "\n")
            found.append((self.instructions(script), self.blocks(script)))
        (few, few_blocks), (many, many_blocks) = found
        many.subtract(few)
        return {name: count / times for name, count in many.items()}, (many_blocks - few_blocks) / times


def made_refuse(room):
    """The allocator of scripts/refuse.c, made in that folder."""
    made, source = f"{room}/refuse.so", f"{os.path.dirname(os.path.abspath(__file__))}/../scripts/refuse.c"
    subprocess.run(["cc", "-shared", "-fPIC", "-O2", "-o", made, source], check=True)
    return made


def less(costs, off, part):
    if off is None:
        return costs
    (functions, blocks), (off_functions, off_blocks) = costs, off
    names = {*functions, *off_functions}
    return {it: functions.get(it, 0) - off_functions.get(it, 0) / part for it in names}, blocks - off_blocks / part


def show(name, costs, lines, top):
    functions, blocks = costs
    total = sum(functions.values())
    print(f"\n{name}: {total:,.0f} instructions, {blocks:.1f} blocks; {total / lines:,.0f} a line")
    for function, count in sorted(functions.items(), key=lambda it: -it[1])[:top]:
        print(f"  {count:10,.0f}  {100 * count / total:5.1f} %  {function[:120]}", flush=True)


def main():
    words = argparse.ArgumentParser(usage=__doc__.partition("usage: ")[2].partition("\n")[0])
    words.add_argument("program")
    words.add_argument("--times", type=int, default=1_000)
    words.add_argument("--top", type=int, default=25)
    words.add_argument("kind", nargs="*")
    options = words.parse_intermixed_args()
    for name in options.kind:
        if name not in KINDS:
            words.error(f"there is no kind {name!r}; the kinds are {', '.join(map(repr, KINDS))}")
    with tempfile.TemporaryDirectory() as room:
        costs, found = Costs(os.path.abspath(options.program), made_refuse(room), room), {}
        for name in options.kind or KINDS:
            make, lines, off = KINDS[name]
            for needed in [*([off[0]] if off else []), name]:
                if needed not in found:
                    found[needed] = costs.of(KINDS[needed][0], options.times)
            show(name, less(found[name], found[off[0]] if off else None, off[1] if off else 1), lines, options.top)


if __name__ == "__main__":
    main()
