#!/usr/bin/env python3
"""Times a carry of a database's newest state, in place and into a new store, beside a vacuum of the same database, by the processor
time of the process.

usage: bench/carry.py [ROWS..]      by default 1000 16000 100000 rows, of which half are replaced before the vacuum

The program's source lies in bench/carry_bench; it is compiled with no proof. Each figure is the least of ROUNDS, each with
a new database. That is vacuumed before it is renewed and carried over, so that neither's own vacuum drops anything. The last column has
the events that the carry took.
"""

import os
import shutil
import subprocess
import sys
import tempfile
import time

BENCH = os.path.dirname(os.path.abspath(__file__))
sys.path.insert(0, f"{os.path.dirname(BENCH)}/scripts")
import unproved  # noqa: E402
import with_tests  # noqa: E402

LIBRARIES = "txc_stamp txc_tags txc_rows txc_stream txc_db txc_db_carry anyhow"
ROUNDS = 5


def built(room):
    copy, crate = f"{room}/copy", f"{room}/copy/crates/carry_bench"
    os.makedirs(copy)
    with_tests.copy(copy)
    shutil.copytree(f"{BENCH}/carry_bench", crate, copy_function=lambda at, to: shutil.copy2(at, to.removesuffix(".in")))
    with open(f"{copy}/crates.txt", "a", encoding="utf-8") as it:
        it.write(f"carry_bench: {LIBRARIES}\n")
    said = unproved.build(crate, f"{room}/carry_bench", ["--steps", "1"])
    if said:
        sys.exit(f"{said[-3000:]}\ncarry.py: the program was not compiled")
    return f"{room}/carry_bench"


class Bench:
    """The program at work, one line at a time."""

    def __init__(self, program):
        self.process = subprocess.Popen([program], stdin=subprocess.PIPE, stdout=subprocess.PIPE, text=True)
        # the clock of the processor time of that process
        self.clock = (~self.process.pid << 3) | 2

    def run(self, line):
        """The milliseconds of processor time that the line takes, and what it answers."""
        before = time.clock_gettime_ns(self.clock)
        self.process.stdin.write(line + "\n")
        self.process.stdin.flush()
        answer = self.process.stdout.readline()
        if not answer.strip():
            sys.exit(f"carry.py: {line}: no answer")
        return (time.clock_gettime_ns(self.clock) - before) / 1e6, int(answer)

    def close(self):
        self.process.stdin.close()
        self.process.wait()


def measure(bench, rows):
    vacuums, renewals, carries, events = [], [], [], 0
    for _ in range(ROUNDS):
        bench.run(f"rows {rows}")
        bench.run(f"replace {rows // 2}")
        vacuums.append(bench.run("vacuum 1")[0])
        renewals.append(bench.run("renew 1")[0])
        spent, events = bench.run("carry 1")
        carries.append(spent)
    print(f"| {rows:,} | {min(vacuums):.2f} ms | {min(renewals):.3f} ms | {min(carries):.0f} ms | {events:,} |", flush=True)


def main():
    sizes = [int(it.replace(",", "")) for it in sys.argv[1:]] or [1000, 16000, 100000]
    with tempfile.TemporaryDirectory() as room:
        bench = Bench(built(room))
        print("| Rows | A vacuum, where half as many have died | A carry in place after it | One into a new store | Its events |\n|---|---|---|---|---|")
        for rows in sizes:
            measure(bench, rows)
        bench.close()


if __name__ == "__main__":
    main()
