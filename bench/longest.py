#!/usr/bin/env python3
"""Finds the longest of 10,000 calls of each kind of the database, each timed alone by the processor time of the process.

usage: bench/longest.py [--beside COMMIT] [ROWS]      by default 100000 rows

The program is that of bench/store_bench; it is compiled with no proof, and with --beside once more over the store of another
commit, whose times come first. Most calls are made where half as many versions have died as there are rows, and wait to be dropped.
There are fewer vacuums, each after so many commits. A hot row was put 1,000 times before the last vacuum. Last a store alone is purged
after each of many puts: the program fails where that makes the process grow.
"""

import os
import shutil
import subprocess
import sys
import tempfile

BENCH = os.path.dirname(os.path.abspath(__file__))
ROOT = os.path.dirname(BENCH)
sys.path[:0] = [f"{ROOT}/scripts", f"{BENCH}/store_bench"]
import unproved  # noqa: E402
import with_tests  # noqa: E402
from times import Bench, shown  # noqa: E402

LIBRARIES = "anyhow thiserror txc_stamp txc_tags txc_rows txc_stream txc_db"
CALLS = 10_000
# so many commits for each line, where they are not timed
AT_ONCE = 1_000
# so many puts of the store alone, each with a purge, may make the process grow by so much
KEPT, GROWTH_MB = 100_000, 4
# each call, and the operation that does it
KINDS = {
    "a query by id": "id", "a query of a group of ten": "group", "a query of a range of ten": "range", "a hold": "hold", "a release": "release",
    "a pin": "pin", "a commit of one put of a changed row": "commit_1", "a commit of a new id": "new",
}


def built(room, commit=None):
    """The program over the tree, or over the store of a commit."""
    copy, crate = f"{room}/copy", f"{room}/copy/crates/store_bench"
    os.makedirs(copy)
    with_tests.copy(copy)
    if commit:
        shutil.rmtree(f"{copy}/crates/txc_rows")
        archive = subprocess.run(["git", "-C", ROOT, "archive", commit, "crates/txc_rows"], stdout=subprocess.PIPE, check=True)
        subprocess.run(["tar", "-x", "-C", copy], input=archive.stdout, check=True)
    os.makedirs(f"{crate}/src")
    for name in ("main", "bench", "operation"):
        shutil.copy(f"{BENCH}/store_bench/{name}.rt.in", f"{crate}/src/{name}.rt")
    with open(f"{copy}/crates.txt", "a", encoding="utf-8") as it:
        it.write(f"store_bench: {LIBRARIES}\n")
    said = unproved.build(crate, f"{room}/store_bench", ["--steps", "1"])
    if said:
        sys.exit(f"{said[-3000:]}\nlongest.py: the program was not compiled")
    return f"{room}/store_bench"


def repeat(bench, operation, many):
    for done in range(0, many, AT_ONCE):
        count = min(AT_ONCE, many - done)
        bench.run(f"{operation} {count}", count)


def vacuum(bench, after, operation="commit_1"):
    repeat(bench, operation, after)
    return bench.run("vacuum 1", 1)


def longest(bench, kind):
    """The longest call of the kind."""
    if kind == "release":
        most = max((bench.run("hold 1", 1), bench.run("release 1", 1))[1] for _ in range(CALLS))
    else:
        most = max(bench.run(f"{kind} 1", None) for _ in range(CALLS))
    if kind in ("hold", "pin"):
        bench.run(f"release {CALLS}", CALLS)
    return shown(most)


def memory(bench):
    """The memory of the process, in MB."""
    with open(f"/proc/{bench.process.pid}/statm", encoding="ascii") as it:
        return int(it.read().split()[1]) * os.sysconf("SC_PAGE_SIZE") / 1e6


def measured(bench, rows):
    """Returns the figure of each line, with its name."""
    bench.run(f"rows {rows}", rows)
    bench.run(f"ids {rows}", rows)
    yield "a commit of one put, none dead", longest(bench, "commit_1")
    bench.run("vacuum 1", 1)
    yield "a vacuum after 1,000 commits, of 10", shown(max(vacuum(bench, 1_000) for _ in range(10)))
    yield "a vacuum after 10,000 commits, of 3", shown(max(vacuum(bench, 10_000) for _ in range(3)))
    yield f"a vacuum after {rows // 2:,} commits", shown(vacuum(bench, rows // 2))
    for name, kind in KINDS.items():
        yield name, longest(bench, kind)
    vacuum(bench, rows // 2)
    vacuum(bench, 1_000, "hot")
    # the hot row is one of two that are asked, and the last of its group and range
    bench.run("ids 2", 2)
    for name in ("a query by id", "a query of a group of ten", "a query of a range of ten"):
        yield f"{name}, one row hot", longest(bench, KINDS[name])
    yield f"a vacuum after {rows:,} commits", shown(vacuum(bench, rows))


def check_memory(bench):
    """Puts with purges leave the memory as it is."""
    repeat(bench, "keep", AT_ONCE)
    first = memory(bench)
    repeat(bench, "keep", KEPT)
    grown = memory(bench) - first
    if grown > GROWTH_MB:
        sys.exit(f"longest.py: the process has grown by {grown:.1f} MB")


def main():
    words = sys.argv[1:]
    commits = [None]
    if words[:1] == ["--beside"]:
        commits, words = [words[1], None], words[2:]
    rows = int(words[0].replace(",", "")) if words else 100_000
    with tempfile.TemporaryDirectory() as room:
        benches = [Bench(built(f"{room}/{at}", it)) for at, it in enumerate(commits)]
        for told in zip(*(measured(bench, rows) for bench in benches)):
            print(f"| {told[0][0]} | {' | '.join(it.strip() for _, it in told)} |", flush=True)
        check_memory(benches[-1])
        for bench in benches:
            bench.close()


if __name__ == "__main__":
    main()
