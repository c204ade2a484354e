"""Times the program of bench/threads_bench, which `bench/threads.sh` names: pages a second of threads and of processes.

A process of N threads may use the processors from 0 to N - 1; of N processes, of one thread each, every one has one of these to itself,
and a database of its own. All visitors go by the system's clock, and each site keeps itself by it. They begin at the same moment, when
their sites are there and each page was read once, and are counted for so many milliseconds. The two run in turn, so many times (seven), and
the programs in turn too. A table for each kind of work (`src/main.rt` says what each is); its columns:

  pages/s    the greatest of the runs, and the median of them
  of one     how many times the greatest with one thread that is
  of both    how many times the greatest of as many processes that of the threads is
  sleeps     how often a thread gave its processor away, for 1,000 pages: voluntary context switches of the whole process
  switches   how often it was taken away: involuntary ones

Above each table stands the load of the machine. With --figures it prints one table in place of these, the greatest of each kind, in the
form of docs/FIGURES.md. It fails where a page was torn or refused, or a bid was lost.
"""
import argparse
import os
import re
import shutil
import statistics
import subprocess
import sys
import tempfile
import time

import unproved
import with_tests

ROOT = with_tests.ROOT
LIBRARIES = "txc_stamp txc_tags txc_node txc_rows txc_db txc_app txc_call_registry txc_txn_ports txc_txn txc_txn_client txc_txn_rw txc_call_definition txc_site anyhow"
KINDS = {
    "hits": "two hits",
    "nested": "a call that no node has, which calls a hit",
    "misses": "two hits; in the place of each tenth page one that asks the database",
    "bids 10": "two calls, and a bid after each tenth page",
    "bids 1": "two calls, and a bid after each page",
}
# The rows of docs/FIGURES.md: what differs from a shop of 8 items whose pages are 100 ms old at most and whose site is kept each 2 ms.
SHOPS = [
    ("hits", {"most": 50}),
    ("hits", {}),
    ("nested", {}),
    ("misses", {}),
    ("bids 10", {}),
    ("bids 10", {"items": 256}),
    ("bids 10", {"items": 256, "stale": 1000, "every": 100}),
    ("bids 10", {"items": 256, "compute": 50}),
    ("bids 10", {"items": 256, "compute": 200}),
    ("bids 1", {}),
    ("bids 1", {"items": 256}),
    ("bids 1", {"items": 256, "stale": 1000, "every": 100}),
]
# Milliseconds until a site is there.
AHEAD = 800
SAID = re.compile(r"(\d+) pages, (\d+) torn, (\d+) refused, (\d+) bids, (-?\d+) lost, (\d+) conflicts\n")


def built(room):
    """The program, in the folder, which gets a copy of the repository too."""
    copy, crate = f"{room}/copy", f"{room}/copy/crates/threads_bench"
    os.makedirs(copy)
    with_tests.copy(copy)
    shutil.copytree(f"{ROOT}/bench/threads_bench/src", f"{crate}/src",
                    copy_function=lambda at, to: shutil.copy2(at, to.removesuffix(".in")))
    with open(f"{copy}/crates.txt", "a", encoding="utf-8") as it:
        it.write(f"threads_bench: {LIBRARIES}\n")
    said = unproved.build(crate, f"{room}/threads_bench", ["--steps", "1"])
    if said:
        sys.exit(f"{said[-3000:]}\nthreads.sh: the program was not compiled")
    return f"{room}/threads_bench"


class Run:
    """One run: the pages of all visitors, and how often they slept and were switched."""

    def __init__(self, given, program, kind, count, threads):
        """So many visitors, on threads of one process or in a process each."""
        start = int(time.time() * 1000) + AHEAD
        places = [range(count)] if threads else [[at] for at in range(count)]
        words = [*kind.split(), str(count if threads else 1), str(start), str(given.milliseconds), str(given.nodes), str(given.events), str(given.most),
                 str(given.items), str(given.stale), str(given.every), str(given.compute)]
        begun = [subprocess.Popen([program, *words], stdout=subprocess.PIPE, text=True,
                                  preexec_fn=lambda place=place: os.sched_setaffinity(0, place)) for place in places]
        self.pages = self.sleeps = self.switches = self.conflicts = 0
        for process in begun:
            said = process.stdout.read()
            _, status, used = os.wait4(process.pid, 0)
            found = SAID.fullmatch(said)
            if status or not found or any(int(found[at]) for at in (2, 3, 5)):
                sys.exit(f"threads.sh: {' '.join(words)} ended with {status}: {said}")
            self.pages += int(found[1])
            self.conflicts += int(found[6])
            self.sleeps += used.ru_nvcsw
            self.switches += used.ru_nivcsw


def speed(runs, given):
    """Pages a second: the greatest, and the median."""
    all_pages = sorted(it.pages * 1000 / given.milliseconds for it in runs)
    return all_pages[-1], statistics.median(all_pages)


def all_runs(given, kind, count):
    """The runs of so many visitors, on threads and in processes, by the program."""
    runs = {(program, threads): [] for program in given.programs for threads in (True, False)}
    for _ in range(given.runs):
        for (program, threads), done in runs.items():
            done.append(Run(given, program, kind, count, threads))
    return runs


def table(given, kind):
    print(f"\n{kind}, {shop_text(given)}, {given.nodes} nodes, {given.milliseconds} ms, best and median of {given.runs}; load {os.getloadavg()[0]:.1f}\n")
    named = len(given.programs) > 1
    print(f"|{' Program |' * named} At once | Threads, pages/s | of one | Sleeps | Switches | Processes, pages/s | of one | of both |")
    print("|---" * (8 + named) + "|", flush=True)
    ones = {}
    for count in given.counts:
        runs = all_runs(given, kind, count)
        for program in given.programs:
            by_threads, by_processes = runs[program, True], runs[program, False]
            (best, middle), (other, other_middle) = speed(by_threads, given), speed(by_processes, given)
            one, other_one = ones.setdefault(program, (best, other))
            pages = sum(it.pages for it in by_threads) / 1000
            print(f"|{f' {program} |' * named} {count} | {best:,.0f} ({middle:,.0f}) | {best / one:.2f}"
                  f" | {sum(it.sleeps for it in by_threads) / pages:.1f} | {sum(it.switches for it in by_threads) / pages:.1f}"
                  f" | {other:,.0f} ({other_middle:,.0f}) | {other / other_one:.2f} | {best / other:.2f} |", flush=True)


def shop_text(given):
    """The words of a row of docs/FIGURES.md for its shop."""
    words = [f"{given.items} items"]
    if given.stale != 100:
        words.append(f"pages of {given.stale} ms, kept each {given.every}")
    if given.compute:
        words.append(f"functions of {given.compute} µs")
    if given.most:
        words.append(f"pins kept for {given.most} ms")
    return "; ".join(words)


def figures(given):
    """The greatest of each row, of the first program, as docs/FIGURES.md has them."""
    print(f"Measured on {time.strftime('%Y-%m-%d')} by `bench/threads.sh --figures`, on {os.cpu_count()} cores, load {os.getloadavg()[0]:.0f}, "
          f"not proved; pages a second, the best of {given.runs} of {given.milliseconds} ms.\n")
    heads = [f"{what}: {it}" if at == 0 else f"{it}" for what in ("Threads", "Processes") for at, it in enumerate(given.counts)]
    print(f"| Pages of | Shop | {' | '.join(heads)} |\n{'|---' * (2 + len(heads))}|", flush=True)
    for kind, shop in SHOPS:
        if kind in given.kinds:
            row = argparse.Namespace(**{**vars(given), **shop})
            runs = [all_runs(row, kind, count) for count in given.counts]
            best = [speed(it[given.programs[0], threads], row)[0] for threads in (True, False) for it in runs]
            print(f"| {KINDS.get(kind, kind)} | {shop_text(row)} |{''.join(f' {it:,.0f} |' for it in best)}", flush=True)


def main():
    words = argparse.ArgumentParser()
    words.add_argument("--kinds", nargs="+", default=[*KINDS])
    words.add_argument("--counts", nargs="+", type=int, default=[1, 2, 4])
    words.add_argument("--nodes", type=int, default=16)
    words.add_argument("--events", type=int, default=0)
    words.add_argument("--most", type=int, default=0)
    words.add_argument("--runs", type=int, default=7)
    words.add_argument("--milliseconds", type=int, default=1000)
    words.add_argument("--items", type=int, default=8)
    words.add_argument("--stale", type=int, default=100)
    words.add_argument("--every", type=int, default=2)
    words.add_argument("--compute", type=int, default=0)
    words.add_argument("--figures", action="store_true")
    words.add_argument("programs", nargs="*", metavar="PROGRAM")
    given = words.parse_args()
    with tempfile.TemporaryDirectory(prefix="threads-") as room:
        given.programs = given.programs or [built(room)]
        if given.figures:
            return figures(given)
        for kind in given.kinds:
            table(given, kind)


if __name__ == "__main__":
    main()
