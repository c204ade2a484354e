"""Runs two programs over changed scripts and settings, of which fuzz.py makes as many as are asked for of each mode, and compares
what they print, on both streams, and their statuses.

usage: python3 scripts/fuzz_beside.py OLD NEW SEED COUNT [MODE..]    at the top of the repository

Where they differ each runs again, as often as TIMES says: threads may take a batch's jobs in any order. A script of which every end
of NEW is one of OLD's is counted as such. Any other is written to fuzz-found/, and the exit status is 1.
"""

import collections
import sys

from fuzz import Maker, keep, ran

TIMES = 60


def ends_of(program, run, times):
    """What the program prints, and its statuses, in so many runs, each with how often it was so."""
    return collections.Counter((it.status, it.out, it.why) for it in (ran(program, run) for _ in range(times)))


def main():
    old, new, seed, count = sys.argv[1], sys.argv[2], int(sys.argv[3]), int(sys.argv[4])
    maker = Maker(seed, True)
    modes = sys.argv[5:] or sorted(maker.scripts)
    made, differ, wrong = collections.Counter(), collections.Counter(), 0
    statuses = collections.Counter()
    while min(made[it] for it in modes) < count:
        run = maker.run()
        mode = run.words[0]
        if mode not in modes or made[mode] == count:
            continue
        made[mode] += 1
        a, b = ran(old, run), ran(new, run)
        statuses[mode, a.status] += 1
        if a == b:
            continue
        differ[mode] += 1
        before, after = ends_of(old, run, TIMES), ends_of(new, run, TIMES)
        print(f"{mode} {made[mode]}: OLD ends in {len(before)} ways, NEW in {len(after)}, {len(before.keys() & after.keys())} are both's",
              flush=True)
        if not after.keys() <= before.keys():
            wrong += 1
            keep(run, f"{mode} {made[mode]}: OLD {before}\nNEW {after}", wrong)
    for mode in modes:
        ends = ", ".join(f"{n} with status {status}" for (of, status), n in sorted(statuses.items(), key=str) if of == mode)
        print(f"{mode}: {made[mode]} scripts ({ends}), {differ[mode]} differed")
    sys.exit(wrong > 0)


if __name__ == "__main__":
    main()
