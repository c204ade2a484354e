"""Four writers beside eight reading threads in two processes, for a long time: what is torn, how memory goes, how old a snapshot becomes, and which call of the
library keeps the lock for how long. Writers and readers rest as those of a service do: else they would only measure the machine."""

import json
import os
import subprocess
import sys
import threading
import time
from typing import Any, Callable, Dict, List

from owndb_bench.held import Holds

HOLD = 10.0
WRITERS, READERS, THREADS = 4, 2, 4
WRITER_RESTS, READER_RESTS = 0.02, 0.01  # seconds, on average, after each commit, and after each page
MARKS = 600.0  # seconds from one printed look at memory to the next, or a sixth of the time; from the first on memory is to be flat
LOOKS = 0.5  # seconds
LONGEST_HOLD = 20.0  # milliseconds


def resident_mb(pid: int) -> float:
    with open(f"/proc/{pid}/statm", encoding="ascii") as file:
        return int(file.read().split()[1]) * os.sysconf("SC_PAGE_SIZE") / 1e6


def write(where: str, seconds: float, seed: int) -> Dict[str, Any]:
    """Returns the counts of one writing process."""
    from tests import beside

    return beside.write(where, seconds, seed, pause=WRITER_RESTS)


def read(where: str, seconds: float, seed: int) -> Dict[str, Any]:
    """Returns the counts of one reading process."""
    from tests import beside

    counts, oldest = [beside.Counter() for _ in range(THREADS)], [0.0]
    with Holds().watching() as holds:
        pages = beside.Pages(where, hold=HOLD)
        pages.cache._open()
        running = [threading.Thread(target=pages.read, args=(seconds, seed * 100 + at, it, READER_RESTS)) for at, it in enumerate(counts)]
        threading.Thread(target=watch_snapshots, args=(pages.cache._follower, oldest), daemon=True).start()
        for it in running:
            it.start()
        for it in running:
            it.join()
        stats = pages.cache.stats()
        pages.cache.close()
    each = {name: round(it.ms, 2) for name, it in sorted(holds.by_section.items())}
    return {**sum(counts, beside.Counter()), **{name: stats[name] for name in ("hits", "computed", "cold")}, "oldest held, s": oldest[0],
            "holds": {"longest": holds.longest.said(), "each, ms": each}}


def watch_snapshots(follower: Any, oldest: List[float]) -> None:
    """Keeps the greatest age at which a snapshot of this process is seen open."""
    while True:
        held = follower._held[:1]
        oldest[0] = max([oldest[0], *(time.monotonic() - it.taken for it in held if it.snapshot.is_open)])
        time.sleep(LOOKS / 2)


def oldest_on_server(ask: Callable[..., List[Any]]) -> float:
    """Returns the age of the oldest snapshot of the readers, as the server has it."""
    (found,), = ask("SELECT coalesce(extract(epoch FROM max(clock_timestamp() - xact_start)), 0)::float8 FROM pg_stat_activity "
                    "WHERE datname = current_database() AND application_name = 'reader'")
    return found


def watched(where: str, readers: List["subprocess.Popen[str]"], seconds: float, ask: Callable[..., List[Any]]) -> Dict[str, Any]:
    """Looks at the readers until they end, and says how it goes at each mark."""
    is_server, every = "=" in where, min(MARKS, seconds / 6)
    memory: List[List[float]] = []
    begun, age, log = time.monotonic(), 0.0, 0.0
    while all(it.poll() is None for it in readers) and time.monotonic() - begun < seconds:
        time.sleep(LOOKS)
        if is_server:
            age = max(age, oldest_on_server(ask))
        elif os.path.exists(f"{where}-wal"):
            log = max(log, os.path.getsize(f"{where}-wal") / 1e6)
        if time.monotonic() - begun >= every * (len(memory) + 1) - 2 * LOOKS and len(memory) < seconds / every:
            memory.append([round(resident_mb(it.pid), 1) for it in readers if it.poll() is None])
            print(f"{'postgres' if is_server else 'sqlite'}, after {time.monotonic() - begun:,.0f} s: MB of the readers {memory[-1]}, load {os.getloadavg()[0]:.0f}", file=sys.stderr, flush=True)
    found = {f"MB each {every:,.0f} s": memory}
    return {**found, "oldest in pg_stat_activity, s": round(age, 2)} if is_server else {**found, "longest log, MB": round(log, 1)}


def joined(said: List[Dict[str, Any]]) -> Dict[str, Any]:
    """Returns the sums of what processes counted, the oldest snapshot, and each reader's holds."""
    found: Dict[str, Any] = {"torn": 0, "holds": []}
    for it in said:
        if "holds" in it:
            found["holds"].append(it.pop("holds"))
            found["oldest held, s"] = round(max(found.get("oldest held, s", 0.0), it.pop("oldest held, s")), 2)
        for name, value in it.items():
            found[name] = found.get(name, 0) + value
    return found


def faults(found: Dict[str, Any], memory: List[List[float]]) -> List[str]:
    """Returns which parts of the bar do not stand."""
    parts = {"a page is torn": found["torn"] > 0, "a process has ended": any(len(it) < READERS for it in memory),
             "memory grows": any(now > 1.05 * then + 1 for then, now in zip(memory[0], memory[-1])),
             "a snapshot is too old": max(found["oldest held, s"], found.get("oldest in pg_stat_activity, s", 0.0)) > HOLD,
             "the lock is held for too long": any(it["longest"]["ms"] > LONGEST_HOLD for it in found["holds"])}
    return [name for name, is_so in parts.items() if is_so]


def started(kind: str, where: str, seconds: float, seed: int) -> "subprocess.Popen[str]":
    env = {**os.environ, "PYTHONPATH": os.pathsep.join(sys.path[:2])}
    return subprocess.Popen([sys.executable, "-m", "owndb_bench.hour", kind, where, str(seconds), str(seed)], env=env, stdout=subprocess.PIPE, text=True)


def prepared(room: Any, kind: str) -> str:
    from tests import beside

    where = room.database(kind, installs=False, texts=[])
    beside.prepare(where)
    return where


def measured(where: str, seconds: float) -> Dict[str, Any]:
    from owndb import link_of

    is_server = "=" in where
    writers = [started("write", where, seconds, it) for it in range(WRITERS)]
    readers = [started("read", f"{where} application_name=reader" if is_server else where, seconds, it) for it in range(READERS)]
    seen = watched(where, readers, seconds, link_of(where))
    found = {**joined([json.loads(it.communicate()[0]) for it in writers + readers]), **seen}
    memory = next(it for name, it in seen.items() if name.startswith("MB"))
    rates = {"commits/s of each writer": round(found["commits"] / seconds / WRITERS, 1), "pages/s of each thread": round(found["pages"] / seconds / READERS / THREADS, 1)}
    rests = {"rests after a commit, s": WRITER_RESTS, "rests after a page, s": READER_RESTS}
    failed = faults(found, memory)
    return {"store": "postgres" if is_server else "sqlite", "seconds": seconds, **rests, **rates, **found, "load": round(os.getloadavg()[1], 1), "stands": not failed, "failed": failed}


if __name__ == "__main__":
    print(json.dumps({"write": write, "read": read}[sys.argv[1]](sys.argv[2], float(sys.argv[3]), int(sys.argv[4]))))
