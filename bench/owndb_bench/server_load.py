"""The cost of a cache for the server: of a commit, of following, of the connections of many processes, and of open snapshots.

usage: python3 -m owndb_bench.server_load follow WHERE SECONDS REFRESH HOLD    a process that reads pages of hits, and prints its counts as JSON
"""

import json
import os
import subprocess
import sys
import time
from typing import Dict, Iterator, List

from owndb import TOLD, Room, commits_of, link_of, look_ms

TICK = os.sysconf("SC_CLK_TCK")
# How many processes read, in words.
NAMES = {1: "one process", 4: "four processes", 8: "eight processes"}


class Load:
    """The processor time of a server: its processes', those that have ended too."""

    def __init__(self, folder: str):
        with open(f"{folder}/data/postmaster.pid", encoding="ascii") as file:
            self.top = int(file.readline())

    def seconds(self) -> float:
        total = 0
        for name in filter(str.isdigit, os.listdir("/proc")):
            try:
                with open(f"/proc/{name}/stat", encoding="utf-8", errors="replace") as file:
                    words = file.read().rpartition(")")[2].split()
            except OSError:
                continue
            own, ended = int(words[11]) + int(words[12]), int(words[13]) + int(words[14])
            total += own + ended if int(name) == self.top else own if int(words[1]) == self.top else 0
        return total / TICK


def follow(where: str, seconds: float, refresh: float, hold: float) -> Dict[str, float]:
    """Reads pages of hits, 100 a second at most, and counts them."""
    from txcache import SnapshotLost

    from .pages import KINDS, Shop

    shop, ended, counts = Shop(Room.store(f"{where} application_name=follows", TOLD), refresh=refresh, hold=hold), time.monotonic() + seconds, {"pages": 0, "lost": 0}
    while time.monotonic() < ended:
        try:
            shop.page(KINDS["4 parts"](counts["pages"] % 50), 5.0)
            counts["pages"] += 1
        except SnapshotLost:
            counts["lost"] += 1
        time.sleep(0.01)
    stats = shop.cache.stats()
    shop.cache.close()
    return {**counts, "hits": stats["hits"], "computed": stats["computed"]}


def followers(where: str, count: int, seconds: float, refresh: float = 0.5, hold: float = 10.0) -> List["subprocess.Popen[str]"]:
    env = {**os.environ, "PYTHONPATH": os.pathsep.join(sys.path[:2])}
    words = [sys.executable, "-m", "owndb_bench.server_load", "follow", where, str(seconds), str(refresh), str(hold)]
    return [subprocess.Popen(words, env=env, stdout=subprocess.PIPE, text=True) for _ in range(count)]


def commit_lines(room: Room, scale: float) -> Iterator[str]:
    seconds, rounds = max(1.0, 3.0 * scale), 3 if scale >= 1 else 1
    yield f"Commits a second, each of a row of each of four tables, by chance of a thousand; the median of {rounds} rounds of {seconds:g} s; PostgreSQL, fsync off.\n"
    yield "| | 1 writer | 8 writers |\n|---|---|---|"
    wheres = {"no triggers": room.database("postgres", False), "notes": room.database("postgres")}
    found: Dict[str, Dict[int, List[float]]] = {name: {1: [], 8: []} for name in wheres}
    for _ in range(rounds):
        for writers in (1, 8):
            for name, where in wheres.items():
                found[name][writers].append(commits_of(where, seconds, False, writers))
    for name, counts in found.items():
        yield f"| {name} | {' | '.join(f'{sorted(it)[len(it) // 2]:,.0f}' for it in counts.values())} |"


def process_lines(room: Room, scale: float) -> Iterator[str]:
    from tests.server import server

    seconds, where = max(3.0, 8.0 * scale), room.database("postgres")
    load, ask = Load(server().folder), link_of(where)
    yield f"Processes that read pages of four parts at max_age=5.0, 100 a second each, beside one writer of 50 commits a second; {seconds:g} s each. A look takes {look_ms(room.store(where)):.2f} ms.\n"
    yield "| 100 pages a second and process, beside 50 commits a second | Connections at most | Server's processor for a process |\n|---|---|---|"
    lost = []
    alone = 0.0
    for count in (0, 1, 4, 8):
        writing = subprocess.Popen([sys.executable, "-m", "owndb_bench.torn", "write", where, str(seconds + 3), "1", "{}"], stdout=subprocess.PIPE, text=True,
                                   env={**os.environ, "PYTHONPATH": os.pathsep.join(sys.path[:2])})
        running = followers(where, count, seconds + 2)
        time.sleep(2.0)
        before, begun, most = load.seconds(), time.monotonic(), 0
        while time.monotonic() < begun + seconds - 1:
            most = max(most, ask("SELECT count(*) FROM pg_stat_activity WHERE application_name = 'follows'")[0][0])
            time.sleep(0.25)
        ms = (load.seconds() - before) / (time.monotonic() - begun) * 1e3
        alone = alone if count else ms
        total: Dict[str, float] = {}
        for it in running:
            for name, value in json.loads(it.communicate()[0]).items():
                total[name] = total.get(name, 0) + value
        writing.communicate()
        parts = max(1, total.get("hits", 0) + total.get("computed", 0))
        if count:
            yield f"| {NAMES[count]} | {most} | {(ms - alone) / count:.0f} ms a second |"
            lost.append(f"{NAMES[count]}: {100 * total['hits'] / parts:.1f} hits of 100, {total['lost']:.0f} pages lost")
    yield f"\n{'; '.join(lost)}.\n"


def snapshot_lines(room: Room, scale: float) -> Iterator[str]:
    """Each hold in a database of its own, since the dead rows of one would be the next's."""
    yield "What open snapshots cost: eight writers that change one hot row of each of four tables, beside two processes that read.\n"
    yield "| `hold` | Commits a second | Of those beside none | Dead rows of the hot tables, most |\n|---|---|---|---|"
    alone = 0.0
    for hold, seconds in ((0.0, 8.0), (1.0, 8.0), (5.0, 12.0), (10.0, 20.0), (60.0, 45.0)):
        where, seconds = room.database("postgres"), max(2.0, seconds * scale)
        ask = link_of(where)
        running = followers(where, 2, seconds + 2, min(0.5, hold / 2), hold) if hold else []
        time.sleep(1.0)
        commits = commits_of(where, seconds, True, 8)
        alone = alone or commits
        ask("SELECT pg_stat_clear_snapshot()")
        (dead,), = ask("SELECT sum(pg_stat_get_dead_tuples(c.oid)) FROM pg_class c WHERE c.relname = ANY (%s)", list(TOLD))
        for it in running:
            it.communicate()
        yield f"| {f'{hold:g} s' if hold else 'no reader'} | {commits:,.0f} | {commits / alone:.2f} | {int(dead):,} |"


if __name__ == "__main__":
    print(json.dumps(follow(sys.argv[2], *map(float, sys.argv[3:]))))
