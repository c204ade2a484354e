"""Pages beside writers: how many are torn, and how many of their parts are hits, by this cache and by ordinary ones.

usage: python3 -m owndb_bench.torn WAY WHERE SECONDS SEED PLACES     a reading process; PLACES are the folders of Redis' and memcached's sockets, as JSON
"""

import json
import os
import random
import subprocess
import sys
import time
from typing import Any, Dict, Iterator, List, Tuple

from owndb import TOLD, Room, Skipped, link_of

ITEMS, LIVES = 50, 5.0  # items that pages show; seconds for which an ordinary cache keeps a value
LOOKS = 0.5  # seconds between two readings of the notes
Key = Tuple[str, int]

QUERIES: Dict[str, Tuple[str, str, str]] = {  # of each part: its query, and the table and column by which rows are looked up
    "top": ("SELECT top FROM items WHERE id = %s", "items", "id"),
    "bids": ("SELECT max(price) FROM bids WHERE item = %s", "bids", "item"),
    "balance": ("SELECT balance FROM accounts WHERE id = %s", "accounts", "id"),
    "copy": ("SELECT balance FROM copies WHERE id = %s", "copies", "id")}
WAYS = {"txcache": "TxCache, 5 s", "dictionary": "a dictionary, 5 s", "noted": "a dictionary that the notes invalidate each 0.5 s",
        "redis": "django.core.cache over Redis, 5 s", "memcached": "django.core.cache over memcached, 5 s", "snapshot": "queries in one snapshot"}


def parts_of(item: int) -> List[Key]:
    first = item - item % 2
    return [("top", item), ("bids", item), ("balance", first), ("balance", first + 1), ("copy", first)]


def is_whole(top: int, bids: int, one: int, other: int, copy: int) -> bool:
    return top == bids and one + other == 2000 and copy == one


def write(where: str, seconds: float, seed: int, pause: float = 0.01) -> int:
    """Changes a bid and its item's highest, moves an amount between two accounts, and copies both. Returns how many commits were made."""
    ask, rand, ended, count = link_of(where), random.Random(seed), time.monotonic() + seconds, 0
    while time.monotonic() < ended:
        item, amount = rand.randrange(ITEMS), rand.randrange(-9, 10)
        first = item - item % 2
        ask("BEGIN")
        ask("SELECT FROM items WHERE id IN (%s, %s) ORDER BY id FOR UPDATE", first, first + 1)
        ask("UPDATE bids SET price = %s WHERE id = %s", rand.randrange(1000), 2 * item + rand.randrange(2))
        ask("UPDATE items SET top = (SELECT max(price) FROM bids WHERE item = %s) WHERE id = %s", item, item)
        ask("UPDATE accounts SET balance = balance + %s * (1 - 2 * (id %% 2)) WHERE id IN (%s, %s)", amount, first, first + 1)
        ask("UPDATE copies SET balance = (SELECT balance FROM accounts WHERE id = %s) WHERE id = %s", first, first)
        ask("COMMIT")
        count += 1
        time.sleep(rand.random() * 2 * pause)
    return count


class Cache:
    """An ordinary cache: a dictionary whose values live for some seconds. `hits` and `misses` are counted."""

    def __init__(self, where: str, places: Dict[str, str]):
        self.ask, self.hits, self.misses = link_of(where), 0, 0
        self.known: Dict[Key, Tuple[float, Any]] = {}

    def computed(self, key: Key) -> Any:
        self.misses += 1
        (value,), = self.ask(QUERIES[key[0]][0], key[1])
        return value

    def part(self, key: Key) -> Any:
        found = self.known.get(key)
        if found is not None and found[0] > time.monotonic():
            self.hits += 1
            return found[1]
        value = self.computed(key)
        self.known[key] = time.monotonic() + LIVES, value
        return value

    def page(self, keys: List[Key]) -> List[Any]:
        return [self.part(it) for it in keys]


class Noted(Cache):
    """The same, where each value goes as soon as it is read that a note names one of its rows."""

    def __init__(self, where: str, places: Dict[str, str]):
        super().__init__(where, places)
        self.store, self.looked = Room.store(where, TOLD), 0.0
        self.mark = self.store.look().mark

    def page(self, keys: List[Key]) -> List[Any]:
        if time.monotonic() > self.looked + LOOKS:
            found = self.store.look(self.mark)
            found.snapshot.close()
            self.mark, self.looked = found.mark, time.monotonic()
            for name, number in list(self.known):
                _, table, column = QUERIES[name]
                if f"public.{table}:{column}={number}" in (found.tags or ()):
                    del self.known[name, number]
        return super().page(keys)


class Django(Cache):
    """Django's `get_or_set`, over a server."""

    def __init__(self, where: str, places: Dict[str, str], way: str):
        super().__init__(where, places)
        from django.conf import settings

        at = {"redis": {"BACKEND": "django_redis.cache.RedisCache", "LOCATION": f"unix://{places['redis']}"},
              "memcached": {"BACKEND": "django.core.cache.backends.memcached.PyMemcacheCache", "LOCATION": f"unix:{places['memcached']}"}}
        settings.configure(CACHES={"default": at[way]})
        from django.core.cache import cache

        self.cache, self.asked = cache, 0

    def part(self, key: Key) -> Any:
        self.asked += 1
        value = self.cache.get_or_set(f"{key[0]}:{key[1]}", lambda: self.computed(key), LIVES)
        self.hits = self.asked - self.misses
        return value


class Queries(Cache):
    """No cache: each page's queries in a transaction of one snapshot."""

    def page(self, keys: List[Key]) -> List[Any]:
        self.ask("BEGIN ISOLATION LEVEL REPEATABLE READ READ ONLY")
        found = [self.computed(it) for it in keys]
        self.ask("COMMIT")
        return found


class Own(Cache):
    """This one."""

    def __init__(self, where: str, places: Dict[str, str]):
        super().__init__(where, places)
        from txcache import TxCache

        self.cache = cache = TxCache(Room.store(where, TOLD))

        @cache.cacheable
        def top(db, item):
            return db.row("items", id=item)["top"]

        @cache.cacheable
        def bids(db, item):
            return max(row["price"] for row in db.rows("bids", item=item))

        @cache.cacheable
        def balance(db, account):
            return db.row("accounts", id=account)["balance"]

        @cache.cacheable
        def copy(db, account):
            return db.row("copies", id=account)["balance"]

        self.functions = {"top": top, "bids": bids, "balance": balance, "copy": copy}

    def page(self, keys: List[Key]) -> List[Any]:
        with self.cache.read(max_age=LIVES) as page:
            found = [self.functions[name](number) for name, number in keys]
        self.hits, self.misses = self.hits + page.receipt.hits, self.misses + page.receipt.computed
        return found


def cache_of(way: str, where: str, places: Dict[str, str]) -> Cache:
    if way in ("redis", "memcached"):
        return Django(where, places, way)
    return {"txcache": Own, "dictionary": Cache, "noted": Noted, "snapshot": Queries}[way](where, places)


def read(way: str, where: str, seconds: float, seed: int, places: Dict[str, str]) -> Dict[str, float]:
    """The counts of one reading process: its pages, the torn ones, hits and misses, and its processor time."""
    from txcache import SnapshotLost

    cache, rand, ended, counts = cache_of(way, where, places), random.Random(seed), time.monotonic() + seconds, {"pages": 0, "torn": 0, "lost": 0}
    begun = time.process_time()
    while time.monotonic() < ended:
        try:
            found = cache.page(parts_of(rand.randrange(ITEMS)))
        except SnapshotLost:
            counts["lost"] += 1
            continue
        counts["pages"] += 1
        counts["torn"] += not is_whole(*found)
    return {**counts, "hits": cache.hits, "misses": cache.misses, "processor": time.process_time() - begun}


def missing(way: str) -> str:
    """Returns what a way wants that is not there, or an empty text."""
    import importlib.util
    import shutil

    wanted = {"redis": ["redis-server", "django_redis"], "memcached": ["memcached", "django", "pymemcache"]}.get(way, [])
    return ", ".join(it for it in wanted if not (shutil.which(it) or importlib.util.find_spec(it)))


def measured(room: Room, way: str, seconds: float, writers: int = 4, readers: int = 2) -> Dict[str, float]:
    """Runs writing processes beside reading ones."""
    if missing(way):
        raise Skipped(f"there is no {missing(way)}")
    where, places = room.database("postgres"), {"redis": room.redis_path() if way == "redis" else "", "memcached": room.memcached_path() if way == "memcached" else ""}
    env = {**os.environ, "PYTHONPATH": os.pathsep.join(sys.path[:2])}
    words = [sys.executable, "-m", "owndb_bench.torn"]
    running = [subprocess.Popen([*words, "write", where, str(seconds + 1), str(it), "{}"], env=env, stdout=subprocess.PIPE, text=True) for it in range(writers)]
    running += [subprocess.Popen([*words, way, where, str(seconds), str(it), json.dumps(places)], env=env, stdout=subprocess.PIPE, text=True) for it in range(readers)]
    total: Dict[str, float] = {}
    for it in running:
        for name, value in json.loads(it.communicate()[0]).items():
            total[name] = total.get(name, 0) + value
    return total


def lines(room: Room, scale: float) -> Iterator[str]:
    seconds = 10.0 * scale
    yield f"Four writers beside two reading processes, pages of five parts over {ITEMS} items, {seconds:g} s each; PostgreSQL.\n"
    yield "| | Pages | Torn | Of 100 | Hits of 100 | Processor a page | Commits a second |\n|---|---|---|---|---|---|---|"
    for way, name in WAYS.items():
        try:
            found = measured(room, way, seconds)
        except Skipped as error:
            yield f"| {name} | skipped: {error} | | | | | |"
            continue
        parts = max(1, found["hits"] + found["misses"])
        yield (f"| {name} | {found['pages']:,.0f} | {found['torn']:,.0f} | {100 * found['torn'] / max(1, found['pages']):.2g} | {100 * found['hits'] / parts:.1f} | "
               f"{1e6 * found['processor'] / max(1, found['pages']):.0f} µs | {found['commits'] / (seconds + 1):.0f} |")


if __name__ == "__main__":
    kind, at, given, number, folders = sys.argv[1:]
    print(json.dumps({"commits": write(at, float(given), int(number))} if kind == "write" else read(kind, at, float(given), int(number), json.loads(folders))))
