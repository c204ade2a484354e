#!/usr/bin/env python3
"""Measures the cache beside a service's own database against its bars, each with what it is compared with in one run.

usage: bench/owndb.py [--library FOLDER] [--prototype FOLDER] [WORD..]     bars whose name has one of the words, else all but the last
       bench/owndb.py [--library FOLDER] --hour SECONDS postgres|sqlite|both    the last; a line of JSON for each store, both at once
       bench/owndb.py [--library FOLDER] --figures [short] [TABLE..]    tables of what a cache buys and costs: torn, pages, threads, commits, processes, snapshots,
                                                                       following; this beside a former package if that is named, by --former PACKAGE LIBRARY

It wants a driver of PostgreSQL and initdb, as the package's tests do, and for Redis `apt-get install redis-server python3-redis`; a bar whose other side is not
there is skipped by name. The figures want memcached, python3-pymemcache, python3-django and python3-django-redis too. The prototype is that of a trial (a folder with txcache_db, which wants python3-psycopg2); it runs over today's library.
It prints a table in markdown. The exit status is 0 if each bar that was measured stands.
"""

import argparse
import json
import os
import pickle
import random
import shutil
import sqlite3
import statistics
import subprocess
import sys
import tempfile
import threading
import time
from concurrent.futures import ThreadPoolExecutor
from typing import Any, Callable, Dict, Iterator, List, NamedTuple, Sequence

ROOT = os.path.dirname(os.path.dirname(os.path.abspath(__file__)))
PYTHON = f"{ROOT}/bindings/python"
BLOCKS, PAGES = 60, 200
TABLES = ["CREATE TABLE items (id integer PRIMARY KEY, seller integer NOT NULL, title text NOT NULL, top integer NOT NULL)",
          "CREATE TABLE bids (id integer PRIMARY KEY, item integer NOT NULL, price integer NOT NULL)", "CREATE INDEX bids_item ON bids (item)",
          "CREATE TABLE accounts (id integer PRIMARY KEY, pair integer NOT NULL, balance integer NOT NULL)", "CREATE INDEX accounts_pair ON accounts (pair)",
          "CREATE TABLE copies (id integer PRIMARY KEY, balance integer NOT NULL)"]
TOLD = {"items": ["id", "seller"], "bids": ["id", "item"], "accounts": ["id", "pair"], "copies": ["id"]}
ROWS = 1000


class Skipped(Exception):
    """The other side of a bar does not exist on this machine."""


class Bar(NamedTuple):
    """A name, a limit, whether it is a lower one, and what measures it: it gives names and figures."""

    name: str
    limit: float
    is_least: bool
    measure: Callable[["Room"], Dict[str, float]]


def link_of(where: str) -> Callable[..., List[Any]]:
    """Returns what runs a statement of its own over a new connection."""
    if "=" not in where:
        link = sqlite3.connect(where, isolation_level=None, timeout=60, check_same_thread=False)
        return lambda text, *args: link.execute(text.replace("%s", "?"), args).fetchall()
    from txcache import _driver

    it = _driver.Link(where)
    return lambda text, *args: it.ask(text, args)


class Room:
    """The databases of a run, each made when it is first wanted."""

    def __init__(self, prototype: str, former: Sequence[str] = ()):
        self.former = former
        self.folder, self.prototype, self._count = tempfile.mkdtemp(prefix="owndb-", dir="/tmp"), prototype, 0
        self._servers: Dict[str, Any] = {}

    def database(self, kind: str, installs: bool = True, texts: Sequence[str] = TABLES, told: Dict[str, Any] = TOLD) -> str:
        """Returns where a new database lies, with a thousand rows a table."""
        self._count += 1
        if kind == "sqlite":
            where = f"{self.folder}/{self._count}.db"
        else:
            from tests.server import server

            link_of(server().dsn("postgres"))(f"CREATE DATABASE d{self._count}")
            where = server().dsn(f"d{self._count}")
        ask = link_of(where)
        if kind == "sqlite":
            ask("PRAGMA journal_mode = WAL")
        for text in texts:
            ask(text)
        if texts is TABLES:
            self._fill(ask)
        if installs:
            self.store(where, told).install()
        return where

    @staticmethod
    def _fill(ask: Callable[..., List[Any]]) -> None:
        for table, row in (("items", "({at}, {at} % 50, 'item {at}', 100)"), ("bids", "(2 * {at}, {at}, 100), (2 * {at} + 1, {at}, 90)"),
                           ("accounts", "({at}, {at} / 2, 1000)"), ("copies", "({at}, 1000)")):
            ask(f"INSERT INTO {table} VALUES " + ", ".join(row.format(at=at) for at in range(ROWS)))

    @staticmethod
    def store(where: str, told: Dict[str, Any] = TOLD) -> Any:
        if "=" not in where:
            from txcache.sqlite import SqliteStore

            return SqliteStore(where, told)
        from txcache.postgres import PostgresStore

        return PostgresStore(where, told)

    def redis(self) -> Any:
        if not shutil.which("redis-server"):
            raise Skipped("redis-server is not there")
        try:
            import redis
        except ImportError:
            raise Skipped("python3-redis is not there") from None
        return redis.Redis(unix_socket_path=self.redis_path())

    def redis_path(self) -> str:
        return self._server("redis", ["redis-server", "--port", "0", "--unixsocket", f"{self.folder}/redis", "--save", "", "--dir", self.folder])

    def memcached(self) -> Any:
        if not shutil.which("memcached"):
            raise Skipped("memcached is not there")
        try:
            from pymemcache.client.base import Client
        except ImportError:
            raise Skipped("python3-pymemcache is not there") from None
        return Client(f"unix:{self.memcached_path()}")

    def memcached_path(self) -> str:
        return self._server("memcached", ["memcached", "-u", "nobody", "-s", f"{self.folder}/memcached", "-a", "0777"])

    def _server(self, name: str, words: List[str]) -> str:
        """Returns the socket of a server, which is started if none is."""
        if name not in self._servers:
            os.chmod(self.folder, 0o777)
            self._servers[name] = subprocess.Popen(words, stdout=subprocess.DEVNULL)
            while not os.path.exists(f"{self.folder}/{name}"):
                if self._servers[name].poll() is not None:
                    raise Skipped(f"{name} does not run")
                time.sleep(0.05)
        return f"{self.folder}/{name}"

    def close(self) -> None:
        for it in self._servers.values():
            it.terminate()
            it.wait()
        shutil.rmtree(self.folder, ignore_errors=True)


class Shop:
    """A cache with some functions by key."""

    def __init__(self, store: Any, **settings: Any):
        from txcache import TxCache

        self.cache = TxCache(store, **settings)

        @self.cache.cacheable
        def head(db, item):
            return db.row("items", id=item)

        @self.cache.cacheable
        def bids(db, item):
            return [row["price"] for row in db.rows("bids", item=item)]

        @self.cache.cacheable
        def balance(db, account):
            return db.row("accounts", id=account)["balance"]

        @self.cache.cacheable
        def slow(db, number):
            time.sleep(0.1)
            return number

        self.head, self.bids, self.balance, self.slow = head, bids, balance, slow

    def four(self, item: int) -> List[Any]:
        with self.cache.read(max_age=60.0):
            return [self.head(item), self.bids(item), self.balance(item), self.balance(item + 1)]


def in_turn(ways: Dict[str, Callable[[int], Any]], clock: Callable[[], float] = time.perf_counter, blocks: int = BLOCKS, pages: int = PAGES) -> Dict[str, float]:
    """Returns the microseconds of each way: they are asked in turn, and of each the least block counts."""
    least = dict.fromkeys(ways, float("inf"))
    for block in range(blocks + 2):
        for name, way in ways.items():
            begun = clock()
            for at in range(pages):
                way(at % 50)
            if block > 1:
                least[name] = min(least[name], (clock() - begun) / pages * 1e6)
    return least


# ---- pages


def names_of(item: int) -> List[str]:
    """The names under which a far cache has the parts of a page."""
    return [f"head:{item}", f"bids:{item}", f"balance:{item}", f"balance:{item + 1}"]


def far_page(room: Room, other: str, shop: "Shop") -> Callable[[int], Any]:
    """Returns a page of the same four values from a cache in another process, with one request."""
    far = room.redis() if other == "redis" else room.memcached()
    for item in range(52):
        for name, value in zip(names_of(item), shop.four(item)):
            far.set(name, pickle.dumps(value, pickle.HIGHEST_PROTOCOL))
    if other == "redis":
        return lambda item: [pickle.loads(it) for it in far.mget(names_of(item))]

    def page(item: int) -> List[Any]:
        names = names_of(item)
        found = far.get_many(names)
        return [pickle.loads(found[it]) for it in names]

    return page


def hits_of(room: Room, other: str, is_empty: bool = False) -> Dict[str, float]:
    """A page of four hits, or of no call, and in turn with it the same four values elsewhere."""
    shop = Shop(room.store(room.database("sqlite")), refresh=1000.0)

    def no_call(item: int) -> None:
        with shop.cache.read(max_age=60.0):
            pass

    ways: Dict[str, Callable[[int], Any]] = {"txcache": no_call if is_empty else shop.four}
    if other == "prototype":
        from owndb_bench import prototype

        ways[other] = prototype.shop(room.prototype, room.database("sqlite", installs=False)).four
    else:
        ways[other] = far_page(room, other, shop)
        assert ways[other](7) == shop.four(7)
    took = in_turn(ways, time.thread_time if other == "prototype" else time.perf_counter)  # in one process what others run does not count
    shop.cache.close()
    return {**{f"{name}, us": value for name, value in took.items()}, "ratio": took["txcache"] / took[other]}


def pages_in(shop: Shop, seconds: float, threads: int = 1) -> float:
    """Returns pages of hits a second."""
    counts, ended = [0] * threads, time.perf_counter() + seconds

    def run(at: int) -> None:
        while time.perf_counter() < ended:
            for item in range(50):
                shop.four(item)
            counts[at] += 50

    running = [threading.Thread(target=run, args=(at,)) for at in range(threads)]
    for it in running:
        it.start()
    for it in running:
        it.join()
    return sum(counts) / seconds


def beside_a_function(room: Room) -> Dict[str, float]:
    """A thread computes functions that wait for 100 ms each, as for a service far away."""
    shop, is_over = Shop(room.store(room.database("sqlite")), refresh=1000.0), threading.Event()
    for item in range(50):
        shop.four(item)

    def compute() -> None:
        for number in range(10**6):
            if is_over.is_set():
                return
            with shop.cache.read(max_age=60.0):
                shop.slow(number)

    alone, beside = [], []
    for _ in range(12):
        alone.append(pages_in(shop, 0.4))
        thread = threading.Thread(target=compute)
        thread.start()
        beside.append(pages_in(shop, 0.4))
        is_over.set()
        thread.join()
        is_over.clear()
    shop.cache.close()
    return {"pages/s alone": max(alone), "beside": max(beside), "ratio": max(beside) / max(alone)}


def eight_threads(room: Room) -> Dict[str, float]:
    shop = Shop(room.store(room.database("sqlite")), refresh=1000.0)
    for item in range(50):
        shop.four(item)
    one, eight = [], []
    for _ in range(15):
        one.append(pages_in(shop, 0.4))
        eight.append(pages_in(shop, 0.4, 8))
    shop.cache.close()
    return {"pages/s, one": max(one), "eight": max(eight), "ratio": max(eight) / max(one)}


def first_time(room: Room, kind: str) -> Dict[str, float]:
    """Pages of two functions by key that nobody has asked for, and their two queries in a transaction of one snapshot."""
    where = room.database(kind)
    shop, ask = Shop(room.store(where), refresh=1000.0), link_of(where)
    begin = "BEGIN" if kind == "sqlite" else "BEGIN ISOLATION LEVEL REPEATABLE READ READ ONLY"

    def page(item: int) -> None:
        with shop.cache.read(max_age=60.0):
            shop.head(item), shop.bids(item)

    def queries(item: int) -> None:
        ask(begin)
        ask("SELECT * FROM items WHERE id = %s", item)
        ask("SELECT * FROM bids WHERE item = %s ORDER BY id", item)
        ask("COMMIT")

    clock = time.thread_time if kind == "sqlite" else time.perf_counter  # a server works in processes of its own
    took: Dict[str, List[float]] = {"page": [], "queries": []}
    for item in range(ROWS):
        for name, way in (("page", page), ("queries", queries)):
            begun = clock()
            way(item)
            took[name].append((clock() - begun) * 1e6)
    shop.cache.close()
    page_us, queries_us = (statistics.median(it[50:]) for it in took.values())
    return {"page, us": page_us, "queries, us": queries_us, "ratio": page_us / queries_us}


# ---- following


def follow_us(shop: Any, look: Callable[[], Any], where: str, before: int) -> float:
    """Returns the processor time of a look that follows a commit of six tags, after so many tags were touched: a tenth of the looks took less."""
    ask = link_of(where)
    for at in range(0, before, 500):
        ask("BEGIN")
        for number in range(at, min(at + 500, before)):
            ask("INSERT INTO copies VALUES (%s, 0)", 10_000 + number)
        ask("COMMIT")
        look()
    took = []
    for at in range(300):
        ask("BEGIN")
        ask("UPDATE items SET top = top + 1 WHERE id = %s", at % ROWS)
        ask("UPDATE bids SET price = price + 1 WHERE id = %s", at % ROWS)
        ask("UPDATE accounts SET balance = balance + 1 WHERE id = %s", at % ROWS)
        ask("COMMIT")
        begun = time.process_time()
        look()
        took.append((time.process_time() - begun) * 1e6)
    return sorted(took)[len(took) // 10]


def following(room: Room) -> Dict[str, float]:
    from owndb_bench import prototype

    where = room.database("sqlite", installs=False)
    shop = prototype.shop(room.prototype, where)
    theirs = follow_us(shop, shop.look, where, 1000)
    where = room.database("sqlite")
    mine = Shop(room.store(where), thread=False, refresh=1000.0)
    mine.four(0)
    few = follow_us(mine, mine.cache._look, where, 1000)
    mine.cache.close()
    return {"txcache, us": few, "prototype, us": theirs, "ratio": few / theirs}


def following_after_many(room: Room) -> Dict[str, float]:
    took = []
    for before in (1000, 50_000):
        where = room.database("sqlite")
        shop = Shop(room.store(where), thread=False, refresh=1000.0)
        shop.four(0)
        took.append(follow_us(shop, shop.cache._look, where, before))
        shop.cache.close()
    return {"after 1,000 tags, us": took[0], "after 50,000": took[1], "ratio": took[1] / took[0]}


def look_ms(store: Any, count: int = 200) -> float:
    """Returns the milliseconds of a look where nothing has changed: a tenth of the looks took less."""
    first = store.look()
    first.snapshot.close()
    took, mark = [], first.mark
    for _ in range(count):
        begun = time.perf_counter()
        found = store.look(mark)
        took.append((time.perf_counter() - begun) * 1e3)
        mark = found.mark
        found.snapshot.close()
    store.close()
    return sorted(took)[len(took) // 10]


def beside_an_open_transaction(room: Room) -> Dict[str, float]:
    """A transaction of another database stays open over 200,000 commits."""
    from tests.server import server

    where = room.database("postgres")
    ask, other = link_of(where), link_of(server().dsn("postgres"))
    commits = "DO $$ BEGIN FOR n IN 1..200000 LOOP UPDATE copies SET balance = balance + 1 WHERE id = n % 1000; COMMIT; END LOOP; END $$"
    ask("SET synchronous_commit = off")
    ask(commits)
    ask("VACUUM ANALYZE")
    without = look_ms(room.store(where))
    other("BEGIN")
    other("SELECT pg_current_xact_id()")
    ask(commits)
    ask("ANALYZE")
    beside = look_ms(room.store(where))
    other("COMMIT")
    return {"without, ms": without, "beside, ms": beside, "ratio": beside / without}


def twenty_tables(room: Room) -> Dict[str, float]:
    texts = [f"CREATE TABLE t{at} (id integer PRIMARY KEY, grp integer, v text)" for at in range(19)]
    texts += ["CREATE TABLE parts (id integer NOT NULL, grp integer) PARTITION BY RANGE (id)"]
    texts += [f"CREATE TABLE part{at} PARTITION OF parts FOR VALUES FROM ({100 * at}) TO ({100 * at + 100})" for at in range(50)]
    told = {**{f"t{at}": ["id", "grp"] for at in range(19)}, "parts": ["id", "grp"]}
    return {"ms": look_ms(room.store(room.database("postgres", texts=texts, told=told), told), 200)}


# ---- writers


def write(where: str, seconds: float, seed: int, is_hot: bool) -> int:
    """Returns how many commits were made, each of a row of each of four tables."""
    ask, rand, ended, count = link_of(where), random.Random(seed), time.monotonic() + seconds, 0
    while time.monotonic() < ended:
        row = 0 if is_hot else rand.randrange(ROWS)
        ask("BEGIN IMMEDIATE" if "=" not in where else "BEGIN")
        for table, column in (("items", "top"), ("bids", "price"), ("accounts", "balance"), ("copies", "balance")):
            ask(f"UPDATE {table} SET {column} = {column} + 1 WHERE id = %s", row)
        ask("COMMIT")
        count += 1
    return count


def commits_of(where: str, seconds: float, is_hot: bool, writers: int = 8) -> float:
    """Returns the commits a second of writing processes."""
    words = [sys.executable, os.path.abspath(__file__), "--write", where, str(seconds), str(int(is_hot))]
    running = [subprocess.Popen([*words, str(seed)], stdout=subprocess.PIPE, text=True) for seed in range(writers)]
    return sum(int(it.communicate()[0]) for it in running) / seconds


def with_notes(room: Room, kind: str) -> Dict[str, float]:
    wheres, counts = [room.database(kind, installs) for installs in (False, True)], ([], [])
    for _ in range(3):
        for where, found in zip(wheres, counts):
            found.append(commits_of(where, 4.0, False))
    plain, noted = map(statistics.median, counts)
    return {"commits/s without": plain, "with notes": noted, "ratio": noted / plain}


def beside_a_cache(room: Room, kind: str, is_hot: bool) -> Dict[str, float]:
    """Another process reads pages at `max_age=5.0`."""
    where = room.database(kind)
    if "=" in where:
        link_of(where)("ALTER TABLE txcache.notes SET (autovacuum_enabled = true)")
    counts: Dict[bool, List[float]] = {False: [], True: []}
    for _ in range(3):
        for is_read, found in counts.items():
            reading = subprocess.Popen([sys.executable, os.path.abspath(__file__), "--read", where, "7.0"]) if is_read else None
            time.sleep(1.5)
            found.append(commits_of(where, 4.0, is_hot))
            if reading:
                reading.wait()
    alone, beside = (statistics.median(it) for it in counts.values())
    return {"commits/s alone": alone, "beside a cache": beside, "ratio": beside / alone}


def read(where: str, seconds: float) -> None:
    """Reads pages, a thousand a second at most."""
    from txcache import SnapshotLost

    shop, rand, ended = Shop(Room.store(where)), random.Random(1), time.monotonic() + seconds
    while time.monotonic() < ended:
        try:
            with shop.cache.read(max_age=5.0):
                item = rand.randrange(ROWS - 1)
                shop.head(item), shop.bids(item), shop.balance(item), shop.balance(item + 1)
        except SnapshotLost:
            pass
        time.sleep(0.001)
    shop.cache.close()


BARS = [
    Bar("a page of four hits, of Redis' MGET", 0.35, False, lambda room: hits_of(room, "redis")),
    Bar("a page of four hits, of memcached's get_many", 0.6, False, lambda room: hits_of(room, "memcached")),
    Bar("a page of no call, of Redis' MGET of four", 0.07, False, lambda room: hits_of(room, "redis", is_empty=True)),
    Bar("a page of four hits, of the prototype's", 1.2, False, lambda room: hits_of(room, "prototype")),
    Bar("pages of hits beside a function of 100 ms, of those without", 0.8, True, beside_a_function),
    Bar("eight threads of hits, of one", 0.9, True, eight_threads),
    Bar("a first page of two functions by key, of its queries: PostgreSQL", 2.5, False, lambda room: first_time(room, "postgres")),
    Bar("a first page of two functions by key, of its queries: SQLite", 2.5, False, lambda room: first_time(room, "sqlite")),
    Bar("following a commit of six tags, of the prototype's", 0.8, False, following),
    Bar("following it after 50,000 tags, of after 1,000", 3.0, False, following_after_many),
    Bar("a look beside a transaction open over 200,000 commits, of one without", 1.5, False, beside_an_open_transaction),
    Bar("a look at 20 tables, one of 50 partitions, ms", 3.0, False, twenty_tables),
    Bar("commits of eight writers with notes, of those without: PostgreSQL", 0.65, True, lambda room: with_notes(room, "postgres")),
    Bar("commits beside a cache, of those without: PostgreSQL", 0.6, True, lambda room: beside_a_cache(room, "postgres", False)),
    Bar("commits of one hot row beside a cache, of those without: PostgreSQL", 0.6, True, lambda room: beside_a_cache(room, "postgres", True)),
    Bar("commits of eight writers with notes, of those without: SQLite", 0.65, True, lambda room: with_notes(room, "sqlite")),
    Bar("commits beside a cache, of those without: SQLite", 0.6, True, lambda room: beside_a_cache(room, "sqlite", False)),
]


def measured(bar: Bar, room: Room) -> str:
    """Returns the line of a bar."""
    limit = f"{'at least' if bar.is_least else 'at most'} {bar.limit:g}"
    try:
        found = bar.measure(room)
    except Skipped as error:
        return f"| {bar.name} | skipped: {error} | {limit} | |"
    value = list(found.values())[-1]
    stands = value >= bar.limit if bar.is_least else value <= bar.limit
    details = ", ".join(f"{name} {it:,.0f}" if it >= 100 else f"{name} {it:.3g}" for name, it in list(found.items())[:-1])
    return f"| {bar.name} | {value:.2f} | {limit} | {details} | {'stands' if stands else 'FAILED'} |"


def lines(room: Room, words: Sequence[str]) -> Iterator[str]:
    yield "| Bar | | | | |\n|---|---|---|---|---|"
    for bar in BARS:
        if not words or any(word in bar.name for word in words):
            yield measured(bar, room)


def main() -> int:
    parser = argparse.ArgumentParser(description=__doc__, formatter_class=argparse.RawDescriptionHelpFormatter)
    parser.add_argument("--library", default=os.environ.get("TXC_LIBRARY") or f"{ROOT}/bindings/out")
    parser.add_argument("--prototype", default="")
    parser.add_argument("--former", nargs=2, metavar=("PACKAGE", "LIBRARY"), default=())
    parser.add_argument("--hour", nargs=2, metavar=("SECONDS", "STORE"))
    parser.add_argument("--figures", action="store_true")
    parser.add_argument("--write", nargs=4, help=argparse.SUPPRESS)
    parser.add_argument("--read", nargs=2, help=argparse.SUPPRESS)
    parser.add_argument("words", nargs="*")
    given = parser.parse_args()
    os.environ["TXC_LIBRARY"] = os.path.abspath(given.library)
    sys.path[:0] = [PYTHON, os.path.dirname(os.path.abspath(__file__))]
    if given.write:
        where, seconds, is_hot, seed = given.write
        print(write(where, float(seconds), int(seed), is_hot == "1"))
        return 0
    if given.read:
        read(given.read[0], float(given.read[1]))
        return 0
    room, failed = Room(given.prototype, given.former), False
    try:
        if given.hour:
            from owndb_bench import hour

            seconds, kind = float(given.hour[0]), given.hour[1]
            wheres = [hour.prepared(room, it) for it in (("postgres", "sqlite") if kind == "both" else (kind,))]
            with ThreadPoolExecutor() as pool:
                for found in pool.map(lambda it: hour.measured(it, seconds), wheres):
                    print(json.dumps(found), flush=True)
                    failed |= not found["stands"]
            return int(failed)
        if given.figures:
            from owndb_bench import figures

            for line in figures.lines(room, given.words):
                print(line, flush=True)
            return 0
        for line in lines(room, given.words):
            print(line, flush=True)
            failed |= "FAILED" in line
        return int(failed)
    finally:
        room.close()


if __name__ == "__main__":
    sys.exit(main())
