"""Writers beside readers, threads and processes, over four tables that each commit changes together: what pages show of them is of one moment.

usage: python3 -m tests.beside write|read WHERE SECONDS SEED [THREADS]    at bindings/python
  WHERE  a path, or the connection string of a PostgreSQL database, that `prepare` filled
It prints what it counted, as JSON.
"""

import contextlib
import json
import random
import sqlite3
import subprocess
import sys
import threading
import time
from collections import Counter
from typing import Any, Callable, Dict, Iterator, List

from txcache import SnapshotLost, TxCache, _driver

TOLD = {"items": ["id"], "bids": ["item"], "accounts": ["id", "pair"], "copies": ["id"]}
ITEMS, BIDS = 6, 4  # items, and bids of each
LEAST = 12  # commits, and pages, of each on a machine that is busy
TABLES = ["CREATE TABLE items (id INTEGER PRIMARY KEY, top INTEGER)", "CREATE TABLE bids (id INTEGER PRIMARY KEY, item INTEGER, price INTEGER)",
          "CREATE INDEX bids_item ON bids (item)", "CREATE TABLE accounts (id INTEGER PRIMARY KEY, pair INTEGER, balance INTEGER)",
          "CREATE TABLE copies (id INTEGER PRIMARY KEY, top INTEGER, balance INTEGER)",
          "INSERT INTO items VALUES " + ", ".join(f"({it}, 0)" for it in range(ITEMS)),
          "INSERT INTO bids VALUES " + ", ".join(f"({it}, {it // BIDS}, 0)" for it in range(ITEMS * BIDS)),
          "INSERT INTO accounts VALUES " + ", ".join(f"({it}, {it // 2}, 100)" for it in range(2 * ITEMS)),
          "INSERT INTO copies VALUES " + ", ".join(f"({it}, 0, 100)" for it in range(ITEMS))]


def is_path(where: str) -> bool:
    return "=" not in where


def store_of(where: str) -> Any:
    if is_path(where):
        from txcache.sqlite import SqliteStore

        return SqliteStore(where, TOLD)
    from txcache.postgres import PostgresStore

    return PostgresStore(where, TOLD)


@contextlib.contextmanager
def asker(where: str) -> Iterator[Callable[[str], List[Any]]]:
    """Lends what runs a statement over a connection of its own, each a transaction unless BEGIN says otherwise."""
    link: Any = sqlite3.connect(where, isolation_level=None, timeout=60) if is_path(where) else _driver.Link(where)
    with contextlib.closing(link):
        yield (lambda text: link.execute(text).fetchall()) if is_path(where) else link.ask


def prepare(where: str) -> None:
    with asker(where) as ask:
        for text in TABLES:
            ask(text)
    store_of(where).install()


def commit(ask: Callable[[str], List[Any]], rand: random.Random, is_file: bool) -> None:
    """Changes a bid and its item's highest, moves an amount between two accounts, and copies both."""
    item, amount = rand.randrange(ITEMS), rand.randrange(-9, 10)
    ask("BEGIN IMMEDIATE" if is_file else "BEGIN")
    ask(f"UPDATE items SET top = top WHERE id = {item}")  # those who change one item take turns
    ask(f"UPDATE bids SET price = {rand.randrange(1000)} WHERE id = {item * BIDS + rand.randrange(BIDS)}")
    ask(f"UPDATE accounts SET balance = balance - {amount} WHERE id = {2 * item}")
    ask(f"UPDATE accounts SET balance = balance + {amount} WHERE id = {2 * item + 1}")
    ask(f"UPDATE items SET top = (SELECT max(price) FROM bids WHERE item = {item}) WHERE id = {item}")
    ask(f"UPDATE copies SET top = (SELECT top FROM items WHERE id = {item}), balance = (SELECT balance FROM accounts WHERE id = {2 * item}) WHERE id = {item}")
    ask("COMMIT" if rand.random() < 0.9 else "ROLLBACK")


def write(where: str, seconds: float, seed: int, pause: float = 0.01) -> Dict[str, int]:
    rand, ended, counts = random.Random(seed), time.monotonic() + seconds, Counter()
    with asker(where) as ask:
        while time.monotonic() < ended or counts["commits"] < LEAST:
            commit(ask, rand, is_path(where))
            counts["commits"] += 1
            time.sleep(rand.random() * 2 * pause)
    return counts


class Pages:
    """A cache with functions over the four tables."""

    def __init__(self, where: str, **settings: Any):
        self.cache = TxCache(store_of(where), **settings)

        @self.cache.cacheable
        def bids(db, item):
            return [row["price"] for row in db.rows("bids", item=item)]

        @self.cache.cacheable
        def highest(db, item):
            return max(bids(item))

        @self.cache.cacheable
        def top(db, item):
            return db.row("items", id=item)["top"]

        @self.cache.cacheable
        def balance(db, account):
            return db.row("accounts", id=account)["balance"]

        @self.cache.cacheable
        def pair(db, item):
            return sum(row["balance"] for row in db.rows("accounts", pair=item))

        @self.cache.cacheable
        def copy(db, item):
            row = db.row("copies", id=item)
            return row["top"], row["balance"]

        @self.cache.cacheable
        def total(db):
            return int(db.sql("SELECT sum(balance) AS it FROM accounts")[0]["it"])

        self.parts = {"highest": highest, "top": top, "balance": lambda item: balance(2 * item), "other": lambda item: balance(2 * item + 1), "pair": pair, "copy": copy,
                      "total": lambda item: total()}

    def shown(self, item: int, rand: random.Random) -> Dict[str, Any]:
        """Returns the parts of an item that a page shows, asked in any order."""
        names = list(self.parts)
        rand.shuffle(names)
        return {name: self.parts[name](item) for name in names}

    @staticmethod
    def is_whole(it: Dict[str, Any]) -> bool:
        """Returns True if the parts of a page are of one moment."""
        return it["copy"] == (it["top"], it["balance"]) and it["highest"] == it["top"] and it["balance"] + it["other"] == it["pair"] == 200 and it["total"] == 200 * ITEMS

    def read(self, seconds: float, seed: int, counts: Counter, pause: float = 0.0) -> None:
        rand, ended = random.Random(seed), time.monotonic() + seconds
        while time.monotonic() < ended or counts["pages"] < LEAST:
            try:
                with self.cache.read(max_age=rand.choice((0.0, 0.1, 1.0, 5.0))):
                    found = self.shown(rand.randrange(ITEMS), rand)
            except SnapshotLost:
                counts["lost"] += 1
                continue
            counts["pages"] += 1
            if not self.is_whole(found):
                counts["torn"] += 1
                print(f"torn: {found}", file=sys.stderr, flush=True)
            time.sleep(pause)


def read(where: str, seconds: float, seed: int, threads: int, **settings: Any) -> Dict[str, Any]:
    pages = Pages(where, **settings)
    each = [Counter() for _ in range(threads)]
    run = [threading.Thread(target=pages.read, args=(seconds, seed * 1000 + at, counts)) for at, counts in enumerate(each)]
    for it in run:
        it.start()
    for it in run:
        it.join()
    stats = pages.cache.stats()
    pages.cache.close()
    return {**sum(each, Counter()), **{name: stats[name] for name in ("hits", "computed", "cold")}}


def started(kind: str, where: str, seconds: float, seed: int, threads: int = 1) -> "subprocess.Popen[str]":
    return subprocess.Popen([sys.executable, "-m", "tests.beside", kind, where, str(seconds), str(seed), str(threads)], stdout=subprocess.PIPE, text=True)


def both(where: str, seconds: float, writers: int = 4, readers: int = 2, threads: int = 4) -> Counter:
    """Runs writing and reading processes side by side. Returns what all of them counted."""
    running = [started("write", where, seconds, it) for it in range(writers)] + [started("read", where, seconds, it, threads) for it in range(readers)]
    counts = Counter()
    for it in running:
        said, _ = it.communicate()
        if it.returncode:
            raise AssertionError(f"a process of {it.args} ended with status {it.returncode}")
        counts.update(json.loads(said))
    return counts


def main() -> None:
    kind, where, seconds, seed, threads = (sys.argv[1:] + ["1"])[:5]
    print(json.dumps(write(where, float(seconds), int(seed)) if kind == "write" else read(where, float(seconds), int(seed), int(threads))))


if __name__ == "__main__":
    main()
