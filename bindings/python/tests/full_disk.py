"""A SQLite file on a disk that becomes full: writers fail, and pages go on.

usage: python3 -m tests.full_disk FOLDER    at bindings/python
  FOLDER  of a file system of its own, of some megabytes. Where there is none, an empty folder and `--pages`: then SQLite itself says that the disk is full
It prints `passed`.
"""

import os
import sqlite3
import sys

from txcache import TxCache
from txcache.sqlite import SqliteStore


def fill(folder: str) -> None:
    """Writes until there is no room."""
    with open(f"{folder}/filler", "wb", buffering=0) as file:
        for size in (1 << 16, 1 << 10, 1):
            try:
                while True:
                    file.write(b"x" * size)
            except OSError:
                pass


def write(link: sqlite3.Connection, balance: int, more: int = 0) -> bool:
    """Commits a change, with a long row beside it. Returns False if there was no room."""
    try:
        link.execute("BEGIN IMMEDIATE")
        link.execute("UPDATE accounts SET balance = ? WHERE id = 0", (balance,))
        link.execute("INSERT INTO long (it) VALUES (zeroblob(?))", (more,))
        link.execute("COMMIT")
        return True
    except sqlite3.OperationalError as error:
        assert "disk is full" in str(error) or "disk I/O" in str(error), error
        if link.in_transaction:
            link.execute("ROLLBACK")
        return False


def main() -> None:
    folder, has_limit = sys.argv[1], "--pages" in sys.argv
    link = sqlite3.connect(f"{folder}/a.db", isolation_level=None)
    for text in ("CREATE TABLE accounts (id INTEGER PRIMARY KEY, balance INTEGER)", "CREATE TABLE long (it BLOB)", "INSERT INTO accounts VALUES (0, 100), (1, 100)"):
        link.execute(text)
    store = SqliteStore(f"{folder}/a.db", {"accounts": ["id"]})
    store.install()
    cache = TxCache(store, thread=False, refresh=1e-6)

    @cache.cacheable
    def balance(db, number):
        return db.row("accounts", id=number)["balance"]

    def shown(max_age: float) -> int:
        with cache.read(max_age=max_age):
            return balance(0)

    assert shown(0.0) == 100
    assert write(link, 5) and shown(0.0) == 5
    if has_limit:
        (pages,), = link.execute("PRAGMA page_count")
        link.execute(f"PRAGMA max_page_count = {pages + 2}")
    else:
        fill(folder)
    for n in range(20):
        assert not write(link, 1000 + n, 1 << 18), "there was room"
        assert shown(0.0) == shown(60.0) == 5
    store.air()
    assert not has_limit or store.purge(0.0) == 0
    cache.close()
    assert shown(0.0) == 5, "a cache that is opened while the disk is full"
    if has_limit:
        link.execute("PRAGMA max_page_count = 1000000")
    else:
        os.remove(f"{folder}/filler")
    assert write(link, 7, 1 << 18) and shown(0.0) == 7
    print("passed")


if __name__ == "__main__":
    main()
