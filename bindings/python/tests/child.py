"""A process with a cache of its own, for tests of faults.

usage: python3 -m tests.child WHERE SETTINGS    at bindings/python
  WHERE     a path, or a connection string
  SETTINGS  of TxCache, as JSON
For each line of its input, the most seconds that a page may be old, it prints as JSON what a page shows of both accounts of a pair, or the error's name.
"""

import json
import logging
import sys

from txcache import TxCache, TxCacheError

TOLD = {"accounts": ["id"]}


def main() -> None:
    where, settings = sys.argv[1], json.loads(sys.argv[2])
    logging.getLogger("txcache").setLevel(logging.CRITICAL)
    idle_timeout = settings.pop("idle_timeout", 30.0)
    if "=" in where:
        from txcache.postgres import PostgresStore

        store = PostgresStore(where, TOLD, idle_timeout=idle_timeout)
    else:
        from txcache.sqlite import SqliteStore

        store = SqliteStore(where, TOLD)
    cache = TxCache(store, **settings)

    @cache.cacheable
    def balance(db, number):
        return db.row("accounts", id=number)["balance"]

    for line in sys.stdin:
        try:
            with cache.read(max_age=float(line)):
                said = [balance(0), balance(1)]
        except TxCacheError as error:
            said = type(error).__name__
        print(json.dumps(said), flush=True)


if __name__ == "__main__":
    main()
