"""The prototype of a cache beside a service's own database, of a trial before the package: its code as it is, over today's library."""

import ctypes as c
import os
import sys
import types
from typing import Any, List

from txcache import _calls
from txcache.node import _Handle, _Key

SAID = {number: f"the library returned {number}" for number in range(20)}


def core_of(folder: str) -> Any:
    """Returns its module, with a mirror that makes today's calls."""
    if not os.path.isdir(f"{folder}/txcache_db"):
        from owndb import Skipped

        raise Skipped("there is no prototype: --prototype FOLDER")
    for name, words in (("txcache_node", {"_TXC": None, "_Handle": _Handle, "_Key": _Key}),
                        ("txcache_site", {"_Kept": _calls.Kept, "_Query": _calls.Query, "_Receipt": _calls.Receipt, "_Row": _calls.Row, "_SAID": SAID})):
        sys.modules.setdefault(name, types.ModuleType(name)).__dict__.update(words)
    sys.path.insert(0, folder)
    from txcache_db import core

    core.Mirror = mirror_of(core)
    return core


def mirror_of(core: Any) -> type:
    txc = _calls.declared()

    class Mirror(core.Mirror):
        """A transaction has a number today; else each call is the prototype's."""

        def _ask(self, name: str, *words: Any) -> int:
            if name == "site_open":
                return txc.site_open(self._site, _calls.Settings(c.sizeof(_calls.Settings), *words))
            if name in ("begin", "begin_write"):
                number = c.c_uint64()
                said = getattr(txc, name)(self._site, *words, number)
                self._txn = number.value
                return said
            if name in ("site_close", "keep"):
                return getattr(txc, name)(self._site, *words)
            return getattr(txc, name)(self._site, self._txn, *words)

        def call(self, key: Any) -> Any:
            number = txc.call(self._site, self._txn, key, self._room, 1024, self._size)
            return number, self._room.raw[:self._size.value] if number in (core.DONE, core.ANSWERED) else b""

        def version(self, place: Any) -> int:
            number = txc.query_rows(self._site, self._txn, _calls.Query(place[0], 1, place[1], 0), self._size)
            if number != core.ANSWERED:
                raise core.Lost(f"query_rows: {number}")
            if not self._size.value:
                return 0
            self._do("row_at", 0, self._row, self._body, core.BODY, self._size)
            return int(self._body.raw[:self._size.value])

    return Mirror


class Shop:
    """Its cache with the functions that the package's has."""

    def __init__(self, core: Any, store: Any):
        self.cache = core.TxCache(store, refresh=1000.0)

        @self.cache.cacheable
        def head(db, item):
            return dict(db.by_id("items", item))

        @self.cache.cacheable
        def bids(db, item):
            return [row["price"] for row in db.by_group("bids", "item", item, "ORDER BY id")]

        @self.cache.cacheable
        def balance(db, account):
            return db.by_id("accounts", account)["balance"]

        self.head, self.bids, self.balance = head, bids, balance

    def four(self, item: int) -> List[Any]:
        with self.cache.read(max_age=60.0):
            return [self.head(item), self.bids(item), self.balance(item), self.balance(item + 1)]

    def look(self) -> None:
        self.cache._refresh()


def shop(folder: str, where: str) -> Shop:
    core = core_of(folder)
    from owndb import TOLD
    from txcache_db.sqlite import SqliteStore

    store = SqliteStore(where, TOLD)
    store.install()
    return Shop(core, store)
