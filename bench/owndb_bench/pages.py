"""The time of a page: of hits, for the first time, and by queries; beside Redis, memcached and a dictionary; and pages a second of threads and processes."""

import contextlib
import os
import pickle
import statistics
import subprocess
import sys
import threading
import time
from typing import Any, Callable, Dict, Iterator, List, Tuple

from owndb import ROWS, TOLD, Room, Skipped, in_turn, link_of

HEAVY = ("SELECT i.id, i.title, max(b.price) AS top FROM items i JOIN bids b ON b.item = i.id WHERE i.seller = %s GROUP BY i.id, i.title ORDER BY top DESC, i.id")
SELLERS = 50
Part = Tuple[str, int]
QUERIES = {"head": "SELECT * FROM items WHERE id = %s", "bids": "SELECT * FROM bids WHERE item = %s ORDER BY id", "balance": "SELECT balance FROM accounts WHERE id = %s",
           "heavy": HEAVY}
KINDS: Dict[str, Callable[[int], List[Part]]] = {
    "2 parts": lambda it: [("head", it), ("bids", it)], "4 parts": lambda it: [("head", it), ("bids", it), ("balance", it), ("balance", it + 1)],
    "a heavy part": lambda it: [("heavy", it % SELLERS)]}


class Shop:
    """A cache over the tables of the bars, with one heavy function."""

    def __init__(self, store: Any, **settings: Any):
        from txcache import TxCache

        self.cache = cache = TxCache(store, **settings)

        @cache.cacheable
        def head(db, item):
            return db.row("items", id=item)

        @cache.cacheable
        def bids(db, item):
            return [row["price"] for row in db.rows("bids", item=item)]

        @cache.cacheable
        def balance(db, account):
            return db.row("accounts", id=account)["balance"]

        @cache.cacheable
        def heavy(db, seller):
            return db.sql(HEAVY, (seller,))

        self.functions = {"head": head, "bids": bids, "balance": balance, "heavy": heavy}

    def page(self, parts: List[Part], max_age: float = 60.0) -> List[Any]:
        with self.cache.read(max_age):
            return [self.functions[name](number) for name, number in parts]

    def filled(self, parts: List[Part]) -> List[Any]:
        """Makes a page, again where it lost its snapshot, as on a machine that has much else to do."""
        from txcache import SnapshotLost

        while True:
            with contextlib.suppress(SnapshotLost):
                return self.page(parts)


class Plain:
    """A dictionary with a time beside each value."""

    def __init__(self) -> None:
        self.known: Dict[Part, Tuple[float, bytes]] = {}

    def set(self, part: Part, value: Any) -> None:
        self.known[part] = time.monotonic() + 1000.0, pickle.dumps(value, pickle.HIGHEST_PROTOCOL)

    def page(self, parts: List[Part]) -> List[Any]:
        now = time.monotonic()
        return [pickle.loads(data) for until, data in map(self.known.__getitem__, parts) if until > now]


def ways_of(room: Room, where: str, shop: Shop, parts_of: Callable[[int], List[Part]]) -> Dict[str, Callable[[int], Any]]:
    """Returns the ways to make a page, all but the first ones filled from the shop."""
    ask, plain = link_of(where), Plain()

    def queries(item: int) -> None:
        ask("BEGIN ISOLATION LEVEL REPEATABLE READ READ ONLY")
        for name, number in parts_of(item):
            ask(QUERIES[name], number)
        ask("COMMIT")

    def each(item: int) -> None:
        for name, number in parts_of(item):
            ask(QUERIES[name], number)

    filled = {part: value for item in range(52) for part, value in zip(parts_of(item), shop.filled(parts_of(item)))}
    for part, value in filled.items():
        plain.set(part, value)
    ways: Dict[str, Callable[[int], Any]] = {"TxCache, hits": lambda it: shop.page(parts_of(it)), "a dictionary": lambda it: plain.page(parts_of(it)),
                                             "queries, one snapshot": queries, "queries, each its own": each}
    named = {part: f"{part[0]}:{part[1]}" for part in filled}
    for name, opened in (("Redis, MGET", room.redis), ("memcached, `get_many`", room.memcached)):
        try:
            far = opened()
        except Skipped as error:
            print(f"skipped: {name}: {error}", file=sys.stderr)
            continue
        for part, value in filled.items():
            far.set(named[part], pickle.dumps(value, pickle.HIGHEST_PROTOCOL))
        if "Redis" in name:
            ways[name] = lambda it, far=far: [pickle.loads(data) for data in far.mget([named[part] for part in parts_of(it)])]
        else:
            ways[name] = lambda it, far=far: [pickle.loads(data) for data in far.get_many([named[part] for part in parts_of(it)]).values()]
    return ways


def first_us(room: Room, where: str, parts_of: Callable[[int], List[Part]], scale: float) -> float:
    """Returns the microseconds of pages that nobody has asked for: the median."""
    shop, took = Shop(room.store(where, TOLD), refresh=1000.0), []
    shop.filled([("balance", 0)])
    for item in range(SELLERS if parts_of(0)[0][0] == "heavy" else max(50, int(ROWS // 4 * scale))):
        begun = time.perf_counter()
        shop.filled(parts_of(3 * item if parts_of(0)[0][0] != "heavy" else item))
        took.append((time.perf_counter() - begun) * 1e6)
    shop.cache.close()
    return statistics.median(took[5:])


def page_lines(room: Room, scale: float) -> Iterator[str]:
    where, columns = room.database("postgres"), {}
    blocks, pages = max(3, int(30 * scale)), max(10, int(100 * scale))
    for kind, parts_of in KINDS.items():
        shop = Shop(room.store(where, TOLD), refresh=1000.0)
        took = in_turn(ways_of(room, where, shop, parts_of), blocks=blocks, pages=pages)
        looks = in_turn({"TxCache, hits, a look each": lambda it: shop.page(parts_of(it), 0.0)}, blocks=max(2, blocks // 5), pages=20)
        shop.cache.close()
        columns[kind] = {**took, **looks, "TxCache, for the first time": first_us(room, where, parts_of, scale)}
    yield "Microseconds a page, asked in turn, the least block of each; nobody writes; PostgreSQL.\n"
    yield f"| | {' | '.join(columns)} |\n|---|{'---|' * len(columns)}"
    names = ["TxCache, hits", "TxCache, hits, a look each", "TxCache, for the first time", "queries, one snapshot", "queries, each its own", "Redis, MGET", "memcached, `get_many`", "a dictionary"]
    for name in names:
        yield f"| {name} | {' | '.join(f'{it[name]:.0f}' if name in it else 'skipped' for it in columns.values())} |"


def hits_in(where: str, seconds: float, threads: int) -> float:
    """Returns pages of four hits a second, of some threads of this process."""
    shop, parts_of = Shop(Room.store(where, TOLD)), KINDS["4 parts"]
    for item in range(50):
        shop.filled(parts_of(item))
    counts, ended = [0] * threads, time.perf_counter() + seconds

    def run(at: int) -> None:
        while time.perf_counter() < ended:
            for item in range(50):
                shop.filled(parts_of(item))
            counts[at] += 50

    running = [threading.Thread(target=run, args=(at,)) for at in range(threads)]
    for it in running:
        it.start()
    for it in running:
        it.join()
    shop.cache.close()
    return sum(counts) / seconds


def thread_lines(room: Room, scale: float) -> Iterator[str]:
    where, seconds = room.database("postgres"), 4.0 * scale
    env = {**os.environ, "PYTHONPATH": os.pathsep.join(sys.path[:2])}
    yield "Pages of four hits a second, nobody writes.\n"
    yield "| Pages of four hits | Pages a second |\n|---|---|"
    names = {(1, 1): "one process, one thread", (1, 8): "one process, eight threads", (4, 1): "four processes, one thread each", (4, 8): "four processes, eight threads each"}
    for (processes, threads), name in names.items():
        running = [subprocess.Popen([sys.executable, "-m", "owndb_bench.pages", where, str(seconds), str(threads)], env=env, stdout=subprocess.PIPE, text=True) for _ in range(processes)]
        yield f"| {name} | {sum(float(it.communicate()[0]) for it in running):,.0f} |"


if __name__ == "__main__":
    print(hits_in(sys.argv[1], float(sys.argv[2]), int(sys.argv[3])))
