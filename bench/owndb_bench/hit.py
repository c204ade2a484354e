"""Where the time of a page of four hits goes: its parts, each by itself, by the extension of C and by ctypes alone.

usage: python3 bench/owndb_bench/hit.py [--library FOLDER]
It prints a table in markdown, in microseconds: the parts are asked in turn, and of each the least block counts.
"""

import argparse
import json
import os
import pickle
import subprocess
import sys
from typing import Any, Callable, Dict

BENCH = os.path.dirname(os.path.dirname(os.path.abspath(__file__)))
sys.path[:0] = [BENCH, f"{os.path.dirname(BENCH)}/bindings/python"]


def parts() -> Dict[str, float]:
    """Returns what each part takes in this process."""
    import owndb

    room = owndb.Room("")
    shop = owndb.Shop(room.store(room.database("sqlite")), refresh=1000.0)
    for item in range(52):
        shop.four(item)
    cache, asked = shop.cache, [(item,) for item in range(50)]
    versions, dumped = cache._versions, pickle.dumps({"id": 7, "seller": 7, "title": "item 7", "top": 100}, pickle.HIGHEST_PROTOCOL)

    def no_call(item: int) -> None:
        with cache.read(max_age=60.0):
            pass

    def in_page(way: Callable[[Any, int], Any]) -> Callable[[int], None]:
        """Four of something in a page."""

        def made(item: int) -> None:
            with cache.read(max_age=60.0) as page:
                way(page, item), way(page, item), way(page, item), way(page, item)

        return made

    def by_key(page: Any, item: int) -> Any:
        return versions.call(page._txn, shop.head.key(page._era, cache._growth.forms, asked[item], {}))

    def by_arguments(page: Any, item: int) -> Any:
        return versions.hit(page._txn, shop.head.known[3], asked[item])

    ways = {"a page of four hits": shop.four, "a page of no call": no_call, "begin and commit": lambda item: versions.commit(versions.begin(10**12, 10**12, 0)),
            "the library's answer": in_page(by_key if versions.hit is None else by_arguments), "the value, from pickle": lambda item: pickle.loads(dumped),
            "the whole of a hit": in_page(lambda page, item: shop.head(item))}
    took = owndb.in_turn(ways, blocks=240, pages=50)  # short blocks, so that some are not interrupted on a busy machine
    cache.close()
    room.close()
    for name in ("the library's answer", "the whole of a hit"):
        took[name] = (took[name] - took["a page of no call"]) / 4
    return took


def main() -> None:
    words = argparse.ArgumentParser(usage=__doc__.partition("usage: ")[2].partition("\n")[0])
    words.add_argument("--library")
    words.add_argument("--here", action="store_true", help=argparse.SUPPRESS)
    given = words.parse_args()
    if given.here:
        print(json.dumps(parts()))
        return
    if given.library:
        os.environ["TXC_LIBRARY"] = os.path.abspath(given.library)
    ran = {name: subprocess.run([sys.executable, __file__, "--here"], env={**os.environ, "TXC_FAST": fast}, stdout=subprocess.PIPE, check=True).stdout
           for name, fast in (("by the extension", "1"), ("by ctypes", "0"))}
    took = {name: json.loads(it) for name, it in ran.items()}
    print(f"| µs | {' | '.join(took)} |\n|---{'|---' * len(took)}|")
    for part in took["by ctypes"]:
        print(f"| {part} | {' | '.join(f'{it[part]:.2f}' for it in took.values())} |")
    print(f"\nload {os.getloadavg()[0]:.0f}")


if __name__ == "__main__":
    main()
