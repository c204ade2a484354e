"""The time and the memory that following the database takes, by how many tags have changed: of this package, and of a former one in turn with it.

As a program it is one of them: `following.py PACKAGE FOLDER`, with TXC_LIBRARY in its environment, reads commands, a line each, and prints a line of JSON.
"""

import contextlib
import json
import os
import random
import subprocess
import sys
import time
from typing import TYPE_CHECKING, Any, Dict, Iterator, List, Tuple

if TYPE_CHECKING:
    from owndb import Room

SIZES = 1000, 65_536, 100_000, 1_000_000
BLOCKS, COMMITS, STEPS, TAGS, KEPT = 10, 30, 7, 500, 16
PLACES = 1 << 24  # at most
HEAD = ("| Tags that have changed | Package | A commit of six tags | Its versions alone | A step of 500 tags | The longest step | Memory | A tag |\n"
        "|---|---|---|---|---|---|---|---|")


class Side:
    """A process with one of the packages. `words` are a command and its arguments."""

    def __init__(self, package: str, library: str, folder: str):
        os.makedirs(folder)
        words = [sys.executable, os.path.abspath(__file__), package, folder]
        self._process = subprocess.Popen(words, stdin=subprocess.PIPE, stdout=subprocess.PIPE, text=True, env={**os.environ, "TXC_LIBRARY": library})

    def ask(self, *words: Any) -> Any:
        self._process.stdin.write(" ".join(map(str, words)) + "\n")
        self._process.stdin.flush()
        return json.loads(self._process.stdout.readline())

    def close(self) -> None:
        self._process.stdin.close()
        self._process.wait()


def lines(room: "Room", scale: float) -> Iterator[str]:
    """Yields the table: a row for each size and package."""
    root = os.path.dirname(os.path.dirname(os.path.dirname(os.path.abspath(__file__))))
    packages = {"this": (f"{root}/bindings/python", os.environ["TXC_LIBRARY"])}
    if room.former:
        packages["former"] = tuple(map(os.path.abspath, room.former))
    yield HEAD
    for size in SIZES:
        with contextlib.ExitStack() as stack:
            sides = {}
            for name, words in packages.items():
                sides[name] = Side(*words, f"{room.folder}/following-{name}-{size}")
                stack.callback(sides[name].close)
            yield from rows(size, sides, max(2, int(BLOCKS * scale)))


def rows(size: int, sides: Dict[str, Side], blocks: int) -> List[str]:
    memory = {name: side.ask("fill", size) for name, side in sides.items()}
    took: Dict[str, List[Tuple[float, float]]] = {name: [] for name in sides}
    steps: Dict[str, List[float]] = {name: [] for name in sides}
    for block in range(blocks):
        for name in list(sides)[::1 if block % 2 else -1]:
            took[name] += sides[name].ask("follow", COMMITS)
            steps[name] += sides[name].ask("step", STEPS, size)
    found = []
    for name in sides:
        look, versions = (sorted(it)[len(took[name]) // 10] for it in zip(*took[name]))  # a tenth of them took less
        found.append(f"| {size:,} | {name} | {look:.0f} µs | {versions:.0f} µs | {sorted(steps[name])[len(steps[name]) // 2]:.1f} ms | {max(steps[name]):.1f} ms "
                     f"| {memory[name] / 1e6:.0f} MB | {memory[name] / size:,.0f} B |")
    return found


# ---- one of them


class Followed:
    """A cache over a SQLite file, and the tags that have changed."""

    def __init__(self, folder: str):
        from owndb import Room, Shop, link_of

        room = Room("")
        room.folder = folder
        where = room.database("sqlite")
        self._shop, self._ask, self._rand, self._step = Shop(room.store(where), thread=False, refresh=1000.0), link_of(where), random.Random(1), 0
        self._shop.four(0)
        self._cache = self._shop.cache
        self._versions = self._cache._versions
        self._places = getattr(self._cache._places, "changed", None) or self._cache._places.all_of
        self._take, self._took = self._cache._take, 0.0
        self._cache._take = self._timed_take

    def fill(self, size: int) -> int:
        """Has so many tags change, each place once. Returns the bytes of memory that this took."""
        is_new = bytearray(b"1") * PLACES
        before = resident()
        for at in range(0, size, TAGS):
            places = [it for it in self._places(tag(number) for number in range(at, min(at + TAGS, size))) if is_new[it]]
            for it in places:
                is_new[it] = False
            self._versions.touch(places, 1)
        self._pin()
        return resident() - before

    def _timed_take(self, step: Any) -> None:
        self._took = timed(lambda: self._take(step)) * 1e6

    def follow(self, count: int) -> List[Tuple[float, float]]:
        """Returns the microseconds of processor time of looks, each after a commit of six tags; and those of what the table of versions does for it."""
        took = []
        for at in range(count):
            self._ask("BEGIN")
            for text in ("items SET top = top + 1", "bids SET price = price + 1", "accounts SET balance = balance + 1"):
                self._ask(f"UPDATE {text} WHERE id = %s", at)
            self._ask("COMMIT")
            took.append((timed(self._cache._look) * 1e6, self._took))
        return took

    def step(self, count: int, size: int) -> List[float]:
        """Returns the milliseconds of processor time of steps of tags at random, each with its pin."""
        return [timed(lambda tags=[tag(it) for it in self._rand.sample(range(size), min(TAGS, size))]: self._change(tags)) * 1e3 for _ in range(count)]

    def _change(self, tags: List[str]) -> None:
        self._step += 1
        self._versions.touch(self._places(tags), self._step)
        self._pin()
        if self._step % 2:
            self._versions.keep(max(0, self._pinned - KEPT))

    def _pin(self) -> None:
        self._pinned = max(self._step, int(time.monotonic() * 1e6))
        self._versions.pin(self._pinned)


def tag(number: int) -> str:
    return f"copies:id={number}"


def timed(call: Any) -> float:
    begun = time.process_time()
    call()
    return time.process_time() - begun


def resident() -> int:
    """Returns the bytes of memory that this process has."""
    with open("/proc/self/statm", encoding="ascii") as file:
        return int(file.read().split()[1]) * os.sysconf("SC_PAGESIZE")


def main() -> None:
    sys.path[:0] = [sys.argv[1], os.path.dirname(os.path.dirname(os.path.abspath(__file__)))]
    followed = Followed(sys.argv[2])
    for line in sys.stdin:
        name, *numbers = line.split()
        print(json.dumps(getattr(followed, name)(*map(int, numbers))), flush=True)


if __name__ == "__main__":
    main()
