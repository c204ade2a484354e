"""Parts that the tests of cursors, SQLAlchemy and Django share: pages whose functions read by hand, beside writers."""

import os
import threading
from collections import Counter
from typing import Any, Callable, List

from txcache import SnapshotLost

from . import beside

LEAST = 4  # pages of each thread, on a machine that is busy
SECONDS = float(os.environ.get("TXC_SECONDS", 3))


def counts_beside_writers(where: str, cache: Any, show: Callable[[int], List[Any]], is_whole: Callable[[Any], bool], writers: int = 2, threads: int = 3) -> Counter:
    """Reads pages on threads beside writing processes, over a database that `beside.prepare` filled. Returns what all of them counted."""
    running = [beside.started("write", where, SECONDS, it) for it in range(writers)]
    each = [Counter() for _ in range(threads)]

    def read(number: int, counts: Counter) -> None:
        at = number
        while counts["pages"] < LEAST or any(it.poll() is None for it in running):
            at += 1
            try:
                with cache.read(max_age=(0.0, 0.1, 1.0, 5.0)[at % 4]):
                    found = show(at % beside.ITEMS)
            except SnapshotLost:  # the machine is very busy
                counts["lost"] += 1
                continue
            counts["pages"] += 1
            counts["torn"] += not is_whole(found)

    failed: List[BaseException] = []

    def guarded(*words: Any) -> None:
        try:
            read(*words)
        except BaseException as error:
            failed.append(error)

    reading = [threading.Thread(target=guarded, args=it) for it in enumerate(each)]
    for it in reading:
        it.start()
    for it in reading:
        it.join()
    for it in running:
        it.communicate()
        assert it.returncode == 0, it.args
    if failed:
        raise failed[0]
    stats = cache.stats()
    return Counter({**sum(each, Counter()), "hits": stats["hits"], "computed": stats["computed"], "cold": stats["cold"], "connections": stats["connections"]})
