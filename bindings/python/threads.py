"""Eight threads with pages whose functions sleep, beside one that writes: no page is torn, and no thread waits for another's function."""

import threading
import time
from concurrent.futures import ThreadPoolExecutor

from txcache.site import Query, Site, cacheable

READERS, PAGES, ITEMS, SLEEP = 8, 100, 8, 0.005
counts = {"computed": 0, "asleep": 0, "most": 0}
counting = threading.Lock()


def work():
    """Stands for the other work of a function, for some milliseconds."""
    with counting:
        counts["asleep"] += 1
        counts["most"] = max(counts["most"], counts["asleep"])
    time.sleep(SLEEP)
    with counting:
        counts["asleep"] -= 1
        counts["computed"] += 1


@cacheable(0)
def highest(call, item):
    rows = call.rows(Query.group(1, item))
    work()
    return str(max(int(row.body) for row in rows)).encode()


@cacheable(1)
def bids(call, item):
    rows = call.rows(Query.group(1, item))
    work()
    return b",".join(row.body for row in rows)


@cacheable(2)
def summary(call, item):
    most, listed = call(highest, item), call(bids, item)
    work()
    return most + b" of " + listed


def is_torn(site, now, item):
    """A page shows the highest bid, and beside it the bids. It is torn if they are of two moments."""
    with site.read(now=now, staleness=50) as page:
        shown, alone = page(summary, item), page(highest, item)
    time.sleep(0.001)
    most, _, listed = shown.partition(b" of ")
    return most != alone or int(most) != max(map(int, listed.split(b",")))


def write(site, now, is_over):
    """Bids until the readers have ended. Returns how many were committed, and how many of them while some function slept."""
    amount, meanwhile = ITEMS, 0
    while not is_over.is_set():
        amount += 1
        with site.write() as it:
            it.put(1, amount % (16 * ITEMS), amount % ITEMS, str(amount).encode())
        meanwhile += counts["asleep"] > 0
        if amount % 64 == 0:
            site.keep(now(), 2000)
        time.sleep(0.001)
    return amount - ITEMS, meanwhile


with Site(None, 1000, 1000, renew_after=10) as site:
    begun, is_over = time.monotonic(), threading.Event()
    now = lambda: int((time.monotonic() - begun) * 1000)
    with site.write() as first:
        for item in range(ITEMS):
            first.put(1, item, item, str(item).encode())
    with ThreadPoolExecutor(READERS + 1) as threads:
        writer = threads.submit(write, site, now, is_over)
        readers = [threads.submit(lambda reader: sum(is_torn(site, now(), (reader + number) % ITEMS) for number in range(PAGES)), it) for it in range(READERS)]
        torn = sum(it.result() for it in readers)
        is_over.set()
        commits, meanwhile = writer.result()
    print(f"{READERS * PAGES} pages, {torn} torn; {counts['computed']} functions slept, up to {counts['most']} at once")
    print(f"{commits} commits, {meanwhile} of them while functions slept")
    assert not torn and counts["most"] > 1 and meanwhile and not site.open_transactions()
