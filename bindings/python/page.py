"""A page that would be torn, and is not: the highest bid, which the node has from before, and the list of bids, which it has not."""

from txcache.site import Query, Site, cacheable


@cacheable(0)
def highest(call, item):
    return str(max(int(row.body) for row in call.rows(Query.group(1, item)))).encode()


@cacheable(1)
def bids(call, item):
    return b",".join(row.body for row in call.rows(Query.group(1, item)))


@cacheable(2)
def summary(call, item):
    return b"highest " + call(highest, item) + b", bids " + call(bids, item)


with Site(None, 100, 64) as site:
    with site.write() as write:
        write.put(1, 1, 7, b"110")
    with site.read(now=1000, staleness=30_000) as page:
        page(highest, 7)
    with site.write() as write:
        write.put(1, 2, 7, b"130")
    shown = []
    for now in (2000, 40_000):
        with site.read(now=now, staleness=30_000) as page:
            shown.append(page(summary, 7).decode())
        print(shown[-1])
    assert shown == ["highest 110, bids 110", "highest 130, bids 110,130"], shown
