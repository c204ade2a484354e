"""A page of two cached results that a plain cache would tear: the highest bid, and the list of bids, of one moment."""

from txcache.node import Key, Node, Reach, Tag

states = [{}]  # a database of one's own: the bids of each item, after each event


def bid(node, item, price):
    """A bid comes in: an event, of which the node is told."""
    states.append({**states[-1], item: [price, *states[-1].get(item, [])]})
    node.event(len(states) - 1, [Tag.group(2, item)])


def cached(node, function, item, lo, hi, compute):
    """The value of a call at a stamp from lo to hi, from the node or computed at hi; and where it holds."""
    hit = node.lookup(Key(function, item), lo, hi)
    if hit:
        return hit.reach, hit.value.decode()
    value = compute(states[hi][item])
    node.insert(Key(function, item), Reach(hi, hi), [Tag.group(2, item)], value.encode())
    return Reach(hi, hi), value


def page(node, item, oldest):
    """Both results at one stamp: the second is asked for where the first holds."""
    newest = len(states) - 1
    reach, highest = cached(node, 1, item, oldest, newest, lambda bids: str(bids[0]))
    _, bids = cached(node, 2, item, max(reach.lo, oldest), min(reach.known, newest), str)
    return f"highest {highest}, bids {bids}"


with Node(1024, 64) as node:
    bid(node, 7, 110)
    print(page(node, 7, 1))
    bid(node, 7, 130)
    # A page that may be of stamp 1: both are of it. One that may not: both are of stamp 2.
    old, new = page(node, 7, 1), page(node, 7, 2)
    print(old)
    print(new)
    assert (old, new) == ("highest 110, bids [110]", "highest 130, bids [130, 110]")
