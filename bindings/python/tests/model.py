"""A plain model of the site that `txcache._versions.Versions` asks of the library: many transactions, each at its pins, each answer with the stamps on
which it holds. It is written to be read, and is neither fast nor proved."""

import threading
from typing import Dict, List, NamedTuple, Optional, Set, Tuple

EVER = 2**32


class Pin(NamedTuple):
    stamp: int
    moment: int


class Span:
    """The stamps on which a result holds, both included, and the places that it depends on."""

    def __init__(self, lo: int = 0, hi: int = EVER):
        self.lo, self.hi = lo, hi

    def meet(self, other: "Span") -> None:
        self.lo, self.hi = max(self.lo, other.lo), min(self.hi, other.hi)


class Frame(Span):
    def __init__(self, level: int, digest: bytes):
        super().__init__()
        self.level, self.digest, self.places = level, digest, set()


class Entry(Span):
    def __init__(self, data: bytes, lo: int, hi: int, places: Set[int]):
        super().__init__(lo, hi)
        self.data, self.places, self.used = data, places, 0


class Txn:
    def __init__(self, members: List[Pin]):
        self.members, self.frames, self.answers, self.asks = members, [], 0, 0  # asks: of the outermost call

    def narrow(self, span: Span) -> None:
        self.members = [it for it in self.members if span.lo <= it.stamp <= span.hi]
        assert self.members, "a transaction lost all its members"
        if self.frames:
            self.frames[-1].meet(span)


class Key(NamedTuple):
    level: int
    digest: bytes
    args: Optional[Tuple] = None


class Totals(NamedTuple):
    entries: int
    bytes: int
    trimmed: int


class Versions:
    """As `txcache._versions.Versions`."""

    longest, hit = 1 << 20, None

    def __init__(self, capacity: int):
        self.capacity, self.newest, self.pins, self.given, self.uses, self.trimmed = capacity, 0, [], 0, 0, 0
        self.rows: Dict[int, List[Tuple[int, int]]] = {}
        self.entries: Dict[bytes, List[Entry]] = {}
        self.txns: Dict[int, Txn] = {}
        self.lock = threading.RLock()
        self.is_closed = False

    def close(self) -> None:
        self.is_closed = True

    def touch(self, places, version) -> None:
        for at in range(0, len(places), 240):
            with self.lock:
                self.newest += 1
                for place in places[at:at + 240]:
                    self.rows.setdefault(place, []).append((self.newest, version))
                touched = set(places[at:at + 240])
                for entries in self.entries.values():
                    for it in entries:
                        if it.hi == EVER and it.places & touched:
                            it.hi = self.newest - 1

    def pin(self, moment: int) -> int:
        with self.lock:
            self.newest += 1
            self.pins.append(Pin(self.newest, moment))
            return self.newest

    def keep(self, before: int) -> int:
        with self.lock:
            used = {pin for txn in self.txns.values() for pin in txn.members}
            self.pins = [it for it in self.pins if it.moment >= before or it in used]
            horizon = self.pins[0].stamp if self.pins else self.newest
            self.entries = {digest: left for digest, entries in self.entries.items() if (left := [it for it in entries if it.hi >= horizon])}
            return horizon

    def is_read(self) -> bool:
        return bool(self.txns)

    def _each(self) -> List[Entry]:
        """Returns the entries, those that were used last at the end."""
        return sorted((it for entries in self.entries.values() for it in entries), key=lambda it: it.used)

    def totals(self) -> Totals:
        with self.lock:
            return Totals(len(self._each()), sum(len(it.data) for it in self._each()), self.trimmed)

    def trim(self, most: int) -> None:
        with self.lock:
            left = self._each()
            while sum(len(it.data) for it in left) > most:
                gone = left.pop(0)
                self.trimmed += 1
                self.entries = {digest: [it for it in entries if it is not gone] for digest, entries in self.entries.items()}

    key = Key

    def begin(self, now: int, staleness: int, at_least: int) -> Optional[int]:
        with self.lock:
            members = [it for it in reversed(self.pins) if it.moment >= now - staleness and it.stamp >= at_least]
            if not members:
                return None
            self.given += 1
            self.txns[self.given] = Txn(members)
            return self.given

    def member(self, txn: int, at: int) -> Optional[Pin]:
        with self.lock:
            members = self.txns[txn].members
            return members[at] if at < len(members) else None

    def read_stamp(self, txn: int) -> Optional[int]:
        with self.lock:
            members = self.txns[txn].members
            return members[0].stamp if members else None

    def call(self, txn: int, key: Key) -> Optional[bytes]:
        level, digest, _ = key
        with self.lock:
            it = self.txns[txn]
            self._ask(it)
            assert not it.frames or level < it.frames[-1].level, "a function calls one that is not below it"
            found = next((entry for entry in self.entries.get(digest, ()) if any(entry.lo <= pin.stamp <= entry.hi for pin in it.members)), None)
            if found is None:
                it.asks = it.asks if it.frames else 0
                it.frames.append(Frame(level, digest))
                return None
            it.narrow(found)
            self._use(found)
            if it.frames:
                it.frames[-1].places |= found.places
            else:
                it.answers += 1
            return found.data

    def _use(self, entry: Entry) -> None:
        self.uses += 1
        entry.used = self.uses

    @staticmethod
    def _ask(it: Txn) -> None:
        if it.frames:
            it.asks += 1
            assert it.asks <= 4096, "the functions of a call ask too much"

    def ask(self, txn: int, place: int) -> None:
        with self.lock:
            it = self.txns[txn]
            self._ask(it)
            at, stamp = it.members[0].stamp, 0
            hi = EVER
            for changed, _ in self.rows.get(place, ()):
                if changed <= at:
                    stamp = changed
                else:
                    hi = min(hi, changed - 1)
            it.narrow(Span(stamp, hi))
            it.frames[-1].places.add(place)

    def finish(self, txn: int, data: bytes) -> None:
        with self.lock:
            it = self.txns[txn]
            self._ask(it)
            frame = it.frames.pop()
            hi = min([frame.hi] + [changed - 1 for place in frame.places for changed, _ in self.rows.get(place, ()) if changed > it.members[0].stamp])
            self.entries.setdefault(frame.digest, []).append(Entry(data, frame.lo, hi, frame.places))
            self._use(self.entries[frame.digest][-1])
            it.narrow(Span(frame.lo, hi))
            if it.frames:
                it.frames[-1].places |= frame.places
            else:
                it.answers += 1

    def give_up(self, txn: int) -> None:
        with self.lock:
            self.txns[txn].frames.clear()

    def commit(self, txn: int) -> Tuple[int, Optional[Pin]]:
        with self.lock:
            it = self.txns.pop(txn)
            assert not it.frames, "a call is open"
            return it.answers, it.members[0] if it.answers else None

    def abort(self, txn: int) -> None:
        with self.lock:
            self.txns.pop(txn, None)
