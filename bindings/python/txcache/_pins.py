"""The pins at which pages may begin."""

from typing import Any, NamedTuple, Tuple


class Pin(NamedTuple):
    stamp: int
    moment: float
    number: int
    mark: Any


class State(NamedTuple):
    """The pins of pages, the oldest first; the number in keys, and the first stamp of what is cached under it. It is replaced as a whole, so a page that
    begins waits for no look."""

    pins: Tuple[Pin, ...] = ()
    era: int = 0
    first: int = 0
