"""Cacheable functions, and the keys of their calls."""

import functools
import inspect
from dataclasses import dataclass
from typing import TYPE_CHECKING, Any, Callable, Dict, Optional, Sequence, Tuple

from . import _keys, _values
from ._forms import Forms
from ._keys import Arguments
from ._page import PAGE

if TYPE_CHECKING:
    from .cache import TxCache

MAX_KNOWN = 65_536  # keys of calls that a function remembers, so that a call that was made before is not encoded again


@dataclass(frozen=True)
class CacheInfo:
    hits: int
    computed: int


class Function:
    """A cacheable function. Within a page it is called without its first parameter, `db`."""

    def __init__(self, cache: "TxCache", body: Callable[..., Any], key: Optional[Callable[..., Any]], codec: Optional[_values.Codec]):
        self.cache, self.body, self.codec, self.name = cache, body, codec, f"{body.__module__}.{body.__qualname__}"
        if inspect.iscoroutinefunction(body) or inspect.isgeneratorfunction(body) or inspect.isasyncgenfunction(body):
            raise TypeError(f"{self.name} is a coroutine or generator function: a cacheable function returns its value")
        self.arguments = Arguments(self.name, body, key)
        self.hits = self.computed = 0
        self.is_too_long = False  # True once it gave a value that is not cached
        # keys by arguments that stand for themselves; of an era and forms, and the beginning of their texts
        self.known: Tuple[Any, Any, bytes, Dict[Any, Any]] = (None, None, b"", {})
        functools.update_wrapper(self, body)

    def __repr__(self) -> str:
        return self.name

    def __call__(self, *args: Any, **named: Any) -> Any:
        page = PAGE.get()
        if page is None or page.cache is not self.cache:
            raise RuntimeError(f"{self.name} is called outside of a page of its cache: with cache.read(): ..; a response that is streamed is made after its "
                               "request's page has ended, and opens one of its own")
        return page.answer(self, args, named)

    def key(self, era: int, forms: Forms, args: Sequence[Any], named: Dict[str, Any]) -> Any:
        """Returns the key of a call; of one that was asked for before, the former."""
        known_era, known_forms, _, known = self.known
        if known_era == era and known_forms is forms and not named:
            try:
                found = known.get(args)
            except TypeError:  # an argument that is no plain data
                found = None
            if found is not None and _keys.are_of_one_type(found.args, args):
                return found
        return self._new_key(era, forms, args, named)

    def _new_key(self, era: int, forms: Forms, args: Sequence[Any], named: Dict[str, Any]) -> Any:
        known_era, known_forms, prefix, known = self.known
        if known_era != era or known_forms is not forms or len(known) >= MAX_KNOWN:
            prefix, known = _keys.prefix(b"%d" % era, self.name.encode(), b"%d" % forms.number(self)), {}
            self.known = era, forms, prefix, known
        is_known = self.arguments.stand_for_themselves(args, named)
        found = self.cache._versions.key(forms.level(self), _keys.digest(prefix + self.arguments.encoded(args, named)), args if is_known else None)
        if is_known:
            known[args] = found
        return found

    def cache_info(self) -> CacheInfo:
        return CacheInfo(self.hits, self.computed)

    def cache_clear(self) -> None:
        """Has each of its calls, and of those that call it, be computed again."""
        self.cache._growth.renew(self)
