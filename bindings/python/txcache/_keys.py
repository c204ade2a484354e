"""The keys of calls: a digest of a function's arguments, each by its exact type."""

import datetime
import decimal
import enum
import hashlib
import inspect
import operator
import struct
import uuid
from typing import Any, Callable, Dict, List, Mapping, Optional, Sequence, Tuple

DIGEST_SIZE = 16
_AS_THEY_ARE = frozenset((int, str, bytes, bool, type(None)))  # equal values of one of these types are one argument


class NotPlain(TypeError):
    """A value is not plain data."""


def encode(value: Any) -> bytes:
    """Returns the text of plain data: None, bool, int, float, str, bytes, Decimal, date, time, datetime, UUID, members of an Enum, and tuples of
    these. No two values of different types, or with different texts, have one. Fails with NotPlain for anything else."""
    encoder = _ENCODERS.get(type(value))
    if encoder:
        return encoder(value)
    if isinstance(value, enum.Enum):
        kind = type(value)
        member = value.name if value.name is not None else value.value  # members of a Flag that are combined may have no name
        return b"e" + _sized(f"{kind.__module__}.{kind.__qualname__}".encode()) + encode(member)
    raise NotPlain(f"{type(value).__module__}.{type(value).__qualname__}")


def _sized(text: bytes) -> bytes:
    return b"%d:%s" % (len(text), text)


def _zone(zone: Optional[datetime.tzinfo]) -> bytes:
    if zone is None or type(zone) is datetime.timezone:
        return _sized(repr(zone).encode())
    name = getattr(zone, "key", None)  # of zoneinfo.ZoneInfo
    if not isinstance(name, str):
        raise NotPlain(f"a time with a zone of type {type(zone).__module__}.{type(zone).__qualname__}")
    return _sized(f"{type(zone).__qualname__} {name}".encode())


def _tuple(value: Tuple[Any, ...]) -> bytes:
    return b"(%d:" % len(value) + b"".join(map(encode, value))


_ENCODERS: Dict[type, Callable[[Any], bytes]] = {
    type(None): lambda it: b"N",
    bool: lambda it: b"T" if it else b"F",
    int: lambda it: b"i%x;" % it,
    float: lambda it: b"f" + struct.pack(">d", it),
    str: lambda it: b"s" + _sized(it.encode("utf-8", "surrogatepass")),
    bytes: lambda it: b"b" + _sized(it),
    decimal.Decimal: lambda it: b"d" + _sized(str(it).encode()),
    datetime.date: lambda it: b"D" + it.isoformat().encode(),
    datetime.time: lambda it: b"t" + _sized(f"{it.replace(tzinfo=None).isoformat()} {it.fold}".encode()) + _zone(it.tzinfo),
    datetime.datetime: lambda it: b"M" + _sized(f"{it.replace(tzinfo=None).isoformat()} {it.fold}".encode()) + _zone(it.tzinfo),
    uuid.UUID: lambda it: b"u" + it.bytes,
    tuple: _tuple,
}


def are_of_one_type(one: Sequence[Any], other: Sequence[Any]) -> bool:
    """Returns True if two equal tuples have the same types, place by place."""
    return all(map(operator.is_, map(type, one), map(type, other)))


class Arguments:
    """The arguments of a function after its first, `db`. By position, by name and by default they are one."""

    def __init__(self, name: str, body: Callable[..., Any], key: Optional[Callable[..., Any]] = None):
        self._name, self._key = name, key
        parameters = list(inspect.signature(body).parameters.values())
        if not parameters or parameters[0].kind not in (inspect.Parameter.POSITIONAL_ONLY, inspect.Parameter.POSITIONAL_OR_KEYWORD):
            raise TypeError(f"{name} takes no db: it is the first parameter of a cacheable function")
        self._signature = inspect.Signature(parameters[1:])
        self._names = [it.name for it in parameters[1:]]
        self._is_simple = all(it.kind in (inspect.Parameter.POSITIONAL_ONLY, inspect.Parameter.POSITIONAL_OR_KEYWORD) for it in parameters[1:])

    def stand_for_themselves(self, args: Sequence[Any], named: Mapping[str, Any]) -> bool:
        """Returns True if equal arguments of the same types are one call's. Else equal ones of one type need not be one, or something else is to be done
        with them first."""
        return self._is_plain(args, named) and _AS_THEY_ARE.issuperset(map(type, args))

    def _is_plain(self, args: Sequence[Any], named: Mapping[str, Any]) -> bool:
        """Returns True if each argument is given by its position, and stands for itself."""
        return not named and self._key is None and len(args) == len(self._names) and self._is_simple

    def encoded(self, args: Sequence[Any], named: Mapping[str, Any]) -> bytes:
        """Returns the text of a call's arguments. Fails with TypeError, which names the function and the argument, if one is not plain data."""
        if not self._is_plain(args, named):
            return self._encoded_whole(args, named)
        try:
            return b"".join(map(encode, args))
        except NotPlain:
            return self._encoded_each(zip(self._names, args))

    def _encoded_whole(self, args: Sequence[Any], named: Mapping[str, Any]) -> bytes:
        try:
            bound = self._signature.bind(*args, **named)
        except TypeError as error:
            raise TypeError(f"{self._name}: {error}") from None
        if self._key:
            return self._encoded_each([("key", self._key(*args, **named))])
        bound.apply_defaults()
        words: List[Tuple[str, Any]] = []
        for name, value in bound.arguments.items():
            if self._signature.parameters[name].kind is inspect.Parameter.VAR_KEYWORD:
                value = tuple(sorted(value.items()))
            words.append((name, value))
        return self._encoded_each(words)

    def _encoded_each(self, words: Any) -> bytes:
        texts = []
        for name, value in words:
            try:
                texts.append(encode(value))
            except NotPlain as error:
                raise TypeError(f"{self._name}: the argument {name} has a value of type {error}, which is no plain data: cacheable(key=..) makes it so") from None
        return b"".join(texts)


def prefix(*texts: bytes) -> bytes:
    """Returns texts as one, which is no beginning of another one."""
    return b"".join(map(_sized, texts))


def digest(text: bytes) -> bytes:
    """Returns 128 bits of a text."""
    return hashlib.blake2b(text, digest_size=DIGEST_SIZE).digest()
