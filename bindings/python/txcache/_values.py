"""The values of functions as bytes. A page that is answered from the cache gets a value of its own."""

import pickle
from typing import Any, Callable, Optional, Tuple

Codec = Tuple[Callable[[Any], bytes], Callable[[bytes], Any]]
_BYTES, _STR, _PICKLED, _CODED = b"bspc"  # the last byte says what those before it are; pickle reads no further than its own end
TOO_LONG = b"l"  # of no value: in the place of one that is not cached


def encode(value: Any, codec: Optional[Codec] = None) -> bytes:
    """Returns a value as bytes: bytes and str as they are, all else by the codec, else by pickle, which leaves this process's memory never.
    Fails with TypeError if that does not take it."""
    if codec:
        data = codec[0](value)
        if not isinstance(data, bytes):
            raise TypeError(f"the codec gave a {type(data).__name__}, and not bytes")
        return data + b"c"
    if type(value) is bytes:
        return value + b"b"
    if type(value) is str:
        return value.encode("utf-8", "surrogatepass") + b"s"
    try:
        return pickle.dumps(value, pickle.HIGHEST_PROTOCOL) + b"p"
    except Exception as error:
        raise TypeError(f"pickle does not take a value of type {type(value).__name__}, and there is no codec: {error}") from error


def decode(data: bytes, codec: Optional[Codec] = None) -> Any:
    """Returns the value of bytes, which `encode` gave with the same codec."""
    kind = data[-1] if data else 0
    if kind == _PICKLED:
        return pickle.loads(data)
    if kind == _BYTES:
        return data[:-1]
    if kind == _STR:
        return data[:-1].decode("utf-8", "surrogatepass")
    if kind == _CODED and codec:
        return codec[1](data[:-1])
    raise ValueError(f"no value ends with {bytes((kind,))!r}")
