"""The library's calls of a site, with their types."""

import ctypes as c
import functools
import sys
import threading
from types import SimpleNamespace

from . import _library
from .node import _Handle, _Key, _Totals

DONE, MISS, NO_ROOM, CLOSED, ALREADY_OPEN, BAD_ARGUMENT, NO_MEMORY = 0, 1, 3, 4, 5, 6, 11
COMPUTE, ANSWERED, NOT_OPEN, MID_CALL, REFUSED = range(12, 17)
CONFLICT = 18
STORE_SQL, STORE_PLAIN = 0, 1  # where a site keeps its rows


class Settings(c.Structure):
    _fields_ = [("size", c.c_size_t), ("events", c.c_size_t), ("capacity", c.c_size_t), ("recent", c.c_size_t), ("renew_after", c.c_uint64),
                ("bytes", c.c_size_t), ("store", c.c_size_t)]


class Row(c.Structure):
    _fields_ = [("table", c.c_uint8), ("id", c.c_uint32), ("group", c.c_uint32)]


class Query(c.Structure):
    _fields_ = [("table", c.c_uint8), ("kind", c.c_uint8), ("first", c.c_uint32), ("last", c.c_uint32)]


class Receipt(c.Structure):
    _fields_ = [("answers", c.c_size_t), ("has_pin", c.c_bool), ("stamp", c.c_uint32), ("moment", c.c_uint64)]


class Kept(c.Structure):
    _fields_ = [("retired", c.c_size_t), ("horizon", c.c_uint32), ("swept", c.c_size_t)]


LONG = "keep", "site_close", "site_trim"
HAS_ONE_AT_A_TIME = sys.implementation.name == "cpython" and getattr(sys, "_is_gil_enabled", lambda: True)()


def declared(long_ones=LONG):
    """Returns the calls by their names. All but the long ones keep the interpreter's lock: its release costs more than most calls take."""
    short, long = _library.load(c.PyDLL), _library.load(c.CDLL)
    size, u8, u32, u64 = c.c_size_t, c.c_uint8, c.c_uint32, c.c_uint64
    number, txn, out, text = c.POINTER(u32), c.POINTER(u64), [c.c_char_p, size, c.POINTER(size)], [c.c_char_p, size]
    parameters = {
        "site_open": [c.POINTER(Settings)], "site_close": [],
        "begin": [u64, u64, u32, txn], "begin_write": [txn], "begin_write_at": [u32, txn],
        "call": [u64, c.POINTER(_Key), *out], "query_rows": [u64, c.POINTER(Query), c.POINTER(size)], "row_at": [u64, size, c.POINTER(Row), *out],
        "answer": [u64, *out], "finish": [u64, *text, *out], "give_up": [u64], "read_stamp": [u64, number],
        "member_at": [u64, size, number, txn], "commit": [u64, c.POINTER(Receipt)], "abort": [u64],
        "put": [u64, u8, u32, u32, *text], "remove": [u64, u8, u32], "commit_write": [u64, number],
        "pin": [u64, number], "keep": [u64, u64, c.POINTER(Kept)], "site_trim": [size, c.POINTER(size)], "site_totals": [c.POINTER(_Totals)],
        "open_transactions": [c.POINTER(size)], "oldest_open": [txn],
    }
    calls = SimpleNamespace()
    for name, kinds in parameters.items():
        function = getattr(long if name in long_ones else short, f"txc_{name}")
        function.argtypes, function.restype = [c.POINTER(_Handle), *kinds], u32
        setattr(calls, name, function)
    return calls


def undeclared(name):
    """Returns a short call whose arguments are objects of C already: then ctypes neither checks nor converts them, which takes a third of a hit."""
    function = _library.load(c.PyDLL)[f"txc_{name}"]
    function.restype = c.c_uint32
    return function


def one_at_a_time(calls, has_lock=HAS_ONE_AT_A_TIME):
    """Returns calls that keep the interpreter's lock, so that none begins before another has ended. Where the interpreter has no such lock they share one."""
    if has_lock:
        return calls
    lock = threading.Lock()

    def with_lock(call):
        @functools.wraps(call, assigned=("__name__",), updated=())
        def locked(*words):
            with lock:
                return call(*words)

        return locked

    return {name: with_lock(it) for name, it in calls.items()}
