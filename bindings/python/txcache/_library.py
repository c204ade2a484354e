"""The library for C, as this process loads it."""

import ctypes
import os

ABI = 4
_HERE = os.path.dirname(os.path.abspath(__file__))
_NAME = "libtxc_c.so"


def path():
    """Returns where `libtxc_c.so` lies: in the folder that the environment's TXC_LIBRARY names; else in the installed package; else, in the
    repository, where `make library` put it, in bindings/out. Fails with ImportError if there is none."""
    given = os.environ.get("TXC_LIBRARY")
    folders = [given] if given else [_HERE, os.path.join(_HERE, "../../out")]
    for folder in folders:
        found = os.path.join(folder, _NAME)
        if os.path.exists(found):
            return found
    raise ImportError(f"there is no {_NAME} in {' or '.join(map(os.path.normpath, folders))}: make library first, or name its folder by an absolute path in TXC_LIBRARY")


def load(kind=ctypes.CDLL):
    """Loads the library. Fails with ImportError if there is none, or one of another header."""
    at = path()
    return _checked(kind(at), at)


def _checked(found, at):
    number = found.txc_abi() if hasattr(found, "txc_abi") else None
    if number != ABI:
        raise ImportError(f"{os.path.normpath(at)} has the TXC_ABI {number}, and this package needs {ABI}: make library again")
    return found
