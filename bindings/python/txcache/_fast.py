"""The hot calls of a site by an extension of C (_fast.c), over the same exports: what ctypes costs is most of a hit. Where it was not built, ctypes serves."""

import ctypes as c
import importlib.machinery
import importlib.util
import os
from typing import Any, Optional

from . import _library
from ._calls import HAS_ONE_AT_A_TIME
from ._versions import Versions, refusal

FORM = 1  # of what is called there: _fast.c has it too
NAME = "_fast_c.abi3.so"


def _loaded() -> Optional[Any]:
    """Returns the extension beside the library, or None if there is none there or TXC_FAST is 0. Fails with ImportError if it is of another form."""
    path = os.path.join(os.path.dirname(_library.path()), NAME)
    if os.environ.get("TXC_FAST") == "0" or not HAS_ONE_AT_A_TIME or not os.path.exists(path):
        return None
    loader = importlib.machinery.ExtensionFileLoader(f"{__package__}._fast_c", path)
    spec = importlib.util.spec_from_file_location(loader.name, path, loader=loader)
    found = importlib.util.module_from_spec(spec)
    loader.exec_module(found)
    if (found.FORM, found.ABI) != (FORM, _library.ABI):
        raise ImportError(f"{os.path.normpath(path)} is of form {found.FORM} and TXC_ABI {found.ABI}, and this package needs {FORM} and {_library.ABI}: make library again")
    return found


_C = _loaded()


class FastVersions(Versions):
    """As `Versions`, with its hot calls by the extension."""

    def __init__(self, capacity: int, recent: int = 4096):
        super().__init__(capacity, recent)
        site = _C.Site(_library.path(), self._site, c.addressof(self._site), _C.Key, refusal)
        self.begin, self.call, self.hit, self.commit = site.begin, site.call, site.hit, site.commit
        self.member, self.read_stamp, self.ask, self.finish = site.member, site.read_stamp, site.ask, site.finish

    @staticmethod
    def key(level: int, digest: bytes, args: Optional[tuple] = None) -> Any:
        return _C.Key(level, digest, args)


FASTEST = Versions if _C is None else FastVersions  # what a cache has by default
