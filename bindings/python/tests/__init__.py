"""The package's tests: `python3 -m unittest` in bindings/python."""

import os
import time
from typing import Callable


def skipped(what: str, why: str) -> str:
    """Prints and returns why tests are skipped. With CI=true they fail in the place of that."""
    said = f"skipped: {what}, since {why}"
    if os.environ.get("CI") == "true":
        raise AssertionError(said)
    print(said, flush=True)
    return said


def until(is_so: Callable[[], bool], seconds: float = 120.0) -> bool:
    """Waits until something is so, however slow the machine is. Returns False if it is not after so many seconds."""
    ended = time.monotonic() + seconds
    while not is_so():
        if time.monotonic() > ended:
            return False
        time.sleep(0.02)
    return True
