#!/usr/bin/env python3
"""The merge gate: `make prove`, and `make test-all` too if the library for callers is not the one over which it passed last
(scripts/callers.py).

usage: scripts/ci.py

The last line is `N passed, M failed`, of both together. What has not ended in time is ended, and is a failure. The exit status is 0
only if M is 0.
"""

import os
import re
import signal
import subprocess
import sys
import threading
import time

import callers

# All of it may take 180 minutes.
MOST_SECONDS = 175 * 60
ENDING = re.compile(r"(\d+) passed, (\d+) failed")


def end(ran: subprocess.Popen[str], name: str) -> None:
    print(f"FAILED: {name} has not ended in time", flush=True)
    os.killpg(ran.pid, signal.SIGTERM)


def told(name: str, seconds: float) -> tuple[int, int]:
    """Runs a command of the Makefile, and returns what its last line counts: one failure more where it fails and says none."""
    words = ["make", "--silent", "--no-print-directory", name]
    ran = subprocess.Popen(words, stdout=subprocess.PIPE, text=True, errors="replace", start_new_session=True)
    clock = threading.Timer(seconds, end, (ran, name))
    clock.start()
    last = ""
    try:
        for line in ran.stdout or []:
            print(last, end="", flush=True)
            last = line
        status = ran.wait()
    except BaseException:
        os.killpg(ran.pid, signal.SIGTERM)
        raise
    finally:
        clock.cancel()
    print(f"{name}: {last.rstrip()}", flush=True)
    counts = ENDING.fullmatch(last.rstrip())
    passed, failed = (int(counts[1]), int(counts[2])) if counts else (0, 0)
    return passed, max(failed, int(status != 0 or passed == 0))


def main() -> None:
    os.chdir(callers.ROOT)
    signal.signal(signal.SIGTERM, lambda *_: sys.exit(143))
    begun = time.monotonic()
    passed, failed = told("prove", MOST_SECONDS)
    if callers.has_passed():
        print(f"test-all: not run, since it has passed over this library for callers ({callers.PASSED.name})")
    else:
        more = told("test-all", MOST_SECONDS - (time.monotonic() - begun))
        passed, failed = passed + more[0], failed + more[1]
    print(f"{passed} passed, {failed} failed")
    sys.exit(int(failed > 0))


if __name__ == "__main__":
    main()
