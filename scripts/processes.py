"""The processes of this machine, as /proc has them."""

import os
import pathlib
import re
import typing


class Stat(typing.NamedTuple):
    """A process: the one that started it, its ticks of a core so far, and when it was started."""

    parent: int
    ticks: int
    start: int


def stats() -> dict[int, Stat]:
    """Each process by its id."""
    found = {}
    for pid in filter(str.isdigit, os.listdir("/proc")):
        try:
            text = pathlib.Path(f"/proc/{pid}/stat").read_text(encoding="utf-8", errors="replace")
        except OSError:
            continue
        it = text.rpartition(")")[2].split()
        found[int(pid)] = Stat(int(it[1]), int(it[11]) + int(it[12]), int(it[19]))
    return found


def below(tops: list[int]) -> list[int]:
    """These processes, and all that were started below them and still run."""
    found, given = [], stats()
    for pid in given:
        at = pid
        while at in given and at not in tops:
            at = given[at].parent
        if at in given:
            found.append(pid)
    return found


def words(pid: int) -> list[str]:
    """The command line of a process. Fails if it has ended."""
    return pathlib.Path(f"/proc/{pid}/cmdline").read_text(encoding="utf-8", errors="replace").split("\0")


def peak(pid: int) -> int:
    """The largest size of a process so far, in KB; 0 if it has ended."""
    try:
        found = re.search(r"^VmHWM:\s+(\d+)", pathlib.Path(f"/proc/{pid}/status").read_text(encoding="utf-8"), re.M)
    except OSError:
        return 0
    return int(found[1]) if found else 0


def lower(pid: int) -> None:
    """Gives the session of a process the least weight that there is, if it is not the caller's own: between sessions the kernel counts this
    weight alone, and no `nice`. It does nothing where the kernel has no such groups, where the process has ended, or where the kernel wants
    to be asked again."""
    try:
        group = pathlib.Path(f"/proc/{pid}/autogroup")
        if os.getsid(pid) != os.getsid(0) and not group.read_text(encoding="utf-8").rstrip().endswith(" nice 19"):
            group.write_text("19", encoding="utf-8")
    except OSError:
        pass


def cores() -> int:
    """How many cores this process may run on."""
    return len(os.sched_getaffinity(0))


def free() -> float:
    """The memory of the machine that is free or can be freed, in GB of 2**30 bytes."""
    found = re.search(r"^MemAvailable:\s+(\d+) kB", pathlib.Path("/proc/meminfo").read_text(encoding="utf-8"), re.M)
    return int(found[1]) / 2**20
