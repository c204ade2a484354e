"""Refuses each allocation of the tests in its turn, and of the program over the examples.

usage: JOBS=N python3 scripts/refusals.py REFUSE.SO ROOM [WORD..]    at the top of the repository

refusals.sh says what the words and the printed lines mean. The tests of a crate are built into the folder ROOM, with no
proof, but for those that lie there. A test runs once a core, as the runner of `rt test` starts it, and forks at each of
its allocations, as scripts/refuse.c says. A refusal while it has several threads is a run from the start.
"""

import array
import glob
import os
import resource
import shutil
import subprocess
import sys
import tempfile
from concurrent.futures import ThreadPoolExecutor
from functools import partial
from typing import Callable, NamedTuple

import rows
import unproved
import with_tests
from script_files import MODES, settings_of

# Tests that count to a large limit, and those of the first service: they do not begin anew where memory is refused on the way. And those of many
# random scripts: what they do is done in a few scripts too.
LEFT_OUT = {
    "txc_tests client::clients::refusals::a_client_needs_a_pass_of_each_node",
    "txc_tests client::clients::refusals::clients_are_refused_at_limits",
    "txc_tests first::each_guest_finds_20_whole_pages",
    "txc_tests first::main",
    "txc_tests run::run::a_reader_that_never_ends",
    "txc_tests batch::batch::a_reader_that_never_ends",
    "txc_tests world::world::a_reader_that_never_ends",
    "txc_tests db::db::long::an_unstored_history_goes_on_where_a_stored_one_ends",
    "txc_tests db::pins::shared::users_and_pins_have_a_limit",
    "txc_tests db::stores::databases_answer_random_scripts_alike",
    "txc_tests db::stores::stores_answer_random_scripts_alike",
    "txc_tests txn::shared::locked::passes_have_a_limit",
}

# Each allocation of a row of a test is refused, or of a script, where all those runs take at most so many seconds of one
# core. Of another an evenly spaced sample is refused, of at most so many, which takes no longer; and then all the same, where
# the sample of a test shows that they end so early that all its runs take no longer either.
COST = 1_800
SAMPLE = 2_000

# What a fork costs beside what is played in it.
FORK = 0.0005

# How long a run may take.
SECONDS = int(os.environ.get("RUN_SECONDS", "60"))

# The status of a test that was done with its row, and the signal of one that took too long, as refuse.c has them.
ROW_ENDED = 77
TOO_LONG = -14

REFUSED = b"refused memory"


class Ended(NamedTuple):
    """How a process ended: its status is None where it had to be stopped."""

    status: int | None
    out: bytes
    err: bytes


class Case(NamedTuple):
    """What is run, and what is wrong with an ending beside the one where nothing was refused."""

    name: str
    words: list[str]
    given: bytes
    wrong: Callable[["Case", Ended, Ended], str | None]


def run(case: Case, **settings: str) -> Ended:
    how = {"input": case.given, "capture_output": True, "timeout": SECONDS}
    try:
        ran = subprocess.run(case.words, env={"LD_PRELOAD": sys.argv[1], **settings}, **how)
        return Ended(ran.returncode, ran.stdout, ran.stderr)
    except subprocess.TimeoutExpired:
        return Ended(None, b"", b"")


def stopped(ended: Ended) -> str | None:
    """Why the process did not end by itself, with the last line of its standard error."""
    last = ended.err.decode(errors="replace").strip().rpartition("\n")[2]
    if ended.status is None:
        return f"had not ended after {SECONDS} seconds"
    return f"signal {-ended.status}: {last}" if ended.status < 0 else None


def wrong_of_test(_: Case, __: Ended, ended: Ended) -> str | None:
    if ended.status == 0 and ended.out.endswith(b"\ntest result: ok\n"):
        return None
    return stopped(ended) or f"failed with status {ended.status}"


def wrong_of_memory(whole: Ended, ended: Ended) -> str | None:
    """What is wrong with an ending of status 5: what was printed so far is wanted, and `memory`."""
    lines = ended.out == b"" or ended.out.endswith(b"\n")
    well = ended.err == b"memory\n" and lines and whole.out.startswith(ended.out)
    return None if well else "status 5, and not a beginning of the replies and `memory`"


def wrong_of_program(case: Case, whole: Ended, ended: Ended) -> str | None:
    """A run ends with what it printed so far and `memory`, or refuses one line for memory, which
    then changed nothing: the other replies are those to the script without that line."""
    if ended.status == 5:
        return wrong_of_memory(whole, ended)
    replies = ended.out.split(b"\n")
    if REFUSED not in replies:
        return stopped(ended) or (None if ended == whole else "another answer")
    at = replies.index(REFUSED)
    rest = run(case._replace(given=without(case.given, at)))
    wanted = rest.out.split(b"\n")
    wanted.insert(at, REFUSED)
    return None if (ended.status, replies) == (1, wanted) else "another answer after a refusal"


def wrong_of_ending(_: Case, whole: Ended, ended: Ended) -> str | None:
    """A run ends by itself. What it printed is not judged, but where it ended for memory: a line
    that is refused changes the replies to others, which the judge of the tests looks at."""
    if ended.status == 5:
        return wrong_of_memory(whole, ended)
    return stopped(ended) or (None if ended.status in (0, 1) else f"status {ended.status}")


def without(script: bytes, reply: int) -> bytes:
    """The script with a comment in place of the line that has this reply, counted from 0."""
    lines = script.split(b"\n")
    obeyed = [at for at, line in enumerate(lines) if line and not line.startswith(b"#")]
    lines[obeyed[reply]] = b"#"
    return b"\n".join(lines)


def built(room: str, crate: str) -> str:
    """The program of a crate's tests, in which rows say where they begin."""
    program = f"{room}/{crate}_tests"
    if not os.path.exists(program):
        with tempfile.TemporaryDirectory(prefix="rows-") as folder:
            said = unproved.build(rows.copy(crate, folder), f"{folder}/program")
            if said:
                sys.exit(f"{crate} does not compile:\n{said[-3000:]}")
            shutil.move(f"{folder}/program", program)
    return program


def tests(room: str, is_wanted: Callable[[str], bool]) -> list[Case]:
    found = []
    for crate in with_tests.test_crates():
        names = {f"{crate} {it}": it for it in with_tests.named_tests(crate)}
        wanted = [it for it in names if it not in LEFT_OUT and is_wanted(it)]
        if wanted:
            program = built(room, crate)
            found += [Case(it, [program, names[it]], b"", wrong_of_test) for it in wanted]
    return found


def program(script: str, mode: str, wrong: Callable[[Case, Ended, Ended], str | None]) -> Case:
    """The program in this mode over a script, with the settings that stand beside it, if any."""
    with open(script, "rb") as it:
        given = it.read()
    settings = settings_of(script, None)
    if mode == "batch":
        settings = "\n".join([*(it for it in settings.split("\n") if not it.startswith("workers")), "workers = 1"]).strip()
    words = ["crates/txcache/out/txcache", mode, f"--settings={settings}"]
    return Case(f"txcache {mode} {script}", words, given, wrong)


def examples() -> list[Case]:
    """The program over each example, in each of its modes. One worker runs the jobs of a batch, so that the n-th allocation
    is the same in each run."""
    found = [program("crates/txcache/stdin", "node", wrong_of_program)]
    for ending, modes in MODES.items():
        scripts = sorted(glob.glob(f"examples/**/*{ending}", recursive=True))
        for mode in modes:
            wrong = wrong_of_program if mode == "node" else wrong_of_ending
            found += [program(it, mode, wrong) for it in scripts]
    return found


def seconds_of_children() -> float:
    """The processor time of all runs so far."""
    used = resource.getrusage(resource.RUSAGE_CHILDREN)
    return used.ru_utime + used.ru_stime


class Row(NamedTuple):
    """A row's number, from 1 on, or 0 for what comes before; its allocations; and how long it takes to play it."""

    number: int
    first: int
    count: int
    seconds: float


def count(case: Case) -> tuple[int, float, Ended, list[Row]]:
    """How many allocations a run makes where none is refused, how many seconds it takes, how it ends, and its rows."""
    file, begun = f"{sys.argv[1]}.count", f"{sys.argv[1]}.rows"
    # what the last run left would hide that this one counted nothing
    for it in (file, begun):
        open(it, "wb").close()
    before = seconds_of_children()
    whole = run(case, REFUSE_COUNT=file, REFUSE_ROWS=begun)
    seconds = seconds_of_children() - before
    with open(file, "rb") as it:
        counted = it.read()
    allocations = int.from_bytes(counted, "little") if counted else -1
    with open(begun, encoding="ascii") as it:
        starts = [(int(line.split()[0]), int(line.split()[1]) / 1e9) for line in it]
    ends = [*starts, (allocations, max(seconds, starts[-1][1] if starts else 0))]
    found, (last, since) = [], (0, 0.0)
    for number, (end, until) in enumerate(ends):
        # what is refused before the first row is judged by that row
        judged = ends[1][1] if number == 0 and starts else until
        if end > last:
            found.append(Row(number, last + 1, end - last, judged - since))
        last, since = end, until
    return allocations, seconds, whole, found


def chosen(first: int, allocations: int, seconds: float) -> list[int]:
    """The allocations that are refused, of so many, where a run takes so many seconds."""
    if allocations * seconds <= COST:
        return list(range(first, first + allocations))
    sample = min(SAMPLE, int(COST / max(seconds, 0.001)), allocations)
    return [first + at * (allocations - 1) // max(sample - 1, 1) for at in range(sample)]


def tried(case: Case, whole: Ended, at: int) -> str | None:
    return case.wrong(case, whole, run(case, REFUSE_AT=str(at)))


def wrong_of_fork(status: int, text: str) -> str | None:
    """What is wrong with a fork, of which refuse.c tells so much."""
    if not text and status in (0, ROW_ENDED):
        return None
    if status == TOO_LONG:
        return f"had not ended after {SECONDS} seconds"
    return f"signal {-status}: {text}" if status < 0 else f"failed with status {status}: {text}"


def forked(case: Case, words: str, job: int, places: list[tuple[int, ...]]) -> tuple[dict[int, str | None], list[int]]:
    """Refuses the allocations of these places, whose last words are their numbers, in forks of one run, which takes them
    as refuse.c's setting of that name. Returns what is wrong with each, and those at which there were several threads."""
    file = f"{sys.argv[1]}.{job}"
    with open(f"{file}.places", "wb") as it:
        array.array("Q", [word for place in places for word in place]).tofile(it)
    open(f"{file}.each", "wb").close()
    how = {"REFUSE_EACH": f"{file}.each", words: f"{file}.places", "REFUSE_SECONDS": str(SECONDS)}
    ran = subprocess.run(case.words, env={"LD_PRELOAD": sys.argv[1], **how}, input=case.given, capture_output=True)
    told, left = {}, []
    with open(f"{file}.each", encoding="utf-8", errors="replace") as it:
        for line in it:
            number, status, *text = line.rstrip("\n").split(" ", 2)
            if status == "threads":
                left.append(int(number))
            else:
                told[int(number)] = wrong_of_fork(int(status), "".join(text))
    ended, known = Ended(ran.returncode, ran.stdout, ran.stderr), {*told, *left}
    missing = [place[-1] for place in places if place[-1] not in known]
    why = "the run that forks ended badly" if case.wrong(case, ended, ended) else "was not reached"
    # where there are threads, a run may make fewer allocations than another
    is_reached = left and why == "was not reached"
    return (told, left + missing) if is_reached else ({**told, **dict.fromkeys(missing, why)}, left)


def refuse_all(
    pool: ThreadPoolExecutor, case: Case, words: str, places: list[tuple[int, ...]]
) -> tuple[dict[int, str | None], list[int]]:
    """As `forked`, by as many runs as there are cores."""
    if not places:
        return {}, []
    jobs = min(int(os.environ["JOBS"]), 1 + len(places) // 100)
    told, left = {}, []
    for ends, rest in pool.map(partial(forked, case, words), range(jobs), [places[job::jobs] for job in range(jobs)]):
        told.update(ends)
        left += rest
    return told, sorted(left)


def refuse_numbers(pool: ThreadPoolExecutor, case: Case, found: list[Row]) -> tuple[dict[int, str | None], list[int]]:
    """As `forked`, of the rows' allocations: all, or a sample."""
    numbers = [(it,) for row in found for it in chosen(row.first, row.count, row.seconds + FORK)]
    begun = seconds_of_children()
    told, left = refuse_all(pool, case, "REFUSE_NUMBERS", numbers)
    seconds = (seconds_of_children() - begun) / max(len(numbers), 1)
    rest = [(it,) for row in found for it in range(row.first, row.first + row.count) if it not in told]
    if left or seconds * len(rest) > COST:
        return told, left
    ends, left = refuse_all(pool, case, "REFUSE_NUMBERS", rest)
    return {**told, **ends}, left


def refuse_test(pool: ThreadPoolExecutor, case: Case, found: list[Row]) -> tuple[dict[int, str | None], int]:
    """Refuses the allocations of a test's rows. Returns what is wrong with each, and how many there were for threads."""
    told, left = refuse_numbers(pool, case, found)
    places = [(row.number, it - row.first + 1, it) for row in found for it in left if row.first <= it < row.first + row.count]
    ends, rest = refuse_all(pool, case, "REFUSE_PLACES", places)
    return {**told, **ends, **dict.fromkeys(rest, "there were threads where its row begins")}, len(places)


def refuse(pool: ThreadPoolExecutor, case: Case) -> tuple[int, int]:
    """Refuses the case's allocations, and returns how many, and how many runs ended badly."""
    begun = seconds_of_children()
    allocations, seconds, whole, found = count(case)
    why = stopped(whole) or case.wrong(case, whole, whole)
    if not why and allocations < 0:
        why = "its allocations were not counted"
    if why:
        print(f"{case.name}: fails where nothing is refused: {why}", flush=True)
        return 0, 1
    text = f"{case.name}: "
    threads = 0
    if case.wrong == wrong_of_test:
        told, threads = refuse_test(pool, case, found)
        text += f"{len(found)} row{'' if len(found) == 1 else 's'}, "
    else:
        numbers = chosen(1, allocations, seconds)
        told = dict(zip(numbers, pool.map(partial(tried, case, whole), numbers)))
    bad = [(at, why) for at, why in sorted(told.items()) if why]
    text += f"{allocations} allocations, {len(told)} refused"
    text += f", {threads} of them beside other threads" if threads else ""
    text += " (a sample)" if len(told) < allocations else ""
    text += f", {len(bad)} ended badly"
    if bad:
        text += f": {' '.join(str(at) for at, _ in bad[:5])} ({bad[0][1]})"
    print(f"{text}, {seconds_of_children() - begun:.0f} s", flush=True)
    return len(told), len(bad)


def main() -> int:
    room, *words = sys.argv[2:]
    is_wanted = lambda name: not words or any(word in name for word in words)
    # a failed assert ends the process by a signal
    resource.setrlimit(resource.RLIMIT_CORE, (0, 0))
    scripts = [it for it in examples() if is_wanted(it.name)]
    if scripts:
        with open("crates/txcache/stdin", "rb") as it:
            ran = subprocess.run(["rt", "run", "--", "node"], cwd="crates/txcache", stdin=it, capture_output=True, text=True)
        if ran.returncode:
            sys.exit(ran.stdout + ran.stderr)
    cases = [*tests(room, is_wanted), *scripts]
    if not cases:
        sys.exit(f"refusals.py: no test's name contains {' or '.join(words)}")
    pool = ThreadPoolExecutor(int(os.environ["JOBS"]))
    try:
        counts = [refuse(pool, it) for it in cases]
    except KeyboardInterrupt:
        pool.shutdown(cancel_futures=True)
        return 130
    refusals, bad = (sum(column) for column in zip(*counts))
    print(f"{refusals} refusals, {bad} ended badly")
    return 1 if bad else 0


if __name__ == "__main__":
    sys.exit(main())
