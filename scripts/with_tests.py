"""The tests, which stand in tests/: `rt` takes files of Rattle in crates/ alone, so there each has `.in` behind its name, and the
tests are compiled, run and proved in a copy of the repository that has them among its crates."""

import glob
import os
import re
import shutil
import subprocess
import sys
import zlib

ROOT = os.path.dirname(os.path.dirname(os.path.abspath(__file__)))


# The module of the tests that is tried, and not proved: the service that docs/EMBEDDING.md begins with.
UNPROVED = "txc_tests/src/first"

# The module whose random scripts are drawn from a number that stands there.
DRAWN = "txc_tests/src/db/stores"


def lines() -> dict[str, str]:
    """The line of each crate of tests/ for crates.txt, those first that others use."""
    with open(f"{ROOT}/tests/crates.txt.in", encoding="utf-8") as it:
        return {line.partition(":")[0]: line for line in it if not line.startswith("#")}


def test_crates() -> list[str]:
    """The crates that have tests."""
    return [it for it in lines() if it.endswith("_tests")]


def named_tests(crate: str) -> list[str]:
    """The name of each test of a crate, by the text of its files: the `main` of the service is one too."""
    found, folder = [], f"{ROOT}/tests/{crate}/src"
    for file in sorted(glob.glob(f"{folder}/**/*.rt.in", recursive=True)):
        module = os.path.relpath(file, folder).removesuffix(".rt.in").replace("/", "::")
        with open(file, encoding="utf-8") as it:
            found += [f"{module}::{name}" for name in re.findall(r"^(?:#\[test\]\nfn |fn (?=main\())(\w+)", it.read(), re.M)]
    return found


def named_in_python() -> list[str]:
    """The name of each test of the scripts, by the text of their files."""
    found = []
    for file in sorted(glob.glob(f"{ROOT}/tests/test_*.py")):
        with open(file, encoding="utf-8") as it:
            found += [f"{os.path.basename(file)[:-3]}.{name}" for name in re.findall(r"^    def (test_\w+)", it.read(), re.M)]
    return found


def count() -> int:
    """How many tests there are, but for those of the library for callers."""
    return len(named_in_python()) + sum(len(named_tests(it)) for it in test_crates())


def copy(room: str, has_main: bool = False) -> None:
    """Makes the copy in a folder that is there. In it the `main` of the service is a test, but where it is to be left as it is: a runtime has
    threads in the `main` of a crate and in tests alone."""
    shutil.copytree(f"{ROOT}/crates", f"{room}/crates", ignore=shutil.ignore_patterns("out", "wrong-bodies"))
    shutil.copy(f"{ROOT}/HANDLES", room)
    shutil.copy(f"{ROOT}/crates.txt", room)
    with open(f"{room}/crates.txt", "a", encoding="utf-8") as it:
        it.writelines(lines().values())
    for crate in lines():
        named = lambda at, to: shutil.copy2(at, to.removesuffix(".in"))
        shutil.copytree(f"{ROOT}/tests/{crate}", f"{room}/crates/{crate}", copy_function=named, dirs_exist_ok=True)
    if not has_main:
        replace(f"{room}/crates/{UNPROVED}.rt", "\nfn main(", "\n#[test]\nfn main(")


def replace(file: str, old: str, new: str) -> None:
    """Replaces a text in a file that has it."""
    with open(file, encoding="utf-8") as it:
        text = it.read()
    if old not in text:
        sys.exit(f"{file} has no {old!r}")
    with open(file, "w", encoding="utf-8") as it:
        it.write(text.replace(old, new))


def seed() -> str:
    """Returns what random scripts are made of: SEED of the environment, or the hash of the committed tree."""
    tree = subprocess.run(["git", "rev-parse", "HEAD^{tree}"], cwd=ROOT, capture_output=True, text=True, check=False).stdout.strip()
    return os.environ.get("SEED") or tree or "1"


def draw(room: str, seed: str) -> None:
    """Has the random scripts of the copy drawn from this text."""
    replace(f"{room}/crates/{DRAWN}.rt", "SEED: u64 = 1;", f"SEED: u64 = {zlib.crc32(seed.encode())};")


def leave_out_unproved(room: str) -> None:
    """Takes the module that is not proved out of the copy."""
    os.remove(f"{room}/crates/{UNPROVED}.rt")
    folder, _, module = UNPROVED.rpartition("/")
    replace(f"{room}/crates/{folder}/lib.rt", f"#[cfg(test)]\nmod {module};\n", "")
