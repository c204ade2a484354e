"""The layer of the library for callers, and whether `make test-all` has passed over it as it is."""

import hashlib
import os
import pathlib
import subprocess

ROOT = pathlib.Path(__file__).resolve().parent.parent
# The library, and the crates below it of which no program has use.
CRATES = ("txc_c_types", "txc_call_ghosts", "txc_caller", "txc_c")
# The hash of the layer over which `make test-all` passed last.
PASSED = ROOT / "tests/test-all.passed"


def tree() -> str:
    """The hash of the layer: of the names and the contents of its files that git has or would take. Without git it has none."""
    folders = ["bindings", *(f"crates/{it}" for it in CRATES)]
    words = ["git", "ls-files", "--cached", "--others", "--exclude-standard", "--deduplicate", "-z", "--", *folders]
    ran = subprocess.run(words, cwd=ROOT, capture_output=True, check=False)
    if ran.returncode:
        return ""
    names, found = ran.stdout.split(b"\0"), hashlib.sha256()
    for name in sorted(filter(None, names)):
        path = ROOT / os.fsdecode(name)
        if path.is_file():
            found.update(name + b"\0" + hashlib.sha256(path.read_bytes()).digest())
    return found.hexdigest()


def has_passed() -> bool:
    """Whether `make test-all` has passed over the layer as it is."""
    return PASSED.is_file() and PASSED.read_text(encoding="utf-8").strip() == tree() != ""


def note_passed() -> None:
    """Writes down that `make test-all` has passed over the layer as it is."""
    PASSED.write_text(f"{tree()}\n", encoding="utf-8")
