#!/usr/bin/env python3
"""Makes the extension of the package for Python, by which a hit costs less, beside the library: scripts/library.py does so too.

usage: scripts/extension.py [FOLDER]
  FOLDER   where libtxc_c.so lies, by default bindings/out
"""

import os
import shutil
import subprocess
import sys

ROOT = os.path.dirname(os.path.dirname(os.path.abspath(__file__)))
SOURCE, HEADERS, NAME = f"{ROOT}/bindings/python/txcache/_fast.c", f"{ROOT}/bindings/c", "_fast_c.abi3.so"
WARNINGS = ["-std=c11", "-Wall", "-Wextra", "-Werror"]
INCLUDES = "import sysconfig; print(sysconfig.get_path('include'))"


def compiler():
    """A C compiler of the machine, or None."""
    return next((it for it in ("gcc", "clang", "cc") if shutil.which(it)), None)


def headers():
    """The folder of some Python's headers, or None: the object serves each Python from 3.9 on."""
    for python in filter(shutil.which, ("python3", "/usr/bin/python3")):
        folder = subprocess.run([python, "-c", INCLUDES], stdout=subprocess.PIPE, text=True, check=False).stdout.strip()
        if os.path.exists(f"{folder}/Python.h"):
            return folder
    return None


def words_of(folder, by=None, flags=("-O2",), source=SOURCE):
    """The command that makes the extension, or None if the machine lacks a compiler or Python's headers."""
    by, found = by or compiler(), headers()
    if by is None or found is None:
        return None
    return [by, *WARNINGS, *flags, "-fPIC", "-shared", "-isystem", found, "-I", HEADERS, source, "-o", f"{folder}/{NAME}"]


def make(folder):
    """Makes the extension. Returns its file; or None, and says what the machine lacks. One that was there before goes."""
    if os.path.exists(f"{folder}/{NAME}"):
        os.remove(f"{folder}/{NAME}")
    words = words_of(folder)
    if words is None:
        print(f"skipped: {NAME}, since there is no {'C compiler' if compiler() is None else 'Python.h'}; ctypes serves in its place", file=sys.stderr)
        return None
    ran = subprocess.run(words, stdout=subprocess.PIPE, stderr=subprocess.STDOUT, text=True, errors="replace", check=False)
    if ran.returncode:
        sys.exit(f"{ran.stdout[-3000:]}extension: {words[0]} ended with status {ran.returncode}")
    return f"{folder}/{NAME}"


def main():
    folder = os.path.abspath(sys.argv[1]) if len(sys.argv) > 1 else f"{ROOT}/bindings/out"
    print(os.path.relpath(make(folder) or sys.exit(1)))


if __name__ == "__main__":
    main()
