#!/usr/bin/env python3
"""Builds the wheel of the package `txcache` with the standard library alone: a build backend (PEP 517) that needs no other package.

usage: build_wheel.py [FOLDER]
  FOLDER       where the wheel is put, by default bindings/out
  TXC_LIBRARY  (of the environment) the folder of libtxc_c.so, by default bindings/out
"""

import base64
import glob
import hashlib
import os
import platform
import sys
import zipfile

HERE = os.path.dirname(os.path.abspath(__file__))
OUT = os.path.normpath(f"{HERE}/../out")
NAME, VERSION = "txcache", "0.1"
SHARED, EXTENSION = "libtxc_c.so", "_fast_c.abi3.so"
INFO = f"{NAME}-{VERSION}.dist-info"
METADATA = f"""Metadata-Version: 2.1
Name: {NAME}
Version: {VERSION}
Summary: A transactional cache, and its proof: no page mixes data of two moments
Requires-Python: >=3.9
Provides-Extra: postgres
Requires-Dist: psycopg>=3.1; extra == 'postgres'
Provides-Extra: sqlalchemy
Requires-Dist: SQLAlchemy>=1.4; extra == 'sqlalchemy'
Provides-Extra: django
Requires-Dist: Django>=3.2; extra == 'django'
"""
WHEEL = f"Wheel-Version: 1.0\nGenerator: {NAME}\nRoot-Is-Purelib: false\nTag: "


class UnsupportedOperation(Exception):
    """Fails, as PEP 517 has it: this backend builds no source distribution."""


def build_wheel(wheel_directory, config_settings=None, metadata_directory=None):
    """Writes the wheel into the folder, and returns its name."""
    built = _built()
    tag = f"{'cp39-abi3' if EXTENSION in built else 'py3-none'}-linux_{platform.machine()}"
    name = f"{NAME}-{VERSION}-{tag}.whl"
    files = {**_sources(), **{f"{NAME}/{it}": data for it, data in built.items()}, f"{INFO}/METADATA": METADATA.encode(), f"{INFO}/WHEEL": f"{WHEEL}{tag}\n".encode()}
    files[f"{INFO}/RECORD"] = _record(files).encode()
    with zipfile.ZipFile(os.path.join(wheel_directory, name), "w", zipfile.ZIP_DEFLATED) as wheel:
        for path, data in files.items():
            # of one time and mode, so that one source makes one wheel
            entry = zipfile.ZipInfo(path, (1980, 1, 1, 0, 0, 0))
            entry.compress_type, entry.external_attr = zipfile.ZIP_DEFLATED, 0o644 << 16
            wheel.writestr(entry, data)
    return name


def build_sdist(sdist_directory, config_settings=None):
    raise UnsupportedOperation(f"{NAME} has no source distribution: the library is made in its repository")


def _sources():
    found = sorted(glob.glob(f"{HERE}/{NAME}/**/*.py", recursive=True))
    return {os.path.relpath(path, HERE): _bytes(path) for path in found}


def _built():
    """Returns what `make library` made: the library, and the extension if Python's headers were found."""
    folder = os.environ.get("TXC_LIBRARY") or OUT
    if not os.path.exists(os.path.join(folder, SHARED)):
        sys.exit(f"{NAME}: there is no {os.path.join(folder, SHARED)}: make library first")
    return {it: _bytes(os.path.join(folder, it)) for it in (SHARED, EXTENSION) if os.path.exists(os.path.join(folder, it))}


def _bytes(path):
    with open(path, "rb") as file:
        return file.read()


def _record(files):
    """Returns the wheel's list of its files, each with a digest and its size."""
    lines = []
    for path, data in files.items():
        digest = base64.urlsafe_b64encode(hashlib.sha256(data).digest()).rstrip(b"=").decode()
        lines.append(f"{path},sha256={digest},{len(data)}\n")
    return "".join(lines) + f"{INFO}/RECORD,,\n"


def main():
    folder = os.path.abspath(sys.argv[1]) if len(sys.argv) > 1 else OUT
    os.makedirs(folder, exist_ok=True)
    print(os.path.relpath(os.path.join(folder, build_wheel(folder))))


if __name__ == "__main__":
    main()
