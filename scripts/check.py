#!/usr/bin/env python3
"""Checks one crate, or some of its functions, from nothing over the libraries that `rt ci` (so `make prove`) has left in
crates/*/out: no library below it is proved again.

usage: scripts/check.py CRATE [FLAG..]
  FLAG     the prover's, as `--only PATH` for one function, a type or a module, or `--test` for the crate with its tests

The exit status is the prover's: 0 where all that was asked for is proved.
"""

import os
import subprocess
import sys

# The toolchain's folder, which `rt doc` names.
KIT = os.path.dirname(subprocess.run(["rt", "doc"], capture_output=True, text=True).stdout.strip())


def check_words(root, crate):
    """What the prover is told to check a crate from nothing over the libraries of crates/*/out, but for what to check."""
    uses, kinds = {}, {}
    for line in open(f"{root}/crates.txt", encoding="utf-8"):
        name, colon, below = line.partition("#")[0].partition(":")
        if colon:
            name, *kind = name.split()
            uses[name], kinds[name] = below.split(), kind
    main = "src/main.rt" if os.path.exists(f"{root}/crates/{crate}/src/main.rt") else "src/lib.rt"
    words = ["--crate-name", crate, main, "--jobs", "1", "--links", f"{crate}=", *(["--crate-type", *kinds[crate]] if kinds[crate] else [])]
    library = lambda it: f"{root}/crates/{it}/out/rlib/{it}.rlib" if it in uses else f"{KIT}/rlibs/{it}.rlib"
    words += [it for name in ("std", *uses[crate]) for it in ("--extern", f"{name}={library(name)}")]
    folders = [f"{KIT}/rlibs", *(f"{root}/crates/{it}/out/rlib" for it in uses)]
    words += [it for folder in folders for it in ("-L", f"dependency={folder}")]
    return [*words, "--antt-project", f"{KIT}/rattle/logic/antt-project.json", "--logic-built", f"{KIT}/logic_built"]


def main():
    root = os.path.realpath(f"{os.path.dirname(os.path.abspath(__file__))}/..")
    crate, *flags = sys.argv[1:]
    sys.exit(subprocess.run(["rattle", "check", *check_words(root, crate), *flags], cwd=f"{root}/crates/{crate}").returncode)


if __name__ == "__main__":
    main()
