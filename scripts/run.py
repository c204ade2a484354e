#!/usr/bin/env python3
"""Prints what the proved program makes of a script, and proves and builds it first where it has to.

usage: scripts/run.py [--mode MODE] [--settings TEXT] SCRIPT
  SCRIPT      its mode is told by its ending: .txc node, .txw world, .txb batch
  MODE        `report` for the report of a .txc script
  TEXT        the settings; else those of the file SCRIPT.settings beside it, where there is one

The exit status is the program's. While it is built, a line is printed for each crate.
"""

import argparse
import os
import re
import shutil
import subprocess
import sys
import tempfile
import time

import cpu
from script_files import mode_of, refused, say, scripts_of, settings_of

ROOT = f"{os.path.dirname(os.path.abspath(__file__))}/.."
PROGRAM = f"{ROOT}/crates/txcache/out/txcache"


def main():
    words = argparse.ArgumentParser(usage=__doc__.partition("usage: ")[2].partition("\n")[0])
    words.add_argument("--mode", default="")
    words.add_argument("--settings")
    words.add_argument("script")
    given = words.parse_args()
    scripts = scripts_of([given.script])
    if len(scripts) > 1:
        sys.exit(refused(f"{given.script}: one script at a time (`make try` takes several)"))
    mode, settings = mode_of(scripts[0], given.mode), settings_of(scripts[0], given.settings)
    if not is_fresh():
        build()
    with open(scripts[0], "rb") as script:
        ran = subprocess.run([PROGRAM, mode, *(["--settings", settings] if settings else [])], stdin=script, stderr=subprocess.PIPE,
                             text=True, errors="replace")
    say(ran.stderr)
    status = ran.returncode
    if status:
        print(f"run: status {status} (docs/SCRIPTS.md has what it means)", file=sys.stderr)
    sys.exit(status)


def lines():
    """The line of each crate of crates.txt, the lowest first."""
    found = {}
    with open(f"{ROOT}/crates.txt", encoding="utf-8") as it:
        for line in it:
            name, colon, _ = line.partition("#")[0].partition(":")
            if colon:
                found[name.split()[0]] = line
    return found


def crates(of="txcache"):
    """A crate and those below it, the lowest first, each with its line of crates.txt: by default the program's."""
    all_lines, found = lines(), {}

    def add(name):
        for below in all_lines[name].partition(":")[2].split():
            if below in all_lines and below not in found:
                add(below)
        found[name] = all_lines[name]

    add(of)
    return found


def minutes(of="txcache"):
    """How many minutes of one core a crate and those below it took to prove and to build when the gate was last measured from nothing."""
    needed = crates(of)
    return round(sum(it.cpu for it in cpu.read(f"{ROOT}/docs/gate.tsv") if it.crate in needed and it.kind in ("proof", "build")) / 60)


def is_fresh(made_file=PROGRAM, of="txcache"):
    """Whether what is made of a crate stands, and no source of it is newer."""
    if not os.path.exists(made_file):
        return False
    made = os.stat(made_file).st_mtime
    folders = [f"{ROOT}/crates/{name}/{part}" for name in crates(of) for part in ("src", "specs", "proofs")]
    files = [f"{at}/{name}" for folder in folders for at, _, names in os.walk(folder) for name in names]
    return all(os.stat(it).st_mtime <= made for it in [f"{ROOT}/crates.txt", *files])


def build(of="txcache", made="txcache", to=PROGRAM, finish=lambda room: None):
    """Proves a crate and those below it with the gate's command, in a copy that has no others, has it finished there, and takes what is
    made of it."""
    lines, begun, number = crates(of), time.time(), 0
    print(f"run: proving {len(lines)} crates: {minutes(of)} minutes of one core and more where nothing is kept, as many crates at once as there are"
          " cores", file=sys.stderr)
    with tempfile.TemporaryDirectory(prefix="run-") as room:
        with open(f"{room}/crates.txt", "w", encoding="utf-8") as it:
            it.writelines(lines.values())
        shutil.copy(f"{ROOT}/HANDLES", room)
        for name in lines:
            shutil.copytree(f"{ROOT}/crates/{name}", f"{room}/crates/{name}", ignore=shutil.ignore_patterns("out", "wrong-bodies"))
        jobs = os.environ.get("RT_JOBS", str(os.cpu_count()))
        ran = subprocess.Popen(["rt", "ci"], cwd=room, env={**os.environ, "RT_JOBS": jobs}, stdout=subprocess.PIPE,
                               stderr=subprocess.STDOUT, text=True, errors="replace")
        said = []
        for line in ran.stdout:
            said.append(line)
            proved = re.match(r"rt: (\w+) (proved|is kept)", line)
            if proved:
                number += 1
                print(f"proved {proved[1]}, {number} of {len(lines)}, {time.time() - begun:.0f} s", file=sys.stderr, flush=True)
        if not ran.wait():
            finish(room)
        if ran.returncode or not os.path.exists(f"{room}/crates/{of}/out/{made}"):
            sys.stderr.writelines(said[-20:])
            sys.exit(refused(f"run: {made} was not built: `rt ci` ended with status {ran.returncode}"))
        os.makedirs(os.path.dirname(to), exist_ok=True)
        shutil.copy(f"{room}/crates/{of}/out/{made}", f"{to}.new")
        os.replace(f"{to}.new", to)


if __name__ == "__main__":
    main()
