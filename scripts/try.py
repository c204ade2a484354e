#!/usr/bin/env python3
"""Prints what the program makes of scripts, from a fresh clone in some four minutes of one core. It proves nothing:
`rt try` compiles the program with checks of its own, and runs it.

usage: scripts/try.py [--mode MODE] [--settings TEXT] SCRIPT..
  SCRIPT      a file, or a pattern of names; all of one mode, which their ending tells: .txc node, .txw world, .txb batch
  MODE        `report` for the report of a .txc script
  TEXT        the settings; else those of the file SCRIPT.settings beside it, where there is one

Each command stands with its reply beside it. What the program says on standard error stands there, before the replies. The exit
status is the greatest of the program's.
"""

import argparse
import os
import re
import subprocess
import sys
import tempfile

from script_files import beside, mode_of, refused, say, scripts_of, settings_of


def main():
    words = argparse.ArgumentParser(usage=__doc__.partition("usage: ")[2].partition("\n")[0])
    words.add_argument("--mode", default="")
    words.add_argument("--settings")
    words.add_argument("script", nargs="+")
    given = words.parse_args()
    found = [(it, mode_of(it, given.mode), settings_of(it, given.settings)) for it in scripts_of(given.script)]
    if len({tuple(how) for _, *how in found}) > 1:
        sys.exit(refused("these scripts have several modes or settings: try those of one at a time"))
    print("compiling, some four minutes of one core ..", file=sys.stderr, flush=True)
    replies, statuses, said = run(found)
    say(said)
    for number, (script, mode, _) in enumerate(found):
        if number not in statuses:
            sys.exit(refused(f"{script}: it was not run"))
        if len(found) > 1:
            print(f"== {script}")
        with open(script, encoding="utf-8", errors="replace") as it:
            text = it.read()
        print("\n".join(beside(text, replies[number]) if mode in ("node", "world") else replies[number].splitlines()))
    print(f"tried, and not proved: `make run` has the proved program; status {max(statuses.values())}", file=sys.stderr)
    sys.exit(max(statuses.values()))


def run(found):
    """What the program prints for each script, by its place, its statuses, and what is said on standard error."""
    with tempfile.TemporaryDirectory(prefix="try-") as room:
        for number, (script, mode, settings) in enumerate(found):
            with open(script, "rb") as it, open(f"{room}/{number:05}", "wb") as to:
                to.write(it.read())
            with open(f"{room}/{number:05}.args", "w", encoding="utf-8") as to:
                to.write("\n".join([mode, *(["--settings", settings] if settings else [])]) + "\n")
        program = f"{os.path.dirname(os.path.abspath(__file__))}/../crates/txcache"
        ran = subprocess.run(["rt", "try", "--cases", room], cwd=program, stdout=subprocess.PIPE, stderr=subprocess.PIPE, text=True,
                             errors="replace")
    replies = dict.fromkeys(range(len(found)), "")
    for head, text in re.findall(r"^== (\d{5})\n((?:(?!== \d{5}$).*\n?)*)", ran.stdout, re.M):
        replies[int(head)] = text.rstrip("\n")
    statuses, said = {}, []
    for line in ran.stderr.splitlines():
        end = re.match(r"case=(\d{5}) run=ended status=(\d+)", line)
        if end:
            statuses[int(end[1])] = int(end[2])
        elif not line.startswith("cases="):
            said.append(line)
    return replies, statuses, "\n".join(said)


main()
