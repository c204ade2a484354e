"""Reads of a script of TxCache: its mode by its name, its settings, and which replies stand beside which lines."""

import glob
import os
import re
import sys

KEYS = f"{os.path.dirname(os.path.abspath(__file__))}/../crates/txc_script_settings/src/keys.rt"

# The modes of a script by the ending of its file, the usual one first.
MODES = {".txc": ["node", "report"], ".txw": ["world"], ".txb": ["batch"]}


def scripts_of(words):
    """The files that these words name: a word that is no file is a pattern of names."""
    found = []
    for word in words:
        files = [word] if os.path.isfile(word) else sorted(it for it in glob.glob(word) if os.path.isfile(it))
        if not files:
            sys.exit(refused(f"{word}: no such script"))
        found += files
    return found


def mode_of(script, wanted):
    """The mode in which a script is run: the one that is wanted, where its ending allows it."""
    modes = MODES.get(os.path.splitext(script)[1])
    if modes is None:
        sys.exit(refused(f"{script}: a script's name ends in .txc (node, report), .txw (world) or .txb (batch)"))
    if wanted and wanted not in modes:
        sys.exit(refused(f"{script}: its modes are {', '.join(modes)}, and not {wanted}"))
    return wanted or modes[0]


def settings_of(script, wanted):
    """The settings of a script: those that are wanted, or those of the file beside it."""
    beside = os.path.splitext(script)[0] + ".settings"
    if wanted is None and os.path.isfile(beside):
        with open(beside, encoding="utf-8") as it:
            return it.read().strip()
    return wanted or ""


def say(said):
    """Prints what the program said on standard error, and of a key of the settings that there is none such."""
    with open(KEYS, encoding="utf-8") as it:
        keys = re.findall(r'"(\w+)" => Some\(', it.read())
    for line in said.splitlines():
        print(line, file=sys.stderr)
        key = re.fullmatch(r"settings: (?!not TOML$)(.*)", line)
        if key and key[1] not in keys:
            print(f"there is no setting `{key[1]}`; there are {', '.join(keys)}", file=sys.stderr)


def refused(why):
    """Says on standard error why a command does nothing, and returns its status."""
    print(why, file=sys.stderr)
    return 2


def beside(script, replies):
    """The lines of a script, each command with its reply beside it, and then the replies that are left."""
    left, shown = replies.splitlines(), []
    for line in script.splitlines():
        is_command = line.strip() and not line.startswith("#") and left
        shown.append(f"{line:<37} {left.pop(0)}" if is_command else line)
    return shown + left
