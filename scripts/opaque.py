#!/usr/bin/env python3
"""Checks that nothing that is proved of crates/txc_c rests on what the functions of a caller in C say: proves it over other bodies of
`opaque_asks` (specs/Opaque.antt), with the libraries that `rt ci` (so `make prove`) has left in crates/*/out.

usage: scripts/opaque.py [BODY..] [-- FLAG..]
  BODY   asks or refuses, by default both: a function asks for a row, then calls another, and then gives its arguments; or it has no
         answer to any argument
  FLAG   the prover's, as scripts/check.py takes them

It takes as long as two checks of txc_c. It is run if txc_c changes, and no gate runs it. The last line is `N proved, M refused`, and the exit
status is 0 only if M is 0.
"""

import os
import shutil
import subprocess
import sys
import tempfile

from check import check_words

ROOT = os.path.realpath(f"{os.path.dirname(os.path.abspath(__file__))}/..")
CRATE, FILE = "txc_c", "specs/Opaque.antt"
# The lines of the file for which there are others.
VARIANTS = "use Rattle.txc_app.specs.declared.ask.Ask.TheVariants.{Done}\n"
PRELUDE = "use Rattle.std.specs.Prelude.{ℕ, List, [], Option, Some}\n"
BODY = "opaque_asks function args answers = Some (Done [])\n"
# Other bodies, by name: each with what stands in the place of these lines.
OTHERS = {
    "asks": {
        VARIANTS: "use Rattle.txc_app.specs.declared.ask.Ask.TheVariants.{Query, Call, Done}\n"
                  "use Rattle.txc_rows.specs.declared.query.Query.TheVariants.{ById}\n",
        PRELUDE: PRELUDE.replace("[],", "[], ◌∷◌,"),
        BODY: "opaque_asks function args [] = Some (Query (ById 1 function))\n"
              "opaque_asks function args (row ∷ []) = Some (Call (record { function = 0; args = args }))\n"
              "opaque_asks function args (row ∷ value ∷ more) = Some (Done args)\n",
    },
    "refuses": {VARIANTS: "", PRELUDE: PRELUDE.replace("[], Option, Some", "Option, None"), BODY: "opaque_asks function args answers = None\n"},
}


def with_body(folder, name):
    """Puts the other body of this name into a copy of the crate."""
    with open(f"{folder}/{FILE}", encoding="utf-8") as it:
        text = it.read()
    for old, new in OTHERS[name].items():
        if text.count(old) != 1:
            sys.exit(f"opaque.py: {FILE} has not one line {old.rstrip()}")
        text = text.replace(old, new)
    with open(f"{folder}/{FILE}", "w", encoding="utf-8") as it:
        it.write(text)


def is_proved(name, flags):
    """Whether the crate is proved over this other body. What the prover says is printed."""
    with tempfile.TemporaryDirectory(prefix="opaque-") as room:
        for part in ("src", "specs", "proofs"):
            shutil.copytree(f"{ROOT}/crates/{CRATE}/{part}", f"{room}/{part}")
        with_body(room, name)
        ran = subprocess.run(["rattle", "check", *check_words(ROOT, CRATE), *flags], cwd=room, check=False)
        print(f"{name}: {'NOT ' * bool(ran.returncode)}proved", flush=True)
        return not ran.returncode


def main():
    words = sys.argv[1:]
    at = words.index("--") if "--" in words else len(words)
    names = words[:at] or [*OTHERS]
    if unknown := [it for it in names if it not in OTHERS]:
        sys.exit(f"opaque.py: there is no body {unknown[0]}: there are {', '.join(OTHERS)}")
    proved = [is_proved(it, words[at + 1:]) for it in names]
    print(f"{sum(proved)} proved, {len(proved) - sum(proved)} refused")
    sys.exit(int(not all(proved)))


if __name__ == "__main__":
    main()
