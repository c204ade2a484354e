#!/usr/bin/env bash
# Runs the program from outside over scripts made of those of examples/, changed by bytes and by words, and over
# settings made likewise, in every mode that has an example. What is run depends on the seed alone.
#
# usage: [SEED=N] scripts/fuzz.sh [SECONDS]
#   SECONDS   for how long, by default 600
#   SEED      by default 1
#   PROGRAM   the program, by default the proved one, where `make run` has built it. Else `rt try` compiles the program with
#             checks of its own, in some three minutes more, and runs it over twenty scripts for each second.
#
# Before that the built program is run in each mode with a reader and with a writer that fail.
#
# It prints how many runs ended with which status in each mode. A run that crashes, hangs, ends with a status outside 0 to 5, or prints
# what no run with its status prints, is written to fuzz-found/, and the exit status is 1.
set -euo pipefail
cd "$(dirname "$0")/.."
exec python3 scripts/fuzz.py "${PROGRAM:-crates/txcache/out/txcache}" "${SEED:-1}" "${1:-600}"
