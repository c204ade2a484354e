#!/usr/bin/env bash
# Refuses each allocation of the tests in its turn, and each of the program over the examples: a test must pass all the
# same. It builds the tests with no proof, and proves and builds the program where it has changed.
#
# usage: [JOBS=N] [ROOM=FOLDER] scripts/refusals.sh [TEST..]
#   TEST    tries those alone whose name, as `txc_tests base::tags::sets_are_answered_as_worked`, contains one of these words
#   JOBS    how many runs go side by side, by default one a core
#   ROOM    keeps the built tests there, and takes those that are there: remove it where the sources changed
#
# A test that plays the rows of a table, which have nothing in common, is done with a refusal once it begins the next row.
# What it compares after the last row, as a sum over all, is seen where the last row is refused alone.
#
# It prints a line for each test: its rows, its allocations, how many of them were refused, how many of these runs ended
# badly, the first five of those, and the seconds of processor time. The last line is `N refusals, M ended badly`. The
# exit status is 0 only if M is 0.
set -euo pipefail
cd "$(dirname "$0")/.."

own=$(mktemp -d)
trap 'rm -rf "$own"' EXIT
trap 'exit 130' INT TERM

cc -shared -fPIC -O2 -o "$own/refuse.so" scripts/refuse.c
room=${ROOM:-$own/room}
mkdir -p "$room"
JOBS=${JOBS:-$(nproc)} python3 scripts/refusals.py "$own/refuse.so" "$(realpath "$room")" "$@"
