#!/usr/bin/env bash
# Times the first command that docs/SCRIPTS.md shows, in a fresh clone of what is committed: by the clock, and of the processor.
# The status is 1 where the clock says more than twice the minutes that SCRIPTS says, or the replies are others.
#
# usage: bench/first.sh
set -euo pipefail
cd "$(dirname "$0")/.."
line=$(grep -m1 '^    make try' docs/SCRIPTS.md)
script=$(sed -n 's/.*SCRIPT=\([^ ]*\).*/\1/p' <<<"$line")
minutes=$(sed -n 's/.* in \([0-9]*\) minutes.*/\1/p' <<<"$line")

room=$(mktemp -d)
trap 'rm -rf "$room"' EXIT
trap 'exit 130' INT TERM
git clone --quiet . "$room/repository"
cd "$room/repository"
TIMEFORMAT='%R %U %S'
took=$( { time make try SCRIPT="$script" >"$room/said" 2>"$room/faults"; } 2>&1) || { cat "$room/faults" >&2; exit 1; }
read -r clock user system <<<"$took"
awk -v clock="$clock" -v user="$user" -v system="$system" -v minutes="$minutes" 'BEGIN {
    printf "%.0f s by the clock, %.0f s of the processor; SCRIPTS says %d minutes\n", clock, user + system, minutes
    exit clock > 2 * 60 * minutes }'
awk 'NR == FNR { wanted[NR] = $0; next } { if (index($0, wanted[FNR]) == 0) exit 1 }' "${script%.*}.out" "$room/said" ||
    { echo "first.sh: other replies than those of ${script%.*}.out" >&2; exit 1; }
