#!/usr/bin/env bash
# Times the reading and writing of lines by two programs, on nodes of ten entries.
#
# usage: bench/text.sh OLD NEW [LINES [RUNS]]      OLD and NEW: programs that bench/node_build.sh made
#
# Each line: the kind of script, of each program the least processor time a line of so many runs (seven), and how many
# times as fast the second is. The last line: the most memory of NEW on 10,000 and on 10,000,000 lines.
set -euo pipefail
old=$(realpath "$1")
new=$(realpath "$2")
lines=${3:-1000000}
runs=${4:-7}
cd "$(dirname "$0")"

room=$(mktemp -d)
trap 'rm -rf "$room"' EXIT
trap 'exit 130' INT TERM

# program, script, replies: the time in microseconds
run() {
    python3 cost.py "$2" "$3" "$1" node --settings "capacity = 10"
}

# program, script: the memory in KB
memory() {
    { /usr/bin/time -f '%M' "$1" node --settings "capacity = 10" <"$2" >/dev/null; } 2>&1
}

for kind in hits misses events slashed_events empty_events insertions slashed_insertions comments; do
    python3 text_scripts.py "$kind" "$lines" >"$room/script"
    # OLD reads the same tags in their usual spelling, since it may know no other.
    python3 text_scripts.py "${kind#slashed_}" "$lines" >"$room/usual"
    a='' b=''
    for ((i = 0; i < runs; i++)); do
        # The two run in turn, so that other work of the machine meets both.
        time=$(run "$old" "$room/usual" "$room/old")
        if [ -z "$a" ] || [ "$time" -lt "$a" ]; then a=$time; fi
        time=$(run "$new" "$room/script" "$room/new")
        if [ -z "$b" ] || [ "$time" -lt "$b" ]; then b=$time; fi
    done
    cmp "$room/old" "$room/new"
    awk -v k="$kind" -v n="$lines" -v a="$a" -v b="$b" 'BEGIN {
        printf "%-18s %6d ns %6d ns   %5.2f\n", k, a * 1000 / n, b * 1000 / n, a / b
    }'
done

python3 text_scripts.py hits 10000 >"$room/script"
few=$(memory "$new" "$room/script")
python3 text_scripts.py hits 10000000 >"$room/script"
many=$(memory "$new" "$room/script")
echo "memory of 10,000 and of 10,000,000 lines: $few KB and $many KB"
