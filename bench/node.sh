#!/usr/bin/env bash
# Times the node of two commits on the same scripts: processor time, lines a second and memory.
#
# usage: bench/node.sh OLD NEW [CAPACITY [LINES]]      OLD and NEW: programs that bench/node_build.sh made
#
# Each line: the workload, and of each program the least processor time of five runs, the lines that it
# answers in a second, and the most memory; then how many times as fast the second is.
set -euo pipefail
old=$(realpath "$1")
new=$(realpath "$2")
capacity=${3:-1024}
lines=${4:-200000}
cd "$(dirname "$0")"

room=$(mktemp -d)
trap 'rm -rf "$room"' EXIT
trap 'exit 130' INT TERM

# program, script, replies: the time in ms, and the memory in KB
run() {
    { /usr/bin/time -f '%U %S %M' "$1" node --settings "capacity = $capacity" <"$2" >"$3"; } 2>&1 |
        awk 'END { printf "%d %d\n", ($1 + $2) * 1000, $3 }'
}

for workload in hits evictions events wildcards mixed; do
    python3 node_scripts.py "$workload" "$capacity" "$lines" 1 >"$room/script"
    a='' b=''
    for _ in 1 2 3 4 5; do
        # The two run in turn, so that other work of the machine meets both.
        read -r ms akb < <(run "$old" "$room/script" "$room/old")
        if [ -z "$a" ] || [ "$ms" -lt "$a" ]; then a=$ms; fi
        read -r ms bkb < <(run "$new" "$room/script" "$room/new")
        if [ -z "$b" ] || [ "$ms" -lt "$b" ]; then b=$ms; fi
    done
    cmp "$room/old" "$room/new"
    awk -v w="$workload" -v n="$lines" -v a="$a" -v b="$b" -v akb="$akb" -v bkb="$bkb" 'BEGIN {
        if (a < 1) a = 1; if (b < 1) b = 1
        printf "%-10s %6d ms %9d /s %6d KB   %6d ms %9d /s %6d KB   %5.1f\n", w, a, n * 1000 / a, akb, b, n * 1000 / b, bkb, a / b
    }'
done
