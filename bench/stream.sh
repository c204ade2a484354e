#!/usr/bin/env bash
# Times the operations of event rows by a clock outside the program. The program's source lies in
# bench/stream_bench; it is proved and built in a temporary folder, over what is committed.
#
# usage: bench/stream.sh [CELLS]      CELLS: 1 to 1,048,576, by default 1,048,576
#
# Each line: the operation, and the time of one run of it: the difference of two runs of the
# program, which make the same row, divided by the operations that the longer one makes more.
# `append` and `next` are times of one record.
set -euo pipefail
cells=${1:-1048576}
cd "$(dirname "$0")/.."

room=$(mktemp -d)
trap 'rm -rf "$room"' EXIT
trap 'exit 130' INT TERM

git clone --quiet . "$room/repository"
source=$PWD/bench/stream_bench
bench=$room/repository/crates/stream_bench
mkdir -p "$bench"/src "$bench"/proofs/operation/{filled,next}
cp "$source/main.rt.in" "$bench/src/main.rt"
cp "$source/operation.rt.in" "$bench/src/operation.rt"
cp "$source/filled.antt.in" "$bench/proofs/operation/filled/Invariants.antt"
cp "$source/next.antt.in" "$bench/proofs/operation/next/Invariants.antt"
echo 'stream_bench: anyhow thiserror txc_stream' >>"$room/repository/crates.txt"
# what earlier runs kept of the library spares its proof
if [ -d crates/txc_stream/out ]; then
    cp -a crates/txc_stream/out "$room/repository/crates/txc_stream/"
fi
(cd "$bench" && rt run) >"$room/said" 2>&1 || {
    cat "$room/said" >&2
    echo 'stream.sh: the program was not proved or not run' >&2
    exit 1
}
program=$bench/out/stream_bench

# the least of five runs, in nanoseconds
nanoseconds() {
    local least='' start end
    for _ in 1 2 3 4 5; do
        start=$(date +%s%N)
        "$program" "$1" "$cells" "$2" >/dev/null
        end=$(date +%s%N)
        if [ -z "$least" ] || [ $((end - start)) -lt "$least" ]; then least=$((end - start)); fi
    done
    echo "$least"
}

# operation, few and many times, operations in each time
line() {
    local few many
    few=$(nanoseconds "$1" "$2")
    many=$(nanoseconds "$1" "$3")
    awk -v name="$1" -v d="$((many - few))" -v n="$((($3 - $2) * $4))" \
        'BEGIN { if (d < 0) d = 0; printf "%-7s %12.1f ns\n", name, d / n }'
}

echo "cells $cells"
line new 1 11 1
line start 0 1000000 1
line again 0 1000000 1
line longer 0 1000000 1
line agree 0 100000000 1
line append 1 6 "$cells"
line next 1 21 "$cells"
line get 1 21 "$cells"
