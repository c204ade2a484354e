#!/usr/bin/env bash
# Times the database by its processor time: queries, commits beside the store's own writes of the same changes, and
# vacuums. The program's source lies in bench/store_bench; it is proved and built in a temporary folder, over what is
# committed.
#
# usage: bench/store.sh [ROWS.. [/ EVENTS..]]      by default 1000 16000 100000 / 1000 16000 1000000
#        bench/store.sh --beside COMMIT [ROWS..]   the store beside that of another commit, whose libraries are proved for it
#
# ROWS are the sizes of the table that is asked, beside one of 1,000 rows; EVENTS the lengths of the history, at the
# first of the sizes. bench/store_bench/times.py says what the lines show.
set -euo pipefail
other=
if [ "${1-}" = --beside ]; then
    other=$2
    shift 2
fi
sizes=("$@")
if [ $# = 0 ]; then sizes=(1000 16000 100000); fi
if [ -z "$other" ] && [[ " ${sizes[*]} " != *" / "* ]]; then
    if [ $# = 0 ]; then sizes+=(/ 1000 16000 1000000); else sizes+=(/); fi
fi
cd "$(dirname "$0")/.."

room=$(mktemp -d)
trap 'rm -rf "$room"' EXIT
trap 'exit 130' INT TERM
source=$PWD/bench/store_bench

# Proves and builds the program over a commit, in a folder of its own.
build() {
    git clone --quiet . "$room/$1"
    git -C "$room/$1" checkout --quiet "$1"
    local bench=$room/$1/crates/store_bench
    mkdir -p "$bench/src"
    for file in main bench operation; do cp "$source/$file.rt.in" "$bench/src/$file.rt"; done
    echo 'store_bench: anyhow thiserror txc_stamp txc_tags txc_rows txc_stream txc_db' >>"$room/$1/crates.txt"
    # what earlier runs kept of the libraries spares their proofs, where they are of this commit
    for crate in txc_stamp txc_tags txc_rows txc_validity txc_stream txc_db; do
        if [ -d "crates/$crate/out" ]; then cp -a "crates/$crate/out" "$room/$1/crates/$crate/"; fi
    done
    (cd "$bench" && rt run) >"$room/said" 2>&1 </dev/null || {
        cat "$room/said" >&2
        echo 'store.sh: the program was not proved or not run' >&2
        exit 1
    }
}

own=$(git rev-parse HEAD)
build "$own"
program=$room/$own/crates/store_bench/out/store_bench
if [ -n "$other" ]; then
    other=$(git rev-parse "$other")
    build "$other"
    python3 "$source/beside.py" "$program" "$room/$other/crates/store_bench/out/store_bench" "${sizes[@]}"
else
    python3 "$source/times.py" "$program" "${sizes[@]}"
fi
