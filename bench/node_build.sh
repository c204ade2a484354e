#!/usr/bin/env bash
# Proves and builds mode node of a commit of this repository, by itself: a program of bench/node_lines, over the six crates that mode has.
#
# usage: bench/node_build.sh COMMIT PROGRAM
set -euo pipefail
cd "$(dirname "$0")/.."
room=$(mktemp -d)
trap 'rm -rf "$room"' EXIT
trap 'exit 130' INT TERM

git clone --quiet . "$room/repository"
git -C "$room/repository" checkout --quiet "$1"
crate=$room/repository/crates/node_lines
mkdir -p "$crate/src"
cp bench/node_lines/src/main.rt.in "$crate/src/main.rt"
# a later run is told of which type the faults are that lines of a node alone have: of none
if grep -q 'fn run<F' "$room/repository/crates/txc_script_node/src/running.rt"; then
    sed -i 's/run(alloc/run::<std::convert::Infallible, _, _>(alloc/' "$crate/src/main.rt"
fi
echo 'node_lines: txc_script_node txc_script_settings anyhow' >>"$room/repository/crates.txt"
(cd "$crate" && rt run -- node --settings 'capacity = 10' </dev/null) >"$room/said" 2>&1 || {
    cat "$room/said" >&2
    echo 'node_build.sh: the program was not proved or not run' >&2
    exit 1
}
cp "$crate/out/node_lines" "$2"
