#!/usr/bin/env bash
# Runs the built program over each script of examples/, and compares its replies, its report where there is one, and its
# status. A script that ends in .txw is one of mode world, and one in .txb of mode batch, with the settings of the file beside it, if there
# is one. It prints only what differs.
set -euo pipefail
cd "$(dirname "$0")/.."
program=crates/txcache/out/txcache
replies=$(mktemp)
trap 'rm -f "$replies"' EXIT

for script in examples/*.txc; do
    wanted=0
    if grep -qE '^(refused |line [0-9]+: malformed$)' "${script%.txc}.out"; then wanted=1; fi
    for mode in node report; do
        output=${script%.txc}.out
        if [ $mode = report ]; then output=${script%.txc}.report; fi
        if [ ! -e "$output" ]; then continue; fi
        status=0
        "$program" $mode <"$script" >"$replies" || status=$?
        if [ "$status" != "$wanted" ] || ! diff "$replies" "$output"; then
            echo "run_examples.sh: $mode of $script: status $status, or other output than $output has" >&2
            exit 1
        fi
    done
done

for script in examples/*.txw examples/worlds/*.txw examples/*.txb; do
    name=${script%.tx?}
    mode=world
    if [ "$script" = "$name.txb" ]; then mode=batch; fi
    wanted=0
    if grep -qE '(^|[a-z0-9] )refused |^line [0-9]+: malformed$' "$name.out"; then wanted=1; fi
    settings=
    if [ -e "$name.settings" ]; then settings=$(<"$name.settings"); fi
    status=0
    "$program" "$mode" --settings="$settings" <"$script" >"$replies" || status=$?
    if [ "$status" != "$wanted" ] || ! diff "$replies" "$name.out"; then
        echo "run_examples.sh: $mode of $script: status $status, or other output than $name.out has" >&2
        exit 1
    fi
done
