#!/bin/sh
# Instructions that a turn of a whole run of `adig` takes, in runs of 100 to 10,000 turns, counted by valgrind: those of the run,
# less those of bare calls of the same network.
# Proves and builds crates/channel_bench first (BUILT=1: takes the program as it stands). It wants `rt` (or RT) and `valgrind`.
set -eu
cd "$(dirname "$0")/.."
work=$(mktemp -d)
trap 'rm -rf "$work"' EXIT
bench=crates/channel_bench/out/channel_bench
[ -n "${BUILT:-}" ] || (cd crates/channel_bench && ${RT:-rt} run > "$work/run.log" 2>&1) || { cat "$work/run.log"; exit 1; }

# instructions TASK TURNS: those of the whole program
instructions() {
    valgrind --tool=callgrind --callgrind-out-file="$work/out" "$bench" adig_tool "$1" "$2" 2>&1 >/dev/null |
        awk '/Collected/ { print $NF }'
}

# own TURNS: those of a run without the network's
own() {
    echo $(($(instructions run "$1") - $(instructions bare "$1")))
}

start=$(own 0)
for turns in 100 1000 10000; do
    printf '%6d turns: %6d instructions a turn\n' "$turns" "$((($(own $turns) - start) / turns))"
done
