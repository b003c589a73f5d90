#!/bin/sh
# Instructions that a query and its reply take through a network with cookies beyond what they take without, counted by valgrind:
# the difference of two runs over a number of queries, less that of the same network alone.
# Proves and builds crates/parts_bench first (BUILT=FILE: takes this program as it stands). It wants `rt` (or RT) and `valgrind`.
set -eu
cd "$(dirname "$0")/.."
work=$(mktemp -d)
trap 'rm -rf "$work"' EXIT
bench=${BUILT:-crates/parts_bench/out/parts_bench}
[ -n "${BUILT:-}" ] || (cd crates/parts_bench && ${RT:-rt} run > "$work/run.log" 2>&1) || { cat "$work/run.log"; exit 1; }

# instructions TASK QUERIES IDS: those of the whole program
instructions() {
    valgrind --tool=callgrind --callgrind-out-file="$work/out" "$bench" cookie_world "$1" "$2" "$3" 2>&1 >/dev/null |
        awk '/Collected/ { print $NF }'
}

# each TASK IDS: those of one query and its reply
each() {
    few=$(instructions "$1" 2000 "$2")
    many=$(instructions "$1" 12000 "$2")
    echo $(((many - few) / 10000))
}

printf '%-12s %12s %8s %8s\n' identifiers 'with cookies' without more
for ids in 1 16 128 1000; do
    with=$(each cookies $ids)
    without=$(each bare $ids)
    printf '%-12d %12d %8d %8d\n' $ids "$with" "$without" $((with - without))
done
