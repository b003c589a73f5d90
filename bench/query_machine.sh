#!/bin/sh
# Instructions that query_machine takes to build a query, to pass over a stray and to take a reply, counted by valgrind.
# Proves and builds crates/parts_bench first. It wants `rt` (or RT) and `valgrind`.
set -eu
cd "$(dirname "$0")/.."
work=$(mktemp -d)
trap 'rm -rf "$work"' EXIT
(cd crates/parts_bench && ${RT:-rt} run > "$work/run.log" 2>&1) || { cat "$work/run.log"; exit 1; }
bench=crates/parts_bench/out/parts_bench

# instructions TASK TIMES: those of the whole program
instructions() {
    valgrind --tool=callgrind --callgrind-out-file="$work/out" "$bench" query_machine "$1" "$2" 2>&1 >/dev/null |
        awk '/Collected/ { print $NF }'
}

printf '%-12s %12s\n' call instructions
for task in query query-opt stray reply; do
    once=$(instructions "$task" 1000)
    twice=$(instructions "$task" 2000)
    printf '%-12s %12d\n' "$task" $(((twice - once) / 1000))
done
