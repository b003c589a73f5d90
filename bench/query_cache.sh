#!/bin/sh
# Instructions that a look into a cache takes, a hit and a miss, counted by valgrind: the difference of two runs over a
# number of looks, the loop around them among them.
# Proves and builds crates/parts_bench first. It wants `rt` (or RT) and `valgrind`.
set -eu
cd "$(dirname "$0")/.."
work=$(mktemp -d)
trap 'rm -rf "$work"' EXIT
(cd crates/parts_bench && ${RT:-rt} run > "$work/run.log" 2>&1) || { cat "$work/run.log"; exit 1; }
bench=crates/parts_bench/out/parts_bench

# instructions TASK ANSWERS LOOKS: those of the whole program
instructions() {
    valgrind --tool=callgrind --callgrind-out-file="$work/out" "$bench" query_cache "$1" "$2" "$3" 2>&1 >/dev/null |
        awk '/Collected/ { print $NF }'
}

printf '%-8s %10s %14s\n' look answers instructions
for answers in 1000 65536; do
    for task in hit miss; do
        few=$(instructions $task $answers 1000)
        many=$(instructions $task $answers 101000)
        printf '%-8s %10d %14d\n' $task $answers $(((many - few) / 100000))
    done
done
