#!/bin/sh
# Instructions that dns_message takes to read and to write a message and to build a query, counted by valgrind,
# and the nanoseconds that its dearest message of 65,535 bytes takes.
# Proves and builds crates/parts_bench first. It wants `rt` (or RT) and `valgrind`.
set -eu
cd "$(dirname "$0")/.."
work=$(mktemp -d)
trap 'rm -rf "$work"' EXIT
(cd crates/parts_bench && ${RT:-rt} run > "$work/run.log" 2>&1) || { cat "$work/run.log"; exit 1; }
bench=crates/parts_bench/out/parts_bench

# instructions TASK TIMES: those of the whole program
instructions() {
    valgrind --tool=callgrind --callgrind-out-file="$work/out" "$bench" dns_message "$1" "$2" 2>&1 >/dev/null |
        awk '/Collected/ { print $NF }'
}

# each TASK MANY: the instructions of one call, from so many and from twice as many
each() {
    once=$(instructions "$1" "$2")
    twice=$(instructions "$1" $(($2 * 2)))
    printf '%-18s %12d\n' "$1" $(((twice - once) / $2))
}

printf '%-18s %12s\n' call instructions
for task in decode-mixed decode-addresses encode-mixed encode-addresses query query-from-text mixed; do
    each $task 1000
done
each decode-chained 1
start=$(date +%s%N)
"$bench" dns_message decode-chained 10 > /dev/null
end=$(date +%s%N)
printf '%-18s %12d microseconds\n' decode-chained $(((end - start) / 10000))
