#!/bin/sh
# Instructions of a query in leg_index (a put, a first, a first_free, a begin, a drop_first, a leg and an end), from the
# difference of two runs, the loop's own included.
# Proves and builds crates/parts_bench first. It wants `rt` (or RT) and `valgrind`; PROGRAM is one that is built already.
set -eu
cd "$(dirname "$0")/.."
program=${PROGRAM:-crates/parts_bench/out/parts_bench}
[ -n "${PROGRAM:-}" ] || (cd crates/parts_bench && ${RT:-rt} run > /dev/null 2>&1)
instructions() {
    valgrind --tool=callgrind --callgrind-out-file=/dev/null "$program" leg_index "$1" "$2" \
        2>&1 >/dev/null | awk '/Collected/ { print $4 }'
}
for legs in 100 1000 10000 60000; do
    few=$((legs * 4))
    many=$((few + 60000))
    steps=$((($(instructions "$legs" "$many") - $(instructions "$legs" "$few")) / 60000))
    echo "$legs legs in flight: $steps instructions a query"
done
