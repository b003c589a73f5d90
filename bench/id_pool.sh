#!/bin/sh
# Instructions of each call of id_pool, from the difference of two runs, less those of the loop around it.
# Proves and builds crates/parts_bench first. It wants `rt` (or RT) and `valgrind`; PROGRAM is one that is built already.
set -eu
cd "$(dirname "$0")/.."
program=${PROGRAM:-crates/parts_bench/out/parts_bench}
[ -n "${PROGRAM:-}" ] || (cd crates/parts_bench && ${RT:-rt} run > /dev/null 2>&1)
instructions() {
    valgrind --tool=callgrind --callgrind-out-file=/dev/null "$program" id_pool "$1" "$2" "$3" \
        2>&1 >/dev/null | awk '/Collected/ { print $4 }'
}
step() {
    echo $((($(instructions "$1" 110000 "$2") - $(instructions "$1" 10000 "$2")) / 10000))
}
for used in 100 10000 60000 65535; do
    loop=$(step "$used" 0)
    for call in 1 2 3; do
        echo "$used $call $loop $(step "$used" "$call")"
    done | awk '{
        name = $2 == 1 ? "first_free" : $2 == 2 ? "is_used" : "take and give_back"
        printf "%6d in use, %-18s %6.1f\n", $1, name, ($4 - $3) / 10
    }'
done
