#!/bin/sh
# Instructions that event_runner itself takes for a datagram, and for a query over a link with its reply, counted by valgrind:
# those of a run with a runner, less those of bare calls of the same channel and network.
# Proves and builds crates/channel_bench first (BUILT=1: takes the program as it stands). It wants `rt` (or RT) and `valgrind`.
set -eu
cd "$(dirname "$0")/.."
work=$(mktemp -d)
trap 'rm -rf "$work"' EXIT
bench=crates/channel_bench/out/channel_bench
[ -n "${BUILT:-}" ] || (cd crates/channel_bench && ${RT:-rt} run > "$work/run.log" 2>&1) || { cat "$work/run.log"; exit 1; }

# instructions TASK TIMES: those of the whole program
instructions() {
    valgrind --tool=callgrind --callgrind-out-file="$work/out" "$bench" event_runner "$1" "$2" 2>&1 >/dev/null |
        awk '/Collected/ { print $NF }'
}

# own TASK TIMES: those of the runner, for each of so many
own() {
    echo $((($(instructions "$1" "$2") - $(instructions "$1-bare" "$2")) / $2))
}

printf '%-22s %8s\n' 'a datagram' "$(own datagrams 64000)"
for queries in 1000 2000 4000 10000; do
    printf '%-22s %8s\n' "a query of $queries" "$(own link $queries)"
done
