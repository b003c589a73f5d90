#!/bin/sh
# Instructions of a request in channel_table (an accept, a start, its reply of one A record and a take), with so many
# others in flight, from the difference of two runs; then bytes of a pending request and of a finished one, from the most
# memory of two runs.
# The channel keeps its journal, or doesn't where JOURNAL=untold.
# Proves and builds crates/channel_bench first. It wants `rt` (or RT), `valgrind` and `python3`; PROGRAM is one that
# is built already.
set -eu
cd "$(dirname "$0")/.."
program=${PROGRAM:-crates/channel_bench/out/channel_bench}
journal=${JOURNAL:-}
[ -n "${PROGRAM:-}" ] || (cd crates/channel_bench && ${RT:-rt} run > /dev/null 2>&1)
instructions() {
    valgrind --tool=callgrind --callgrind-out-file=/dev/null "$program" channel_table "$1" "$2" $journal \
        2>&1 >/dev/null | awk '/Collected/ { print $4 }'
}
kilobytes() {
    python3 -c 'import resource, subprocess, sys
subprocess.run(sys.argv[1:], stdout=subprocess.DEVNULL)
print(resource.getrusage(resource.RUSAGE_CHILDREN).ru_maxrss)' "$program" channel_table "$@" $journal
}
for window in ${WINDOWS:-100 1000 10000}; do
    few=$(instructions "$window" 1000)
    many=$(instructions "$window" 3000)
    echo "$window in flight: $(((many - few) / 2000)) instructions a request"
done
echo "pending: $((($(kilobytes 200000 -) - $(kilobytes 100000 -)) * 1024 / 100000)) bytes a request"
echo "finished: $((($(kilobytes 10 200000) - $(kilobytes 10 100000)) * 1024 / 100000)) bytes a request"
