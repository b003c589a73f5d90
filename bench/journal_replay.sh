#!/bin/sh
# Instructions for each entry of a stored run of 4,096 entries, counted by valgrind, from the difference of two runs: a
# check of its journal and the putting of its text, beside the making of the run alone, and the reading of the text, beside
# its putting. Then the memory that a check takes beside the run's own, from the most memory of the two, at 200,000 entries.
# Proves and builds crates/channel_bench first. It wants `rt` (or RT), `valgrind` and `python3`; PROGRAM is one that
# is built already.
set -eu
cd "$(dirname "$0")/.."
program=${PROGRAM:-crates/channel_bench/out/channel_bench}
[ -n "${PROGRAM:-}" ] || (cd crates/channel_bench && ${RT:-rt} run > /dev/null 2>&1)
instructions() {
    valgrind --tool=callgrind --callgrind-out-file=/dev/null "$program" journal_replay "$@" \
        2>&1 >/dev/null | awk '/Collected/ { print $4 }'
}
kilobytes() {
    python3 -c 'import resource, subprocess, sys
subprocess.run(sys.argv[1:], stdout=subprocess.DEVNULL)
print(resource.getrusage(resource.RUSAGE_CHILDREN).ru_maxrss)' "$program" journal_replay "$@"
}
made=$(instructions make 1024)
put=$(instructions put 1024)
echo "check: $((($(instructions check 1024) - made) / 4096)) instructions an entry"
echo "put: $(((put - made) / 4096)) instructions an entry"
echo "read: $((($(instructions read 1024) - put) / 4096)) instructions an entry"
echo "check: $((($(kilobytes check 50000) - $(kilobytes make 50000)) * 1024 / 200000)) bytes an entry"
