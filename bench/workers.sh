#!/usr/bin/env bash
# How long a name takes ahost with 1, 2 and 4 workers, beside a run without, where each callback works for some microseconds, by
# the program workers_bench: a load of names over a network in memory that loses. A round makes all four runs, one behind the
# other, in one process. Of all rounds the middle of the times, by the clock and by the processors, and of the ratios to the run
# without workers of the same round. It says most on a machine with four processors where nothing else runs.
# Build first: (cd crates/workers_bench && rt run). Usage: bench/workers.sh [PROGRAM [ROUNDS [NAMES [MICROSECONDS]]]]
set -euo pipefail
cd "$(dirname "$0")/.."
program=${1:-crates/workers_bench/out/workers_bench}
rounds=${2:-15}
names=${3:-4096}
micros=${4:-20}
echo "$names names, $micros microseconds of work a callback, $rounds rounds, $(nproc) processors"
for _ in $(seq "$rounds"); do
  "$program" load "$names" "$micros"
done | python3 -c '
import re, statistics, sys
names = int(sys.argv[1])
rounds, times = [], {}
for line in sys.stdin:
    workers, clock, processors, worked = map(int, re.findall(r"\d+", line))
    assert worked == names, line
    if workers == 0:
        rounds.append({})
    rounds[-1][workers] = (clock, processors)
for workers in rounds[0]:
    middle = [statistics.median(it[workers][kind] for it in rounds) / 1000 for kind in (0, 1)]
    faster = sorted(it[0][0] / it[workers][0] for it in rounds)
    dearer = sorted(it[workers][1] / it[0][1] for it in rounds)
    print(f"{workers} workers: {middle[0]:.1f} microseconds a name by the clock, {middle[1]:.1f} by the processors; "
          f"{statistics.median(faster):.2f} times the names a second ({faster[0]:.2f} to {faster[-1]:.2f}), "
          f"{statistics.median(dearer):.2f} times the processor time ({dearer[0]:.2f} to {dearer[-1]:.2f})")
' "$names"
