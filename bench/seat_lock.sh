#!/usr/bin/env bash
# What a turn of seat_lock costs beside std's Mutex, by the words `lock ..` of the program shared_channel_bench.
# Without contention: instructions a turn under callgrind, from the difference of two runs.
# With 1, 2 and 4 threads: the ratio of the times in one run, first alone and then beside as many busy loops as there are cores.
# Build first: (cd crates/shared_channel_bench && rt run)
set -euo pipefail
cd "$(dirname "$0")/.."
program=${1:-crates/shared_channel_bench/out/shared_channel_bench}
few=10000
many=110000

# instructions WORD TURNS: how many the program takes
instructions() {
  valgrind --tool=callgrind --callgrind-out-file=/dev/null "$program" lock "$1" "$2" 2>&1 >/dev/null | awk '/Collected/ { print $4 }'
}

# ratios WHERE: the middle of seven runs for each number of threads
ratios() {
  for threads in 1 2 4; do
    for run in 1 2 3 4 5 6 7; do
      "$program" lock times "$threads" 50000
    done | awk '{ printf "%.2f\n", $3 / $4 }' | sort -n |
      awk -v t="$threads" -v w="$1" '{ ratio[NR] = $1 } END { print w ", " t " threads: " ratio[4] " times the time of the Mutex (seven runs: " ratio[1] " to " ratio[NR] ")" }'
  done
}

for word in seat held mutex; do
  a=$(instructions "$word" "$few")
  b=$(instructions "$word" "$many")
  echo "$word: $(((b - a) / (many - few))) instructions a turn"
done
ratios "as the machine is"
busy=()
trap 'kill "${busy[@]}" 2>/dev/null || true' EXIT
for _ in $(seq "$(nproc)"); do
  (while :; do :; done) &
  busy+=($!)
done
ratios "beside other work"
