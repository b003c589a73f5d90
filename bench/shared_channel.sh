#!/usr/bin/env bash
# What a request costs at a channel that threads share, beside a channel with one owner, by the program shared_channel_bench.
# In one thread: instructions a request under callgrind, from the difference of two runs.
# With 1, 2 and 4 threads that ask and deliver beside one that replies, each call in a turn of its own (times) or ten under
# one hold of the lock (many): the time of a request, and its ratio to that of the same number of requests at a channel
# with one owner in the same run; first alone and then beside as many busy loops as there are cores.
# Build first: (cd crates/shared_channel_bench && rt run)
set -euo pipefail
cd "$(dirname "$0")/.."
program=${1:-crates/shared_channel_bench/out/shared_channel_bench}
few=2000
many=12000

# instructions WORD REQUESTS: how many the program takes
instructions() {
  valgrind --tool=callgrind --callgrind-out-file=/dev/null "$program" "$1" "$2" 2>&1 >/dev/null | awk '/Collected/ { print $4 }'
}

# ratios WORD WHERE: the middle of seven runs for each number of threads
ratios() {
  for threads in 1 2 4; do
    for run in 1 2 3 4 5 6 7; do
      "$program" "$1" "$threads" 20000
    done | awk '{ printf "%.2f %.2f %.2f\n", $4 / $3, $3 / $2 / 1000, $4 / $2 / 1000 }' | sort -n |
      awk -v t="$threads" -v w="$1, $2" '{ ratio[NR] = $1; alone[NR] = $2; shared[NR] = $3 } END {
        print w ", " t " threads: " ratio[4] " times the time with one owner (seven runs: " ratio[1] " to " ratio[NR] "; in the middle one " shared[4] " and " alone[4] " microseconds a request)" }'
  done
}

# processor WHERE: the processor time of a request, at a channel with one owner, through one pass in one thread, and both
# ways in 1, 2 and 4 threads beside one that replies; the middle of five runs, of which those with threads are less the
# part with one owner
processor() {
  python3 - "$program" "$1" <<'E'
import resource, statistics, subprocess, sys
N = 40000
def spent(*words):
    before = resource.getrusage(resource.RUSAGE_CHILDREN)
    subprocess.run([sys.argv[1], *words, str(N)], stdout=subprocess.DEVNULL, check=True)
    behind = resource.getrusage(resource.RUSAGE_CHILDREN)
    return behind.ru_utime + behind.ru_stime - before.ru_utime - before.ru_stime
def middle(*words):
    return statistics.median(spent(*words) for _ in range(5))
alone, one = middle("alone"), middle("one")
print(f"{sys.argv[2]}, processor microseconds a request: one owner {alone / N * 1e6:.2f}, one pass {one / N * 1e6:.2f}")
for word in "times", "many":
    shared = [(threads, middle(word, str(threads)) - alone) for threads in (1, 2, 4)]
    print(f"{sys.argv[2]}, processor microseconds a request, {word}: "
          + ", ".join(f"{threads} threads {time / N * 1e6:.2f}" for threads, time in shared)
          + f"; with 4 threads {shared[2][1] / shared[0][1]:.2f} times what it is with 1")
E
}

for word in alone one; do
  a=$(instructions "$word" "$few")
  b=$(instructions "$word" "$many")
  echo "$word: $(((b - a) / (many - few))) instructions a request"
done
ratios times "as the machine is"
ratios many "as the machine is"
processor "as the machine is"
busy=()
trap 'kill "${busy[@]}" 2>/dev/null || true' EXIT
for _ in $(seq "$(nproc)"); do
  (while :; do :; done) &
  busy+=($!)
done
ratios times "beside other work"
ratios many "beside other work"
processor "beside other work"
