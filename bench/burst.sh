#!/usr/bin/env bash
# 4,096 names that ahost asks of tns at once over UDP, on a loopback of its own: how many had an answer, in what time. Needs root
# for `unshare -n`. What the system gives of the receive buffers that both ask for is told first (net.core.rmem_max).
# Build first: (cd crates/ahost && rt run), (cd crates/tns && rt run). Usage: bench/burst.sh [AHOST [TNS [ROUNDS]]]
set -euo pipefail
cd "$(dirname "$0")/.."
ahost=$(realpath "${1:-crates/ahost/out/ahost}")
tns=$(realpath "${2:-crates/tns/out/tns}")
rounds=${3:-5}
port=5397
if [ -z "${IN_ITS_OWN_NETWORK:-}" ]; then
  echo "receive buffers of at most $(cat /proc/sys/net/core/rmem_max) bytes"
  IN_ITS_OWN_NETWORK=1 exec unshare -n "$0" "$ahost" "$tns" "$rounds"
fi
ip link set lo up
work=$(mktemp -d)
trap 'kill $(jobs -p) 2>/dev/null || true; wait 2>/dev/null || true; rm -rf "$work"' EXIT

names=$(seq -f 'h%.0f.burst' 0 4095)
for number in $(seq 0 4095); do
  echo "h$number.burst. 60 A 10.0.$((number / 256)).$((number % 256))"
done > "$work/zone"
# so many messages that one server serves all rounds, with those that are asked again
"$tns" --port $port --zone "$work/zone" --count 65535 &
sleep 0.5

for round in $(seq "$rounds"); do
  begin=$(date +%s%N)
  # shellcheck disable=SC2086 # each name is a word
  "$ahost" --resolv /dev/null --hosts /dev/null --server 127.0.0.1 --port $port --family 4 $names > "$work/page" || true
  end=$(date +%s%N)
  answered=$(grep -c ' 0 SUCCESS$' "$work/page" || true)
  late=$(grep -c ' 12 ETIMEOUT$' "$work/page" || true)
  echo "round $round: $answered answered, $late timed out, $(((end - begin) / 1000000)) ms"
done
