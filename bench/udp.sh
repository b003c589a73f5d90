#!/usr/bin/env bash
# Processor time of a query over UDP through the channel, its runner and the real network, beside a bare loop that sends and
# receives, with 1, 100, 1,000 and 10,000 queries in flight, against a plain server of its own on loopback. The loop and the
# channel take turns, and the round whose ratio is the middle one is printed, with what was lost in all rounds. So that none is
# lost with 10,000 in flight the system has to give large receive buffers: `sysctl -w net.core.rmem_max=33554432`, as root.
# Build first: (cd crates/udp_bench && rt run). Usage: bench/udp.sh [PROGRAM [ROUNDS]]
set -euo pipefail
cd "$(dirname "$0")/.."
program=${1:-crates/udp_bench/out/udp_bench}
rounds=${2:-9}
port=5401
"$program" serve $port &
trap 'kill $! 2>/dev/null || true' EXIT
sleep 0.5
echo "receive buffers of at most $(cat /proc/sys/net/core/rmem_max) bytes"
for window in 1 100 1000 10000; do
  lines=$(for _ in $(seq "$rounds"); do "$program" ask $port $window 100000; done)
  sort -t ';' -k 3n <<<"$lines" | sed -n "$(((rounds + 1) / 2))p"
  awk '{ loop += $9; channel += $15 } END { print "  lost in all rounds: the loop " loop ", the channel " channel }' <<<"$lines"
done
