#!/usr/bin/env bash
# adig, ahost, ahost --load, ahost --workers and tns with little memory: `ulimit -v` from 8 MB to 200 MB in 40 steps, and the tools also
# in 40 steps of 25 KB from what their loader wants. Each run has to end with its page and status, as without a limit, or with status 5
# (want of memory), what it put being the front of its page then; never by a signal. Nothing leaves a loopback of its own.
#
# A thread wants its stack, which is 8 MB by default: so with workers the limits are tried as they are, and once more with stacks of
# 128 KB, where threads are started at each of them. A run that doesn't end within a minute counts as one that ended otherwise.
# Build first: (cd crates/adig && rt run), and so ahost and tns. Usage: bench/limits.sh [ADIG [AHOST [TNS]]]
set -euo pipefail
cd "$(dirname "$0")/.."
adig=$(realpath "${1:-crates/adig/out/adig}")
ahost=$(realpath "${2:-crates/ahost/out/ahost}")
tns=$(realpath "${3:-crates/tns/out/tns}")
port=5396
if [ -z "${IN_ITS_OWN_NETWORK:-}" ]; then
  IN_ITS_OWN_NETWORK=1 exec unshare -rn "bench/$(basename "$0")" "$adig" "$ahost" "$tns"
fi
ip link set lo up
work=$(mktemp -d)
trap 'kill $(jobs -p) 2>/dev/null || true; wait 2>/dev/null || true; rm -rf "$work"' EXIT
for number in $(seq 0 199); do
  echo "h$number.test. 60 A 10.0.0.$number"
done > "$work/zone"
asked=(--resolv /dev/null --server 127.0.0.1 --port "$port")
mapfile -t names < <(seq -f 'h%.0f.test' 0 199)
found=0
# how large the stack of a thread is, and whether the limits near what the loader wants are tried too
stack=8388608
near=yes

# limited KB PROGRAM WORDS: runs the program with so many KB of memory, and puts its page in a file; its status is the program's, or 124
# where it doesn't end
limited() {
  local memory=$1
  shift
  [ "$memory" = unlimited ] || memory=$((memory * 1000))
  timeout 60 prlimit --core=0 --stack="$stack" --as="$memory" "$@" > "$work/page" 2> "$work/page.error"
}

# limits: the 40 of them, in KB
limits() {
  for step in $(seq 0 39); do
    echo $((8000 + step * (200000 - 8000) / 39))
  done
}

# narrow PROGRAM: 40 limits in KB, from the least with which the program is loaded and says that it has no words, or wants memory
narrow() {
  local low=1000 high=200000 middle status
  while [ $((high - low)) -gt 25 ]; do
    middle=$(((low + high) / 2))
    status=0
    limited "$middle" "$1" 2> /dev/null || status=$?
    case $status in
      2 | 5) high=$middle ;;
      *) low=$middle ;;
    esac
  done
  for step in $(seq 0 39); do
    echo $((high + 25 * step))
  done
}

# fails WHAT KB: counts a run that ended otherwise
fails() {
  echo "$1, $2 KB: status $status, $(wc -c < "$work/page") bytes; $(head -c 200 "$work/page.error")"
  found=$((found + 1))
}

# told FILE: its page without the identifier, which is drawn by chance
told() {
  sed 's/^;; id [0-9]* /;; id /' "$1"
}

# whether the file is a front of the other one
is_front() {
  cmp -s -n "$(wc -c < "$1")" "$1" "$2"
}

# try WHAT PROGRAM WORDS: all limits, beside the run without one
try() {
  local what=$1 whole=0 short=0 first=- memory
  shift
  local status=0
  limited unlimited "$@" || status=$?
  local wanted=$status
  told "$work/page" > "$work/wanted"
  if [ "$wanted" -ge 2 ]; then
    fails "$what" unlimited
  fi
  for memory in $([ -z "$near" ] || narrow "$1") $(limits); do
    status=0
    limited "$memory" "$@" || status=$?
    told "$work/page" > "$work/told"
    if [ "$status" -eq "$wanted" ] && cmp -s "$work/told" "$work/wanted"; then
      whole=$((whole + 1))
      [ "$first" != - ] || first=$memory
    elif [ "$status" -eq 5 ] && is_front "$work/told" "$work/wanted"; then
      short=$((short + 1))
    else
      fails "$what" "$memory"
    fi
  done
  echo "$what: $whole with status $wanted and the whole page, the first at $first KB; $short with status 5"
}

# A query for h0.test A, which bash sends until the nameserver has ended.
ask() {
  while kill -0 "$1" 2>/dev/null; do
    printf '\x12\x34\x01\0\0\x01\0\0\0\0\0\0\x02h0\x04test\0\0\x01\0\x01' > "/dev/udp/127.0.0.1/$2" 2>/dev/null || true
    sleep 0.05
  done
}

# tns at all limits, each on a port of its own: it takes one message
try_tns() {
  local whole=0 short=0 own=5400 memory status server
  for memory in $(limits); do
    own=$((own + 1))
    limited "$memory" "$tns" --port $own --zone "$work/zone" --count 1 &
    server=$!
    ask $server $own
    status=0
    wait $server || status=$?
    case $status in
      0) whole=$((whole + 1)) ;;
      5) short=$((short + 1)) ;;
      *) fails tns "$memory" ;;
    esac
  done
  echo "tns: $whole with status 0, $short with status 5"
}

"$tns" --port $port --zone "$work/zone" --count 65535 > /dev/null 2>&1 &
# on a machine that is busy it may take a while until it answers
for _ in $(seq 100); do
  ! "$adig" "${asked[@]}" h7.test > /dev/null 2>&1 || break
  sleep 0.1
done
try adig "$adig" "${asked[@]}" h7.test
try 'adig, over TCP' "$adig" "${asked[@]}" --tcp h7.test
try ahost "$ahost" "${asked[@]}" --hosts /dev/null --family 4 --no-sort "${names[@]}"
try 'ahost --load 4096' "$ahost" --load 4096
stack=131072
try 'ahost --workers 2, small stacks' "$ahost" "${asked[@]}" --hosts /dev/null --family 4 --no-sort --workers 2 "${names[@]}"
try 'ahost --load 4096 --workers 2, small stacks' "$ahost" --load 4096 --workers 2
try 'ahost --load 12 --workers 4, small stacks' "$ahost" --load 12 --workers 4
stack=8388608
near=
try 'ahost --workers 2' "$ahost" "${asked[@]}" --hosts /dev/null --family 4 --no-sort --workers 2 "${names[@]}"
try 'ahost --load 4096 --workers 2' "$ahost" --load 4096 --workers 2
try_tns
echo "$found runs ended otherwise"
[ "$found" -eq 0 ]
