#!/usr/bin/env bash
# Hostile bytes for the readers of messages, rdata, names, addresses, resolv.conf, hosts files, zones and runs, in one process that
# spoils those cases of its stored run that can be read: 10,000,000 messages and 1,000,000 files by default, in rounds of their own seeds, with 64 MB
# of memory and 20 minutes a round at most. A round fails where the program ends by a signal or with a status other than 0, where
# memory was wanting, or where one case took a second; the script fails where a round of ten times as many cases takes more memory.
# Then AFL++ (Debian's afl++), without instrumentation, gives the program files that it spoils: a minute for each kind by default.
# Build first: (cd crates/hostile_bench && rt run). Usage: bench/fuzz.sh [PROGRAM [MESSAGES [FILES [SECONDS]]]]
set -euo pipefail
cd "$(dirname "$0")/.."
program=$(realpath "${1:-crates/hostile_bench/out/hostile_bench}")
messages=${2:-10000000}
files=${3:-1000000}
seconds=${4:-60}
if [ -z "${IN_ITS_OWN_NETWORK:-}" ]; then
  IN_ITS_OWN_NETWORK=1 exec unshare -rn "bench/$(basename "$0")" "$program" "$messages" "$files" "$seconds"
fi
work=$(mktemp -d)
trap 'rm -rf "$work"' EXIT
cases=$work/cases
# those whose answer isn't a fault
awk 'NR == FNR { bad[FNR] = /^!/; next } !bad[FNR]' crates/hostile_bench/stdout crates/hostile_bench/stdin > "$cases"
grep -E '^(message|rdata|name|address) ' "$cases" > "$work/messages"
grep -E '^(resolv|hosts|zone|run) ' "$cases" > "$work/files"
failed=0

fails() {
  echo "FAILS: $*"
  failed=$((failed + 1))
}

# round CASES SEED TIMES: one round; sets `memory` to the most of it that was resident, in KB
round() {
  local status=0 longest
  timeout 1200 python3 bench/hostile/peak.py prlimit --core=0 --as=64000000 "$program" "$2" "$3" < "$1" > "$work/told" 2>&1 || status=$?
  memory=$(sed -n 's/^peak \([0-9]*\) KB$/\1/p' "$work/told")
  sed '/^peak/d' "$work/told"
  [ $status -eq 0 ] || fails "status $status"
  grep -q ' 0 wanted memory,' "$work/told" || fails 'memory was wanting'
  longest=$(sed -n 's/.* the longest \([0-9]*\) us$/\1/p' "$work/told")
  [ "${longest:-1000000}" -lt 1000000 ] || fails "a case took ${longest:-?} us"
}

# rounds WHAT CASES TIMES: a tenth of them, and then all
rounds() {
  local few
  round "$2" 1 $(($3 / 10))
  few=$memory
  round "$2" 2 "$3"
  echo "$1: at most $few KB resident in a tenth of the cases, $memory KB in all"
  # a program that ends within milliseconds may not have been looked at: 2,000 KB are what it has from the start
  [ "$memory" -le $(((few > 2000 ? few : 2000) + 512)) ] || fails "memory grew by $((memory - few)) KB"
}

rounds messages "$work/messages" "$messages"
rounds files "$work/files" "$files"

# afl KIND: the kind's cases as files, and AFL++ over them
afl() {
  local number=0 kind digits hang
  mkdir -p "$work/$1.seeds"
  while read -r kind digits; do
    if [ "$kind" = "$1" ] && [ -n "$digits" ]; then
      number=$((number + 1))
      # shellcheck disable=SC2059 # the bytes are the format
      printf "$(printf '%s' "$digits" | sed 's/../\\x&/g')" > "$work/$1.seeds/$number"
    fi
  done < "$cases"
  AFL_NO_UI=1 AFL_SKIP_CPUFREQ=1 AFL_I_DONT_CARE_ABOUT_MISSING_CRASHES=1 AFL_NO_AFFINITY=1 \
    afl-fuzz -n -m 64 -t 1000 -V "$seconds" -i "$work/$1.seeds" -o "$work/$1.found" -- "$program" "$1" > "$work/afl.log" 2>&1 ||
    { tail -3 "$work/afl.log"; fails "afl-fuzz $1"; return; }
  # without instrumentation it writes no fuzzer_stats: the last row of plot_data has the executions
  echo "AFL++, $1: $(tail -1 "$work/$1.found/plot_data" | cut -d, -f12) executions of $number files"
  [ -z "$(ls "$work/$1.found/crashes")" ] || fails "$1: ended by a signal"
  # what took a second by the clock is tried again: that may have been another process' second
  for hang in "$work/$1.found/hangs"/*; do
    [ ! -f "$hang" ] || prlimit --core=0 --cpu=1 "$program" "$1" < "$hang" > "$work/told" 2>&1 || fails "$1: $(od -An -v -tx1 "$hang" | tr -d ' \n') takes a second"
  done
}

if command -v afl-fuzz > /dev/null; then
  for kind in message rdata resolv hosts zone run; do
    afl $kind
  done
else
  echo 'afl-fuzz is not here (Debian: afl++)'
fi
echo "$SECONDS s, $failed failures"
[ $failed -eq 0 ]
