#!/usr/bin/env bash
# What adig and ahost tell on standard error where this machine itself fails: one line, while the request's status stays 11
# (ECONNREFUSED) and the exit status 1. Where a server refuses, there is none. In a network of its own, in which 192.0.2.1 has no way
# and nobody listens on 127.0.0.2 and 127.0.0.3. Of five numbers of files four are taken while a server is asked (three standard
# streams and the poll), so the second server's socket can't be opened. It ends with status 1 where something else comes. Needs root
# for `unshare -n`. Build first: (cd crates/adig && rt run), (cd crates/ahost && rt run). Usage: bench/local_failures.sh [ADIG [AHOST]]
set -euo pipefail
self=$(realpath "$0")
cd "$(dirname "$self")/.."
adig=$(realpath "${1:-crates/adig/out/adig}")
ahost=$(realpath "${2:-crates/ahost/out/ahost}")
if [ -z "${IN_ITS_OWN_NETWORK:-}" ]; then
  IN_ITS_OWN_NETWORK=1 exec unshare -n "$self" "$adig" "$ahost"
fi
ip link set lo up
found=0
page=$(mktemp)
trap 'rm -f "$page"' EXIT

# try FILES LINE PROGRAM WORDS: the program with so many numbers of files tells this line alone
try() {
  local files=$1 line=$2 program=$3 status=0 told
  shift 3
  told=$(prlimit --nofile="$files" "$program" --resolv /dev/null --port 5396 --tries 1 --timeout 200 "$@" 2>&1 > "$page") || status=$?
  echo "$(basename "$program") $*: exit status $status, '$told'"
  if [ "$status" != 1 ] || [ "$told" != "$line" ] || ! grep -q ' 11 ECONNREFUSED$' "$page"; then
    echo "  not as it should be: exit status 1, '$line'"
    found=1
  fi
}

for words in '--server 127.0.0.2' '--server 127.0.0.2,127.0.0.3'; do
  # shellcheck disable=SC2086 # two words
  try 64 '' "$adig" $words www.example
  # shellcheck disable=SC2086
  try 64 '' "$ahost" --hosts /dev/null --family 4 $words www.example
done
try 64 '' "$adig" --tcp --server 127.0.0.2 www.example
try 64 'adig: no route to a server' "$adig" --server 192.0.2.1 www.example
try 64 'adig: no route to a server' "$adig" --tcp --server 192.0.2.1 www.example
try 64 'ahost: no route to a server' "$ahost" --hosts /dev/null --family 4 --server 192.0.2.1 www.example
try 5 'adig: too many open files' "$adig" --server 127.0.0.2,127.0.0.3 www.example
try 5 'ahost: too many open files' "$ahost" --hosts /dev/null --family 4 --server 127.0.0.2,127.0.0.3 www.example
exit $found
