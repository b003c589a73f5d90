#!/usr/bin/env bash
# Runs over real sockets on loopback, stored and replayed: each run of adig and ahost is made twice against tns, once for its page and
# once with --journal, and areplay has to find the stored one lawful, with the statuses of the page in their order. Identifiers and
# moments differ from run to run, so the stored text isn't compared with anything else. Nothing leaves a loopback of its own.
# Build first: (cd crates/adig && rt run), and so ahost, tns and areplay. Usage: bench/replay.sh [ADIG [AHOST [TNS [AREPLAY]]]]
set -euo pipefail
cd "$(dirname "$0")/.."
adig=$(realpath "${1:-crates/adig/out/adig}")
ahost=$(realpath "${2:-crates/ahost/out/ahost}")
tns=$(realpath "${3:-crates/tns/out/tns}")
areplay=$(realpath "${4:-crates/areplay/out/areplay}")
port=5398
if [ -z "${IN_ITS_OWN_NETWORK:-}" ]; then
  IN_ITS_OWN_NETWORK=1 exec unshare -rn "bench/$(basename "$0")" "$adig" "$ahost" "$tns" "$areplay"
fi
ip link set lo up
work=$(mktemp -d)
trap 'kill $(jobs -p) 2>/dev/null || true; wait 2>/dev/null || true; rm -rf "$work"' EXIT
{
  printf 'www.example. 300 A 192.0.2.1\nwww.example. 300 AAAA 2001:db8::1\nalias.example. 300 CNAME www.example.\n'
  printf '1.2.0.192.in-addr.arpa. 300 PTR www.example.\n'
  for number in $(seq 1 60); do printf 'long.example. 300 TXT %060d\n' "$number"; done
} > "$work/zone"
printf 'search example\noptions ndots:2\n' > "$work/resolv"
printf '192.0.2.9 box other.example\n' > "$work/hosts"
"$tns" --port "$port" --zone "$work/zone" --count 1000000 > /dev/null 2>&1 &
asked=(--resolv "$work/resolv" --server 127.0.0.1 --port "$port" --timeout 1000 --tries 2)
for _ in $(seq 50); do
  "$adig" "${asked[@]}" www.example > "$work/page" 2> /dev/null && break
  sleep 0.2
done
runs=0 found=0

# round STATUSES PROGRAM WORDS: the statuses of the page, a line each, are taken out of it by the sed script STATUSES
round() {
  local statuses=$1 ended=0 booked=0 replayed=0
  shift
  "$@" > "$work/page" 2> /dev/null || ended=$?
  "$1" --journal "${@:2}" > "$work/book" 2> /dev/null || booked=$?
  "$areplay" "$work/book" > "$work/told" 2> /dev/null || replayed=$?
  sed -nE "$statuses" "$work/page" > "$work/wanted"
  sed -nE 's/^[0-9]+ ([0-9]+ [A-Z]+)$/\1/p' "$work/told" > "$work/given"
  runs=$((runs + 1))
  if [ "$ended" -gt 1 ] || [ "$booked" != "$ended" ] || [ "$replayed" != 0 ] || ! [ -s "$work/wanted" ] || ! cmp -s "$work/wanted" "$work/given"; then
    found=$((found + 1))
    echo "$(basename "$1") ${*:2}: ended with $ended, with --journal $booked, areplay with $replayed: $(tr '\n' ';' < "$work/told")"
  fi
}

of_adig='s/^;; status ([0-9]+ [A-Z]+)$/\1/p'
of_ahost='s/^[^ ]+ ([0-9]+ [A-Z]+)$/\1/p'
for words in www.example alias.example nobody.example "--type AAAA www.example" "--tcp www.example" "--type TXT long.example" \
  "--search www" "--reverse 192.0.2.1" "--no-edns www.example" "--mix www.example" "--cookie www.example" "x.onion" "a..b"; do
  # shellcheck disable=SC2086
  set -- $words
  name=${*: -1}
  round "$of_adig" "$adig" "${asked[@]}" "${@:1:$#-1}" "$name"
done
for words in www.example "www.example alias.example nobody.example" "box www" "192.0.2.1 2001:db8::1" "--tcp www.example alias.example"; do
  # shellcheck disable=SC2086
  set -- $words
  round "$of_ahost" "$ahost" "${asked[@]}" --hosts "$work/hosts" "$@"
done
echo "$runs runs, $found findings"
[ "$found" = 0 ] && [ "$runs" -gt 0 ]
