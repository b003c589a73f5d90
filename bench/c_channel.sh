#!/usr/bin/env bash
# The channel for C: builds examples/c with the system's C compiler against the static library, and tries it against tns on a
# loopback of its own, under valgrind: 10,000 queries, and a fault of each kind, answered as adig answers it on the same server. A
# journal that was kept is looked at by areplay. Words without a channel are tried (bench/c_words.c), lengths (bench/c_lengths.c)
# and the text of a kept journal (bench/c_journal.c). Then it asks one name from Python, over a shared library.
#
# Build first: (cd crates/channel_c && rt lib). It takes the programs tns, adig and areplay as they were built in crates/NAME/out,
# and where one wasn't, tries it unproved (rt try). It wants `valgrind`, `python3`, and root for `unshare -rn`.
# Usage: bench/c_channel.sh [QUERIES]
set -euo pipefail
cd "$(dirname "$0")/.."
queries=${1:-10000}
if [ -z "${IN_ITS_OWN_NETWORK:-}" ]; then
  python3 bench/c_constants.py
  IN_ITS_OWN_NETWORK=1 exec unshare -rn "bench/$(basename "$0")" "$queries"
fi
ip link set lo up
work=$(mktemp -d)
server= silent=
trap 'kill $server $silent 2>/dev/null || true; wait 2>/dev/null || true; rm -rf "$work"' EXIT
library=crates/channel_c/out/libchannel_c.a
memory=${LIBC_A:-$(dirname "$(${RT:-rt} doc)")/c/liblibc_c.a}
failed=0

# says WHAT WANTED FOUND
says() {
  if [ "$2" = "$3" ]; then echo "$1: $3"; else echo "FAILS: $1: $3, not $2"; failed=$((failed + 1)); fi
}

# runs NAME WORDS ..: this shell becomes the program, as it was built or unproved; it reads files of $work
runs() {
  local name=$1 built
  shift
  built=$PWD/crates/$name/out/$name
  if [ -x "$built" ]; then cd "$work" && exec "$built" "$@"; fi
  cd "crates/$name" && exec "${RT:-rt}" try --seconds 600 --data "zone=$work/zone" --data "journal=$work/journal" -- "$@"
}

for source in examples/c/adns.c bench/c_words.c bench/c_lengths.c bench/c_journal.c; do
  ${CC:-cc} -std=c11 -Wall -Wextra -Werror -O2 -g -o "$work/$(basename "$source" .c)" "$source" "$library" "$memory"
done
${CC:-cc} -shared -o "$work/libdachumvi.so" -Wl,--whole-archive "$library" -Wl,--no-whole-archive "$memory"

# one name of two addresses, and one of so many that its reply is cut short over UDP
{
  echo 'www.example. 300 A 192.0.2.1'
  echo 'www.example. 300 A 192.0.2.2'
  for last in $(seq 120); do echo "many.example. 300 A 198.51.100.$last"; done
} > "$work/zone"
: > "$work/journal"
runs tns --port 53 --zone zone --count 65535 2> "$work/said" &
server=$!
# a server that is silent; the one at 127.0.0.2 has a closed port
python3 -c 'import socket, time
udp = socket.socket(socket.AF_INET, socket.SOCK_DGRAM)
udp.bind(("127.0.0.3", 53))
time.sleep(3600)' &
silent=$!
# both listen: at 127.0.0.1 and at 127.0.0.3, port 53
for at in 0100007F:0035 0300007F:0035; do
  until grep -q "$at" /proc/net/udp; do
    { kill -0 "$server" && kill -0 "$silent"; } 2>/dev/null || { cat "$work/said"; exit 1; }
    sleep 0.2
  done
done

# asks STATUS WORDS ..: adns under valgrind, which ends with STATUS; its page is $work/page
asks() {
  local wanted=$1 status=0
  shift
  valgrind -q --leak-check=full --show-leak-kinds=all --errors-for-leak-kinds=all --error-exitcode=9 --log-file="$work/valgrind" \
    "$work/adns" -h /dev/null "$@" > "$work/page" || status=$?
  [ "$status" = "$wanted" ] || { echo "FAILS: status $status, not $wanted: $*"; cat "$work/valgrind"; failed=$((failed + 1)); }
  [ ! -s "$work/valgrind" ] || { echo "FAILS: valgrind of $*"; cat "$work/valgrind"; failed=$((failed + 1)); }
}

# as_adig WHAT SERVER NAME STATUS: adns and adig have this status for the name at the server
as_adig() {
  says "$1, as adns has it" "$3 $4" "$(cut -d ' ' -f 1-2 "$work/page")"
  says "$1, as adig has it" "$4" "$(runs adig --resolv absent --server "$2" --timeout 1000 --tries 1 --type A "$3" \
    | sed -n 's/^;; status \([0-9]*\) .*/\1/p' || true)"
}

# words without a channel, of which each call says so; lengths; and the text of a kept journal
for program in c_words c_lengths c_journal; do
  status=0
  valgrind -q --leak-check=full --show-leak-kinds=all --errors-for-leak-kinds=all --error-exitcode=9 "$work/$program" || status=$?
  says "$program, under valgrind" 0 "$status"
done

begin=$(date +%s%N)
asks 0 -s 127.0.0.1 -f 4 -n "$queries" www.example
says "right of $queries queries" "$queries" "$(grep -c '^www.example 0 192.0.2.[12] 192.0.2.[12]$' "$work/page")"
echo "under valgrind in $((($(date +%s%N) - begin) / 1000000)) ms"
asks 1 -s 127.0.0.2 -f 4 -o 'timeout:1 attempts:1' www.example
as_adig 'a closed port' 127.0.0.2 www.example 11
asks 1 -s 127.0.0.3 -f 4 -o 'timeout:1 attempts:1' www.example
as_adig 'a silent server' 127.0.0.3 www.example 12
asks 1 -s 127.0.0.1 -f 4 nobody.example
as_adig 'a name that is not there' 127.0.0.1 nobody.example 4
asks 0 -s 127.0.0.1 -f 4 -j "$work/journal" many.example
as_adig 'a reply that is cut short' 127.0.0.1 many.example 0
says 'its addresses, over TCP' 120 "$(awk '{ print NF - 2 }' "$work/page")"
# accepted; begun over UDP, and answered; begun over TCP, and answered; taken
says 'its journal, kept' $'lawful 6 entries 1 accepted\n1 0 SUCCESS' "$(runs areplay journal || true)"
says 'attempts of it over UDP and over TCP' '1 1' \
  "$(awk '$3 == "start" { if ($7 == 0) udp++; else tcp++ } END { print udp + 0, tcp + 0 }' "$work/journal")"
says 'from Python' '0 192.0.2.1 192.0.2.2' "$(python3 examples/c/adns.py "$work/libdachumvi.so" 127.0.0.1 www.example)"
exit $((failed > 0))
