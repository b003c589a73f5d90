#!/usr/bin/env bash
# adig against a real nameserver on loopback, as a new user would try it: nsd (Debian's package nsd) serves a zone on 127.0.0.1,
# a socket on 127.0.0.3 takes queries and never answers, and on 127.0.0.2 nobody listens. Nothing leaves loopback.
# Build first: (cd crates/adig && rt run). It wants nsd and python3.
set -euo pipefail
cd "$(dirname "$0")/.."
adig=$PWD/${1:-crates/adig/out/adig}
port=5399
work=$(mktemp -d)
trap 'kill $(jobs -p) 2>/dev/null || true; wait 2>/dev/null || true; rm -rf "$work"' EXIT

cat > "$work/example.zone" <<'ZONE'
$ORIGIN example.
$TTL 300
@       SOA   ns.example. host.example. 7 3600 600 86400 60
@       NS    ns
@       MX    10 mail
@       TXT   "v=spf1 -all" "a \"quoted\" word"
ns      A     192.0.2.53
www     A     192.0.2.1
www     A     192.0.2.2
www     AAAA  2001:db8::1
mail    A     192.0.2.25
alias   CNAME other
other   CNAME www
ZONE
# an answer that doesn't fit a datagram
for number in $(seq 1 40); do
  printf 'large TXT "%s %s"\n' "$number" 'a line of text that makes the whole answer longer than a datagram may be' >> "$work/example.zone"
done

cat > "$work/nsd.conf" <<CONF
server:
  ip-address: 127.0.0.1@$port
  zonesdir: "$work"
  username: ""
  pidfile: "$work/nsd.pid"
  xfrdfile: "$work/xfrd.state"
  zonelistfile: "$work/zone.list"
  database: ""
  logfile: "$work/nsd.log"
  server-count: 1
remote-control:
  control-enable: no
zone:
  name: "example."
  zonefile: "example.zone"
CONF
nsd -d -c "$work/nsd.conf" &
python3 -c "
import socket
silent = socket.socket(socket.AF_INET, socket.SOCK_DGRAM)
silent.bind(('127.0.0.3', $port))
while True: silent.recv(4096)" &
for _ in $(seq 50); do
  "$adig" --server 127.0.0.1 --port $port --tries 1 --timeout 100 --type SOA example. > /dev/null 2>&1 && break
  sleep 0.1
done
for _ in $(seq 50); do # the silent one stands when its address does (127.0.0.3, as Linux writes it)
  grep -q "0300007F:$(printf %04X "$port")" /proc/net/udp && break
  sleep 0.1
done

# try WORDS: adig with these words behind the port, and how it ended
try() {
  echo "\$ adig --port $port $*"
  local status=0
  "$adig" --port $port "$@" || status=$?
  echo "(exit status $status)"
  echo
}

# the same with standard input and output closed, whose numbers no socket may get
try_closed() {
  echo "\$ adig --port $port $* <&- >&-"
  local status=0
  "$adig" --port $port "$@" <&- >&- || status=$?
  echo "(exit status $status)"
}

try --server 127.0.0.1 www.example
try --server 127.0.0.1 --type AAAA www.example
try --server 127.0.0.1 --type MX example
try --server 127.0.0.1 --type TXT example
try --server 127.0.0.1 --type SOA example
try --server 127.0.0.1 alias.example
try --server 127.0.0.1 nobody.example
try --server 127.0.0.1 --type MX www.example
try --server 127.0.0.1 --mix www.example
echo '# an answer that is truncated as a datagram, and whole over TCP (without the lines of its 40 records)'
try --server 127.0.0.1 --no-edns --type TXT large.example | grep -v 'line of text that' || true
try --server 127.0.0.1 --tcp www.example
echo '# a server that is down, one that is silent, and two of which one is down'
try --server 127.0.0.2 www.example
try --server 127.0.0.3 --tries 2 --timeout 200 www.example
try --server 127.0.0.2,127.0.0.1 www.example
echo '# the page can be put nowhere'
try_closed --server 127.0.0.1 www.example
