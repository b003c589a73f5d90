#!/usr/bin/env bash
# A program that is stopped for 2.5 s while its queries are in flight, each of which may wait for 2 s. All their replies come
# meanwhile, so none may be lost when it goes on. Then as many queries again are asked and answered at once. With 1,000 and with
# 10,000 in flight, through the channel, its runner and the real network (udp_bench), against a peer of this script. Nothing
# leaves loopback. Build first: (cd crates/udp_bench && rt run). It wants python3.
# Usage: unshare -n sh -c 'ip link set lo up; bench/stopped.sh [PROGRAM [ROUNDS]]'
set -euo pipefail
cd "$(dirname "$0")/.."
exec python3 - "${1:-crates/udp_bench/out/udp_bench}" "${2:-3}" <<'PYTHON'
import os, signal, socket, subprocess, sys, time

# an address of the name that is asked (RFC 1035, sections 3.2.1 and 4.1.4)
ANSWER = bytes.fromhex("c00c000100010000003c0004c0000201")
SO_RCVBUFFORCE = 33


def reply(query):
    return query[:2] + bytes([query[2] | 0x80, query[3] | 0x80]) + query[4:7] + b"\1" + query[8:] + ANSWER


def all_of(peer, window):
    """The first queries, as soon as so many have come, or no more come for some time."""
    queries = []
    peer.settimeout(30)
    try:
        while len(queries) < window:
            queries.append(peer.recvfrom(512))
            peer.settimeout(0.5)
    except TimeoutError:
        pass
    return queries


def run(program, window):
    peer = socket.socket(socket.AF_INET, socket.SOCK_DGRAM)
    for option in (socket.SO_RCVBUF, SO_RCVBUFFORCE):  # the second is root's alone
        try:
            peer.setsockopt(socket.SOL_SOCKET, option, 32 << 20)
        except PermissionError:
            pass
    peer.bind(("127.0.0.1", 0))
    words = [program, "channel", str(peer.getsockname()[1]), str(window), str(2 * window)]
    asker = subprocess.Popen(words, stdout=subprocess.PIPE, text=True)
    queries = all_of(peer, window)
    os.kill(asker.pid, signal.SIGSTOP)
    for query, sender in queries:
        peer.sendto(reply(query), sender)
    time.sleep(2.5)
    os.kill(asker.pid, signal.SIGCONT)
    peer.settimeout(0.05)
    while asker.poll() is None:
        try:
            query, sender = peer.recvfrom(512)
            peer.sendto(reply(query), sender)
        except TimeoutError:
            pass
    print(f"{len(queries)} were in flight; {asker.stdout.read().strip()}")


for window in (1000, 10000):
    for _ in range(int(sys.argv[2])):
        run(sys.argv[1], window)
PYTHON
