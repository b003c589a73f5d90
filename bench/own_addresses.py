#!/usr/bin/env python3
"""In which order ahost gives the addresses of fifty names without --sources, beside c-ares (the system's libcares.so.2), which
asks the system for the source of each address, on machines of several kinds. Each machine is a network namespace of its own
with a pair of virtual interfaces; nothing leaves it. The names are asked of `tns` on its loopback.

Usage, as root: bench/own_addresses.py [AHOST [TNS]]. Build both first (rt run in crates/ahost and crates/tns)."""
import ctypes
import os
import random
import select
import socket
import subprocess
import sys
import tempfile
import time

HERE = os.path.dirname(os.path.dirname(os.path.abspath(__file__)))
PORT = 5398
NAMES = 50

# each machine: the commands that make it, behind those that bring up loopback and both ends of v0
MACHINES = [
    ("loopback alone", []),
    ("IPv4 alone", ["ip addr add 10.1.2.3/24 dev v0", "ip route add default via 10.1.2.1"]),
    ("IPv4, and IPv6 of the link", ["ip addr add 10.1.2.3/24 dev v0", "ip route add default via 10.1.2.1",
                                    "ip -6 addr add fe80::5/64 dev v0 nodad"]),
    ("IPv4, and IPv6 of one site", ["ip addr add 10.1.2.3/24 dev v0", "ip route add default via 10.1.2.1",
                                    "ip -6 addr add fd00:1::3/64 dev v0 nodad"]),
    ("IPv4, and IPv6 of one site with a way out", ["ip addr add 10.1.2.3/24 dev v0", "ip route add default via 10.1.2.1",
                                                   "ip -6 addr add fd00:1::3/64 dev v0 nodad",
                                                   "ip -6 route add default dev v0"]),
    ("both", ["ip addr add 10.1.2.3/24 dev v0", "ip route add default via 10.1.2.1",
              "ip -6 addr add 2001:db8:1::3/64 dev v0 nodad", "ip -6 route add default dev v0"]),
    ("both, and IPv6 of one site", ["ip addr add 10.1.2.3/24 dev v0", "ip route add default via 10.1.2.1",
                                    "ip -6 addr add fd00:1::3/64 dev v0 nodad",
                                    "ip -6 addr add 2001:db8:1::3/64 dev v0 nodad", "ip -6 route add default dev v0"]),
    ("IPv6 alone", ["ip -6 addr add 2001:db8:1::3/64 dev v0 nodad", "ip -6 route add default dev v0"]),
    ("IPv4 of the link alone", ["ip addr add 169.254.7.7/16 dev v0"]),
    ("both, and no route of IPv6", ["ip addr add 10.1.2.3/24 dev v0", "ip route add default via 10.1.2.1",
                                    "ip -6 addr add 2001:db8:1::3/64 dev v0 nodad"]),
]

V4 = ["192.0.2.%d", "198.51.100.%d", "203.0.113.%d", "10.9.8.%d", "169.254.3.%d"]
V6 = ["2001:db8:1::%d", "2001:db8:2::%d", "2001:db8:8000::%d", "2a00:1:2::%d", "2002:c000:201::%d", "2001::%d", "fd00:1::%d",
      "fd00:2::%d", "fec0::%d"]


def names():
    """Fifty names, each with one to three addresses of each family, by a fixed seed."""
    draw = random.Random(6724)
    made = {}
    for number in range(NAMES):
        v4 = [draw.choice(V4) % draw.randint(10, 250) for _ in range(draw.randint(1, 3))]
        v6 = [draw.choice(V6) % draw.randint(10, 250) for _ in range(draw.randint(1, 3))]
        made["n%d.example" % number] = list(dict.fromkeys(v4)), list(dict.fromkeys(v6))
    return made


class Node(ctypes.Structure):
    """struct ares_addrinfo_node"""


Node._fields_ = [("ttl", ctypes.c_int), ("flags", ctypes.c_int), ("family", ctypes.c_int), ("socktype", ctypes.c_int),
                 ("protocol", ctypes.c_int), ("addrlen", ctypes.c_uint), ("addr", ctypes.c_void_p),
                 ("next", ctypes.POINTER(Node))]


class AddrInfo(ctypes.Structure):
    """struct ares_addrinfo"""
    _fields_ = [("cnames", ctypes.c_void_p), ("nodes", ctypes.POINTER(Node)), ("name", ctypes.c_char_p)]


class Hints(ctypes.Structure):
    """struct ares_addrinfo_hints"""
    _fields_ = [("flags", ctypes.c_int), ("family", ctypes.c_int), ("socktype", ctypes.c_int), ("protocol", ctypes.c_int)]


CALLBACK = ctypes.CFUNCTYPE(None, ctypes.c_void_p, ctypes.c_int, ctypes.c_int, ctypes.POINTER(AddrInfo))


def address_of(node):
    """The text of a node's address."""
    if node.family == socket.AF_INET:
        return socket.inet_ntop(socket.AF_INET, ctypes.string_at(node.addr + 4, 4))
    return socket.inet_ntop(socket.AF_INET6, ctypes.string_at(node.addr + 8, 16))


def ask_cares(wanted):
    """The addresses that c-ares gives for each name, in its order."""
    cares = ctypes.CDLL("libcares.so.2")
    cares.ares_library_init(1)
    channel = ctypes.c_void_p()
    assert cares.ares_init(ctypes.byref(channel)) == 0
    assert cares.ares_set_servers_ports_csv(channel, b"127.0.0.1:%d" % PORT) == 0
    found = {}

    def ask(name):
        def called(_, status, __, info):
            order = []
            node = info.contents.nodes if status == 0 else None
            while node:
                order.append(address_of(node.contents))
                node = node.contents.next
            found[name] = order
        return CALLBACK(called)

    calls = {name: ask(name) for name in wanted}
    for name, call in calls.items():
        cares.ares_getaddrinfo(channel, name.encode(), None, ctypes.byref(Hints(0, 0, 0, 0)), call, None)
        end = time.time() + 10
        while name not in found and time.time() < end:
            sockets = (ctypes.c_int * 16)()
            bits = cares.ares_getsock(channel, sockets, 16)
            reads = [sockets[k] for k in range(16) if bits >> k & 1]
            ready, _, _ = select.select(reads, [], [], 0.1)
            for one in ready or [-1]:
                cares.ares_process_fd(channel, one, -1)
    return found


def ask_ahost(ahost, wanted):
    """The addresses that ahost gives for each name, in its order."""
    words = [ahost, "--server", "127.0.0.1", "--port", str(PORT), "--resolv", "/dev/null", "--hosts", "/dev/null"]
    page = subprocess.run(words + list(wanted), capture_output=True, text=True).stdout
    found = {}
    name = None
    for line in page.splitlines():
        if line.startswith("  "):
            found[name].append(line.strip())
        else:
            name = line.split()[0]
            found[name] = []
    return found


def on_machine(ahost, tns, title, commands):
    """One line for a machine, which this process is on."""
    for command in ["ip link set lo up", "ip link add v0 type veth peer name v1",
                    "sysctl -qw net.ipv6.conf.v0.addr_gen_mode=1 net.ipv6.conf.v1.addr_gen_mode=1",
                    "ip link set v1 up", "ip link set v0 up"] + commands:
        subprocess.run(command.split(), check=True)
    wanted = names()
    with tempfile.NamedTemporaryFile("w", suffix=".zone") as zone:
        for name, (v4, v6) in wanted.items():
            for address in v4:
                zone.write("%s. 60 A %s\n" % (name, address))
            for address in v6:
                zone.write("%s. 60 AAAA %s\n" % (name, address))
        zone.flush()
        server = subprocess.Popen([tns, "--port", str(PORT), "--zone", zone.name, "--count", "65535"],
                                  stderr=subprocess.DEVNULL)
        time.sleep(0.5)
        try:
            expected = ask_cares(wanted)
            own = ask_ahost(ahost, wanted)
        finally:
            server.kill()
            server.wait()
    assert all(sorted(expected[name]) == sorted(v4 + v6) for name, (v4, v6) in wanted.items())
    same = sum(own.get(name) == expected[name] for name in wanted)
    print("%-44s %2d of %d in c-ares' order" % (title + ":", same, NAMES), flush=True)
    for name in wanted:
        if own.get(name) != expected[name] and os.environ.get("SHOW"):
            print("  ", name, "ahost", own.get(name), "c-ares", expected[name])


def main():
    ahost = os.path.abspath(sys.argv[1]) if len(sys.argv) > 1 else HERE + "/crates/ahost/out/ahost"
    tns = os.path.abspath(sys.argv[2]) if len(sys.argv) > 2 else HERE + "/crates/tns/out/tns"
    if len(sys.argv) > 3:
        title, commands = MACHINES[int(sys.argv[3])]
        on_machine(ahost, tns, title, commands)
        return
    for number in range(len(MACHINES)):
        subprocess.run(["unshare", "-n", sys.executable, os.path.abspath(__file__), ahost, tns, str(number)], check=True)


main()
