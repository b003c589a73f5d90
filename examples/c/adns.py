#!/usr/bin/env python3
"""adns.py LIBRARY SERVER NAME: asks a server at port 53 for the IPv4 addresses of one name, over ctypes and UDP, and prints the
status by its number and the addresses. LIBRARY is a shared library of the calls that include/dachumvi.h declares (bench/c_channel.sh
builds one)."""
import ctypes, os, select, socket, sys, time
from ctypes import byref, c_bool, c_size_t, c_uint8, c_uint16, c_uint32, c_uint64, c_void_p

DONE, V4 = 0, 4


class Channel(ctypes.Structure):  # of zeroes, as ctypes makes it: without a channel
    _fields_ = [('at', c_void_p), ('made', c_uint32)]


class Attempt(ctypes.Structure):
    _fields_ = [('number', c_uint64), ('link', c_uint64), ('length', c_size_t), ('server', c_uint32), ('id', c_uint16), ('port', c_uint16), ('leg', c_uint8)]


class Leg(ctypes.Structure):
    _fields_ = [('number', c_uint64), ('leg', c_uint8)]


class Request(ctypes.Structure):
    _fields_ = [('number', c_uint64), ('message', c_size_t), ('addresses', c_size_t), ('status', c_uint8)]


def moment():
    return time.monotonic_ns() // 1_000_000


def copied(call, *words):
    """The bytes that a copying call gives."""
    buffer = ctypes.create_string_buffer(65537)
    count = c_size_t()
    if call(channel, *words, buffer, c_size_t(len(buffer)), byref(count)) != DONE:
        sys.exit('not copied')
    return buffer.raw[:count.value]


library = ctypes.CDLL(sys.argv[1])
word = Channel()
channel = byref(word)
resolv = f'nameserver {sys.argv[2]}\noptions timeout:1 attempts:2\n'.encode()
if library.dachumvi_make(resolv, c_size_t(len(resolv)), b'', c_size_t(0), c_bool(False), channel) != DONE:
    sys.exit('no channel')
asked, number = sys.argv[3].encode(), c_uint64()
if library.dachumvi_address(channel, asked, c_size_t(len(asked)), c_uint32(V4), c_bool(False), byref(number)) != DONE:
    sys.exit('not asked')

request, attempt, leg, due, count = Request(), Attempt(), Leg(), c_uint64(), c_uint64()
with socket.socket(socket.AF_INET, socket.SOCK_DGRAM) as udp:
    while library.dachumvi_take(channel, byref(request)) != DONE:
        bits = int.from_bytes(os.urandom(4), 'big')
        while library.dachumvi_start(channel, c_uint16(bits), c_uint16(bits >> 16), c_uint64(moment()), byref(attempt)) == DONE:
            try:
                if attempt.link != 0:
                    raise OSError('this program has no TCP')
                udp.connect((socket.inet_ntop(socket.AF_INET, copied(library.dachumvi_copy_server)), attempt.port))
                udp.send(copied(library.dachumvi_copy_bytes))
            except OSError:
                library.dachumvi_fault(channel, c_uint32(attempt.server), c_uint64(attempt.link), c_uint64(moment()), byref(count))
        if library.dachumvi_next_due(channel, byref(due)) != DONE:
            continue
        if select.select([udp], [], [], max(0, due.value - moment()) / 1000)[0]:
            try:
                message = udp.recv(65535)
                library.dachumvi_arrive(channel, c_uint32(attempt.server), c_uint64(0), message, c_size_t(len(message)), byref(leg))
            except OSError:
                library.dachumvi_fault(channel, c_uint32(attempt.server), c_uint64(0), c_uint64(moment()), byref(count))
        while library.dachumvi_expire(channel, c_uint64(moment()), byref(leg)) == DONE:
            pass

print(request.status, *(socket.inet_ntop(socket.AF_INET, copied(library.dachumvi_copy_address, c_size_t(at))) for at in range(request.addresses)))
library.dachumvi_free(channel)
