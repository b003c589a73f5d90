"""Messages as bytes: RFC 1035, section 4.1, and the OPT record of RFC 6891, section 6.1."""
import struct
from dataclasses import dataclass
from functools import lru_cache
from typing import Optional

from . import names

A, NS, CNAME, SOA, PTR, HINFO, MX, TXT, AAAA, SRV, OPT = 1, 2, 5, 6, 12, 13, 15, 16, 28, 33, 41
IN = 1
QR, TC, RD = 0x8000, 0x0200, 0x0100


class Unreadable(Exception):
    """The bytes are no message."""


@dataclass(frozen=True)
class Question:
    name: tuple
    kind: int
    klass: int


@dataclass(frozen=True)
class Record:
    name: tuple
    kind: int
    klass: int
    ttl: int
    rdata: bytes


@dataclass(frozen=True)
class Message:
    id: int
    flags: int
    questions: tuple
    answers: tuple
    authorities: tuple
    additionals: tuple

    @property
    def rcode(self):
        return self.flags & 15

    @property
    def opcode(self):
        return self.flags >> 11 & 15


class Reader:
    """Reads the bytes from left to right."""

    def __init__(self, data):
        self.data = data
        self.at = 12

    def take(self, count):
        if self.at + count > len(self.data):
            raise Unreadable
        part = self.data[self.at:self.at + count]
        self.at += count
        return part

    def name(self):
        labels, place, run, behind = [], self.at, self.at, None
        while True:
            if place >= len(self.data):
                raise Unreadable
            length = self.data[place]
            if length == 0:
                self.at = place + 1 if behind is None else behind
                return tuple(labels)
            if length >= 0xc0:
                if place + 2 > len(self.data):
                    raise Unreadable
                target = struct.unpack_from(">H", self.data, place)[0] & 0x3fff
                if target >= run:
                    raise Unreadable
                behind = place + 2 if behind is None else behind
                place = run = target
                continue
            label = self.data[place + 1:place + 1 + length]
            if length > 63 or len(label) < length:
                raise Unreadable
            labels.append(label)
            if names.wire_length(labels) > 255:
                raise Unreadable
            place += 1 + length

    def question(self):
        name = self.name()
        return Question(name, *struct.unpack(">HH", self.take(4)))

    def record(self):
        name = self.name()
        kind, klass, ttl, length = struct.unpack(">HHIH", self.take(10))
        begin = self.at
        raw = self.take(length)
        end, self.at = self.at, begin
        rdata = self.rdata(kind, klass, raw, end)
        self.at = end
        return Record(name, kind, klass, ttl, rdata)

    def rdata(self, kind, klass, raw, end):
        if kind in (A, AAAA) and klass == IN:
            if len(raw) != (4 if kind == A else 16):
                raise Unreadable
            return raw
        if kind in (HINFO, TXT):
            count = strings(raw)
            if count is None or kind == HINFO and count != 2:
                raise Unreadable
            return raw
        shape = {NS: (0, 1, 0), CNAME: (0, 1, 0), PTR: (0, 1, 0), SOA: (0, 2, 20), MX: (2, 1, 0)}.get(kind)
        if kind == SRV and klass == IN:
            shape = (6, 1, 0)
        if shape is None:
            return raw
        before, count, after = shape
        out = self.take(before)
        for _ in range(count):
            out += name_bytes(self.name())
        out += self.take(after)
        if self.at != end or len(raw) < before:
            raise Unreadable
        return out


def strings(raw):
    count = 0
    while raw:
        if len(raw) < 1 + raw[0]:
            return None
        raw = raw[1 + raw[0]:]
        count += 1
    return count


@lru_cache(maxsize=None)
def decode(data):
    """The message that the bytes are, or None."""
    if len(data) < 12:
        return None
    reader = Reader(data)
    ident, flags, *counts = struct.unpack(">6H", data[:12])
    try:
        questions = tuple(reader.question() for _ in range(counts[0]))
        sections = [tuple(reader.record() for _ in range(count)) for count in counts[1:]]
    except Unreadable:
        return None
    return Message(ident, flags, questions, *sections) if reader.at == len(data) else None


def name_bytes(name):
    return b"".join(bytes([len(label)]) + label for label in name) + b"\0"


def encode(message):
    """The bytes of a message, each name without pointers."""
    sections = (message.answers, message.authorities, message.additionals)
    out = struct.pack(">6H", message.id, message.flags, len(message.questions), *(len(items) for items in sections))
    for item in message.questions:
        out += name_bytes(item.name) + struct.pack(">HH", item.kind, item.klass)
    for items in sections:
        for item in items:
            out += name_bytes(item.name)
            out += struct.pack(">HHIH", item.kind, item.klass, item.ttl, len(item.rdata)) + item.rdata
    return out


@dataclass(frozen=True)
class Edns:
    size: int
    ext_rcode: int


def edns(message):
    """What the OPT record says: (True, Edns or None), or (False, None) where it can't be read."""
    opts = [item for item in message.additionals if item.kind == OPT]
    if not opts:
        return True, None
    if len(opts) > 1:
        return False, None
    rest = opts[0].rdata
    while rest:
        if len(rest) < 4 or len(rest) < 4 + struct.unpack_from(">H", rest, 2)[0]:
            return False, None
        rest = rest[4 + struct.unpack_from(">H", rest, 2)[0]:]
    return True, Edns(opts[0].klass, opts[0].ttl >> 24)


def full_rcode(message, opt: Optional[Edns]):
    return message.rcode + (16 * opt.ext_rcode if opt else 0)


def query(ident, question, recursion, size):
    """The query for a question, with an OPT record that offers this size unless it is None."""
    extra = () if size is None else (Record((), OPT, size, 0, b""),)
    return Message(ident, RD if recursion else 0, (question,), (), (), extra)
