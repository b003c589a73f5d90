"""A run as text, as docs/JOURNAL.md has it: whether a text is one, and which line is the first bad one."""
import re

from names import Fault, fault_text, name_or_none, printed_name
from records import address_text, read_address


class Bad(Exception):
    pass


class Words:
    """The words of a line, taken from the left."""

    def __init__(self, line):
        self.words = line.split(b" ")

    def next(self):
        if not self.words:
            raise Bad
        return self.words.pop(0)

    def is_next(self, word):
        return self.words[:1] == [word]

    def expect(self, word):
        if self.next() != word:
            raise Bad

    def number(self, least, most):
        word = self.next()
        if not re.fullmatch(rb"0|[1-9][0-9]*", word) or not least <= int(word) <= most:
            raise Bad
        return int(word)

    def bits(self, bits):
        return self.number(0, 2 ** bits - 1)

    def hexed(self):
        word = self.next()
        if word != b"-" and not re.fullmatch(rb"([0-9a-f]{2})+", word):
            raise Bad
        return b"" if word == b"-" else bytes.fromhex(word.decode())

    def address(self):
        word = self.next()
        address = read_address(word)
        if not address or address_text(address).encode() != word:
            raise Bad

    def name(self):
        word = self.next()
        name = name_or_none(word)
        if name is None or printed_name(name).encode() != word:
            raise Bad

    def request(self):
        kind = self.next()
        if kind in (b"q", b"s"):
            self.hexed(), self.bits(16), self.bits(16)
        elif kind == b"a":
            self.hexed(), self.number(0, 2), self.number(0, 1)
        elif kind == b"r":
            self.address()
        else:
            raise Bad

    def script(self, depth):
        self.expect(b"(")
        self.bits(64)
        steps = 0
        while not self.is_next(b")"):
            steps += 1
            self.number(0, 2), self.number(0, 3)
            deed = self.next()
            if deed == b"ask":
                self.request()
            if deed in (b"ask", b"rev"):
                self.script(depth + 1)
            elif deed not in (b"cancel", b"destroy"):
                raise Bad
        self.expect(b")")
        if steps > 8 or depth > 4:
            raise Bad

    def entry(self):
        self.bits(64), self.bits(64)
        what = self.next()
        if what == b"accept":
            self.bits(64), self.request(), self.script(1)
        elif what == b"take":
            self.bits(64)
        elif what == b"start":
            self.bits(64), self.bits(8), self.bits(32), self.bits(64), self.bits(16)
            if self.is_next(b"-"):
                self.next()
            else:
                self.bits(16)
            self.bits(64)
        elif what == b"arrive":
            self.bits(32), self.bits(64), self.hexed()
        elif what == b"expire":
            self.bits(64), self.bits(8), self.bits(64)
        elif what == b"fault":
            self.bits(32), self.bits(64), self.bits(64)
        elif what == b"servers":
            while self.words:
                self.bits(32), self.address(), self.bits(16)
        elif what not in (b"cancel", b"destroy"):
            raise Bad


class Reader:
    """What was read so far: which lines there were, how many, and how many bytes the hosts file has."""

    def __init__(self):
        self.seen, self.counts, self.hosts = "start", {}, 0

    def many(self, what, most):
        self.counts[what] = self.counts.get(what, 0) + 1
        if self.counts[what] > most:
            raise Bad
        self.seen = what

    def line(self, line):
        words = Words(line)
        first = words.words[0]
        if self.seen == "start":
            words.expect(b"journal"), words.expect(b"1")
            self.seen = "journal"
        elif self.seen == "journal":
            words.expect(b"option")
            words.number(1, 60000), words.number(1, 10), words.number(0, 15), words.number(0, 3600000)
            if not re.fullmatch(rb"[01]{8}", words.next()):
                raise Bad
            words.number(0, 1), words.number(0, 2), words.number(512, 65535)
            self.seen = "option"
        elif self.seen in ("option", "server") and first == b"server":
            words.next(), words.address(), words.bits(16), self.many("server", 8)
        elif self.seen in ("server", "domain") and first == b"domain":
            words.next(), words.name(), self.many("domain", 8)
        elif self.seen in ("server", "domain", "source") and first == b"source":
            words.next(), words.address(), self.many("source", 8)
        elif self.seen in ("server", "domain", "source"):
            words.expect(b"hosts")
            self.hosts, self.seen = len(words.hexed()), "hosts"
        elif self.seen == "hosts" and first == b"end":
            words.next()
            self.seen = "end"
        elif self.seen == "hosts":
            words.entry()
            self.counts["entry"] = self.counts.get("entry", 0) + 1
        else:
            raise Bad
        if words.words:
            raise Bad


def told(text):
    if len(text) > 16777216:
        return "!TooLarge"
    *lines, behind = text.split(b"\n")
    reader = Reader()
    for number, line in enumerate(lines, 1):
        try:
            reader.line(line)
        except Bad:
            return fault_text(Fault("BadLine", number))
    if behind or reader.seen != "end":
        return fault_text(Fault("BadLine", len(lines) + 1))
    if reader.counts.get("entry", 0) > 4096:
        return "!TooMany"
    return "!BadHosts" if reader.hosts > 4194304 else text.decode()
