"""What a log of the network tells, and what a journal's turn entries say of it: list by list."""
from dataclasses import dataclass, field

from values import Arrive, Close, Connect, Datagram, Ended, Failed, Fault, Piece, Receive, Send, Start, Write
from .channel import Channel


@dataclass
class Told:
    """What the calls tell so far, and the links that are held: their servers and unread bytes."""
    held: dict = field(default_factory=dict)
    unread: dict = field(default_factory=dict)
    messages: list = field(default_factory=list)
    sends: list = field(default_factory=list)
    connects: list = field(default_factory=list)
    writes: dict = field(default_factory=dict)
    faults: list = field(default_factory=list)

    def drop(self, link):
        self.held.pop(link, None)
        self.unread.pop(link, None)

    def fault(self, server, link):
        self.faults.append((self.held.get(link, server), link))
        self.drop(link)

    def piece(self, link, data):
        if link not in self.held:
            return
        rest = self.unread[link] + data
        while len(rest) >= 2 and len(rest) >= 2 + int.from_bytes(rest[:2], "big"):
            length = int.from_bytes(rest[:2], "big")
            self.messages.append((self.held[link], link, rest[2:2 + length]))
            rest = rest[2 + length:]
        self.unread[link] = rest

    def receive(self, got):
        if isinstance(got, Datagram):
            self.messages.append((got.server, 0, got.bytes))
        elif isinstance(got, Piece):
            self.piece(got.link, got.bytes)
        elif isinstance(got, Ended) and got.link in self.held:
            self.fault(None, got.link)
        elif isinstance(got, Failed):
            self.fault(got.server, got.link)

    def add(self, call):
        if isinstance(call, Receive):
            self.receive(call.got)
        elif isinstance(call, Send):
            self.sends.append((call.server, call.bytes))
            if not call.sent:
                self.faults.append((call.server, 0))
        elif isinstance(call, Connect):
            self.connects.append((call.link, call.server))
            if call.sent:
                self.held[call.link], self.unread[call.link] = call.server, b""
            else:
                self.faults.append((call.server, call.link))
        elif isinstance(call, Write):
            if call.count is None:
                if call.link in self.held:
                    self.fault(None, call.link)
            else:
                self.writes[call.link] = self.writes.get(call.link, b"") + call.bytes[:call.count]
        elif isinstance(call, Close):
            self.drop(call.link)


def told(log):
    out = Told()
    for call in log:
        out.add(call)
    return out


@dataclass
class Noted:
    """What a seat's entries say of the network."""
    messages: list = field(default_factory=list)
    sends: list = field(default_factory=list)
    links: list = field(default_factory=list)
    queued: dict = field(default_factory=dict)
    faults: list = field(default_factory=list)


def noted(setting, journal, seat):
    out, channel, seen = Noted(), Channel(setting), set()
    for entry in journal:
        what = entry.what
        if entry.seat == seat and isinstance(what, Arrive):
            out.messages.append((what.server, what.link, what.bytes))
        elif entry.seat == seat and isinstance(what, Fault):
            out.faults.append((what.server, what.link))
        elif entry.seat == seat and isinstance(what, Start):
            query = channel.query(what.number, what.leg, what.id, what.mix)
            if what.link == 0:
                out.sends.append((what.server, query))
            else:
                if what.link not in seen:
                    out.links.append((what.link, what.server))
                framed = len(query).to_bytes(2, "big") + query
                out.queued[what.link] = out.queued.get(what.link, b"") + framed
        if isinstance(what, Start):
            seen.add(what.link)
        channel.add(what)
    return out


def agrees(setting, journal, seat, log):
    """The journal's traffic is the log's: the names of the lists that differ."""
    said, heard = noted(setting, journal, seat), told(log)
    differ = []
    if said.messages != heard.messages:
        differ.append("messages")
    if said.sends != heard.sends:
        differ.append("sends")
    if sorted(said.links) != sorted(heard.connects):
        differ.append("links")
    if any(not said.queued.get(link, b"").startswith(data) for link, data in heard.writes.items()):
        differ.append("writes")
    if said.faults != heard.faults:
        differ.append("faults")
    return differ
