"""A journal's traffic and a log's: Calls, Frames, Links, Traffic, Stretch and CutShort of channel_model/specs.

Journal and log are given whole. A standing is a pair of positions, in the journal and in the log: its past, its held
links and the bytes that are still to be written follow from it, since each stretch begins where another ended.
"""
from dataclasses import dataclass, replace

from values import Arrive, Close, Connect, Datagram, Ended, Failed, Fault, Piece, Receive, Send, Start, Write
from . import message
from .past import begun_by
from .std import find


# ---- Frames.antt

def framed(data):
    return bytes([len(data) // 256, len(data) % 256]) + data


def is_frame(data):
    return len(data) >= 2 and len(data) - 2 == 256 * data[0] + data[1]


def messages_in(unread, data):
    out, come = [], unread
    for byte in data:
        come = come + bytes([byte])
        if is_frame(come):
            out.append(come[2:])
            come = b""
    return out


def left_in(unread, data):
    come = unread
    for byte in data:
        come = come + bytes([byte])
        come = b"" if is_frame(come) else come
    return come


# ---- Links.antt

@dataclass(frozen=True)
class Link:
    number: int
    server: int
    unread: bytes


def held_link(number, held):
    return find(lambda link: link.number == number, held)


def without_link(number, held):
    return tuple(link for link in held if link.number != number)


def with_bytes(number, data, link):
    return replace(link, unread=left_in(link.unread, data)) if link.number == number else link


def held_by(held, call):
    if isinstance(call, Connect):
        return held + (Link(call.link, call.server, b""),) if call.sent else held
    if isinstance(call, Write):
        return without_link(call.link, held) if call.count is None else held
    if isinstance(call, Close):
        return without_link(call.link, held)
    if not isinstance(call, Receive):
        return held
    got = call.got
    if isinstance(got, Piece):
        return tuple(with_bytes(got.link, got.bytes, link) for link in held)
    return without_link(got.link, held) if isinstance(got, (Ended, Failed)) else held


# ---- Traffic.antt: what a call tells

def messages_of(held, got):
    if isinstance(got, Datagram):
        return [(got.server, 0, got.bytes)]
    if isinstance(got, Piece):
        link = held_link(got.link, held)
        return [] if link is None else [(link.server, link.number, data)
                                        for data in messages_in(link.unread, got.bytes)]
    return []


def messages(held, call):
    return messages_of(held, call.got) if isinstance(call, Receive) else []


def datagrams(held, call):
    return [(call.server, 0, call.bytes)] if isinstance(call, Send) else []


def connects(held, call):
    return [(call.server, call.link)] if isinstance(call, Connect) else []


def written(held, call):
    """The bytes that a write took, with their link; told for one link they are those of that link alone."""
    return [(call.link, call.bytes[:call.count])] if isinstance(call, Write) and call.count is not None else []


def broken(link, otherwise):
    return otherwise if link is None else [(link.server, link.number)]


def fault_received(held, got):
    if isinstance(got, Ended):
        return broken(held_link(got.link, held), [])
    return broken(held_link(got.link, held), [(got.server, got.link)]) if isinstance(got, Failed) else []


def faults(held, call):
    if isinstance(call, Send):
        return [] if call.sent else [(call.server, 0)]
    if isinstance(call, Connect):
        return [] if call.sent else [(call.server, call.link)]
    if isinstance(call, Write):
        return broken(held_link(call.link, held), []) if call.count is None else []
    return fault_received(held, call.got) if isinstance(call, Receive) else []


def notices_of(came, sent, connected, failed):
    return ([("message", item) for item in came] + [("datagram", item) for item in sent]
            + [("link", item) for item in connected] + [("fault", item) for item in failed])


def notices(held, call):
    return notices_of(messages(held, call), datagrams(held, call), connects(held, call), faults(held, call))


# ---- Traffic.antt: what an entry notes

def arrived(model, past, what):
    return [(what.server, what.link, what.bytes)] if isinstance(what, Arrive) else []


def faulted(model, past, what):
    return [(what.server, what.link)] if isinstance(what, Fault) else []


def is_start_on(link, what):
    return isinstance(what, Start) and what.link == link


def any_in(test, past):
    while past is not None:
        if test(past.what):
            return True
        past = past.past
    return False


def opened(model, past, what):
    a = begun_by(what)
    if a is None or a.link == 0 or any_in(lambda earlier: is_start_on(a.link, earlier), past):
        return []
    return [(a.server, a.link)]


def query_bytes(model, past, a):
    query = model.leg_query(a.leg, a.id, a.mix, past)
    return b"" if query is None else message.message_bytes(query)


def asked(model, past, what):
    a = begun_by(what)
    return [(a.server, 0, query_bytes(model, past, a))] if a is not None and a.link == 0 else []


def noticed(model, past, what):
    return notices_of(arrived(model, past, what), asked(model, past, what), opened(model, past, what),
                      faulted(model, past, what))


def queued(model, past, what):
    """The framed query of an attempt over a link that isn't 0, with its link."""
    a = begun_by(what)
    return [(a.link, framed(query_bytes(model, past, a)))] if a is not None and a.link != 0 else []


NOTES = {function.__name__: function for function in (arrived, asked, opened, faulted, noticed, queued)}
TELLS = {function.__name__: function for function in (messages, datagrams, connects, written, faults, notices)}
PAIRS = [("arrived", "messages"), ("asked", "datagrams"), ("opened", "connects"), ("faulted", "faults"),
         ("noticed", "notices")]


class Traffic:
    """A seat's journal and a log."""

    def __init__(self, model, journal, seat, log):
        self.model, self.journal, self.seat, self.log = model, list(journal), seat, list(log)
        self.pasts, self.helds = [None], [()]
        for entry in self.journal:
            self.pasts.append(model.behind(entry.what, self.pasts[-1]))
        for call in self.log:
            self.helds.append(held_by(self.helds[-1], call))
        self.notes = {name: [function(model, self.pasts[at], entry.what) if entry.seat == seat else []
                             for at, entry in enumerate(self.journal)] for name, function in NOTES.items()}
        self.tells = {name: [function(self.helds[at], call) for at, call in enumerate(self.log)]
                      for name, function in TELLS.items()}
        self.rest = {}

    def noted(self, name, i, k):
        return [item for items in self.notes[name][i:k] for item in items]

    def told(self, name, j, l):
        return [item for items in self.tells[name][j:l] for item in items]

    # ---- Stretch.antt

    def unwritten(self, i, j):
        """The bytes that are still to be written to each link at a standing, or None where others were written."""
        if (i, j) not in self.rest:
            links = {}
            for link, data in self.noted("queued", 0, i):
                links[link] = links.get(link, b"") + data
            for link, data in self.told("written", 0, j):
                rest = links.get(link, b"")
                links = None if not rest.startswith(data) else {**links, link: rest[len(data):]}
                if links is None:
                    break
            self.rest[i, j] = links
        return self.rest[i, j]

    def agrees(self, i, k, j, l):
        """Agrees, from the standing (i, j) to the standing (k, l)."""
        return (all(self.noted(notes, i, k) == self.told(tells, j, l) for notes, tells in PAIRS)
                and self.unwritten(k, l) is not None)

    # ---- Traffic.antt

    def traffic_agrees(self):
        return self.agrees(0, len(self.journal), 0, len(self.log))

    # ---- CutShort.antt

    def stops_short(self, name, notes, j, l):
        until, whole = self.told(name, j, max(j, l - 1)), self.told(name, j, l)
        return j < l and notes[:len(until)] == until and whole[:len(notes)] == notes

    def falls_short(self, name, notes, j, l):
        return notes == self.told(name, j, l) or self.stops_short(name, notes, j, l)

    def may_lack_one(self, name, notes, j, l):
        told = self.told(name, j, l)
        return notes == told or notes[:-1] == told and len(notes) == len(told) + 1

    def nearly_in_order(self, notes, j, l):
        one_more = notes and notes[:-1] == self.told("notices", j, l) and notes[-1][0] in ("datagram", "link")
        return self.falls_short("notices", notes, j, l) or bool(one_more)

    def nearly_agrees(self, i, k, j, l):
        return (self.falls_short("messages", self.noted("arrived", i, k), j, l)
                and self.may_lack_one("datagrams", self.noted("asked", i, k), j, l)
                and self.may_lack_one("connects", self.noted("opened", i, k), j, l)
                and self.unwritten(k, l) is not None
                and self.falls_short("faults", self.noted("faulted", i, k), j, l)
                and self.nearly_in_order(self.noted("noticed", i, k), j, l))
