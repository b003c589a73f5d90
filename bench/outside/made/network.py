"""A network in memory whose losses, replies and failures come by chance. It keeps the log of its calls."""
from values import (
    Close, Connect, Datagram, Ended, Failed, Nothing, Now, Piece, Receive, Send, Serve, Wait, Word, Write)
from .replies import reply


class OutOfMemory(Exception):
    """Memory was wanting at a call."""


class Memory:
    """So many calls that may take memory find some; then one doesn't, and no later one unless it was wanting once."""

    def __init__(self, calls=None, once=False):
        self.left, self.once, self.asked = calls, once, 0

    def take(self):
        self.asked += 1
        if self.left is None:
            return
        if self.left == 0:
            self.left = None if self.once else 0
            raise OutOfMemory
        self.left -= 1


class Network:
    def __init__(self, rng, memory, faults=.08):
        self.rng, self.memory, self.faults = rng, memory, faults
        self.log, self.clock, self.items, self.links = [], 0, [], {}
        self.written = {}

    def put(self, call):
        self.log.append(call)

    # ---- what comes

    def later(self, got, span=None):
        moment = self.clock + (self.rng.choice((0, 0, 1, 50, 99, 100, 1999, 2000, 2500)) if span is None else span)
        self.items.append((moment, got))

    def answer(self, data, come):
        """What comes of a query: nothing, one reply or several."""
        rng = self.rng
        for _ in range(rng.choices((0, 1, 2), (.25, .65, .1))[0]):
            come(reply(rng, data))

    def receivable(self):
        for at, (moment, got) in enumerate(self.items):
            if moment <= self.clock:
                return at
        return None

    # ---- the calls

    def serve(self, server, address):
        self.memory.take()
        self.put(Serve(server, address))

    def now(self):
        self.memory.take()
        self.put(Now(self.clock))
        return self.clock

    def word(self):
        self.memory.take()
        word = self.rng.choice((7, 7, 65535, self.rng.randrange(65536)))
        self.put(Word(word))
        return word

    def send(self, server, data):
        self.memory.take()
        sent = self.rng.random() >= self.faults
        self.put(Send(server, data, sent))
        if sent:
            whose = server if self.rng.random() < .92 else server + 1
            self.answer(data, lambda out: self.later(Datagram(whose, out)))
            if self.rng.random() < .05:
                self.later(Failed(server, 0))
        return sent

    def connect(self, server, link):
        self.memory.take()
        sent = self.rng.random() >= self.faults
        self.put(Connect(server, link, sent))
        if sent:
            self.links[link], self.written[link] = server, b""
            if self.rng.random() < .15:
                self.later(self.rng.choice((Ended(link), Failed(server, link))))
        return sent

    def write(self, link, data):
        self.memory.take()
        if self.rng.random() < self.faults:
            self.put(Write(link, data, None))
            return None
        count = self.share(data)
        self.put(Write(link, data, count))
        self.took(link, data[:count])
        return count

    def share(self, data):
        """How many of the bytes a write takes."""
        return self.rng.choice((len(data), len(data), len(data), 0, self.rng.randint(0, len(data))))

    def took(self, link, data):
        rest = self.written[link] + data
        while len(rest) >= 2 and len(rest) >= 2 + int.from_bytes(rest[:2], "big"):
            size = int.from_bytes(rest[:2], "big")
            self.answer(rest[2:2 + size], lambda out: self.framed(link, out))
            rest = rest[2 + size:]
        self.written[link] = rest

    def framed(self, link, data):
        """A reply over a link; or as a datagram of its server, where nobody waits for it."""
        if self.rng.random() < .3:
            self.later(Datagram(self.links.get(link, 0), data))
        self.pieces(link, len(data).to_bytes(2, "big") + data)

    def pieces(self, link, data):
        """A frame comes in pieces, which are cut anywhere; perhaps an end cuts it off."""
        rng = self.rng
        cuts = sorted(rng.randint(1, max(1, len(data) - 1)) for _ in range(rng.choice((0, 0, 1, 2))))
        span = rng.choice((0, 1, 60))
        parts = [data[a:b] for a, b in zip([0] + cuts, cuts + [len(data)]) if a < b]
        if rng.random() < .1:
            parts.pop()
        for part in parts:
            self.later(Piece(link, part), span)
        if rng.random() < .15:
            self.later(Ended(link), span)

    def receive(self):
        self.memory.take()
        if self.rng.random() < self.faults / 8:
            got = Failed(0, 0)
        else:
            at = self.receivable()
            got = Nothing() if at is None else self.items.pop(at)[1]
        self.put(Receive(got))
        return got

    def close(self, link):
        self.memory.take()
        kept = self.items
        self.put_close(link)
        if self.rng.random() < .1:
            self.items = kept

    def put_close(self, link):
        """Nothing of the link can be received any more."""
        self.put(Close(link))
        self.links.pop(link, None)
        self.items = [item for item in self.items if getattr(item[1], "link", None) != link]

    def wait(self, until):
        self.memory.take()
        if self.rng.random() < self.faults / 8:
            self.put(Wait(until, False))
            return False
        self.put(Wait(until, True))
        moments = [moment for moment, _ in self.items] + [until]
        self.clock = max(self.clock, min(moments))
        return True
