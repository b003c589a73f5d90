"""A runner: its turns and pauses, step by step, over a desk and a network."""
from values import Arrive, Datagram, Ended, Failed, Fault, Nothing, Piece
from plain.channel import IDS, MOST_MOMENT


class Runner:
    def __init__(self, desk, network):
        self.desk, self.network, self.reading = desk, network, 0
        self.held, self.unread, self.unwritten = {}, {}, {}
        self.known = set()
        for key, address in enumerate(desk.setting.options.servers):
            network.serve(key, address)
            self.known.add(key)

    def turn(self):
        self.reading = self.network.now()
        self.receive()
        self.expire()
        self.start()
        for link in sorted(self.held):
            self.write(link)
        for link in sorted(self.held):
            if not self.desk.look(lambda channel: channel.is_busy(self.held[link], link)):
                self.network.close(link)
                self.forget(link)

    def receive(self):
        for _ in range(64):
            got = self.network.receive()
            if isinstance(got, Nothing):
                return
            if isinstance(got, Datagram):
                self.desk.add(Arrive(got.server, 0, got.bytes))
            elif isinstance(got, Piece) and got.link in self.held:
                self.piece(got)
            elif isinstance(got, (Ended, Failed)) and got.link in self.held:
                self.lose(got.link)
            elif isinstance(got, Failed):
                self.desk.add(Fault(got.server, got.link, self.reading))

    def piece(self, got):
        self.unread[got.link] += got.bytes
        while True:
            rest = self.unread[got.link]
            if len(rest) < 2 or len(rest) < 2 + int.from_bytes(rest[:2], "big"):
                return
            size = int.from_bytes(rest[:2], "big")
            self.desk.add(Arrive(self.held[got.link], got.link, rest[2:2 + size]))
            self.unread[got.link] = rest[2 + size:]

    def lose(self, link):
        self.desk.add(Fault(self.held[link], link, self.reading))
        self.network.close(link)
        self.forget(link)

    def forget(self, link):
        for kept in (self.held, self.unread, self.unwritten):
            kept.pop(link)

    def expire(self):
        while self.desk.expire(self.reading):
            pass

    def start(self):
        while True:
            word = self.network.word()
            bits = self.network.word() if self.desk.setting.options.flags.mix else None
            begun = self.desk.start(word, bits, self.reading)
            if begun is None:
                return
            what, address, query = begun
            if what.server not in self.known:
                self.network.serve(what.server, address)
                self.known.add(what.server)
            self.ask(what, query)

    def ask(self, what, query):
        if what.link == 0:
            if not self.network.send(what.server, query):
                self.desk.add(Fault(what.server, 0, self.reading))
            return
        if what.link not in self.held:
            if not self.network.connect(what.server, what.link):
                self.desk.add(Fault(what.server, what.link, self.reading))
                return
            self.held[what.link], self.unread[what.link], self.unwritten[what.link] = what.server, b"", b""
        self.unwritten[what.link] += len(query).to_bytes(2, "big") + query

    def write(self, link):
        while self.unwritten[link]:
            count = self.network.write(link, self.unwritten[link])
            if count is None:
                self.lose(link)
                return
            if count == 0:
                return
            self.unwritten[link] = self.unwritten[link][count:]

    def pause(self, slice_):
        """Whether the run goes on: a pause that is skipped, or a wait that doesn't fail."""
        def skips(channel):
            startable = channel.waiting() and len(channel.flying()) < IDS
            return not channel.pending() or channel.ready or startable
        if self.desk.look(skips):
            return True
        due = self.desk.look(lambda channel: channel.first_due())
        latest = min(self.reading + slice_, MOST_MOMENT)
        return self.network.wait(latest if due is None else min(due[0], latest))
