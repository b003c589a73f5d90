"""A way to use a simulated channel: each call adds at most one entry of its seat. Others may act before each call."""
from values import Accept, AskCommand, Cancel, CancelCommand, Destroy, Entry, Expire, Servers, Start, Take
from plain.channel import Channel, IDS
from plain.commands import gives
from .network import OutOfMemory


class Shared:
    """The channel with its journal."""

    def __init__(self, setting, memory):
        self.setting, self.memory = setting, memory
        self.channel, self.journal = Channel(setting), []

    def add(self, seat, by, what):
        assert self.channel.allows(what), what
        self.channel.add(what)
        self.journal.append(Entry(seat, by, what))


def call(method):
    """A call of a desk: others may act before it, and then the desk has seen the journal up to its entry."""
    def called(self, *args, **named):
        self.meddle()
        try:
            return method(self, *args, **named)
        finally:
            self.seen = len(self.shared.journal)
    return called


class Desk:
    def __init__(self, shared, seat, orders, meddle=lambda: None):
        self.shared, self.seat, self.orders, self.meddle = shared, seat, orders, meddle
        self.setting, self.calls, self.lost, self.seen = shared.setting, [], 0, 0

    @call
    def look(self, question):
        return question(self.shared.channel)

    @call
    def add(self, what, by=0):
        self.shared.memory.take()
        self.shared.add(self.seat, by, what)

    @call
    def accept(self, spec, script, by=0):
        """The request's number, or None where the channel is destroyed."""
        channel = self.shared.channel
        if channel.destroyed:
            return None
        self.shared.memory.take()
        self.shared.add(self.seat, by, Accept(len(channel.requests) + 1, spec, script))
        return len(channel.requests)

    @call
    def cancel(self, by=0):
        if self.shared.channel.pending():
            self.shared.add(self.seat, by, Cancel())

    @call
    def destroy(self, by=0):
        if not self.shared.channel.destroyed:
            self.shared.add(self.seat, by, Destroy())

    @call
    def take(self):
        ready = self.shared.channel.ready
        if not ready:
            return None
        number = ready[0]
        self.shared.add(self.seat, 0, Take(number))
        return number

    @call
    def start(self, word, bits, moment):
        channel = self.shared.channel
        if not channel.waiting() or len(channel.flying()) == IDS:
            return None
        number, l = channel.waiting()[0]
        leg = channel.requests[number].legs[l]
        server = channel.next_server(leg)
        link = channel.next_link(leg, server)
        used = channel.ids()
        ident = next((word + step) % IDS for step in range(IDS) if (word + step) % IDS not in used)
        mix = bits if self.setting.options.flags.mix and link == 0 else None
        what = Start(number, l, server, link, ident, mix, moment)
        query = channel.query(number, l, ident, mix)
        address = next(item.address for item in channel.servers if item.key == server)
        self.shared.memory.take()
        self.shared.add(self.seat, 0, what)
        return what, address, query

    @call
    def expire(self, moment):
        """Whether a leg was due, and has expired."""
        due = self.shared.channel.first_due()
        if due is None or due[0] > moment:
            return False
        self.shared.memory.take()
        self.shared.add(self.seat, 0, Expire(due[1], due[2], moment))
        return True

    @call
    def set_servers(self, addresses, by=0):
        if self.shared.channel.destroyed:
            return
        self.shared.memory.take()
        self.shared.add(self.seat, by, Servers(self.shared.channel.keys_for(addresses)))

    def spend(self, number):
        """Tells a request's callback, and performs what it commands."""
        channel = self.shared.channel
        answer = channel.fate(number)
        self.calls.append(answer)
        for command in gives(channel.requests[number].script, answer, self.orders):
            if isinstance(command, AskCommand):
                try:
                    self.accept(command.spec, command.script, number)
                except OutOfMemory:
                    self.lost += 1
            elif isinstance(command, CancelCommand):
                self.cancel(number)
            else:
                self.destroy(number)

    def deliver(self):
        number = self.take()
        while number is not None:
            self.spend(number)
            number = self.take()
