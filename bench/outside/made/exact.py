"""Whether a run of one owner is, call by call and entry by entry, what the tools' loop makes of a network.

The loop is gone through again over a network that answers as the log does, and over a journal that is already
written: what the loop calls or adds otherwise is the first difference. Where memory was wanting, the first entry or
call that isn't there is where it was. This is stricter than what is promised of a run.
"""
from values import Close, Connect, Entry, Now, Receive, Send, Serve, Wait, Word, Write
from .desk import Desk, Shared
from .network import Memory, OutOfMemory
from .runs import NO_MEMORY, finish, loop


class Differs(Exception):
    """The loop does something else."""


class Told:
    """A network that answers as a log does."""

    def __init__(self, log, wants_memory):
        self.log, self.at, self.wants_memory = list(log), 0, wants_memory

    def next(self, kind, **said):
        if self.at == len(self.log):
            raise OutOfMemory if self.wants_memory else Differs(f"a {kind.__name__} is missing at the log's end")
        call = self.log[self.at]
        if not isinstance(call, kind) or any(getattr(call, name) != value for name, value in said.items()):
            raise Differs(f"call {self.at} is {call}, not {kind.__name__} {said}")
        self.at += 1
        return call

    def serve(self, server, address):
        self.next(Serve, server=server, address=address)

    def now(self):
        return self.next(Now).reading

    def word(self):
        return self.next(Word).word

    def send(self, server, data):
        return self.next(Send, server=server, bytes=data).sent

    def connect(self, server, link):
        return self.next(Connect, server=server, link=link).sent

    def write(self, link, data):
        return self.next(Write, link=link, bytes=data).count

    def receive(self):
        return self.next(Receive).got

    def close(self, link):
        self.next(Close, link=link)

    def wait(self, until):
        return self.next(Wait, until=until).woken


class Written(Shared):
    """A channel whose journal is written already."""

    def __init__(self, run):
        super().__init__(run.setting, Memory())
        self.wanted, self.wants_memory = run.journal, run.end == NO_MEMORY

    def add(self, seat, by, what):
        at, entry = len(self.journal), Entry(seat, by, what)
        if self.wanted[at:at + 1] != [entry]:
            if self.wants_memory:
                raise OutOfMemory
            raise Differs(f"entry {at} is {self.wanted[at:at + 1]}, not {what}")
        if not self.channel.allows(what):
            raise Differs(f"{what} isn't allowed")
        super().add(seat, by, what)


def difference(run):
    """The first difference, or None."""
    shared = Written(run)
    network = Told(run.log, shared.wants_memory)
    desk = Desk(shared, 0, run.orders)
    try:
        end, turns = loop(desk, network, run.askings, run.later, run.limit)
        if shared.wants_memory and end != NO_MEMORY and not desk.lost:
            return "memory wasn't wanting"
        if network.at < len(run.log):
            return f"call {network.at} is one too many: {run.log[network.at]}"
        finish(desk)
        if shared.journal != run.journal:
            return f"entry {len(shared.journal)} is one too many"
    except (Differs, OutOfMemory) as why:
        return str(why) or f"entry {len(shared.journal)} isn't what the end makes"
    if desk.calls != run.calls:
        return "the answers"
    return None
