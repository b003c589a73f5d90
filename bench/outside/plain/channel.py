"""A channel that goes forward: it is given entries one by one, says whether each may stand there, and goes on."""
from dataclasses import dataclass, field
from typing import Optional

from values import (
    Accept, Address, Answer, Arrive, Cancel, Destroy, Expire, Fault, ServerKey, Servers, Start, Take)
from . import messages, names, requests

TCP, PLAIN, FAILED, FINAL = "over TCP", "without OPT", "failed", "final"
MOST_MOMENT = 2 ** 64 - 1
IDS = 2 ** 16


@dataclass
class Flight:
    server: int
    link: int
    id: int
    mix: Optional[int]
    deadline: int


@dataclass
class Leg:
    spent: int = 0
    tcp: bool = False
    opt: bool = True
    forced: Optional[int] = None
    flight: Optional[Flight] = None
    end: Optional[tuple] = None  # status, reply


@dataclass
class Request:
    number: int
    spec: object
    script: object
    names: list
    candidate: int = 0
    legs: dict = field(default_factory=dict)
    answers: list = field(default_factory=list)
    fate: Optional[Answer] = None


class Channel:
    def __init__(self, setting):
        self.setting = setting
        self.options = setting.options
        self.requests = {}
        self.ready = []
        self.taken = []
        self.destroyed = False
        self.servers = [ServerKey(key, address) for key, address in enumerate(self.options.servers)]
        self.greatest_key = len(self.servers) - 1
        self.failures = {server.key: 0 for server in self.servers}
        self.started = set()
        self.greatest_link = 0

    # ---- what stands

    def used(self):
        return self.servers[:1] if self.options.flags.primary else self.servers

    def pending(self):
        return [number for number, request in self.requests.items() if request.fate is None]

    def flying(self):
        """The legs in flight, by request and number."""
        return {(number, l): leg for number, request in self.requests.items() for l, leg in request.legs.items()
                if leg.flight}

    def waiting(self):
        """The legs that wait, in order."""
        return [(number, l) for number in self.pending()
                for l in requests.legs(self.requests[number].spec, self.requests[number].candidate)
                if not self.requests[number].legs[l].flight and not self.requests[number].legs[l].end]

    def first_due(self):
        """The leg in flight that is due first: deadline, request and number; or None."""
        return min(((leg.flight.deadline,) + key for key, leg in self.flying().items()), default=None)

    def ids(self):
        return {leg.flight.id for leg in self.flying().values()}

    def is_busy(self, server, link):
        return any((leg.flight.server, leg.flight.link) == (server, link) for leg in self.flying().values())

    def next_server(self, leg):
        if leg.forced is not None:
            return leg.forced
        used = self.used()
        turn = len(self.started) % len(used) if self.options.rotate else 0
        order = used[turn:] + used[:turn]
        return min(order, key=lambda server: self.failures[server.key]).key

    def next_link(self, leg, server):
        if not (self.options.flags.usevc or leg.tcp):
            return 0
        links = [other.flight.link for other in self.flying().values()
                 if other.flight.server == server and other.flight.link]
        return links[0] if links else self.greatest_link + 1

    def keys_for(self, addresses):
        old, greatest, out = list(self.servers), self.greatest_key, []
        for address in addresses:
            match = next((item for item in old if item.address == address), None)
            if match:
                old.remove(match)
            else:
                greatest += 1
                match = ServerKey(greatest, address)
            out.append(match)
        return tuple(out)

    def asked(self, number, l, mix):
        question = requests.question(self.requests[number].spec, l, self.options)
        if mix is None:
            return question
        return messages.Question(names.mixed(question.name, mix), question.kind, question.klass)

    def query(self, number, l, ident, mix):
        """The bytes of the query with which an attempt of the leg would begin here."""
        size = self.options.edns_size if self.has_opt(self.requests[number].legs[l]) else None
        question = self.asked(number, l, mix)
        return messages.encode(messages.query(ident, question, not self.options.flags.norecurse, size))

    def has_opt(self, leg):
        return self.options.flags.edns and leg.opt

    def matched(self, server, link, data):
        """The leg in flight that a message answers, with the reply and its OPT record; or None."""
        message = messages.decode(data)
        if message is None or not message.flags & messages.QR or message.opcode or len(message.questions) != 1:
            return None
        readable, opt = messages.edns(message)
        for key, leg in self.flying().items():
            flight = leg.flight
            if not readable or (flight.server, flight.link, flight.id) != (server, link, message.id):
                continue
            asked, got = self.asked(*key, flight.mix), message.questions[0]
            agree = got.name == asked.name if flight.mix is not None else names.same(got.name, asked.name)
            if agree and (got.kind, got.klass) == (asked.kind, asked.klass):
                return key, message, opt
        return None

    def verdict(self, key, message, opt):
        """What a matching reply means for the leg: a kind, and a status where it has one."""
        request, flags = self.requests[key[0]], self.options.flags
        leg = request.legs[key[1]]
        code = messages.full_rcode(message, opt)
        if message.flags & messages.TC and not leg.flight.link and not flags.igntc:
            return TCP, None
        if message.rcode == 1 and opt is None and self.has_opt(leg):
            return PLAIN, None
        if code in (2, 4, 5) and not flags.nocheckresp:
            return FAILED, code + 1
        if code:
            return FINAL, code + 1 if code <= 5 else requests.BADRESP
        answers = message.answers
        if isinstance(request.spec, Address):
            answers = requests.records_of(message, messages.AAAA if key[1] % 2 else messages.A)
        return FINAL, requests.SUCCESS if answers else requests.NODATA

    # ---- which entries are allowed

    def allows(self, what):
        if isinstance(what, Accept):
            return not self.destroyed and what.number == len(self.requests) + 1
        if isinstance(what, Cancel):
            return bool(self.pending())
        if isinstance(what, Destroy):
            return not self.destroyed
        if isinstance(what, Take):
            return self.ready[:1] == [what.number]
        if isinstance(what, Start):
            return self.allows_start(what)
        if isinstance(what, Expire):
            due = self.first_due()
            return due is not None and due[1:] == (what.number, what.leg) and due[0] <= what.moment
        if isinstance(what, Servers):
            addresses = [item.address for item in what.list]
            return not self.destroyed and 1 <= len(addresses) <= 8 and what.list == self.keys_for(addresses)
        return True

    def allows_start(self, what):
        waiting = self.waiting()
        if waiting[:1] != [(what.number, what.leg)]:
            return False
        leg = self.requests[what.number].legs[what.leg]
        mixes = self.options.flags.mix and what.link == 0
        return (what.server == self.next_server(leg) and what.link == self.next_link(leg, what.server)
                and what.id not in self.ids() and (what.mix is not None) == mixes)

    # ---- how it goes on

    def add(self, what):
        """Goes on with an allowed entry."""
        if isinstance(what, Accept):
            request = Request(what.number, what.spec, what.script, requests.candidates(what.spec, self.options))
            self.requests[what.number] = request
            request.fate = requests.at_once(what.number, what.spec, self.setting)
            if request.fate:
                self.ready.append(what.number)
            else:
                self.open(request)
        elif isinstance(what, (Cancel, Destroy)):
            status = requests.CANCELLED if isinstance(what, Cancel) else requests.DESTRUCTION
            self.destroyed = self.destroyed or isinstance(what, Destroy)
            for number in self.pending():
                self.requests[number].fate = Answer(number, status)
                self.ready.append(number)
            for leg in self.flying().values():
                leg.flight = None
        elif isinstance(what, Take):
            self.ready.remove(what.number)
            self.taken.append(what.number)
        elif isinstance(what, Start):
            self.start(what)
        elif isinstance(what, Arrive):
            found = self.matched(what.server, what.link, what.bytes)
            if found:
                self.close(found[0], *self.verdict(*found), what.bytes)
        elif isinstance(what, Expire):
            self.close((what.number, what.leg), FAILED, requests.TIMEDOUT, b"")
        elif isinstance(what, Fault):
            hit = [key for key, leg in self.flying().items()
                   if (leg.flight.server, leg.flight.link) == (what.server, what.link)]
            before = self.failures.get(what.server, 0)
            for key in hit:
                self.close(key, FAILED, requests.CONNREFUSED, b"", complete=False)
            if hit:
                self.failures[what.server] = before + 1
            self.complete()
        elif isinstance(what, Servers):
            self.set_servers(what.list)

    def start(self, what):
        leg = self.requests[what.number].legs[what.leg]
        count = len(self.used())
        wait = self.options.timeout << min(9, leg.spent // count)
        if self.options.max_timeout:
            wait = min(wait, self.options.max_timeout)
        deadline = min(what.moment + wait, MOST_MOMENT)
        leg.flight = Flight(what.server, what.link, what.id, what.mix, deadline)
        leg.forced = None
        self.started.add((what.number, what.leg))
        self.greatest_link = max(self.greatest_link, what.link)

    def close(self, key, kind, status, reply, complete=True):
        """Ends the attempt of a leg in flight."""
        leg = self.requests[key[0]].legs[key[1]]
        server, leg.flight = leg.flight.server, None
        self.failures[server] = self.failures.get(server, 0) + 1 if kind == FAILED else 0
        if kind == TCP:
            leg.tcp, leg.forced = True, server
        elif kind == PLAIN:
            leg.opt, leg.forced = False, server
        elif kind == FAILED:
            leg.spent += 1
            if leg.spent >= len(self.used()) * self.options.tries:
                leg.end = status, reply
        else:
            leg.end = status, reply
        if complete:
            self.complete()

    def set_servers(self, listed):
        old = {server.key for server in self.servers}
        new = {server.key for server in listed}
        self.servers = list(listed)
        self.greatest_key = max([self.greatest_key] + list(new))
        self.failures.update({key: 0 for key in new - old})
        for request in self.requests.values():
            for leg in request.legs.values():
                if leg.flight and leg.flight.server not in new:
                    leg.flight = None
                if leg.forced is not None and leg.forced not in new:
                    leg.forced = None

    def open(self, request):
        """The candidate becomes current: its legs wait."""
        for l in requests.legs(request.spec, request.candidate):
            request.legs[l] = Leg()

    def complete(self):
        """Candidates whose legs have ended end; the next becomes current, or the request is over."""
        for number in self.pending():
            request = self.requests[number]
            ends = {l % 2: request.legs[l].end for l in requests.legs(request.spec, request.candidate)}
            if not all(ends.values()):
                continue
            if isinstance(request.spec, Address):
                name = request.names[request.candidate]
                answer = requests.merged(number, request.spec, name, ends, self.setting)
            else:
                answer = Answer(number, ends[0][0], ends[0][1])
            request.answers.append(answer)
            if answer.status in requests.GOING_ON and request.candidate + 1 < len(request.names):
                request.candidate += 1
                self.open(request)
            else:
                request.fate = requests.searched(request.answers)
                self.ready.append(number)

    def fate(self, number):
        return self.requests[number].fate if number in self.requests else None


def first_unlawful(setting, journal):
    """The position of the first entry that isn't allowed, or None; and the channel up to there."""
    channel = Channel(setting)
    for position, entry in enumerate(journal):
        if not channel.allows(entry.what):
            return position, channel
        channel.add(entry.what)
    return None, channel


def after(setting, journal, length):
    """The channel behind so many entries of a lawful journal."""
    channel = Channel(setting)
    for entry in journal[:length]:
        channel.add(entry.what)
    return channel
