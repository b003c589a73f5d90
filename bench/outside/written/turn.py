"""The shape of a turn: channel_model/specs/Turn.antt."""
from values import (
    Arrive, Close, Connect, Ended, Expire, Failed, Fault, Nothing, Now, Receive, Send, Serve, ServerKey,
    Start, Word, Write)
from .past import begun_by, has_key
from .traffic import any_in, held_link

PARTS = ["receiving", "expiring", "starting", "writing", "closing"]
ENTRY_PARTS = {Start: ("starting",), Arrive: ("receiving",), Expire: ("expiring",),
               Fault: ("receiving", "starting", "writing")}
CALL_PARTS = {Serve: ("starting",), Word: ("starting",), Send: ("starting",), Connect: ("starting",),
              Write: ("writing",), Receive: ("receiving",), Close: ("receiving", "writing", "closing")}
MOST_RECEIVES, MOST_ENTRIES = 64, 2 ** 16


def moment_of(what):
    return what.moment if isinstance(what, (Start, Expire, Fault)) else None


def is_at(reading, what):
    return moment_of(what) in (None, reading)


def is_nothing(got):
    return isinstance(got, Nothing)


def ends_with_nothing(gots):
    return bool(gots) and is_nothing(gots[-1]) and not any(map(is_nothing, gots[:-1]))


def is_whole_receive(most, gots):
    return (ends_with_nothing(gots) and len(gots) <= most
            or not any(map(is_nothing, gots)) and len(gots) == most)


def is_partial_receive(gots):
    return (ends_with_nothing(gots) or not any(map(is_nothing, gots))) and len(gots) <= MOST_RECEIVES


def if_held(held, number):
    return [] if held_link(number, held) is None else [number]


def losses(held, call):
    if isinstance(call, Write):
        return if_held(held, call.link) if call.count is None else []
    if isinstance(call, Receive) and isinstance(call.got, (Ended, Failed)):
        return if_held(held, call.got.link)
    return []


def is_sent_to(server, call):
    return isinstance(call, (Send, Connect)) and call.server == server


def are_served_first(calls):
    return all(not is_sent_to(later.server, call) for at, call in enumerate(calls) for later in calls[at + 1:]
               if isinstance(later, Serve))


def took_nothing(call):
    return len(call.bytes) != 0 and call.count == 0


class Turns:
    """Turns over a traffic: what stands from one standing to another."""

    def __init__(self, traffic):
        self.traffic, self.model, self.seat = traffic, traffic.model, traffic.seat
        self.journal, self.log, self.pasts = traffic.journal, traffic.log, traffic.pasts
        self.kept = {}

    # ---- what entries and calls are of

    def own(self, i, k):
        return [entry.what for entry in self.journal[i:k] if entry.seat == self.seat]

    def are_of(self, part, reading, i, k, j, l):
        return (all(part in ENTRY_PARTS.get(type(what), ()) and is_at(reading, what) for what in self.own(i, k))
                and all(part in CALL_PARTS.get(type(call), ()) for call in self.log[j:l]))

    def count(self, kind, i, k):
        return sum(1 for what in self.own(i, k) if isinstance(what, kind))

    def receives(self, j, l):
        return [call.got for call in self.log[j:l] if isinstance(call, Receive)]

    def closes_made(self, j, l):
        return [call.link for call in self.log[j:l] if isinstance(call, Close)]

    def losses(self, j, l):
        return [link for at in range(j, l) for link in losses(self.traffic.helds[at], self.log[at])]

    def closes_held(self, j, l):
        return [link for at in range(j, l) if isinstance(self.log[at], Close)
                for link in if_held(self.traffic.helds[at], self.log[at].link)]

    def writes_astray(self, j, l):
        return [self.log[at].link for at in range(j, l) if isinstance(self.log[at], Write)
                and held_link(self.log[at].link, self.traffic.helds[at]) is None]

    def somewhere(self, test, i, k):
        return any(test(self.pasts[at]) for at in range(i, k + 1))

    # ---- words and servers

    def are_drawn(self, may_be_left, starts, words):
        """Starts are pairs of an attempt and its past."""
        mixes = self.model.options.flags.mix
        for a, past in starts:
            if not words or not self.model.is_first_free(words[0], a.id, past):
                return False
            words = words[1:]
            if mixes:
                if not words or a.mix is not None and a.mix != words[0]:
                    return False
                words = words[1:]
        return may_be_left(len(words))

    def draws_for_starts(self, may_be_left, i, k, j, l):
        starts = [(begun_by(self.journal[at].what), self.pasts[at]) for at in range(i, k)
                  if self.journal[at].seat == self.seat and begun_by(self.journal[at].what) is not None]
        words = [call.word for call in self.log[j:l] if isinstance(call, Word)]
        return self.are_drawn(may_be_left, starts, words)

    def words_of_look(self):
        return 2 if self.model.options.flags.mix else 1

    def served_by(self, i, k):
        out = []
        for at in range(i, k):
            a, past = begun_by(self.journal[at].what), self.pasts[at]
            if self.journal[at].seat != self.seat or a is None or has_key(a.server, self.model.opening_servers()):
                continue
            if any_in(lambda what: isinstance(what, Start) and what.server == a.server, past):
                continue
            out += [server for server in self.model.servers_at(past) if server.key == a.server][:1]
        return out

    def serves(self, j, l):
        return [ServerKey(call.server, call.address) for call in self.log[j:l] if isinstance(call, Serve)]

    def may_lack_server(self, i, k, j, l):
        noted, told = self.served_by(i, k), self.serves(j, l)
        if noted == told:
            return True
        return (bool(noted) and noted[:-1] == told
                and not any(is_sent_to(noted[-1].key, call) for call in self.log[j:l]))

    # ---- whole parts

    def has_received(self, reading, i, k, j, l):
        return (is_whole_receive(MOST_RECEIVES, self.receives(j, l))
                and self.closes_made(j, l) == self.losses(j, l))

    def has_expired(self, reading, i, k, j, l):
        count, due = self.count(Expire, i, k), self.model.first_due(self.pasts[k])
        return (due is None or reading < due[0] or count == MOST_ENTRIES) and count <= MOST_ENTRIES

    def has_started(self, reading, i, k, j, l):
        count, look = self.count(Start, i, k), self.words_of_look()
        none = self.model.waiting(self.pasts[k]) == [] or self.model.all_used(self.pasts[k])
        all_ = (none and self.draws_for_starts(lambda left: left == look, i, k, j, l)
                or count == MOST_ENTRIES and self.draws_for_starts(lambda left: left == 0, i, k, j, l))
        return (all_ and count <= MOST_ENTRIES and self.served_by(i, k) == self.serves(j, l)
                and are_served_first(self.log[j:l]))

    def is_flushed(self, i, k, j, l, link):
        writes = [call for call in self.log[j:l] if isinstance(call, Write) and call.link == link.number]
        rest = self.traffic.unwritten(k, l).get(link.number, b"")
        return len(rest) == 0 or bool(writes) and took_nothing(writes[-1])

    def has_written(self, reading, i, k, j, l):
        return (all(self.is_flushed(i, k, j, l, link) for link in self.traffic.helds[l])
                and self.writes_astray(j, l) == [] and self.closes_made(j, l) == self.losses(j, l))

    def is_busy(self, link, past):
        return any(a.server == link.server and a.link == link.number for a in self.model.in_flight(past))

    def is_looked_at(self, i, k, closes, link):
        if link.number in closes:
            return self.somewhere(lambda past: not self.is_busy(link, past), i, k)
        return self.somewhere(lambda past: self.is_busy(link, past), i, k)

    def has_closed(self, reading, i, k, j, l):
        closes = self.closes_made(j, l)
        return (all(self.is_looked_at(i, k, closes, link) for link in self.traffic.helds[j])
                and closes == self.closes_held(j, l))

    def has_made(self, part, reading, i, k, j, l):
        rule = {"receiving": self.has_received, "expiring": self.has_expired, "starting": self.has_started,
                "writing": self.has_written, "closing": self.has_closed}[part]
        return (self.are_of(part, reading, i, k, j, l) and self.traffic.agrees(i, k, j, l)
                and rule(reading, i, k, j, l))

    def stretches(self, part, reading, i, j):
        """The ends of stretches from (i, j) whose entries and calls are of the part."""
        k = i
        while k == i or k <= len(self.journal) and self.are_of(part, reading, k - 1, k, j, j):
            l = j
            while l == j or l <= len(self.log) and self.are_of(part, reading, k, k, l - 1, l):
                yield k, l
                l += 1
            k += 1

    def made(self, part, reading, i, j):
        """The standings to which the part leads, made whole."""
        key = part, reading, i, j
        if key not in self.kept:
            self.kept[key] = [(k, l) for k, l in self.stretches(part, reading, i, j)
                              if self.has_made(part, reading, i, k, j, l)]
        return self.kept[key]

    def have_made(self, parts, reading, standings):
        for part in parts:
            standings = {end for i, j in standings for end in self.made(part, reading, i, j)}
        return standings

    def turns(self, i, j):
        """The reading of the turn that begins at the standing, and the standings to which it may lead."""
        if j >= len(self.log) or not isinstance(self.log[j], Now):
            return None, set()
        reading = self.log[j].reading
        return reading, self.have_made(PARTS, reading, {(i, j + 1)})

    # ---- turns that were cut short

    def cut_as_rule(self, part, i, k, j, l):
        if part == "receiving":
            closes = self.closes_made(j, l)
            return is_partial_receive(self.receives(j, l)) and closes == self.losses(j, l)[:len(closes)]
        if part == "expiring":
            return self.count(Expire, i, k) <= MOST_ENTRIES
        if part == "starting":
            look = self.words_of_look()
            return (self.count(Start, i, k) <= MOST_ENTRIES
                    and self.draws_for_starts(lambda left: left <= look, i, k, j, l)
                    and self.may_lack_server(i, k, j, l) and are_served_first(self.log[j:l]))
        closes = self.closes_made(j, l)
        if part == "writing":
            return self.writes_astray(j, l) == [] and closes == self.losses(j, l)[:len(closes)]
        return closes == self.closes_held(j, l) and all(
            link.number not in closes or self.somewhere(lambda past: not self.is_busy(link, past), i, k)
            for link in self.traffic.helds[j])

    def was_cut(self, part, reading, i, k, j, l):
        return (self.are_of(part, reading, i, k, j, l) and self.traffic.nearly_agrees(i, k, j, l)
                and self.cut_as_rule(part, i, k, j, l))

    def is_cut_turn(self, i, k, j, l):
        if j >= l or not isinstance(self.log[j], Now):
            return False
        reading = self.log[j].reading
        for at, part in enumerate(PARTS):
            for middle in self.have_made(PARTS[:at], reading, {(i, j + 1)}):
                if middle[0] <= k and middle[1] <= l and self.was_cut(part, reading, middle[0], k, middle[1], l):
                    return True
        return False
