"""A run as a runner makes it, step by step: its turns and waits, replayed over a journal and a log.

The replay goes through the log call by call, and through the seat's own turn entries one by one, in the order in
which a turn makes them. Entries of other seats may stand anywhere between, the seat's own Accepts, Takes and
commands only right behind a turn: not from where it found nothing ready up to the next one's end. A look takes the
first position at which it may have seen what it saw. Not said by the rules, and so left open here too: where between
the queries of its Starts a turn draws their words, and where in a part it closes the links that it lost there.
"""
from dataclasses import dataclass

from values import (
    Arrive, Close, Connect, Datagram, Expire, Failed, Fault, Nothing, Now, Piece, Receive, Send, Serve, Start,
    Wait, Word, Write, TURN_KINDS)
from .channel import Channel, IDS, MOST_MOMENT

MOST_RECEIVES = 64


class Broken(Exception):
    """The run isn't one."""


class CutHere(Exception):
    """Log and entries are both at their end, in the middle of a turn."""


@dataclass
class View:
    """What a look finds at one position of the journal."""
    pending: bool
    ready: bool
    skips: bool
    first_due: object
    startable: bool
    busy: frozenset


def views(setting, journal):
    channel, out = Channel(setting), []
    for entry in list(journal) + [None]:
        flying = channel.flying().values()
        waiting, free = bool(channel.waiting()), len(flying) < IDS
        due = channel.first_due()
        skips = not channel.pending() or bool(channel.ready) or waiting and free
        busy = frozenset((leg.flight.server, leg.flight.link) for leg in flying)
        out.append(View(bool(channel.pending()), bool(channel.ready), skips, due[0] if due else None,
                        waiting and free, busy))
        if entry:
            channel.add(entry.what)
    return out


class Replay:
    def __init__(self, setting, journal, seat, log, slice_, begins, stops, may_be_cut):
        self.may_be_cut = may_be_cut
        self.begins = begins  # the first turn begins where something is pending and nothing ready
        self.setting, self.journal, self.seat, self.log, self.slice = setting, list(journal), seat, list(log), slice_
        self.views = views(setting, journal)
        self.own = [at for at, entry in enumerate(self.journal)
                    if entry.seat == seat and isinstance(entry.what, TURN_KINDS)]
        self.work = [at for at, entry in enumerate(self.journal)
                     if entry.seat == seat and not isinstance(entry.what, TURN_KINDS)]
        self.end = len(self.journal)  # the last position of the stretch in which a turn has to be
        self.stops = stops  # at each of the seat's Expires: whether the turn's Expires end in front of it
        self.at, self.used, self.low, self.queue, self.lost = 0, 0, 0, [], set()
        self.held, self.unread, self.unwritten = {}, {}, {}
        self.known = set(range(len(setting.options.servers)))
        self.turns, self.reading, self.ends = 0, 0, []
        self.is_whole = False  # the last turn was made whole
        self.channel_at = {}

    # ---- reading on

    def peek(self):
        return self.log[self.at] if self.at < len(self.log) else None

    def call(self, *kinds):
        """The next call, which is of one of these kinds."""
        call = self.peek()
        if call is None:
            self.cut_or_break()
        if not isinstance(call, kinds):
            raise Broken(f"call {self.at}: {call}")
        self.at += 1
        return call

    def cut_or_break(self):
        if self.may_be_cut and self.at == len(self.log) and self.used == len(self.own) and not self.queue:
            raise CutHere
        raise Broken(f"the log ends, or entry {self.used} of the turns is missing")

    def top(self):
        """The last position at which a look may have been made by now."""
        return min(self.end, self.own[self.used] if self.used < len(self.own) else len(self.journal))

    def entry(self, what):
        """The seat's next turn entry is this one."""
        if self.used == len(self.own):
            self.cut_or_break()
        at = self.own[self.used]
        if not self.low <= at < self.end or self.journal[at].what != what:
            raise Broken(f"entry {at}: {self.journal[at].what}, not {what}")
        self.used, self.low = self.used + 1, at + 1

    def next_what(self):
        return self.journal[self.own[self.used]].what if self.used < len(self.own) else None

    def see(self, test, what):
        """A look finds this at a position from here on."""
        for place in range(self.low, self.top() + 1):
            if test(self.views[place]):
                return place
        raise Broken(f"never seen: {what}")

    def look(self, test, what):
        self.low = self.see(test, what)

    # ---- a run

    def run(self):
        for key, address in enumerate(self.setting.options.servers):
            if self.peek() is None:
                self.cut_or_break()
            if self.call(Serve) != Serve(key, address):
                raise Broken("a server is told otherwise")
        while self.peek() is not None:
            self.go_on()
            self.is_whole = True
        if self.used != len(self.own):
            raise Broken("turn entries behind the last turn")

    def go_on(self):
        """A wait, if there is one, and a turn, if one follows: in the first stretch of the journal, between what else
        its seat did, in which both can be."""
        rests, reading, wait = self.turns > 0, self.reading, None
        if rests:
            self.ends.append((self.low, self.top()))
            wait = self.call(Wait) if isinstance(self.peek(), Wait) else None
        goes = self.peek() is not None
        if goes:
            self.reading = self.call(Now).reading
            self.turns, self.is_whole = self.turns + 1, False
        ends = [at for at in self.work if at >= self.low] + [len(self.journal)]
        kept, furthest = self.kept(), (-1, None)
        for begin, end in zip([self.low] + [at + 1 for at in ends], ends):
            self.restore(kept)
            self.low, self.end = begin, end
            try:
                if rests:
                    self.rest(reading, wait, goes)
                if goes:
                    self.parts()
                break
            except Broken as broken:
                furthest = max(furthest, (self.at, str(broken)), key=lambda pair: pair[0])
        else:
            raise Broken(furthest[1])
        self.end = len(self.journal)

    def rest(self, reading, wait, goes):
        """The looks between two turns, one behind the other; behind the last turn those of its wait alone."""
        if goes:
            self.look(lambda view: not view.ready, "nothing ready")
        if wait:
            latest = min(reading + self.slice, MOST_MOMENT)
            self.look(lambda view: not view.skips, "a position that calls for a wait")
            self.look(lambda view: wait.until == min(latest, latest if view.first_due is None else view.first_due),
                      "the wait's moment")
        elif goes:
            self.look(lambda view: view.skips, "a position that skips the wait")
        if goes:
            self.look(lambda view: view.pending, "something pending")

    def kept(self):
        return (self.at, self.used, dict(self.held), dict(self.unread), dict(self.unwritten), set(self.known))

    def restore(self, kept):
        self.at, self.used, *rest = kept
        self.held, self.unread, self.unwritten, self.known = (item.copy() for item in rest)

    def parts(self):
        if self.begins and self.turns == 1:
            self.look(lambda view: view.pending and not view.ready, "something pending and nothing ready")
        self.receive()
        self.expire()
        self.start()
        self.write()
        self.close()
        if not (self.peek() is None or isinstance(self.peek(), (Now, Wait))):
            raise Broken(f"call {self.at}: {self.peek()}")

    # ---- the parts of a turn

    def receive(self):
        self.lost, count = set(), 0
        while count < MOST_RECEIVES:
            call = self.call(Receive, Close)
            if isinstance(call, Close):
                self.close_lost(call.link)
                continue
            count, got = count + 1, call.got
            if isinstance(got, Nothing):
                break
            if isinstance(got, Datagram):
                self.entry(Arrive(got.server, 0, got.bytes))
            elif isinstance(got, Piece):
                self.piece(got)
            elif isinstance(got, Failed) and got.link not in self.held:
                self.entry(Fault(got.server, got.link, self.reading))
            elif got.link in self.held:
                self.lose(got.link)
        self.close_all_lost()

    def close_all_lost(self):
        """What was lost in this part is closed in it."""
        while self.lost:
            self.close_lost(self.call(Close).link)

    def close_lost(self, link):
        if link not in self.lost:
            raise Broken("a link is closed that wasn't lost")
        self.lost.remove(link)

    def piece(self, got):
        if got.link not in self.held:
            return
        rest = self.unread[got.link] + got.bytes
        while len(rest) >= 2 and len(rest) - 2 >= rest[0] * 256 + rest[1]:
            size = rest[0] * 256 + rest[1]
            self.entry(Arrive(self.held[got.link], got.link, rest[2:2 + size]))
            rest = rest[2 + size:]
        self.unread[got.link] = rest

    def lose(self, link):
        self.entry(Fault(self.held[link], link, self.reading))
        self.lost.add(link)
        self.forget(link)

    def forget(self, link):
        for kept in (self.held, self.unread, self.unwritten):
            kept.pop(link, None)

    def expire(self):
        while self.expires_here(self.next_what()) and not self.stops.get(self.used):
            self.entry(self.next_what())
        try:
            self.look(lambda view: view.first_due is None or view.first_due > self.reading, "nothing due")
        except Broken:
            self.cut_or_break()

    def expires_here(self, what):
        return isinstance(what, Expire) and what.moment == self.reading

    def start(self):
        """The Starts have their words in order, and what they ask for is asked in order."""
        end = self.at
        while end < len(self.log) and isinstance(self.log[end], (Word, Serve, Send, Connect)):
            end += 1
        part, self.at = self.log[self.at:end], end
        words = [call.word for call in part if isinstance(call, Word)]
        self.queue = [call for call in part if not isinstance(call, Word)]
        size = 2 if self.setting.options.flags.mix else 1
        drawn = [words[at:at + size] for at in range(0, len(words), size)]
        if not drawn:
            self.cut_or_break()
        for group in drawn[:-1]:
            if self.next_what() is None:
                raise Broken("words are drawn behind those of a Start that wasn't made")
            self.begin(group)
        if len(drawn[-1]) < size:
            self.cut_or_break()
        if self.queue or end == len(self.log) and isinstance(self.next_what(), Start):
            # the last words are those of a Start, behind which the turn was cut short
            self.begin(drawn[-1])
            self.cut_or_break()
        try:
            self.look(lambda view: not view.startable, "nothing to start")
        except Broken:
            self.cut_or_break()

    def asks(self, kind):
        """The next call of this part, which is of this kind."""
        if not self.queue:
            self.cut_or_break()
        call = self.queue.pop(0)
        if not isinstance(call, kind):
            raise Broken(f"{call} where a {kind.__name__} is due")
        return call

    def channel(self, place):
        if place not in self.channel_at:
            channel = Channel(self.setting)
            for entry in self.journal[:place]:
                channel.add(entry.what)
            self.channel_at[place] = channel
        return self.channel_at[place]

    def begin(self, words):
        word, bits = words[0], words[-1]
        what = self.next_what()
        if what is None:
            self.cut_or_break()
        if not isinstance(what, Start) or what.moment != self.reading:
            raise Broken(f"{what} where a Start is due")
        used = self.channel(self.own[self.used]).ids()
        first = next(ident for ident in ((word + step) % IDS for step in range(IDS)) if ident not in used)
        if what.id != first or what.mix is not None and what.mix != bits:
            raise Broken("a Start without its words")
        channel = self.channel(self.own[self.used])
        query = channel.query(what.number, what.leg, what.id, what.mix)
        address = next(item.address for item in channel.servers if item.key == what.server)
        is_new = what.link > 0 and what.link not in self.links_before(self.own[self.used])
        self.entry(what)
        if what.server not in self.known:
            if self.asks(Serve) != Serve(what.server, address):
                raise Broken("a later server is told otherwise")
            self.known.add(what.server)
        if what.link == 0:
            call = self.asks(Send)
            if (call.server, call.bytes) != (what.server, query):
                raise Broken("another datagram")
            if not call.sent:
                self.fails(call, what)
            return
        if is_new:
            call = self.asks(Connect)
            if (call.server, call.link) != (what.server, what.link):
                raise Broken("another link")
            if not call.sent:
                self.fails(call, what)
                return
            self.held[what.link], self.unread[what.link], self.unwritten[what.link] = what.server, b"", b""
        if what.link not in self.held:
            raise Broken("a Start over a link that isn't held")
        self.unwritten[what.link] += bytes([len(query) // 256, len(query) % 256]) + query

    def fails(self, call, what):
        """The query couldn't be asked, which is noted; or its call is the last of all."""
        if self.used == len(self.own) and call is not self.log[-1]:
            raise Broken("calls behind what wasn't noted")
        self.entry(Fault(what.server, what.link, self.reading))

    def links_before(self, place):
        return {entry.what.link for entry in self.journal[:place] if isinstance(entry.what, Start)}

    def write(self):
        stuck, self.lost = set(), set()
        while isinstance(self.peek(), Write) or isinstance(self.peek(), Close) and self.peek().link in self.lost:
            call = self.call(Write, Close)
            if isinstance(call, Close):
                self.close_lost(call.link)
                continue
            if call.link not in self.held:
                raise Broken("a write to a link that isn't held")
            if call.count is None:
                self.lose(call.link)
                continue
            if not self.unwritten[call.link].startswith(call.bytes[:call.count]):
                raise Broken("other bytes are written")
            self.unwritten[call.link] = self.unwritten[call.link][call.count:]
            stuck = stuck | {call.link} if not call.count and call.bytes else stuck - {call.link}
        self.close_all_lost()
        if any(rest and link not in stuck for link, rest in self.unwritten.items()):
            self.cut_or_break()

    def close(self):
        closed, links = [], sorted(self.held.items())
        while isinstance(self.peek(), Close):
            closed.append(self.call(Close).link)
        if len(set(closed)) != len(closed) or not set(closed) <= set(self.held):
            raise Broken("a link is closed that isn't held")
        places = [self.low]
        for link, server in links:
            if link in closed:
                places.append(self.see(lambda view: (server, link) not in view.busy, "an idle link"))
                self.forget(link)
                continue
            try:
                places.append(self.see(lambda view: (server, link) in view.busy, "a busy link"))
            except Broken:
                self.cut_or_break()
        self.low = max(places)


def tries(setting, journal, seat, log, slice_, begins, may_be_cut):
    """A replay for each way to part the seat's Expires between turns of one reading: nearly always one way."""
    own = [entry.what for entry in journal if entry.seat == seat and isinstance(entry.what, TURN_KINDS)]
    readings = [call.reading for call in log if isinstance(call, Now)]
    doubtful = [at for at, what in enumerate(own) if isinstance(what, Expire) and readings.count(what.moment) > 1
                and at and isinstance(own[at - 1], Expire)]
    ways = [{}] + [{at: True} for at in doubtful[:8]]
    for stops in ways:
        yield Replay(setting, journal, seat, log, slice_, begins, stops, may_be_cut)


def is_foreign_free(journal, seat):
    return all(entry.seat == seat or not isinstance(entry.what, TURN_KINDS) for entry in journal)


def course(setting, journal, seat, log, slice_, begins=False):
    """The replay of a whole run, or the reason why it is none."""
    reason = "another seat makes turn entries"
    if is_foreign_free(journal, seat):
        for replay in tries(setting, journal, seat, log, slice_, begins, False):
            try:
                replay.run()
                return replay, None
            except Broken as why:
                reason = str(why)
    return None, reason


def cut_course(setting, journal, seat, log, slice_, begins=False):
    """The replay of a run that was cut short in its last turn, or while it told the servers; or the reason."""
    reason = "another seat makes turn entries"
    if is_foreign_free(journal, seat):
        for replay in tries(setting, journal, seat, log, slice_, begins, True):
            try:
                replay.run()
                return replay, None
            except CutHere:
                return replay, None
            except Broken as why:
                reason = str(why)
    return None, reason
