"""Attempts and legs: what a channel's past says of its servers, of what is in flight and of how legs ended.

From channel_model/specs.
"""
from dataclasses import dataclass

from values import Accept, Arrive, Cancel, Destroy, Expire, Fault, ServerKey, Servers, Start, Take
from . import edns, message, requests
from .edns import Opt, read_reply
from .message import Message, is_response, is_standard
from .names import mixed_question, same_name
from .requests import candidates_of, question_for, wanted_kind
from .std import Past, find, memo

@dataclass(frozen=True)
class Attempt:
    leg: tuple
    server: int
    link: int
    id: int
    mix: object
    moment: int


@dataclass(frozen=True)
class Closing:
    server: int
    outcome: object  # None, or a pair of NextTcp, NextPlain, Failed or Final and a status
    reply: bytes
    most: int


@dataclass(frozen=True)
class LegEnd:
    status: int
    reply: bytes


# ---- Journal.antt

def accepted_by(what):
    return what if isinstance(what, Accept) else None


def is_destroy(what):
    return isinstance(what, Destroy)


def own_entries(seat, journal):
    return [entry for entry in journal if entry.seat == seat]


# ---- Servers.antt

def keyed_from(key, addresses):
    return tuple(ServerKey(key + k, address) for k, address in enumerate(addresses))


def has_key(key, servers):
    return any(server.key == key for server in servers)


def rekeyed(addresses, old, greatest):
    if not addresses:
        return ()
    server = find(lambda item: item.address == addresses[0], old)
    if server is not None:
        return (server,) + rekeyed(addresses[1:], [item for item in old if item.key != server.key], greatest)
    return (ServerKey(greatest + 1, addresses[0]),) + rekeyed(addresses[1:], old, greatest + 1)


def servers_set_by(what):
    return what.list if isinstance(what, Servers) else None


def leaves_server(key, what):
    return has_key(key, what.list) if isinstance(what, Servers) else True


def from_place(k, items):
    return items[k:] + items[:k]


# ---- Flight.antt

def begun_by(what):
    if not isinstance(what, Start):
        return None
    return Attempt((what.number, what.leg), what.server, what.link, what.id, what.mix, what.moment)


def went_over(a, server, link):
    return a.server == server and a.link == link


def asked_with(mix, question):
    return question if mix is None else mixed_question(mix, question)


def repeats(exact, question, asked):
    names = question.name == asked.name if exact else same_name(question.name, asked.name)
    return names and question.kind == asked.kind and question.klass == asked.klass


def asks_only(exact, asked, questions):
    return asked is not None and len(questions) == 1 and repeats(exact, questions[0], asked)


def answers(ident, exact, asked, reply):
    return (reply.id == ident and is_response(reply) and is_standard(reply)
            and asks_only(exact, asked, reply.questions))


def answer_to(ident, exact, asked, data):
    reply = read_reply(data)
    return reply if reply is not None and answers(ident, exact, asked, reply.message) else None


# ---- Verdict.antt

def status_of_rcode(code):
    return {1: requests.FORM_ERR, 2: requests.SERV_FAIL, 3: requests.NOT_FOUND, 4: requests.NOT_IMP,
            5: requests.REFUSED}.get(code, requests.BAD_RESP)


def is_refusal(code):
    return code == 2 or code == 4 or code == 5


def has_answer(kind, records):
    return bool(records) if kind is None else any(requests.is_of_kind(kind, rr) for rr in records)


def verdict_of(flags, over_tcp, had_opt, kind, reply):
    code = edns.rcode_of(reply.message, reply.opt)
    if message.is_truncated(reply.message) and not over_tcp and not flags.igntc:
        return "NextTcp", None
    if message.header_rcode(reply.message) == 1 and reply.opt is None and had_opt:
        return "NextPlain", None
    if is_refusal(code) and not flags.nocheckresp:
        return "Failed", status_of_rcode(code)
    if code == 0:
        return "Final", requests.SUCCESS if has_answer(kind, reply.message.answers) else requests.NO_DATA
    return "Final", status_of_rcode(code)


# ---- Past.antt

def is_kind(outcome, kind):
    return outcome is not None and outcome[0] == kind


def spent(closings):
    return sum(1 for closing in closings if is_kind(closing.outcome, "Failed"))


def forced_by(closing):
    again = is_kind(closing.outcome, "NextTcp") or is_kind(closing.outcome, "NextPlain")
    return closing.server if again else None


def if_left(what, server):
    return server if server is not None and leaves_server(server, what) else None


def bytes_of(what):
    return what.bytes if isinstance(what, Arrive) else b""


def query_for(ident, question, norecurse, size):
    plain = Message(ident, message.query_flags(norecurse), (question,), (), (), ())
    return plain if size is None else edns.message_with(plain, Opt(size, 0, 0, False, ()))


# ---- LegEnd.antt

def ending_status(outcome, count, most):
    if is_kind(outcome, "Failed"):
        return outcome[1] if most <= count else None
    return outcome[1] if is_kind(outcome, "Final") else None


def end_of(closings):
    if not closings:
        return None
    earlier = end_of(closings[1:])
    if earlier is not None:
        return earlier
    status = ending_status(closings[0].outcome, spent(closings), closings[0].most)
    return None if status is None else LegEnd(status, closings[0].reply)


class Attempts:
    """What depends on a setting."""

    def __init__(self, setting):
        self.setting, self.options = setting, setting.options
        self.kept, self.chain = {}, {}

    # ---- Journal.antt

    def behind(self, what, past):
        """The past with one thing more; equal pasts are one object."""
        key = (what, past)
        if key not in self.chain:
            self.chain[key] = Past(what, past)
        return self.chain[key]

    def followed_by(self, past, entries):
        for entry in entries:
            past = self.behind(entry.what, past)
        return past

    def past_of(self, journal):
        return self.followed_by(None, journal)

    @memo
    def accepted(self, past):
        if past is None:
            return ()
        more = accepted_by(past.what)
        return self.accepted(past.past) + (() if more is None else (more,))

    def request_of(self, number, past):
        return find(lambda request: request.number == number, self.accepted(past))

    def spec_of(self, number, past):
        request = self.request_of(number, past)
        return None if request is None else request.spec

    def script_of(self, number, past):
        request = self.request_of(number, past)
        return None if request is None else request.script

    @memo
    def is_destroyed(self, past):
        return past is not None and (is_destroy(past.what) or self.is_destroyed(past.past))

    # ---- Servers.antt

    def opening_servers(self):
        return keyed_from(0, self.options.servers)

    @memo
    def servers_at(self, past):
        if past is None:
            return self.opening_servers()
        listed = servers_set_by(past.what)
        return self.servers_at(past.past) if listed is None else listed

    @memo
    def greatest_key(self, past):
        if past is None:
            return max([0] + [server.key for server in self.opening_servers()])
        listed = servers_set_by(past.what)
        greatest = self.greatest_key(past.past)
        return greatest if listed is None else max([greatest] + [server.key for server in listed])

    def keys_for(self, addresses, past):
        return rekeyed(tuple(addresses), list(self.servers_at(past)), self.greatest_key(past))

    def servers_used(self, past):
        servers = self.servers_at(past)
        return servers[:1] if self.options.flags.primary else servers

    def in_use(self, past):
        return len(self.servers_used(past))

    def attempts(self, past):
        return self.in_use(past) * self.options.tries

    def enters(self, key, what, past):
        listed = servers_set_by(what)
        return listed is not None and has_key(key, listed) and not has_key(key, self.servers_at(past))

    # ---- Questions.antt

    @memo
    def candidates_of(self, spec):
        return tuple(candidates_of(self.setting, spec))

    def question_of(self, leg, past):
        spec = self.spec_of(leg[0], past)
        if spec is None:
            return None
        names = self.candidates_of(spec)
        at = requests.candidate_of(leg[1])
        return question_for(spec, leg[1], names[at]) if at < len(names) else None

    # ---- Flight.antt

    @memo
    def started(self, past):
        """The newest new leg first, as in the definition."""
        if past is None:
            return ()
        legs, a = self.started(past.past), begun_by(past.what)
        return legs if a is None or a.leg in legs else (a.leg,) + legs

    def asked_question(self, a, past):
        question = self.question_of(a.leg, past)
        return None if question is None else asked_with(a.mix, question)

    @memo
    def reply_to(self, a, data, past):
        return answer_to(a.id, a.mix is not None, self.asked_question(a, past), data)

    def closes(self, a, what, past):
        if isinstance(what, (Accept, Take, Start)):
            return False
        if isinstance(what, (Cancel, Destroy)):
            return True
        if isinstance(what, Arrive):
            return went_over(a, what.server, what.link) and self.reply_to(a, what.bytes, past) is not None
        if isinstance(what, Expire):
            return a.leg == (what.number, what.leg)
        if isinstance(what, Fault):
            return went_over(a, what.server, what.link)
        return not has_key(a.server, what.list)

    @memo
    def flight(self, leg, past):
        if past is None:
            return None
        a = begun_by(past.what)
        if a is not None and a.leg == leg:
            return a
        before = self.flight(leg, past.past)
        return None if before is None or self.closes(before, past.what, past.past) else before

    @memo
    def in_flight(self, past):
        return tuple(a for a in (self.flight(leg, past) for leg in self.started(past)) if a is not None)

    # ---- Past.antt

    def is_over_tcp(self, closings):
        return self.options.flags.usevc or any(is_kind(closing.outcome, "NextTcp") for closing in closings)

    def has_opt(self, closings):
        return self.options.flags.edns and not any(is_kind(closing.outcome, "NextPlain") for closing in closings)

    def judged_by(self, a, past, earlier, reply):
        wanted = wanted_kind(self.spec_of(a.leg[0], past), a.leg[1])
        return verdict_of(self.options.flags, a.link != 0, self.has_opt(earlier), wanted, reply)

    def outcome_of(self, a, what, past, earlier):
        if isinstance(what, Arrive):
            reply = self.reply_to(a, what.bytes, past)
            return None if reply is None else self.judged_by(a, past, earlier, reply)
        if isinstance(what, Expire):
            return "Failed", requests.TIMED_OUT
        if isinstance(what, Fault):
            return "Failed", requests.CONN_REFUSED
        return None

    def closing_of(self, a, what, past, earlier):
        return Closing(a.server, self.outcome_of(a, what, past, earlier), bytes_of(what), self.attempts(past))

    @memo
    def closings(self, leg, past):
        if past is None:
            return ()
        a, earlier = self.flight(leg, past.past), self.closings(leg, past.past)
        if a is None or not self.closes(a, past.what, past.past):
            return earlier
        return (self.closing_of(a, past.what, past.past, earlier),) + earlier

    @memo
    def forced_server(self, leg, past):
        if past is None:
            return None
        a = self.flight(leg, past.past)
        if a is not None and self.closes(a, past.what, past.past):
            return forced_by(self.closing_of(a, past.what, past.past, self.closings(leg, past.past)))
        return if_left(past.what, self.forced_server(leg, past.past))

    def query_of(self, ident, question, closings):
        size = self.options.edns_size if self.has_opt(closings) else None
        return query_for(ident, question, self.options.flags.norecurse, size)

    def leg_query(self, leg, ident, mix, past):
        question = self.question_of(leg, past)
        return None if question is None else self.query_of(ident, asked_with(mix, question), self.closings(leg, past))

    # ---- LegEnd.antt

    @memo
    def leg_end(self, leg, past):
        return end_of(self.closings(leg, past))
