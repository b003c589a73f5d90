"""What a run of ahost promises: ahost_tool/specs/Promise.antt and Session.antt; of adig: adig_tool/specs/Promise.antt
and Answered.antt. Each clause that doesn't hold is named by its field."""
from values import Accept, Address, Cancel, Connect, Datagram, Destroy, Entry, Orders, Receive, Search, Send, Servers
from . import edns, message, names, requests
from .commands import Commands, accepted_for, closing_position
from .course import Course
from .completion import goes_on, taken_by
from .lawful import Model
from .past import is_destroy, status_of_rcode

LONGEST_SLICE = 2 ** 64 - 1
PAGE, STALLED, WAIT_FAULT, NO_MEMORY = "completed", "stalled", "wait fault", "no memory"


# ---- ahost_tool/specs/Kinds.antt

def has_servers(entries):
    return any(isinstance(entry.what, Servers) for entry in entries)


def is_ruled(entry):
    return entry.seat == 0 and not (entry.by == 0 and isinstance(entry.what, Cancel))


# ---- adig_tool/specs/Entries.antt

def is_asking(entry):
    return entry.seat == 0 and entry.by == 0 and isinstance(entry.what, Accept)


def is_own(entry):
    return entry.seat == 0 and entry.by == 0 and not isinstance(entry.what, (Cancel, Servers))


class Promise:
    def __init__(self, run, model=None):
        self.run, self.model = run, model or Model(run.setting)
        self.journal = run.journal
        self.commands = Commands(self.model, run.journal)
        self.past, self.pasts = self.commands.past, self.commands.pasts
        self.course = Course(self.model, run.journal, 0, run.log, LONGEST_SLICE)
        self.memory_wanting = run.end == NO_MEMORY

    def is_over(self, past):
        return self.model.pending(past) == () and self.model.ready(past) == []

    # ---- ahost_tool/specs/Session.antt

    def servers_entry(self, addresses, past):
        return Entry(0, 0, Servers(self.model.keys_for(addresses, past)))

    def sets_once(self, addresses):
        """The positions at which these servers, and no others, were set."""
        return [at for at, entry in enumerate(self.journal)
                if entry == self.servers_entry(addresses, self.pasts[at])
                and not has_servers(self.journal[:at]) and not has_servers(self.journal[at + 1:])]

    def sets_at_most(self):
        if not has_servers(self.journal):
            return True
        return self.run.later is not None and bool(self.sets_once(self.run.later))

    def sets_behind_first(self, made):
        later = self.run.later
        if later is None or made == 0 and not has_servers(self.journal):
            return not has_servers(self.journal)
        behind_first = self.course.first_turns()
        if any(at in behind_first for at in self.sets_once(later)):
            return True
        return not has_servers(self.journal) and any(self.model.is_destroyed(self.pasts[k]) for k in behind_first)

    # ---- ahost_tool/specs/Promise.antt

    def last_at(self):
        return closing_position(self.journal) if self.run.end == PAGE else len(self.journal)

    def traffic_broken(self):
        """IsTraffic: the fields that don't hold, of the number of turns with which the fewest don't."""
        counts = self.course.is_course_so_far()
        if not counts:
            return ["course_so_far"]
        return min((self.traffic_broken_at(made) for made in counts), key=len)

    def traffic_broken_at(self, made):
        run, course, found = self.run, self.course, []
        is_course = made in course.is_course()
        checks = {
            "few": made <= run.limit, "readings": course.turns_in() == made,
            "nearly_agrees": course.turns.traffic.nearly_agrees(0, len(self.journal), 0, len(run.log)),
            "sets_behind": self.sets_behind_first(made) or self.memory_wanting and made <= 1 and not has_servers(self.journal),
            "begins": made < 1 or bool(course.first_turns()) or self.memory_wanting and course.begins_cut(),
            "waits": course.no_wait_failed() or course.ends_with_failed_wait(),
            "last_wait": run.end != WAIT_FAULT or course.ends_with_failed_wait(),
            "all_turns": run.end != STALLED or made == run.limit}
        if not self.memory_wanting:
            checks |= {
                "course": is_course, "agrees": course.turns.traffic.traffic_agrees(),
                "none_failed": run.end == WAIT_FAULT or course.no_wait_failed()}
        return found + [name for name, holds in checks.items() if not holds]

    def asks_first(self):
        return any(
            all(map(is_asking, self.journal[:at])) and not accepted_for(0, self.journal[at:])
            for at in range(len(self.journal) + 1))

    def broken(self):
        run, model = self.run, self.model
        if model.first_unlawful(self.journal) is not None:
            return [f"lawful at {model.first_unlawful(self.journal)}"]
        accepted = model.requests(self.past)
        lost = self.commands.obeys_orders(1, run.orders, self.last_at())
        askings = accepted_for(0, self.journal)
        closing = self.pasts[closing_position(self.journal)]
        numbers = [answer.number for answer in run.calls]
        checks = {
            "ruled": all(map(is_ruled, self.journal)),
            "asked_all": self.memory_wanting or askings == run.askings,
            "asked_at_most": askings == run.askings[:len(askings)],
            "asked_first": self.asks_first(),
            "obeyed": bool(lost), "none_lost": self.memory_wanting or 0 in lost,
            "called_once": all(numbers.count(n) == accepted.count(n) for n in set(numbers) | set(accepted)),
            "called_with_fates": all(model.fate(answer.number, self.past) == answer for answer in run.calls),
            "all_taken": self.is_over(self.past),
            "destroyed": not self.journal or sum(is_destroy(entry.what) for entry in self.journal) == 1,
            "finished": run.end != PAGE or self.is_over(closing),
            "stalled": run.end != STALLED or model.pending(closing) != (),
            "sets": self.sets_at_most()}
        return [name for name, holds in checks.items() if not holds] + self.traffic_broken()

    # ---- adig_tool/specs/Promise.antt

    def is_closed(self):
        at = closing_position(self.journal)
        return (self.journal[at:at + 1] == [Entry(0, 0, Destroy())]
                and not any(is_destroy(entry.what) for entry in self.journal[:at])
                and all(taken_by(entry.what) is not None for entry in self.journal[at + 1:]))

    def broken_of_adig(self):
        run, model = self.run, self.model
        found = self.broken()
        if found and found[0].startswith("lawful"):
            return found
        wanted = [(1, spec, script) for spec, script in run.askings]
        accepted = [(request.number, request.spec, request.script) for request in model.accepted(self.past)]
        checks = {
            "own": all(map(is_own, self.journal)),
            "asked": self.memory_wanting or accepted == wanted, "at most": accepted == wanted[:len(accepted)],
            "obeyed by closing": 0 in self.commands.obeys_orders(1, Orders(), closing_position(self.journal)),
            "none_failed": run.end == WAIT_FAULT or self.course.no_wait_failed(),
            "called in order": [answer for answer in run.calls]
            == [model.fate(number, self.past) for number in model.requests(self.past)],
            "is_closed": not self.journal or self.is_closed(),
            "answered": self.are_answered()}
        return found + [name for name, holds in checks.items() if not holds]

    # ---- adig_tool/specs/Answered.antt

    def are_answered(self):
        run = self.run
        if self.memory_wanting or any(isinstance(call, Connect) for call in run.log):
            return True
        spec = run.askings[0][0]
        return all(not answer.message or is_answered(self.model, spec, run.log, answer) for answer in run.calls)


def status_meant(reply):
    code = edns.rcode_of(reply.message, reply.opt)
    if code == 0:
        return requests.SUCCESS if reply.message.answers else requests.NO_DATA
    return status_of_rcode(code)


def is_meant_by(spec, reply, status):
    meant = status_meant(reply)
    if isinstance(spec, Address) or status == meant:
        return True
    return isinstance(spec, Search) and status == requests.NO_DATA and goes_on(meant)


def is_question_of(model, spec, question):
    return any(names.same_question(question, requests.question_for(spec, leg, name))
               for candidate, name in enumerate(model.candidates_of(spec))
               for leg in requests.legs_of(spec, candidate))


def exchanged(calls, data):
    """The queries that the network took for a server, before this message came from it, as messages."""
    for at, call in enumerate(calls):
        if not (isinstance(call, Receive) and isinstance(call.got, Datagram) and call.got.bytes == data):
            continue
        for sent in calls[:at]:
            if isinstance(sent, Send) and sent.sent and sent.server == call.got.server:
                read = message.message_read(sent.bytes)
                if read[0] == "ok" and message.message_bytes(read[1]) == sent.bytes:
                    yield read[1]


def is_answered(model, spec, calls, answer):
    reply = edns.read_reply(answer.message)
    if reply is None or len(reply.message.questions) != 1:
        return False
    answered = reply.message.questions[0]
    return any(
        len(query.questions) == 1 and is_question_of(model, spec, query.questions[0])
        and reply.message.id == query.id and names.same_question(answered, query.questions[0])
        and is_meant_by(spec, reply, answer.status) for query in exchanged(calls, answer.message))
