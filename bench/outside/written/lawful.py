"""Which journals are lawful: each entry is allowed at its position. And where a new attempt goes.

From channel_model/specs.
"""
from values import Accept, Cancel, Destroy, Expire, Servers, Start, Take
from .completion import Completion
from .past import begun_by, from_place, spent
from .std import find, first, memo

IDS = 2 ** 16


# ---- Choice.antt

def count_with(outcome, count):
    if outcome is None:
        return count
    return count + 1 if outcome[0] == "Failed" else 0


def at_longest(options, wait):
    return options.max_timeout if options.max_timeout != 0 and options.max_timeout < wait else wait


def wait_of(options, count, used):
    return at_longest(options, options.timeout * 2 ** min(9, count // used))


def least_of(failing):
    """The first pair of server and count with the least count; 0 of none."""
    best = None
    for server, count in failing:
        best = (server, count) if best is None or count < best[1] else best
    return 0 if best is None else best[0]


def link_of(a):
    return 0 if a is None else a.link


# ---- Lawful.antt

def is_before(a, b):
    """Of two pairs of deadline and leg."""
    return a[0] < b[0] or a[0] == b[0] and (a[1][0] < b[1][0] or a[1][0] == b[1][0] and a[1][1] < b[1][1])


class Model(Completion):
    """What depends on a setting."""

    # ---- Choice.antt

    def closed_on(self, server, what, past):
        return [a for a in self.in_flight(past) if a.server == server and self.closes(a, what, past)]

    @memo
    def failures(self, server, past):
        if past is None:
            return 0
        what, before = past.what, past.past
        if self.enters(server, what, before):
            return 0
        closed, count = self.closed_on(server, what, before), self.failures(server, before)
        if not closed:
            return count
        return count_with(self.outcome_of(closed[0], what, before, self.closings(closed[0].leg, before)), count)

    def first_server(self, past):
        return len(self.started(past)) % self.in_use(past) if self.options.rotate else 0

    def failing(self, past):
        order = from_place(self.first_server(past), self.servers_used(past))
        return [(server.key, self.failures(server.key, past)) for server in order]

    def chosen_server(self, leg, past):
        forced = self.forced_server(leg, past)
        return least_of(self.failing(past)) if forced is None else forced

    @memo
    def greatest_link(self, past):
        return 0 if past is None else max(link_of(begun_by(past.what)), self.greatest_link(past.past))

    def tcp_link(self, server, past):
        a = find(lambda item: item.server == server and item.link != 0, self.in_flight(past))
        return self.greatest_link(past) + 1 if a is None else a.link

    def chosen_link(self, leg, server, past):
        return self.tcp_link(server, past) if self.is_over_tcp(self.closings(leg, past)) else 0

    def deadline_from(self, a, past):
        wait = wait_of(self.options, spent(self.closings(a.leg, past)), self.in_use(past))
        return min(a.moment + wait, 2 ** 64 - 1)

    @memo
    def deadline(self, leg, past):
        if past is None:
            return 0
        a = begun_by(past.what)
        return self.deadline_from(a, past.past) if a is not None and a.leg == leg else self.deadline(leg, past.past)

    # ---- Identifiers.antt

    def is_used(self, ident, past):
        return any(a.id == ident for a in self.in_flight(past))

    def is_first_free(self, word, ident, past):
        steps = next((step for step in range(IDS) if not self.is_used((word + step) % IDS, past)), None)
        return steps is not None and ident == (word + steps) % IDS

    def all_used(self, past):
        return len({a.id for a in self.in_flight(past) if a.id < IDS}) == IDS

    # ---- Lawful.antt

    @memo
    def first_due(self, past):
        """The pair of deadline and leg that is due first, or None."""
        best = None
        for a in self.in_flight(past):
            due = self.deadline(a.leg, past), a.leg
            best = due if best is None or is_before(due, best) else best
        return best

    def is_mixed(self, link):
        return self.options.flags.mix and link == 0

    def may_start(self, past, leg, server, link, ident, mix):
        return (first(self.waiting(past)) == leg and server == self.chosen_server(leg, past)
                and link == self.chosen_link(leg, server, past) and not self.is_used(ident, past)
                and (mix is not None) == self.is_mixed(link))

    def may_expire(self, past, leg, moment):
        due = self.first_due(past)
        return due is not None and due[1] == leg and due[0] <= moment

    def may_set(self, past, listed):
        return (not self.is_destroyed(past) and 1 <= len(listed) <= 8
                and listed == self.keys_for([server.address for server in listed], past))

    def is_allowed(self, past, what):
        if isinstance(what, Accept):
            return not self.is_destroyed(past) and what.number == len(self.accepted(past)) + 1
        if isinstance(what, Cancel):
            return self.pending(past) != ()
        if isinstance(what, Destroy):
            return not self.is_destroyed(past)
        if isinstance(what, Take):
            return first(self.ready(past)) == what.number
        if isinstance(what, Start):
            return self.may_start(past, (what.number, what.leg), what.server, what.link, what.id, what.mix)
        if isinstance(what, Expire):
            return self.may_expire(past, (what.number, what.leg), what.moment)
        if isinstance(what, Servers):
            return self.may_set(past, what.list)
        return True

    # ---- Tests.antt

    def first_unlawful(self, journal):
        past = None
        for position, entry in enumerate(journal):
            if not self.is_allowed(past, entry.what):
                return position
            past = self.behind(entry.what, past)
        return None
