"""How a run goes: channel_model/specs/Course.antt and Endings.antt, owner_laws/specs/Sessions.antt."""
from values import Now, Serve, Wait
from .turn import ENTRY_PARTS, MOST_ENTRIES, Turns
from .traffic import Traffic


def is_of_turn(entry):
    return type(entry.what) in ENTRY_PARTS


def has_no_turn(entries):
    return not any(map(is_of_turn, entries))


def serves_from(server, addresses):
    return [Serve(server + k, address) for k, address in enumerate(addresses)]


class Course:
    def __init__(self, model, journal, seat, log, slice_):
        self.model, self.seat, self.slice = model, seat, slice_
        self.turns = Turns(Traffic(model, journal, seat, log))
        self.journal, self.log, self.pasts = list(journal), list(log), self.turns.pasts
        self.serves = serves_from(0, model.options.servers)

    # ---- Course.antt

    def skips(self, past):
        return (len(self.model.pending(past)) == 0 or len(self.model.ready(past)) != 0
                or len(self.model.waiting(past)) != 0 and len(self.model.in_flight(past)) < MOST_ENTRIES)

    def wakes_at(self, reading, past):
        latest, due = min(reading + self.slice, 2 ** 64 - 1), self.model.first_due(past)
        return latest if due is None else min(due[0], latest)

    def soon(self, test, i, k):
        """The test holds at the position i, or at a later one up to k, before the seat's next entry."""
        while not test(i):
            if i == k or self.journal[i].seat == self.seat:
                return False
            i += 1
        return True

    def waits_there(self, reading, until, test, i, k):
        return not self.skips(self.pasts[i]) and self.soon(
            lambda at: until == self.wakes_at(reading, self.pasts[at]) and test(at), i, k)

    def rests_there(self, reading, rest, test, i, k):
        def soon_test(at):
            return self.soon(test, at, k)
        if rest is None:
            return self.skips(self.pasts[i]) and soon_test(i)
        return self.waits_there(reading, rest.until, soon_test, i, k)

    def is_timely(self, reading, rest, i, k):
        return rest is None or any(self.waits_there(reading, rest.until, lambda at: True, here, k)
                                   for here in range(i, k + 1))

    def goes_on(self, reading, rest, i, k):
        def wanted(at):
            return (len(self.model.pending(self.pasts[at])) != 0
                    and all(entry.seat != self.seat for entry in self.journal[at:k]))
        return any(len(self.model.ready(self.pasts[here])) == 0
                   and self.soon(lambda at: self.rests_there(reading, rest, wanted, at, k), here, k)
                   for here in range(i, k + 1))

    def firsts(self):
        """The standings at which the first turn may begin, with the turns made: none."""
        if self.log[:len(self.serves)] != self.serves:
            return set()
        return {(i, len(self.serves)) for i in range(len(self.journal) + 1) if has_no_turn(self.journal[:i])}

    def rounds(self, i, j):
        """The rounds from a standing: where each may end, and whether the run goes on behind it."""
        reading, ends = self.turns.turns(i, j)
        for k, l in ends:
            for m in range(k, len(self.journal) + 1):
                if not has_no_turn(self.journal[k:m]):
                    break
                if self.is_timely(reading, None, k, m):
                    yield (m, l), self.goes_on(reading, None, k, m)
                if l < len(self.log) and isinstance(self.log[l], Wait):
                    if self.is_timely(reading, self.log[l], k, m):
                        yield (m, l + 1), self.goes_on(reading, self.log[l], k, m)

    def reached(self, starts):
        """The standings behind so many whole turns, each with whether the run goes on there: a list by turns."""
        layers = [{(standing, True) for standing in starts}]
        while layers[-1]:
            layers.append({end for standing, on in layers[-1] if on for end in self.rounds(*standing)})
        return layers[:-1]

    def of_seat(self, journal):
        return all(not is_of_turn(entry) or entry.seat == self.seat for entry in journal)

    def is_course(self, starts=None):
        """The numbers of turns into which journal and log fall, with no reading of the clock beside."""
        if not self.of_seat(self.journal):
            return set()
        end = len(self.journal), len(self.log)
        return {turns for turns, layer in enumerate(self.reached(self.firsts() if starts is None else starts))
                if any(standing == end for standing, _ in layer)}

    def is_cut_behind(self, i, j):
        """From a standing, one turn that was cut short goes on to the log's end, and entries of none to the journal's."""
        return self.of_seat(self.journal[:i]) and any(
            has_no_turn(self.journal[k:]) and self.turns.is_cut_turn(i, k, j, len(self.log))
            for k in range(i, len(self.journal) + 1))

    def is_cut_course(self):
        return {turns + 1 for turns, layer in enumerate(self.reached(self.firsts()))
                if any(on and self.is_cut_behind(*standing) for standing, on in layer)}

    def is_cut_serving(self):
        return self.serves[:len(self.log)] == self.log and has_no_turn(self.journal)

    def is_course_so_far(self):
        return self.is_course() | self.is_cut_course() | ({0} if self.is_cut_serving() else set())

    # ---- Endings.antt

    def turns_in(self):
        return sum(1 for call in self.log if isinstance(call, Now))

    # ---- owner_laws/specs/Sessions.antt

    def asked_firsts(self):
        """The standings at which the first turn may begin where a request is pending, and nothing is ready."""
        return {(i, j) for i, j in self.firsts()
                if self.model.pending(self.pasts[i]) != () and self.model.ready(self.pasts[i]) == []}

    def first_turns(self):
        """The lengths of the journal's beginnings that fall into such a first turn with a beginning of the log."""
        return {k for start in self.asked_firsts() for (k, _), _ in self.rounds(*start) if self.of_seat(self.journal[:k])}

    def begins_cut(self):
        return any(self.is_cut_behind(*standing) for standing in self.asked_firsts())

    def ends_with_failed_wait(self):
        return bool(self.log) and self.log[-1:] == [Wait(getattr(self.log[-1], "until", 0), False)] \
            and self.no_wait_failed(self.log[:-1])

    def no_wait_failed(self, log=None):
        return not any(isinstance(call, Wait) and not call.woken for call in (self.log if log is None else log))
