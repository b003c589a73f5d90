"""Commands of callbacks: channel_model/specs/Commands.antt, over chan_types/specs/Gives.antt."""
from values import (
    Accept, AskAct, AskCommand, Cancel, CancelAct, CancelCommand, Destroy, DestroyCommand, Reverse,
    ReverseAct, ALWAYS, GOOD, FIRST, FOLLOW, NOTHING)
from .completion import taken_by
from .past import is_destroy


# ---- Gives.antt

def is_for(when, status):
    return when == ALWAYS or (status == 0) == (when == GOOD)


def is_ordered(need, orders):
    if need == NOTHING:
        return True
    return orders.follow if need == FOLLOW else orders.first if need == FIRST else orders.quit


def commanded(act, addresses):
    if isinstance(act, AskAct):
        return [AskCommand(act.spec, act.script)]
    if isinstance(act, ReverseAct):
        return [AskCommand(Reverse(addresses[0]), act.script)] if addresses else []
    return [CancelCommand()] if isinstance(act, CancelAct) else [DestroyCommand()]


def gives(script, answer, orders):
    return [command for step in script.steps if is_for(step.when, answer.status) and is_ordered(step.need, orders)
            for command in commanded(step.act, answer.addresses)]


# ---- Commands.antt

def positions_from(test, journal):
    return [at for at, entry in enumerate(journal) if test(entry)]


def is_own_take(seat, request, entry):
    return entry.seat == seat and taken_by(entry.what) == request


def takes_of(journal, seat, request):
    return positions_from(lambda entry: is_own_take(seat, request, entry), journal)


def is_behind_take(journal, seat, request, position):
    return all(at < position for at in takes_of(journal, seat, request))


def is_before_next(position, start, positions):
    behind = [at for at in positions if start < at]
    return not behind or position <= behind[0]


def is_before_other_work(journal, seat, request, position):
    others = positions_from(lambda entry: entry.seat == seat and entry.by != request, journal)
    return all(is_before_next(position, at, others) for at in takes_of(journal, seat, request))


def is_entry_of(command, what):
    if isinstance(command, AskCommand):
        return isinstance(what, Accept) and what.spec == command.spec and what.script == command.script
    return isinstance(what, Cancel if isinstance(command, CancelCommand) else Destroy)


def accepted_for(request, journal):
    return [(entry.what.spec, entry.what.script) for entry in journal
            if entry.by == request and isinstance(entry.what, Accept)]


def closing_position(journal):
    return next((at for at, entry in enumerate(journal) if is_destroy(entry.what) and entry.by == 0), len(journal))


class Commands:
    """What depends on a setting and a journal."""

    def __init__(self, model, journal):
        self.model, self.journal = model, list(journal)
        self.pasts = [None]
        for entry in self.journal:
            self.pasts.append(model.behind(entry.what, self.pasts[-1]))
        self.past = self.pasts[-1]

    def leaves(self, command, past):
        if isinstance(command, CancelCommand):
            return len(self.model.pending(past)) != 0
        return not self.model.is_destroyed(past)

    def commands_for(self, orders, request):
        script, answer = self.model.script_of(request, self.past), self.model.fate(request, self.past)
        return gives(script, answer, orders) if script is not None and answer is not None else []

    def outcomes(self, command):
        """Each outcome that the command may have had: a kind and a position."""
        for position in range(len(self.journal) + 1):
            does = self.leaves(command, self.pasts[position])
            if position < len(self.journal) and does and is_entry_of(command, self.journal[position].what):
                yield "left", position
            if not does:
                yield "passed", position
            elif isinstance(command, AskCommand):
                yield "lost", position

    def fits(self, outcome, last, seat, request):
        position = outcome[1]
        return (position <= last and is_behind_take(self.journal, seat, request, position)
                and is_before_other_work(self.journal, seat, request, position))

    def lost_by(self, seats, orders, last, request):
        """The counts of lost requests of the performances that are allowed: IsPerformed, for some seat."""
        own = positions_from(lambda entry: entry.by == request, self.journal)
        counts = set()
        for seat in range(seats):
            if not all(self.journal[at].seat == seat for at in own):
                continue
            # AllBecame: outcomes one after the other; the positions left are those of the request's entries
            ways = {(0, (), 0)}
            for command in self.commands_for(orders, request):
                found = [outcome for outcome in self.outcomes(command) if self.fits(outcome, last, seat, request)]
                ways = {(at + (kind == "left"), left + ((at,) if kind == "left" else ()), lost + (kind == "lost"))
                        for start, left, lost in ways for kind, at in found if start <= at
                        and (kind != "left" or tuple(own[:len(left) + 1]) == left + (at,))}
            counts |= {lost for _, left, lost in ways if list(left) == own}
        return counts

    def obeys_orders(self, seats, orders, last):
        """The counts of lost requests with which the orders are obeyed."""
        taken = self.model.taken(self.past)
        if not all(entry.by == 0 or entry.by in taken for entry in self.journal):
            return set()
        totals = {0}
        for request in taken:
            counts = self.lost_by(seats, orders, last, request)
            totals = {total + count for total in totals for count in counts}
        return totals
