"""Whether the commands of callbacks were performed: each at a position, in order, by one seat."""
from values import (
    Accept, AskAct, AskCommand, Cancel, CancelAct, CancelCommand, Destroy, DestroyCommand, Reverse,
    ReverseAct, Take, ALWAYS, BAD, GOOD, FIRST, FOLLOW, NOTHING, QUIT)
from .channel import Channel


def gives(script, answer, orders):
    """The commands that a script gives for an answer."""
    needs = {NOTHING: True, FOLLOW: orders.follow, FIRST: orders.first, QUIT: orders.quit}
    whens = {ALWAYS: True, GOOD: answer.status == 0, BAD: answer.status != 0}
    out = []
    for step in script.steps:
        act = step.act
        if not (whens[step.when] and needs[step.need]):
            continue
        if isinstance(act, AskAct):
            out.append(AskCommand(act.spec, act.script))
        elif isinstance(act, ReverseAct):
            out += [AskCommand(Reverse(address), act.script) for address in answer.addresses[:1]]
        else:
            out.append(CancelCommand() if isinstance(act, CancelAct) else DestroyCommand())
    return out


class Places:
    """What a command finds at each position of a lawful journal."""

    def __init__(self, setting, journal):
        self.pending, self.destroyed = [], []
        channel = Channel(setting)
        for entry in list(journal) + [None]:
            self.pending.append(bool(channel.pending()))
            self.destroyed.append(channel.destroyed)
            if entry:
                channel.add(entry.what)
        self.channel = channel

    def does(self, command, place):
        """The command leaves an entry here, unless it is lost."""
        return self.pending[place] if isinstance(command, CancelCommand) else not self.destroyed[place]


def is_entry_of(command, what):
    if isinstance(command, AskCommand):
        return isinstance(what, Accept) and (what.spec, what.script) == (command.spec, command.script)
    return isinstance(what, Cancel if isinstance(command, CancelCommand) else Destroy)


def performances(places, journal, commands, number, seat, first, last):
    """How many of these commands may have been lost, in each way to perform them by the seat."""
    own = [at for at, entry in enumerate(journal) if entry.by == number]
    if any(journal[at].seat != seat for at in own):
        return set()
    ways = {(first, 0, 0)}  # the first place left, entries used, requests lost
    for command in commands:
        after = set()
        for place, used, lost in ways:
            if used < len(own) and own[used] >= place and own[used] <= last:
                at = own[used]
                if is_entry_of(command, journal[at].what) and places.does(command, at):
                    after.add((at + 1, used + 1, lost))
            # a command without an entry stands in front of the next entry on these commands
            top = min(own[used] if used < len(own) else last, last)
            for at in range(place, top + 1):
                if not places.does(command, at):
                    after.add((at, used, lost))
                elif isinstance(command, AskCommand):
                    after.add((at, used, lost + 1))
        ways = after
    return {lost for place, used, lost in ways if used == len(own)}


def obeyed(setting, journal, seats, orders, last, strict):
    """The numbers of lost requests with which the orders are obeyed. Where it is strict, a seat that took the
    request performs its commands before it does anything else."""
    places = Places(setting, journal)
    channel = places.channel
    taken = {entry.what.number: at for at, entry in enumerate(journal) if isinstance(entry.what, Take)}
    if any(entry.by and entry.by not in taken for entry in journal):
        return set()
    totals = {0}
    for number, at in taken.items():
        commands = gives(channel.requests[number].script, channel.fate(number), orders)
        ways = set()
        for seat in range(seats):
            first = at + 1 if journal[at].seat == seat else 0
            end = last
            if strict and journal[at].seat == seat:
                others = [place for place in range(at + 1, len(journal))
                          if journal[place].seat == seat and journal[place].by != number]
                end = min([last] + others)
            ways |= performances(places, journal, commands, number, seat, first, end)
        totals = {total + way for total in totals for way in ways}
    return totals
