"""How a shared channel ends: shared_channel/specs/Finishing.antt, with Performing, Spending and Settling there."""
from values import Destroy, Entry, Take
from .commands import Commands, gives
from .completion import taken_by
from .lawful import Model
from .past import own_entries

MOST = 2 ** 64 - 1


class Finishing:
    def __init__(self, run):
        self.run, self.passes, self.journal = run, run.passes, run.journal
        self.model = Model(run.setting)
        self.commands = Commands(self.model, run.journal)
        self.pasts, self.past = self.commands.pasts, self.commands.past
        # the pass of all has seen what one of the passes had, and each of them sees as far as it does
        self.seen = max((item.seen for item in self.passes), key=len)
        self.made = self.journal[len(self.seen):]

    # ---- Settling.antt

    def told_through(self):
        return [answer for item in self.passes for answer in item.calls]

    # ---- Finishing.antt

    def is_joined(self):
        return (all(self.seen[:len(item.seen)] == item.seen for item in self.passes)
                and all(item.own == own_entries(item.number, item.seen) for item in self.passes))

    def is_journal_of_all(self):
        first, numbers = self.passes[0], [item.number for item in self.passes]
        return (self.journal[:len(self.seen)] == self.seen
                and all(entry.seat == first.number for entry in self.made)
                and all(entry.seat in numbers for entry in self.journal)
                and own_entries(first.number, self.journal) == first.own + self.made
                and all(item.own == own_entries(item.number, self.journal) for item in self.passes[1:]))

    def leaves_nothing(self):
        return (self.model.first_unlawful(self.journal) is None and self.model.pending(self.past) == ()
                and self.model.ready(self.past) == [])

    def emptied(self):
        """The answers told behind the joined passes', and how many requests were lost; or None where the channel
        wasn't emptied so. Of the entries that were made each stands where its call made it."""
        at, seat = len(self.seen), self.passes[0].number
        if self.journal[:at] != self.seen:
            return None
        if not self.model.is_destroyed(self.pasts[at]):
            if self.journal[at:at + 1] != [Entry(seat, 0, Destroy())]:
                return None
            at += 1
        told, lost = [], 0
        while at < len(self.journal):
            number = taken_by(self.journal[at].what)
            ready = self.model.ready(self.pasts[at])
            if self.journal[at] != Entry(seat, 0, Take(number)) or not ready or ready[0] != number:
                return None
            answer = self.model.fate(number, self.pasts[at])
            script = self.model.script_of(number, self.pasts[at])
            told.append(answer)
            at += 1
            # Performs: behind the Destroy a Cancel may leave an entry, and nothing else; what is left stands there
            for command in gives(script, answer, self.run.orders):
                if self.commands.leaves(command, self.pasts[at]):
                    entry = self.journal[at] if at < len(self.journal) else None
                    if entry is None or (entry.seat, entry.by) != (seat, number):
                        return None
                    at += 1
        return None if self.model.ready(self.past) else (told, lost)

    def answers_all(self):
        calls, count = self.run.calls, self.run.accepted
        return (sorted(answer.number for answer in calls) == list(range(1, count + 1)) and len(calls) == count
                and all(self.model.fate(answer.number, self.past) == answer for answer in calls))

    def broken(self):
        run = self.run
        if self.model.first_unlawful(self.journal) is not None:
            return [f"lawful at {self.model.first_unlawful(self.journal)}"]
        emptied = self.emptied()
        lost = min(sum(item.lost for item in self.passes), MOST)
        checks = {
            "joined": self.is_joined(), "emptied": emptied is not None,
            "calls": emptied is not None and run.calls == self.told_through() + emptied[0],
            "lost": emptied is not None and run.lost == min(lost + emptied[1], MOST),
            "journal": self.is_journal_of_all(), "nothing": self.leaves_nothing(),
            "accepted_are": run.accepted == len(self.model.accepted(self.past)), "answers": self.answers_all()}
        return [name for name, holds in checks.items() if not holds]
