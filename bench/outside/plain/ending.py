"""How a channel that seats share ends, by the rules: the names of those that are broken."""
from values import Take
from . import commands
from .channel import first_unlawful

MOST = 2 ** 64 - 1


def own(journal, seat):
    return [entry for entry in journal if entry.seat == seat]


def broken(run):
    """Of the passes that were handed in, and the journal, answers and counts that came of them."""
    unlawful, channel = first_unlawful(run.setting, run.journal)
    if unlawful is not None:
        return [f"lawful at {unlawful}"]
    journal, passes, found = run.journal, run.passes, []
    longest = max(len(item.seen) for item in passes)
    if any(journal[:len(item.seen)] != item.seen for item in passes):
        found.append("a pass has seen something else")
    made = journal[longest:]
    if any(entry.seat != passes[0].number for entry in made):
        found.append("behind all that was seen another seat has an entry")
    if any(own(journal, item.number) != item.own + (made if item is passes[0] else []) for item in passes):
        found.append("a pass's own entries")
    if any(entry.seat not in [item.number for item in passes] for entry in journal):
        found.append("a stranger's entry")
    if any(own(item.seen, item.number) != item.own for item in passes):
        found.append("a pass has made what it hasn't seen")
    if channel.pending() or channel.ready or not channel.destroyed:
        found.append("something is left")
    fates = [channel.fate(number) for number in channel.requests]
    if run.accepted != len(fates) or sorted(run.calls, key=lambda answer: answer.number) != fates:
        found.append("the answers")
    told = [answer for item in passes for answer in item.calls]
    taken = [entry.what.number for entry in made if isinstance(entry.what, Take)]
    if run.calls[:len(told)] != told or [answer.number for answer in run.calls[len(told):]] != taken:
        found.append("the answers don't go on behind those of the passes")
    if run.lost != min(sum(item.lost for item in passes), MOST):
        found.append("the count of lost requests")
    ways = commands.obeyed(run.setting, journal, len(passes), run.orders, len(journal), strict=True)
    if not ways:
        found.append("obeyed")
    return found
