"""What a run of a tool promises, by the rules: the names of the rules that are broken."""
from values import Accept, Cancel, Destroy, Servers, Wait
from . import commands, traffic, turns
from .channel import Channel, after, first_unlawful

LONGEST = 2 ** 64 - 1
PAGE, STALLED, WAIT_FAULT, NO_MEMORY = "completed", "stalled", "wait fault", "no memory"


def broken(run, is_adig=False):
    unlawful, channel = first_unlawful(run.setting, run.journal)
    if unlawful is not None:
        return [f"lawful at {unlawful}"]
    found = []
    found += requests_broken(run, is_adig)
    found += answers_broken(run, channel)
    found += closing_broken(run)
    found += network_broken(run)
    return found


def requests_broken(run, is_adig):
    found = []
    askings = [(entry.what.spec, entry.what.script) for entry in run.journal
               if entry.by == 0 and isinstance(entry.what, Accept)]
    if askings != run.askings and (run.end != NO_MEMORY or askings != run.askings[:len(askings)]):
        found.append("asked")
    asked_by_nobody = [entry.by == 0 and isinstance(entry.what, Accept) for entry in run.journal]
    if any(later and not earlier for earlier, later in zip(asked_by_nobody, asked_by_nobody[1:])):
        found.append("asked before all else")
    if any(entry.seat for entry in run.journal):
        found.append("one seat")
    if is_adig and any(entry.by for entry in run.journal):
        found.append("commands of adig")
    destroys = closing_places(run.journal)
    last = destroys[0] if run.end == PAGE and destroys else len(run.journal)
    ways = commands.obeyed(run.setting, run.journal, 1, run.orders, last, strict=True)
    if not ways or run.end != NO_MEMORY and 0 not in ways:
        found.append("obeyed")
    return found


def closing_places(journal):
    return [at for at, entry in enumerate(journal) if isinstance(entry.what, Destroy) and entry.by == 0]


def answers_broken(run, channel):
    wanted = [channel.fate(number) for number in channel.requests]
    if None in wanted or sorted(run.calls, key=lambda answer: answer.number) != wanted:
        return ["called once"]
    return []


def closing_broken(run):
    found = []
    if any(isinstance(entry.what, Cancel) and entry.by == 0 for entry in run.journal):
        found.append("a Cancel of nobody")
    count = sum(isinstance(entry.what, Destroy) for entry in run.journal)
    if run.journal and count != 1:
        found.append("one Destroy")
    places = closing_places(run.journal)
    for place in places[:1]:
        channel = after(run.setting, run.journal, place)
        if run.end == PAGE and (channel.pending() or channel.ready):
            found.append("cut short")
        if run.end == STALLED and not channel.pending():
            found.append("stalled with nothing pending")
    if run.end == STALLED and not places:
        found.append("stalled and destroyed by a callback")
    end = Channel(run.setting)
    for entry in run.journal:
        end.add(entry.what)
    if end.pending() or end.ready:
        found.append("something is left")
    return found


def network_broken(run):
    if run.end == NO_MEMORY:
        return cut_broken(run)
    found = ["traffic: " + name for name in traffic.agrees(run.setting, run.journal, 0, run.log)]
    replay, why = turns.course(run.setting, run.journal, 0, run.log, LONGEST, begins=True)
    if replay is None:
        return found + [f"turns: {why}"]
    if replay.turns > run.limit or run.end == STALLED and replay.turns != run.limit:
        found.append("the number of turns")
    waits = [call.woken for call in run.log if isinstance(call, Wait)]
    if not all(waits[:-1]) or waits and not waits[-1] and (run.end != WAIT_FAULT or
                                                          not isinstance(run.log[-1], Wait)):
        found.append("a failed wait")
    if run.end == WAIT_FAULT and (not waits or waits[-1]):
        found.append("no failed wait")
    return found + servers_broken(run, replay)


def servers_broken(run, replay):
    """The later servers are set once, behind the first turn's entries and before the second's."""
    places = [at for at, entry in enumerate(run.journal) if isinstance(entry.what, Servers)]
    if not run.later or not replay.turns:
        return ["servers set"] * bool(places)
    begin, top = replay.ends[0] if replay.ends else (replay.low, len(run.journal))
    if not places:
        destroyed = any(isinstance(entry.what, Destroy) for entry in run.journal[:top])
        return [] if destroyed or run.end == NO_MEMORY and replay.turns < 2 else ["servers not set"]
    entry = run.journal[places[0]]
    right = entry.by == 0 and [item.address for item in entry.what.list] == run.later
    behind = begin <= places[0] < top and (replay.turns > 1 or replay.is_whole)
    return [] if len(places) == 1 and right and behind else ["servers set otherwise"]


def cut_broken(run):
    """Of a run that wanted memory. That its first turn alone refuses it is told apart."""
    replay, why = cut_replay(run)
    if replay is None:
        return [f"turns: {why}"]
    found = []
    waits = [call.woken for call in run.log if isinstance(call, Wait)]
    if not all(waits[:-1]) or waits and not waits[-1] and not isinstance(run.log[-1], Wait):
        found.append("a failed wait")
    if cut_replay(run, begins=True)[0] is None:
        found.append("a first turn where nothing is asked")
    return found + ["the number of turns"] * (replay.turns > run.limit) + servers_broken(run, replay)


def cut_replay(run, begins=False):
    ways = run.setting, run.journal, 0, run.log, LONGEST, begins
    whole, why = turns.course(*ways)
    return (whole, None) if whole else turns.cut_course(*ways)
