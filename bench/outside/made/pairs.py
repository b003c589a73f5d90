"""Changes of a journal and its log together: what is added to the one, or left out, or altered, is so in the other.

They keep the two in step where a single change wouldn't, so that what refuses them has to be a rule of its own.
"""
from dataclasses import replace

from values import (
    Arrive, Close, Datagram, Entry, Expire, Failed, Fault, Nothing, Now, Piece, Receive, Send, Start, Take,
    Wait, Word, Write)
from .spoils import other_bytes, other_number, with_items


def at_random(rng, items, test):
    places = [at for at, item in enumerate(items) if test(item)]
    return rng.choice(places) if places else None


def forged_message(rng, run):
    """A message that nobody sent is received at one place, and noted at another."""
    came = [entry.what.bytes for entry in run.journal if isinstance(entry.what, Arrive)] or [b"\0" * 12]
    data = other_bytes(rng, rng.choice(came)) if rng.random() < .5 else rng.choice(came)
    log, journal = list(run.log), list(run.journal)
    at = at_random(rng, log, lambda call: isinstance(call, Receive))
    at = rng.randrange(len(log) + 1) if at is None else at
    place = rng.randrange(len(journal) + 1)
    return dict(log=with_items(log, at, [Receive(Datagram(0, data))], 0),
                journal=with_items(journal, place, [Entry(0, 0, Arrive(0, 0, data))], 0))


def forged_fault(rng, run):
    journal, log = list(run.journal), list(run.log)
    readings = [call.reading for call in log if isinstance(call, Now)] or [0]
    at, place = rng.randrange(len(log) + 1), rng.randrange(len(journal) + 1)
    return dict(log=with_items(log, at, [Receive(Failed(0, 0))], 0),
                journal=with_items(journal, place, [Entry(0, 0, Fault(0, 0, rng.choice(readings)))], 0))


def lost_message(rng, run):
    """A message that came is left out of both."""
    journal, log = list(run.journal), list(run.log)
    place = at_random(rng, journal, lambda entry: isinstance(entry.what, Arrive) and entry.what.link == 0)
    if place is None:
        return None
    what = journal[place].what
    at = at_random(rng, log, lambda call: call == Receive(Datagram(what.server, what.bytes)))
    return None if at is None else dict(log=with_items(log, at, []), journal=with_items(journal, place, []))


def altered_message(rng, run):
    journal, log = list(run.journal), list(run.log)
    place = at_random(rng, journal, lambda entry: isinstance(entry.what, Arrive) and entry.what.link == 0)
    if place is None:
        return None
    what = journal[place].what
    at = at_random(rng, log, lambda call: call == Receive(Datagram(what.server, what.bytes)))
    if at is None:
        return None
    data = other_bytes(rng, what.bytes)
    return dict(log=with_items(log, at, [Receive(Datagram(what.server, data))]),
                journal=with_items(journal, place, [replace(journal[place], what=replace(what, bytes=data))]))


def moved_moment(rng, run):
    """One turn reads another moment, in its log and in its entries."""
    readings = [at for at, call in enumerate(run.log) if isinstance(call, Now)]
    if not readings:
        return None
    at = rng.choice(readings)
    old = run.log[at].reading
    new = other_number(rng, old)
    journal = [replace(entry, what=replace(entry.what, moment=new))
               if getattr(entry.what, "moment", None) == old else entry for entry in run.journal]
    return dict(log=with_items(list(run.log), at, [Now(new)]), journal=journal)


def other_identifier(rng, run):
    """A Start and its datagram have another identifier, and the word too."""
    journal, log = list(run.journal), list(run.log)
    place = at_random(rng, journal, lambda entry: isinstance(entry.what, Start) and entry.what.link == 0)
    if place is None:
        return None
    what, new = journal[place].what, rng.randrange(65536)
    head = what.id.to_bytes(2, "big")
    at = at_random(rng, log, lambda call: isinstance(call, Send) and call.bytes[:2] == head)
    if at is None:
        return None
    call = log[at]
    log[at] = replace(call, bytes=new.to_bytes(2, "big") + call.bytes[2:])
    word = at_random(rng, log[:at], lambda call: call == Word(what.id))
    if word is not None and rng.random() < .7:
        log[word] = Word(new)
    journal[place] = replace(journal[place], what=replace(what, id=new))
    return dict(log=log, journal=journal)


def other_server(rng, run):
    journal, log = list(run.journal), list(run.log)
    place = at_random(rng, journal, lambda entry: isinstance(entry.what, Start) and entry.what.link == 0)
    if place is None:
        return None
    what = journal[place].what
    head = what.id.to_bytes(2, "big")
    at = at_random(rng, log, lambda call: isinstance(call, Send) and call.bytes[:2] == head)
    if at is None:
        return None
    new = other_number(rng, what.server)
    return dict(log=with_items(log, at, [replace(log[at], server=new)]),
                journal=with_items(journal, place, [replace(journal[place], what=replace(what, server=new))]))


def idle_turn(rng, run):
    """A turn in which nothing happens is put in, or one of the run's is left out."""
    log = list(run.log)
    nows = [at for at, call in enumerate(log) if isinstance(call, Now)]
    if not nows:
        return None
    reading = log[rng.choice(nows)].reading
    size = 2 if run.setting.options.flags.mix else 1
    if rng.random() < .6:
        at = rng.choice(nows + [len(log)] + [at for at, call in enumerate(log) if isinstance(call, Wait)])
        turn = [Now(reading), Receive(Nothing())] + [Word(7)] * size
        waits = [[], [Wait(reading, True)], [Wait(2 ** 64 - 1, True)]]
        return dict(log=with_items(log, at, turn + rng.choice(waits), 0))
    at = rng.choice(nows)
    end = next((place for place in nows if place > at), len(log))
    return dict(log=log[:at] + log[end:])


def another_wait(rng, run):
    log = list(run.log)
    at = at_random(rng, log, lambda call: isinstance(call, Wait))
    nows = [place for place, call in enumerate(log) if isinstance(call, Now)]
    if at is not None and rng.random() < .5:
        new = [] if rng.random() < .5 else [replace(log[at], until=other_number(rng, log[at].until))]
        return dict(log=with_items(log, at, new))
    if not nows:
        return None
    place = rng.choice(nows + [len(log)])
    return dict(log=with_items(log, place, [Wait(rng.choice((0, 100, 2000, 2 ** 64 - 1)), True)], 0))


def early_expire(rng, run):
    """An Expire stands elsewhere, at the moment of another turn."""
    journal = list(run.journal)
    place = at_random(rng, journal, lambda entry: isinstance(entry.what, Expire))
    readings = [call.reading for call in run.log if isinstance(call, Now)]
    if place is None:
        return None
    entry = replace(journal[place], what=replace(journal[place].what, moment=rng.choice(readings)))
    rest = with_items(journal, place, [])
    return dict(journal=with_items(rest, rng.randrange(len(rest) + 1), [entry], 0))


def early_take(rng, run):
    """A Take, and what its callback commanded, stand elsewhere."""
    journal = list(run.journal)
    place = at_random(rng, journal, lambda entry: isinstance(entry.what, Take))
    if place is None:
        return None
    number = journal[place].what.number
    block = [journal[place]] + [entry for entry in journal if entry.by == number]
    rest = [entry for at, entry in enumerate(journal) if at != place and entry.by != number]
    at = rng.randrange(len(rest) + 1)
    return dict(journal=rest[:at] + block + rest[at:])


def failed_send(rng, run):
    """A datagram fails that was sent, and its Fault is noted somewhere behind."""
    log, journal = list(run.log), list(run.journal)
    at = at_random(rng, log, lambda call: isinstance(call, Send) and call.sent)
    if at is None:
        return None
    head = log[at].bytes[:2]
    place = at_random(rng, journal, lambda entry: isinstance(entry.what, Start)
                      and entry.what.id.to_bytes(2, "big") == head)
    if place is None:
        return None
    fault = Entry(0, 0, Fault(log[at].server, 0, journal[place].what.moment))
    log[at] = replace(log[at], sent=False)
    behind = place + 1 + (rng.randrange(3) if rng.random() < .5 else 0)
    return dict(log=log, journal=journal[:behind] + [fault] + journal[behind:])


def closed_link(rng, run):
    """A close is moved, or one is put in or left out."""
    log = list(run.log)
    at = at_random(rng, log, lambda call: isinstance(call, Close))
    if at is None:
        return dict(log=with_items(log, rng.randrange(len(log) + 1), [Close(1)], 0))
    close = log.pop(at)
    if rng.random() < .3:
        return dict(log=log)
    near = max(0, min(len(log), at + rng.randint(-3, 3)))
    return dict(log=with_items(log, near, [close], 0))


def parted_write(rng, run):
    """A write is made in two, or takes less, or none, or more than there is."""
    log = list(run.log)
    at = at_random(rng, log, lambda call: isinstance(call, Write) and call.count)
    if at is None:
        return None
    call, cut = log[at], rng.randint(0, log[at].count)
    two = [replace(call, count=cut), Write(call.link, call.bytes[cut:call.count], call.count - cut)]
    ways = [two, two[:1], two[::-1], [replace(call, bytes=call.bytes + b"x", count=call.count + 1)],
            [call, Write(call.link, b"", 0)], [call, Write(call.link, b"x", 0)], [Write(call.link, b"", 0)]]
    return dict(log=with_items(log, at, rng.choice(ways)))


def other_pieces(rng, run):
    """What came on a link is cut elsewhere: the bytes of two pieces are shared out otherwise."""
    log = list(run.log)
    at = at_random(rng, log, lambda call: isinstance(call, Receive) and isinstance(call.got, Piece)
                   and len(call.got.bytes) > 1)
    if at is None:
        return None
    got = log[at].got
    cut = rng.randint(1, len(got.bytes) - 1)
    parts = [Receive(Piece(got.link, got.bytes[:cut])), Receive(Piece(got.link, got.bytes[cut:]))]
    if rng.random() < .3:
        parts.reverse()
    return dict(log=with_items(log, at, parts))


def swapped_starts(rng, run):
    """Two Starts stand the other way round, and so do their datagrams."""
    journal, log = list(run.journal), list(run.log)
    starts = [at for at, entry in enumerate(journal) if isinstance(entry.what, Start) and entry.what.link == 0]
    sends = [at for at, call in enumerate(log) if isinstance(call, Send)]
    if len(starts) < 2 or len(starts) != len(sends):
        return None
    k = rng.randrange(len(starts) - 1)
    for items, places in ((journal, starts), (log, sends)):
        a, b = places[k], places[k + 1]
        items[a], items[b] = items[b], items[a]
    return dict(journal=journal, log=log)


def cut_both(rng, run):
    """Log and turns end early: the log at a call, the journal's turn entries at one of theirs."""
    log = list(run.log)
    cut = rng.randrange(len(log) + 1)
    turn = [at for at, entry in enumerate(run.journal) if isinstance(entry.what, (Start, Arrive, Expire, Fault))]
    keep = rng.randrange(len(turn) + 1)
    gone = set(turn[keep:])
    return dict(log=log[:cut], journal=[entry for at, entry in enumerate(run.journal) if at not in gone])


PAIRS = [forged_message, forged_message, forged_fault, lost_message, altered_message, moved_moment, other_identifier,
         other_server, idle_turn, idle_turn, another_wait, early_expire, early_take, failed_send, failed_send,
         closed_link, parted_write, other_pieces, swapped_starts, cut_both]


def paired(rng, run):
    """The kind of a change of both and the run that it makes, or None where it makes none."""
    change = rng.choice(PAIRS)
    made = change(rng, run)
    if made is None or all(list(getattr(run, name)) == value for name, value in made.items()):
        return None
    return "both: " + change.__name__.replace("_", " "), replace(run, **made)
