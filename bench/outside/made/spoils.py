"""Single changes that spoil a run: of its journal, of its log, of the answers that its callbacks were told."""
from dataclasses import fields, replace

from values import (
    Accept, Arrive, Cancel, Close, Connect, Datagram, Destroy, Ended, Entry, Expire, Failed, Fault, Nothing,
    Now, Piece, Query, Receive, Script, Send, Serve, ServerAddr, ServerKey, Servers, Start, Take, V4, Wait,
    Word, Write, Answer)


def other_number(rng, number):
    return rng.choice([n for n in (number - 1, number + 1, 0, number + 7) if n >= 0 and n != number])


def other_bytes(rng, data):
    """The bytes with one of them changed, dropped or added."""
    at = rng.randrange(len(data) + 1)
    ways = [data[:at] + bytes([rng.randrange(256)]) + data[at:]]
    if at < len(data):
        ways += [data[:at] + data[at + 1:], data[:at] + bytes([data[at] ^ 1 << rng.randrange(8)]) + data[at + 1:]]
    return rng.choice(ways)


def other_value(rng, value):
    if isinstance(value, bool):
        return not value
    if isinstance(value, int):
        return other_number(rng, value)
    if isinstance(value, bytes):
        return other_bytes(rng, value)
    if value is None:
        return rng.randrange(9)
    if isinstance(value, Script):
        return Script(value.tag, value.steps[1:]) if value.steps and rng.random() < .5 else replace(
            value, tag=value.tag + 1)
    if isinstance(value, ServerAddr):
        return replace(value, port=value.port + 1)
    if isinstance(value, tuple) and value and isinstance(value[0], ServerKey):
        return rng.choice((value[1:], value + (ServerKey(99, ServerAddr(V4(99), 53)),), value[::-1],
                           (replace(value[0], key=value[0].key + 1),) + value[1:]))
    if isinstance(value, (Datagram, Piece, Ended, Failed)):
        return other_field(rng, value)
    if isinstance(value, Nothing):
        return Datagram(0, b"\0" * 12)
    return None


def other_field(rng, item):
    """The item with one field changed, or None where it has none."""
    names = [field.name for field in fields(item)]
    rng.shuffle(names)
    for name in names:
        value = other_value(rng, getattr(item, name))
        if name in ("id", "mix", "word") and value is not None:
            value %= 2 ** 16
        if value is not None and value != getattr(item, name):
            return replace(item, **{name: value})
    return None


def with_items(items, at, new, drop=1):
    return items[:at] + new + items[at + drop:]


# ---- changes of a journal

def forged(rng, run):
    """A message that never came, or one that came, noted once more; or another entry of a turn."""
    came = [entry.what for entry in run.journal if isinstance(entry.what, (Arrive, Fault, Expire, Start))]
    moments = [call.reading for call in run.log if isinstance(call, Now)] or [0]
    return rng.choice(came + [Arrive(0, 0, b"\0" * 12), Fault(0, 0, rng.choice(moments)),
                              Fault(0, 1, rng.choice(moments)), Expire(1, 0, rng.choice(moments))])


def stranger(rng, run):
    asked = Query(b"x.test.", 1, 1)
    count = sum(isinstance(entry.what, Accept) for entry in run.journal)
    return rng.choice([Accept(count + 1, asked, Script(0)), Cancel(), Destroy(), Take(0), Take(1),
                       Servers((ServerKey(0, run.setting.options.servers[0]),)), forged(rng, run)])


def change_journal(rng, run):
    """The name of a change, and the journal that it makes; or None."""
    journal = list(run.journal)
    count = len(journal)
    at = rng.randrange(count) if count else 0
    kind = rng.choice(("drop", "double", "swap", "move", "field", "field", "field", "what", "what", "what", "insert",
                       "insert", "by", "seat", "stranger"))
    if kind in ("insert", "stranger"):
        seat = 0 if kind == "insert" else rng.choice((1, 9))
        by = rng.choice((0, 0, 1, 2))
        return kind, with_items(journal, rng.randrange(count + 1), [Entry(seat, by, stranger(rng, run))], 0)
    if not count:
        return None
    entry = journal[at]
    name = type(entry.what).__name__
    if kind == "drop":
        return f"drop {name}", with_items(journal, at, [])
    if kind == "double":
        return f"double {name}", with_items(journal, at, [entry, entry])
    if kind == "swap" and at + 1 < count:
        return f"swap {name}", with_items(journal, at, [journal[at + 1], entry], 2)
    if kind == "move":
        rest = with_items(journal, at, [])
        return f"move {name}", with_items(rest, rng.randrange(count), [entry], 0)
    if kind == "by":
        return f"by of {name}", with_items(journal, at, [replace(entry, by=other_number(rng, entry.by))])
    if kind == "seat":
        return f"seat of {name}", with_items(journal, at, [replace(entry, seat=other_number(rng, entry.seat))])
    what = other_field(rng, entry.what)
    return None if what is None else (f"field of {name}", with_items(journal, at, [replace(entry, what=what)]))


# ---- changes of a log

def strange_call(rng, run):
    moments = [call.reading for call in run.log if isinstance(call, Now)] or [0]
    sends = [call for call in run.log if isinstance(call, (Send, Connect, Write))]
    return rng.choice(sends + [Word(7), Receive(Nothing()), Receive(Datagram(0, b"\0" * 12)), Receive(Ended(1)),
                               Receive(Failed(0, 0)), Receive(Piece(1, b"\0")), Close(1), Now(rng.choice(moments)),
                               Wait(rng.choice(moments), True), Wait(rng.choice(moments), False),
                               Serve(0, run.setting.options.servers[0]), Serve(7, ServerAddr(V4(9), 53)),
                               Connect(0, 9, True), Write(1, b"", 0), Write(9, b"x", 1)])


def change_log(rng, run):
    log = list(run.log)
    count = len(log)
    at = rng.randrange(count) if count else 0
    kind = rng.choice(("drop", "double", "swap", "move", "field", "field", "field", "insert", "insert", "cut"))
    if kind == "insert":
        call = strange_call(rng, run)
        return f"insert {type(call).__name__}", with_items(log, rng.randrange(count + 1), [call], 0)
    if not count:
        return None
    call = log[at]
    name = type(call).__name__
    if kind == "drop":
        return f"drop {name}", with_items(log, at, [])
    if kind == "double":
        return f"double {name}", with_items(log, at, [call, call])
    if kind == "swap" and at + 1 < count:
        return f"swap {name}", with_items(log, at, [log[at + 1], call], 2)
    if kind == "move":
        rest = with_items(log, at, [])
        return f"move {name}", with_items(rest, rng.randrange(count), [call], 0)
    if kind == "cut":
        return "cut off", log[:at]
    new = other_field(rng, call)
    return None if new is None else (f"field of {name}", with_items(log, at, [new]))


# ---- changes of the answers, the count of lost requests and how the run ended

def change_calls(rng, run):
    calls = list(run.calls)
    at = rng.randrange(len(calls)) if calls else 0
    kind = rng.choice(("drop", "double", "status", "number", "message", "unfilled"))
    if kind == "unfilled":
        return "an answer with number 0", with_items(calls, at, [Answer(0, 0)], 0)
    if not calls:
        return None
    answer = calls[at]
    new = {"drop": [], "double": [answer, answer],
           "status": [replace(answer, status=rng.choice([n for n in (0, 1, 3, 4, 12) if n != answer.status]))],
           "number": [replace(answer, number=other_number(rng, answer.number))],
           "message": [replace(answer, message=other_bytes(rng, answer.message))]}[kind]
    return f"{kind} of an answer", with_items(calls, at, new)


def change_end(rng, run):
    ends = [end for end in ("completed", "stalled", "wait fault") if end != run.end]
    asked = run.askings[:-1] + [(Query(b"other.", 1, 1), Script(0))]
    return rng.choice([("another end", {"end": rng.choice(ends)}), ("fewer turns", {"limit": max(0, run.turns - 1)}),
                       ("other later servers", {"later": [ServerAddr(V4(77), 53)]}),
                       ("another request asked", {"askings": asked})])


def spoiled(rng, run):
    """The kind of a single change and the run that it makes, or None where it makes none."""
    what = rng.choices(("journal", "log", "calls", "end"), (.48, .42, .07, .03))[0]
    if what == "end":
        kind, change = change_end(rng, run)
        return f"end: {kind}", replace(run, **change)
    made = {"journal": change_journal, "log": change_log, "calls": change_calls}[what](rng, run)
    if made is None or made[1] == list(getattr(run, what)):
        return None
    return f"{what}: {made[0]}", replace(run, **{what: made[1]})
