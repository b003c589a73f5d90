"""Small runs made by hand: what the definitions let through that the tools' loop never does, and what they let through
before they were made tighter, each with the loop's own run beside it. Prints, for each, what refuses it by the rules, as
the definitions are written, and by the loop itself.

usage: python3 cases.py
"""
import sys

sys.dont_write_bytecode = True  # the repository keeps no __pycache__

from dataclasses import replace

import plain.promise
from made import exact
from made.runs import NO_MEMORY, Run, STALLED, COMPLETED
from plain.channel import Channel
from values import (
    Accept, Arrive, Cancel, CancelAct, Connect, Datagram, Destroy, Entry, Flags, Nothing, Now, Options,
    Orders, Query, Receive, Script, Send, Serve, ServerAddr, Servers, Setting, Start, Step, Take, V4, Wait,
    Word, Write, ALWAYS, NOTHING)
from written.promise import Promise

LONG = 2 ** 64 - 1
SERVER = ServerAddr(V4(0xc0000235), 53)
OTHER = ServerAddr(V4(0xc0000236), 53)
PLAIN = Setting(Options((SERVER,), flags=Flags(edns=False)))
ASK = Query(b"x.test.", 1, 1)
BLANK = Script(0)


def entries(*whats, by=()):
    """Entries of seat 0, on nobody's command but where a position says whose."""
    commanders = dict(by)
    return [Entry(0, commanders.get(at, 0), what) for at, what in enumerate(whats)]


def query(ident, spec=ASK, number=1):
    """The bytes of the query of a request's first leg."""
    channel = Channel(PLAIN)
    for k in range(1, number + 1):
        channel.add(Accept(k, spec, BLANK))
    return channel.query(number, 0, ident, None)


def run(journal, log, end, limit, setting=PLAIN, askings=((ASK, BLANK),), later=None, orders=Orders()):
    channel = Channel(setting)
    for entry in journal:
        if not channel.allows(entry.what):
            raise ValueError(f"{entry} isn't lawful")
        channel.add(entry.what)
    calls = [channel.fate(entry.what.number) for entry in journal if isinstance(entry.what, Take)]
    turns = sum(isinstance(call, Now) for call in log)
    return Run(setting, orders, list(askings), later, limit, 1, journal, log, calls, 0, turns, end, 0)


ACCEPT, TAKE, END = Accept(1, ASK, BLANK), Take(1), Destroy()
START = Start(1, 0, 0, 0, 7, None, 0)
TURN = [Now(0), Receive(Nothing()), Word(7), Send(0, query(7), True), Word(8)]
IDLE = [Now(0), Receive(Nothing()), Word(7)]
SERVES = [Serve(0, SERVER)]
WAIT = Wait(2000, True)
SILENT = entries(ACCEPT, START, END, TAKE)

CASES = []


def case(name, wrong, right=None):
    CASES.append((name, wrong, right))


case("a request is accepted though the servers weren't all told",
     run(entries(ACCEPT, END, TAKE), [], NO_MEMORY, 9),
     run(entries(END), [], NO_MEMORY, 9))

FIRST, SECOND = Send(0, query(7), True), Send(0, query(9, number=2), True)
TWO = [Now(0), Receive(Nothing()), Word(7), Word(9), FIRST, SECOND, Word(8)]
ORDER = [TWO[0], TWO[1], TWO[2], TWO[4], TWO[3], TWO[5], TWO[6]]
STARTS = entries(ACCEPT, Accept(2, ASK, BLANK), START, Start(2, 0, 0, 0, 9, None, 0), END, TAKE, Take(2))
case("the words of all Starts are drawn before the first datagram is sent",
     run(STARTS, SERVES + TWO + [WAIT], STALLED, 1, askings=((ASK, BLANK),) * 2),
     run(STARTS, SERVES + ORDER + [WAIT], STALLED, 1, askings=((ASK, BLANK),) * 2))

TCP = replace(PLAIN, options=replace(PLAIN.options, flags=Flags(edns=False, usevc=True)))
FRAMED = len(query(7)).to_bytes(2, "big") + query(7)
OVER = [Now(0), Receive(Nothing()), Word(7), Connect(0, 1, True), Word(8), Write(1, FRAMED, len(FRAMED))]
ON_LINK = entries(ACCEPT, replace(START, link=1), END, TAKE)
case("a write of nothing, and of a byte that nobody asked to send, where nothing is left to be written",
     run(ON_LINK, SERVES + OVER + [Write(1, b"", 0), Write(1, b"!", 0), WAIT], STALLED, 1, setting=TCP),
     run(ON_LINK, SERVES + OVER + [WAIT], STALLED, 1, setting=TCP))

# What the definitions refuse since they were made tighter.

ONION = Query(b"x.onion.", 1, 1)
BOTH = ((ASK, BLANK), (ONION, BLANK))
case("a ready request is taken before all that is asked is accepted",
     run(entries(Accept(1, ONION, BLANK), Take(1), Accept(2, ASK, BLANK), END, Take(2)), SERVES, STALLED, 0,
         askings=BOTH[::-1]),
     run(entries(Accept(1, ONION, BLANK), Accept(2, ASK, BLANK), Take(1), END, Take(2)), SERVES, STALLED, 0,
         askings=BOTH[::-1]))

case("the wait before the last turn of a stalled run is missing: that turn stands behind the Destroy",
     run(SILENT, SERVES + TURN + IDLE, STALLED, 2),
     run(SILENT, SERVES + TURN + [WAIT] + IDLE + [WAIT], STALLED, 2))

case("the same in a run that wanted memory",
     run(SILENT, SERVES + TURN + IDLE[:2], NO_MEMORY, 9),
     run(SILENT, SERVES + TURN + [WAIT] + IDLE[:2], NO_MEMORY, 9))

case("a run that wanted memory goes on to receive behind a message that it didn't note",
     run(entries(ACCEPT, END, TAKE), SERVES + [Now(0), Receive(Datagram(0, b"")), Receive(Nothing())], NO_MEMORY, 9),
     run(entries(ACCEPT, END, TAKE), SERVES + [Now(0), Receive(Datagram(0, b""))], NO_MEMORY, 9))

case("a run that wanted memory draws a word behind the failure of a datagram that it didn't note",
     run(SILENT, SERVES + TURN[:3] + [Send(0, query(7), False), Word(8)], NO_MEMORY, 9),
     run(SILENT, SERVES + TURN[:3] + [Send(0, query(7), False)], NO_MEMORY, 9))

GONE = Servers(Channel(PLAIN).keys_for([OTHER]))
case("a wait without end, though a leg waits where it is made: its reason and its moment are taken at two positions",
     run(entries(ACCEPT, START, GONE, END, TAKE), SERVES + TURN + [Wait(LONG, True)], STALLED, 1, later=[OTHER]),
     run(entries(ACCEPT, START, GONE, END, TAKE), SERVES + TURN, STALLED, 1, later=[OTHER]))

CANCELS = Script(0, (Step(ALWAYS, NOTHING, CancelAct()),))
REPLY = b"\0\7\x81\x80\0\1\0\0\0\0\0\0" + query(7)[12:]
PAIR = ((ASK, CANCELS), (ASK, BLANK))
ANSWERED = entries(
    Accept(1, ASK, CANCELS), Accept(2, ASK, BLANK), START, Start(2, 0, 0, 0, 9, None, 0), Arrive(0, 0, REPLY), TAKE,
    Cancel(), Take(2), END, by=[(6, 1)])
ASKED = [Now(0), Receive(Nothing()), Word(7), Send(0, query(7), True), Word(9), Send(0, query(9, number=2), True),
         Word(8), Wait(2000, True), Now(5), Receive(Datagram(0, REPLY)), Receive(Nothing()), Word(8)]
case("a run whose requests are over makes another turn and waits without end: between a Take and its callback's "
     "Cancel",
     run(ANSWERED, SERVES + ASKED + IDLE + [Wait(LONG, True)], COMPLETED, 9, askings=PAIR),
     run(ANSWERED, SERVES + ASKED, COMPLETED, 9, askings=PAIR))

case("a run that wanted memory makes its first turn before anything is asked",
     run(entries(Arrive(0, 0, b""), ACCEPT, END, TAKE), SERVES + [Now(0), Receive(Datagram(0, b""))], NO_MEMORY, 9),
     run(entries(ACCEPT, Arrive(0, 0, b""), END, TAKE), SERVES + [Now(0), Receive(Datagram(0, b""))], NO_MEMORY, 9))

SET = Servers(Channel(PLAIN).keys_for([SERVER, OTHER]))
case("a run that wanted memory sets the later servers before its first turn",
     run(entries(ACCEPT, SET, START, END, TAKE), SERVES + TURN[:4], NO_MEMORY, 9, later=[SERVER, OTHER]),
     run(entries(ACCEPT, START, SET, END, TAKE), SERVES + TURN, NO_MEMORY, 9, later=[SERVER, OTHER]))

case("the same in a run that stalled: behind a turn without entries before anything is asked",
     run(entries(ACCEPT, SET, START, END, TAKE), SERVES + TURN + [WAIT], STALLED, 1, later=[SERVER, OTHER]),
     run(entries(ACCEPT, START, SET, END, TAKE), SERVES + TURN + [WAIT], STALLED, 1, later=[SERVER, OTHER]))


def verdicts(made):
    return {"by the rules": plain.promise.broken(made), "as written": Promise(made).broken(),
            "by the loop": exact.difference(made)}


def tell(title, made):
    said = verdicts(made)
    print(f"  {title}: " + "; ".join(f"{who} {what or 'lawful'}" for who, what in said.items()))


def main():
    for name, wrong, right in CASES:
        print(name)
        tell("this", wrong)
        if right:
            tell("the loop's", right)


if __name__ == "__main__":
    main()
