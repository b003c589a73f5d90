"""Runs of the programs themselves, as they printed them: recorded.txt, with the scenes that they played."""
import re
from dataclasses import replace
from pathlib import Path

from made.runs import COMPLETED, STALLED, WAIT_FAULT
from made.scenes import report, scene
from values import (
    Accept, Address, Answer, Arrive, Cancel, Close, Connect, Datagram, Destroy, Ended, Entry, Expire, Failed,
    Fault, Nothing, Now, Piece, Query, Receive, Reverse, Script, Search, Send, Serve, ServerAddr, ServerKey,
    Servers, Start, Take, V4, V6, Wait, Word, Write)

STATUSES = {"Success": 0, "NoData": 1, "FormErr": 2, "ServFail": 3, "NotFound": 4, "NotImp": 5, "Refused": 6,
            "BadName": 8, "BadResp": 10, "ConnRefused": 11, "TimedOut": 12, "Destruction": 16, "Cancelled": 24}
ENDS = {0: COMPLETED, 1: COMPLETED, 6: WAIT_FAULT, 7: STALLED}


def number(text, name):
    return int(re.search(rf"\b{name}: (\d+)", text).group(1))


def data(text, name):
    return bytes.fromhex(re.search(rf"\b{name}: x([0-9a-f]*)", text).group(1))


def addresses(text):
    found = re.findall(r"(V4|V6)\((\d+)\)", text)
    return [V4(int(digits)) if kind == "V4" else V6(int(digits)) for kind, digits in found]


def server_addr(text):
    return ServerAddr(addresses(text)[0], number(text, "port"))


def spec_of(text):
    if text.startswith("Reverse"):
        return Reverse(addresses(text)[0])
    if text.startswith("Address"):
        family = {"Any": "any", "V4": "4", "V6": "6"}[re.search(r"family: (\w+)", text).group(1)]
        return Address(data(text, "host"), family, "nosort: true" in text)
    kind = Query if text.startswith("Query") else Search
    return kind(data(text, "name"), number(text, "kind"), number(text, "class"))


def script_of(tag, is_adig):
    return Script(tag) if is_adig or tag >= 2 ** 32 else report(tag)


def what_of(kind, text, is_adig):
    words = text.split(" ")
    if kind == "Accept":
        count, rest = text.split(" ", 1)
        spec, tag = rest.rsplit(" tag ", 1)
        return Accept(int(count), spec_of(spec), script_of(int(tag), is_adig))
    if kind == "Start":
        mix = None if words[5] == "None" else int(words[5][5:-1])
        return Start(*map(int, words[:5]), mix, int(words[6]))
    if kind == "Arrive":
        return Arrive(int(words[0]), int(words[1]), bytes.fromhex(words[2][1:]))
    if kind == "Servers":
        items = text.split("ServerKey")[1:]
        return Servers(tuple(ServerKey(number(item, "key"), server_addr(item)) for item in items))
    kinds = {"Take": Take, "Expire": Expire, "Fault": Fault}
    return kinds[kind](*map(int, words)) if kind in kinds else {"Cancel": Cancel, "Destroy": Destroy}[kind]()


def labels(wire):
    out = []
    while wire:
        out.append(wire[1:1 + wire[0]])
        wire = wire[1 + wire[0]:]
    return tuple(out)


def answer_of(text):
    status = STATUSES[re.search(r"status: (\w+)", text).group(1)]
    found = tuple(addresses(text.split("addresses:")[1].split("canonical:")[0]))
    return Answer(number(text, "number"), status, data(text, "message"), found, labels(data(text, "wire")))


def got_of(text):
    kind, *rest = re.split(r"[(), ]+", text.strip())
    if kind in ("Datagram", "Piece"):
        return (Datagram if kind == "Datagram" else Piece)(int(rest[0]), bytes.fromhex(rest[1][1:]))
    if kind == "Failed":
        return Failed(int(rest[0]), int(rest[1]))
    return Ended(int(rest[0])) if kind == "Ended" else Nothing()


def call_of(text):
    kind, rest = text.split(" ", 1)
    if kind == "Serve":
        return Serve(number(rest, "server"), server_addr(rest))
    if kind == "Now":
        return Now(number(rest, "reading"))
    if kind == "Word":
        return Word(number(rest, "word"))
    if kind == "Send":
        return Send(number(rest, "server"), data(rest, "bytes"), "sent: Sent" in rest)
    if kind == "Connect":
        return Connect(number(rest, "server"), number(rest, "link"), "sent: Sent" in rest)
    if kind == "Write":
        count = re.search(r"Count\((\d+)\)", rest)
        return Write(number(rest, "link"), data(rest, "bytes"), int(count.group(1)) if count else None)
    if kind == "Receive":
        return Receive(got_of(re.search(r"got: (.*) \}$", rest).group(1)))
    return Close(number(rest, "link")) if kind == "Close" else Wait(number(rest, "until"), "waited: Woken" in rest)


def stored():
    """Each recorded run: its name, whether it is one of adig, its exit status, and what the program printed of it."""
    path = Path(__file__).with_name("recorded.txt")
    runs = {}
    for line in path.read_text().splitlines() if path.exists() else ():
        kind, text = line.split(" ", 1)
        if kind == "run":
            name, status = text.split(" ")
            made = scene(int(name[1:]))
            run = replace(made.run, journal=[], log=[], calls=[], turns=0, end=ENDS[int(status)])
            runs[name] = made.is_adig, int(status), run
        elif kind == "entry":
            seat, by, what, *rest = text.split(" ", 3)
            run.journal.append(Entry(int(seat), int(by), what_of(what, "".join(rest), made.is_adig)))
        elif kind == "answer":
            run.calls.append(answer_of(text))
        else:
            run.log.append(call_of(text))
    for _, _, run in runs.values():
        run.turns = sum(isinstance(call, Now) for call in run.log)
    return [(name, is_adig, status, run) for name, (is_adig, status, run) in runs.items()]
