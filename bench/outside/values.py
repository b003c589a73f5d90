"""The values that both models speak of: what a caller asks, the journal's entries, the network's calls.

They are plain data and mean nothing by themselves. Moments are milliseconds. Names are tuples of labels,
labels are bytes. A status is its c-ares number.
"""
from dataclasses import dataclass
from typing import Optional, Tuple

frozen = dataclass(frozen=True)

Label = bytes
Name = Tuple[Label, ...]


# ---- addresses

@frozen
class V4:
    number: int


@frozen
class V6:
    number: int


ANY, FOUR, SIX = "any", "4", "6"


@frozen
class ServerAddr:
    address: object
    port: int


@frozen
class ServerKey:
    key: int
    address: ServerAddr


# ---- settings

@frozen
class Flags:
    usevc: bool = False
    primary: bool = False
    igntc: bool = False
    norecurse: bool = False
    nosearch: bool = False
    nocheckresp: bool = False
    edns: bool = True
    mix: bool = False


FILES_DNS, DNS, FILES = "files, dns", "dns", "files"


@frozen
class Options:
    servers: tuple
    domains: tuple = ()
    ndots: int = 1
    tries: int = 3
    timeout: int = 2000
    max_timeout: int = 0
    flags: Flags = Flags()
    rotate: bool = False
    lookups: str = FILES_DNS
    edns_size: int = 1232
    sources: tuple = ()


@frozen
class HostLine:
    address: object
    canonical: Name
    aliases: tuple = ()


@frozen
class Setting:
    options: Options
    hosts: tuple = ()


# ---- requests

@frozen
class Query:
    name: bytes
    kind: int
    klass: int


@frozen
class Search:
    name: bytes
    kind: int
    klass: int


@frozen
class Address:
    host: bytes
    family: str
    nosort: bool


@frozen
class Reverse:
    address: object


@frozen
class Answer:
    number: int
    status: int
    message: bytes = b""
    addresses: tuple = ()
    canonical: Name = ()


# ---- scripts of callbacks, and the commands that they give

ALWAYS, GOOD, BAD = "always", "good", "bad"
NOTHING, FOLLOW, FIRST, QUIT = "nothing", "follow", "first", "quit"


@frozen
class Orders:
    follow: bool = False
    first: bool = False
    quit: bool = False


@frozen
class AskAct:
    spec: object
    script: "Script"


@frozen
class ReverseAct:
    script: "Script"


@frozen
class CancelAct:
    pass


@frozen
class DestroyAct:
    pass


@frozen
class Step:
    when: str
    need: str
    act: object


@frozen
class Script:
    tag: int
    steps: tuple = ()


@frozen
class AskCommand:
    spec: object
    script: Script


@frozen
class CancelCommand:
    pass


@frozen
class DestroyCommand:
    pass


# ---- the journal

@frozen
class Accept:
    number: int
    spec: object
    script: Script


@frozen
class Cancel:
    pass


@frozen
class Destroy:
    pass


@frozen
class Take:
    number: int


@frozen
class Start:
    number: int
    leg: int
    server: int
    link: int
    id: int
    mix: Optional[int]
    moment: int


@frozen
class Arrive:
    server: int
    link: int
    bytes: bytes


@frozen
class Expire:
    number: int
    leg: int
    moment: int


@frozen
class Fault:
    server: int
    link: int
    moment: int


@frozen
class Servers:
    list: tuple


@frozen
class Entry:
    seat: int
    by: int
    what: object


TURN_KINDS = (Start, Arrive, Expire, Fault)


# ---- the network's calls

@frozen
class Datagram:
    server: int
    bytes: bytes


@frozen
class Piece:
    link: int
    bytes: bytes


@frozen
class Ended:
    link: int


@frozen
class Nothing:
    pass


@frozen
class Failed:
    server: int
    link: int


@frozen
class Serve:
    server: int
    address: ServerAddr


@frozen
class Now:
    reading: int


@frozen
class Word:
    word: int


@frozen
class Send:
    server: int
    bytes: bytes
    sent: bool


@frozen
class Connect:
    server: int
    link: int
    sent: bool


@frozen
class Write:
    link: int
    bytes: bytes
    count: Optional[int]  # None where the write failed


@frozen
class Receive:
    got: object


@frozen
class Close:
    link: int


@frozen
class Wait:
    until: int
    woken: bool
