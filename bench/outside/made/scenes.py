"""Runs for the programs themselves: a command line, its files, and a network in memory whose items, words and failing
calls are all given beforehand. What the programs make of it is foretold here, and then recorded."""
import random
from dataclasses import dataclass

from values import (
    Address, CancelAct, DestroyAct, Failed, Flags, HostLine, Options, Orders, Query, Reverse, ReverseAct,
    Script, Search, ServerAddr, Setting, Step, V4, V6, Wait, Word, ALWAYS, ANY, FIRST, FOLLOW, FOUR, GOOD,
    QUIT, SIX)
from plain import addresses
from .desk import Desk, Shared
from .network import Memory, Network
from .runs import Run, finish, loop

NAMES = ["www", "host.a.test.", "x.y.test", "box", "localhost", "192.0.2.9", "x.onion", "2001:db8::9",
         "mIxEd.Case.Test"]
HOSTS = "127.0.0.1 localhost\n10.0.0.1 box alias.test\n2001:db8::7 box.a.test BOX\n10.0.0.2 box\n"
LINES = (HostLine(V4(0x7f000001), (b"localhost",)), HostLine(V4(0x0a000001), (b"box",), ((b"alias", b"test"),)),
         HostLine(V6(0x20010db8 << 96 | 7), (b"box", b"a", b"test"), ((b"BOX",),)),
         HostLine(V4(0x0a000002), (b"box",)))
SOURCES = {"169.254.13.78": V4(0xa9fe0d4e), "2001:db8::2": V6(0x20010db8 << 96 | 2), "10.0.0.9": V4(0x0a000009)}


class ScriptNetwork(Network):
    """The network in memory of the repository's tests: words in order, items by moments, failing calls by number."""

    def __init__(self, rng, words, fails):
        super().__init__(rng, Memory(), 0)
        self.words, self.fails, self.given = list(words), set(fails), []

    def failing(self):
        return len(self.log) in self.fails

    def later(self, got, span=None):
        if isinstance(got, Failed):
            return
        item = self.clock + self.rng.choice((1, 1, 2, 50, 99, 100, 1999, 2000, 2500)), got
        self.items.append(item)
        self.given.append(item)

    def word(self):
        word = self.words.pop(0) if self.words else 0
        self.put(Word(word))
        return word

    def send(self, server, data):
        self.faults = 1 if self.failing() else 0
        return super().send(server, data)

    def connect(self, server, link):
        self.faults = 1 if self.failing() else 0
        return super().connect(server, link)

    def write(self, link, data):
        self.faults = 1 if self.failing() else 0
        return super().write(link, data)

    def share(self, data):
        return len(data)

    def receive(self):
        self.faults = 8 if self.failing() else 0
        return super().receive()

    def close(self, link):
        self.put_close(link)

    def wait(self, until):
        if self.failing():
            self.put(Wait(until, False))
            return False
        self.put(Wait(until, True))
        if self.receivable() is None:
            self.clock = max(self.clock, min([moment for moment, _ in self.items] + [until]))
        return True


@dataclass
class Scene:
    name: str
    is_adig: bool
    line: str
    resolv: object
    hosts: object
    words: list
    fails: list
    items: list
    turns: int
    run: Run


def common(rng, words):
    """Options that both programs have: words are added, and what they set is given back."""
    count = rng.randint(1, 3)
    texts = [f"192.0.2.{53 + k}" for k in range(count)]
    words += ["--server", ",".join(texts)]
    port = rng.choice((53, 53, 5353))
    if port != 53:
        words += ["--port", str(port)]
    timeout, tries = rng.choice((100, 2000)), rng.randint(1, 3)
    words += ["--timeout", str(timeout), "--tries", str(tries)]
    flags = {}
    for word, flag, value in (("--tcp", "usevc", True), ("--no-edns", "edns", False), ("--mix", "mix", True)):
        if rng.random() < .25:
            words.append(word)
            flags[flag] = value
    servers = tuple(ServerAddr(V4(0xc0000235 + k), port) for k in range(count))
    return servers, port, timeout, tries, flags


def resolv_of(rng):
    """A resolv.conf, and the domains, ndots and rotate that it sets."""
    if rng.random() < .3:
        return None, (), 1, False
    ndots, rotate = rng.choice((0, 1, 2)), rng.random() < .4
    text = f"search a.test b.test\noptions ndots:{ndots}{' rotate' if rotate else ''}\n"
    return text.encode(), ((b"a", b"test"), (b"b", b"test")), ndots, rotate


def report(tag):
    return Script(tag, (Step(GOOD, FOLLOW, ReverseAct(Script(tag + 2 ** 32))), Step(GOOD, FIRST, CancelAct()),
                        Step(ALWAYS, QUIT, DestroyAct())))


def adig_asks(rng, words, flags):
    for word, flag in (("--primary", "primary"), ("--ignore-tc", "igntc"), ("--no-recurse", "norecurse"),
                       ("--no-check", "nocheckresp")):
        if rng.random() < .2:
            words.append(word)
            flags[flag] = True
    if rng.random() < .2:
        words += ["--reverse", "192.0.2.1"]
        return Reverse(V4(0xc0000201))
    kind = rng.choice(((1, "A"), (28, "AAAA"), (16, "txt")))
    words += ["--type", kind[1]]
    search = rng.random() < .4
    words += ["--search"] if search else []
    words.append(rng.choice(NAMES))
    return (Search if search else Query)(words[-1].encode(), kind[0], 1)


def ahost_asks(rng, words, flags):
    """The requests, orders, sources and later servers."""
    family = rng.choice(((ANY, "any"), (FOUR, "4"), (SIX, "6")))
    nosort = rng.random() < .4
    words += ["--family", family[1]] + ["--no-sort"] * nosort
    if rng.random() < .2:
        words.append("--no-search")
        flags["nosearch"] = True
    ordered = {name: rng.random() < .4 for name in ("follow", "first", "quit")}
    words += ["--" + name for name, is_so in ordered.items() if is_so]
    sources = rng.sample(sorted(SOURCES), rng.randint(0, 3))
    words += ["--sources", ",".join(sources)] if sources else []
    later = rng.sample(["192.0.2.53", "192.0.2.99", "192.0.2.98"], rng.randint(1, 2)) if rng.random() < .35 else None
    words += ["--then", ",".join(later)] if later else []
    hosts = [rng.choice(NAMES) for _ in range(rng.randint(1, 3))]
    words += hosts
    askings = [(Address(host.encode(), family[0], nosort), report(tag)) for tag, host in enumerate(hosts)]
    return askings, Orders(**ordered), tuple(SOURCES[text] for text in sources), later


def scene(seed):
    rng = random.Random(f"scene {seed}")
    is_adig, line = seed % 2 == 0, []
    servers, port, timeout, tries, flags = common(rng, line)
    resolv, domains, ndots, rotate = resolv_of(rng)
    hosts, orders, sources, later = None, Orders(), (), None
    if is_adig:
        askings = [(adig_asks(rng, line, flags), Script(0))]
    else:
        hosts = HOSTS.encode() if rng.random() < .6 else None
        askings, orders, sources, later = ahost_asks(rng, line, flags)
    later = later and [ServerAddr(addresses.read(text.encode()), port) for text in later]
    setting = Setting(Options(servers, domains, ndots, tries, timeout, 0, Flags(**flags), rotate, sources=sources),
                      LINES if hosts else ())
    words = [rng.choice((7, 7, 65535, rng.randrange(65536))) for _ in range(80)]
    fails = sorted(rng.sample(range(4, 60), rng.choice((0, 0, 2, 5))))
    limit = rng.choice((2, 30, 30, 30))
    shared, network = Shared(setting, Memory()), ScriptNetwork(rng, words, fails)
    desk = Desk(shared, 0, orders)
    end, turns = loop(desk, network, askings, later, limit)
    finish(desk)
    run = Run(setting, orders, askings, later, limit, 1, shared.journal, network.log, desk.calls, 0, turns, end, 0)
    return Scene(f"s{seed}", is_adig, " ".join(line), resolv, hosts, words, fails, network.given, limit, run)


def scenes(count):
    """So many runs that are short enough to be kept."""
    found, seed = [], 0
    while len(found) < count:
        made = scene(seed)
        seed += 1
        if 6 <= len(made.run.journal) + len(made.run.log) <= 90:
            found.append(made)
    return found
