"""Whole runs by chance: of one seat as the tools make them, and of several that share a channel."""
import random
from dataclasses import dataclass

from values import Orders, Script, ServerAddr, V4
from . import settings
from .desk import Desk, Shared
from .network import Memory, Network, OutOfMemory
from .runner import Runner

LONGEST = 2 ** 64 - 1
COMPLETED, STALLED, WAIT_FAULT, NO_MEMORY = "completed", "stalled", "wait fault", "no memory"


@dataclass
class Run:
    """What a run leaves, and how it was made."""
    setting: object
    orders: Orders
    askings: list
    later: object
    limit: int
    seats: int
    journal: list
    log: list
    calls: list
    lost: int
    turns: int
    end: str
    memory: int
    slice: int = LONGEST
    passes: tuple = ()
    accepted: int = 0


@dataclass
class Pass:
    """A seat as it is handed in at the end: what it made, has seen, was told and lost."""
    number: int
    own: list
    seen: list
    calls: list
    lost: int


def one_seat(seed, plain=False, calls=None, faults=.08, once=False):
    """A run of one owner. Where it is plain one request is asked, whose callback commands nothing."""
    rng = random.Random(seed)
    memory = Memory(calls, once)
    setting, orders = settings.setting(rng), Orders() if plain else settings.orders(rng)
    count = 1 if plain else rng.randint(1, 4)
    askings = [(settings.spec(rng), Script(0) if plain else settings.script(rng)) for _ in range(count)]
    limit = rng.choice((0, 1, 3, 40, 40, 40, 40, 40))
    later = None
    if not plain and rng.random() < .4:
        later = [rng.choice(setting.options.servers + (ServerAddr(V4(9), 53), ServerAddr(V4(10), 53)))
                 for _ in range(rng.randint(1, 3))]
    shared, network = Shared(setting, memory), Network(rng, memory, faults)
    desk = Desk(shared, 0, orders)
    end, turns = loop(desk, network, askings, later, limit)
    finish(desk)
    return Run(setting, orders, askings, later, limit, 1, shared.journal, network.log, desk.calls, desk.lost, turns,
               end if not desk.lost else NO_MEMORY, memory.asked)


def loop(desk, network, askings, later, limit, slice_=LONGEST):
    """The loop of a tool: how it ended, and how many turns were begun."""
    turns = 0
    try:
        runner = Runner(desk, network)
        for spec, script in askings:
            desk.accept(spec, script)
        desk.deliver()
        while True:
            if not desk.look(lambda channel: channel.pending()):
                return COMPLETED, turns
            if turns == limit:
                return STALLED, turns
            turns += 1
            runner.turn()
            if turns == 1 and later:
                desk.set_servers(later)
            desk.deliver()
            if not runner.pause(slice_):
                return WAIT_FAULT, turns
    except OutOfMemory:
        return NO_MEMORY, turns


def finish(desk):
    desk.meddle = lambda: None
    desk.destroy()
    desk.deliver()


class Meddler:
    """Other seats act by chance, before any call of the first."""

    def __init__(self, rng, shared, desks):
        self.rng, self.shared, self.desks, self.left, self.inside = rng, shared, desks, 12, False

    def __call__(self):
        if self.inside or not self.left or self.rng.random() > .12:
            return
        self.inside, self.left = True, self.left - 1
        desk = self.rng.choice(self.desks)
        act = self.rng.choice(("accept", "accept", "deliver", "deliver", "cancel", "servers", "servers", "destroy"))
        if act == "accept":
            desk.accept(settings.spec(self.rng), settings.script(self.rng))
        elif act == "deliver":
            number = desk.take()
            if number is not None:
                desk.spend(number)
        elif act == "cancel":
            desk.cancel()
        elif act == "servers":
            addresses = desk.setting.options.servers + (ServerAddr(V4(9), 53), ServerAddr(V4(10), 53))
            desk.set_servers([self.rng.choice(addresses) for _ in range(self.rng.randint(1, 2))])
        elif self.rng.random() < .2:
            desk.destroy()
        self.inside = False


def several_seats(seed):
    """Seat 0 makes the turns; others ask, take, command and set servers between its calls."""
    rng = random.Random(seed)
    memory = Memory()
    setting, orders, seats = settings.setting(rng), settings.orders(rng), rng.randint(2, 4)
    shared, network = Shared(setting, memory), Network(rng, memory)
    others = [Desk(shared, seat, orders) for seat in range(1, seats)]
    main = Desk(shared, 0, orders)
    main.meddle = Meddler(rng, shared, others)
    askings = [(settings.spec(rng), settings.script(rng)) for _ in range(rng.randint(1, 3))]
    slice_ = rng.choice((20, LONGEST))
    end, turns = loop(main, network, askings, None, 25, slice_)
    desks = [main] + others
    for desk in others:
        desk.lost += rng.choice((0, 0, 0, 1))
    passes = tuple(pass_of(desk, shared.journal) for desk in desks)
    finish(main)
    calls = [answer for desk in desks for answer in handed_in(desk, passes)]
    calls += main.calls[len(passes[0].calls):]
    return Run(setting, orders, askings, None, 25, seats, shared.journal, network.log, calls,
               sum(desk.lost for desk in desks), turns, end, memory.asked, slice_, passes,
               len(shared.channel.requests))


def pass_of(desk, journal):
    own = [entry for entry in journal if entry.seat == desk.seat]
    return Pass(desk.seat, own, journal[:desk.seen], list(desk.calls), desk.lost)


def handed_in(desk, passes):
    return passes[desk.seat].calls
