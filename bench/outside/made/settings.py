"""Settings and requests by chance."""
from values import (
    Address, AskAct, CancelAct, DestroyAct, Flags, HostLine, Options, Orders, Query, Reverse, ReverseAct,
    Script, Search, ServerAddr, Setting, Step, V4, V6, ALWAYS, ANY, BAD, DNS, FILES, FILES_DNS, FIRST, FOLLOW,
    FOUR, GOOD, NOTHING, QUIT, SIX)

DOMAINS = [(b"a", b"test"), (b"b", b"test"), (b"x" * 60, b"y" * 60, b"z" * 60, b"w" * 50), (), (b"A", b"TEST")]
HOSTS = (HostLine(V4(0x7f000001), (b"localhost",)), HostLine(V4(0x0a000001), (b"box",), ((b"alias", b"test"),)),
         HostLine(V6(0x20010db8 << 96 | 7), (b"box", b"a", b"test"), ((b"BOX",),)),
         HostLine(V4(0x0a000002), (b"box",)))
TEXTS = [b"www", b"host.a.test.", b"x.y.test", b"www.example.test", b"a\\.b.test.", b".", b"..", b"", b"x.onion",
         b"box", b"localhost", b"me.localhost.", b"192.0.2.9", b"2001:db8::9", b"b" * 63 + b".test.", b"b" * 64,
         b"x\\300.test", b"\\097bc.test.", b"mIxEd.Case.Test."]
SOURCES = [V4(0xa9fe0d4e), V6(0x20010db8 << 96 | 2), V6(0xfe80 << 112 | 1), V4(0x0a000009), V6(0x2002 << 112 | 1),
           V6(0xffff << 32 | 0xc0000201)]


def options(rng):
    flags = Flags(*(rng.random() < chance for chance in (.2, .15, .15, .3, .15, .2, .6, .3)))
    servers = tuple(ServerAddr(V4(0xc0000235 + k), rng.choice((53, 5353))) for k in range(rng.randint(1, 3)))
    return Options(
        servers, tuple(rng.sample(DOMAINS, rng.randint(0, 3))), rng.choice((0, 1, 1, 2)), rng.randint(1, 3),
        rng.choice((1, 100, 2000)), rng.choice((0, 0, 150, 3000)), flags, rng.random() < .3,
        rng.choice((FILES_DNS, FILES_DNS, DNS, FILES)), rng.choice((512, 1232, 4096)),
        tuple(rng.sample(SOURCES, rng.randint(0, 3))))


def setting(rng):
    return Setting(options(rng), HOSTS if rng.random() < .5 else ())


def spec(rng):
    text = rng.choice(TEXTS)
    return rng.choice((
        lambda: Query(text, rng.choice((1, 28, 16, 255)), rng.choice((1, 1, 3))),
        lambda: Search(text, rng.choice((1, 15)), 1),
        lambda: Address(text, rng.choice((ANY, ANY, FOUR, SIX)), rng.random() < .5),
        lambda: Address(text, rng.choice((ANY, ANY, FOUR, SIX)), rng.random() < .5),
        lambda: Reverse(rng.choice((V4(0xc0000201), V6(0x20010db8 << 96 | 1))))))()


def script(rng, depth=1):
    steps = []
    for _ in range(rng.choice((0, 0, 1, 1, 2, 3))):
        inner = script(rng, depth + 1) if depth < 3 and rng.random() < .3 else Script(rng.randint(0, 99))
        act = rng.choice((AskAct(spec(rng), inner), AskAct(spec(rng), inner), ReverseAct(inner), CancelAct(),
                          DestroyAct()))
        if isinstance(act, DestroyAct) and rng.random() < .5:
            act = CancelAct()
        steps.append(Step(rng.choice((ALWAYS, GOOD, BAD)), rng.choice((NOTHING, NOTHING, FOLLOW, FIRST, QUIT)), act))
    return Script(rng.randint(0, 99), tuple(steps))


def orders(rng):
    return Orders(*(rng.random() < .6 for _ in range(3)))
