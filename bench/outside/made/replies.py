"""Replies to a query by chance: good ones, refusals, forged ones, and bytes that are no message."""
from dataclasses import replace

from plain import messages
from plain.messages import Message, Question, Record, A, AAAA, CNAME, IN, OPT, PTR, QR, TC

RA = 0x0080


def record(rng, question, name):
    """A record that answers the question, or one of another kind."""
    kind = question.kind if rng.random() < .85 else rng.choice((A, AAAA, 16, 99))
    kind = A if kind == 255 else kind
    rdata = {A: bytes([192, 0, 2, rng.randint(1, 9)]), AAAA: bytes.fromhex("20010db8") + bytes(11) + b"\5",
             PTR: b"\4host\4test\0", 15: b"\0\5\2mx\4test\0", 16: b"\3txt\0"}.get(kind, b"\1\2")
    return Record(name, kind, question.klass if rng.random() < .95 else 3, 60, rdata)


def answers(rng, question):
    out, name = [], question.name
    if rng.random() < .3:
        target = (b"real", b"test")
        out.append(Record(name, CNAME, IN, 60, messages.name_bytes(target)))
        name = target
    out += [record(rng, question, name) for _ in range(rng.choice((1, 1, 2, 3)))]
    if rng.random() < .1:
        out.reverse()
    return tuple(out)


def opt(rng, ext=0):
    rdata = rng.choice((b"", b"", b"\0\x0a\0\2ab"))
    return Record((), OPT, 1232, ext << 24 | rng.choice((0, 0x8000)), rdata)


def ways(rng, query, question):
    """The ways to reply, each with its weight."""
    had_opt = any(item.kind == OPT for item in query.additionals)
    base = Message(query.id, QR | 0x0100 | RA, (question,), (), (), (opt(rng),) if had_opt else ())
    bare = replace(base, additionals=())
    good = replace(base, answers=answers(rng, question))
    other = Question(question.name[:-1] + (b"other",), question.kind, question.klass)
    swapped = replace(question, name=tuple(label.swapcase() for label in question.name))
    bad_opt = Record((), OPT, 512, 0, b"\0\1\0\7x")
    return [
        (8, good), (2, base), (2, replace(base, flags=base.flags | 3)), (2, replace(base, flags=base.flags | 2)),
        (1, replace(base, flags=base.flags | 5)), (1, replace(base, flags=base.flags | 4)),
        (1, replace(base, flags=base.flags | 9)), (2, replace(bare, flags=base.flags | 1)),
        (1, replace(base, flags=base.flags | 1)), (1, replace(base, additionals=(opt(rng, 1),))),
        (2, replace(good, flags=good.flags | TC)), (1, replace(bare, flags=bare.flags | TC | 1)),
        (1, replace(good, id=(good.id + 1) % 65536)), (1, replace(good, questions=(other,))),
        (2, replace(good, questions=(swapped,))), (1, replace(good, questions=())),
        (1, replace(good, questions=(question, question))), (1, replace(good, flags=good.flags & ~QR)),
        (1, replace(good, flags=good.flags | 0x1000)), (1, replace(good, additionals=(bad_opt,))),
        (1, replace(good, additionals=(opt(rng), opt(rng)))),
        (1, replace(good, questions=(replace(question, klass=4),)))]


def squeezed(data, question):
    """The message with pointers to the question's name where a record has it."""
    name = messages.name_bytes(question.name)
    at = 12 + len(name) + 4
    return data[:at] + data[at:].replace(name, b"\xc0\x0c") if len(name) > 2 else data


def reply(rng, data):
    """The bytes of a reply to this query."""
    query = messages.decode(data)
    question = query.questions[0]
    chosen = ways(rng, query, question)
    message = rng.choices([way for _, way in chosen], [weight for weight, _ in chosen])[0]
    out = messages.encode(message)
    if rng.random() < .5 and message.questions[:1] == (question,):
        out = squeezed(out, question)
    if rng.random() < .04:
        out = rng.choice((out[:-1], out + b"\0", out[:11], b"", out[:20] + b"\x40" + out[21:]))
    return out
