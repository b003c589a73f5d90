"""Messages as bytes, as dns_message defines them."""
from dataclasses import dataclass

from .names import Question, has_bit, wire_length
from .std import err, ok, then


@dataclass(frozen=True)
class Record:
    name: tuple
    kind: int
    klass: int
    ttl: int
    rdata: bytes


@dataclass(frozen=True)
class Message:
    id: int
    flags: int
    questions: tuple
    answers: tuple
    authorities: tuple
    additionals: tuple


# ---- dns_message/specs/Numbers.antt

KIND_A, KIND_NS, KIND_CNAME, KIND_SOA, KIND_PTR, KIND_HINFO = 1, 2, 5, 6, 12, 13
KIND_MX, KIND_TXT, KIND_AAAA, KIND_SRV, KIND_OPT = 15, 16, 28, 33, 41
CLASS_IN = 1
FLAG_RD = 0x0100


def is_response(message):
    return has_bit(15, message.flags)


def is_standard(message):
    return (message.flags // 2 ** 11) % 16 == 0


def is_truncated(message):
    return has_bit(9, message.flags)


def header_rcode(message):
    return message.flags % 16


def query_flags(norecurse):
    return 0 if norecurse else FLAG_RD


# ---- dns_message/specs/Shapes.antt

def shape_by(kind, klass):
    if kind == KIND_A and klass == CLASS_IN:
        return "bytes", 4
    if kind == KIND_AAAA and klass == CLASS_IN:
        return "bytes", 16
    if kind == KIND_SRV and klass == CLASS_IN:
        return "names", (6, 1, 0)
    if kind in (KIND_NS, KIND_CNAME, KIND_PTR):
        return "names", (0, 1, 0)
    if kind == KIND_SOA:
        return "names", (0, 2, 20)
    if kind == KIND_HINFO:
        return "two strings", None
    if kind == KIND_MX:
        return "names", (2, 1, 0)
    if kind == KIND_TXT:
        return "strings", None
    return "any", None


def strings_of(data):
    count = 0
    while data:
        length, data = data[0], data[1:]
        if len(data) < length:
            return None
        data, count = data[length:], count + 1
    return count


# ---- dns_message/specs/Spelling.antt

def name_bytes(labels):
    return b"".join(bytes([len(label)]) + label for label in labels) + b"\0"


def big_bytes(width, number):
    return bytes(number // 256 ** (width - 1 - k) % 256 for k in range(width))


def question_bytes(q):
    return name_bytes(q.name) + big_bytes(2, q.kind) + big_bytes(2, q.klass)


def record_bytes(rr):
    return (name_bytes(rr.name) + big_bytes(2, rr.kind) + big_bytes(2, rr.klass) + big_bytes(4, rr.ttl)
            + big_bytes(2, len(rr.rdata)) + rr.rdata)


def header_bytes(m):
    return (big_bytes(2, m.id) + big_bytes(2, m.flags) + big_bytes(2, len(m.questions))
            + big_bytes(2, len(m.answers)) + big_bytes(2, len(m.authorities)) + big_bytes(2, len(m.additionals)))


def sections_bytes(m):
    return (b"".join(map(question_bytes, m.questions)) + b"".join(map(record_bytes, m.answers))
            + b"".join(map(record_bytes, m.authorities)) + b"".join(map(record_bytes, m.additionals)))


def message_bytes(m):
    return header_bytes(m) + sections_bytes(m)


# ---- dns_message/specs/Reading.antt

def big_from(p, width, data):
    number = 0
    for k in range(width):
        number = number * 256 + byte_at(data, p + k)
    return number


def byte_at(data, p):
    return data[p] if p < len(data) else 0


def label_of(data, p):
    return data[p + 1:p + 1 + byte_at(data, p)]


def label_end(data, start, p, front):
    if byte_at(data, p) == 0 or 63 < byte_at(data, p):
        return err(("BadLabel", p))
    if len(data) - p - 1 < byte_at(data, p):
        return err(("ShortPart", start))
    if 255 < wire_length(front) + byte_at(data, p) + 1:
        return err(("LongName", start))
    return ok(p + 1 + byte_at(data, p))


def run_part(data, start, p, front):
    if len(data) <= p:
        return err(("ShortPart", start))
    if byte_at(data, p) == 0:
        return ok(("ends", ("root", p + 1)))
    if 192 <= byte_at(data, p):
        if len(data) - p < 2:
            return err(("ShortPart", start))
        return ok(("ends", ("pointer", p, (byte_at(data, p) - 192) * 256 + byte_at(data, p + 1))))
    return then(label_end(data, start, p, front), lambda following: ok(("goes on", following)))


def run_of(data, start, p, front):
    while True:
        part = run_part(data, start, p, front)
        if part[0] == "err":
            return part
        if part[1][0] == "ends":
            return ok((front, part[1][1]))
        front, p = front + (label_of(data, p),), part[1][1]


def name_within(data, start, run, front):
    found = run_of(data, start, run, front)
    if found[0] == "err":
        return found
    labels, end = found[1]
    if end[0] == "root":
        return ok((labels, end[1]))
    _, at, target = end
    if run <= target:
        return err(("BadPointer", at))
    return then(name_within(data, start, target, labels), lambda name: ok((name[0], at + 2)))


def name_of(data, start):
    return name_within(data, start, start, ())


def part_of(data, p, length):
    return err(("ShortPart", p)) if len(data) - p < length else ok(data[p:p + length])


def question_of(data, p):
    return then(name_of(data, p), lambda name: then(part_of(data, name[1], 4), lambda part: ok((
        Question(name[0], big_from(0, 2, part), big_from(2, 2, part)), name[1] + 4))))


def items_of(item, count, p):
    items = []
    for _ in range(count):
        found = item(p)
        if found[0] == "err":
            return found
        items.append(found[1][0])
        p = found[1][1]
    return ok((tuple(items), p))


def expanded_name(data, p):
    return then(name_of(data, p), lambda name: ok((name_bytes(name[0]), name[1])))


def joined_of(data, bad, count, p):
    """joined_of over or_else (BadRdata p) (expanded_name bytes q)."""
    joined = b""
    for _ in range(count):
        found = expanded_name(data, p)
        if found[0] == "err":
            return err(bad)
        joined, p = joined + found[1][0], found[1][1]
    return ok((joined, p))


def names_rdata(data, p, length, shape):
    front, count, back = shape
    bad = ("BadRdata", p)
    if length < front:
        return err(bad)

    def whole(found):
        if p + length < found[1] or p + length - found[1] != back:
            return err(bad)
        return ok(data[p:p + front] + found[0] + data[found[1]:p + length])
    return then(joined_of(data, bad, count, p + front), whole)


def rdata_of(data, p, length, shape):
    part = data[p:p + length]
    if shape[0] == "names":
        return names_rdata(data, p, length, shape[1])
    fits = {"any": lambda: True, "bytes": lambda: length == shape[1], "two strings": lambda: strings_of(part) == 2,
            "strings": lambda: strings_of(part) is not None}[shape[0]]()
    return ok(part) if fits else err(("BadRdata", p))


def record_of(data, p):
    def behind_name(name):
        return then(part_of(data, name[1], 10), lambda part: behind_part(name, part))

    def behind_part(name, part):
        length, kind, klass = big_from(8, 2, part), big_from(0, 2, part), big_from(2, 2, part)
        return then(part_of(data, name[1] + 10, length), lambda whole: then(
            rdata_of(data, name[1] + 10, length, shape_by(kind, klass)), lambda rdata: ok((
                Record(name[0], kind, klass, big_from(4, 4, part), rdata), name[1] + 10 + length))))
    return then(name_of(data, p), behind_name)


def message_read(data):
    if len(data) < 12:
        return err("ShortHeader")
    found, p = [], 12
    for at, item in ((4, question_of), (6, record_of), (8, record_of), (10, record_of)):
        items = items_of(lambda q: item(data, q), big_from(at, 2, data), p)
        if items[0] == "err":
            return items
        found.append(items[1][0])
        p = items[1][1]
    if p < len(data):
        return err(("TrailingBytes", p))
    return ok(Message(big_from(0, 2, data), big_from(2, 2, data), *found))
