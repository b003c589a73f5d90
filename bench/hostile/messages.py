"""Messages as RFC 1035 (section 4.1), RFC 2782, RFC 3596, RFC 3597 and RFC 6891 have them, read by this project's rules.

The rules of its own: a pointer's target is before the run of labels that it ends; the first fault in reading order counts,
with the offset of the part that fails; a name in rdata that can't be read spoils its rdata; A, AAAA and SRV have a shape in
the Internet's class alone; only OPT records of the additional section count, and their owner and bits Z are passed over.
"""
from names import Fault, fault_text, printed_name


def number(data, at, size):
    return int.from_bytes(data[at:at + size], "big")


def labels_from(data, start, run, room):
    """The labels of a run, so many bytes of which fit a name, then those at its pointer; and the offset behind the run."""
    labels, at = [], run
    while True:
        head = data[at:at + 1]
        if not head:
            raise Fault("ShortPart", start)
        size = head[0]
        if size == 0:
            return labels, at + 1
        if size >> 6 == 3:
            if len(data) < at + 2:
                raise Fault("ShortPart", start)
            target = number(data, at, 2) & 0x3FFF
            if target >= run:
                raise Fault("BadPointer", at)
            return labels + labels_from(data, start, target, room)[0], at + 2
        if size >> 6:
            raise Fault("BadLabel", at)
        label = data[at + 1:at + 1 + size]
        if len(label) < size:
            raise Fault("ShortPart", start)
        room -= 1 + size
        if room < 0:
            raise Fault("LongName", start)
        labels.append(label)
        at += 1 + size


def name_at(data, start):
    """A name takes at most 255 bytes, one of which is the root's (section 2.3.4)."""
    return labels_from(data, start, start, 254)


def part(data, at, size):
    if len(data) < at + size:
        raise Fault("ShortPart", at)
    return data[at:at + size]


def written_name(labels):
    return b"".join(bytes([len(label)]) + label for label in labels) + b"\0"


def strings_in(rdata):
    strings = []
    while rdata:
        size = rdata[0]
        if len(rdata) < 1 + size:
            return None
        strings.append(rdata[1:1 + size])
        rdata = rdata[1 + size:]
    return strings


def names_around(kind, cls):
    """How many bytes stand before names in rdata, how many names, and how many bytes behind, where it is so."""
    if kind in (2, 5, 12):
        return 0, 1, 0
    if kind == 6:
        return 0, 2, 20
    if kind == 15:
        return 2, 1, 0
    if kind == 33 and cls == 1:
        return 6, 1, 0
    return None


def rdata_at(data, at, size, kind, cls):
    """The rdata with its names written out, where it has its type's shape."""
    held = data[at:at + size]
    around = names_around(kind, cls)
    if around:
        before, count, behind = around
        next_, out = at + before, held[:before]
        if size < before:
            raise Fault("BadRdata", at)
        for _ in range(count):
            try:
                labels, next_ = name_at(data, next_)
            except Fault:
                raise Fault("BadRdata", at) from None
            out += written_name(labels)
        if next_ + behind != at + size:
            raise Fault("BadRdata", at)
        return out + data[next_:at + size]
    fits = True
    if cls == 1 and kind in (1, 28):
        fits = size == (4 if kind == 1 else 16)
    elif kind in (13, 16):
        strings = strings_in(held)
        fits = strings is not None and (kind == 16 or len(strings) == 2)
    if not fits:
        raise Fault("BadRdata", at)
    return held


def question_at(data, at):
    labels, at = name_at(data, at)
    fixed = part(data, at, 4)
    return (labels, number(fixed, 0, 2), number(fixed, 2, 2)), at + 4


def record_at(data, at):
    labels, at = name_at(data, at)
    fixed = part(data, at, 10)
    kind, cls, ttl, size = number(fixed, 0, 2), number(fixed, 2, 2), number(fixed, 4, 4), number(fixed, 8, 2)
    part(data, at + 10, size)
    return (labels, kind, cls, ttl, rdata_at(data, at + 10, size, kind, cls)), at + 10 + size


def message_in(data):
    if len(data) < 12:
        raise Fault("ShortHeader")
    at, sections = 12, []
    for index, item_at in enumerate((question_at, record_at, record_at, record_at)):
        items = []
        for _ in range(number(data, 4 + 2 * index, 2)):
            item, at = item_at(data, at)
            items.append(item)
        sections.append(items)
    if at < len(data):
        raise Fault("TrailingBytes", at)
    return number(data, 0, 2), number(data, 2, 2), sections


def written(message):
    """The message's bytes without pointers, where they are at most 65,535 (section 4.2.2)."""
    identifier, flags, sections = message
    out = [b"".join(n.to_bytes(2, "big") for n in (identifier, flags, *map(len, sections)))]
    for labels, kind, cls in sections[0]:
        out.append(written_name(labels) + kind.to_bytes(2, "big") + cls.to_bytes(2, "big"))
    for labels, kind, cls, ttl, rdata in sum(sections[1:], []):
        fixed = kind.to_bytes(2, "big") + cls.to_bytes(2, "big") + ttl.to_bytes(4, "big") + len(rdata).to_bytes(2, "big")
        out.append(written_name(labels) + fixed + rdata)
    out = b"".join(out)
    return out.hex() if len(out) <= 65535 else "!TooLong"


def opt_of(message):
    """The size, the upper bits of the response code, the version, the bit DO and the options, where there is an OPT record."""
    found = [record for record in message[2][3] if record[1] == 41]
    if len(found) > 1:
        raise Fault("DoubleOpt")
    if not found:
        return None
    _, _, size, ttl, rdata = found[0]
    options, at = [], 0
    while at < len(rdata):
        length = number(rdata, at + 2, 2) if at + 4 <= len(rdata) else len(rdata)
        if at + 4 + length > len(rdata):
            raise Fault("BadOptions", at)
        options.append((number(rdata, at, 2), rdata[at + 4:at + 4 + length]))
        at += 4 + length
    return size, ttl >> 24, ttl >> 16 & 255, ttl >> 15 & 1, options


def opt_text(message):
    try:
        opt = opt_of(message)
    except Fault as fault:
        return fault_text(fault)
    code = message[1] & 15
    if opt is None:
        return f"rcode {code}"
    size, upper, version, switch, options = opt
    text = f"rcode {upper * 16 + code} size {size} version {version} do {switch}"
    return text + "".join(f" {code}:{content.hex()}" for code, content in options)


def walk_text(message):
    """What a message says that asks for the addresses of example.com alone, where its OPT record can be read."""
    if message is None or len(message[2][0]) != 1:
        return " walk"
    labels, kind, cls = message[2][0][0]
    if ([label.lower() for label in labels], kind, cls) != ([b"example", b"com"], 1, 1):
        return " walk"
    try:
        opt = opt_of(message)
    except Fault:
        return " walk"
    answered = any(record[1:3] == (1, 1) for record in message[2][1])
    return f" walk {int(answered)} {opt[1] + 1 if opt else 0}"


def told(data):
    from records import class_text, kind_text, line
    try:
        message = message_in(data)
    except Fault as fault:
        return fault_text(fault) + walk_text(None)
    text = f"{message[0]} {message[1]}\n"
    for labels, kind, cls in message[2][0]:
        text += f"{printed_name(labels)} {class_text(cls)} {kind_text(kind)}\n"
    for section in message[2][1:]:
        text += "\n" + "".join(map(line, section))
    return text + "\n" + opt_text(message) + "\n" + written(message) + walk_text(message)
