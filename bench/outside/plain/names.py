"""Names and their texts: RFC 1035, sections 2.3.4, 3.1 and 5.1; letters by RFC 4343."""


def lower(name):
    return tuple(label.lower() for label in name)


def same(name, other):
    return lower(name) == lower(other)


def wire_length(name):
    return 1 + sum(len(label) + 1 for label in name)


def last_is(name, word):
    return bool(name) and name[-1].lower() == word


def read(text):
    """The name that a text is and whether it is absolute, or None."""
    if text == b".":
        return (), True
    labels, label, place, open_label = [], bytearray(), 0, True
    while place < len(text):
        byte = text[place]
        if byte == ord("."):
            labels.append(bytes(label))
            label, open_label = bytearray(), False
            place += 1
            continue
        open_label = True
        if byte != ord("\\"):
            label.append(byte)
            place += 1
            continue
        rest = text[place + 1:place + 4]
        if not rest:
            return None
        if not chr(rest[0]).isdigit() or rest[0] > 57:
            label.append(rest[0])
            place += 2
            continue
        if len(rest) < 3 or not all(48 <= digit <= 57 for digit in rest) or int(rest) > 255:
            return None
        label.append(int(rest))
        place += 4
    absolute = not open_label and bool(labels)
    if not absolute:
        labels.append(bytes(label))
    if any(not 1 <= len(item) <= 63 for item in labels) or wire_length(labels) > 255:
        return None
    return tuple(labels), absolute


def mixed(name, bits):
    """Each letter in upper case where its bit is set, else in lower case; letters are counted over the name."""
    labels, letters = [], 0
    for label in name:
        out = bytearray()
        for byte in label:
            char = bytes([byte])
            if char.isalpha():
                char = char.upper() if bits >> (letters % 16) & 1 else char.lower()
                letters += 1
            out += char
        labels.append(bytes(out))
    return tuple(labels)
