"""Names and questions, as dns_message defines them."""
from dataclasses import dataclass, replace


@dataclass(frozen=True)
class Question:
    name: tuple
    kind: int
    klass: int


# ---- dns_message/specs/Name.antt

def wire_length(labels):
    return 1 if not labels else len(labels[0]) + 1 + wire_length(labels[1:])


def to_ascii_lowercase(label):
    return bytes(byte + 32 if 65 <= byte <= 90 else byte for byte in label)


def to_ascii_uppercase_byte(byte):
    return byte - 32 if 97 <= byte <= 122 else byte


def same_name(labels, others):
    return [to_ascii_lowercase(label) for label in labels] == [to_ascii_lowercase(label) for label in others]


def last_is(label, name):
    if not name:
        return False
    if len(name) == 1:
        return to_ascii_lowercase(name[0]) == to_ascii_lowercase(label)
    return last_is(label, name[1:])


# ---- dns_message/specs/Question.antt

def same_question(question, other):
    return (same_name(question.name, other.name) and question.kind == other.kind
            and question.klass == other.klass)


# ---- dns_message/specs/Mixing.antt, over a bit of Numbers.antt

def has_bit(k, bits):
    return (bits // 2 ** k) % 2 == 1


def is_ascii_alphabetic(byte):
    return 65 <= byte <= 90 or 97 <= byte <= 122


def in_case(upper, letter):
    return to_ascii_uppercase_byte(letter) if upper else to_ascii_lowercase(bytes([letter]))[0]


def mixed_label(mix, k, label):
    out = bytearray()
    for byte in label:
        if is_ascii_alphabetic(byte):
            out.append(in_case(has_bit(k % 16, mix), byte))
            k = k + 1
        else:
            out.append(byte)
    return bytes(out)


def mixed_labels(mix, k, labels):
    if not labels:
        return ()
    count = sum(1 for byte in labels[0] if is_ascii_alphabetic(byte))
    return (mixed_label(mix, k, labels[0]),) + mixed_labels(mix, k + count, labels[1:])


def mixed_name(mix, labels):
    return mixed_labels(mix, 0, labels)


def mixed_question(mix, question):
    return replace(question, name=mixed_name(mix, question.name))


# ---- dns_message/specs/NameText.antt

def is_ascii_digit(byte):
    return 48 <= byte <= 57


def byte_of_digits(a, b, c):
    number = (a - 48) * 100 + (b - 48) * 10 + (c - 48)
    return number if is_ascii_digit(a) and is_ascii_digit(b) and is_ascii_digit(c) and number <= 255 else None


def numbered(a, text):
    if len(text) < 2:
        return None
    byte = byte_of_digits(a, text[0], text[1])
    return None if byte is None else (byte, text[2:])


def escaped(text):
    if not text:
        return None
    return numbered(text[0], text[1:]) if is_ascii_digit(text[0]) else (text[0], text[1:])


DOT = "dot"


def first_unit(c, text):
    if c == 46:
        return DOT, text
    if c == 92:
        found = escaped(text)
        return None if found is None else (found[0], found[1])
    return c, text


def units_of(text):
    units = []
    while text:
        found = first_unit(text[0], text[1:])
        if found is None:
            return None
        units.append(found[0])
        text = found[1]
    return units


def pieces(units):
    if not units:
        return [b""]
    behind = pieces(units[1:])
    return [b""] + behind if units[0] == DOT else [bytes([units[0]]) + behind[0]] + behind[1:]


def ended(found):
    if not found:
        return (), False
    if len(found) == 1:
        return (found[0],), False
    if len(found) == 2 and found[1] == b"":
        return (found[0],), True
    labels, dot = ended(found[1:])
    return (found[0],) + labels, dot


def is_label(label):
    return 1 <= len(label) and len(label) <= 63


def is_name(labels):
    return all(is_label(label) for label in labels) and wire_length(labels) <= 255


def named(found):
    return found if is_name(found[0]) else None


def name_text(text):
    if text == b".":
        return (), True
    units = units_of(text)
    return None if units is None else named(ended(pieces(units)))
