"""Addresses: their texts, their reverse names, and their order by RFC 6724, sections 2.1, 3, 5 and 6."""
import ipaddress
import re

from values import V4, V6, ANY, FOUR, SIX

POLICY = [  # prefix, bits, precedence, label
    (1, 128, 50, 0), (0, 0, 40, 1), (0xffff << 32, 96, 35, 4), (0x2002 << 112, 16, 30, 2),
    (0x2001 << 112, 32, 5, 5), (0xfc00 << 112, 7, 3, 13), (0, 96, 1, 3), (0xfec0 << 112, 10, 1, 11),
    (0x3ffe << 112, 16, 1, 12)]


def read(text):
    """The address that a text is, or None. Zones aren't read."""
    try:
        word = text.decode("ascii")
    except UnicodeDecodeError:
        return None
    if re.fullmatch(r"(0|[1-9][0-9]{0,2})(\.(0|[1-9][0-9]{0,2})){3}", word):
        parts = [int(part) for part in word.split(".")]
        return V4(int.from_bytes(bytes(parts), "big")) if max(parts) < 256 else None
    if re.fullmatch(r"[0-9A-Fa-f:.]+", word) and ":" in word:
        try:
            return V6(int(ipaddress.IPv6Address(word)))
        except ValueError:
            return None
    return None


def reverse_name(address):
    if isinstance(address, V4):
        parts = [str(byte).encode() for byte in address.number.to_bytes(4, "big")]
        return tuple(reversed(parts)) + (b"in-addr", b"arpa")
    digits = "%032x" % address.number
    return tuple(digit.encode() for digit in reversed(digits)) + (b"ip6", b"arpa")


def allows(family, address):
    return family == ANY or family == (FOUR if isinstance(address, V4) else SIX)


def as_mapped(address):
    return address.number | 0xffff << 32 if isinstance(address, V4) else address.number


def is_old(address):
    """An IPv4 address, or one inside IPv6."""
    return as_mapped(address) >> 32 == 0xffff


def policy(address):
    number = as_mapped(address)
    rows = [row for row in POLICY if number >> (128 - row[1]) == row[0] >> (128 - row[1])]
    return max(rows, key=lambda row: row[1])[2:]


def scope(address):
    number = as_mapped(address)
    if number >> 32 == 0xffff:
        low = number & 0xffffffff
        return 2 if low >> 16 == 0xa9fe or low >> 24 == 127 else 14
    if number >> 120 == 0xff:
        return number >> 112 & 15
    if number >> 118 == 0xfe80 >> 6 or number == 1:
        return 2
    return 5 if number >> 118 == 0xfec0 >> 6 else 14


def prefix(left, right):
    differ = as_mapped(left) ^ as_mapped(right)
    return min(64, 128 - differ.bit_length())


def decide(*tests):
    """The sign of the first test that decides: 1 where the left is before, -1 where the right is."""
    return next((sign for sign in tests if sign), 0)


def sign(left, right):
    return (left > right) - (left < right)


def source_before(dest, s, t):
    def by_scope():
        a, b, d = scope(s), scope(t), scope(dest)
        if a == b:
            return 0
        small, great = (1, -1) if a < b else (-1, 1)
        return great if min(a, b) < d else small
    native = not any(map(is_old, (s, t, dest)))
    return decide(
        sign(s == dest, t == dest), by_scope(),
        sign(policy(s)[1] == policy(dest)[1], policy(t)[1] == policy(dest)[1]),
        sign(prefix(s, dest), prefix(t, dest)) if native else 0) > 0


def source_for(dest, sources):
    kin = [source for source in sources if type(source) is type(dest)]
    return next((s for s in kin if not any(source_before(dest, t, s) for t in kin)), None)


def before(sources, d, e):
    s, t = source_for(d, sources), source_for(e, sources)

    def fits(test, dest, source):
        return source is not None and test(dest) == test(source)

    def label(address):
        return policy(address)[1]
    near = s is not None and t is not None and not is_old(d) and not is_old(e)
    return decide(
        sign(s is not None, t is not None), sign(fits(scope, d, s), fits(scope, e, t)),
        sign(fits(label, d, s), fits(label, e, t)), sign(policy(d)[0], policy(e)[0]),
        sign(scope(e), scope(d)), sign(prefix(d, s), prefix(e, t)) if near else 0) > 0


def ordered(addresses, sources):
    """Stable: each next one is the first that no other left is before."""
    left, out = list(addresses), []
    while left:
        first = next(i for i, d in enumerate(left) if not any(before(sources, e, d) for e in left))
        out.append(left.pop(first))
    return tuple(out)
