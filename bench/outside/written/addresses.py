"""Addresses and their order, as net_addr and dest_sorting define them."""
import ipaddress
from dataclasses import dataclass

from values import V4, V6, ANY, FOUR

# ---- net_addr/specs/Reading.antt. The grammar of the texts is the kit's; Python's own reader stands for it, but for
# zones, which it takes and the kit's grammar hasn't.


def address_of(text):
    try:
        word = text.decode("ascii")
        found = ipaddress.ip_address(word) if "%" not in word else None
    except (UnicodeDecodeError, ValueError):
        return None
    if found is None:
        return None
    return V4(int(found)) if found.version == 4 else V6(int(found))


def number_of(base, digits):
    number = 0
    for digit in digits:
        number = number * base + digit
    return number


# ---- net_addr/specs/Addr.antt, Reverse.antt

def octets(a):
    return [a // 2 ** 24, a // 2 ** 16 % 2 ** 8, a // 2 ** 8 % 2 ** 8, a % 2 ** 8]


def reverse_labels(address):
    if isinstance(address, V4):
        return tuple(b"%d" % octet for octet in reversed(octets(address.number))) + (b"in-addr", b"arpa")
    digits = [b"%x" % (address.number // 2 ** (4 * k) % 2 ** 4) for k in range(32)]
    return tuple(digits) + (b"ip6", b"arpa")


# ---- net_addr/specs/Mapped.antt

def mapped(address):
    return 0xffff * 2 ** 32 + address.number if isinstance(address, V4) else address.number


def is_mapped(address):
    return isinstance(address, V6) and address.number // 2 ** 32 == 0xffff


def allows(family, address):
    return family == ANY or (family == FOUR) == isinstance(address, V4)


# ---- net_addr/specs/Scope.antt

def has_prefix(width, a, group, bits):
    return a // 2 ** (width - bits) == group // 2 ** (16 - bits)


def scope_v4(a):
    return 2 if has_prefix(32, a, 0xa9fe, 16) or has_prefix(32, a, 0x7f00, 8) else 14


def scope_v6(a):
    if has_prefix(128, a, 0xff00, 8):
        return a // 2 ** 112 % 2 ** 4
    if has_prefix(128, a, 0xfe80, 10) or a == 1:
        return 2
    if has_prefix(128, a, 0xfec0, 10):
        return 5
    return scope_v4(a % 2 ** 32) if a // 2 ** 32 == 0xffff else 14


def scope(address):
    return scope_v4(address.number) if isinstance(address, V4) else scope_v6(address.number)


# ---- net_addr/specs/Prefix.antt

def agree(left, right, k):
    return left // 2 ** (128 - k) == right // 2 ** (128 - k)


def common_prefix(left, right):
    return sum(1 for k in range(1, 65) if agree(left, right, k))


# ---- dest_sorting/specs/Policy.antt

TABLE = [(1, 128, 50, 0), (0, 0, 40, 1), (0xffff * 2 ** 32, 96, 35, 4), (0x2002 * 2 ** 112, 16, 30, 2),
         (0x2001 * 2 ** 112, 32, 5, 5), (0xfc00 * 2 ** 112, 7, 3, 13), (0, 96, 1, 3), (0xfec0 * 2 ** 112, 10, 1, 11),
         (0x3ffe * 2 ** 112, 16, 1, 12)]


def policy_of(address):
    best = TABLE[1]
    for policy in TABLE:
        if agree(address, policy[0], policy[1]):
            best = policy if best[1] < policy[1] else best
    return best


def precedence(address):
    return policy_of(mapped(address))[2]


def label(address):
    return policy_of(mapped(address))[3]


# ---- dest_sorting/specs/Order.antt

def favoured(rules, x, y):
    if not rules:
        return False
    return rules[0](x, y) or (not rules[0](y, x) and favoured(rules[1:], x, y))


def same(a, b):
    return same_family(a, b) and a.number == b.number


def same_family(a, b):
    return isinstance(a, V4) == isinstance(b, V4)


def is_native(address):
    return not is_mapped(V6(mapped(address)))


def shared(left, right):
    return common_prefix(mapped(left), mapped(right))


def source_rules(dest):
    return [
        lambda s, t: same(s, dest) and not same(t, dest),
        lambda s, t: (scope(s) < scope(t) and scope(dest) <= scope(s))
        or (scope(t) < scope(s) and scope(t) < scope(dest)),
        lambda s, t: label(s) == label(dest) and not label(t) == label(dest),
        lambda s, t: is_native(dest) and is_native(s) and is_native(t) and shared(t, dest) < shared(s, dest)]


def source_before(dest, s, t):
    return favoured(source_rules(dest), s, t)


def is_chosen(dest, sources, s):
    return same_family(dest, s) and not any(same_family(dest, t) and source_before(dest, t, s) for t in sources)


def source_of(sources, dest):
    return next((s for s in sources if is_chosen(dest, sources, s)), None)


@dataclass(frozen=True)
class Served:
    address: object
    source: object


def has_scope(dest, source):
    return source is not None and scope(dest) == scope(source)


def has_label(dest, source):
    return source is not None and label(dest) == label(source)


def closeness(dest, source):
    return None if source is None or not is_native(dest) else shared(dest, source)


def exceeds(left, right):
    return left is not None and right is not None and right < left


DESTINATION_RULES = [
    lambda d, e: d.source is not None and not e.source is not None,
    lambda d, e: has_scope(d.address, d.source) and not has_scope(e.address, e.source),
    lambda d, e: has_label(d.address, d.source) and not has_label(e.address, e.source),
    lambda d, e: precedence(e.address) < precedence(d.address),
    lambda d, e: scope(d.address) < scope(e.address),
    lambda d, e: exceeds(closeness(d.address, d.source), closeness(e.address, e.source))]


def destination_before(sources, d, e):
    return favoured(DESTINATION_RULES, Served(d, source_of(sources, d)), Served(e, source_of(sources, e)))


# ---- channel_model/specs/Merge.antt, its order of addresses

def sorted_in(sources, address, others):
    if not others:
        return (address,)
    if destination_before(sources, others[0], address):
        return (others[0],) + sorted_in(sources, address, others[1:])
    return (address,) + others


def sorted_by(sources, addresses):
    return sorted_in(sources, addresses[0], sorted_by(sources, addresses[1:])) if addresses else ()
