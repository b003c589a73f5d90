"""Records as lines of text (RFC 1035, section 5.1; RFC 3597, section 5), and addresses (RFC 4291, RFC 5952)."""
import ipaddress

from messages import Fault, names_around, number, rdata_at, strings_in, written_name
from names import printed_byte, printed_name

KINDS = {1: "A", 2: "NS", 5: "CNAME", 6: "SOA", 12: "PTR", 13: "HINFO", 15: "MX", 16: "TXT", 28: "AAAA", 33: "SRV",
         41: "OPT", 255: "ANY"}
CLASSES = {1: "IN", 3: "CH", 255: "ANY"}


def kind_text(kind):
    return KINDS.get(kind, f"TYPE{kind}")


def class_text(cls):
    return CLASSES.get(cls, f"CLASS{cls}")


def address_text(address):
    """RFC 5952; a mapped address ends in its IPv4 address."""
    if address.version == 6 and address.ipv4_mapped is not None:
        return f"::ffff:{address.ipv4_mapped}"
    return str(address)


def read_address(text):
    """Python's own reader, without the zones of its IPv6 addresses."""
    try:
        return ipaddress.ip_address(text.decode("ascii")) if b"%" not in text else None
    except ValueError:
        return None


def quoted(string):
    return '"' + "".join("\\" + chr(b) if b in b'"\\' else printed_byte(b, 0x20) for b in string) + '"'


def generic(rdata):
    return f"\\# {len(rdata)}" + (" " + rdata.hex() if rdata else "")


def plain_names(rdata, count):
    """So many names without pointers at the front of rdata, as texts, and the bytes behind them."""
    texts, at = [], 0
    for _ in range(count):
        labels = []
        while rdata[at]:
            labels.append(rdata[at + 1:at + 1 + rdata[at]])
            at += 1 + rdata[at]
        texts.append(printed_name(labels))
        at += 1
    return texts, rdata[at:]


def rdata_text(kind, cls, rdata):
    """The text of rdata that is held, with its names written out."""
    around = names_around(kind, cls)
    if around:
        texts, behind = plain_names(rdata[around[0]:], around[1])
        before = [str(number(rdata, at, 2)) for at in range(0, around[0], 2)]
        return " ".join(before + texts + [str(number(behind, at, 4)) for at in range(0, len(behind), 4)])
    if cls == 1 and kind in (1, 28):
        return address_text(ipaddress.ip_address(rdata))
    if kind in (13, 16):
        return " ".join(map(quoted, strings_in(rdata)))
    return generic(rdata)


def line_with(labels, kind, cls, ttl, text):
    words = [printed_name(labels), str(ttl), class_text(cls), kind_text(kind)]
    return " ".join(words + ([text] if text else [])) + "\n"


def line(record):
    labels, kind, cls, ttl, rdata = record
    if kind == 41:
        flags = f"size {cls} ext {ttl >> 24} version {ttl >> 16 & 255} do {ttl >> 15 & 1}"
        return f"{printed_name(labels)} OPT {flags} {generic(rdata)}\n"
    return line_with(labels, kind, cls, ttl, rdata_text(kind, cls, rdata))


def has_shape(kind, cls, rdata):
    """Whether held rdata has its type's shape: its names can be read, and none of them goes on at a pointer."""
    try:
        return rdata_at(rdata, 0, len(rdata), kind, cls) == rdata
    except Fault:
        return False


def told(data):
    """The line of a record of the root with a type, a class and rdata."""
    if len(data) < 4:
        return "!"
    kind, cls, rdata = number(data, 0, 2), number(data, 2, 2), data[4:]
    if kind == 41 or has_shape(kind, cls, rdata):
        return line(([], kind, cls, 0, rdata))
    return "!BadRdata" + line_with([], kind, cls, 0, generic(rdata))


def told_address(text):
    address = read_address(text)
    return address_text(address) if address else "!"
