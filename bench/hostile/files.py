"""resolv.conf (resolv.conf(5)), the hosts file (hosts(5)) and a zone's file, read by this project's rules."""
import re

from names import Fault, fault_text, lowered, name_or_none, printed_name
from messages import written_name
from records import address_text, line, read_address


def words_of(line):
    return [word for word in re.split(rb"[ \t\r]", line) if word]


def words_before_comment(line):
    words = words_of(line)
    first = next((i for i, word in enumerate(words) if word[:1] in (b"#", b";")), len(words))
    return words[:first]


def option_number(word, key, most):
    digits = word[len(key):]
    return min(int(digits), most) if word.startswith(key) and re.fullmatch(rb"[0-9]+", digits) else None


def told_resolv(text):
    if len(text) > 65536:
        return "!TooLarge"
    servers, domains, ndots, timeout, tries, usevc, rotate = [], [], 1, 2000, 3, False, False
    for row in text.split(b"\n"):
        first, *words = words_before_comment(row) or [b""]
        if first == b"nameserver" and words and read_address(words[0]):
            servers.append(read_address(words[0]))
        elif first == b"search":
            domains = [name for name in map(name_or_none, words) if name is not None][:8]
        elif first == b"domain":
            domains = [name for name in map(name_or_none, words[:1]) if name is not None]
        elif first == b"options":
            for word in words:
                number = option_number(word, b"ndots:", 15)
                ndots = ndots if number is None else number
                timeout = 1000 * (option_number(word, b"timeout:", 60) or 0) or timeout
                tries = option_number(word, b"attempts:", 10) or tries
                usevc, rotate = usevc or word == b"use-vc", rotate or word == b"rotate"
    lines = ["journal 1", f"option {timeout} {tries} {ndots} 0 {int(usevc)}0000010 {int(rotate)} 0 1232"]
    lines += [f"server {address_text(server)} 53" for server in servers[:8]] or ["server 127.0.0.1 53"]
    lines += [f"domain {printed_name(domain)}" for domain in domains]
    return "\n".join(lines + ["hosts -", "end", ""])


def told_hosts(text):
    """For each word of the text that is a name its addresses, and its canonical name."""
    if len(text) > 4194304:
        return "!TooLarge"
    hosts = []
    for row in text.split(b"\n"):
        first, *others = words_before_comment(row.split(b"#")[0]) or [b""]
        names = [name for name in map(name_or_none, others) if name is not None]
        if read_address(first) and names:
            hosts.append((address_text(read_address(first)), names))
    out = ""
    for row in text.split(b"\n"):
        for name in map(name_or_none, words_of(row)):
            if name is not None:
                found = [host for host in hosts if lowered(name) in map(lowered, host[1])]
                out += printed_name(name) + "".join(f" {address}" for address, _ in found)
                out += (f" is {printed_name(found[0][1][0])}" if found else "") + "\n"
    return out


ZONE_KINDS = {b"A": 1, b"NS": 2, b"CNAME": 5, b"PTR": 12, b"MX": 15, b"TXT": 16, b"AAAA": 28}


def zone_number(word, most):
    return int(word) if re.fullmatch(rb"0|[1-9][0-9]*", word) and int(word) <= most else None


def zone_rdata(kind, words):
    if kind == 15:
        if len(words) != 2 or zone_number(words[0], 65535) is None:
            return None
        name = name_or_none(words[1])
        return None if name is None else zone_number(words[0], 65535).to_bytes(2, "big") + written_name(name)
    if len(words) != 1:
        return None
    if kind in (1, 28):
        address = read_address(words[0])
        return address.packed if address and address.version == (4 if kind == 1 else 6) else None
    if kind == 16:
        return bytes([len(words[0])]) + words[0] if len(words[0]) <= 255 else None
    name = name_or_none(words[0])
    return None if name is None else written_name(name)


def zone_record(row):
    words = [word for word in re.split(rb"[ \t]", row) if word]
    if len(words) < 3:
        return None
    name, ttl, kind = name_or_none(words[0]), zone_number(words[1], 2147483647), ZONE_KINDS.get(words[2])
    if name is None or ttl is None or kind is None:
        return None
    rdata = zone_rdata(kind, words[3:])
    return None if rdata is None else (name, kind, 1, ttl, rdata)


def told_zone(text):
    if len(text) > 1048576:
        return "!TooLarge"
    out = ""
    for number, row in enumerate(text.split(b"\n"), 1):
        if row and row[:1] != b"#":
            record = zone_record(row)
            if record is None:
                return fault_text(Fault("BadLine", number))
            out += line(record)
    return out
