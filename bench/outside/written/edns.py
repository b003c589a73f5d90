"""The OPT record and what a reply says, as edns_opt and channel_model define them."""
from dataclasses import dataclass, replace

from .message import KIND_OPT, Message, Record, big_bytes, big_from, message_read
from .std import err, ok, then


@dataclass(frozen=True)
class Opt:
    size: int
    ext_rcode: int
    version: int
    do_bit: bool
    options: tuple


@dataclass(frozen=True)
class Reply:
    message: Message
    opt: object


# ---- edns_opt/specs/Opt.antt, Options.antt

def opt_records(message):
    return [rr for rr in message.additionals if rr.kind == KIND_OPT]


def ttl_of(ext_rcode, version, do_bit, z):
    return ext_rcode * 2 ** 24 + version * 2 ** 16 + (2 ** 15 if do_bit else 0) + z


def option_spelling(item):
    return big_bytes(2, item[0]) + big_bytes(2, len(item[1])) + item[1]


def opt_record(opt):
    spelling = b"".join(map(option_spelling, opt.options))
    return Record((), KIND_OPT, opt.size, ttl_of(opt.ext_rcode, opt.version, opt.do_bit, 0), spelling)


def message_with(message, opt):
    return replace(message, additionals=message.additionals + (opt_record(opt),))


def rcode_of(message, opt):
    return message.flags % 16 if opt is None else opt.ext_rcode * 16 + message.flags % 16


# ---- edns_opt/specs/Reading.antt

def first_option(data):
    if len(data) < 4:
        return None
    code, length, data = big_from(0, 2, data), big_from(2, 2, data), data[4:]
    return None if len(data) < length else ((code, data[:length]), data[length:])


def options_in(data):
    items, offset = [], 0
    while data:
        found = first_option(data)
        if found is None:
            return err(offset)
        items.append(found[0])
        offset += len(option_spelling(found[0]))
        data = found[1]
    return ok(tuple(items))


def opt_with(klass, ttl, items):
    return Opt(klass, ttl // 2 ** 24, ttl // 2 ** 16 % 2 ** 8, ttl // 2 ** 15 % 2 == 1, items)


def said_by(rr):
    return then(options_in(rr.rdata), lambda items: ok(opt_with(rr.klass, rr.ttl, items)))


def opt_of(message):
    rrs = opt_records(message)
    if not rrs:
        return ok(None)
    return said_by(rrs[0]) if len(rrs) == 1 else err("DoubleOpt")


# ---- channel_model/specs/Replies.antt

READ = {}


def read_reply(data):
    if data not in READ:
        READ[data] = reply_of(message_read(data))
    return READ[data]


def reply_of(read):
    return reply_with(read[1], opt_of(read[1])) if read[0] == "ok" else None


def reply_with(message, opt):
    return Reply(message, opt[1]) if opt[0] == "ok" else None
