#!/usr/bin/env python3
"""The hostile bytes, written by hand, each message with its first fault by hand from the grammar (RFC 1035, section 4.1).

    corpus.py cases      the cases as the program reads them: crates/hostile_bench/stdin
    corpus.py answers    what the model says of each: crates/hostile_bench/stdout
    corpus.py            whether the model has the faults that stand here
"""
import sys

sys.dont_write_bytecode = True  # the repository keeps no __pycache__

import model


def header(questions=0, answers=0, authorities=0, additionals=0, identifier=0x1234, flags=0x8180):
    return b"".join(n.to_bytes(2, "big") for n in (identifier, flags, questions, answers, authorities, additionals))


def record(owner, kind, rdata, cls=1, ttl=0, size=None):
    size = len(rdata) if size is None else size
    return owner + b"".join(n.to_bytes(w, "big") for n, w in ((kind, 2), (cls, 2), (ttl, 4), (size, 2))) + rdata


def label(size, letter=b"a"):
    return bytes([size]) + letter * size


ASK = b"\0\x01\0\x01"  # type A, class IN, behind a question's name
HERE = b"\xc0\x0c"  # a pointer to the question's name
NAME = b"\x07example\x03com\0"

# A reply with a record of each section and an OPT record with a cookie (RFC 7873). Its parts begin at
# 12, 29 (question), 33, 35, 45 (alias), 51, 53, 63 (address), 67, 69, 79 (server), 84, 86, 96 (its address), 112, 113, 123 (OPT).
REPLY = (header(1, 2, 1, 2) + b"\x03www" + NAME + ASK
         + record(HERE, 5, b"\x03web\xc0\x10", ttl=300)
         + record(b"\xc0\x2d", 1, b"\xc0\0\x02\x01", ttl=60)
         + record(b"\xc0\x10", 2, b"\x02ns\xc0\x10", ttl=3600)
         + record(b"\xc0\x4f", 28, bytes.fromhex("20010db8000000000000000000000001"), ttl=3600)
         + record(b"\0", 41, b"\0\x0a\0\x08\x24\x64\xc4\xab\xcf\x10\xc9\x57", cls=1232))
PARTS = (12, 29, 33, 35, 45, 51, 53, 63, 67, 69, 79, 84, 86, 96, 112, 113, 123)

# each length byte and pointer of a name in it, and what it is to spoil its top bits: the byte itself, or the rdata that it stands in
LENGTHS = ((12, "BadLabel(12)"), (16, "BadLabel(16)"), (24, "BadLabel(24)"), (28, "BadLabel(28)"), (33, "BadLabel(33)"),
           (45, "BadRdata(45)"), (49, "BadRdata(45)"), (51, "BadLabel(51)"), (67, "BadLabel(67)"), (79, "BadRdata(79)"),
           (82, "BadRdata(79)"), (84, "BadLabel(84)"), (112, "BadLabel(112)"))


def changed(data, at, *others):
    return data[:at] + bytes(others) + data[at + len(others):]


def asking(*questions, flags=0x8180):
    return header(len(questions), flags=flags) + b"".join(name + ASK for name in questions)


def answering(*records):
    """The question for example.com, whose name stands at 12, and the answers from 29 on; rdata of the first stands at 41."""
    return header(1, len(records)) + NAME + ASK + b"".join(records)


def adding(*records):
    """Additional records from 29 on."""
    return header(1, 0, 0, len(records)) + NAME + ASK + b"".join(records)


def opt(rdata, owner=b"\0", ttl=0):
    return record(owner, 41, rdata, cls=1232, ttl=ttl)


# a reply with a record of each type whose rdata has a shape, and one whose rdata hasn't
MIXED = (header(1, 11, 0, 1) + NAME + ASK + record(HERE, 5, b"\x03web" + HERE) + record(b"\xc0\x29", 1, b"\xc0\0\x02\x01")
         + record(b"\xc0\x29", 28, bytes.fromhex("20010db8000000000000000000000001")) + record(HERE, 2, b"\x02ns" + HERE)
         + record(HERE, 12, b"\xc0\x14") + record(HERE, 15, b"\0\x0a\x04mail" + HERE)
         + record(b"\x05_http\x04_tcp" + HERE, 33, b"\0\1\0\2\0\x50\x03www" + HERE) + record(HERE, 13, b"\x05INTEL\x05LINUX")
         + record(HERE, 6, b"\x02ns" + HERE + b"\x04root" + HERE + bytes(range(20))) + record(HERE, 16, b'\x03a"\\\x04 \x7f\0\xff')
         + record(b"\x03\0.\\" + HERE, 65280, b"\x0a\x0b", cls=32) + record(b"\0", 41, b"\0\x03\0\x02ns\0\x0a\0\0", cls=4096, ttl=0x01008000))

# what it is, the message, and its first fault
MESSAGES = [
    ("the reply", REPLY, None),
    ("a record of each type", MIXED, None),
    ("no such name, with the zone's SOA", header(1, 0, 1, flags=0x8183) + NAME + ASK + record(b"\xc0\x14", 6, b"\xc0\x14\x01h\xc0\x14" + bytes(20)), None),
    ("the name in capitals", header(1, 1) + NAME.upper() + ASK + record(HERE, 1, b"\1\2\3\4"), None),
    ("an address of another class, and none of the Internet's", header(1, 1) + NAME + ASK + record(HERE, 1, b"\1\2\3\4\5", cls=3), None),
    ("a query", header(1, flags=0x0100) + NAME + ASK, None),
    ("another name is asked", header(1, 1) + b"\x07example\x03net\0" + ASK + record(HERE, 1, b"\1\2\3\4"), None),
    # counts
    ("no question counted: the first answer's name is the question's, and an address has one byte", changed(REPLY, 5, 0), "BadRdata(39)"),
    ("a question too many: behind it comes the root, whose rdata has 25,280 bytes", changed(REPLY, 5, 2), "ShortPart(50)"),
    ("an answer too many", changed(REPLY, 7, 3), "ShortPart(135)"),
    ("an answer less", changed(REPLY, 7, 1), "TrailingBytes(112)"),
    ("an additional too many", changed(REPLY, 11, 3), "ShortPart(135)"),
    ("65,535 additionals", changed(REPLY, 10, 0xFF, 0xFF), "ShortPart(135)"),
    ("nothing counted", changed(REPLY, 4, 0, 0, 0, 0, 0, 0, 0, 0), "TrailingBytes(12)"),
    ("65,535 of each, and nothing behind", header(65535, 65535, 65535, 65535), "ShortPart(12)"),
    ("an answer, and nothing behind", header(0, 1), "ShortPart(12)"),
    ("a byte behind", REPLY + b"\0", "TrailingBytes(135)"),
    # lengths of rdata
    ("an alias' rdata a byte short", changed(REPLY, 43, 0, 5), "BadRdata(45)"),
    ("an alias' rdata a byte long", changed(REPLY, 43, 0, 7), "BadRdata(45)"),
    ("an alias' rdata of 65,535 bytes", changed(REPLY, 43, 0xFF, 0xFF), "ShortPart(45)"),
    ("an address of three bytes", changed(REPLY, 61, 0, 3), "BadRdata(63)"),
    ("an address of five bytes", changed(REPLY, 61, 0, 5), "BadRdata(63)"),
    ("a server's rdata without bytes", changed(REPLY, 77, 0, 0), "BadRdata(79)"),
    ("an IPv6 address of 17 bytes", changed(REPLY, 94, 0, 17), "BadRdata(96)"),
    ("the OPT record's rdata a byte short", changed(REPLY, 121, 0, 11), "TrailingBytes(134)"),
    ("the OPT record's rdata a byte long", changed(REPLY, 121, 0, 13), "ShortPart(123)"),
    # labels
    ("a label of 63 bytes that isn't whole", asking(label(63)[:63]), "ShortPart(12)"),
    ("a label of 63 bytes", asking(label(63) + b"\0"), None),
    ("a label of 64 bytes", asking(label(64) + b"\0"), "BadLabel(12)"),
    ("the length 128", asking(b"\x80a\0"), "BadLabel(12)"),
    ("the length 191", asking(b"\x01a\xbf\0"), "BadLabel(14)"),
    ("a label that takes the root's byte and ends the message", header(1) + b"\x01\0", "ShortPart(12)"),
    # names of 255 and 256 octets
    ("a name of 255 octets", asking(label(63) * 3 + label(61) + b"\0"), None),
    ("a name of 256 octets", asking(label(63) * 3 + label(62) + b"\0"), "LongName(12)"),
    ("255 octets by a pointer to a name of 253", asking(label(63) * 3 + label(59) + b"\0", b"\x01b" + HERE), None),
    ("256 octets by a pointer to a name of 254", asking(label(63) * 3 + label(60) + b"\0", b"\x01b" + HERE), "LongName(270)"),
    ("127 labels and the root", asking(b"\x01a" * 127 + b"\0"), None),
    ("128 labels", asking(b"\x01a" * 128 + b"\0"), "LongName(12)"),
    ("a label too many that isn't whole", asking(label(63) * 3)[:-4] + b"\x3fa", "ShortPart(12)"),
    # pointers
    ("a pointer forwards, to a root", asking(b"\xc0\x0e" + b"\0"), "BadPointer(12)"),
    ("a pointer behind the message", asking(b"\xff\xff"), "BadPointer(12)"),
    ("a pointer to itself", asking(b"\xc0\x0c"), "BadPointer(12)"),
    ("a pointer to its own run", asking(b"\x01a\xc0\x0c"), "BadPointer(14)"),
    ("a pointer into its own label", asking(b"\x01a\xc0\x0d"), "BadPointer(14)"),
    ("half a pointer", header(1) + b"\xc0", "ShortPart(12)"),
    ("a pointer to itself inside a label", asking(b"\x02\xc0\x0d\0", b"\xc0\x0d"), "BadPointer(13)"),
    ("two pointers inside a label, to one another", asking(b"\x04\xc0\x0f\xc0\x0d\0", b"\xc0\x0f"), "BadPointer(13)"),
    ("a pointer to a pointer to a name", asking(b"\x01a\0", HERE, b"\xc0\x13"), None),
    # pointers into the header, whose identifier is 0x1234
    ("a pointer to the identifier: a label of 18 bytes, behind which the pointer stands", asking(b"\x01a\0", b"\xc0\0"), "BadPointer(19)"),
    ("a pointer to the flags", asking(b"\xc0\x02"), "BadLabel(2)"),
    ("a pointer to the questions' number: its zero byte is the root", asking(b"\xc0\x04"), None),
    ("a pointer to the questions' low byte: a label of one zero byte", asking(b"\xc0\x05"), None),
    ("a name whose label is the pointer that it begins with: the additionals' low byte is its length",
     header(1, 0, 0, 1) + b"\xc0\x0b" + ASK + record(b"\0", 16, b""), None),
    # rdata that isn't what its type wants
    ("a server's rdata ends inside the name, and the next record goes on", answering(record(HERE, 2, b"\x03we"), record(HERE, 1, b"\1\2\3\4")), "BadRdata(41)"),
    ("a server's rdata ends inside the name, and so does the message", answering(record(HERE, 2, b"\x03we")), "BadRdata(41)"),
    ("a name without its root", answering(record(HERE, 12, b"\x03web")), "BadRdata(41)"),
    ("half a pointer in rdata", answering(record(HERE, 12, b"\x03web\xc0")), "BadRdata(41)"),
    ("a pointer to its own rdata", answering(record(HERE, 5, b"\xc0\x29")), "BadRdata(41)"),
    ("a name and then a pointer to it in one run", answering(record(HERE, 5, b"\x03web\xc0\x29")), "BadRdata(41)"),
    ("a name and a byte", answering(record(HERE, 5, b"\x03web\0\0")), "BadRdata(41)"),
    ("rdata whose name is the root by a pointer to the record's type", answering(record(HERE, 5, b"\xc0\x1f")), None),
    ("MX with half a preference", answering(record(HERE, 15, b"\0")), "BadRdata(41)"),
    ("MX without a name", answering(record(HERE, 15, b"\0\x0a")), "BadRdata(41)"),
    ("MX", answering(record(HERE, 15, b"\0\x0a" + HERE)), None),
    ("SOA whose second name is cut", answering(record(HERE, 6, HERE + b"\x04root")), "BadRdata(41)"),
    ("SOA with 19 bytes behind its names", answering(record(HERE, 6, HERE + HERE + bytes(19))), "BadRdata(41)"),
    ("SOA with 21 bytes behind its names", answering(record(HERE, 6, HERE + HERE + bytes(21))), "BadRdata(41)"),
    ("SOA", answering(record(HERE, 6, HERE + HERE + bytes(20))), None),
    ("SRV without a name", answering(record(HERE, 33, bytes(6))), "BadRdata(41)"),
    ("SRV of another class", answering(record(HERE, 33, bytes(6), cls=3)), None),
    ("a text that is a byte short", answering(record(HERE, 16, b"\x03ab")), "BadRdata(41)"),
    ("a text without a string", answering(record(HERE, 16, b"")), None),
    ("HINFO of one string", answering(record(HERE, 13, b"\x01a")), "BadRdata(41)"),
    ("HINFO of three strings", answering(record(HERE, 13, b"\x01a\x01b\0")), "BadRdata(41)"),
    ("an address without bytes", answering(record(HERE, 1, b"")), "BadRdata(41)"),
    ("an IPv6 address of four bytes", answering(record(HERE, 28, b"\1\2\3\4")), "BadRdata(41)"),
    ("names of 255 octets in rdata", answering(record(HERE, 2, label(63) * 3 + label(49) + HERE)), None),
    ("names of 256 octets in rdata", answering(record(HERE, 2, label(63) * 3 + label(50) + HERE)), "BadRdata(41)"),
    ("an unknown type", answering(record(HERE, 65280, b"\xc0\xff\x40")), None),
    ("an answer's name is cut behind its pointer", answering(HERE), "ShortPart(31)"),
    # OPT records
    ("OPT", adding(opt(b"")), None),
    ("OPT twice", adding(opt(b""), opt(b"")), None),
    ("OPT among the answers, too", header(0, 1, 0, 1) + opt(b"\0") + opt(b""), None),
    ("an option that overruns", adding(opt(b"\0\x0a\0\x08\1\2\3\4\5\6\7")), None),
    ("a second option that overruns", adding(opt(b"\0\x0a\0\x01\xff\0\x0b\0\x02a")), None),
    ("half an option's head", adding(opt(b"\0\x0a\0\x01\xff\0\x0b")), None),
    ("an option of 65,535 bytes", adding(opt(b"\0\x0a\xff\xff")), None),
    ("an option without bytes", adding(opt(b"\0\x0a\0\0")), None),
    ("OPT twice, and an option that overruns", adding(opt(b"\0"), opt(b"")), None),
    ("OPT with a name, version 1, DO and bits Z", adding(opt(b"", HERE, 0x0101FFFF)), None),
    ("OPT whose name is cut", header(0, 0, 0, 1) + b"\x01", "ShortPart(12)"),
]

NAMES = [b"", b".", b"..", b"a", b"a.", b"a..", b".a", b"a\\", b"a\\1", b"a\\12", b"a\\256", b"a\\255", b"\\a", b"\\.", b"a\\..b",
         b"a" * 63, b"a" * 64, b"a" * 62 + b"\\000", b"a" * 63 + b"\\000", b"a" * 63 + b"\\9", b"a" * 63 + b"\\",
         b".".join([b"a" * 63] * 3 + [b"a" * 61]), b".".join([b"a" * 63] * 3 + [b"a" * 62]), b".".join([b"a" * 63] * 4) + b".",
         b".".join([b"a" * 63] * 3 + [b"a" * 62, b"", b"b"]), b"a b", b"\xff\x00\n", b"\\\xff", b"www.example.com", b"a" * 63 + b"\\300"]
ADDRESSES = [b"", b"192.0.2.1", b"192.0.2.01", b"192.0.2.256", b"192.0.2", b"192.0.2.1.", b"0.0.0.0", b"255.255.255.255", b"::", b"::1",
             b":::", b"1::2::3", b"12345::", b"1:2:3:4:5:6:7:8", b"1:2:3:4:5:6:7::", b"::2:3:4:5:6:7:8", b"1:2:3:4::5:6:7:8",
             b"1:2:3:4:5:6:7:8:9", b"::ffff:192.0.2.1", b"::ffff:c000:201", b"::192.0.2.1", b"1:2:3:4:5:6:192.0.2.1",
             b"1:2:3:4:5:6:7:192.0.2.1", b"1.2.3.4::", b"fe80::1%eth0", b"2001:DB8:0:0:0:0:0:1", b"1:0:0:2:0:0:3:4", b"0:0:1::", b"00001::",
             b"1:2:3:4:5:6:7:", b":1:2:3:4:5:6:7", b"::g", b" ::1", b"\xd9\xa1.0.0.1", b"1.2.3.4/8", b"0x1.2.3.4", b"1.2.3.4:5", b"::1.2.3"]
RESOLVS = [b"", b"# made by systemd\nnameserver 127.0.0.53\noptions edns0 trust-ad\nsearch .\n", b"options ndots:99 timeout:0 attempts:77 rotate\n",
           b"search a.test\ndomain a..b\n", b"nameserver 192.0.2.1 # comment\r\nnameserver ::1;x\nnameserver\n Nameserver 192.0.2.2\n\tnameserver 2001:db8::1\n",
           b"nameserver 1.1.1.1\n" * 7 + b"nameserver 300.1.1.1\nnameserver 2.2.2.2\nnameserver 3.3.3.3", b"search a b c d e f g h i j\n",
           b"options ndots: ndots:x ndots:+1 ndots:007 timeout:61 attempts:0 attempts:00 use-vc\n", b"domain example.com other\nsearch",
           b"options timeout:18446744073709551617 ndots:2\noptions ndots:1x\n", b";nameserver 1.1.1.1\n#\n\0\nnameserver\0001.1.1.1\n", b"search " + b"a" * 64 + b" b\\300 c\\046d ..\n"]
HOSTS = [b"", b"127.0.0.1 localhost\n::1 ip6-localhost ip6-loopback localhost\n", b"127.0.1.1 box # this machine\n192.0.2.300 box\n192.0.2.1\n192.0.2.1 a..b\n",
         b"192.0.2.1 Box.Test box#x y\n192.0.2.2 box.test. ;no\n2001:db8::1\tbox.test\r\n", b"192.0.2.1 a a a\n192.0.2.1 a b\n", b"#\n \n\t\r\n192.0.2.9 \\097 x",
         b"::ffff:192.0.2.1 m\n1.2.3.4 " + b"x" * 63 + b" " + b"y" * 64 + b" .\n", b"\xff\xfe 1.2.3.4\n1.2.3.4 \xff\xfe\n"]
ZONES = [b"", b"# a zone\n\na.test. 60 A 192.0.2.1\n*.test. 0 CNAME a.test.\n", b"a.test. 60 A\n", b"a.test 2147483647 AAAA ::1", b"a.test 2147483648 A 1.1.1.1",
         b"a.test 060 A 1.1.1.1", b"a 0 MX 10 b\na 0 MX 65536 b\n", b"a 0 MX 10\n", b"a 0 TXT " + b"t" * 255 + b"\n", b"a 0 TXT " + b"t" * 256 + b"\n", b"a 0 a 1.1.1.1\n",
         b"a 0 A ::1\n", b"a 0 AAAA 1.1.1.1\n", b" \n", b"a 0 A 1.1.1.1\r\n", b"a 0 NS b c\n", b"a 0 SOA b\n", b"a..b 0 A 1.1.1.1\n", b"a\t0  NS\tb.\\000.\n. 1 PTR .\n", b"a -1 A 1.1.1.1\n"]
BOOK = (b"journal 1\noption 2000 3 1 0 00000010 0 0 1232\nserver 192.0.2.53 53\ndomain example.test.\nsource ::1\nhosts 3132372e302e302e3120610a\n"
        b"0 0 accept 1 q 782e6f6e696f6e 1 1 ( 7 1 1 rev ( 8 ) 2 0 cancel 0 3 ask a 61 0 1 ( 9 0 0 destroy ) )\n0 0 accept 2 r 2001:db8::1 ( 0 )\n"
        b"0 0 start 1 0 0 0 4660 - 0\n0 0 start 1 0 0 0 4660 21845 0\n0 0 arrive 0 0 -\n0 0 expire 1 0 2000\n0 0 fault 0 1 5\n"
        b"0 0 servers 1 192.0.2.54 53 2 ::1 5353\n0 0 servers\n0 0 take 1\n0 1 cancel\n0 0 destroy\nend\n")
SMALL = b"journal 1\noption 1 1 0 3600000 11111111 1 2 65535\nserver ::1 0\nhosts -\n"
RUNS = [b"", b"\n", BOOK, BOOK[:-4], BOOK[:-1], BOOK + b"x", BOOK + b"\n", b"journal 2\n", BOOK.replace(b"( 8 )", b"( 8 )  "), BOOK.replace(b" 4660 ", b" 65536 "),
        BOOK.replace(b"domain", b"source"), BOOK.replace(b"2001:db8::1", b"2001:DB8::1"), BOOK.replace(b"-\n0 0 expire", b"00\n0 0 expire"), BOOK.replace(b"3132", b"313"),
        BOOK.replace(b"server 192.0.2.53 53\n", b""), BOOK.replace(b"server 192.0.2.53 53\n", b"server 192.0.2.53 53\n" * 9), SMALL + b"end\n", SMALL.replace(b"1 1 0", b"0 1 0") + b"end\n",
        SMALL + b"18446744073709551615 0 cancel\nend\n", SMALL + b"18446744073709551616 0 cancel\nend\n", SMALL + b"0 0 accept 1 s - 65535 0 ( 0" + b" 0 0 cancel" * 8 + b" )\nend\n",
        SMALL + b"0 0 accept 1 s - 65535 0 ( 0" + b" 0 0 cancel" * 9 + b" )\nend\n", SMALL + b"0 0 accept 1 a - 2 1 ( 0 0 0 rev ( 0 0 0 rev ( 0 0 0 rev ( 0 ) ) ) )\nend\n",
        SMALL + b"0 0 accept 1 a - 2 1 ( 0 0 0 rev ( 0 0 0 rev ( 0 0 0 rev ( 0 0 0 rev ( 0 ) ) ) ) )\nend\n", SMALL + b"0 0 accept 1 a - 2 1 ( 0\nend\n", SMALL + b"0 0 servers 1 ::1\nend\n",
        SMALL.replace(b"hosts -", b"domain a\\.b.\\000.\nhosts -") + b"end\n", SMALL.replace(b"hosts -", b"domain a\nhosts -") + b"end\n", SMALL + b"end\nend\n"]
RDATA = [b"", b"\0\1\0", b"\0\1\0\1", bytes.fromhex("00010001c0000201"), bytes.fromhex("00010003c0000201"), bytes.fromhex("00020001c000"), bytes.fromhex("0002000100"), bytes.fromhex("0002000103777777"),
         bytes.fromhex("000600010000") + bytes(20), bytes.fromhex("000600010000") + bytes(19), bytes.fromhex("000d00010161"), bytes.fromhex("000d000101220162"), bytes.fromhex("000f0001000a00"), bytes.fromhex("00100001"),
         bytes.fromhex("0010000103225c7f00"), bytes.fromhex("001000010561"), bytes.fromhex("001c0001") + bytes(15), bytes.fromhex("001c0001") + bytes(10) + b"\xff\xff\1\2\3\4", bytes.fromhex("00210001000100020035") + b"\1a\0",
         bytes.fromhex("00290200") + b"\0\1", bytes.fromhex("ff00ffff0a0b"), bytes.fromhex("00020001") + label(63) * 3 + label(61) + b"\0", bytes.fromhex("00020001") + label(63) * 3 + label(62) + b"\0"]


def cases():
    """Each case: the word of its kind, and its bytes. Prefixes of the reply and its spoiled lengths are among them."""
    for _, data, _ in MESSAGES:
        yield "message", data
    for size in range(len(REPLY)):
        yield "message", REPLY[:size]
    for at, _ in LENGTHS:
        for byte in (0x40, 0x80, 0xBF, 0x3F, 0xC0, 0xFF):
            yield "message", changed(REPLY, at, byte)
    for kind, rows in (("rdata", RDATA), ("name", NAMES), ("address", ADDRESSES), ("resolv", RESOLVS), ("hosts", HOSTS), ("zone", ZONES), ("run", RUNS)):
        for data in rows:
            yield kind, data


def fault_of(data):
    text = model.told("message", data)
    return text[1:].split(" ")[0] if text.startswith("!") else None


def by_hand():
    """The faults that stand here, and those that follow by rule for prefixes and spoiled lengths, beside the model's."""
    for what, data, fault in MESSAGES:
        yield what, fault, fault_of(data)
    for size in range(len(REPLY)):
        begins = max((part for part in PARTS if part <= size), default=0)
        yield f"the first {size} bytes", f"ShortPart({begins})" if begins else "ShortHeader", fault_of(REPLY[:size])
    for at, fault in LENGTHS:
        for byte in (0x40, 0x80, 0xBF):
            yield f"{byte} at {at}", fault, fault_of(changed(REPLY, at, byte))


def main():
    if sys.argv[1:] == ["cases"]:
        for kind, data in cases():
            print(kind, data.hex())
    elif sys.argv[1:] == ["answers"]:
        for kind, data in cases():
            print(model.told(kind, data))
    else:
        rows = list(by_hand())
        wrong = [row for row in rows if row[1] != row[2]]
        for what, fault, found in wrong:
            print(f"{what}: by hand {fault}, the model {found}")
        print(f"{len(rows)} messages with their faults by hand, {len(wrong)} differ; {len(list(cases()))} cases")
        sys.exit(len(wrong) > 0)


if __name__ == "__main__":
    main()
