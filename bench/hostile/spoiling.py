"""The changes that the program makes of cases (crates/hostile_bench/src/spoiling.rt), made again from the same seed."""

EDGES = b"\x00\x01\x02\x04\x0b\x0c\x10\x29\x3f\x40\x7f\x80\xbf\xc0\xc1\xff.\\ \t\n#:-"
BITS = (1 << 64) - 1


class Words:
    """SplitMix64 (Steele, Lea and Flood, 2014)."""

    def __init__(self, seed):
        self.state = seed

    def next(self):
        self.state = (self.state + 0x9E3779B97F4A7C15) & BITS
        word = self.state
        word = (word ^ word >> 30) * 0xBF58476D1CE4E5B9 & BITS
        word = (word ^ word >> 27) * 0x94D049BB133111EB & BITS
        return word ^ word >> 31

    def below(self, most):
        return self.next() % max(most, 1)


def piece(words, data, most):
    begin = words.below(len(data))
    return data[begin:begin + words.below(most)]


def changed(words, data, other):
    at, way = words.below(len(data)), words.below(8)
    size = 1
    if way == 0:
        others = bytes([words.below(256)])
    elif way <= 2:
        others = piece(words, EDGES, 2)
    elif way == 3:
        size, others = 2, piece(words, EDGES, 3)
    elif way == 4:
        others = piece(words, other, 24)
        size = len(others)
    elif way == 5:
        size, others = 0, piece(words, other, 24)
    elif way == 6:
        size, others = words.below(24), b""
    else:
        size, others = len(data), b""
    return data[:at] + others + data[at + size:]


def spoiled(seed, times, cases):
    """So many cases, each with one to four changes."""
    words = Words(seed)
    for _ in range(times):
        kind, data = cases[words.below(len(cases))]
        other = cases[words.below(len(cases))][1]
        for _ in range(words.below(4) + 1):
            data = changed(words, data, other)
        yield kind, data


def summed(texts):
    """FNV-1a of 64 bits over all texts."""
    total = 0
    for text in texts:
        for byte in text.encode():
            total = (total ^ byte) * 0x100000001B3 & BITS
    return total
