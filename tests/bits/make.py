#!/usr/bin/env python3
"""Writes the cases of lerc_bits_cases, and what the program must write for them.

    python3 tests/bits/make.py            in the repository's root: writes crates/lerc_bits_cases/{stdin,stdout}

A record is its size (2 bytes), the start (1 byte) and the bytes. The reader below goes bit by bit and was written from
the rules alone; the same files come out each time. The first line is planted: it is of no record, but of an array in which an
entry was changed, and shows that the program would see an entry that is not kept.
"""
import random

random.seed(20)


class Refused(Exception):
    pass


class Reader:
    def __init__(self, data, at):
        self.data, self.at = data, at

    def number(self, size):
        if self.at + size > len(self.data):
            raise Refused(1)
        v = 0
        for i in range(size):
            v |= self.data[self.at + i] << (8 * i)
        self.at += size
        return v

    def bits(self, n, width):
        """Places of n numbers of `width` bits; the run ends on a byte and must fit."""
        first = self.at * 8
        bytes_ = 0
        while bytes_ * 8 < n * width:
            bytes_ += 1
        if self.at + bytes_ > len(self.data):
            raise Refused(1)
        self.at += bytes_
        return [first + k * width for k in range(n)]

    def value(self, bit, width):
        v = 0
        for i in range(width):
            if self.data[(bit + i) // 8] & (1 << ((bit + i) % 8)):
                v += 1 << i
        return v


def read(data, start):
    """The plan (or why not), then the counts (or why not)."""
    r = Reader(data, start)
    h = r.number(1)
    size = {0: 4, 1: 2, 2: 1}.get(h >> 6)
    if size is None:
        raise Refused(8)
    n = r.number(size)
    if n > 256:
        raise Refused(8)
    bits = h & 31
    if not h & 32:
        at = r.at
        places = r.bits(n, bits)
        return (n, bits, 0, at, at, bits, r.at), lambda: [r.value(p, bits) for p in places]
    if bits == 0:
        raise Refused(8)
    entries = r.number(1)
    if entries < 2:
        raise Refused(8)
    table = r.at
    stored = r.bits(entries - 1, bits)
    width = 0
    while 1 << width < entries:
        width += 1
    at = r.at
    places = r.bits(n, width)

    def values():
        out = []
        for p in places:
            i = r.value(p, width)
            if i >= entries:
                raise Refused(8)
            out.append(0 if i == 0 else r.value(stored[i - 1], bits))
        return out
    return (n, bits, entries, table, at, width, r.at), values


def said(data, start):
    try:
        plan, values = read(data, start)
    except Refused as e:
        return 'plan refused %d\nrefused %d kept 256\n' % (e.args[0], e.args[0])
    line = 'plan ' + ' '.join(str(x) for x in plan) + '\n'
    try:
        vs = values()
    except Refused as e:
        return line + 'refused %d kept 256\n' % e.args[0]
    return line + 'counts %d %d' % (len(vs), plan[-1]) + ''.join(' %d' % v for v in vs) + ' kept %d\n' % (256 - len(vs))


def pack(values, width):
    bits = [(v >> i) & 1 for v in values for i in range(width)]
    bits += [0] * (-len(bits) % 8)
    return bytes(sum(b << i for i, b in enumerate(bits[k:k + 8])) for k in range(0, len(bits), 8))


def head(form, n, size):
    return bytes([{4: 0, 2: 64, 1: 128}[size] + form]) + n.to_bytes(size, 'little')


def plain(n, width, size):
    return head(width, n, size) + pack([random.getrandbits(width) if width else 0 for _ in range(n)], width)


def tabled(n, width, entries, size, index_limit):
    w = 0
    while 1 << w < entries:
        w += 1
    table = [random.getrandbits(width) for _ in range(max(entries - 1, 0))]
    indices = [random.randrange(min(index_limit, 1 << w)) for _ in range(n)]
    return head(32 + width, n, size) + bytes([entries]) + pack(table, width) + pack(indices, w)


cases = [(bytes.fromhex(t), 0) for t in ('82 03 39', 'A4 03 03 95 18', 'A4 03 03 95 1C', 'C2 01 00', '40 00 01', '40 01 01')]


def add(data, start=0):
    cases.append((data, start))


for width in range(32):                                     # each width, with little and with more behind it
    add(plain(random.randrange(1, 40), width, 1))
    add(plain(random.randrange(1, 20), width, random.choice((1, 2, 4))) + bytes([0xA5]) * random.randrange(1, 12))
for size in (1, 2, 4):                                      # how many
    for n in (0, 1, 2, 255, 256, 257):
        if n < 1 << (8 * size):
            add(plain(n, 3, size))
            add(tabled(n, 3, 5, size, 5))
for width in (9, 20, 31):
    add(plain(256, width, 2))
add(head(1, 2 ** 32 - 1, 4) + bytes(8))
add(head(32, 2 ** 31, 4) + bytes(8))
for entries in (0, 1, 2, 3, 4, 5, 8, 9, 16, 17, 32, 33, 64, 65, 128, 129, 255):     # index widths, and their limit
    add(tabled(20, 4, entries, 1, max(entries, 1)))
    add(tabled(60, 7, entries, 1, max(entries, 1)))
    add(tabled(60, 2, entries, 1, 256))
    add(tabled(0, 5, entries, 2, 1))
for width in range(32):                                     # widths of a table's values
    add(tabled(9, width, 6, random.choice((1, 2, 4)), 6))
for sample in (plain(5, 5, 4), plain(3, 13, 1), tabled(7, 3, 6, 2, 6), tabled(4, 11, 3, 1, 4), tabled(3, 1, 2, 1, 2)):
    for k in range(len(sample)):                            # cut short at each place
        add(sample[:k])
for h in (0x20, 0x60, 0xA0, 0xE0, 0xC0, 0xFF):              # what is judged first
    for behind in (b'', b'\1', b'\1\0', b'\1\0\0\0', b'\1\0\0\0\1', b'\1\1\1', b'\xFF' * 6):
        add(bytes([h]) + behind)
for _ in range(40):                                         # elsewhere than at the front
    front = bytes(random.randrange(256) for _ in range(random.randrange(1, 30)))
    body = plain(random.randrange(12), random.randrange(32), 1) if random.random() < .5 else tabled(random.randrange(12), random.randrange(1, 32), random.randrange(2, 20), 1, 16)
    add(front + body + bytes(random.randrange(4)), len(front))
add(b'', 0)
add(b'\x82', 1)
add(b'\x82\1\1', 200)
for _ in range(100):                                        # anything
    data = bytes(random.randrange(256) for _ in range(random.randrange(1, 60)))
    add(bytes([data[0] & 0xBF | random.choice((0, 128))]) + bytes([random.randrange(20)]) + data[1:])

PLANTED = 'planted 4000000000 4000000000 kept 253\n'
records = b''.join(len(d).to_bytes(2, 'little') + bytes([s]) + d for d, s in cases)
assert len(records) < 65536
folder = 'crates/lerc_bits_cases/'
open(folder + 'stdin', 'wb').write(records)
open(folder + 'stdout', 'w').write(PLANTED + ''.join(said(d, s) for d, s in cases))
print(len(cases), 'cases,', len(records), 'bytes')
