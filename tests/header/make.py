#!/usr/bin/env python3
"""Writes the cases of lerc_header_cases, and what the program must write for them.

    python3 tests/header/make.py            in the repository's root: writes crates/lerc_header_cases/{stdin,stdout}

Written from the rules alone, over whole numbers; the header's own are in rules.py. A record is its size (4 bytes), another length (4 bytes)
and a blob. Its line says what the header reader answers, then what follows from the fields by value beside a slice of
the other length, then the ranges read with these fields.
"""
import os
import struct
import sys

ROOT = os.path.join(os.path.dirname(os.path.abspath(__file__)), '../..')
sys.path[:0] = [os.path.join(ROOT, 'tools'), os.path.join(ROOT, 'tests/checksum')]
from checksum import by_the_words, checksum, sealed, stored, summed_part, with_field  # noqa: E402
from rows import IN_BLOCK, ROWS  # noqa: E402
from rules import NAMES, SIGN, Refused, fields, finite, held, order, read_header, require  # noqa: E402

if sys.argv[1:]:
    print('make.py: no word is known; usage: python3 tests/header/make.py', file=sys.stderr)
    sys.exit(2)

INF, NAN = 2047 << 52, (2047 << 52) + 1
LARGEST = INF - 1
SIZES = [1, 1, 2, 2, 4, 4, 4, 8]
TOP = 0xFFFFFFFF


def same(a, b):
    return a == b or (a % SIGN == 0 and b % SIGN == 0)


def whole(n):
    """the binary64 of a whole number of at most 53 digits"""
    if n == 0:
        return 0
    digits = abs(n).bit_length()
    return (SIGN if n < 0 else 0) + (1022 + digits << 52) + (abs(n) << 53 - digits) - (1 << 52)


def widened(v):
    """the binary64 of a binary32; what is not finite stays so"""
    sign, field, rest = v >> 31 << 63, v >> 23 & 255, v & (1 << 23) - 1
    if field == 255:
        return sign + INF + (rest << 29)
    if field == 0:
        if rest == 0:
            return sign
        digits = rest.bit_length()
        return sign + (1023 - 149 + digits - 1 << 52) + (rest << 53 - digits) - (1 << 52)
    return sign + (field - 127 + 1023 << 52) + (rest << 29)


def number(word, kind):
    if kind == 7:
        return word
    if kind == 6:
        return widened(word)
    width = 8 * SIZES[kind]
    if kind % 2 == 0 and word >> width - 1:
        word -= 1 << width
    return whole(word)


def read_ranges(blob, h):
    held(h, len(blob))
    at, depth, size = 70 + h['mask'], h['depth'], SIZES[h['kind']]
    low, high = [h['min']] * 64, [h['max']] * 64
    constant = True
    if not same(h['min'], h['max']):
        end = at + 2 * depth * size
        require(end <= h['size'], 1)
        words = [int.from_bytes(blob[k:k + size], 'little') for k in range(at, end, size)]
        low[:depth] = [number(w, h['kind']) for w in words[:depth]]
        high[:depth] = [number(w, h['kind']) for w in words[depth:]]
        pairs = list(zip(low, high))[:depth]
        require(all(finite(a) and finite(b) and order(b) >= order(a) for a, b in pairs), 7)
        constant = all(same(a, b) for a, b in pairs)
        at = end
    shown = [('first', 0), ('middle', depth // 2), ('top', depth - 1), ('last', 63)]
    shown = [(name, k) for name, k in shown if k < 64]
    return [('at', at), ('constant', int(constant))] + [(name, f'{low[k]} {high[k]}') for name, k in shown]


def said(reader, *given, refused=''):
    try:
        return ' '.join(f'{name} {v}' for name, v in reader(*given))
    except Refused as why:
        return f'refused {why}{refused}'


RECORDS, LINES = [], []


def blob_of(h, rest=b'', key=b'Lerc2 ', version=4):
    """with a true checksum, where there are as many bytes as the size says"""
    return sealed(key + struct.pack('<2I', version, 0xC0FFEE) + struct.pack('<7I3QI', *(h[n] for n in NAMES)) + rest)


def record(blob, other=None):
    other = len(blob) if other is None else other
    RECORDS.append(struct.pack('<2I', len(blob), other) + blob)
    h = fields(blob)
    LINES.append(f'{said(read_header, blob)} held {said(held, h, other)} '
                 f'ranges {said(read_ranges, blob, h, refused=" at 0 constant 0")}')


def header(**changes):
    """two rows of three pixels, constant, nothing after the header"""
    h = dict(rows=2, columns=3, depth=1, valid=6, side=8, size=70, kind=1, error=0, min=whole(10), max=whole(10), mask=0)
    h.update(changes)
    return h


def case(other=None, rest=b'', key=b'Lerc2 ', version=4, **changes):
    record(blob_of(header(**changes), rest, key, version), other)


# every word of four bytes at its rule and its ceiling, and past them
for name in ['rows', 'columns']:
    for v in [0, 1, 2, 4095, 4096, 4097, 65536, 1 << 31, TOP]:
        case(**{name: v, 'valid': 0})
for v in [0, 1, 2, 63, 64, 65, 256, TOP]:
    case(depth=v)
for v in [0, 1, 2, 3, 8, 15, 16, 17, 256, TOP]:
    case(side=v)
for v in [0, 1, 5, 6, 7, 8, 1 << 31, TOP]:
    case(valid=v)
for v in [0, 1, 2, 3, 4, 5, 6, 7, 8, 9, 256, TOP]:
    case(kind=v)
for rows, columns, valid in [(1, 1, 1), (1, 1, 2), (4096, 1, 4096), (4096, 1, 4097), (1, 4096, 4097), (4096, 1024, 4194304),
                             (4096, 1024, 4194305), (17, 33, 561), (17, 33, 562), (65536, 65536, 3),
                             (65536, 65536, TOP), (65536, 65535, TOP), (65535, 65535, TOP), (TOP, TOP, TOP), (TOP, TOP, 0),
                             (TOP, 1, TOP), (1, TOP, TOP), (TOP, 0, 0), (0, TOP, 1)]:
    case(rows=rows, columns=columns, valid=valid)

# cells
for rows, columns, depth in [(4096, 1024, 1), (1024, 4096, 1), (4096, 1025, 1), (1025, 4096, 1), (1985, 2113, 1), (397, 2113, 5),
                             (4096, 4096, 1), (2048, 2048, 1), (2049, 2048, 1), (4096, 512, 2), (4096, 513, 2), (4096, 16, 64),
                             (4096, 17, 64), (4095, 16, 64), (256, 256, 64), (256, 257, 64), (1024, 1024, 4), (1024, 1024, 5),
                             (1, 1, 64), (4096, 4096, 64), (65536, 65536, 65536), (1 << 31, 2, 1 << 31), (TOP, TOP, TOP)]:
    case(rows=rows, columns=columns, depth=depth, valid=0)

# blocks of tiles cut at the edges, mask lengths
for rows, columns, depth, side in [(16, 16, 1, 16), (17, 16, 2, 16), (16, 17, 3, 16), (17, 17, 64, 16), (15, 31, 1, 8), (4096, 16, 1, 1),
                                   (4096, 1024, 1, 1), (4096, 1024, 1, 16), (7, 1, 1, 8), (8, 1, 1, 8), (9, 1, 1, 8), (5, 5, 5, 3)]:
    case(rows=rows, columns=columns, depth=depth, side=side, valid=1)

# size, mask bytes, and the length of the slice
for size, other in [(0, 0), (69, 69), (69, 200), (70, 70), (70, 69), (71, 71), (71, 70), (16777215, 16777215), (16777216, 16777216),
                    (16777216, 16777215), (16777217, 16777217), (16777217, 70), (1 << 31, TOP), (TOP, TOP), (TOP, 0)]:
    case(size=size, other=other)
for size, mask in [(70, 0), (69, 0), (70, 1), (71, 1), (72, 1), (81, 12), (82, 12), (83, 12), (16777216, 16777146), (16777216, 16777147),
                   (16777217, 16777147), (16777217, 16777148), (TOP, TOP - 70), (TOP, TOP - 69), (TOP - 1, TOP - 70), (TOP, TOP),
                   (69, TOP), (70, TOP), (0, TOP - 69), (1, TOP - 69)]:
    case(size=size, mask=mask, other=TOP)
for extra in [0, 11, 12, 13, 14]:
    case(size=82, mask=12, rest=bytes(extra))
    case(size=82, mask=12, valid=0, min=0, max=whole(1), rest=bytes(extra), other=82)
for length in [0, 1, 6, 10, 14, 66, 69, 70, 71]:
    record(blob_of(header(size=71), b'\7')[:length])
for extra in range(4):
    case(size=72, rest=b'\xFF' * extra, other=70 + extra)

# key and version
for k in range(6):
    key = bytearray(b'Lerc2 ')
    key[k] ^= 32 if k < 4 else 1
    case(key=bytes(key))
for key in [b'CntZIm', b'Lerc1 ', b'Lerc2\0', bytes(6), b'\xFF' * 6]:
    case(key=key)
for version in [0, 1, 2, 3, 5, 6, 260, 0x04000000, 0x10004, TOP]:
    case(version=version)

# the error
HALF, ONE = 1022 << 52, 1023 << 52
for error in [0, 1, (1 << 52) - 1, 1 << 52, HALF, ONE, (2046 << 52) - 1, 2046 << 52, (2046 << 52) + 1, LARGEST, INF, NAN, INF + (1 << 51),
              SIGN - 1, SIGN, SIGN + 1, SIGN + HALF, SIGN + (2046 << 52), SIGN + INF, SIGN + NAN, 2 * SIGN - 1]:
    case(error=error)

# minimum and maximum of the header
EDGES = [SIGN + INF, SIGN + LARGEST, SIGN + ONE + 1, SIGN + ONE, SIGN + 1, SIGN, 0, 1, HALF, ONE, ONE + 1, LARGEST, INF]
for k, low in enumerate(EDGES):
    for high in EDGES[max(k - 1, 0):k + 2]:
        case(min=low, max=high)
for low, high in [(NAN, NAN), (NAN, ONE), (ONE, NAN), (SIGN + NAN, ONE), (0, 2 * SIGN - 1), (SIGN + INF, INF), (INF, SIGN + INF), (0, INF),
                  (SIGN + INF, 0), (SIGN + LARGEST, LARGEST), (LARGEST, SIGN + LARGEST), (ONE, SIGN + ONE), (SIGN + ONE, ONE),
                  (whole(-1), whole(-2)), (whole(-2), whole(-1)), (whole(255), whole(256)), (whole(256), whole(255))]:
    case(min=low, max=high)

# two breaches at once: 1 for a slice under 70, then 2, 3, 4 and 1 for a slice under the size
FOUR = [dict(rows=4097), dict(columns=4097), dict(depth=65), dict(side=17), dict(size=16777217), dict(rows=4096, columns=1025)]
THREE = [dict(rows=0, valid=0), dict(columns=0, valid=0), dict(depth=0), dict(side=0), dict(kind=8), dict(error=SIGN), dict(min=NAN),
         dict(min=ONE, max=0), dict(mask=TOP)]
for three in THREE:
    case(**three, key=b'Lerc3 ')
    case(**{**FOUR[4], **three})
for four in FOUR:
    case(**{**four, **THREE[4]})
    case(**four, version=5)
    case(**{'size': 71, **four})
case(size=71, kind=8)
record(blob_of(header(kind=8), key=b'Lerc3 ')[:69])
record(blob_of(header(size=71), version=3))
record(blob_of(header(rows=4097))[:69], TOP)


# ranges: a blob of the minima and maxima as words of the kind
def ranges(kind, low, high, extra=b'', cut=0, mask=0, tail=b'', **changes):
    size = SIZES[kind]
    words = b''.join((v % (1 << 8 * size)).to_bytes(size, 'little') for v in low + high)
    rest = b'\xEE' * mask + words + extra
    rest = rest[:len(rest) - cut] if cut else rest
    given = dict(kind=kind, depth=len(low), mask=mask, min=whole(-9), max=whole(300), size=70 + len(rest))
    case(**{**given, **changes}, rest=rest + tail)


LEAST = [-128, 0, -32768, 0, -(1 << 31), 0, 0xFF7FFFFF, SIGN + LARGEST]
MOST = [127, 255, 32767, 65535, (1 << 31) - 1, TOP, 0x7F7FFFFF, LARGEST]
F32 = [0, 0x80000000, 1, 0x80000001, 2, 3, 0x400000, 0x7FFFFF, 0x800000, 0x3F800000, 0x3F800001, 0xBF800000, 0x42F6E979, 0x7F7FFFFF]
INF32, NAN32 = 0x7F800000, 0x7FC00000

for depth in range(1, 65):
    ranges(depth % 6, list(range(depth)), list(range(63, 63 + depth)))
for kind in range(8):
    ranges(kind, [3, 5, 7, 9, 11], [13, 16, 19, 22, 25], mask=2)
    ranges(kind, [LEAST[kind]], [MOST[kind]])
    ranges(kind, [MOST[kind]], [LEAST[kind]])
    ranges(kind, [MOST[kind], LEAST[kind]], [MOST[kind], LEAST[kind]])
    ranges(kind, [1, 2, 3], [1, 2, 4])
    ranges(kind, [1, 5, 3], [1, 2, 4])
    ranges(kind, [1, 2, 3], [1, 2, 3], extra=b'\1\2')
    # not all fit: by the size, though the slice goes on, and before a number is judged
    ranges(kind, [1, 2], [3, 4], cut=1, tail=b'\0\0')
    ranges(kind, [9, 2], [3, 4], cut=1, tail=b'\0\0')
    ranges(kind, [1, 2], [3, 4], cut=2 * SIZES[kind], mask=3)
    # the slice is shorter than the size
    ranges(kind, [1], [3], size=70 + 2 * SIZES[kind] + 1)
    # the header's pair alone: nothing is read
    ranges(kind, [7], [3], min=ONE, max=ONE)
    ranges(kind, [], [], depth=64, min=SIGN, max=0)
    # valid is not looked at
    ranges(kind, [1], [3], valid=0)
for kind in [0, 2, 4]:
    for a, b in [(-1, 0), (0, -1), (-2, -1), (-1, -2), (-1, -1), (-1, 1), (1, -1)]:
        ranges(kind, [a], [b])
for kind in [1, 3, 5]:
    half = 1 << 8 * SIZES[kind] - 1
    for a, b in [(half - 1, half), (half, half - 1), (half, half), (0, half), (half, 0)]:
        ranges(kind, [a], [b])
for v in F32:
    ranges(6, [v], [v])
for a, b in [(0, 0x80000000), (0x80000000, 0), (1, 0), (0, 1), (0x80000001, 0), (0, 0x80000001), (0x80000001, 0x80000002), (0x80000002, 0x80000001),
             (1, 2), (2, 1), (0, INF32), (INF32, INF32), (INF32, 0), (INF32 + 0x80000000, 0), (0, INF32 + 0x80000000), (NAN32, 0), (0, NAN32),
             (NAN32, NAN32), (INF32 + 1, INF32 + 1), (TOP, TOP)]:
    ranges(6, [a], [b])
for k, low in enumerate(EDGES):
    for high in EDGES[max(k - 1, 0):k + 2]:
        ranges(7, [low, ONE], [high, ONE])
for a, b in [(NAN, NAN), (NAN, 0), (0, NAN), (SIGN + NAN, 0), (SIGN + INF, INF), (SIGN + LARGEST, LARGEST), (LARGEST, SIGN + LARGEST)]:
    ranges(7, [ONE, a], [ONE, b])
# a pair past the depth is never judged; the deepest
ranges(7, [ONE], [ONE], extra=struct.pack('<2Q', NAN, 0))
ranges(7, [SIGN, 0, ONE], [0, SIGN, ONE])
ranges(7, [NAN], [0], cut=1)
ranges(6, [0, NAN32], [0, 0], cut=1)
for kind in [0, 3, 6, 7]:
    low, high = [k for k in range(64)], [k + 64 * (kind != 0) for k in range(64)]
    ranges(kind, low, high)
ranges(7, list(range(64)), list(range(63)) + [62])
ranges(6, list(range(64)), list(range(64)), cut=1)
ranges(1, list(range(64)), list(range(64)), depth=65)
ranges(1, [1, 2], [3, 4], key=b'Lerc3 ')
ranges(1, [1, 2], [3, 4], min=ONE, max=0)


# --- the checksum: "bytes 14 up to the declared size, as 16-bit words, first byte high, an odd last byte high over zero"

def spoilt(blob, at, by):
    """a byte changed and the checksum as it was"""
    return blob[:at] + bytes([blob[at] ^ by]) + blob[at + 1:]


# blobs that are read, and with a bit of the field the other way round: the even ones of one, the odd ones of the other;
# "a stored 0 is never right"
EVEN, ODD = blob_of(header(size=80), bytes(range(9, 19))), blob_of(header(size=79), bytes(range(9, 18)))
for blob in [EVEN, ODD]:
    true, size, part = stored(blob), fields(blob)['size'], summed_part(blob)
    record(blob)
    for bit in range(size % 2, 32, 2):
        record(with_field(blob, true ^ 1 << bit))
    for field in [0, TOP, true + 1, true - 1, true % 65536, true >> 16 << 16, true % 65536 << 16 | true >> 16, int.from_bytes(blob[10:14], 'big')]:
        record(with_field(blob, field))
    # of other bytes: from 10, 0, 12, 15 and 16 on, one fewer, without an odd last one; with a byte more; first byte low; sums that begin with 0
    for other in [blob[10:size], blob[:size], blob[12:size], blob[15:size], blob[16:size], part[:-1], part[:len(part) // 2 * 2 - 2], part + b'\1',
                  b''.join(part[k:k + 2][::-1] for k in range(0, len(part), 2)), part[::-1]]:
        record(with_field(blob, checksum(other)))
    # bytes that are summed, and those that are not: key and version are judged before, what is behind the size is never looked at
    for at in [*range(14 + size % 2, size, 5), size - 2, size - 1]:
        record(spoilt(blob, at, 1 << at % 8))
    for at in [0, 5, 6, 9]:
        record(spoilt(blob, at, 128))
    for rest in [b'\0', b'\1', b'\xFF' * 2, b'\x80' * 3]:
        record(blob + rest)
    record(with_field(blob + b'\1\2', checksum(part + b'\1\2')))
    # "modulo 65,535": a word of 65,535 counts as one of 0
    zeros, ones = (blob[:72] + word + blob[74:] for word in (b'\0\0', b'\xFF\xFF'))
    assert checksum(zeros[14:]) == checksum(ones[14:])
    record(with_field(zeros, checksum(ones[14:])))
    record(with_field(ones, checksum(zeros[14:])))
    record(with_field(spoilt(ones, 73, 255), checksum(ones[14:])))

# "Esri's published code decides": odd sizes, and of nearly all of them the sentences alone have another checksum
for row in ROWS:
    cells = bytes(row.cells)
    row_header = header(rows=1, columns=len(cells), valid=len(cells), size=73 + len(cells), error=HALF, min=0, max=whole(255))
    blob = blob_of(row_header, b'\0\xFF\1' + cells)
    assert stored(blob) == row.field and by_the_words(summed_part(blob)) in (row.false, row.field)
    for field in [row.field, row.false, row.false % 65536 | row.field >> 16 << 16, row.field % 65536 | row.false >> 16 << 16]:
        record(with_field(blob, field))
blob = blob_of(header(rows=1, columns=4, valid=4, size=79, error=HALF, min=whole(5), max=whole(144)), bytes([5, 144, 0, 0, 0, *IN_BLOCK.cells]))
assert (stored(blob), by_the_words(summed_part(blob))) == (IN_BLOCK.field, IN_BLOCK.false)
record(blob)
record(with_field(blob, IN_BLOCK.false))

# sums about the ends of Esri's groups of 359 words, all bytes high: 718 and 1,436 bytes are one and two whole groups
for count in [57, 716, 717, 718, 719, 720, 721, 1435, 1436, 1437, 1438]:
    blob = blob_of(header(size=14 + count), b'\xFF' * (count - 56))
    record(blob)
    record(spoilt(blob, 13 + count, 1))

# "refusal 13, after the header's own refusals": 1, 2, 3, 4 and 1 come first, whatever the field
for given in [dict(key=b'Lerc3 '), dict(version=5), *THREE, *FOUR, dict(size=71), dict(size=69), dict(size=13), dict(size=0)]:
    changes = {name: v for name, v in given.items() if name not in ('key', 'version')}
    blob = blob_of(header(**changes), key=given.get('key', b'Lerc2 '), version=given.get('version', 4))
    record(with_field(blob, 0))
record(with_field(blob_of(header()), 0)[:69])

with open('crates/lerc_header_cases/stdin', 'wb') as f:
    f.write(b''.join(RECORDS))
with open('crates/lerc_header_cases/stdout', 'w') as f:
    f.write('\n'.join(LINES) + '\n')
