"""Calls of the six operations, each with the number and the place of its refusal and the sentence of the rules that gives the place. The
numbers stand beside the blobs; the places are reckoned from the blobs (tests/read/offsets.py), or are the ones given by value."""
import os
import struct
import sys

ROOT = os.path.join(os.path.dirname(os.path.abspath(__file__)), '../..')
sys.path.insert(0, os.path.join(ROOT, 'tests/read'))
import blobs  # noqa: E402
from blobs import CODES, OFFSETS, SIZES, changed, made, tampered  # noqa: E402
from checksum import checksum, stored, with_field  # noqa: E402
from hand import BLOCK, P7, THREE, WHOLE, hexed, odd_rows, u32  # noqa: E402
from offsets import COUNT as SIX, ELSE, FIRST as FIT, FLAG as IN_BLOCK, FRONT, NUMBER as WRONG, WORD  # noqa: E402
from offsets import MASK_BYTES, flag_at, mode_at, ranges_at, raw_word_at, sweep_at, wrong_range_at  # noqa: E402

HEADER, MASK, RANGES, WALK, FILL, READ = range(6)
FAR, TOP, LAST = 1 << 32, 1 << 63, (1 << 64) - 1
NAN, INF = float('nan'), float('inf')

# the sentence of a place that offsets.py has not
VALUE = '0 for ranges by value'
CODED = 'a word or run past the size 1, .. at the mode byte\'s place'
# of a call that no rule refuses
RIGHT = 'no rule is broken'
# of a call that has a header by value, and a blob whose checksum is false
UNTESTED = 'entries given a header by value do not test it again'


# --- a case -----------------------------------------------------------------------------------------------------------------------


def mask_lent(operation, blob, h, n):
    """the mask in force for a walk and a fill, where the blob has one; else zeros to be kept"""
    if operation not in (WALK, FILL) or h['valid'] < h['rows'] * h['columns'] and not h['mask']:
        return bytes(n)
    return blobs.mask_of(blob, h)[0]


def pairs_by_value(operation, blob, h):
    """for a walk and a fill the blob's own ranges, where it has them: the pair of depth 0, and the one depth that may have another"""
    depth, at, none = h['depth'], ranges_at(blob), (64, 0, 0)
    if operation not in (WALK, FILL) or at + 2 * depth * SIZES[h['kind']] > len(blob):
        return (10, 12), none
    every = struct.unpack_from('<%d%s' % (2 * depth, CODES[h['kind']]), blob, at)
    pairs = list(zip(every[:depth], every[depth:]))
    others = [(d, *pair) for d, pair in enumerate(pairs) if pair != pairs[0]]
    assert len(others) < 2
    return pairs[0], others[0] if others else none


def by_value(operation, blob):
    """what is lent and given unless a case says otherwise: just the room that is asked for, and what the blob has"""
    h = blobs.header(blob)
    n, blocks, cells = blobs.needs(h)
    pair, other = pairs_by_value(operation, blob, h)
    start = flag_at(blob, 0) if operation == FILL else 0
    return dict(mask=mask_lent(operation, blob, h, n), spare=n, list=blocks, image=cells, reuse=False, constant=False, block=0, start=start,
                at=sweep_at(blob), pair=pair, other=other)


def case(operation, what, blob, number, place, sentence, base=None, **named):
    """a call; where the blob's own header or mask section is wrong, `base` is one like it that is right"""
    given = dict(by_value(operation, base or blob), lent=len(blob))
    assert set(named) <= set(given), named
    return dict({**given, **named}, operation=operation, what=what, blob=blob, refusal=number, place=place, sentence=sentence)


def cases(operations, what, blob, number, place, sentence, base=None, **named):
    """the same of several operations"""
    return [case(operation, what, blob, number, place, sentence, base, **named) for operation in operations]


def right(operations, what, blob, **named):
    return cases(operations, what, blob, 0, 0, RIGHT, **named)


# --- pieces of blobs --------------------------------------------------------------------------------------------------------------


# three valid pixels of ten in one tile; eleven in two tiles, three of them in the second, and with a mask one in the first; nine rows
MASKED = dict(columns=10, valid=3, side=16, mask=P7)
WIDE = dict(columns=11)
LATE = dict(columns=11, valid=4, mask=hexed('020080E00080'))
TALL = dict(rows=9)
# what the blob is, which block is meant, that block's column, the blob's fields: three valid pixels in the tile of the block
SHAPES = (
    ('kind 1', 0, 0, dict(kind=1, depth=1)),
    ('kind 0 with a mode byte, depth 2, behind a mask', 1, 0, dict(kind=0, depth=2, error=0.5, **MASKED)),
    ('kind 2, depth 2, behind a mask', 1, 0, dict(kind=2, depth=2, **MASKED)),
    ('kind 3, two tiles', 1, 8, dict(kind=3, depth=1, **WIDE)),
    ('kind 6, two tiles', 1, 8, dict(kind=6, depth=1, **WIDE)),
    ('kind 4, behind a mask', 0, 0, dict(kind=4, depth=1, **MASKED)),
    ('kind 7, depth 3, two tiles behind a mask', 5, 8, dict(kind=7, depth=3, **LATE)),
    ('kind 7, depth 2, two rows of tiles', 3, 0, dict(kind=7, depth=2, **TALL)),
)


def numbers(kind, *values):
    return struct.pack('<%d%s' % (len(values), CODES[kind]), *values)


def ranges(kind, depth):
    return numbers(kind, *[10] * depth, *[12] * depth)


def level(kind, x):
    """a block of one offset"""
    return bytes([x // 8 % 16 * 4 + 3]) + numbers(kind, 11)


def front(block, kind=1, depth=1, error=1.0, columns=3, side=8, **_):
    """ranges, sweep byte, mode byte where there is one, and the blocks in front of a block, all right"""
    across = -(-columns // side)
    mode = b'\0' if kind < 2 and error == 0.5 else b''
    return ranges(kind, depth) + b'\0' + mode + b''.join(level(kind, n // depth % across * side) for n in range(block))


def whole(blocks, **named):
    """a blob of so many blocks, all right"""
    return made(front(blocks, **named), **named)


# --- slices, keys, fields, room ---------------------------------------------------------------------------------------------------


def slices():
    """a slice under 70 or under the size; the header by value is whole all the same"""
    for name, blob in (('the rules\' blob', made(WHOLE, error=0.5)), ('depth 2, behind a mask', whole(2, kind=3, depth=2, **MASKED))):
        for lent in (0, 69, 70, len(blob) - 1):
            yield from cases(range(6), '%d bytes of %d, %s' % (lent, len(blob), name), blob, 1, 0, ELSE, lent=lent)
    yield from right(range(6), 'the rules\' blob and a byte more', made(WHOLE, error=0.5) + b'\xFF', start=74)


def keys():
    for name, at, piece in (('another key', 0, b'M'), ('version 5', 6, b'\5')):
        blob = changed(made(WHOLE, error=0.5), at, piece)
        yield from cases((HEADER, READ), name, blob, 2, 0, ELSE)
        yield from right((MASK, RANGES, WALK, FILL), name + ', which a header by value has not', blob)


def fields():
    """3 and 4, of the blob and by value"""
    small, deep = made(BLOCK), whole(6, kind=7, depth=3, **LATE)
    for name, blob, at, piece, number in (('no rows', small, 14, u32(0), 3), ('kind 8', deep, 38, u32(8), 3), ('size 69', small, 34, u32(69), 3),
                                          ('an error not finite', deep, 42, struct.pack('<d', NAN), 3), ('valid 4 of 3', small, 26, u32(4), 3),
                                          ('mask bytes past the size', deep, 66, u32(1 << 31), 3), ('no columns', small, 18, u32(0), 3),
                                          ('no depth', deep, 22, u32(0), 3), ('side 0', small, 30, u32(0), 3),
                                          ('an error of -0', small, 42, struct.pack('<d', -0.0), 3),
                                          ('a maximum under the minimum', deep, 58, struct.pack('<d', -1e9), 3),
                                          ('4,097 rows', small, 14, u32(4097), 4), ('4,097 columns', deep, 18, u32(4097), 4),
                                          ('4,194,305 cells', small, 14, u32(1985) + u32(2113), 4), ('side 17', small, 30, u32(17), 4),
                                          ('depth 65', deep, 22, u32(65), 4), ('size 16,777,217', small, 34, u32((1 << 24) + 1), 4)):
        yield from cases(range(6), name, changed(blob, at, piece), number, 0, ELSE, blob)


def false_fields():
    """13 at 0 of what reads the header itself, whatever else is wrong behind the header; a header by value has no checksum"""
    for i, (name, block, _, named) in enumerate(SHAPES):
        blob = whole(block + 1, **named)
        first = dict(block=block, start=flag_at(blob, block))
        what, value = (('a checksum of 0', 0), ('a checksum with its bytes turned', int.from_bytes(blob[10:14], 'big')),
                       ('a checksum from 10 on', checksum(blob[10:])))[i % 3]
        assert value != stored(blob)
        false = with_field(blob, value)
        yield from cases((HEADER, READ), '%s, %s' % (what, name), false, 13, 0, ELSE)
        yield from cases((MASK, RANGES, WALK, FILL), '%s, %s' % (what, name), false, 0, 0, UNTESTED, **first)
        spoilt = tampered(blob, flag_at(blob, block), b'\xFF')
        yield from cases((HEADER, READ), 'another flag byte, the checksum as it was, ' + name, spoilt, 13, 0, ELSE)
        yield from cases((WALK, FILL), 'another flag byte, the checksum as it was, ' + name, spoilt, 8, first['start'], IN_BLOCK, **first)


def false_orders():
    """13 behind 1, 2, 3, 4 and before room"""
    blob = with_field(made(BLOCK), 0)
    for what, at, piece, number in (('another key', 0, b'M', 2), ('kind 8', 38, u32(8), 3), ('side 17', 30, u32(17), 4), ('size 80', 34, u32(80), 1)):
        yield from cases((HEADER, READ), what + ' and a checksum of 0', tampered(blob, at, piece), number, 0, ELSE, blob)
    yield from cases((HEADER, READ), '69 bytes and a checksum of 0', blob, 1, 0, ELSE, lent=69)
    yield case(READ, 'no room at all, and a checksum of 0', blob, 13, 0, ELSE, mask=b'', spare=0, list=0, image=0)
    reused = with_field(whole(1, columns=10, valid=3, side=16), 0)
    yield case(READ, 'a mask to reuse, and a checksum of 0', reused, 13, 0, ELSE, mask=THREE, reuse=True)
    yield case(MASK, 'a mask to reuse, and a checksum of 0', reused, 0, 0, UNTESTED, mask=THREE, reuse=True)
    crossed = with_field(made(hexed('0C0A')), 0)
    yield case(READ, 'crossed ranges and a checksum of 0', crossed, 13, 0, ELSE)
    yield case(RANGES, 'crossed ranges and a checksum of 0', crossed, 7, wrong_range_at(crossed), WRONG)


def odd_sizes():
    """checksums by Esri's code, and false ones that are nearly they: the code decides. Of rows that have room in the program."""
    for row, blob in ((row, blob) for row, blob in odd_rows() if len(row.cells) <= 512):
        yield from right((HEADER, READ), 'an odd size, %s, the checksum by Esri\'s code' % row.why, blob)
        yield from cases((HEADER, READ), 'an odd size, %s, a checksum that is nearly it' % row.why, with_field(blob, row.false), 13, 0, ELSE)
    for size in (731, 732, 733, 734):
        blob = made(WHOLE + bytes(k % 251 for k in range(size - 79)), error=0.5)
        yield from right((HEADER, READ), 'a checksum over %d bytes' % (size - 14), blob + b'\xFF')
        yield from cases((HEADER, READ), 'the last of %d bytes changed' % size, tampered(blob, size - 1, bytes([blob[-1] ^ 128])), 13, 0, ELSE)


LENT = {MASK: ('mask', 'spare'), WALK: ('mask', 'list'), FILL: ('mask', 'list', 'image'), READ: ('mask', 'spare', 'list', 'image')}


def rooms():
    """each lent slice one short; all of them empty; and more than is asked for"""
    small, masked = made(BLOCK), whole(2, kind=2, depth=2, **MASKED)
    for operation, names in LENT.items():
        for name, blob in (('kind 1', small), ('kind 2, depth 2, behind a mask', masked)):
            room = by_value(operation, blob)
            for slot in names:
                less = room[slot][1:] if slot == 'mask' else room[slot] - 1
                yield case(operation, 'the %s one short, %s' % (slot, name), blob, 5, 0, ELSE, **{slot: less})
        none = {slot: b'' if slot == 'mask' else 0 for slot in names}
        yield case(operation, 'no room at all, and the rest wrong', changed(masked, 70, bytes(16)), 5, 0, ELSE, masked, **none)
        more = {slot: room[slot] + b'\xFF' if slot == 'mask' else room[slot] + 1 for slot in names}
        yield from right((operation,), 'room for one more everywhere', masked, **more)


def past_counts():
    """11 in a fill, before room and ranges are looked at"""
    one, two = made(BLOCK), whole(2, kind=2, depth=2, **MASKED)
    for blob, count in ((one, 1), (two, 2)):
        for block in (count, count + 1, FAR, LAST):
            yield case(FILL, 'block %d of %d' % (block, count), blob, 11, 0, ELSE, block=block)
    yield case(FILL, 'block 1 of 1, a list of two', one, 11, 0, ELSE, block=1, list=2)
    yield case(FILL, 'block 2 of 2, the image short', two, 11, 0, ELSE, block=2, image=0)
    yield case(FILL, 'block 1 of 1, a pair not finite', one, 11, 0, ELSE, block=1, pair=(NAN, 12))


def constants():
    """9 of a constant body; a walk on a body that is constant or empty"""
    for name, named in (('kind 1', dict(kind=1)), ('kind 0', dict(kind=0)), ('kind 1, depth 3, behind a mask', dict(depth=3, **MASKED))):
        yield case(READ, 'a constant of 300, ' + name, made(b'', low=300.0, high=300.0, **named), 9, 0, ELSE)
    constant, empty = made(b'', low=5.0, high=5.0), made(b'', valid=0)
    deep = made(hexed('0A0A0A0A'), depth=2, **MASKED)
    for what, blob, named in (('a constant body', constant, dict(at=70, constant=True)),
                              ('a constant body, its place far out', constant, dict(at=LAST, constant=True)),
                              ('a constant body behind ranges, depth 2, behind a mask', deep, dict(constant=True)),
                              ('a body in blocks that is marked constant', made(BLOCK), dict(constant=True)), ('an empty body', empty, dict(at=70)),
                              ('an empty body, its place far out', empty, dict(at=LAST)),
                              ('an empty body, a wrong sweep byte, depth 2', made(hexed('0A0A0C0C02'), depth=2, valid=0), {})):
        yield case(WALK, what, blob, 10, 0, ELSE, **named)
    yield from right((WALK,), 'minimum and maximum of the header the same, and no mark', made(BLOCK, low=5.0, high=5.0))
    yield from right((RANGES, READ), 'a constant body', constant)
    yield from right((RANGES, READ), 'a constant body behind ranges, depth 2, behind a mask', deep)
    yield from right((READ,), 'an empty body before crossed ranges', made(hexed('0C0A'), valid=0))


# --- mask and ranges --------------------------------------------------------------------------------------------------------------


SECTIONS = (('a run of 0', '0000 0200A040 0080'), ('no end', '0200A040'), ('half an end', '0200A040 00'), ('a byte behind the end', '0200A040 0080 00'),
            ('a byte too many', '0300A04000 0080'), ('a byte too few', '0100A0 0080'), ('only the end', '0080'), ('a copy cut', '0200A0'),
            ('a repeat cut', 'FEFF'), ('two valid', '0200A000 0080'), ('four valid', '0200A0C0 0080'), ('one byte', '02'))


def masks():
    for i, (name, section) in enumerate(SECTIONS):
        kind, depth = i % 8, 1 + i % 3
        base = whole(depth, kind=kind, depth=depth, **MASKED)
        blob = made(front(depth, kind, depth), kind=kind, depth=depth, **dict(MASKED, mask=hexed(section)))
        yield from cases((MASK, READ), 'mask section: %s, kind %d, depth %d' % (name, kind, depth), blob, 6, MASK_BYTES, SIX, base)
    for name, valid, section in (('no pixel valid', 0, 'FEFF00 0080'), ('every pixel valid', 10, 'FEFFFF 0080'),
                                 ('no pixel valid, one byte', 0, '00')):
        base, blob = (made(BLOCK, columns=10, valid=valid, mask=m) for m in (b'', hexed(section)))
        yield from cases((MASK, READ), 'mask bytes that must be 0, ' + name, blob, 6, MASK_BYTES, SIX, base)
    crossed = made(hexed('0C0A'), columns=10, valid=3, mask=hexed('0000'))
    yield case(READ, 'a wrong mask before crossed ranges', crossed, 6, MASK_BYTES, SIX)


def reused():
    """a mask that is kept: no mask bytes, so that the ranges begin at 70"""
    named = dict(columns=10, valid=3, side=16)
    one, two = whole(1, **named), whole(2, depth=2, **named)
    for name, blob, kept in (('two valid', one, b'\xA0\0'), ('all valid', one, b'\xFF\xFF'), ('none valid', one, b'\0\0'),
                             ('bits past the pixels', one, b'\xA0\1'), ('two valid, depth 2', two, b'\xA0\0')):
        yield from cases((MASK, READ), 'a reused mask with a wrong count: ' + name, blob, 6, MASK_BYTES, SIX, mask=kept, reuse=True)
    yield from cases((MASK, READ), 'a mask to reuse, and no reuse allowed', one, 6, MASK_BYTES, SIX, mask=THREE)
    yield from right((MASK, READ), 'a reused mask', one, mask=THREE, reuse=True)
    yield from right((MASK, READ), 'a reused mask, depth 2', two, mask=THREE, reuse=True)
    for what, tail, number, where, sentence in (('ranges cut', '0A', 1, ranges_at, FIT), ('crossed ranges', '0C0A', 7, wrong_range_at, WRONG),
                                                ('no sweep byte', '0A0C', 1, sweep_at, FRONT), ('raw words cut', '0A0C010A0B', 1, raw_word_at, WORD),
                                                ('check bits', '0A0C0007', 8, lambda blob: flag_at(blob, 0), IN_BLOCK)):
        blob = made(hexed(tail), **named)
        yield case(READ, what + ' behind a reused mask', blob, number, where(blob), sentence, mask=THREE, reuse=True)


def unfit():
    """ranges that do not fit: nothing of them, a byte, all but the last byte"""
    for name, _, _, named in SHAPES:
        every = ranges(named['kind'], named['depth'])
        for n in sorted({0, 1, len(every) - 1}):
            blob = made(every[:n], **named)
            yield from cases((RANGES, READ), '%d of %d range bytes, %s' % (n, len(every), name), blob, 1, ranges_at(blob), FIT)
    behind = made(ranges(3, 2), kind=3, depth=2, size=70 + len(P7) + 7, **MASKED)
    for what, blob in (('1,023 of 1,024 range bytes, depth 64', made(ranges(7, 64)[:-1], kind=7, depth=64)),
                       ('the last range byte behind the size', behind), ('a minimum not finite, the maximum cut', made(numbers(6, NAN, 12)[:-1], kind=6))):
        yield from cases((RANGES, READ), what, blob, 1, ranges_at(blob), FIT)
    empty = made(b'', valid=0)
    yield case(RANGES, 'no range bytes, and no pixel valid', empty, 1, ranges_at(empty), FIT)
    yield from right((READ,), 'no range bytes, and no pixel valid', empty)


# kind, minima, maxima
CROSSED = ((1, (12,), (10,)), (0, (5,), (-5,)), (5, (10, 10), (12, 9)), (3, (10, 12, 10), (12, 11, 9)), (2, (10, -9), (12, -10)),
           (4, (10,) * 64, (12,) * 63 + (9,)))
UNFINITE = ((6, (NAN,), (12,)), (6, (-INF,), (12,)), (7, (10,), (NAN,)), (7, (10,), (INF,)), (7, (NAN,), (NAN,)), (6, (INF,), (-INF,)),
            (6, (1, NAN), (0, 3)), (7, (1, NAN), (0, 3)), (6, (1, NAN), (2, 3)), (7, (1, 2), (NAN, 3)), (7, (1, NAN), (INF, 3)),
            (6, (1, 2, NAN), (2, NAN, 0)), (6, (1, 5, 2), (2, 4, NAN)), (7, (10, INF), (12, -INF)), (6, (10,) * 63 + (NAN,), (12,) * 64),
            (7, (10, 10, 10), (12, 12, -INF)))


def told(values):
    return ' '.join(map(str, values)) if len(values) < 4 else '%s .. %s' % (values[0], values[-1])


def wrong_ranges():
    """7 of ranges in the blob, the sweep byte behind them wrong too"""
    for i, (kind, low, high) in enumerate(CROSSED + UNFINITE):
        for name, named in (('', {}), (', behind a mask', MASKED))[i % 2:]:
            blob = made(numbers(kind, *low, *high) + b'\2', kind=kind, depth=len(low), **named)
            what = 'kind %d, minima %s, maxima %s%s' % (kind, told(low), told(high), name)
            yield from cases((RANGES, READ), what, blob, 7, wrong_range_at(blob), WRONG)
    yield from right((RANGES, READ), 'a minimum of 0 and a maximum of -0', made(numbers(6, 0.0, -0.0), kind=6))


def wrong_pairs():
    """7 of ranges by value"""
    one, three, many = made(BLOCK), whole(6, kind=7, depth=3, **LATE), whole(64, depth=64)
    both = (WALK, FILL)
    for low, high in ((NAN, 12), (-INF, 12), (10, NAN), (10, INF), (12, 10), (NAN, NAN)):
        yield from cases(both, 'by value, %s and %s' % (low, high), one, 7, 0, VALUE, pair=(low, high))
    for depth, low, high in ((0, NAN, 12), (1, 10, -INF), (2, 12, 10), (2, NAN, 12)):
        yield from cases(both, 'by value, depth %d of 3, %s and %s' % (depth, low, high), three, 7, 0, VALUE, other=(depth, low, high))
    yield from cases(both, 'by value, depth 63 of 64', many, 7, 0, VALUE, other=(63, 12, 10))
    yield from cases(both, 'by value, the body and the listed start far out', one, 7, 0, VALUE, pair=(12, 10), at=LAST, start=LAST)
    yield from right(both, 'a wrong pair past depth 3', three, other=(3, NAN, 0))
    yield from right(both, 'a wrong pair past depth 1', one, other=(1, 12, 10))
    yield from right(both, 'depth 64', many)


# --- sweep, mode, raw words -------------------------------------------------------------------------------------------------------


def sweeps():
    for i, (name, _, _, named) in enumerate(SHAPES):
        bare, byte = ranges(named['kind'], named['depth']), (2, 3, 128, 255)[i % 4]
        for what, piece, number in (('no sweep byte', b'', 1), ('sweep byte %d' % byte, bytes([byte]), 8)):
            blob = made(bare + piece, **named)
            yield from cases((WALK, READ), '%s, %s' % (what, name), blob, number, sweep_at(blob), FRONT)
        raw = made(bare + b'\1', **named)
        yield case(WALK, 'raw words, ' + name, raw, 10, sweep_at(raw), FRONT)
    behind = made(BLOCK, size=72)
    yield from cases((WALK, READ), 'the sweep byte behind the size', behind, 1, sweep_at(behind), FRONT)


def modes():
    for name, named in (('kind 1', dict(kind=1, depth=1)), ('kind 0, depth 3', dict(kind=0, depth=3)),
                        ('kind 1, depth 2, behind a mask', dict(kind=1, depth=2, **MASKED))):
        for what, piece, number in (('no mode byte', '', 1), ('mode byte 3', '03', 8), ('mode byte 255', 'FF', 8)):
            blob = made(ranges(named['kind'], named['depth']) + b'\0' + hexed(piece), error=0.5, **named)
            yield from cases((WALK, READ), '%s, %s' % (what, name), blob, number, mode_at(blob), FRONT)
        for mode in (1, 2):
            blob = made(ranges(named['kind'], named['depth']) + bytes([0, mode]), error=0.5, **named)
            yield case(WALK, 'mode byte %d, %s' % (mode, name), blob, 10, mode_at(blob), FRONT)
            yield case(READ, 'mode byte %d and nothing behind it, %s' % (mode, name), blob, 1, mode_at(blob), CODED)
    behind = made(WHOLE, error=0.5, size=73)
    yield from cases((WALK, READ), 'the mode byte behind the size', behind, 1, mode_at(behind), FRONT)
    yield from right((WALK, READ), 'mode byte 0', made(WHOLE, error=0.5))
    raw = made(hexed('0A0C01'), error=0.5)
    yield case(WALK, 'raw words and no mode byte', raw, 10, sweep_at(raw), FRONT)


def raws():
    """raw words cut: none of them, within the first, behind the first, before the last, within the last, by the size alone"""
    for name, _, _, named in SHAPES:
        size, first = SIZES[named['kind']], ranges(named['kind'], named['depth']) + b'\1'
        words = blobs.header(made(b'', **named))['valid'] * named['depth']
        full = made(first + b'\x41' * words * size, **named)
        for n in sorted({0, size - 1, size, (words - 1) * size, words * size - 1}):
            blob = made(first + b'\x41' * n, **named)
            yield case(READ, '%d of %d raw bytes, %s' % (n, words * size, name), blob, 1, raw_word_at(blob), WORD)
        behind = changed(full, 34, u32(len(full) - 1))
        yield case(READ, 'the last raw byte behind the size, ' + name, behind, 1, raw_word_at(behind), WORD)
        yield from right((READ,), 'raw words, ' + name, full)


def given_bodies():
    """a walk from the place that is given, whatever stands there"""
    blob, moded = made(BLOCK) + b'\0\3\x0B', made(WHOLE, error=0.5)
    size = len(blob) - 3
    for at, what in ((size, 'at the size'), (size + 1, 'behind the size'), (len(blob), 'behind the slice'), (FAR + 72, '2^32 further'),
                     (TOP, 'at 2^63'), (LAST - 1, 'at 2^64 - 2'), (LAST, 'at 2^64 - 1')):
        yield case(WALK, 'the body given ' + what, blob, 1, at, FRONT, at=at)
    for at, what in ((0, 'the key'), (5, 'the key\'s blank'), (6, 'the version'), (70, 'the minimum'), (74, 'the offset'), (75, 'the counts')):
        yield case(WALK, 'the body given at ' + what, blob, 8, at, FRONT, at=at)
    for at, what in ((14, 'the rows, which are 1'), (22, 'the depth, which is 1'), (38, 'the kind, which is 1'), (73, 'a flag byte of 1')):
        yield case(WALK, 'the body given at ' + what, blob, 10, at, FRONT, at=at)
    cut = made(hexed('0A0C0000'), error=0.5)
    yield case(WALK, 'the body given at the last byte, no mode byte behind it', cut, 1, 74, FRONT, at=73)
    yield case(WALK, 'the body given at the last byte, no flag byte behind it', made(hexed('0A0C0000')), 1, 74, IN_BLOCK, at=73)
    # the last two bytes of the checksum field
    for byte, number in ((1, 10), (2, 10), (3, 8)):
        yield case(WALK, 'the body given in the checksum, mode byte %d' % byte, tampered(moded, 12, bytes([0, byte])), number, 13, FRONT, at=12)
    yield case(WALK, 'the body given in the checksum, check bits', tampered(blob, 12, b'\0\7'), 8, 13, IN_BLOCK, at=12)
    yield from right((WALK,), 'the body given in the checksum, a block of zeros', tampered(blob, 12, b'\0\2'), at=12)
    yield from right((WALK,), 'the body given where it is', blob, at=72)


# --- blocks -----------------------------------------------------------------------------------------------------------------------


COUNTS = (('no counts', 1, ''), ('no count', 1, '82'), ('a count cut', 1, '4203'), ('a count of no size', 8, 'C20324'), ('257 counts', 8, '400101'),
          ('two counts for three pixels', 8, '820204'), ('a run missing', 1, '8203'), ('a table of no bits', 8, 'A00303000018'), ('no entries', 1, 'A403'),
          ('one entry', 8, 'A4030118'), ('no table', 1, 'A40303'), ('indices missing', 1, 'A4030395'), ('an index too high', 8, 'A40303951C'))


def block_faults(kind, x):
    """what is wrong, the number, the block's bytes: a tile of three valid pixels"""
    check, offset = x // 8 % 16 * 4, numbers(kind, 10)
    yield 'no flag byte', 1, b''
    yield 'check bits', 8, bytes([(check ^ 4) + 3]) + offset
    if len(OFFSETS[kind]) < 4:
        yield 'no such offset', 8, bytes([192 + check + 3]) + offset
    else:
        yield 'an offset of another kind cut', 1, bytes([192 + check + 3]) + offset[:SIZES[OFFSETS[kind][3]] - 1]
    yield 'no offset', 1, bytes([check + 3])
    yield 'an offset cut', 1, bytes([check + 1]) + offset[:-1]
    if kind > 5:
        yield 'an offset not finite', 8, bytes([check + 3]) + numbers(kind, NAN)
        yield 'an offset not finite, and no counts', 8, bytes([check + 1]) + numbers(kind, -INF)
    for what, number, counts in COUNTS:
        yield what, number, bytes([check + 1]) + offset + hexed(counts)
    yield 'no raw words', 1, bytes([check])
    yield 'raw words cut', 1, bytes([check]) + (3 * offset)[:-1]


def in_block(operations, what, blob, number, block, **named):
    """a refusal inside a block, whose flag byte is listed"""
    place = flag_at(blob, block)
    return cases(operations, what, blob, number, place, IN_BLOCK, block=block, start=place, **named)


def blocks():
    """every fault in the first shape; in each other shape every second"""
    for s, (name, block, x, named) in enumerate(SHAPES):
        before = front(block, **named)
        for f, (what, number, piece) in enumerate(block_faults(named['kind'], x)):
            blob = made(before + piece, **named)
            assert flag_at(blob, block) == len(blob) - len(piece)
            if s == 0 or (s + f) % 2 == 0:
                yield from in_block((WALK, FILL, READ), '%s in block %d, %s' % (what, block, name), blob, number, block)
        full = whole(block + 1, **named)
        yield from right((WALK, FILL, READ), 'block %d, %s' % (block, name), full, block=block, start=flag_at(full, block))


def values():
    """9 in a block: only a maximum by value can lead out of the kind"""
    for kind, low, high, offset in ((0, 10, 300, 126), (1, 10, 300, 252), (2, 10, 1e6, 32766), (3, 10, 1e6, 65534), (4, 10, 1e300, 2147483646),
                                    (5, 10, 1e300, 4294967294), (1, -10, -5, 7), (5, -10, -1, 7)):
        piece = b'\1' + numbers(kind, offset) + hexed('820334')
        for name, block, named in (('', 0, dict(depth=1)), (', depth 2, behind a mask', 1, dict(depth=2, **MASKED))):
            what = 'a value outside kind %d in block %d, the maximum %g by value%s' % (kind, block, high, name)
            blob = made(front(block, kind, **named) + piece, kind=kind, **named)
            yield from in_block((WALK, FILL), what, blob, 9, block, pair=(low, high))


def starts():
    """a fill from the start that is listed"""
    small, wide = made(hexed('0A0C00 030B')) + b'\3\x0B\3\x0B', whole(2, kind=3, **WIDE) + b'\7\0\0'
    deep = whole(6, kind=7, depth=3, **LATE)
    for name, blob, block in (('block 0', small, 0), ('block 1 in the second tile', wide, 1), ('block 4, depth 3, behind a mask', deep, 4)):
        size, true = blobs.header(blob)['size'], flag_at(blob, block)
        for start, what in ((size, 'at the size'), (size + 1, 'behind the size'), (len(blob) + 9, 'behind the slice'), (FAR + true, '2^32 further'),
                            (TOP, 'at 2^63'), (LAST - 7, 'at 2^64 - 8'), (LAST, 'at 2^64 - 1')):
            yield case(FILL, 'listed %s, %s' % (what, name), blob, 1, start, IN_BLOCK, start=start, block=block)
        yield from right((FILL,), 'listed where it is, ' + name, blob, start=true, block=block)
    for start, what in ((0, 'the key'), (70, 'the minimum'), (71, 'the maximum')):
        yield case(FILL, 'listed at ' + what, small, 8, start, IN_BLOCK, start=start)
    yield case(FILL, 'listed at the last byte, no offset behind it', changed(small, 74, b'\3'), 1, 74, IN_BLOCK, start=74)
    first = flag_at(wide, 0)
    yield case(FILL, 'block 1 in the second tile, listed at block 0', wide, 8, first, IN_BLOCK, start=first, block=1)
    yield from right((FILL,), 'listed at the sweep byte, raw words', made(hexed('0A0C00 030B030B')), start=72)
    yield from right((FILL,), 'a body that is marked constant, its place far out', small, constant=True, at=LAST)


def behind_sizes():
    """blocks that the slice has whole and the size cuts"""
    for name, block, piece, named in (('raw words', 0, hexed('000A0B0C'), dict(kind=1, depth=1)),
                                      ('a run', 1, hexed('010A00820324'), dict(kind=2, depth=2, **MASKED)),
                                      ('an offset', 1, b'\7' + numbers(6, 11), dict(kind=6, **WIDE)),
                                      ('a flag byte', 3, b'\2', dict(kind=7, depth=2, **TALL))):
        blob = made(front(block, **named) + piece, **named)
        cut = changed(blob, 34, u32(len(blob) - 1))
        yield from in_block((WALK, FILL, READ), '%s behind the size, block %d' % (name, block), cut, 1, block)


def seventeen():
    """check bits come round again at column 128"""
    for flag in (0x07, 0x3F, 0x43):
        blob = made(front(16, columns=131) + bytes([flag, 11]), columns=131)
        yield from in_block((WALK, FILL, READ), 'block 16 at column 128, flag byte %d' % flag, blob, 8, 16)
    full = whole(17, columns=131)
    yield from right((WALK, FILL, READ), 'block 16 at column 128', full, block=16, start=flag_at(full, 16))


def far_places():
    """places past 255: behind 64 copies of one mask byte, behind 300 mask bytes that ranges alone may pass over, behind 40 blocks"""
    behind = dict(columns=512, valid=3, mask=hexed('0100E0') + hexed('010000') * 63 + hexed('0080'))
    for what, tail, number, where, sentence, operations in (('ranges cut', '0A', 1, ranges_at, FIT, (RANGES, READ)),
                                                            ('crossed ranges', '0C0A', 7, wrong_range_at, WRONG, (RANGES, READ)),
                                                            ('no sweep byte', '0A0C', 1, sweep_at, FRONT, (WALK, READ))):
        blob = made(hexed(tail), **behind)
        yield from cases(operations, what + ' behind 194 mask bytes', blob, number, where(blob), sentence)
    for what, tail, number, where, sentence in (('ranges cut', '0A', 1, ranges_at, FIT), ('crossed ranges', '0C0A', 7, wrong_range_at, WRONG)):
        blob = made(hexed(tail), columns=10, valid=3, mask=bytes(300))
        yield case(RANGES, what + ' behind 300 mask bytes', blob, number, where(blob), sentence)
    many = dict(kind=7, depth=1, columns=400)
    for what, piece, number in (('check bits', b'\xFF', 8), ('no flag byte', b'', 1)):
        yield from in_block((WALK, FILL, READ), '%s in block 40, kind 7' % what, made(front(40, **many) + piece, **many), number, 40)


# --- the smallest inputs ----------------------------------------------------------------------------------------------------------


# bytes behind the header, the number, the place, the sentence, the operations
LEAST = (('no ranges', '', 1, 70, FIT, (RANGES, READ)), ('half the ranges', '0A', 1, 70, FIT, (RANGES, READ)),
         ('crossed ranges', '0C0A', 7, 71, WRONG, (RANGES, READ)), ('no sweep byte', '0A0C', 1, 72, FRONT, (WALK, READ)),
         ('sweep byte 2', '0A0C02', 8, 72, FRONT, (WALK, READ)), ('raw', '0A0C01', 10, 72, FRONT, (WALK,)),
         ('raw, no word', '0A0C01', 1, 73, WORD, (READ,)), ('no flag byte', '0A0C00', 1, 73, IN_BLOCK, (WALK, FILL, READ)),
         ('check bits', '0A0C0004', 8, 73, IN_BLOCK, (WALK, FILL, READ)), ('no raw word', '0A0C0000', 1, 73, IN_BLOCK, (WALK, FILL, READ)),
         ('a block of zeros', '0A0C0002', 0, 0, RIGHT, range(6)),
         ('a raw word', '0A0C010B', 0, 0, RIGHT, (HEADER, MASK, RANGES, READ)))
LEAST_MODE = (('no mode byte', '0A0C00', 1), ('mode byte 3', '0A0C0003', 8))


def least():
    """one pixel of one byte: the shortest input for each place, and those that are right"""
    for what, tail, number, place, sentence, operations in LEAST:
        yield from cases(operations, 'one pixel, ' + what, made(hexed(tail), columns=1), number, place, sentence)
    for what, tail, number in LEAST_MODE:
        yield from cases((WALK, READ), 'one pixel, ' + what, made(hexed(tail), columns=1, error=0.5), number, 73, FRONT)
    coded = made(hexed('0A0C0001'), columns=1, error=0.5)
    yield case(WALK, 'one pixel, mode byte 1', coded, 10, 73, FRONT)
    yield case(READ, 'one pixel, mode byte 1 and nothing behind it', coded, 1, 73, CODED)
    yield from cases((MASK, READ), 'one pixel, a mask byte', made(b'', columns=1, mask=b'\2'), 6, 66, SIX)
    yield from right((HEADER, MASK, RANGES, READ), 'one pixel, constant', made(b'', columns=1, low=5.0, high=5.0))


GROUPS = (slices, keys, fields, rooms, past_counts, constants, masks, reused, unfit, wrong_ranges, wrong_pairs, sweeps, modes, raws, given_bodies,
          blocks, values, starts, behind_sizes, seventeen, far_places, least, false_fields, false_orders, odd_sizes)
CASES = [c for group in GROUPS for c in group()]
