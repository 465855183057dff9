"""Packs, entries by number and calls of the writer, each with what is right or wrong in it, written from the words of the rules. Whether it is
accepted stands here too; what else is said of it, model.py tells."""
import os
import struct
import sys

from model import ENTRY, FORM, FRONT, TILES

ROOT = os.path.join(os.path.dirname(os.path.abspath(__file__)), '../..')
sys.path.insert(0, os.path.join(ROOT, 'tests/read'))
from blobs import changed, header, made, tampered  # noqa: E402
from checksum import by_the_words, stored as field_of, summed_part, with_field  # noqa: E402
from hand import BLOCK, INF, NAN, P7, SIGN, WHOLE, u32  # noqa: E402
from rows import ROWS  # noqa: E402

OPEN, READ, WRITE = range(3)
LAST = (1 << 64) - 1
# what the program has lent before a writer's call; the place of each field in an entry
MARK = 0xA5
PLACES = dict(row=0, column=2, kind=4, depth=5, zero=6, start=8, length=12)
# the numbers in the head of a case of lerc_read_cases, 4 bytes each
STORED = 18


# --- blobs ------------------------------------------------------------------------------------------------------------------------


def stored_blobs(group):
    """the blobs of a file of lerc_read_cases: written by Esri's encoder, or made for its decoder"""
    raw, at = open(os.path.join(ROOT, 'crates/lerc_read_cases/data', group), 'rb').read(), 0
    while at < len(raw):
        blob, rest = struct.unpack_from('<2I', raw, at)
        at += 4 * STORED
        yield raw[at:at + blob]
        at += blob + rest


ESRI, CRAFTED, BANDS = (list(stored_blobs(group)) for group in ('v4', 'v4-crafted', 'v4-bands'))
# by kind, all of them small: empty, constant, raw, in blocks
EMPTY = {2: ESRI[50], 5: ESRI[120], 7: ESRI[178]}
CONSTANT = {0: ESRI[0], 1: ESRI[47], 2: ESRI[64], 3: ESRI[91], 4: ESRI[99], 5: ESRI[122], 6: ESRI[140], 7: ESRI[192]}
RAW = {0: ESRI[20], 3: ESRI[78], 4: ESRI[93], 5: ESRI[116]}
BLOCKS = {0: ESRI[10], 1: ESRI[46], 2: ESRI[60], 3: ESRI[84], 4: ESRI[102], 5: ESRI[118], 6: ESRI[149], 7: ESRI[195]}


def constant(kind=1, tail=b'', **named):
    """one value everywhere; what is behind it counts in the checksum alone"""
    return made(tail, kind=kind, **dict(dict(low=10.0, high=10.0), **named))


# kind 3 and depth 2; kind 1; kind 6 and depth 3: no field of one is that of another
ONE, TWO, SIX = constant(3, b'\7\0\0', depth=2), made(WHOLE, error=0.5), constant(6, bytes(12), depth=3)


# --- packs ------------------------------------------------------------------------------------------------------------------------


def front(count, version=1, zeros=b'\0\0\0'):
    return bytes([version]) + zeros + u32(count)


def entry(row, column, blob, start, length=None):
    """as the blob's header has it"""
    h = header(blob)
    return struct.pack(FORM, row % 65536, column % 65536, h['kind'] % 256, (h['depth'] - 1) % 256, 0, start, len(blob) if length is None else length)


def pack_of(*tiles):
    """tiles are row, column and blob; nothing is judged"""
    contents, start = b'', FRONT + ENTRY * len(tiles)
    for row, column, blob in tiles:
        contents += entry(row, column, blob, start)
        start += len(blob)
    return front(len(tiles)) + contents + b''.join(blob for _, _, blob in tiles)


def place(i, name):
    """of a field of an entry"""
    return FRONT + ENTRY * i + PLACES[name]


def put(pack, at, piece):
    return pack[:at] + piece + pack[at + len(piece):]


def with_byte(pack, at, byte):
    assert pack[at] != byte
    return put(pack, at, bytes([byte]))


def number_at(pack, at):
    return int.from_bytes(pack[at:at + 4], 'little')


def with_number(pack, at, value):
    assert number_at(pack, at) != value
    return put(pack, at, u32(value))


def raised(pack, i, name, by):
    """a start or a length that is more, or less"""
    at = place(i, name)
    return put(pack, at, u32((number_at(pack, at) + by) % (1 << 32)))


def grid(count, across, blob_at):
    """a field of so many tiles, row by row"""
    return [(k // across, k % across, blob_at(k)) for k in range(count)]


def esri(k):
    return CONSTANT[k % 8] if k % 3 else BLOCKS[k % 8]


def edges(least, most):
    """two tiles: the first length, and the second start, at the numbers where another byte begins"""
    contents = FRONT + ENTRY * 2
    for edge in (256, 65536):
        for length in (edge - 1, edge):
            if least <= length <= most:
                yield 'a length of %d' % length, ((0, 0, constant(4, bytes(length - 70), depth=2)), (0, 1, TWO))
        for start in (edge - 1, edge):
            if least <= start - contents <= most:
                yield 'a start at %d' % start, ((0, 0, constant(4, bytes(start - contents - 70), depth=2)), (0, 1, TWO))


BASE = ((1, 2, ONE), (1, 3, TWO), (4, 0, SIX))
PACK = pack_of(*BASE)
SINGLE = pack_of((0, 0, TWO))
NONE = front(0)


# --- packs that are accepted ------------------------------------------------------------------------------------------------------


def accepted():
    yield 'the empty pack', NONE
    for kind in range(8):
        yield 'one tile of kind %d, constant' % kind, pack_of((0, 0, constant(kind)))
    for depth in (2, 63, 64):
        yield 'depth %d' % depth, pack_of((3, 4, constant(1, depth=depth)))
    yield 'depth 64, kind 7', pack_of((3, 4, constant(7, depth=64)))
    for at in ((0, 255), (0, 256), (0, 65535), (255, 0), (256, 0), (65535, 0), (258, 772), (65535, 65535)):
        yield 'row %d, column %d' % at, pack_of((*at, TWO))
    for what, a, b in (('columns rise in a row', (7, 1), (7, 2)), ('columns rise by much', (7, 0), (7, 65535)), ('rows rise in a column', (1, 7), (2, 7)),
                       ('the row rises and the column falls', (0, 1), (1, 0)), ('from the last column to the first', (0, 65535), (1, 0)),
                       ('columns 255 and 256', (0, 255), (0, 256)), ('columns 1 and 256', (0, 1), (0, 256)), ('rows 255 and 256', (255, 256), (256, 255)),
                       ('rows 1 and 256', (1, 0), (256, 0)), ('columns 32767 and 32768', (0, 32767), (0, 32768)),
                       ('rows 32767 and 32768', (32767, 9), (32768, 9)), ('from the first tile to the last', (0, 0), (65535, 65535))):
        yield what, pack_of((*a, ONE), (*b, TWO))
    for what, tiles in edges(200, 290):
        yield what, pack_of(*tiles)
    yield 'three tiles', PACK
    yield 'one blob, twice', pack_of((0, 0, SIX), (0, 1, SIX))
    for name, every in (('empty', EMPTY), ('constant', CONSTANT), ('raw', RAW), ('in blocks', BLOCKS)):
        yield 'Esri\'s, %s' % name, pack_of(*((k, 9 - k, blob) for k, blob in every.items()))
    yield 'Esri\'s, of every sort', pack_of((0, 0, EMPTY[7]), (0, 2, RAW[0]), (1, 0, CONSTANT[7]), (1, 2, BLOCKS[5]))
    yield 'Esri\'s, bands of one image', pack_of((0, 0, BANDS[3]), (0, 1, BANDS[4]), (0, 2, BANDS[5]))
    yield 'for Esri\'s decoder, in blocks', pack_of((2, 0, CRAFTED[19]), (2, 1, CRAFTED[21]), (2, 2, CRAFTED[32]))
    for count in (4, 16, 17):
        yield '%d tiles' % count, pack_of(*grid(count, 4, esri))
    # the body is not decoded, and has a true checksum
    for what, blob in unread():
        yield what, pack_of((0, 0, ONE), (0, 1, blob), (0, 2, TWO))
    for what, blob in ceilings():
        yield what, pack_of((0, 0, blob))
    for row in (ROWS[0], ROWS[3]):
        yield 'the checksum of Esri\'s code: ' + row.why, pack_of((0, 0, summed(row)))


def unread():
    """blobs that no reader reads, but for their headers"""
    yield 'a broken block', changed(TWO, 74, b'\2')
    yield 'a sweep byte of 2', changed(TWO, 72, b'\2')
    yield 'a range from 12 to 10', changed(TWO, 70, b'\x0C\x0A')
    yield 'a body that is cut', made(WHOLE[:4], error=0.5)
    yield 'no body', made(b'')
    yield 'a mask of zeros', made(b'', columns=10, valid=3, mask=bytes(6))
    yield 'a mask that is to be reused', made(BLOCK, columns=10, valid=3)
    yield 'a kept mode byte', changed(TWO, 73, b'\2')


def ceilings():
    yield '4096 rows', constant(rows=4096, columns=1024, valid=0)
    yield '4096 columns', constant(rows=1024, columns=4096, side=16)
    yield '4194304 cells', constant(rows=256, columns=256, depth=64, kind=7)
    yield 'a mask to the end', made(b'', columns=10, valid=3, mask=P7)
    yield 'the largest error', constant(error=(2046 << 52) - 1)
    yield 'minimum -0, maximum 0', constant(low=SIGN, high=0)


def summed(row):
    """one row of bytes whose checksum the sentences alone have otherwise, or seldom not"""
    cells = bytes(row.cells)
    blob = made(b'\0\xFF\1' + cells, columns=len(cells), error=0.5, low=0.0, high=255.0)
    assert field_of(blob) == row.field
    return blob


# --- packs with one thing wrong ---------------------------------------------------------------------------------------------------


def refused():
    yield from of_the_front()
    yield from of_counts()
    yield from cut()
    yield from of_zeros()
    yield from of_order()
    yield from of_starts()
    yield from of_kinds_and_depths()
    yield from of_lengths()
    yield from of_headers()


def of_the_front():
    for version in (0, 2, 3, 129, 255):
        yield 'version %d' % version, with_byte(PACK, 0, version)
        yield 'version %d, no tiles' % version, with_byte(NONE, 0, version)
    for at in (1, 2, 3):
        for byte in (1, 128, 255):
            yield 'byte %d is %d' % (at, byte), with_byte(PACK, at, byte)
        yield 'byte %d is 1, no tiles' % at, with_byte(NONE, at, 1)
    yield 'the version last', b'\0\0\0\1' + PACK[4:]


def of_counts():
    for count in (0, 1, 2, 4, 5, 257, 65536, 65536 + 3, (1 << 24) + 3, 3 << 24, (1 << 28) + 3, 1 << 31, (1 << 32) - 1):
        yield 'count %d of 3' % count, with_number(PACK, 4, count)
    for count in (1, 256, 257, 65536, 1 << 28, (1 << 32) - 1):
        yield 'count %d of none' % count, with_number(NONE, 4, count)
    yield 'count 0 of 1', with_number(SINGLE, 4, 0)


def cut():
    """at each end of a field of the front, of the first and of the last entry, about each body, and one byte beside most of them"""
    bodies = [FRONT + ENTRY * len(BASE)]
    for _, _, blob in BASE:
        bodies.append(bodies[-1] + len(blob))
    ends = {0, 1, 3, 4, 7, 8, 9} | {place(i, name) for i in (0, 2) for name in PLACES} | {place(1, 'row') - 1, place(2, 'row') - 1}
    ends |= {at + by for at in bodies for by in (-1, 0, 1)} | {bodies[0] + 69, bodies[0] + 70}
    for end in sorted(end for end in ends if end < len(PACK)):
        yield 'the first %d bytes of %d' % (end, len(PACK)), PACK[:end]
    for end in (5, 6, 7):
        yield 'the first %d bytes of the empty pack' % end, NONE[:end]
    yield 'a zero behind the empty pack', NONE + b'\0'


def of_zeros():
    for i in range(3):
        for at in (0, 1):
            for byte in (1, 255):
                yield 'byte %d of entry %d is %d' % (6 + at, i, byte), with_byte(PACK, place(i, 'zero') + at, byte)


def of_order():
    for what, a, b in (('a tile twice', (5, 5), (5, 5)), ('the column falls', (5, 6), (5, 5)), ('the row falls', (6, 5), (5, 5)),
                       ('the row falls and the column rises', (6, 5), (5, 6)), ('row and column fall', (6, 6), (5, 5)),
                       ('columns 256 and 255', (0, 256), (0, 255)), ('columns 256 and 1', (0, 256), (0, 1)), ('rows 256 and 255', (256, 0), (255, 0)),
                       ('rows 256 and 1', (256, 0), (1, 0)), ('rows 256 and 1, the column rises', (256, 0), (1, 9)),
                       ('columns 65535 and 0', (9, 65535), (9, 0)), ('rows 65535 and 0', (65535, 9), (0, 9)),
                       ('columns 32768 and 32767', (0, 32768), (0, 32767)), ('rows 32768 and 32767', (32768, 0), (32767, 0)), ('the first tile twice', (0, 0), (0, 0)),
                       ('the last tile twice', (65535, 65535), (65535, 65535))):
        yield what, pack_of((*a, ONE), (*b, TWO))
    yield 'the third of three falls', pack_of((1, 2, ONE), (1, 4, TWO), (1, 3, SIX))
    yield 'the third of three is the first again', pack_of((1, 2, ONE), (1, 3, TWO), (1, 2, SIX))
    yield 'the third of three is the second again', pack_of((1, 2, ONE), (1, 3, TWO), (1, 3, SIX))
    yield 'column by column', pack_of((0, 0, ONE), (1, 0, TWO), (0, 1, SIX))


def of_starts():
    contents = FRONT + ENTRY * 2
    # what is between is there: each start says where its body is
    for what, gap in (('a zero', b'\0'), ('a byte', b'\xEE'), ('sixteen zeros', bytes(16)), ('a blob', TWO)):
        first, second = contents + len(gap), contents + len(ONE)
        yield what + ' between contents and first body', front(2) + entry(0, 0, ONE, first) + entry(0, 1, TWO, first + len(ONE)) + gap + ONE + TWO
        yield what + ' between two bodies', front(2) + entry(0, 0, ONE, contents) + entry(0, 1, TWO, second + len(gap)) + ONE + gap + TWO
        yield what + ' behind the last body', pack_of((0, 0, ONE), (0, 1, TWO)) + gap
    # each body is right, and lies where its entry says
    yield 'two tiles of one body', front(2) + entry(0, 0, ONE, contents) + entry(0, 1, ONE, contents) + ONE
    yield 'two tiles of one body, which is there twice', front(2) + entry(0, 0, ONE, contents) + entry(0, 1, ONE, contents) + ONE + ONE
    nest = constant(5, TWO)
    yield 'a body within the one before', front(2) + entry(0, 0, nest, contents) + entry(0, 1, TWO, contents + 70) + nest
    yield 'the bodies in another order', front(2) + entry(0, 0, ONE, contents + len(TWO)) + entry(0, 1, TWO, contents) + TWO + ONE
    yield 'the bodies in front of the contents', front(1) + entry(0, 0, TWO, FRONT) + TWO
    for i, blob in ((0, ONE), (1, TWO), (2, SIX)):
        for by in (-1, 1, -16, 256, 1 << 16, 1 << 24, 1 << 31):
            yield 'start of entry %d by %d' % (i, by), raised(PACK, i, 'start', by)
        for start in (0, len(PACK), (1 << 32) - len(blob), (1 << 32) - len(blob) + 1, (1 << 32) - 1):
            yield 'start of entry %d is %d' % (i, start), with_number(PACK, place(i, 'start'), start)
    yield 'a start from the end of the contents', with_number(SINGLE, place(0, 'start'), 0)
    yield 'a start from the entry\'s own place', with_number(SINGLE, place(0, 'start'), 16)
    yield 'a start with the first byte high', put(SINGLE, place(0, 'start'), struct.pack('>I', FRONT + ENTRY))


def of_kinds_and_depths():
    for kind in range(8):
        right = pack_of((0, 0, constant(kind)))
        for wrong in ((kind + 1) % 9, (kind - 1) % 256):
            yield 'kind %d, and %d in the entry' % (kind, wrong), with_byte(right, place(0, 'kind'), wrong)
    yield 'kind 3, and 131 in the entry', with_byte(PACK, place(0, 'kind'), 131)
    for i, (_, _, blob) in enumerate(BASE):
        depth = header(blob)['depth']
        for byte in sorted({depth, (depth - 2) % 256, 63, 64, depth + 63, 255}):
            yield 'depth %d, and %d less one in entry %d' % (depth, byte + 1, i), with_byte(PACK, place(i, 'depth'), byte)
    for depth, byte in ((64, 64), (64, 62), (63, 63), (64, 0), (64, 255), (1, 64)):
        right = pack_of((0, 0, constant(depth=depth)))
        yield 'depth %d, and %d less one' % (depth, byte + 1), with_byte(right, place(0, 'depth'), byte)
    yield 'the entries of two tiles, each with the other\'s kind', pack_with_kinds(1, 3)


def pack_with_kinds(a, b):
    right = pack_of((0, 0, constant(3)), (0, 1, constant(1)))
    return with_byte(with_byte(right, place(0, 'kind'), a), place(1, 'kind'), b)


def of_lengths():
    for i in range(3):
        for by in (-1, 1, 256, 1 << 16, 1 << 24, 1 << 31):
            yield 'length of entry %d by %d' % (i, by), raised(PACK, i, 'length', by)
        yield 'length of entry %d is 0' % i, with_number(PACK, place(i, 'length'), 0)
        yield 'length of entry %d is 69' % i, with_number(PACK, place(i, 'length'), 69)
        start = number_at(PACK, place(i, 'start'))
        for end in ((1 << 32) - 1, 1 << 32, len(PACK)):
            if number_at(PACK, place(i, 'length')) != end - start:
                yield 'length of entry %d up to %d' % (i, end), with_number(PACK, place(i, 'length'), end - start)
        yield 'length of entry %d is 2^32 - 1' % i, with_number(PACK, place(i, 'length'), (1 << 32) - 1)
    # starts and end are right by the lengths, and it is the blob's size that says otherwise
    for i in range(3):
        for what, other in (('a byte behind the blob', lambda blob: blob + b'\0'), ('the blob\'s last byte away', lambda blob: blob[:-1]),
                            ('a blob behind the blob', lambda blob: blob + constant(2)), ('70 bytes of the blob', lambda blob: blob[:70])):
            yield '%s of entry %d' % (what, i), pack_of(*((r, c, other(blob) if k == i else blob) for k, (r, c, blob) in enumerate(BASE)))
    yield 'a byte of one body counted to the other', raised(raised(PACK, 0, 'length', 1), 1, 'length', -1)
    shifted = raised(raised(raised(PACK, 0, 'length', 1), 1, 'length', -1), 1, 'start', 1)
    yield 'a byte of one body lies in the other', shifted
    yield 'no body at all', pack_of((0, 0, ONE), (0, 1, TWO))[:FRONT] + entry(0, 0, ONE, 40) + entry(0, 1, b'', 40 + len(ONE)) + ONE


def of_headers():
    for number, what, blob in broken():
        yield 'header refused %d: %s' % (number, what), pack_of((0, 0, ONE), (0, 1, blob), (0, 2, TWO))
    for i, what in ((0, 'first'), (2, 'last')):
        for number, named, blob in (next(b for b in broken() if b[0] == number) for number in (1, 2, 3, 4, 13)):
            tiles = ((r, c, blob if k == i else own) for k, (r, c, own) in enumerate(BASE))
            yield 'header refused %d: %s, of the %s tile' % (number, named, what), pack_of(*tiles)


def broken():
    """blobs whose headers are refused, each by one rule, but for what goes with it: the entry is as the header says, where it can be"""
    short = made(b'', size=71, low=10.0, high=10.0)
    yield 1, 'one byte less than the size', short
    yield 1, '69 bytes', constant()[:69]
    yield 1, '14 bytes', constant()[:14]
    for at in range(6):
        yield 2, 'byte %d of the key' % at, changed(TWO, at, bytes([TWO[at] ^ 32]))
    for version in (0, 3, 5, 6, 260, 4 << 24):
        yield 2, 'version %d' % version, constant(number=version)
    for what, named in (('no rows', dict(rows=0, valid=0)), ('no columns', dict(columns=0, valid=0)), ('no depth', dict(depth=0)), ('side 0', dict(side=0)),
                        ('valid 4 of 3', dict(valid=4)), ('kind 8', dict(kind=8)), ('kind 255', dict(kind=255)), ('an error below 0', dict(error=-1.0)),
                        ('an error of -0', dict(error=SIGN)), ('an error of 2^1023', dict(error=2046 << 52)), ('an error not finite', dict(error=INF)),
                        ('a minimum not finite', dict(low=SIGN + INF)), ('a minimum that is no number', dict(low=NAN)),
                        ('a maximum not finite', dict(high=INF)), ('a maximum below the minimum', dict(high=9.0)),
                        ('mask bytes past the size', dict(mask_bytes=1)), ('mask bytes of 2^32 - 1', dict(mask_bytes=(1 << 32) - 1))):
        yield 3, what, constant(**named)
    yield 3, 'size 69', made(b'', size=69, low=10.0, high=10.0)
    for what, named in (('4097 rows', dict(rows=4097, valid=1)), ('4097 columns', dict(columns=4097, valid=1)), ('depth 65', dict(depth=65)),
                        ('side 17', dict(side=17)), ('4198400 cells', dict(rows=4096, columns=1025, valid=1)),
                        ('4194305 cells', dict(rows=397, columns=2113, depth=5, valid=1)), ('depth 257', dict(depth=257))):
        yield 4, what, constant(**named)
    yield 4, 'a size of 16777217', made(b'', size=16777217, low=10.0, high=10.0)
    true = field_of(TWO)
    for what, field in (('0', 0), ('one more', true + 1), ('the halves changed about', true % 65536 << 16 | true >> 16), ('a bit', true ^ 1 << 31)):
        yield 13, 'the checksum is false: %s' % what, with_field(TWO, field)
    yield 13, 'the last byte is another', tampered(TWO, len(TWO) - 1, b'\0')
    yield 13, 'the error is another', tampered(TWO, 42, b'\1')
    row = ROWS[0]
    yield 13, 'the checksum of the sentences alone', with_field(summed(row), by_the_words(summed_part(summed(row))))


# --- entries and bodies by number -------------------------------------------------------------------------------------------------


def entries():
    """what, the slice, the count that is handed in, the number"""
    for i in range(3):
        yield 'entry %d of 3' % i, PACK, 3, i
    for what, count, i in (('one past the last', 3, 3), ('far past the last', 3, 65536), ('2^32', 3, 1 << 32), ('2^64 - 1', 3, LAST), ('none', 0, 0),
                           ('none, 2^64 - 1', 0, LAST), ('a count that is less', 2, 2), ('a count that is less', 1, 2), ('a count that is less, within', 2, 1),
                           ('a count that is more', 4, 3), ('a count that is more, within', 4, 2), ('a count past 256', 257, 2),
                           ('a count past 256', 1000, 256)):
        yield '%s: %d of %d' % (what, i, count), PACK, count, i
    # 16 times these is 0, or little, in 64 or 32 bits
    for i in (0, 1, 2, 3, 1 << 28, (1 << 28) + 1, 1 << 32, 1 << 59, 1 << 60, (1 << 60) + 1, (1 << 60) + 2, 1 << 61, 1 << 63, (1 << 63) + 1, LAST - 1, LAST):
        yield '%d of 2^64 - 1' % i, PACK, LAST, i
    for count, i in ((1 << 32, 0), ((1 << 32) + 1, 1), (1 << 63, 2)):
        yield '%d of %d' % (i, count), PACK, count, i
    yield 'the pack\'s own count is 2', with_number(PACK, 4, 2), 3, 2
    yield 'the pack\'s own count is 0', with_number(PACK, 4, 0), 3, 0
    yield 'the empty pack', NONE, 0, 0
    yield 'the empty pack, and a count of 1', NONE, 1, 0
    # a slice that is cut: each entry by itself
    for end in (0, 8, 23, 24, 39, 40, 56, 56 + len(ONE) - 1, 56 + len(ONE), 56 + len(ONE) + len(TWO), len(PACK) - 1):
        for i in range(3):
            yield '%d of 3, the first %d bytes' % (i, end), PACK[:end], 3, i
    yield from by_hand()


def by_hand():
    """nothing but the entry's 16 bytes and its body's place counts"""
    def slice_of(start, length, more=b'', fields=(9, 8, 255, 255, 65535), first=b'\xFF' * 8):
        return first + struct.pack(FORM, *fields, start, length) + more

    yield 'no field is right but the place', slice_of(24, 5, b'tiles'), 1, 0
    yield 'rows and columns of 65535', slice_of(24, 5, b'tiles', (65535, 65535, 8, 64, 1)), 1, 0
    # an entry that is cut is none, though zeros for what is missing would give it a body within the slice
    for end in (0, 1, 7, 8, 9, 15, 16, 20, 22, 23, 24):
        yield '%d zeros' % end, bytes(end), 1, 0
    for end in (24, 31, 32, 38, 39, 40):
        yield '%d zeros, the second' % end, bytes(end), 2, 1
    for end in (22, 23):
        yield 'the first %d bytes of an entry and its front' % end, slice_of(0, 0)[:end], 1, 0
    yield 'kind 128, depth 129', slice_of(25, 3, b'tiles', (256, 1, 128, 128, 256)), 1, 0
    yield 'the whole slice', slice_of(0, 29, b'tiles'), 1, 0
    yield 'the front', slice_of(0, 8), 1, 0
    yield 'the entry itself', slice_of(8, 16), 1, 0
    yield 'nothing, at 0', slice_of(0, 0), 1, 0
    yield 'nothing, at the end', slice_of(24, 0), 1, 0
    yield 'nothing, past the end', slice_of(25, 0), 1, 0
    yield 'nothing, far past the end', slice_of((1 << 32) - 1, 0), 1, 0
    yield 'the last byte', slice_of(28, 1, b'tiles'), 1, 0
    yield 'the last byte and one more', slice_of(28, 2, b'tiles'), 1, 0
    yield 'the first byte behind', slice_of(29, 1, b'tiles'), 1, 0
    yield 'all and one more', slice_of(0, 30, b'tiles'), 1, 0
    yield 'to 2^32', slice_of((1 << 32) - 4, 4, b'tiles'), 1, 0
    yield 'past 2^32', slice_of((1 << 32) - 4, 9, b'tiles'), 1, 0
    yield 'past 2^32 by all of it', slice_of((1 << 32) - 1, (1 << 32) - 1, b'tiles'), 1, 0
    yield 'from 5, 2^32 - 1', slice_of(5, (1 << 32) - 1, b'tiles'), 1, 0
    yield 'from 2^31, 2^31', slice_of(1 << 31, 1 << 31, b'tiles'), 1, 0
    yield 'a start with the first byte high', slice_of(24 << 24, 5, b'tiles'), 1, 0
    yield 'a length with the first byte high', slice_of(24, 5 << 24, b'tiles'), 1, 0
    yield 'the second, where the first is past the end', slice_of(90, 90, struct.pack(FORM, 1, 2, 3, 4, 5, 40, 5) + b'tiles'), 2, 1
    yield 'the first, past the end', slice_of(90, 90, struct.pack(FORM, 1, 2, 3, 4, 5, 40, 5) + b'tiles'), 2, 0
    broken_pack = pack_of((0, 0, ONE), (0, 1, tampered(TWO, 78, b'\0')))
    for i in range(2):
        yield 'a pack that is refused, tile %d' % i, broken_pack, 2, i
    twice = pack_of((5, 5, ONE), (5, 5, TWO))
    yield 'a tile twice', twice, 2, 1


# --- calls of the writer ----------------------------------------------------------------------------------------------------------


class Call:
    """rows, columns and lengths, the bodies end to end, and the room"""

    def __init__(self, what, tiles, bodies=None, room=None, rows=None, columns=None, lengths=None):
        self.what = what
        self.rows = [r for r, _, _ in tiles] if rows is None else rows
        self.columns = [c for _, c, _ in tiles] if columns is None else columns
        self.lengths = [len(blob) for _, _, blob in tiles] if lengths is None else lengths
        self.bodies = b''.join(blob for _, _, blob in tiles) if bodies is None else bodies
        self.room = FRONT + ENTRY * len(self.rows) + len(self.bodies) if room is None else room


def written():
    """calls that write"""
    for more in (0, 1, 5, 300):
        yield Call('no tiles, %d bytes more' % more, [], room=8 + more)
        yield Call('three tiles, %d bytes more' % more, BASE, room=len(PACK) + more)
    for kind in range(8):
        yield Call('kind %d' % kind, [(kind, 255 * kind, BLOCKS[kind])])
    for depth in (2, 63, 64):
        yield Call('depth %d' % depth, [(256, 255, constant(depth=depth))])
    yield Call('the last tile', [(65535, 65535, TWO)])
    for a, b in (((7, 1), (7, 2)), ((0, 1), (1, 0)), ((0, 65535), (1, 0)), ((0, 255), (0, 256)), ((1, 0), (256, 0)), ((32767, 0), (32768, 0)),
                 ((0, 0), (65535, 65535))):
        yield Call('from %d, %d to %d, %d' % (*a, *b), [(*a, TWO), (*b, SIX)])
    for at in ((255, 256), (256, 255), (258, 772), (4660, 43981)):
        yield Call('row %d, column %d' % at, [(*at, TWO)])
    for what, tiles in edges(200, 290):
        yield Call(what, tiles)
    yield Call('one blob, twice', [(0, 0, SIX), (0, 1, SIX)])
    yield Call('empty, raw, constant, blocks', [(0, 0, EMPTY[7]), (0, 2, RAW[0]), (1, 0, CONSTANT[7]), (1, 2, BLOCKS[5])])
    yield Call('a broken block, and 2 bytes more', [(0, 0, changed(TWO, 74, b'\2'))], room=8 + 16 + len(TWO) + 2)
    yield Call('16 tiles', grid(16, 4, esri))


def unwritten():
    """number and call; those of 12 with room for more, and again with none: '12, then 5'"""
    for what, tiles, size in (('no tiles', [], 8), ('one tile', [(0, 0, TWO)], 8 + 16 + len(TWO)), ('three tiles', BASE, len(PACK))):
        for room in sorted({0, 1, 7, size - 1, size - len(TWO), 8 + 16 * len(tiles)} - {size}):
            if 0 <= room < size:
                yield 5, Call('%s, room for %d of %d bytes' % (what, room, size), tiles, room=room)
    for what, tiles, named in wrong_calls():
        exact = Call(what, tiles, **named)
        yield 12, Call(what + ', room for more', tiles, room=exact.room + 40, **named)
        yield 12, Call(what + ', no room', tiles, room=0, **named)


def wrong_calls():
    rows, columns, lengths = [1, 1, 4], [2, 3, 0], [len(ONE), len(TWO), len(SIX)]
    bodies = ONE + TWO + SIX
    for name, right in (('rows', rows), ('columns', columns), ('lengths', lengths)):
        yield 'a number of %s fewer' % name, BASE, {name: right[:-1]}
        yield 'no %s' % name, BASE, {name: []}
        yield 'a number of %s more' % name, BASE, {name: right + [70 if name == 'lengths' else 9]}
    yield 'a length of 0 more, and as many rows and columns', BASE, dict(rows=rows + [5], columns=columns + [0], lengths=lengths + [0])
    # without the last body too, so that the lengths add up
    yield 'a length and a body fewer', BASE, dict(lengths=lengths[:2], bodies=ONE + TWO)
    yield 'a row, a length and a body fewer', BASE, dict(rows=rows[:2], lengths=lengths[:2], bodies=ONE + TWO)
    yield 'a column, a length and a body fewer', BASE, dict(columns=columns[:2], lengths=lengths[:2], bodies=ONE + TWO)
    yield 'a row and a column fewer', BASE, dict(rows=rows[:2], columns=columns[:2])
    yield 'a row and a column alone', [], dict(rows=[0], columns=[0])
    yield 'rows alone', [], dict(rows=[0])
    yield 'columns alone', [], dict(columns=[0])
    yield 'lengths alone', [], dict(lengths=[0])
    yield 'bodies alone', [], dict(bodies=TWO)
    yield 'one byte of bodies alone', [], dict(bodies=b'\0')
    yield 'a tile without bytes', [(0, 0, b'')], dict(lengths=[0])
    # the lengths do not add up to the bodies
    yield 'a byte behind the bodies', BASE, dict(bodies=bodies + b'\0')
    yield 'a blob behind the bodies', BASE, dict(bodies=bodies + TWO)
    yield 'the last byte of the bodies away', BASE, dict(bodies=bodies[:-1])
    yield 'no bodies', BASE, dict(bodies=b'')
    yield 'the last body away', BASE, dict(bodies=ONE + TWO)
    for by in (1, -1, 1 << 32, LAST - len(SIX)):
        yield 'the last length by %d' % by, BASE, dict(lengths=lengths[:2] + [lengths[2] + by])
    yield 'lengths that add up modulo 2^64', BASE, dict(lengths=[lengths[0], LAST, lengths[1] + lengths[2] + 1])
    yield 'lengths that add up modulo 2^64, the first', BASE, dict(lengths=[LAST, lengths[0] + lengths[1] + 1, lengths[2]])
    yield 'lengths of 2^63 twice', BASE, dict(lengths=[1 << 63, 1 << 63, sum(lengths)])
    yield 'lengths that add up modulo 2^32', BASE, dict(lengths=[lengths[0] + (1 << 32), *lengths[1:]])
    # they add up, and are not the sizes
    yield 'a byte of the second body counted to the first', BASE, dict(lengths=[lengths[0] + 1, lengths[1] - 1, lengths[2]])
    yield 'a byte of the second body counted to the third', BASE, dict(lengths=[lengths[0], lengths[1] - 1, lengths[2] + 1])
    yield 'two lengths changed about', BASE, dict(lengths=[lengths[1], lengths[0], lengths[2]])
    for i in range(3):
        tiles = [(r, c, blob + b'\0' if k == i else blob) for k, (r, c, blob) in enumerate(BASE)]
        yield 'tile %d has a byte behind its blob' % i, tiles, {}
        yield 'tile %d is a byte short' % i, [(r, c, blob[:-1] if k == i else blob) for k, (r, c, blob) in enumerate(BASE)], {}
    yield 'two blobs in one tile', [(0, 0, ONE + TWO)], {}
    for what, a, b in (('a tile twice', (5, 5), (5, 5)), ('the column falls', (5, 6), (5, 5)), ('the row falls', (6, 5), (5, 5)),
                       ('the row falls and the column rises', (6, 5), (5, 6)), ('rows 256 and 1', (256, 0), (1, 0)), ('columns 256 and 1', (0, 256), (0, 1)),
                       ('rows 32768 and 32767', (32768, 0), (32767, 0)), ('columns 65535 and 0', (9, 65535), (9, 0))):
        yield what, [(*a, ONE), (*b, TWO)], {}
    yield 'the third of three falls', [(1, 2, ONE), (1, 4, TWO), (1, 3, SIX)], {}
    yield 'the third of three is the second again', [(1, 2, ONE), (1, 3, TWO), (1, 3, SIX)], {}
    for number, what, blob in broken():
        yield 'header refused %d: %s' % (number, what), [(0, 0, ONE), (0, 1, blob)], {}
    for number in (2, 3, 4, 13):
        _, what, blob = next(b for b in broken() if b[0] == number)
        yield 'header refused %d: %s, of the first tile' % (number, what), [(0, 0, blob), (0, 1, TWO)], {}


# --- packs of 256 and 257 tiles, and past 65,536 bytes -----------------------------------------------------------------------------


FEWER, MOST, MORE = (grid(count, 16, lambda k: constant(k % 8)) for count in (TILES - 1, TILES, TILES + 1))
LESS, FULL, OVER = pack_of(*FEWER), pack_of(*MOST), pack_of(*MORE)
LONG = (0, 0, constant(4, bytes(66000), depth=2)), (0, 1, TWO), (0, 2, SIX)


def up_to(pack, i):
    """what is in front of a body: so that bodies far behind come with a case of their own"""
    return pack[:number_at(pack, place(i, 'start'))]


def large():
    """number, operation, and what it is given"""
    yield from long()
    for count, pack, tiles in ((256, FULL, MOST), (255, LESS, FEWER)):
        yield 12, OPEN, '%d tiles, cut behind the contents' % count, up_to(pack, 0)
        yield 0, OPEN, '%d tiles' % count, pack
        yield 0, READ, 'the last of %d' % count, pack, count, count - 1
        yield 12, READ, 'one past %d' % count, pack, count, count
        yield 12, READ, 'one past %d, and a count of %d' % (count, count + 1), pack, count + 1, count
        yield 0, WRITE, Call('%d tiles' % count, tiles, room=len(pack) + count % 2)
        yield 5, WRITE, Call('%d tiles, one byte short' % count, tiles, room=len(pack) - 1)
        last = count - 1
        for at in (0, 1):
            yield 12, OPEN, 'byte %d of the last entry of %d is 1' % (6 + at, count), with_byte(pack, place(last, 'zero') + at, 1)
        yield 12, OPEN, 'the last of %d is the one before' % count, put(pack, place(last, 'row'), pack[place(last - 1, 'row'):place(last - 1, 'kind')])
        yield 12, OPEN, 'the last of %d has another depth' % count, with_byte(pack, place(last, 'depth'), 1)
        yield 12, OPEN, 'a byte behind %d tiles' % count, pack + b'\0'
        yield 12, OPEN, '%d tiles without the last byte' % count, pack[:-1]
        yield 12, OPEN, 'count %d of %d' % (count + 1, count), with_number(pack, 4, count + 1)
        yield 12, OPEN, 'count %d of %d' % (count - 1, count), with_number(pack, 4, count - 1)
    yield 12, OPEN, '257 tiles, cut behind the contents', up_to(OVER, 0)
    yield 12, OPEN, '257 tiles', OVER
    yield 0, READ, 'the last of 257, which are refused', OVER, 257, 256
    yield 12, WRITE, Call('256 tiles, the last is the one before, and one byte short', MOST[:-1] + [(15, 14, MOST[-1][2])], room=len(FULL) - 1)
    yield 12, WRITE, Call('257 tiles', MORE)
    yield 12, WRITE, Call('257 tiles, no room', MORE, room=0)


def long():
    """bodies of more than 65,000 bytes, the longest first: nearly all of it are zeros"""
    for what, tiles in sorted([('a body of 66,070 bytes', LONG), *edges(65000, 65600)], key=lambda of: -len(of[1][0][2])):
        pack = pack_of(*tiles)
        second, length = number_at(pack, place(1, 'start')), number_at(pack, place(0, 'length'))
        yield 12, OPEN, what + ', cut behind it', up_to(pack, 1)
        yield 0, OPEN, what, pack
        yield 0, READ, what + ', by its number', pack, len(tiles), 0
        yield 0, READ, what + ', the next by its number', pack, len(tiles), 1
        yield 0, WRITE, Call(what, tiles)
        yield 5, WRITE, Call(what + ', one byte short', tiles, room=len(pack) - 1)
        yield 12, OPEN, what + ', the second start by 65,536', with_number(pack, place(1, 'start'), (second - 65536) % (1 << 32))
        yield 12, OPEN, what + ', its length by 65,536', with_number(pack, place(0, 'length'), (length - 65536) % (1 << 32))
