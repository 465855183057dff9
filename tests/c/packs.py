"""Packs for the C example `pack`, and what it writes of each: worked out here from the words of the rules, tile by tile from
refused.py. A pack is right, or it is refused 12 at 0 for one rule that it breaks."""
import struct

import refused
from blobs import header, made

KINDS = ('i8', 'u8', 'i16', 'u16', 'i32', 'u32', 'f32', 'f64')
LINE = '%5s %6s %-4s %-14s %s'
FRONT, EACH, MOST = 8, 16, 256
NONE = ['refused 12 at 0']


class Tile:
    """a blob with its place in the field, and its answer, as the last column of the table has it"""

    def __init__(self, row, column, blob, answer='accepted'):
        self.row, self.column, self.blob, self.answer = row, column, blob, answer

    def line(self):
        h = header(self.blob)
        return LINE % (self.row, self.column, KINDS[h['kind']], '%(rows)dx%(columns)dx%(depth)d' % h, self.answer)


def packed(tiles):
    start, entries = FRONT + EACH * len(tiles), b''
    for t in tiles:
        h = header(t.blob)
        entries += struct.pack('<HHBBHII', t.row, t.column, h['kind'] % 256, (h['depth'] - 1) % 256, 0, start, len(t.blob))
        start += len(t.blob)
    return struct.pack('<II', 1, len(tiles)) + entries + b''.join(t.blob for t in tiles)


def table(tiles):
    """all that is written of a right pack, and the status"""
    out = sum(t.answer != 'accepted' for t in tiles)
    lines = [LINE % ('row', 'column', 'kind', 'size', 'answer')] + [t.line() for t in tiles]
    return lines + ['%d tiles, %d accepted, %d refused' % (len(tiles), len(tiles) - out, out)], 1 if out else 0


def in_field(blobs):
    """tiles in rows of sixteen, of pairs of a blob and its answer"""
    return [Tile(n // 16, n % 16, blob, answer) for n, (blob, answer) in enumerate(blobs)]


def is_refused(blocks):
    """whether the header itself is, by what the program `blocks` says"""
    return blocks is not None and blocks.startswith('header ')


def in_packs(blobs):
    for n in range(0, len(blobs), MOST):
        tiles = in_field(blobs[n:n + MOST])
        yield ('blobs from %d on' % n, packed(tiles), *table(tiles))


def few():
    """two tiles of one row and one of another; the middle one has a wrong block"""
    whole, wrong = made(bytes.fromhex('0A0C0000010A820324'), error=0.5), made(bytes.fromhex('0A0C0000050A820324'), error=0.5)
    deep = made(struct.pack('<10h', 10, 10, 12, 12, *([10] * 6)).replace(b'\x0C\0\x0A', b'\x0C\0\1\x0A', 1), depth=2, kind=2)
    return [Tile(2, 513, whole), Tile(2, 514, wrong, 'refused 8 at 74'), Tile(770, 0, deep)]


def entry_at(number, behind):
    return FRONT + EACH * number + behind


def with_piece(pack, at, piece):
    return pack[:at] + piece + pack[at + len(piece):]


def breaches():
    """each rule, broken by itself"""
    right = packed(few())
    numbers = (('version 2', 0, '<B', 2), ('a 1 behind it', 1, '<B', 1), ('a tile less', 4, '<I', 2), ('a tile more', 4, '<I', 4),
               ('257 tiles', 4, '<I', 257), ('the same place', entry_at(1, 2), '<H', 513), ('a lesser row', entry_at(2, 0), '<H', 1),
               ('another kind', entry_at(0, 4), '<B', 0), ('kind 8', entry_at(0, 4), '<B', 8), ('another depth', entry_at(2, 5), '<B', 2),
               ('no zeros', entry_at(0, 6), '<H', 256), ('a start', entry_at(1, 8), '<I', 136), ('a length', entry_at(0, 12), '<I', 78))
    for name, at, form, number in numbers:
        yield name, with_piece(right, at, struct.pack(form, number))
    for name, pack in (('nothing', b''), ('7 bytes', right[:7]), ('cut', right[:-1]), ('a byte more', right + b'\0'),
                       ('one blob', few()[0].blob)):
        yield name, pack
    # and a blob that is longer than it says, which alone would be read
    yield 'bytes behind a blob', packed([Tile(0, 0, few()[0].blob + b'\0')])


def cases(stored):
    """name, pack, the lines of `pack` and its status; stored blobs are accepted"""
    known = [(blob, blocks, read) for _, blob, read, blocks, _ in refused.cases()]
    right = [(blob, read or 'accepted') for blob, blocks, read in known if not is_refused(blocks)]
    yield from in_packs([(blob, 'accepted') for blob in stored])
    yield from in_packs(right)
    yield ('few', packed(few()), *table(few()))
    yield ('no tiles', b'\1' + bytes(7), *table([]))
    for blob, blocks, _ in known:
        if is_refused(blocks):
            yield 'a header that is refused', packed([few()[0], Tile(770, 1, blob)]), NONE, 1
    for name, pack in breaches():
        yield name, pack, NONE, 1


def planted():
    """a right pack with a text or a status that is wrong in one thing: the comparison must find each"""
    tiles = few()
    pack, (lines, status) = packed(tiles), table(tiles)
    for wrong in (lines[:1] + lines[2:], [lines[0], lines[2], lines[1], *lines[3:]], [line.replace('at 74', 'at 75') for line in lines],
                  [line.replace('refused 8', 'accepted 8') for line in lines], lines[:-1], NONE):
        yield 'planted', pack, wrong, status
    yield 'planted', pack, lines, 0
    yield 'planted', packed(tiles[:1]), table(tiles[:1])[0], 1
    yield 'planted', packed(tiles)[:-1], NONE, 0
