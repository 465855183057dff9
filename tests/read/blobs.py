"""Blobs as the rules describe them: written by hand, and measured (mask, kind of body, block starts, end). No cell is decoded here.
What is written here has a true checksum, but for what `tampered` gives."""
import os
import struct
import sys

sys.path.insert(0, os.path.join(os.path.dirname(os.path.abspath(__file__)), '../../tools'))
from checksum import sealed  # noqa: E402

SIZES = (1, 1, 2, 2, 4, 4, 4, 8)
CODES = 'bBhHiIfd'
# kinds of the offset by the blob's kind and flag/64
OFFSETS = ((0,), (1,), (2, 1, 0), (3, 1), (4, 3, 2, 1), (5, 3, 1), (6, 2, 1), (7, 6, 4, 2))
NAMES = ('rows', 'columns', 'depth', 'valid', 'side', 'size', 'kind', 'error', 'low', 'high', 'mask')
END = b'\x00\x80'


def header(blob):
    """the fields as they stand; zeros past the end"""
    return dict(zip(NAMES, struct.unpack_from('<7I3dI', blob[:70].ljust(70, b'\0'), 14)))


def version(blob):
    return struct.unpack_from('<I', blob, 6)[0]


def needs(h):
    """bytes of the mask, entries of the list, cells of the image"""
    pixels = h['rows'] * h['columns']
    tiles = -(-h['rows'] // h['side']) * -(-h['columns'] // h['side'])
    return (pixels + 7) // 8, tiles * h['depth'], pixels * h['depth']


def mask_of(blob, h, kept=None):
    """the mask in force and whether it is new, where the mask section is right"""
    n, _, _ = needs(h)
    if h['valid'] in (0, h['rows'] * h['columns']):
        return bytes([255 if h['valid'] else 0]) * n, True
    if h['mask'] == 0:
        return kept, False
    out, at = b'', 70
    while blob[at:at + 2] != END:
        run = struct.unpack_from('<h', blob, at)[0]
        out += blob[at + 2:at + 2 + run] if run > 0 else blob[at + 2:at + 3] * -run
        at += 2 + (run if run > 0 else 1)
    assert at + 2 == 70 + h['mask'] and len(out) == n
    return out, True


def is_valid(mask, p):
    return mask[p // 8] >> 7 - p % 8 & 1


def past_counts(blob, at):
    """how many packed counts, and the place behind them"""
    head, wide = blob[at], (4, 2, 1)[blob[at] // 64]
    n, bits = int.from_bytes(blob[at + 1:at + 1 + wide], 'little'), head % 32
    at += 1 + wide
    if head // 32 % 2 == 0:
        return n, at + (n * bits + 7) // 8
    entries = blob[at]
    return n, at + 1 + ((entries - 1) * bits + 7) // 8 + (n * (entries - 1).bit_length() + 7) // 8


def past_block(blob, at, kind, valid):
    flag, low = blob[at], blob[at] % 4
    if low == 0:
        return at + 1 + valid * SIZES[kind]
    if low == 2:
        return at + 1
    at += 1 + SIZES[OFFSETS[kind][flag // 64]]
    if low == 3:
        return at
    n, end = past_counts(blob, at)
    assert n == valid
    return end


def walk(blob, h, mask, at):
    """the starts of the blocks and the place behind the last"""
    starts, side, columns = [], h['side'], h['columns']
    for y in range(0, h['rows'], side):
        for x in range(0, columns, side):
            tile = [(r, c) for r in range(y, min(y + side, h['rows'])) for c in range(x, min(x + side, columns))]
            valid = sum(is_valid(mask, r * columns + c) for r, c in tile)
            for _ in range(h['depth']):
                assert blob[at] // 4 % 16 == x // 8 % 16
                starts.append(at)
                at = past_block(blob, at, h['kind'], valid)
    assert at <= h['size']
    return starts, at


def body(blob, h, mask):
    """the kind of body, the starts of its blocks, its end"""
    at, depth, size = 70 + h['mask'], h['depth'], SIZES[h['kind']]
    if h['valid'] == 0:
        return 'empty', [], 70
    if h['low'] == h['high']:
        return 'constant', [], at
    pairs = struct.unpack_from('<%d%s' % (2 * depth, CODES[h['kind']]), blob, at)
    at += 2 * depth * size
    if pairs[:depth] == pairs[depth:]:
        return 'constant', [], at
    if blob[at] == 1:
        return 'raw', [], at + 1 + h['valid'] * depth * size
    assert blob[at] == 0
    at += 1
    if h['kind'] < 2 and h['error'] == 0.5:
        if blob[at] in (1, 2):
            return 'huffman', [], at
        assert blob[at] == 0
        at += 1
    starts, end = walk(blob, h, mask, at)
    return 'blocks', starts, end


def made(tail, rows=1, columns=3, depth=1, valid=None, side=8, size=None, kind=1, error=1.0, low=10.0, high=12.0, mask=b'', number=4,
         key=b'Lerc2 ', mask_bytes=None):
    """A blob: the rules' own example, but for what is named; error, low and high also as bits. Where the size is more than there is,
    no checksum is true, and the field is 0xC0DE."""
    reals = b''.join(struct.pack('<Q' if isinstance(v, int) else '<d', v) for v in (error, low, high))
    valid = rows * columns if valid is None else valid
    size = 70 + len(mask) + len(tail) if size is None else size
    mask_bytes = len(mask) if mask_bytes is None else mask_bytes
    head = key + struct.pack('<9I', number, 0xC0DE, rows, columns, depth, valid, side, size, kind)
    return sealed(head + reals + struct.pack('<I', mask_bytes) + mask + tail)


def tampered(blob, at, piece):
    """other bytes, and the checksum as it stood"""
    return blob[:at] + piece + blob[at + len(piece):]


def changed(blob, at, piece):
    """other bytes, and a true checksum again: what is shown is another refusal than 13"""
    return sealed(tampered(blob, at, piece))
