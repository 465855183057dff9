"""Where a refusal points, an offset from the blob's first byte, by the words of the rules: worked out from the header and the lengths of
what stands in front, and never taken from a program under test."""
import collections
import math
import struct

import blobs

# the sentences of the rules
FLAG = 'the flag byte for any refusal inside a block'
NUMBER = 'for 7 the first byte of the first wrong number, depth by depth, minimum before maximum, the maximum where it is the lesser'
COUNT = '66 for 6'
FRONT = 'the sweep or mode byte for a fault in it, 10 included, or where the missing one should be'
WORD = 'the missing raw word\'s first byte'
FIRST = 'the first range byte where the ranges do not fit'
ELSE = '0 for all else'

# where the header has its count of mask bytes
MASK_BYTES = 66


def ranges_at(blob):
    """the first byte of the ranges: behind the header and the mask section"""
    return 70 + blobs.header(blob)['mask']


def sweep_at(blob):
    """behind minima and maxima"""
    h = blobs.header(blob)
    return ranges_at(blob) + 2 * h['depth'] * blobs.SIZES[h['kind']]


def mode_at(blob):
    return sweep_at(blob) + 1


def wrong_range_at(blob):
    """the first byte of the first wrong number: depth by depth, minimum before maximum, the maximum where it is the lesser"""
    h = blobs.header(blob)
    at, depth, size = ranges_at(blob), h['depth'], blobs.SIZES[h['kind']]
    numbers = struct.unpack_from('<%d%s' % (2 * depth, blobs.CODES[h['kind']]), blob, at)
    for d in range(depth):
        low, high = numbers[d], numbers[depth + d]
        if not math.isfinite(low):
            return at + d * size
        if not math.isfinite(high) or high < low:
            return at + (depth + d) * size
    raise ValueError('the ranges are right')


def raw_word_at(blob):
    """the first byte of the first raw word that is not whole within the size"""
    h = blobs.header(blob)
    first, size = sweep_at(blob) + 1, blobs.SIZES[h['kind']]
    whole = (h['size'] - first) // size
    assert whole < h['valid'] * h['depth']
    return first + whole * size


def tile_valid(h, mask, number):
    """the valid pixels of a tile"""
    side, columns = h['side'], h['columns']
    y, x = (side * n for n in divmod(number, -(-columns // side)))
    tile = [r * columns + c for r in range(y, min(y + side, h['rows'])) for c in range(x, min(x + side, columns))]
    return sum(blobs.is_valid(mask, p) for p in tile)


def flag_at(blob, number, kept=None):
    """where a block begins, or should: behind those in front of it, which are right; their valid pixels may be those of a kept mask"""
    h = blobs.header(blob)
    mask, _ = blobs.mask_of(blob, h, kept)
    at = mode_at(blob) + (h['kind'] < 2 and h['error'] == 0.5)
    for n in range(number):
        at = blobs.past_block(blob, at, h['kind'], tile_valid(h, mask, n // h['depth']))
    return at


# --- sites: a sentence, and the function from a blob and the mask kept before the call to the place ---------------------------------

Site = collections.namedtuple('Site', 'sentence place')


def at_block(number):
    """the flag byte of a block, there or missing"""
    return Site(FLAG, lambda blob, kept: flag_at(blob, number, kept))


AT_ZERO = Site(ELSE, lambda blob, kept: 0)
AT_MASK = Site(COUNT, lambda blob, kept: MASK_BYTES)
AT_RANGES = Site(FIRST, lambda blob, kept: ranges_at(blob))
AT_NUMBER = Site(NUMBER, lambda blob, kept: wrong_range_at(blob))
AT_SWEEP = Site(FRONT, lambda blob, kept: sweep_at(blob))
AT_MODE = Site(FRONT, lambda blob, kept: mode_at(blob))
AT_WORD = Site(WORD, lambda blob, kept: raw_word_at(blob))
