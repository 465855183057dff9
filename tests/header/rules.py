"""The header's rules over whole numbers: a binary64 is its bits, and two finite ones are compared by sign and magnitude; of the checksum
Esri's published code decides (tools/checksum.py). Written from the words of the rules alone, for the cases of headers and of packs."""
import os
import struct
import sys

sys.path.insert(0, os.path.join(os.path.dirname(os.path.abspath(__file__)), '../../tools'))
from checksum import checksum, stored, summed_part  # noqa: E402

SIGN = 1 << 63
NAMES = ['rows', 'columns', 'depth', 'valid', 'side', 'size', 'kind', 'error', 'min', 'max', 'mask']


class Refused(Exception):
    pass


def require(test, number):
    if not test:
        raise Refused(number)


def finite(w):
    return w >> 52 & 2047 != 2047


def order(w):
    """finite words in the order of their values, both zeros alike"""
    return -(w - SIGN) if w >= SIGN else w


def fields(blob):
    """the fields as they stand; zeros past the end"""
    return dict(zip(NAMES, struct.unpack('<7I3QI', blob[14:70].ljust(56, b'\0'))))


def held(h, length):
    pixels = h['rows'] * h['columns']
    require(h['rows'] >= 1 and h['columns'] >= 1 and h['depth'] >= 1 and h['side'] >= 1, 3)
    require(h['valid'] <= pixels, 3)
    require(h['kind'] <= 7, 3)
    require(h['error'] < SIGN and finite(h['error']) and h['error'] < 2046 << 52, 3)
    require(finite(h['min']) and finite(h['max']) and order(h['max']) >= order(h['min']), 3)
    require(h['size'] >= 70 + h['mask'], 3)
    require(h['rows'] <= 4096 and h['columns'] <= 4096, 4)
    require(h['depth'] <= 64, 4)
    require(pixels * h['depth'] <= 4194304, 4)
    require(h['side'] <= 16, 4)
    require(h['size'] <= 16777216, 4)
    require(length >= h['size'], 1)
    tiles = -(-h['rows'] // h['side']) * -(-h['columns'] // h['side'])
    return [('pixels', pixels), ('cells', pixels * h['depth']), ('mask', (pixels + 7) // 8), ('blocks', tiles * h['depth']),
            ('ranges', 70 + h['mask']), ('size', h['size'])]


def read_header(blob):
    require(len(blob) >= 70, 1)
    require(blob[:6] == b'Lerc2 ' and blob[6:10] == struct.pack('<I', 4), 2)
    h = fields(blob)
    held(h, len(blob))
    # "refusal 13, after the header's own refusals"; a header by value (held, read_ranges) is not tested
    require(stored(blob) == checksum(summed_part(blob)), 13)
    return [(name, h[name]) for name in NAMES]
