"""Blobs that the C examples refuse, and the line of each: number and place are worked out here from the words of the rules."""
import os
import struct
import sys

sys.path.insert(0, os.path.join(os.path.dirname(os.path.abspath(__file__)), '../read'))
from offsets import MASK_BYTES, flag_at, mode_at, ranges_at, raw_word_at, sweep_at, wrong_range_at  # noqa: E402
from blobs import changed, made, tampered  # noqa: E402
from checksum import stored, with_field  # noqa: E402
from hand import odd_rows  # noqa: E402

# two of three pixels are valid
MASK = bytes.fromhex('0100A00080')
WHOLE = bytes.fromhex('0A0C0000010A820324')
NAN, INF = float('nan'), float('inf')


def line(number, place):
    return 'refused %d at %d' % (number, place)


def both(name, blob, step, number, place):
    """the whole read and a step of the blocks give the same number and place"""
    return name, blob, line(number, place), '%s %s' % (step, line(number, place))


def with_stage(name, blob, read, blocks):
    """staging refuses what a whole read refuses, and what it accepts is published"""
    return name, blob, read, blocks, 'stage ' + read if read else None


def headers():
    whole = made(WHOLE, error=0.5)
    for name, blob, number in (('nothing', b'', 1), ('69 bytes', whole[:69], 1), ('78 of 79 bytes', whole[:78], 1),
                               ('another key', changed(whole, 0, b'M'), 2), ('kind 8', changed(whole, 38, b'\x08'), 3),
                               ('side 17', changed(whole, 30, b'\x11'), 4)):
        yield both(name, blob, 'header', number, 0)


def checksums():
    """13 at 0 by header reading and whole read, behind what the header is refused for otherwise"""
    whole = made(WHOLE, error=0.5)
    for name, field in [('checksum 0', 0), ('bytes turned', int.from_bytes(whole[10:14], 'big'))] + [
            ('bit %d' % bit, stored(whole) ^ 1 << bit) for bit in range(0, 32, 5)]:
        yield both(name, with_field(whole, field), 'header', 13, 0)
    for name, at in (('the minimum', 56), ('the last byte', 78)):
        yield both(name + ' changed', tampered(whole, at, bytes([whole[at] ^ 1])), 'header', 13, 0)
    for row, blob in odd_rows():
        yield both('an odd size, ' + row.why, with_field(blob, row.false), 'header', 13, 0)
    for name, at, piece, number in (('kind 8', 38, b'\x08', 3), ('side 17', 30, b'\x11', 4), ('size 80', 34, b'\x50', 1)):
        yield both(name + ', checksum 0', tampered(with_field(whole, 0), at, piece), 'header', number, 0)


def masks():
    for name, valid, mask in (('a run of 0', 2, b'\0\0\0\x80'), ('another count', 1, MASK), ('no mask to reuse', 2, b''),
                              ('mask bytes where all are valid', 3, MASK), ('mask bytes where none is', 0, MASK)):
        yield both(name, made(b'\x0A\x0C\0\x03\x0B', valid=valid, mask=mask), 'mask', 6, MASK_BYTES)


def ranges():
    for valid, mask in ((3, b''), (2, MASK)):
        blob = made(b'\x0A', valid=valid, mask=mask)
        yield both('ranges cut', blob, 'ranges', 1, ranges_at(blob))
        for numbers in ((NAN, NAN, NAN, NAN), (1, NAN, 2, 3), (1, NAN, 0, 3), (1, NAN, INF, 3), (1, 2, 0, 3), (1, 2, 1, -INF), (1, 2, 1, 1.5)):
            blob = made(struct.pack('<4f', *numbers), depth=2, kind=6, valid=valid, mask=mask)
            yield both('ranges %s' % (numbers,), blob, 'ranges', 7, wrong_range_at(blob))


def front_bytes():
    for valid, mask in ((3, b''), (2, MASK)):
        for tail, number in ((b'', 1), (b'\x02', 8), (b'\xFF\0\0', 8)):
            blob = made(b'\x0A\x0C' + tail, valid=valid, mask=mask)
            yield both('sweep byte %s' % tail.hex(), blob, 'walk', number, sweep_at(blob))
        for tail, number in ((b'', 1), (b'\x03', 8), (b'\xFF', 8)):
            blob = made(b'\x0A\x0C\0' + tail, valid=valid, mask=mask, error=0.5)
            yield both('mode byte %s' % tail.hex(), blob, 'walk', number, mode_at(blob))


def images():
    """Huffman images: a walk refuses each, right or wrong, at the mode byte, where a whole read refuses the wrong ones"""
    # symbols 10, 11 and 12 have the codes 0, 10 and 11; the run 10, 11, 12 is 0 10 11 too
    table, symbols = bytes.fromhex('02000000 0D000000 0A000000 0D000000 820329 00000058'), bytes.fromhex('00000058 00000000')
    rows = (('right', table + symbols, None), ('no table', b'', 1), ('version 1', b'\1' + table[1:] + symbols, 8),
            ('size 257', table[:4] + b'\1\1' + table[6:] + symbols, 8), ('a code begins another', table[:-1] + b'\x48' + symbols, 8),
            ('a table that is cut', table[:-1], 1), ('no symbols', table, 1), ('no word behind them', table + symbols[:-1], 1),
            ('unknown bits', table[:12] + b'\x0C\0\0\0\x82\x02\x09\0\0\0\x40' + symbols, 8))
    for name, image, number in rows:
        for mode in (1, 2):
            blob = made(b'\x0A\x0C\0' + bytes([mode]) + image, error=0.5)
            yield 'Huffman %d, %s' % (mode, name), blob, line(number, mode_at(blob)) if number else None, 'walk ' + line(10, mode_at(blob))


def blocks():
    """each fault in block 0, and behind a right one"""
    faults = (('', 1), ('03', 1), ('000A', 1), ('010A8203', 1), ('070A', 8), ('430A', 8), ('010AC2', 8), ('010A820100', 8))
    for fault, number in faults:
        blob = made(bytes.fromhex('0A0C00' + fault))
        yield both('block 0 %s' % fault, blob, 'walk', number, flag_at(blob, 0))
        blob = made(bytes.fromhex('0A0A0C0C00 030B' + fault), depth=2, valid=2, mask=MASK)
        yield both('block 1 %s' % fault, blob, 'walk', number, flag_at(blob, 1))


def other_bodies():
    """a walk refuses bodies without blocks, a whole read those of them that are wrong; None is for a blob that it accepts"""
    nothing = 'walk ' + line(10, 0)
    # ranges that are read by themselves must be there, whether a pixel is valid or not
    empty = made(b'', valid=0)
    yield 'empty', empty, None, 'ranges ' + line(1, ranges_at(empty))
    yield 'empty behind ranges', made(b'\x0A\x0C', valid=0), None, nothing
    yield 'constant', made(b'', low=5.0, high=5.0), None, nothing
    yield 'constant of 300', made(b'', low=300.0, high=300.0), line(9, 0), nothing
    # checksums of odd sizes, by Esri's code
    for row, blob in odd_rows():
        yield 'an odd size, ' + row.why, blob, None, None if 'block' in row.why else 'walk ' + line(10, sweep_at(blob))
    words = struct.pack('<5H', 10, 12, 10, 11, 12)
    for length in range(7):
        blob = made(words[:4] + b'\1' + words[4:4 + length], kind=2)
        yield 'raw, %d bytes' % length, blob, line(1, raw_word_at(blob)) if length < 6 else None, 'walk ' + line(10, sweep_at(blob))


def cases():
    """name, blob, the line of `read` or None where it accepts, the last line of `blocks`, that of `stage`"""
    rows = [*headers(), *checksums(), *masks(), *ranges(), *front_bytes(), *images(), *blocks(), *other_bodies()]
    return [with_stage(*row) for row in rows]


def planted():
    """right blobs with a line that is wrong in one thing: the comparison must find each"""
    blob = made(bytes.fromhex('0A0C00 070A'))
    at = flag_at(blob, 0)
    for number, place in ((8, at + 1), (8, 0), (1, at)):
        yield with_stage(*both('planted', blob, 'walk', number, place))
    right = both('planted', blob, 'walk', 8, at)
    for stage in ('stage ' + line(8, 0), 'stage ' + line(3, at), 'publish ' + line(8, at), None):
        yield (*right, stage)
