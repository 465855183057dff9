#!/usr/bin/env python3
"""Writes the inputs of lerc_program_cases, and what the program must write of them.

    python3 tests/program/make.py

In crates/lerc_program_cases/data input i is file i, and `names` lists them with the sentence of the rules; crates/lerc_program_cases/stdout
has for each a line with its number and length, then its text. No text comes from the program under test: the blobs are encoded here from
cells that are known beforehand, and a refusal's number is written beside its blob; its place is worked out from the blob by the words of
the rules (tests/read/offsets.py), and is 0 where they name none. The blocks and the end of an encoded blob must be those that
tests/read/blobs.py measures.
"""
import glob
import os
import struct
import sys

ROOT = os.path.join(os.path.dirname(os.path.abspath(__file__)), '../..')
sys.path.insert(0, os.path.join(ROOT, 'tests/read'))
import blobs  # noqa: E402
from blobs import CODES, changed, made, tampered  # noqa: E402
from checksum import checksum, stored, with_field  # noqa: E402
from hand import BEHIND, BLOCK, CODE, FALSE, P7, SUMMED, WHOLE, ZERO as NEVER, hexed, odd_rows, pairs, u32  # noqa: E402
from offsets import FIRST, FLAG, FRONT, NUMBER, WORD  # noqa: E402
from offsets import MASK_BYTES, flag_at, mode_at, ranges_at, raw_word_at, sweep_at, wrong_range_at  # noqa: E402

CASES = os.path.join(ROOT, 'crates/lerc_program_cases')
BYTES, CELLS = 16384, 4096
NAN = float('nan')
RULES = """width 3 height 1 depth 1 kind 1 valid 3
blocks 1
cell 0 10
cell 1 11
cell 2 12
end 79
"""
LONG = 'over 16,384 bytes: 4'
MANY = 'over 4,096 cells: 5'
OTHER = 'other bodies "blocks 0"'
DASH = 'invalid cells show "-"'
WORDS = 'words are unsigned decimals'

RAW, PACKED, ZERO, LEVEL, TABLE = 0, 1, 2, 3, 5


# --- texts ------------------------------------------------------------------------------------------------------------------------


def refused(number, place=0):
    return 'refused %d at %d\n' % (number, place)


def word(value, kind):
    """a value's own bits as a number"""
    return int.from_bytes(struct.pack('<' + CODES[kind], value), 'little')


def text(blob, cells, blocks, end):
    """the program's text: `cells` are words, or None where the pixel is invalid"""
    h = blobs.header(blob)
    lines = ['width %d height %d depth %d kind %d valid %d' % tuple(h[k] for k in ('columns', 'rows', 'depth', 'kind', 'valid'))]
    lines += ['blocks %d' % blocks] + ['cell %d %s' % (i, '-' if w is None else w) for i, w in enumerate(cells)] + ['end %d' % end]
    return '\n'.join(lines) + '\n'


# --- blobs out of their cells -----------------------------------------------------------------------------------------------------


def run(values, bits):
    """values of so many bits, lowest bit first"""
    return sum(v << bits * k for k, v in enumerate(values)).to_bytes((len(values) * bits + 7) // 8, 'little')


def packed(counts, by_table):
    """packed counts, as they are or by a table whose entry 0 is zero"""
    n, bits = len(counts), max(1, max(counts).bit_length())
    assert bits < 32
    head, count = (128, bytes([n])) if n < 256 else (64, struct.pack('<H', n))
    if not by_table:
        return bytes([head + bits]) + count + run(counts, bits)
    table = sorted({0, *counts})
    indices = run([table.index(q) for q in counts], (len(table) - 1).bit_length())
    return bytes([head + 32 + bits]) + count + bytes([len(table)]) + run(table[1:], bits) + indices


def block(form, values, x, kind, step):
    """one block of the tile at column x: low two bits of the flag, x/8 above them"""
    flag = bytes([x // 8 % 16 * 4 + form % 4])
    if form == RAW:
        return flag + struct.pack('<%d%s' % (len(values), CODES[kind]), *values)
    if form == ZERO:
        return flag
    least = min(values)
    flag += struct.pack('<' + CODES[kind], least)
    return flag if form == LEVEL else flag + packed([int((v - least) / step) for v in values], form == TABLE)


def form_of(values, turn):
    """zero, level, or one after the other raw words, counts, counts by a table"""
    if not any(values):
        return ZERO
    return (RAW, PACKED, TABLE)[turn % 3] if len(set(values)) > 1 else LEVEL


def tiles(rows, columns, side):
    """each tile's column, and its pixels"""
    for y in range(0, rows, side):
        for x in range(0, columns, side):
            yield x, [r * columns + c for r in range(y, min(y + side, rows)) for c in range(x, min(x + side, columns))]


def mask_section(invalid, pixels):
    """one run that copies all bytes"""
    if not invalid:
        return b''
    mask = bytearray((pixels + 7) // 8)
    for p in range(pixels):
        if p not in invalid:
            mask[p // 8] |= 128 >> p % 8
    return struct.pack('<h', len(mask)) + bytes(mask) + blobs.END


def encoded(values, rows, columns, depth=1, side=8, kind=1, step=1.0, invalid=(), raw=False, behind=b''):
    """the blob of an image (pixel by pixel, each pixel's depths together), in blocks or raw words, and its text"""
    pixels = [p for p in range(rows * columns) if p not in invalid]
    of_depth = [[values[p * depth + d] for p in pixels] for d in range(depth)]
    tail = struct.pack('<%d%s' % (2 * depth, CODES[kind]), *map(min, of_depth), *map(max, of_depth)) + bytes([raw])
    if not raw and kind < 2 and step == 1.0:
        tail += b'\0'
    shown = [(x, [p for p in tile if p not in invalid], d) for x, tile in tiles(rows, columns, side) for d in range(depth)]
    if raw:
        tail += block(RAW, [values[p * depth + d] for p in pixels for d in range(depth)], 0, kind, step)[1:]
    for turn, (x, tile, d) in enumerate([] if raw else shown):
        inside = [values[p * depth + d] for p in tile]
        tail += block(form_of(inside, turn), inside, x, kind, step)
    blob = made(tail + behind, rows, columns, depth, len(pixels), side, None, kind, step / 2, float(min(map(min, of_depth))),
                float(max(map(max, of_depth))), mask_section(invalid, rows * columns))
    cells = [None if i // depth in invalid else word(v, kind) for i, v in enumerate(values)]
    blocks, end = 0 if raw else len(shown), len(blob) - len(behind)
    measured = blobs.body(blob, blobs.header(blob), blobs.mask_of(blob, blobs.header(blob))[0])
    assert (blocks, end) == (len(measured[1]), measured[2])
    return blob, text(blob, cells, blocks, end)


def constant(value, kind, invalid=(), **shape):
    """nothing behind the mask: each valid cell is the minimum"""
    pixels, depth = shape.get('rows', 1) * shape.get('columns', 3), shape.get('depth', 1)
    mask = mask_section(invalid, pixels)
    blob = made(b'', valid=pixels - len(invalid), kind=kind, low=value, high=value, mask=mask, **shape)
    number = value if kind > 5 else int(value)
    cells = [None if i // depth in invalid else word(number, kind) for i in range(pixels * depth)]
    return blob, text(blob, cells, 0, 70 + len(mask))


# --- inputs -----------------------------------------------------------------------------------------------------------------------


def full():
    """16,384 bytes to the last: 3,948 binary32 words behind a mask of 4,072 pixels"""
    invalid = set(range(5, 4072, 33))
    values = [struct.unpack('<f', u32((p * 2654435761 + 12345) % (1 << 32) & 0xBFFFFFFF))[0] for p in range(4072)]
    blob, said = encoded(values, 8, 509, kind=6, invalid=invalid, raw=True)
    assert len(blob) == BYTES and said.endswith('end 16384\n')
    return blob, said


def lengths():
    whole, (blob, said) = made(WHOLE, error=0.5), full()
    yield 'the rules\' own blob', 'whole blob (79 bytes)', whole, RULES
    yield 'nothing', 'the slice is shorter than 70: 1', b'', refused(1)
    yield 'one byte', 'the slice is shorter than 70: 1', b'L', refused(1)
    yield '69 bytes', 'the slice is shorter than 70: 1', whole[:69], refused(1)
    yield '78 bytes of 79', 'the slice is shorter than its size: 1', whole[:78], refused(1)
    yield '80 bytes', BEHIND, whole + b'\xFF', RULES
    yield '16,383 bytes of 16,384', 'the slice is shorter than its size: 1', blob[:-1], refused(1)
    yield '16,384 bytes, all of them the blob\'s', 'at most 16,384 bytes; ' + DASH, blob, said
    yield '16,384 bytes, 79 the blob\'s', BEHIND, whole.ljust(BYTES, b'\xFF'), RULES
    yield '16,385 bytes, 16,384 the blob\'s', LONG, blob + b'\0', refused(4)
    yield '16,385 bytes, 79 the blob\'s', LONG, whole.ljust(BYTES + 1, b'\xFF'), refused(4)
    yield '16,385 bytes, all of them the blob\'s', LONG, changed(blob, 34, u32(BYTES + 1)) + b'\0', refused(4)
    yield '20,000 bytes', LONG, whole.ljust(20000, b'\0'), refused(4)
    yield '65,615 bytes, 79 modulo 65,536', LONG, whole.ljust(65536 + 79, b'\0'), refused(4)
    yield '16,384 zeros', 'key or version differs: 2', bytes(BYTES), refused(2)
    yield '16,385 zeros', LONG + ', whatever the bytes', bytes(BYTES + 1), refused(4)
    yield '16,384 bytes, of 16,385', 'the slice is shorter than its size: 1', changed(blob, 34, u32(BYTES + 1)), refused(1)


def bodies():
    yield 'an invalid cell', DASH, *encoded([11, 0, 12], 1, 3, invalid={1}, raw=True)
    yield 'an invalid cell in a block', DASH, *encoded([7, 9, 0, 8, 8], 1, 5, invalid={2})
    yield 'raw', OTHER, *encoded([10, 11, 12], 1, 3, raw=True)
    yield 'raw, bytes behind', OTHER + '; ' + BEHIND, *encoded([10, 11, 12], 1, 3, raw=True, behind=b'\1\2\3')
    empty = made(b'', valid=0)
    yield 'empty', OTHER + '; valid 0: the body is empty and the end is 70', empty, text(empty, [None] * 3, 0, 70)
    tail = made(b'\x02\xFF', valid=0)
    yield 'empty, bytes behind', OTHER + '; valid 0: the body is empty and the end is 70', tail, text(tail, [None] * 3, 0, 70)
    yield 'constant', OTHER, *constant(5.0, 1)
    yield 'constant, cut toward zero', 'kinds 0 to 5 cut toward zero', *constant(-5.75, 2)
    yield 'constant behind a mask', OTHER + '; ' + DASH, *constant(-1.5, 7, invalid={0, 2, 9}, columns=10)
    yield 'constant, depth 64', OTHER, *constant(1.5, 6, depth=64)


def kinds():
    """each kind in blocks of 8 or less, its least and greatest among them"""
    ends = ((-128, 127), (0, 255), (-32768, 32767), (0, 65535), (-(1 << 31), (1 << 31) - 1), (0, (1 << 32) - 1))
    for kind, (low, high) in enumerate(ends):
        values = [low, high, 0] + [(p * 37) % 100 for p in range(3, 60)]
        yield 'kind %d' % kind, WORDS, *encoded(values, 6, 10, kind=kind, side=5)
    for kind in (6, 7):
        values = [-0.5, 1.5, 1024.0] + [p % 7 * 0.5 for p in range(3, 60)]
        yield 'kind %d' % kind, WORDS, *encoded(values, 6, 10, kind=kind, side=5, step=0.5)
    two = [(p * 5 + d * 90) % 128 for p in range(9 * 17) for d in range(2)]
    yield 'depth 2', 'depth innermost', *encoded(two, 9, 17, depth=2, side=8)
    yield 'depth 2, raw, masked', 'depth innermost; ' + DASH, *encoded(two, 9, 17, depth=2, side=8, raw=True, invalid={0, 8, 152})
    yield 'depth 3, masked', DASH, *encoded(two[:153], 3, 17, depth=3, side=4, kind=3, invalid=set(range(20, 51, 3)))


def sizes():
    many = [(p * p // 7 + p) % 200 for p in range(CELLS)]
    yield '4,096 cells in blocks', 'at most 4,096 cells', *encoded(many, 64, 64)
    yield '4,096 cells in blocks of one', 'at most 4,096 cells', *encoded([p % 2 + 1 for p in range(CELLS)], 64, 64, side=1)
    yield '4,096 cells of twenty digits', 'at most 4,096 cells; ' + WORDS, *constant(-1.5, 7, rows=64, columns=64)
    five = constant(5.0, 1, rows=17, columns=241)[0]
    yield '4,097 cells', MANY, five, refused(5)
    yield '4,160 cells of 65 pixels', MANY, made(b'', columns=65, depth=64, low=5.0, high=5.0), refused(5)
    yield '4,097 cells, a wrong mask', MANY + ', before the mask', made(b'', 17, 241, valid=9, mask=hexed('0000')), refused(5)
    yield '4,097 cells, shorter than the size', 'the header\'s refusals come first', changed(five, 34, u32(71)), refused(1)
    yield '4,097 cells, version 5', 'the header\'s refusals come first', changed(five, 6, u32(5)), refused(2)
    yield '4,194,304 cells', MANY, made(b'', rows=4096, columns=1024, low=5.0, high=5.0), refused(5)


def wrong_last(blob):
    """other check bits in the last block, and where it begins"""
    h = blobs.header(blob)
    at = blobs.body(blob, h, blobs.mask_of(blob, h)[0])[1][-1]
    return changed(blob, at, bytes([blob[at] ^ 4])), at


def refusals():
    whole = made(WHOLE, error=0.5)
    yield 'another key', 'key or version differs: 2', changed(whole, 0, b'M'), refused(2)
    yield 'kind 8', 'a header field breaks its rule: 3', changed(whole, 38, u32(8)), refused(3)
    yield 'side 17', 'a ceiling is passed: 4', changed(whole, 30, u32(17)), refused(4)
    yield 'a mask run of 0', 'any breach is 6', made(BLOCK, columns=10, valid=3, side=16, mask=hexed('0000 0080')), refused(6, MASK_BYTES)
    yield 'a mask that would be reused', 'no reuse: 6', made(BLOCK, columns=10, valid=3, side=16), refused(6, MASK_BYTES)
    masked = made(BLOCK, columns=10, valid=3, side=16, mask=P7)
    clamped = 'the lesser of 10 + 2·q·error (1) and the maximum, 12, for the counts 0 1 2'
    yield 'the same with its mask', clamped, masked, text(masked, [10, None, 12] + [None] * 6 + [12], 1, len(masked))
    crossed, sweep, check = (made(hexed(tail)) for tail in ('0C0A 00030B', '0A0C02', '0A0C00 050A820324'))
    yield 'crossed ranges', 'maximum less than minimum: 7', crossed, refused(7, wrong_range_at(crossed))
    yield 'sweep byte 2', 'others are 8', sweep, refused(8, sweep_at(sweep))
    yield 'check bits', '(flag/4)%16 must equal (x/8)%16: 8', check, refused(8, flag_at(check, 0))
    late, last = wrong_last(encoded([p % 50 for p in range(256)], 16, 16)[0])
    assert last == flag_at(late, 3)
    yield 'a last block that is wrong', '(flag/4)%16 must equal (x/8)%16: 8', late, refused(8, last)
    yield 'a constant of 300', 'kinds 0 to 5 refuse outside the range: 9', made(b'', low=300.0, high=300.0), refused(9)
    mode, cut = made(hexed('0A0C0001'), error=0.5), made(pairs(2, 10, 12)[:3], kind=2)
    yield 'mode byte 1', 'behind mode byte 1 a table: a word past the size is 1, at the mode byte', mode, refused(1, mode_at(mode))
    yield 'ranges cut', 'a number passes the declared size: 1', cut, refused(1, ranges_at(cut))


def places():
    """a refusal at each place that the rules name, some of them behind a mask"""
    masked = dict(columns=10, valid=3, side=16, mask=P7)
    for name, tail, number, where, named in (('no sweep byte', '0A0C', 1, sweep_at, {}), ('sweep byte 2 behind a mask', '0A0C02', 8, sweep_at, masked),
                                             ('no mode byte', '0A0C00', 1, mode_at, dict(error=0.5)),
                                             ('mode byte 3', '0A0C0003', 8, mode_at, dict(error=0.5))):
        blob = made(hexed(tail), **named)
        yield name, FRONT, blob, refused(number, where(blob))
    for name, tail, number, block, named in (('no flag byte', '0A0C00', 1, 0, {}), ('a run cut in block 1', '0A0A0C0C00 030B 010A8203', 1, 1, dict(depth=2)),
                                             ('no such offset in block 1', '0A0A0C0C00 030B 430A', 8, 1, dict(depth=2, **masked))):
        blob = made(hexed(tail), **named)
        yield name, FLAG, blob, refused(number, flag_at(blob, block))
    for name, numbers in (('a maximum before a minimum of the next depth', (1, NAN, 0, 3)), ('a minimum of the next depth', (1, NAN, 2, 3))):
        blob = made(struct.pack('<4f', *numbers), depth=2, kind=6)
        yield name, NUMBER, blob, refused(7, wrong_range_at(blob))
    for name, words in (('raw, cut in its second word', '0A000B'), ('raw, without a word', '')):
        blob = made(pairs(3, 10, 12) + b'\1' + hexed(words), kind=3, **masked)
        yield name, WORD, blob, refused(1, raw_word_at(blob))
    cut = made(pairs(3, 10, 12)[:3], kind=3, **masked)
    yield 'ranges cut behind a mask', FIRST, cut, refused(1, ranges_at(cut))


def false_fields():
    """13 at 0"""
    whole = made(WHOLE, error=0.5)
    turned = int.from_bytes(whole[10:14], 'big')
    yield 'the rules\' own blob, checksum 0', NEVER, with_field(whole, 0), refused(13)
    for k in range(4):
        value = stored(whole) ^ 128 << 8 * k
        yield 'byte %d of the checksum changed' % (10 + k), FALSE, with_field(whole, value), refused(13)
    yield 'the checksum with its bytes turned', FALSE, with_field(whole, turned), refused(13)
    yield 'the checksum from 10 on', SUMMED, with_field(whole, checksum(whole[10:])), refused(13)
    yield 'a cell\'s byte changed', SUMMED, tampered(whole, 78, b'\x25'), refused(13)
    behind = made(WHOLE + b'\1\2\3', error=0.5) + b'\4\5'
    yield 'bytes behind the body', BEHIND, behind, RULES
    yield 'bytes behind the body, one of them changed', BEHIND, tampered(behind, 80, b'\3'), refused(13)
    yield 'bytes behind the body, one behind the size changed', BEHIND, tampered(behind, 82, b'\3'), RULES
    blob, _ = full()
    yield '16,384 bytes, checksum 0', NEVER, with_field(blob, 0), refused(13)
    yield '16,384 bytes, the last one changed', SUMMED, tampered(blob, BYTES - 1, bytes([blob[-1] ^ 1])), refused(13)
    long = whole.ljust(BYTES, b'\xFF')
    yield '16,384 bytes, 79 the blob\'s, the checksum of all', BEHIND, with_field(long, checksum(long[14:])), refused(13)


def false_orders():
    """13 after the header's refusals and the most bytes, before the most cells and all that is behind the header"""
    whole, many = made(WHOLE, error=0.5), constant(5.0, 1, rows=17, columns=241)[0]
    for name, at, piece, number in (('another key', 0, b'M', 2), ('kind 8', 38, u32(8), 3), ('side 17', 30, u32(17), 4), ('size 80', 34, u32(80), 1)):
        yield name + ', checksum 0', FALSE, tampered(with_field(whole, 0), at, piece), refused(number)
    yield '16,385 bytes, 79 the blob\'s, checksum 0', LONG, with_field(whole, 0).ljust(BYTES + 1, b'\0'), refused(4)
    yield '4,097 cells, checksum 0', FALSE, with_field(many, 0), refused(13)
    wrong_mask = made(BLOCK, columns=10, valid=3, side=16, mask=hexed('0000 0080'))
    for name, blob in (('a mask run of 0', wrong_mask), ('crossed ranges', made(hexed('0C0A 00030B'))), ('empty', made(b'', valid=0)),
                       ('a constant of 300', made(b'', low=300.0, high=300.0)), ('mode byte 1', made(hexed('0A0C0001'), error=0.5))):
        yield name + ', checksum 0', FALSE, with_field(blob, 0), refused(13)


def odd_sizes():
    """checksums by Esri's code, and false ones that are nearly they"""
    for row, blob in odd_rows():
        blocks = blobs.body(blob, blobs.header(blob), blobs.mask_of(blob, blobs.header(blob))[0])[1]
        yield 'an odd size, ' + row.why, CODE, blob, text(blob, row.cells, len(blocks), len(blob))
        yield 'the same with a checksum that is nearly it', CODE, with_field(blob, row.false), refused(13)


def all_inputs():
    return [*lengths(), *bodies(), *kinds(), *sizes(), *refusals(), *places(), *false_fields(), *false_orders(), *odd_sizes()]


def write():
    inputs = all_inputs()
    for old in glob.glob(CASES + '/data/*'):
        os.remove(old)
    with open(CASES + '/data/names', 'w') as names, open(CASES + '/stdout', 'w') as out:
        for i, (name, sentence, blob, said) in enumerate(inputs):
            with open('%s/data/%03d' % (CASES, i), 'wb') as f:
                f.write(blob)
            names.write('%03d %s: %s\n' % (i, name, sentence))
            out.write('input %d bytes %d\n%s' % (i, len(blob), said))


if __name__ == '__main__':
    if sys.argv[1:]:
        print('make.py: unknown word %s; usage: python3 tests/program/make.py' % sys.argv[1], file=sys.stderr)
        sys.exit(2)
    write()
