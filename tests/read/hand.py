"""Blobs by hand and what the rules say of them, the sentence of the rules, or of a change request, beside each. A refusal has its number and
a site (AT_.., at_block), which is the sentence of its place and works the place out."""
import os
import struct
import sys

import blobs
from blobs import changed, made, tampered
from checksum import checksum, stored, summed_part, sums_before_last_fold, with_field
from offsets import AT_MASK, AT_MODE, AT_NUMBER, AT_RANGES, AT_SWEEP, AT_WORD, AT_ZERO, at_block

sys.path.insert(0, os.path.join(os.path.dirname(os.path.abspath(__file__)), '../checksum'))
from rows import IN_BLOCK, ROWS  # noqa: E402

VERSION = 'key or version differs'
CEILING = 'a ceiling is passed'
MODE = 'kinds 0 and 1 with error exactly 0.5 have a mode byte: 0 blocks, 1 and 2 a Huffman image'
FRONT = 'reading goes front to back and the first failing read decides the number'
FIELD = 'a field, number or packed run passes the declared size'
FIT = 'depth minima then depth maxima in the blob\'s kind, all of which must fit (1) before a number is judged'
RUN = 'each run ends on a byte, and its whole length must fit (1) before its content is judged'
SHORT = 'the slice is shorter than the declared size or than 70'
RULE = 'a header field breaks its rule'
ORDER = 'order: slice under 70 gives 1; then 2; then 3; then ceilings (4); then slice shorter than size: 1'
ROOM = 'room is judged right after the header\'s refusals, for every slice an entry is lent, the list included, whatever the body'
MASK = 'any breach is 6'
ENDS = '-32768 ends, exactly at the section\'s end and after exactly the mask length'
PAIR = 'a range number not finite, or maximum less than minimum'
SWEEP = 'a sweep byte: 1 is raw words; 0 goes on; others are 8'
CHECK = '(flag/4)%16 must equal (x/8)%16'
TABLE = 'offset kinds, as one table by kind and flag/64, "-" is 8'
OFFSET = 'a non-finite offset is 8'
COUNTS = 'counts must number the tile\'s valid pixels, else 8'
PACKED = 'h/64 = 3 is 8; n above 256 is 8'
ENTRIES = 'set: bits 0 is, once n has been read, 8; one byte entries, under 2 is 8; an index at or above entries is 8'
VALUE = 'kinds 0 to 5 cut toward zero and refuse outside the range'
INFINITE = 'finite plus infinity, either way round, is that infinity'
SPARE = 'where the mask section was accepted and no mask was reused, the spare holds the new mask'
FALSE = 'refusal 13, after the header\'s own refusals and before room, by header reading and whole read'
ZERO = 'a stored 0 is never right'
SUMMED = 'bytes 14 up to the declared size, as 16-bit words, first byte high, an odd last byte high over zero'
CODE = 'Esri\'s published code decides'
BEHIND = 'bytes after size are never looked at, those between the body\'s end and size in the checksum alone'

P7 = bytes.fromhex('0200A0400080')
THREE = b'\xA0\x40'
WHOLE = bytes.fromhex('0A0C0000010A820324')
BLOCK = bytes.fromhex('0A0C00010A820324')
INF, NAN, SIGN = 2047 << 52, (2047 << 52) + 1, 1 << 63


def hexed(text):
    return bytes.fromhex(text.replace(' ', ''))


def u32(v):
    return struct.pack('<I', v)


def u64(v):
    return struct.pack('<Q', v)


def room(h):
    """slices with room, some of them more than enough; for a header past any room, small ones"""
    mask, blocks, cells = blobs.needs(h) if h['side'] else (9, 9, 9)
    if cells > 4096 or mask > 4096 or blocks > 4096:
        mask, blocks, cells = 9, 9, 40
    return dict(lent_kept=mask + 2, lent_spare=mask + 4, lent_list=blocks + 1, lent_image=cells + 3)


def refusal(number, site, note, blob, kept=None):
    """number and place, and the sentences of both"""
    return dict(number=number, place=site.place(blob, kept), note='%s; the place: %s' % (note, site.sentence))


def no(name, blob, number, site, note, spare=b'', before=b'', reuse=False, **lent):
    """a refusal: the kept mask, the list and the image as before"""
    slices = dict(room(blobs.header(blob)), **lent)
    why = refusal(number, site, note, blob, before)
    return dict(why, name=name, blob=blob, spare=spare, before=before, kept=before, reuse=reuse, lent=slices)


def pairs(kind, low, high):
    """one depth's range"""
    return struct.pack('<2' + blobs.CODES[kind], low, high)


# --- accepted ---------------------------------------------------------------------------------------------------------------------


def constants():
    """low = high, and the word it becomes"""
    cut = 'storing: kinds 0 to 5 cut toward zero; 6 rounds to binary32, too large becoming infinity; 7 keeps the bits'
    for kind, value, word in ((0, 127.99, 127), (0, -128.99, 128), (0, -0.99, 0), (1, 255.99, 255), (1, -0.99, 0), (2, 32767.9, 32767),
                              (2, -32768.9, 32768), (3, 65535.9, 65535), (4, 2147483647.9, 2147483647), (4, -2147483648.9, 1 << 31),
                              (5, 4294967295.9, 4294967295), (6, 1e300, 0x7F800000), (6, -1e300, 0xFF800000),
                              (6, 0x3FF0000010000000, 0x3F800000), (7, 0x3FF0000010000000, 0x3FF0000010000000), (7, SIGN, SIGN)):
        yield 'constant-%d-%s' % (kind, value), made(b'', kind=kind, low=value, high=value), [word] * 3, cut
    masked = made(b'', columns=10, valid=3, mask=P7, low=7.5, high=7.5)
    yield 'constant-masked', masked, [7] * 10, 'a constant body writes the minimum of each depth'
    zeros = made(b'', kind=7, low=0, high=SIGN)
    yield 'constant-zeros', zeros, [0] * 3, 'min and max the same (equal bits, or both zero): constant'
    yield 'depth-64', made(b'', columns=1, depth=64, side=16, low=5.0, high=5.0), [5] * 64, 'ceilings (4): depth 64, side 16'
    long = 'ceilings (4): rows and columns 4,096'
    yield 'columns-4096', made(b'', columns=4096, side=1, low=5.0, high=5.0), [5] * 4096, long
    yield 'rows-4096', made(b'', rows=4096, columns=1, side=1, low=5.0, high=5.0), [5] * 4096, long
    error = made(b'', error=(2046 << 52) - 1, low=5.0, high=5.0)
    yield 'error-below-2^1023', error, [5] * 3, 'error sign clear and below 2^1023'


def empties():
    text = 'valid 0: the body is empty whatever min and max are, and the end is 70'
    yield 'empty', made(b'', valid=0), [0] * 3, text
    yield 'empty-tail', made(b'\x02\xFF', valid=0), [0] * 3, text
    yield 'empty-300', made(b'', valid=0, low=300.0, high=300.0), [0] * 3, text + ' (nothing is stored, so not 9)'


def bodies():
    yield 'whole-blob', made(WHOLE, error=0.5), [10, 11, 12], 'the rules\' whole blob'
    yield 'behind-size', made(WHOLE, error=0.5) + b'\xFF' * 11, [10, 11, 12], BEHIND
    yield 'behind-body', made(WHOLE + b'\xFF' * 6, error=0.5), [10, 11, 12], BEHIND
    raw = 'a sweep byte: 1 is raw words, valid pixels in order'
    yield 'raw', made(hexed('0A0C01 0A0B0C')), [10, 11, 12], raw
    yield 'raw-error-half', made(hexed('0A0C01 0A0B0C'), error=0.5), [10, 11, 12], raw + ' (the mode byte is behind sweep byte 0 only)'
    masked = dict(columns=10, valid=3, mask=P7)
    yield 'raw-masked', made(hexed('0A0C01 0A0B0C'), **masked), [10, 0, 11, 0, 0, 0, 0, 0, 0, 12], raw
    past = made(hexed('0A0C01 0A0B0C'), columns=10, valid=3, mask=hexed('0200A060 0080'))
    yield 'mask-bits-past', past, [10, 0, 11, 0, 0, 0, 0, 0, 0, 12], 'valid pixels must number `valid` (bits past the pixels are none)'
    yield 'raw-not-clamped', made(hexed('0A0C01 FF00FF')), [255, 0, 255], raw
    yield 'kind-2-error-half', made(pairs(2, 10, 12) + hexed('00 030B00'), kind=2, error=0.5), [11] * 3, MODE
    low = 'with low bits 0 or 2, flag/64 is not looked at'
    yield 'raw-block-code-3', made(hexed('0A0C00 C00A0B0C')), [10, 11, 12], low
    yield 'zero-block-code-3', made(hexed('0A0C00 C2')), [0, 0, 0], low
    p5 = made(hexed('0A0C00 010A400001'), rows=16, columns=16, side=16)
    yield 'p5-block', p5, [10] * 256, 'P5 40 00 01: 256 zeros'
    x = 'a position (x, y, depth) steps depth first, then x, then y; ' + CHECK
    yield 'two-tiles-two-depths', made(hexed('0A0A0C0C00 030A 030B 070C 070D'), columns=9, depth=2), [10, 11] * 8 + [12, 13], x


def stepped(kind, error, low, highs, bits, *counts):
    """a row of pixels in one block for each depth: the offset is the minimum, a maximum for each depth, counts of so many bits"""
    depth, n, code = len(highs), len(counts), blobs.CODES[kind]
    ranges = struct.pack('<%d%s' % (2 * depth, code), *[low] * depth, *highs)
    run = sum(q << bits * i for i, q in enumerate(counts)).to_bytes((n * bits + 7) // 8, 'little')
    block = b'\1' + struct.pack('<' + code, low) + bytes([128 + bits, n]) + run
    return made(ranges + b'\0' + block * depth, columns=n, depth=depth, kind=kind, error=error, low=float(low), high=float(max(highs)))


def products():
    """Products that become infinite: the clamp gives the maximum. Esri's library reads the same words."""
    high, most, error, third = 2.0 ** 1023, sys.float_info.max, 2.0 ** 1022, 0x15555555555555 * 2.0 ** 969
    word = 0x7FE8000000000000
    yield 'product-2^1024', stepped(7, error, -high, [1.5 * high], 2, 2), [word], INFINITE + ' (the shortest blob that tells)'
    yield 'product-2^1031', stepped(7, 2.0 ** 1000, -high, [1.5 * high], 31, 1 << 30), [word], INFINITE
    yield 'product-rounded', stepped(7, third, -high, [1.5 * high], 2, 3), [word], '2^1024 - 2^970 and above becoming infinity; ' + INFINITE
    both = stepped(7, 2.0 ** 1000, -high, [1.5 * high], 24, (1 << 23) - 1, 1 << 23)
    yield 'product-beside-finite', both, [0x7FDFFFFF80000000, word], INFINITE + ' (the first product is finite)'
    depths = stepped(7, error, -high, [1.25 * high, 1.5 * high], 2, 2)
    yield 'product-two-depths', depths, [0x7FE4000000000000, word], INFINITE + ' (a maximum for each depth)'
    # with an infinity counted as 2^1024 these sums would be infinity, the greatest finite number for two offsets, and the one before it
    for name, low in (('2^970', 2.0 ** 970), ('2^970-next', 2.0 ** 970 + 2.0 ** 918), ('3*2^970-before', 3 * 2.0 ** 970 - 2.0 ** 919),
                      ('3*2^970', 3 * 2.0 ** 970)):
        yield 'product-offset-' + name, stepped(7, error, -low, [most], 2, 2), [0x7FEFFFFFFFFFFFFF], INFINITE
    single = (2 - 2.0 ** -23) * 2.0 ** 127
    for kind, low, top, last in ((1, 10, 12, 12), (4, -1 << 31, (1 << 31) - 1, (1 << 31) - 1), (6, -single, single, 0x7F7FFFFF)):
        yield 'product-kind-%d' % kind, stepped(kind, error, low, [top], 2, 2), [last], INFINITE


def raw_row(cells):
    """a blob of u8 cells, raw"""
    return made(bytes([min(cells), max(cells), 1, *cells]), columns=len(cells), error=0.5, low=float(min(cells)), high=float(max(cells)))


def odd_rows():
    """rows of odd sizes, and of nearly all of them the sentences alone would have another checksum"""
    block = made(bytes([5, 144, 0, 0, 0, *IN_BLOCK.cells]), columns=4, error=0.5, low=5.0, high=144.0)
    for row, blob in [(row, raw_row(row.cells)) for row in ROWS] + [(IN_BLOCK, block)]:
        assert stored(blob) == row.field and sums_before_last_fold(summed_part(blob)) == row.sums
        yield row, blob


def checksums():
    """fields that are right"""
    for row, blob in odd_rows():
        yield 'checksum-%08x' % row.field, blob, row.cells, '%s (%s, size %d)' % (CODE, row.why, len(blob))
    for size in (717, 718, 731, 732, 733, 734, 1450):
        cells = [(7 * k + k * k // 9) % 251 for k in range(size - 73)]
        yield 'checksum-size-%d' % size, raw_row(cells), cells, SUMMED + ' (sizes about one and two groups of Esri\'s code)'
    behind = made(WHOLE, error=0.5) + bytes(5)
    yield 'checksum-behind-size', tampered(behind, 79, b'\x12\x34'), [10, 11, 12], SUMMED + '; ' + BEHIND


def accepted():
    """name, blob, words of all cells (those of invalid pixels do not matter), sentence"""
    return [*constants(), *empties(), *bodies(), *products(), *checksums()]


def reused():
    """what is kept before the call"""
    reuse, raw = 'mask bytes 0 means the kept mask, if the caller allows reuse', hexed('0A0C01 0A0B0C')
    words = [10, 0, 11, 0, 0, 0, 0, 0, 0, 12]
    none = made(raw, columns=10, valid=3)
    new = made(raw, columns=10, valid=3, mask=P7)
    common = dict(words=words, depth=1, size=1, lent=room(blobs.header(new)))
    return [
        dict(common, name='reuse', note=reuse, blob=none, reuse=True, before=THREE, kept=THREE, end=76),
        dict(common, name='reuse-bits-past', note=reuse + ' (bits past the pixels do not matter)', blob=none, reuse=True, before=b'\xA0\x7F',
             kept=b'\xA0\x7F', end=76),
        dict(common, name='reuse-not-needed', note='whole read copies it to the kept mask only on acceptance', blob=new, reuse=True,
             before=b'\xFF\xFF', kept=THREE, spare=THREE, end=82),
    ]


# --- refused ----------------------------------------------------------------------------------------------------------------------


def short():
    whole = made(WHOLE, error=0.5)
    yield no('nothing', b'', 1, AT_ZERO, SHORT)
    yield no('69-bytes', whole[:69], 1, AT_ZERO, SHORT)
    yield no('69-bytes-other-key', b'LERC2 ' + whole[6:69], 1, AT_ZERO, ORDER)
    yield no('70-bytes', whole[:70], 1, AT_ZERO, SHORT)
    yield no('78-bytes', whole[:78], 1, AT_ZERO, SHORT)
    yield no('78-bytes-kind-8', changed(whole, 38, u32(8))[:78], 3, AT_ZERO, ORDER)
    yield no('78-bytes-side-17', changed(whole, 30, u32(17))[:78], 4, AT_ZERO, ORDER)
    yield no('78-bytes-no-room', whole[:78], 1, AT_ZERO, ROOM, lent_image=2)
    yield no('size-16777216', changed(whole, 34, u32(1 << 24)), 1, AT_ZERO, ORDER)


def keys():
    whole = made(WHOLE, error=0.5)
    for at in range(6):
        yield no('key-%d' % at, changed(whole, at, bytes([whole[at] ^ 32])), 2, AT_ZERO, VERSION)
    for number in (0, 3, 5, 260, 1 << 31 | 4):
        yield no('version-%d' % number, changed(whole, 6, u32(number)), 2, AT_ZERO, VERSION)
    yield no('version-5-rows-0', changed(changed(whole, 6, u32(5)), 14, u32(0)), 2, AT_ZERO, ORDER)


def fields():
    whole = made(WHOLE, error=0.5)
    for name, at in (('rows', 14), ('columns', 18), ('depth', 22), ('side', 30)):
        yield no(name + '-0', changed(whole, at, u32(0)), 3, AT_ZERO, RULE)
    for name, at, v in (('valid-4', 26, 4), ('valid-max', 26, 0xFFFFFFFF), ('kind-8', 38, 8), ('kind-max', 38, 0xFFFFFFFF), ('size-69', 34, 69),
                        ('size-0', 34, 0), ('mask-10', 66, 10), ('mask-max', 66, 0xFFFFFFFF)):
        yield no(name, changed(whole, at, u32(v)), 3, AT_ZERO, RULE)
    for name, at, v in (('error-minus-0', 42, SIGN), ('error-minus-1', 42, SIGN + (1023 << 52)), ('error-2^1023', 42, 2046 << 52),
                        ('error-infinite', 42, INF), ('error-nan', 42, NAN), ('min-infinite', 50, SIGN + INF), ('min-nan', 50, NAN),
                        ('max-infinite', 58, INF), ('max-nan', 58, NAN), ('max-below-min', 58, 1022 << 52)):
        yield no(name, changed(whole, at, u64(v)), 3, AT_ZERO, RULE)
    yield no('kind-8-rows-5000', changed(changed(whole, 38, u32(8)), 14, u32(5000)), 3, AT_ZERO, ORDER)
    yield no('size-69-side-17', changed(changed(whole, 34, u32(69)), 30, u32(17)), 3, AT_ZERO, ORDER)
    yield no('empty-kind-8', made(b'', valid=0, kind=8), 3, AT_ZERO, RULE)


def ceilings():
    whole = made(WHOLE, error=0.5)
    for name, at, v in (('rows-4097', 14, 4097), ('columns-4097', 18, 4097), ('depth-65', 22, 65), ('side-17', 30, 17), ('side-max', 30, 0xFFFFFFFF),
                        ('size-16777217', 34, (1 << 24) + 1), ('size-max', 34, 0xFFFFFFFF)):
        yield no(name, changed(whole, at, u32(v)), 4, AT_ZERO, CEILING)
    big = 'ceilings (4): cells (pixels × depth) 4,194,304'
    yield no('cells-4198400', made(WHOLE, rows=4096, columns=1025), 4, AT_ZERO, big)
    yield no('cells-times-depth', made(WHOLE, rows=4096, columns=17, depth=61), 4, AT_ZERO, big)
    yield no('pixels-2^32', changed(changed(whole, 14, u32(1 << 16)), 18, u32(1 << 16)), 4, AT_ZERO, CEILING + ' (the pixels do not fit 32 bits)')
    yield no('raw-side-17', made(hexed('0A0C01 0A0B0C'), side=17), 4, AT_ZERO, CEILING + ', whatever the body')
    yield no('side-17-no-slice', changed(whole, 30, u32(17)), 4, AT_ZERO, ROOM, lent_kept=0, lent_spare=0, lent_list=0, lent_image=0)
    yield no('constant-side-17', made(b'', side=17, low=5.0, high=5.0), 4, AT_ZERO, CEILING + ', whatever the body')


def rooms():
    forms = (('blocks', made(WHOLE, error=0.5)), ('raw', made(hexed('0A0C01 0A0B0C'))), ('constant', made(b'', low=5.0, high=5.0)),
             ('constant-ranges', made(hexed('0A0A'))), ('empty', made(b'', valid=0)))
    for form, blob in forms:
        for name, n in (('kept', 0), ('spare', 0), ('list', 0), ('image', 2)):
            yield no('%s-%s-short' % (form, name), blob, 5, AT_ZERO, ROOM, **{'lent_' + name: n})
    wide = made(b'', columns=10, depth=3, valid=3, mask=P7, low=5.0, high=5.0)
    for name, n in (('kept', 1), ('spare', 1), ('list', 5), ('image', 29)):
        yield no('masked-%s-short' % name, wide, 5, AT_ZERO, ROOM, **{'lent_' + name: n})
    none = made(hexed('0A0C01 0A0B0C'), columns=10, valid=3)
    yield no('reuse-kept-short', none, 5, AT_ZERO, ROOM, before=THREE[:1], reuse=True, lent_kept=1)
    yield no('reuse-spare-short', none, 5, AT_ZERO, ROOM + ' (the spare too, though the kept mask would do)', before=THREE, reuse=True, lent_spare=1)
    wrong = made(hexed('0A0C01 0A0B0C'), columns=10, valid=3, mask=b'\x00\x00')
    yield no('mask-wrong-list-short', wrong, 5, AT_ZERO, ROOM, lent_list=0)
    yield no('no-slice', made(WHOLE, error=0.5), 5, AT_ZERO, ROOM, lent_kept=0, lent_spare=0, lent_list=0, lent_image=0)
    yield no('cells-4194304', made(b'', rows=4096, columns=1024, side=16, low=5.0, high=5.0), 5, AT_ZERO, ROOM)


def masks():
    wrong = (('zero-run', '0000 0200A040 0080', MASK + ' (n = 0 is wrong)'), ('zero-run-last', '0200A040 0000 0080', MASK + ' (n = 0 is wrong)'),
             ('end-early', '0200A040 0080 00', ENDS), ('end-missing', '0200A040', ENDS), ('end-cut', '0200A040 00', ENDS), ('one-byte', '02', ENDS),
             ('too-long', '0300A04000 0080', ENDS), ('too-short', '0100A0 0080', ENDS), ('only-the-end', '0080', ENDS),
             ('copy-cut', '0200A0', MASK), ('copy-long', '2000A040 0080', MASK), ('repeat-cut', 'FEFF', MASK), ('repeat-long', 'FDFF00 0080', ENDS),
             ('repeat-32767', '018000 0080', ENDS), ('two-valid', '0200A000 0080', 'valid pixels must number `valid`'),
             ('four-valid', '0200A0C0 0080', 'valid pixels must number `valid`'), ('past-the-pixels', '0200A001 0080', 'valid pixels must number `valid`'),
             ('second-run-long', '0100A0 FEFF40 0080', ENDS))
    for name, section, note in wrong:
        yield no('mask-' + name, made(BLOCK, columns=10, valid=3, side=16, mask=hexed(section)), 6, AT_MASK, note)
    text = 'valid 0 gives all 0, valid = pixels all 255; mask bytes must then be 0'
    yield no('mask-none-valid', made(b'', columns=10, valid=0, mask=hexed('FEFF00 0080')), 6, AT_MASK, text)
    yield no('mask-all-valid', made(BLOCK, columns=10, mask=hexed('FEFFFF 0080')), 6, AT_MASK, text)
    none, kept = made(BLOCK, columns=10, valid=3, side=16), 'mask bytes 0 means the kept mask, if the caller allows reuse'
    yield no('no-reuse', none, 6, AT_MASK, kept, before=THREE)
    yield no('reuse-two-valid', none, 6, AT_MASK, 'valid pixels must number `valid`', before=b'\xA0\x00', reuse=True)
    yield no('reuse-all-valid', none, 6, AT_MASK, 'valid pixels must number `valid`', before=b'\xFF\xFF', reuse=True)
    yield no('reuse-bits-past', none, 6, AT_MASK, 'valid pixels must number `valid`', before=b'\xA0\x01', reuse=True)
    yield no('mask-wrong-reuse', made(BLOCK, columns=10, valid=3, side=16, mask=hexed('0000 0080')), 6, AT_MASK, MASK, before=THREE, reuse=True)
    crossed = made(hexed('0C0A02'), columns=10, valid=3, side=16, mask=hexed('0200A000 0080'))
    yield no('mask-wrong-ranges-wrong', crossed, 6, AT_MASK, FRONT)
    yield no('mask-wrong-constant-300', made(b'', columns=10, valid=3, mask=hexed('0080'), low=300.0, high=300.0), 6, AT_MASK, FRONT)


def cut_tails():
    block = at_block(0)
    for name, tail, where, note in (('ranges', '0A', AT_RANGES, FIT), ('sweep', '0A0C', AT_SWEEP, FIELD), ('flag', '0A0C00', block, FIELD),
                                    ('offset', '0A0C00 01', block, FIELD), ('counts', '0A0C00 010A', block, FIELD),
                                    ('count', '0A0C00 010A82', block, FIELD), ('count-of-4', '0A0C00 010A02030000', block, FIELD),
                                    ('count-of-2', '0A0C00 010A4203', block, FIELD), ('packed', '0A0C00 010A8203', block, RUN),
                                    ('count-bits-0', '0A0C00 010AA0', block, ENTRIES), ('entries', '0A0C00 010AA403', block, FIELD),
                                    ('table', '0A0C00 010AA40303', block, RUN), ('indices', '0A0C00 010AA4030395', block, RUN),
                                    ('indices-high', '0A0C00 010AA80303FFFF', block, RUN), ('raw', '0A0C01 0A0B', AT_WORD, FIELD),
                                    ('raw-none', '0A0C01', AT_WORD, FIELD), ('raw-block', '0A0C00 000A0B', block, FIELD),
                                    ('raw-block-none', '0A0C00 00', block, FIELD)):
        yield 'no-' + name, hexed(tail), {}, 1, where, note
    yield 'no-mode', hexed('0A0C00'), dict(error=0.5), 1, AT_MODE, FIELD
    yield 'ranges-nan-cut', hexed('0000C07F 000080'), dict(kind=6), 1, AT_RANGES, FIT
    yield 'offset-of-8-cut', pairs(7, 10.0, 12.0) + hexed('00 03 00000000000026'), dict(kind=7), 1, block, FIELD
    for name, tail, where in (('packed', '0A0C00 010A820324', block), ('offset', '0A0C00 030B', block), ('raw', '0A0C01 0A0B0C', AT_WORD)):
        yield 'behind-size-' + name, hexed(tail), dict(less=1), 1, where, FIELD


def pair_tails():
    yield 'range-crossed', hexed('0C0A 00030B'), {}, 7, AT_NUMBER, PAIR
    yield 'range-crossed-only', hexed('0C0A'), {}, 7, AT_NUMBER, PAIR
    yield 'range-crossed-sweep-2', hexed('0C0A 02'), {}, 7, AT_NUMBER, FRONT
    yield 'range-infinite', hexed('0000803F 0000807F 00'), dict(kind=6), 7, AT_NUMBER, PAIR
    yield 'range-minus-infinite', hexed('000080FF 0000803F 00'), dict(kind=6), 7, AT_NUMBER, PAIR
    yield 'range-nan', struct.pack('<2Q', NAN, 0) + b'\0', dict(kind=7), 7, AT_NUMBER, PAIR
    yield 'range-nan-above', struct.pack('<2Q', 0, NAN) + b'\0', dict(kind=7), 7, AT_NUMBER, PAIR
    yield 'range-second-depth', hexed('0A0A 0C09 01'), dict(depth=2), 7, AT_NUMBER, PAIR
    yield 'range-signed', pairs(0, 5, -5) + b'\1', dict(kind=0), 7, AT_NUMBER, PAIR


def byte_tails():
    for sweep in (2, 3, 128, 255):
        yield 'sweep-%d' % sweep, hexed('0A0C') + bytes([sweep]) + b'\x0A\x0B\x0C', {}, 8, AT_SWEEP, SWEEP
    for mode in (3, 4, 255):
        yield 'mode-%d' % mode, hexed('0A0C00') + bytes([mode]) + hexed('010A820324'), dict(error=0.5), 8, AT_MODE, MODE + '; others 8'
    for kind in (0, 1):
        for mode in (1, 2):
            yield 'mode-%d-kind-%d' % (mode, kind), hexed('0A0C00') + bytes([mode]), dict(error=0.5, kind=kind), 1, AT_MODE, MODE + '; ' + FIELD
    for flag in (0x04, 0x05, 0x3E, 0x43):
        yield 'check-%02x' % flag, hexed('0A0C00') + bytes([flag]) + hexed('0A820324'), {}, 8, at_block(0), CHECK
    unchanged = '; a refusal leaves every lent slice unchanged'
    yield 'second-block', hexed('0A0A 0C0C 00 030A 070B'), dict(depth=2), 8, at_block(1), CHECK + unchanged
    yield 'second-block-none', hexed('0A0A 0C0C 00 030A'), dict(depth=2), 1, at_block(1), FIELD + unchanged


def offset_tails():
    for kind, row in enumerate(blobs.OFFSETS):
        for code in range(len(row), 4):
            tail = pairs(kind, 10, 12) + bytes([0, 64 * code + 1 + 2 * (code % 2)]) + hexed('0A820324') + bytes(8)
            yield 'offset-kind-%d-code-%d' % (kind, code), tail, dict(kind=kind), 8, at_block(0), TABLE
    for name, word in (('infinite', 0x7F800000), ('minus-infinite', 0xFF800000), ('nan', 0x7FC00000)):
        yield 'offset-' + name, pairs(6, 10, 12) + b'\0\3' + u32(word), dict(kind=6), 8, at_block(0), OFFSET
        yield 'offset-counts-' + name, pairs(7, 10, 12) + b'\0\x41' + u32(word) + hexed('820324'), dict(kind=7), 8, at_block(0), OFFSET
    yield 'offset-nan-8', pairs(7, 10, 12) + b'\0\3' + u64(NAN), dict(kind=7), 8, at_block(0), OFFSET
    yield 'offset-nan-no-counts', pairs(6, 10, 12) + b'\0\1' + u32(0x7FC00000), dict(kind=6), 8, at_block(0), FRONT


def count_tails():
    for name, counts, note in (('two', '820204', COUNTS), ('four', '820424', COUNTS), ('none', '8200', COUNTS), ('all-ten', '820A000000', COUNTS),
                               ('two-bits-0', '8002', COUNTS), ('p4', 'C20100', PACKED), ('code-3-only', 'C2', PACKED), ('p6', '400101', PACKED),
                               ('n-65536', '0200000100', PACKED), ('n-max', '02FFFFFFFF', PACKED), ('bits-0-table', 'A003', ENTRIES),
                               ('bits-0-table-whole', 'A00303000018', ENTRIES), ('entries-0', 'A40300', ENTRIES), ('entries-1', 'A4030118', ENTRIES),
                               ('p3', 'A40303951C', ENTRIES)):
        yield 'counts-' + name, hexed('0A0C00 010A' + counts), {}, 8, at_block(0), note


def tails():
    """name, what stands behind the mask section, other fields of the header, number, site, sentence"""
    return [*cut_tails(), *pair_tails(), *byte_tails(), *offset_tails(), *count_tails()]


def made_small(tail, less=0, **named):
    blob = made(tail, **named)
    return changed(blob, 34, u32(len(blob) - less))


def behind_masks():
    """each wrong tail behind no mask section, behind a new mask, and behind a reused one: three valid pixels in one tile"""
    reused = 'a mask reused: no slice is written'
    for name, tail, named, number, where, note in tails():
        yield no(name, made_small(tail, **named), number, where, note + '; ' + SPARE, spare=b'\xFF')
        wide = dict(named, columns=10, valid=3, side=16)
        yield no('masked-' + name, made_small(tail, mask=P7, **wide), number, where, note + '; ' + SPARE, spare=THREE, before=b'\x11\x22')
    for name, tail, named, number, where, note in tails()[::7]:
        wide = dict(named, columns=10, valid=3, side=16)
        yield no('reused-' + name, made_small(tail, **wide), number, where, note + '; ' + reused, before=THREE, reuse=True)


def values():
    """a constant outside its kind"""
    for kind, value in ((0, 128.0), (0, -129.0), (1, 256.0), (1, 300.0), (1, -1.0), (2, 32768.0), (2, -32769.0), (3, 65536.0), (3, -1.0), (4, 2147483648.0),
                        (4, -2147483649.0), (5, 4294967296.0), (5, -1.0), (1, 1e300), (4, -1e300)):
        yield no('constant-%d-%s' % (kind, value), made(b'', kind=kind, low=value, high=value), 9, AT_ZERO, VALUE + '; ' + SPARE, spare=b'\xFF')
    masked = made(b'\x02', columns=10, depth=2, valid=3, mask=P7, low=300.0, high=300.0)
    yield no('constant-masked', masked, 9, AT_ZERO, VALUE + '; ' + SPARE, spare=THREE, before=b'\xFF\xFF')
    none = made(b'', columns=10, valid=3, low=300.0, high=300.0)
    yield no('constant-reused', none, 9, AT_ZERO, VALUE, before=THREE, reuse=True)


def other_fields(blob):
    """fields of a right blob that are not its checksum, by what is wrong with them"""
    true, size = stored(blob), blobs.header(blob)['size']
    part = summed_part(blob)
    swapped = int.from_bytes(true.to_bytes(4, 'little'), 'big')
    halves = true % 65536 * 65536 + true // 65536
    low_first = b''.join(part[k:k + 2][::-1] for k in range(0, len(part), 2))
    yield 'zero', 0, ZERO
    yield from (('byte-%d' % k, true ^ 1 << 8 * k + k, FALSE) for k in range(4))
    yield from (('low-half-only', true % 65536, FALSE), ('high-half-only', true >> 16 << 16, FALSE), ('all-ones', 0xFFFFFFFF, FALSE),
                ('one-more', true + 1, FALSE), ('one-less', true - 1, FALSE), ('bytes-turned', swapped, FALSE), ('halves-turned', halves, FALSE))
    yield from (('low-byte-first', checksum(low_first), SUMMED), ('from-10', checksum(blob[10:size]), SUMMED),
                ('from-0', checksum(blob[:size]), SUMMED), ('from-16', checksum(blob[16:size]), SUMMED),
                ('to-size-1', checksum(part[:-1]), SUMMED), ('one-byte-more', checksum(part + b'\1'), SUMMED))


def wrong_field(blob):
    """one bit of the field the other way round"""
    return with_field(blob, stored(blob) ^ 1 << 9)


NO_ROOM = dict(lent_kept=0, lent_spare=0, lent_list=0, lent_image=0)


def false_fields():
    whole = made(WHOLE, error=0.5)
    for name, value, note in other_fields(whole):
        assert value != stored(whole)
        yield no('checksum-' + name, with_field(whole, value), 13, AT_ZERO, note)
    for row, blob in odd_rows():
        yield no('checksum-%08x' % row.false, with_field(blob, row.false), 13, AT_ZERO, '%s (%s)' % (CODE, row.why))
    behind = made(WHOLE + b'\xFF' * 6, error=0.5) + b'\xFF' * 3
    for name, at in (('error', 42), ('minimum', 50), ('body', 78), ('behind-body', 79), ('last', 84)):
        yield no('checksum-' + name, tampered(behind, at, bytes([behind[at] ^ 1])), 13, AT_ZERO, SUMMED + '; ' + BEHIND)
    yield no('checksum-to-slice', with_field(behind, checksum(behind[14:])), 13, AT_ZERO, BEHIND)


def false_forms():
    """13 of every kind of body, before its mask, its ranges and itself; every lent slice stays, the spare too"""
    masked, raw = dict(columns=10, valid=3, side=16), hexed('0A0C01 0A0B0C')
    forms = (('blocks', made(WHOLE, error=0.5)), ('raw', made(raw)), ('constant', made(b'', low=5.0, high=5.0)), ('empty', made(b'', valid=0)),
             ('mask', made(raw, mask=P7, **masked)), ('mask-wrong', made(raw, mask=hexed('0000 0080'), **masked)), ('range-crossed', made(hexed('0C0A'))),
             ('range-cut', made(b'\x0A')), ('sweep-2', made(hexed('0A0C02'))), ('mode-1', made(hexed('0A0C0001'), error=0.5)),
             ('check', made(hexed('0A0C00 070A'))), ('constant-300', made(b'', low=300.0, high=300.0)))
    for name, blob in forms:
        yield no('checksum-%s' % name, wrong_field(blob), 13, AT_ZERO, FALSE, before=b'\x11\x22'[:blobs.needs(blobs.header(blob))[0]])
    none = wrong_field(made(raw, **masked))
    yield no('checksum-reuse', none, 13, AT_ZERO, FALSE + '; a refusal leaves every lent slice unchanged', before=THREE, reuse=True)
    yield no('checksum-reuse-wrong', none, 13, AT_ZERO, FALSE, before=b'\xFF\xFF', reuse=True)
    yield no('checksum-no-reuse', none, 13, AT_ZERO, FALSE, before=THREE)
    new = wrong_field(made(raw, mask=P7, **masked))
    yield no('checksum-reuse-not-needed', new, 13, AT_ZERO, FALSE + '; the spare stays too', before=b'\xFF\xFF', reuse=True)


def false_orders():
    """13 after 1, 2, 3, 4 and 1, before 5"""
    whole = wrong_field(made(WHOLE, error=0.5))
    for name, blob in (('blocks', whole), ('mask', wrong_field(made(BLOCK, columns=10, valid=3, side=16, mask=P7)))):
        for slot in ('kept', 'spare', 'list', 'image'):
            yield no('checksum-%s-%s-short' % (name, slot), blob, 13, AT_ZERO, FALSE, **{'lent_' + slot: 0})
        yield no('checksum-%s-no-slice' % name, blob, 13, AT_ZERO, FALSE, **NO_ROOM)
    none = wrong_field(made(BLOCK, columns=10, valid=3, side=16))
    yield no('checksum-reuse-no-slice', none, 13, AT_ZERO, FALSE, reuse=True, **NO_ROOM)
    yield no('checksum-right-no-slice', made(WHOLE, error=0.5), 5, AT_ZERO, FALSE + ' (the field is right, so it is room)', **NO_ROOM)
    yield no('checksum-69-bytes', whole[:69], 1, AT_ZERO, ORDER + '; ' + FALSE)
    yield no('checksum-78-bytes', whole[:78], 1, AT_ZERO, ORDER + '; ' + FALSE)
    for name, at, piece, number in (('key', 0, b'M', 2), ('version', 6, u32(5), 2), ('kind-8', 38, u32(8), 3), ('size-69', 34, u32(69), 3),
                                    ('size-13', 34, u32(13), 3), ('error-minus-0', 42, u64(SIGN), 3), ('side-17', 30, u32(17), 4),
                                    ('depth-65', 22, u32(65), 4), ('size-16777217', 34, u32((1 << 24) + 1), 4), ('size-80', 34, u32(80), 1)):
        yield no('checksum-' + name, tampered(whole, at, piece), number, AT_ZERO, ORDER + '; ' + FALSE)


def refused():
    false = [*false_fields(), *false_forms(), *false_orders()]
    return [*short(), *keys(), *fields(), *ceilings(), *rooms(), *masks(), *behind_masks(), *values(), *false]


# --- accepted blobs of an encoder, damaged ----------------------------------------------------------------------------------------


def damages(name, blob):
    h = blobs.header(blob)
    mask, _ = blobs.mask_of(blob, h)
    _, starts, end = blobs.body(blob, h, mask)
    if len(starts) < 3 or end != h['size'] or len(blob) != end:
        return
    last, where = starts[-1], at_block(len(starts) - 1)
    assert where.place(blob, None) == last
    yield no(name + '-check', changed(blob, last, bytes([blob[last] ^ 4])), 8, where, CHECK + ' (the last block); ' + SPARE, spare=mask)
    yield no(name + '-size', changed(blob, 34, u32(end - 1)), 1, where, FIELD + ' (the last block); ' + SPARE, spare=mask)
    yield no(name + '-slice', blob[:-1], 1, AT_ZERO, SHORT)
    yield no(name + '-checksum', tampered(blob, last, bytes([blob[last] ^ 4])), 13, AT_ZERO, FALSE + ' (the last block is wrong too)')
    if h['mask']:
        yield no(name + '-valid', changed(blob, 26, u32(h['valid'] - 1)), 6, AT_MASK, 'valid pixels must number `valid`')
    need = blobs.needs(h)
    for slice_name, n in zip(('kept', 'spare', 'list', 'image'), (need[0], need[0], need[1], need[2])):
        yield no('%s-%s' % (name, slice_name), blob, 5, AT_ZERO, ROOM, **{'lent_' + slice_name: n - 1})


def damaged(vectors):
    """of the blobs with a mask section every eighth, of the others every thirtieth"""
    with_mask = [v for v in vectors if blobs.header(v[1])['mask']]
    others = [v for v in vectors if not blobs.header(v[1])['mask']]
    return [case for name, blob in with_mask[::8] + others[::30] for case in damages(name, blob)]
