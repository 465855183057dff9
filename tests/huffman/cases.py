"""Blobs made from the words of the rules: Huffman bodies that are accepted, with all their words, and refused, with number and place; walks
and fills of them; and bodies that have no mode byte. The sentences are those of the rules. A number stands beside each refusal, and so do the
words of the images worked out by hand; model.py must say the same. Of other images the symbols are drawn, and the words must give the symbols
again by what the rules say of a prediction, pixel by pixel (`symbols_of`)."""
import os
import struct
import sys

import model
from model import DELTA, PLAIN

sys.path.insert(0, os.path.join(os.path.dirname(os.path.abspath(__file__)), '../read'))
import blobs  # noqa: E402
from blobs import changed, made, tampered  # noqa: E402
from offsets import mode_at, ranges_at, sweep_at  # noqa: E402

TOP = 1 << 32
END = struct.pack('<h', -32768)
# entries and cells beyond what is needed, for the cases in turn
MORE = ((5, 7, 3, 9), (0, 0, 0, 0), (1, 0, 64, 40), (0, 3, 1, 0))

INTEGERS = 'version at least 2, size at most 256, first i0, end i1 (i0 below size, i1-i0 from 1 to size, wrapping modulo size)'
JUDGED = 'each integer is judged when it is read'
UNSIGNED = 'the four are unsigned, i1-i0 is over whole numbers'
PAST = 'a word or run past the size 1'
LENGTHS = 'then i1-i0 lengths as packed counts, 0 to 32'
PACKED = 'h/64 = 3 is 8; n above 256 is 8; with a table: bits 0 is, once n has been read, 8; entries under 2 is 8; an index at or above entries is 8'
WHOLE = 'the counts are read whole, then their number must be i1-i0'
SOME = 'some length must be above 0'
CODES = 'then the codes, high bit first in little-endian 32-bit words, ending on a word'
RUN = 'the code run must fit (1) before the codes are judged'
FREE = 'codes must be prefix-free'
UNKNOWN = 'unknown code is 8'
ORDER = '8 as soon as the bits so far begin no code, 1 if a bit\'s word passes the size before that'
SPARE_WORD = 'the symbols end (ceil(bits/32)+1)*4 bytes on; the last word must fit and is not looked at'
NONE_WRITTEN = 'nothing is written before all symbols are checked'
PLACE = 'the place: both at the mode byte\'s place'
ADDED = 'symbol and prediction are added modulo 256, less 128 for kind 0'
PREDICTED = 'the last value where the left pixel is valid, else the word above where that is valid, else the last value, 0 where a depth begins'
INNERMOST = 'pixel by pixel, depth innermost, no prediction'
NO_CODE = 'a length of 0 means no code'
GAPS = 'gaps in the code are right; a single code of any length is right'
UNUSED = 'unused bits are not looked at'
OLD = 'the demand that old cells be at most 255 is dropped'
MODE = 'kinds 0 and 1 with error exactly 0.5 have a mode byte: 0 blocks; others than 0, 1, 2 are 8'
WALKED = 'a walk still answers 10'
FILLED = 'demand 3 reads as before: fill does not look at the mode byte'
ROOM = 'room is judged right after the header\'s refusals, the list included, whatever the body'


# --- pieces of bodies -------------------------------------------------------------------------------------------------------------


def hexed(text):
    return bytes.fromhex(text.replace(' ', ''))


def u32(v):
    return struct.pack('<I', v)


def words_of(bits, spare='0'):
    """a row of 0 and 1, high bit first in little-endian words; what is over of the last word has `spare`"""
    bits += spare * (-len(bits) % 32)
    return b''.join(u32(int(bits[k:k + 32], 2)) for k in range(0, len(bits), 32))


def run_of(values, bits, spare=0):
    """lowest bit first, ending on a byte"""
    used, every = bits * len(values), sum(v << bits * k for k, v in enumerate(values))
    n = (used + 7) // 8
    every |= (spare << used) % (1 << 8 * n)
    return every.to_bytes(n, 'little')


def count_of(n, code):
    """a count in 4, 2 or 1 bytes"""
    return n.to_bytes((4, 2, 1)[code], 'little')


def counts(values, bits=None, code=None, spare=0):
    """packed counts without a table"""
    bits = max(values).bit_length() if bits is None else bits
    code = (2 if len(values) < 256 else 1) if code is None else code
    return bytes([64 * code + bits]) + count_of(len(values), code) + run_of(values, bits, spare)


def table_counts(values, stored, bits, code=2, spare=0):
    """packed counts through a table, whose entry 0 is zero"""
    entries = [0] + stored
    indices = [entries.index(v) for v in values]
    head = bytes([64 * code + 32 + bits]) + count_of(len(values), code) + bytes([len(entries)])
    return head + run_of(stored, bits, spare) + run_of(indices, (len(entries) - 1).bit_length(), spare)


def integers(version=4, size=256, first=10, end=13):
    return struct.pack('<4I', version, size, first, end)


def tail(codes, data, version=4, size=256, first=10, end=None, lengths=None, extra=bytes(4), spare='0'):
    """what stands behind the mode byte: a code, or '' for none, for each symbol from the first on, and the bits of the symbols"""
    end = first + len(codes) if end is None else end
    lengths = counts([len(c) for c in codes]) if lengths is None else lengths
    return integers(version, size, first, end) + lengths + words_of(''.join(codes), spare) + words_of(data, spare) + extra


# 10 and 12, each of one bit; the symbols 10 12 10
TWO, DATA = ['0', '', '1'], '010'
FRONT, THREE_LENGTHS, CODE_WORD, DATA_WORD = integers(), counts([1, 0, 1]), words_of('01'), words_of(DATA)
REST = CODE_WORD + DATA_WORD + bytes(4)


def mask_run(mask):
    return struct.pack('<h', len(mask)) + mask + END


def mask_bytes(text):
    """pixels as 1 and 0"""
    text = text.replace(' ', '')
    return bytes(int(text[k:k + 8].ljust(8, '0'), 2) for k in range(0, len(text), 8))


def body(kind, depth, mode, rest):
    """ranges, sweep byte 0, mode byte, and what follows"""
    return bytes([10] * depth + [12] * depth) + bytes([0, mode]) + rest


class Shape:
    """what stands around a body: sizes, kind, mode and mask; `kept` is the mask kept before the call, where it is reused"""

    def __init__(self, what, mode=PLAIN, kind=1, rows=1, columns=3, depth=1, mask=None, kept=None, side=8):
        self.what, self.mode, self.kind, self.depth, self.kept = what, mode, kind, depth, kept
        self.mask = kept or mask or b'\xFF' * ((rows * columns + 7) // 8)
        self.pixels = [p for p in range(rows * columns) if blobs.is_valid(self.mask, p)]
        is_whole = len(self.pixels) == rows * columns
        self.named = dict(rows=rows, columns=columns, depth=depth, kind=kind, valid=len(self.pixels), side=side, error=0.5)
        self.named['mask'] = b'' if kept or is_whole else mask_run(mask)

    def blob(self, rest, less=0, **named):
        """the size may be less than what is there"""
        blob = made(body(self.kind, self.depth, named.pop('mode', self.mode), rest), **dict(self.named, **named))
        return changed(blob, 34, u32(len(blob) - less)) if less else blob


# three symbols each
SHAPES = (
    Shape('kind 1, mode 2'),
    Shape('kind 0, mode 1, a mask', DELTA, 0, columns=10, mask=mask_bytes('10100000 01'), side=16),
    Shape('kind 1, mode 1, depth 3', DELTA, columns=1, depth=3),
    Shape('kind 0, mode 2, a mask reused', PLAIN, 0, columns=10, kept=mask_bytes('10100000 01'), side=16),
    Shape('kind 1, mode 1, three rows', DELTA, rows=3, columns=1),
    Shape('kind 0, mode 2, depth 3, a mask', PLAIN, 0, columns=4, depth=3, mask=mask_bytes('0010')),
)


# --- cases ------------------------------------------------------------------------------------------------------------------------


def lent(blob, turn, **named):
    """slices with room enough"""
    mask, blocks, cells = blobs.needs(blobs.header(blob))
    more = MORE[turn % len(MORE)]
    room = dict(lent_kept=mask + more[0], lent_spare=mask + more[1], lent_list=blocks + more[2], lent_image=cells + more[3])
    return dict(room, **named)


def masks(shape):
    """before the call, and after it"""
    if shape.kept:
        return dict(before=shape.kept, kept=shape.kept, reuse=True)
    return dict(kept=shape.mask, spare=shape.mask)


def yes(name, blob, words, end, shape, note):
    """a case that is accepted"""
    h = blobs.header(blob)
    return dict(name=name, blob=blob, words=words, end=end, depth=h['depth'], written=len(shape.pixels) * h['depth'], note=note, **masks(shape))


def no(name, blob, number, place, shape, note, **named):
    """a refusal behind the mask section: the spare has the new mask, and nothing else is written"""
    before = dict(before=shape.kept, kept=shape.kept, reuse=True) if shape.kept else dict(spare=shape.mask)
    return dict(dict(before, name=name, blob=blob, number=number, place=place, note=note), **named)


def decoded(blob, shape):
    return model.decoded(blob, shape.mask, mode_at(blob))


def right(name, shape, rest, words, note, less=0, behind=b'', more=0, **named):
    """a body whose words are written beside it, in the order of the cells, those of valid pixels alone; it ends with what is given, but for
    so many bytes more"""
    blob = shape.blob(rest, less, **named) + behind
    cells = spread(shape, words)
    found, end = decoded(blob, shape)
    assert found == cells and end == mode_at(blob) + 1 + len(rest) - more, (name, found, cells, end)
    return yes(name, blob, cells, end, shape, note)


def spread(shape, words):
    """the words of valid pixels at their cells"""
    assert len(words) == len(shape.pixels) * shape.depth
    cells = [0] * (shape.named['rows'] * shape.named['columns'] * shape.depth)
    for i, p in enumerate(shape.pixels):
        cells[p * shape.depth:(p + 1) * shape.depth] = words[i * shape.depth:(i + 1) * shape.depth]
    return cells


def wrong(name, shape, rest, number, note, less=0):
    """a body that is refused, at its mode byte"""
    blob = shape.blob(rest, less)
    try:
        decoded(blob, shape)
        said = 0
    except model.Refused as why:
        said = why.args[0]
    assert said == number, (name, said, number)
    return no(name, blob, number, mode_at(blob), shape, '%s; %s (%s)' % (note, PLACE, shape.what))


# --- accepted: tables -------------------------------------------------------------------------------------------------------------


def symbols_of(shape, cells):
    """the symbols of an image, in the order they are stored: what is added to the prediction, pixel by pixel"""
    columns, depth, valid = shape.named['columns'], shape.depth, set(shape.pixels)
    less = 128 if shape.kind == 0 else 0
    if shape.mode == PLAIN:
        return [(cells[p * depth + d] + less) % 256 for p in shape.pixels for d in range(depth)]

    def predicted(p, d):
        left, above, earlier = p - 1, p - columns, [q for q in shape.pixels if q < p]
        if p % columns and left in valid:
            return cells[left * depth + d]
        if above in valid:
            return cells[above * depth + d]
        return cells[earlier[-1] * depth + d] if earlier else 0

    return [(cells[p * depth + d] - predicted(p, d) + less) % 256 for d in range(depth) for p in shape.pixels]


def fixed(symbols):
    """codes of one length for the symbols that occur, from the least on, and the first of them"""
    used = sorted(set(symbols))
    bits = max(1, (len(used) - 1).bit_length())
    every = {s: format(i, '0%db' % bits) for i, s in enumerate(used)}
    return [every.get(s, '') for s in range(used[0], used[-1] + 1)], used[0]


def of_symbols(symbols, **named):
    """a body of just these symbols"""
    codes, first = fixed(symbols)
    return tail(codes, ''.join(codes[s - first] for s in symbols), first=first, **named)


def versions():
    note = 'version at least 2; ' + UNSIGNED
    for version in (2, 3, 4, 5, 256, 65536, 1 << 31, (1 << 31) + 5, TOP - 1):
        yield right('version-%d' % version, SHAPES[0], tail(TWO, DATA, version=version), [10, 12, 10], note)


def wraps():
    """the k-th length belongs to symbol (i0 + k) modulo size"""
    plain = Shape('five pixels', columns=5)
    note = 'wrapping modulo size: the k-th length belongs to symbol (i0 + k) modulo size'
    yield right('wrap-size-12', SHAPES[0], tail(TWO, DATA, size=12), [10, 0, 10], note)
    yield right('wrap-size-11', SHAPES[0], tail(TWO, DATA, size=11), [10, 1, 10], note)
    codes = ['00', '01', '10', '11']
    for size, first in ((256, 254), (255, 253), (200, 198), (129, 127), (128, 126), (17, 15), (7, 4), (4, 3), (4, 0), (5, 4)):
        words = [(first + k) % size for k in (3, 0, 1, 2, 3)]
        yield right('wrap-size-%d-first-%d' % (size, first), plain, tail(codes, '1100011011', size=size, first=first), words, note)
    yield right('wrap-delta', Shape('delta', DELTA, columns=5), tail(codes, '1100011011', size=200, first=198), [1, 199, 142, 142, 143], note)
    yield right('wrap-kind-0', Shape('kind 0', PLAIN, 0, columns=5), tail(codes, '1100011011', size=200, first=198), [129, 70, 71, 128, 129], note)
    yield right('size-1', SHAPES[0], tail(['1'], '111', size=1, first=0), [0, 0, 0], 'i0 below size, i1-i0 from 1 to size')
    for size, first in ((256, 0), (256, 17), (256, 255), (200, 199), (200, 0), (129, 64), (3, 2)):
        bits = (size - 1).bit_length()
        every = [format(k * 37 % size if size % 37 else k, '0%db' % bits) for k in range(size)]
        picked = (0, size - 1, size // 2, size - first if first else 1, 1)
        words = [(first + k) % size for k in (p % size for p in picked)]
        data = ''.join(every[p % size] for p in picked)
        yield right('full-size-%d-first-%d' % (size, first), plain, tail(every, data, size=size, first=first), words, note + ' (all symbols)')


def chained(n, flip=False):
    """1, 01, 001, .. to n bits"""
    codes = ['0' * k + '1' for k in range(n)]
    return [c.translate({48: 49, 49: 48}) for c in codes] if flip else codes


def code_forms():
    one = SHAPES[0]
    for code in ('0', '1', '01', '10110', '0' * 12, '0' * 13, '1' * 31, '10' * 16, '0' * 32, '1' * 32):
        yield right('single-%d-%s' % (len(code), code[:5]), one, tail([code], code * 3, first=77), [77] * 3, GAPS)
    yield right('single-last', one, tail([''] * 255 + ['01'], '010101', first=0), [255] * 3, GAPS + '; ' + NO_CODE)
    yield right('single-first', one, tail(['01'] + [''] * 255, '010101', first=0), [0] * 3, GAPS + '; ' + NO_CODE)
    yield right('gap-00-11', one, tail(['00', '11'], '110011'), [11, 10, 11], GAPS)
    yield right('gap-middle', one, tail(['000', '101', '111'], '101111000'), [11, 12, 10], GAPS)
    yield right('zero-lengths', one, tail(['', '', '10', '', '', '', '0', '', '11', ''], '11100'), [18, 12, 16], NO_CODE)
    for n in (13, 14, 20, 31, 32):
        shape = Shape('a chain', columns=n)
        for flip in (False, True):
            codes = chained(n, flip)
            order = [k * 7 % n if n % 7 else (k * 5) % n for k in range(n)]
            data = ''.join(codes[k] for k in order)
            yield right('chain-%d-%d' % (n, flip), shape, tail(codes, data), [10 + k for k in order], 'lengths 1 to %d' % n)
    # each of the lengths 13 to 32 once, and beside them a code of one bit
    long = ['1'] + ['0' + format(k, '012b') + '0' * k for k in range(20)]
    shape = Shape('lengths 13 to 32', columns=22)
    order = [20, 1, 0, 7, 8, 19, 2, 13, 0, 3, 18, 4, 17, 5, 16, 6, 15, 9, 14, 10, 12, 11]
    turned = [long[k] for k in range(20, -1, -1)]
    for name, codes in (('13-to-32', long), ('32-to-13', turned)):
        yield right('lengths-' + name, shape, tail(codes, ''.join(codes[k] for k in order)), [10 + k for k in order], LENGTHS)
    same = [format(k * 2654435761 % TOP, '032b') for k in range(256)]
    data = ''.join(same[k] for k in (0, 255, 128, 7, 99))
    yield right('all-of-32', Shape('five pixels', columns=5), tail(same, data, first=0), [0, 255, 128, 7, 99], LENGTHS + ' (256 codes of 32 bits)')


def count_forms():
    """the lengths in every form of packed counts"""
    one, want = SHAPES[0], [10, 12, 10]
    for code in (0, 1, 2):
        yield right('count-code-%d' % code, one, tail(TWO, DATA, lengths=counts([1, 0, 1], code=code)), want, LENGTHS)
        stored = table_counts([1, 0, 1], [1], 1, code=code)
        yield right('count-code-%d-table' % code, one, tail(TWO, DATA, lengths=stored), want, LENGTHS)
    for bits in (1, 2, 5, 6, 7, 8, 9, 13, 16, 17, 24, 31):
        yield right('length-bits-%d' % bits, one, tail(TWO, DATA, lengths=counts([1, 0, 1], bits)), want, LENGTHS)
        stored = table_counts([1, 0, 1], [1], bits)
        yield right('length-bits-%d-table' % bits, one, tail(TWO, DATA, lengths=stored), want, LENGTHS)
    spoilt = counts([1, 0, 1], spare=(1 << 64) - 1)
    yield right('lengths-unused-bits', one, tail(TWO, DATA, lengths=spoilt), want, UNUSED)
    spoilt = table_counts([1, 0, 1], [1], 1, spare=(1 << 64) - 1)
    yield right('table-unused-bits', one, tail(TWO, DATA, lengths=spoilt), want, UNUSED)
    more = table_counts([1, 0, 1], [33, 1, 63], 6)
    yield right('table-33-unused', one, tail(TWO, DATA, lengths=more), want, LENGTHS + ' (an entry of 33 that no length has)')
    many = table_counts([1, 0, 1], [40] * 253 + [1], 6)
    yield right('table-255-entries', one, tail(TWO, DATA, lengths=many), want, LENGTHS)
    codes = ['0' * 31 + '1'] + ['1'] + ['0' * k + '1' for k in range(1, 31)]
    through = table_counts([len(c) for c in codes], list(range(1, 33)), 6)
    rest = tail(codes, codes[0] + codes[31] + codes[1], lengths=through)
    yield right('table-1-to-32', one, rest, [10, 41, 11], LENGTHS)
    every = [format(k, '08b') for k in range(256)]
    for name, lengths in (('2', counts([8] * 256, code=1)), ('4', counts([8] * 256, code=0)), ('table', table_counts([8] * 256, [8], 4, code=1))):
        rest = tail(every, every[200] + every[0] + every[255], first=0, lengths=lengths)
        yield right('256-lengths-' + name, one, rest, [200, 0, 255], LENGTHS)


def ends():
    """bits to a word's end and past it; the word behind; what is unused"""
    one, want = SHAPES[0], [10, 12, 11]
    for total, lengths in ((31, (10, 10, 11)), (32, (10, 11, 11)), (33, (11, 11, 11)), (63, (21, 21, 21)), (64, (21, 22, 21)), (65, (21, 22, 22)),
                           (95, (32, 31, 32)), (96, (32, 32, 32)), (4, (1, 2, 1))):
        codes = ['0' + 'x' * (lengths[0] - 1), '10' + 'x' * (lengths[1] - 2), '11' + 'x' * (lengths[2] - 2)] if min(lengths) > 1 else ['0', '10', '11']
        codes = [c.replace('x', '01'[k % 2]) for k, c in enumerate(codes)]
        data = codes[0] + codes[2] + codes[1]
        yield right('bits-%d' % len(data), one, tail(codes, data), want, SPARE_WORD)
        yield right('bits-%d-spoilt' % len(data), one, tail(codes, data, spare='1', extra=b'\xDE\xAD\xBE\xEF'), want, SPARE_WORD + '; ' + UNUSED)
    yield right('behind-body', one, tail(TWO, DATA) + b'\xFF' * 7, [10, 12, 10], 'bytes between the body\'s end and size are never looked at', more=7)
    yield right('behind-size', one, tail(TWO, DATA), [10, 12, 10], 'bytes after size are never looked at', behind=b'\xFF' * 5)
    yield right('extra-is-last', one, tail(TWO, DATA) + b'\xFF' * 5, [10, 12, 10], SPARE_WORD + ' (the size ends with it, bytes follow)', less=5, more=5)


# --- accepted: cells --------------------------------------------------------------------------------------------------------------


def of_values(name, shape, symbols, words, note):
    return right(name, shape, of_symbols(symbols), words, note)


def by_hand():
    """symbols and words worked out by hand, words in the order of the cells"""
    for kind in (0, 1):
        less = 128 if kind == 0 else 0
        row = Shape('a row', PLAIN, kind, columns=6)
        words = [(s - less) % 256 for s in (0, 1, 127, 128, 129, 255)]
        yield of_values('plain-kind-%d' % kind, row, [0, 1, 127, 128, 129, 255], words, ADDED + '; the word is the byte, 0 to 255')
    yield of_values('delta-kind-1', Shape('a row', DELTA, columns=4), [5, 250, 3, 255], [5, 255, 2, 1], ADDED)
    yield of_values('delta-kind-0', Shape('a row', DELTA, 0, columns=4), [133, 120, 0, 255], [5, 253, 125, 252], ADDED)
    yield of_values('delta-kind-0-zero', Shape('a row', DELTA, 0), [128, 128, 128], [0, 0, 0], ADDED)
    two = Shape('two rows', DELTA, rows=2)
    yield of_values('row-start-above', two, [1, 1, 1, 10, 1, 1], [1, 2, 3, 11, 12, 13], PREDICTED + ' (a row begins: the word above)')
    holes = Shape('holes', DELTA, rows=2, mask=mask_bytes('101 011'))
    yield of_values('last-across-holes', holes, [7, 1, 1, 1], [7, 8, 9, 10], PREDICTED + ' (across a hole and across a row\'s start)')
    start = Shape('holes', DELTA, rows=2, columns=2, mask=mask_bytes('01 11'))
    yield of_values('row-start-last', start, [5, 1, 1], [5, 6, 7], PREDICTED + ' (a row begins, nothing above: the last value)')
    above = Shape('holes', DELTA, rows=2, mask=mask_bytes('111 011'))
    yield of_values('above-behind-hole', above, [10, 20, 30, 1, 1], [10, 30, 60, 31, 32], PREDICTED + ' (a hole to the left: the word above)')
    left = Shape('all', DELTA, rows=2, columns=2)
    yield of_values('left-before-above', left, [10, 20, 5, 1], [10, 30, 15, 16], PREDICTED + ' (left before above)')
    far = Shape('rows of holes', DELTA, rows=4, columns=2, mask=mask_bytes('10 00 00 01'))
    yield of_values('last-across-rows', far, [200, 100], [200, 44], PREDICTED + ' (across empty rows)')
    skip = Shape('holes', DELTA, rows=3, columns=2, mask=mask_bytes('11 00 11'))
    yield of_values('above-is-one-row', skip, [1, 2, 4, 8], [1, 3, 7, 15], PREDICTED + ' (above is the row before, which is empty)')
    edge = Shape('a row\'s start', DELTA, rows=2, columns=3, mask=mask_bytes('001 100'))
    yield of_values('left-is-same-row', edge, [9, 4], [9, 13], PREDICTED + ' (the pixel before is in the row before)')
    corner = Shape('a row\'s start', DELTA, rows=2, columns=3, mask=mask_bytes('101 100'))
    yield of_values('left-is-same-row-above', corner, [9, 4, 1], [9, 13, 10], PREDICTED + ' (the pixel before is in the row before: the word above)')
    depths = Shape('two depths', DELTA, columns=2, depth=2)
    yield of_values('depth-begins', depths, [9, 1, 4, 1], [9, 4, 10, 5], PREDICTED + ' (0 where a depth begins)')
    first = Shape('two depths, the first pixel invalid', DELTA, columns=3, depth=2, mask=mask_bytes('011'))
    yield of_values('depth-begins-with-hole', first, [9, 1, 4, 1], [9, 4, 10, 5], PREDICTED + ' (0 where a depth begins)')
    deep = Shape('two depths, two rows', DELTA, 0, rows=2, columns=2, depth=2)
    yield of_values('depth-above', deep, [138, 148, 133, 129, 228, 128, 126, 127], [10, 100, 30, 100, 15, 98, 16, 97], PREDICTED)
    inner = Shape('depth innermost', PLAIN, columns=3, depth=3, mask=mask_bytes('101'))
    yield of_values('depth-innermost', inner, [1, 2, 3, 4, 5, 6], [1, 2, 3, 4, 5, 6], INNERMOST)
    inner = Shape('depth innermost', PLAIN, 0, rows=2, columns=2, depth=3, mask=mask_bytes('0111'))
    yield of_values('depth-innermost-0', inner, [9, 8, 7, 6, 5, 4, 3, 2, 1], [137, 136, 135, 134, 133, 132, 131, 130, 129], INNERMOST)
    yield of_values('not-clamped', SHAPES[0], [0, 255, 9], [0, 255, 9], 'the ranges, 10 to 12, are not held against the words')
    yield of_values('one-pixel', Shape('one pixel', DELTA, 0, columns=1), [7], [135], ADDED)
    kept = Shape('bits past the pixels', DELTA, columns=10, kept=mask_bytes('10100000 01111111'), side=16)
    kept.pixels, kept.named['valid'] = [0, 2, 9], 3
    yield of_values('reused-bits-past', kept, [7, 1, 1], [7, 8, 9], 'a mask reused; bits past the pixels do not matter')
    for shape in SHAPES:
        words = decoded(shape.blob(tail(TWO, DATA)), shape)[0]
        valid = [words[p * shape.depth + d] for p in shape.pixels for d in range(shape.depth)]
        assert symbols_of(shape, words) == [10, 12, 10]
        yield right('shape-' + shape.what.replace(', ', '-').replace(' ', '-'), shape, tail(TWO, DATA), valid, OLD)


# --- accepted: drawn --------------------------------------------------------------------------------------------------------------


class Draw:
    """numbers that look random, the same in every Python"""

    def __init__(self, seed):
        self.state = seed * 2654435761 + 12345

    def below(self, n):
        self.state = (self.state * 6364136223846793005 + 1442695040888963407) % (1 << 64)
        return (self.state >> 33) % n

    def shuffled(self, items):
        items = list(items)
        for k in range(len(items) - 1, 0, -1):
            j = self.below(k + 1)
            items[k], items[j] = items[j], items[k]
        return items


def drawn_codes(draw, n, longest, deep):
    """n codes by splitting leaves of a tree; in a deep one mostly the last leaf. Some leaves more than are used: gaps."""
    leaves = ['0', '1']
    while len(leaves) < n + draw.below(3):
        k = len(leaves) - 1 if draw.below(100) < deep else draw.below(len(leaves))
        if len(leaves[k]) < longest:
            code = leaves.pop(k)
            leaves += [code + '0', code + '1'] if draw.below(2) else [code + '1', code + '0']
    return draw.shuffled(leaves)[:n]


def drawn_mask(draw, pixels, share):
    bits = ''.join('1' if draw.below(100) < share else '0' for _ in range(pixels))
    bits = bits if '1' in bits else '1' + bits[1:]
    return None if '0' not in bits else mask_bytes(bits)


def drawn_lengths(draw, lengths):
    """one of the forms of packed counts"""
    used = sorted(set(lengths) - {0})
    form = draw.below(5)
    if form == 0:
        return table_counts(lengths, used, 6, code=draw.below(2), spare=draw.below(1 << 30))
    if form == 1:
        return counts(lengths, 6 + draw.below(20), code=draw.below(2), spare=draw.below(1 << 30))
    return counts(lengths, spare=draw.below(1 << 30))


def drawn(seed):
    draw = Draw(seed)
    rows, columns = ((1, 1 + draw.below(60)), (1 + draw.below(60), 1), (1 + draw.below(20), 1 + draw.below(20)))[draw.below(3)]
    depth, kind, mode = (1, 1, 2, 3, 5)[draw.below(5)], draw.below(2), 1 + draw.below(2)
    mask = drawn_mask(draw, rows * columns, (20, 50, 80, 95, 100)[draw.below(5)])
    shape = Shape('drawn', mode, kind, rows, columns, depth, mask, side=1 + draw.below(16))
    size = (256, 256, 200, 1 + draw.below(256))[draw.below(4)]
    span = 1 + draw.below(size)
    first = draw.below(size)
    n = 1 + draw.below(min(span, 40))
    codes = drawn_codes(draw, n, 1 + draw.below(32) + n.bit_length(), (0, 30, 90)[draw.below(3)]) if n > 1 else [format(draw.below(8), '03b')]
    codes = [c[:32] for c in codes]
    assert model.is_prefix_free(codes)
    every = draw.shuffled(codes + [''] * (span - n))
    places = [k for k, c in enumerate(every) if c]
    picked = [places[draw.below(len(places))] for _ in range(len(shape.pixels) * depth)]
    rest = tail(every, ''.join(every[k] for k in picked), 2 + draw.below(9), size, first, lengths=drawn_lengths(draw, [len(c) for c in every]),
                extra=u32(draw.below(TOP)), spare='01'[draw.below(2)])
    blob = shape.blob(rest + bytes(draw.below(4)))
    words, end = decoded(blob, shape)
    assert symbols_of(shape, words) == [(first + k) % size for k in picked] and end == mode_at(blob) + 1 + len(rest)
    return yes('drawn-%d' % seed, blob, words, end, shape, 'drawn: mode %d, kind %d, %d x %d x %d' % (mode, kind, rows, columns, depth))


def accepted():
    return [*versions(), *wraps(), *code_forms(), *count_forms(), *ends(), *by_hand(), *(drawn(seed) for seed in range(1, 61))]


# --- refused: name, what stands behind the mode byte, number, sentence ------------------------------------------------------------


def cuts():
    """every byte that can be missing"""
    whole = tail(TWO, DATA)
    for n in range(len(whole)):
        part = ('integers', 'lengths', 'codes', 'symbols', 'last-word')[(n >= 16) + (n >= 19) + (n >= 23) + (n >= 27)]
        yield 'cut-%s-%d' % (part, n), whole[:n], 1, PAST
    for name, lengths in (('count-of-2', counts([1, 0, 1], code=1)), ('count-of-4', counts([1, 0, 1], code=0)),
                          ('table', table_counts([1, 0, 1], [1], 1)), ('wide', counts([1, 0, 1], 31)), ('wide-table', table_counts([1, 0, 1], [1], 31))):
        for n in range(1, len(lengths)):
            yield 'cut-%s-%d' % (name, n), FRONT + lengths[:n], 1, PAST


def wrong_integers():
    rest = THREE_LENGTHS + REST
    note = INTEGERS + '; ' + JUDGED
    for version in (0, 1):
        yield 'version-%d' % version, tail(TWO, DATA, version=version), 8, note
        yield 'version-%d-only' % version, u32(version), 8, note + ' (nothing follows)'
        yield 'version-%d-cut' % version, u32(version)[:3], 1, PAST
        yield 'version-%d-size-257' % version, integers(version, 257, 300, 3) + rest, 8, note
    for size in (257, 258, 300, 512, 65536, 65546, 1 << 31, TOP - 1):
        yield 'size-%d' % size, integers(size=size) + rest, 8, note
    yield 'size-257-only', integers(size=257)[:8], 8, note + ' (nothing follows)'
    yield 'size-257-cut', integers(size=257)[:7], 1, PAST
    yield 'size-0', tail(['0'], '000', size=0, first=0), 8, note + ' (no i0 is below it)'
    yield 'size-0-only', integers(size=0)[:8], 1, PAST + '; size 0 is at most 256, the next integer is missing'
    yield 'size-0-first-only', integers(size=0, first=0)[:12], 8, note
    for name, size, first, end in (('first-is-size', 256, 256, 259), ('first-is-size-11', 11, 11, 14), ('first-is-size-1', 1, 1, 2), ('first-266', 256, 266, 269),
                                   ('first-65546', 256, 65546, 65549), ('first-2^31', 256, 1 << 31, (1 << 31) + 3), ('first-minus-1', 256, TOP - 1, 2),
                                   ('first-minus-3', 256, TOP - 3, 0), ('first-minus-10', 256, TOP - 10, TOP - 7)):
        yield name, integers(4, size, first, end) + rest, 8, note + '; ' + UNSIGNED
        yield name + '-only', integers(4, size, first, end)[:12], 8, note + ' (nothing follows)'
    yield 'first-is-size-cut', integers(4, 256, 256, 259)[:11], 1, PAST
    for name, size, first, end in (('end-is-first', 256, 10, 10), ('end-below-first', 256, 10, 9), ('end-0', 256, 10, 0), ('end-2^31', 256, 10, 1 << 31),
                                   ('end-minus-1', 256, 10, TOP - 1), ('end-2^31-more', 256, 10, (1 << 31) + 13), ('end-modulo-size', 256, 255, 2),
                                   ('end-65549', 256, 10, 65549)):
        yield name, integers(4, size, first, end) + rest, 8, note + '; ' + UNSIGNED
        yield name + '-only', integers(4, size, first, end), 8, note + ' (nothing follows)'
    three = ['0', '10', '11']
    yield 'span-3-size-2', tail(three, '01011', size=2, first=0), 8, note
    yield 'span-3-size-2-first-1', tail(three, '01011', size=2, first=1), 8, note
    yield 'span-2-size-1', tail(['0', '1'], '000', size=1, first=0), 8, note
    yield 'span-13-size-12', tail(['0'] + [''] * 11 + ['1'], '010', size=12), 8, note
    yield 'span-24-size-12', tail(['0'] + [''] * 22 + ['1'], '010', size=12), 8, note
    yield 'span-257', integers(4, 256, 10, 267) + counts([1] + [0] * 254 + [1], code=1) + REST, 8, note
    yield 'span-257-only', integers(4, 256, 0, 257), 8, note + ' (nothing follows)'


def wrong_counts():
    """the lengths as packed counts"""
    for name, lengths, number, note in (
            ('code-3', 'C10305', 8, PACKED), ('code-3-only', 'C1', 8, PACKED), ('code-3-table', 'E103020105', 8, PACKED), ('n-257-only', '410101', 8, PACKED),
            ('n-65539', '0103000100' + '05', 8, PACKED), ('n-2^31', '0103000080' + '05', 8, PACKED), ('n-259', '41030105', 8, PACKED),
            ('bits-0-table', 'A003020105', 8, PACKED), ('bits-0-table-only', 'A003', 8, PACKED + ' (nothing follows)'), ('bits-0-table-cut', 'A0', 1, PAST),
            ('bits-0-table-count-of-2-cut', '6003', 1, PAST), ('n-257-bits-0-table', '600101', 8, PACKED), ('entries-0', 'A10300', 8, PACKED),
            ('entries-1', 'A10301', 8, PACKED), ('entries-1-more', 'A103010105', 8, PACKED), ('index-3-of-3', 'A10303031D', 8, PACKED),
            ('index-3-twice', 'A1030303' + '0F', 8, PACKED), ('index-7-of-5', 'A103050F' + 'C101', 8, PACKED),
             ('index-last', 'A1030303' + '31', 8, PACKED), ('index-high-cut', 'A5030A' + 'FF' * 6, 1, PAST)):
        whole = hexed(lengths)
        yield 'lengths-' + name, FRONT + whole + (b'' if number == 1 or 'only' in name else REST), number, note
    yield 'lengths-n-257', FRONT + hexed('410101') + b'\5' + bytes(32) + REST, 8, PACKED
    for name, lengths in (('0', hexed('8100')), ('0-bits-0', hexed('8000')), ('1', counts([1])), ('2', counts([1, 0])), ('2-more', hexed('810205')),
                          ('4', counts([1, 0, 1, 0])),
                          ('4-bits-5', counts([1, 0, 1, 0], 5)), ('2-count-of-2', counts([1, 0], code=1)), ('4-count-of-2', counts([1, 0, 1, 1], code=1)),
                          ('2-count-of-4', counts([1, 1], code=0)), ('4-count-of-4', counts([1, 0, 1, 0], code=0)), ('2-table', table_counts([1, 0], [1], 1)),
                          ('4-table', table_counts([1, 0, 1, 0], [1], 1)), ('0-table', hexed('A1000201')), ('256', counts([1, 0, 1] + [0] * 253, code=1)),
                          ('6', counts([1, 0, 1] * 2))):
        yield 'number-%s' % name, FRONT + lengths + REST, 8, WHOLE
        yield 'number-%s-only' % name, FRONT + lengths, 8, WHOLE + ' (nothing follows)'
    yield 'number-4-cut', FRONT + counts([1, 0, 1, 0], 8)[:-1], 1, WHOLE + ' (the run is cut, which comes first)'
    yield 'number-2-cut', FRONT + counts([1, 0], 16)[:-1], 1, WHOLE + ' (the run is cut, which comes first)'
    yield 'number-4-table-cut', FRONT + table_counts([1, 0, 1, 0], [1, 2, 3, 4], 1)[:-1], 1, WHOLE + ' (the run is cut, which comes first)'
    yield 'number-255-of-256', integers(first=0, end=256) + counts([1, 0, 1] + [0] * 252) + REST, 8, WHOLE
    yield 'number-256-of-255', integers(first=0, end=255) + counts([1, 0, 1] + [0] * 253) + REST, 8, WHOLE


def wrong_lengths():
    long, bits = 33, 6
    for name, lengths in (('first', [long, 0, 1]), ('middle', [1, long, 1]), ('last', [1, 0, long]), ('all', [long] * 3)):
        yield 'length-33-' + name, FRONT + counts(lengths, bits) + bytes(4 * 6) + DATA_WORD + bytes(4), 8, LENGTHS
        yield 'length-33-%s-only' % name, FRONT + counts(lengths, bits), 8, LENGTHS + ' (no code follows)'
    for n, bits in ((63, 6), (64, 7), (65, 7), (256, 9), (257, 9), (288, 9), (65537, 17), ((1 << 31) - 1, 31)):
        yield 'length-%d' % n, FRONT + counts([1, 0, n], bits) + bytes(4 * 6) + DATA_WORD + bytes(4), 8, LENGTHS
    yield 'length-33-table', FRONT + table_counts([1, 0, 33], [1, 33], 6) + bytes(4 * 4), 8, LENGTHS
    for name, lengths in (('bits-0', hexed('8003')), ('bits-1', hexed('810300')), ('bits-6', hexed('8603' + '000000')), ('table', hexed('A103020100')),
                          ('unused-bits', hexed('8103F8')), ('bits-0-count-of-4', hexed('0003000000'))):
        yield 'no-code-' + name, FRONT + lengths + REST, 8, SOME
        yield 'no-code-%s-only' % name, FRONT + lengths, 8, SOME + ' (nothing follows)'
    yield 'no-code-256', integers(first=0, end=256) + hexed('400001') + REST, 8, SOME


def cut_codes():
    for name, codes in (('33-bits', ['0' * 32, '1']), ('64-bits', ['0' * 32, '1' * 32]), ('65-bits', ['0' * 32, '10' + '0' * 29, '11']), ('32-bits', ['01' * 16])):
        run = words_of(''.join(codes))
        front = integers(end=10 + len(codes)) + counts([len(c) for c in codes], 6)
        for less in (1, 2, 4, len(run)):
            yield 'codes-%s-cut-%d' % (name, less), front + run[:len(run) - less], 1, PAST
    every = [format(k, '032b') for k in range(256)]
    yield 'codes-1024-bytes-cut', tail(every, '', first=0, extra=b'')[:-1], 1, PAST
    twice = tail(['0' * 32, '0' * 32], '', extra=b'')
    yield 'codes-cut-not-prefix-free', twice[:-1], 1, RUN
    short = FRONT + counts([1, 0, 32], 6) + words_of('0' + '0' * 32)[:4]
    yield 'codes-cut-short-begins-long', short, 1, RUN


def balanced(n):
    """n codes of 7 bits"""
    return [format(k, '07b') for k in range(n)]


def not_free():
    """codes that are, or begin, others; what follows them is right for the other codes, or missing"""
    sixty, long, word = balanced(60), '1' * 32, '01' * 16
    far = lambda k, j, code: sixty[:k] + [sixty[k]] + sixty[k + 1:j] + [code] + sixty[j + 1:]  # noqa: E731
    for name, codes in (
            ('equal', ['0', '', '0']), ('equal-ones', ['1', '1']), ('equal-32', [word, word]), ('equal-13', ['0' * 12 + '1', '1', '0' * 12 + '1']),
            ('short-first', ['0', '', '01']), ('short-first-next', ['1', '10']), ('long-first', ['01', '', '0']), ('long-first-next', ['11', '1']),
            ('one-bit-32', ['1', '0', long]), ('32-one-bit', [long, '0', '1']), ('31-32', ['1' * 31, long]), ('32-31', [long, '1' * 31]),
            ('12-13', ['0' * 12, '1', '0' * 13]), ('13-12', ['0' * 13, '1', '0' * 12]), ('complete-and-more', ['0', '10', '11', '111']),
            ('more-and-complete', ['111', '0', '10', '11']), ('between', ['00', '011', '01', '1']), ('no-code-between', ['0'] + [''] * 200 + ['00']),
            ('far-equal', far(0, 59, sixty[0])), ('far-short-first', far(0, 59, sixty[0] + '0')), ('far-long-first', [sixty[0] + '1'] + sixty[1:59] + [sixty[0]]),
            ('middle-equal', far(20, 45, sixty[20])), ('middle-short-first', far(20, 45, sixty[20] + '1011')), ('middle-two', far(20, 22, sixty[20] + '0')),
            ('last-two', far(58, 59, sixty[58] + '1')), ('last-two-turned', sixty[:58] + [sixty[59] + '0', sixty[59]]),
            ('first-two', [sixty[0], sixty[0] + '0'] + sixty[2:]), ('across-words', ['0' * 20, '1' * 20, '01' * 10, '1' * 20]),
            ('across-words-begun', ['0' * 20, '1' * 20, '01' * 10, '1' * 21]), ('all-one', ['0' * 5] * 40)):
        data = codes[next(k for k, c in enumerate(codes) if c)] * 3
        yield 'prefix-' + name, tail(codes, data), 8, FREE
    yield 'prefix-no-symbols', tail(['0', '', '01'], '', extra=b''), 8, FREE + ' (no symbol follows)'
    yield 'prefix-equal-no-symbols', tail(['01', '01'], '', extra=b''), 8, FREE + ' (no symbol follows)'
    yield 'prefix-wrapped', tail(['1', '', '0', '01'], '010', size=12), 8, FREE + ' (the last wraps to another symbol)'
    yield 'prefix-wrapped-equal', tail(['0', '', '', '', '0'], '000', size=12, first=9), 8, FREE
    whole = [format(k, '08b') for k in range(256)]
    yield 'prefix-256-equal', tail(whole[:255] + [whole[0]], whole[3] * 3, first=0), 8, FREE
    yield 'prefix-256-begun', tail(whole[:255] + [whole[0] + '0'], whole[3] * 3, first=0), 8, FREE
    yield 'prefix-256-begins', tail([whole[255] + '0'] + whole[1:], whole[3] * 3, first=0), 8, FREE


def unknown():
    """bits that begin no code"""
    half, deep = ['00', '01'], ['0', '1' * 32]
    for name, codes, data in (
            ('first', half, '1'), ('first-ones', half, '1' * 6), ('middle', half, '00' + '1'), ('last', half, '0001' + '1'),
            ('last-second-bit', ['00', '11'], '0011' + '01'),
            ('one-code-first', ['0'], '1'), ('one-code-middle', ['0'], '01'), ('one-code-last', ['0'], '001'), ('one-code-of-1-last', ['1'], '110'),
            ('32-last-bit', deep, '1' * 31 + '0'), ('32-last-bit-second', deep, '0' + '1' * 31 + '0'), ('31-bits', deep, '0' + '1' * 30 + '0'),
            ('32-first-bit', ['0' * 32], '1' + '0' * 31), ('13-early', ['1', '0' * 12 + '1'], '0' * 5 + '1'), ('13-late', ['1', '0' * 12 + '1'], '0' * 13),
            ('14-first-bit', ['0' * 13 + '1', '11'], '10'), ('second-word', ['0' * 16, '1' * 16], '0' * 16 + '1' * 16 + '1' * 15 + '0'),
            ('word-end', ['0' * 8, '1'], '0' * 8 + '1' + '0' * 7 + '1'), ('gap-middle', ['000', '010', '1'], '1' + '000' + '011'),
            ('gap-short', ['1010', '0'], '0' + '0' + '11'), ('bit-30', ['0' * 15, '01' + '0' * 13], '0' * 15 + '01' + '0' * 13 + '1'),
            ('bit-31', ['0' * 16, '01' + '0' * 13], '0' * 16 + '01' + '0' * 13 + '1'), ('bit-32', ['0' * 16, '01' * 8], '01' * 8 + '0' * 16 + '1'),
            ('20-of-32', ['1' * 32, '0' * 32], '1' * 20 + '0')):
        # the other bits of the last word are those of the first code
        filler = next(c for c in codes if c)[0]
        ended = data + filler * (-len(data) % 32)
        yield 'unknown-' + name, tail(codes, ended) + bytes(12), 8, UNKNOWN
        yield 'unknown-%s-no-more' % name, tail(codes, ended, extra=b''), 8, UNKNOWN + '; ' + ORDER
    yield 'unknown-second-word-cut', tail(deep, '0' + '1' * 31, extra=bytes(3)), 1, ORDER
    yield 'unknown-first-word-cut', tail(['0'], '', extra=b'\xFF\xFF\xFF'), 1, ORDER


def cut_symbols():
    sixteen, deep = ['0' * 16, '1' * 16], ['0', '1' * 32]
    for name, codes, data in (('none', TWO, ''), ('at-32', sixteen, '0' * 16 + '1' * 16), ('within', deep, '0' + '1' * 31),
                              ('within-first', deep, '1' * 32), ('within-third', ['0' * 13, '1' * 13], '0' * 26 + '1' * 6),
                              ('within-third-96', ['0' * 32, '1' * 32], '0' * 32 + '1' * 32)):
        for more in range(4):
            yield 'symbols-%s-%d' % (name, more), tail(codes, data, extra=bytes(more)), 1, ORDER
    for total, codes in ((32, ['0' * 10, '10' + '0' * 9, '11' + '0' * 9]), (33, ['0' * 11, '10' + '0' * 9, '11' + '0' * 9]), (3, ['0']), (64, ['0' * 20, '1' * 22]),
                         (96, ['0' * 32])):
        data = (codes * 3)[0] + (codes * 3)[1] + (codes * 3)[2]
        for more in range(4):
            yield 'last-word-%d-bits-%d' % (len(data), more), tail(codes, data, extra=bytes(more)), 1, SPARE_WORD


def orders():
    """two things wrong: the first that is read decides"""
    yield 'order-version-1-end-0', integers(1, 300, 300, 0), 8, JUDGED
    yield 'order-length-33-number-4', FRONT + counts([1, 0, 33, 1], 6), 8, WHOLE
    yield 'order-length-33-run-cut', FRONT + counts([1, 0, 33], 31)[:-1], 1, 'the whole length of a run must fit (1) before its content is judged'
    yield 'order-no-code-run-cut', FRONT + counts([0, 0, 0], 31)[:-1], 1, 'the whole length of a run must fit (1) before its content is judged'
    yield 'order-prefix-unknown', tail(['0', '', '01'], '1'), 8, FREE
    yield 'order-unknown-then-cut', tail(['0', '10'], '0' + '11' + '0' * 29, extra=b''), 8, ORDER
    yield 'order-cut-then-unknown', tail(['0', '1' * 31 + '0'], '0' + '1' * 31, extra=b'\xFF\xFF'), 1, ORDER
    yield 'order-last-symbol-then-last-word', tail(['0' * 16, '1' * 15 + '0'], '0' * 32 + '1' * 16 + '0' * 16, extra=b''), 8, ORDER


def refused_tails():
    return [*cuts(), *wrong_integers(), *wrong_counts(), *wrong_lengths(), *cut_codes(), *not_free(), *unknown(), *cut_symbols(), *orders()]


def behind_size():
    """the bytes are there, and the size is less"""
    whole = tail(TWO, DATA)
    for less in (1, 4, 5, 8, 9, 12, 13, 14, 15, 16, 20, 24, 28, 31):
        yield wrong('size-less-%d' % less, SHAPES[less % 2], whole, 1, PAST + ' (the bytes follow)', less=less)


def late():
    """the last of many symbols is wrong: no cell may be written"""
    holes = mask_bytes(''.join('1' if (k * k + k // 7) % 5 else '0' for k in range(15 * 13)))
    codes = ['00', '010', '011', '10']
    for mode in (DELTA, PLAIN):
        for kind in (0, 1):
            for depth, mask in ((1, None), (1, holes), (3, None), (3, holes)):
                shape = Shape('15 x 13 x %d, mode %d, kind %d%s' % (depth, mode, kind, '' if mask is None else ', a mask'), mode, kind, 15, 13, depth, mask)
                n = len(shape.pixels) * depth
                data = ''.join(codes[k * k % 4] for k in range(n - 1))
                yield wrong('late-unknown-%d' % n, shape, tail(codes, data + '11', first=120), 8, UNKNOWN + '; ' + NONE_WRITTEN)
                full = data + codes[1]
                yield wrong('late-cut-%d' % n, shape, tail(codes, full, first=120, extra=bytes(3)), 1, SPARE_WORD + '; ' + NONE_WRITTEN)
                part = full[:(len(full) - 1) // 32 * 32]
                yield wrong('late-symbols-cut-%d' % n, shape, tail(codes, part, first=120, extra=b'\0\0'), 1, ORDER + '; ' + NONE_WRITTEN)


def fronts():
    """in front of the table: other mode bytes; what is wrong before, and the room"""
    for shape in SHAPES[:3]:
        for mode in (3, 4, 128, 129, 255):
            blob = shape.blob(tail(TWO, DATA), mode=mode)
            yield no('mode-%d' % mode, blob, 8, mode_at(blob), shape, MODE + ' (%s)' % shape.what)
        blob = shape.blob(tail(TWO, DATA))
        cut = changed(blob, 34, u32(mode_at(blob)))
        yield no('no-mode', cut, 1, mode_at(blob), shape, 'where the missing one should be (%s)' % shape.what)
        other = tampered(blob, len(blob) - 1, b'\1')
        yield no('checksum', other, 13, 0, shape, 'the checksum is judged before the body', spare=b'')
        whole = blobs.needs(blobs.header(blob))
        for slot, n in (('kept', whole[0]), ('spare', whole[0]), ('list', whole[1]), ('image', whole[2])):
            yield no('room-' + slot, blob, 5, 0, shape, ROOM, spare=b'', lent={'lent_' + slot: n - 1})
        crossed = changed(blob, ranges_at(blob), b'\x7F')
        yield no('ranges', crossed, 7, ranges_at(blob) + shape.depth, shape, 'ranges are judged before the body')
    masked = SHAPES[1].blob(tail(TWO, DATA))
    yield no('mask', changed(masked, 26, u32(4)), 6, 66, SHAPES[1], 'the mask section is judged before the body', spare=b'')
    reused = SHAPES[3].blob(tail(TWO, DATA))
    yield no('no-reuse', reused, 6, 66, SHAPES[3], 'mask bytes 0 means the kept mask, if the caller allows reuse', reuse=False)


def refused():
    """each body in the first shape and in one of the others in turn"""
    out = []
    for i, (name, rest, number, note) in enumerate(refused_tails()):
        out += [wrong(name, shape, rest, number, note) for shape in (SHAPES[0], SHAPES[1 + i % (len(SHAPES) - 1)])]
    return out + [*behind_size(), *late(), *fronts()]


# --- walks, fills, and bodies without a mode byte ---------------------------------------------------------------------------------


def by_value(name, blob, shape, note, **named):
    """header, ranges and mask are given by value"""
    return dict(dict(name=name, blob=blob, before=shape.mask, kept=shape.mask, body=sweep_at(blob), depth=shape.depth, note=note), **named)


def walks():
    table = {name: (rest, number) for name, rest, number, _ in refused_tails()}
    picked = ('cut-integers-0', 'cut-integers-3', 'cut-lengths-17', 'cut-codes-21', 'cut-symbols-23', 'cut-last-word-27', 'version-1', 'version-1-only', 'size-257',
              'first-is-size', 'end-is-first', 'span-3-size-2', 'lengths-code-3', 'lengths-index-3-of-3', 'number-2', 'length-33-last', 'no-code-bits-0',
              'codes-33-bits-cut-1', 'prefix-equal', 'prefix-far-short-first', 'unknown-first', 'unknown-last', 'symbols-within-0', 'last-word-3-bits-0')
    for i, shape in enumerate(SHAPES):
        blob = shape.blob(tail(TWO, DATA))
        yield by_value('walk-right', blob, shape, '%s, at the mode byte (%s)' % (WALKED, shape.what), walk=True, number=10, place=mode_at(blob))
        blob = shape.blob(b'')
        yield by_value('walk-nothing', blob, shape, WALKED + ' (nothing follows the mode byte)', walk=True, number=10, place=mode_at(blob))
        blob = shape.blob(tail(TWO, DATA), mode=3)
        yield by_value('walk-mode-3', blob, shape, MODE, walk=True, number=8, place=mode_at(blob))
        for name in picked[i::len(SHAPES)]:
            blob = shape.blob(table[name][0])
            yield by_value('walk-' + name, blob, shape, WALKED + ' and does not look at the table', walk=True, number=10, place=mode_at(blob))
    blob = SHAPES[0].blob(tail(TWO, DATA))
    room = by_value('walk-list-short', blob, SHAPES[0], ROOM, walk=True, number=5, place=0)
    yield dict(room, lent=dict(lent_list=0))


def fills():
    """a block behind a Huffman body, and its mode byte taken for a block's flag"""
    for shape in (SHAPES[0], SHAPES[1], SHAPES[4]):
        for name, rest in (('right', tail(TWO, DATA)), ('broken', tail(TWO, DATA, version=1)), ('nothing', b'')):
            blob = shape.blob(rest + b'\x03\x0B')
            start, words = len(blob) - 2, spread(shape, [11] * 3)
            yield by_value('fill-behind-' + name, blob, shape, FILLED, fill=True, starts=[start], words=words, written=3)
        # block 0 begins at column 0, and its check bits must say so
        blob = shape.blob(tail(TWO, DATA) + b'\x07\x0B')
        yield by_value('fill-check-bits', blob, shape, FILLED, fill=True, starts=[len(blob) - 2], number=8, place=len(blob) - 2)
    zero = SHAPES[0].blob(tail(TWO, DATA))
    at = mode_at(zero)
    yield by_value('fill-mode-2', zero, SHAPES[0], FILLED + ' (a flag of 2: zero words)', fill=True, starts=[at], words=[0, 0, 0], written=3)
    blob = SHAPES[4].blob(tail(TWO, DATA))
    note = FILLED + ' (a flag of 1: offset 4, then a count of 2^24: 8)'
    yield by_value('fill-mode-1', blob, SHAPES[4], note, fill=True, starts=[mode_at(blob)], number=8, place=mode_at(blob))


def without_mode():
    """other kinds and errors: what would be the mode byte is the flag of block 0"""
    note = 'kinds 0 and 1 with error exactly 0.5 have a mode byte'
    shape = SHAPES[0]
    half = struct.unpack('<Q', struct.pack('<d', 0.5))[0]
    for name, error in (('0', 0.0), ('0.25', 0.25), ('1', 1.0), ('below', half - 1), ('above', half + 1), ('0.5000001', 0.5000001)):
        for kind in (0, 1):
            blob = shape.blob(tail(TWO, DATA), kind=kind, error=error)
            at = mode_at(blob)
            zero = yes('no-mode-kind-%d-error-%s' % (kind, name), blob, [0] * 3, at + 1, shape, note + '; a flag of 2: zero words')
            yield dict(zero, starts=[at], blocks=1)
            walk = by_value('walk-no-mode-kind-%d-error-%s' % (kind, name), blob, shape, note, walk=True)
            yield dict(walk, starts=[at], blocks=1, end=at + 1)
            one = shape.blob(tail(TWO, DATA), kind=kind, error=error, mode=DELTA)
            yield no('no-mode-1-kind-%d-error-%s' % (kind, name), one, 8, at, shape, note + '; a flag of 1: offset 4, then a count of 2^24: 8')
    for kind in range(2, 8):
        ranges = struct.pack('<2' + blobs.CODES[kind], 10, 12)
        blob = made(ranges + b'\0\2' + tail(TWO, DATA), kind=kind, error=0.5)
        at = mode_at(blob)
        zero = yes('no-mode-kind-%d' % kind, blob, [0] * 3, at + 1, shape, note + '; a flag of 2: zero words')
        yield dict(zero, starts=[at], blocks=1)
        walk = by_value('walk-no-mode-kind-%d' % kind, blob, shape, note, walk=True)
        yield dict(walk, starts=[at], blocks=1, end=at + 1)


def others():
    return [*walks(), *fills(), *without_mode()]
