#!/usr/bin/env python3
"""Holds the stored cases to the model of the rules, then plants faults in the model, one at a time, and checks that the cases find each.

    python3 tests/huffman/faults.py [-v]     ends with status 1 if a stored case differs or a fault is not found; -v: how many cases find each

A fault is an edit of model.py. It is found if a stored case has another answer by the edited rules than the one that is stored: a reader that
is wrong in this way could not write crates/lerc_huffman_cases/stdout. The faults about writing, walks and fills are none of the model's.
"""
import os
import sys
import types

import make
import model
from cases import blobs, mode_at

SOURCE = os.path.join(os.path.dirname(os.path.abspath(__file__)), 'model.py')
VERSION, SIZE, FIRST, SPAN = 'version >= 2', 'size <= 256', 'first < size', '1 <= end - first <= size'
NUMBER = '    require(len(lengths) == end - first, BROKEN)\n'
RUN = '    _, behind = taken(s, at, (sum(lengths) + 31) // 32 * 4)\n'
FREE = '    require(is_prefix_free(codes), BROKEN)\n'
EQUAL = '    require(all(len(symbols) == 1 for symbols in codes.values()), BROKEN)\n'
SYMBOL = '(first + k) % size'
BIT = "'01'[word >> 31 - p % 32 & 1]"
WORD = "int.from_bytes(s[at + p // 32 * 4:at + p // 32 * 4 + 4], 'little')"
FITS = 'self.at + self.p // 32 * 4 + 4 <= len(self.s)'
BEGUN = '            require(code in self.begun, BROKEN)\n'
ENDED = '(-(-self.p // 32) + 1) * 4'
LEFT = 'pixel % columns > 0 and blobs.is_valid(mask, pixel - 1)'
ABOVE = '    if pixel >= columns and blobs.is_valid(mask, pixel - columns):\n        return words[pixel - columns, d]\n'
LATER = "    listed = [c for c in given if c]\n    return not any("
IN_FILE = FREE, '    require(free_in_file(every), BROKEN)\n'
LIST = '    codes, p = {}, 0\n', '    codes, every, p = {}, [], 0\n'
KEEP = '        p += n\n', "        every.append(''.join(bit(s, at, p + j) for j in range(n)))\n        p += n\n"


def in_file(test):
    """prefixes are looked for among the codes as they stand in the file"""
    return IN_FILE, LIST, KEEP, ('def span(s, at):', 'def free_in_file(given):\n%s%s)\n\n\ndef span(s, at):' % (LATER, test)), (EQUAL, '')


PAIRS = 'for k in range(len(listed)) for j in range(k)'
TABLE = [
    ('any version', ('require(%s, BROKEN)' % VERSION, 'pass')),
    ('version 1 too', (VERSION, 'version >= 1')),
    ('version at least 3', (VERSION, 'version >= 3')),
    ('version at least 4', (VERSION, 'version >= 4')),
    ('version with a sign', (VERSION, '2 <= version < 1 << 31')),
    ('version judged behind the four', ('    require(%s, BROKEN)\n' % VERSION, ''), ('    return size, first, end, at\n',
      '    require(%s, BROKEN)\n    return size, first, end, at\n' % VERSION)),
    ('any size', ('    require(%s, BROKEN)\n' % SIZE, '')),
    ('size at most 255', (SIZE, 'size <= 255')),
    ('size at most 257', (SIZE, 'size <= 257')),
    ('size at most 512', (SIZE, 'size <= 512')),
    ('size at least 1', (SIZE, '1 <= size <= 256')),
    ('size in 8 bits', ('    require(%s, BROKEN)\n' % SIZE, '    size = size % 256 or 256\n')),
    ('size judged behind the first',
     ('    require(%s, BROKEN)\n    first, at = integer(s, at)\n' % SIZE, '    first, at = integer(s, at)\n    require(%s, BROKEN)\n' % SIZE)),
    ('any first', ('    require(%s, BROKEN)\n' % FIRST, '')),
    ('first may be the size', (FIRST, 'first <= size')),
    ('first with a sign', (FIRST, '(first if first < 1 << 31 else -1) < size')),
    ('first modulo size',
     (FIRST, 'size > 0'),
     ('    end, at = integer(s, at)\n', '    end, at = integer(s, at)\n    first, end = first % size, end - first + first % size\n')),
    ('first judged behind the end',
     ('    require(%s, BROKEN)\n    end, at = integer(s, at)\n' % FIRST, '    end, at = integer(s, at)\n    require(%s, BROKEN)\n' % FIRST)),
    ('any span', ('    require(%s, BROKEN)\n' % SPAN, '    end = max(end, first)\n')),
    ('span 0 too', (SPAN, '0 <= end - first <= size')),
    ('span below size', (SPAN, '1 <= end - first < size')),
    ('span of size + 1', (SPAN, '1 <= end - first <= size + 1')),
    ('span of twice the size', (SPAN, '1 <= end - first <= 2 * size')),
    ('span of at most 256', (SPAN, '1 <= end - first <= 256')),
    ('first and span in 32 bits',
     ('    require(%s, BROKEN)\n' % FIRST, '    require(size > 0, BROKEN)\n'), (SPAN, '1 <= (end - first) % (1 << 32) <= size'),
     ('return size, first, end, at', 'return size, first, first + (end - first) % (1 << 32), at')),
    ('first with a sign, and the end', (FIRST, '(first if first < 1 << 31 else -1) < size'), ('    end, at = integer(s, at)\n',
      '    end, at = integer(s, at)\n    first, end = ((v + (1 << 31)) % (1 << 32) - (1 << 31) for v in (first, end))\n')),
    ('span in 16 bits',
     (SPAN, '1 <= (end - first) % 65536 <= size'), ('return size, first, end, at', 'return size, first, first + (end - first) % 65536, at')),
    ('no wrap: the end is at most the size', (SPAN, 'first < end <= size')),
    ('the end wraps',
     (SPAN, '1 <= ((end - first - 1) % size + 1) <= size'),
     ('return size, first, end, at', 'return size, first, first + (end - first - 1) % size + 1, at')),
    ('modulo 256', (SYMBOL, '(first + k) % 256')),
    ('no modulo', (SYMBOL, 'first + k')),
    ('symbols from 0', (SYMBOL, 'k % size')),
    ('one wrap lands a symbol on', (SYMBOL, '(first + k + (first + k >= size)) % size')),
    ('any number of lengths', (NUMBER, '')),
    ('more lengths', (NUMBER, '    require(len(lengths) >= end - first, BROKEN)\n    lengths = lengths[:end - first]\n')),
    ('fewer lengths', (NUMBER, '    require(len(lengths) <= end - first, BROKEN)\n')),
    ('number of lengths judged behind the codes', (NUMBER, ''), (EQUAL, NUMBER + EQUAL)),
    ('lengths to 31', ('LONGEST = 256, 32', 'LONGEST = 256, 31')),
    ('lengths to 33', ('LONGEST = 256, 32', 'LONGEST = 256, 33')),
    ('lengths to 63', ('LONGEST = 256, 32', 'LONGEST = 256, 63')),
    ('lengths in 5 bits', ('    require(all(n <= LONGEST for n in lengths), BROKEN)\n', '    lengths = [n % 32 or n and 32 for n in lengths]\n')),
    ('lengths in 8 bits',
     ('    require(all(n <= LONGEST for n in lengths), BROKEN)\n',
      '    lengths = [n % 256 for n in lengths]\n    require(all(n <= LONGEST for n in lengths), BROKEN)\n')),
    ('lengths judged behind the run',
     ('    require(all(n <= LONGEST for n in lengths), BROKEN)\n', ''), (RUN, RUN + '    require(all(n <= LONGEST for n in lengths), BROKEN)\n')),
    ('no code at all', ('    require(any(lengths), BROKEN)\n', '')),
    ('two codes at least', ('any(lengths)', 'sum(n > 0 for n in lengths) > 1')),
    ('the code must be complete', (EQUAL, EQUAL + '    require(sum(2.0 ** -n for n in lengths if n) == 1, BROKEN)\n')),
    ('the code run need not fit', (RUN, '    behind = at + (sum(lengths) + 31) // 32 * 4\n')),
    ('the code run ends on a byte', (RUN, '    _, behind = taken(s, at, (sum(lengths) + 7) // 8)\n')),
    ('the code run has a word more', (RUN, '    _, behind = taken(s, at, (sum(lengths) // 32 + 1) * 4)\n')),
    ('the code run judged behind the codes', (RUN, '    behind = at + (sum(lengths) + 31) // 32 * 4\n'), (FREE, FREE + RUN)),
    ('each code begins a word', ('(sum(lengths) + 31) // 32 * 4', 'sum(n > 0 for n in lengths) * 4'), ('p += n\n', 'p += 32 if n else 0\n')),
    ('a length of 0 is a code of 1 bit', ('        if n > 0:\n', '        n = n or 1\n        if n > 0:\n')),
    ('the code run in the order of the symbols', (SYMBOL, '(k + size - (end - first) + first) % size')),
]
CODES = [
    ('equal codes, the first', (EQUAL, '')),
    ('equal codes, the last', (EQUAL, ''), ('symbols[0] for code', 'symbols[-1] for code')),
    ('equal codes alone', (FREE, '')),
    ('any codes', (EQUAL, ''), (FREE, '')),
    ('neighbours in the file alone', *in_file('a.startswith(b) or b.startswith(a) for a, b in zip(listed, listed[1:])')),
    ('neighbours in the file, and the first and last',
     *in_file('a.startswith(b) or b.startswith(a) for a, b in zip(listed, listed[1:] + listed[:1] * (len(listed) > 2))')),
    ('short before long alone', *in_file('listed[k].startswith(listed[j]) ' + PAIRS)),
    ('long before short alone', *in_file('listed[j].startswith(listed[k]) ' + PAIRS)),
    ('prefixes of at most 12 bits', *in_file('a is not b and a[:12].startswith(b) for a in listed for b in listed')),
    ('prefixes judged by Kraft\'s sum alone', (FREE, '    require(sum(2.0 ** -len(c) for c in codes) <= 1, BROKEN)\n')),
    ('prefixes judged when they are met', (EQUAL, ''), (FREE, ''), ('        return self.codes[code]\n',
      '        require(not any(c != code and c.startswith(code) for c in self.codes), BROKEN)\n        return self.codes[code]\n')),
]
SYMBOLS = [
    ('low bit first', (BIT, "'01'[word >> p % 32 & 1]")),
    ('words with the first byte high', (WORD, WORD.replace('little', 'big'))),
    ('bytes, not words', (WORD, 'int.from_bytes(s[at + p // 8:at + p // 8 + 1].ljust(4, bytes(1)), "big")'), (BIT, "'01'[word >> 31 - p % 8 & 1]")),
    ('an unknown code is 1', (BEGUN, BEGUN.replace('BROKEN', 'PAST'))),
    ('an unknown code after 32 bits', (BEGUN, BEGUN.replace('code in self.begun', 'code in self.begun or len(code) < 32'))),
    ('an unknown code after 12 bits', (BEGUN, BEGUN.replace('code in self.begun', 'code in self.begun or len(code) < 12'))),
    ('an unknown code after the longest',
     (BEGUN, BEGUN.replace('code in self.begun', 'code in self.begun or len(code) < max(map(len, self.codes))'))),
    ('the bits behind the first 12 alone',
     (BEGUN, BEGUN.replace('code in self.begun', 'code in self.begun or any(len(c) > 12 and c[12:].startswith(code[12:]) for c in self.codes)'))),
    ('an unknown code is the first symbol',
     (BEGUN, '            if code not in self.begun:\n                return next(iter(self.codes.values()))\n')),
    ('missing bits are 8', (FITS + ', PAST', FITS + ', BROKEN')),
    ('missing bits are 0', ('            require(%s, PAST)\n' % FITS, '')),
    ('a word of which a byte is there', (FITS, 'self.at + self.p // 32 * 4 < len(self.s)')),
    ('the word behind must be there for each bit', (FITS, FITS.replace('+ 4', '+ 8'))),
    ('the word behind judged first', ('        code = \'\'\n', '        code = \'\'\n        require(self.at + 8 <= len(self.s), PAST)\n')),
    ('no word behind', (ENDED, '-(-self.p // 32) * 4')),
    ('a word behind, none at a word\'s end', (ENDED, '(self.p // 32 + 1) * 4')),
    ('two words behind at a word\'s end', (ENDED, '(self.p // 32 + 2) * 4')),
    ('the word behind may be missing', ('        require(end <= len(self.s), PAST)\n        return end', '        return min(end, len(self.s))')),
    ('the word behind is counted from the codes', (ENDED, '(-(-self.p // 32) + 1) * 4 - 4 * (self.p > 64)')),
    ('the slice for the size', ("    s = blob[:h['size']]\n", '    s = blob\n')),
    ('each pixel begins a word', ('        return self.codes[code]\n', '        self.p += -self.p % 32\n        return self.codes[code]\n')),
]
CELLS = [
    ('128 not taken off', ("(128 if kind == 0 else 0)", '0')),
    ('128 taken off for kind 1', ('kind == 0', 'kind == 1')),
    ('128 taken off for both', ('kind == 0', 'kind < 2')),
    ('127 taken off', ('128 if', '127 if')),
    ('128 taken off in mode 1 alone', ('symbol(), 0, h[\'kind\'])', 'symbol(), 0, 1)')),
    ('128 taken off in mode 2 alone', ('predicted, h[\'kind\'])', 'predicted, 1)')),
    ('not modulo 256', ('(symbol + prediction - (128 if kind == 0 else 0)) % 256', 'symbol + prediction - (128 if kind == 0 else 0)')),
    ('cut off at 255',
     ('(symbol + prediction - (128 if kind == 0 else 0)) % 256', 'min(255, max(0, symbol + prediction - (128 if kind == 0 else 0)))')),
    ('the prediction taken off', ('symbol + prediction -', 'symbol - prediction -')),
    ('modes turned', ('s[at] == DELTA', 's[at] != DELTA')),
    ('mode 1 for both', ('(delta_cells if s[at] == DELTA else plain_cells)', 'delta_cells')),
    ('mode 2 for both', ('(delta_cells if s[at] == DELTA else plain_cells)', 'plain_cells')),
    ('above before left', ('    if %s:\n        return last\n' % LEFT + ABOVE, ABOVE + '    if %s:\n        return last\n' % LEFT)),
    ('no left', ('    if %s:\n        return last\n' % LEFT, '')),
    ('no above', (ABOVE, '')),
    ('left in the row before', (LEFT, 'pixel > 0 and blobs.is_valid(mask, pixel - 1)')),
    ('above for a row\'s first pixel alone', ('    if pixel >= columns and', '    if pixel % columns == 0 and pixel >= columns and')),
    ('above not for a row\'s first pixel', ('    if pixel >= columns and', '    if pixel % columns and pixel >= columns and')),
    ('above whether valid or not', ('pixel >= columns and blobs.is_valid(mask, pixel - columns):\n        return words[pixel - columns, d]',
                                    'pixel >= columns:\n        return words.get((pixel - columns, d), 0)')),
    ('above is two rows up', ('blobs.is_valid(mask, pixel - columns):\n        return words[pixel - columns, d]',
      'blobs.is_valid(mask, pixel - columns):\n        return words.get((pixel - 2 * columns, d), words[pixel - columns, d])')),
    ('above in depth 0', ('return words[pixel - columns, d]', 'return words[pixel - columns, 0]')),
    ('above through holes', ('    return last\n\n\ndef delta', '    up = [q for q in range(pixel % columns, pixel, columns) if (q, d) in words]\n'
                                                              '    return words[up[-1], d] if up else last\n\n\ndef delta')),
    ('left whether valid or not', (LEFT, 'pixel % columns > 0')),
    ('0 behind a hole', ('    return last\n\n\ndef delta', '    return 0\n\n\ndef delta')),
    ('0 behind a hole in the row',
     ('            if blobs.is_valid(mask, pixel):\n                predicted',
      '            if not blobs.is_valid(mask, pixel):\n                last = 0\n            else:\n                predicted')),
    ('0 where a row begins',
     ('            if blobs.is_valid(mask, pixel):\n                predicted',
      '            last = last if pixel % h["columns"] else 0\n            if blobs.is_valid(mask, pixel):\n                predicted')),
    ('the last value goes on to the next depth',
     ('    for d in range(h[\'depth\']):\n        last = 0\n', '    last = 0\n    for d in range(h[\'depth\']):\n')),
    ('a depth begins at its first pixel if that is valid', ('    for d in range(h[\'depth\']):\n        last = 0\n',
      '    last = 0\n    for d in range(h[\'depth\']):\n        last = 0 if blobs.is_valid(mask, 0) else last\n')),
    ('the last symbol for the last value', ('last = words[pixel, d] = summed(bits.symbol(), predicted, h[\'kind\'])', 'symbol = bits.symbol()\n'
      '                words[pixel, d] = summed(symbol, predicted, h[\'kind\'])\n                last = symbol')),
    ('mode 1 with the depth innermost',
     ('    words = {}\n    for d in range(h[\'depth\']):\n        last = 0\n        for pixel in range(h[\'rows\'] * h[\'columns\']):\n',
      '    words = {}\n    lasts = [0] * h[\'depth\']\n    for pixel in range(h[\'rows\'] * h[\'columns\']):\n'
      '        for d in range(h[\'depth\']):\n            last = lasts[d]\n'),
     ('                last = words[pixel, d] =', '                lasts[d] = words[pixel, d] =')),
    ('mode 2 with the depth outermost',
     ('    for pixel in range(h[\'rows\'] * h[\'columns\']):\n        if blobs.is_valid(mask, pixel):\n            for d in range(h[\'depth\']):\n',
      '    for d in range(h[\'depth\']):\n        for pixel in range(h[\'rows\'] * h[\'columns\']):\n            if blobs.is_valid(mask, pixel):\n')),
    ('mode 2 predicts too', ('symbol(), 0, h[\'kind\'])', 'symbol(), max(words.values()) if words else 0, h[\'kind\'])')),
    ('symbols for invalid pixels too',
     ('            if blobs.is_valid(mask, pixel):\n                predicted', '            if True:\n                predicted')),
    ('rows and columns turned', ("columns = h['columns']", "columns = h['rows']")),
]
COUNTS = [
    ('code 3 is a byte', ('    require(wide < 3, BROKEN)\n', '    wide = min(wide, 2)\n')),
    ('code 3 judged behind the count',
     ('    require(wide < 3, BROKEN)\n', ''), ('(4, 2, 1)[wide])\n', '(4, 2, 1, 1)[wide])\n    require(wide < 3, BROKEN)\n')),
    ('at most 255 counts', ('    require(n <= COUNTS', '    require(n < COUNTS')),
    ('at most 512 counts', ('    require(n <= COUNTS, BROKEN)\n', '    require(n <= 512, BROKEN)\n')),
    ('a count in 8 bits', ('    require(n <= COUNTS, BROKEN)\n', '    n = n % 256 or n and 256\n')),
    ('bits of 6 bits', ('head[0] % 32\n', 'head[0] % 64\n')),
    ('bits of 4 bits', ('head[0] % 32\n', 'head[0] % 16\n')),
    ('a table of 0 bits', ('    require(bits > 0, BROKEN)\n', '')),
    ('a table of 0 bits, before the count',
     ('    require(bits > 0, BROKEN)\n', ''),
     ('    require(wide < 3, BROKEN)\n', '    require(wide < 3, BROKEN)\n    require(head[0] % 64 != 32, BROKEN)\n')),
    ('entries 0 are 256', ('    require(entries[0] >= 2, BROKEN)\n', '    entries = [entries[0] or 256]\n')),
    ('3 entries at least', ('entries[0] >= 2', 'entries[0] >= 3')),
    ('all entries stored',
     ('    stored, at = run_of(s, at, entries[0] - 1, bits)\n', '    stored, at = run_of(s, at, entries[0], bits)\n'),
     ('([0] + stored)[i]', 'stored[i]')),
    ('any index', ('    require(all(i < entries[0] for i in indices), BROKEN)\n', ''), ('([0] + stored)[i]', '([0] + stored)[min(i, len(stored))]')),
    ('the index of entries is right', ('i < entries[0] for', 'i <= entries[0] for'), ('([0] + stored)[i]', '([0] + stored)[min(i, len(stored))]')),
    ('an index too high is 1',
     ('    require(all(i < entries[0] for i in indices), BROKEN)\n', '    require(all(i < entries[0] for i in indices), PAST)\n')),
    ('indices of as many bits as entries', ('(entries[0] - 1).bit_length()', 'entries[0].bit_length()')),
    ('highest bit first',
     ('every >> bits * k & (1 << bits) - 1 for k in range(n)', 'every >> len(run) * 8 - bits * (k + 1) & (1 << bits) - 1 for k in range(n)')),
    ('a run need not fit',
     ('    run, at = taken(s, at, (n * bits + 7) // 8)\n', '    run, at = s[at:at + (n * bits + 7) // 8], at + (n * bits + 7) // 8\n')),
    ('a run without its last byte', ('(n * bits + 7) // 8)', 'n * bits // 8)')),
    ('missing bytes are 8', ('    require(at + n <= len(s), PAST)\n', '    require(at + n <= len(s), BROKEN)\n')),
    ('one byte may be missing',
     ('    require(at + n <= len(s), PAST)\n', '    require(at + n <= len(s) + 1, PAST)\n'),
     ('return s[at:at + n], at + n', 'return s[at:at + n].ljust(n, bytes(1)), at + n')),
    ('the last byte may not be used', ('    require(at + n <= len(s), PAST)\n', '    require(at + n < len(s), PAST)\n')),
]


def edited(edits):
    """the model with a fault"""
    text = open(SOURCE).read()
    for old, new in edits:
        assert text.count(old) == 1, 'an edit that does not stand once: %r' % old
        text = text.replace(old, new)
    rules = types.ModuleType('edited')
    rules.__file__ = SOURCE
    exec(compile(text, SOURCE, 'exec'), rules.__dict__)
    return rules


def stored():
    """the stored bodies: blob, mask, and the answer that is stored"""
    for group in ('accepted', 'refused', 'probes', 'esri'):
        for f, blob, rest in make.heads(group):
            a, b, c, d = (f[k] for k in ('before', 'kept', 'spare', 'starts'))
            mask = rest[a:a + b] or rest[a + b:a + b + c]
            at = mode_at(blob)
            if f['cells'] > make.LARGE or f['number'] and f['place'] != at or at >= f['blob'] or blob[at] not in (model.DELTA, model.PLAIN):
                continue
            cells = rest[a + b + c + 4 * d:]
            assert len(cells) == f['cells'] and a + b + c + 4 * d + len(cells) == f['rest']
            depth = f['depth']
            words = [w for i, w in enumerate(cells) if blobs.is_valid(mask, i // depth)]
            yield '%s %d' % (group, len(blob)), blob, mask, (f['number'], f['end'], words)


def told(blob, mask, rules):
    """what the rules say; a fault that breaks off shows too"""
    try:
        cells, end = rules.decoded(blob, mask, mode_at(blob))
    except rules.Refused as why:
        return why.args[0], 0, []
    except (IndexError, KeyError, ValueError, TypeError, MemoryError, OverflowError) as why:
        return repr(why)
    depth = blobs.header(blob)['depth']
    return 0, end, [w for i, w in enumerate(cells) if blobs.is_valid(mask, i // depth)]


def run(verbose):
    every = list(stored())
    differ = [name for name, blob, mask, answer in every if told(blob, mask, model) != answer]
    for name in differ:
        print('stored otherwise: ' + name)
    missed, count = [], 0
    for group, faults in (('table', TABLE), ('codes', CODES), ('symbols', SYMBOLS), ('cells', CELLS), ('counts', COUNTS)):
        for what, *edits in faults:
            rules, found, count = edited(edits), 0, count + 1
            for _, blob, mask, answer in every:
                found += told(blob, mask, rules) != answer
                if found and not verbose:
                    break
            if verbose:
                print('%s: %s: %d' % (group, what, found))
            if found == 0:
                missed.append('%s: %s' % (group, what))
    for name in missed:
        print('not found: ' + name)
    print('%d stored bodies, %d otherwise; %d faults, %d not found' % (len(every), len(differ), count, len(missed)))
    return 1 if missed or differ else 0


if __name__ == '__main__':
    if sys.argv[1:] not in ([], ['-v']):
        print('faults.py: usage: python3 tests/huffman/faults.py [-v]', file=sys.stderr)
        sys.exit(2)
    sys.exit(run(bool(sys.argv[1:])))
