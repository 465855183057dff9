#!/usr/bin/env python3
"""Writes the files of lerc_fill_cases, and what the program must write of them.

    python3 tests/fill/make.py FOLDER...     copies the chosen blobs of these folders to crates/lerc_fill_cases/data, then as below
    python3 tests/fill/make.py               writes the planted files in data, and crates/lerc_fill_cases/stdout from all of them

A folder has blobs NAME.lerc2, and beside each NAME.expect, what Esri's decoder (liblerc 4.0.0, built with -ffp-contract=off) gave
for it. Chosen are the blobs in blocks of version 4 with their own mask, few enough cells and bytes; of equals (kind, depth 1 or more, side,
masked or not) one alone. In data blob i is file 2i and its expected cells file 2i + 1; `names` lists them.

The last ones are planted: one of the blobs again, each time beside an expectation in which one thing is wrong. The program must say
where it differs; one that said "same" of everything would not write what is in stdout.

The form of an .expect file, little-endian:

    0   8 bytes "LERCX1" and two zeros
    8   u32 version, kind, rows, columns, depth, valid pixels, blocks (0 unless the body is in blocks), end
    40  8 bytes not used here
    48  the mask, pixel p at bit 7 - p % 8 of byte p / 8
    ..  all cells, pixel by pixel, each pixel's depths together: words of the kind's own size
"""
import glob
import os
import struct
import sys

sys.path.insert(0, os.path.join(os.path.dirname(os.path.abspath(__file__)), '../../tools'))
from checksum import sealed  # noqa: E402

DATA = 'crates/lerc_fill_cases/data'
STDOUT = 'crates/lerc_fill_cases/stdout'
CELLS, BYTES = 4096, 16384
SIZES = (1, 1, 2, 2, 4, 4, 4, 8)
# the blob of the planted expectations: masked, two depths, two blocks
AGAIN = 29


def header(path):
    b = open(path, 'rb').read()
    assert b[:8] == b'LERCX1\0\0'
    return dict(zip(('version', 'kind', 'rows', 'columns', 'depth', 'valid', 'blocks', 'end'), struct.unpack_from('<8I', b, 8)))


def chosen(folders):
    seen = set()
    for folder in folders:
        for expect in sorted(glob.glob(os.path.join(folder, '*.expect'))):
            blob = expect[:-len('expect')] + 'lerc2'
            e, b = header(expect), open(blob, 'rb').read()
            side, mask = struct.unpack_from('<I', b, 30)[0], struct.unpack_from('<I', b, 66)[0]
            pixels = e['rows'] * e['columns']
            partial = 0 < e['valid'] < pixels
            if e['version'] != 4 or e['blocks'] == 0 or pixels * e['depth'] > CELLS or max(len(b), os.path.getsize(expect)) > BYTES:
                continue
            if partial and mask == 0:
                continue
            alike = (e['kind'], min(e['depth'], 2), side, partial)
            if alike not in seen:
                seen.add(alike)
                yield blob, expect


def copy(folders):
    blobs = list(chosen(folders))
    if not blobs:
        print('make.py: no blob to choose in %s; nothing is changed' % ' '.join(folders), file=sys.stderr)
        sys.exit(2)
    for old in glob.glob(os.path.join(DATA, '*')):
        os.remove(old)
    names = []
    for i, (blob, expect) in enumerate(blobs):
        for k, source in enumerate((blob, expect)):
            with open('%s/%03d' % (DATA, 2 * i + k), 'wb') as f:
                f.write(open(source, 'rb').read())
        names.append('%03d %s\n' % (i, os.path.join(os.path.basename(os.path.dirname(blob)), os.path.basename(blob))))
    with open(DATA + '/names', 'w') as f:
        f.writelines(names)


def file(i):
    return '%s/%03d' % (DATA, i)


def stored():
    """the names of the blobs that are not planted"""
    return [name for name in open(DATA + '/names') if ' planted: ' not in name]


def planted():
    """what is wrong, the expectation, and what the program must say of it"""
    e, right = header(file(2 * AGAIN + 1)), open(file(2 * AGAIN + 1), 'rb').read()
    pixels, depth, size = e['rows'] * e['columns'], e['depth'], SIZES[e['kind']]
    valid = [p for p in range(pixels) if right[48 + p // 8] >> (7 - p % 8) & 1]
    first, last = valid[0], valid[-1] * depth + depth - 1

    def changed(at, by):
        return right[:at] + bytes([right[at] ^ by]) + right[at + 1:]

    word = changed(48 + (pixels + 7) // 8 + last * size, 1)
    yield 'another word in the last valid cell', word, 'differs at cell %d' % last
    yield 'the first valid pixel is not valid', changed(48 + first // 8, 128 >> first % 8), 'differs at cell %d' % (first * depth)
    fewer = right[:32] + struct.pack('<I', e['blocks'] - 1) + right[36:]
    yield 'a block fewer', fewer, 'a number past the last is not refused'


def plant():
    names = stored()
    for i, (what, expect, _) in enumerate(planted(), len(names)):
        for k, content in ((2 * i, open(file(2 * AGAIN), 'rb').read()), (2 * i + 1, expect)):
            with open(file(k), 'wb') as f:
                f.write(content)
        names.append('%03d planted: %03d, %s\n' % (i, AGAIN, what))
    with open(DATA + '/names', 'w') as f:
        f.writelines(names)


def expected():
    same = len(stored())
    said = [(2 * i + 1, 'same') for i in range(same)] + [(2 * AGAIN + 1, text) for _, _, text in planted()]
    lines, blocks, words = [], 0, 0
    for i, (right, text) in enumerate(said):
        blob = open(file(2 * i), 'rb').read()
        assert blob == sealed(blob), 'blob %03d: its checksum is false' % i
        e = header(file(right))
        written = e['valid'] * e['depth']
        lines.append('%d blocks %d end %d words %d %s\n' % (i, e['blocks'], e['end'], written, text))
        blocks, words = blocks + e['blocks'], words + written
    return ''.join(lines) + 'blobs %d blocks %d words %d same %d\n' % (len(lines), blocks, words, same)


if __name__ == '__main__':
    if sys.argv[1:]:
        copy(sys.argv[1:])
    plant()
    with open(STDOUT, 'w') as f:
        f.write(expected())
