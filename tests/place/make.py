#!/usr/bin/env python3
"""Writes the cases of lerc_place_cases, and what the program must write of them.

    python3 tests/place/make.py

In crates/lerc_place_cases/data the file `cases` has them one behind the other: a head (`packed`), the mask that is lent and the bytes of a
blob. `names` has a line for each: operation, number and place, what is wrong, and the sentence of the rules that gives the place.
crates/lerc_place_cases/stdout has the lines of the program. No number and no place comes from a program under test: cases.py has the
numbers beside their blobs, and works the places out by the words of the rules.
"""
import os
import struct
import sys

from cases import CASES
from hand import u64

CRATE = os.path.join(os.path.dirname(os.path.abspath(__file__)), '../../crates/lerc_place_cases')
NAMES = ('header', 'mask', 'ranges', 'walk', 'fill', 'read')
# what the program can lend: bytes of a mask, entries of the list, cells; and how long a blob may be
MASKS, BLOCKS, CELLS, BYTES = 64, 512, 1024, 4096


def packed(c):
    """a case as the program reads it: 8 numbers of 4 bytes, 8 of 8 bytes, the mask, the blob"""
    mask, blob, (other, low, high) = c['mask'], c['blob'], c['other']
    assert max(len(mask), c['spare']) <= MASKS and c['list'] <= BLOCKS and c['image'] <= CELLS and c['lent'] <= len(blob) <= BYTES
    flags = c['reuse'] + 2 * c['constant']
    head = struct.pack('<8I', c['operation'], flags, len(blob), c['lent'], len(mask), c['spare'], c['list'], c['image'])
    head += u64(c['block']) + u64(c['start']) + u64(c['at']) + struct.pack('<2d', *c['pair']) + u64(other) + struct.pack('<2d', low, high)
    return head + mask + blob


def said(c):
    """the answer of a case"""
    name = NAMES[c['operation']]
    return '%s refused %d at %d' % (name, c['refusal'], c['place']) if c['refusal'] else name + ' accepted'


def write():
    refused = sum(c['refusal'] > 0 for c in CASES)
    with open(CRATE + '/data/cases', 'wb') as f:
        f.write(b''.join(map(packed, CASES)))
    with open(CRATE + '/data/names', 'w') as f:
        f.write(''.join('%d %s: %s; %s\n' % (i, said(c), c['what'], c['sentence']) for i, c in enumerate(CASES)))
    with open(CRATE + '/stdout', 'w') as f:
        f.write(''.join('%d %s\n' % (i, said(c)) for i, c in enumerate(CASES)) + 'cases %d refused %d\n' % (len(CASES), refused))


if __name__ == '__main__':
    if sys.argv[1:]:
        print('make.py: unknown word %s; usage: python3 tests/place/make.py' % sys.argv[1], file=sys.stderr)
        sys.exit(2)
    write()
