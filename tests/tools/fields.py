"""Small packs for the programs that read one, to standard output: python3 tests/tools/fields.py NAME
    few      three tiles of two kinds and depths, the second of which is refused 8 at 74
    none     no tiles
    far      four tiles in the corners of the largest field
    odd      numbers that are not finite, the largest and the least
    empty    a tile without a valid pixel
    large    one tile of 1,024 rows and 4,096 columns, all of one value
"""
import os
import struct
import sys

sys.dont_write_bytecode = True
sys.path.insert(0, os.path.join(os.path.dirname(os.path.abspath(__file__)), '../c'))
from packs import Tile, few, packed  # noqa: E402
from blobs import made  # noqa: E402

MOST = 65535
LARGEST = sys.float_info.max


def constant(rows, columns):
    return made(b'', rows=rows, columns=columns, low=10.0, high=10.0)


def odd():
    cells = struct.pack('<2d', -LARGEST, LARGEST) + b'\1' + struct.pack('<4d', -LARGEST, LARGEST, float('nan'), float('-inf'))
    return made(cells, columns=4, kind=7, low=-LARGEST, high=LARGEST)


FIELDS = {
    'few': few,
    'none': lambda: [],
    'far': lambda: [Tile(row, column, constant(5, 9)) for row in (0, MOST) for column in (0, MOST)],
    'odd': lambda: [Tile(0, 0, odd())],
    'empty': lambda: [Tile(3, 4, made(b'', rows=6, columns=6, valid=0))],
    'large': lambda: [Tile(0, 0, constant(1024, 4096))],
}


def main():
    if len(sys.argv) != 2 or sys.argv[1] not in FIELDS:
        print('fields.py: usage: python3 tests/tools/fields.py %s' % '|'.join(FIELDS), file=sys.stderr)
        return 2
    sys.stdout.buffer.write(packed(FIELDS[sys.argv[1]]()))
    return 0


if __name__ == '__main__':
    sys.exit(main())
