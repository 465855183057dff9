"""Whether a PNG of rust/lerc2/examples/field is one, by Python's own inflate and check sums: python3 tests/tools/png.py FILE
Writes its width and height, how many colours its palette has and how many of them are seen.
Exit status: 0 it is one, 1 it is not, 2 it could not be told.
"""
import struct
import sys
import zlib

SIGNATURE = b'\x89PNG\r\n\x1a\n'
SUB = 1


def chunks(data):
    """name and contents of each, up to the end of the file"""
    assert data[:8] == SIGNATURE, 'another signature'
    at = 8
    while at < len(data):
        length, name = struct.unpack_from('>I4s', data, at)
        end = at + 8 + length
        assert struct.unpack_from('>I', data, end)[0] == zlib.crc32(data[at + 4:end]), 'another sum of %r' % name
        yield name, data[at + 8:end]
        at = end + 4


def colours_seen(lines, width):
    """the numbers of the colours, each line being differences to the left"""
    seen = set()
    for at in range(0, len(lines), width + 1):
        assert lines[at] == SUB, 'another filter'
        colour = 0
        for step in lines[at + 1:at + 1 + width]:
            colour = (colour + step) % 256
            seen.add(colour)
    return seen


def told(data):
    parts = list(chunks(data))
    assert [name for name, _ in parts] == [b'IHDR', b'PLTE', b'IDAT', b'IEND'], 'other chunks'
    width, height, *form = struct.unpack('>IIBBBBB', parts[0][1])
    assert form == [8, 3, 0, 0, 0], 'another form'
    lines = zlib.decompress(parts[2][1])
    assert len(lines) == height * (width + 1), 'another count of pixels'
    colours, seen = len(parts[1][1]) // 3, colours_seen(lines, width)
    assert max(seen) < colours, 'a colour that is not there'
    return '%d x %d, %d of %d colours' % (width, height, len(seen), colours)


def main():
    if len(sys.argv) != 2:
        print('png.py: usage: python3 tests/tools/png.py FILE', file=sys.stderr)
        return 2
    try:
        data = open(sys.argv[1], 'rb').read()
    except OSError as why:
        print('png.py: %s' % why, file=sys.stderr)
        return 2
    try:
        print(told(data))
    except (AssertionError, struct.error, zlib.error) as why:
        print('no picture: %s' % why)
        return 1
    return 0


if __name__ == '__main__':
    sys.exit(main())
