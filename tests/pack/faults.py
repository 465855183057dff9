#!/usr/bin/env python3
"""Plants faults in the model of the rules, one at a time, and checks that stored cases find each.

    python3 tests/pack/faults.py [-v]     ends with status 1 if a fault is not found; -v prints how many cases find each

A fault is an edit of model.py. It is found if a stored case has another answer by the edited rules than by the right ones: a reader or a
writer that is wrong in this way could not write crates/lerc_pack_cases/stdout.
"""
import os
import struct
import sys
import types

import make
import model

SOURCE = os.path.join(os.path.dirname(os.path.abspath(__file__)), 'model.py')
MATCH = '(e.kind, e.depth, e.length) == accepted_header(pack[at:at + e.length])'
ORDER = '(e.row, e.column) > before'
REFUSED = '    except Refused:\n        raise Refused(BREACH)\n    return h['


def let_through(number):
    """a header is taken though it is refused so"""
    text = '    except Refused as why:\n        if why.args[0] != %d:\n            raise Refused(BREACH)\n        h = fields(blob)\n    return h[' % number
    return (REFUSED, text), ('import Refused, read_header', 'import Refused, fields, read_header')


def without(line):
    """a test that is not made"""
    return ('    require(%s, BREACH)\n' % line, '    pass\n')


OF_THE_PACK = [
    ('missing bytes count as zeros', ('    require(len(pack) >= FRONT, BREACH)\n', "    pack = pack.ljust(FRONT, b'\\0')\n")),
    ('any version', without('pack[0] == 1')),
    ('version 2 too', ('pack[0] == 1', 'pack[0] in (1, 2)')),
    ('version 0 too', ('pack[0] == 1', 'pack[0] <= 1')),
    ('version without its high bit', ('pack[0] == 1', 'pack[0] % 128 == 1')),
    ('any byte 1', without('pack[1] == 0')),
    ('any byte 2', without('pack[2] == 0')),
    ('any byte 3', without('pack[3] == 0')),
    ('a low bit of byte 1 alone', ('pack[1] == 0', 'pack[1] % 2 == 0')),
    ('at most 255 tiles', ('    require(count <= TILES, BREACH)\n    at =', '    require(count < TILES, BREACH)\n    at =')),
    ('at most 257 tiles', ('    require(count <= TILES, BREACH)\n    at =', '    require(count <= TILES + 1, BREACH)\n    at =')),
    ('any count', ('    require(count <= TILES, BREACH)\n    at =', '    at =')),
    ('no tiles are refused', ('    require(count <= TILES, BREACH)\n    at =', '    require(1 <= count <= TILES, BREACH)\n    at =')),
    ('a count of 1 byte', ('pack[4:8]', 'pack[4:5]')),
    ('a count of 2 bytes', ('pack[4:8]', 'pack[4:6]')),
    ('a count of 3 bytes', ('pack[4:8]', 'pack[4:7]')),
    ('a count of 28 bits', ("'little')\n", "'little') % (1 << 28)\n")),
    ('a count with the first byte high', ("pack[4:8], 'little'", "pack[4:8], 'big'")),
    ('any zeros', ('        require(zeros == 0, BREACH)\n', '')),
    ('the first of the two zeros alone', ('zeros == 0', 'zeros % 256 == 0')),
    ('the second of the two zeros alone', ('zeros == 0', 'zeros < 256')),
    ('the zeros of the first entry alone', ('zeros == 0', 'i > 0 or zeros == 0')),
    ('the zeros of all but the last entry', ('zeros == 0', 'i + 1 == count or zeros == 0')),
    ('any order', (ORDER, 'True')),
    ('a tile may be there twice', (ORDER, '(e.row, e.column) >= before')),
    ('rows alone do not fall', (ORDER, 'e.row >= before[0]')),
    ('rows rise strictly', (ORDER, 'e.row > before[0]')),
    ('columns rise strictly', (ORDER, 'e.column > before[1]')),
    ('columns do not fall', (ORDER, '(e.row, e.column) > before and e.column >= before[1]')),
    ('rows or columns rise', (ORDER, 'e.row > before[0] or e.column > before[1]')),
    ('by column, then row', (ORDER, '(e.column, e.row) > before[::-1]')),
    ('the first byte high, in the order', (ORDER, 'struct.pack("<2H", e.row, e.column) > struct.pack("<2H", *before)')),
    ('rows with a sign', (ORDER, '(e.row ^ 32768, e.column) > (before[0] ^ 32768, before[1])')),
    ('columns with a sign', (ORDER, '(e.row, e.column ^ 32768) > (before[0], before[1] ^ 32768)')),
    ('rows in 8 bits', (ORDER, '(e.row % 256, e.column) > (before[0] % 256, before[1])')),
    ('columns in 8 bits', (ORDER, '(e.row, e.column % 256) > (before[0], before[1] % 256)')),
    ('the order of the first two alone', (ORDER, '(i > 1 or (e.row, e.column) > before)')),
    ('each is held to the first', ('        before = e.row, e.column\n', '        before = before or (e.row, e.column)\n')),
    ('any start', ('        require(e.start == at, BREACH)\n', '')),
    ('any first start', ('require(e.start == at', 'require(i == 0 or e.start == at')),
    ('the first start alone', ('require(e.start == at', 'require(i > 0 or e.start == at')),
    ('the last start is not judged', ('require(e.start == at', 'require(i + 1 == count or e.start == at')),
    ('gaps', ('require(e.start == at, BREACH)\n', 'require(e.start >= at, BREACH)\n        at = e.start\n')),
    ('overlaps', ('require(e.start == at, BREACH)\n', 'require(e.start <= at, BREACH)\n        at = e.start\n')),
    ('starts in any order', ('require(e.start == at, BREACH)\n', 'at = e.start\n')),
    ('starts in 16 bits', ('e.start == at', 'e.start % 65536 == at % 65536')),
    ('starts in 24 bits', ('e.start == at', 'e.start % (1 << 24) == at')),
    ('starts from the end of the contents', ('e.start == at', 'e.start + FRONT + ENTRY * count == at')),
    ('starts without the front', ('e.start == at', 'e.start + FRONT == at')),
    ('bytes behind the last body', ('require(at == len(pack)', 'require(at <= len(pack)')),
    ('one byte behind the last body', ('require(at == len(pack)', 'require(at in (len(pack), len(pack) - 1)')),
    ('bytes behind no tiles', ('require(at == len(pack)', 'require(count == 0 or at == len(pack)')),
    ('any kind', (MATCH, 'accepted_header(pack[at:at + e.length])[1:] == (e.depth, e.length)')),
    ('a kind of 3 bits', (MATCH, MATCH.replace('e.kind', 'e.kind % 8'))),
    ('a kind of 7 bits', (MATCH, MATCH.replace('e.kind', 'e.kind % 128'))),
    ('any depth', (MATCH, 'accepted_header(pack[at:at + e.length])[::2] == (e.kind, e.length)')),
    ('a depth of 6 bits', (MATCH, MATCH.replace('e.depth', '(e.depth - 1) % 64 + 1'))),
    ('depth not less one', (MATCH, MATCH.replace('e.depth', '(e.depth - 1)'))),
    ('any length', (MATCH, 'accepted_header(pack[at:at + e.length])[:2] == (e.kind, e.depth)')),
    ('a length of at least the size', (MATCH, '(lambda k, d, n: (e.kind, e.depth) == (k, d) and e.length >= n)(*accepted_header(pack[at:at + e.length]))')),
    ('lengths in 16 bits', ('        require(e.start == at,', '        e = e._replace(length=e.length % 65536)\n        require(e.start == at,')),
    ('lengths in 24 bits', ('        require(e.start == at,', '        e = e._replace(length=e.length % (1 << 24))\n        require(e.start == at,')),
    ('the first tile\'s header alone', ('        require(' + MATCH, '        require(i > 0 or ' + MATCH)),
    ('all headers but the first', ('        require(' + MATCH, '        require(i == 0 or ' + MATCH)),
    ('all headers but the last', ('        require(' + MATCH, '        require(i + 1 == count or ' + MATCH)),
    ('key and version not judged', *let_through(2)),
    ('the header\'s fields not judged', *let_through(3)),
    ('the ceilings not judged', *let_through(4)),
    ('the checksum not judged', *let_through(13)),
    ('the header\'s own number', ('        raise Refused(BREACH)\n    return h[', '        raise\n    return h[')),
    ('13 for 12', ('BREACH, ROOM = 12, 5', 'BREACH, ROOM = 13, 5')),
    ('the kind in the place of the depth', ('row, column, kind, less, zeros, start', 'row, column, less, kind, zeros, start')),
    ('row and column changed about', ('row, column, kind, less, zeros, start', 'column, row, kind, less, zeros, start')),
    ('all fields with the first byte high', ("FORM = '<HHBBHII'", "FORM = '>HHBBHII'")),
    ('rows and columns with the first byte high', ('return Entry(row, column,', "return Entry(*struct.unpack('>2H', struct.pack('<2H', row, column)),")),
]
OF_ENTRIES = [
    ('the count itself is a number too', ('require(i < count', 'require(i <= count')),
    ('any number', ('    require(i < count, BREACH)\n    at', '    at')),
    ('a count of at most 256', ('require(i < count', 'require(i < count <= TILES')),
    ('a count of 32 bits', ('require(i < count', 'require(i < count % (1 << 32)')),
    ('the pack\'s own count', ('require(i < count', "require(i < count and i < int.from_bytes(pack[4:8], 'little')")),
    ('places in 64 bits', ('    at = FRONT + ENTRY * i\n    require(at', '    at = (FRONT + ENTRY * i) % (1 << 64)\n    require(at')),
    ('places in 32 bits', ('    at = FRONT + ENTRY * i\n    require(at', '    at = (FRONT + ENTRY * i) % (1 << 32)\n    require(at')),
    ('an entry up to the last byte but one', ('at + ENTRY <= len(pack)', 'at + ENTRY < len(pack)')),
    ('zeros for what is missing of an entry', ('    require(at + ENTRY <= len(pack), BREACH)\n', "    require(at < len(pack) + ENTRY, BREACH)\n"),
     ('    e, _ = entry_at(pack, at)\n', "    e, _ = entry_at(pack + bytes(2 * ENTRY), at)\n")),
    ('zeros for the last byte of an entry', ('    require(at + ENTRY <= len(pack), BREACH)\n', "    require(at + ENTRY <= len(pack) + 1, BREACH)\n"),
     ('    e, _ = entry_at(pack, at)\n', "    e, _ = entry_at(pack + bytes(1), at)\n")),
    ('a body up to the last byte but one', ('e.start + e.length <= len(pack)', 'e.start + e.length < len(pack)')),
    ('a body one byte past the end', ('e.start + e.length <= len(pack)', 'e.start + e.length <= len(pack) + 1')),
    ('the end in 32 bits', ('e.start + e.length <= len(pack)', '(e.start + e.length) % (1 << 32) <= len(pack)')),
    ('the start alone', ('e.start + e.length <= len(pack)', 'e.start <= len(pack)')),
    ('the length alone', ('e.start + e.length <= len(pack)', 'e.length <= len(pack)')),
    ('no place', ('    require(e.start + e.length <= len(pack), BREACH)\n    return', '    return')),
    ('nothing lies nowhere', ('e.start + e.length <= len(pack)', 'e.length == 0 or e.start + e.length <= len(pack)')),
    ('nothing is no body', ('e.start + e.length <= len(pack)', '0 < e.length and e.start + e.length <= len(pack)')),
    ('a body behind the contents', ('e.start + e.length <= len(pack)', 'FRONT + ENTRY * count <= e.start and e.start + e.length <= len(pack)')),
    ('a body behind the entry', ('e.start + e.length <= len(pack)', 'at + ENTRY <= e.start and e.start + e.length <= len(pack)')),
    ('the zeros again', ('    e, _ = entry_at(pack, at)\n', '    e, zeros = entry_at(pack, at)\n    require(zeros == 0, BREACH)\n')),
    ('the kind again', ('e.start + e.length <= len(pack)', 'e.kind <= 7 and e.start + e.length <= len(pack)')),
    ('the depth again', ('e.start + e.length <= len(pack)', 'e.depth <= 64 and e.start + e.length <= len(pack)')),
    ('the version again', ('    require(i < count, BREACH)\n', '    require(i < count and pack[:4] == bytes([1, 0, 0, 0]), BREACH)\n')),
    ('the header again', ('    return e\n', '    accepted_header(pack[e.start:e.start + e.length])\n    return e\n')),
    ('the whole pack again', ('    require(i < count, BREACH)\n', '    require(i < count, BREACH)\n    open_pack(pack)\n')),
    ('a depth of 6 bits', ('    return e\n', '    return e._replace(depth=(e.depth - 1) % 64 + 1)\n')),
    ('a depth of 8 bits', ('    return e\n', '    return e._replace(depth=e.depth % 256)\n')),
    ('a body where the entry is refused', ("        return b''\n", "        return pack[:1]\n")),
    ('a body to the end', ('return pack[e.start:e.start + e.length]', 'return pack[e.start:]')),
    ('a body from the first byte', ('return pack[e.start:e.start + e.length]', 'return pack[:e.length]')),
]
SIZE = '        require(length == size, BREACH)\n'
OF_THE_WRITER = [
    ('columns fewer or more', ('    require(count == len(columns), BREACH)\n', '')),
    ('columns fewer', ('count == len(columns)', 'count >= len(columns)')),
    ('columns more', ('count == len(columns)', 'count <= len(columns)')),
    ('lengths fewer or more', ('    require(count == len(lengths), BREACH)\n', '')),
    ('lengths fewer', ('count == len(lengths)', 'count >= len(lengths)')),
    ('lengths more', ('count == len(lengths)', 'count <= len(lengths)')),
    ('rows by the columns', ('    count = len(rows)\n', '    count = len(columns)\n    rows = (rows + columns)[:count]\n')),
    ('at most 255 tiles', ('    require(count <= TILES, BREACH)\n    require(sum', '    require(count < TILES, BREACH)\n    require(sum')),
    ('any count', ('    require(count <= TILES, BREACH)\n    require(sum', '    require(sum')),
    ('no tiles are refused', ('    require(count <= TILES, BREACH)\n    require(sum', '    require(1 <= count <= TILES, BREACH)\n    require(sum')),
    ('bytes behind the bodies', ('sum(lengths) == len(bodies)', 'sum(lengths) <= len(bodies)')),
    ('lengths are not added up', ('    require(sum(lengths) == len(bodies), BREACH)\n', '')),
    ('lengths added up in 64 bits, the sizes not judged', ('sum(lengths) ==', 'sum(lengths) % (1 << 64) =='), (SIZE, '')),
    ('lengths added up in 32 bits', ('sum(lengths) ==', 'sum(lengths) % (1 << 32) =='), ('length == size', 'length % (1 << 32) == size'),
     ('contents += struct.pack(', 'length %= 1 << 32\n        contents += struct.pack(')),
    ('any order', ('a < b for a, b', 'True for a, b')),
    ('a tile may be there twice', ('a < b for a, b', 'a <= b for a, b')),
    ('rows alone do not fall', ('a < b for a, b', 'a[0] <= b[0] for a, b')),
    ('rows rise strictly', ('a < b for a, b', 'a[0] < b[0] for a, b')),
    ('by column, then row', ('a < b for a, b', 'a[::-1] < b[::-1] for a, b')),
    ('rows in 8 bits', ('a < b for a, b', '(a[0] % 256, a[1]) < (b[0] % 256, b[1]) for a, b')),
    ('rows with a sign', ('a < b for a, b', '(a[0] ^ 32768, a[1]) < (b[0] ^ 32768, b[1]) for a, b')),
    ('the order of the first two alone', ('zip(tiles, tiles[1:])', 'zip(tiles[:2], tiles[1:2])')),
    ('the size not judged', (SIZE, '')),
    ('the size of the first alone', (SIZE, '        require(at > 0 or length == size, BREACH)\n')),
    ('the last size not judged', (SIZE, '        require(at + length == len(bodies) or length == size, BREACH)\n')),
    ('5 before 12', ('    count = len(rows)\n', '    count = len(rows)\n    require(FRONT + ENTRY * count + len(bodies) <= room, ROOM)\n')),
    ('any room', ('    require(len(pack) <= room, ROOM)\n', '')),
    ('one byte more', ('len(pack) <= room', 'len(pack) < room')),
    ('one byte less', ('len(pack) <= room', 'len(pack) <= room + 1')),
    ('room for the contents', ('len(pack) <= room', 'FRONT + ENTRY * count <= room')),
    ('room for the bodies', ('len(pack) <= room', 'len(bodies) <= room')),
    ('room for no tiles is not judged', ('len(pack) <= room', 'count == 0 or len(pack) <= room')),
    ('12 for room', ('room, ROOM)', 'room, BREACH)')),
    ('all room is filled', ('    return pack\n', "    return pack.ljust(room, b'\\0')\n")),
    ('the bodies are not written', ('contents + bodies', 'contents + bytes(len(bodies))')),
    ('depth not less one', ('depth - 1, 0', 'depth, 0')),
    ('starts without the front', ('start + at, length', 'start + at - FRONT, length')),
    ('one start for all', ('start + at, length', 'start, length')),
    ('no kind', ('column, kind, depth', 'column, 0, depth')),
    ('a zero that is 1', ('depth - 1, 0', 'depth - 1, 1')),
    ('another version', ('bytes([1, 0, 0, 0])', 'bytes([2, 0, 0, 0])')),
    ('starts of 16 bits', ('start + at, length', '(start + at) % 65536, length')),
    ('lengths of 16 bits', ('start + at, length', 'start + at, length % 65536')),
    ('starts of 8 bits', ('start + at, length', '(start + at) % 256, length')),
    ('lengths of 8 bits', ('start + at, length', 'start + at, length % 256')),
    ('no count', ("struct.pack('<I', count)", "struct.pack('<I', 0)")),
    ('fields with the first byte high', ('struct.pack(FORM', "struct.pack(FORM.replace('<', '>')")),
]


def edited(edits):
    """the model with a fault"""
    text = open(SOURCE).read()
    for old, new in edits:
        assert text.count(old) == 1, 'an edit that does not stand once: %r' % old
        text = text.replace(old, new)
    rules = types.ModuleType('edited')
    rules.__file__ = SOURCE
    exec(compile(text, SOURCE, 'exec'), rules.__dict__)
    # a refusal of either is one
    assert rules.Refused is model.Refused
    return rules


def told(kind, given, rules):
    """what a case shows; a fault that breaks off shows too"""
    try:
        c = kind(*given, rules)
    except (model.Refused, IndexError, struct.error, TypeError) as why:
        return repr(why)
    return c['number'], c['value'], c['sum'], c['said']


def every_case():
    for file in (make.cases.accepted, make.cases.refused):
        yield from ((make.opened, given) for given in file())
    yield from ((make.read, given) for given in make.cases.entries())
    yield from ((make.write, (call,)) for call in make.cases.written())
    yield from ((make.write, (call,)) for _, call in make.cases.unwritten())
    yield from (((make.opened, make.read, make.write)[operation], given) for _, operation, *given in make.cases.large())


def run(verbose):
    stored = list(every_case())
    right = [told(*case, model) for case in stored]
    missed, few, count = [], [], 0
    for group, faults in (('pack', OF_THE_PACK), ('entries', OF_ENTRIES), ('writer', OF_THE_WRITER)):
        for what, *edits in faults:
            rules = edited(edits)
            found = sum(told(*case, rules) != said for case, said in zip(stored, right))
            count += 1
            few.append(found)
            if verbose:
                print('%s: %s: %d' % (group, what, found))
            if found == 0:
                missed.append('%s: %s' % (group, what))
    for name in missed:
        print('not found: ' + name)
    print('%d faults, %d not found; %d found by one case alone' % (count, len(missed), few.count(1)))
    return 1 if missed else 0


if __name__ == '__main__':
    if sys.argv[1:] not in ([], ['-v']):
        print('faults.py: usage: python3 tests/pack/faults.py [-v]', file=sys.stderr)
        sys.exit(2)
    sys.exit(run(bool(sys.argv[1:])))
