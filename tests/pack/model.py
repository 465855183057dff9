"""Packs by their words alone, over whole numbers: what the reader says of any bytes, an entry by its number, and what the writer gives.
A refusal is raised, with its number; the place of each is 0. Headers are judged by tests/header/rules.py."""
import collections
import os
import struct
import sys

sys.path.insert(0, os.path.join(os.path.dirname(os.path.abspath(__file__)), '../header'))
from rules import Refused, read_header, require  # noqa: E402

BREACH, ROOM = 12, 5
# bytes in front of the contents, bytes of an entry; the most tiles
FRONT, ENTRY, TILES = 8, 16, 256
# "tile row and tile column (2 each), kind, depth less one (0 to 63), two zero bytes, start from the pack's first byte and length (4 each)"
FORM = '<HHBBHII'

Entry = collections.namedtuple('Entry', 'row column kind depth start length')


def accepted_header(blob):
    """'the blob's header, which must itself be accepted': kind, depth and size"""
    try:
        h = dict(read_header(blob))
    except Refused:
        raise Refused(BREACH)
    return h['kind'], h['depth'], h['size']


def entry_at(pack, at):
    """the fields as they stand, and the two bytes that must be 0"""
    row, column, kind, less, zeros, start, length = struct.unpack_from(FORM, pack, at)
    return Entry(row, column, kind, less + 1, start, length), zeros


def open_pack(pack):
    """how many tiles"""
    require(len(pack) >= FRONT, BREACH)
    require(pack[0] == 1, BREACH)
    require(pack[1] == 0, BREACH)
    require(pack[2] == 0, BREACH)
    require(pack[3] == 0, BREACH)
    count = int.from_bytes(pack[4:8], 'little')
    require(count <= TILES, BREACH)
    at = FRONT + ENTRY * count
    require(len(pack) >= at, BREACH)
    before = None
    for i in range(count):
        e, zeros = entry_at(pack, FRONT + ENTRY * i)
        require(zeros == 0, BREACH)
        require(before is None or (e.row, e.column) > before, BREACH)
        require(e.start == at, BREACH)
        require(at + e.length <= len(pack), BREACH)
        require((e.kind, e.depth, e.length) == accepted_header(pack[at:at + e.length]), BREACH)
        before = e.row, e.column
        at += e.length
    require(at == len(pack), BREACH)
    return count


def entry_in(pack, count, i):
    """'given exactly when i < count, its 16 bytes lie in the slice, and its body lies in the slice; nothing else is judged again'"""
    require(i < count, BREACH)
    at = FRONT + ENTRY * i
    require(at + ENTRY <= len(pack), BREACH)
    e, _ = entry_at(pack, at)
    require(e.start + e.length <= len(pack), BREACH)
    return e


def body_in(pack, count, i):
    try:
        e = entry_in(pack, count, i)
    except Refused:
        return b''
    return pack[e.start:e.start + e.length]


def write_pack(rows, columns, lengths, bodies, room):
    """the whole pack, or a refusal: 12, then 5"""
    count = len(rows)
    require(count == len(columns), BREACH)
    require(count == len(lengths), BREACH)
    require(count <= TILES, BREACH)
    require(sum(lengths) == len(bodies), BREACH)
    tiles = list(zip(rows, columns))
    require(all(a < b for a, b in zip(tiles, tiles[1:])), BREACH)
    contents, start, at = b'', FRONT + ENTRY * count, 0
    for (row, column), length in zip(tiles, lengths):
        kind, depth, size = accepted_header(bodies[at:at + length])
        require(length == size, BREACH)
        contents += struct.pack(FORM, row, column, kind, depth - 1, 0, start + at, length)
        at += length
    pack = bytes([1, 0, 0, 0]) + struct.pack('<I', count) + contents + bodies
    require(len(pack) <= room, ROOM)
    return pack
