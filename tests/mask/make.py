#!/usr/bin/env python3
"""Writes the heads of lerc_mask_cases, and what the program must write of them.

    python3 tests/mask/make.py FOLDER     writes crates/lerc_mask_cases/data and tests/mask/esri, then as below
    python3 tests/mask/make.py            writes crates/lerc_mask_cases/stdout from the files in data and tests/mask/esri

A head is a blob's header and mask section, nothing behind them. The program reads it in front of zeros, which make up its size, and its
checksum is true of that. FOLDER has folders of blobs NAME.lerc2 and beside each
NAME.expect (its form is in tests/fill/make.py), what Esri's decoder (liblerc 4.0.0) gave for it; of these the masks go to
tests/mask/esri, a line each: the case's number and its mask in hexadecimal, spare bits 0. The heads by hand are made of
`probes`, and what is to be said of them stands beside them here, with the words of the rules.

No line comes from the program under test. The line of a blob that Esri decoded is made of Esri's mask, that of a head by hand
of the pixels written beside it; and each must be what a decoder written here from the words of the rules says. The one thing
that only this decoder says is whether a mask is new or the kept one, which Esri's library does not tell.
"""
import os
import struct
import sys

sys.path.insert(0, os.path.join(os.path.dirname(os.path.abspath(__file__)), '../../tools'))
from checksum import declared_size, sealed  # noqa: E402

DATA = 'crates/lerc_mask_cases/data'
STDOUT = 'crates/lerc_mask_cases/stdout'
ESRI = 'tests/mask/esri'
HEAD, END, KEPT = 70, -32768, 512
# what the program has room for
BYTES = 16384

# probes that are refused, taken as they are; the kept mask in front of them is all 0. What is wrong, and the words of the rules
PROBES = [
    ('mask-none', 'no section, and a kept mask with another count', 'Valid pixels must number `valid`'),
    ('mask-count', 'valid is not the number of valid pixels', 'Valid pixels must number `valid`'),
    ('mask-zero-run', 'a run of 0 bytes', 'n = 0 is wrong'),
    ('mask-early-end', 'the end mark before the end of the section', "-32768 ends, exactly at the section's end"),
    ('mask-short', 'the end mark before any byte', 'after exactly the mask length'),
]
# sections in the place of that of `p7` (10 pixels): `valid`, the section, the valid pixels or None where it is refused
SECTIONS = [
    (3, '0200 A040 0080', (0, 2, 9), 'the case of the rules', 'P7'),
    (3, 'FEFF A0 0080', (0, 2, 8), 'a byte repeated', 'n < 0 repeats the next byte -n times'),
    (3, '0100 A0 FFFF 40 0080', (0, 2, 9), 'two runs', 'Else runs'),
    (3, '0200 A07F 0080', (0, 2, 9), 'spare bits set', 'Pixel p is bit 7 - p%8 of byte p/8'),
    (3, '0300 A04000 0080', None, 'a copied run longer than the mask', 'after exactly the mask length'),
    (3, 'FDFF A0 0080', None, 'a repeated run longer than the mask', 'after exactly the mask length'),
    (2, '0100 A0 0080', None, 'a mask one byte short', 'after exactly the mask length'),
    (3, '0200 A040 0080 00', None, 'a byte behind the end mark', "exactly at the section's end"),
    (3, '0200 A040', None, 'no end mark', '-32768 ends'),
    (3, '0200 A0', None, 'a run that passes the section', 'n > 0 copies n bytes'),
    (3, 'FEFF', None, 'a repeated byte that is not there', 'n < 0 repeats the next byte'),
]
# the pixels of each head by hand, in the order of data
HAND = [None] * len(PROBES) + [section[2] for section in SECTIONS]
# blobs that Esri decoded: folder, where they come from, names
BLOBS = [
    ('v4-crafted', 'runs by hand, decoded by Esri',
     'c026 c032 c062 c066 c078 c086 c112 c122 c157 c158 c173 c177 c203 c212 c224 c230 c263 c283 c295 c322 c415 c423 c000'),
    ('v4', 'made by Esri',
     'k0_13x41x1_noise_rows_e20 k0_40x9x3_segments_check_e1 k1_17x130x1_flat16_butone_e1 k1_40x9x2_patch_rows_e20 '
     'k1_8x8x64_depthconst_random_e0 k2_19x21x5_depthconst_random_e0p5 k2_48x64x1_flat16_butone_e1 k3_21x37x3_noise_sparse_e0 '
     'k4_13x41x3_noise_blob_e3p7 k5_13x41x1_noise_butone_e20 k5_17x130x1_flat16_butone_e1 k6_16x24x4_wild_dense_e1 '
     'k6_40x9x3_wild_sparse_e1 k7_15x23x3_wild_blob_e0p01 k2_15x23x2_wild_none_e0 k0_10x11x1_segments_all_e20'),
    ('v4-bands', 'made by Esri, one of three bands',
     ' '.join('%s.b%d' % (name, band)
              for name in ('k0_16x40x2_tiles_same', 'k1_16x40x2_random_same', 'k2_16x40x2_all_same', 'k3_16x40x2_dense_each',
                           'k4_16x40x2_tiles_same', 'k5_16x40x2_random_same', 'k6_16x40x2_all_same', 'k7_16x40x2_dense_each')
              for band in range(3))),
]


class Wrong(Exception):
    """any breach is 6"""


def require(test):
    if not test:
        raise Wrong


def number(head, at):
    return int.from_bytes(head[at:at + 4], 'little')


def runs(section, length):
    """the bytes that the runs of a section give"""
    mask, at = b'', 0
    while True:
        require(at + 2 <= len(section))
        n, at = struct.unpack_from('<h', section, at)[0], at + 2
        if n == END:
            require(at == len(section) and len(mask) == length)
            return mask
        require(n != 0)
        taken = n if n > 0 else 1
        require(at + taken <= len(section))
        mask += section[at:at + n] if n > 0 else section[at:at + 1] * -n
        require(len(mask) <= length)
        at += taken


def pixels_of(mask, pixels):
    """the valid pixels: pixel p is bit 7 - p % 8 of byte p / 8"""
    return tuple(p for p in range(pixels) if mask[p // 8] >> (7 - p % 8) & 1)


def decoded(head, kept):
    """whether the mask in force is the kept one, its bytes and its valid pixels; the caller allows reuse"""
    pixels, valid, count = number(head, 14) * number(head, 18), number(head, 26), number(head, 66)
    length, section, reused = (pixels + 7) // 8, head[HEAD:HEAD + count], False
    if valid == 0 or valid == pixels:
        require(count == 0)
        mask = bytes([0 if valid == 0 else 255]) * length
    elif count == 0:
        mask, reused = kept[:length], True
    else:
        mask = runs(section, length)
    require(len(pixels_of(mask, pixels)) == valid)
    return reused, mask, pixels_of(mask, pixels)


def sum_of(places):
    s = 0
    for p in places:
        s = (s * 31 + p % 65536 + 1) % 1000003
    return s


def parts_of(places, pixels):
    """how many are valid in parts of 1 to 21 pixels, one from each pixel on"""
    s, valid = 0, set(places)
    for p in range(pixels):
        part = range(p, min(p + p % 21 + 1, pixels))
        s = (s * 31 + sum(q in valid for q in part)) % 1000003
    return s


def expected():
    masks = {int(number): bytes.fromhex(mask) for number, mask in (line.split() for line in open(ESRI))}
    lines, kept = [], bytes(KEPT)
    for i in range(len(HAND) + len(masks)):
        head = open('%s/%03d' % (DATA, i), 'rb').read()
        assert head == in_front_of_zeros(head), 'head %03d: its checksum is false' % i
        pixels = number(head, 14) * number(head, 18)
        places = pixels_of(masks[i], pixels) if i in masks else HAND[i]
        try:
            reused, mask, found = decoded(head, kept)
        except Wrong:
            reused, mask, found = False, b'', None
        assert found == places, 'head %03d: the decoder of the rules gives %s' % (i, found)
        if places is None:
            lines.append('%03d refused 6\n' % i)
            continue
        said = 'kept' if reused else 'new'
        sums = sum_of(places), parts_of(places, pixels)
        lines.append('%03d %s bytes %d valid %d sum %d parts %d\n' % (i, said, (pixels + 7) // 8, len(places), *sums))
        kept = kept if reused else mask + bytes(KEPT - len(mask))
    return ''.join(lines)


def in_front_of_zeros(head):
    """the head with the checksum of itself and zeros up to its size"""
    assert len(head) <= declared_size(head) <= BYTES
    return sealed(head.ljust(BYTES, b'\0'))[:len(head)]


def head_of(blob, valid=None, section=None):
    """header and mask section, with another section if one is given"""
    if section is None:
        return in_front_of_zeros(blob[:HEAD + number(blob, 66)])
    return in_front_of_zeros(blob[:26] + struct.pack('<I', valid) + blob[30:66] + struct.pack('<I', len(section)) + section)


def all_heads(folder):
    """names, heads, and the masks that Esri gave"""
    def read(*path):
        return open(os.path.join(folder, *path), 'rb').read()

    for name, what, _ in PROBES:
        yield 'by hand: ' + what, head_of(read('probes', name + '.lerc2')), None
    for valid, section, _, what, _ in SECTIONS:
        yield 'by hand: ' + what, head_of(read('probes', 'p7.lerc2'), valid, bytes.fromhex(section)), None
    for group, what, names in BLOBS:
        for name in names.split():
            blob, expect = read(group, name + '.lerc2'), read(group, name + '.expect')
            assert expect[:8] == b'LERCX1\0\0' and expect[16:24] == blob[14:22]
            length = (number(blob, 14) * number(blob, 18) + 7) // 8
            yield '%s: %s' % (what, name), head_of(blob), expect[48:48 + length]


def copy(folder):
    with open(DATA + '/names', 'w') as names, open(ESRI, 'w') as masks:
        for i, (name, head, mask) in enumerate(all_heads(folder)):
            with open('%s/%03d' % (DATA, i), 'wb') as f:
                f.write(head)
            names.write('%03d %s\n' % (i, name))
            if mask is not None:
                masks.write('%03d %s\n' % (i, mask.hex()))


if __name__ == '__main__':
    if sys.argv[1:]:
        copy(sys.argv[1])
    lines = expected()
    with open(STDOUT, 'w') as f:
        f.write(lines)
