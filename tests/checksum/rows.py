"""Rows of u8 cells whose blobs tell Esri's checksum from others that are nearly it, above all from that of the sentences alone.

All have an odd size. The two values differ if, before Esri's last fold, the low sum is 131,071, or the high sum is 131,071, 196,606 or
196,607: what is left of it then has 17 bits, or is one less than modulo 65,535. Esri's library (liblerc 4.0.0) reads each of these
blobs with the field of its own code, and refuses it with the false one.
"""
import collections

# what it tells; both sums before the last fold; the field by Esri's code; a false one, by the sentences unless `why` says otherwise
Row = collections.namedtuple('Row', 'why sums field false cells')


def cells(count, most, last):
    """0, 255, then one value over and over, and the last three"""
    return [0, 255] + [most] * (count - 5) + last


ROWS = (
    Row('the high sum is 131,071', (81596, 131071), 0x00003EBD, 0x00013EBD, cells(8, 255, [0, 93, 128])),
    Row('the high sum is 196,606', (130669, 196606), 0x0000FE6E, 0x0001FE6E, cells(48, 249, [71, 146, 255])),
    Row('the high sum is 196,607', (130659, 196607), 0x0001FE64, 0x0002FE64, cells(64, 198, [20, 184, 255])),
    # 65,536 is left of the low sum, and its one bit is or-ed to the high half
    Row('the low sum is 131,071, the high half even', (131071, 186976), 0xDA630000, 0xDA620001, cells(560, 255, [202, 153, 255])),
    Row('the low sum is 131,071, the high half odd', (131071, 231226), 0x873D0000, 0x873D0001, cells(564, 255, [190, 153, 255])),
    # sums that begin with 0 and not with 65,535 would be those of the sentences
    Row('the high sum is 131,071 only from 65,535 on', (65471, 131071), 0x0000FFBF, 0x0001FFBF, cells(8, 253, [67, 100, 0])),
    Row('the low sum is 131,071 only from 65,535 on', (131071, 193325), 0xF32F0000, 0xF32F0001, cells(540, 241, [175, 80, 255])),
    # one whole group of words; folded before its last word the sums would be those of the sentences
    Row('the low sum is 131,071 after 359 words', (131071, 195571), 0xFBF50000, 0xFBF50001, cells(660, 255, [158, 152, 255])),
    # here the sentences agree with Esri's code; the false field is that of sums folded after 360 words, and not after 359
    Row('360 words, folded after 359', (65536, 107620), 0xA4650001, 0xA4650000, cells(662, 255, [152, 152, 255])),
)
# the body of another: one row of four cells in a raw block, ranges and both bytes in front of it, error 0.5; 79 bytes in all
IN_BLOCK = Row('the high sum is 131,071, in a block', (91616, 131071), 0x000065E1, 0x000165E1, [5, 23, 139, 144])
