"""Huffman byte images by the words of the rules: bit by bit, over lists, without the tables and trees of a decoder. No cell comes from a
program under test. The sentences that are quoted are those of the rules."""
import os
import sys

sys.path.insert(0, os.path.join(os.path.dirname(os.path.abspath(__file__)), '../read'))
import blobs  # noqa: E402

# 'a broken table or unknown code is 8, a word or run past the size 1'
BROKEN, PAST = 8, 1
# 'mode bytes 1 (delta) and 2'
DELTA, PLAIN = 1, 2
COUNTS, LONGEST = 256, 32


class Refused(Exception):
    pass


def require(holds, number):
    if not holds:
        raise Refused(number)


def taken(s, at, n):
    """the next n bytes, all within the size, and the place behind them"""
    require(at + n <= len(s), PAST)
    return s[at:at + n], at + n


# --- packed counts ----------------------------------------------------------------------------------------------------------------


def run_of(s, at, n, bits):
    """'n values of `bits` bits, lowest bit first. Each run ends on a byte, and its whole length must fit (1) before its content is judged'"""
    run, at = taken(s, at, (n * bits + 7) // 8)
    every = int.from_bytes(run, 'little')
    return [every >> bits * k & (1 << bits) - 1 for k in range(n)], at


def packed_counts(s, at):
    head, at = taken(s, at, 1)
    wide, bits = head[0] // 64, head[0] % 32
    require(wide < 3, BROKEN)
    n, at = taken(s, at, (4, 2, 1)[wide])
    n = int.from_bytes(n, 'little')
    require(n <= COUNTS, BROKEN)
    if head[0] // 32 % 2 == 0:
        return run_of(s, at, n, bits)
    require(bits > 0, BROKEN)
    entries, at = taken(s, at, 1)
    require(entries[0] >= 2, BROKEN)
    stored, at = run_of(s, at, entries[0] - 1, bits)
    indices, at = run_of(s, at, n, (entries[0] - 1).bit_length())
    require(all(i < entries[0] for i in indices), BROKEN)
    return [([0] + stored)[i] for i in indices], at


# --- the table --------------------------------------------------------------------------------------------------------------------


def integer(s, at):
    """the four are unsigned"""
    four, at = taken(s, at, 4)
    return int.from_bytes(four, 'little'), at


def bit(s, at, p):
    """'high bit first in little-endian 32-bit words'"""
    word = int.from_bytes(s[at + p // 32 * 4:at + p // 32 * 4 + 4], 'little')
    return '01'[word >> 31 - p % 32 & 1]


def is_prefix_free(codes):
    """'codes must be prefix-free': no code is another's, or its beginning; in sorted order one that is begun comes right behind"""
    codes = sorted(codes)
    return not any(after.startswith(code) for code, after in zip(codes, codes[1:]))


def span(s, at):
    """'Four 4-byte integers: version at least 2, size at most 256, first i0, end i1 (i0 below size, i1-i0 from 1 to size', each judged when
    it is read"""
    version, at = integer(s, at)
    require(version >= 2, BROKEN)
    size, at = integer(s, at)
    require(size <= 256, BROKEN)
    first, at = integer(s, at)
    require(first < size, BROKEN)
    end, at = integer(s, at)
    require(1 <= end - first <= size, BROKEN)
    return size, first, end, at


def table(s, at):
    """the symbol of each code, and where the symbols begin"""
    size, first, end, at = span(s, at)
    lengths, at = packed_counts(s, at)
    require(len(lengths) == end - first, BROKEN)
    require(all(n <= LONGEST for n in lengths), BROKEN)
    require(any(lengths), BROKEN)
    _, behind = taken(s, at, (sum(lengths) + 31) // 32 * 4)
    codes, p = {}, 0
    for k, n in enumerate(lengths):
        if n > 0:
            # 'wrapping modulo size'
            codes.setdefault(''.join(bit(s, at, p + j) for j in range(n)), []).append((first + k) % size)
        p += n
    require(all(len(symbols) == 1 for symbols in codes.values()), BROKEN)
    require(is_prefix_free(codes), BROKEN)
    return {code: symbols[0] for code, symbols in codes.items()}, behind


# --- symbols and cells ------------------------------------------------------------------------------------------------------------


class Bits:
    """the symbols in turn"""

    def __init__(self, s, at, codes):
        self.s, self.at, self.codes, self.p = s, at, codes, 0
        self.begun = {code[:n] for code in codes for n in range(len(code) + 1)}

    def symbol(self):
        """8 as soon as the bits so far begin no code, 1 if a bit's word passes the size before that"""
        code = ''
        while code not in self.codes:
            require(self.at + self.p // 32 * 4 + 4 <= len(self.s), PAST)
            code += bit(self.s, self.at, self.p)
            self.p += 1
            require(code in self.begun, BROKEN)
        return self.codes[code]

    def end(self):
        """'the symbols end (ceil(bits/32)+1)·4 bytes on'"""
        end = self.at + (-(-self.p // 32) + 1) * 4
        require(end <= len(self.s), PAST)
        return end


def summed(symbol, prediction, kind):
    """'symbol and prediction are added modulo 256, less 128 for kind 0'"""
    return (symbol + prediction - (128 if kind == 0 else 0)) % 256


def prediction(words, h, mask, pixel, d, last):
    """the last value where the left pixel is valid; else the word above where that is valid; else the last value"""
    columns = h['columns']
    if pixel % columns > 0 and blobs.is_valid(mask, pixel - 1):
        return last
    if pixel >= columns and blobs.is_valid(mask, pixel - columns):
        return words[pixel - columns, d]
    return last


def delta_cells(bits, h, mask):
    """depth by depth, pixels in order; the last value is 0 where a depth begins"""
    words = {}
    for d in range(h['depth']):
        last = 0
        for pixel in range(h['rows'] * h['columns']):
            if blobs.is_valid(mask, pixel):
                predicted = prediction(words, h, mask, pixel, d, last)
                last = words[pixel, d] = summed(bits.symbol(), predicted, h['kind'])
    return words


def plain_cells(bits, h, mask):
    """pixel by pixel, depth innermost, no prediction"""
    words = {}
    for pixel in range(h['rows'] * h['columns']):
        if blobs.is_valid(mask, pixel):
            for d in range(h['depth']):
                words[pixel, d] = summed(bits.symbol(), 0, h['kind'])
    return words


def decoded(blob, mask, at):
    """cells in order, 0 where the pixel is not valid, and the end, of a body whose mode byte is at `at`"""
    h = blobs.header(blob)
    s = blob[:h['size']]
    codes, begin = table(s, at + 1)
    bits = Bits(s, begin, codes)
    words = (delta_cells if s[at] == DELTA else plain_cells)(bits, h, mask)
    cells = [(pixel, d) for pixel in range(h['rows'] * h['columns']) for d in range(h['depth'])]
    return [words.get(cell, 0) for cell in cells], bits.end()
