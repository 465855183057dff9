#!/usr/bin/env python3
"""Writes the cases of lerc_numeric_cases, and what the program must write for them.

    python3 tests/numeric/make.py            in the repository's root: writes crates/lerc_numeric_cases/{stdin,stdout}

Nothing here is taken from the proofs. A magnitude is a whole number of units of 2^-1074. The bits of a sum or a product are
found by bisection: the greatest word whose value does not pass the exact result, then the nearer of it and the next, the even
one of two equally near. An infinity plus a finite number is that infinity. Where the operands are finite, and in a sum also where one
of them is infinite, the results are compared with those of the machine's own doubles.
"""
import random
import struct
import sys

if sys.argv[1:]:
    print('make.py: no word is known; usage: python3 tests/numeric/make.py', file=sys.stderr)
    sys.exit(2)

random.seed(20261115)
SIGN, INF, REFUSED = 1 << 63, 2047 << 52, None
SIZES = [1, 1, 2, 2, 4, 4, 4, 8]
OFFSETS = ['0---', '1---', '210-', '31--', '4321', '531-', '621-', '7642']


def value(bits, digits):
    """the value of bits without a sign, in units of the format's least value; no exponent is special"""
    field, rest = bits >> (digits - 1), bits % (1 << (digits - 1))
    return rest if field == 0 else ((1 << (digits - 1)) + rest) << (field - 1)


def units(w):
    return value(w % SIGN, 53)


def nearest(n, digits, top, unit):
    """the bits nearest to n / unit; `top` is infinity, and counts as the value that would come next"""
    low, high = 0, top
    while low < high:
        middle = (low + high + 1) // 2
        if value(middle, digits) * unit <= n:
            low = middle
        else:
            high = middle - 1
    if low == top:
        return top
    below, above = n - value(low, digits) * unit, value(low + 1, digits) * unit - n
    return low + 1 if above < below or (above == below and low % 2 == 1) else low


def signed(negative, n):
    return (SIGN if negative else 0) + nearest(n, 53, INF, 1)


def whole(w):
    """the exact value, as a signed number of units"""
    return -units(w) if w >= SIGN else units(w)


def is_finite(w):
    return w % SIGN < INF


def is_infinite(w):
    return w % SIGN == INF


def plus(a, b):
    if is_infinite(a) and is_finite(b):
        return a
    if is_infinite(b) and is_finite(a):
        return b
    exact = whole(a) + whole(b)
    both = a >= SIGN and b >= SIGN
    return signed(exact < 0 or (exact == 0 and both), abs(exact))


def scale(a, q):
    return signed(a >= SIGN, 2 * q * units(a))


def narrow(w):
    sign = (w >> 63) << 31
    if w % SIGN >= INF:
        return sign + (255 << 23) + (w % (1 << 52) >> 29)
    return sign + nearest(units(w), 24, 255 << 23, 1 << 925)


def size(kind):
    return SIZES[kind] if kind < 8 else 8


def number(word, kind):
    bits = 8 * size(kind)
    v = word % (1 << bits)
    if kind < 6:
        n = v - (1 << bits) if kind % 2 == 0 and v >= 1 << (bits - 1) else v
        return signed(n < 0, abs(n) << 1074)
    if kind == 6:
        sign, rest = v >> 31, v % (1 << 31)
        if rest >= 255 << 23:
            return (sign << 63) + INF + ((rest % (1 << 23)) << 29)
        return signed(sign == 1, value(rest, 24) << 925)
    return v


def integer(w, kind):
    if kind > 5 or w % SIGN >= INF:
        return REFUSED
    bits = 8 * size(kind)
    cut = units(w) >> 1074
    n = -cut if w >= SIGN else cut
    low, high = (-(1 << (bits - 1)), (1 << (bits - 1)) - 1) if kind % 2 == 0 else (0, (1 << bits) - 1)
    return n % (1 << bits) if low <= n <= high else REFUSED


def stored(w, kind):
    return integer(w, kind) if kind < 6 else narrow(w) if kind == 6 else w


def offset(kind, code):
    k = OFFSETS[kind][code] if kind < 8 and code < 4 else '-'
    return REFUSED if k == '-' else int(k)


def double(w):
    return struct.unpack('<d', struct.pack('<Q', w))[0]


def bits(x):
    return struct.unpack('<Q', struct.pack('<d', x))[0]


def single(x):
    try:
        return struct.unpack('<I', struct.pack('<f', x))[0]
    except OverflowError:
        return (255 << 23) + ((bits(x) >> 63) << 31)


def check(a, b, q, kind):
    """the machine's own arithmetic, where it says the same thing"""
    if is_finite(a):
        assert bits(double(a) * float(2 * q)) == scale(a, q), (hex(a), q)
        assert single(double(a)) == narrow(a), hex(a)
    if (is_finite(a) or is_finite(b)) and a % SIGN <= INF and b % SIGN <= INF:
        assert bits(double(a) + double(b)) == plus(a, b), (hex(a), hex(b))
        assert (double(a) < double(b)) == (whole(a) < whole(b))
    if kind < 6:
        n = double(number(b, kind))
        assert n == int(n) and integer(bits(n), kind) == b % (1 << 8 * size(kind))
    if kind == 6 and b % (1 << 31) < 255 << 23:
        assert double(number(b, kind)) == struct.unpack('<f', struct.pack('<I', b % (1 << 32)))[0]


SPECIAL = [0, 1, 2, 3, (1 << 52) - 1, 1 << 52, (1 << 52) + 1, (2 << 52) - 1, 2 << 52, INF - 1, INF - 2, INF, INF + 1,
           INF + (1 << 51), SIGN - 1, bits(1.0), bits(1.0) + 1, bits(2.0) - 1, bits(0.5), bits(3.0), bits(2.0 ** 53),
           bits(2.0 ** 53) + 1, bits(2.0 ** 63), bits(2.0 ** 64), bits(2.0 ** 1023), bits(127.0), bits(127.99), bits(128.0),
           bits(128.5), bits(128.99), bits(129.0), bits(255.0), bits(255.99), bits(256.0), bits(32767.5), bits(32768.0),
           bits(32768.5), bits(65535.5), bits(65536.0), bits(2147483647.5), bits(2147483648.0), bits(2147483648.5),
           bits(4294967295.5), bits(4294967296.0), 0x3ff0000010000000, 0x3ff0000030000000, 0x3ff0000010000001,
           0x47efffffe0000000, 0x47efffffefffffff, 0x47effffff0000000, 0x36a0000000000000, 0x3690000000000000,
           0x3690000000000001, 0x380fffffe0000000, 0x380ffffff0000000, 0x7fdfffffffffffff, 0x7c90000000000000,
           0x7c8fffffffffffff]


def word():
    w = random.getrandbits(64)
    return random.choice([
        lambda: random.choice(SPECIAL) + random.choice([0, SIGN]),
        lambda: w,
        lambda: w % (1 << 52) + random.choice([0, SIGN]),                                 # subnormal
        lambda: (w % SIGN) // (1 << 40) * (1 << 40),                                      # few digits: ties
        lambda: w % (1 << 52) + (random.randrange(1010, 1060) << 52) + random.choice([0, SIGN]),
        lambda: w % (1 << 52) + (random.randrange(2040, 2048) << 52) + random.choice([0, SIGN]),
        lambda: bits(float(random.randrange(-40000, 40000)) / random.choice([1, 2, 4, 256])),
        lambda: bits(float(random.randrange(-(1 << 33), 1 << 33)) / random.choice([1, 2, 3])),
        lambda: w % (1 << 52) + (random.randrange(870, 900) << 52) + random.choice([0, SIGN]),  # around binary32's least
        lambda: (w >> 63 << 63) + (random.randrange(870, 1160) << 52) + (w >> 29) % (1 << 23) * (1 << 29) + (1 << 28),
    ])()


def partner(a):
    """an operand that makes the sum cancel, tie, carry or overflow"""
    field = a % SIGN >> 52
    near = min(2047, max(0, field + random.randrange(-56, 57)))
    return random.choice([
        word,
        lambda: a ^ SIGN,
        lambda: a,
        lambda: (a ^ SIGN) ^ random.randrange(1, 16),
        lambda: (near << 52) + random.choice([0, 1, (1 << 52) - 1, 1 << 51, 3 << 50, random.getrandbits(52)]) + random.choice([0, SIGN]),
        lambda: (max(0, field - 53) << 52) + random.choice([0, 1, (1 << 52) - 1]) + random.choice([0, SIGN]),   # half a last digit
    ])()


def infinities():
    """infinities in sums; field 2047 with a fraction is no infinity, and counts as finite as ever"""
    signs, fractions, high = (0, SIGN), [INF + 1, SIGN - 1], bits(2.0 ** 1023)
    # were an infinity counted as 2^1024, a finite number of the other sign would show in the sum where it is above 2^970
    finite = [0, 1, (1 << 52) - 1, bits(1.0), bits(2.0 ** 970), bits(2.0 ** 970) + 1, bits(3 * 2.0 ** 970), high, INF - 1]
    met = [(INF, y) for y in [*finite, INF, *fractions]] + [(x, y) for x in fractions for y in (0, high, INF - 1)]
    for x, y in met:
        for s in signs:
            for t in signs:
                yield x + s, y + t, 1, 7
                yield y + t, x + s, 1, 7
    # offset -2^1023, error 2^1000, count 2^30: the product, the sum, the lesser of it and a maximum
    error, low = bits(2.0 ** 1000), high + SIGN
    product = scale(error, 1 << 30)
    yield error, low, 1 << 30, 7
    yield low, product, 1, 7
    yield plus(low, product), bits(1.5 * 2.0 ** 1023), 1, 7


# offset, error, maximum and count of each row of crates/lerc_numeric/src/ready.rt, which tell another float unit by its words
TELLING = [(bits(1.0), bits(2.0 ** -53), INF - 1, 1), (bits(1.0), bits(3 * 2.0 ** -54), INF - 1, 1),
           (bits(-1.0), bits(-3 * 2.0 ** -54), INF - 1, 1), (bits(1.0), bits(2.0 ** -53) + (1 << 27), INF - 1, 1),
           (bits(1.0), bits(2.0 ** -54) + (1 << 27), INF - 1, 1), (0, bits(2.0) - 0x3fff, INF - 1, 4097),
           (bits(-6.0), bits(1.0) + 1, INF - 1, 3), (bits(-6.0), bits(1.0) + 3, INF - 1, 3),
           (bits(1.0), bits(1.0) + 1, INF - 1, 5), (1, 1, INF - 1, 1),
           (1 << 52, SIGN + (3 << 51), INF - 1, 1), (0, 0, 1, 0), (bits(1.0), bits(1.0), bits(1.0), 1), (INF - 1, INF - 1, INF - 1, 0xffffffff),
           (bits(1.0), bits(-1.0), 0, 0xffffffff)]


def telling():
    """sum, product and step of each row"""
    for offset, error, top, q in TELLING:
        step = scale(error, q)
        yield offset, error, q, 7
        yield error, offset, q, 7
        yield offset, step, q, 7
        yield plus(offset, step), top, 1, 7


def both_signs(pairs):
    for a, b in pairs:
        yield a, b, 1, 7
        yield a ^ SIGN, b ^ SIGN, 1, 7


def tied_factor(q, odd):
    """a number whose product with the odd count q is a tie of 53 digits, between words of which the lower one is odd or even"""
    cut = q.bit_length()
    low = (1 << cut - 1) * pow(q, -1, 1 << cut) % (1 << cut)
    # below 2^53 and not far from it, so that the product has 53 digits and those that are cut
    digits = (1 << 53) - (1 << cut) + low
    while (digits * q >> cut) % 2 != odd:
        digits -= 1 << cut
    return (1023 << 52) + digits - (1 << 52)


def last_sums():
    """around 2^1024 - 2^970, from which on a sum is infinite, and operands that are"""
    half, high, last = bits(2.0 ** 970), bits(2.0 ** 1023), INF - 1
    yield from both_signs([(last, half - 1), (last, half), (last, half + 1), (last - 1, half), (last - 1, half + 1), (last, 1),
                           (high, high - 1), (high, high - 2), (high, high), (last, last), (last, half + SIGN), (last, last + SIGN),
                           (last, INF), (last, INF + SIGN), (last, INF + 1 + SIGN), (last - 1, INF + SIGN)])


def small_sums():
    """normal numbers whose sum is not, and the least normal one on both sides"""
    low = 1 << 52
    yield from both_signs([(low, low + 1 + SIGN), (low + 1, low + SIGN), (2 * low, 2 * low + 1 + SIGN), (2 * low, 3 * low - 1 + SIGN),
                           (low, 1 + SIGN), (low - 1, 1), (low - 1, low - 1), (1, 1), (1, 2 + SIGN), (0, SIGN + 1)])


def tied_sums():
    """half a unit to an even and to an odd last digit, with a carry, below a power of two, and one unit beside each"""
    one, half, quarter = bits(1.0), bits(2.0 ** -53), bits(2.0 ** -54)
    for a, b in [(one, half), (one + 1, half), (bits(2.0) - 1, half), (one, quarter + SIGN),
                 (one + 1, half + SIGN), (one + 2, half + SIGN)]:
        yield from both_signs([(a, b), (a, b + 1), (a, b - 1)])


def products():
    """the last finite ones and the first that are infinite, subnormal ones, ties with odd counts, and one unit beside each"""
    sixth = bits(6004799503160661 * 2.0 ** 969)        # six of it are 2^1024 - 2^970
    counts = [(bits(2.0 ** 1023), 1), (sixth, 3), (bits(2.0 ** 991), 0xffffffff), (1 << 51, 1), (1 << 20, 1 << 31), (1, 0xffffffff)]
    counts += [(tied_factor(q, odd), q) for q in (3, 5, 0x80000001, 0xffffffff) for odd in (0, 1)]
    for a, q in counts:
        for beside in (a - 1, a, a + 1):
            yield beside, 0, q, 7
    for a in (INF - 1, INF, INF + 1, SIGN + INF - 1, SIGN + INF):
        for q in (0, 1):
            yield a, 0, q, 7


def singles():
    """the least normal binary32 and 2^128 on both sides, and ties beside them"""
    for a in (0x380fffffffffffff, 0x3810000000000000, 0x3810000010000000, 0x3810000030000000, 0x47efffffefffffff,
              0x47effffff0000000, 0x47efffffffffffff, 0x47f0000000000000):
        yield a, 0, 1, 6
        yield a + SIGN, 0, 1, 6


def cases():
    for a in SPECIAL:
        for s in (0, SIGN):
            for kind in range(9):
                yield (a + s) % (1 << 64), random.choice(SPECIAL), random.choice([0, 1, 2, 3, 0xffffffff]), kind
    for _ in range(1200):
        a = word()
        q = random.choice([random.randrange(0, 16), random.getrandbits(random.randrange(1, 33)), 0xffffffff, (1 << 32) - (1 << random.randrange(0, 20))])
        yield a, partner(a), q, random.randrange(0, 9)
    yield from infinities()
    for more in (telling, last_sums, small_sums, tied_sums, products, singles):
        yield from more()


def shown(x):
    return 'r9' if x is REFUSED else '%x' % x


def main():
    data, lines = b'', []
    for a, b, q, kind in cases():
        check(a, b, q, kind)
        data += struct.pack('<QQII', a, b, q, kind)
        less, same = whole(a) < whole(b), a == b or whole(a) == whole(b) == 0
        o = offset(kind, q % 5)
        lines.append('%016x %016x %016x %x %x %x %08x %016x %x %s %s %s \n' % (
            plus(a, b), scale(a, q), a if less else b, less, same, is_finite(a), narrow(a), number(b, kind),
            size(kind), shown(integer(a, kind)), shown(stored(a, kind)), 'r8' if o is REFUSED else '%x' % o))
    assert len(lines) >= 2000 and len(data) <= 65536
    folder = 'crates/lerc_numeric_cases/'
    open(folder + 'stdin', 'wb').write(data)
    open(folder + 'stdout', 'w').write(''.join(lines))
    print(len(lines), 'cases')


main()
