"""The checksum of a Lerc2 blob: four bytes at offset 10, little-endian, over all that follows them up to the declared size, which
stands where it does since version 4.

Plain Python for the desk and for the tests, apart from the proved reader, which does not use it. The sentences that are quoted are
those of the rules; of two that differ "Esri's published code decides".
"""
import struct

# where the field stands, and the first byte that is summed; where the declared size stands
FIELD, FIRST, SIZE = 10, 14, 34
# so many words are added up before the sums are folded
GROUP = 359


def folded(x):
    """the high 16 bits added to the low ones; modulo 65,535 this changes nothing"""
    return x % 65536 + x // 65536


def words_of(summed):
    """'as 16-bit words, first byte high', and the odd last byte by itself, if there is one"""
    whole = len(summed) // 2
    return struct.unpack_from('>%dH' % whole, summed), summed[2 * whole:]


def sums_before_last_fold(summed):
    """Esri's two sums. Each group is folded once, so that no sum needs more than 32 bits; the odd byte comes behind the last group."""
    words, odd = words_of(summed)
    low = high = 65535
    for start in range(0, len(words), GROUP):
        for word in words[start:start + GROUP]:
            low += word
            high += low
        low, high = folded(low), folded(high)
    if odd:
        low += 256 * odd[0]
        high += low
    return low, high


def checksum(summed):
    """The field's value by Esri's code, which decides. Its last fold may leave 17 bits, and then the halves are not the words' own."""
    low, high = map(folded, sums_before_last_fold(summed))
    return (high * 65536) % (1 << 32) | low


def by_the_words(summed):
    """The value by the sentences alone: 'an odd last byte high over zero. Low half: sum of the words modulo 65,535, zero written as
    65,535. High half: the same for the sum of the running sums.' For an even size it is Esri's; for an odd one seldom it is not."""
    words, odd = words_of(summed)
    low = high = 0
    for word in words + tuple(256 * byte for byte in odd):
        low += word
        high += low
    low, high = (x % 65535 or 65535 for x in (low, high))
    return high * 65536 + low


def declared_size(blob):
    return int.from_bytes(blob[SIZE:SIZE + 4], 'little')


def summed_part(blob):
    """'Bytes 14 up to the declared size'; None where the blob does not have them all, or the size ends in front of them"""
    size = declared_size(blob)
    return blob[FIRST:size] if len(blob) >= SIZE + 4 and FIRST <= size <= len(blob) else None


def stored(blob):
    """the field as it stands"""
    return int.from_bytes(blob[FIELD:FIRST], 'little')


def with_field(blob, value):
    return blob[:FIELD] + struct.pack('<I', value) + blob[FIRST:]


def sealed(blob):
    """The blob with the true field. One that is shorter than its size, or says a size under 14, has none and stays as it is: other
    refusals come first."""
    part = summed_part(blob)
    return blob if part is None else with_field(blob, checksum(part))
