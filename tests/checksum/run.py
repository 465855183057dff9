#!/usr/bin/env python3
"""Compares the checksums of blobs with their definition (tools/checksum.py), and what the proved reader says of them.

    python3 tests/checksum/run.py FOLDER...                       the definition alone
    python3 tests/checksum/run.py --archive ARCHIVE FOLDER...     and the reader in ARCHIVE (target/staticlib/liblerc_c.a)
    python3 tests/checksum/run.py --wrong NAME .. -- FOLDER...    blobs whose checksum is false on purpose: it must be

A blob is a file NAME.lerc2 below a FOLDER, of version 4 or later, which Esri's encoder wrote or its decoder reads: the field that it
has must be that of the definition. The reader is asked about those of version 4. None may be refused 13 as it is, neither by header
reading nor by a whole read. With one byte of the field flipped, each of the four in turn, and with a field of 0, both must say 13 at
0, unless the header is refused anyway: then its number stays. With a blob of an earlier version nothing is told: its size stands
elsewhere.
Needs gcc for --archive. Exit status: 0 all of it holds, 1 some of it does not, 2 it could not be told.
"""
import argparse
import glob
import os
import struct
import subprocess
import sys
import tempfile

sys.dont_write_bytecode = True
HERE = os.path.dirname(os.path.abspath(__file__))
sys.path.insert(0, os.path.join(HERE, '../../tools'))
from checksum import checksum, stored, summed_part, with_field  # noqa: E402

# the first version whose size stands at 34, and the one that the reader reads
OLDEST, READER = 4, 4


class Untold(Exception):
    """Why it could not be told."""


def version(blob):
    return int.from_bytes(blob[6:10], 'little')


def whole_blob(path):
    """all of it; before version 4 there is no depth, and what stands at 34 is not the size"""
    with open(path, 'rb') as file:
        blob = file.read()
    if blob[:6] != b'Lerc2 ':
        raise Untold('%s is no blob' % path)
    if version(blob) < OLDEST:
        raise Untold('%s has version %d, and only version %d and later are known here' % (path, version(blob), OLDEST))
    if summed_part(blob) is None:
        raise Untold('%s does not have the bytes that it declares' % path)
    return blob


def blobs_below(folders):
    """name and bytes of each blob"""
    found = []
    for folder in folders:
        if not os.path.isdir(folder):
            raise Untold('%s is no folder' % folder)
        for path in sorted(glob.glob(os.path.join(glob.escape(folder), '**/*.lerc2'), recursive=True)):
            found.append((os.path.basename(path)[:-len('.lerc2')], whole_blob(path)))
    if not found:
        raise Untold('there is no NAME.lerc2')
    return found


def is_true(blob):
    return stored(blob) == checksum(summed_part(blob))


def by_definition(blobs, wrong):
    """the names of those that are not as they should be"""
    odd = [name for name, blob in blobs if is_true(blob) == (name in wrong)]
    versions = sorted({version(blob) for _, blob in blobs})
    counts = ', '.join('%d of version %d' % (sum(version(b) == v for _, b in blobs), v) for v in versions)
    print('%d blobs (%s), %d with a true checksum: %d not as expected' % (len(blobs), counts, sum(is_true(b) for _, b in blobs), len(odd)))
    return odd


def false_fields(blob):
    """the blob with each byte of its true field flipped, and with a field of 0"""
    true = checksum(summed_part(blob))
    return [with_field(blob, true ^ 255 << 8 * k) for k in range(4)] + [with_field(blob, 0)]


def answers(program, blobs):
    """what the reader says of each"""
    asked = b''.join(struct.pack('<I', len(blob)) + blob for blob in blobs)
    ran = subprocess.run([program], input=asked, stdout=subprocess.PIPE)
    lines = ran.stdout.decode().splitlines()
    if ran.returncode != 0 or len(lines) != len(blobs):
        raise Untold('%s ended with status %d after %d of %d blobs' % (program, ran.returncode, len(lines), len(blobs)))
    return [tuple(map(int, line.split())) for line in lines]


# header reading, then a whole read without room; what the header's own rules refuse is the same for both
TRUE, FALSE = (0, 0, 5, 0), (13, 0, 13, 0)
OTHERS = [(number, 0, number, 0) for number in (1, 2, 3, 4)]


def is_judged(blob, first, others):
    """whether the reader judges a blob rightly, as it is and with false fields"""
    if first in OTHERS:
        return all(other == first for other in others)
    return first == (TRUE if is_true(blob) else FALSE) and all(other == FALSE for other in others)


def by_reader(program, blobs):
    """the names of those that the reader judges otherwise"""
    own = [(name, blob) for name, blob in blobs if version(blob) == READER]
    rows = [[blob] + false_fields(blob) for _, blob in own]
    said = iter(answers(program, [blob for row in rows for blob in row]))
    odd, tested, fields = [], 0, 0
    for (name, blob), row in zip(own, rows):
        first, *others = [next(said) for _ in row]
        tested, fields = tested + (first not in OTHERS), fields + len(others)
        if not is_judged(blob, first, others):
            odd.append(name)
    print('%d blobs of version %d, %d of them not refused by the header\'s other rules, and %d false fields: %d judged otherwise'
          % (len(own), READER, tested, fields, len(odd)))
    return odd if tested else odd + ['there is no blob to judge']


def built(archive, folder):
    """the program over the archive"""
    program = os.path.join(folder, 'number')
    words = ['gcc', '-std=c11', '-O2', '-Wall', '-Wextra', '-Werror', '-pedantic', os.path.join(HERE, 'number.c'), archive, '-o', program]
    try:
        ran = subprocess.run(words, stderr=subprocess.PIPE, text=True)
    except OSError as why:
        raise Untold('gcc: %s' % why.strerror)
    if ran.returncode != 0:
        raise Untold('number.c is not built: ' + ran.stderr.strip())
    return program


def words_of_call():
    parser = argparse.ArgumentParser(prog='tests/checksum/run.py', allow_abbrev=False, description=__doc__,
                                     formatter_class=argparse.RawDescriptionHelpFormatter)
    parser.add_argument('folders', nargs='+')
    parser.add_argument('--archive')
    parser.add_argument('--wrong', nargs='+', default=[])
    return parser.parse_args()


def main(words):
    blobs = blobs_below(words.folders)
    odd = by_definition(blobs, words.wrong)
    if words.archive:
        with tempfile.TemporaryDirectory() as folder:
            odd += by_reader(built(words.archive, folder), blobs)
    for name in odd:
        print('not as expected: ' + name)
    return 1 if odd else 0


if __name__ == '__main__':
    try:
        sys.exit(main(words_of_call()))
    except Untold as why:
        print('run.py: %s' % why, file=sys.stderr)
        sys.exit(2)
