"""writes the true checksum into a Lerc2 version 4 blob, or says whether it has it

A blob whose bytes were changed by hand is refused (13) until its checksum is true again. This tool is apart from the proved reader:
nothing is proved of it, and the reader does not use it. The checksum is reckoned by tools/checksum.py.

Only the four bytes at offset 10 are written; what stands behind the declared size is kept. Nothing else of the blob is judged, so that
one that is wrong in another way can be sealed too.

exit status: 0 written, or the checksum is right (--check); 1 it is wrong (--check); 2 neither, and a sentence says why
"""
import sys

sys.dont_write_bytecode = True


def in_one_line(why):
    """what went wrong, whatever it is"""
    return ('%s: %s' % (type(why).__name__, ' '.join(str(why).split()))).rstrip(': ')


# a module that is missing or that this Python cannot read is told as all else
try:
    import argparse
    import os
    from checksum import FIELD, FIRST, checksum, declared_size, stored, summed_part, with_field
except Exception as why:
    sys.stderr.write('seal: it cannot begin: %s\n' % in_one_line(why))
    sys.exit(2)

HEADER, VERSION_AT, VERSION = 70, 6, 4
KEY = b'Lerc2 '
INPUT, OUTPUT, ERRORS = 0, 1, 2
# tools/seal makes 1 of it, with which Python ends where it fails by itself
WRONG = 3


class GivenUp(Exception):
    """Why nothing, or not all, was done."""


def write_all(descriptor, data):
    """without a buffer, so that what is lost is told here and not at the end"""
    try:
        while data:
            data = data[os.write(descriptor, data):]
    except OSError as why:
        raise GivenUp('the output could not be written: %s' % (why.strerror or why))


class Help(argparse.Action):
    """the help text, whose loss is told as that of any other output"""

    def __call__(self, parser, *_):
        write_all(OUTPUT, parser.format_help().encode())
        sys.exit(0)


def words_of_call():
    parser = argparse.ArgumentParser(prog='tools/seal', add_help=False, allow_abbrev=False, description=__doc__,
                                     formatter_class=argparse.RawDescriptionHelpFormatter)
    parser.add_argument('file', metavar='FILE', help="the blob; '-' is standard input")
    what = parser.add_mutually_exclusive_group(required=True)
    what.add_argument('-o', dest='out', metavar='OUT', help="writes the blob with its true checksum; '-' is standard output")
    what.add_argument('--in-place', action='store_true', help='writes the true checksum into FILE')
    what.add_argument('--check', action='store_true', help='writes a line with the stored and the true checksum, as they stand in a blob')
    parser.add_argument('-h', '--help', nargs=0, action=Help, help='this text')
    return parser.parse_args()


def judge(head):
    """whether these first bytes are of a blob that the reader reads"""
    if len(head) < HEADER:
        raise GivenUp('it has %d bytes, and a header has %d' % (len(head), HEADER))
    if not head.startswith(KEY):
        raise GivenUp("it does not begin with 'Lerc2 '")
    version, size = int.from_bytes(head[VERSION_AT:VERSION_AT + 4], 'little'), declared_size(head)
    if version != VERSION:
        raise GivenUp('it has version %d, and only version %d is read here' % (version, VERSION))
    if size < HEADER:
        raise GivenUp('it declares a size of %d bytes, and its header alone has %d' % (size, HEADER))


def read_blob(name):
    """all of it; what is no blob is given up after its first bytes"""
    try:
        with open(INPUT if name == '-' else name, 'rb', closefd=name != '-') as file:
            head = file.read(HEADER)
            judge(head)
            blob = head + file.read()
    except OSError as why:
        raise GivenUp('it cannot be read: %s' % (why.strerror or why))
    if len(blob) < declared_size(blob):
        raise GivenUp('it declares a size of %d bytes, and there are %d' % (declared_size(blob), len(blob)))
    return blob


def write_file(name, mode, place, data):
    """from this place on; what is lost may be told as late as by the close"""
    try:
        with open(name, mode, buffering=0) as file:
            if place:
                file.seek(place)
            write_all(file.fileno(), data)
    except OSError as why:
        raise GivenUp('%s cannot be written: %s' % (name, why.strerror or why))


def write_field(name, field):
    """those four bytes alone"""
    if name == '-' or not os.path.isfile(name):
        raise GivenUp('only a file can be sealed in place')
    write_file(name, 'r+b', FIELD, field)


def is_input(name, out):
    """whether what is to be written is the file that was read, by whatever name"""
    if not os.path.exists(out):
        return False
    return os.path.samestat(os.fstat(INPUT) if name == '-' else os.stat(name), os.stat(out))


def write_blob(name, out, blob):
    """nothing of the file that was read may be lost on the way: of that one the field alone is written"""
    if out == '-':
        write_all(OUTPUT, blob)
    elif not is_input(name, out):
        write_file(out, 'wb', 0, blob)
    elif name == '-':
        # what was read need not be all of it
        raise GivenUp('standard input is %s itself, which only --in-place can seal' % out)
    else:
        write_field(name, blob[FIELD:FIRST])


def told(field):
    return ' '.join('%02X' % byte for byte in field)


def main(words):
    blob = read_blob(words.file)
    true = checksum(summed_part(blob))
    right, sealed = stored(blob) == true, with_field(blob, true)
    if words.check:
        line = 'stored %s, true %s: %s\n' % (told(blob[FIELD:FIRST]), told(sealed[FIELD:FIRST]), 'right' if right else 'wrong')
        write_all(OUTPUT, line.encode())
        return 0 if right else WRONG
    if words.in_place:
        write_field(words.file, sealed[FIELD:FIRST])
    else:
        write_blob(words.file, words.out, sealed)
    return 0


def told_why(sentence):
    try:
        # a name need not be text
        write_all(ERRORS, sentence.encode(errors='backslashreplace') + b'\n')
    except GivenUp:
        pass  # the status is left to tell it


if __name__ == '__main__':
    name = 'seal'
    try:
        called = words_of_call()
        name = 'seal: ' + called.file
        sys.exit(main(called))
    except GivenUp as why:
        told_why('%s: %s' % (name, why))
    except (Exception, KeyboardInterrupt) as why:
        told_why('%s: it is given up: %s' % (name, in_one_line(why)))
    sys.exit(2)
