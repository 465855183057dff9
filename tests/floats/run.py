#!/usr/bin/env python3
"""Which float instructions an archive has, read off its object code.

    python3 tests/floats/run.py [ARCHIVE]            without ARCHIVE target/staticlib/liblerc_c.a
    python3 tests/floats/run.py --words ARCHIVE      of a build whose constant TRUSTED is false

The proofs hold of sums, products and comparisons of binary64 numbers that are rounded one by one, and of whole numbers made
into such. So an archive may have these instructions and must have each of them; a fused or a wider one, one of single
precision, a division, any other arithmetic on floats or a change of the control word is a fault, and with --words these are
faults too. So is a difference, unless it stands behind an `or` of the same operands: x86-64 makes floats of two whole numbers
so, each put into the digits of 2^52, of which 2^52 is taken away, and that is exact. Moves, and bit operations on the
registers that floats share with others, round nothing and are not looked at.
Needs objdump (binutils) for x86-64, or llvm-objdump, which reads arm64 too.
Exit status: 0 all of it holds, 1 some of it does not, 2 it could not be told.
"""
import collections
import os
import re
import shutil
import subprocess
import sys

ROOT = os.path.dirname(os.path.dirname(os.path.dirname(os.path.abspath(__file__))))

# by machine: what may be there, by what it is for
ALLOWED = {
    'x86-64': {'sum': r'add[sp]d', 'product': r'mul[sp]d', 'order': r'u?comisd|cmpn?l[te][sp]d', 'whole number': r'cvt(si|dq)2[sp]d[lq]?|subpd, of whole numbers'},
    'arm64': {'sum': r'fadd', 'product': r'fmul', 'order': r'fccmpe?|fcmpe?|fcmg[te]', 'whole number': r'[su]cvtf'},
}
# what else computes with floats, or sets how: x87 has every name that begins with f, the others of x86-64 end in their format
FLOATS = {
    'x86-64': r'f[a-z0-9]+|cvt[a-z0-9]+|[a-z0-9_]+[sp][sdh]|ldmxcsr|xrstors?(64)?',
    'arm64': r'f[a-z0-9]+|[su]cvtf|bf[a-z]*(dot|mmla|mla|cvt)[a-z0-9]*',
}
# these move and mix bits, and round nothing
HARMLESS = {
    'x86-64': r'(p|mov|and|or|xor|unpck|shuf|blend|broadcast|perm|insert|extract|test)[a-z0-9_]*',
    'arm64': r'fmov|fneg|fabs|fcsel',
}
# arm64 has the format in the operands: these are not binary64
NARROW = r'\b[sh][0-9]+\b|\.[248]?[sh]\b'


class Unknown(Exception):
    """What cannot be told."""


def disassembled(archive):
    tool = shutil.which('llvm-objdump') or shutil.which('objdump')
    if tool is None:
        raise Unknown('neither llvm-objdump nor objdump is on the path')
    run = subprocess.run([tool, '-d', '--no-show-raw-insn', archive], capture_output=True, text=True)
    if run.returncode:
        raise Unknown('%s cannot read %s: %s' % (tool, archive, run.stderr.strip()))
    return run.stdout


def machine_of(text):
    form = re.search(r'file format (\S+)', text)
    for name, machine in (('x86-64', 'x86-64'), ('aarch64', 'arm64')):
        if form and name in form.group(1):
            return machine
    raise Unknown('the archive is for no machine that is known here')


def instructions(text, machine):
    """how many there are of each name; of a name that is not of binary64, with that said"""
    found = collections.Counter()
    before = None
    for name, operands in re.findall(r'^\s*[0-9a-f]+:\s+(\S+)(.*)', text, re.M):
        if not re.fullmatch(r'[a-z][a-z0-9_.]*', name):
            raise Unknown('an instruction that the tool cannot read: %s%s' % (name, operands))
        if machine == 'x86-64' and name.startswith('v'):
            name = name[1:]
        if name == 'subpd' and before in (('por', operands.split()), ('orpd', operands.split())):
            name += ', of whole numbers'
        if machine == 'arm64' and name == 'msr' and 'fpcr' in operands.lower():
            name = 'fpcr'
        elif machine == 'arm64' and re.fullmatch(FLOATS[machine], name) and re.search(NARROW, operands):
            name += ', not of binary64'
        found[name] += 1
        before = (name, operands.split())
    if not found:
        raise Unknown('no instruction was found')
    return found


def faults(found, machine, words):
    met = collections.Counter()
    for name, count in sorted(found.items()):
        uses = [use for use, form in ALLOWED[machine].items() if re.fullmatch(form, name)]
        if uses and not words:
            met[uses[0]] += count
        elif re.fullmatch(FLOATS[machine], name.split(',')[0]) and not re.fullmatch(HARMLESS[machine], name.split(',')[0]):
            yield '%d of %s' % (count, name)
    print('%s: %s' % (machine, ', '.join('%s %d' % (use, met[use]) for use in ALLOWED[machine]) if met else 'no float arithmetic'))
    for use in ALLOWED[machine]:
        if not words and not met[use]:
            yield 'no %s: is it the build without the float unit? (--words)' % use


def main(words):
    only_words = words[:1] == ['--words']
    rest = words[1:] if only_words else words
    if len(rest) > 1 or (only_words and not rest) or any(word.startswith('-') for word in rest):
        raise Unknown('usage: tests/floats/run.py [ARCHIVE], or tests/floats/run.py --words ARCHIVE')
    archive = rest[0] if rest else os.path.join(ROOT, 'target/staticlib/liblerc_c.a')
    if not os.path.isfile(archive):
        raise Unknown('%s is not there' % archive)
    text = disassembled(archive)
    machine = machine_of(text)
    wrong = list(faults(instructions(text, machine), machine, only_words))
    for fault in wrong:
        print('floats: ' + fault)
    return 1 if wrong else 0


if __name__ == '__main__':
    try:
        sys.exit(main(sys.argv[1:]))
    except Unknown as why:
        print('floats: %s' % why, file=sys.stderr)
        sys.exit(2)
