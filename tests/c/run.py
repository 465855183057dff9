#!/usr/bin/env python3
"""Runs the C examples on the stored blobs of lerc_fill_cases and compares what they write with Esri's cells; then on blobs that are
refused (refused.py), and compares number and place; then on packs of such blobs (packs.py), and compares the table of tiles.

    python3 tests/c/run.py FOLDER [EMULATOR AND ITS WORDS]      FOLDER has the programs read, blocks, stage and pack (target/examples)

In data blob i is file 2i and what Esri's decoder gave for it file 2i + 1 (its form is in tests/fill/make.py). What data/names
calls planted has a wrong expectation, and must differ; so have the refusals and packs that are planted. Ends with status 1 if
anything else differs or a planted one does not, 2 if it could not be run.
"""
import glob
import os
import shutil
import struct
import subprocess
import sys

sys.dont_write_bytecode = True
import packs  # noqa: E402
import refused  # noqa: E402

DATA = os.path.join(os.path.dirname(os.path.abspath(__file__)), '../../crates/lerc_fill_cases/data')
WORD = ('B', 'B', 'H', 'H', 'I', 'I', 'I', 'Q')
PROGRAMS = ('read', 'blocks', 'stage')  # of one blob
ALL = PROGRAMS + ('pack',)


class Expected:
    def __init__(self, path):
        b = open(path, 'rb').read()
        _, self.kind, self.rows, self.columns, self.depth, self.valid, self.blocks, self.end = struct.unpack_from('<8I', b, 8)
        self.pixels = self.rows * self.columns
        length = (self.pixels + 7) // 8
        self.mask = b[48:48 + length]
        self.cells = struct.unpack_from('<%d%s' % (self.pixels * self.depth, WORD[self.kind]), b, 48 + length)

    def has(self, cell):
        pixel = cell // self.depth
        return self.mask[pixel // 8] >> (7 - pixel % 8) & 1

    def lines(self):
        """The cells, as all programs write them."""
        return ['cell %d %s' % (c, word if self.has(c) else '-') for c, word in enumerate(self.cells)]

    def head(self):
        return 'width %d height %d depth %d kind %d valid %d' % (self.columns, self.rows, self.depth, self.kind, self.valid)

    def read(self):
        """All that `read` writes."""
        return [self.head(), 'blocks %d' % self.blocks] + self.lines() + ['end %d' % self.end]

    def stage(self):
        """All that `stage` writes: what was staged, what was published, the cells. Every stored body is in blocks."""
        found = ['body in blocks', 'blocks %d end %d' % (self.blocks, self.end), 'mask new %d' % len(self.mask)]
        return [self.head()] + found + ['published end %d words %d' % (self.end, self.valid * self.depth)] + self.lines()


def fits(e, lines):
    """What `blocks` writes: the count and the end, each block once, as many words as there are valid cells, and the cells."""
    fills = [line.split() for line in lines if line.startswith('block ')]
    numbers, words = [int(f[1]) for f in fills], sum(int(f[5]) for f in fills)
    return ('blocks %d end %d' % (e.blocks, e.end) in lines and numbers == list(reversed(range(e.blocks)))
            and words == e.valid * e.depth and lines[-len(e.cells):] == e.lines())


def last_line(command, blob):
    """the status, and the last line that was written"""
    ran = subprocess.run(command, input=blob, stdout=subprocess.PIPE)
    return ran.returncode, (ran.stdout.decode().splitlines() or [''])[-1]


def same_refusal(commands, blob, lines):
    """whether each program ends in its line, with status 1; where there is none the blob is accepted"""
    said = [(last_line(command, blob), line) for command, line in zip(commands, lines)]
    return all(got == (1, line) if line else got[0] == 0 for got, line in said)


def compare_refusals(commands):
    """how many refusals differ, or are planted and do not"""
    cases, planted = refused.cases(), list(refused.planted())
    differ = [name for name, blob, *lines in cases if not same_refusal(commands, blob, lines)]
    missed = [name for name, blob, *lines in planted if same_refusal(commands, blob, lines)]
    for name in differ + missed:
        print('%s: the refusal %s' % (name, 'does not show what was planted' if name in missed else 'differs'))
    print('%d refusals with their places, by read, by blocks and by stage: %d differ' % (len(cases), len(differ)))
    print('%d planted refusals that must differ' % len(planted))
    return len(differ) + len(missed)


def same_table(command, pack, lines, status):
    ran = subprocess.run(command, input=pack, stdout=subprocess.PIPE)
    return (ran.stdout.decode().splitlines(), ran.returncode) == (lines, status)


def compare_packs(command, stored):
    """how many packs differ, or are planted and do not"""
    cases, planted = list(packs.cases(stored)), list(packs.planted())
    differ = [name for name, *rest in cases if not same_table(command, *rest)]
    missed = [name for name, *rest in planted if same_table(command, *rest)]
    for name in differ + missed:
        print('%s: the pack %s' % (name, 'does not show what was planted' if name in missed else 'differs'))
    tiles = sum(len(lines) - 2 for _, _, lines, _ in cases if lines != packs.NONE)
    print('%d packs, %d tiles in those that are right, by pack: %d differ' % (len(cases), tiles, len(differ)))
    print('%d planted packs that must differ' % len(planted))
    return len(differ) + len(missed)


def wrong(why):
    print('run.py: %s; usage: python3 tests/c/run.py FOLDER [EMULATOR AND ITS WORDS]' % why, file=sys.stderr)
    return 2


def main():
    if len(sys.argv) < 2:
        return wrong('no folder')
    folder, emulator = sys.argv[1], sys.argv[2:]
    for name in ALL:
        if not os.access(os.path.join(folder, name), os.X_OK):
            return wrong('there is no program %s in %s (examples/build.sh makes it)' % (name, folder))
    if emulator and not shutil.which(emulator[0]):
        return wrong('there is no emulator %s' % emulator[0])
    files = sorted(glob.glob(os.path.join(DATA, '[0-9][0-9][0-9]')))
    if not files:
        return wrong('there are no blobs in %s' % os.path.normpath(DATA))
    planted = [' planted: ' in name for name in open(os.path.join(DATA, 'names'))]
    differ = cells = found = 0
    for misled, blob, expect in zip(planted, files[0::2], files[1::2]):
        e = Expected(expect)
        said = {}
        for name in PROGRAMS:
            ran = subprocess.run(emulator + [os.path.join(folder, name)], stdin=open(blob, 'rb'), stdout=subprocess.PIPE, text=True)
            said[name] = ran.stdout.splitlines() if ran.returncode == 0 else []
        for name, same in (('read', said['read'] == e.read()), ('blocks', fits(e, said['blocks'])), ('stage', said['stage'] == e.stage())):
            if same == misled:
                differ += 1
                print('%s: %s %s' % (os.path.basename(blob), name, 'does not find what was planted' if misled else 'differs'))
        found += misled
        cells += 0 if misled else e.valid * e.depth
    print('%d blobs, %d valid cells, by read, by blocks and by stage: %d differ' % (len(planted) - found, cells, differ))
    print('%d planted expectations that must differ' % found)
    differ += compare_refusals([emulator + [os.path.join(folder, name)] for name in PROGRAMS])
    differ += compare_packs(emulator + [os.path.join(folder, 'pack')], [open(blob, 'rb').read() for blob in files[0::2]])
    return 1 if differ or not found or len(files) != 2 * len(planted) else 0


if __name__ == '__main__':
    sys.exit(main())
