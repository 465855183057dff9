#!/usr/bin/env python3
"""How much stack each function of the C interface needs at most, read off the object code, and seen in runs.

    python3 tests/stack/run.py [ARCHIVE]      without ARCHIVE target/staticlib/liblerc_c.a, which must be of these sources

Every path through every function is followed with the depth of the stack: pushes, `sub rsp`, what is kept below `rsp` (the
red zone), calls, and jumps out of a function, which leave nothing behind. Two paths that meet must have the same depth. The
deepest chain of calls from an entry is its need, the return address of the call included; arguments that do not fit the
registers lie in the caller's part. Given up with a sentence: a call or jump whose goal is not in the code (a table of jumps
inside one function apart), recursion, another change of `rsp`, code that no path reaches, and a function that is neither in
the archive nor memcpy or memset, which are all that include/lerc2.h asks of a caller. Of these two the return address is counted
and nothing else; "of C from" is how deep the deeper of them begins, so that a caller can add what its own need.

Then painted.c makes calls on a painted stack, with the blobs of lerc_fill_cases, and no call may have used more than was
read off. The column of docs/API.md must have these numbers. Needs objdump (binutils) and gcc, on x86-64.
Exit status: 0 all of it holds, 1 some of it does not, 2 it could not be told.
"""
import glob
import os
import re
import shutil
import subprocess
import sys
import tempfile

HERE = os.path.dirname(os.path.abspath(__file__))
ROOT = os.path.dirname(os.path.dirname(HERE))
OF_C = ('memcpy', 'memset')
ADDRESS = 8
# the registers' halves and bytes too
STACK = r'(?:rsp|esp|sp|spl)'
UNFOLLOWED = ('enter', 'leave', 'pushf', 'popf', 'iret', 'syscall', 'int')


class Unknown(Exception):
    """What cannot be read off."""


class Instruction:
    def __init__(self, at, text):
        self.at, self.relocated = at, []
        parts = text.split(None, 1)
        # prefixes are no part of what an instruction does to the stack
        while parts[0] in ('bnd', 'notrack', 'lock', 'rep', 'repz', 'repnz', 'data16', 'cs', 'ds', 'rex.W') and len(parts) > 1:
            parts = parts[1].split(None, 1)
        self.name, self.operands = parts[0], re.sub(r'\s*<[^>]*>$', '', parts[1]) if len(parts) > 1 else ''

    def pads(self):
        return self.name in ('nop', 'int3', 'ud2') or (self.name, self.operands) == ('xchg', 'ax,ax')


class Function:
    def __init__(self, name, section, start):
        self.name, self.section, self.start = name, section, start
        self.code = {}


def run(words):
    ran = subprocess.run(words, stdout=subprocess.PIPE, stderr=subprocess.PIPE, text=True)
    if ran.returncode != 0:
        raise Unknown('%s: %s' % (words[0], ran.stderr.strip()))
    return ran.stdout


def disassembled(archive):
    """The functions by (section, start), and by symbol."""
    at_place, by_name, function, section, last = {}, {}, None, None, None
    for line in run(['objdump', '-dr', '--no-show-raw-insn', '-M', 'intel', archive]).splitlines():
        if line.startswith('Disassembly of section '):
            section, function = line[len('Disassembly of section '):-1], None
        elif re.match(r'[0-9a-f]+ <.*>:$', line):
            start, name = line[:-2].split(' <', 1)
            function = Function(name, section, int(start, 16))
            if name in by_name:
                raise Unknown('two functions are called %s' % name)
            by_name[name] = at_place[section, function.start] = function
        elif re.match(r'\s+[0-9a-f]+:\t', line) and 'R_X86_64' not in line:
            at, text = line.split(':\t', 1)
            last = Instruction(int(at, 16), text.strip())
            function.code[last.at] = last
        elif 'R_X86_64' in line:
            last.relocated.append(line.split('R_X86_64', 1)[1].split(None, 1)[1].strip())
        elif 'file format' in line and 'elf64-x86-64' not in line:
            raise Unknown('%s is not for x86-64' % archive)
    if not by_name:
        raise Unknown('%s has no functions' % archive)
    return at_place, by_name


def tables(archive):
    """Tables of jumps: for each section of constants its entries, as (place, section, offset by the relocation)."""
    found, section = {}, None
    for line in run(['objdump', '-r', archive]).splitlines():
        if line.startswith('RELOCATION RECORDS FOR ['):
            section = line[len('RELOCATION RECORDS FOR ['):-2]
        elif section and section.startswith('.rodata') and 'R_X86_64' in line:
            entry, kind, value = line.split()
            match = re.match(r'(\.text\S*)\+0x([0-9a-f]+)$', value)
            if kind != 'R_X86_64_PC32' or not match:
                raise Unknown('an entry of %s that is no jump: %s' % (section, value))
            found.setdefault(section, []).append((int(entry, 16), match.group(1), int(match.group(2), 16)))
    return found


def symbol(relocated):
    """Name and offset of a goal; a goal counts from the end of its four bytes."""
    match = re.match(r'(.*?)(?:([+-])0x([0-9a-f]+))?$', relocated)
    offset = int(match.group(3) or '0', 16) * (-1 if match.group(2) == '-' else 1)
    return match.group(1), offset + 4


class Depths:
    """Follows one function: the deepest it goes itself, and what it calls at which depth."""

    def __init__(self, function, code):
        self.function, self.code = function, code
        self.deepest, self.calls = ADDRESS, []
        self.seen = {}
        self.todo = [(function.start, ADDRESS)]
        while self.todo:
            at, depth = self.todo.pop()
            self.follow(at, depth)
        for instruction in function.code.values():
            if instruction.at not in self.seen and not instruction.pads():
                self.give_up(instruction, 'no path leads here')

    def give_up(self, instruction, why):
        text = ('%s %s' % (instruction.name, instruction.operands)).strip()
        raise Unknown('%s at %x, %s: %s' % (self.function.name, instruction.at, text, why))

    def follow(self, at, depth):
        places = sorted(self.function.code)
        index = {place: n for n, place in enumerate(places)}
        while True:
            if at not in index:
                raise Unknown('%s: a path leads to %x, where no instruction begins' % (self.function.name, at))
            instruction = self.function.code[at]
            if at in self.seen:
                if self.seen[at] != depth:
                    self.give_up(instruction, 'reached %d and %d deep' % (self.seen[at], depth))
                return
            self.seen[at] = depth
            depth = self.step(instruction, depth)
            if depth is None:
                return
            self.deepest = max(self.deepest, depth)
            if index[at] + 1 == len(places):
                self.give_up(instruction, 'the code ends behind it')
            at = places[index[at] + 1]

    def moved(self, instruction):
        """By how much an instruction deepens the stack."""
        name, operands = instruction.name, instruction.operands
        if name == 'push':
            return ADDRESS
        if name == 'pop' and not re.match(STACK + r'$', operands):
            return -ADDRESS
        count = re.match(r'rsp,0x([0-9a-f]+)$', operands)
        if name in ('sub', 'add') and count:
            count = int(count.group(1), 16)
            count -= (count >> 63) << 64
            return count if name == 'sub' else -count
        if name in ('cmp', 'test'):
            return 0
        first = STACK if name != 'xchg' else r'(?:.*\b)?' + STACK
        if re.match(first + r'\b', re.sub(r'\[.*?\]', '', operands)) or name in UNFOLLOWED:
            self.give_up(instruction, 'changes the stack in a way that is not followed')
        return 0

    def step(self, instruction, depth):
        """The depth behind an instruction, or None where it does not go on."""
        name = instruction.name
        for inside in re.findall(r'\[[^\]]*\brsp\b([^\]]*)\]', instruction.operands):
            below = re.search(r'-0x([0-9a-f]+)', inside)
            if below:
                self.deepest = max(self.deepest, depth + int(below.group(1), 16))
        depth += self.moved(instruction)
        if name == 'ret':
            if depth != ADDRESS:
                self.give_up(instruction, 'returns %d deep' % depth)
            return None
        if name == 'ud2':
            return None
        if name == 'call':
            goal = self.goal(instruction)
            if goal is None or goal[0] is self.function and goal[1] != self.function.start:
                self.give_up(instruction, 'a call whose goal is not known')
            self.calls.append((goal[0], depth))
            return depth
        if name.startswith('j') or name.startswith('loop'):
            return self.jump(instruction, depth)
        return depth

    def jump(self, instruction, depth):
        goal = self.goal(instruction)
        onwards = None if instruction.name == 'jmp' else depth
        if goal is None:
            for section, offset in self.table(instruction):
                if section != self.function.section:
                    self.give_up(instruction, 'a table that leads out of the function')
                self.todo.append((offset, depth))
        elif goal[0] is self.function:
            self.todo.append((goal[1], depth))
        else:
            # the other function returns for this one
            if depth != ADDRESS:
                self.give_up(instruction, 'leaves the function %d deep' % depth)
            self.calls.append((goal[0], 0))
        return onwards

    def goal(self, instruction):
        """A function and a place in it, or a name of C's; None where it is not in the code."""
        if instruction.relocated:
            name, offset = symbol(instruction.relocated[0])
            if name in OF_C and offset == 0:
                return name, 0
            function = self.code[1].get(name) if offset == 0 else None
            function = function or self.code[0].get((name, offset))
            if function is None:
                self.give_up(instruction, '%s is not in the archive' % name)
            return function, function.start
        if not re.match(r'[0-9a-f]+$', instruction.operands):
            return None
        at = int(instruction.operands, 16)
        if at in self.function.code:
            return self.function, at
        function = self.code[0].get((self.function.section, at))
        return None if function is None else (function, at)

    def table(self, instruction):
        """The goals of the tables that this function names."""
        named = {symbol(r) for i in self.function.code.values() for r in i.relocated}
        goals = []
        for name in sorted({name for name, _ in named if name in self.code[2]}):
            starts = [start for other, start in named if other == name]
            for entry, section, offset in self.code[2][name]:
                before = [start for start in starts if start <= entry]
                if not before:
                    self.give_up(instruction, 'an entry of %s in front of every table' % name)
                # an entry counts from its table's start, its relocation from the entry
                goals.append((section, offset - (entry - max(before))))
        if instruction.name != 'jmp' or not goals:
            self.give_up(instruction, 'a jump whose goal is not known')
        return goals


def needs(archive):
    """For each entry its need, and the depth at which the deepest of C's functions begins (0: it calls none)."""
    code = disassembled(archive) + (tables(archive),)
    depths = {name: Depths(function, code) for name, function in code[1].items()}
    known = {}

    def need(name, above):
        if name in above:
            raise Unknown('%s calls itself, by %s' % (name, ', '.join(above)))
        if name not in known:
            most, with_c = depths[name].deepest, 0
            for goal, depth in depths[name].calls:
                if goal in OF_C:
                    most, with_c = max(most, depth + ADDRESS), max(with_c, depth + ADDRESS)
                else:
                    below, below_c = need(goal.name, above + [name])
                    most = max(most, depth + below)
                    with_c = max(with_c, depth + below_c) if below_c else with_c
            known[name] = most, with_c
        return known[name]

    entries = [name for name in code[1] if name.startswith('lerc2_')]
    if not entries:
        raise Unknown('%s has no function lerc2_*' % archive)
    return {name: need(name, []) for name in entries}


def measured(archive, folder):
    """The most that each entry used, over all blobs."""
    program = os.path.join(folder, 'painted')
    run(['gcc', '-std=gnu11', '-O1', '-Wall', '-Wextra', '-Werror', '-static', os.path.join(HERE, 'painted.c'), archive,
         '-o', program])
    blobs = sorted(glob.glob(os.path.join(ROOT, 'crates/lerc_fill_cases/data/[0-9][0-9][0-9]')))[0::2]
    most = {}
    for line in run([program] + blobs).splitlines():
        name, used = line.split()
        most[name] = max(most.get(name, 0), int(used))
    return most


def documented():
    """The numbers of docs/API.md, in the rows of the C interface."""
    found, column = {}, None
    for line in open(os.path.join(ROOT, 'docs/API.md'), encoding='utf-8'):
        cells = [cell.strip() for cell in line.strip().strip('|').split('|')]
        if 'stack' in cells:
            column = cells.index('stack')
        elif column is not None and cells[0].startswith('`lerc2_'):
            numbers = [int(number.replace(',', '')) for number in re.findall(r'[\d,]+', cells[column])]
            names = re.findall(r'`(lerc2_\w+)`', cells[0])
            found.update(zip(names, numbers) if len(numbers) == len(names) else {})
        elif not line.startswith('|'):
            column = None
    return found


def compared(read_off, seen, said):
    """The table, and what is wrong."""
    wrong = []
    print('| function | stack | of C from | seen |\n|---|---|---|---|')
    for name in sorted(read_off):
        most, with_c = read_off[name]
        used = seen.get(name)
        print('| `%s` | %s | %s | %s |' % (name, format(most, ','), format(with_c, ',') if with_c else '-', format(used or 0, ',')))
        if not used:
            wrong.append('%s was not seen to run' % name)
        elif used > most:
            wrong.append('%s used %d bytes, and %d were read off' % (name, used, most))
        if said.get(name) != most:
            wrong.append('docs/API.md says %s of %s, and it is %d' % (said.get(name, 'nothing'), name, most))
    return wrong


def main():
    if len(sys.argv) > 2 or sys.argv[1:] and not os.path.isfile(sys.argv[1]):
        print('run.py: usage: python3 tests/stack/run.py [ARCHIVE]', file=sys.stderr)
        return 2
    for tool in ('objdump', 'gcc'):
        if not shutil.which(tool):
            print('run.py: %s is not there' % tool, file=sys.stderr)
            return 2
    archive = sys.argv[1] if sys.argv[1:] else os.path.join(ROOT, 'target/staticlib/liblerc_c.a')
    if not sys.argv[1:] and subprocess.run([os.path.join(ROOT, 'tools/archive.sh'), '--check']).returncode != 0:
        print('run.py: tools/archive.sh proves and makes it', file=sys.stderr)
        return 2
    try:
        with tempfile.TemporaryDirectory() as folder:
            wrong = compared(needs(archive), measured(archive, folder), documented())
    except Unknown as why:
        print('run.py: %s' % why, file=sys.stderr)
        return 2
    for line in wrong:
        print(line)
    return 1 if wrong else 0


if __name__ == '__main__':
    sys.exit(main())
