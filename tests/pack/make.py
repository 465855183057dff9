#!/usr/bin/env python3
"""Writes the cases of lerc_pack_cases, and what the program must write of them.

    python3 tests/pack/make.py

In crates/lerc_pack_cases/data each file is a row of cases: a head (`packed`), bytes of a pack, and for a call of the writer rows, columns
and lengths. The program has one slice for the packs of a file, all zeros at first; a case says which bytes of it are others than in the
case before, and how many are lent. `names` has a line for each case: what is right or wrong. crates/lerc_pack_cases/stdout has the lines of
the program. No answer comes from a program under test: model.py has the words of the rules, and cases.py says beside each case whether it is accepted.

The file `planted` has right calls with expectations in which one thing is wrong. The program must say what differs; one that said "same" of
everything would not write what is in stdout.
"""
import os
import struct
import sys

import cases
import model
from cases import MARK, OPEN, READ, WRITE
from model import Refused

CRATE = os.path.join(cases.ROOT, 'crates/lerc_pack_cases')
# what the program can lend: bytes of a pack or of an output, rows and columns and lengths, bytes of these three; how many entries it shows
BYTES, SLOTS, REST, SHOWN = 70000, 300, 4096, 32
PRIME, FACTOR = 4294967291, 2147483629
FILES = ('accepted', 'refused', 'entries', 'written', 'unwritten', 'large', 'planted')


# --- what the program sums --------------------------------------------------------------------------------------------------------


def with_piece(s, piece):
    return (s * FACTOR + piece + 1) % PRIME


def with_word(s, word):
    for k in (0, 16, 32, 48):
        s = with_piece(s, (word >> k) % 65536)
    return s


def sum_of(piece):
    s = 0
    for byte in piece:
        s = with_piece(s, byte)
    return s


def with_entry(s, e, body):
    for word in (*e, sum_of(body)):
        s = with_word(s, word)
    return s


# --- what is said of a call -------------------------------------------------------------------------------------------------------


def answer(call, *given):
    """number, and what is given where it is 0"""
    try:
        return 0, call(*given)
    except Refused as why:
        return why.args[0], None


def finished(case, said):
    """the sum that is found is that of the expectation, unless one is planted"""
    return dict(case, found=case['sum'], said=said, more='')


def entry_text(e, body):
    return 'row %d column %d kind %d depth %d start %d length %d sum %d' % (*e, sum_of(body))


def opened(what, pack, rules=model):
    """the entries, and the pack's own bytes again, where it is accepted"""
    number, count = answer(rules.open_pack, pack)
    case = dict(operation=OPEN, what=what, pack=pack, number=number, value=count or 0, sum=0)
    if number:
        return finished(case, 'refused %d at 0' % number)
    text = ''
    for i in range(count):
        e, body = rules.entry_in(pack, count, i), rules.body_in(pack, count, i)
        case['sum'] = with_entry(case['sum'], e, body)
        text += '\n  %d %s' % (i, entry_text(e, body)) if i < SHOWN else ''
    return finished(case, 'opened %d%s\n ' % (count, text))


def read(what, pack, count, i, rules=model):
    number, e = answer(rules.entry_in, pack, count, i)
    body = rules.body_in(pack, count, i)
    case = dict(operation=READ, what=what, pack=pack, count=count, index=i, number=number, value=len(body), sum=0)
    if number:
        return finished(case, 'refused %d at 0' % number)
    return finished(dict(case, sum=with_entry(0, e, body)), entry_text(e, body))


def write(call, rules=model):
    """the slice has the pack that is written, or would be with more room; where there is none, the bodies alone"""
    given = call.rows, call.columns, call.lengths, call.bodies
    number, pack = answer(rules.write_pack, *given, call.room)
    written = pack or b''
    out = written + bytes([MARK]) * (call.room - len(written))
    pack = pack or answer(model.write_pack, *given, BYTES)[1] or call.bodies
    case = dict(operation=WRITE, what=call.what, pack=pack, number=number, value=len(written), sum=sum_of(out))
    case.update(rows=call.rows, columns=call.columns, lengths=call.lengths, bodies=len(call.bodies), room=call.room)
    case['from'] = len(case['pack']) - len(call.bodies)
    return finished(case, 'refused %d at 0' % number if number else 'written %d' % len(written))


def expected(rules=model):
    """the cases of each file but the planted ones"""
    files = dict(accepted=[opened(what, pack, rules) for what, pack in cases.accepted()])
    files['refused'] = [opened(what, pack, rules) for what, pack in cases.refused()]
    files['entries'] = [read(*given, rules) for given in cases.entries()]
    files['written'] = [write(call, rules) for call in cases.written()]
    files['unwritten'] = [write(call, rules) for _, call in cases.unwritten()]
    files['large'] = [(opened, read, write)[operation](*given, rules) for _, operation, *given in cases.large()]
    return files


def held_to_cases(files):
    """the model says what stands beside the cases"""
    assert all(c['number'] == 0 for c in files['accepted'] + files['written'])
    assert all(c['number'] == 12 for c in files['refused'])
    assert [c['number'] for c in files['unwritten']] == [number for number, _ in cases.unwritten()]
    assert [c['number'] for c in files['large']] == [number for number, *_ in cases.large()]
    for group in files.values():
        for c in group:
            if c['operation'] == OPEN and c['number'] == 0:
                again(c['pack'], c['value'])


def again(pack, count):
    """what is written of the entries that were read is the pack itself"""
    every = [model.entry_in(pack, count, i) for i in range(count)]
    bodies = pack[model.FRONT + model.ENTRY * count:]
    assert model.write_pack([e.row for e in every], [e.column for e in every], [e.length for e in every], bodies, len(pack)) == pack


# --- planted ----------------------------------------------------------------------------------------------------------------------


def planted():
    """one thing wrong in each expectation, and what the program must say of it"""
    good, bad = opened('three tiles', cases.PACK), opened('a zero behind the empty pack', cases.NONE + b'\0')
    entry, none = read('entry 1 of 3', cases.PACK, 3, 1), read('3 of 3', cases.PACK, 3, 3)
    call = cases.Call('three tiles and 5 bytes more', cases.BASE, room=len(cases.PACK) + 5)
    right, short = write(call), write(cases.Call('no tiles, no room', [], room=0))
    mixed = write(cases.Call('a tile twice, no room', [(5, 5, cases.ONE), (5, 5, cases.TWO)], room=0))

    def case(of, wrong, more, **changes):
        return dict(of, what='%s; wrong here: %s' % (of['what'], wrong), more=more, **changes)

    def other(of, at):
        """a byte of the pack that must be written, in the contents: the writer takes the bodies alone"""
        return cases.with_byte(of['pack'], at, of['pack'][at] ^ 1)

    last, less = cases.place(2, 'length'), right['value'] - 1
    return [
        case(good, 'another count', wanted('value 2', good), value=2),
        case(good, 'another sum', wanted('value 3', dict(sum=good['sum'] ^ 1)), sum=good['sum'] ^ 1),
        case(good, 'refused', wanted('refused 12 at 0', good), number=12),
        case(bad, 'accepted', wanted('value 0', bad), number=0),
        case(bad, 'another number', wanted('refused 13 at 0', bad), number=13),
        case(bad, 'another place', wanted('refused 12 at 8', bad), place=8),
        case(entry, 'another sum', wanted('value %d' % entry['value'], dict(sum=entry['sum'] ^ 1)), sum=entry['sum'] ^ 1),
        case(entry, 'a body of another length', wanted('value 0', entry), value=0),
        case(entry, 'refused', wanted('refused 12 at 0', entry), number=12),
        case(none, 'given', wanted('value 0', none), number=0),
        case(none, 'a body', wanted('refused 12 at 0', none), value=1),
        case(right, 'another length', wanted('value %d' % less, right) + ' differs at byte %d' % less, value=less),
        case(right, 'another first byte', ' differs at byte 0', pack=other(right, 0)),
        case(right, 'another byte in the contents', ' differs at byte %d' % last, pack=other(right, last)),
        case(right, 'another sum', wanted('value %d' % right['value'], dict(sum=right['sum'] ^ 1)), sum=right['sum'] ^ 1),
        case(right, 'refused, and nothing written', wanted('refused 5 at 0', right) + ' differs at byte 0', number=5),
        case(short, 'written', wanted('value 0', short), number=0),
        case(mixed, '5 for 12', wanted('refused 5 at 0', mixed), number=5),
    ]


def wanted(what, case):
    return ' and not %s sum %d' % (what, case['sum'])


# --- files ------------------------------------------------------------------------------------------------------------------------


def others(slice_now, pack):
    """where the slice has not the pack's bytes: the first place, and all up to the last, as a piece that is repeated, and the length"""
    differ = [k for k, byte in enumerate(pack) if slice_now[k] != byte]
    if not differ:
        return 0, b'', 0
    piece = pack[differ[0]:differ[-1] + 1]
    size = next(n for n in range(1, len(piece) + 1) if piece[n:] == piece[:-n])
    return differ[0], piece[:size], len(piece)


def packed(c, slice_now):
    """a case as the program reads it: 14 numbers of 4 bytes, 3 of 8 bytes, then a piece of the pack, rows, columns and lengths"""
    pack, rows, columns, lengths = c['pack'], c.get('rows', []), c.get('columns', []), c.get('lengths', [])
    start, piece, length = others(slice_now, pack)
    slice_now[start:start + length] = pack[start:start + length]
    assert slice_now[:len(pack)] == pack
    rest = struct.pack('<%dH%dH%dQ' % (len(rows), len(columns), len(lengths)), *rows, *columns, *lengths)
    assert len(pack) <= BYTES and c.get('room', 0) <= BYTES and len(rest) <= REST and max(map(len, (rows, columns, lengths))) <= SLOTS
    head = struct.pack('<14I', c['operation'], start, len(piece), length, len(pack), len(rows), len(columns), len(lengths), c.get('from', 0),
                       c.get('bodies', 0), c.get('room', 0), c['number'], c.get('place', 0), c['sum'])
    return head + struct.pack('<3Q', c.get('count', 0), c.get('index', 0), c['value']) + piece + rest


def line(c):
    """what differs, or that nothing does; the sum is that of what was found"""
    return '%s sum %d%s\n' % (c['said'], c['found'], c['more'] or ' same')


def all_files():
    files = expected()
    held_to_cases(files)
    files['planted'] = planted()
    return files


def tally(name, group):
    return '%s cases %d same %d\n' % (name, len(group), sum(c['more'] == '' for c in group))


def put(name, content):
    with open(os.path.join(CRATE, name), 'wb') as f:
        f.write(content)


def write_files():
    files = all_files()
    names, lines = '', ''
    for name in FILES:
        slice_now = bytearray(BYTES)
        put('data/' + name, b''.join(packed(c, slice_now) for c in files[name]))
        for i, c in enumerate(files[name]):
            names += '%s %d %s\n' % (name, i, c['what'])
            lines += '%s %d %s' % (name, i, line(c))
        lines += tally(name, files[name])
    lines += tally('all', [c for name in FILES for c in files[name]])
    put('data/names', names.encode())
    put('stdout', lines.encode())


if __name__ == '__main__':
    if sys.argv[1:]:
        print('make.py: unknown word %s; usage: python3 tests/pack/make.py' % sys.argv[1], file=sys.stderr)
        sys.exit(2)
    os.makedirs(os.path.join(CRATE, 'data'), exist_ok=True)
    write_files()
