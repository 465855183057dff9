#!/usr/bin/env python3
"""Writes the files of lerc_huffman_cases, and what the program must write of them.

    python3 tests/huffman/make.py FOLDER     copies Esri's blobs and its cells from FOLDER to crates/lerc_huffman_cases/data, then as below
    python3 tests/huffman/make.py            writes the other cases, and crates/lerc_huffman_cases/stdout from the files in data

FOLDER has folders of blobs NAME.lerc2, and beside each NAME.expect (or NAME.expect.z, the same through zlib): what Esri's decoder
(liblerc 4.0.0) gave for it; and `probes`, small blobs with a table of answers. The blobs with a Huffman body are taken. No answer comes from the
program under test: cells, valid pixels and ends are Esri's; of a probe that Esri reads otherwise they are the table's, by the rules; of the
others cases.py says what they are. model.py, which has the words of the rules, must decode all of them to the same.

A file of data is a row of cases, each FIELDS as 4-byte little-endian numbers and then the parts they announce, in this order:

    blob     the bytes read
    before   what the kept mask begins with before the call; the mask, where a header is given by value
    kept     what it begins with after the call
    spare    the same of the spare
    starts   of the list: 4 bytes each; before a fill the list has them already
    cells    of all cells the word, a byte each; none where `flags` has SUMMED, and `sum` is then the sum of the image

What follows in each slice must be its mark still, and so must the cells of invalid pixels.

The file `planted` has right blobs with expectations in which one thing is wrong. The program must say what differs; one that said
"same" of everything would not write what is in stdout.
"""
import glob
import os
import re
import struct
import sys
import zlib

import cases
import model
from cases import blobs, mode_at

DATA = 'crates/lerc_huffman_cases/data'
STDOUT = 'crates/lerc_huffman_cases/stdout'
FIELDS = ('blob', 'rest', 'flags', 'lent_kept', 'lent_spare', 'lent_list', 'lent_image', 'before', 'kept', 'spare', 'starts', 'cells', 'depth', 'body',
          'number', 'place', 'blocks', 'end', 'words', 'sum')
REUSE, SUMMED, WALK, FILL = 1, 2, 4, 8
MARK, LARGE = 0xFEEDFACECAFE, 16384
# what the program can lend, and how long a blob and the rest of a case may be
MASKS, BLOCKS, CELLS, BYTES, REST = 32800, 4200, 262200, 131200, 66000
# of Esri's, then of cases.py; then the planted ones
COPIED, MADE, PLANTED = ('esri', 'probes'), ('accepted', 'refused', 'others'), 'planted'
FOLDERS, MOST = ('v4-huffman', 'v4-published', 'v4-large'), 150000
# what the table's words stand for here
TAGS = {'agree': 'Esri agrees', 'DIFFER': 'Esri differs', 'both refuse': 'Esri refuses too'}
WORDS = ((r'ticket \d refuses', 'the rules refuse'), (r'ticket \d', 'the rules'), (r' \(agrees\)', ''), (r'agrees: ', ''),
         (r': both refuse|: refused by both', ''), (r'; the rules: 8', ''))


class Expect:
    """what Esri's decoder gave; all kinds here have a byte a cell"""

    def __init__(self, path):
        raw = open(path, 'rb').read()
        raw = zlib.decompress(raw) if path.endswith('.z') else raw
        assert raw[:8] == b'LERCX1\0\0'
        self.version, self.kind, self.rows, self.columns, self.depth, self.valid, self.blocks, self.end = struct.unpack_from('<8I', raw, 8)
        pixels = self.rows * self.columns
        at = 48 + (pixels + 7) // 8
        self.mask, self.words = raw[48:at], list(raw[at:at + pixels * self.depth])


# --- a case as the program reads it -----------------------------------------------------------------------------------------------


def sum_of(image):
    """over each word's four pieces of 16 bits"""
    s = 0
    for word in image:
        for k in (0, 16, 32, 48):
            s = (s * 2147483629 + (word >> k) % 65536) % 4294967291
    return s


def marked(case, lent_image):
    """the image after the call"""
    cells = [w if blobs.is_valid(case['kept'], i // case['depth']) else MARK for i, w in enumerate(case['words'])]
    return cells + [MARK] * (lent_image - len(cells))


def packed(case, turn):
    f, words = cases.lent(case['blob'], turn, **case.get('lent', {})), case.get('words', [])
    flags = sum(flag for flag, name in ((REUSE, 'reuse'), (WALK, 'walk'), (FILL, 'fill')) if case.get(name))
    parts = [case.get(k, b'') for k in ('before', 'kept', 'spare')]
    parts.append(b''.join(struct.pack('<I', s) for s in case.get('starts', [])))
    if len(words) > LARGE or 'sum' in case:
        flags += SUMMED
        f['sum'] = case['sum'] if 'sum' in case else sum_of(marked(case, f['lent_image']))
    else:
        parts.append(bytes(words))
    rest = b''.join(parts)
    assert len(case['blob']) <= BYTES and len(rest) <= REST and max(f['lent_kept'], f['lent_spare']) <= MASKS
    assert f['lent_list'] <= BLOCKS and f['lent_image'] <= CELLS
    f.update(blob=len(case['blob']), rest=len(rest), flags=flags, before=len(parts[0]), kept=len(parts[1]), spare=len(parts[2]))
    f.update(starts=len(parts[3]) // 4, cells=len(words), words=case.get('written', 0))
    f.update({k: case.get(k, 0) for k in ('depth', 'body', 'number', 'place', 'blocks', 'end')})
    return struct.pack('<%dI' % len(FIELDS), *(f.get(k, 0) for k in FIELDS)) + case['blob'] + rest


def name_of(group, i, case):
    said = 'refused %d at %d' % (case['number'], case['place']) if case.get('number') else 'accepted'
    return '%s %d %s %s: %s\n' % (group, i, case['name'], said, case['note'])


# --- Esri's -----------------------------------------------------------------------------------------------------------------------


def is_huffman(blob):
    h = blobs.header(blob)
    return blobs.body(blob, h, blobs.mask_of(blob, h)[0])[0] == 'huffman'


def accepted(name, blob, words, end, note):
    """a new mask, and cells that model.py decodes to the same"""
    h = blobs.header(blob)
    mask, is_new = blobs.mask_of(blob, h)
    assert is_new and model.decoded(blob, mask, mode_at(blob)) == (words, end), name
    return dict(name=name, blob=blob, words=words, depth=h['depth'], kept=mask, spare=mask, end=end, written=h['valid'] * h['depth'], note=note)


def esri(folder):
    for group in FOLDERS:
        for path in sorted(glob.glob(os.path.join(folder, group, '*.expect*'))):
            name = path[:path.rindex('.expect')] + '.lerc2'
            blob, e = open(name, 'rb').read(), Expect(path)
            if len(blob) <= MOST and is_huffman(blob):
                case = accepted(os.path.basename(name)[:-6], blob, e.words, e.end, 'Esri\'s blob and cells, mode %d' % blob[mode_at(blob)])
                pixels = e.rows * e.columns
                assert e.blocks == 0 and [blobs.is_valid(case['kept'], p) for p in range(pixels)] == [blobs.is_valid(e.mask, p) for p in range(pixels)]
                yield case


def probe_words(text):
    """cells of the table: x3 for three alike"""
    for item in text.split():
        item, _, times = item.partition('x')
        yield from [int(item)] * int(times or 1)


def probe(name, blob, note, answer):
    if not answer.startswith('refused'):
        words = list(probe_words(answer))
        return accepted(name, blob, words, model.decoded(blob, blobs.mask_of(blob, blobs.header(blob))[0], mode_at(blob))[1], note)
    number, mask = int(answer.split()[1]), blobs.mask_of(blob, blobs.header(blob))[0]
    try:
        model.decoded(blob, mask, mode_at(blob))
        assert False, name
    except model.Refused as why:
        assert why.args[0] == number, name
    return dict(name=name, blob=blob, spare=mask, number=number, place=mode_at(blob), note=note)


def probes(folder):
    """the rules' answer; where Esri's is another the note says so"""
    for text in open(os.path.join(folder, 'probes/table.txt')).read().strip().split('\n\n'):
        lines = text.split('\n')
        name, tag = lines[0][:-1].split(' [')
        if name.startswith('huff-'):
            said = {line.split(':')[0].strip(): line.split(':', 1)[1].strip() for line in lines[2:]}
            note = lines[1].strip()
            for old, new in WORDS:
                note = re.sub(old, new, note)
            yield probe(name, open(os.path.join(folder, 'probes', name + '.lerc2'), 'rb').read(), note + '; ' + TAGS[tag], said['document'])


def copy(folder):
    os.makedirs(DATA, exist_ok=True)
    with open(DATA + '/names', 'w') as names:
        for group, found in zip(COPIED, (esri(folder), probes(folder))):
            found = list(found)
            with open(os.path.join(DATA, group), 'wb') as f:
                f.writelines(packed(c, i) for i, c in enumerate(found))
            names.writelines(name_of(group, i, c) for i, c in enumerate(found))


# --- the others, and the planted ones ---------------------------------------------------------------------------------------------


def planted():
    """one thing wrong in each expectation, and what the program must say of it"""
    good = next(c for c in cases.accepted() if c['name'] == 'above-behind-hole')
    bad = next(c for c in cases.refused() if c['name'] == 'late-unknown-%d' % (15 * 13))
    walk = next(c for c in cases.others() if c['name'] == 'walk-right')
    fill = next(c for c in cases.others() if c['name'] == 'fill-behind-right')
    end, words, place = good['end'], good['written'], bad['place']
    right = sum_of(marked(good, cases.lent(good['blob'], 0)['lent_image']))

    def last_other(entries):
        return entries[:-1] + type(entries)([entries[-1] ^ 1])

    def both(staged, read, other_staged='', other_read='', more=''):
        """a line: the answers, those that are wanted, what differs"""
        first = ' staged ' + staged + (' and not ' + other_staged if other_staged else '') + (more or ('' if other_staged else ' same'))
        return first + ' read ' + read + (' and not ' + other_read if other_read else '') + (more or ('' if other_read else ' same'))

    def case(from_case, wrong, line, **changes):
        return dict(from_case, note=wrong, said=line, **changes)

    def told(number=8, at=place):
        return 'refused %d at %d' % (number, at)

    def done(blocks=0, at=end, written=words):
        read = 'blocks %d end %d' % (blocks, at)
        return '%s words %d' % (read, written), read

    def differs(wrong, at, **changes):
        return case(good, wrong, both(*done(), more=' ' + at), **changes)

    def refused_for(wrong, other, **changes):
        return case(bad, wrong, both(told(), told(), other, other), **changes)

    return [
        case(good, 'another end', both(*done(), *done(0, end + 1)), end=end + 1),
        case(good, 'a block', both(*done(), *done(1)), blocks=1),
        case(good, 'another number of words', both(*done(), done(written=words + 1)[0]), written=words + 1),
        case(good, 'refused', both(*done(), told(), told()), number=8, place=place, end=0, written=0),
        refused_for('another number', told(1), number=1),
        refused_for('another place', told(8, place + 1), place=place + 1),
        case(bad, 'accepted', both(told(), told(), *done(0, 0, 0)), number=0, place=0),
        differs('another byte kept', 'differs at kept %d' % (len(good['kept']) - 1), kept=last_other(good['kept'])),
        differs('another byte in the spare', 'differs at spare %d' % (len(good['spare']) - 1), spare=last_other(good['spare'])),
        differs('a start', 'differs at start 0', starts=[mode_at(good['blob'])]),
        differs('another word', 'differs at cell %d' % (len(good['words']) - 1), words=last_other(good['words'])),
        differs('another sum', 'sum differs', sum=right ^ 1),
        case(bad, 'a cell written', both(told(), told(), more=' differs at cell 0'), kept=b'', words=[0] * (15 * 13), depth=1, before=b''),
        case(walk, 'walked, and not 10', ' walked refused 10 at %d and not refused 8 at %d' % (walk['place'], walk['place']), number=8),
        case(fill, 'another number of words', ' filled words 3 and not words 4', written=4),
    ]


def write():
    """needs no folder"""
    names = [line for line in open(DATA + '/names') if line.split()[0] in COPIED]
    for group, made in zip(MADE, (cases.accepted(), cases.refused(), cases.others())):
        with open(os.path.join(DATA, group), 'wb') as f:
            f.writelines(packed(c, i) for i, c in enumerate(made))
        names += [name_of(group, i, c) for i, c in enumerate(made)]
    wrong = planted()
    with open(os.path.join(DATA, PLANTED), 'wb') as f:
        f.writelines(packed(c, 0) for c in wrong)
    names += ['%s %d %s wrong here: %s\n' % (PLANTED, i, c['name'], c['note']) for i, c in enumerate(wrong)]
    with open(DATA + '/names', 'w') as f:
        f.writelines(names)


# --- what the program writes ------------------------------------------------------------------------------------------------------


def heads(group):
    raw, at = open(os.path.join(DATA, group), 'rb').read(), 0
    while at < len(raw):
        f = dict(zip(FIELDS, struct.unpack_from('<%dI' % len(FIELDS), raw, at)))
        at += 4 * len(FIELDS)
        yield f, raw[at:at + f['blob']], raw[at + f['blob']:at + f['blob'] + f['rest']]
        at += f['blob'] + f['rest']


def line(f):
    if f['number']:
        said = 'refused %d at %d' % (f['number'], f['place'])
    elif f['flags'] & FILL:
        said = 'words %d' % f['words']
    else:
        said = 'blocks %d end %d' % (f['blocks'], f['end'])
    if f['flags'] & (WALK | FILL):
        return '%s %s same' % ('walked' if f['flags'] & WALK else 'filled', said)
    return 'staged %s%s same read %s same' % (said, '' if f['number'] else ' words %d' % f['words'], said)


def expected():
    lines, total = [], 0
    for group in COPIED + MADE:
        said = [line(f) for f, _, _ in heads(group)]
        lines += ['%s %d %s\n' % (group, i, text) for i, text in enumerate(said)]
        lines.append('%s cases %d same %d\n' % (group, len(said), len(said)))
        total += len(said)
    wrong = planted()
    lines += ['%s %d%s\n' % (PLANTED, i, c['said']) for i, c in enumerate(wrong)]
    lines.append('%s cases %d same 0\n' % (PLANTED, len(wrong)))
    return ''.join(lines) + 'all cases %d same %d\n' % (total + len(wrong), total)


if __name__ == '__main__':
    if len(sys.argv) > 2 or sys.argv[1:] and not os.path.isdir(os.path.join(sys.argv[1], 'v4-huffman')):
        print('make.py: one folder with folders of blobs (v4-huffman, ..); nothing is changed', file=sys.stderr)
        sys.exit(2)
    if sys.argv[1:]:
        copy(sys.argv[1])
    write()
    with open(STDOUT, 'w') as f:
        f.write(expected())
