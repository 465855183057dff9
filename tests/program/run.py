#!/usr/bin/env python3
"""Runs the program itself, ./lerc2, on the stored inputs of lerc_program_cases and compares what it writes with their texts.

    python3 tests/program/run.py

Its status must be 1 after a refusal and 0 otherwise. With --explain a refusal must have one sentence more, to standard error, and
nothing else may change. Ends with status 1 if anything differs.
"""
import os
import re
import subprocess
import sys

ROOT = os.path.join(os.path.dirname(os.path.abspath(__file__)), '../..')
CASES = os.path.join(ROOT, 'crates/lerc_program_cases')
REFUSAL = re.compile(r'refused (\d+) at \d+\n')


def texts():
    """the text of each input, in order"""
    return re.split(r'^input \d+ bytes \d+\n', open(CASES + '/stdout').read(), flags=re.M)[1:]


def run(i, *words, **streams):
    with open('%s/data/%03d' % (CASES, i), 'rb') as blob:
        return subprocess.run([ROOT + '/lerc2', *words], stdin=blob, stdout=subprocess.PIPE, text=True, **streams)


def differs(i, text):
    refusal = REFUSAL.fullmatch(text)
    # the first run may prove, and says so; the second one has nothing to say but the sentence
    plain, told = run(i), run(i, '--explain', stderr=subprocess.PIPE)
    sentence = r'lerc2: refused %s: .+\n' % refusal[1] if refusal else ''
    same = all(got.stdout == text and got.returncode == bool(refusal) for got in (plain, told))
    if same and re.fullmatch(sentence, told.stderr):
        return False
    print('input %d: status %d, %d bytes and not the %d of its text, or not explained' % (i, plain.returncode, len(plain.stdout), len(text)))
    return True


if __name__ == '__main__':
    found = [differs(i, text) for i, text in enumerate(texts())]
    print('inputs %d same %d' % (len(found), found.count(False)))
    sys.exit(any(found))
