#!/usr/bin/env python3
"""Damages the texts of checks.py and the marked cases, and compares what the built program `test_check` prints of them with the plain reading.

    damaged.py PROGRAM COUNT        so many texts, always the same
"""
import collections
import pathlib
import re
import subprocess
import sys

import checks
import texts
import whole
from draw import Draw

ROOM = 200000  # bytes of input at a time; the program has room for 524,288
PIECES = ['(', ')', ' ', '\n', '-', '0', '1', '9', '-1', '32', '65536', '2147483647', '2147483648', 'num', 'cell', 'role', 'all', 'not', 'floor', '(floor 0 0)\n', '(num 1)', '(kind 0 0)', '(role 0 0)']
VALUES = [-1, 0, 1, 2, 3, 7, 8, 10, 20, 31, 32, 65535, 65536, 2**31 - 1]


def sources():
    """Texts to damage: those that are not long."""
    yield from (text.decode('latin-1') for _, _, text in checks.blocks() if len(text) < 1500)
    for name in ('marked.txt', 'thesis.txt'):
        yield from (text for _, text in texts.texts((pathlib.Path(__file__).parent / name).read_text()))


def change_bytes(draw, text):
    """A piece put in, one in place of a byte, or a byte left out."""
    at, way = draw.randrange(len(text) + 1), draw.randrange(3)
    return text[:at] + ('' if way == 2 else draw.choice(PIECES)) + text[at + (way > 0):]


def change_lines(draw, text):
    """Two lines exchanged, one more, or one left out."""
    lines, way = text.split('\n'), draw.randrange(3)
    i, j = draw.randrange(len(lines)), draw.randrange(len(lines))
    if way == 0:
        lines[i], lines[j] = lines[j], lines[i]
    else:
        lines[i:i + way - 1] = [lines[j]] * (2 - way)
    return '\n'.join(lines)


def change_number(draw, text):
    numbers = list(re.finditer(r'-?[0-9]+', text))
    if not numbers:
        return text
    found = draw.choice(numbers)
    return text[:found.start()] + str(draw.choice(VALUES + [int(found[0]) + 1, int(found[0]) - 1] * 4)) + text[found.end():]


def damaged(draw, pool):
    """A text, damaged once or more often. Nothing that is put in has a `=`, so no line of it starts a block."""
    text = draw.choice(pool)
    for _ in range(draw.choice([1, 1, 1, 2, 3])):
        text = draw.choice([change_bytes, change_lines, change_number, change_number])(draw, text)
    return text.encode('latin-1')


def block(text):
    """A text as a block of the program's input: one whose last line is not ended has a byte more, which its sign takes away."""
    cut = text != b'' and not text.endswith(b'\n')
    return (b'=-' if cut else b'==') + b'\n' + text + b'\n' * cut


def compare(program, batch, counts):
    got = subprocess.run([program], input=b''.join(block(text) for text in batch), capture_output=True).stdout.decode()
    got = [part.partition('\n')[2] for part in ('\n' + got).split('\n=')[1:]]
    counts['texts'] += len(batch)
    counts['disagreements'] += abs(len(got) - len(batch))
    for n, (text, lines) in enumerate(zip(batch, got)):
        answer, pairs = whole.outcome(text)
        expected = whole.printed(answer, pairs)
        counts['refused %d' % answer[1] if answer[0] == 'refused' else answer[0]] += 1
        if lines.rstrip('\n') + '\n' != expected + f'{len(batch)} cases\n' * (n == len(batch) - 1):
            counts['disagreements'] += 1
            print(f'printed {lines!r}, expected {expected!r}: {text!r}')


def main():
    program, count = sys.argv[1], int(sys.argv[2])
    draw, pool, counts = Draw(1), list(sources()), collections.Counter(disagreements=0)
    while counts['texts'] < count:
        batch, size = [], 0
        while size < ROOM and counts['texts'] + len(batch) < count:
            batch.append(damaged(draw, pool))
            size += len(block(batch[-1]))
        compare(program, batch, counts)
    print('; '.join(f'{number} {what}' for what, number in sorted(counts.items(), key=lambda item: -item[1])))
    sys.exit(counts['disagreements'] > 0)


if __name__ == '__main__':
    main()
