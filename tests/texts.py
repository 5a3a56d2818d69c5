#!/usr/bin/env python3
"""Runs the cases of crates/test_batch as texts through the program `check_text`, and compares what it prints with the plain check.

    texts.py PROGRAM [EVERY]        every case, or every so manieth of the drawn ones; marked cases are all run
    texts.py PROGRAM FILE           every case of another file of blocks

A text is the case's own book and register and then its events. Texts that the program's tables do not hold are counted and left out.
"""
import pathlib
import subprocess
import sys

import plain

ROOM = {'type': 32, 'floor': 256, 'rel': 32, 'rule': 8, 'ent': 128, 'link': 512}
BYTES, EVENTS = 8192, 64
plain.OBJECT_ROWS, plain.LINK_ROWS, plain.LIST_WORDS = ROOM['ent'], ROOM['link'], 2048


def texts(stored):
    """Name and text of each case."""
    base = []
    for block in stored.strip('\n').split('\n\n'):
        name, *lines = block.split('\n')
        if not name.startswith('+'):
            base = [line for line in lines if line[1:].split(' ')[0] in ROOM]
            lines = lines[len(base):]
        yield name, ''.join(line + '\n' for line in base + lines)


def held(text):
    """Whether the program's tables hold the text."""
    heads = [line[1:].split(' ')[0] for line in text.splitlines()]
    events = sum(head not in ROOM for head in heads)
    return len(text) <= BYTES and events <= EVENTS and all(heads.count(head) <= room for head, room in ROOM.items())


def printed(text):
    """What the plain check says of a text, as the program prints it."""
    checked = plain.Checked(*plain.read(text))
    lines = ['answer ' + ' '.join(str(part) for part in checked.answer)]
    return lines + ['pair %d %d' % pair for pair in checked.pairs]


def main():
    program, choice = sys.argv[1], sys.argv[2] if len(sys.argv) > 2 else '1'
    every = int(choice) if choice.isdigit() else 1
    here = pathlib.Path(__file__).parent
    stored = pathlib.Path(here.parent / 'crates/test_batch/stdin' if choice.isdigit() else choice).read_text()
    marked = sum(len((here / name).read_text().strip('\n').split('\n\n')) for name in ('marked.txt', 'thesis.txt'))
    counts = {'accepted': 0, 'broken': 0, 'refused': 0, 'left out': 0, 'disagreements': 0}
    for n, (name, text) in enumerate(texts(stored)):
        if n >= marked and n % every:
            continue
        if not held(text):
            counts['left out'] += 1
            continue
        expected = printed(text)
        got = subprocess.run([program], input=text, capture_output=True, text=True).stdout.splitlines()
        counts[expected[0].split(' ')[1]] += 1
        if got != expected:
            counts['disagreements'] += 1
            print(f'{name}: printed {got}, expected {expected}')
    print('; '.join(f'{count} {what}' for what, count in counts.items()))
    sys.exit(counts['disagreements'] > 0)


if __name__ == '__main__':
    main()
