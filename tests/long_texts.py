#!/usr/bin/env python3
"""Texts of so many bytes. As a program it puts those of crates/test_programs, and what that has to print, into a folder:

    long_texts.py FOLDER

They are as long as a program takes, a byte longer, and more. The last two objects break the rule, so the answer shows that the text was read to its end.
"""
import pathlib
import sys

TYPES = ['(type 0 - 8)', '(type 1 - 0)', '(rel 0 1 1)']
RULE = ['(rule 0 0 (lt (cell 0 0) (num 0)))']


def ended(all_lines):
    return ''.join(line + '\n' for line in all_lines)


def exactly(size, head):
    """A text of so many bytes: these lines, and objects of eight cells, the last two with as many digits as are left."""
    objects = [f'(ent {i} 0 {" ".join(["-1000000"] * 8)})' for i in range(10001, 11025)]
    most = (size - len(ended(head))) // (len(objects[0]) + 1) - 1
    digits = size - len(ended(head + objects[:most])) - 2 * len('(ent 20000 0        )\n')
    cells = ['1' * (digits // 16 + (k < digits % 16)) for k in range(16)]
    text = ended(head + objects[:most] + [f'(ent {20000 + k // 8} 0 {" ".join(cells[k:k + 8])})' for k in (0, 8)])
    assert len(text) == size
    return text


# what each program is given: a text of so many bytes and whether that is too long, or nothing that can be read
GIVEN = [('check', 8192, False), ('check', 8193, True), ('check', 9000, True), ('check', None, None), ('park', 65536, False), ('park', 65537, True), ('park', None, None)]


def answer(program, text, too_long):
    """The full check's answer; of `check`, which makes an inspection of it, with every object."""
    if too_long:
        return ['answer refused 2 0']
    ids = [line.split(' ')[1] for line in text.splitlines() if line.startswith('(ent')]
    return ['answer broken 0 20000'] + [f'pair 0 {i}' for i in ids if program == 'check']


def main(folder):
    (folder / 'data').mkdir(parents=True, exist_ok=True)
    printed = []
    for program, size, too_long in GIVEN:
        printed.append(f'{program}_{size}.txt' if size else '.')
        if size:
            text = exactly(size, TYPES + RULE)
            (folder / 'data' / printed[-1]).write_text(text)
            printed += answer(program, text, too_long)
    (folder / 'stdout').write_text(ended(printed))


if __name__ == '__main__':
    main(pathlib.Path(sys.argv[1]))
