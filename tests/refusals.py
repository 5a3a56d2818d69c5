#!/usr/bin/env python3
"""Every refusal that a text can meet, through the program `check_text`; the answers were found by hand from documents 01 and 02.

    refusals.py PROGRAM

Refusal 6 is of lent tables alone, and the program's list holds the pairs of all its rules and objects, so that 14 cannot be met.
"""
import subprocess
import sys

BOOK = ['(type 0 - 1)', '(type 1 - 1)', '(rel 0 0 1)', '(rule 0 0 (le (sum (role 0 0) 0) (cell 0 0)))']
REGISTER = ['(ent 10 0 30)', '(ent 11 0 30)', '(ent 20 1 25)', '(link 0 10 20)']
# Drives and, below them, servo drives, and a rule that nothing in the batch moves; the link needs a servo drive.
SUB = ['(type 0 - 1)', '(type 1 - 1)', '(type 2 1 1)', '(rel 0 0 2)', '(rule 0 1 (le (cell 0 0) (num 99)))', '(ent 11 0 30)', '(ent 20 2 25)', '(link 0 11 20)']
LONG = ['(type 0 - 1)'] + [f'(ent {n} 0 -2147483648)' for n in range(10001, 10129)] + ['(set 10001 0 0)'] * 64
RULES = BOOK[:3] + [f'(rule {n} 0 (not (kind 0 1)))' for n in range(9)]


def objects(count):
    return BOOK[:2] + [f'(ent {n} 0 0)' for n in range(1, count + 1)]


def links(count):
    """Objects 1 to 10 of type 0, 11 to 70 of type 1, and as many links from the ones to the others, ascending."""
    ends = [(s, t) for s in range(1, 11) for t in range(11, 71)][:count]
    return BOOK[:3] + [f'(ent {n} {int(n > 10)} 0)' for n in range(1, 71)] + [f'(link 0 {s} {t})' for s, t in ends]


# What the text is, the answer, its lines.
CASES = [
    ('a line that is no bracket', 'refused 1 1', ['type 0 - 1']),
    ('two spaces', 'refused 1 3', BOOK[:2] + ['(rel 0 0  1)'] + BOOK[3:]),
    ('a floor after the relationships', 'refused 1 4', BOOK[:3] + ['(floor 0 0)']),
    ('a value beyond 32 bits', 'refused 1 5', BOOK + ['(ent 10 0 2147483648)']),
    ('an object of a type that the text lacks', 'refused 1 5', BOOK + ['(ent 10 2)']),
    ('a type after the links', 'refused 1 9', BOOK + REGISTER + ['(type 2 - 1)']),
    ('nine rules', 'refused 2 12', RULES),
    ('129 objects', 'refused 2 131', objects(129)),
    ('65 events', 'refused 2 74', [f'(type {n} - 1)' for n in range(9)] + ['(set 1 0 0)'] * 65),
    ('a text of more than 8,192 bytes', 'refused 2 0', LONG + ['(set 10001 0 0)'] * 400),
    ('nine cells', 'refused 3 0', ['(type 0 - 9)'] + BOOK[1:]),
    ('a type that is its own parent', 'refused 3 1', ['(type 0 - 1)', '(type 1 1 1)'] + BOOK[2:]),
    ('a floor twice', 'refused 3 1', BOOK[:2] + ['(floor 1 0)', '(floor 1 0)'] + BOOK[2:]),
    ('an end type that is not there', 'refused 3 0', BOOK[:2] + ['(rel 0 0 2)'] + BOOK[3:]),
    ('fewer cells than the parent, and an end type that is not there', 'refused 3 1', BOOK[:1] + ['(type 1 0 0)', '(rel 0 0 9)']),
    ('a cell that the members lack', 'refused 4 0', BOOK[:3] + ['(rule 0 0 (le (sum (role 0 0) 1) (cell 0 0)))']),
    ('a role of another type, in the second rule', 'refused 4 1', BOOK + ['(rule 1 0 (forall (role 0 1) (not (kind 1 0))))']),
    ('a number as the body', 'refused 4 0', BOOK[:3] + ['(rule 0 0 (cell 0 0))']),
    ('an object twice', 'refused 5 1', BOOK + ['(ent 10 0 30)', '(ent 10 0 30)']),
    ('id 0', 'refused 5 0', BOOK + ['(ent 0 0 30)']),
    ('an object below a floor', 'refused 5 0', BOOK[:2] + ['(floor 0 0)'] + BOOK[2:] + ['(ent 10 0 -1)']),
    ('a link the other way round', 'refused 5 0', BOOK + REGISTER[:3] + ['(link 0 20 10)']),
    ('a link twice', 'refused 5 1', BOOK + REGISTER + ['(link 0 10 20)']),
    ('an insert of an unknown type', 'refused 7 0', BOOK + REGISTER + ['(insert 12 2)']),
    ('a set of cell 8 after an insert', 'refused 7 1', BOOK + REGISTER + ['(insert 12 0)', '(set 12 8 1)']),
    ('a set of an absent object', 'refused 8 0', BOOK + REGISTER + ['(set 12 0 1)']),
    ('a join of a link that is there', 'refused 9 0', BOOK + REGISTER + ['(join 0 10 20)']),
    ('a part of a link that is absent', 'refused 10 0', BOOK + REGISTER + ['(part 0 11 20)']),
    ('a set of a cell that the type lacks', 'refused 11 0', BOOK + REGISTER + ['(set 20 1 1)']),
    ('a set of a floored cell below 0', 'refused 15 0', BOOK[:2] + ['(floor 1 0)'] + BOOK[2:] + REGISTER + ['(set 20 0 -1)']),
    ('a general out of a type that a link needs', 'refused 12 0', SUB + ['(general 20 1)']),
    ('the same once the link went with a delete', 'accepted', SUB + ['(delete 11)', '(general 20 1)']),
    ('an insert into 128 objects', 'refused 13 0', objects(128) + ['(insert 129 0)']),
    ('an insert into a row that was freed', 'accepted', objects(128) + ['(delete 1)', '(insert 129 0)']),
    ('a join to 512 links', 'refused 13 0', links(512) + ['(join 0 10 70)']),
]


def main():
    wrong = 0
    for name, expected, lines in CASES:
        text = ''.join(line + '\n' for line in lines)
        got = subprocess.run([sys.argv[1]], input=text, capture_output=True, text=True).stdout
        if got != f'answer {expected}\n':
            wrong += 1
            print(f'{name}: expected answer {expected}, printed {got!r}')
    print(f'{len(CASES)} texts, {wrong} disagreements')
    sys.exit(wrong > 0)


if __name__ == '__main__':
    main()
