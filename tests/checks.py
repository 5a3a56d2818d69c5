#!/usr/bin/env python3
"""The texts of crates/test_check, each under the promise that it tests, and what `check` has to print of them.

    checks.py FOLDER         writes FOLDER/stdin and FOLDER/stdout; ends with an error where the plain reading and the answer found by hand differ
    checks.py run PROGRAM    gives each text to the built program `check_text`

A name ends in the answer and the pairs, found by hand from documents 01 and 02; what is stored as output is the plain reading's (whole.py). Refusal 6 is of lent
tables alone, and 14 cannot be met: the program's 2,048 words hold the pairs of its 8 rules at its 128 objects.
"""
import pathlib
import subprocess
import sys

import refusals
import whole
from refusals import BOOK, REGISTER, links, objects

PLACES = ('first', 'middle', 'last')
BOOK_A = BOOK + REGISTER
QUIET = '(rule 0 0 (forall (role 0 0) (le (cell 1 0) (cell 0 0))))'
CASES = []


def case(name, said, lines, cut=False):
    """A text by its lines; where it is cut, without the last byte 10."""
    text = ''.join(line + '\n' for line in lines).encode('latin-1')
    CASES.append((f'{"=-" if cut else "=="} {name} => {said}', text, text[:-1] if cut else text))


def changed(lines, place, *new):
    """Lines of which one has others in its place; past the last, others after them."""
    return lines[:place] + list(new) + lines[place + 1:]


# ---------------------------------------------------------------- document 01's own cases

def marked_cases():
    case('(a) as shown', 'broken 0 10; 0:10', BOOK_A + ['(set 20 0 31)'])
    case('(b) set 20 0 30', 'accepted; 0:10', BOOK_A + ['(set 20 0 30)'])
    case('(c) no event', 'accepted; 0:10 0:11', BOOK_A)
    case('(d) part 0 10 20', 'accepted; 0:10', BOOK_A + ['(part 0 10 20)'])
    case('(e) part, then join of that link', 'accepted; 0:10', BOOK_A + ['(part 0 10 20)', '(join 0 10 20)'])
    case('(f) insert 12 0', 'accepted; 0:12', BOOK_A + ['(insert 12 0)'])
    case('(g) insert 12 0 with a forall over the role', 'accepted;', changed(BOOK_A, 3, QUIET) + ['(insert 12 0)'])
    case('(h) delete 20', 'accepted; 0:10', BOOK_A + ['(delete 20)'])
    case('(i) join 0 10 20', 'refused 9 0', BOOK_A + ['(join 0 10 20)'])


def guesses():
    """The guesses a fitter makes, and the programs that have to be stopped."""
    quiet = changed(BOOK_A, 3, QUIET)
    below = ['(type 0 - 1)', '(type 1 0 1)', '(type 2 - 1)', '(rel 0 0 2)', QUIET.replace('rule 0 0', 'rule 0 1'), '(ent 10 0 20)', '(ent 20 2 25)', '(link 0 10 20)']
    bad = changed(BOOK_A, 5, '(ent 11 0 -1)')
    case('guess 1: a part breaks a sum with an upper limit', 'broken 0 10; 0:10',
         BOOK + ['(ent 10 0 30)', '(ent 20 1 35)', '(ent 21 1 -5)', '(link 0 10 20)', '(link 0 10 21)', '(part 0 10 21)'])
    case('guess 2: a link that is gone after the batch leads nowhere', 'accepted;', quiet + ['(set 20 0 31)', '(part 0 10 20)'])
    case('guess 2: one that is new leads back', 'broken 0 11; 0:11', quiet + ['(set 20 0 31)', '(part 0 10 20)', '(join 0 11 20)'])
    case('guess 3: a special into a context with a quiet body, older links exist', 'broken 0 10; 0:10', below + ['(special 10 1)'])
    case('guess 3: the same where the older links hold', 'accepted; 0:10', below + ['(set 20 0 20)', '(special 10 1)'])
    case('a full check in place of the listed pairs: a broken pair that is not listed', 'accepted; 0:10', bad + ['(set 20 0 30)'])
    case('a full check in place of the listed pairs: it comes before the one that is', 'broken 0 12; 0:12', bad + ['(insert 12 0)', '(set 12 0 -5)'])
    case('one that selects nothing, or always accepts', 'broken 0 11; 0:10 0:11', BOOK_A + ['(set 11 0 -1)', '(set 20 0 30)'])
    case('one that applies the first event only', 'broken 0 10; 0:10 0:11', BOOK_A + ['(set 11 0 40)', '(set 20 0 31)'])
    case('one that ends the list at the first broken pair', 'broken 0 10; 0:10 0:11', BOOK_A + ['(set 20 0 31)', '(set 11 0 31)'])
    case('one that lists invented pairs', 'accepted;', BOOK_A + ['(insert 21 1)', '(set 21 0 5)'])


# ---------------------------------------------------------------- refusal 1

# What is wrong, the line of Book A that it stands in place of, from 0, and the line; past the last it is added.
MALFORMED = [
    ('no bracket', 0, 'type 0 - 1'),
    ('no closing bracket', 0, '(type 0 - 1'),
    ('an empty line', 0, ''),
    ('a name in capitals', 1, '(TYPE 1 - 1)'),
    ('an unknown name', 1, '(kind 1 - 1)'),
    ('a type out of its place', 1, '(type 2 - 1)'),
    ('a parent below 0', 1, '(type 1 -1 1)'),
    ('a - in place of the cells', 1, '(type 1 - -)'),
    ('two spaces', 2, '(rel 0 0  1)'),
    ('a space after the bracket', 2, '( rel 0 0 1)'),
    ('a space before the closing bracket', 2, '(rel 0 0 1 )'),
    ('a space before the line', 2, ' (rel 0 0 1)'),
    ('a space after the line', 2, '(rel 0 0 1) '),
    ('a tab', 2, '(rel 0\t0 1)'),
    ('a byte 13', 2, '(rel 0 0 1)\r'),
    ('a byte above 127', 2, '(rel 0 0 1\xb9)'),
    ('two brackets on a line', 2, '(rel 0 0 1)(rel 1 0 1)'),
    ('a number too few', 2, '(rel 0 0)'),
    ('a number too many', 2, '(rel 0 0 1 1)'),
    ('a - in place of an end type', 2, '(rel 0 - 1)'),
    ('a relationship out of its place', 2, '(rel 1 0 1)'),
    ('a rule out of its place', 3, '(rule 1 0 (kind 0 0))'),
    ('a rule without a body', 3, '(rule 0 0)'),
    ('a number in place of the body', 3, '(rule 0 0 1)'),
    ('two bodies', 3, '(rule 0 0 (kind 0 0) (kind 0 0))'),
    ('an unknown form', 3, '(rule 0 0 (less (num 1) (num 2)))'),
    ('a form with too few parts', 3, '(rule 0 0 (not))'),
    ('a form with too many parts', 3, '(rule 0 0 (not (kind 0 0) (kind 0 0)))'),
    ('a number where a form belongs', 3, '(rule 0 0 (le 1 (cell 0 0)))'),
    ('a form where a number belongs', 3, '(rule 0 0 (eq (num (num 1)) (cell 0 0)))'),
    ('a form left open', 3, '(rule 0 0 (le (num 1) (num 2))'),
    ('a bracket too many', 3, '(rule 0 0 (le (num 1) (num 2))))'),
    ('a number beyond 32 bits in a body', 3, '(rule 0 0 (le (num 2147483648) (cell 0 0)))'),
    ('a leading zero', 4, '(ent 10 0 030)'),
    ('minus zero', 4, '(ent 10 0 -0)'),
    ('a plus', 4, '(ent 10 0 +30)'),
    ('a minus alone', 4, '(ent 10 0 -)'),
    ('a letter in a number', 4, '(ent 10 0 3o)'),
    ('2 to the 31st', 4, '(ent 10 0 2147483648)'),
    ('2 to the 31st for an id', 6, '(ent 2147483648 1 25)'),
    ('2 to the 31st for an end', 7, '(link 0 10 2147483648)'),
    ('2 to the 31st for an object inserted', 8, '(insert 2147483648 0)'),
    ('one below minus 2 to the 31st', 4, '(ent 10 0 -2147483649)'),
    ('an object of a type that the text lacks', 5, '(ent 11 2 30)'),
    ('an object of a type below 0', 5, '(ent 11 -1 30)'),
    ('an object with a value too few', 6, '(ent 20 1)'),
    ('an object with a value too many', 6, '(ent 20 1 25 0)'),
    ('a number of forty digits', 7, '(link 0 10 %s)' % ('9' * 40)),
    ('an unknown event', 8, '(remove 20)'),
    ('an event with a number too few', 8, '(set 20 0)'),
    ('a form in place of an event', 8, '(num 1)'),
    ('a type after the links', 8, '(type 2 - 1)'),
]


def malformed_lines():
    for label, place, line in MALFORMED:
        case(f'1: {label}', f'refused 1 {place + 1}', changed(BOOK_A, place, line))
    case('1: the last line without its byte 10', 'refused 1 8', BOOK_A, cut=True)
    case('1: the first line without its byte 10', 'refused 1 1', BOOK_A[:1], cut=True)
    case('1: a lone byte 10', 'refused 1 1', [''])
    case('1: an empty line at the end', 'refused 1 9', BOOK_A + [''])
    for n, head in enumerate(('type', 'rel', 'rule', 'ent', 'link')):
        last = max(place for place, line in enumerate(BOOK_A) if line.startswith(f'({head} '))
        line = BOOK_A[last].replace('1 - 1', '2 - 1').replace('rel 0', 'rel 1').replace('rule 0', 'rule 1')
        after = BOOK_A[:last + 1] + BOOK_A[last + 1:last + 2] * (n < 4) + ['(delete 11)'] * (n == 4)
        case(f'1: sections out of order, {head}', f'refused 1 {len(after) + 1}', after + [line])
    case('1: an object of a type with nine cells, which is 3 by itself', 'refused 1 3', ['(type 0 - 1)', '(type 1 - 9)', '(ent 10 1 1 2 3 4 5 6 7 8 9)'])
    case('1: the first of two malformed lines', 'refused 1 5', changed(changed(BOOK_A, 6, '(ent)'), 4, '(ent 10)'))
    case('no text', 'accepted;', [])
    case('a book alone', 'accepted;', BOOK)
    case('the smallest and the largest number', 'broken 0 10; 0:10', changed(BOOK_A, 4, '(ent 10 0 2147483647)') + ['(set 10 0 -2147483648)'])


# ---------------------------------------------------------------- refusal 2

def body(forms):
    """A body of so many forms, 63 or more: `not` before fifteen `and` of comparisons that are true."""
    inner = '(le (num 1) (num 2))'
    for _ in range(15):
        inner = f'(and (le (num 1) (num 2)) {inner})'
    return '(not ' * (forms - 63) + inner + ')' * (forms - 63)


def sized(count):
    """A text of so many bytes: objects, links, and sets of values with as many digits as fill it."""
    lines = ['(type 0 - 1)', '(rel 0 0 0)'] + [f'(ent {n} 0 -2147483648)' for n in range(10001, 10129)]
    lines += [f'(link 0 {10001 + n // 128} {10001 + n % 128})' for n in range(200)]
    left = count - sum(len(line) + 1 for line in lines)
    sets = -(-left // 25)  # a set of 10001 with d digits has 15 + d bytes, up to 25
    return lines + ['(set 10001 0 %s)' % ('1' * (left // sets + (n < left % sets) - 15)) for n in range(sets)]


def limits():
    assert [sum(len(line) + 1 for line in sized(count)) for count in (8192, 8193)] == [8192, 8193]
    rules = BOOK[:3] + [f'(rule {n} 0 (not (kind 0 1)))' for n in range(8)]
    types = [f'(type {n} - 0)' for n in range(33)]
    relationships = ['(type 0 - 0)'] + [f'(rel {n} 0 0)' for n in range(33)]
    events = ['(type 0 - 1)', '(ent 1 0 0)'] + ['(set 1 0 0)'] * 65
    deep = '(rule 0 0 %s(kind 0 0)%s)' % ('(not ' * 1300, ')' * 1300)
    case('8,192 bytes', 'accepted;', sized(8192))
    case('2: 8,193 bytes', 'refused 2 0', sized(8193))
    case('2: 8,193 bytes before a line that is 1', 'refused 2 0', changed(sized(8193), 0, '(type 0 - a)'))
    case('1: 8,192 bytes, and no byte 10 at the end', f'refused 1 {len(sized(8193))}', sized(8193), cut=True)
    case('32 types', 'accepted;', types[:32])
    case('2: 33 types', 'refused 2 33', types)
    case('32 relationships', 'accepted;', relationships[:33])
    case('2: 33 relationships', 'refused 2 34', relationships)
    case('8 rules', 'accepted; ' + ' '.join(f'{n}:1' for n in range(8)), rules + ['(insert 1 0)'])
    case('2: 9 rules', 'refused 2 12', rules + ['(rule 8 0 (kind 0 0))'])
    case('1 before 2 in a line: a ninth rule', 'refused 1 12', rules + ['(rule 8 0 (kind 0 a))'])
    case('2 in an earlier line than 1', 'refused 2 12', rules + ['(rule 8 0 (kind 0 0))', '(rule 9 0 (kind 0 a))'])
    case('64 forms', 'broken 0 12; 0:12', changed(BOOK_A, 3, f'(rule 0 0 {body(64)})') + ['(insert 12 0)'])
    case('2: 65 forms', 'refused 2 4', changed(BOOK_A, 3, f'(rule 0 0 {body(65)})'))
    case('2: a body of 1,301 forms, each in the other', 'refused 2 2', ['(type 0 - 0)', deep])
    case('1 before 2: the same with a bracket too many', 'refused 1 2', ['(type 0 - 0)', deep + ')'])
    case('128 objects', 'accepted;', objects(128))
    case('2: 129 objects', 'refused 2 131', objects(129))
    case('512 links', 'accepted;', links(512))
    case('2: 513 links', 'refused 2 586', links(513))
    case('64 events', 'accepted;', events[:66])
    case('2: 65 events', 'refused 2 67', events)
    sizes = ['(type 0 - 1)'] + [f'(rule {n} 0 (ge (size (all 0)) (num %d)))' % (129 * (n == 7)) for n in range(8)] + [f'(ent {n} 0 0)' for n in range(65408, 65536)]
    case('14 is not met: every pair of 8 rules and 128 objects', 'broken 7 1; 1024 pairs', sizes + ['(delete 65408)', '(insert 1 0)'])
    case('14 is not met: an inspection of 8 rules and 128 objects', 'broken 7 65408; 1024 pairs', sizes)
    case('2 before 3: a faulty type and 33 types', 'refused 2 33', changed(types, 0, '(type 0 - 9)'))


# ---------------------------------------------------------------- refusals 3 to 5

def faulty_schemas():
    """A faulty type, relationship at the first, a middle and the last place of three."""
    types, relationships = ['(type 0 - 1)', '(type 1 0 1)', '(type 2 1 2)'], ['(rel 0 0 1)', '(rel 1 1 2)', '(rel 2 2 2)']
    for place, where in enumerate(PLACES):
        for label, line in (('nine cells', '- 9'), ('cells below 0', '- -1'), ('a type is its own parent', f'{place} 8'), ('a parent of a higher number', f'{place + 1} 8')):
            case(f'3: {label}, {where}', f'refused 3 {place}', changed(types, place, f'(type {place} {line})') + relationships)
        for label, line in (('a source type that is not there', '3 0'), ('a target type that is not there', '0 3'), ('a source type below 0', '-1 0')):
            case(f'3: {label}, {where}', f'refused 3 {place}', types + changed(relationships, place, f'(rel {place} {line})'))
    case('3: fewer cells than the parent, middle', 'refused 3 1', changed(types, 1, '(type 1 0 0)') + relationships)
    case('3: fewer cells than the parent, last', 'refused 3 2', changed(types, 2, '(type 2 1 0)') + relationships)
    case('3: types before relationships', 'refused 3 2', changed(types, 2, '(type 2 - 9)') + changed(relationships, 0, '(rel 0 9 9)'))
    case('3: the lowest place', 'refused 3 1', [types[0], '(type 1 2 2)', '(type 2 - 9)'])
    case('eight cells, and a type without', 'accepted;', ['(type 0 - 0)', '(type 1 0 8)', '(ent 1 0)', '(ent 2 1 1 2 3 4 5 6 7 8)', '(set 2 7 -8)'])


# What is wrong in a rule of Book A: its context, its body.
FAULTY_RULES = [
    ('a context type that is not there', 2, '(kind 0 0)'),
    ('a context type below 0', -1, '(kind 0 0)'),
    ('an unknown variable', 0, '(le (cell 1 0) (num 0))'),
    ('a variable below 0', 0, '(kind -1 0)'),
    ('a variable that ends with its forall', 0, '(and (forall (role 0 0) (kind 1 1)) (kind 1 1))'),
    ('an unknown cell', 0, '(le (cell 0 1) (num 0))'),
    ('a cell below 0', 0, '(le (cell 0 -1) (num 0))'),
    ('an unknown cell of a member', 0, '(le (sum (role 0 0) 1) (num 0))'),
    ('an unknown role', 0, '(exists (role 0 2) (kind 1 0))'),
    ('a role below 0', 0, '(exists (role 0 -1) (kind 1 0))'),
    ('a role of another type', 0, '(exists (role 0 1) (kind 1 0))'),
    ('a role of another type than the member', 0, '(forall (role 0 0) (forall (role 1 0) (kind 2 1)))'),
    ('an unknown type in kind', 0, '(kind 0 2)'),
    ('an unknown type in all', 0, '(exists (all 2) (kind 0 0))'),
    ('a number as the body', 0, '(cell 0 0)'),
    ('a collection as the body', 0, '(role 0 0)'),
    ('a truth where a number belongs', 0, '(le (kind 0 0) (num 1))'),
    ('a number where a truth belongs', 0, '(not (num 1))'),
    ('a collection where a number belongs', 0, '(le (role 0 0) (num 1))'),
    ('a truth where a collection belongs', 0, '(le (size (kind 0 0)) (num 1))'),
    ('a number as the condition of a select', 0, '(le (size (select (all 0) (num 1))) (num 1))'),
]


def faulty_rules():
    """Each at the first, a middle or the last place of three, in turn."""
    rules = ['(kind 0 0)'] * 3
    for n, (label, context, text) in enumerate(FAULTY_RULES):
        place = n % 3
        lines = [f'(rule {k} {context if k == place else 0} {text if k == place else good})' for k, good in enumerate(rules)]
        case(f'4: {label}, {PLACES[place]}', f'refused 4 {place}', BOOK[:3] + lines + BOOK_A[4:])
    case('4: the lowest place', 'refused 4 1', BOOK[:3] + ['(rule 0 0 (kind 0 0))', '(rule 1 5 (kind 0 0))', '(rule 2 0 (num 1))'])


# What is wrong in a row of the register, its place among the objects or the links, and the row.
FAULTY_ROWS = [
    ('id 0', 'ent', 0, '(ent 0 0 30)'), ('an id below 0', 'ent', 0, '(ent -1 0 30)'), ('the least number for an id', 'ent', 0, '(ent -2147483648 0 30)'),
    ('an id twice', 'ent', 1, '(ent 10 0 30)'), ('ids that descend', 'ent', 1, '(ent 9 0 30)'), ('ids that descend, last', 'ent', 2, '(ent 10 1 25)'),
    ('an unknown relationship', 'link', 0, '(link 1 10 20)'), ('a relationship below 0', 'link', 1, '(link -1 10 21)'), ('an absent source', 'link', 2, '(link 0 12 20)'),
    ('an absent target', 'link', 1, '(link 0 10 22)'), ('a source that is not under the source type', 'link', 2, '(link 0 20 20)'),
    ('a target that is not under the target type', 'link', 0, '(link 0 10 11)'), ('a link the other way round', 'link', 2, '(link 0 21 10)'),
    ('a link twice', 'link', 1, '(link 0 10 20)'), ('links that descend', 'link', 2, '(link 0 10 20)'),
]


def faulty_registers():
    three = {'ent': ['(ent 10 0 30)', '(ent 11 0 30)', '(ent 20 1 25)'], 'link': ['(link 0 10 20)', '(link 0 10 21)', '(link 0 11 20)']}
    for label, table, place, line in FAULTY_ROWS:
        rows = {**three, table: changed(three[table], place, line)}
        last = [] if table == 'ent' and place == 2 else ['(ent 21 1 25)']
        case(f'5: {label}', f'refused 5 {place}', BOOK + rows['ent'] + last + (rows['link'] if table == 'link' else []))
    case('5: objects before links', 'refused 5 3', BOOK + three['ent'] + ['(ent 20 1 25)', '(link 0 10 11)'])
    case('ids 1 and 65,535', 'accepted; 0:1', BOOK + ['(ent 1 0 30)', '(ent 65535 1 25)', '(link 0 1 65535)', '(set 65535 0 0)'])
    for i in (65536, 2**31 - 1):
        case(f'ids {i - 1} and {i}', f'broken 0 {i - 1}; 0:{i - 1}', BOOK + [f'(ent {i - 1} 0 30)', f'(ent {i} 1 25)', f'(link 0 {i - 1} {i})', f'(set {i} 0 31)'])
        case(f'a visit of ids {i - 1} and {i}', f'accepted; 0:{i}', BOOK + [f'(insert {i} 0)', f'(insert {i - 1} 1)', f'(set {i} 0 5)', f'(join 0 {i} {i - 1})'])
        case(f'id {i} twice', 'refused 5 1', BOOK + [f'(ent {i} 0 30)', f'(ent {i} 1 25)'])
    case('ids of one lower half', 'broken 0 65546; 0:65546', BOOK + ['(ent 10 0 30)', '(ent 20 1 25)', '(ent 65546 0 20)', '(link 0 10 20)', '(link 0 65546 20)', '(set 65546 0 24)'])
    faults = ['(type 0 - 1)', '(type 1 - 1)', '(rel 0 0 2)', '(rule 0 0 (num 1))', '(ent 0 0 30)', '(delete 0)']
    case('3 before 4, 5 and 7', 'refused 3 0', faults)
    case('4 before 5 and 7', 'refused 4 0', changed(faults, 2, BOOK[2]))
    case('5 before 7', 'refused 5 0', changed(changed(faults, 2, BOOK[2]), 3, BOOK[3]))
    case('7 after all of these', 'refused 7 0', changed(changed(changed(faults, 2, BOOK[2]), 3, BOOK[3]), 4, '(ent 1 0 30)'))


# ---------------------------------------------------------------- refusals 7 to 13

# Cabinets 10 and 11, drive 20, servo drive 21, which is linked to itself.
SERVO = ['(type 0 - 1)', '(type 1 - 1)', '(type 2 1 2)', '(rel 0 0 1)', '(rel 1 2 2)', BOOK[3], '(ent 10 0 30)', '(ent 11 0 30)', '(ent 20 1 25)', '(ent 21 2 5 7)',
         '(link 0 10 20)', '(link 0 11 21)', '(link 1 21 21)']
FAULTY_EVENTS = {
    7: ['insert 30 3', 'insert 30 -1', 'insert 0 0', 'insert -2147483648 0', 'delete 0', 'set 10 8 1', 'set 10 -1 1', 'join 2 10 20', 'join 0 10 -2147483648', 'part -1 10 20', 'special 20 3',
        'general 21 -1'],
    8: ['delete 30', 'set 30 0 1', 'join 0 30 20', 'join 0 10 30', 'part 0 10 30', 'special 30 2', 'general 30 1'],
    9: ['insert 10 1', 'join 0 10 20'],
    10: ['part 0 11 20', 'part 1 20 21'],
    11: ['set 20 1 5', 'join 0 20 21', 'join 0 10 11', 'special 21 1', 'special 20 1', 'general 20 0', 'general 21 2'],
    12: ['general 21 1'],
}
HARMLESS = ['(set 10 0 40)', '(set 11 0 50)']
# A link needs 10 below type 0 at its source, another 11 at its target.
ENDS = ['(type 0 - 1)', '(type 1 0 1)', '(rel 0 1 0)', '(rel 1 0 1)', '(rule 0 0 (le (cell 0 0) (num 99)))', '(ent 10 1 1)', '(ent 11 1 1)', '(ent 12 0 1)', '(link 0 10 12)', '(link 1 12 11)']


def linked_objects():
    """A delete takes an object's links along (request 01): of a link's target, of its source, of one that is linked to itself as well. A general still meets 12."""
    for i, pairs in ((20, ' 0:10 0:11'), (10, ' 0:11'), (21, ' 0:11')):
        sets = ['(set 11 0 40)', '(set 11 0 50)']
        for place, where in enumerate(PLACES):
            case(f'delete {i} with its links, {where}', f'accepted;{pairs}', SERVO + sets[:place] + [f'(delete {i})'] + sets[place:])
    for i in (10, 11):
        sets = ['(set 12 0 2)', '(set 12 0 3)']
        for place, where in enumerate(PLACES):
            case(f'12: general {i} 0, {where}', f'refused 12 {place}', ENDS + sets[:place] + [f'(general {i} 0)'] + sets[place:])
    case('general of both ends once the object between is deleted', 'accepted;', ENDS + ['(delete 12)', '(general 10 0)', '(general 11 0)'])


def faulty_events():
    """Each faulty event at the first, a middle and the last place of three."""
    for number, events in FAULTY_EVENTS.items():
        for event in events:
            for place, where in enumerate(PLACES):
                case(f'{number}: {event}, {where}', f'refused {number} {place}', SERVO + HARMLESS[:place] + [f'({event})'] + HARMLESS[place:])
    full = [('insert 129 0', objects(128), ['(set 1 0 0)', '(set 2 0 0)']), ('join 0 10 70', links(512), ['(set 1 0 0)', '(set 2 0 0)'])]
    for event, lines, harmless in full:
        for place, where in enumerate(PLACES):
            case(f'13: {event}, {where}', f'refused 13 {place}', lines + harmless[:place] + [f'({event})'] + harmless[place:])


def events_on_the_way():
    """What an event meets is what the one before it left."""
    case('8: deleted by an earlier event', 'refused 8 1', BOOK_A + ['(delete 11)', '(set 11 0 1)'])
    case('9: inserted by an earlier event', 'refused 9 1', BOOK_A + ['(insert 12 0)', '(insert 12 1)'])
    case('10: parted by an earlier event', 'refused 10 1', BOOK_A + ['(part 0 10 20)', '(part 0 10 20)'])
    case('11: a cell that a special brought, gone by a general', 'refused 11 3', SERVO + ['(special 20 2)', '(set 20 1 5)', '(general 20 1)', '(set 20 1 5)'])
    case('12: linked by an earlier event', 'refused 12 2', SERVO + ['(special 20 2)', '(join 1 20 20)', '(general 20 1)'])
    case('12 no more once the link is parted', 'accepted;', SERVO + ['(part 1 21 21)', '(general 21 1)'])
    case('12 no more once a delete took the link', 'accepted; 0:10', SERVO + ['(part 1 21 21)', '(special 20 2)', '(join 1 20 21)', '(delete 20)', '(general 21 1)'])
    case('8: part of a link that a delete took', 'refused 8 1', BOOK_A + ['(delete 20)', '(part 0 10 20)'])
    case('10: the same, its object back', 'refused 10 2', BOOK_A + ['(delete 20)', '(insert 20 1)', '(part 0 10 20)'])
    case('9 no more: join of a link that a delete took, its object back', 'accepted; 0:10', BOOK_A + ['(delete 20)', '(insert 20 1)', '(join 0 10 20)'])
    case('13 no more once a row is free', 'accepted;', objects(128) + ['(delete 1)', '(insert 129 0)'])
    case('13: the freed row is used once', 'refused 13 2', objects(128) + ['(delete 1)', '(insert 129 0)', '(insert 1 0)'])
    case('13 no more once a link is parted', 'accepted;', links(512) + ['(part 0 1 11)', '(join 0 10 70)'])
    case('13 no more once a delete took links', 'accepted;', links(512) + ['(delete 1)', '(join 0 10 70)'])
    case('13: a delete frees as many rows as it takes links', 'refused 13 3', links(510) + ['(link 0 10 69)', '(link 0 10 70)', '(delete 10)'] + [f'(join 0 9 {n})' for n in (41, 42, 43)])
    case('the first faulty event decides', 'refused 10 1', BOOK_A + ['(set 11 0 1)', '(part 0 11 20)', '(insert 0 0)'])
    case('8 before 9, 10 and 11 at one event', 'refused 8 0', BOOK_A + ['(join 0 20 30)'])
    case('9 before 13', 'refused 9 0', objects(128) + ['(insert 128 0)'])
    case('11 before 12', 'refused 11 0', SERVO + ['(general 21 0)'])
    case('a refused batch after one event that breaks a rule', 'refused 8 1', BOOK_A + ['(set 20 0 31)', '(delete 12)'])


# ---------------------------------------------------------------- request 02

# Cabinets, battery boxes, whose second cell has a floor, and below them lithium boxes, whose first has one too.
BOXES = ['(type 0 - 1)', '(type 1 - 2)', '(type 2 1 3)']
FLOORS = ['(floor 0 0)', '(floor 1 1)', '(floor 2 0)']
STOCK = ['(rel 0 0 1)', '(rule 0 0 (le (sum (role 0 0) 1) (cell 0 0)))', '(ent 10 0 30)', '(ent 20 1 -5 25)', '(ent 21 2 5 5 -1)', '(link 0 10 20)', '(link 0 10 21)']
BATTERIES = BOXES + FLOORS + STOCK

# What is wrong, and a line in the place of the first, the second or the third floor, in turn.
MALFORMED_FLOORS = [
    ('no numbers', '(floor)'), ('no cell', '(floor 1)'), ('a number too many', '(floor 2 0 0)'), ('a - in place of the type', '(floor - 0)'),
    ('a - in place of the cell', '(floor 1 -)'), ('a leading zero', '(floor 02 0)'), ('minus zero', '(floor 0 -0)'), ('two spaces', '(floor 1  1)'),
    ('a space after the bracket', '( floor 2 0)'), ('a space before the closing bracket', '(floor 0 0 )'), ('a name cut short', '(floo 1 1)'),
    ('a name with a letter more', '(floors 2 0)'), ('a capital letter', '(Floor 0 0)'), ('a form for a number', '(floor 1 (num 1))'),
    ('no closing bracket', '(floor 2 0'), ('a bracket too many', '(floor 0 0))'), ('a tab', '(floor 1\t1)'), ('two on a line', '(floor 2 0)(floor 2 1)'),
    ('2 to the 31st for a type', '(floor 2147483648 0)'), ('2 to the 31st for a cell', '(floor 1 2147483648)'), ('an empty line', ''), ('a plus', '(floor +0 0)'),
]

# What is wrong, and a floor for each of the three places.
UNKNOWN_FLOORS = [
    ('a type that is not there', ['3 0'] * 3), ('a type below 0', ['-1 0'] * 3), ('a cell that the type lacks', ['0 1', '1 2', '2 3']), ('a cell below 0', ['0 -1', '1 -1', '2 -1']),
    ('the largest numbers', ['2147483647 0', '1 2147483647', '2147483647 2147483647']), ('the least numbers', ['-2147483648 0', '1 -2147483648', '-2147483648 -2147483648']),
]

# Floors out of order, of which the later is faulty.
DISORDERED_FLOORS = [
    ('types that descend', 1, ['1 1', '0 0', '2 0']), ('types that descend, last', 2, ['0 0', '2 0', '1 1']), ('cells that descend', 1, ['1 1', '1 0', '2 0']),
    ('cells that descend, last', 2, ['0 0', '2 1', '2 0']), ('a floor twice', 1, ['0 0', '0 0', '2 0']), ('a floor twice, last', 2, ['0 0', '1 1', '1 1']),
    ('the lowest place of two', 1, ['1 1', '0 0', '0 0']), ('out of order before unknown', 1, ['1 0', '0 0', '3 0']),
]


def floor_lines():
    """Refusals 1, 2 and 3 of floors."""
    for n, (label, line) in enumerate(MALFORMED_FLOORS):
        case(f'1: a floor, {label}', f'refused 1 {4 + n % 3}', BOXES + changed(FLOORS, n % 3, line))
    case('1: a floor without its byte 10', 'refused 1 4', BOXES + FLOORS[:1], cut=True)
    for after in ('rel', 'rule', 'ent', 'link'):
        last = max(place for place, line in enumerate(BATTERIES) if line.startswith(f'({after} '))
        case(f'1: sections out of order, a floor after a {after}', f'refused 1 {last + 2}', BATTERIES[:last + 1] + ['(floor 2 1)'])
    case('1: sections out of order, a floor after an event', 'refused 1 15', BATTERIES + ['(delete 20)', '(floor 2 1)'])
    case('1: sections out of order, a type after a floor', 'refused 1 5', BOXES + FLOORS[:1] + ['(type 3 - 1)'])
    for label, floors in UNKNOWN_FLOORS:
        for place, where in enumerate(PLACES):
            case(f'3: a floor, {label}, {where}', f'refused 3 {place}', BOXES + changed(FLOORS, place, f'(floor {floors[place]})'))
    for label, place, floors in DISORDERED_FLOORS:
        case(f'3: {label}', f'refused 3 {place}', BOXES + [f'(floor {floor})' for floor in floors])
    case('3: a floor where there is no type', 'refused 3 0', ['(floor 0 0)'])
    case('3: a floor of a type without cells', 'refused 3 0', ['(type 0 - 0)', '(floor 0 0)'])
    case('3: floors before relationships', 'refused 3 2', BOXES + changed(FLOORS, 2, '(floor 2 3)') + ['(rel 0 9 9)'])
    case('3: relationships after floors that are in order', 'refused 3 1', BOXES + FLOORS + ['(rel 0 0 1)', '(rel 1 9 9)'])
    case('3: types before floors', 'refused 3 2', changed(BOXES, 2, '(type 2 2 3)') + ['(floor 3 0)'])
    case('3: a floor of cell 8 of a type of nine', 'refused 3 2', changed(BOXES, 2, '(type 2 1 9)') + ['(floor 2 8)'])
    case('3 of a floor before 4, 5 and 7', 'refused 3 1', BOXES + ['(floor 1 1)', '(floor 1 1)', '(rule 0 0 (num 1))', '(ent 0 0 -1)', '(delete 0)'])
    case('a floor of a type below a floored one, and of each of its cells', 'accepted;', BOXES + ['(floor 1 0)', '(floor 1 1)', '(floor 2 0)', '(floor 2 1)', '(floor 2 2)'])
    case('floors alone', 'accepted;', BOXES + FLOORS)
    types, floors = [f'(type {n} - 8)' for n in range(32)], [f'(floor {n // 8} {n % 8})' for n in range(256)]
    case('256 floors', 'refused 15 1', types + floors + ['(insert 1 31)', '(set 1 7 -1)'])
    case('2: 257 floors, before 3', 'refused 2 257', ['(floor 0 0)'] * 257)
    case('1 before 2 in a line: a 257th floor', 'refused 1 257', ['(floor 0 0)'] * 256 + ['(floor 0 )'])


# Events that put a cell below its floor, or an object under one.
BELOW = ['set 10 0 -1', 'set 20 1 -2147483648', 'set 21 1 -1', 'set 21 0 -1', 'special 20 2']


def below_floors():
    """Refusals 5 and 15, each at the first, a middle and the last place of three; and what a floor spares."""
    alone = BOXES + FLOORS + STOCK[2:5]
    for place, line in enumerate(['(ent 10 0 -1)', '(ent 20 1 -5 -1)', '(ent 21 2 5 -1 -1)']):
        case(f'5: an object below its floor, {PLACES[place]}', f'refused 5 {place}', changed(alone, 6 + place, line))
    case('5: below the floor of its own type', 'refused 5 2', changed(alone, 8, '(ent 21 2 -1 5 -1)'))
    case('5: the lowest place', 'refused 5 0', changed(changed(alone, 6, '(ent 10 0 -1)'), 7, '(ent 10 1 -5 25)'))
    case('5: below a floor before links', 'refused 5 2', changed(BATTERIES, 10, '(ent 21 2 -1 5 -1)') + ['(link 0 10 10)'])
    case('5 of a floor before 7', 'refused 5 1', changed(alone, 7, '(ent 20 1 -5 -1)') + ['(delete 0)'])
    case('no 5: cells at 0', 'accepted;', BOXES + FLOORS + ['(ent 10 0 0)', '(ent 20 1 -1 0)', '(ent 21 2 0 0 -1)'])
    harmless = ['(set 20 0 -6)', '(set 21 2 -7)']
    for event in BELOW:
        for place, where in enumerate(PLACES):
            case(f'15: {event}, {where}', f'refused 15 {place}', alone + harmless[:place] + [f'({event})'] + harmless[place:])
    case('15: a set that a later one lifts', 'refused 15 0', alone + ['(set 20 1 -1)', '(set 20 1 1)'])
    case('15: the register after the events before it', 'refused 15 2', alone + ['(general 21 1)', '(set 21 0 -1)', '(special 21 2)'])
    case('11 before 15: a special to another tree', 'refused 11 0', BOXES + ['(type 3 - 2)', '(floor 2 0)', '(ent 1 3 -1 0)', '(special 1 2)'])
    case('no 15: general, insert, delete', 'accepted; 0:11', BATTERIES + ['(general 21 1)', '(set 21 0 -1)', '(insert 30 2)', '(insert 11 0)', '(delete 21)'])
    case('a floored sum: a part and a delete', 'accepted;', BATTERIES + ['(part 0 10 20)', '(delete 21)'])
    case('a floored sum: a join', 'accepted; 0:10', BATTERIES + ['(insert 22 1)', '(join 0 10 22)'])
    case('a floored sum: a set', 'broken 0 10; 0:10', BATTERIES + ['(set 21 1 6)'])
    case('the same without the floor: a part and a delete', 'accepted; 0:10', BOXES + FLOORS[:1] + FLOORS[2:] + STOCK + ['(part 0 10 20)', '(delete 21)'])


# ---------------------------------------------------------------- request 06

# Drives, servo drives below them, and brakes; role 0 goes from a drive, role 2 from a servo drive. Drive 10 is bare, 11 has a brake that is too heavy for it,
# servo drive 12 has it by both roles.
def brakes(*bodies):
    rules = [f'(rule {n} 1 {text})' for n, text in enumerate(bodies)]
    return ['(type 0 - 1)', '(type 1 0 1)', '(type 2 - 1)', '(rel 0 0 2)', '(rel 1 1 2)'] + rules + [
        '(ent 10 0 5)', '(ent 11 0 5)', '(ent 12 1 9)', '(ent 20 2 9)', '(link 0 11 20)', '(link 0 12 20)', '(link 1 12 20)']


OWN, HIGHER = '(forall (role 0 2) (le (cell 1 0) (cell 0 0)))', '(forall (role 0 0) (le (cell 1 0) (cell 0 0)))'
NONE_OWN, NONE_HIGHER = '(not (exists (role 0 2) (gt (cell 1 0) (cell 0 0))))', '(not (exists (role 0 0) (gt (cell 1 0) (cell 0 0))))'
OUT_AND_BACK = ['(part 1 12 20)', '(general 12 0)', '(special 12 1)']


def specials():
    """A special into a context looks at nothing where a role of the context type itself makes the body quiet."""
    own, higher, both = brakes(OWN), brakes(HIGHER), brakes(OWN, HIGHER)
    case('a bare drive made a servo drive', 'accepted;', own + ['(special 10 1)'])
    case('one with an older link of another role', 'accepted;', own + ['(special 11 1)'])
    case('a bare drive, the role starts higher', 'accepted; 0:10', higher + ['(special 10 1)'])
    case('one with an older link, the role starts higher', 'broken 0 11; 0:11', higher + ['(special 11 1)'])
    case('a join after the special', 'broken 0 10; 0:10', own + ['(special 10 1)', '(join 1 10 20)'])
    case('a join between an insert and its special', 'broken 1 13; 1:13', both + ['(insert 13 0)', '(join 0 13 20)', '(special 13 1)'])
    case('an insert, its special and a join', 'broken 0 13; 0:13 1:13', both + ['(insert 13 0)', '(special 13 1)', '(join 1 13 20)'])
    case('an insert keeps the quietness that it has', 'accepted;', both + ['(insert 13 1)'])
    case('general and special again, the own link parted', 'accepted; 1:12', both + OUT_AND_BACK)
    case('general and special again, the own link joined again', 'accepted; 0:12 1:12', both + OUT_AND_BACK + ['(join 1 12 20)'])
    case('the same with a heavier brake', 'broken 0 12; 0:12 1:12', both + OUT_AND_BACK + ['(set 20 0 10)', '(join 1 12 20)'])
    case('general and special again, the brake heavier', 'broken 1 12; 1:12', both + OUT_AND_BACK + ['(set 20 0 10)'])
    case('general and special again, the brake deleted', 'accepted; 1:12', both + ['(delete 20)'] + OUT_AND_BACK[1:])
    case('12: general, the own link still there', 'refused 12 0', both + OUT_AND_BACK[1:])
    case('or of a counted and an uncounted part', 'accepted;', brakes(f'(or {OWN} {HIGHER})', f'(or {HIGHER} {OWN})') + ['(special 11 1)'])
    case('and of a counted and an uncounted part', 'broken 0 11; 0:11 1:11', brakes(f'(and {OWN} {HIGHER})', f'(and {HIGHER} {OWN})') + ['(special 11 1)'])
    case('not, counted and uncounted', 'broken 1 11; 1:11', brakes(NONE_OWN, NONE_HIGHER) + ['(special 11 1)'])
    case('implies, counted and uncounted', 'broken 2 11; 2:11 3:11', brakes(
        f'(implies (kind 0 0) {OWN})', f'(implies {NONE_OWN[5:-1]} (kind 0 2))', f'(implies (kind 0 0) {HIGHER})', f'(implies {NONE_HIGHER[5:-1]} (kind 0 2))') + ['(special 11 1)'])
    case('a select of an own role, and xor', 'accepted; 0:10 1:10', brakes(OWN.replace('(role 0 2)', '(select (role 0 2) (kind 1 2))'), f'(xor (kind 0 2) {OWN})') + ['(special 10 1)'])
    case('a set may turn a quiet body false', 'accepted; 0:10', brakes(f'(or {OWN} (le (cell 0 0) (num 5)))') + ['(special 10 1)', '(set 10 0 6)'])
    below = changed(own, 2, '(type 2 - 1)', '(type 3 1 1)')
    case('straight to a type below the context', 'accepted;', below + ['(special 10 3)'])
    case('straight to a type below the context, the role starts higher', 'broken 0 11; 0:11', changed(higher, 2, '(type 2 - 1)', '(type 3 1 1)') + ['(special 11 3)'])
    case('from the context to a type below', 'accepted;', below + ['(special 12 3)'])


# ---------------------------------------------------------------- request 08

# A rule of every drive, one of servo drives, one of cabinets and one of a type without objects; servo drive 22 is too heavy for the second, and cabinet 11 is bare.
LOOKED = ['(type 0 - 1)', '(type 1 - 1)', '(type 2 1 2)', '(type 3 - 0)', '(rel 0 0 1)', '(rule 0 1 (ge (cell 0 0) (num 0)))', '(rule 1 2 (le (cell 0 1) (num 5)))',
          '(rule 2 0 (exists (role 0 0) (kind 1 1)))', '(rule 3 3 (eq (num 1) (num 2)))', '(ent 10 0 30)', '(ent 11 0 30)', '(ent 20 1 25)', '(ent 21 2 25 5)', '(ent 22 2 25 6)', '(link 0 10 20)']


def inspections():
    """A batch without events looks at every rule and object of its context type; any other looks at what its events reach, whatever was broken before."""
    bad = changed(BOOK_A, 5, '(ent 11 0 -1)')
    quiet, never = changed(BOOK_A, 3, QUIET), changed(BOOK_A, 3, '(rule 0 0 (eq (num 1) (num 2)))')
    case('an inspection finds what was broken before', 'broken 0 11; 0:10 0:11', bad)
    case('an inspection of four rules, objects below a context, and a context without objects', 'broken 1 22; 0:20 0:21 0:22 1:21 1:22 2:10 2:11', LOOKED)
    case('the same, the servo drive lighter: a later rule is broken', 'broken 2 11; 0:20 0:21 0:22 1:21 1:22 2:10 2:11', changed(LOOKED, 13, '(ent 22 2 25 5)'))
    case('the same without the bare cabinet', 'accepted; 0:20 0:21 0:22 1:21 1:22 2:10', LOOKED[:10] + LOOKED[11:13] + ['(ent 22 2 25 5)', '(link 0 10 20)'])
    case('an inspection of a quiet rule', 'accepted; 0:10 0:11', quiet)
    case('an inspection of a quiet rule, broken before', 'broken 0 10; 0:10 0:11', changed(quiet, 4, '(ent 10 0 20)'))
    case('an inspection of a rule that lists its context alone', 'broken 0 10; 0:10 0:11', never)
    case('no other batch looks at it, but by an insert', 'accepted;', never + ['(set 20 0 31)', '(part 0 10 20)', '(delete 11)'])
    case('an inspection without rules', 'accepted;', BOOK[:3] + REGISTER)
    case('an inspection of types and objects alone', 'accepted;', objects(3))
    case('an inspection of ids far apart', 'broken 0 65546; 0:10 0:65546 0:2147483647',
         BOOK + ['(ent 10 0 30)', '(ent 20 1 25)', '(ent 65546 0 20)', '(ent 2147483647 0 24)', '(link 0 10 20)', '(link 0 65546 20)', '(link 0 2147483647 20)'])
    case('no inspection: a set to the value that is there', 'accepted; 0:10', bad + ['(set 20 0 25)'])
    case('no inspection: an object inserted and deleted again', 'accepted;', bad + ['(insert 12 0)', '(delete 12)'])
    case('no inspection: a link joined and parted again', 'broken 0 11; 0:11', bad + ['(join 0 11 20)', '(part 0 11 20)'])
    case('no inspection: a link parted and joined again', 'accepted; 0:10', bad + ['(part 0 10 20)', '(join 0 10 20)'])
    case('no inspection: an event that no rule reads', 'accepted;', LOOKED + ['(set 10 0 31)'])
    case('no inspection: an insert into the context without objects', 'broken 3 30; 3:30', LOOKED + ['(insert 30 3)'])
    case('no inspection: a special and a general back', 'accepted;', LOOKED + ['(special 20 2)', '(general 20 1)'])


def short_texts():
    """The texts of refusals.py."""
    for name, answer, lines in refusals.CASES:
        case(f'refusals: {name}', answer + ';' * (answer == 'accepted'), lines)


# ---------------------------------------------------------------- document 000

def constraints():
    """What of 000's tables needs more objects than crates/test_batch lends, and the casts that no form says."""
    shop = ['(type 0 - 2)', '(type 1 0 3)', '(rule 0 1 (le (size (all 1)) (num 20)))'] + [f'(ent {n} 1 10 0 1)' for n in range(1, 21)] + ['(ent 30 0 10 0)']
    pairs = ''.join(f' 0:{n}' for n in range(1, 21))
    case('table 4.7, NumberOfRestrictedProducts, InsertET of a 21st', f'broken 0 1;{pairs} 0:21', shop + ['(insert 21 1)'])
    case('table 4.7, NumberOfRestrictedProducts, SpecializeET of a 21st', f'broken 0 1;{pairs} 0:30', shop + ['(special 30 1)'])
    case('table 4.7, NumberOfRestrictedProducts, one for another', f'accepted;{pairs[4:]} 0:21', shop + ['(delete 1)', '(insert 21 1)'])
    rent = ['(type 0 - 0)', '(type 1 0 0)', '(type 2 - 1)', '(type 3 - 2)', '(type 4 3 3)', '(rel 0 0 2)', '(rel 1 1 2)', '(rel 2 3 0)']
    case('table A.1, CorrectInterval 4 without its cast: a role of the subtype', 'refused 4 0',
         rent + ['(rule 0 2 (forall (select (role 0 1) (kind 1 1)) (forall (role 1 2) (forall (role 1 0) (gt (cell 2 0) (cell 3 0))))))'])
    case('table A.9, NoRentals 2 without its cast: a cell of the subtype', 'refused 4 0',
         rent + ['(rule 0 0 (forall (select (role 0 5) (kind 1 4)) (forall (role 0 0) (le (cell 2 0) (cell 1 2)))))'])


def blocks():
    """Of each case its line, the lines of its block, and its text."""
    CASES.clear()
    for make in (marked_cases, guesses, malformed_lines, limits, faulty_schemas, faulty_rules, faulty_registers, faulty_events, linked_objects, events_on_the_way, short_texts, constraints, floor_lines,
                 below_floors, specials, inspections):
        make()
    return CASES


def write(folder):
    """The program's input and output. How many cases are not what their names say."""
    wrong, expected = 0, ''
    for name, _, text in blocks():
        answer, pairs = whole.outcome(text)
        expected += name + '\n' + whole.printed(answer, pairs)
        if name.partition(' => ')[2] != whole.said(answer, pairs):
            wrong += 1
            print(f'{name}: the plain reading says {whole.said(answer, pairs)}')
    (folder / 'stdin').write_bytes(b''.join(name.encode() + b'\n' + lines for name, lines, _ in CASES))
    (folder / 'stdout').write_text(expected + f'{len(CASES)} cases\n')
    return wrong


def run(program):
    """How many texts the built program answers otherwise."""
    wrong = 0
    for name, _, text in blocks():
        got = subprocess.run([program], input=text, capture_output=True).stdout.decode()
        if got != whole.printed(*whole.outcome(text)):
            wrong += 1
            print(f'{name}: printed {got!r}')
    print(f'{len(CASES)} texts, {wrong} disagreements')
    return wrong


if __name__ == '__main__':
    sys.exit((run(sys.argv[2]) if sys.argv[1] == 'run' else write(pathlib.Path(sys.argv[1]))) > 0)
