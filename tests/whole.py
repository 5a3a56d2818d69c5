"""A plain reading of document 01, with requests 01, 02, 06, 07 and 08, from a text to what the program `check` prints: its limits, refusals 1 to 5,
and then the plain batch check.

Nothing is shared with the reader under test: a line is matched against patterns, and each check looks through whole lists.
"""
import re
import sys

import plain

sys.setrecursionlimit(20000)  # a text can hold some two thousand brackets, one in the other

BYTES, FORMS = 8192, 64  # "It reads at most 8,192 bytes"; "a body of at most 64 forms"
# "lends tables for 128 objects, 512 links, 8 rules and 64 events"; types and relationships to their limits; floors "at most 256 (`check` takes as
# many)". In the order of the sections.
ROOM = {'type': 32, 'floor': 256, 'rel': 32, 'rule': 8, 'ent': 128, 'link': 512, 'event': 64}
plain.OBJECT_ROWS, plain.LINK_ROWS, plain.LIST_WORDS = ROOM['ent'], ROOM['link'], 2048

# The parts of each body form: f a form, n a number.
PARTS = dict.fromkeys('le lt eq ne ge gt and or xor implies add sub forall exists select'.split(), 'ff')
PARTS.update({'not': 'f', 'size': 'f', 'sum': 'fn', 'kind': 'nn', 'cell': 'nn', 'role': 'nn', 'num': 'n', 'all': 'n'})
EVENTS = {'insert': 2, 'delete': 1, 'set': 3, 'join': 3, 'part': 3, 'special': 2, 'general': 2}  # how many numbers each has
NUMBER = r'(?:0|-?[1-9][0-9]*)'  # "no leading zero, no minus zero"


class Malformed(Exception):
    """A line that meets 1."""


def ask(condition):
    if not condition:
        raise Malformed


def number(word):
    ask(re.fullmatch(NUMBER, word) and -2**31 <= int(word) < 2**31)
    return int(word)


def form(text):
    """The form that a text starts with, as nested tuples, and what comes after it."""
    name = re.match(r'\(([a-z]+)', text)
    ask(name and name[1] in PARTS)
    parts, rest = [name[1]], text[name.end():]
    for kind in PARTS[name[1]]:
        ask(rest.startswith(' '))
        if kind == 'f':
            part, rest = form(rest[1:])
        else:
            word = re.match(r' ([^ ()]*)', rest)
            part, rest = number(word[1]), rest[word.end():]
        parts.append(part)
    ask(rest.startswith(')'))
    return tuple(parts), rest[1:]


def forms(body):
    return 1 + sum(forms(part) for part in body if isinstance(part, tuple))


def numbers(line, name, count):
    words = line[len(name) + 2:-1].split(' ')
    ask(line == f'({name} ' + ' '.join(words) + ')' and (count is None or len(words) == count))
    return [number(word) for word in words]


class Text:
    """The lines of a text, by section, up to the first that is refused."""

    def __init__(self, data):
        self.rows = {section: [] for section in ROOM}
        self.section, self.refused = 0, None
        if len(data) > BYTES:
            self.refused = 2, 0
            return
        *lines, rest = data.split(b'\n')
        for place, line in enumerate(lines + ([None] if rest else []), 1):  # "each line ended by byte 10"
            self.refused = self.take(line)
            if self.refused:
                self.refused = self.refused, place
                return

    def take(self, line):
        """1 or 2 where the line meets it: "1 before 2 in a line"."""
        try:
            ask(line is not None and line.isascii())
            section, row = self.row(line.decode())
            ask(list(ROOM).index(section) >= self.section)  # "Sections in order"
        except Malformed:
            return 1
        self.section = list(ROOM).index(section)
        if len(self.rows[section]) == ROOM[section] or (section == 'rule' and forms(row[1]) > FORMS):
            return 2
        self.rows[section].append(row)
        return None

    def numbered(self, section, n):
        ask(n == len(self.rows[section]))  # "numbered by position, else 1"

    def row(self, line):
        name = re.match(r'\(([a-z]+)[ )]', line)
        ask(name)
        name = name[1]
        if name == 'type':
            words = re.fullmatch(r'\(type ([^ ]+) ([^ ]+) ([^ ]+)\)', line)
            ask(words)
            self.numbered('type', number(words[1]))
            parent = None if words[2] == '-' else number(words[2])
            ask(parent is None or parent >= 0)  # "so is a parent below 0"
            return 'type', (parent, number(words[3]))
        if name == 'floor':  # any numbers: which types and cells there are is met at 3
            return 'floor', tuple(numbers(line, name, 2))
        if name == 'rel':
            n, source, target = numbers(line, name, 3)
            self.numbered('rel', n)
            return 'rel', (source, target)
        if name == 'rule':
            head = re.match(r'\(rule ([^ ()]+) ([^ ()]+) ', line)
            ask(head)
            body, rest = form(line[head.end():])
            ask(rest == ')')
            self.numbered('rule', number(head[1]))
            return 'rule', (number(head[2]), body)
        if name == 'ent':
            words = numbers(line, name, None)
            ask(len(words) >= 2 and 0 <= words[1] < len(self.rows['type']))
            cells = self.rows['type'][words[1]][1]
            ask(0 <= cells <= 8 and len(words) == 2 + cells)
            return 'ent', (words[0], words[1], words[2:])
        if name == 'link':
            return 'link', tuple(numbers(line, name, 3))
        ask(name in EVENTS)
        return 'event', (name, *numbers(line, name, EVENTS[name]))


def faulty_type(types, n):
    parent, cells = types[n]
    if not 0 <= cells <= 8:
        return True
    return parent is not None and not (parent < n and cells >= types[parent][1])


def faulty_floor(book, n):
    # request 02: "a floor out of order, twice or on an unknown cell"
    t, k = book.floors[n]
    known = 0 <= t < len(book.types) and 0 <= k < book.cells(t)
    return not known or (n > 0 and book.floors[n - 1] >= book.floors[n])


def sort_of(book, f, scope):
    """'truth', 'number', or the members' type of a collection; None where the form meets 4. Variable v has the type scope[v]."""
    op = f[0]
    known = lambda t: 0 <= t < len(book.types)
    bound = lambda v: 0 <= v < len(scope)
    if op in ('forall', 'exists', 'select'):
        member = sort_of(book, f[1], scope)
        if not isinstance(member, int) or sort_of(book, f[2], scope + [member]) != 'truth':
            return None
        return member if op == 'select' else 'truth'
    sorts = [sort_of(book, part, scope) for part in f[1:] if isinstance(part, tuple)]
    if op in ('le', 'lt', 'eq', 'ne', 'ge', 'gt'):
        return 'truth' if sorts == ['number'] * 2 else None
    if op in ('and', 'or', 'xor', 'implies', 'not'):
        return 'truth' if set(sorts) == {'truth'} else None
    if op in ('add', 'sub'):
        return 'number' if sorts == ['number'] * 2 else None
    if op == 'kind':
        return 'truth' if bound(f[1]) and known(f[2]) else None
    if op == 'num':
        return 'number'
    if op == 'cell':
        return 'number' if bound(f[1]) and 0 <= f[2] < book.cells(scope[f[1]]) else None
    if op == 'size':
        return 'number' if isinstance(sorts[0], int) else None
    if op == 'sum':
        return 'number' if isinstance(sorts[0], int) and 0 <= f[2] < book.cells(sorts[0]) else None
    if op == 'all':
        return f[1] if known(f[1]) else None
    ends = book.relationships[f[2] // 2] if 0 <= f[2] < 2 * len(book.relationships) else None  # role
    if ends is None or not bound(f[1]) or not book.under(scope[f[1]], ends[f[2] % 2]):
        return None
    return ends[1 - f[2] % 2]


def faulty_rule(book, n):
    context, body = book.rules[n]
    return not 0 <= context < len(book.types) or sort_of(book, body, [context]) != 'truth'


def faulty_object(book, rows, n):
    faulty = not 1 <= rows[n][0] <= plain.MOST_ID or (n > 0 and rows[n - 1][0] >= rows[n][0])
    return faulty or plain.below_floor(book, *rows[n][1:])


def faulty_link(book, register, links, n):
    r, *ends = links[n]
    if not 0 <= r < len(book.relationships) or (n > 0 and links[n - 1] >= links[n]):
        return True
    return not all(i in register.objects and book.under(register.type_of(i), end) for i, end in zip(ends, book.relationships[r]))


def first(number, count, faulty):
    """A refusal at the lowest faulty place, or None."""
    return next(((number, n) for n in range(count) if faulty(n)), None)


def checked_tables(rows):
    """The refusal 3, 4 or 5 that the tables meet, or the book and the register."""
    book = plain.Book()
    book.types, book.floors, book.relationships, book.rules = rows['type'], rows['floor'], rows['rel'], rows['rule']
    refused = first(3, len(book.types), lambda n: faulty_type(book.types, n)) \
        or first(3, len(book.floors), lambda n: faulty_floor(book, n)) \
        or first(3, len(book.relationships), lambda n: not all(0 <= t < len(book.types) for t in book.relationships[n])) \
        or first(4, len(book.rules), lambda n: faulty_rule(book, n)) \
        or first(5, len(rows['ent']), lambda n: faulty_object(book, rows['ent'], n))
    if refused:
        return refused, None, None
    register = plain.Register({i: (t, tuple(values + [0] * (8 - len(values)))) for i, t, values in rows['ent']}, rows['link'])
    return first(5, len(rows['link']), lambda n: faulty_link(book, register, rows['link'], n)), book, register


def outcome(data):
    """The answer and the pairs of a text."""
    text = Text(data)
    refused, book, register = (text.refused, None, None) if text.refused else checked_tables(text.rows)
    if refused:
        return ('refused', *refused), []
    checked = plain.Checked(book, register, text.rows['event'])
    return checked.answer, checked.pairs


def said(answer, pairs):
    """An answer and its pairs as the names of cases end in them; of more than a hundred pairs their number."""
    listed = ''.join(' %d:%d' % pair for pair in pairs) if len(pairs) <= 100 else f' {len(pairs)} pairs'
    return ' '.join(str(part) for part in answer) + ('' if answer[0] == 'refused' else ';' + listed)


def printed(answer, pairs):
    """An answer and its pairs as the program prints them."""
    return 'answer ' + ' '.join(str(part) for part in answer) + '\n' + ''.join('pair %d %d\n' % pair for pair in pairs)
