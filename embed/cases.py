#!/usr/bin/env python3
"""Cases for test_c.c with what each entry has to answer and leave, by the plain reading of tests/plain.py.

    cases.py FILE        writes FILE as 32-bit words; test_c.c says in which order

Drawn books, registers and batches come from tests/draw.py. Damaged input is made from good input, so that its refusal is known by how it was made.
"""
import array
import os
import re
import sys

sys.path.insert(0, os.path.join(os.path.dirname(os.path.abspath(__file__)), '..', 'tests'))
import draw
import plain

SOIL = 7
OPERATORS = 'le lt eq ne ge gt not and or xor implies forall exists kind num cell size sum add sub role all select'.split()
WIDTHS = {'types': 2, 'floors': 2, 'relationships': 2, 'rules': 2, 'bodies': 4, 'objects': 10, 'links': 3, 'events': 4}
NAMES = list(WIDTHS)
COUNTED = [name for name in NAMES if name != 'bodies']
SMALL = {'types': 8, 'floors': 24, 'relationships': 4, 'rules': 6, 'bodies': 6 * 64, 'objects': 12, 'links': 16, 'events': 10}
LARGEST = {'types': 32, 'floors': 256, 'relationships': 32, 'rules': 32, 'bodies': 32 * 64, 'objects': 1024, 'links': 4096, 'events': 256}


def body_rows(f):
    """A form's rows: those of its parts, and its own after them."""
    fields = [x for x in f[1:] if not isinstance(x, tuple)]
    own = [OPERATORS.index(f[0]), *fields] + [0] * (3 - len(fields))
    return [row for part in f[1:] if isinstance(part, tuple) for row in body_rows(part)] + [own]


def event_row(event):
    return ([plain.KINDS.index(event[0]), *event[1:]] + [0, 0])[:4]


def object_rows(register):
    return [(i, t, *cells) for i, (t, cells) in sorted(register.objects.items())]


def words(rows):
    return [word % 2**32 for row in rows for word in row]


class Case:
    """Lent tables with their counts, and what each entry has to answer."""

    def __init__(self, book, register, events, rows=SMALL, list_words=48, out=65536):
        self.book, self.register, self.events = book, register, events
        self.rows, self.list_words, self.out = rows, list_words, out
        self.used = {'types': len(book.types), 'floors': len(book.floors), 'relationships': len(book.relationships), 'rules': len(book.rules),
                     'objects': len(register.objects), 'links': len(register.links), 'events': len(events)}
        self.lent = {name: self.table(name) for name in NAMES}
        self.scratch = [len(self.lent['objects']), len(self.lent['links'])]
        self.refused = {}  # by entry, where the tables were damaged or the register is below a floor
        below = plain.register_refusal(book, register)
        if below is not None:
            self.damage(*below, EVERY)

    def used_rows(self, name):
        if name == 'floors':
            return self.book.floors
        if name == 'types':
            return [(-1 if parent is None else parent, cells) for parent, cells in self.book.types]
        if name == 'rules':
            return [(context, len(body_rows(body))) for context, body in self.book.rules]
        if name == 'objects':
            return object_rows(self.register)
        if name == 'events':
            return [event_row(event) for event in self.events]
        return sorted(self.register.links) if name == 'links' else self.book.relationships

    def table(self, name, free=SOIL):
        size = WIDTHS[name] * self.rows[name]
        if name != 'bodies':
            front = words(self.used_rows(name))
            return front + [free] * (size - len(front))
        out = [free] * size
        for n, (_, body) in enumerate(self.book.rules):
            rows = words(body_rows(body))
            out[256 * n:256 * n + len(rows)] = rows
        return out

    def damage(self, number, place, entries):
        for entry in entries:
            self.refused[entry] = number, place
        return self

    def text(self):
        lines = [*draw.lines(self.book, self.register), *self.events]
        return ''.join(draw.spelled(line) + '\n' for line in lines)

    # What each entry answers, as the words that stand in the file.

    def check(self):
        number, place = self.refused.get('check', (0, 0))
        return [number, place]

    def full(self):
        if 'full' in self.refused:
            return [2, *self.refused['full']]
        pair = plain.full_check(self.book, self.register)
        return [0, 0, 0] if pair is None else [1, *pair]

    def run(self):
        batch = None if 'run' in self.refused else plain.Batch(self.book, self.register, self.events)
        refused = self.refused.get('run') if batch is None else batch.refused
        if refused is not None:
            return [1, *refused, 0, 0]
        objects, links = words(object_rows(batch.end)), words(sorted(batch.end.links))
        return [0, len(objects) // 10, len(links) // 3, len(objects), *objects, len(links), *links]

    def batch(self):
        if 'batch' in self.refused:
            answer, pairs, left = ('refused', *self.refused['batch']), [], None
        else:
            checked = plain.Checked(self.book, self.register, self.events)
            answer, pairs = checked.answer, checked.pairs
            left = checked.left if answer[0] == 'accepted' else None
        code = ['accepted', 'broken', 'refused'].index(answer[0])
        tables = [self.lent['objects'], self.lent['links']]
        used = [self.used['objects'], self.used['links']]
        if left is not None:
            after = [words(object_rows(left)), words(sorted(left.links))]
            tables = [front + [0] * (len(t) - len(front)) for front, t in zip(after, tables)]
            used = [len(left.objects), len(left.links)]
        listed = words(pairs)
        return [code, *(answer[1:] or (0, 0)), len(pairs), *used, len(listed), *listed, *tables[0], *tables[1]]

    def event_lists(self):
        out = [len(self.book.rules) + 2]
        for rule in range(len(self.book.rules) + 1):
            out += self.event_list(rule, 1344)
        return out + self.event_list(0, 2)

    def event_list(self, rule, room):
        refusal, listed = self.refused.get('events'), []
        if refusal is None and rule == len(self.book.rules):
            refusal = 4, rule
        if refusal is None:
            listed = words(plain.EventList(self.book, rule).types)
            refusal = (14, 0) if len(listed) > room else None
        if refusal is not None:
            return [rule, room, 1, *refusal, 0]
        return [rule, room, 0, len(listed) // 3, 0, len(listed), *listed]

    def write(self):
        unknown = [n for n, event in enumerate(self.events) if not plain.known(self.book, event)]
        refusal = self.refused.get('write') or ((7, unknown[0]) if unknown else None)
        if refusal is None:
            text = self.text().encode()
            refusal = (2, 0) if len(text) > 65536 else (14, 0) if len(text) > self.out else None
        if refusal is not None:
            return [self.out, 1, *refusal, 0]
        return [self.out, 0, len(text), 0, len(text), *text]

    def file_words(self):
        plain.OBJECT_ROWS, plain.LINK_ROWS, plain.LIST_WORDS = self.rows['objects'], self.rows['links'], self.list_words
        lent = [word for name in NAMES for word in [len(self.lent[name]), *self.lent[name]]]
        counts = [self.used[name] for name in COUNTED]
        return [1, *counts, *lent, *self.scratch, self.list_words, *self.check(), *self.full(), *self.run(), *self.event_lists(),
                *self.write(), *self.batch()]


def reading(case, text=None, refusal=None, rows=None):
    """A text to be read into tables of so many rows, by a case that has its tables; or its refusal."""
    text = (case.text() if text is None else text).encode()
    rows = rows or case.rows
    sizes = [WIDTHS[name] * rows[name] for name in NAMES]
    answer = [0, *(case.used[name] for name in COUNTED)] if refusal is None else [1, *refusal, 0, 0, 0, 0, 0]
    tables = [word for name in NAMES for word in case.table(name, 0)] if refusal is None else []
    return [2, len(text), *text, *sizes, *answer, *tables]


def inspections(make):
    """A case without events, with a list of the words that all its pairs need, of one less, and of none."""
    case = make()
    needed = 2 * sum(case.book.under(t, context) for context, _ in case.book.rules for t, _ in case.register.objects.values())
    yield from (make(list_words=words) for words in sorted({needed, max(needed - 1, 0), 0}))


# ---------------------------------------------------------------- damaged

EVERY = ['check', 'full', 'run', 'batch', 'write']
BOOKS = EVERY + ['events']
BATCHED = ['run', 'batch', 'write']


def word(name, at, value):
    return lambda case: case.lent[name].__setitem__(at, value)


def count(name, value):
    return lambda case: case.used.__setitem__(name, value)


def swap(name):
    """The first two rows exchanged."""
    def change(case):
        width, table = WIDTHS[name], case.lent[name]
        table[:2 * width] = table[width:2 * width] + table[:width]
    return change


def shorter_scratch(at):
    return lambda case: case.scratch.__setitem__(at, case.scratch[at] - 1)


def short_bodies(case):
    """A row less than 64 for each rule."""
    del case.lent['bodies'][256 * case.used['rules'] - 4:]


def longer(name):
    """A word more than whole rows."""
    return lambda case: case.lent[name].append(0)


def first_named(i):
    """Another id in the first event: a join's or part's source, else its object."""
    return lambda case: case.lent['events'].__setitem__(2 if case.lent['events'][0] in (3, 4) else 1, i)


def damages():
    """Each kind of damage to tables that have two types, rules, objects, links and events or more: its refusal, who meets it, what is done."""
    for name in COUNTED:
        entries = BOOKS if name in COUNTED[:4] else BATCHED if name == 'events' else EVERY
        yield 2, 0, entries, count(name, SMALL[name] + 1)
        yield 2, 0, entries, count(name, 2**32 - 1)
        yield 6, 0, entries, longer(name)
    yield 6, 0, BOOKS, longer('bodies')
    yield 2, 0, BOOKS, short_bodies
    yield 3, 1, BOOKS, word('types', 2, 1)
    yield 3, 0, BOOKS, word('types', 1, 9)
    yield 3, 0, BOOKS, word('relationships', 1, 32)
    yield 4, 1, BOOKS, word('rules', 2, 31)
    yield 4, 1, BOOKS, word('rules', 3, 0)
    yield 2, 0, BOOKS, word('rules', 3, 65)
    yield 4, 0, BOOKS, word('bodies', 0, 23)
    yield 5, 0, EVERY, word('objects', 0, 0)
    yield 5, 0, EVERY, word('objects', 0, 2**31)
    yield 5, 0, EVERY, word('objects', 1, 32)
    yield 5, 1, EVERY, swap('objects')
    yield 5, 0, EVERY, word('links', 0, 32)
    yield 5, 1, EVERY, swap('links')
    yield 7, 0, BATCHED, word('events', 0, 7)
    yield from ((7, 0, BATCHED, first_named(i)) for i in (0, 2**31, 2**32 - 1))
    yield from ((6, 0, ['run', 'batch'], shorter_scratch(at)) for at in (0, 1))


def floor_damages(case):
    """The same for a case with two floors or more, which it keeps: the floors, and each object below one."""
    last = case.used['floors'] - 1
    yield 3, 0, BOOKS, word('floors', 0, 32)
    yield 3, 0, BOOKS, word('floors', 1, 8)
    yield 3, 0, BOOKS, word('floors', 1, 2**32 - 1)
    yield 3, 1, BOOKS, swap('floors')
    yield 3, 1, BOOKS, lambda other: other.lent['floors'].__setitem__(slice(2, 4), other.lent['floors'][:2])
    yield 3, last, BOOKS, word('floors', 2 * last + 1, 8)
    yield 3, last, BOOKS, lambda other: [word('floors', 2 * last, 32)(other), word('relationships', 1, 32)(other)]
    for row, (_, t, *_) in enumerate(object_rows(case.register)):
        for k in case.book.floored(t):
            yield 5, row, EVERY, word('objects', 10 * row + 2 + k, 2**31)


def damaged_tables(make, changes):
    for number, place, entries, change in changes:
        case = make()
        change(case)
        yield case.damage(number, place, entries)


DAMAGES = [
    lambda line: line[1:], lambda line: line[:-1], lambda line: '( ' + line[1:], lambda line: line.replace(' ', '  ', 1),
    lambda line: '', lambda line: '(x' + line[1:], lambda line: re.sub(r' (\d)', r' 0\1', line, count=1), lambda line: line + ' ',
    lambda line: line + ')', lambda line: line[:-1] + ' 0)', lambda line: re.sub(r'\d', '99999999999', line, count=1), lambda line: line[:-1] + '\t)',
]


def damaged_texts(case, number):
    """A line of the case's text in another form: 1 at that line."""
    lines = case.text().splitlines()
    for k, damage in enumerate(DAMAGES):
        at = (number * 7 + k * 3) % len(lines)
        bad = [damage(line) if n == at else line for n, line in enumerate(lines)]
        if bad != lines:
            yield reading(case, '\n'.join(bad) + '\n', (1, at + 1))
    yield reading(case, case.text()[:-1], (1, len(lines)))


def too_small(case):
    """Tables with a row less than the text has: 2 at the last line of the section."""
    last = 0
    for name in COUNTED:
        last += case.used[name]
        if case.used[name]:
            yield reading(case, refusal=(2, last), rows={**case.rows, name: case.used[name] - 1})
        if name == 'rules' and case.used[name]:  # each rule has 64 rows of bodies
            yield reading(case, refusal=(2, last), rows={**case.rows, 'bodies': 64 * case.used[name] - 1})


# ---------------------------------------------------------------- the largest

def largest_book(cells):
    """With two cells a type and no floors, or with eight and a floor of each."""
    book = plain.Book()
    book.types = [(None, cells)] + [(0, cells)] * 31
    book.floors = [(t, k) for t in range(32) for k in range(cells)] if cells == 8 else []
    book.relationships = [(r, (r + 1) % 32) for r in range(32)]
    body = lambda r: ('le', ('sum', ('role', 0, 2 * r), 0), ('cell', 0, 1))
    book.rules = [(r, body(r)) for r in range(32)]
    deep = body(31)
    for _ in range(60):  # 64 forms
        deep = 'not', deep
    book.rules[31] = 31, deep
    return book


def largest(last, cells=2):
    """1,024 objects, 4,096 links, 32 rules and 256 events, of which the last is given."""
    name = lambda t, k: 1 + 64 * (32 * k + t)
    register = plain.Register()
    for t in range(32):
        for k in range(32):
            register.objects[name(t, k)] = (t, (k, 130) + (0,) * 6)
            register.links |= {(t, name(t, k), name((t + 1) % 32, (k + j) % 32)) for j in range(4)}
    gone = name(5, 9)
    own = sorted(link for link in register.links if gone in link[1:])
    events = [('part', *link) for link in own[:3]] + [('delete', gone), ('insert', gone, 5), ('set', gone, 1, 130)]  # which takes the others
    events += [('join', *link) for link in own]
    events += [('set', name(n % 7, n % 32), 0, n % 32) for n in range(255 - len(events))] + [last]
    return Case(largest_book(cells), register, events, LARGEST, 65536)


def every_pair(list_words, most=31):
    """An inspection of 32 rules at 1,024 objects each: the longest list that there is. The last rule holds or not."""
    case = largest(('set', 1, 0, 5))
    case.book.rules = [(0, ('le', ('cell', 0, 0), ('num', most if r == 31 else 31))) for r in range(32)]
    return Case(case.book, case.register, [], LARGEST, list_words)


def long_text(size):
    """A case whose text has so many bytes: objects of eight cells, of one to ten digits each."""
    book = plain.Book()
    book.types = [(None, 8)]
    case = Case(book, plain.Register(), [], LARGEST)
    left = size - len(case.text())
    full, i = len('(ent 1000 0)\n') + 8 * 11, 1000
    while left:
        line = full if left >= 2 * full else left // 2 if left > full else left
        digits = line - len('(ent 1000 0)\n') - 8
        cells = [10 ** (digits // 8 - 1 + (k < digits % 8)) for k in range(8)]
        case.register.objects[i] = 0, tuple(cells)
        i, left = i + 1, left - line
    return Case(book, case.register, [], LARGEST)


# ---------------------------------------------------------------- all

def from_blocks(blocks, **lent):
    for _, book, register, events, _ in plain.blocks('\n\n'.join('\n'.join(block) for block in blocks)):
        yield Case(book, register, events, **lent)


def marked():
    """The cases whose outcomes were found by hand, with tables for any book."""
    with open(os.path.join(os.path.dirname(plain.__file__), 'marked.txt')) as file:
        blocks = file.read().strip('\n').split('\n\n')
    rows = {**LARGEST, **{name: SMALL[name] for name in ('objects', 'links', 'events')}}
    for case in from_blocks([block.split('\n') for block in blocks], rows=rows):
        yield case
        if not case.events:
            yield from inspections(lambda **lent: Case(case.book, case.register, [], rows=rows, **lent))


def of_book(number, floored):
    """The cases of a drawn book, with floors or without."""
    cases = list(from_blocks(draw.drawn(number, 5, floored=floored)))
    yield from (case.file_words() for case in cases)
    yield reading(cases[0])
    yield from damaged_texts(cases[0], number)
    yield from too_small(cases[0])
    for short in from_blocks(draw.drawn(number, 3, floored=floored), list_words=number % 4, out=number):
        yield short.file_words()
    small = lambda: next(from_blocks(draw.drawn(number, 1, floored=floored)))
    case = small()
    unvisited = lambda **lent: Case(case.book, case.register, [], **lent)
    yield from (other.file_words() for other in inspections(unvisited))
    kept = 'check' not in case.refused
    if kept and all(count > 1 for name, count in case.used.items() if name != 'floors'):
        yield from (case.file_words() for case in damaged_tables(small, damages()))
    if kept and number % 6 == 0 and all(count > 1 for name, count in case.used.items() if name not in ('floors', 'events')):
        # without events too, what is refused of the tables comes before 14
        of_tables = [damage for damage in damages() if damage[0] != 7]
        yield from (other.file_words() for other in damaged_tables(lambda: unvisited(list_words=0), of_tables))
    if kept and case.used['floors'] > 1:
        yield from (case.file_words() for case in damaged_tables(small, floor_damages(case)))


def all_cases():
    yield from (case.file_words() for case in marked())
    for number in range(120):
        yield from of_book(number, False)
        yield from (case.file_words() for case in from_blocks(draw.drawn(number, 2, near=False)))
        yield from (case.file_words() for case in from_blocks(draw.drawn(number, 5, specials=True)))
        yield from (case.file_words() for case in from_blocks(draw.inspected(number, 2)))
        yield from of_book(number, True)
    for cells in (2, 8):
        yield largest(('set', 1, 0, 5), cells).file_words()
        yield largest(('set', 1 + 64 * 33, 0, 500), cells).file_words()
        yield largest(('insert', 2, 0), cells).file_words()
    yield largest(('set', 1, 0, -1), 8).file_words()
    yield from (every_pair(*how).file_words() for how in ((65536,), (65535,), (65536, 30)))
    yield reading(long_text(65536))
    yield reading(long_text(65537), refusal=(2, 0))


def store(name, parts):
    """A file of words, with a 0 after the last part."""
    out = array.array('I')
    assert out.itemsize == 4
    for part in parts:
        out.extend(part)
    out.append(0)
    with open(name, 'wb') as file:
        out.tofile(file)


def main():
    store(sys.argv[1], all_cases())


if __name__ == '__main__':
    main()
