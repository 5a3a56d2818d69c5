#!/usr/bin/env python3
"""Cases for test_park.c: what callers do with a park, and what each call has to answer and leave, by the plain reading of tests/plain.py.

    park_cases.py FILE        writes FILE as 32-bit words; test_park.c says in which order
"""
import sys

import cases  # which puts tests/ on the path
import draw
import plain
import refusals

END, READ, REGISTER, EVENT, NEW_BATCH, CHECK, FULL, EVENTS, TEXT = range(9)
KINDS = ['accepted', 'broken', 'refused', 'done']
ROOM = 65536


class Caller:
    """A park of its own, what is done with it, and what is seen of it."""

    def __init__(self):
        self.book, self.register, self.batch, self.answered = plain.Book(), plain.Register(), [], False
        self.words = []

    def case(self, room=ROOM):
        return cases.Case(self.book, self.register, self.batch, cases.LARGEST, ROOM, room)

    def call(self, code, given, answer=('accepted',), left=()):
        kind, *rest = answer
        self.words += [code, len(given), *given, KINDS.index(kind), *(rest + [0, 0])[:2], len(left), *left]

    def read_text(self, text, refusal=None):
        """A text that is refused, or one of which only answers are known."""
        self.call(READ, text.encode(), ('done',) if refusal is None else ('refused', *refusal))

    def read(self, book, register, events=()):
        self.book, self.register, self.batch, self.answered = book, register, list(events), False
        self.read_text(self.case().text())

    def write_register(self, register):
        """Rows and counts into the park itself."""
        self.register = register
        objects, links = cases.words(cases.object_rows(register)), cases.words(sorted(register.links))
        self.call(REGISTER, [len(register.objects), len(register.links), *objects, *links])

    def events(self, events):
        for event in events:
            if self.answered:
                self.batch, self.answered = [], False
            self.batch.append(event)
            self.call(EVENT, cases.words([cases.event_row(event)]))

    def new_batch(self):
        self.batch, self.answered = [], False
        self.call(NEW_BATCH, [])

    def check(self):
        self.answered = True
        refused = self.case().refused.get('batch') or ((2, 0) if len(self.batch) > 256 else None)
        if refused is not None:
            return self.call(CHECK, [], ('refused', *refused))
        checked = plain.Checked(self.book, self.register, self.batch)
        if checked.answer[0] == 'accepted':
            self.register, self.batch = checked.left, []
        self.call(CHECK, [], checked.answer, cases.words(checked.pairs))

    def full(self):
        kind, *rest = self.case().full()
        self.call(FULL, [], (KINDS[kind], *rest))

    def event_list(self, rule, room=1344):
        _, _, not_done, x, y, _, *left = self.case().event_list(rule, room) + [0]
        self.call(EVENTS, [rule, room], ('refused', x, y) if not_done else ('done',), left[:-1])

    def text(self, room=ROOM):
        if len(self.batch) > 256:
            return self.call(TEXT, [room], ('refused', 2, 0))
        _, not_done, x, y, _, *left = self.case(room).write()
        self.call(TEXT, [room], ('refused', x, y) if not_done else ('done',), left)

    def look(self):
        self.text()
        self.full()


def arrive(caller, case):
    """A text with half of a case's events; the others come after it."""
    in_text = len(case.events) // 2
    caller.read(case.book, case.register, case.events[:in_text])
    caller.look()
    caller.events(case.events[in_text:])
    caller.text()


def visits(blocks):
    """The visit of a text, then the others one after the other, each asked once more; a damaged text, an inspection, and the first text again."""
    caller = Caller()
    first, *others = cases.from_blocks(blocks, rows=cases.LARGEST)
    arrive(caller, first)
    for events in [[], *(other.events for other in others)]:
        caller.events(events)
        caller.check()
        caller.look()
        caller.check()  # an inspection if the visit was accepted, else the same visit
        caller.text()
    caller.read_text(first.text()[:-1], (1, first.text().count('\n')))
    caller.text()
    caller.new_batch()
    caller.check()
    caller.look()
    arrive(caller, first)
    caller.check()
    for rule in range(len(first.book.rules) + 1):
        caller.event_list(rule)
    caller.event_list(0, 2)
    caller.text(40)
    return caller


def refused():
    """The texts of tests/refusals.py but for those that meet a limit of its program. 1 is met by the reading, the others by the check, which is
    asked twice."""
    caller = Caller()
    for _, answer, lines in refusals.CASES:
        kind, *place = answer.split()
        place = tuple(map(int, place))
        if kind == 'accepted' or place[0] in (2, 13):
            continue
        at_reading = place[0] == 1
        caller.read_text(''.join(line + '\n' for line in lines), place if at_reading else None)
        for _ in range(2 * (not at_reading)):
            caller.call(CHECK, [], ('refused', *place))
    return caller


def objects_book():
    book = plain.Book()
    book.types, book.relationships, book.rules = [(None, 0)], [(0, 0)], [(0, ('le', ('size', ('role', 0, 0)), ('num', 4096)))]
    return book


def objects(count):
    register = plain.Register()
    register.objects = {i: (0, (0,) * 8) for i in range(1, count + 1)}
    return register


def most_objects():
    caller = Caller()
    caller.read(objects_book(), objects(1023), [('insert', 2000, 0)])
    caller.check()
    for events in ([('insert', 2001, 0)], [('delete', 7), ('insert', 2001, 0)]):
        caller.events(events)
        caller.check()
        caller.look()
    return caller


def most_links():
    caller, register = Caller(), objects(70)
    register.links = {(0, s, t) for s in range(1, 65) for t in range(1, 65)}
    caller.read(objects_book(), register)
    caller.check()
    for events in ([('join', 0, 1, 70)], [('part', 0, 1, 1), ('join', 0, 1, 70)], [('delete', 1)]):
        caller.events(events)
        caller.check()
        caller.look()
    return caller


def most_events():
    """256 events, and one more: counted, refused, and forgotten with the first event of the next batch."""
    caller = Caller()
    joins = [('join', 0, s, t) for s in range(1, 17) for t in range(1, 17)]
    caller.read(objects_book(), objects(16), joins)
    for _ in range(2):
        caller.events([('part', 0, 1, 1)])  # the 257th and the 258th
        caller.text()
    caller.check()
    caller.text()
    caller.check()
    caller.events(joins)
    caller.check()
    caller.look()
    return caller


def most_of_a_book():
    """32 types of 8 cells, each with a floor, 32 relationships, and 32 rules of which one has 64 forms."""
    caller, register = Caller(), plain.Register()
    register.objects = {i: (i % 32, (1,) * 8) for i in range(1, 300)}
    caller.read(cases.largest_book(8), register, [('set', 3, 1, 5)])
    caller.check()
    caller.look()
    caller.check()
    caller.look()
    caller.event_list(31)
    return caller


def every_pair(most):
    """The longest list, first of a register that holds or not and then after a visit."""
    case, caller = cases.every_pair(ROOM, most), Caller()
    case.register.links = set()  # else it is too long for a text
    caller.read(case.book, case.register)
    caller.check()
    caller.events([('set', 1, 0, 5)])
    caller.check()
    caller.new_batch()
    caller.check()
    caller.look()
    return caller


def longest_text():
    caller, case = Caller(), cases.long_text(ROOM)
    caller.read(case.book, case.register)
    caller.text()
    caller.text(ROOM - 1)
    caller.read_text(cases.long_text(ROOM + 1).text(), (2, 0))
    caller.events([('insert', 1, 0)])
    caller.text()
    caller.check()
    caller.text()  # the park is now too large for a text
    caller.full()
    return caller


def largest():
    """A register that is too long for a text: two visits, the second broken."""
    caller, case = Caller(), cases.largest(('set', 1, 0, 5))
    caller.read(case.book, plain.Register())
    caller.write_register(case.register)
    for events in (case.events, [('set', 1 + 64 * 33, 0, 500)]):
        caller.events(events)
        caller.text()
        caller.check()
        caller.full()
    return caller


def callers():
    kinds = {}, {'floored': True}, {'specials': True}, {'near': False}
    drawn = [list(draw.drawn(number, 5, **kind)) for number in range(40) for kind in kinds]
    drawn += [list(draw.inspected(number, 3)) for number in range(40)]
    plain.OBJECT_ROWS, plain.LINK_ROWS, plain.LIST_WORDS = cases.LARGEST['objects'], cases.LARGEST['links'], ROOM
    yield from map(visits, drawn)
    yield from (refused(), most_objects(), most_links(), most_events(), most_of_a_book(), every_pair(31), every_pair(30), longest_text(),
                largest())


def main():
    cases.store(sys.argv[1], (caller.words + [END] for caller in callers()))


if __name__ == '__main__':
    main()
