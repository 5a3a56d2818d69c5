#!/usr/bin/env python3
"""Runs the program `park` with each of its words over the cases of crates/test_batch, over a park of a thousand objects, and over texts at document 01's
limits, and compares what it prints with the plain reading.

    park.py PROGRAM [EVERY]        every case, or every so manieth of the drawn ones

What `after` prints is read back as the text of an inspection, and with the next case's events as that of the next visit.
"""
import pathlib
import random
import subprocess
import sys

import plain
import texts
from long_texts import TYPES, ended, exactly

plain.OBJECT_ROWS, plain.LINK_ROWS, plain.LIST_WORDS = 1024, 4096, 65536
WORDS = ['check', 'full', 'events', 'after']
EVENTS = set(plain.KINDS)


def program(word, text):
    return subprocess.run([sys.argv[1], word], input=text, capture_output=True, text=True).stdout


def lines(text, events):
    """The lines of a text that are events, or those that are not."""
    return [line for line in text.splitlines() if (line[1:].split(' ')[0] in EVENTS) == events]


def written(text, book, register):
    """The text of the book as it was, and of a register: objects by id, links by their three numbers."""
    rules = [line for line in lines(text, False) if not line.startswith(('(ent ', '(link '))]
    objects = [f'(ent {" ".join(map(str, (i, t, *cells[:book.cells(t)])))})' for i, (t, cells) in sorted(register.objects.items())]
    return ended(rules + objects + ['(link %d %d %d)' % link for link in sorted(register.links)])


def shown(event):
    kind, number, cell = event
    return ' '.join(map(str, [plain.KINDS[kind], number] + [cell] * (kind == 2)))


def expected(text):
    """What each word prints of a text whose book is not refused, nor its register but by a floor."""
    book, register, events = plain.read(text)
    checked, refused = plain.Checked(book, register, events), plain.register_refusal(book, register)
    first = None if refused else plain.full_check(book, register)
    check = ended(['answer ' + ' '.join(map(str, checked.answer))] + ['pair %d %d' % pair for pair in checked.pairs])
    after = written(text, book, checked.left)
    return {
        'check': check,
        'full': 'answer refused %d %d\n' % refused if refused else 'answer accepted\n' if first is None else 'answer broken %d %d\n' % first,
        'events': ended(' '.join(['events', str(r)] + [shown(e) for e in plain.EventList(book, r).types]) for r in range(len(book.rules))),
        'after': check if checked.answer[0] != 'accepted' else after if len(after) <= 65536 else 'answer refused 2 0\n',
    }


class Count:
    runs = wrong = visits = 0

    def compare(self, name, word, text, wanted):
        got = program(word, text)
        self.runs += 1
        if got != wanted:
            self.wrong += 1
            print(f'{name}, {word}: printed {got[:300]!r}, expected {wanted[:300]!r}')
        return got

    def case(self, name, text, more):
        """Every word; and where the batch is accepted, the next visit."""
        wanted = expected(text)
        for word in WORDS:
            got = self.compare(name, word, text, wanted[word])
        if got.startswith('answer '):
            return
        self.visits += 1
        wanted = expected(got)  # without events: what is left is inspected, and is broken where the visit did not look
        for word in ('check', 'after'):
            self.compare(name + ' inspected', word, got, wanted[word])
        self.inspection(name, wanted)
        following = got + ended(more)
        for word, what in expected(following).items():
            self.compare(name + ' and then', word, following, what)

    def inspection(self, name, wanted):
        """The answer of a batch without events is the full check's; so it is by the plain reading too, which is compared here."""
        if wanted['check'].splitlines()[0] + '\n' != wanted['full']:
            self.wrong += 1
            print(f'{name}: the plain reading of an inspection is not its full check')

    def refusal(self, name, text, answers):
        """The answer line of each word; None: what the plain reading says."""
        wanted = expected(text) if None in answers else {}
        for word, answer in zip(WORDS, answers):
            self.compare(name, word, text, wanted[word] if answer is None else f'answer {answer}\n')


# ---------------------------------------------------------------- a park of a thousand objects

BOOK = ['(type 0 - 2)', '(type 1 - 1)', '(type 2 1 2)', '(type 3 - 1)', '(floor 1 0)', '(rel 0 0 1)', '(rel 1 1 3)',
        '(rule 0 0 (le (sum (role 0 0) 0) (cell 0 0)))', '(rule 1 1 (ge (size (role 0 2)) (num 1)))',
        '(rule 2 2 (forall (role 0 2) (ge (cell 1 0) (cell 0 1))))', '(rule 3 0 (le (size (select (role 0 0) (gt (cell 1 0) (num 20)))) (num 9)))',
        '(rule 4 3 (exists (role 0 3) (not (kind 1 0))))']


def park(draw, most):
    """Cabinets 1 to 100, drives and servo drives up to 700, battery boxes up to 1,000; each box with a drive, drives with cabinets; a visit of some 200
    events. So many large drives at a cabinet are too many: 9 are reached, 20 are not."""
    objects = [f'(ent {i} 0 4000 0)' for i in range(1, 101)]
    objects += [f'(ent {i} 1 {draw.randrange(5, 30)})' if i % 3 else f'(ent {i} 2 {draw.randrange(5, 30)} 3)' for i in range(101, 701)]
    objects += [f'(ent {i} 3 12)' for i in range(701, 1001)]
    feeds = {(draw.randrange(1, 101), i) for i in range(101, 701) for _ in range(3)}
    boxes = {(101 + (i - 701) * 2, i) for i in range(701, 1001)} | {(102 + (i - 701) * 2, i) for i in range(701, 1001)}
    links = ['(link 0 %d %d)' % link for link in sorted(feeds)] + ['(link 1 %d %d)' % link for link in sorted(boxes)]
    visit = [f'(set {i} 0 {draw.randrange(5, 30)})' for i in draw.sample(range(101, 701), 150)]
    visit += ['(part 0 %d %d)' % link for link in draw.sample(sorted(feeds), 40)] + [f'(insert {i} 3)' for i in range(2001, 2005)]
    visit += [f'(set {i} 0 12)' for i in range(2001, 2005)] + [f'(join 1 {101 + i} {2001 + i})' for i in range(4)] + ['(special 103 2)', '(general 105 1)']
    visit += ['(delete 3)', '(delete 700)', '(delete 7)', '(insert 7 0)']  # each of them with its links
    book = [line.replace('(num 9)', f'(num {most})') for line in BOOK]
    return ended(book + objects + links + visit), [f'(set {i} 0 9)' for i in range(101, 130)] + ['(delete 50)', '(delete 51)', '(insert 50 0)']


def refusals(count):
    """Texts at the limits, and what is refused of a text, a book, a register and a batch, for each word."""
    few = [f'(ent {i} 1)' for i in range(1, 1025)]
    links = ['(link 0 %d %d)' % (a, b) for a in range(1, 65) for b in range(1, 66)]
    visit = ['(insert 1 1)', '(delete 1)'] * 128
    rules = [f'(rule {i} 1 (kind 0 1))' for i in range(33)]
    floors = [f'(floor {i // 8} {i % 8})' for i in range(256)]
    every_floor = [f'(type {i} - 8)' for i in range(32)] + floors + ['(ent 1 31 1 2 3 4 5 6 7 8)']
    count.refusal('65,536 bytes', exactly(65536, TYPES), [None] * 4)
    count.refusal('65,537 bytes', exactly(65537, TYPES), ['refused 2 0'] * 4)
    count.refusal('no line break at the end', ended(TYPES)[:-1], ['refused 1 3'] * 4)
    count.refusal('a text above 65,536 bytes after the visit', exactly(61000, TYPES) + ended(f'(insert {i} 0)' for i in range(30001, 30257)), [None] * 3 + ['refused 2 0'])
    count.refusal('256 floors', ended(every_floor + ['(set 1 7 0)']), [None] * 4)
    count.refusal('256 floors, a set below the last', ended(every_floor + ['(set 1 7 0)', '(set 1 7 -1)']), ['refused 15 1', None, None, 'refused 15 1'])
    count.refusal('256 floors, an object below the last', ended(every_floor[:-1] + ['(ent 1 31 1 2 3 4 5 6 7 -8)']), ['refused 5 0', 'refused 5 0', None, 'refused 5 0'])
    count.refusal('257 floors', ended(every_floor[:-1] + floors[-1:]), ['refused 2 289'] * 4)
    count.refusal('a floor twice', ended(every_floor[:-2] + floors[:1]), ['refused 3 255'] * 4)
    for name, more, answers in [
        ('a line without its last bracket', ['(ent 1 1'], ['refused 1 4'] * 4),
        ('an object with a cell too many', ['(ent 1 1 1)'], ['refused 1 4'] * 4),
        ('32 rules', rules[:32] + few[:3], [None] * 4),
        ('33 rules', rules, ['refused 2 36'] * 4),
        ('1,024 objects', few, [None] * 4),
        ('1,025 objects', few + ['(ent 1025 1)'], ['refused 2 1028'] * 4),
        ('4,096 links', few[:65] + links[:4096], [None] * 4),
        ('4,097 links', few[:65] + links[:4097], ['refused 2 4165'] * 4),
        ('256 events', visit, [None] * 4),
        ('257 events', visit + visit[:1], ['refused 2 260'] * 4),
        ('a relationship of an unknown type', ['(rel 1 0 2)'], ['refused 3 1'] * 4),
        ('a number for a truth', rules[:1] + ['(rule 1 0 (cell 0 0))'], ['refused 4 1'] * 4),
        ('an object twice', few[:1] * 2, ['refused 5 1', 'refused 5 1', None, 'refused 5 1']),
        ('an event on an absent object', few[:1] + ['(delete 2)'], ['refused 8 0', None, None, 'refused 8 0']),
        ('no row is left', few + ['(insert 1025 1)'], ['refused 13 0', None, None, 'refused 13 0']),
    ]:
        count.refusal(name, ended(TYPES + more), answers)


def every_pair(count):
    """32 rules that an insert reaches at all of 1,024 objects: the longest list that there is."""
    rules = [f'(rule {r} 0 (le (size (all 1)) (num 5)))' for r in range(32)]
    objects = [f'(ent {i} 0)' for i in range(1, 1024)]
    pairs = [f'pair {r} {i}' for r in range(32) for i in [*range(1, 1024), 2147483647]]
    text = ended(['(type 0 - 0)', '(type 1 0 0)'] + rules + objects + ['(insert 2147483647 1)'])
    count.compare('every pair', 'check', text, ended(['answer accepted'] + pairs))
    inspected = ended(['(type 0 - 0)', '(type 1 0 0)'] + rules + objects + ['(ent 2147483647 1)'])
    count.compare('every pair inspected', 'check', inspected, ended(['answer accepted'] + pairs))
    broken = inspected.replace('(rule 31 0 (le (size (all 1)) (num 5)))', '(rule 31 0 (le (size (all 1)) (num 0)))')
    count.compare('every pair inspected, the last rule broken', 'check', broken, ended(['answer broken 31 1'] + pairs))
    count.compare('the same, what is left', 'after', broken, ended(['answer broken 31 1'] + pairs))
    count.compare('the same, a special and a general back: no inspection', 'check', broken + '(special 1 1)\n(general 1 0)\n', 'answer accepted\n')


def main():
    every = int(sys.argv[2]) if len(sys.argv) > 2 else 1
    stored = (pathlib.Path(__file__).parent.parent / 'crates/test_batch/stdin').read_text()
    cases, count = list(texts.texts(stored)), Count()
    for (name, text), (next_name, next_text) in list(zip(cases, cases[1:] + cases[:1]))[::every]:
        # a block whose name starts with + is a batch for the same book
        count.case(name, text, lines(next_text if next_name.startswith('+') else text, True))
    for seed in range(3):
        for most in (9, 20):
            count.case(f'a thousand objects, {seed}, at most {most}, inspected', ended(lines(park(random.Random(seed), most)[0], False)), [])
            count.case(f'a thousand objects, {seed}, at most {most}', *park(random.Random(seed), most))
    refusals(count)
    every_pair(count)
    print(f'{len(cases[::every])} cases, {count.visits} next visits, {count.runs} runs of park, {count.wrong} disagreements')
    sys.exit(count.wrong > 0)


main()
