#!/usr/bin/env python3
"""Draws books, registers and batches: blocks for crates/test_batch, always the same for the same numbers.

    draw.py BOOKS BATCHES        so many books with their registers, and so many batches for each
    draw.py BOOKS BATCHES far    the same with ids spread over 31 bits, in the same order
    draw.py BOOKS BATCHES floors    others, whose books have floors; most rules are such that the floors make their event list shorter
    draw.py BOOKS BATCHES specials    others, whose rules are mostly quiet by roles of self, of which some start at the context type and some above it;
                                      most batches have specials, and objects made general and special again
    draw.py BOOKS BATCHES inspections    others, some with floors, some with specials, some with far ids: in each register some rule is broken, and the first
                                         batch has no event; the events of the further ones leave the register as it was

Parks are small, so that coincidences happen: the same link parted and joined, an id deleted with its links and inserted again. Most rules are
drawn until they hold, since a batch check promises most from a good register.
"""
import sys

import plain


class Draw:
    """Numbers that are the same on every machine and with every version of Python."""

    def __init__(self, seed):
        self.state = seed
        for _ in range(4):
            self.random()

    def random(self):
        """At least 0 and below 1."""
        self.state = (self.state * 6364136223846793005 + 1442695040888963407) % 2**64
        return (self.state >> 11) / 2**53

    def randrange(self, n):
        return int(self.random() * n)

    def randint(self, least, most):
        return least + self.randrange(most - least + 1)

    def choice(self, things):
        return things[self.randrange(len(things))]

    def sample(self, things, count):
        left = list(things)
        return [left.pop(self.randrange(len(left))) for _ in range(count)]


def pick(draw, weighted):
    """One of (weight, thing), by weight."""
    left = draw.random() * sum(w for w, _ in weighted)
    for w, thing in weighted:
        left -= w
        if left < 0:
            return thing
    return weighted[0][1]


# ---------------------------------------------------------------- books

def schema(draw):
    book = plain.Book()
    for t in range(draw.randint(2, 6)):
        parent = draw.randrange(t) if t and draw.random() < 0.65 else None
        cells = (0 if parent is None else book.cells(parent)) + pick(draw, [(2, 0), (4, 1), (2, 2)])
        book.types.append((parent, min(cells, 8)))
    for _ in range(draw.randint(1, 3)):
        s = draw.randrange(len(book.types))
        t = s if draw.random() < 0.3 else draw.randrange(len(book.types))
        book.relationships.append((s, t))
    return book


def schema_with_specials(draw):
    """A schema in which some type has a role that starts at it, and another that starts above it."""
    book = schema(draw)
    while not any(book.roles_from(t) and set(roles(book, t)) - book.roles_from(t) for t in range(len(book.types))):
        book = schema(draw)
    return book


def floors(draw, book):
    return [(t, k) for t in range(len(book.types)) for k in range(book.cells(t)) if draw.random() < 0.35]


def roles(book, t):
    """The roles that start at a type or above it."""
    return [2 * r + d for r, ends in enumerate(book.relationships) for d in (0, 1) if book.under(t, ends[d])]


def member_type(book, c):
    if c[0] == 'role':
        return book.relationships[c[2] // 2][1 - c[2] % 2]
    return c[1] if c[0] == 'all' else member_type(book, c[1])


class Bodies:
    """Draws well-typed forms; env is the types of the variables."""

    def __init__(self, draw, book):
        self.draw, self.book = draw, book

    def number_of(self):
        return pick(self.draw, [(12, self.draw.randint(-3, 4)), (1, self.draw.choice([-2**31, 2**31 - 1, 100, -100]))])

    def collection(self, env, depth):
        starts = [(v, r) for v, t in enumerate(env) for r in roles(self.book, t)]
        near = [(v, r) for v, r in starts if v == len(env) - 1] or starts
        op = pick(self.draw, [(7 if starts else 0, 'role'), (2, 'all'), (3 if depth > 0 else 0, 'select')])
        if op == 'role':
            return (op, *self.draw.choice(near if self.draw.random() < 0.6 else starts))
        if op == 'all':
            return op, self.draw.randrange(len(self.book.types))
        return self.binder(op, env, depth)

    def binder(self, op, env, depth):
        c = self.collection(env, depth - 1)
        return op, c, self.truth(env + [member_type(self.book, c)], depth - 1)

    def number(self, env, depth):
        cells = [(v, k) for v, t in enumerate(env) for k in range(self.book.cells(t))]
        deep = 1 if depth > 0 else 0
        sums = 16 if self.book.floors else 4
        op = pick(self.draw, [(2, 'num'), (5 if cells else 0, 'cell'), (3 * deep, 'size'), (sums * deep, 'sum'), (1.5 * deep, 'add'), (2 * deep, 'sub')])
        if op == 'num':
            return op, self.number_of()
        if op == 'cell':
            return (op, *self.draw.choice(cells))
        if op in ('add', 'sub'):
            return op, self.number(env, depth - 1), self.number(env, depth - 1)
        c = self.collection(env, depth - 1)
        width = self.book.cells(member_type(self.book, c))
        return (op, c, self.draw.randrange(width)) if op == 'sum' and width else ('size', c)

    def comparison(self, env, depth):
        op = self.draw.choice(['le', 'lt', 'eq', 'ne', 'ge', 'gt'])
        left = self.number(env, depth - 1)
        right = self.number(env, depth - 1) if left[0] == 'num' or self.draw.random() < 0.5 else ('num', self.number_of())
        return op, left, right

    def truth(self, env, depth):
        deep = 1 if depth > 0 else 0
        op = pick(self.draw, [(5, 'compare'), (2, 'kind'), (5 * deep, 'forall'), (5 * deep, 'exists'), (2 * deep, 'not'), (2 * deep, 'and'),
                              (2 * deep, 'or'), (1.5 * deep, 'xor'), (2 * deep, 'implies')])
        if op == 'compare':
            return self.comparison(env, depth)
        if op == 'kind':
            return op, self.draw.randrange(len(env)), self.draw.randrange(len(self.book.types))
        if op in ('forall', 'exists'):
            return self.binder(op, env, depth)
        if op == 'not':
            return op, self.truth(env, depth - 1)
        return op, self.truth(env, depth - 1), self.truth(env, depth - 1)

    def made_quiet(self, body, context):
        """The body, or a forall over a role of self. An insert by itself selects nothing there, so that the losses of an id inserted again show."""
        own = roles(self.book, context)
        if not own:
            return body
        c = 'role', 0, self.draw.choice(own)
        return 'or', ('forall', c, self.truth([context, member_type(self.book, c)], 1)), body

    def quiet(self, context, depth, wanted=True):
        """A body that is quiet, or quietly false, by roles of self, whichever of them are counted for a special. The context has a role."""
        op = pick(self.draw, [(3, 'quantifier')] + [(1, op) for op in ('not', 'and', 'or', 'implies') if depth > 0])
        if op == 'quantifier':
            c = 'role', 0, self.draw.choice(roles(self.book, context))
            return 'forall' if wanted else 'exists', c, self.truth([context, member_type(self.book, c)], 1)
        if op == 'not':
            return op, self.quiet(context, depth - 1, not wanted)
        sides = [not wanted if op == 'implies' else wanted, wanted]
        if wanted != (op == 'and'):  # one part is enough
            sides[self.draw.randrange(2)] = None
        return (op, *(self.truth([context], 1) if side is None else self.quiet(context, depth - 1, side) for side in sides))


def forms(f):
    return 1 + sum(forms(part) for part in f if isinstance(part, tuple))


def without_floors(book):
    bare = plain.Book()
    bare.types, bare.relationships, bare.rules = book.types, book.relationships, book.rules
    return bare


def shortened(book, rule):
    """Whether floors make the event list of a rule shorter."""
    return plain.EventList(book, rule).types != plain.EventList(without_floors(book), rule).types


def dull(book, rule):
    """Whether a rule lists little more than its context, whose special counts here also where request 06 leaves it out."""
    listed = plain.EventList(book, rule)
    return len(set(listed.types) | listed.parented(5, book.rules[rule][0])) <= 2


def add_rules(draw, book, register, specials=False):
    """Rules, of which most hold, and most list more than their context."""
    bodies = Bodies(draw, book)
    count, all_hold = draw.randint(1, 5), draw.random() < 0.75
    while len(book.rules) < count:
        context = draw.choice([t for t, _ in register.objects.values()] + [draw.randrange(len(book.types))])
        context = draw.choice(sorted(book.above(context)))
        body = bodies.truth([context], draw.randint(1, 5))
        if draw.random() < 0.1:
            body = bodies.made_quiet(body, context)
        if specials and roles(book, context) and draw.random() < 0.9:
            body = bodies.quiet(context, draw.randint(0, 3))
        book.rules.append((context, body))
        rule = len(book.rules) - 1
        holds = not any(plain.broken(book, register, rule, s) for s in register.objects)
        unwanted = dull(book, rule) and draw.random() < 0.8
        unwanted = unwanted or (book.floors != [] and not shortened(book, rule) and draw.random() < 0.97)
        unwanted = unwanted or (specials and book.types[context][0] is None and draw.random() < 0.9)
        if forms(body) > 30 or unwanted or (not holds and (all_hold or draw.random() < 0.5)):
            book.rules.pop()


# ---------------------------------------------------------------- registers

def cell_value(draw):
    return pick(draw, [(30, draw.randint(-3, 4)), (1, draw.choice([-2**31, 2**31 - 1, 1000]))])


def kept(book, t, k, value):
    """A value, or one that keeps the floor of its cell."""
    return min(abs(value), 2**31 - 1) if k in book.floored(t) else value


def possible_links(book, register):
    typed = [(i, t) for i, (t, _) in sorted(register.objects.items())]
    return [(r, a, b) for r, (s, t) in enumerate(book.relationships)
            for a, ta in typed if book.under(ta, s) for b, tb in typed if book.under(tb, t)]


def park(draw, book):
    register = plain.Register()
    size = pick(draw, [(8, draw.randint(2, 6)), (3, draw.randint(7, 10)), (1.5, plain.OBJECT_ROWS)])
    ids = draw.sample(range(1, 20), size)
    if draw.random() < 0.1:
        ids[0] = 65535
    faulty = book.floors != [] and draw.random() < 0.06  # floors are not kept
    for i in ids:
        t = draw.randrange(len(book.types))
        cells = tuple(cell_value(draw) for _ in range(book.cells(t)))
        cells = cells if faulty else tuple(kept(book, t, k, value) for k, value in enumerate(cells))
        register.objects[i] = (t, cells + (0,) * (8 - len(cells)))
    links = possible_links(book, register)
    most = pick(draw, [(8, draw.randint(0, 8)), (2, draw.randint(9, 14)), (1.5, plain.LINK_ROWS)])
    register.links = set(draw.sample(links, min(most, len(links))))
    return register


# ---------------------------------------------------------------- batches

class Batches:
    """Draws events that the register takes as it stands, with a memory of what they undid; and some that are refused."""

    def __init__(self, draw, book, register, specials=False):
        self.draw, self.book, self.now, self.specials = draw, book, register.copy(), specials
        self.events, self.freed, self.parted, self.old_cells = [], [], [], []

    def do(self, *event):
        if plain.event_refusal(self.book, self.now, event) is not None:
            return False
        if event[0] == 'set':
            self.old_cells.append((event[1], event[2], self.now.objects[event[1]][1][event[2]]))
        if event[0] == 'delete':
            self.parted += sorted(plain.links_of(self.now, event[1]))
        plain.apply(self.book, self.now, event)
        self.events.append(event)
        if event[0] == 'delete':
            self.freed.append(event[1])
        if event[0] == 'part':
            self.parted.append(event[1:])
        return True

    def one_of(self, things):
        things = sorted(things)
        return self.draw.choice(things) if things else None

    def typed(self):
        return sorted((i, t) for i, (t, _) in self.now.objects.items())

    def insert(self):
        again = self.freed and self.draw.random() < 0.6
        i = self.draw.choice(self.freed) if again else self.draw.randint(1, 20)
        return self.do('insert', i, self.draw.randrange(len(self.book.types)))

    def delete(self):
        """Takes an object out, more often one with links than not; seldom some of them are parted before it."""
        linked = {i for link in self.now.links for i in link[1:]}
        i = self.one_of(linked if linked and self.draw.random() < 0.6 else self.now.objects)
        if i is None:
            return False
        self.part_some(i, 0.15)
        return self.do('delete', i)

    def part_some(self, i, chance):
        """Parts some links of an object, by a chance that is of all of them together."""
        if self.draw.random() < chance:
            for link in sorted(plain.links_of(self.now, i))[:self.draw.randint(1, 3)]:
                self.do('part', *link)

    def set(self):
        if self.old_cells and self.draw.random() < 0.3:
            return self.do('set', *self.draw.choice(self.old_cells))
        places = [(i, k) for i, t in self.typed() for k in range(self.book.cells(t))]
        if not places:
            return False
        i, k = self.draw.choice(places)
        same = self.draw.random() < 0.1
        return self.do('set', i, k, self.now.objects[i][1][k] if same else kept(self.book, self.now.type_of(i), k, cell_value(self.draw)))

    def join(self):
        if self.parted and self.draw.random() < 0.5:
            return self.do('join', *self.draw.choice(self.parted))
        link = self.one_of(set(possible_links(self.book, self.now)) - self.now.links)
        return link is not None and self.do('join', *link)

    def part(self):
        link = self.one_of(self.now.links)
        return link is not None and self.do('part', *link)

    def special(self):
        moves = [(i, t) for i, own in self.typed() for t in range(len(self.book.types)) if t != own and self.book.under(t, own)]
        return bool(moves) and self.do('special', *self.draw.choice(moves))

    def general(self):
        moves = [(i, t) for i, own in self.typed() for t in self.book.above(own) if t != own]
        return bool(moves) and self.do('general', *self.draw.choice(sorted(moves)))

    def floor_and_back(self):
        """An object out from under a floor, its cell below 0 and mostly up again, and the object back."""
        moves = [(i, own, t, k) for i, own in self.typed() for t in sorted(self.book.above(own)) for k in sorted(self.book.floored(own) - self.book.floored(t))
                 if k < self.book.cells(t)]
        if not moves:
            return False
        i, own, t, k = self.draw.choice(moves)
        if not self.do('general', i, t):
            return False
        self.do('set', i, k, -self.draw.randint(1, 3))
        if self.draw.random() < 0.6:
            self.do('set', i, k, self.draw.randint(0, 4))
        return self.do('special', i, own)

    def link_and_back(self):
        """A link parted and joined, or joined and parted, at once."""
        if self.draw.random() < 0.5 and self.part():
            return self.do('join', *self.events[-1][1:])
        return self.join() and self.do('part', *self.events[-1][1:])

    def type_and_back(self):
        """An object to another type and back to its own."""
        types = dict(self.typed())
        if self.draw.choice([self.general, self.special])():
            i = self.events[-1][1]
            return self.do('special', i, types[i]) or self.do('general', i, types[i])
        return False

    def out_and_back(self):
        """An object whose links are parted made general and special again; a link joined between perhaps, and some of its links after."""
        moves = [(i, own, t) for i, own in self.typed() for t in sorted(self.book.above(own)) if t != own]
        if not moves:
            return False
        i, own, t = self.draw.choice(moves)
        links = [link for link in sorted(plain.links_of(self.now, i)) if self.draw.random() < 0.9 and self.do('part', *link)]
        if not self.do('general', i, t):
            return links != []
        if self.draw.random() < 0.3:
            self.join()
        self.do('special', i, own)
        for link in links:
            if self.draw.random() < 0.4:
                self.do('join', *link)
        return True

    def again(self):
        """An object deleted and inserted again, mostly of its type and joined to some of those that it was linked to, after a set perhaps."""
        alone = {a for _, a, b in self.now.links if a == b}
        i = self.one_of(alone if alone and self.draw.random() < 0.3 else self.now.objects)
        if i is None:
            return False
        t, own = self.now.type_of(i), sorted(plain.links_of(self.now, i))
        if self.book.cells(t) and self.draw.random() < 0.3:
            self.do('set', i, self.draw.randrange(self.book.cells(t)), cell_value(self.draw))
        self.part_some(i, 0.2)
        self.do('delete', i)
        self.do('insert', i, t if self.draw.random() < 0.85 else self.draw.randrange(len(self.book.types)))
        for link in own[:3]:
            if self.draw.random() < 0.6:
                self.do('join', *link)
        return True

    def same_value(self):
        """A cell set to what it is."""
        places = [(i, k, self.now.objects[i][1][k]) for i, t in self.typed() for k in range(self.book.cells(t))]
        return bool(places) and self.do('set', *self.draw.choice(places))

    def in_and_out(self):
        """An object inserted, with a link perhaps, and deleted."""
        if not self.insert():
            return False
        i = self.events[-1][1]
        if self.draw.random() < 0.5:
            own = [link for link in possible_links(self.book, self.now) if i in link[1:]]
            own and self.do('join', *self.draw.choice(own))
        return self.do('delete', i)

    def join_and_delete(self):
        """A link joined, and then one of its ends deleted."""
        return self.join() and self.do('delete', self.draw.choice(self.events[-1][2:]))

    def refused(self):
        """An event that is refused, by a number drawn first, or nothing."""
        wanted = self.draw.choice([7, 8, 9, 10, 11, 12, 13] + [15] * 7 * (self.book.floors != []))
        if wanted == 15:
            self.below_floor()
            return
        kinds = {12: ['general'], 13: ['insert', 'join']}.get(wanted, plain.KINDS)  # which alone meet these
        for _ in range(40):
            event = self.any_event(kinds)
            if plain.event_refusal(self.book, self.now, event) == wanted:
                self.events.append(event)
                return
        return

    def below_floor(self):
        """A set or a special that meets 15, a special where there is one."""
        sets = [('set', i, k, -self.draw.randint(1, 3)) for i, t in self.typed() for k in sorted(self.book.floored(t))]
        specials = [('special', i, t) for i, _ in self.typed() for t in range(len(self.book.types))]
        specials = [event for event in specials if plain.event_refusal(self.book, self.now, event) == 15]
        self.events += [self.draw.choice(specials or sets)] if specials or sets else []

    def any_event(self, kinds=plain.KINDS):
        draw = self.draw
        kind = draw.choice(kinds)
        an_id = lambda: pick(draw, [(12, draw.randint(1, 20)), (1, draw.choice([0, -1, -2**31, 65535]))])
        a_type = pick(draw, [(12, draw.randrange(len(self.book.types))), (1, draw.choice([-1, len(self.book.types), 32]))])
        a_rel = pick(draw, [(12, draw.randrange(len(self.book.relationships))), (1, draw.choice([-1, len(self.book.relationships)]))])
        if kind == 'set':
            return kind, an_id(), pick(draw, [(12, draw.randint(0, 7)), (1, draw.choice([-1, 8]))]), cell_value(draw)
        if kind in ('join', 'part'):
            present = draw.random() < 0.3 and self.one_of(self.now.links)
            return (kind, *present) if present else (kind, a_rel, an_id(), an_id())
        return (kind, an_id()) if kind == 'delete' else (kind, an_id(), a_type)

    def batch(self):
        length = pick(self.draw, [(6, self.draw.randint(1, 3)), (4, self.draw.randint(3, 9)), (0.2, 0)])
        steps = [(3, self.insert), (4, self.delete), (5, self.set), (4, self.join), (4, self.part), (3, self.special), (3, self.general),
                 (2, self.link_and_back), (2, self.type_and_back), (3, self.again), (1, self.join_and_delete)]
        if self.book.floors:
            steps.append((3, self.floor_and_back))
        if self.specials:
            steps += [(15, self.special), (5, self.general), (5, self.type_and_back), (15, self.out_and_back)]
        for _ in range(length * 2):
            if len(self.events) < length:
                pick(self.draw, steps)()
        if self.draw.random() < 0.12:
            self.events = self.events[:8]
            self.refused_somewhere()
        return self.events[:plain.EVENT_ROWS]

    def refused_somewhere(self):
        self.refused()
        if self.draw.random() < 0.5:  # events after it are never looked at
            self.events.append(self.any_event())


# ---------------------------------------------------------------- text

def spelled(f):
    return '(' + ' '.join(spelled(x) if isinstance(x, tuple) else '-' if x is None else str(x) for x in f) + ')'


# Ids in place of 1 to 20: those around 2 to the 16th, and some that have their last bits in common.
FAR = [1, 2, 65534, 65535, 65536, 65537, 65538, 69633, 131073, 131074, 1000000, 16777217, 16777218, 99999999, 1073741825, 1073741826, 2000000000, 2147418111, 2147418113, 2147483646]


def far(line):
    """An object, link or event with other ids, in the same order."""
    kind, *x = line
    first, ids = (1, 2) if kind in ('link', 'join', 'part') else (0, 1)
    named = [FAR[i - 1] if 1 <= i <= 20 else plain.MOST_ID if i == 65535 else i for i in x[first:first + ids]]
    return (kind, *x[:first], *named, *x[first + ids:])


def lines(book, register):
    yield from (('type', n, *t) for n, t in enumerate(book.types))
    yield from (('floor', *f) for f in book.floors)
    yield from (('rel', n, *r) for n, r in enumerate(book.relationships))
    yield from (('rule', n, *r) for n, r in enumerate(book.rules))
    yield from (('ent', i, t, *cells[:book.cells(t)]) for i, (t, cells) in sorted(register.objects.items()))
    yield from (('link', *link) for link in sorted(register.links))


def drawn(number, batches, near=True, floored=False, specials=False):
    """A book and its register with a first batch, and further batches for them."""
    name, show = (f'floors {number}' if floored else f'specials {number}' if specials else number, lambda line: line) if near else (f'far {number}', far)
    draw = Draw(number + 10000 * floored + 20000 * specials)
    book = schema_with_specials(draw) if specials else schema(draw)
    book.floors = floors(draw, book) if floored else []
    register = park(draw, book)
    add_rules(draw, book, register, specials)
    base = [str(name)] + [spelled(line if line[0] in ('type', 'floor', 'rel', 'rule') else show(line)) for line in lines(book, register)]
    for k in range(batches):
        events = [spelled(show(event)) for event in Batches(draw, book, register, specials).batch()]
        yield ([f'+{name}.{k}'] if k else base) + events


def still(draw, book, register):
    """Events that leave a register as it was."""
    while True:
        batches = Batches(draw, book, register)
        for _ in range(draw.randint(1, 2)):
            draw.choice([batches.same_value, batches.link_and_back, batches.type_and_back, batches.in_and_out])()
        if batches.events and (batches.now.objects, batches.now.links) == (register.objects, register.links):
            return batches.events


def inspected(number, batches):
    """A book and a register in which some rule is broken, without events; and batches whose end is the start, which are no inspections."""
    draw, floored, specials, show = Draw(number + 30000), number % 3 == 1, number % 3 == 2, far if number % 4 == 3 else lambda line: line
    book = schema_with_specials(draw) if specials else schema(draw)
    book.floors = floors(draw, book) if floored else []
    register = park(draw, book)
    while plain.full_check(book, register) is None:
        book.rules.clear()
        add_rules(draw, book, register, specials)
    yield [f'inspections {number}'] + [spelled(line if line[0] in ('type', 'floor', 'rel', 'rule') else show(line)) for line in lines(book, register)]
    for k in range(1, batches):
        yield [f'+inspections {number}.{k}'] + [spelled(show(event)) for event in still(draw, book, register)]


if __name__ == '__main__':
    books, batches = int(sys.argv[1]), int(sys.argv[2])
    for number in range(books):
        if 'inspections' in sys.argv:
            for block in inspected(number, batches):
                print('\n'.join(block) + '\n')
            continue
        for block in drawn(number, batches, near='far' not in sys.argv, floored='floors' in sys.argv, specials='specials' in sys.argv):
            print('\n'.join(block) + '\n')
