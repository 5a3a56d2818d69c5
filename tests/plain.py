#!/usr/bin/env python3
"""A plain reading of document 01, with requests 01, 02, 06, 07 and 08 of document 02: what each block of a file of cases has to print.

    plain.py FILE        the expected output of crates/test_batch for the blocks of FILE

A block is a name and a text of document 01, and ends before an empty line. The text of a block whose name starts with `+` has events only:
they are a batch for the book and the register of the last block before it whose name does not. Nothing here is quick or clever: whole sets
are made and looked through, and each function reads the clause that is quoted above it.
"""
import sys

# What the program under test lends, and what it writes into every word that a call has no reason to change.
OBJECT_ROWS, LINK_ROWS, EVENT_ROWS, LIST_WORDS, SOIL = 12, 16, 10, 48, 7
MOST_ID = 2**31 - 1  # request 07, "Ids run from 1 to 2,147,483,647"
KINDS = ['insert', 'delete', 'set', 'join', 'part', 'special', 'general']  # "Events", their order


# ---------------------------------------------------------------- text

def bracket(line):
    """A line as nested tuples of names and numbers; the `-` of a type without a parent is None."""
    stack = [[]]
    for word in line.replace('(', ' ( ').replace(')', ' ) ').split():
        if word == '(':
            stack.append([])
        elif word == ')':
            done = tuple(stack.pop())
            stack[-1].append(done)
        else:
            stack[-1].append(None if word == '-' else int(word) if word.lstrip('-').isdigit() else word)
    return stack[0][0]


class Book:
    def __init__(self):
        self.types, self.floors, self.relationships, self.rules = [], [], [], []

    def above(self, t):
        # "A type is *under* itself, its parent and so on up": the types that t is under
        return set() if t is None else {t} | self.above(self.types[t][0])

    def under(self, t, u):
        return u in self.above(t)

    def cells(self, t):
        return self.types[t][1]

    def floored(self, t):
        # Request 02: "cell k of t and of types under it is at least 0": the cells of a type that have to be, by its own floors and those above
        return {k for u, k in self.floors if self.under(t, u)}

    def roles(self):
        return set(range(2 * len(self.relationships)))

    def roles_from(self, t):
        # "Role 2r goes from source to target of relationship r, role 2r + 1 back": those that start at a type itself, not at one above it
        return {role for role in self.roles() if self.relationships[role // 2][role % 2] == t}


class Register:
    def __init__(self, objects=(), links=()):
        self.objects = dict(objects)  # id: (type, eight cells)
        self.links = set(links)       # (relationship, source id, target id)

    def copy(self):
        return Register(self.objects, self.links)

    def type_of(self, i):
        return self.objects[i][0] if i in self.objects else None


def read(text):
    """The book, the register and the events of a text."""
    book, register, events = Book(), Register(), []
    for line in text.splitlines():
        head, *rest = bracket(line)
        if head == 'type':
            book.types.append((rest[1], rest[2]))
        elif head == 'floor':
            book.floors.append(tuple(rest))
        elif head == 'rel':
            book.relationships.append((rest[1], rest[2]))
        elif head == 'rule':
            book.rules.append((rest[1], rest[2]))
        elif head == 'ent':
            register.objects[rest[0]] = (rest[1], tuple(rest[2:] + [0] * (10 - len(rest))))
        elif head == 'link':
            register.links.add(tuple(rest))
        else:
            events.append((head, *rest))
    return book, register, events


def blocks(text):
    """Name, book, register, events of each block, and whether it brings its own book."""
    base = None
    for block in text.strip('\n').split('\n\n'):
        name, _, body = block.partition('\n')
        book, register, events = read(body)
        if not name.startswith('+'):
            base = book, register
        yield name, base[0], base[1].copy(), events, not name.startswith('+')


# ---------------------------------------------------------------- OCL

def far_ends(register, role, u):
    # "Role 2r goes from source to target of relationship r, role 2r + 1 back."
    near, far = (1, 2) if role % 2 == 0 else (2, 1)
    return {link[far] for link in register.links if link[0] == role // 2 and link[near] == u}


def members(book, register, c, env):
    """The set that a collection is. Variable v is env[v], an id."""
    if c[0] == 'role':
        return far_ends(register, c[2], env[c[1]])
    if c[0] == 'all':
        return {i for i, (t, _) in register.objects.items() if book.under(t, c[1])}
    assert c[0] == 'select'
    return {m for m in members(book, register, c[1], env) if truth(book, register, c[2], env + [m])}


def value(book, register, n, env):
    """The number that a number form is, exact."""
    if n[0] == 'num':
        return n[1]
    if n[0] == 'cell':
        return register.objects[env[n[1]]][1][n[2]]
    if n[0] == 'size':
        return len(members(book, register, n[1], env))
    if n[0] == 'sum':
        return sum(register.objects[m][1][n[2]] for m in members(book, register, n[1], env))
    left, right = value(book, register, n[1], env), value(book, register, n[2], env)
    return {'add': left + right, 'sub': left - right}[n[0]]


def truth(book, register, b, env):
    """Whether a truth form is true."""
    op = b[0]
    if op in ('le', 'lt', 'eq', 'ne', 'ge', 'gt'):
        x, y = value(book, register, b[1], env), value(book, register, b[2], env)
        return {'le': x <= y, 'lt': x < y, 'eq': x == y, 'ne': x != y, 'ge': x >= y, 'gt': x > y}[op]
    if op == 'kind':
        return book.under(register.type_of(env[b[1]]), b[2])
    if op in ('forall', 'exists'):  # "Over nothing, forall is true, exists false"
        each = [truth(book, register, b[2], env + [m]) for m in members(book, register, b[1], env)]
        return all(each) if op == 'forall' else any(each)
    p = truth(book, register, b[1], env)
    if op == 'not':
        return not p
    q = truth(book, register, b[2], env)
    return {'and': p and q, 'or': p or q, 'xor': p != q, 'implies': not p or q}[op]


def broken(book, register, rule, s):
    # "A rule is *broken* at an object under its context type where its body, self that object, is not true."
    context, body = book.rules[rule]
    return book.under(register.type_of(s), context) and not truth(book, register, body, [s])


def full_check(book, register):
    # "the first broken pair, lowest rule and then lowest id, or accepted" (None)
    pairs = [(r, s) for r in range(len(book.rules)) for s in sorted(register.objects)]
    return next((pair for pair in pairs if broken(book, register, *pair)), None)


# ---------------------------------------------------------------- events

def known(book, event):
    """Whether 7 is not met: "kind, type, relationship unknown; cell not 0 to 7; id not 1 to" the last that there is."""
    kind, *x = event
    is_id, is_type = (lambda i: 1 <= i <= MOST_ID), (lambda t: 0 <= t < len(book.types))
    if kind in ('insert', 'special', 'general'):
        return is_id(x[0]) and is_type(x[1])
    if kind == 'delete':
        return is_id(x[0])
    if kind == 'set':
        return is_id(x[0]) and 0 <= x[1] <= 7
    return 0 <= x[0] < len(book.relationships) and is_id(x[1]) and is_id(x[2])


def named(event):
    """The objects that have to be there (8). Reading 12: an insert names none."""
    kind, *x = event
    return [] if kind == 'insert' else x[1:] if kind in ('join', 'part') else x[:1]


def fits(book, register, event):
    """Whether 11 is not met: "cell, end or new type does not fit"."""
    kind, *x = event
    if kind == 'set':
        return x[1] < book.cells(register.type_of(x[0]))
    if kind == 'join':
        ends = book.relationships[x[0]]
        return all(book.under(register.type_of(i), end) for i, end in zip(x[1:], ends))
    t = register.type_of(x[0]) if kind in ('special', 'general') else None
    if kind == 'special':  # "to a type strictly under its own"
        return x[1] != t and book.under(x[1], t)
    if kind == 'general':  # "to one strictly above"
        return x[1] != t and book.under(t, x[1])
    return True


def below_floor(book, t, cells):
    """Whether an object of a type would have a floored cell below 0."""
    return any(cells[k] < 0 for k in book.floored(t))


def register_refusal(book, register):
    """Request 02: "A register below a floor is refusal 5", at the first such row, or None. In all else the registers here are in order."""
    rows = [below_floor(book, *register.objects[i]) for i in sorted(register.objects)]
    return (5, rows.index(True)) if True in rows else None


def brought_below(book, register, event):
    """Whether 15 is met: "a set puts a floored cell below 0 or a special brings an object with such a cell under a floor"."""
    kind, *x = event
    if kind == 'set':
        return x[2] < 0 and x[1] in book.floored(register.type_of(x[0]))
    return kind == 'special' and below_floor(book, x[1], register.objects[x[0]][1])


def needed(book, register, event):
    """Whether 12 is met: "general out of a type a link needs"; by request 01 it "remains for `general` alone". Reading 14: at both ends."""
    kind, *x = event
    for r, a, b in register.links:
        for end, asked in ((a, book.relationships[r][0]), (b, book.relationships[r][1])):
            if kind == 'general' and end == x[0] and not book.under(x[1], asked):
                return True
    return False


def full(register, event):
    """Whether 13 is met: "the table's rows or the limit are full". Reading 13: at the event."""
    rows = {'insert': (register.objects, min(OBJECT_ROWS, 1024)), 'join': (register.links, min(LINK_ROWS, 4096))}
    return event[0] in rows and len(rows[event[0]][0]) >= rows[event[0]][1]


def event_refusal(book, register, event):
    """The refusal that an event meets, in the table's order, or None."""
    kind, *x = event
    if not known(book, event):
        return 7
    if any(i not in register.objects for i in named(event)):
        return 8
    if (kind == 'insert' and x[0] in register.objects) or (kind == 'join' and tuple(x) in register.links):
        return 9
    if kind == 'part' and tuple(x) not in register.links:
        return 10
    if not fits(book, register, event):
        return 11
    if brought_below(book, register, event):  # request 02: "checked after 11"
        return 15
    if needed(book, register, event):
        return 12
    return 13 if full(register, event) else None


def links_of(register, i):
    """The links that have an object at an end, or at both."""
    return {link for link in register.links if i in link[1:]}


def apply(book, register, event):
    # "Insert adds the object, delete takes it out, set puts v in cell k, ..; nothing else changes." Request 01: "`delete` removes the
    # object's links itself."
    kind, *x = event
    if kind == 'insert':
        register.objects[x[0]] = (x[1], (0,) * 8)
    elif kind == 'delete':
        del register.objects[x[0]]
        register.links -= links_of(register, x[0])
    elif kind == 'set':
        t, cells = register.objects[x[0]]
        register.objects[x[0]] = (t, cells[:x[1]] + (x[2],) + cells[x[1] + 1:])
    elif kind == 'join':
        register.links.add(tuple(x))
    elif kind == 'part':
        register.links.remove(tuple(x))
    else:  # "cells the new type lacks become 0"; going down, the cells that are new were 0
        cells = register.objects[x[0]][1][:book.cells(x[1])]
        register.objects[x[0]] = (x[1], cells + (0,) * (8 - len(cells)))


# ---------------------------------------------------------------- reach rules

# How a form of parts moves by the movement of its parts: as the part (+), reversed (-), either way by any movement (*).
PARTS = {
    'select': '++',  # "gain if c gains or b may turn true at a member of c; loss if c loses or b may turn false at one"
    'size': '+',     # "rises by gain, falls by loss"
    'sum': '**',     # "either way by gain, loss or a set of that cell at a member" (the second part)
    'floored sum': '+*',  # request 02: "rises by gain only and falls by loss only; a set moves it both ways"
    'add': '++', 'sub': '+-',  # "as its parts; `sub`: second part reversed"
    'le': '-+', 'lt': '-+',    # "may turn false if the left may rise or the right fall, true the other way"
    'ge': '+-', 'gt': '+-',    # "mirrored"
    'eq': '**', 'ne': '**',    # "either way by any movement"
    'forall': '-+',  # "false by gain, or if b may turn false at a member; true by loss, or if b may turn true at one"
    'exists': '++',  # "false by loss or b, true by gain or b"
    'not': '-', 'and': '++', 'or': '++', 'implies': '-+', 'xor': '**',
}


def turned(sign, moves):
    up, down = moves
    return {'+': (up, down), '-': (down, up), '*': (up | down, up | down)}[sign]


class Reach:
    """What moves a form, as two answers: (gain, loss) of a collection, (rise, fall) of a number, (turn true, turn false) of a truth.

    Two readings have it: of a batch at some objects, where an answer is yes or no, and of a book "without objects", where it is the event
    types that do it. Each says what its leaves are, what a condition does at the members of a collection, and what sets a cell of them."""

    def member_type(self, c):
        if c[0] == 'role':
            return self.book.relationships[c[2] // 2][1 - c[2] % 2]
        return c[1] if c[0] == 'all' else self.member_type(c[1])

    def row(self, f):
        """The row of PARTS: a sum is over a floored cell by the members' type, whatever members there are."""
        return 'floored sum' if f[0] == 'sum' and f[2] in self.book.floored(self.member_type(f[1])) else f[0]

    def moves(self, f, env):
        op = f[0]
        if op in ('role', 'all', 'num', 'cell', 'kind'):
            return getattr(self, op)(*f[1:], env)
        parts = [self.moves(f[1], env)]
        if op == 'sum':
            a_set = self.set_at_member(f[1], f[2], env)
            parts.append((a_set, a_set))
        elif op in ('select', 'forall', 'exists'):
            parts.append(self.at_members(f[1], f[2], env))
        elif op not in ('size', 'not'):
            parts.append(self.moves(f[2], env))
        ups, downs = zip(*(turned(sign, part) for sign, part in zip(PARTS[self.row(f)], parts)))
        return self.either(ups), self.either(downs)


class Batch(Reach):
    """What the events of a batch did, each on what the one before it left, and the register they leave, *the end*."""

    def __init__(self, book, register, events):
        self.book, self.end, self.refused = book, register.copy(), register_refusal(book, register)
        self.empty = not events  # by the events themselves: a batch that leaves all as it was is not empty
        self.sets, self.joined, self.parted = set(), set(), set()
        self.taken = set()  # (a link that a delete took along, the object deleted)
        self.changes = []  # (kind, id, the types it brought the object into, the types it took it out of)
        if self.refused is not None:
            return
        for place, event in enumerate(events):
            number = event_refusal(book, self.end, event)
            if number is not None:  # "the first faulty event decides"
                self.refused = number, place
                return
            self.note(event)

    def note(self, event):
        kind, *x = event
        before = self.end.type_of(x[0]) if kind not in ('join', 'part') else None
        if kind == 'delete':
            self.taken |= {(link, x[0]) for link in links_of(self.end, x[0])}
        apply(self.book, self.end, event)
        if kind in ('join', 'part'):
            (self.joined if kind == 'join' else self.parted).add(tuple(x))
        elif kind == 'set':
            self.sets.add((x[0], x[1]))
        else:  # Reading 15: "brought in" and "took out" are of the type in question.
            old, new = self.book.above(before), self.book.above(self.end.type_of(x[0]))
            self.changes.append((kind, x[0], new - old, old - new))

    def there(self, i, t):
        """Whether an object is under a type at the end: "an object being known by its id"."""
        return self.book.under(self.end.type_of(i), t)

    def brought(self, kind, i, t):
        return any(k == kind and j == i and t in entered for k, j, entered, _ in self.changes)

    def took(self, kind, i, t):
        return any(k == kind and j == i and t in left for k, j, _, left in self.changes)

    either = staticmethod(any)

    def role(self, v, role, env):
        # "gain if a join named such a link and it is there at the end .. loss if a part named one, back again or not". Request 01, of what a
        # delete takes: "Each counts as parted for the object at the other end, not for the deleted id, even if that id is inserted again."
        near = 1 if role % 2 == 0 else 2
        such = lambda link: link[0] == role // 2 and link[near] == env[v]
        gain = any(such(link) and link in self.end.links for link in self.joined)
        taken = any(such(link) and env[v] != deleted for link, deleted in self.taken)
        return gain, any(such(link) for link in self.parted) or taken

    def all(self, t, env):
        # "gain if an insert or special brought in an object that is under t at the end; loss if a delete or general took one out"
        gain = any(k in ('insert', 'special') and t in entered and self.there(i, t) for k, i, entered, _ in self.changes)
        return gain, any(k in ('delete', 'general') and t in left for k, _, _, left in self.changes)

    def num(self, n, env):
        return False, False  # "never"

    def cell(self, v, k, env):
        # "may rise or fall if a set named that object and cell"
        return ((env[v], k) in self.sets,) * 2

    def kind(self, v, t, env):
        # "false if a general took that object out of t, true if a special brought it in and it is there at the end"
        return self.brought('special', env[v], t) and self.there(env[v], t), self.took('general', env[v], t)

    def at_members(self, c, b, env):
        # "Members are always those at the end."
        each = [self.moves(b, env + [m]) for m in members(self.book, self.end, c, env)]
        return any(up for up, _ in each), any(down for _, down in each)

    def set_at_member(self, c, k, env):
        return any((m, k) in self.sets for m in members(self.book, self.end, c, env))

    def selected(self, rule, s):
        # "s is under the context type at the end and: the body may turn false at s; or an insert brought s into the context type and the body is
        # not quiet; or a special did", where by request 06 it "selects and lists nothing when the body is quiet counting only roles that start
        # at the context type itself; no link at such a role can be older than the change"
        context, body = self.book.rules[rule]
        if not self.there(s, context):
            return False
        if self.empty:  # request 08: "A batch without events selects every pair of rule and object of its context type."
            return True
        false = self.moves(body, [s])[1]
        inserted = self.brought('insert', s, context) and not quiet(body, self.book.roles())
        special = self.brought('special', s, context) and not quiet(body, self.book.roles_from(context))
        return false or inserted or special

    def pairs(self):
        # "rule then id, ascending, no repeat"
        return [(r, s) for r in range(len(self.book.rules)) for s in sorted(self.end.objects) if self.selected(r, s)]

    def occurring(self):
        """The event types that occur: what each event of the batch counts for; a delete for its types alone, whatever it takes along."""
        changes = {(KINDS.index(k), t, 0) for k, _, entered, left in self.changes for t in entered | left}
        sets = {(2, t, k) for i, k in self.sets for t in self.book.above(self.end.type_of(i))}  # Reading 22
        return changes | sets | {(3, link[0], 0) for link in self.joined} | {(4, link[0], 0) for link in self.parted}


# ---------------------------------------------------------------- quiet

def over_own_role(b, counted):
    return b[1][:2] == ('role', 0) and b[1][2] in counted


def quiet(b, counted):
    # "forall over a role of self; `and` of two quiet, `or` with one; `not` and `implies` likewise through the dual", by the roles that are
    # counted: request 06 counts fewer for a special than an insert has. Reading 17
    if b[0] == 'forall':
        return over_own_role(b, counted)
    if b[0] == 'and':
        return quiet(b[1], counted) and quiet(b[2], counted)
    if b[0] == 'or':
        return quiet(b[1], counted) or quiet(b[2], counted)
    if b[0] == 'implies':
        return quietly_false(b[1], counted) or quiet(b[2], counted)
    return b[0] == 'not' and quietly_false(b[1], counted)


def quietly_false(b, counted):
    # "the dual, where exists over a role of self is quietly false"
    if b[0] == 'exists':
        return over_own_role(b, counted)
    if b[0] == 'and':
        return quietly_false(b[1], counted) or quietly_false(b[2], counted)
    if b[0] == 'or':
        return quietly_false(b[1], counted) and quietly_false(b[2], counted)
    if b[0] == 'implies':
        return quiet(b[1], counted) and quietly_false(b[2], counted)
    return b[0] == 'not' and quiet(b[1], counted)


# ---------------------------------------------------------------- event lists

class EventList(Reach):
    # "The same rules without objects": an answer is a set of event types. Variable v has the type env[v]

    def __init__(self, book, rule):
        self.book = book
        context, body = book.rules[rule]
        inserts = set() if quiet(body, book.roles()) else {(0, context, 0)}
        specials = set() if quiet(body, book.roles_from(context)) else self.parented(5, context)  # request 06, "lists nothing"
        self.types = sorted(self.moves(body, [context])[1] | inserts | specials)

    def parented(self, kind, t):
        # "`special t` and `general t` are left out where t has no parent"
        return set() if self.book.types[t][0] is None else {(kind, t, 0)}

    either = staticmethod(lambda types: set().union(*types))

    def role(self, v, role, env):
        # "role gain lists join, loss part"; by request 01 "delete of the type at the role's far end is listed too" with the loss
        return {(3, role // 2, 0)}, {(4, role // 2, 0), (1, self.member_type(('role', v, role)), 0)}

    def all(self, t, env):
        # "gain lists insert t and special t, loss delete t and general t"
        return {(0, t, 0)} | self.parented(5, t), {(1, t, 0)} | self.parented(6, t)

    def num(self, n, env):
        return set(), set()

    def cell(self, v, k, env):
        return ({(2, env[v], k)},) * 2  # "a cell or sum lists set of the variable's or member's type and that cell"

    def kind(self, v, t, env):
        return self.parented(5, t), self.parented(6, t)

    def at_members(self, c, b, env):
        return self.moves(b, env + [self.member_type(c)])

    def set_at_member(self, c, k, env):
        return {(2, self.member_type(c), k)}


# ---------------------------------------------------------------- the batch check

class Checked:
    """The batch check's answer, its list, and the register it leaves; `register` is left as it was lent."""

    def __init__(self, book, register, events):
        self.batch = Batch(book, register, events)
        self.pairs, self.left = [], register
        if self.batch.refused is not None:
            self.answer = ('refused', *self.batch.refused)
            return
        pairs = self.batch.pairs()
        if 2 * len(pairs) > LIST_WORDS:  # 14
            self.answer = ('refused', 14, 0)
            return
        self.pairs = pairs
        first = next((pair for pair in pairs if broken(book, self.batch.end, *pair)), None)
        self.answer = ('accepted',) if first is None else ('broken', *first)
        if first is None:
            self.left = self.batch.end


def table(rows, width, count, free):
    """The words of a lent table: its rows, and `free` in every word past them."""
    words = [word % 2**32 for row in rows for word in row]
    return words + [free] * (width * count - len(words))


def checksum(checked, pairs_words):
    """One number of every word of the objects, the links and the list. Unused rows are 0 after an accepted batch, and else as lent."""
    free = 0 if checked.answer[0] == 'accepted' else SOIL
    objects = [(i, t, *cells) for i, (t, cells) in sorted(checked.left.objects.items())]
    words = table(objects, 10, OBJECT_ROWS, free) + table(sorted(checked.left.links), 3, LINK_ROWS, free) + pairs_words
    total = 1
    for word in words:
        total = (total * 65599 + word) % 4294967291
    return total


def show(name, checked):
    """The line of a block."""
    answer = ' '.join(str(part) for part in checked.answer)
    words = [word for pair in checked.pairs for word in pair]
    total = checksum(checked, words + [SOIL] * (LIST_WORDS - len(words)))
    if checked.answer[0] == 'refused':
        return f'{name}: {answer}; {total}'
    pairs = ''.join(f' {r}:{s}' for r, s in checked.pairs)
    return f'{name}: {answer};{pairs}; {len(checked.left.objects)} {len(checked.left.links)}; {total}'


def show_lists(book):
    """The event list of each rule of a book."""
    for rule in range(len(book.rules)):
        yield f'{rule}:' + ''.join(' %d,%d,%d' % event for event in EventList(book, rule).types)


def output(text):
    count = 0
    for name, book, register, events, own in blocks(text):
        count += 1
        yield show(name, Checked(book, register, events))
        if own:
            yield from show_lists(book)
    yield f'{count} cases'


if __name__ == '__main__':
    for line in output(open(sys.argv[1]).read()):
        print(line)
