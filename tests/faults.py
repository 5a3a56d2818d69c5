#!/usr/bin/env python3
"""Puts one fault after the other into a copy of plain.py or whole.py, and counts the cases that notice it.

    faults.py FILE [WORD]        of plain.py, by the blocks of FILE
    faults.py checks [WORD]      of whole.py, by the texts of checks.py

With a word, only the faults that have it in their names. Ends with an error if some fault is noticed by none.
"""
import os
import sys

import checks

HERE = os.path.dirname(os.path.abspath(__file__))

# The pieces of plain.py that request 06 put there: which roles start at a type, and where a special is selected and listed by them.
OWN_ROLES = 'return {role for role in self.roles() if self.relationships[role // 2][role % 2] == t}'
START = '[role % 2] == t'
SELECTED = 'not quiet(body, self.book.roles_from(context))'
LISTED = 'quiet(body, book.roles_from(context))'
# Whether a body names a role of self that starts at the context type, or one that starts higher.
NAMED_OWN = "any(str(('role', 0, r)) in str(body) for r in self.book.roles_from(context))"
NAMED_OTHER = "any(str(('role', 0, r)) in str(body) for r in self.book.roles() - self.book.roles_from(context))"

# The pieces of request 08: when a batch is an inspection, and what it selects.
EMPTY = 'self.empty = not events'
INSPECTED = 'if self.empty:'
FIRST = 'first = next((pair for pair in pairs if broken(book, self.batch.end, *pair)), None)'
PAIRS = 'return [(r, s) for r in range(len(self.book.rules)) for s in sorted(self.end.objects) if self.selected(r, s)]'
SHORT = 'if 2 * len(pairs) > LIST_WORDS:'
STILL = '(self.end.objects, self.end.links) == (self.start.objects, self.start.links)'


def within(variable):
    """Whether a body is a forall right within another, over a role of a variable that starts at the context type."""
    inner = f"body[2][0] == 'forall' and body[2][1][:2] == ('role', {variable}) and body[2][1][2] in self.book.roles_from(context)"
    return f"(body[0] == 'forall' and {inner})"


# What is wrong; a piece of plain.py that stands there once; what stands there instead.
FAULTS = [
    ('ids end at 65,535', 'MOST_ID = 2**31 - 1', 'MOST_ID = 2**16 - 1'),
    ('a loss counts only if the link is gone at the end',
     'any(such(link) for link in self.parted)', 'any(such(link) and link not in self.end.links for link in self.parted)'),
    ('a delete leaves the links at which it is the target', 'register.links -= links_of(register, x[0])',
     'register.links -= {link for link in links_of(register, x[0]) if link[1] == x[0]}'),
    ('a delete leaves the links at which it is the source', 'register.links -= links_of(register, x[0])',
     'register.links -= {link for link in links_of(register, x[0]) if link[2] == x[0]}'),
    ('a delete leaves the link of its object to itself', 'register.links -= links_of(register, x[0])',
     'register.links -= {link for link in links_of(register, x[0]) if link[1] != link[2]}'),
    ('a delete takes one of its links', 'register.links -= links_of(register, x[0])', 'register.links -= set(sorted(links_of(register, x[0]))[:1])'),
    ('a delete takes the links of one relationship', 'register.links -= links_of(register, x[0])',
     'register.links -= {link for link in links_of(register, x[0]) if link[0] == 0}'),
    ('a link that a delete takes counts for the deleted id', 'such(link) and env[v] != deleted for', 'such(link) for'),
    ('a link that a delete takes counts for the deleted id alone', 'such(link) and env[v] != deleted for', 'such(link) and env[v] == deleted for'),
    ('a link of an object to itself counts where a delete takes it', 'such(link) and env[v] != deleted for',
     'such(link) and (env[v] != deleted or link[1] == link[2]) for'),
    ('a link that a delete takes counts for nobody', 'for link in self.parted) or taken', 'for link in self.parted)'),
    ('a link that a delete takes does not count if it is back', 'such(link) and env[v] != deleted for',
     'such(link) and env[v] != deleted and link not in self.end.links for'),
    ('a link that a delete takes does not count if the batch joined it', 'such(link) and env[v] != deleted for',
     'such(link) and env[v] != deleted and link in self.start.links for'),
    ('a link that a delete takes counts while the deleted id is absent', 'such(link) and env[v] != deleted for',
     'such(link) and env[v] != deleted and deleted not in self.end.objects for'),
    ("delete is not listed at a role's loss", "{(4, role // 2, 0), (1, self.member_type(('role', v, role)), 0)}", '{(4, role // 2, 0)}'),
    ("delete of the near type is listed at a role's loss", "self.member_type(('role', v, role)), 0)}", "self.member_type(('role', v, role ^ 1)), 0)}"),
    ("delete of the variable's type is listed at a role's loss", "self.member_type(('role', v, role)), 0)}", 'env[v], 0)}'),
    ("delete is listed at a role's gain", 'return {(3, role // 2, 0)}, {', "return {(3, role // 2, 0), (1, self.member_type(('role', v, role)), 0)}, {"),
    ('12 is met by a delete of a linked object', "if kind == 'general' and end == x[0] and not book.under(x[1], asked):",
     "if kind in ('delete', 'general') and end == x[0] and (kind == 'delete' or not book.under(x[1], asked)):"),
    ('12 is met by nothing', '    if needed(book, register, event):\n        return 12\n', ''),
    ('a gain counts though the link is gone at the end', 'such(link) and link in self.end.links', 'such(link)'),
    ('a role has the links at its other end too', 'and link[near] == env[v]', 'and env[v] in link[1:]'),
    ('a role is taken the other way round', 'near = 1 if role % 2 == 0 else 2\n        such', 'near = 2 if role % 2 == 0 else 1\n        such'),
    ('all t gains an object that is not there at the end', ' and self.there(i, t) for k, i, entered', ' for k, i, entered'),
    ('all t loses only what is gone at the end', "and t in left for k, _, _, left", "and t in left and not self.there(i, t) for k, i, _, left"),
    ('all t gains by insert only', "gain = any(k in ('insert', 'special')", "gain = any(k in ('insert',)"),
    ('all t loses by delete only', "any(k in ('delete', 'general')", "any(k in ('delete',)"),
    ('a special within a type brings its object into it', 'new - old, old - new))', 'new if kind == "special" else new - old, old - new))'),
    ('a general within a type takes its object out of it', 'new - old, old - new))', 'new - old, old if kind == "general" else old - new))'),
    ("select's condition ignored", "'select': '++'", "'select': '+'"),
    ("select's collection ignored", 'ups, downs = zip(', "parts = parts[1:] * 2 if op == 'select' else parts\n        ups, downs = zip("),
    ('members of a select are all of its collection', 'for m in members(self.book, self.end, c, env)]\n',
     'for m in members(self.book, self.end, c if c[0] != "select" else c[1], env)]\n'),
    ('a sum is moved by a set at an object that select leaves out', 'in self.sets for m in members(self.book, self.end, c, env)',
     'in self.sets for m in members(self.book, self.end, c if c[0] != "select" else c[1], env)'),
    ('members by the links before the batch', 'for m in members(self.book, self.end, c, env)]\n',
     'for m in members(self.book, Register(self.end.objects, [l for l in self.start.links if {l[1], l[2]} <= set(self.end.objects)]), c, env)]\n'),
    ('a role of an outer variable is not followed', '        each = [self.moves(b,',
     '        if c[0] == "role" and c[1] != len(env) - 1:\n            return False, False\n        each = [self.moves(b,'),
    ('all t in a body of another is not followed', '        each = [self.moves(b,',
     '        if c[0] == "all" and len(env) > 1:\n            return False, False\n        each = [self.moves(b,'),
    ('a condition is not looked at two variables down', '        each = [self.moves(b,',
     '        if len(env) > 2:\n            return False, False\n        each = [self.moves(b,'),
    ('a sum rises by gain and falls by loss only', "'sum': '**'", "'sum': '+*'"),
    ('a sum is not moved by a loss', 'a_set = self.set_at_member(f[1], f[2], env)', 'a_set, parts = self.set_at_member(f[1], f[2], env), [(parts[0][0],) * 2]'),
    ('a sum is not moved by a set', "'sum': '**'", "'sum': '*'"),
    ('size falls by gain', "'size': '+'", "'size': '-'"),
    ('sub does not reverse its second part', "'sub': '+-'", "'sub': '++'"),
    ('le mirrored', "'le': '-+'", "'le': '+-'"),
    ('lt either way', "'lt': '-+'", "'lt': '**'"),
    ('ge not mirrored', "'ge': '+-'", "'ge': '-+'"),
    ('gt does not look at its right', "'gt': '+-'", "'gt': '+'"),
    ('eq one way', "'eq': '**'", "'eq': '-+'"),
    ('ne one way', "'ne': '**'", "'ne': '+-'"),
    ('forall is false by loss', "'forall': '-+'", "'forall': '++'"),
    ('exists is false by gain', "'exists': '++'", "'exists': '-+'"),
    ('not does not reverse', "'not': '-'", "'not': '+'"),
    ('implies does not reverse its left', "'implies': '-+'", "'implies': '++'"),
    ('xor one way', "'xor': '**'", "'xor': '++'"),
    ('and looks at its first part only', "'and': '++'", "'and': '+'"),
    ('kind turns true without being there at the end', 'env[v], t) and self.there(env[v], t)', 'env[v], t)'),
    ('kind turns false only if not back', "self.took('general', env[v], t)", "self.took('general', env[v], t) and not self.there(env[v], t)"),
    ('kind turns true by an insert', "return self.brought('special', env[v], t)",
     "return (self.brought('special', env[v], t) or self.brought('insert', env[v], t))"),
    ('an insert sets cells', '            self.changes.append(', '            self.sets |= {(x[0], k) for k in range(8) if kind == "insert"}\n            self.changes.append('),
    ('a general sets the cells it drops', '            self.changes.append(', '            self.sets |= {(x[0], k) for k in range(8) if kind == "general"}\n            self.changes.append('),
    ('a delete forgets the sets before it', '            self.changes.append(',
     '            self.sets = {s for s in self.sets if kind != "delete" or s[0] != x[0]}\n            self.changes.append('),
    ('a delete forgets the parts before it', '            self.changes.append(',
     '            self.parted = {l for l in self.parted if kind != "delete" or x[0] not in l[1:]}\n            self.changes.append('),
    ('a set to the value that is there does not count', '            self.sets.add((x[0], x[1]))',
     '            self.sets |= {(x[0], x[1])} if self.old.objects[x[0]] != self.end.objects[x[0]] else set()'),
    ('a set undone does not count', 'return ((env[v], k) in self.sets,) * 2',
     'return ((env[v], k) in self.sets and (env[v] not in self.start.objects or self.start.objects[env[v]][1][k] != self.end.objects[env[v]][1][k]),) * 2'),
    ('an insert into the context selects though the body is quiet', "context) and not quiet(body, self.book.roles())\n", 'context)\n'),
    ('an insert into the context selects nothing', "inserted = self.brought", "inserted = False and self.brought"),
    ('a special into the context selects nothing', "special = self.brought", "special = False and self.brought"),
    ('forall over a select of a role is quiet', "return b[1][:2] == ('role', 0) and b[1][2] in counted",
     "c = b[1][1] if b[1][0] == 'select' else b[1]\n    return c[:2] == ('role', 0) and c[2] in counted"),
    ('exists over a role is quiet', "if b[0] == 'forall':\n        return over", "if b[0] in ('forall', 'exists'):\n        return over"),
    ('or is quiet only with two', 'return quiet(b[1], counted) or quiet(', 'return quiet(b[1], counted) and quiet('),
    ('and is quiet with one', 'return quiet(b[1], counted) and quiet(', 'return quiet(b[1], counted) or quiet('),
    ('implies is quiet by its right only', 'return quietly_false(b[1], counted) or quiet(b[2], counted)', 'return quiet(b[2], counted)'),
    ('implies is quiet by its left only', 'return quietly_false(b[1], counted) or quiet(b[2], counted)', 'return quietly_false(b[1], counted)'),
    ('implies is quiet only with two', 'return quietly_false(b[1], counted) or quiet(b[2], counted)', 'return quietly_false(b[1], counted) and quiet(b[2], counted)'),
    ('not is never quiet', "return b[0] == 'not' and quietly_false(b[1], counted)", 'return False'),
    ('not is never quietly false', "return b[0] == 'not' and quiet(b[1], counted)", 'return False'),
    ('or is quietly false with one', 'return quietly_false(b[1], counted) and quietly_false(', 'return quietly_false(b[1], counted) or quietly_false('),
    ('and is quietly false only with two', 'return quietly_false(b[1], counted) or quietly_false(', 'return quietly_false(b[1], counted) and quietly_false('),
    ('implies is quietly false with one', 'return quiet(b[1], counted) and quietly_false(', 'return quiet(b[1], counted) or quietly_false('),
    ('all t lists no special', '{(0, t, 0)} | self.parented(5, t)', '{(0, t, 0)}'),
    ('general t is listed where t has no parent', "return set() if self.book.types[t][0] is None", 'return set() if kind == 5 and self.book.types[t][0] is None'),
    ("a cell lists the context's type", '{(2, env[v], k)}', '{(2, env[0], k)}'),
    ('a special counts every role', OWN_ROLES, 'return self.roles()'),
    ('a special counts every role, and is listed as it should be', SELECTED, 'not quiet(body, self.book.roles())'),
    ('a special counts every role where it is listed alone', LISTED, 'quiet(body, book.roles())'),
    ('a special counts no role: it always selects and is always listed', OWN_ROLES, 'return set()'),
    ('a special always selects, listed or not', SELECTED, 'True'),
    ('a special is always listed, selected or not', LISTED, 'False'),
    ('an insert counts the roles of the context type alone', "context) and not quiet(body, self.book.roles())", "context) and not quiet(body, self.book.roles_from(context))"),
    ('an insert counts the roles of the context type alone where it is listed', 'quiet(body, book.roles()) else', 'quiet(body, book.roles_from(context)) else'),
    ('a role starts at its far end', START, '[1 - role % 2] == t'),
    ('a role and its way back start at the source', START, '[0] == t'),
    ('a role and its way back start at the target', START, '[1] == t'),
    ('a role starts at both its ends', START, '[role % 2] == t or self.relationships[role // 2][1 - role % 2] == t'),
    ('a role that starts higher counts', START, '[role % 2] in self.above(t)'),
    ('a role that starts at the type right above counts', START, '[role % 2] in (t, self.types[t][0])'),
    ('a role that starts at a type without parent counts', START, '[role % 2] == t or self.types[self.relationships[role // 2][role % 2]][0] is None'),
    ('a role that starts at the type right above counts alone', START, '[role % 2] == self.types[t][0]'),
    ('a role of a type to itself does not count', START, '[role % 2] == t and self.relationships[role // 2] != (t, t)'),
    ('a role of a type to one above does not count', START, '[role % 2] == t and not self.under(t, self.relationships[role // 2][1 - role % 2]) or self.relationships[role // 2] == (t, t)'),
    ('a special counts the roles of the type that its object has at the end', SELECTED, 'not quiet(body, self.book.roles_from(self.end.type_of(s)))'),
    ('a special to a type below the context always selects', SELECTED, '(not quiet(body, self.book.roles_from(context)) or self.end.type_of(s) != context)'),
    ('a special to a type below the context selects nothing', SELECTED, 'not quiet(body, self.book.roles_from(context)) and self.end.type_of(s) == context'),
    ('one counted role anywhere in a quiet body is enough', SELECTED, f'not (quiet(body, self.book.roles()) and {NAMED_OWN})'),
    ('one counted role anywhere in a quiet body is enough for the list', LISTED, f'quiet(body, book.roles()) and {NAMED_OWN.replace("self.", "")}'),
    ('one uncounted role anywhere in a body is too many', SELECTED, f'not (quiet(body, self.book.roles_from(context)) and not {NAMED_OTHER})'),
    ('one uncounted role anywhere in a body is too many for the list', LISTED, f'quiet(body, book.roles_from(context)) and not {NAMED_OTHER.replace("self.", "")}'),
    ('a special counts roles of the members', SELECTED, f'not (quiet(body, self.book.roles_from(context)) or {within(1)})'),
    ('a special that is listed counts roles of the members', LISTED, f'(quiet(body, book.roles_from(context)) or {within(1).replace("self.", "")})'),
    ('a special counts a role of self within a forall over another', SELECTED, f'not (quiet(body, self.book.roles_from(context)) or {within(0)})'),
    ('a special that is listed counts a role of self within a forall over another', LISTED, f'(quiet(body, book.roles_from(context)) or {within(0).replace("self.", "")})'),
    ('a special after a general out of the context always selects', SELECTED, "(not quiet(body, self.book.roles_from(context)) or self.took('general', s, context))"),
    ('a special after a general out of the context selects nothing', SELECTED, "not quiet(body, self.book.roles_from(context)) and not self.took('general', s, context)"),
    ('a special after an insert into the context selects nothing', SELECTED, "not quiet(body, self.book.roles_from(context)) and not self.brought('insert', s, context)"),
    ('a special selects nothing at an object that has no links at the end', SELECTED, 'not quiet(body, self.book.roles_from(context)) and links_of(self.end, s) != set()'),
    ('a special selects nothing at an object that had no links before the batch', SELECTED, 'not quiet(body, self.book.roles_from(context)) and links_of(self.start, s) != set()'),
    ('a special where the body is quiet spares what may turn false too', 'return false or inserted or special',
     "return inserted or special or (false and not (self.brought('special', s, context) and quiet(body, self.book.roles_from(context))))"),
    ('a join of a link that was there before the batch is no gain', 'such(link) and link in self.end.links', 'such(link) and link in self.end.links and link not in self.start.links'),
    ('special t is listed where the context has no parent', 'else self.parented(5, context)', 'else {(5, context, 0)}'),
    ('the full check in place of the listed pairs', FIRST, 'first = full_check(book, self.batch.end)'),
    ('the list ends at the first broken pair', "        self.answer = ('accepted',)", "        self.pairs = [p for p in pairs if first is None or p <= first]\n        self.answer = ('accepted',)"),
    ('everything is listed', 'if self.selected(r, s)]', 'if self.there(s, self.book.rules[r][0])]'),
    ('a broken batch leaves the register after it', '        if first is None:\n            self.left', '        if True:\n            self.left'),
    ('only the first event is applied', 'for place, event in enumerate(events):', 'for place, event in enumerate(events[:1]):'),
    ('a general keeps the cells that its new type lacks', '[1][:book.cells(x[1])]\n', '[1]\n'),
    ('a floor says nothing of a sum', "'floored sum': '+*'", "'floored sum': '**'"),
    ('a floored sum rises by loss', "'floored sum': '+*'", "'floored sum': '-*'"),
    ('a floored sum is not moved by a set', "'floored sum': '+*'", "'floored sum': '+'"),
    ('a floored sum falls by gain too', 'zip(PARTS[self.row(f)], parts)))', 'zip(PARTS[self.row(f)], parts)))\n        if self.row(f) == "floored sum":\n            downs += (parts[0][0],)'),
    ('a floored sum rises by loss too', 'zip(PARTS[self.row(f)], parts)))', 'zip(PARTS[self.row(f)], parts)))\n        if self.row(f) == "floored sum":\n            ups += (parts[0][1],)'),
    ('a floor counts for a sum over any cell', 'f[2] in self.book.floored(', 'self.book.floored('),
    ('a floor of a type above does not count for a sum', 'f[2] in self.book.floored(self.member_type(f[1]))', '(self.member_type(f[1]), f[2]) in self.book.floors'),
    ('a floor of a type below counts for a sum', 'f[2] in self.book.floored(self.member_type(f[1]))',
     'f[2] in {k for u in range(len(self.book.types)) if self.book.under(u, self.member_type(f[1])) for k in self.book.floored(u)}'),
    ('a sum is floored where all its members at the end have the floor', 'PARTS[self.row(f)]',
     'PARTS["floored sum" if op == "sum" and isinstance(self, Batch) and all(f[2] in self.book.floored(self.end.type_of(m)) for m in members(self.book, self.end, f[1], env)) else self.row(f)]'),
    ('a sum over a select is not floored', "if f[0] == 'sum' and f[2]", "if f[0] == 'sum' and f[1][0] != 'select' and f[2]"),
    ('a sum over all t is not floored', "if f[0] == 'sum' and f[2]", "if f[0] == 'sum' and f[1][0] != 'all' and f[2]"),
    ('a sum is floored in the event list only', "if f[0] == 'sum' and f[2]", "if f[0] == 'sum' and isinstance(self, EventList) and f[2]"),
    ('a sum is floored in a batch only', "if f[0] == 'sum' and f[2]", "if f[0] == 'sum' and isinstance(self, Batch) and f[2]"),
    ('a floor is not of the types below', 'for u, k in self.floors if self.under(t, u)}', 'for u, k in self.floors if t == u}'),
    ('a floor is of the types above', 'for u, k in self.floors if self.under(t, u)}', 'for u, k in self.floors if self.under(t, u) or self.under(u, t)}'),
    ('a floor is of any type', 'for u, k in self.floors if self.under(t, u)}', 'for u, k in self.floors}'),
    ('15 is met by nothing', '    if brought_below(book, register, event):  # request 02: "checked after 11"\n        return 15\n', ''),
    ('15 is met by a set to 0', 'x[2] < 0 and x[1] in', 'x[2] <= 0 and x[1] in'),
    ('15 is met by a set of any cell below 0', 'x[2] < 0 and x[1] in book.floored(', 'x[2] < 0 and book.floored('),
    ('15 asks the floors of the own type of a set alone', 'x[1] in book.floored(register.type_of(x[0]))', '(register.type_of(x[0]), x[1]) in book.floors'),
    ('15 is met by sets alone', "return kind == 'special' and below_floor", "return False and below_floor"),
    ('15 asks the floors of the new type of a special alone', 'below_floor(book, x[1], register.objects[x[0]][1])', 'any(register.objects[x[0]][1][k] < 0 for u, k in book.floors if u == x[1])'),
    ('15 asks the floors of the old type of a special', 'below_floor(book, x[1], register.objects[x[0]][1])', 'below_floor(book, register.type_of(x[0]), register.objects[x[0]][1])'),
    ('15 asks whether any cell of a special is below 0', 'below_floor(book, x[1], register.objects[x[0]][1])', 'any(cell < 0 for cell in register.objects[x[0]][1]) and book.floored(x[1]) != set()'),
    ('15 is met by a general that leaves a cell below 0', "return kind == 'special' and below_floor", "return kind == 'general' and min(register.objects[x[0]][1]) < 0 or kind == 'special' and below_floor"),
    ('15 before 11', '    if not fits(book, register, event):\n', '    if brought_below(book, register, event):\n        return 15\n    if not fits(book, register, event):\n'),
    ('15 before 8', '    if any(i not in register.objects for i in named(event)):\n', "    if kind == 'set' and x[2] < 0 and any(k == x[1] for _, k in book.floors):\n        return 15\n    if any(i not in register.objects for i in named(event)):\n"),
    ('a register below a floor is taken', 'return (5, rows.index(True)) if True in rows else None', 'return None'),
    ('a register below a floor is refused at its last such row', 'rows.index(True)', 'len(rows) - 1 - rows[::-1].index(True)'),
    ('a cell at 0 is below its floor', 'any(cells[k] < 0 for k', 'any(cells[k] <= 0 for k'),
    ('13 is met with a row left', 'len(rows[event[0]][0]) >= rows[event[0]][1]', 'len(rows[event[0]][0]) >= rows[event[0]][1] - 1'),
    ('12 looks at sources only', '(b, book.relationships[r][1])):', '):'),
    ('an inspection lists nothing', EMPTY, 'self.empty = False'),
    ('an inspection leaves out rules that list their context alone', INSPECTED, 'if self.empty and set(EventList(self.book, rule).types) - {(0, context, 0), (5, context, 0)}:'),
    ('an inspection leaves out quiet rules', INSPECTED, 'if self.empty and not quiet(body, self.book.roles()):'),
    ('an inspection leaves out rules that are quiet by roles of the context type', INSPECTED, f'if self.empty and {SELECTED}:'),
    ('an inspection lists objects of exactly the context type', INSPECTED, 'if self.empty and self.end.type_of(s) == context:'),
    ('an inspection lists objects of the context type and right below', INSPECTED, 'if self.empty and context in (self.end.type_of(s), self.book.types[self.end.type_of(s)][0]):'),
    ('an inspection lists objects of any type', 'if not self.there(s, context):', 'if not self.there(s, context) and not self.empty:'),
    ('an inspection lists broken pairs only', INSPECTED, 'if self.empty and broken(self.book, self.end, rule, s):'),
    ('an inspection lists the first rule only', INSPECTED, 'if self.empty and rule == 0:'),
    ('an inspection lists the first object of each rule only', INSPECTED, 'if self.empty and s == min(i for i in self.end.objects if self.there(i, context)):'),
    ('an inspection lists rules only up to the first that is broken', INSPECTED, 'if self.empty and not any(broken(self.book, self.end, r, i) for r in range(rule) for i in self.end.objects):'),
    ('an inspection lists by ids before rules', PAIRS, f'return sorted({PAIRS[7:]}, key=lambda pair: pair[::-1] if self.empty else pair)'),
    ('an inspection is always accepted', FIRST, FIRST.replace('if broken', 'if not self.batch.empty and broken')),
    ('an inspection answers the last broken pair', FIRST, FIRST.replace('in pairs if', 'in pairs[::-1 if self.batch.empty else 1] if')),
    ('an inspection answers the lowest broken id', FIRST, FIRST.replace('in pairs if', 'in sorted(pairs, key=lambda pair: pair[::-1] if self.batch.empty else pair) if')),
    ('an inspection leaves unused rows as they were', "free = 0 if checked.answer[0] == 'accepted' else", "free = 0 if checked.answer[0] == 'accepted' and not checked.batch.empty else"),
    ('an inspection takes a register below a floor', 'register.copy(), register_refusal(book, register)', 'register.copy(), register_refusal(book, register) if events else None'),
    ('an inspection does not meet 14', SHORT, 'if 2 * len(pairs) > LIST_WORDS and not self.batch.empty:'),
    ('an inspection meets 14 with words enough', SHORT, 'if 2 * len(pairs) > LIST_WORDS - 1 * self.batch.empty:'),
    ('an inspection meets 14 by all its rules and objects', SHORT, 'if 2 * max(len(pairs), len(book.rules) * len(register.objects) * self.batch.empty) > LIST_WORDS:'),
    ('an inspection meets 14 only where all holds', SHORT, 'if 2 * len(pairs) > LIST_WORDS and not (self.batch.empty and full_check(book, register)):'),
    ('an inspection meets 14 before 5', '        if self.batch.refused is not None:\n',
     "        if self.batch.empty and 2 * len(self.batch.pairs()) > LIST_WORDS:\n            self.answer = ('refused', 14, 0)\n            return\n        if self.batch.refused is not None:\n"),
    ('one event is an inspection', EMPTY, 'self.empty = len(events) < 2'),
    ('any batch from a register with a broken rule is an inspection', INSPECTED, 'if self.empty or full_check(self.book, self.start):'),
    ('a batch whose end is its start is an inspection', INSPECTED, f'if {STILL}:'),
    ('a set to the value that is there is an inspection', INSPECTED, f'if self.empty or {STILL} and self.sets and not (self.changes or self.joined or self.parted):'),
    ('an object inserted and deleted again is an inspection', INSPECTED, f'if self.empty or {STILL} and self.changes and not (self.sets or self.joined or self.parted):'),
    ('a link joined and parted again is an inspection', INSPECTED, f'if self.empty or {STILL} and self.joined and not (self.sets or self.changes):'),
    ('a batch that leaves the links as they were, and objects of the same types, is an inspection', INSPECTED,
     'if self.end.links == self.start.links and {i: t for i, (t, _) in self.end.objects.items()} == {i: t for i, (t, _) in self.start.objects.items()}:'),
    ('a batch that touches no rule is an inspection', INSPECTED,
     'if self.empty or not any(self.occurring() & set(EventList(self.book, r).types) for r in range(len(self.book.rules))):'),
    ('a batch that selects nothing is an inspection', 'if self.selected(r, s)]',
     'if self.selected(r, s)] or [(r, s) for r in range(len(self.book.rules)) for s in sorted(self.end.objects) if self.there(s, self.book.rules[r][0])]'),
    ('each rule that a batch does not touch has its inspection', INSPECTED, 'if not self.occurring() & set(EventList(self.book, rule).types):'),
    ('13 before 9', 'if not known(book, event):\n        return 7', 'if not known(book, event):\n        return 7\n    if kind == "insert" and full(register, event):\n        return 13'),
]

# The same of whole.py.
TEXT_FAULTS = [
    ('a text of 8,193 bytes is taken', 'if len(data) > BYTES:', 'if len(data) > BYTES + 1:'),
    ('a text of 8,192 bytes is not', 'if len(data) > BYTES:', 'if len(data) >= BYTES:'),
    ('the last line needs no byte 10', "([None] if rest else [])", '([rest] if rest else [])'),
    ('a line without its byte 10 is passed over', "lines + ([None] if rest else [])", 'lines'),
    ('lines count from 0', 'if rest else []), 1):', 'if rest else [])):'),
    ('a leading zero is taken', "NUMBER = r'(?:0|-?[1-9][0-9]*)'", "NUMBER = r'(?:0|-?[0-9][0-9]*)'"),
    ('minus zero is taken', "NUMBER = r'(?:0|-?", "NUMBER = r'(?:-?0|-?"),
    ('numbers of 33 bits are taken', '-2**31 <= int(word) < 2**31', '-2**32 <= int(word) < 2**32'),
    ('2 to the 31st is taken', 'int(word) < 2**31', 'int(word) <= 2**31'),
    ('sections in any order', 'list(ROOM).index(section) >= self.section)', 'True)'),
    ('2 before 1 in a line', '            return 1\n', '            return 2 if len(self.rows["rule"]) == ROOM["rule"] else 1\n'),
    ('a ninth rule is taken', "'rule': 8", "'rule': 9"),
    ('a 33rd type is taken', "'type': 32", "'type': 33"),
    ('a 33rd relationship is taken', "'rel': 32", "'rel': 33"),
    ('a 513th link is taken', "'link': 512", "'link': 513"),
    ('a 65th event is taken', "'event': 64", "'event': 65"),
    ('65 forms are taken', 'forms(row[1]) > FORMS', 'forms(row[1]) > FORMS + 1'),
    ('64 forms are not', 'forms(row[1]) > FORMS', 'forms(row[1]) >= FORMS'),
    ('lines may have any number', "        ask(n == len(self.rows[section]))", '        ask(n >= 0)'),
    ('a parent below 0 is taken', 'ask(parent is None or parent >= 0)', 'parent = parent if parent is None or parent >= 0 else None'),
    ('an object may have fewer values', 'len(words) == 2 + cells', 'len(words) <= 2 + cells'),
    ('nine cells are taken', 'if not 0 <= cells <= 8:', 'if not 0 <= cells <= 9:'),
    ('a type may be its own parent', 'not (parent < n and', 'not (parent <= n and'),
    ('a type may have fewer cells than its parent', 'cells >= types[parent][1])', 'True)'),
    ('relationships before types', 'refused = first(3,',
     'refused = first(3, len(book.relationships), lambda n: not all(0 <= t < len(book.types) for t in book.relationships[n])) or first(3,'),
    ('a 257th floor is taken', "'floor': 256", "'floor': 257"),
    ('256 floors are not', "'floor': 256", "'floor': 255"),
    ('floors stand after relationships', "'floor': 256, 'rel': 32", "'rel': 32, 'floor': 256"),
    ('a floor may have a third number', "tuple(numbers(line, name, 2))", "tuple(numbers(line, name, None)[:2])"),
    ('a floor of an unknown type is 1', "        if name == 'floor':", "        ask(name != 'floor' or 0 <= numbers(line, name, 2)[0] < len(self.rows['type']))\n        if name == 'floor':"),
    ('a floor may stand twice', 'book.floors[n - 1] >= book.floors[n]', 'book.floors[n - 1] > book.floors[n]'),
    ('floors may descend', 'book.floors[n - 1] >= book.floors[n]', 'book.floors[n - 1] == book.floors[n]'),
    ('cells of floors may descend', 'book.floors[n - 1] >= book.floors[n]', 'book.floors[n - 1][0] > book.floors[n][0] or book.floors[n - 1] == book.floors[n]'),
    ('each type has one floor', 'book.floors[n - 1] >= book.floors[n]', 'book.floors[n - 1][0] >= book.floors[n][0]'),
    ('the earlier of two floors out of order is faulty', '(n > 0 and book.floors[n - 1] >= book.floors[n])', '(n + 1 < len(book.floors) and book.floors[n] >= book.floors[n + 1])'),
    ('a floor of any of eight cells is taken', '0 <= k < book.cells(t)', '0 <= k < 8'),
    ('a floor of a cell below 0 is taken', '0 <= k < book.cells(t)', 'k < book.cells(t)'),
    ('a floor of a type below 0 is taken', 'known = 0 <= t < len(book.types)', 'known = t < len(book.types)'),
    ('a floor of a type below a floored one is faulty', 'return not known or', 'return not known or any(book.floors[i][1] == k and t != book.floors[i][0] and book.under(t, book.floors[i][0]) for i in range(n)) or'),
    ('relationships before floors', '        or first(3, len(book.floors)', '        or first(3, len(book.relationships), lambda n: not all(0 <= t < len(book.types) for t in book.relationships[n])) \\\n        or first(3, len(book.floors)'),
    ('floors before types', 'refused = first(3,', 'refused = first(3, len(book.floors), lambda n: faulty_floor(book, n)) or first(3,'),
    ('a register below a floor is refused where no link is faulty', 'return faulty or plain.below_floor(book, *rows[n][1:])', 'return faulty'),
    ('a target type is not looked at', 'for t in book.relationships[n])', 'for t in book.relationships[n][:1])'),
    ('any number is a context', 'not 0 <= context < len(book.types) or', 'context < 0 or'),
    ('a role may leave from any type', ' or not book.under(scope[f[1]], ends[f[2] % 2])', ''),
    ('a cell of a member is not looked at', "isinstance(sorts[0], int) and 0 <= f[2] < book.cells(sorts[0])", 'isinstance(sorts[0], int)'),
    ('a number may be a condition', "sort_of(book, f[2], scope + [member]) != 'truth'", 'sort_of(book, f[2], scope + [member]) is None'),
    ('any form is a body', "sort_of(book, body, [context]) != 'truth'", 'sort_of(book, body, [context]) is None'),
    ('an id may stand twice', 'rows[n - 1][0] >= rows[n][0]', 'rows[n - 1][0] > rows[n][0]'),
    ('ids may descend', 'rows[n - 1][0] >= rows[n][0]', 'rows[n - 1][0] == rows[n][0]'),
    ('ids end at 65,535', '<= plain.MOST_ID', '<= 65535'),
    ('a link may stand twice', 'links[n - 1] >= links[n]', 'links[n - 1] > links[n]'),
    ('links may descend', 'links[n - 1] >= links[n]', 'links[n - 1] == links[n]'),
    ('an end may be of any type', 'i in register.objects and book.under(register.type_of(i), end)', 'i in register.objects'),
    ('5 before 4', 'refused = first(3,', "refused = first(5, len(rows['ent']), lambda n: faulty_object(book, rows['ent'], n)) or first(3,"),
    ('the register has a row too few', "plain.OBJECT_ROWS, plain.LINK_ROWS, plain.LIST_WORDS = ROOM['ent'], ROOM['link']", "plain.OBJECT_ROWS, plain.LINK_ROWS, plain.LIST_WORDS = ROOM['ent'] - 1, ROOM['link']"),
    ('a text without events is not looked at: no inspection', "    checked = plain.Checked(book, register, text.rows['event'])\n",
     "    if not text.rows['event']:\n        return ('accepted',), []\n    checked = plain.Checked(book, register, text.rows['event'])\n"),
    ('a text without events has the full check for its inspection, and no list', '    return checked.answer, checked.pairs', "    return checked.answer, checked.pairs if text.rows['event'] else []"),
    ('a text of one event is an inspection', "text.rows['event'])\n    return", "text.rows['event'][1:] and text.rows['event'])\n    return"),
    ('a text whose events leave the register as it was is an inspection', '    return checked.answer, checked.pairs',
     "    end = checked.batch.end\n    if checked.answer[0] != 'refused' and (end.objects, end.links) == (register.objects, register.links):\n        checked = plain.Checked(book, register, [])\n    return checked.answer, checked.pairs"),
    ('the links have a row more', "plain.OBJECT_ROWS, plain.LINK_ROWS, plain.LIST_WORDS = ROOM['ent'], ROOM['link']", "plain.OBJECT_ROWS, plain.LINK_ROWS, plain.LIST_WORDS = ROOM['ent'], ROOM['link'] + 1"),
]


def reading(source):
    space = {'__name__': 'reading'}
    exec(compile(source, 'reading', 'exec'), space)
    return space


def printed(source, text):
    """What a reading prints of each case; what it fails at is an outcome of its own."""
    space = reading(source)
    for name, book, register, events, own in space['blocks'](text):
        try:
            yield [space['show'](name, space['Checked'](book, register, events))] + list(space['show_lists'](book) if own else [])
        except Exception as failure:
            yield failure


def by_blocks(name, word):
    """The faults of plain.py, and how many cases of a file notice each."""
    source = open(os.path.join(HERE, 'plain.py')).read()
    # Faults may look at the register before the batch and before the event.
    source = source.replace('        self.sets, self.joined', '        self.start = register\n        self.sets, self.joined', 1)
    source = source.replace('        apply(self.book, self.end, event)', '        self.old = self.end.copy()\n        apply(self.book, self.end, event)', 1)
    text = open(name).read()
    good = list(printed(source, text))
    for label, old, new in (fault for fault in FAULTS if word in fault[0]):
        assert source.count(old) == 1, f'{label}: {source.count(old)} places'
        yield label, sum(a != b for a, b in zip(good, printed(source.replace(old, new), text)))


def outcomes(source, texts):
    """What a reading says of each text; what it fails at is an outcome of its own."""
    outcome = reading(source)['outcome']
    for text in texts:
        try:
            yield outcome(text)
        except Exception as failure:
            yield failure


def by_texts(word):
    """The faults of whole.py, and how many texts notice each."""
    source, texts = open(os.path.join(HERE, 'whole.py')).read(), [text for _, _, text in checks.blocks()]
    good = list(outcomes(source, texts))
    for label, old, new in (fault for fault in TEXT_FAULTS if word in fault[0]):
        assert source.count(old) == 1, f'{label}: {source.count(old)} places'
        yield label, sum(a != b for a, b in zip(good, outcomes(source.replace(old, new), texts)))


def main():
    counts, word = [], sys.argv[2] if len(sys.argv) > 2 else ''
    for label, count in by_texts(word) if sys.argv[1] == 'checks' else by_blocks(sys.argv[1], word):
        counts.append(count)
        print(f'{count:6} {label}', flush=True)
    print(f'{len(counts)} faults, {counts.count(0)} noticed by none')
    sys.exit(0 in counts)


if __name__ == '__main__':
    main()
