#!/usr/bin/env python3
"""What a file of blocks has in it, and whether the plain reading of each keeps the two claims of demand 3.

    stats.py FILE

From a register where every rule holds, the batch check answers as a full check of the register after the batch; and a rule none of whose
listed event types occurs has no pair. Of a batch without events (request 08) neither is asked, but that its list is every pair of a rule and an object of its
context type, and its answer the full check's, whatever held before. A name may end in what is to come, found by hand: `=> answer; pairs`, or `=> list` and the event list of
rule 0, or `=> lists` and that of each rule, parted by ` |`. A case that is otherwise is written, and the program ends with an error.
"""
import collections
import sys

import draw
import plain


def form_names(f):
    yield f[0]
    for part in f:
        if isinstance(part, tuple):
            yield from form_names(part)


def depth(f):
    return 1 + max([depth(part) for part in f if isinstance(part, tuple)], default=0)


def every_pair(book, register):
    """Each rule with each object of its context type or a type below, rules and then ids ascending."""
    return [(r, s) for r, (context, _) in enumerate(book.rules) for s, (t, _) in sorted(register.objects.items()) if context in book.above(t)]


def claims(book, register, events, checked):
    """The names of the claims that a case breaks."""
    end, rules = checked.batch.end, {rule for rule, _ in checked.pairs}
    if checked.answer[0] != 'refused' and (not events or plain.full_check(book, register) is None):
        full = plain.full_check(book, end)
        if checked.answer != (('accepted',) if full is None else ('broken', *full)):
            yield 'the full check'
    if not events:
        pairs = every_pair(book, register)
        refused = plain.register_refusal(book, register) or ((14, 0) if 2 * len(pairs) > plain.LIST_WORDS else None)
        if (checked.pairs, checked.answer[0] == 'refused') != ([] if refused else pairs, refused is not None):
            yield 'an inspection'
        return
    occurring = checked.batch.occurring()
    if any(not occurring & set(plain.EventList(book, rule).types) for rule in rules):
        yield 'the event list'


def by_hand(name, book, checked):
    """Whether a case is what its name says."""
    _, arrow, wanted = name.partition(' => ')
    if wanted.startswith('lists'):
        return wanted[5:] == ' |'.join(line.partition(':')[2] for line in plain.show_lists(book))
    if wanted.startswith('list'):
        return wanted[4:] == next(plain.show_lists(book))[2:]
    pairs = ''.join(f' {r}:{s}' for r, s in checked.pairs)
    said = ' '.join(str(part) for part in checked.answer) + (';' + pairs if checked.answer[0] != 'refused' else '')
    return not arrow or wanted == said


def count_book(count, book):
    count['books with floors'] += bool(book.floors)
    count['floors'] += len(book.floors)
    for rule, (context, body) in enumerate(book.rules):
        count['rules'] += 1
        count['rules whose list is shorter by floors'] += draw.shortened(book, rule)
        count['rules quiet'] += plain.quiet(body, book.roles())
        count['rules quiet by roles of the context type alone'] += plain.quiet(body, book.roles_from(context))
        count.update('form ' + name for name in form_names(body))
        count['depth %d' % depth(body)] += 1


def count_taken(count, batch, events):
    """Batches whose deletes take links along."""
    taken, gone = {link for link, _ in batch.taken}, {i for _, i in batch.taken}
    own = {i for (_, a, b), i in batch.taken if a == b}
    inserts, joins = {e[1] for e in events if e[0] == 'insert'}, {e[1:] for e in events if e[0] == 'join'}
    count['batch: a linked object deleted'] += bool(taken)
    count['batch: a linked object deleted and inserted'] += bool(gone & inserts)
    count['batch: a link taken and joined'] += bool(taken & joins)
    count['batch: a link of an object to itself taken'] += bool(own)
    count['batch: a link of an object to itself taken, and the object inserted'] += bool(own & inserts)
    count['batch: three or more links taken by one delete'] += any(sum(i == j for _, j in batch.taken) > 2 for i in gone)


def count_undone(count, events):
    """Batches that name the same thing twice."""
    joins, parts = ({e[1:] for e in events if e[0] == kind} for kind in ('join', 'part'))
    inserts, deletes, up, down = ({e[1] for e in events if e[0] == kind} for kind in ('insert', 'delete', 'general', 'special'))
    sets = [e[1:3] for e in events if e[0] == 'set']
    count['batch: a link parted and joined'] += bool(joins & parts)
    count['batch: an id deleted and inserted'] += bool(inserts & deletes)
    count['batch: an object general and special'] += bool(up & down)
    count['batch: a cell set twice'] += len(set(sets)) < len(sets)


def count_floors(count, book, register, events, checked):
    """What floors spare of a batch that they let pass."""
    spared = set(plain.Batch(draw.without_floors(book), register, events).pairs()) - set(checked.pairs)
    count['batch: fewer pairs by floors'] += bool(spared)
    count['pairs spared by floors'] += len(spared)


def count_specials(count, book, checked):
    """Objects that a special brought into the context of a quiet rule: looked at, or spared by request 06."""
    batch = checked.batch
    brought = {(r, s) for r, (context, body) in enumerate(book.rules) if plain.quiet(body, book.roles())
               for s in batch.end.objects if batch.brought('special', s, context) and batch.there(s, context)}
    spared = {(r, s) for r, s in brought if plain.quiet(book.rules[r][1], book.roles_from(book.rules[r][0]))}
    listed = set(checked.pairs)
    count['pairs by a special into the context of a quiet rule'] += len(brought - spared)
    count['pairs by a special into the context of a quiet rule, broken'] += sum(plain.broken(book, batch.end, *pair) for pair in brought - spared)
    count['pairs spared by request 06'] += len(spared - listed)
    count['pairs not spared by request 06, since the body may turn false'] += len(spared & listed)
    count['pairs not spared by request 06, since the body may turn false, broken'] += sum(plain.broken(book, batch.end, *pair) for pair in spared & listed)


def count_inspections(count, book, register, events, checked):
    """Batches without events, and those that might be taken for one."""
    held, what = plain.full_check(book, register) is None, ' '.join(str(part) for part in checked.answer[:2 if checked.answer[0] == 'refused' else 1])
    if not events:
        count['inspection: ' + what] += 1
        count['inspection: pairs listed'] += len(checked.pairs)
        exact = {(r, s) for r, s in checked.pairs if book.rules[r][0] == register.type_of(s)}
        count['inspection: pairs of an object below the context type'] += len(checked.pairs) - len(exact)
        count['inspection: pairs of a quiet rule'] += sum(plain.quiet(book.rules[r][1], book.roles()) for r, _ in checked.pairs)
        count['inspection: pairs that are broken'] += sum(plain.broken(book, register, *pair) for pair in checked.pairs)
        return
    end = checked.batch.end
    same = checked.answer[0] != 'refused' and (end.objects, end.links) == (register.objects, register.links)
    count['no inspection: the register as it was'] += same
    count['no inspection: the register as it was, some rule broken'] += same and not held
    count['no inspection: the register as it was, some rule broken, accepted'] += same and not held and checked.answer == ('accepted',)
    count['no inspection: one event and no pair, some rule broken'] += len(events) == 1 and not held and checked.answer[0] != 'refused' and checked.pairs == []


def count_case(count, book, register, events, checked):
    count_inspections(count, book, register, events, checked)
    kind = checked.answer[0]
    count['answer ' + (kind if kind != 'refused' else 'refused %d' % checked.answer[1])] += 1
    if checked.answer[:2] == ('refused', 15):
        count['answer refused 15 by a ' + events[checked.answer[2]][0]] += 1
    if kind == 'refused':
        return
    if book.floors:
        count_floors(count, book, register, events, checked)
    count.update('event ' + event[0] for event in events)
    count['batch: empty'] += not events
    count_undone(count, events)
    count_taken(count, checked.batch, events)
    count_specials(count, book, checked)
    held = plain.full_check(book, register) is None
    count['all held before, ' + kind] += held
    count['some rule broken before, ' + kind] += not held
    end = checked.batch.end
    pairs = [(r, s) for r in range(len(book.rules)) for s in end.objects if book.under(end.type_of(s), book.rules[r][0])]
    count['pairs there at the end'] += len(pairs)
    count['pairs listed'] += len(checked.pairs)
    count['cases with pairs'] += bool(checked.pairs)
    unlisted = [pair for pair in pairs if plain.broken(book, end, *pair) and pair not in checked.pairs]
    count['broken pairs listed'] += sum(plain.broken(book, end, *pair) for pair in checked.pairs)
    count['broken pairs unlisted'] += len(unlisted)
    count['accepted with a broken pair unlisted'] += kind == 'accepted' and bool(unlisted)
    count['broken after an unlisted broken pair'] += kind == 'broken' and any(pair < checked.answer[1:] for pair in unlisted)


def main():
    count, faults = collections.Counter(), 0
    for name, book, register, events, own in plain.blocks(open(sys.argv[1]).read()):
        checked = plain.Checked(book, register, events)
        count['cases'] += 1
        if own:
            count['books'] += 1
            count_book(count, book)
        count_case(count, book, register, events, checked)
        count['cases whose outcome was found by hand'] += '=>' in name
        wrong = list(claims(book, register, events, checked)) + ([] if by_hand(name, book, checked) else ['its name'])
        for claim in wrong:
            faults += 1
            print(f'not as {claim} says: {plain.show(name, checked)}')
    for thing in sorted(count):
        print(f'{count[thing]:7} {thing}')
    sys.exit(1 if faults else 0)


if __name__ == '__main__':
    main()
