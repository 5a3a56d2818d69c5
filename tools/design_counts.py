#!/usr/bin/env python3
"""Counts, point by point, the places in src/ that an older Rattle made necessary (docs/DESIGN-PASS.md).

    tools/design_counts.py [-v] [ROOT]

-v prints each place. A place that stays is counted too: the page says why it does.
"""
import collections, glob, re, sys

ROOT = next((a for a in sys.argv[1:] if not a.startswith('-')), '.')
VERBOSE = '-v' in sys.argv
TABLES = ('types', 'floors', 'relationships', 'rules', 'bodies', 'objects', 'links', 'events')
LENT = {*TABLES, *(t[:-1] + '_count' for t in TABLES), 'n', 'index', 'spans', 'trace', 'vs', 'marks', 'sets'}


def functions(text):
    """Each function of a file: its name, its parameters and its body's lines."""
    for m in re.finditer(r'^( *)(?:pub )?fn (\w+)(?:<[^>]*>)?\(', text, re.M):
        depth, i = 1, m.end()
        while depth:
            depth += {'(': 1, ')': -1}.get(text[i], 0)
            i += 1
        params = [p.strip() for p in re.split(r',(?![^\[<]*[\]>])', text[m.end():i - 1]) if p.strip()]
        open_ = text.find('\n' + m.group(1) + '{\n', i)
        close = text.find('\n' + m.group(1) + '}', i)
        body = text[open_ + 3 + len(m.group(1)):close] if 0 <= open_ < close else text[text.find('{', i) + 1:close]
        yield m.group(2), params, [l.strip() for l in body.split('\n') if l.strip() and not l.strip().startswith('//')]


def enums(text):
    for m in re.finditer(r'^ *(?:pub )?enum (\w+)[^{]*\{(.*?)^ *\}', text, re.M | re.S):
        yield m.group(1), [v.strip() for v in m.group(2).split('\n') if v.strip()]


found = collections.defaultdict(list)
bodies = collections.defaultdict(list)
for path in sorted(glob.glob(ROOT + '/crates/*/src/**/*.rt', recursive=True)):
    text = open(path).read()
    name = path[len(ROOT) + 1:]
    for enum, variants in enums(text):
        empty = [v for v in variants if re.fullmatch(r'\w+,', v)]
        if len(variants) == 2 and (len(empty) == 1 or any(v.startswith('Refused') for v in variants)):
            found['1 enums of the shape of Option or Result'].append(f'{name} {enum}')
        elif any(v.startswith('Bad') for v in variants):
            found['1 enums of the shape of Option or Result'].append(f'{name} {enum}')
    for m in re.finditer(r'^ *(?:pub )?struct (\w+) \{(.*?)\}', text, re.M | re.S):
        if re.search(r'\bgood: bool|\bnumber: u32,\s+(?:pub )?(?:line|first)\b', m.group(2)):
            found['1 flags with a value beside'].append(f'{name} {m.group(1)}')
    kinds = re.findall(r'^(?:pub )?const ([A-Z_]+): u(?:8|32) = \d+;', text, re.M)
    if len(kinds) > 2 and not name.startswith(('crates/meaning', 'crates/tables')):
        found['1 numbers for kinds (a group of constants)'].append(f'{name} {len(kinds)}: {" ".join(kinds)}')
    for fn, params, body in functions(text):
        names = [p.split(':')[0].replace('mut ', '').strip() for p in params]
        if len(body) >= 4:
            shape = re.sub(r'\b\d+\b', 'N', re.sub(r'\b[a-zA-Z_]\w*\b', 'I', ' '.join(body)))
            bodies[shape].append(f'{name} {fn}')
        for i, line in enumerate(body):
            m = re.match(r'(?:\'\w+: )?while (?:0 < (\w+)|(\w+) (?:<|>|!=) .*|\w+ < (\w+)) \{', line)
            if m:
                v = m.group(1) or m.group(2) or m.group(3)
                rest = ' '.join(body[i:])
                if re.search(r'\b' + v + r' [-+]= 1;', rest) or re.search(r'let on = ' + v + r' \+ 1;', rest):
                    found['3 loops that count an index by hand'].append(f'{name} {fn}: {line}')
        if re.fullmatch(r'same|copy|both|either|and|or|lesser|wide|bit|with|first_of|is_\w+_eq', fn) and len(body) <= 5:
            found['4 equality, order, copying, conversion by hand'].append(f'{name} {fn}')
        lent = [x for x in names if x in LENT]
        if len(lent) >= 4:
            found['5 functions with four or more of the lent tables as parameters'].append(f'{name} {fn}: {" ".join(lent)}')
        pairs = [x for x in names if x.endswith('_count') and x[:-6] + 's' in names]
        if pairs:
            found['6 a length beside its table'].append(f'{name} {fn}: {" ".join(pairs)}')
        for line in body:
            if re.match(r'match (kind|code|asked|section)\b', line):
                found['7 a switch on which step to run'].append(f'{name} {fn}: {line}')
for shape, places in bodies.items():
    if len(places) > 1:
        found['2 functions whose bodies differ in names and numbers alone'].append(' ~ '.join(places))
proofs = glob.glob(ROOT + '/crates/*/proofs/**/*.antt', recursive=True)
answers = [p for p in proofs if p.endswith('Answers.antt')]
text = {p: open(p).read() for p in proofs}
found['8 answers'] = [f'{p} {a}' for p in answers for a in re.findall(r'^(?:abbrev )?(?:pub )?([\w-]+) : goal\.', text[p], re.M)]
found['8 proof files that walk Rattle\'s own records'] = [p for p in proofs if re.search(r'^use \S+\.Lts as lts', text[p], re.M)]
for point in sorted(found):
    print(f'{len(found[point]):5}  {point}')
    if VERBOSE:
        for place in found[point]:
            print('        ' + place)
