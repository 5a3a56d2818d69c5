#!/usr/bin/env python3
"""Changes each entry of the table of directions to each other value, one at a time: the prover must refuse every change, by the theorem over the table,
whose refusal names the value that the rules have at the entry and the one that stands there.

In a copy of the last commit every other edit is taken away. What bin/check or rt check keeps on this machine, of the same files, is not proved again.
"""
import pathlib
import re
import shutil
import subprocess
import sys
import tempfile

TOP = pathlib.Path(__file__).resolve().parent.parent
CRATE = 'direction_table'
THEOREM = 'proofs/table/Answers.antt'
ENTRIES = 96
VALUES = ['NONE', 'UP', 'DOWN', 'BOTH']
PLACES = ['first up', 'first down', 'second up', 'second down']
ROW = re.compile(r'^    \[(\w+), (\w+), (\w+), (\w+)\], // (.+)$', re.M)


def line(entries, form):
    return '    [{}, {}, {}, {}], // {}'.format(*entries, form)


def changes(text):
    """Each change: a label, its place, the value there and the other, and the row before and after."""
    for found in ROW.finditer(text):
        *entries, form = found.groups()
        for place, value in enumerate(entries):
            for other in VALUES:
                if other != value:
                    changed = entries[:place] + [other] + entries[place + 1:]
                    where = form + ', ' + PLACES[place]
                    label = re.sub(r'\W+', '_', where) + '_' + other
                    yield label, where, value, other, line(entries, form), line(changed, form)


def refusal(value, other):
    """What the first error says where the entry's own value is what fails. rt shows no more of it."""
    rules, table = VALUES.index(value), VALUES.index(other)
    return f'the two types differ only where one has `{rules}` (expected) and the other has `{table}` ('


def refused(said, label, value, other):
    first = rf'^rt: must-fail {CRATE}/{label}\.edit: refused, as it must be: (?:\./)?{re.escape(THEOREM)}:\d+:\d+: error: `returns`: (.*)$'
    found = re.search(first, said, re.M)
    return bool(found) and refusal(value, other) in found[1]


def main():
    with tempfile.TemporaryDirectory() as folder:
        copy = pathlib.Path(folder) / 'repo'
        subprocess.run(['git', 'clone', '-q', str(TOP), str(copy)], check=True)
        for edits in copy.glob('crates/*/must-fail'):
            shutil.rmtree(edits)
        crate = copy / 'crates' / CRATE
        tried = list(changes((crate / 'src/lib.rt').read_text()))
        (crate / 'must-fail').mkdir()
        for label, where, value, other, old, new in tried:
            (crate / 'must-fail' / (label + '.edit')).write_text(f'{where}: {other} for {value}\nfile: src/lib.rt\nold: {old}\nnew: {new}\n')
        said = subprocess.run(['rt', 'must-fail', CRATE], cwd=copy, text=True, stdout=subprocess.PIPE, stderr=subprocess.STDOUT).stdout
        kept = 0
        for label, where, value, other, _, _ in tried:
            good = refused(said, label, value, other)
            kept += not good
            print(f'{where}: {other} for {value}: ' + ('refused' if good else 'NOT REFUSED BY THE THEOREM'))
    entries = len({where for _, where, _, _, _, _ in tried})
    print(f'{entries} entries, {len(tried)} changes, {len(tried) - kept} refused by the theorem, {kept} not')
    sys.exit(1 if kept or entries != ENTRIES else 0)


if __name__ == '__main__':
    main()
