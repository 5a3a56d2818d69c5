#!/usr/bin/env python3
"""Brings this repository's own definitions and lemmas to today's spelling: words in snake case, types and modules in camel case.

usage: python3 tools/respell.py        at the top, once, right after the kit's port.py

Of .antt files every name that this repository declares is respelled, wherever it stands; of .rt files those in ghost imports and clauses.
Not respelled: names that a library has, and names that Rattle makes (goals, and the fields of what is known at a goal). Where a definition
and a lemma would fall together, the lemma gets `_lem`.
"""
import collections
import os
import re

NAME = r"[^\W\d][\w'₀-₉]*(?:-[\w'₀-₉]+)*"
ID = re.compile(NAME)
USE = re.compile(r"(?m)^\s*(?:ghost )?(?:pub )?use ([\w.+'-]+)\.\{([^}]*)\}")
DECLARED = re.compile(r"^\s*(?:abbrev\s+|unfoldable\s+|pub\s+)*(" + NAME + r")\s*:(?!:)\s*(\S*)")
BOUND = [re.compile(r"\blet\s+(" + NAME + r")\s*[:=]"), re.compile(r"[({]((?:" + NAME + r"\s+)*" + NAME + r")\s*:\s")]


# constructors that share a line, and parameters that share brackets
MORE = ["specialOf", "insertOf", "generalOf", "deleteOf", "replaceAt", "specialisedInto", "joinedBy", "partedBy", "generalisedFrom", "insertedInto", "linkCount", "underType", "floorCount", "ruleCount", "eventCount", "quantifiedBy"]


def texts():
    for folder, dirs, files in os.walk("crates"):
        dirs[:] = sorted(d for d in dirs if d != "out")
        for f in sorted(files):
            if f.endswith((".antt", ".rt")):
                yield os.path.join(folder, f)


def snake(name):
    if name[0].isupper():
        return name
    return re.sub(r"(?<=[a-z0-9])([A-Z])", lambda m: "_" + m[1].lower(), name).replace("-", "_")


def gather():
    """Names that libraries have, that this repository declares, and that Rattle makes."""
    crates = set(os.listdir("crates"))
    library, own, made = set(), set(), set()
    for p in texts():
        with open(p, encoding="utf-8") as f:
            t = f.read()
        for m in USE.finditer(t):
            part = m[1].split(".")
            if not (part[0] == "Rattle" and part[1] in crates):
                library |= {n.split(" as ")[0].strip() for n in m[2].split(",")}
        if not p.endswith(".antt"):
            continue
        for line in t.split("\n"):
            m = DECLARED.match(line)
            if m:
                (made if m[2].startswith("tie.") else own).add(m[1])
            for b in BOUND:
                for n in b.finditer(line):
                    own |= set(n[1].split())
    return library, own, made


def turns():
    library, own, made = gather()
    alike = collections.defaultdict(set)
    for n in own:
        alike[snake(n)].add(n)
    turn = {}
    for to, names in alike.items():
        for n in names:
            if n == to or n in library or (n in made and not re.search("[a-z0-9][A-Z]", n)):
                continue
            others = [o for o in names if o != n]
            lemma = "-" in n and bool(others)
            turn[n] = to + "_lem" if lemma or to in library else to
    turn |= {n: snake(n) for n in MORE}
    # a lemma that the kit's script has respelled to what a definition is called from here on
    apart = {to for to, names in alike.items() if to in names and to[0].islower() and any(re.search("[a-z0-9][A-Z]", n) for n in names)}
    return turn, apart


def code(line, turn):
    """A line of a .rt file: comments and texts in quotes stay."""
    out = []
    for i, part in enumerate(re.split(r'(//.*$|"(?:[^"\\]|\\.)*")', line)):
        out.append(part if i % 2 else ID.sub(lambda m: turn.get(m[0], m[0]), part))
    return "".join(out)


def antt(line, turn, apart):
    """A line of an .antt file: what a comment says between backquotes is respelled, the rest of a comment stays."""
    if apart:
        line = re.sub(r"(?<![.\w'-])(" + "|".join(sorted(apart)) + r")(?![\w'-])(?!\.)", r"\1_lem", line)
    m = re.search(r"(?:^|\s)--(?:\s.*)?$", line)
    at = m.start() if m else len(line)
    said = re.sub(r"`[^`]*`", lambda q: ID.sub(lambda n: turn.get(n[0], n[0]), q[0]), line[at:])
    return ID.sub(lambda n: turn.get(n[0], n[0]), line[:at]) + said


def main():
    turn, apart = turns()
    for p in texts():
        with open(p, encoding="utf-8") as f:
            t = f.read()
        to = "\n".join(antt(l, turn, apart) if p.endswith(".antt") else code(l, turn) for l in t.split("\n"))
        if to != t:
            with open(p, "w", encoding="utf-8") as f:
                f.write(to)
    print(f"respell: {len(turn)} names")
    for n in sorted(apart):
        print(f"fell together: {n} -> {n}_lem")
    for n, to in sorted(turn.items()):
        if to.endswith("_lem"):
            print(f"fell together: {n} -> {to}")


if __name__ == "__main__":
    main()
