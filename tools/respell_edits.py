#!/usr/bin/env python3
"""Brings the text of must-fail edits to today's spelling, as respell.py brought the files that they change.

usage: python3 tools/respell_edits.py        at the top, after respell.py

An edit whose `old:` text stands once is left. Of the others the `old:` and the `new:` text are respelled; those that still don't stand are named.
"""
import glob
import os
import re
import sys

NAME = r"[^\W\d][\w'′₀-₉]*(?:-[\w'′₀-₉]+)*"
LIBRARY = {"getD": "get_or", "flatMap": "flat_map", "isEmpty": "is_empty"}


def snake(m):
    n = m[0]
    if n in LIBRARY:
        return LIBRARY[n]
    if n[0].isupper():
        return n
    return re.sub(r"(?<=[a-z0-9])([A-Z])", lambda x: "_" + x[1].lower(), n).replace("-", "_").replace("′", "'")


def respelled(t):
    t = re.sub(r"Rattle·(\w+)·specs\.specs\.", r"Rattle.\1.specs.", t)
    t = re.sub(NAME, snake, t)
    t = re.sub(r"(?<![\w◌])_([^\w\s,{}()]+)_(?![\w◌])", r"◌\1◌", t)
    # a projection is written tight, and alone needs no brackets
    t = re.sub(r"\((\w+'?)((?: \.\w+)+)\)", lambda m: m[1] + m[2].replace(" ", ""), t)
    t = re.sub(r"\((\([^()]*(?:\([^()]*\)[^()]*)*\))((?: \.\w+)+)\)", lambda m: m[1] + m[2].replace(" ", ""), t)
    t = re.sub(r"(?<=[\w')]) \.(?=\w)", ".", t)
    return t


def main():
    for p in sorted(glob.glob("crates/*/must-fail/*.edit")):
        crate = p.split("/must-fail/")[0]
        with open(p, encoding="utf-8") as f:
            lines = f.read().split("\n")
        texts, out, file, old, turned = {}, [], None, None, False
        for l in lines:
            if l.startswith("file: "):
                file = os.path.join(crate, l[6:])
                if file not in texts:
                    with open(file, encoding="utf-8") as f:
                        texts[file] = f.read()
            if l.startswith("old: "):
                old = l[5:]
                turned = texts[file].count(old) != 1 and texts[file].count(respelled(old)) == 1
                if turned:
                    old = respelled(old)
                if texts[file].count(old) != 1:
                    print(f"{p}: stands {texts[file].count(old)} times: {old}")
                l = "old: " + old
            if l.startswith("new:"):
                new = l[5:]
                if turned or file.endswith(".antt"):
                    new = respelled(new)
                texts[file] = texts[file].replace(old, new)
                l = "new: " + new if new else "new:"
            out.append(l)
        with open(p, "w", encoding="utf-8") as f:
            f.write("\n".join(out))


if __name__ == "__main__":
    main()
