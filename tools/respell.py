#!/usr/bin/env python3
"""Respells the names that this repository's specs/ and lemma files declare: words in snake case, facts and types in camel case.

usage: python3 tools/respell.py      once, at the top of a checkout that the kit's port.py has just turned

A name is taken where a file right below specs/ or proofs/ declares it with a dash in it: `due-by` becomes `due_by` and
`Due-first` becomes `DueFirst`. Every whole word of that spelling follows in the .rt and .antt files. Behind a dot only
fields of records follow, so that the names that the check makes for goals and steps, as `c.loop-place.room`, stay.
Functions of src/ have no dash and keep their names. It stops, and writes nothing, where two names would fall together.
"""
import collections
import os
import re
import sys

DECLARED = re.compile(r"^( *)((?:abbrev |unfoldable |pub |data |record )*)([^\s:(){}=.,]+)\s*((?:\([^=]*?\)\s*)*):(?!=)", re.M)


def files():
    for folder, dirs, names in os.walk("crates"):
        dirs[:] = sorted(d for d in dirs if d != "out")
        for name in sorted(names):
            if name.endswith((".rt", ".antt")):
                yield os.path.join(folder, name)


def read(path):
    with open(path, encoding="utf-8") as f:
        return f.read()


def respelled(name):
    if name[0].isupper():
        return re.sub(r"-(\w)", lambda m: m[1].upper(), name)
    return name.replace("-", "_")


def main():
    declared, fields = collections.defaultdict(set), set()
    for path in files():
        if re.match(r"crates/\w+/(specs|proofs)/\w+\.antt$", path):
            for m in DECLARED.finditer(read(path)):
                declared[m[3]].add(path)
                if m[1]:
                    fields.add(m[3])
    turned = {name: respelled(name) for name in declared if "-" in name}
    new = collections.Counter(turned.values())
    clashes = sorted(n for n, k in turned.items() if new[k] > 1 or k in declared)
    if clashes:
        sys.exit("these would fall together with others: " + ", ".join(clashes))

    def turn(m):
        word, behind_dot = m[2], m[1] == "."
        if word not in turned or (behind_dot and word not in fields):
            return m[0]
        return m[1] + turned[word]

    changed = 0
    for path in files():
        old = read(path)
        text = re.sub(r"(^|[^\w'\-])([A-Za-z][\w']*(?:-[\w']+)+)", turn, old, flags=re.M)
        if text != old:
            changed += 1
            with open(path, "w", encoding="utf-8") as f:
                f.write(text)
    print(f"{len(turned)} names, {changed} files")


main()
