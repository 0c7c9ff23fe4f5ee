#!/usr/bin/env python3
"""Spells the repository's own definitions and lemmas as today's Rattle does: words in snake case.

usage: python3 tools/respell.py      once, at the top of the repository, right after port.py

Each name that a file of specs/ or proofs/ declares with a dash or with a capital inside (lowest-in, shownOf)
gets an underscore there (lowest_in, shown_of). Types and modules, goals, names of src/ and names of std stay.
It changes .antt files, clauses and ghost items of .rt files, must-fail edits, and names between backticks in pages.
It stops, and changes nothing, where two names would fall together.
"""

import os
import re
import sys

# What a name is made of.
PART = r"[A-Za-z0-9_'ℕ-]"
NAME = re.compile(r"(?<!%s)[a-z]%s*" % (PART, PART))
DECLARED = re.compile(r"^[ ]*(?:(?:pub|abbrev|unfoldable)\s+)*([a-z]%s*)(?:\s*\{[^}\n]*\})?\s*:\s+(?!goal\.|need\.)\S" % PART, re.M)
LIBRARY = re.compile(r"use (?:Rattle\.std|Rattle\.refusal\.specs\.declared|borrow|native|denote|lib|mathlib|Prim)[.\w]*\.\{([^}]*)\}")


def snake(name):
    name = name.replace("-", "_")
    return re.sub(r"(?<=[a-z0-9])([A-Z])", lambda m: "_" + m.group(1).lower(), name)


def files(ending, top="crates"):
    for folder, dirs, names in os.walk(top):
        dirs[:] = sorted(d for d in dirs if d not in ("out", ".git"))
        for name in sorted(names):
            if name.endswith(ending):
                yield os.path.join(folder, name)


def read(path):
    with open(path, encoding="utf-8") as f:
        return f.read()


def renamed():
    """Old name to new, of all names that the repository declares and that are spelled otherwise today."""
    table, known = {}, set()
    for path in files(".antt"):
        for name in DECLARED.findall(read(path)):
            known.add(name)
            if snake(name) != name:
                table[name] = snake(name)
    clashes = [(old, new) for old, new in table.items() if new in known]
    back = {}
    for old, new in table.items():
        if new in back:
            clashes.append((old, back[new]))
        back[new] = old
    for path in files(".antt"):
        for names in LIBRARY.findall(read(path)):
            for name in re.findall(r"[^\s,]+", names):
                if name in table:
                    clashes.append((name, path))
                if name in back:
                    clashes.append((back[name], path + ": " + name))
    return table, clashes


def turn(text, table):
    return NAME.sub(lambda m: table.get(m.group(0), m.group(0)), text)


def main():
    table, clashes = renamed()
    if clashes:
        for old, other in clashes:
            print("falls together: %s, %s" % (old, other), file=sys.stderr)
        raise SystemExit(1)
    for ending in (".antt", ".rt", ".edit"):
        for path in files(ending):
            old = read(path)
            new = turn(old, table)
            if new != old:
                with open(path, "w", encoding="utf-8") as f:
                    f.write(new)
    for path in list(files(".md", "docs")) + ["README.md"]:
        old = read(path)
        new = re.sub(r"`[^`\n]*`", lambda m: turn(m.group(0), table), old)
        if new != old:
            with open(path, "w", encoding="utf-8") as f:
                f.write(new)
    print("%d names spelled anew" % len(table))


main()
