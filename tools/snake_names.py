#!/usr/bin/env python3
"""Brings the names of this repository's own definitions and lemmas to one spelling.

usage: python3 tools/snake_names.py      at the top of the repository, once, after the kit's port.py

Words, lemmas, fields and constructors come in snake case, types in camel case. Names of the library, names
that Rattle makes, and names of src/ stay. Turned are specs/, proofs/, the clauses of src/, and what docs/ and
README cite between backticks.
"""

import collections
import os
import re
import sys

NAME = re.compile(r"[^\s(){}\[\];,.`\"«»\\|:]+")
DECLARED = re.compile(r"^\s*(?:(?:abbrev|unfoldable|pub|record|data)\s+)*([^\s:(){}]+)(?=\s*(?:[({].*)?\s:(?:\s|$))")
RENAMED_IMPORT = re.compile(r"[{,]\s*\S+ as ([^\s,}]+)")
LIBRARY = re.compile(r"^\s*(?:ghost )?use (?:Rattle\.std|native|lib|mathlib|borrow|denote|Prim|libcore)[^{]*\{([^}]*)\}")
ANSWERS = ("Answers.antt", "Invariants.antt", "Choices.antt", "Proof.antt")

# Where the plain spelling is that of a function of the same file, the definition gets a name of its own.
TAKEN = {
    "short-queue": "queue_is_short",
    "new-bits": "new_bits_of",
    "is-rock": "is_rock_mark",
    "is-unseen": "is_unseen_mark",
    "free-beside": "is_free_beside",
    "cut-to": "cut_towards",
    "row-fields": "row_fields_of",
    "felt-mark": "felt_mark_of",
    "any-covers": "any_pillar_covers",
}


def files(*endings):
    for folder, dirs, names in os.walk("crates"):
        dirs[:] = sorted(d for d in dirs if d != "out")
        for name in sorted(names):
            if name.endswith(endings):
                yield os.path.join(folder, name)


def read(path):
    with open(path, encoding="utf-8") as f:
        return f.read()


def spelled(name):
    if name in TAKEN:
        return TAKEN[name]
    if name[0].isupper():
        return "".join(part[:1].upper() + part[1:] for part in name.split("-"))
    return re.sub(r"(?<=[a-z0-9])[A-Z]", lambda m: "_" + m.group().lower(), name).replace("-", "_")


def own_names():
    own, library = set(), set()
    for path in files(".antt", ".rt"):
        for line in read(path).splitlines():
            if m := LIBRARY.match(line):
                library.update(w.strip().split(" as ")[0] for w in m.group(1).split(","))
            if line.lstrip().startswith(("use ", "ghost use ")):
                own.update(RENAMED_IMPORT.findall(line))
            if path.endswith(".antt") and not path.endswith(ANSWERS) and not line.lstrip().startswith("--"):
                if m := DECLARED.match(line):
                    own.add(m.group(1))
    return {n for n in own if spelled(n) != n}, library


def turned(text, names):
    return NAME.sub(lambda m: names.get(m.group(), m.group()), text)


def main():
    own, library = own_names()
    names = {n: spelled(n) for n in sorted(own - library)}
    for n in sorted(own & library):
        print(f"left: {n}, also a name of the library")
    several = collections.Counter(names.values())
    for n, to in names.items():
        if several[to] > 1:
            sys.exit(f"{n} would fall together with another as {to}")
    for path in files(".antt", ".rt"):
        before = read(path)
        after = turned(before, names)
        if after != before:
            with open(path, "w", encoding="utf-8") as f:
                f.write(after)
    pages = ["README.md"] + [os.path.join("docs", f) for f in sorted(os.listdir("docs")) if f.endswith(".md")]
    for path in pages:
        before = read(path)
        after = re.sub(r"`[^`\n]+`", lambda m: turned(m.group(), names), before)
        if after != before:
            with open(path, "w", encoding="utf-8") as f:
                f.write(after)
    print(f"{len(names)} names")


main()
