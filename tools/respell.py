#!/usr/bin/env python3
"""Respells the repository's own definitions and lemmas: words joined by '_' in place of '-'.

usage: python3 tools/respell.py     at the top of the repository, once, after the kit's port.py

A name is the repository's own if a file of specs/ or proofs/ declares it. Names that Rattle makes
(goals, invariants, parts of a path) are left as they are, and so are src/'s own names, which have no '-'.
"""

import os
import re
import sys

# What a name of antt is made of, but for the dot that parts a path.
LETTER = r"[^\s(){}\[\].,;:\"`«»λ]"
TOKEN = re.compile(LETTER + "+")
DECLARED = re.compile(r"^\s*(?:(?:pub|abbrev|unfoldable|data|record|axiom)\s+)*(" + LETTER + r"+)\s*(?:[({].*)?:(?!:)")
RECORD = re.compile(r"^\s*(?:pub )?record\b.*\bwhere$")
MADE = ("Answers.antt", "Invariants.antt", "Proof.antt")


def files(ends):
    for folder, dirs, names in os.walk("crates"):
        dirs[:] = sorted(d for d in dirs if d not in ("out", "target"))
        for name in sorted(names):
            if name.endswith(ends):
                yield os.path.join(folder, name)


def read(path):
    with open(path, encoding="utf-8") as f:
        return f.read()


def declared():
    """The dashed names that files of specs/ and of lemmas declare, and those of them that are fields of a record."""
    found, fields = set(), set()
    for path in files(".antt"):
        if os.path.basename(path) in MADE:
            continue
        inside = None
        for line in read(path).splitlines():
            depth = len(line) - len(line.lstrip())
            if inside is not None and line.strip() and depth <= inside:
                inside = None
            if RECORD.match(line):
                inside = depth
            if line.startswith(("use ", "pub use ")) or line.lstrip().startswith("--"):
                continue
            m = DECLARED.match(line)
            if m and re.fullmatch(r"[a-z0-9_]+(-[a-z0-9_]+)+", m.group(1)):
                found.add(m.group(1))
                if inside is not None:
                    fields.add(m.group(1))
    return found, fields


def main():
    names, fields = declared()
    turned = {n: n.replace("-", "_") for n in names}
    together = 0
    for path in files((".antt", ".rt", ".edit")):
        text = read(path)
        words = set(TOKEN.findall(text))
        for name, new in sorted(turned.items()):
            if name in words and new in words:
                together += 1
                print(f"together: {path}: {name} and {new}", file=sys.stderr)
        # Behind a dot stands a field, or a step of a proof, which Rattle names.
        new = TOKEN.sub(lambda m: m.group(0) if text[m.start() - 1 : m.start()] == "." and m.group(0) not in fields else turned.get(m.group(0), m.group(0)), text)
        if new != text:
            with open(path, "w", encoding="utf-8") as f:
                f.write(new)
    print(f"respell: {len(names)} names, {len(fields)} of them fields; {together} to look at")


main()
