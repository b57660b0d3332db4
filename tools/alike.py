#!/usr/bin/env python3
"""Lists functions whose bodies are alike once names, numbers and texts are left out.

usage: python3 tools/alike.py FILE..     one line for each group of two or more
"""

import collections
import re
import sys

# Words that stay, since they are the shape of a body.
SHAPE = {"if", "else", "for", "in", "match", "return", "let", "mut", "self", "while", "Some", "None", "Ok", "Err", "as"}


def bodies(path):
    """Each function of a file: the line where it begins, its name and its body."""
    lines = open(path, encoding="utf-8").read().split("\n")
    i = 0
    while i < len(lines):
        found = re.match(r"\s*(?:pub(?:\(crate\))? )?fn (\w+)", lines[i])
        if not found:
            i += 1
            continue
        indent = " " * (len(lines[i]) - len(lines[i].lstrip()))
        end = i
        while end < len(lines):
            line = lines[end].rstrip()
            code = "".join(x for x in lines[i : end + 1] if "ensures" not in x and "requires" not in x)
            if line == indent + "}" or (end == i and line.endswith("}")) or (line.endswith(";") and "{" not in code):
                break
            end += 1
        text = "\n".join(x for x in lines[i : end + 1] if not re.match(r"\s*(ensures|requires|//)", x))
        yield i + 1, found.group(1), text[text.find("{") :] if "{" in text else ""
        i = end + 1


def blanked(body):
    """A body without texts, numbers, names and spaces."""
    body = re.sub(r'"[^"]*"', "S", body)
    body = re.sub(r"\b0x[0-9a-f]+|\b[0-9][0-9_]*(u32|u8|u16)?\b", "0", body)
    body = re.sub(r"[A-Za-z_][A-Za-z0-9_]*", lambda m: m.group(0) if m.group(0) in SHAPE else "x", body)
    body = re.sub(r"(?:x::)*x(?:::<[^>]*>)?", "x", body)
    return re.sub(r"\s+", "", body)


groups = collections.defaultdict(list)
for path in sys.argv[1:]:
    for line, name, body in bodies(path):
        if len(re.sub(r"\s", "", body)) > 1:
            groups[blanked(body)].append(f"{path}:{line} {name}")
for body, places in sorted(groups.items(), key=lambda group: -len(group[0])):
    if len(places) > 1:
        print(" | ".join(places))
