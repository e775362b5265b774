#!/usr/bin/env python3
"""Respells the definitions and lemmas of this repository: words in snake case, types and facts in camel case.

usage: python3 tools/respell_names.py [--dry]     at the top of the repository

A name is taken from where it is declared, in specs/ or proofs/: `header-bytes` becomes `header_bytes`, and `One-reading`
becomes `OneReading`. It is replaced wherever it stands as a whole word, in specs and proofs, in the clauses of src/, in the
edits of must-fail/, and between backticks on the pages. Functions, strings and comments of the code stay as they are, and so
do names that the checker makes of the code, such as `loop-byte-preserved`. Where two names would become one, or a name is in
use already beside the one that becomes it, the script says so and changes nothing.
"""

import os
import re
import sys

WORD = r"[^\s(){}\[\].,;:λ`\"|]+"
DECLARED = re.compile(r"^\s*(?:(?:abbrev|unfoldable|pub|record|data|ruleset)\s+)*(" + WORD + r")\s+(?:\([^\n]*\)\s*)?:(?!=)[^\n]*", re.M)
# a name that a word of the old library stood in
OLDER = {"bytes-from-getD": "bytes_from_get_or"}
CODE = re.compile(r"//[^\n]*|\"(?:[^\"\\]|\\.)*\"|[A-Za-z][\w'-]*[\w']")
CLAUSES = re.compile(r"--[^\n]*|" + WORD)
QUOTED = re.compile(r"`[^`\n]+`")


def files(*endings):
    for top in ("crates", "docs", "README.md"):
        if os.path.isfile(top):
            if top.endswith(endings):
                yield top
            continue
        for folder, dirs, names in os.walk(top):
            dirs[:] = sorted(d for d in dirs if d != "out")
            for name in sorted(names):
                if name.endswith(endings):
                    yield os.path.join(folder, name)


def read(path):
    with open(path, encoding="utf-8") as f:
        return f.read()


def respelled(name):
    if name in OLDER:
        return OLDER[name]
    if name[0].isupper():
        return "".join(part[:1].upper() + part[1:] for part in re.split("[-_]", name))
    return name.replace("-", "_")


def declared():
    found = {}
    for path in files(".antt"):
        for m in DECLARED.finditer(read(path)):
            name = m.group(1)
            if re.match(r"[A-Za-z]\S*-|[A-Z]\S*_", name) and " goal." not in m.group(0):
                found[name] = respelled(name)
    return found


def words(path):
    """The words of a file of specs/ or proofs/, but for those of its comments and of the paths that it imports from."""
    text = re.sub(r"--[^\n]*", "", read(path))
    return set(re.findall(WORD, re.sub(r"^(?:pub )?use [\w.+]+", "", text, flags=re.M)))


def clashes(names):
    back = {}
    for old, new in names.items():
        if back.setdefault(new, old) != old:
            yield f"{old} and {back[new]} would both be {new}"
    for path in files(".antt"):
        here = words(path)
        for old, new in names.items():
            if new in here and old in here:
                yield f"{path}: {new} is in use beside {old}"


def turn(path, names):
    text = read(path)
    if path.endswith(".md"):
        inner = re.compile("|".join(r"(?<![\w-])" + re.escape(n) + r"(?![\w-])" for n in sorted(names, key=len, reverse=True)))
        return QUOTED.sub(lambda m: inner.sub(lambda k: names[k.group(0)], m.group(0)), text)
    if path.endswith(".antt"):
        return CLAUSES.sub(lambda m: names.get(m.group(0), m.group(0)), text)
    return CODE.sub(lambda m: names.get(m.group(0), m.group(0)), text)


def main():
    names = declared()
    said = list(clashes(names))
    for line in said:
        print(line)
    print(f"{len(names)} names")
    if said or "--dry" in sys.argv:
        raise SystemExit(1 if said else 0)
    for path in files(".antt", ".rt", ".edit", ".md"):
        text = read(path)
        new = turn(path, names)
        if new != text:
            with open(path, "w", encoding="utf-8") as f:
                f.write(new)


main()
