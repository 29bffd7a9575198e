#!/usr/bin/env python3
"""Brings the repository's own definitions and lemmas to today's spelling, after port.py.

usage: tools/port/respell.py        at the top of the repository, once

port.py respells the names that the library's own tables have. This script turns the others: each name that a file of specs/ or proofs/
declares, that begins in lower case and has a capital within, as `smallerOf`, is written `smaller_of`; a fact among them is a type and gets
a capital. Lemma names keep their dashes, which join two names. Functions of src/, exported names and strings keep their names. Where port.py
has written a lemma as a definition is written now, the lemma gets its dash back. It goes by whole words.
"""
import os
import re

DECLARED = re.compile(r"^ *(?:(?:pub|abbrev|unfoldable) +)*([^\s(){}.;,@\"«»:]+)(?: +[({][^\n]*)? : ")
WORD = r"(?<![^\s(){}.;,@\"«»`\[\]|'′*])%s(?![^\s(){}.;,@\"«»`\[\]|:'′*])"
# facts, that is types
TYPES = {"openWithin": "OpenWithin"}
# a parameter of functions has the plain spelling
OTHER = {"typeLine": "type_line_of"}
# lemmas that would meet a definition
LOCAL = ["end_test", "end_line", "is_digit", "last_line", "demanded_at", "counted_of", "opening_of", "row_from"]


def files(endings):
    for folder, dirs, names in os.walk("crates"):
        dirs[:] = sorted(d for d in dirs if d != "out")
        for name in sorted(names):
            if name.endswith(endings):
                yield os.path.join(folder, name)


def snake(name):
    return re.sub(r"(?<=[a-z0-9])[A-Z]", lambda m: "_" + m[0].lower(), name.replace("noLF", "no_lf"))


def main():
    declared = set()
    for path in files((".antt",)):
        with open(path, encoding="utf-8") as f:
            for line in f:
                m = DECLARED.match(line)
                if m and not line.strip().startswith("--"):
                    declared.add(m[1])
    turned = {n: TYPES.get(n) or OTHER.get(n) or snake(n) for n in declared if re.match(r"[a-z].*[A-Z]", n) and (re.search(r"[a-z0-9][A-Z]", n))}
    met = sorted(n for n in turned.values() if n in declared and n not in LOCAL)
    if met:
        raise SystemExit("these names would fall together: " + ", ".join(met))
    word = re.compile(r"(?<![\w'-])(" + "|".join(sorted(map(re.escape, turned), key=len, reverse=True)) + r")(?![\w-])")
    local = re.compile(r"(?<![\w'-])(" + "|".join(LOCAL) + r")(?![\w'-])")
    for path in files((".antt", ".rt", ".edit")):
        with open(path, encoding="utf-8") as f:
            text = f.read()
        new = text
        if "/specs/" in path:
            new = local.sub(lambda m: m[1].replace("_", "-"), new)
        new = word.sub(lambda m: turned[m[1]], new)
        if new != text:
            with open(path, "w", encoding="utf-8") as f:
                f.write(new)
    print(f"{len(turned)} names")


main()
