#!/usr/bin/env python3
"""Drops from Answers.antt and Invariants.antt the imports whose names stand nowhere else in the file.

usage: tools/port/imports.py CRATE..     at the top of the repository

It goes by text: a name stays where its word, or an operator's part, stands in the file below the imports.
"""
import os
import re
import sys

WORD = r"[^\s(){}.;,@\"«»\[\]]+"


def stands(name, body, words):
    if "◌" in name:
        return all(p in body for p in name.split("◌") if p)
    if not re.fullmatch(r"[\w'₀-₉-]+", name):
        return name in body
    return name in words


def prune(path):
    with open(path, encoding="utf-8") as f:
        text = f.read()
    lines = text.split("\n")
    body = "\n".join(l for l in lines if not l.startswith("use ") and not l.lstrip().startswith("--"))
    words = set(re.findall(WORD, body)) | {w for t in re.findall(WORD, body) for w in re.split(r"[.+\-*/]", t)}
    # a dash joins words to names, and a name may stand before a dot
    words |= set(re.findall(r"[\w'₀-₉-]+", body))
    out = []
    for l in lines:
        m = re.match(r"use ([^{]+)\.\{(.*)\}$", l)
        if m and not m[1].endswith(".Goals"):
            kept = [n for n in m[2].split(", ") if stands(n.split(" as ")[-1], body, words)]
            if not kept:
                continue
            l = f"use {m[1]}.{{{', '.join(kept)}}}"
        out.append(l)
    new = "\n".join(out)
    if new != text:
        with open(path, "w", encoding="utf-8") as f:
            f.write(new)
        return True
    return False


def main(crates):
    n = 0
    for c in crates:
        for folder, dirs, names in os.walk(f"crates/{c}/proofs"):
            for x in names:
                if x in ("Answers.antt", "Invariants.antt"):
                    n += prune(os.path.join(folder, x))
    print(f"{n} files")


main(sys.argv[1:])
