#!/usr/bin/env python3
"""places.py [POINT] [ROOT]: the places in src/ of each kind that docs/DESIGN-PASS.md counts, by a look at the text: with a POINT (1 to 8) each
place of it, and else the number of places of each kind. Tests and programs count like any other crate."""
import collections
import glob
import os
import re
import sys

point = next((a for a in sys.argv[1:] if a.isdigit()), None)
root = next((a for a in sys.argv[1:] if not a.isdigit()), os.path.join(os.path.dirname(__file__), "../.."))
FN = re.compile(r"^(\s*)(pub )?(unsafe )?(extern \"C\" )?fn (\w+)", re.M)
found = collections.OrderedDict()


def note(kind, where, text=""):
    found.setdefault(kind, []).append((where, text))


def kinds(*names):
    for name in names:
        found.setdefault(name, [])


files = sorted(glob.glob(f"{root}/crates/*/src/*.rt"))
texts = {f: open(f, encoding="utf-8").read() for f in files}


def where(f, at):
    return f"{os.path.relpath(f, root)}:{texts[f].count(chr(10), 0, at) + 1}"


def functions(f):
    """Gives name, place, head (to the brace) and body of each function."""
    s = texts[f]
    for m in FN.finditer(s):
        indent = m[1].replace("\n", "")
        end = s.find(f"\n{indent}}}", m.end())
        brace = re.compile(rf"(^{indent}|[^{{]) ?\{{$", re.M).search(s, m.end(), end)
        at = brace.end() if brace else m.end()
        yield m[5], m.start() + len(m[1]), s[m.start():at], s[at:end]


kinds("1 own enum of the shape of Option or Result", "1 number of a refusal tested as a flag", "1 answer written number by number", "1 sentinel for none", "1 kind that is a number, by its constant", "1 error number or flag beside a value in a struct")
kinds("2 functions that differ in names, types or constants alone")
kinds("3 while", "3 loop")
kinds("4 bytes compared by hand", "4 numbers or bytes printed by hand", "4 answer copied field by field")
kinds("5 masks, values and words as three parameters", "5 clause that stands in three contracts or more")
kinds("6 three arrays side by side", "6 array with a count beside it")
kinds("7 name compared in a row of tests")
kinds("8 answers in proofs", "8 lines of proofs")

for f in files:
    s = texts[f]
    for m in re.finditer(r"^(?:pub )?enum (\w+) \{\n(.*?)^\}", s, re.M | re.S):
        cases = [re.sub(r"\s*//.*", "", it).strip() for it in m[2].split("\n")]
        cases = [it for it in cases if it and not it.startswith(("//", "#"))]
        if len(cases) == 2 and any("(" in it or "{" in it for it in cases):
            note("1 own enum of the shape of Option or Result", where(f, m.start()), m[1])
    for m in re.finditer(r"if \w+\.number (!=|==) 0", s):
        note("1 number of a refusal tested as a flag", where(f, m.start()), m[0])
    for m in re.finditer(r"\bnumber: (\d+|\w+::kind_number\(\w+\)),", s):
        note("1 answer written number by number", where(f, m.start()), m[0])
    for m in re.finditer(r"^(?:pub )?const \w+: (?:usize|u32|i32) = \d;$", s, re.M):
        if re.search(r"^(?:pub )?const \w+: (?:usize|u32|i32) = \d;\n\n?(?:// .*\n)*(?:pub )?const \w+: (?:usize|u32|i32) = \d;$", s, re.M):
            note("1 kind that is a number, by its constant", where(f, m.start()), m[0])
    for m in re.finditer(r"^\s*pub (?:error: i32|found: bool|stands: bool|is_\w+: bool|given: bool),$", s, re.M):
        note("1 error number or flag beside a value in a struct", where(f, m.start() + 1), m[0].strip())
    for m in re.finditer(r"\bLOST\b|usize::MAX", s):
        if not re.match(r"use |pub const", s[s.rfind("\n", 0, m.start()) + 1:]):
            note("1 sentinel for none", where(f, m.start()), m[0])
    for m in re.finditer(r"^\s*(?:'\w+: )?while .*", s, re.M):
        note("3 while", where(f, m.start() + len(m[0]) - len(m[0].lstrip())), m[0].strip())
    for m in re.finditer(r"^\s*(?:'\w+: )?loop \{", s, re.M):
        note("3 loop", where(f, m.start()), "")
    for m in re.finditer(r"\bnumber: (\w+)\.number,", s):
        note("4 answer copied field by field", where(f, m.start()), m[0])
    for m in re.finditer(r"let mut (\w+) = \[[^\]]*; \w+\];\n\s*let mut (\w+) = \[[^\]]*; \w+\];\n\s*let mut (\w+) = \[[^\]]*; \w+\];", s):
        note("6 three arrays side by side", where(f, m.start()), f"{m[1]}, {m[2]}, {m[3]}")
    for m in re.finditer(r"\b(?:part|room)(?:8|16|32|_signed)\(&(?:mut )?\w+, ", s):
        note("6 array with a count beside it", where(f, m.start()), m[0])
    for name, at, head, body in functions(f):
        if re.search(r"^is_(same|equal)|^same_|^starts|^copy_", name) :
            note("4 bytes compared by hand", where(f, at), name)
        if re.search(r"% 10|/= 10|\b48 \+", body):
            note("4 numbers or bytes printed by hand", where(f, at), name)
        if re.search(r"masks: ", head) and re.search(r"values: ", head) and re.search(r"words: ", head):
            note("5 masks, values and words as three parameters", where(f, at), name)
        if len(re.findall(r"is_same\(\w+, b\"", body)) > 1:
            note("7 name compared in a row of tests", where(f, at), name)

# functions whose bodies are one text once names, numbers and byte strings are one
shapes = collections.defaultdict(list)
for f in files:
    for name, at, head, body in functions(f):
        if body.count("\n") < 5:
            continue
        shape = re.sub(r"//.*", "", body)
        shape = re.sub(r'b"(\\.|[^"\\])*"', "B", shape)
        words = re.findall(r"b'(?:\\.|[^'])'|\w+|[^\w\s]", shape)
        keep = {"if", "else", "while", "for", "in", "return", "match", "let", "mut", "as", "break", "loop"}
        shapes[" ".join(w if w in keep or not re.match(r"\w", w) else "x" for w in words)].append((f, at, name))
for group in shapes.values():
    for f, at, name in group if len(group) > 1 else []:
        note("2 functions that differ in names, types or constants alone", where(f, at), f"{name}, of {len(group)}: {group[0][2]}")

clauses = collections.defaultdict(list)
for f in files:
    for m in re.finditer(r"^\s*(?:requires|ensures)(?: \w+)? \{(.*)\}$", texts[f], re.M):
        for part in re.split(r" × ", m[1].strip()):
            part = part.strip().strip("()")
            if len(part) > 12 and "result" not in part:
                clauses[part].append((f, m.start()))
for part, places in clauses.items():
    for f, at in places if len(places) > 2 else []:
        note("5 clause that stands in three contracts or more", where(f, at + 1), part)

for f in sorted(glob.glob(f"{root}/crates/*/proofs/**/*.antt", recursive=True)):
    with open(f, encoding="utf-8") as it:
        s = it.read()
    for m in re.finditer(r"^(?:abbrev )?pub [^\s:]+ : goal\.", s, re.M):
        found["8 answers in proofs"].append((f"{os.path.relpath(f, root)}:{s.count(chr(10), 0, m.start()) + 1}", ""))
    found["8 lines of proofs"] += [(f, "")] * s.count("\n")

for kind, places in found.items():
    if point is None:
        print(f"{len(places):6}  {kind}")
    elif kind.startswith(point + " ") and kind != "8 lines of proofs":
        print(f"{kind}: {len(places)}")
        for place, text in places:
            print(f"  {place}  {text}")
