#!/usr/bin/env python3
"""changes.py COMMIT: what differs from the commit to the tree as it stands, old and new side by side, as docs/DESIGN-PASS.md ends with it: signatures
and clauses of public functions, public types and constants, and the definitions and theorems of specs/; and the must-fail edits whose text changed."""
import os
import re
import subprocess
import sys

commit = sys.argv[1]
os.chdir(os.path.join(os.path.dirname(os.path.abspath(__file__)), "../.."))


def git(*words):
    return subprocess.run(["git", *words], capture_output=True, text=True, check=True).stdout


def now(file):
    return open(file, encoding="utf-8").read() if os.path.exists(file) else ""


old_files = git("ls-tree", "-r", "--name-only", commit).split("\n")
new_files = git("ls-files").split("\n")
both = sorted({f for f in old_files + new_files if f.startswith("crates/")})
was = {f: git("show", f"{commit}:{f}") if f in old_files else "" for f in both if re.search(r"/(src|specs|must-fail)/", f)}


def flat(text):
    return re.sub(r"\s+", " ", re.sub(r"^\s*(--|//).*$", "", text, flags=re.M)).strip()


def functions(text):
    """The head of each public function: signature and clauses."""
    found = {}
    for m in re.finditer(r"^([ \t]*)pub (?:unsafe )?(?:extern \"C\" )?fn (\w+)", text, re.M):
        end = re.compile(rf"^{m[1]}\{{$|[^{{]\{{$|\)(?: -> [^\n{{]*)? \{{$", re.M).search(text, m.end())
        head = text[m.start():end.end() - 1] if end else m[0]
        found[m[2]] = flat(head)
    return found


def types(text):
    found = {}
    for m in re.finditer(r"^pub (struct|enum|const) (\w+)(.*?)(?:^\}|;$)", text, re.M | re.S):
        found[f"{m[1]} {m[2]}"] = flat(m[0])
    return found


HEAD = re.compile(r"^([ ]*)(?:(?:abbrev|unfoldable|pub|record|data) )*([^\s:(){}|=]+)((?: \{[^}]*\}| \([^)]*\))*) :")


def items(text):
    """Each item of a file of specs/, by its name; what stands in a `where` belongs to its item."""
    found, name, lines, depth = {}, None, [], 0

    def close():
        if not name:
            return
        kept = lines
        if not re.match(r"\s*(?:pub )?(?:abbrev|unfoldable|record|data) |\s*unfoldable ", lines[0]):
            # of a theorem the statement, and not its proof
            proof = re.compile(rf"\s*(?:unfolding |{re.escape(name)}(?:\s|$))")
            ends = [i for i, line in enumerate(lines) if i and proof.match(line)]
            kept = lines[: ends[0]] if ends else lines
        found.setdefault(name, []).append(flat("\n".join(kept)))

    for line in text.split("\n"):
        m = HEAD.match(line)
        if line.startswith(("use ", "pub use", "module ")) or line.strip().startswith("module "):
            close()
            name, lines = None, []
        elif m and not line.startswith("--") and (name is None or len(m[1]) <= depth):
            close()
            name, lines, depth = m[2], [line], len(m[1])
        elif name:
            lines.append(line)
    close()
    return found


last = None


def said(where, old, new):
    """One entry: those of a file stand in one block, old above new."""
    global last
    if where != last:
        if last:
            print("```")
        print(f"\n{where}\n\n```diff")
    else:
        print()
    print(f"- {old}" if old else "- (none)")
    print(f"+ {new}" if new else "+ (none)")
    last = where


def begin(title):
    global last
    if last:
        print("```")
    last = None
    print(f"\n### {title}")


sections = [("Public functions: signatures and clauses", "/src/", functions), ("Public types and constants", "/src/", types)]
for title, part, read in sections:
    begin(title)
    for f in both:
        if part in f and f.endswith(".rt"):
            a, b = read(was.get(f, "")), read(now(f))
            for name in sorted(set(a) | set(b)):
                if a.get(name) != b.get(name):
                    said(f"crates/{f.split('/')[1]}", a.get(name), b.get(name))
begin("Definitions and theorems of specs/")
for f in both:
    if "/specs/" in f and f.endswith(".antt"):
        a, b = items(was.get(f, "")), items(now(f))
        for name in sorted(set(a) | set(b)):
            old, new = a.get(name, []), b.get(name, [])
            if old != new:
                for x in [x for x in old if x not in new] or [None]:
                    y = [y for y in new if y not in old]
                    said(f, x, " | ".join(y) or None)
                    break
begin("Must-fail edits whose text changed")
for f in both:
    if "/must-fail/" in f and was.get(f) != now(f):
        cut = lambda text: " / ".join(l for l in text.split("\n") if l.startswith(("old:", "new:")))
        said(f, cut(was.get(f, "")), cut(now(f)))
print("```")
