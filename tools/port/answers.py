#!/usr/bin/env python3
"""Turns old proofs by places, proofs/F/Proof.antt, into today's Invariants.antt and Answers.antt.

usage: tools/port/answers.py NAMES.json CRATE [FUNCTION..]     at the top of the repository

NAMES.json is what `rt check --generated FOLDER --old-names` writes in the crate's folder: for each function its goals' old and new names and
the places of its code. An old proof reads a fact by walking from a goal's place back to where the fact was met, by `.before`; today's `c` has
each step by name. The walk is done here. Answers that only call the search go. The old file is moved to proofs/F/Proof.old, which is never
committed. What could not be turned is said on a line 'look:'. It proves nothing: rt check decides.
"""
import json
import os
import re
import sys

NAME = r"[^\s(){}.;,@\"«»\[\]]+"


def norm(name):
    name = re.sub(r"_lem$", "", name).replace("_", "-").replace("type-size", "size-of").lower()
    return re.sub(r"^overflow-", "", name)


def contracts():
    """The names of the requires and ensures of each function, None for a lone one."""
    found = {}
    for crate in os.listdir("crates"):
        for folder, dirs, names in os.walk(f"crates/{crate}/src"):
            for n in names:
                if not n.endswith(".rt"):
                    continue
                with open(os.path.join(folder, n), encoding="utf-8") as f:
                    text = re.sub(r"(?m)^\s*//.*$", "", f.read())
                for m in re.finditer(r"(?m)^ *(?:pub )?(?:unsafe )?(?:extern \"C\" )?fn (\w+)(.*?)^( *)\{", text, re.S):
                    head = m[2]
                    req = re.findall(r"^\s*requires(?:\*?) *(\w+)? *\{", head, re.M)
                    ens = re.findall(r"^\s*ensures(?:\*?) *(\w+)? *\{", head, re.M)
                    found[f"{crate}::{m[1]}"] = (req, ens)
    return found


def clause(fields, names):
    """The field of a clause, from the old nested pairs; None if the fields stop at a pair."""
    fields, k = list(fields), 0
    while k < len(names) - 1:
        if not fields:
            return None
        if fields[0] == "0":
            return [names[k]] + fields[1:]
        if fields[0] != "1":
            return fields
        fields.pop(0)
        k += 1
    return [names[k]] + fields


def split_tuple(text):
    """The parts of a parenthesised tuple, or None."""
    text = text.strip()
    if not (text.startswith("(") and text.endswith(")")):
        return None
    depth, parts, last = 0, [], 1
    for i, ch in enumerate(text):
        if ch in "([{":
            depth += 1
        elif ch in ")]}":
            depth -= 1
            if depth == 0 and i != len(text) - 1:
                return None
        elif ch == "," and depth == 1:
            parts.append(text[last:i])
            last = i + 1
    rest = text[last:-1]
    if rest.strip():
        parts.append(rest)
    return [p.strip() for p in parts] if len(parts) > 1 else None


def last_tuple(body, anywhere=False):
    """Where the final tuple of a body begins, so that all that follows the lets is that tuple."""
    body = body.rstrip()
    if not body.endswith(")"):
        return None
    depth = 0
    for i in range(len(body) - 1, -1, -1):
        if body[i] in ")]}":
            depth += 1
        elif body[i] in "([{":
            depth -= 1
            if depth == 0:
                before = body[:i].rstrip()
                if anywhere or before == "" or re.search(r"(?:^|\s)in$", before) or before.endswith("↦"):
                    return i
                return None
    return None


class Function:
    def __init__(self, crate, name, entry, clauses):
        self.crate, self.name, self.entry, self.clauses = crate, name, entry, clauses
        self.places = {p[0]: p for p in entry["places"]}
        self.needs = entry["needs"]
        self.asked = entry["asked_at"]
        self.said = []
        self.helpers = []
        self.helper_places = {}
        self.named = set()
        self.bodies = {}
        self.arms = {p[0]: a for p, a in zip(entry["places"], entry["arms"])}
        self.used = set()
        self.place_of = {norm(p[0]): p[0] for p in entry['places']}

    def look(self, text):
        self.said.append(f"look: {self.crate}::{self.name}: {text}")

    def goal(self, label):
        for (old, new), (place, _) in zip(self.needs, self.asked):
            if norm(old) == norm(label):
                return new, place, old
        return None

    def own(self, kind, callee):
        got = self.clauses.get(callee)
        if not got:
            return []
        names = got[0] if kind == "requires" else got[1]
        return names if len(names) > 1 else []

    # a path from a place: the place, or the new text
    def resolve(self, place, fields):
        fields = list(fields)
        while fields and fields[0] == "before":
            place = self.places[place][1] or place
            fields.pop(0)
        if not fields:
            return ("place", place)
        first = fields.pop(0)
        callee = None
        if first == "pre":
            first = "requires"
        if first in ("args", "requires", "ranges", "auto"):
            new = first
            if first == "args" and not fields:
                return ("step", f"{self.root}.args", "Start")
            if first == "requires":
                names = self.own("requires", f"{self.crate}::{self.name.split('.')[-1]}")
                if names and fields:
                    fields = clause(fields, names) or fields
                elif names and not fields:
                    return ("clauses", f"{self.root}.requires", names)
        else:
            old, new = self.places[place][2]
            if norm(old) != norm(first):
                # the step of an ancestor, or one that is named anew
                p = place
                while p is not None and norm(self.places[p][2][0]) != norm(first):
                    p = self.places[p][1]
                if p is None:
                    p = self.asked_place
                    while p is not None and norm(self.places[p][2][0]) != norm(first):
                        p = self.places[p][1]
                if p is None:
                    p = next((q[0] for q in self.entry["places"] if q[2][1] == first), None)
                if p is None:
                    # numbered otherwise than today: the nearest of that name
                    bare = re.sub(r"\d+$", "", norm(first))
                    p = place
                    while p is not None and re.sub(r"\d+$", "", norm(self.places[p][2][0])) != bare:
                        p = self.places[p][1]
                if p is None:
                    self.look(f"no step `{first}` at {place}")
                    return ("term", f"{self.root}." + ".".join([first] + fields))
                place = p
                old, new = self.places[p][2]
            callee = self.places[place][3]
            if fields and fields[0] in ("ensures", "requires", "post"):
                if fields[0] == "post":
                    fields[0] = "ensures"
                names = self.own(fields[0], callee) if callee else []
                if names and len(fields) > 1:
                    fields = [fields[0]] + (clause(fields[1:], names) or fields[1:])
                elif names and len(fields) == 1:
                    return ("clauses", f"{self.root}." + new + "." + fields[0], names)
            elif fields and fields[0] == "inv":
                fields[0] = "invariant"
            elif len(fields) > 1 and fields[0] in ("new", "auto", "kept") and callee in self.entry["params"]:
                # the old pairs of what was lent
                params, k, rest = self.entry["params"][callee], 0, fields[1:]
                while rest and rest[0] == "1" and k < len(params) - 1:
                    k, rest = k + 1, rest[1:]
                if rest and rest[0] == "0":
                    fields = [fields[0].replace("kept", "auto"), params[k]] + rest[1:]
            if fields and fields[0] == "given":
                # what a match found
                if len(fields) == 1:
                    return ("partial", place, [old, "given"])
                p = self.asked_place
                while p is not None:
                    arm = self.arms.get(p)
                    for field, step, at in arm[2] if arm else []:
                        if norm(step) == norm(old) and fields[:len(at)] == at and at:
                            return ("term", ".".join([f"{self.root}.{arm[0]}", field] + fields[len(at):]))
                    p = self.places[p][1]
            if not fields:
                return ("step", f"{self.root}.{new}", place)
        if fields and (first in ("args", "ranges") or self.places[place][2][1].startswith("loop")):
            fields[0] = fields[0].replace("-", "_")
        return ("term", f"{self.root}." + ".".join([new] + fields))

    def new_place(self, place):
        """The nearest place from this one back that a file can name."""
        named = {p[0]: new for p, new in zip(self.entry["places"], self.entry["places_by_name"])}
        while re.search(r"slice_known|-unread$|known_", named[place]) and self.places[place][1]:
            place = self.places[place][1]
        self.named.add(named[place])
        return named[place]

    def walk(self, text, place, roots, goal=None, root="c"):
        """Turns the paths of a body whose c stands at a place."""
        alias = {root: ("place", place)}
        self.root = root
        self.asked_place = place

        def called(m):
            got = None
            words = m[2].split(".")
            if words[0] in alias or words[0] in self.lets:
                base = alias.get(words[0]) or ("place", self.lets[words[0]])
                if base[0] == "place":
                    p = base[1]
                    ok = True
                    for w in words[1:]:
                        if w != "before" or self.places[p][1] is None:
                            ok = False
                            break
                        p = self.places[p][1]
                    if ok:
                        got = p
            if got is None:
                return m[0]
            got = self.helper_places.get(m[1], got)
            if got == place:
                return f"{m[1]} {root}" if goal is None else f"{m[1]} (goal.at.{goal} {root}).{self.new_place(got)}"
            if goal is None:
                self.look(f"a helper calls {m[1]} at {got}")
                known = self.bodies.get(m[1])
                if known:
                    self.used.update(known[3])
                    return f"(let it : {known[0]} = {known[1]} in it)".replace("ROOT_C", root)
                return f"{m[1]} {root}"
            return f"{m[1]} (goal.at.{goal} {root}).{self.new_place(got)}"

        for _ in range(6):
            for r, tail in roots.items():
                text = re.sub(r"\(" + re.escape(r) + r" ([^\s()]+)\)", lambda m: m[1] + tail, text)
                text = re.sub(r"(?<![\w.'-])" + re.escape(r) + r" ([^\s()]+)", lambda m: m[1] + tail, text)
        # the places that lets name
        self.lets = {}
        for m in re.finditer(r"let ([^\s:=]+) = ([^\W\d][\w'₀-₉-]*)((?:\.before)*) in", text):
            base = place if m[2] == root else self.lets.get(m[2])
            if base is not None:
                p = base
                for _ in range(m[3].count(".before")):
                    p = self.places[p][1] if p else None
                if p:
                    self.lets[m[1]] = p
        for h in self.helpers:
            text = re.sub(r"(?<![\w.'-])(" + re.escape(h) + r") ([^\W\d][\w'₀-₉-]*(?:\.before)*)(?![\w.'-])", called, text)
            text = re.sub(r"(?<![\w.'-])(" + re.escape(h) + r") \(([^\W\d][\w'₀-₉-]*(?:\.before)*)\)", called, text)
        out, i = [], 0
        path = re.compile(r"(?<![\w.'₀-₉-])([^\W\d][\w'₀-₉-]*)((?:\.[\w'₀-₉+-]+)*)")
        let = re.compile(r"let ([^\s:=]+) = ([^\W\d][\w'₀-₉-]*)((?:\.[\w'₀-₉+-]+)*) in\s*")

        def turned(name, rest):
            kind = alias[name]
            fields = [f for f in rest.split(".") if f]
            if kind[0] == "place":
                return self.resolve(kind[1], fields)
            if kind[0] == "partial":
                return self.resolve(kind[1], kind[2] + fields)
            if kind[0] == "step":
                # a step's own fields
                p = self.places[kind[2]]
                if not fields:
                    return ("term", name)
                return self.resolve_step(kind, name, fields)
            if kind[0] == "clauses":
                if fields:
                    fields = clause(fields, kind[2]) or fields
                else:
                    return ("term", "(" + ", ".join(f"{name}.{n}" for n in kind[2]) + ")")
                return ("term", ".".join([name] + fields))
            return None

        while i < len(text):
            if text.startswith("(goal.at.", i):
                j = text.index(")", i)
                out.append(text[i:j + 1])
                i = j + 1
                m = re.compile(r"\.[\w'₀-₉+-]+").match(text, i)
                out.append(m[0] if m else "")
                i = m.end() if m else i
                continue
            m = let.match(text, i) if text.startswith("let ", i) and (i == 0 or not re.match(r"[\w.'-]", text[i - 1])) else None
            if m and m[2] in alias:
                got = turned(m[2], m[3])
                if got and got[0] in ("place", "partial"):
                    alias[m[1]] = got
                    i = m.end()
                    continue
                if got:
                    if got[0] in ("step", "clauses"):
                        alias[m[1]] = got
                    else:
                        alias.pop(m[1], None)
                    out.append(f"let {m[1]} = {got[1]} in" + text[m.end() - (len(m[0]) - len(m[0].rstrip())):m.end()])
                    i = m.end()
                    continue
            m = path.match(text, i)
            if m and (i == 0 or not re.match(r"[\w.'-]", text[i - 1])):
                field = not m[2] and text.startswith(" = ", m.end()) and re.search(r"[{;]\s*$", text[:i])
                if m[1] in alias and alias[m[1]] and not field:
                    got = turned(m[1], m[2])
                    if got is None:
                        out.append(m[0])
                    elif got[0] == "place":
                        out.append(root)
                    elif got[0] == "clauses":
                        # all of them at once were pairs
                        out.append("(" + ", ".join(f"{got[1]}.{n}" for n in got[2]) + ")")
                    else:
                        out.append(got[1])
                else:
                    out.append(m[0])
                i = m.end()
                continue
            out.append(text[i])
            i += 1
        text = "".join(out)
        text = re.sub(r"(?<![\w.'-])not-(?:true|false) _ (\S*if-not-[\w+-]*\.(?:true|false))", r"\1", text)
        text = re.sub(r"(?<![\w.'-])not-(?:true|false) [^\s()]+ (\S*if-not-[\w+-]*\.(?:true|false))", r"\1", text)
        text = re.sub(r"(\.in-[\w+-]+)\.keys\d+(?![\w'-])", r"\1.is", text)
        return text

    def resolve_step(self, kind, name, fields):
        if fields[0] == "given":
            return self.resolve(kind[2], [self.places[kind[2]][2][0]] + fields)
        if kind[1].endswith(".args") or self.places[kind[2]][2][1].startswith("loop"):
            fields[0] = fields[0].replace("-", "_")
        callee = self.places[kind[2]][3]
        if len(fields) > 1 and fields[0] in ("new", "auto", "kept") and callee in self.entry["params"]:
            params, k, rest = self.entry["params"][callee], 0, fields[1:]
            while rest and rest[0] == "1" and k < len(params) - 1:
                k, rest = k + 1, rest[1:]
            if rest and rest[0] == "0":
                fields = [fields[0].replace("kept", "auto"), params[k]] + rest[1:]
        if fields[0] == "inv":
            fields[0] = "invariant"
        if fields[0] in ("ensures", "post"):
            fields[0] = "ensures"
            names = self.own("ensures", callee) if callee else []
            if names and len(fields) > 1:
                fields = [fields[0]] + (clause(fields[1:], names) or fields[1:])
        return ("term", ".".join([name] + fields))

    def loop(self, label):
        """The new name and the variables of the loop that `invariant-LABEL` or `decreases-LABEL` is of."""
        for ((old, new), variables), changed in zip(self.entry["loops"], self.entry["changed"]):
            if norm(old) == norm(label):
                return new, variables, changed
        return None


def declarations(text):
    """Header lines, use lines, and the top-level declarations as (comment, name, modifiers, type, rest)."""
    # a type that begins on the next line
    text = re.sub(r"(?m)^((?:(?:pub|abbrev|unfoldable) )*[^\s(){}]+ :)\n +(?=\S)", r"\1 ", text)
    lines = text.split("\n")
    head, uses, blocks = [], [], []
    i = 0
    while i < len(lines) and (lines[i].startswith("--") or not lines[i].strip()):
        if lines[i].strip():
            head.append(lines[i])
        i += 1
    comment = []
    while i < len(lines):
        l = lines[i]
        if l.startswith("use "):
            u = [l]
            while "{" in "".join(u) and "}" not in "".join(u):
                i += 1
                u.append(lines[i])
            uses.append("\n".join(u))
            i += 1
            continue
        if not l.strip():
            i += 1
            continue
        if l.startswith("--"):
            comment.append(l)
            i += 1
            continue
        m = re.match(r"((?:(?:pub|abbrev|unfoldable) )*)(\S+)((?: \{[^}]*\}| \([^)]*\))*) : (.*)$", l)
        block = [l]
        i += 1
        name = m[2] if m else None
        while i < len(lines) and (not lines[i].strip() or lines[i].startswith(" ") or (name and (lines[i].startswith(name + " ") or lines[i].startswith("unfolding "))) or lines[i].startswith(")") or lines[i].startswith("]")):
            if not lines[i].strip() and (i + 1 >= len(lines) or not lines[i + 1].startswith(" ")):
                # a blank line ends it, unless a clause of the same name follows
                j = i + 1
                if not (name and j < len(lines) and lines[j].startswith(name + " ") and " : " not in lines[j]):
                    break
            block.append(lines[i])
            i += 1
        blocks.append((comment, name, (m[1] if m else ""), block))
        comment = []
    return head, uses, blocks


def replace_names(body, table):
    for old, new in table.items():
        # a binder of the same name hides it
        if re.search(r"λ[^.]*(?<![\w'])" + re.escape(old) + r"(?![\w'₀-₉])[^.]*\.", body) or re.search(r"\((?:[^():]* )?" + re.escape(old) + r"(?: [^():]*)? : ", body):
            inner = old + "'"
            body = re.sub(r"(λ[^.]*?)(?<![\w'])" + re.escape(old) + r"(?![\w'₀-₉])", lambda m: m[1] + inner, body)
            table = dict(table)
            return None
    pattern = re.compile(r"(?<![\w.'₀-₉-])(" + "|".join(sorted(map(re.escape, table), key=len, reverse=True)) + r")(?![\w'₀-₉-])")
    return pattern.sub(lambda m: table[m[1]], body)


def turn(crate, name, entry, clauses):
    folder = f"crates/{crate}/proofs/" + name.replace(".", "/")
    path = folder + "/Proof.antt"
    with open(path, encoding="utf-8") as f:
        text = re.sub(r"(?m)^(\S.* :)\n +(tie\.)", r"\1 \2", f.read())
    fn = Function(crate, name, entry, clauses)
    head, uses, blocks = declarations(text)
    uses = [u for u in uses if ".Statement.{" not in u and not re.search(r"\.Tie(?: as |\.|$)", u)]
    module = f"Rattle.{crate}.proofs.{name}"
    invariants, answers, roots = [], [], {}
    own = f"{crate}::{name.split('.')[-1]}"
    for comment, label, mods, block in blocks:
        whole = "\n".join(block)
        m = re.match(r"(?s)(?:(?:pub|abbrev|unfoldable) )*(\S+) : tie\.[^→]*→ tie\.[^\n]*\n\1 (\S+) = \2((?:\.before)+)\s*$", whole)
        if m:
            roots[m[1]] = m[3]
    for comment, label, mods, block in blocks:
        whole = "\n".join(block)
        if label and label not in roots and re.match(r"((?:(?:pub|abbrev|unfoldable) )*)" + re.escape(label) + r" : (?:\(\w+ : )?tie\.([\w-]+)", whole) and not re.search(r" : tie\.(Need|invariant|decreases)", block[0]):
            fn.helpers.append(label)
            spot = re.match(r"((?:(?:pub|abbrev|unfoldable) )*)" + re.escape(label) + r" : (?:\(\w+ : )?tie\.([\w-]+)", whole)[2]
            if norm(spot) in fn.place_of:
                fn.helper_places[label] = fn.place_of[norm(spot)]
    for comment, label, mods, block in blocks:
        whole = "\n".join(block)
        sign = block[0]
        if label is None:
            fn.look("not read: " + sign[:80])
            answers.append("\n".join(comment + block))
            continue
        if label in roots or re.search(r"tie\.close", whole):
            continue
        m = re.match(r".* : tie\.(?:invariant|decreases)\S*", sign)
        if re.match(r"(invariant|decreases)-", label) and m:
            kind, loop = label.split("-", 1)
            got = fn.loop(loop)
            if not got:
                fn.look(f"no loop {loop}")
                continue
            new, variables, changed = got
            rest = "\n".join(block[1:])
            extra = [l for l in block[1:] if l.startswith("unfolding")]
            rest = "\n".join(l for l in block[1:] if not l.startswith("unfolding"))
            mm = re.match(re.escape(label) + r" ([^=]*?) ?=(?!=)\s*(.*)$", rest, re.S)
            if not mm:
                fn.look("invariant not read")
                continue
            params, body = mm[1].split(), mm[2]
            if len(params) > len(variables) + sum(changed):
                # a temporary that is no variable today
                params = [p for p in params if not re.fullmatch(r"t\d+", p)]
            table = {}
            k = 0
            for v, ch in zip(variables, changed):
                if k < len(params):
                    table[params[k]] = f"l.initial.{v}" if ch else f"l.{v}"
                k += 1
            for v, ch in zip(variables, changed):
                if ch and k < len(params):
                    table[params[k]] = f"l.{v}"
                    k += 1
            if k != len(params):
                fn.look(f"{label}: {len(params)} parameters, {k} expected")
            table.pop("_", None)
            turned = replace_names(body, table)
            if turned is None:
                fn.look(f"{label}: a binder hides a variable")
                lets = "".join(f"let {p} = {n} in " for p, n in table.items() if re.search(r"(?<![\w.'-])" + re.escape(p) + r"(?![\w'₀-₉])", body))
                turned = lets + body
            invariants.append("\n".join(comment + [f"abbrev pub {kind}-{new} : goal.{kind}-{new}"] + extra + [f"{kind}-{new} l = {turned}"]))
            continue
        m = re.match(r"(\S+) : tie\.Need-(\S+)", sign)
        if m:
            got = fn.goal(m[2]) or fn.goal(label)
            unfold = [l for l in block[1:] if l.startswith("unfolding")]
            rest = "\n".join(l for l in block[1:] if not l.startswith("unfolding"))
            mm = re.match(re.escape(label) + r" c((?: \S+)*?) =(?!=)\s*(.*)$", rest, re.S)
            if not mm:
                fn.look(f"{label}: not read")
                answers.append("\n".join(comment + block))
                continue
            body = mm[2].rstrip()
            if body.strip() == "search rules":
                continue
            if not got:
                fn.look(f"{label}: no such goal today, dropped: {body[:100]!r}")
                continue
            new, place, old = got
            # the parts of a contract have names today
            callee = None
            if re.match(r"returns", old):
                names = fn.own("ensures", own)
            else:
                callee = None
                for p in fn.entry["places"]:
                    if p[3] and norm(re.sub(r"-?\d+$", "", p[2][0])) == norm(re.sub(r"-requires.*$", "", old)):
                        callee = p[3]
                if callee is None and "requires" in old:
                    short = norm(re.sub(r"-requires.*$", "", old))
                    for c in clauses:
                        if norm(c.split("::")[-1]) == short and (c.startswith(crate + "::") or c in entry["params"]):
                            callee = c
                    for c in entry["params"]:
                        if norm(c.split("::")[-1]) == short:
                            callee = c
                names = fn.own("requires", callee) if callee and "requires" in old else []
            if names:
                at = last_tuple(body)
                parts = split_tuple(body[at:]) if at is not None else None
                if parts is None and re.match(r"rw ", body.split(" in\n")[-1].strip()):
                    at = last_tuple(body, True)
                    parts = split_tuple(body[at:]) if at is not None else None
                while parts and len(parts) < len(names) and split_tuple(parts[-1]):
                    parts = parts[:-1] + split_tuple(parts[-1])
                if parts and len(parts) == len(names):
                    keep = [(n, p) for n, p in zip(names, parts)]
                    body = body[:at] + "record {\n" + "".join(f"      {n} = {p};\n" for n, p in keep) + "    }"
                elif parts is None and not body.rstrip().endswith("}"):
                    # a lemma gives the pairs
                    depth, cut, k = 0, 0, 0
                    while k < len(body):
                        if body[k] in "([{":
                            depth += 1
                        elif body[k] in ")]}":
                            depth -= 1
                        elif depth == 0 and re.match(r"in\s", body[k:]) and (k == 0 or body[k - 1].isspace()):
                            cut = k + 3
                        k += 1
                    tails = ["." + "1." * i + "0" for i in range(len(names) - 1)] + ["." + ".".join(["1"] * (len(names) - 1))]
                    body = body[:cut] + ("\n    " if cut else "") + "let whole =\n    " + body[cut:].strip() + " in\n    record { " + "; ".join(f"{n} = whole{x}" for n, x in zip(names, tails)) + " }"
                elif parts and len(parts) != len(names):
                    fn.look(f"{label}: {len(names)} clauses, and {len(parts)} parts")
            body = fn.walk(body, place, roots, new)
            sep = "\n    " if "\n" in body or len(body) > 100 else " "
            more = "".join(" " + w for w in mm[1].split() if not w.startswith("κ"))
            answers.append("\n".join(comment + [f"pub {new} : goal.{new}"] + unfold + [f"{new} c{more} ={sep}{body}"]))
            continue
        m = re.match(r"(?s)((?:(?:pub|abbrev|unfoldable) )*)" + re.escape(label) + r" : (?:\((\w+) : )?tie\.([\w-]+)(?: (?:invariant|decreases)\S*)*\)? ?(.*)$", whole)
        if m and norm(m[3]) in fn.place_of:
            spot = fn.place_of[norm(m[3])]
            param = m[2]
            lines = m[4].split("\n")
            k = next((i for i, l in enumerate(lines) if l.startswith(label + " ") or l.startswith("unfolding ")), None)
            sig, rest = "\n".join(lines[:k]), "\n".join(lines[k:])
            unfold = [l for l in lines[k:] if l.startswith("unfolding ")]
            rest = "\n".join(l for l in lines[k:] if not l.startswith("unfolding "))
            mm = re.match(re.escape(label) + r" (\S+)((?: \S+)*?) =(?!=)\s*(.*)$", rest, re.S)
            if mm:
                sig = fn.walk(sig.lstrip("\n "), spot, roots, None, param or "c")
                fn.used = set()
                body = fn.walk(mm[3].rstrip(), spot, roots, None, mm[1])
                unfold = unfold + [u for u in sorted(fn.used) if u not in unfold]
                own_param = param or mm[1]
                seen = re.compile(r"(?<![\w.'-])" + re.escape(mm[1]) + r"(?=\.|\b(?![\w'-]))")
                seen_sig = re.compile(r"(?<![\w.'-])" + re.escape(own_param) + r"(?=\.|\b(?![\w'-]))")
                type_text = re.sub(r"^\s*→\s*", "", sig)
                more_args = mm[2].strip()
                fn.bodies[label] = (seen_sig.sub("ROOT_C", type_text), ("λ " + more_args + ". " if more_args else "") + seen.sub("ROOT_C", body), False, unfold)
                binder = f"({param} : goal.{fn.new_place(spot)})" if param else f"goal.{fn.new_place(spot)}"
                answers.append("\n".join(comment + [f"{m[1]}{label} : {binder} {sig}"] + unfold + [f"{label} {mm[1]}{mm[2]} =\n    {body}"]))
                continue
        if "tie." in whole:
            fn.look(f"{label}: speaks of the old places")
        answers.append("\n".join(comment + block))
    shared = []
    for a in list(answers):
        m = re.match(r"(?:--[^\n]*\n)*(?:(?:pub|abbrev|unfoldable) )*([^\s(){}:]+) : ", a)
        if m and not m[1] in [n for _, n in fn.needs] and any(re.search(r"(?<![\w.'-])" + re.escape(m[1]) + r"(?![\w'-])", i) for i in invariants):
            answers.remove(a)
            shared.append(m[1])
            invariants.insert(len(shared) - 1, re.sub(r"(?m)^((?:unfoldable |abbrev )?)(" + re.escape(m[1]) + r" : )", r"\1pub \2", a))
    if shared:
        uses_answers = uses + [f"use {module}.Invariants.{{{', '.join(shared)}}}"]
    else:
        uses_answers = uses
    os.rename(path, folder + "/Proof.old")
    for file, module_of, decls in (("Invariants", "Given", invariants), ("Answers", "Goals", answers)):
        if decls:
            with open(f"{folder}/{file}.antt", "w", encoding="utf-8") as f:
                above = head if file == "Invariants" or not invariants else []
                named = [f"use {module}.Goals.{{{', '.join(sorted(fn.named))}}}"] if fn.named and file == "Answers" else []
                f.write("\n".join(above + (uses if file == "Invariants" else uses_answers) + [f"use {module}.{module_of} as goal"] + named + [""]) + "\n" + "\n\n".join(decls) + "\n")
    return fn.said


def main(argv):
    with open(argv[0], encoding="utf-8") as f:
        names = json.load(f)
    crate, only = argv[1], argv[2:]
    clauses = contracts()
    top = f"crates/{crate}/proofs"
    for folder, dirs, files in os.walk(top):
        if "Proof.antt" not in files:
            continue
        name = os.path.relpath(folder, top).replace("/", ".")
        if only and name not in only:
            continue
        entry = names.get(f"Rattle-{crate}-proofs.{name}.Lts")
        if entry is None:
            print(f"look: {crate}::{name}: no such function in the names")
            continue
        for line in turn(crate, name, entry, clauses):
            print(line)


main(sys.argv[1:])
