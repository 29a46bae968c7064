#!/usr/bin/env python3
"""Turns a crate's Proof.antt files that answer a generated statement into Invariants.antt and Answers.antt.

usage: python3 tools/answers.py CRATE NAMES.json [FUNCTION..]

NAMES.json is what `rt check --generated FOLDER --old-names` writes in the crate's folder: each goal's and each step's old and new name.
A first pass: what it cannot turn is left as it stands there, for the check to say.
"""
import json
import os
import re
import sys

ID = r"[^\s(){}\[\].,;|`\"=λ]+"


def norm(s):
    return s.replace("-", "_")


def contracts(root):
    """For each function of src/ the names of its requires and ensures."""
    out = {}
    for folder, dirs, names in os.walk(os.path.join(root, "crates")):
        dirs[:] = [d for d in dirs if d != "out"]
        for n in names:
            if not n.endswith(".rt"):
                continue
            crate = os.path.relpath(folder, os.path.join(root, "crates")).split(os.sep)[0]
            text = open(os.path.join(folder, n), encoding="utf-8").read()
            for m in re.finditer(r"\bfn (\w+)\b", text):
                rest = text[m.end():]
                stop = re.search(r"\n\{|\{\n|\bfn \w+|;\n", rest)
                head = rest[: stop.start()] if stop else rest
                req = re.findall(r"\brequires(?: (\w+))? \{", head)
                ens = re.findall(r"\bensures(?: (\w+))? \{", head)
                out.setdefault(m.group(1), []).append((crate, req, ens))
    return out


def split_args(text):
    """The arguments of a whole parenthesised tuple `( a, b )`, or None."""
    t = text.strip()
    if not (t.startswith("(") and t.endswith(")")):
        return None
    depth = 0
    parts, start = [], 1
    for i, ch in enumerate(t):
        if ch in "([{":
            depth += 1
        elif ch in ")]}":
            depth -= 1
            if depth == 0 and i != len(t) - 1:
                return None
            if depth == 0:
                parts.append(t[start:i])
        elif ch == "," and depth == 1:
            parts.append(t[start:i])
            start = i + 1
    parts = [p.strip() for p in parts if p.strip()]
    return parts if len(parts) > 1 else None


def flatten(text, n):
    """A right-nested tuple of n parts."""
    parts = []
    while n > 1:
        s = split_args(text)
        if not s or len(s) != 2:
            if s and len(s) == n:
                return parts + s
            return None
        parts.append(s[0])
        text = s[1]
        n -= 1
    return parts + [text.strip()]


def blocks(text):
    """Header comment, use lines, and definitions: (comment, [signature lines], [clause lines])."""
    lines = text.split("\n")
    head, uses, defs = [], [], []
    i = 0
    while i < len(lines) and (lines[i].startswith("--") or not lines[i].strip()):
        head.append(lines[i])
        i += 1
    while i < len(lines) and (lines[i].startswith("use ") or not lines[i].strip()):
        if lines[i].strip():
            uses.append(lines[i])
        i += 1
    chunk = []
    for line in lines[i:] + [""]:
        if not line.strip():
            if chunk:
                defs.append(chunk)
                chunk = []
        else:
            chunk.append(line)
    return head, uses, defs


def name_of(chunk):
    for line in chunk:
        if line.startswith("--"):
            continue
        m = re.match(r"^((?:abbrev |unfoldable |pub )*)(" + ID + r")\s+:", line)
        if m:
            return m.group(2), m.group(1)
        m = re.match(r"^(pub )?(record|data) (" + ID + ")", line)
        if m:
            return m.group(3), m.group(2)
        return None, ""
    return None, ""


class Function:
    def __init__(self, crate, path, module, names, table):
        self.crate, self.path, self.module = crate, path, module
        self.names = names
        self.table = table
        self.notes = []
        self.places = {norm(p[0]): p for p in names["places"]}
        self.place_new = {norm(p[0]): n for p, n in zip(names["places"], names["places_by_name"])}
        self.fields = {}
        self.sub = {}
        self.used_places = set()
        self.callee_of = {}
        self.place_fns = set()
        self.helpers = {}
        self.typed = {norm(q[0]): {norm(b): a for a, b in t} for q, t in zip(names["places"], names["typed"])}
        self.need_place = {b: q[0] for (a, b), q in zip(names["needs"], names["asked_at"])}
        for p in names["places"]:
            old, new = p[2]
            if p[3]:
                self.callee_of[new] = p[3]
            if old:
                self.fields.setdefault(norm(old), new)
                for a, b in p[4]:
                    self.sub.setdefault((norm(old), a), b)
        self.needs = [(a, b) for a, b in names["needs"]]
        self.by_need = {}
        for a, b in self.needs:
            self.by_need.setdefault(norm(a), b)

    def goal(self, written, local):
        for s in (written, local):
            k = norm(s)
            for pre in ("", "overflow_", "nonzero_", "slice_bounds_"):
                if k.startswith(pre) and k[len(pre):] in self.by_need:
                    return self.by_need[k[len(pre):]]
            for a, b in (("loop_holds", "loop_init"), ("loop_less", "loop_smaller"), ("loop_again", "loop_preserved"), ("slice_bounds_", "part_"), ("same_length", "same_length")):
                if k.startswith(a) and b + k[len(a):] in self.by_need:
                    return self.by_need[b + k[len(a):]]
        return None

    def clauses(self, fn):
        out = [c for c in self.table.get(fn, []) if c[0] == self.crate] or self.table.get(fn, [])
        return out[0] if out else None

    def requires_path(self, text):
        """`.requires.1.1.0` of the function by its clauses' names."""
        fields = (self.names.get("pre") or {}).get("fields") or []
        text = re.sub(r"\.pre\b", ".requires", text)
        if len(fields) < 2:
            return text

        def turn(m):
            digits = [d for d in m.group(1).split(".") if d]
            k = 0
            while k < len(digits) and digits[k] == "1" and k < len(fields) - 1:
                k += 1
            rest = digits[k:]
            if k < len(fields) - 1:
                if not rest or rest[0] != "0":
                    self.notes.append("a part of requires by several clauses: " + m.group(0))
                    return m.group(0)
                rest = rest[1:]
            return ".requires." + fields[k] + "".join("." + d for d in rest)

        return re.sub(r"\.requires((?:\.[01])+)", turn, text)

    def flat(self, text, var, place, goal):
        """The text at a place: every step is named from `var`, whatever stood before it."""
        place = norm(place) if place else None
        typed = self.typed.get(place, {}) if place else {}

        def known(m):
            k = norm(m.group(1))
            return ".type_inv." + typed[k] if k in typed else m.group(0)

        text = re.sub(r"\.((?:shared_|shared-)?slice[_-]known\d*)\.given", known, text)
        text = re.sub(r"(?<![\w.'-])([\w']+|\([\w' ]+\))(?:\.before(?![\w-]))+", r"\1", text)
        def unplace(text):
            while True:
                was = text
                for f in self.place_fns:
                    text = re.sub(r"\(" + re.escape(f) + r" ([\w']+)\)", r"\1", text)
                    text = re.sub(r"(?<![\w-])" + re.escape(f) + r" ([\w']+)(?= in\b)", r"\1", text)
                if text == was:
                    return text

        text = unplace(text)
        while True:
            m = re.search(r"\n?[ \t]*let ([\w']+) = ([\w']+) in", text)
            m = next((x for x in re.finditer(r"let ([\w']+) = ([\w']+) in[ \t]*\n?[ \t]*", text) if x.group(2) == var), None)
            if not m:
                break
            a = m.group(1)
            text = text[: m.start()] + text[m.end():]
            text = re.sub(r"(?<![\w.'-])" + re.escape(a) + r"(?![\w'-])", var, text)
            text = unplace(text)
        m = re.search(r"let ([\w']+) = " + re.escape(var) + r"\.(?:requires|pre) in[ \t]*\n?[ \t]*", text)
        if m:
            text = text[: m.start()] + text[m.end():]
            text = re.sub(r"(?<![\w.'-])" + re.escape(m.group(1)) + r"(?![\w'-])", var + ".requires", text)
        for h, (hp, htype, hvar, hbody, kind) in self.helpers.items():
            pat = r"(?<![\w.-])" + re.escape(h) + r" " + re.escape(var) + r"(?![\w.'-])"
            if not re.search(pat, text):
                continue
            if goal and self.need_place.get(goal) and norm(self.need_place[goal]) == hp:
                continue
            if goal:
                self.used_places.add(self.place_new[hp])
                text = re.sub(pat, f"{h} (goal.at.{goal} {var}).{self.place_new[hp]}", text)
            elif norm(place or "") != hp:
                self.notes.append(f"helper {h} used at another place, in a helper")
        return text

    def body(self, text, var=None, place=None, goal=None):
        if var:
            text = self.flat(text, var, place, goal)
        text = re.sub(r"\.fits\.", ".ranges.", text)
        text = re.sub(r"\.inv\b(?![\w-])", ".invariant", text)
        text = re.sub(r"(\.(?:args|loop[\w-]*|new|auto)\.)([a-z][\w-]*)", lambda m: m.group(1) + m.group(2).replace("-", "_"), text)
        for a, b in self.names.get("args") or []:
            text = re.sub(re.escape(a.replace(" ", "")) + r"(?![\w'-])", lambda m: b.replace(" ", ""), text)
        # types of places
        def place(m):
            k = norm(m.group(1))
            if k in self.place_new:
                self.used_places.add(self.place_new[k])
                return self.place_new[k]
            if k.startswith("Need_"):
                g = self.goal(m.group(1)[5:], "")
                if g:
                    return "goal." + g
            self.notes.append("no place " + m.group(1))
            return "goal." + m.group(1)

        text = re.sub(r"\btie\.([A-Z][\w₀-₉-]*)((?:\s+(?:invariant-loop|decreases-loop|invariant|decreases)[\w-]*)*)", lambda m: place(m), text)
        text = self.requires_path(text)

        def step(m):
            k = norm(m.group(1))
            if k not in self.fields:
                return m.group(0)
            new = self.fields[k]
            sub = m.group(2)
            if sub and (k, sub[1:]) in self.sub:
                sub = "." + self.sub[(k, sub[1:])]
            return "." + new + (sub or "")

        if var:
            text = re.sub(r"(?<![\w.'-])(" + re.escape(var) + r")\.([a-z_][\w-]*)(\.[a-z][\w-]*)?", lambda m: m.group(1) + self.both(m.group(2), m.group(3)), text)
        else:
            text = re.sub(r"\.([a-z_][\w-]*)(\.[a-z][\w-]*)?", lambda m: self.both(m.group(1), m.group(2)), text)
        if var:
            text = self.new_names(text, var)
        # a step is named from anywhere behind it
        return re.sub(r"(?<![\w.'-])([\w']+)(?:\.before(?![\w-]))+(?=\.(?!before(?![\w-]))[a-z_])", r"\1", text)

    def new_names(self, text, var):
        """`.new.1` of a call by the name of the argument."""
        def turn(m):
            callee = self.callee_of.get(m.group(2))
            params = self.names["params"].get(callee) if callee else None
            k = m.group(4).count("1")
            return f"{m.group(1)}.{m.group(2)}.{m.group(3)}.{params[k]}" if params and k < len(params) else m.group(0)

        def ensured(m):
            callee = (self.callee_of.get(m.group(2)) or "").split("::")
            c = next((x for x in self.table.get(callee[-1], []) if x[0] == callee[0]), None)
            fields = c[2] if c else []
            if len(fields) < 2:
                return m.group(0)
            digits = [d for d in m.group(3).split(".") if d]
            k = 0
            while k < len(digits) and digits[k] == "1" and k < len(fields) - 1:
                k += 1
            rest = digits[k + 1:] if k < len(fields) - 1 else digits[k:]
            return f"{m.group(1)}.{m.group(2)}.ensures.{fields[k]}" + "".join("." + d for d in rest)

        text = re.sub(r"(?<![\w.'-])(" + re.escape(var) + r")\.([\w-]+)\.ensures((?:\.[01])+)", ensured, text)
        return re.sub(r"(?<![\w.'-])(" + re.escape(var) + r")\.([\w-]+)\.(new|auto)((?:\.1)*\.0|(?:\.1)+(?!\.\d))", turn, text)

    def both(self, a, b):
        k = norm(a)
        out = "." + a
        if k in self.fields and a not in ("args", "requires", "before"):
            out = "." + self.fields[k]
            if b:
                s = b[1:]
                if (k, s) in self.sub:
                    return out + "." + self.sub[(k, s)]
                if s in ("given",):
                    return out + b
                return out + b
        return out + (b or "")


def turn_invariant(fn, chunk, used):
    name, _ = name_of(chunk)
    text = "\n".join(chunk)
    comments = "\n".join(l for l in chunk if l.startswith("--"))
    code = "\n".join(l for l in chunk if not l.startswith("--"))
    m = re.match(r"(?:abbrev |pub )*" + re.escape(name) + r"\s+:\s+tie\.(invariant|decreases)-(\S+)\s*\n((?:unfolding [^\n]*\n)?)" + re.escape(name) + r"((?:\s+" + ID + r")*)\s*=", code)
    if not m:
        return None
    kind, loop, unfolding, args = m.group(1), m.group(2), m.group(3), m.group(4).split()
    body = code[m.end():]
    for (pair, vars), changed in zip(fn.names["loops"], fn.names["changed"]):
        if norm(pair[0]) == norm(loop):
            break
    else:
        fn.notes.append("no loop " + loop)
        return None
    new = pair[1]
    wanted = [("l.initial." if c else "l.") + v for v, c in zip(vars, changed)] + ["l." + v for v, c in zip(vars, changed) if c]
    if len(wanted) != len(args):
        fn.notes.append(f"loop {loop}: {len(args)} arguments, {len(wanted)} wanted")
    to = dict(zip(args, wanted))
    to.pop("_", None)
    body = re.sub(r"(?<![\w.₀-₉'-])[\w₀-₉'-]+", lambda m: to.get(m.group(0), m.group(0)), body)
    return (comments + "\n" if comments else "") + f"abbrev pub {kind}-{new} : goal.{kind}-{new}\n{unfolding}{kind}-{new} l ={body}"


def turn_answer(fn, chunk, order):
    name, _ = name_of(chunk)
    comments = "\n".join(l for l in chunk if l.startswith("--"))
    code = "\n".join(l for l in chunk if not l.startswith("--"))
    m = re.match(re.escape(name) + r"\s+:\s+tie\.Need-(\S+)[^\n]*\n((?:unfolding [^\n]*\n)?)" + re.escape(name) + r"((?:\s+" + ID + r")*)\s*=", code)
    if not m:
        fn.notes.append("answer of another form: " + name)
        return None
    written, unfolding, args = m.group(1), m.group(2), m.group(3).split()
    body = code[m.end():]
    g = fn.goal(written, name)
    if g is None and order.get(name) is not None:
        g = order[name]
    if g is None:
        fn.notes.append("no goal for " + written)
        return ""
    if body.strip() == "search rules":
        return ""
    if args and args[-1].startswith("κ"):
        args = args[:-1]
    callee = re.match(r"(\w+?)(?:-\w+)*-requires(?:-\w+)*$", g)
    body = fn.body(body, args[-1] if args else None, fn.need_place.get(g), g)
    fields = []
    if callee:
        old = next(a for a, b in fn.needs if b == g)
        fields = fn.names["asked"].get(old) or []
        if not fields:
            c = fn.clauses(callee.group(1))
            fields = c[1] if c else []
    elif g.startswith("returns"):
        c = fn.clauses(fn.module.split(".")[-1].lstrip("+"))
        fields = c[2] if c else []
    if len(fields) > 1:
        made = None
        for mm in [re.match("", body)] + list(re.finditer(r"\bin\s*(?=\()", body)):
            parts = flatten(body[mm.end():], len(fields))
            if parts:
                made = body[: mm.end()] + " record {\n  " + ";\n  ".join(f"{k} = {p}" for k, p in zip(fields, parts)) + ";\n}"
                break
        if made:
            body = made
        elif body.strip() not in ("cc", "omega arith"):
            fn.notes.append(f"{g}: not a tuple of {len(fields)}")
    return (comments + "\n" if comments else "") + f"pub {g} : goal.{g}\n{unfolding}{g} {' '.join(args)} ={body}"


def main():
    crate, names_path, only = sys.argv[1], sys.argv[2], set(sys.argv[3:])
    names = json.load(open(names_path))
    table = contracts(".")
    for key, n in names.items():
        if not isinstance(n, dict) or "places" not in n:
            continue
        m = re.match(r"Rattle-" + crate + r"-proofs\.(.+)\.Lts$", key)
        if not m:
            continue
        module = m.group(1)
        folder = os.path.join("crates", crate, "proofs", *module.split("."))
        path = os.path.join(folder, "Proof.antt")
        if not os.path.exists(path) or (only and module not in only and module.split(".")[-1] not in only):
            continue
        text = open(path, encoding="utf-8").read()
        if "tie.close" not in text:
            print(f"{module}: by hand")
            continue
        fn = Function(crate, path, module, n, table)
        head, uses, defs = blocks(text)
        # the order of the answers in the last term
        order = {}
        last = "\n".join(defs[-1])
        mm = re.search(r"tie\.spec\b(.*)\)\s*$", last, re.S)
        if mm:
            given = [w for w in mm.group(1).split() if not re.match(r"(invariant|decreases)-", w)]
            if len(given) == len(fn.needs):
                order = {w: b for w, (a, b) in zip(given, fn.needs)}
            else:
                fn.notes.append(f"{len(given)} answers for {len(fn.needs)} goals")
        invariants, answers = [], []
        helpers = []
        for chunk in defs[:-1]:
            name, kind = name_of(chunk)
            code = "\n".join(l for l in chunk if not l.startswith("--"))
            if name is None:
                continue
            tail = r"(?:\s+(?:invariant|decreases)-[\w-]+)*"
            m = re.match(r"(?:abbrev |pub )*" + re.escape(name) + r"\s+:\s+tie\.([A-Z][\w-]*)" + tail + r"\s+→\s+tie\.([A-Z][\w-]*)" + tail + r"\s*\n", code)
            if m:
                fn.place_fns.add(name)
                continue
            m = re.match(r"((?:abbrev |pub )*)" + re.escape(name) + r"\s+:\s+(?:\(([\w']+) : )?tie\.((?!Need|invariant|decreases)[A-Z][\w-]*)" + tail + r"\)?\s*(?:→|\()", code)
            if m:
                fn.helpers[name] = (norm(m.group(3)), "", "", "", m.group(1))
        for chunk in defs[:-1]:
            name, kind = name_of(chunk)
            code = "\n".join(chunk)
            if name is None:
                fn.notes.append("passed over: " + chunk[0])
                answers.append(code)
                continue
            if re.search(r"^(?:abbrev |pub )*" + re.escape(name) + r"\s+:\s+tie\.(invariant|decreases)-", code, re.M):
                t = turn_invariant(fn, chunk, None)
                if t is None:
                    fn.notes.append("invariant by hand: " + name)
                    t = code
                invariants.append(t)
            elif re.search(r"^" + re.escape(name) + r"\s+:\s+tie\.Need-", code, re.M):
                t = turn_answer(fn, chunk, order)
                if t is None:
                    t = fn.body(code)
                if t:
                    answers.append(t)
            elif name in fn.place_fns:
                continue
            elif name in fn.helpers:
                only_code = "\n".join(l for l in chunk if not l.startswith("--"))
                mm = re.search(r"^" + re.escape(name) + r" ([\w']+)", only_code, re.M)
                var = mm.group(1) if mm else None
                # the name in the signature is flattened too
                sv = re.search(r"\(([\w']+) : tie\.", only_code)
                t = code
                if sv and sv.group(1) != var:
                    t = fn.flat(t, sv.group(1), fn.helpers[name][0], None)
                t = fn.body(t, var, fn.helpers[name][0], None)
                answers.append(t)
            else:
                t = fn.body(code)
                if "goal." in t or re.search(r"[(:] (?:" + "|".join(map(re.escape, fn.used_places)) + r")(?![\w-])", t) and fn.used_places:
                    answers.append(t)
                else:
                    helpers.append((name, t))
        # helpers stand where they are used
        inv_text = "\n\n".join(invariants)
        in_inv = [h for h in helpers if re.search(r"(?<![\w-])" + re.escape(h[0]) + r"(?![\w-])", inv_text)]
        shared = in_inv
        keep = [u for u in uses if not re.search(r"\.(Statement)\.\{|Tie as tie", u) and "types.{_ : Type" not in u]
        base = f"Rattle.{crate}.proofs.{module}"
        out_inv = out_ans = None
        if invariants:
            inv_helpers = []
            # a helper used by a helper of the invariants
            known = {h[0] for h in shared}
            more = True
            while more:
                more = False
                t = "\n".join(h[1] for h in helpers if h[0] in known)
                for h in helpers:
                    if h[0] not in known and re.search(r"(?<![\w-])" + re.escape(h[0]) + r"(?![\w-])", t):
                        known.add(h[0])
                        more = True
            inv_helpers = [h for h in helpers if h[0] in known]
            out_inv = "\n".join(l for l in head if l.strip()) + "\n" + "\n".join(keep + [f"use {base}.Given as goal"]) + "\n\n" + "\n\n".join([re.sub(r"^((?:abbrev |unfoldable )?)(?!pub)", r"\1pub ", h[1], count=1) if not h[1].startswith("--") else h[1] for h in inv_helpers] + invariants) + "\n"
            rest = [h for h in helpers if h[0] not in known]
            names_in = [h[0] for h in inv_helpers]
        else:
            rest, names_in = helpers, []
        if answers or rest:
            more = [f"use {base}.Invariants.{{{', '.join(x for x in names_in)}}}"] if names_in and any(re.search(r"(?<![\w-])" + re.escape(x) + r"(?![\w-])", "\n".join(answers)) for x in names_in) else []
            out_ans = "\n".join(l for l in head if l.strip()) + "\n" + "\n".join(keep + more + [f"use {base}.Goals as goal"] + ([f"use {base}.Goals.{{{', '.join(sorted(fn.used_places))}}}"] if fn.used_places else [])) + "\n\n" + "\n\n".join([h[1] for h in rest] + answers) + "\n"
        os.remove(path)
        if out_inv:
            open(os.path.join(folder, "Invariants.antt"), "w", encoding="utf-8").write(out_inv)
        if out_ans:
            open(os.path.join(folder, "Answers.antt"), "w", encoding="utf-8").write(out_ans)
        if not out_inv and not out_ans:
            os.rmdir(folder)
        for note in fn.notes:
            print(f"{module}: {note}")


if __name__ == "__main__":
    main()
