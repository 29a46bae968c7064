#!/usr/bin/env python3
"""Spells the repository's own definitions, fields and lemmas as today's Rattle does: words in snake case, types as they are.

usage: python3 tools/spelling.py            at the top of the repository, once, behind the toolchain's port.py
       python3 tools/spelling.py --list     what would be renamed, and which names would fall together

A dash stays where it joins two names (of a definition, a type or an operator); a plain word is joined by '_'. Names of src/ stay.
"""
import os
import re
import sys

# Names that would fall together with another, or with a function of src/ in whose contract they stand.
BY_HAND = {
    # Lemmas named as what they speak of.
    "bad-coefficient": "bad_coefficient_lem",
    "case-lines": "case_lines_lem",
    "first-bad": "first_bad_lem",
    "inverse-read": "inverse_read_lem",
    "matrix-bytes": "matrix_bytes_lem",
    "no_byte": "no_byte_lem",
    "no-entries": "no_entries_lem",
    "other_word": "other_word_lem",
    "period-from": "period_from_lem",
    "row-at": "row_at_lem",
    "sheet-room": "sheet_room_lem",
    "wrong-answers": "wrong_answers_lem",
    # The cases of a refusal that comes before the entries are looked at, beside the tests noPrime, noSize and so on.
    "no-prime": "no_prime_test",
    "no_size": "no_size_test",
    "no-matrix": "no_matrix_test",
    "no-rows": "no_rows_test",
    "no-polynomial": "no_polynomial_test",
    # A field, beside the definition recordBytes.
    "record-bytes": "record_content",
}
# The same in one crate alone.
BY_CRATE = {"scan": {"no-rows": "no_rows_lem"}}
# Names of the toolchain or of a generated module that a declaration of ours happens to repeat.
LEAVE = set()

WORD = r"[^\s:(){}\[\].,;=|`\"'@]+'*"
DECLARED = re.compile(r"^\s*(?:(?:unfoldable|abbrev|pub)\s+)*(" + WORD + r")\s+:\s")
NAMED = re.compile(r"^\s*(?:(?:unfoldable|abbrev|pub)\s+)*(?:record|data|ruleset)\s+(" + WORD + r")")
DEFINED = re.compile(r"^\s*(?:(?:pub)\s+)*(?:unfoldable|abbrev)\s+(?:pub\s+)?(" + WORD + r")\s+:\s")
ANSWER = re.compile(r":\s+(?:\(\S+\s:\s)?(?:tie|goal)\.")
TOKEN = re.compile(r"[^\s(){}\[\].,;|`\"]+")
PLAIN = {"zero", "one", "none", "some", "true", "false", "nil", "cons", "same", "first", "head", "size", "last", "take", "drop", "at", "of", "done", "by", "row", "rows", "all", "left"}


def files(root, *endings):
    for folder, dirs, names in os.walk(os.path.join(root, "crates")):
        dirs[:] = sorted(d for d in dirs if d != "out")
        for n in sorted(names):
            if n.endswith(endings):
                yield os.path.join(folder, n)


def read(path):
    with open(path, encoding="utf-8") as f:
        return f.read()


def declared(root):
    """The names that the repository declares; and of these the definitions, fields, constructors and types."""
    names, definitions = set(), set()
    for path in files(root, ".antt"):
        walk = os.path.basename(path) in ("Proof.antt", "Answers.antt", "Invariants.antt")
        text = read(path)
        for line in text.split("\n"):
            if line.lstrip().startswith("--") or line.startswith("use "):
                continue
            m = NAMED.match(line)
            if m:
                names.add(m.group(1))
                definitions.add(m.group(1))
                continue
            m = DECLARED.match(line)
            if m and not (walk and (ANSWER.search(line) or "Need-" + m.group(1) in text)):
                names.add(m.group(1))
                if DEFINED.match(line):
                    definitions.add(m.group(1))
    return names, definitions


def snake(part):
    """camelCase in snake case; a type or a fact keeps its capital."""
    if not part or part[0].isupper():
        return part
    return re.sub(r"(?<=[a-z0-9])([A-Z])", lambda m: "_" + m.group(1).lower(), part)


def symbolic(part):
    return bool(re.search(r"[^\w'\u2080-\u2089-]", part)) or bool(re.fullmatch(r"[\U0001d7d8-\U0001d7e1\u2115\u2124]|0\u1d65", part))


def spelled(name, definitions):
    if "-" not in name and not re.search(r"[a-z0-9][A-Z]", name):
        return name
    parts = [p for p in re.split(r"-", name)]
    if any(p == "" for p in parts):
        return name
    out = snake(parts[0])
    left = parts[0]
    for k, p in enumerate(parts[1:], 1):
        rest = "-".join(parts[k:])
        known = lambda x: symbolic(x) or x[0].isupper() or (x in definitions and x not in PLAIN)
        before = "-".join(parts[:k])
        joined = (known(before) or symbolic(parts[k - 1])) and (known(rest) or known(p))
        out += ("-" if joined else "_") + snake(p)
    return out


def table(root):
    names, definitions = declared(root)
    to = {}
    for n in sorted(names):
        if n in LEAVE or "\u00b7" in n:
            continue
        s = BY_HAND.get(n) or spelled(n, definitions)
        if s != n:
            to[n] = s
    return to, names


def turn(text, to):
    return TOKEN.sub(lambda m: to.get(m.group(0), m.group(0)), text)


def turn_source(text, to):
    """A source file outside its strings and characters."""
    return re.sub(r'b?"(?:[^"\\]|\\.)*"|[^"]+', lambda m: m.group(0) if m.group(0)[0] == '"' or m.group(0)[:2] == 'b"' else turn(m.group(0), to), text)


def main():
    root = os.getcwd()
    to, names = table(root)
    back = {}
    for old, new in to.items():
        back.setdefault(new, []).append(old)
    if sys.argv[1:] == ["--list"]:
        for old, new in sorted(to.items()):
            print(old, "->", new)
        for new, olds in sorted(back.items()):
            if len(olds) > 1 or new in names:
                print("TOGETHER", new, olds, "declared" if new in names else "")
        return
    for path in files(root, ".antt"):
        old = read(path)
        crate = os.path.relpath(path, root).split(os.sep)[1]
        new = turn(old, {**to, **BY_CRATE.get(crate, {})})
        if new != old:
            with open(path, "w", encoding="utf-8") as f:
                f.write(new)
    for path in files(root, ".rt", ".edit"):
        old = read(path)
        new = turn_source(old, to)
        if new != old:
            with open(path, "w", encoding="utf-8") as f:
                f.write(new)


if __name__ == "__main__":
    main()
