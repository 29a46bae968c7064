#!/usr/bin/env python3
"""Drops the answers that the check finds alone: `tools/prune.py CRATE..`, at the top of a clone.

It takes all answers of a crate away, asks the check (with half its limits) which goals are open, and puts those back, in rounds from the callees up; it
ends with a plain check. Read the difference: an edit may name an answer that went, and a lemma may have lost its only user.
"""
import pathlib
import re
import subprocess
import sys


def blocks(text):
    return re.split(r"\n\s*\n", text.strip("\n"))


def answer(block):
    m = re.search(r"^pub ([^\s:]+) : goal\.", block, re.M)
    return m and m.group(1)


def check(crate, *options):
    run = subprocess.run(["rt", "check", *options], cwd=f"crates/{crate}", capture_output=True, text=True)
    return run.stdout + run.stderr


def open_goals(log):
    """The goals that the check left open, by file."""
    found = {}
    for m in re.finditer(r"`([^`\s]+)` of (?:\./)?(proofs/[^ :]*?/Answers\.antt) must prove", log):
        found.setdefault(m.group(2), set()).add(m.group(1))
    for m in re.finditer(r"expected answers in \./(proofs/[^ ;]*?/Answers\.antt); `search` did not prove ((?:`[^`]+`(?:, )?)+)", log):
        found.setdefault(m.group(1), set()).update(re.findall(r"`([^`]+)`", m.group(2)))
    return found


def prune(crate):
    base = pathlib.Path("crates", crate)
    old = {f: blocks(f.read_text()) for f in sorted((base / "proofs").rglob("Answers.antt"))}
    kept = {f: set() for f in old}

    def write(f):
        f.write_text("\n\n".join(b for b in old[f] if answer(b) is None or answer(b) in kept[f]) + "\n")

    for f in old:
        write(f)
    for _ in range(8):
        log = check(crate, "--allow-holes", "--margin")
        goals = open_goals(log)
        broken = re.findall(r"^\./(proofs/[^:]*Answers\.antt):\d+:\d+: error", log, re.M)
        more = False
        for f in old:
            name = str(f.relative_to(base))
            own = {answer(b) for b in old[f] if answer(b)}
            back = {a for a in own if any(g == a or g.startswith(a + "-clause") for g in goals.get(name, ()))} - kept[f]
            if not back and name in broken:
                back = own - kept[f]
            if back:
                kept[f] |= back
                write(f)
                more = True
        if not more:
            break
    proved = "logic=not-proved" not in check(crate)
    for f in old:
        if not kept[f]:
            f.unlink()
    print(f"{crate}: {sum(bool(answer(b)) for bs in old.values() for b in bs)} answers, {sum(map(len, kept.values()))} kept, proved: {proved}")


for crate in sys.argv[1:]:
    prune(crate)
