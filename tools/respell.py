#!/usr/bin/env python3
"""Respells this repository's own definitions and lemmas: words in snake case, facts in upper camel case.

usage: python3 tools/respell.py    at the top of the repository, once, after the kit's port.py

A name is ours where a file of specs/ or proofs/ declares it, or is one of the bound names listed below.
Names with an operator in them (as in-++) keep their dash, and so do the names of goals and of steps of
code, which the check makes. Source code, strings and comments stay as they are.
"""

import glob
import os
import re
import sys

# Bound names that were written with a dash.
BOUND = """low-tree high-tree held-a held-b held-c high-a high-b low-a low-b high-side low-side grows-low low-done
high-done same-order cut-long line-means good-a good-b in-U not-sooner i-in q-in zero-fill is-bit next-long join-trees strap-tree same-setting""".split()

TOKEN = re.compile(r"(?<![^\s(){},;\[\].«])[^\s(){},;\[\].:»]+")


def proof_files():
    return sorted(glob.glob("crates/*/specs/*.antt") + glob.glob("crates/*/proofs/**/*.antt", recursive=True))


def code_files():
    return sorted(glob.glob("crates/*/src/**/*.rt", recursive=True))


def read(path):
    with open(path, encoding="utf-8") as f:
        return f.read()


def respelled(name):
    parts = name.split("-")
    return "".join(p[:1].upper() + p[1:] for p in parts) if name[0].isupper() else "_".join(parts)


def renamings():
    declared, goals = set(), set()
    for path in proof_files():
        for line in read(path).splitlines():
            goal = re.match(r"^(?:abbrev )?(?:pub )?(\S+) : goal\.", line)
            if goal:
                goals.add(goal.group(1))
                continue
            name = re.match(r"^\s*(?:(?:pub|abbrev|unfoldable)\s+)*(?:record|data)\s+(\S+)", line) or re.match(
                r"^\s*(?:\|\s*)?(?:(?:pub|abbrev|unfoldable)\s+)*([^\s:(){}]+)\s*(?:\{[^}]*\}\s*)?:\s", line
            )
            if name:
                declared.add(name.group(1))
    ours = {n for n in declared - goals if "-" in n and re.fullmatch(r"[A-Za-z0-9_'-]+", n)} | set(BOUND)
    return {n: respelled(n) for n in ours}, declared


def turned(text, names, steps):
    """Where steps are cited, the name right after c, w or l is one of the check's own."""

    def one(m):
        name = m.group(0)
        before = text[max(0, m.start() - 3) : m.start()]
        if steps and re.search(r"(?:^|[^\w'])[cwl]\.$", before):
            return name
        return names.get(name, name)

    return TOKEN.sub(one, text)


def without_comments(line, mark):
    at = line.find(mark)
    return (line, "") if at < 0 else (line[:at], line[at:])


def main():
    names, declared = renamings()
    together = sorted(n for n, to in names.items() if to in declared or list(names.values()).count(to) > 1)
    if together:
        print("respell: these fall together with others: " + " ".join(together))
        return 1
    for path in proof_files() + code_files():
        text = read(path)
        mark = "--" if path.endswith(".antt") else "//"
        steps = os.path.basename(path) in ("Answers.antt", "Invariants.antt", "Proof.antt")
        out = []
        for line in text.split("\n"):
            head, tail = without_comments(line, mark)
            if mark == "//" and not re.search(r"ghost |ensures|requires|decreases|◌|≡|→|λ", head):
                out.append(line)
                continue
            out.append(turned(head, names, steps) + tail)
        new = "\n".join(out)
        if new != text:
            with open(path, "w", encoding="utf-8") as f:
                f.write(new)
    print(f"respell: {len(names)} names")
    return 0


if __name__ == "__main__":
    sys.exit(main())
