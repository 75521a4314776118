#!/usr/bin/env python3
"""Lists the places in src/ that an older form of the language may have shaped, point by point.

    python3 tools/places.py [FOLDER]      the counts
    python3 tools/places.py -v [FOLDER]   the counts and each place

What it finds is a place to look at, not a fault: docs/DESIGN-PASS.md says what became of each. Point 2 asks the command
`duplicates`, which lists places of a tree that share lines; where there is none, that point is left out.
"""
import pathlib
import re
import shutil
import subprocess
import sys
import tempfile

VERBOSE = "-v" in sys.argv
ROOT = pathlib.Path(next((a for a in sys.argv[1:] if a != "-v"), "."))
FILES = sorted(ROOT.glob("crates/*/src/**/*.rt"))
TEXTS = {f: f.read_text(encoding="utf-8") for f in FILES}

OPTION_BY_HAND = [
    r"else \{\s*return None;?\s*\}",
    r"None => \{\}",
    r"None => None\b",
    r"Some\(_\) => true",
    r"Some\((\w+)\) => \1,",
    r"Err\(\w+\) => Some\(",
    r"match \w+\.number\(\)",
]
# an enum of a bare variant and one with a value
OPTION_ENUM = r"enum \w+(?:<\w+>)? \{\s*\w+,\s*\w+\([^)]*\),?\s*\}|enum \w+(?:<\w+>)? \{\s*\w+\([^)]*\),\s*\w+,?\s*\}"
WHILES = [r"^\s*while [^{]*\{", r"^\s*loop \{"]
COUNTED = r"for (\w+) in [^{;]*\.\.[^{;]*\{"
BY_HAND = [
    r"(?:/|%|\*) (?:256|65536)\b",
    r"fn (?:same_\w+|is_one|are_same|is_same)\(",
    r"\{ 1 \} else \{ 0 \}",
    r"\.number\(\) ==|\.waits < ",
    r"Answer::(?:All|Mixed|Outside)(?:\([^)]*\))? => (?:Answer|Told)::",
]
LENGTHS = r"(\w+): &(?:'a )?(?:mut )?\[\w+\],\s*(len|count|at|met): usize"
SEARCHES = r"\bmiddle\b.*=|fn is_among"
INDICES = r"^\s+(?:Node\(u16\)|Split\(usize\)),"
SWITCHES = [r"match (?:how|step)\b", r"reversed: bool"]
GROUPS = [
    ("bytes", "format"), ("level", "block"), ("nodes", "marks", "index"), ("nodes", "records", "work"),
    ("pins", "lines"), ("rt", "heap"), ("tree", "records"), ("mask", "value"), ("pins", "switches"),
]


def line(text, at):
    return text.count("\n", 0, at) + 1


def found(patterns, flags=re.M):
    for f, text in TEXTS.items():
        for pattern in [patterns] if isinstance(patterns, str) else patterns:
            for m in re.finditer(pattern, text, flags):
                yield f, line(text, m.start()), " ".join(m.group(0).split())[:90]


def body(text, at):
    depth, i = 1, at
    while depth and i < len(text):
        depth += {"{": 1, "}": -1}.get(text[i], 0)
        i += 1
    return text[at:i]


def counted(of_an_index):
    """Loops over a counted range, parted by whether the number is an index: of what has a length, or used as one."""
    for f, text in TEXTS.items():
        for m in re.finditer(COUNTED, text):
            i = m.group(1)
            used = rf"\[{i}\b|\+ {i}\]|= {i} as usize;|(?:code|byte)_at\([^,()]+, {i}\b"
            an_index = re.search(r"\blen\b|\bfrom\.\.to\b", m.group(0)) or re.search(used, body(text, m.end()))
            if bool(an_index) == of_an_index:
                yield f, line(text, m.start()), " ".join(m.group(0).split())[:90]


def functions():
    for f, text in TEXTS.items():
        for m in re.finditer(r"\bfn (\w+)(?:<[^>(]*>)?\(", text):
            depth, i = 1, m.end()
            while depth and i < len(text):
                depth += {"(": 1, ")": -1}.get(text[i], 0)
                i += 1
            names = re.findall(r"(?:^|[,(\s])(\w+):", text[m.end():i])
            clauses = re.split(r"\n\s*\{\n|;\n|\}\n\{", text[i:i + 2500], maxsplit=1)[0]
            yield f, line(text, m.start()), m.group(1), names, clauses


def groups():
    for group in GROUPS:
        at = [(f, n, name + "(" + ", ".join(group) + ", ..)") for f, n, name, names, _ in functions()
              if all(g in names for g in group)]
        if len(at) > 2:
            yield from at


def facts():
    seen = {}
    for f, n, name, _, clauses in functions():
        for m in re.finditer(r"requires(?: \w+)? \{ (.*) \}", clauses):
            for fact in re.split(r" × ", m.group(1)):
                fact = fact.strip("() ")
                fact = re.sub(r"\.(?:now|old)\b", "", fact)
                seen.setdefault(fact, []).append((f, n, name + " requires " + fact))
    for at in seen.values():
        if len(at) > 2:
            yield from at


def twins():
    if not shutil.which("duplicates"):
        return
    with tempfile.TemporaryDirectory() as d:
        for f, text in TEXTS.items():
            to = pathlib.Path(d, *f.relative_to(ROOT).parts).with_suffix(".rs")
            to.parent.mkdir(parents=True, exist_ok=True)
            to.write_text(text, encoding="utf-8")
        out = subprocess.run(["duplicates", "--repo", d, "--min-lines", "5", "--most", "200", "--seconds", "60"],
                             capture_output=True, text=True).stdout
    for row in out.splitlines():
        m = re.match(r"D\d+ (\S+):(\d+)-\d+ ~ (\S+)(.*)", row)
        if m and "boilerplate" not in row:
            yield ROOT / m.group(1), int(m.group(2)), "~ " + m.group(3) + m.group(4)


def unique(places):
    return sorted(set(places), key=lambda p: (str(p[0]), p[1], p[2]))


POINTS = [
    ("1 options, results and numbers for kinds by hand", lambda: [*found(OPTION_BY_HAND), *found(OPTION_ENUM)]),
    ("2 twins (pairs that `duplicates` finds, 5 lines)", twins),
    ("3a loops that count an index by hand, while, loop", lambda: [*found(WHILES), *counted(True)]),
    ("3b other loops over a counted range", lambda: counted(False)),
    ("4 equality, order, conversion by hand", lambda: found(BY_HAND)),
    ("5a parameters that travel together", groups),
    ("5b facts in the requires of three or more", facts),
    ("6 lengths beside buffers, searches, indices", lambda: [*found(LENGTHS), *found(SEARCHES), *found(INDICES)]),
    ("7 switches on a step", lambda: found(SWITCHES)),
]

for title, places in POINTS:
    places = unique(places())
    print(f"{title}: {len(places)}")
    if VERBOSE:
        for f, n, text in places:
            print(f"  {f.relative_to(ROOT)}:{n}: {text}")
answers = sorted(ROOT.glob("crates/*/proofs/**/*.antt"))
print(f"8 proof files: {len(answers)}, lines: {sum(len(a.read_text(encoding='utf-8').splitlines()) for a in answers)}")
