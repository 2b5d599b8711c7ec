#!/usr/bin/env python3
"""Lists the places in crates/*/src where an older form may stand, one line each, under eight points.

Usage: tools/design_places.py [folder of crates]; with -c only the counts.
What it lists are places to look at; docs/DESIGN-PASS.md says what became of each.
"""
import collections
import pathlib
import re
import sys

args = [a for a in sys.argv[1:] if a != "-c"]
only_counts = "-c" in sys.argv
root = pathlib.Path(args[0] if args else pathlib.Path(__file__).parent.parent / "crates")

FN = re.compile(r"^( *)((?:pub(?:\([a-z]+\))? )?(?:final )?fn (\w+).*)$")
CLAUSE = re.compile(r"^ *(?:requires|ensures)\b[^{]*(\{.*\})$")
# what a line of code looks like that is listed under a point, and what it may not have
FORMS = [
    (point, re.compile(wanted), unwanted and re.compile(unwanted))
    for point, wanted, unwanted in [
        (1, r"Result<\(bool|Refused\(u8\)", None),
        (1, r"Err\((\w+)\) => (Err|Answer)|Ok\((\w+)\) => Ok\(\3\)|let Ok\(.*else", None),
        (1, r"pub fn number\(|fn value\(.*u64\b", None),
        (4, r"impl.* (PartialEq|Eq|PartialOrd|Ord|Clone|Default) for", None),
        (4, r"fn (from_bits|bits|blank|of|question|refusal|\w+_in_words)\(", None),
        (4, r"Some\(\w+\) => Some\(|None => (false|0|state|true),", None),
        (6, r"\[\w+; ?\w+\]", r"ghost|const|vec!|&\["),
        (6, r"^ +(pub(\(crate\))? )?\w+: (Option<)?usize>?,$", None),
        (7, r"\b\w+: bool\b.*[,)]|dyn |: fn\(", r"fn from_values"),
    ]
]
places = collections.defaultdict(list)


def code(path):
    """The lines, with comments and contracts blanked out."""
    lines = []
    for line in path.read_text().split("\n"):
        lines.append("" if line.lstrip().startswith("//") or CLAUSE.match(line) else line)
    return lines


def functions(lines):
    """Each function: its first line, its head and its body."""
    i = 0
    while i < len(lines):
        m = FN.match(lines[i])
        if not m:
            i += 1
            continue
        indent, first, head = m.group(1), i, [lines[i]]
        while not head[-1].rstrip().endswith(("{", ";", "}")) and lines[i + 1].strip() != "{":
            i += 1
            head.append(lines[i])
        if head[-1].rstrip().endswith((";", "}")):
            i += 1
            continue
        i += 1
        body = []
        while i < len(lines) and lines[i] != indent + "}":
            body.append(lines[i])
            i += 1
        yield first + 1, m.group(3), " ".join(h.strip() for h in head), [b for b in body if b.strip()]


def shape(text):
    """A text with its names and numbers left out."""
    return re.sub(r"\s+", "", re.sub(r"\b\w+\b", "_", text))


shapes = collections.defaultdict(list)
clauses = collections.defaultdict(list)
groups = collections.defaultdict(list)
for path in sorted(root.glob("*/src/**/*.rt")):
    name = str(path.relative_to(root))
    raw = path.read_text().split("\n")
    for n, line in enumerate(raw, 1):
        m = CLAUSE.match(line)
        if m:
            clauses[m.group(1)].append(f"{name}:{n}")
        if "no account where" in line:
            places[1].append(f"{name}:{n} a value that a flag makes void")
    lines = code(path)
    for n, line in enumerate(lines, 1):
        at = f"{name}:{n} {line.strip()}"
        for point, wanted, unwanted in FORMS:
            if wanted.search(line) and not (unwanted and unwanted.search(line)):
                places[point].append(at)
        m = re.match(r" *for (\w+) in \(?.*\.\.", line)
        if m:
            i, body = n, []
            while i < len(lines) and lines[i] != re.match(" *", line).group(0) + "}":
                body.append(lines[i])
                i += 1
            if re.search(r"\[[^\]]*\b%s\b[^\]]*\]|\.\w+\(%s\)|\(\w+, %s\)" % ((m.group(1),) * 3), " ".join(body)):
                places[3].append(at)
        elif re.match(r" *while [^l]", line):
            places[3].append(at)
        if re.search(r": 0,$", line) and re.search(r": 0,$", lines[n]) and not re.search(r": 0,$", lines[n - 2]):
            places[4].append(at + " and more zeros")
    for first, fn, head, body in functions(lines):
        at = f"{name}:{first} {fn}"
        if "&mut" in head and re.search(r"-> bool", head):
            places[1].append(at + ": a refusal as a flag")
        if len([b for b in body if b.strip("{} ")]) >= 2:
            shapes[shape("\n".join(body))].append(at)
        parameters = re.findall(r"(\w+): ([^,()]+(?:\([^()]*\))?)", head.split("(", 1)[1])
        for a, b in zip(parameters, parameters[1:]):
            groups[f"{a[0]}: {a[1]}, {b[0]}: {b[1]}"].append(at)
for same in shapes.values():
    if len(same) > 1:
        places[2].append(" ~ ".join(same))
for text, where in clauses.items():
    if len(where) >= 3 and text.startswith("{"):
        places[5].append(f"{len(where)} times {text}")
for text, where in groups.items():
    if len(where) >= 3:
        places[5].append(f"{len(where)} functions take ({text})")
for path in sorted(root.glob("*/proofs/**/*.antt")):
    text = path.read_text()
    places[8].append(f"{path.relative_to(root)} {len(text.splitlines())} lines")

for point in range(1, 9):
    print(f"point {point}: {len(places[point])}")
    if not only_counts and point < 8:
        print("".join(f"  {place}\n" for place in places[point]), end="")
lines = sum(int(p.split()[-2]) for p in places[8])
print(f"lines of proofs: {lines}")
