#!/usr/bin/env python3
"""Brings the repository's own definitions, fields and lemmas to snake case, in specs/, proofs/ and the clauses of src/.

usage: tools/snake_case_names.py [--list]        at the top of the repository, once, after the toolchain's own script

A name is one that specs/ or proofs/ declare, but for answers to generated goals. Facts and types keep their capitals,
functions of src/ keep their names, and strings are not looked at. With --list it prints what it would rename and
which new names stand in the files already.
"""

import os
import re
import sys

DECLARED = re.compile(r"^\s*(?:abbrev\s+|unfoldable\s+|pub\s+)*([^\s(){}:;,.=]+)\s+:\s+(.*)$")
LETTER = r"[\w'\-≡≢≤≥<>=+*/^%∷ℕ⊎∙]"
STRING = re.compile(r'"(?:[^"\\]|\\.)*"|//.*$|^\s*--.*$')

# new names that would fall together with another one
OTHERWISE = {
    "runsAll": "all_run",
    "action-at": "action_at_lem",
    "goal-at": "goal_at_lem",
    "book-from": "book_from_lem",
    "own-action": "is_own_action",
    "all-below": "all_below_at",
}

# parameters, local names and names of imported modules
LOCAL = (
    "makeS makeG entryS entryG writtenS writtenG cardLaws mapLaws lampMarked isSmall card-file marked-file map-file "
    "some-rows some-places at-k yes-so no-so yes-may no-may is-may is-marked"
).split()


def texts():
    for folder, dirs, files in os.walk("crates"):
        dirs[:] = sorted(d for d in dirs if d != "out")
        for name in sorted(files):
            if name.endswith((".rt", ".antt")):
                yield os.path.join(folder, name)


def snake(name):
    name = re.sub(r"(?<=[a-z0-9])([A-Z])", lambda m: "_" + m.group(1).lower(), name)
    return name.replace("-", "_")


def declared():
    found = {name: snake(name) for name in LOCAL}
    for path in texts():
        if not path.endswith(".antt"):
            continue
        with open(path, encoding="utf-8") as f:
            for line in f:
                m = DECLARED.match(line)
                if not m or m.group(2).startswith("goal.") or re.match(r"\s*(let|use)\b", line):
                    continue
                name = m.group(1)
                if name[0].islower() and re.fullmatch(r"[A-Za-z0-9_'\-]+", name) and snake(name) != name:
                    found[name] = OTHERWISE.get(name, snake(name))
    return found


def main():
    names = declared()
    token = re.compile(rf"(?<!{LETTER})({'|'.join(sorted(map(re.escape, names), key=len, reverse=True))})(?!{LETTER})")
    if "--list" in sys.argv:
        everything = {}
        for path in texts():
            with open(path, encoding="utf-8") as f:
                for word in set(re.findall(rf"{LETTER}+", f.read())):
                    everything.setdefault(word, []).append(path)
        news = {}
        for old, new in sorted(names.items()):
            news.setdefault(new, []).append(old)
            if new in everything:
                print("stands already:", old, "->", new, everything[new][:4])
        for new, olds in news.items():
            if len(olds) > 1:
                print("fall together:", olds, "->", new)
        print(len(names), "names")
        return
    for path in texts():
        with open(path, encoding="utf-8") as f:
            lines = f.read().split("\n")
        made = []
        for line in lines:
            kept, at = [], 0
            for m in STRING.finditer(line):
                kept.append(token.sub(lambda t: names[t.group(1)], line[at : m.start()]))
                kept.append(m.group(0))
                at = m.end()
            kept.append(token.sub(lambda t: names[t.group(1)], line[at:]))
            made.append("".join(kept))
        if made != lines:
            with open(path, "w", encoding="utf-8") as f:
                f.write("\n".join(made))


if __name__ == "__main__":
    main()
