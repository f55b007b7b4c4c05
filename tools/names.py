#!/usr/bin/env python3
"""Brings the definitions and lemmas of this repository to snake case: root-down becomes root_down, and the record Demand-3 Demand3.

usage: python3 tools/names.py [--list] [FOLDER]      FOLDER: the top of a checkout on which port.py has run once

Reads the names that the repository's own .antt files declare, and rewrites them in specs/, proofs/, the clauses and `ghost use` lines
of src/ and the edits of must-fail/. What the kit's library names stays, and so do the names that Rattle makes: goals (`tie.Need-..`),
invariants and measures. Functions of src/, strings and files read or written by programs are not touched.
"""
import os
import re
import sys

PART = r"[A-Za-z0-9_'₀-₉]+"
HYPHENED = re.compile(r"(?<![\w'₀-₉\-])" + PART + r"(?:-" + PART + r")+(?![\w'₀-₉\-])")
RENAMED = {"Demand-3": "Demand3"}
MADE = re.compile(r"^(Need|invariant|decreases|the-invariant|the-measure)-")


def texts(root, endings):
    for folder, dirs, files in os.walk(os.path.join(root, "crates")):
        dirs[:] = sorted(d for d in dirs if d != "out")
        for f in sorted(files):
            if f.endswith(endings):
                yield os.path.join(folder, f)


def read(path):
    with open(path, encoding="utf-8") as f:
        return f.read()


def imports(text):
    """(module, [names]) of each use line."""
    for m in re.finditer(r"(?m)^\s*(?:pub )?(?:ghost )?use ([\w.'+\-]+?)\.\{([^}]*)\}", text):
        names = []
        for n in m.group(2).split(","):
            names += [w for w in n.split() if w not in ("as",)]
        yield m.group(1), names


def code(text):
    """The text without comments of antt."""
    return "\n".join(line.split("--")[0] if re.match(r"\s*--", line) else line for line in text.split("\n"))


def main(argv):
    root = next((a for a in argv if not a.startswith("--")), ".")
    own_crates = set(os.listdir(os.path.join(root, "crates")))
    library, declared = set(), set()
    for p in texts(root, (".antt", ".rt")):
        t = read(p)
        for module, names in imports(t):
            if not (module.startswith("Rattle.") and module.split(".")[1] in own_crates):
                library |= set(names)
        if p.endswith(".antt"):
            c = code(t)
            for m in HYPHENED.finditer(c):
                declared.add(m.group(0))
    for p in texts(root, (".antt", ".rt")):
        pass
    own = {n for n in declared if n not in library and not MADE.match(n)}
    to = {n: RENAMED.get(n, n.replace("-", "_")) for n in own}
    if "--list" in argv:
        words = set()
        for p in texts(root, (".antt", ".rt")):
            words |= set(re.findall(r"[\w'₀-₉]+", read(p)))
        for n in sorted(to):
            if to[n] in words:
                print(n, to[n])
        return 0
    turn = lambda m: to.get(m.group(0), m.group(0))
    changed = 0
    for p in texts(root, (".antt", ".rt", ".edit")):
        t = read(p)
        lines = t.split("\n")
        for i, line in enumerate(lines):
            if p.endswith(".rt"):
                s = line.lstrip()
                if not (s.startswith("ghost ") or s.startswith("requires") or s.startswith("ensures")):
                    continue
            elif p.endswith(".antt") and re.match(r"\s*--", line):
                lines[i] = re.sub(r"`[^`]*`", lambda q: HYPHENED.sub(turn, q.group(0)), line)
                continue
            elif p.endswith(".edit") and not re.match(r"(old|new):", line):
                continue
            lines[i] = HYPHENED.sub(turn, line)
        new = "\n".join(lines)
        if new != t:
            with open(p, "w", encoding="utf-8") as f:
                f.write(new)
            changed += 1
    print(f"names: {len(to)} names, {changed} files")
    return 0


if __name__ == "__main__":
    raise SystemExit(main(sys.argv[1:]))
