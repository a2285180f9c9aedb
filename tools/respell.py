#!/usr/bin/env python3
"""Brings the repository's own definitions and lemmas to today's spelling, after port.py: words in snake case, facts and types in upper camel case.

usage: python3 tools/respell.py          at the top of a repository, once, right after port.py

It goes by text. A name is the repository's own where a file of specs/ or proofs/ states its type, or an import gives it (`as NAME`); answers, invariants and measures, whose
names Rattle makes, keep theirs, and so do names of the kit's library in the files that import them. Rewritten are .antt files, .rt files
(comments and strings apart) and must-fail edits. It prints names that would fall together, and then writes nothing.
"""

import os
import re
import sys

# what the rules below would spell badly, or like a function of src/
LEMMAS = "record-at made-sentence nothing-after one-tree run-right viable-fronts maybe-fields maybe-mode maybe-modes one-reading static-right quoted-quote"
SPECIAL = {n: n.replace("-", "_") + "_lem" for n in LEMMAS.split()} | {
    "Name·s": "NameSymbol",
    "Integer·s": "IntegerSymbol",
    "Text·s": "TextSymbol",
    "Word·s": "WordSymbol",
    "Mark·s": "MarkSymbol",
    "Option·word": "OptionWord",
}
STATED = re.compile(r"^\s*((?:(?:abbrev|unfoldable|pub|data|record)\s+)*)([^\s(){}:;,=.]+(?:\s+[^\s(){}:;,=.]+)*)\s*(?:[({].*)?:(?!=)\s*(.*)$")
KEYWORDS = {"use", "module", "let", "in", "where", "mutual", "pub", "abbrev", "data", "record", "open", "elim", "as", "unfolding", "--"}
TOKEN = re.compile(r"[^\s(){}\[\];,.«»|&*\"`]+")
USE = re.compile(r"^\s*(?:ghost use|pub use|use)\s+([^\s{]+)\.\{([^}]*)\}")


def files(root, endings):
    for folder, dirs, names in os.walk(os.path.join(root, "crates")):
        dirs[:] = sorted(d for d in dirs if d not in ("out", "target", ".git"))
        for n in sorted(names):
            if n.endswith(endings):
                yield os.path.join(folder, n)


def spelled(name):
    """The name in today's spelling."""
    if name in SPECIAL:
        return SPECIAL[name]
    if name.isupper() and "-" in name:
        return name.lower().replace("-", "_")
    if name[0].isupper():
        first, *more = name.split("-")
        return first + "".join(w[:1].upper() + w[1:] for w in more)
    name = name.replace("-", "_")
    return re.sub(r"(?<=[a-z0-9])([A-Z])(?=[a-z])", lambda m: "_" + m.group(1).lower(), name)


def own_names(root):
    found = set(SPECIAL)
    for p in files(root, (".antt", ".rt")):
        with open(p, encoding="utf-8") as f:
            for line in f:
                if p.endswith(".rt"):
                    if line.startswith("ghost use "):
                        found |= set(re.findall(r" as ([A-Za-z][^\s,}]*)", line))
                    continue
                if line.lstrip().startswith(("use ", "pub use ")):
                    found |= set(re.findall(r" as ([A-Za-z][^\s,}]*)", line))
                    continue
                if line.lstrip().startswith("--"):
                    continue
                m = STATED.match(line)
                if not m or m.group(3).startswith("goal."):
                    continue
                words = m.group(2).split()
                if any(w in KEYWORDS for w in words):
                    continue
                for w in words:
                    if re.match(r"^[A-Za-z]", w) and not w.startswith(("loop-", "invariant-", "decreases-", "returns-", "ghost-")):
                        found.add(w)
    return {n for n in found if spelled(n) != n}


def imported(text):
    """Names that the file takes from the kit's library."""
    taken = set()
    for line in text.splitlines():
        m = USE.match(line)
        if m and re.match(r"(Rattle\.std|denote|borrow|mathlib|native|lib|Prim)\b", m.group(1)):
            for part in m.group(2).split(","):
                part = part.strip()
                taken.add(part.split(" as ")[-1].strip())
                taken.add(part.split(" as ")[0].strip())
    return taken


def respell(path, text, own, clashes):
    kept = imported(text)
    names = {n: spelled(n) for n in own if n not in kept}
    tokens = set(TOKEN.findall(text))
    for n, new in names.items():
        if n in tokens and new in tokens:
            clashes.append(f"{path}: {n} and {new}")

    def turn(part):
        return TOKEN.sub(lambda m: names.get(m.group(0), m.group(0)), part)

    if path.endswith(".rt"):
        return "\n".join(l if l.lstrip().startswith("//") else turn(l) for l in text.split("\n"))
    return turn(text)


def main():
    root = os.getcwd()
    own = own_names(root)
    new, clashes = {}, []
    by_new = {}
    for n in sorted(own):
        by_new.setdefault(spelled(n), []).append(n)
    clashes += [" and ".join(ns) for ns in by_new.values() if len(ns) > 1]
    for p in files(root, (".antt", ".rt", ".edit")):
        with open(p, encoding="utf-8") as f:
            text = f.read()
        turned = respell(p, text, own, clashes)
        if turned != text:
            new[p] = turned
    if clashes:
        print("these would fall together:")
        print("\n".join(clashes))
        return 1
    for p, text in new.items():
        with open(p, "w", encoding="utf-8") as f:
            f.write(text)
    print(f"{len(own)} names, {len(new)} files")
    return 0


if __name__ == "__main__":
    sys.exit(main())
