#!/usr/bin/env python3
"""Counts the places of older forms in crates/*/src: python3 tools/places.py [COMMIT]. Tests are left out.

Each row is a form that a text search finds; what only reading finds is listed in docs/DESIGN-PASS.md.
"""
import re
import subprocess
import sys

FORMS = [
    ("1", "a match arm that gives None for None, or an Err or Some or Ok as it is",
     r"None => None\b|(Err|Some|Ok)\((\w+)\) => \1\(\2\)"),
    ("1", "a field for the number of a refusal", r"number: u8"),
    ("1", "a function that answers a number only to carry a theorem",
     r"\)\s*-> u8\s+ensures \{[^\n]*\}\s*\{\s*(?:0|let (\w+) = \d+;\s*\1)\s*\}"),
    ("2", "a list with its separator, one and further ones, read by a loop of its own",
     r"while (?:from\.)?peek\((?:s, )?at\.next\) == Symbol::\w+ \{"),
    ("2", "a node that is written and what was read is answered, by hand",
     r"nodes\[[^\]]+\] = [^;]+;\s*(?:return )?(?:Ok\(|(?:let (?:mut )?)?\w+ = )?Parsed \{[^}]*used: [^,}]+ \+ \d"),
    ("2", "a spot behind what was read, written out",
     r"Spot \{\s*next: (\w+)\.next[^,]*,\s*(?:depth[^,]*,\s*)?used: \1\.used,\s*\.\."),
    ("3", "for over numbers that index a slice", r"for (\w+) in [\w.]+\.\.[^{]*\{[^}]*\[\1\]"),
    ("3", "while with a number counted up or down in it", r"while [^{]*\{[^}]*\b\w+ [+-]= 1;"),
    ("4", "equality or order by hand", r"impl(?:<[^>]*>)? (?:PartialEq|Eq|PartialOrd|Ord) for"),
    ("4", "a number for each case of an enum, written out", r"=> 81,"),
    ("4", "as u16, as u32, as usize", r"\bas (?:u16|u32|usize)\b"),
    ("5", "functions with the five parameters of a parsing function",
     r"s: &\[Symbol\],\s*i: usize,\s*depth: usize,\s*nodes: &mut \[Node\],\s*used: usize"),
    ("5", "the room of a parsing function, written out",
     r"requires room \{ used \+ (?:\d \+ )?2 \* length s\.now"),
    ("6", "an array of fixed size in a struct", r"pub struct[^}]*\[\w+; \w+\]|(?<!pub )struct[^}]*\[\w+; \w+\]"),
    ("6", "a count or a number of used places beside a buffer", r"(?:used|count): usize"),
    ("7", "a switch on how to declare", r"how: Declaring|match how"),
]


def files(commit):
    if commit is None:
        names = subprocess.run(["git", "ls-files", "crates/*/src/*.rt"], capture_output=True, text=True, check=True).stdout.split()
        return [(n, open(n).read()) for n in names]
    names = subprocess.run(["git", "ls-tree", "-r", "--name-only", commit, "crates"], capture_output=True, text=True, check=True).stdout.split()
    return [(n, subprocess.run(["git", "show", f"{commit}:{n}"], capture_output=True, text=True, check=True).stdout)
            for n in names if "/src/" in n and n.endswith(".rt")]


def main():
    commit = sys.argv[1] if len(sys.argv) > 1 else None
    texts = [(n, t) for n, t in files(commit) if not n.endswith("tests.rt")]
    for point, what, form in FORMS:
        found = [(n, len(re.findall(form, t))) for n, t in texts]
        total = sum(k for _, k in found)
        where = ", ".join(f"{n.split('/')[1]} {k}" for n, k in found if k)
        print(f"{point} | {what} | {total} | {where}")


main()
