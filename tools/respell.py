#!/usr/bin/env python3
"""Respells the repository's own definitions and lemmas: words in snake case, types in upper camel case.

usage: python3 tools/respell.py [--list]     at the top of the repository, once, after the toolchain's port.py

A name that this repository declares in an .antt file, or as a ghost name or label in an .rt file, and that has a dash
loses it: `end-of` becomes `end_of`, and a fact named as a type, `Smallest-batch`, becomes `SmallestBatch`. Names that
the toolchain makes for goals and steps keep their dashes, and so do names that come from its library. With --list it
prints the names and changes nothing.
"""

import os
import re
import sys

WORD = r"[\w'\-+*≤<≡∷∙⁻◌]"
# what the toolchain made: answers and invariants are declared under names that are not ours
MADE = re.compile(r":\s*goal\.|:\s*given\.")
HEAD = re.compile(r"^\s*(?:(?:pub|abbrev|data|record|unfoldable|private)\s+)*([A-Za-z][^\s(){}\[\];,.:]*)\s*(?=[:({])")
TYPE = re.compile(r"^\s*(?:pub\s+)?(?:data|record)\s+([A-Za-z][^\s(){}\[\];,.:]*)")
GHOST = re.compile(r"\b(?:ghost|ensures|requires)\s+([A-Za-z][\w-]*)\s*[:{]")


def files(root):
    for folder, dirs, names in os.walk(os.path.join(root, "crates")):
        dirs[:] = sorted(d for d in dirs if d != "out")
        for name in sorted(names):
            if name.endswith((".antt", ".rt", ".edit")):
                yield os.path.join(folder, name)


def bare(line, mark):
    return line.split(mark)[0]


def declared(root):
    """Names with a dash that the repository declares."""
    found = set()
    for path in files(root):
        with open(path, encoding="utf-8") as f:
            lines = f.read().split("\n")
        for line in lines:
            if path.endswith(".antt"):
                code = bare(line, "--")
                if code.startswith("use ") or MADE.search(code):
                    continue
                for form in (TYPE, HEAD):
                    m = form.match(code)
                    if m and ("≔" not in code):
                        found.add(m.group(1))
            elif path.endswith(".rt"):
                found.update(GHOST.findall(bare(line, "//")))
    return {n for n in found if "-" in n.strip("-")}


def respelled(name):
    if not name[0].isupper():
        return name.replace("-", "_")
    parts = name.split("-")
    return "".join(p[0].upper() + p[1:] for p in parts)


def foreign(text):
    """Names that a file takes from elsewhere than this repository's own crates."""
    out = set()
    for m in re.finditer(r"use\s+([A-Za-z][\w.«»·'-]*)\.\{([^}]*)\}", text):
        if not re.match(r"Rattle\.(?!std\b)", m.group(1)):
            out.update(n.strip() for n in m.group(2).split(","))
    return out


def turn(text, path, names):
    own = {n: r for n, r in names.items() if n not in foreign(text)}
    if not own:
        return text
    form = re.compile(r"(?<!" + WORD + r")(" + "|".join(sorted(map(re.escape, own), key=len, reverse=True)) + r")(?!" + WORD + r")")
    mark = "--" if path.endswith(".antt") else "//"
    out = []
    for line in text.split("\n"):
        code = bare(line, mark)
        # strings keep what they say
        pieces = re.split(r'("(?:[^"\\]|\\.)*")', code)
        code = "".join(p if i % 2 else form.sub(lambda m: own[m.group(1)], p) for i, p in enumerate(pieces))
        out.append(code + line[len(bare(line, mark)):])
    return "\n".join(out)


def main(args):
    root = os.path.dirname(os.path.dirname(os.path.abspath(__file__)))
    names = {n: respelled(n) for n in declared(root)}
    if args == ["--list"]:
        for n in sorted(names):
            print(n, names[n])
        return 0
    for path in files(root):
        with open(path, encoding="utf-8") as f:
            text = f.read()
        new = turn(text, path, names)
        if new != text:
            with open(path, "w", encoding="utf-8") as f:
                f.write(new)
    return 0


if __name__ == "__main__":
    raise SystemExit(main(sys.argv[1:]))
