#!/usr/bin/env python3
"""Brings the repository's own definitions and lemmas to the spelling of today's library: words in snake case, types in camel case.

usage: python3 tools/respell.py [FOLDER]    (the repository's top; this one where none is named)

It was run once, after the toolchain's own port.py. It renames names that specs/ and proofs/ declare or bind and that have a dash
between two words, wherever they stand: in specs/, proofs/, the ghost text of src/ and between backquotes in README.md and docs/.
Names of the library, of goals and of steps of the code, strings and comments in src/ stay as they are. It stops before it writes
where two names would fall together.
"""

import collections
import os
import re
import sys

WORD = re.compile(r"(?<![\w'-])[A-Za-z][\w']*(?:-[\w']+)+(?![\w'-])")
USE = re.compile(r"\buse ([\w.+-]+)\.\{([^}]*)\}")
LIBRARY = ("Rattle.std", "borrow", "denote", "native", "mathlib", "Prim", "lib")
# bound by patterns that the search below does not read
ALSO = {"named-and-made", "only-reserved", "whole-filing", "yes-entered"}


def files(root):
    for folder, dirs, names in os.walk(os.path.join(root, "crates")):
        dirs[:] = sorted(d for d in dirs if d != "out")
        for name in sorted(names):
            if name.endswith((".antt", ".rt")):
                yield os.path.join(folder, name)


def read(path):
    with open(path, encoding="utf-8") as f:
        return f.read()


def from_library(path):
    return path.startswith(LIBRARY[0] + ".") or path.split(".")[0] in LIBRARY[1:]


def own_names(root):
    library, made, own = set(), set(), set(ALSO)
    for path in files(root):
        text = read(path)
        if path.endswith(".antt"):
            text = re.sub(r"--.*", "", text)
        for module, names in USE.findall(text):
            for name in names.split(","):
                first, _, other = (x.strip() for x in name.partition(" as "))
                if from_library(module):
                    library.add(first)
                if module.endswith((".Goals", ".Given")):
                    made.add(first)
                if other:
                    own.add(other)
        made.update(re.findall(r"^\s*(?:abbrev )?(?:pub )?([\w-]+) : (?:goal|need|given)\.", text, re.M))
        if path.endswith(".antt"):
            own.update(re.findall(r"^\s*(?:(?:abbrev|unfoldable|pub|data|record) )*([\w'-]+)(?=[ :=\n])", text, re.M))
            own.update(re.findall(r"let ([\w'-]+)", text))
            for names in re.findall(r"[({]((?:[\w'-]+ )+): ", text) + re.findall(r"λ ((?:[\w'-]+ ?)+)\.", text):
                own.update(names.split())
    return {n for n in own if WORD.fullmatch(n)} - library - made


def respelled(name):
    words = name.split("-")
    return "".join(w[:1].upper() + w[1:] for w in words) if name[0].isupper() else "_".join(words)


def together(names, root):
    """Pairs of names that would become one: of two own names, or of one and a name that specs/ and proofs/ declare already."""
    declared = collections.defaultdict(list)
    for path in files(root):
        if path.endswith(".antt"):
            for n in re.findall(r"^\s*(?:(?:abbrev|unfoldable|pub|data|record) )*([\w']+) :", re.sub(r"--.*", "", read(path)), re.M):
                declared[n].append(path)
    new = collections.Counter(respelled(n) for n in names)
    return [(n, respelled(n)) for n in sorted(names) if new[respelled(n)] > 1 or respelled(n) in declared]


def turned(text, names):
    return WORD.sub(lambda m: respelled(m[0]) if m[0] in names else m[0], text)


def turn_source(text, names):
    """Only outside strings and comments."""
    parts = re.split(r'("(?:[^"\\]|\\.)*"|//[^\n]*)', text)
    return "".join(p if i % 2 else turned(p, names) for i, p in enumerate(parts))


def main():
    root = sys.argv[1] if len(sys.argv) > 1 else "."
    names = own_names(root)
    for old, new in together(names, root):
        print(f"respell: {old} would fall together with another {new}", file=sys.stderr)
    if together(names, root):
        raise SystemExit(1)
    pages = [os.path.join(root, "README.md")] + [os.path.join(root, "docs", n) for n in sorted(os.listdir(os.path.join(root, "docs")))]
    for path in [*files(root), *pages]:
        old = read(path)
        if path.endswith(".antt"):
            new = turned(old, names)
        elif path.endswith(".rt"):
            new = turn_source(old, names)
        else:
            new = re.sub(r"`[^`\n]*`", lambda m: turned(m[0], names), old)
        if new != old:
            with open(path, "w", encoding="utf-8") as f:
                f.write(new)
    print(f"respell: {len(names)} names")


if __name__ == "__main__":
    main()
