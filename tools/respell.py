#!/usr/bin/env python3
"""Spells this repository's own definitions, fields and lemmas in snake case: recordNumber and record-number become record_number.

usage: respell.py [--check]      at the top of the repository

A name that an .antt file below crates/ declares and that begins with a small letter is turned wherever it stands in .antt and .rt files,
and between backquotes in .md files. Types and facts, names of Rust functions and names that the toolchain makes stay. A name whose
new spelling would meet another name in some file is listed and gets the ending that CLASHES gives it. --check writes nothing.
"""
import collections
import os
import re
import sys

NAME = r"[^\s(){}.;,@\"«»`]+"
DECLARED = re.compile(r"^\s*(?:(?:pub|abbrev|unfoldable) )*(%s)(?: \{[^{}\n]*\})* :(?=\s|$)" % NAME)
# What the toolchain names in a function's proof: its needs and its theorem.
MADE = re.compile(r"^(returns|loop|invariant|decreases|cast|sub|add|mul|div|shl|shr|overflow|bounds|shared_slice|shared-slice)(-|$)|-(spec|requires)$")
# Lemmas that would get the name of a definition, in which case they end in _lem.
LEMMAS = """comes-to day-number from-here in-room in-stretch in-year is-decimal is-index is-plain item-value of-index of-record put-back row-of
with-carry with-number""".split()
CLASHES = {name: name.replace("-", "_") + "_lem" for name in LEMMAS}
# The same for lemmas that are in snake case already: the crates whose .antt files cite them, and what the definition was called.
SNAKE = {"entry_length": ("laws", "index"), "wrong_size": ("value",)}


def snake(name):
    return re.sub(r"(?<=[a-z0-9₀-₉])[A-Z]", lambda m: "_" + m[0].lower(), name).replace("-", "_")


def files(root, endings):
    for folder, dirs, names in os.walk(root):
        dirs[:] = sorted(d for d in dirs if d not in ("out", "target", ".git"))
        for name in sorted(names):
            if name.endswith(endings):
                yield os.path.join(folder, name)


def read(path):
    with open(path, encoding="utf-8") as f:
        return f.read()


def declared():
    """Each name that is declared, with the files that declare it; those of a function's own proof apart."""
    shared, own = collections.defaultdict(set), collections.defaultdict(set)
    for path in files("crates", ".antt"):
        of_function = os.path.basename(path) in ("Proof.antt", "Answers.antt", "Invariants.antt") and path.count(os.sep) > 3
        for line in read(path).split("\n"):
            m = DECLARED.match(line)
            if m and re.match(r"[a-z]", m[1]) and re.search(r"[A-Z-]", m[1]):
                if not of_function:
                    shared[m[1]].add(path)
                elif not MADE.search(m[1]):
                    own[path].add(m[1])
    return shared, own


def main():
    write = "--check" not in sys.argv
    shared, own = declared()
    new = {n: CLASHES.get(n, snake(n)) for n in shared}
    for a, b in collections.Counter(new.values()).items():
        if b > 1:
            print("meet:", a, sorted(n for n in new if new[n] == a))
    changed = 0
    for path in files("crates", (".antt", ".rt")):
        text = read(path)
        for name, crates in SNAKE.items():
            if path.endswith(".antt") and path.split(os.sep)[1] in crates:
                text = re.sub(rf"(?<![\w.-]){name}(?![\w.-])", name + "_lem", text)
        here = dict(new)
        here.update({n: snake(n) for n in own.get(path, ())})
        tokens = collections.Counter(re.findall(NAME, text))
        for n in tokens:
            if n in here and here[n] in tokens:
                print("clash:", path, n, here[n], tokens[here[n]])

        def turn(m):
            return here.get(m[0], m[0])

        out = re.sub(NAME, turn, text)
        if out != read(path):
            changed += 1
            if write:
                with open(path, "w", encoding="utf-8") as f:
                    f.write(out)
    for path in list(files("docs", ".md")) + ["README.md"]:
        text = read(path)
        out = re.sub(r"`[^`\n]*`", lambda q: re.sub(NAME, lambda m: new.get(m[0], m[0]), q[0]), text)
        if out != text:
            changed += 1
            if write:
                with open(path, "w", encoding="utf-8") as f:
                    f.write(out)
    print(len(new), "names,", changed, "files")


main()
