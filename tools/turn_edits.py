#!/usr/bin/env python3
"""Brings the must-fail edits to the spelling that port.py and respell.py gave the files they edit. Run once.

usage: turn_edits.py COMMIT [--check]      at the top of the repository; COMMIT: the last one in the older spelling

A text that stands once in today's file stays. Any other gets the spelling that each of its names has today: the names of the edited file's
lines then and now are set beside one another where they differ in nothing else, and the rules of respell.py give the rest.
"""
import collections
import glob
import re
import subprocess
import sys

NAME = r"[^\s(){}.;,@\"«»`\[\]]+"
# Names that port.py turned, and that a new text brings into a file.
OF_STD = {"getD": "get_or", "getElem?": "get_elem?"}
OPERATOR = re.compile(r"(?<!\S)_([^\w\s(){}.;,]+)_(?![^\s(){},;.])")


def snake(name):
    return re.sub(r"(?<=[a-z0-9₀-₉])[A-Z]", lambda m: "_" + m[0].lower(), name).replace("-", "_")


def before(commit, path):
    return subprocess.run(["git", "show", commit + ":" + path], capture_output=True, text=True, check=True).stdout


def tight(text):
    """`(r .field)` and `r .field` as `r.field`."""
    text = re.sub(r"(?<=[\w')]) \.(?=[a-z0-9])", ".", text)
    return re.sub(r"\((%s(?:\.[\w']+)+)\)" % NAME, r"\1", text)


def names(was, now):
    """What each name of an older file is called today, by the lines whose names alone differ."""
    lines = collections.defaultdict(set)
    for line in now.split("\n"):
        lines[re.sub(r"[_\-\s]", "", line).lower()].add(line)
    out = {}
    for line in was.split("\n"):
        line = tight(line)
        for other in lines.get(re.sub(r"[_\-\s]", "", line).lower(), ()):
            a, b = re.findall(NAME, line), re.findall(NAME, other)
            if len(a) == len(b):
                out.update((x, y) for x, y in zip(a, b) if x != y)
    return out


def spelled(text, here, now):
    def turn(m):
        n = m[0]
        if n in here:
            return here[n]
        if n in now:
            return n
        if n in OF_STD:
            return OF_STD[n]
        return snake(n) if re.match(r"[a-z]", n) and re.search(r"[A-Z-]", n) else n

    return OPERATOR.sub(r"◌\1◌", re.sub(NAME, turn, tight(text)))


def main():
    commit, write = sys.argv[1], "--check" not in sys.argv
    turned = left = 0
    for path in sorted(glob.glob("crates/*/must-fail/*.edit")):
        crate = path.rsplit("/", 2)[0]
        lines = open(path, encoding="utf-8").read().split("\n")
        texts, out, here, now, file, old = {}, [], {}, set(), None, ""
        for line in lines:
            if line.startswith("file: "):
                file = crate + "/" + line[6:].strip()
                if file not in texts:
                    texts[file] = open(file, encoding="utf-8").read()
                here = names(before(commit, file), texts[file]) if file.endswith(".antt") else {}
                now = set(re.findall(NAME, texts[file]))
            elif line.startswith("old: "):
                old = line[5:]
                if texts[file].count(old) != 1:
                    old = spelled(old, here, now)
                    if texts[file].count(old) != 1:
                        print("left:", path, old, texts[file].count(old))
                        left += 1
                line = "old: " + old
            elif line.startswith("new: "):
                new = line[5:]
                if file.endswith(".antt"):
                    new = spelled(new, here, now)
                line = "new: " + new
                texts[file] = texts[file].replace(old, new)
            out.append(line)
        if out != lines:
            turned += 1
            if write:
                with open(path, "w", encoding="utf-8") as f:
                    f.write("\n".join(out))
    print(turned, "turned,", left, "left")


main()
