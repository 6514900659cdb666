#!/usr/bin/env python3
"""Spells the definitions and lemmas of this repository as today's Rattle does: words in snake case, types in upper camel case.

usage: tools/respell.py [ROOT]      run once, right after the kit's port.py

The table is respell.tsv beside this file: an old name, a tab, the new one. A row with a third column turns in the file of that name alone, before the rest:
there a name that had a dash before the kit's script turned it would fall together with one that is written in camel case.
What turns: whole words of the .antt and .rt files and the must-fail edits below crates/. In comments a name with a dash turns between backquotes alone, since a word of prose may look like it.
What stays: a word that a file brings from a library of the kit; in a proof of one function (proofs/F/) what stands behind a dot, but for fields of this repository's own records; names of src/.
"""

import os
import re
import sys

HERE = os.path.dirname(os.path.realpath(__file__))
W = r"[^\s(){}.;,@\"«»\[\]\\:`]+"
PIECE = re.compile(r"--[^\n]*|//[^\n]*|\"(?:[^\"\\\n]|\\.)*\"|" + W)
USE = re.compile(r"\buse ([^\s;{]+)\.\{([^}]*)\}")


def rows():
    everywhere, alone = {}, {}
    with open(os.path.join(HERE, "respell.tsv"), encoding="utf-8") as f:
        for line in f:
            parts = line.rstrip("\n").split("\t")
            if len(parts) == 2:
                everywhere[parts[0]] = parts[1]
            elif len(parts) == 3:
                alone.setdefault(parts[2], {})[parts[0]] = parts[1]
    return everywhere, alone


def fields_of(root):
    """The fields of the repository's own records."""
    found = set()
    for path in files(root):
        if path.endswith(".antt"):
            inside = False
            for line in open(path, encoding="utf-8"):
                if re.match(r" *(pub )?record .* where$", line):
                    inside = True
                elif line[:1].strip():
                    inside = False
                m = re.match(r" +(?:pub )?(" + W + r") : ", line)
                if inside and m:
                    found.add(m[1])
    return found


def files(root):
    for folder, dirs, names in os.walk(os.path.join(root, "crates")):
        dirs[:] = sorted(d for d in dirs if d != "out")
        for n in sorted(names):
            if n.endswith((".antt", ".rt", ".edit")):
                yield os.path.join(folder, n)


def turned(text, table, own, crates, of_function):
    lent = set()
    for m in USE.finditer(text):
        head = m[1].split(".")
        if not (head[0] == "Rattle" and head[1] in crates):
            lent |= {it.strip().split(" as ")[-1] for it in m[2].split(",")}
    names = {k: v for k, v in table.items() if k not in lent}

    def word(m):
        it = m[0]
        if it.startswith(("--", "//")):
            it = re.sub(r"`[^`\n]*`", lambda s: re.sub(W, lambda w: names.get(w[0], w[0]), s[0]), it)
            return re.sub(W, lambda w: names.get(w[0], w[0]) if "-" not in w[0] else w[0], it)
        if it not in names:
            return it
        behind = text[: m.start()].endswith(".")
        if of_function and behind and it not in own:
            head = re.search(r"([^\s(){},;\[\]]+)\.$", text[: m.start()])
            if head and re.match(r"(c|l|w|g|tie|goal|κs)(\.|$)", head[1]):
                return it
        return names[it]

    return PIECE.sub(word, text)


def main(argv):
    root = argv[0] if argv else os.path.join(HERE, "..")
    everywhere, alone = rows()
    own, crates = fields_of(root), set(os.listdir(os.path.join(root, "crates")))
    for path in files(root):
        with open(path, encoding="utf-8") as f:
            text = f.read()
        rel = os.path.relpath(path, os.path.join(root, "crates"))
        of_function = bool(re.search(r"/proofs/.*/[^/]*\.antt$", "/" + rel))
        new = text
        if rel in alone:
            new = re.sub(W, lambda m: alone[rel].get(m[0], m[0]), new)
        new = turned(new, everywhere, own, crates, of_function)
        if new != text:
            with open(path, "w", encoding="utf-8") as f:
                f.write(new)


if __name__ == "__main__":
    main(sys.argv[1:])
