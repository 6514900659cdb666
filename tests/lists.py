#!/usr/bin/env python3
"""The stored lists: crates/NAME/cases, split into the stdin and the stdout that `rt ci` runs the program NAME on.

    lists.py          writes stdin and stdout of each list
    lists.py --check  says whether they are what their cases say, and whether the second reader writes the same listings

In a file of cases a line `# ..` says what a case shows and what 01 or reckoning by hand expects of it; `< ..` is a line of the input
(with \\r, \\0, \\\\ for bytes that can't be seen, and a `\\c` at the end of a last line that no line feed ends); `> ..` is a line of its listing.
"""
import glob
import os
import sys

sys.dont_write_bytecode = True
sys.path.insert(0, os.path.dirname(os.path.abspath(__file__)))
import second_reader

ROOT = os.path.dirname(os.path.dirname(os.path.abspath(__file__)))


def split(path):
    given, expected = b"", b""
    for row in open(path, "rb").read().split(b"\n"):
        if row[:1] == b"<":
            line = row[2:].replace(b"\\r", b"\r").replace(b"\\0", b"\0")
            given += line[:-2] if line.endswith(b"\\c") else line + b"\n"
        elif row[:1] == b">":
            expected += row[2:] + b"\n"
    return given, expected


def second(given):
    lines = given.split(b"\n")
    if lines[-1] == b"":
        lines.pop()
    return "".join(second_reader.answer(line) for line in lines).encode()


def main():
    bad = 0
    for path in sorted(glob.glob(os.path.join(ROOT, "crates", "*", "cases"))):
        given, expected = split(path)
        home = os.path.dirname(path)
        if second(given) != expected:
            bad += 1
            print("%s: the second reader writes something else" % home)
        for name, wanted in (("stdin", given), ("stdout", expected)):
            file = os.path.join(home, name)
            if "--check" not in sys.argv:
                open(file, "wb").write(wanted)
            elif open(file, "rb").read() != wanted:
                bad += 1
                print("%s: not what the cases say" % file)
    sys.exit(bad != 0)


if __name__ == "__main__":
    main()
