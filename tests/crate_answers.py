#!/usr/bin/env python3
"""The crate's own answers as a stored list: oracle/sample.txt, made into the stdin and the stdout of the program crate_answers.

    crate_answers.py          writes both files
    crate_answers.py --check  says whether they are what the sample says

A listing is the crate's to the letter, but for two things: the crate has no place for a refusal, so the second reader's stands there;
and the line `= ` with the encoder's bytes is left out.
"""
import os
import sys

sys.dont_write_bytecode = True
sys.path.insert(0, os.path.dirname(os.path.abspath(__file__)))
import second_reader

ROOT = os.path.dirname(os.path.dirname(os.path.abspath(__file__)))


def lists():
    given, expected = [], []
    for row in open(os.path.join(ROOT, "oracle", "sample.txt")).read().splitlines():
        if row.startswith("> "):
            given.append(row[2:])
        elif not row.startswith("="):
            words = row.split(" ")
            if words[2:3] == ["--------"]:
                words[2] = second_reader.answer(given[-1].encode()).split(" ")[2]
            expected.append(" ".join(words))
    return {"stdin": given, "stdout": expected}


def main():
    bad = 0
    for name, rows in lists().items():
        path = os.path.join(ROOT, "crates", "crate_answers", name)
        text = "".join(row + "\n" for row in rows)
        if "--check" not in sys.argv:
            open(path, "w").write(text)
        elif open(path).read() != text:
            bad += 1
            print("%s: not what the sample says" % path)
    sys.exit(bad != 0)


if __name__ == "__main__":
    main()
