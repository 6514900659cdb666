#!/usr/bin/env python3
"""The stored output of crates/reader_cases, from the second reader: for each script the answer and the four tables whole, with ample
tables and with each table one entry too small.

    reader_cases.py          writes crates/reader_cases/stdout
    reader_cases.py --check  says whether it is that

Nothing is taken from the program but which scripts it reads and how it lays out a run. What a table is too small for is found here by
trying: its least room with which a script's answer stays the same. A table one entry short has all cells of that entry but one; with
a least room of 0 there is no such run. What the tables hold is document 01's: three numbers a token, nine a node, one a key, at the
front, zeros behind them and throughout the work table; after a refusal zeros throughout.
"""
import os
import sys

sys.dont_write_bytecode = True
sys.path.insert(0, os.path.dirname(os.path.abspath(__file__)))
from second_reader import LIMIT, TOKEN, Room, header, read

STORED = os.path.join(os.path.dirname(os.path.dirname(os.path.abspath(__file__))), "crates", "reader_cases", "stdout")

# cells of an entry of each table; and the ample tables, in cells: 10 tokens and a cell, 8 nodes and two, 3 keys, 12 work entries
CELLS = Room(3, 9, 1, 1)
AMPLE = Room(31, 74, 3, 12)

# kind, script in hexadecimal, and how many bytes aa behind it
COUNTER = [(0, script, 0) for script in [""] + (
    "51 516951 5169516951 6351670068 517c519b 005187 005287 6351 8769 00b2 7663516968 "
    "51b2 0105 0111 0180 0191 027f00 4c 4f 88").split()] + [(0, "", LIMIT + 1)]
KEYS = [(0, "51" + "2102" + 32 * "11" + "2103" + 32 * "22" + "52ae", 0), (1, "20" + 32 * "11" + "ac20" + 32 * "22" + "ba529c", 0)]
KINDS = [(2, "51", 0), (0, "766351696873645168", 0), (1, "766351696873645168", 0)]


def room_of(cells):
    return Room(*(have // each for have, each in zip(cells, CELLS)))


def script_of(case):
    return bytes.fromhex(case[1]) + case[2] * b"\xaa"


# The least room of a table with which the answer is that of ample tables.
def least(case, table):
    ample = room_of(AMPLE)
    wanted = read(case[0], script_of(case), ample)
    return next(n for n in range(ample[table] + 1) if read(case[0], script_of(case), with_one(ample, table, n)) == wanted)


def with_one(room, table, n):
    return Room(*(n if i == table else have for i, have in enumerate(room)))


def line(name, cells, numbers):
    return name + "".join(" %x" % n for n in numbers + [0] * (cells - len(numbers))) + "\n"


def run(case, cells):
    o = read(case[0], script_of(case), room_of(cells))
    tokens = [n for name, number, place in o.tokens for n in (TOKEN.index(name), number, place)]
    nodes = [n for node in o.nodes for n in node]
    return "%02x%s\n" % case[:2] + header(o) + line("t", cells.tokens, tokens) + line("n", cells.nodes, nodes) \
        + line("k", cells.keys, list(o.keys)) + line("w", cells.work, [])


def runs(case):
    out = run(case, AMPLE)
    for table, each in enumerate(CELLS):
        n = least(case, table)
        if n:
            out += run(case, with_one(AMPLE, table, each * n - 1))
    return out


def main():
    wanted = "".join(runs(case) for case in COUNTER + KEYS + KINDS).encode()
    if "--check" not in sys.argv:
        open(STORED, "wb").write(wanted)
    elif open(STORED, "rb").read() != wanted:
        sys.exit("crates/reader_cases/stdout: the second reader writes something else")


if __name__ == "__main__":
    main()
