#!/usr/bin/env python3
"""The stored output of crates/record_cases, from the second reader and an encoder of its own: for each script to try at the counter, and
three with keys, the answer, the tokens from the last to the first, the eight records, and the script written again from the records of
its nodes.

    record_cases.py          writes crates/record_cases/stdout
    record_cases.py --check  says whether it is that

Nothing is taken from the program but which scripts it reads and how it lays out a run. The reader is second_reader.py, the encoder that of
rewrite.py. What is written again has to be the script itself, but for NUMEQUAL VERIFY, which becomes one opcode.
"""
import os
import sys

sys.dont_write_bytecode = True
sys.path.insert(0, os.path.dirname(os.path.abspath(__file__)))
from reader_cases import AMPLE, COUNTER, KEYS, room_of
from rewrite import Refused, encode
from second_reader import LIMIT, TOKEN, header, read

STORED = os.path.join(os.path.dirname(os.path.dirname(os.path.abspath(__file__))), "crates", "record_cases", "stdout")
# records; and the entries of the encoder's work table and the bytes of its output
RECORDS, WORK, OUT = 8, 66, 80
# NUMEQUAL VERIFY in its two spellings, and a script with the longer one
UNFUSED, NUMEQUALVERIFY = b"\x9c\x69", b"\x9d"
TWO_WAYS = [(1, "20" + 32 * "11" + "ac519c6951", 0)]


# A case of reader_cases: kind, script in hexadecimal, and how many bytes behind it. The long script is all 51 here.
def script_of(case):
    return bytes.fromhex(case[1]) + case[2] * b"\x51"


def shown(case):
    return "%02x %d times 51\n" % (case[0], case[2]) if case[2] else "%02x%s\n" % case[:2]


# each token as it is taken, with how many are left after it
def tokens(o):
    rows = ["t %x %x %x %x\n" % (TOKEN.index(name), number, place, left) for left, (name, number, place) in enumerate(o.tokens)]
    return "".join(reversed(rows))


def records(o):
    nodes = [list(node) for node in o.nodes] + (RECORDS - len(o.nodes)) * [9 * [0]]
    return "".join("r" + "".join(" %x" % n for n in node) + "\n" for node in nodes)


# the encoder's answer on the nodes that were read, and the bytes written
def written(case, o):
    try:
        text = encode(case[0], o.nodes, list(o.keys), script_of(case), WORK, OUT)
    except Refused as no:
        return "e %02x %02x 00000000 00000000\n" % (no.number, no.reason)
    assert text == script_of(case).replace(UNFUSED, NUMEQUALVERIFY), case
    return "e 00 00 00000000 %08x%s\n" % (len(text), "".join(" %02x" % byte for byte in text))


def run(case):
    o = read(case[0], script_of(case), room_of(AMPLE))
    return shown(case) + header(o) + tokens(o) + records(o) + written(case, o)


def main():
    assert COUNTER[-1] == (0, "", LIMIT + 1)
    wanted = "".join(run(case) for case in COUNTER + KEYS + TWO_WAYS).encode()
    if "--check" not in sys.argv:
        open(STORED, "wb").write(wanted)
    elif open(STORED, "rb").read() != wanted:
        sys.exit("crates/record_cases/stdout: the second reader writes something else")


if __name__ == "__main__":
    main()
