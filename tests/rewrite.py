#!/usr/bin/env python3
"""The stored list of crates/rewrite, from an encoder of its own: node tables in, scripts out.

    rewrite.py          writes crates/rewrite/stdin and crates/rewrite/stdout
    rewrite.py --check  says whether they are that

A job is a line of hexadecimal and its listing (crates/rewrite/src/main.rt says how it is laid out). The first jobs are the listings of every
script that the stored lists counter, vectors, limits and refusals have accepted, and of some of those in oracle/sample.txt, for which that file
has the bytes of the crate's own encoder too. Each has to come back as it was given, but for NUMEQUAL VERIFY, which becomes one opcode. Then come
node tables made by hand, for each number that the encoder refuses with and for each way to be 21; the number and the reason are stated beside the
case, and the encoder here has to say the same before anything is written.

The encoder is written from document 01's "Encoder" and from BIP 379's table of scripts (bip379.py); the type rules are the second reader's.
It takes nothing from the proved one.
"""
import os
import re
import sys

sys.dont_write_bytecode = True
sys.path.insert(0, os.path.dirname(os.path.abspath(__file__)))
import second_reader
from bip379 import number, push, script, wrap
from second_reader import KIND, LEAF, Reason, and_or, cast, combine, threshold

ROOT = os.path.dirname(os.path.dirname(os.path.abspath(__file__)))
NAME = {i: name for name, i in KIND.items()}
B, LIMIT = 1, 10000
# the sizes of a work table and an output where a job gives none
WORK, OUT = 4098, 10000
# of the sample's accepted scripts, each of which is checked here, one in so many is a job
SHOWN = 10

WRAPPERS = dict(Alt="a", Swap="s", Check="c", DupIf="d", Verify="v", NonZero="j", ZeroNotEqual="n")
TWO = {
    "AndV": lambda x, y: script(x, y),
    "AndB": lambda x, y: script(x, y, "BOOLAND"),
    "OrB": lambda x, z: script(x, z, "BOOLOR"),
    "OrC": lambda x, z: script(x, "NOTIF", z, "ENDIF"),
    "OrD": lambda x, z: script(x, "IFDUP", "NOTIF", z, "ENDIF"),
    "OrI": lambda x, z: script("IF", x, "ELSE", z, "ENDIF"),
}
HASH = {"Sha256": 32, "Hash256": 32, "Ripemd160": 20, "Hash160": 20}


class Refused(Exception):
    def __init__(self, number, reason=0):
        self.number, self.reason = number, reason


def refuse_unless(fact, number):
    if not fact:
        raise Refused(number)


# A node table's checks, node by node over the finished trees, the newest last: each its size, its type and its script.
class Table:
    def __init__(self, kind, keys, material):
        self.kind, self.keys, self.material, self.done = kind, keys, material, []

    # so many bytes of the material
    def part(self, place, size):
        refuse_unless(place + size <= len(self.material), 21)
        return self.material[place:place + size]

    # the keys that a multi or multi_a names, each of so many bytes
    def named(self, count, place, size):
        refuse_unless(place + count <= len(self.keys), 21)
        return [self.part(offset, size) for offset in self.keys[place:place + count]]

    # what stands at a node's place, and its keys; 21 if they aren't all in the material
    def data(self, name, count, place):
        if name == "PkK":
            return self.part(place, 32 if self.kind else 33), []
        if name in HASH or name == "RawPkH":
            return self.part(place, HASH.get(name, 20)), []
        if name in ("Multi", "MultiA"):
            return b"", self.named(count, place, 33 if name == "Multi" else 32)
        return b"", []

    # the children, in script order
    def children(self, name, count):
        n = count if name == "Thresh" else 1 if name in WRAPPERS else 2 if name in TWO else 3 if name == "AndOr" else 0
        refuse_unless(n <= len(self.done), 21)
        return self.done[len(self.done) - n:][::-1]

    # "Key form: segwit 33 bytes starting 02 or 03; tapscript any 32 bytes"
    def values(self, name, number, count, data, keys):
        for key in [data] * (name == "PkK") + keys:
            refuse_unless(len(key) == 32 if self.kind else len(key) == 33 and key[0] in (2, 3), 11)
        if name in ("After", "Older"):
            refuse_unless(1 <= number <= 2147483647, 12)
        if name in ("Thresh", "Multi", "MultiA"):
            refuse_unless(1 <= number <= count <= {"Thresh": count, "Multi": 20, "MultiA": 999}[name], 13)

    def add(self, kind, number, count, place, size, *stored):
        name = NAME.get(kind, "PkH")
        refuse_unless(name != "PkH", 21)
        refuse_unless(number == 0 or name in ("After", "Older", "Thresh", "Multi", "MultiA"), 21)
        refuse_unless(count == 0 or name in ("Thresh", "Multi", "MultiA"), 21)
        refuse_unless(place == 0 or name in ("PkK", "RawPkH", "Multi", "MultiA") or name in HASH, 21)
        data, keys = self.data(name, count, place)
        children = self.children(name, count)
        refuse_unless(size == 1 + sum(child[0] for child in children), 21)
        self.values(name, number, count, data, keys)
        try:
            made = typed(name, [child[1] for child in children])
        except Reason as reason:
            raise Refused(14, reason.args[0])
        if made != stored:
            raise Refused(14, 13)
        text = written(name, number, data, keys, [child[2] for child in children])
        self.done[len(self.done) - len(children):] = [(size, made, text)]


# and_or's children stand as X, Z, Y
def typed(name, types):
    if name in WRAPPERS:
        return cast(name, types[0])
    if name in TWO:
        return combine(name, types[0], types[1])
    if name == "AndOr":
        return and_or(types[0], types[2], types[1])
    return threshold(types) if name == "Thresh" else LEAF[name]


# BIP 379's script of a fragment
def written(name, n, data, keys, x):
    if name in WRAPPERS:
        return wrap(WRAPPERS[name], x[0])
    if name in TWO:
        return TWO[name](x[0], x[1])
    if name == "AndOr":
        return script(x[0], "NOTIF", x[1], "ELSE", x[2], "ENDIF")
    if name == "Thresh":
        return script(x[0], *(part for child in x[1:] for part in (child, "ADD")), number(n), "EQUAL")
    if name == "Multi":
        return script(number(n), *map(push, keys), number(len(keys)), "CHECKMULTISIG")
    if name == "MultiA":
        signed = [part for key in keys for part in (push(key), "CHECKSIGADD")]
        return script(signed[0], "CHECKSIG", *signed[2:], number(n), "NUMEQUAL")
    if name in HASH:
        return script("SIZE", number(32), "EQUALVERIFY", name.upper(), push(data), "EQUAL")
    if name == "RawPkH":
        return script("DUP", "HASH160", push(data), "EQUALVERIFY")
    if name in ("After", "Older"):
        return script(number(n), "CHECKLOCKTIMEVERIFY" if name == "After" else "CHECKSEQUENCEVERIFY")
    return push(data) if name == "PkK" else number(1 if name == "True" else 0)


# Document 01's order: 20; node by node; one root; 19; 1; 17; 22.
def encode(kind, nodes, keys, material, work=WORK, out=OUT, odd=0):
    refuse_unless(kind <= 1, 20)
    table = Table(kind, keys, material)
    for node in nodes:
        table.add(*node)
    refuse_unless(len(table.done) == 1 and odd == 0, 21)
    refuse_unless(table.done[0][1][0] == B, 19)
    text = bytes(byte for instruction in table.done[0][2] for byte in instruction)
    refuse_unless(len(text) <= LIMIT, 1)
    refuse_unless(8 * len(nodes) + 2 <= work, 17)
    refuse_unless(len(text) <= out, 22)
    return text


# A job: kind, material, nodes, keys, and where they are given work, out and odd.
def asked(job):
    kind, material, nodes, keys = job[:4]
    sizes = "".join(" %x" % size for size in job[4:])
    rows = ["%02x%s%s" % (kind, material.hex(), sizes), "00 00 00000000 00000000 00000000 %08x %08x" % (len(nodes), len(keys))]
    return rows + ["%02x %08x %08x %08x %08x %x%x%x%x" % tuple(node) for node in nodes] + ["%08x" % key for key in keys]


def answered(job):
    try:
        text = encode(job[0], job[2], job[3], job[1], *job[4:])
    except Refused as no:
        return ["%02x %02x 00000000 00000000 clean" % (no.number, no.reason)]
    return ["00 00 00000000 %08x clean" % len(text), "%02x%s" % (job[0], text.hex())]


# The lines of a stored list that were accepted, each with its listing.
def accepted(given, listings):
    at = 0
    for line in given:
        counts = [int(word, 16) for word in listings[at].split(" ")]
        size = 1 + counts[5] + counts[6]
        if counts[0] == 0:
            yield line, listings[at:at + size]
        at += size
    assert at == len(listings)


# The job of a line and its listing.
def read_back(line, listing):
    script_bytes = bytes.fromhex(line)
    nodes = int(listing[0].split(" ")[5], 16)
    cells = [[int(word, 16) for word in re.findall(r"[0-9a-f]+", row[:-4]) + list(row[-4:])] for row in listing[1:1 + nodes]]
    return script_bytes[0], script_bytes[1:], cells, [int(key, 16) for key in listing[1 + nodes:]]


def stored(name, what):
    rows = open(os.path.join(ROOT, "crates", name, what), "rb").read().split(b"\n")
    return [row.decode("latin1") for row in (rows[:-1] if rows[-1] == b"" else rows)]


# The sample's accepted scripts: line, listing, and the bytes of the crate's own encoder.
def sample():
    rows = []
    for row in open(os.path.join(ROOT, "oracle", "sample.txt")).read().splitlines():
        if row.startswith("="):
            yield rows[0][2:], rows[1:], row[2:]
        rows = [row] if row.startswith(">") else rows + [row]


# A node by its kind's name: a leaf with its own type, any other with the type that is given.
def node(name, size=1, type_="", number=0, count=0, place=0):
    return [KIND[name], number, count, place, size] + [int(digit) for digit in type_ or "%d%d%d%d" % LEAF[name]]


def with_field(given, field, value):
    return [value if at == field else have for at, have in enumerate(given)]


ONE, ZERO = node("True"), node("False")
VERIFIED = [ONE, node("Verify", 2, "3100")]
DUPED = VERIFIED + [node("DupIf", 3, "1410")]
KEY, OTHER, X_ONLY = b"\x02" + 32 * b"\x11", b"\x03" + 32 * b"\x22", 32 * b"\x33"
SIGNED = [node("PkK"), node("Check", 2, "1411")]
CHAIN = [ONE, ONE, node("Verify", 2, "3100"), node("AndV", 4, "1101")]
MULTI, MULTI_A = node("Multi", number=1, count=1), node("MultiA", number=1, count=1)
# and_v(v:thresh(1,0),1): `00518851`, which 42 work entries and 4 bytes are just enough for
FUSED = [ONE, ZERO, node("Thresh", 2, "1111", number=1, count=1), node("Verify", 3, "3100"), node("AndV", 5, "1101")]
# 10,000 bytes: 294 keys of 34 bytes each, three for the number 200 and one
LONGEST = node("MultiA", number=200, count=294)


def tree(*nodes, kind=0, material=b"", keys=(), room=()):
    return (kind, material, list(nodes), list(keys)) + tuple(room)


# What isn't one tree, or has a node that isn't well formed.
def ill_formed():
    yield "no node", tree()
    for kind in (0, 4, 29, 0xff):
        yield "kind %d" % kind, tree(with_field(ONE, 0, kind), material=X_ONLY)
    yield "a leaf of size 2", tree(ONE, with_field(ONE, 4, 2))
    yield "a leaf of size 0", tree(with_field(ONE, 4, 0))
    yield "a wrapper without its child", tree(ONE, node("Verify", 1, "3100"))
    yield "a wrapper of one node too many", tree(ONE, ONE, node("Verify", 3, "3100"))
    yield "a wrapper over nothing", tree(node("Verify", 1, "3100"))
    yield "and_v over one tree", tree(*VERIFIED, node("AndV", 3, "1101"))
    yield "and_or over two trees", tree(ONE, ZERO, node("AndOr", 3, "1201"))
    yield "thresh over one tree that counts two", tree(ZERO, node("Thresh", 2, "1111", number=1, count=2))
    yield "thresh that counts more than any table holds", tree(ZERO, node("Thresh", 2, "1111", number=1, count=0xffffffff))
    for name, size in (("PkK", 33), ("RawPkH", 20), ("Sha256", 32), ("Hash256", 32), ("Ripemd160", 20), ("Hash160", 20)):
        yield name + " one byte past the material", tree(node(name, place=1), material=KEY[:size])
    yield "a tapscript key one byte past the material", tree(node("PkK", place=1), kind=1, material=X_ONLY)
    yield "a key at the last place that a number can name", tree(node("PkK", place=0xffffffff), material=KEY)
    yield "multi with more keys than the key table", tree(with_field(MULTI, 2, 2), material=KEY, keys=[0])
    yield "multi behind the key table", tree(with_field(MULTI, 3, 1), material=KEY, keys=[0])
    yield "multi far behind the key table", tree(with_field(MULTI, 3, 0xffffffff), material=KEY, keys=[0])
    yield "multi_a with more keys than the key table", tree(with_field(MULTI_A, 2, 2), kind=1, material=X_ONLY, keys=[0])
    yield "a key offset of multi one byte past the material", tree(MULTI, material=KEY, keys=[1])
    yield "a key offset of multi_a one byte past the material", tree(MULTI_A, kind=1, material=X_ONLY, keys=[1])
    yield "the second key offset", tree(with_field(MULTI, 2, 2), material=KEY, keys=[0, 0xffffffff])
    for field, what in ((1, "number"), (2, "count"), (3, "place")):
        yield "1 with a " + what, tree(with_field(ONE, field, 1), material=KEY)
        yield "v: with a " + what, tree(ONE, with_field(VERIFIED[1], field, 1), material=KEY)
    yield "a key with a number", tree(with_field(SIGNED[0], 1, 1), SIGNED[1], material=KEY)
    yield "older with a count", tree(node("Older", number=1, count=1))
    yield "older with a place", tree(node("Older", number=1, place=1))
    yield "thresh with a place", tree(ZERO, node("Thresh", 2, "1111", number=1, count=1, place=1))
    yield "two roots", tree(ONE, ONE)
    yield "two roots, neither of them B", tree(*VERIFIED, *VERIFIED)
    yield "a zero node behind the tree", tree(ONE, 9 * [0])
    yield "a number behind the last whole node", tree(ONE, room=(WORK, OUT, 1))


# 11, 12, 13: a key's form, a locktime, a threshold.
def ill_valued():
    yield 11, "a key that starts 04", tree(*SIGNED, material=b"\x04" + KEY[1:])
    yield 11, "multi with a second key that starts 01", tree(with_field(MULTI, 2, 2), material=KEY + b"\x01" + KEY[1:], keys=[0, 33])
    yield 11, "multi in tapscript", tree(MULTI, kind=1, material=KEY, keys=[0])
    yield 11, "multi_a in segwit", tree(MULTI_A, material=KEY, keys=[0])
    for name in ("After", "Older"):
        yield 12, name + " 0", tree(node(name))
        yield 12, name + " 2,147,483,648", tree(node(name, number=0x80000000))
    yield 13, "thresh 0 of 1", tree(ZERO, node("Thresh", 2, "1111", count=1))
    yield 13, "thresh 2 of 1", tree(ZERO, node("Thresh", 2, "1111", number=2, count=1))
    yield 13, "thresh 1 of none", tree(node("Thresh", 1, "1111", number=1))
    yield 13, "multi 0 of 1", tree(with_field(MULTI, 1, 0), material=KEY, keys=[0])
    yield 13, "multi 2 of 1", tree(with_field(MULTI, 1, 2), material=KEY, keys=[0])
    yield 13, "multi 1 of none, at the key table's end", tree(node("Multi", number=1, place=1), material=KEY, keys=[0])
    yield 13, "multi 1 of 21", tree(with_field(MULTI, 2, 21), material=KEY, keys=21 * [0])
    yield 13, "multi 1 of none in tapscript", tree(node("Multi", number=1), kind=1)
    yield 13, "multi_a 0 of 1", tree(with_field(MULTI_A, 1, 0), kind=1, material=X_ONLY, keys=[0])
    yield 13, "multi_a 2 of 1", tree(with_field(MULTI_A, 1, 2), kind=1, material=X_ONLY, keys=[0])
    yield 13, "multi_a 1 of none", tree(node("MultiA", number=1), kind=1)
    yield 13, "multi_a 1 of 1,000", tree(with_field(MULTI_A, 2, 1000), kind=1, material=X_ONLY, keys=1000 * [0])


# 14, by its reason.
def ill_typed():
    yield 1, "v: over v:", tree(*VERIFIED, node("Verify", 3, "3100"))
    yield 2, "and_v(1,1)", tree(ONE, ONE, node("AndV", 3, "1101"))
    yield 3, "s:1", tree(ONE, node("Swap", 2, "4301"))
    yield 4, "d: over v: over a key's check", tree(*SIGNED, node("Verify", 3, "3400"), node("DupIf", 4, "1410"), material=KEY)
    yield 5, "j:1", tree(ONE, node("NonZero", 2, "1111"))
    yield 6, "or_d(1,1)", tree(ONE, ONE, node("OrD", 3, "1101"))
    yield 7, "or_b(0,a:1)", tree(ONE, node("Alt", 2, "4301"), ZERO, node("OrB", 4, "1111"))
    yield 8, "or_d(d:v:1,1)", tree(ONE, *DUPED, node("OrD", 5, "1201"))
    yield 9, "thresh(1,v:1)", tree(*VERIFIED, node("Thresh", 3, "1111", number=1, count=1))
    yield 10, "thresh(1,older(1))", tree(node("Older", number=1), node("Thresh", 2, "1111", number=1, count=1))
    yield 11, "thresh(1,1)", tree(ONE, node("Thresh", 2, "1111", number=1, count=1))
    yield 12, "and_or(0,1,v:1)", tree(ONE, *VERIFIED, ZERO, node("AndOr", 5, "1101"))
    for field, what, value in ((5, "base", 2), (6, "input", 2), (7, "d", 1), (8, "u", 0)):
        yield 13, "1 stored with another " + what, tree(with_field(ONE, field, value))
    yield 13, "v:1 stored as no type", tree(ONE, node("Verify", 2, "0000"))


# 20, 19, 1, 17 and 22; and which of two refusals goes before.
def refused_whole():
    yield 20, 0, "kind 2", tree(ONE, kind=2, material=b"\x51")
    yield 20, 0, "kind 255, before all else", tree(kind=255, room=(0, 0, 0))
    yield 19, 0, "v:1", tree(*VERIFIED)
    yield 19, 0, "a key", tree(node("PkK"), material=KEY)
    yield 19, 0, "a:1", tree(ONE, node("Alt", 2, "4301"))
    longer = [LONGEST, node("ZeroNotEqual", 2, "1311")]
    longest = dict(kind=1, material=X_ONLY, keys=294 * [0])
    yield 1, 0, "10,001 bytes", tree(*longer, **longest)
    yield 1, 0, "10,001 bytes, before 17 and 22", tree(*longer, **longest, room=(0, 0, 0))
    yield 19, 0, "19 before 1", tree(*longer, node("Verify", 3, "3300"), **longest)
    yield 17, 0, "one work entry too few", tree(*FUSED, room=(41, OUT, 0))
    yield 17, 0, "no work, before 22", tree(ONE, room=(0, 0, 0))
    yield 22, 0, "one byte too few", tree(*FUSED, room=(42, 3, 0))
    yield 22, 0, "no output", tree(ONE, room=(10, 0, 0))
    yield 21, 0, "21 before 11", tree(with_field(SIGNED[0], 1, 1), material=33 * b"\x04")
    yield 11, 0, "11 before 13", tree(with_field(MULTI, 1, 0), material=33 * b"\x04", keys=[0])
    yield 12, 0, "12 before 14", tree(node("Older", type_="1111"))
    yield 13, 0, "13 before 14", tree(*VERIFIED, node("Thresh", 3, "1111", number=2, count=1))
    yield 14, 1, "the first node's 14 before the next one's 21", tree(ONE, node("Check", 2, "1111"), with_field(ONE, 0, 0))
    yield 21, 0, "the first node's 21 before the next one's 14", tree(with_field(ONE, 1, 1), with_field(ONE, 8, 0))
    yield 14, 13, "a node's 14 before the roots", tree(ONE, with_field(ONE, 8, 0), room=(WORK, OUT, 1))


# Accepted, with the script that it has to be.
def well_formed():
    key, x_only = "21" + KEY.hex(), "20" + X_ONLY.hex()
    # tables of just the sizes that are needed
    yield "51", tree(ONE, room=(10, 1, 0))
    yield "00518851", tree(*FUSED, room=(42, 4, 0))
    yield x_only + "ac" + 293 * (x_only + "ba") + "02c8009c", tree(LONGEST, kind=1, material=X_ONLY, keys=294 * [0], room=(10, OUT, 0))
    # and_v nested to the right, which the reader would nest to the left
    yield "5169516951", tree(*CHAIN, *VERIFIED, node("AndV", 7, "1101"))
    # keys from one place of the material, another than they have in the script
    chained = [node("Multi", number=1, count=2), with_field(SIGNED[0], 3, 1), SIGNED[1], node("Verify", 3, "3400"), node("AndV", 5, "1501")]
    yield key + "ad51" + key + key + "52ae", tree(*chained, material=b"\xff" + KEY, keys=[1, 1])
    # the fused forms of CHECKMULTISIG and NUMEQUAL; CHECKSIG's and EQUAL's are above; and none behind ENDIF
    yield "51" + key + "51af51", tree(ONE, MULTI, node("Verify", 2, "3500"), node("AndV", 4, "1501"), material=KEY, keys=[0])
    yield x_only + "ac519d51", tree(ONE, MULTI_A, node("Verify", 2, "3300"), node("AndV", 4, "1301"), kind=1, material=X_ONLY, keys=[0])
    yield "63516700686951", tree(ONE, ZERO, ONE, node("OrI", 3, "1211"), node("Verify", 4, "3200"), node("AndV", 6, "1201"))


# The jobs made by hand; what is stated beside each has to be what the encoder here says.
def by_hand():
    for text, job in well_formed():
        assert answered(job)[1:] == ["%02x%s" % (job[0], text)], text
        yield job
    cases = [(21, 0) + case for case in ill_formed()] + [(case[0], 0) + case[1:] for case in ill_valued()]
    for stated, reason, what, job in cases + [(14,) + case for case in ill_typed()] + list(refused_whole()):
        assert answered(job) == ["%02x %02x 00000000 00000000 clean" % (stated, reason)], what
        yield job


# Lines that the reader accepts, with their listings.
def lines():
    for name in ("counter", "vectors", "limits", "refusals"):
        yield from accepted(stored(name, "stdin"), stored(name, "stdout"))
    # NUMEQUAL VERIFY, which the reader takes in both spellings
    for line in ("0120" + X_ONLY.hex() + "ac519c6951", "0120" + X_ONLY.hex() + "ac519d51"):
        yield line, second_reader.answer(line.encode()).splitlines()
    for i, (line, listing, own) in enumerate(sample()):
        assert answered(read_back(line, listing))[1:] == [line[:2] + own], line
        if i % SHOWN == 0:
            yield line, listing


def lists():
    given, expected, kinds = [], [], set()
    for line, listing in lines():
        job = read_back(line, listing)
        told = answered(job)
        assert told[1:] == [line.lower().replace("9c69", "9d") if job[0] == 1 else line.lower()], line
        kinds.update(cells[0] for cells in job[2])
        given += [line] + listing
        expected += told
    assert kinds == set(NAME) - {KIND["PkH"]}
    for job in by_hand():
        given += asked(job)
        expected += answered(job)
    return {"stdin": given, "stdout": expected}


def main():
    bad = 0
    for name, rows in lists().items():
        path = os.path.join(ROOT, "crates", "rewrite", name)
        text = "".join(row + "\n" for row in rows)
        if "--check" not in sys.argv:
            open(path, "w").write(text)
        elif open(path).read() != text:
            bad += 1
            print("%s: not what the jobs say" % path)
    sys.exit(bad != 0)


if __name__ == "__main__":
    main()
