#!/usr/bin/env python3
"""A second reader, apart from the proved one: what the program has to write. Orders, numbers, places and limits are document 01's; the rows and the
type rules follow decode.rs and correctness.rs, so its agreement with the crate's text there is no second opinion on them.

    second_reader.py < lines > listings

It is plain and slow on purpose. The stored lists' expected listings are made with it (tests/lists.py), and those are held against
the crate's own text by tests/against_oracle.py, in everything but places, which the crate doesn't have. tests/reader_cases.py has it
read with other tables than the program's, and shows those whole.
"""
import collections
import sys

# how many tokens, nodes, keys and work entries the lent tables hold
Room = collections.namedtuple("Room", "tokens nodes keys work")
# what an answer says, and what the token, node and key tables then hold at their front
Outcome = collections.namedtuple("Outcome", "number reason place steps tokens nodes keys count")

# the program's tables, the longest script of its lines, and the longest that the reader takes
PROGRAM, LINE, LIMIT = Room(1040, 512, 128, 1024), 520, 10000

# Token's order in lex.rs: a code is the place in this list, from 1
TOKEN = ["", "BoolAnd", "BoolOr", "Add", "Equal", "NumEqual", "CheckSig", "CheckSigAdd", "CheckMultiSig", "CheckSequenceVerify",
         "CheckLockTimeVerify", "FromAltStack", "ToAltStack", "Drop", "Dup", "If", "IfDup", "NotIf", "Else", "EndIf", "ZeroNotEqual",
         "Size", "Swap", "Verify", "Ripemd160", "Hash160", "Sha256", "Hash256", "Num", "Hash20", "Bytes32", "Bytes33", "Bytes65"]
OPCODE = {0x63: "If", 0x64: "NotIf", 0x67: "Else", 0x68: "EndIf", 0x6b: "ToAltStack", 0x6c: "FromAltStack", 0x73: "IfDup",
          0x75: "Drop", 0x76: "Dup", 0x7c: "Swap", 0x82: "Size", 0x87: "Equal", 0x92: "ZeroNotEqual", 0x93: "Add", 0x9a: "BoolAnd",
          0x9b: "BoolOr", 0x9c: "NumEqual", 0xa6: "Ripemd160", 0xa8: "Sha256", 0xa9: "Hash160", 0xaa: "Hash256", 0xac: "CheckSig",
          0xae: "CheckMultiSig", 0xb1: "CheckLockTimeVerify", 0xb2: "CheckSequenceVerify", 0xba: "CheckSigAdd"}
FUSED = {0x88: "Equal", 0x9d: "NumEqual", 0xad: "CheckSig", 0xaf: "CheckMultiSig"}
KIND = {name: i + 1 for i, name in enumerate(
    "True False PkK PkH RawPkH After Older Sha256 Hash256 Ripemd160 Hash160 Alt Swap Check DupIf Verify NonZero ZeroNotEqual "
    "AndV AndB AndOr OrB OrD OrC OrI Thresh Multi MultiA".split())}
B, K, V, W = 1, 2, 3, 4
ZERO, ONE, ANY, ONENZ, ANYNZ = 1, 2, 3, 4, 5


class No(Exception):
    def __init__(self, number, place=0, reason=0):
        self.number, self.place, self.reason = number, place, reason


# Bytes to tokens: (name, number, place), or a refusal.
def lex(script, room):
    out, at = [], 0
    while at < len(script):
        b, here, last = script[at], at, out[-1][0] if out else ""
        new = []
        if b <= 0x4e:
            n, head = b, 1
            if b > 0x4b:
                width, least = {0x4c: (1, 76), 0x4d: (2, 256), 0x4e: (4, 65536)}[b]
                head = 1 + width
                if len(script) < at + head:
                    raise No(2, here)
                n = int.from_bytes(script[at + 1:at + head], "little")
                if n < least:
                    raise No(3, here)
            data = script[at + head:at + head + n]
            if n == 1 and data and (1 <= data[0] <= 16 or data[0] == 0x81):
                raise No(3, here)
            if len(data) < n:
                raise No(2, here)
            at += head + n
            if n in (20, 32, 33, 65):
                new = [({20: "Hash20", 32: "Bytes32", 33: "Bytes33", 65: "Bytes65"}[n], 0, here)]
            elif n > 4:
                raise No(4, here)
            else:
                if n and data[-1] & 0x7f == 0 and (n == 1 or data[-2] < 128):
                    raise No(4, here)
                if n and data[-1] & 0x80:
                    raise No(5, here)
                new = [("Num", int.from_bytes(data, "little"), here)]
        else:
            at += 1
            if 0x51 <= b <= 0x60:
                new = [("Num", b - 0x50, here)]
            elif b == 0x69:
                if last in ("Equal", "CheckSig", "CheckMultiSig"):
                    raise No(7, here)
                new = [("Verify", 0, here)]
            elif b in FUSED:
                new = [(FUSED[b], 0, here), ("Verify", 0, here)]
            elif b in OPCODE:
                new = [(OPCODE[b], 0, here)]
            else:
                raise No(6, here)
        if len(out) + len(new) > room:
            raise No(8, here)
        out += new
    return out


# The type rules: a type is (base, input, d, u), or a reason is raised.
class Reason(Exception):
    pass


def need(fact, reason):
    if not fact:
        raise Reason(reason)


def and_input(x, y):
    if ZERO in (x, y):
        other = y if x == ZERO else x
        if other in (ZERO, ONE, ONENZ) or (x == ZERO and y == ANYNZ):
            return other
    return ANYNZ if x in (ONENZ, ANYNZ) else ANY


def is_one(i):
    return i in (ONE, ONENZ)


def cast(kind, x):
    base, i, d, u = x
    if kind == "Alt":
        need(base == B, 1)
        return (W, ANY, d, u)
    if kind == "Swap":
        need(base == B, 1)
        need(is_one(i), 3)
        return (W, ANY, d, u)
    if kind == "Check":
        need(base == K, 1)
        return (B, i, d, 1)
    if kind == "DupIf":
        need(base == V, 1)
        need(i == ZERO, 4)
        return (B, ONENZ, 1, 0)
    if kind == "Verify":
        need(base == B, 1)
        return (V, i, 0, 0)
    if kind == "NonZero":
        need(i in (ONENZ, ANYNZ), 5)
        need(base == B, 1)
        return (B, i, 1, u)
    if kind == "ZeroNotEqual":
        need(base == B, 1)
        return (B, i, d, 1)


def combine(kind, x, z):
    (xb, xi, xd, xu), (zb, zi, zd, zu) = x, z
    if kind == "AndB":
        need((xb, zb) == (B, W), 2)
        return (B, and_input(xi, zi), xd & zd, 1)
    if kind == "AndV":
        need(xb == V and zb in (B, K, V), 2)
        return (zb, and_input(xi, zi), 0, zu)
    if kind == "OrB":
        need(xd, 6)
        need(zd, 7)
        need((xb, zb) == (B, W), 2)
        i = ZERO if xi == zi == ZERO else ONE if (xi == ZERO and is_one(zi)) or (is_one(xi) and zi == ZERO) else ANY
        return (B, i, 1, 1)
    if kind in ("OrD", "OrC"):
        need(xd, 6)
        need(xu, 8)
        need((xb, zb) == (B, B if kind == "OrD" else V), 2)
        i = ZERO if xi == zi == ZERO else ONE if is_one(xi) and zi == ZERO else ANY
        return (B, i, zd, zu) if kind == "OrD" else (V, i, 0, 0)
    if kind == "OrI":
        need(xb == zb and xb in (B, K, V), 2)
        return (xb, ONE if xi == zi == ZERO else ANY, xd | zd, xu & zu)


def and_or(x, y, z):
    need(x[2], 6)
    need(x[3], 8)
    need(x[0] == B and y[0] == z[0] and y[0] in (B, K, V), 12)
    ins = (x[1], y[1], z[1])
    one = (ins[0] == ZERO and is_one(ins[1]) and is_one(ins[2])) or (is_one(ins[0]) and ins[1] == ins[2] == ZERO)
    return (y[0], ZERO if ins == (ZERO, ZERO, ZERO) else ONE if one else ANY, z[2], y[3] & z[3])


def threshold(children):
    args = 0
    for i, (base, inp, d, u) in enumerate(children):
        args += {ZERO: 0, ONE: 1, ONENZ: 1, ANY: 2, ANYNZ: 2}[inp]
        need(base == (B if i == 0 else W), 9)
        need(u, 10)
        need(d, 11)
    return (B, (ZERO, ONE, ANY)[min(args, 2)], 1, 1)


LEAF = {"True": (1, 1, 0, 1), "False": (1, 1, 1, 1), "PkK": (2, 4, 1, 1), "RawPkH": (2, 5, 1, 1), "After": (1, 1, 0, 0),
        "Older": (1, 1, 0, 0), "Sha256": (1, 4, 1, 1), "Hash256": (1, 4, 1, 1), "Ripemd160": (1, 4, 1, 1), "Hash160": (1, 4, 1, 1),
        "Multi": (1, 5, 1, 1), "MultiA": (1, 3, 1, 1)}
HASHES = {"Hash20": ("Ripemd160", "Hash160"), "Bytes32": ("Sha256", "Hash256")}


class Reader:
    def __init__(self, kind, script, tokens, room):
        self.kind, self.script, self.tokens, self.left, self.room = kind, script, tokens, len(tokens), room
        self.work, self.nodes, self.keys, self.steps = [], [], [], 0

    # the place of the last token taken, 0 if none
    def place(self):
        return self.tokens[self.left][2] if self.left < len(self.tokens) else 0

    def no(self, number, reason=0):
        raise No(number, self.place(), reason)

    def next(self):
        if self.left == 0:
            raise No(9)
        self.left -= 1
        return self.tokens[self.left]

    def back(self):
        self.left += 1

    def take(self, *names):
        token = self.next()
        if token[0] not in names:
            self.no(10)
        return token

    def is_and_v(self):
        return self.left > 0 and self.tokens[self.left - 1][0] not in ("If", "NotIf", "Else", "ToAltStack", "Swap")

    def push(self, *entries):
        if len(self.work) + len(entries) > self.room.work:
            self.no(17)
        self.work += entries

    # the newest finished subtrees, as types, and where the first of them starts
    def newest(self, n):
        at, types = len(self.nodes), []
        for _ in range(n):
            root = self.nodes[at - 1]
            types.append(root[5:])
            at -= root[4]
        return types, at

    def node(self, kind, type_, size=1, number=0, count=0, place=0):
        if len(self.nodes) >= self.room.nodes:
            self.no(15)
        self.nodes.append((KIND[kind], number, count, place, size) + type_)

    def leaf(self, kind, **fields):
        self.node(kind, LEAF[kind], **fields)

    def reduce(self, kind, n, rule, **fields):
        types, at = self.newest(n)
        try:
            made = rule(types)
        except Reason as r:
            self.no(14, r.args[0])
        self.node(kind, made, size=len(self.nodes) - at + 1, **fields)

    # a push that was taken as a key: its offset
    def key(self, token):
        at = token[2] + 1
        good = token[0] == "Bytes33" and self.script[at] in (2, 3) if self.kind == 0 else token[0] == "Bytes32"
        if not good:
            self.no(11)
        return at

    def multi(self, kind, k, n_most, keys):
        if not 1 <= k <= len(keys) <= n_most:
            self.no(13)
        if len(self.keys) + len(keys) > self.room.keys:
            self.no(16)
        self.leaf(kind, number=k, count=len(keys), place=len(self.keys))
        self.keys += reversed(keys)

    # SIZE 32 EQUALVERIFY before the hash's opcode, read backwards; `closed` says that VERIFY came behind
    def hash_lock(self, name, token, closed):
        self.take("Verify")
        self.take("Equal")
        if self.take("Num")[1] != 32:
            self.no(10)
        self.take("Size")
        self.leaf(name, place=token[2] + 1)
        if closed:
            self.push("Verify")

    # after Equal, or after Verify and Equal (closed)
    def equal(self, closed):
        token = self.next()
        if token[0] in HASHES:
            name = self.take(*HASHES[token[0]])[0]
            if closed and name == "Hash160" and self.left and self.tokens[self.left - 1][0] == "Dup":
                self.next()
                self.leaf("RawPkH", place=token[2] + 1)
            else:
                self.hash_lock(name, token, closed)
        elif token[0] == "Num":
            self.push(*(["Verify"] if closed else []), ("ThreshW", token[1], 0))
        else:
            self.no(10)

    def expression(self):
        token = self.next()
        name = token[0]
        if name in ("Bytes33", "Bytes65", "Bytes32"):
            self.leaf("PkK", place=self.key(token))
        elif name == "CheckSig":
            self.push("Check", "Expression")
        elif name == "Verify":
            if self.next()[0] == "Equal":
                self.equal(True)
            else:
                self.back()
                self.push("Verify", "Expression")
        elif name == "ZeroNotEqual":
            self.push("ZeroNotEqual", "Expression")
        elif name in ("CheckSequenceVerify", "CheckLockTimeVerify"):
            n = self.take("Num")[1]
            if not 1 <= n <= 2147483647:
                self.no(12)
            self.leaf("Older" if name == "CheckSequenceVerify" else "After", number=n)
        elif name == "Equal":
            self.equal(False)
        elif name == "Num" and token[1] in (0, 1):
            self.leaf("True" if token[1] else "False")
        elif name == "EndIf":
            self.push("EndIf", "MaybeAndV", "Expression")
        elif name in ("BoolAnd", "BoolOr"):
            self.push("AndB" if name == "BoolAnd" else "OrB", "Expression", "WExpression")
        elif name == "CheckMultiSig":
            n = self.take("Num")[1]
            if not 1 <= n <= 20:
                self.no(13)
            keys = [self.key(self.take("Bytes33", "Bytes65")) for _ in range(n)]
            self.multi("Multi", self.take("Num")[1], 20, keys)
        elif name == "NumEqual":
            k = self.take("Num")[1]
            if not 1 <= k <= 999:
                self.no(13)
            keys = []
            while self.left and self.tokens[self.left - 1][0] == "CheckSigAdd":
                self.next()
                keys.append(self.key(self.take("Bytes32")))
            self.take("CheckSig")
            keys.append(self.key(self.take("Bytes32")))
            self.multi("MultiA", k, 999, keys)
        else:
            self.no(10)

    def step(self):
        entry = self.work.pop()
        self.steps += 1
        name = entry if isinstance(entry, str) else entry[0]
        if name == "Expression":
            self.expression()
        elif name == "MaybeAndV":
            if self.is_and_v():
                self.push("AndV", "Expression")
        elif name in ("Swap", "Alt"):
            self.take("Swap" if name == "Swap" else "ToAltStack")
            self.reduce(name, 1, lambda t: cast(name, t[0]))
        elif name in ("Check", "DupIf", "Verify", "NonZero", "ZeroNotEqual"):
            self.reduce(name, 1, lambda t: cast(name, t[0]))
        elif name == "AndV" and self.is_and_v():
            self.push("AndV", "MaybeAndV")
        elif name in ("AndV", "AndB", "OrB", "OrC", "OrD"):
            self.reduce(name, 2, lambda t: combine(name, t[0], t[1]))
        elif name == "Tern":
            self.reduce("AndOr", 3, lambda t: and_or(t[0], t[2], t[1]))
        elif name == "ThreshW":
            _, k, n = entry
            if self.next()[0] == "Add":
                self.push(("ThreshW", k, n + 1), "WExpression")
            else:
                self.back()
                self.push(("ThreshE", k, n + 1), "Expression")
        elif name == "ThreshE":
            _, k, n = entry
            if not 1 <= k <= n:
                self.no(13)
            self.reduce("Thresh", n, threshold, number=k, count=n)
        elif name == "EndIf":
            token = self.take("Else", "If", "NotIf")[0]
            if token == "Else":
                self.push("EndIfElse", "MaybeAndV", "Expression")
            elif token == "NotIf":
                self.push("EndIfNotIf")
            elif self.take("Dup", "ZeroNotEqual")[0] == "Dup":
                self.push("DupIf")
            else:
                self.take("Size")
                self.push("NonZero")
        elif name == "EndIfNotIf":
            if self.next()[0] == "IfDup":
                self.push("OrD", "Expression")
            else:
                self.back()
                self.push("OrC", "Expression")
        elif name == "EndIfElse":
            if self.take("If", "NotIf")[0] == "If":
                self.reduce("OrI", 2, lambda t: combine("OrI", t[0], t[1]))
            else:
                self.push("Tern", "Expression")
        elif name == "WExpression":
            if self.next()[0] == "FromAltStack":
                self.push("Alt", "MaybeAndV", "Expression")
            else:
                self.back()
                self.push("Swap", "MaybeAndV", "Expression")

    def run(self):
        self.push("MaybeAndV", "Expression")
        while self.work:
            self.step()
        if self.left:
            raise No(18, self.tokens[self.left - 1][2])
        if self.nodes[-1][5] != B:
            raise No(19)


def refused(no, count=0, steps=0):
    return Outcome(no.number, no.reason, no.place, steps, [], [], [], count)


# The reader: the answer, and what stands at the front of the tables, nothing after a refusal.
def read(kind, script, room):
    if kind > 1:
        return refused(No(20))
    if len(script) > LIMIT:
        return refused(No(1))
    try:
        tokens = lex(script, room.tokens)
    except No as no:
        return refused(no)
    reader = Reader(kind, script, tokens, room)
    try:
        reader.run()
    except No as no:
        return refused(no, len(tokens), reader.steps)
    return Outcome(0, 0, 0, reader.steps, tokens, reader.nodes, reader.keys, len(tokens))


def header(o):
    return "%02x %02x %08x %08x %08x %08x %08x\n" % (o.number, o.reason, o.place, o.count, o.steps, len(o.nodes), len(o.keys))


def listing(o):
    nodes = "".join("%02x %08x %08x %08x %08x %x%x%x%x\n" % n for n in o.nodes)
    return header(o) + nodes + "".join("%08x\n" % k for k in o.keys)


def answer(line):
    if not line or len(line) % 2 or any(c not in b"0123456789abcdefABCDEF" for c in line):
        return header(refused(No(23)))
    data = bytes.fromhex(line.decode())
    if data[0] <= 1 and len(data) > 1 + LINE:
        return header(refused(No(1)))
    return listing(read(data[0], data[1:], PROGRAM))


def main():
    lines = sys.stdin.buffer.read().split(b"\n")
    if lines[-1] == b"":
        lines.pop()
    sys.stdout.write("".join(answer(line) for line in lines))


if __name__ == "__main__":
    main()
