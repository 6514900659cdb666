#!/usr/bin/env python3
"""BIP 379's table of fragments as a program: the script of a text, for segwit (kind 0) or tapscript (kind 1).

    bip379.py VECTORS.md       checks that each vector's script is what the table gives for its text, and writes the program's lines

Written from the restated tables alone; it knows nothing of the reader, the encoder or the crate.
"""
import hashlib
import re
import sys

OP = dict(IF=0x63, NOTIF=0x64, ELSE=0x67, ENDIF=0x68, VERIFY=0x69, TOALTSTACK=0x6b, FROMALTSTACK=0x6c, IFDUP=0x73, DUP=0x76, SWAP=0x7c,
          SIZE=0x82, EQUAL=0x87, EQUALVERIFY=0x88, ZERONOTEQUAL=0x92, ADD=0x93, BOOLAND=0x9a, BOOLOR=0x9b, NUMEQUAL=0x9c,
          NUMEQUALVERIFY=0x9d, RIPEMD160=0xa6, SHA256=0xa8, HASH160=0xa9, HASH256=0xaa, CHECKSIG=0xac, CHECKSIGVERIFY=0xad,
          CHECKMULTISIG=0xae, CHECKMULTISIGVERIFY=0xaf, CHECKLOCKTIMEVERIFY=0xb1, CHECKSEQUENCEVERIFY=0xb2, CHECKSIGADD=0xba)
CLOSED = {OP[name]: OP[name + "VERIFY"] for name in ("EQUAL", "NUMEQUAL", "CHECKSIG", "CHECKMULTISIG")}



# a script is a list of instructions, each a list of bytes
def script(*parts):
    out = []
    for part in parts:
        if isinstance(part, str):
            out.append([OP[part]])
        else:
            out += part
    return out


def push(data):
    return [[len(data)] + list(data)]


def number(n):
    if n <= 16:
        return [[0x50 + n if n else 0]]
    data = n.to_bytes((n.bit_length() + 8) // 8, "little")
    return push(data)


def ripemd160(data):
    try:
        return hashlib.new("ripemd160", data).digest()
    except ValueError:
        return ripemd160_plain(data)


# RIPEMD-160, for machines whose library leaves it out
def ripemd160_plain(data):
    def rol(x, n):
        return ((x << n) | (x >> (32 - n))) & 0xffffffff
    f = [lambda x, y, z: x ^ y ^ z, lambda x, y, z: (x & y) | (~x & z), lambda x, y, z: (x | ~y) ^ z,
         lambda x, y, z: (x & z) | (y & ~z), lambda x, y, z: x ^ (y | ~z)]
    k1, k2 = [0, 0x5a827999, 0x6ed9eba1, 0x8f1bbcdc, 0xa953fd4e], [0x50a28be6, 0x5c4dd124, 0x6d703ef3, 0x7a6d76e9, 0]
    r1 = [list(range(16)), [7, 4, 13, 1, 10, 6, 15, 3, 12, 0, 9, 5, 2, 14, 11, 8], [3, 10, 14, 4, 9, 15, 8, 1, 2, 7, 0, 6, 13, 11, 5, 12],
          [1, 9, 11, 10, 0, 8, 12, 4, 13, 3, 7, 15, 14, 5, 6, 2], [4, 0, 5, 9, 7, 12, 2, 10, 14, 1, 3, 8, 11, 6, 15, 13]]
    r2 = [[5, 14, 7, 0, 9, 2, 11, 4, 13, 6, 15, 8, 1, 10, 3, 12], [6, 11, 3, 7, 0, 13, 5, 10, 14, 15, 8, 12, 4, 9, 1, 2],
          [15, 5, 1, 3, 7, 14, 6, 9, 11, 8, 12, 2, 10, 0, 4, 13], [8, 6, 4, 1, 3, 11, 15, 0, 5, 12, 2, 13, 9, 7, 10, 14],
          [12, 15, 10, 4, 1, 5, 8, 7, 6, 2, 13, 14, 0, 3, 9, 11]]
    s1 = [[11, 14, 15, 12, 5, 8, 7, 9, 11, 13, 14, 15, 6, 7, 9, 8], [7, 6, 8, 13, 11, 9, 7, 15, 7, 12, 15, 9, 11, 7, 13, 12],
          [11, 13, 6, 7, 14, 9, 13, 15, 14, 8, 13, 6, 5, 12, 7, 5], [11, 12, 14, 15, 14, 15, 9, 8, 9, 14, 5, 6, 8, 6, 5, 12],
          [9, 15, 5, 11, 6, 8, 13, 12, 5, 12, 13, 14, 11, 8, 5, 6]]
    s2 = [[8, 9, 9, 11, 13, 15, 15, 5, 7, 7, 8, 11, 14, 14, 12, 6], [9, 13, 15, 7, 12, 8, 9, 11, 7, 7, 12, 7, 6, 15, 13, 11],
          [9, 7, 15, 11, 8, 6, 6, 14, 12, 13, 5, 14, 13, 13, 7, 5], [15, 5, 8, 11, 14, 14, 6, 14, 6, 9, 12, 9, 12, 5, 15, 8],
          [8, 5, 12, 9, 12, 5, 14, 6, 8, 13, 6, 5, 15, 13, 11, 11]]
    h = [0x67452301, 0xefcdab89, 0x98badcfe, 0x10325476, 0xc3d2e1f0]
    data = data + b"\x80" + b"\0" * ((55 - len(data)) % 64) + (8 * len(data)).to_bytes(8, "little")
    for at in range(0, len(data), 64):
        x = [int.from_bytes(data[at + 4 * i:at + 4 * i + 4], "little") for i in range(16)]
        one, two = list(h), list(h)
        for j in range(5):
            for i in range(16):
                for v, fn, k, r, s in ((one, f[j], k1[j], r1[j][i], s1[j][i]), (two, f[4 - j], k2[j], r2[j][i], s2[j][i])):
                    a, b, c, d, e = v
                    t = (rol((a + (fn(b, c, d) & 0xffffffff) + x[r] + k) & 0xffffffff, s) + e) & 0xffffffff
                    v[:] = [e, t, b, rol(c, 10), d]
        h = [(h[1] + one[2] + two[3]) & 0xffffffff, (h[2] + one[3] + two[4]) & 0xffffffff, (h[3] + one[4] + two[0]) & 0xffffffff,
             (h[4] + one[0] + two[1]) & 0xffffffff, (h[0] + one[1] + two[2]) & 0xffffffff]
    return b"".join(v.to_bytes(4, "little") for v in h)


def hash160(data):
    return ripemd160(hashlib.sha256(data).digest())


def parts(text):
    out, depth, start = [], 0, 0
    for i, c in enumerate(text):
        depth += (c == "(") - (c == ")")
        if c == "," and depth == 0:
            out.append(text[start:i])
            start = i + 1
    return out + [text[start:]]


def wrap(letter, x):
    if letter == "a":
        return script("TOALTSTACK", x, "FROMALTSTACK")
    if letter == "s":
        return script("SWAP", x)
    if letter == "c":
        return script(x, "CHECKSIG")
    if letter == "d":
        return script("DUP", "IF", x, "ENDIF")
    if letter == "v":
        return x[:-1] + [[CLOSED[x[-1][0]]]] if len(x[-1]) == 1 and x[-1][0] in CLOSED else script(x, "VERIFY")
    if letter == "j":
        return script("SIZE", "ZERONOTEQUAL", "IF", x, "ENDIF")
    if letter == "n":
        return script(x, "ZERONOTEQUAL")
    if letter == "t":
        return script(x, number(1))
    if letter == "l":
        return script("IF", number(0), "ELSE", x, "ENDIF")
    if letter == "u":
        return script("IF", x, "ELSE", number(0), "ENDIF")
    raise ValueError("no wrapper " + letter)


def encode(text):
    wrapped = re.match(r"([a-z]+):(.*)$", text)
    if wrapped and "(" not in wrapped.group(1):
        x = encode(wrapped.group(2))
        for letter in reversed(wrapped.group(1)):
            x = wrap(letter, x)
        return x
    if text in ("0", "1"):
        return number(int(text))
    name, inside = re.match(r"(\w+)\((.*)\)$", text).groups()
    args = parts(inside)
    if name == "pk_k":
        return push(bytes.fromhex(args[0]))
    if name == "pk":
        return encode("c:pk_k(%s)" % args[0])
    if name == "pk_h":
        return script("DUP", "HASH160", push(hash160(bytes.fromhex(args[0]))), "EQUALVERIFY")
    if name == "pkh":
        return encode("c:pk_h(%s)" % args[0])
    if name in ("older", "after"):
        return script(number(int(args[0])), "CHECKSEQUENCEVERIFY" if name == "older" else "CHECKLOCKTIMEVERIFY")
    if name in ("sha256", "hash256", "ripemd160", "hash160"):
        return script("SIZE", number(32), "EQUALVERIFY", name.upper(), push(bytes.fromhex(args[0])), "EQUAL")
    if name == "multi":
        keys = [push(bytes.fromhex(k)) for k in args[1:]]
        return script(number(int(args[0])), *keys, number(len(keys)), "CHECKMULTISIG")
    if name == "multi_a":
        out = script(push(bytes.fromhex(args[1])), "CHECKSIG")
        for key in args[2:]:
            out += script(push(bytes.fromhex(key)), "CHECKSIGADD")
        return out + script(number(int(args[0])), "NUMEQUAL")
    if name == "thresh":
        out = encode(args[1])
        for arg in args[2:]:
            out += script(encode(arg), "ADD")
        return out + script(number(int(args[0])), "EQUAL")
    x = [encode(arg) for arg in args]
    if name == "andor":
        return script(x[0], "NOTIF", x[2], "ELSE", x[1], "ENDIF")
    if name == "and_n":
        return script(x[0], "NOTIF", number(0), "ELSE", x[1], "ENDIF")
    if name == "and_v":
        return x[0] + x[1]
    if name == "and_b":
        return script(x[0], x[1], "BOOLAND")
    if name == "or_b":
        return script(x[0], x[1], "BOOLOR")
    if name == "or_c":
        return script(x[0], "NOTIF", x[1], "ENDIF")
    if name == "or_d":
        return script(x[0], "IFDUP", "NOTIF", x[1], "ENDIF")
    if name == "or_i":
        return script("IF", x[0], "ELSE", x[1], "ENDIF")
    raise ValueError("no fragment " + name)


def written(text):
    return "".join(bytes(i).hex() for i in encode(text))


# the vectors of a document: a line "kind K", then text and script, each in a code span of its own line
def vectors(document):
    for kind, text, given in re.findall(r"kind (\d)\n\n    (\S+)\n    (\S+)\n", document):
        yield int(kind), text, given


def main():
    bad = 0
    for kind, text, given in vectors(open(sys.argv[1]).read()):
        if written(text) != given:
            bad += 1
            sys.stderr.write("differs: %s\n  the table gives %s\n" % (text, written(text)))
        print("%02x%s" % (kind, given))
    sys.exit(bad != 0)


if __name__ == "__main__":
    main()
