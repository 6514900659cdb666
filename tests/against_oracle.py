#!/usr/bin/env python3
"""Listings held against the crate's own text: against_oracle.py LINES LISTINGS ORACLE_LISTINGS

LISTINGS is what the program or the second reader writes for LINES, ORACLE_LISTINGS what the oracle writes. Compared: number,
reason, tokens, steps, and the tree with its key and hash bytes. The crate has no places and no table limits: places are used to
find the bytes, and a line that is refused for want of room (15, 16, 17) is passed over. Ends with `N compared, M different`.
"""
import sys


# one listing off the front of some lines: header, nodes, key offsets
def listing(rows):
    head = next(rows).split(" ")
    nodes = [next(rows).split(" ") for _ in range(int(head[5], 16))]
    return head, nodes


def data(script, node, keys):
    kind, count, place = int(node[0], 16), int(node[2], 16), int(node[3], 16)
    size = {5: 20, 8: 32, 9: 32, 10: 20, 11: 20}.get(kind)
    if kind == 3:
        size = 33 if script[0] == 0 else 32
    if size:
        return [script[1 + place:1 + place + size].hex()]
    if kind in (27, 28):
        return [script[1 + k:1 + k + (33 if kind == 27 else 32)].hex() for k in keys[place:place + count]]
    return []


def main():
    lines, ours, theirs = (open(name).read().split("\n") for name in sys.argv[1:4])
    ours, theirs = iter(ours), iter([row for row in theirs if not row.startswith("=")])
    compared = different = 0
    for line in lines[:-1]:
        head, nodes = listing(ours)
        keys = [int(next(ours), 16) for _ in range(int(head[6], 16))]
        their_head, their_nodes = listing(theirs)
        if int(head[0], 16) in (15, 16, 17):
            continue
        compared += 1
        head[2] = their_head[2]
        script = bytes.fromhex(line) if int(head[0], 16) != 23 else b""
        seen = [n[:3] + ["--------"] + n[4:] + ([",".join(data(script, n, keys))] if data(script, n, keys) else []) for n in nodes]
        if head[:2] + head[3:] != their_head[:2] + their_head[3:] or seen != their_nodes:
            different += 1
            print(line, head, seen, their_head, their_nodes)
    print("%d compared, %d different" % (compared, different))
    sys.exit(different != 0)


main()
