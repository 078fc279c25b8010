#!/usr/bin/env python3
"""Makes the duplicate filter: writes to standard output what the program `share` reads, a word with the flattening limit and the image.
(Every entry takes the same bytes as an image: bytes ahead of the first record are a prefix.)

The filter follows one meter. Inputs: i0 a telegram is here, then ID bits of the meter's identity, then the 8 bits of its access number,
lowest first. Outputs: o0 new, o1 duplicate; both are zero where no telegram is here or it is another meter's.
The first telegram teaches the identity. A later one of that identity is new if its access number is ahead of the last new one's:
greater, but not from the lowest quarter to the highest (a late repeat from before the wrap); or it has wrapped, from the highest
quarter to the lowest. Every new one's number is remembered."""
import struct
import sys

sys.dont_write_bytecode = True
from netlist import Net, AND, AND2, DFF, XOR, XOR2, input_, node

LIMIT = 64
ID = 4
BITS = 8


def build():
    net = Net(1 + ID + BITS)
    here = input_(0)
    ids = [input_(1 + k) for k in range(ID)]
    number = [input_(1 + ID + k) for k in range(BITS)]
    # the gates that flip-flops wait for, by their number
    known, first, new = node(0), node(27), node(46)
    # what was seen: whether anything was, the identity, the last number
    net.add(DFF, 1, first, 0)
    seen_ids = [net.add(DFF, s, first, 0) for s in ids]
    seen = [net.add(DFF, s, new, 0) for s in number]
    # where the telegram differs from it
    other = [net.add(XOR2, s, t) for s, t in zip(ids, seen_ids)]
    differ = [net.add(XOR2, s, t) for s, t in zip(number, seen)]
    same = net.add(AND, *[s ^ 1 for s in other])
    there = net.add(AND2, here, known)
    assert net.add(AND2, here, known ^ 1) == first
    mine = net.add(AND2, there, same)
    # greater, bit k being the highest that differs: equal above it, a one against a zero there
    far = net.add(AND2, number[6], differ[6])
    equal = same
    ahead = [net.add(AND, there, equal, number[7], differ[7], far ^ 1)]
    for k in range(6, -1, -1):
        equal = net.add(AND2, equal, differ[k + 1] ^ 1)
        ahead.append(net.add(AND, there, equal, number[k], differ[k]))
    wrapped = net.add(AND, there, same, number[7] ^ 1, number[6] ^ 1, seen[7], seen[6])
    # no two of these are one at once, so that Xor does for Or
    assert net.add(XOR, first, wrapped, *ahead) == new
    duplicate = net.add(XOR, mine, wrapped, *ahead)
    net.outputs = [new, duplicate]
    return net


if __name__ == "__main__":
    sys.stdout.buffer.write(struct.pack("<I", LIMIT) + build().image())
