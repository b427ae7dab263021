#!/usr/bin/env python3
"""Prints a Bookshelf placement of a netlist's registers, for whoever has no other.

They stand on a square grid, row by row in the order of their lines, with the source of the clock,
the node CLK, above the middle.
"""
from itertools import count

from bench_to_verilog import statements
from texts import Parser, fail, run


def main():
    parser = Parser(description=__doc__)
    parser.add_argument("netlist", metavar="FILE.bench")
    parser.add_argument("--pitch", type=int, default=20, help="the distance of two, else 20")
    words = parser.parse_args()
    names = [name for kind, name, _ in statements(words.netlist) if kind == "DFF"]
    if not names:
        fail(words.netlist, "there is no register to place")
    side = next(side for side in count() if side * side >= len(names))
    print("UCLA pl 1.0")
    for place, name in enumerate(names):
        print(name, words.pitch * (place % side), words.pitch * (place // side), ": N")
    print("CLK", words.pitch * (side // 2), words.pitch * side, ": N /FIXED")


if __name__ == "__main__":
    run(main)
