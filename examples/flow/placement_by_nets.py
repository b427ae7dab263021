#!/usr/bin/env python3
"""Prints a placer's Bookshelf placement by instances as one by the nets of registers.

A register has a line for each name of the net that its output drives, as mapped_verilog.py has
them: the netlist of cts uses one of these. What is no instance of the netlist, as the pad that the
clock comes from, keeps its line, and gates lose theirs.
"""
from bench_to_verilog import plain
from mapped_verilog import Netlist, add_pins
from texts import Parser, fail, lines_of, run


def main():
    parser = Parser(description=__doc__)
    parser.add_argument("netlist", metavar="NETLIST.v")
    parser.add_argument("placement", metavar="PLACED.pl")
    add_pins(parser)
    words = parser.parse_args()
    netlist = Netlist(words.netlist)
    nets = {name: [] for _, name, _ in netlist.instances}
    for net, instance in netlist.registers(words.pin, words.output).items():
        nets[instance].append(net)
    for line in filter(str.strip, lines_of(words.placement)):
        node, *place = line.split(maxsplit=1)
        if not place:
            fail(words.placement, f"not a line of a placement: {line.strip()[:60]}")
        for name in nets.get(plain(node), [node]):
            print(name, place[0].rstrip("\n"))


if __name__ == "__main__":
    run(main)
