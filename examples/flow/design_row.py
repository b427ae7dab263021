#!/usr/bin/env python3
"""Prints what useful skew does for a design, as a row of a table in Markdown.

The row has the NAME, registers, gates, the least period at equal arrivals, the least period with
skew, the wire at both, and the margin that skew gives to every check at the period of equal
arrivals. Times are in the unit of --unit, lengths in that of the placement. With --head prints the
first two lines of the table.
"""
from math import ceil

from bench_to_verilog import statements
from texts import UNITS, Parser, common_tick, decimal, fail, run, tick
from wire_by_period import CTS, answer, number, wires

HEAD = ("Design", "Registers", "Gates", "Equal arrivals", "Skew", "Wire", "Wire with skew",
        "Margin")


def row(words):
    circuit = ("--bench", words.netlist, "--tech", words.table)
    found = answer(words.cts, "period", *circuit)
    if found[1] == "zero none":
        fail(words.netlist, "no period will do where the clock reaches all registers at once")
    zero, period = number(found, "zero"), number(found, "period")
    margin = number(answer(words.cts, "margin", *circuit, "--period", str(zero)), "margin")
    kinds = [kind for kind, _, reads in statements(words.netlist) if reads]
    registers = kinds.count("DFF")
    (_, equal), (_, skewed) = wires(words, [int(zero), ceil(period)])
    length = common_tick([words.table, words.netlist], words.tick).count(words.unit)
    times = (decimal(time * length, 0) for time in (zero, period, margin))
    zero, period, margin = times
    lengths = (decimal(wire, 0) for wire in (equal, skewed))
    return words.name, registers, len(kinds) - registers, zero, period, *lengths, margin


def main():
    parser = Parser(description=__doc__)
    parser.add_argument("name", metavar="NAME", nargs="?")
    parser.add_argument("netlist", metavar="NETLIST.bench", nargs="?")
    parser.add_argument("table", metavar="TABLE.toml", nargs="?")
    parser.add_argument("placement", metavar="PLACED.pl", nargs="?")
    parser.add_argument("--head", action="store_true", help="print the head of the table")
    parser.add_argument("--tick", type=tick, help="how long a tick is, else 1ps")
    parser.add_argument("--unit", choices=UNITS, default="ps", help="the unit of times, else ps")
    parser.add_argument("--cts", default=CTS, metavar="PROGRAM")
    words = parser.parse_args()
    if words.head:
        print("|", " | ".join(HEAD), "|")
        print("|" + "---|" * len(HEAD))
    elif words.placement:
        print("|", " | ".join(map(str, row(words))), "|")
    else:
        parser.error("it takes a name, a netlist, a table and a placement")


if __name__ == "__main__":
    run(main)
