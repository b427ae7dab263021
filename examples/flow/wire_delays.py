#!/usr/bin/env python3
"""Prints the delay of each register's wire in a report.

That is the length of all edges from the source down to the register, times the table's wire delay.
The delays stand in place of the arrivals, so arrivals_to_sdc.py reads the text.
"""
from fractions import Fraction

from tables import Table
from texts import Parser, fail, parts_of, run, tick_of


def wires_of(path):
    """The period, the registers' names, and how much wire leads to each node of a report."""
    parts = parts_of(path, "a report, as synth prints it", "period", "registers", "merges", "nodes")
    try:
        lengths = {int(edge[0]): Fraction(edge[3]) for edge in parts["nodes"]}
        root = len(lengths) - 1
        wires = {root: lengths[root]}
        for words in reversed(parts["merges"]):
            node, first, second = map(int, words[:3])
            wires[first] = wires[node] + lengths[first]
            wires[second] = wires[node] + lengths[second]
    except (ValueError, IndexError, KeyError, ZeroDivisionError):
        fail(path, "its merges and its nodes aren't those of a tree")
    return parts["period"][1], [words[0] for words in parts["registers"]], wires


def main():
    parser = Parser(description=__doc__)
    parser.add_argument("report", metavar="REPORT.cts")
    parser.add_argument("table", metavar="TABLE.toml")
    words = parser.parse_args()
    period, names, wires = wires_of(words.report)
    delay = Table(words.table).wire_delay()
    if length := tick_of(words.table):
        print(f"# tick {length}")
    print(f"period {period}\nregisters {len(names)}")
    for number, name in enumerate(names):
        print(name, wires[number] * delay)


if __name__ == "__main__":
    run(main)
