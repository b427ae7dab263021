#!/usr/bin/env python3
"""Prints a netlist as Verilog, of the cells of table_to_liberty.py.

An instance has the name of the signal that it drives, and a wire or a port that of the signal. The
clock comes in by the port 'clock'; a signal of that name has a wire of another, that is free. An
output that is an input too gets a port of its own, with '_out' behind the name, or what else is
free.
"""
import re
from itertools import chain, count

from texts import Parser, fail, lines_of, run

CLOCK = "clock"


def statements(path):
    """(KIND, NAME, inputs) for each line: INPUT, OUTPUT, DFF or a gate's kind. BUF is BUFF."""
    for number, line in enumerate(lines_of(path), 1):
        line = line.split("#")[0].strip()
        port = re.fullmatch(r"(INPUT|OUTPUT)\s*\(\s*(\S+)\s*\)", line, re.IGNORECASE)
        gate = re.fullmatch(r"(\S+)\s*=\s*(\w+)\s*\((.*)\)", line)
        if port:
            yield port[1].upper(), port[2], []
        elif gate:
            kind = gate[2].upper()
            reads = [name.strip() for name in gate[3].split(",")]
            yield "BUFF" if kind == "BUF" else kind, gate[1], reads
        elif line:
            fail(path, f"line {number} is not one of a netlist: {line[:60]}")


class Names:
    """The ports of a netlist, and the name of each signal's wire."""

    def __init__(self, netlist):
        self.inputs = list(dict.fromkeys(name for kind, name, _ in netlist if kind == "INPUT"))
        self.outputs = list(dict.fromkeys(name for kind, name, _ in netlist if kind == "OUTPUT"))
        signals = dict.fromkeys(name for _, *names, reads in netlist for name in names + reads)
        self.taken = {CLOCK, *map(plain, signals)}
        self.wires = {name: self.wire(plain(name)) for name in signals}
        inputs = set(self.inputs)
        self.passed = {name: self.free(f"{plain(name)}_out") for name in self.outputs
                       if name in inputs}

    def wire(self, name):
        return self.free(f"{name}_1") if name == CLOCK else name

    def free(self, name):
        """A name that nothing has: the given one, or one with a number behind it."""
        names = chain([name], (f"{name}_{number}" for number in count(2)))
        name = next(name for name in names if name not in self.taken)
        self.taken.add(name)
        return name


def plain(name):
    """A name without the backslash in front, which is Verilog's mark."""
    return name.removeprefix("\\")


def escaped(name):
    """A name as Verilog's escaped identifier. A backslash in front is that mark already."""
    return "\\" + plain(name) + " "


def print_instance(kind, name, reads, wires):
    output = escaped(wires[name])
    reads = [escaped(wires[read]) for read in reads]
    if kind == "DFF":
        print(f"  DFF {escaped(name)} (.CK({CLOCK}), .D({reads[0]}), .Q({output}));")
    else:
        pins = "".join(f".A{place}({read}), " for place, read in enumerate(reads, 1))
        print(f"  {kind}{len(reads)} {escaped(name)} ({pins}.Z({output}));")


def main():
    parser = Parser(description=__doc__)
    parser.add_argument("netlist", metavar="FILE.bench")
    netlist = list(statements(parser.parse_args().netlist))
    names = Names(netlist)
    inputs = [CLOCK] + [names.wires[name] for name in names.inputs]
    outputs = [names.passed.get(name, names.wires[name]) for name in names.outputs]
    print(f"module top ({', '.join(map(escaped, inputs + outputs))});")
    for port in inputs:
        print(f"  input {escaped(port)};")
    for port in outputs:
        print(f"  output {escaped(port)};")
    for name, port in names.passed.items():
        print(f"  assign {escaped(port)} = {escaped(names.wires[name])};")
    for kind, name, reads in netlist:
        if reads:
            print_instance(kind, name, reads, names.wires)
    print("endmodule")


if __name__ == "__main__":
    run(main)
