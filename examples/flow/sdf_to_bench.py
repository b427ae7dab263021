#!/usr/bin/env python3
"""Prints a mapped netlist as a netlist of its delays, by an SDF file that an analyzer wrote for it.

The delays are those of each instance, pin by pin, from the clock pin of a register to the setup and
the hold of another, wires between cells with them; those of the clock's wires are left out. What
cells compute is left out too: each kind of gate stands for a delay. With --table prints the delay
table for that, and with --out writes both. A register is named as the net that its output drives.
Delays are those of sdf_delays.py.

No gate has a delay below 0, so where one of the SDF is, a signal is given as it is some ticks
later, and what reads it is so much faster: every path keeps its delays. Only where a register's
setup and hold together are less than the hold of the table, its setup is taken to be longer.
"""
from dataclasses import dataclass
from functools import cache
from graphlib import CycleError, TopologicalSorter
from math import inf

from mapped_verilog import Netlist, add_pins
from sdf_delays import Delays
from texts import Parser, fail, run, tick, write_files

# What each input behind the first adds: to both delays, or to the greatest alone. An OR joins.
CONSTANT = "constant"
BOTH, SPREAD, JOIN = {"NOR": 100, "NAND": 10, "AND": 1}, {"XNOR": 16, "XOR": 1}, "OR"


@dataclass
class Arc:
    """A way from a signal to what a cell makes of it, or to a register's check, with its bounds."""

    start: str
    least: int
    greatest: int


@dataclass
class Check(Arc):
    """The delays up to a register's pin, and what it asks for there."""

    setup: int
    hold: int


class Circuit:
    """The arcs into each signal that a gate drives, and the checks of each register."""

    def __init__(self, netlist, delays, words):
        self.netlist, self.delays, self.words = netlist, delays, words
        netlist.registers(words.pin, words.output)
        self.cells = [(cell, name, {pin: netlist.net(bits[0]) for pin, bits in pins.items()})
                      for cell, name, pins in netlist.instances]
        self.refuse_others()
        self.starts, self.arcs, self.checks, registers = {}, {}, {}, {}
        for _, name, pins in self.cells:
            for pin in self.outputs(name, pins) if words.pin in pins else []:
                registers.setdefault(name, pins.get(words.output, pins[pin]))
                bounds = delays.arcs[name, pin].get(words.pin, (0, 0))
                self.starts[pins[pin]] = registers[name], *bounds
        for cell, name, pins in self.cells:
            if name in registers:
                self.refuse_latch(cell, name, pins)
                self.checks[registers[name]] = self.checks_of(name, pins)
                continue
            for pin in self.outputs(name, pins):
                bounds = delays.arcs[name, pin]
                if arcs := [Arc(*self.bounds(name, read, pins[read], bounds[read]))
                            for read in bounds if pins.get(read, CONSTANT) != CONSTANT]:
                    self.arcs[pins[pin]] = self.arcs.get(pins[pin], []) + arcs
        netlist.check_clock(words.pin, registers)
        self.refuse_edges(registers)
        self.refuse_gaps()

    def outputs(self, name, pins):
        return [pin for pin in pins if (name, pin) in self.delays.arcs]

    def bounds(self, name, pin, net, bounds):
        """The signal that comes to a pin, and the bounds from it to what is behind the pin."""
        signal, *first = self.starts.get(net, (net, 0, 0))
        wire = self.delays.wires.get((name, pin), (0, 0))
        return signal, *(sum(times) for times in zip(first, wire, bounds))

    def checks_of(self, name, pins):
        setups, holds = (checks.get(name, {}) for checks in (self.delays.setup, self.delays.hold))
        return [Check(*self.bounds(name, pin, pins[pin], (0, 0)), setup, holds.get(pin, (0, 0))[1])
                for pin, (_, setup) in setups.items() if pins.get(pin, CONSTANT) != CONSTANT]

    def refuse_others(self):
        """Refuses an SDF that has instances which the netlist lacks."""
        cells = {name: cell for cell, name, _ in self.cells}
        for name, cell in self.delays.instances.items():
            if cells.get(name) != cell and name in cells:
                fail(self.delays.path, f"{name} is a {cell}, and a {cells[name]} in the netlist")
            if name not in cells and cell != self.netlist.name:
                fail(self.delays.path, f"the netlist lacks the instance {name} ({cell})")

    def refuse_latch(self, cell, name, pins):
        checked = self.delays.setup.get(name, {})
        if not checked:
            fail(self.delays.path, f"the register {name} ({cell}) has no setup check")
        for output in self.outputs(name, pins):
            if passed := checked.keys() & self.delays.arcs[name, output].keys():
                passed = min(passed)
                fail(self.netlist.path, f"{name} ({cell}) is a latch: {passed} goes through it")

    def refuse_edges(self, registers):
        """Refuses registers of both edges of the clock."""
        first = {}
        for cell, name, _ in self.cells:
            for edge in self.delays.edges.get(name, set()) - {""} if name in registers else ():
                first.setdefault(edge, f"{edge} at {name} ({cell})")
        if len(first) > 1:
            both = " and ".join(first.values())
            fail(self.netlist.path, f"the registers have both edges: {both}")

    def refuse_gaps(self):
        """Refuses a cell that has no delays though something goes through it."""
        driven = {*self.arcs, *self.starts, *self.netlist.inputs}
        read = {arc.start for arcs in [*self.arcs.values(), *self.checks.values()] for arc in arcs}
        undriven = read - driven
        for cell, name, pins in self.cells:
            nets = pins.values()
            is_passed = not (undriven.isdisjoint(nets) or driven.isdisjoint(nets))
            if is_passed and not self.outputs(name, pins):
                fail(self.delays.path, f"no delay goes through {name} ({cell})")

    def order(self):
        """All signals, each behind those that it is made of."""
        before = {signal: [arc.start for arc in arcs] for signal, arcs in self.arcs.items()}
        before |= {signal: [] for signal in self.checks}
        try:
            return list(TopologicalSorter(before).static_order())
        except CycleError as error:
            ring = " ".join(error.args[1][:9])
            fail(self.netlist.path, f"gates read one another in a ring: {ring}")


class Shifts:
    """How many ticks later than it is each signal is given, and the hold of the table.

    With these no gate and no check has a delay below 0. A shift is as near to 0 as what reads the
    signal allows.
    """

    def __init__(self, circuit):
        order = circuit.order()
        checks = [check for checks in circuit.checks.values() for check in checks]
        self.hold = self.least_hold(circuit, order, checks)
        most = dict.fromkeys(order, inf)
        for check in checks:
            spare = check.least + self.hold - check.hold
            most[check.start] = min(most.get(check.start, inf), spare)
        for signal in reversed(order):
            for arc in circuit.arcs.get(signal, []):
                most[arc.start] = min(most[arc.start], most[signal] + arc.least)
        self.shifts = dict.fromkeys(circuit.checks, 0)
        for signal in order:
            if signal not in circuit.checks:
                arcs = circuit.arcs.get(signal, [])
                needed = (self.shifts[arc.start] - arc.least for arc in arcs)
                self.shifts[signal] = max([min(0, most[signal]), *needed])

    @staticmethod
    def least_hold(circuit, order, checks):
        """A hold with which every path is 0 or longer, and all checks are exact if they can be."""
        earliest = dict.fromkeys(order, inf) | dict.fromkeys(circuit.checks, 0)
        for signal in order:
            for arc in circuit.arcs.get(signal, []):
                earliest[signal] = min(earliest[signal], earliest[arc.start] + arc.least)
        needed = [check.hold - check.least - earliest.get(check.start, inf) for check in checks]
        wanted = [check.setup + check.hold + check.greatest - check.least for check in checks]
        return max([0, *needed, min([circuit.delays.most_hold, *wanted])])

    def of(self, signal):
        return self.shifts.get(signal, 0)


class Printer:
    """The lines of gates, which share what delays from one signal have in common."""

    def __init__(self, circuit, shifts):
        self.circuit, self.shifts, self.seen, self.lines = circuit, shifts, set(), []
        self.later = cache(self.later)

    def later(self, signal, widths):
        """The signal that comes later than another by gates of some kinds and widths."""
        if not widths:
            return signal
        before = self.later(signal, widths[:-1])
        kind, width = widths[-1]
        name = f"{signal}:" + ".".join(f"{kind}{width}" for kind, width in widths)
        self.lines.append(f"{name} = {kind}({', '.join([before] * width)})")
        return name

    def arriving(self, arc, least, greatest):
        """The signal that stands for the end of an arc, with these bounds."""
        widths = []
        for digits, left in ((BOTH, least), (SPREAD, max(0, greatest - least))):
            for kind, digit in digits.items():
                if left >= digit:
                    widths.append((kind, left // digit + 1))
                    left %= digit
        self.seen.add(arc.start)
        return self.later(arc.start, tuple(widths))

    def take_gate(self, signal, arcs):
        reads = []
        for arc in arcs:
            shift = self.shifts.of(signal) - self.shifts.of(arc.start)
            reads.append(self.arriving(arc, arc.least + shift, arc.greatest + shift))
        self.lines.append(f"{signal} = {JOIN}({', '.join(reads)})")

    def take_register(self, register, checks):
        reads = []
        for check in checks:
            shift = self.shifts.of(check.start)
            least = check.least + self.shifts.hold - check.hold - shift
            reads.append(self.arriving(check, least, check.greatest + check.setup - shift))
        joined = reads[0] if len(reads) == 1 else f"{register}:d"
        if len(reads) > 1:
            self.lines.append(f"{joined} = {JOIN}({', '.join(reads)})")
        self.lines.append(f"{register} = DFF({joined if reads else register})")

    def netlist(self):
        """All lines: what is read and driven by nothing is an input."""
        for register, checks in self.circuit.checks.items():
            self.take_register(register, checks)
        for signal, arcs in self.circuit.arcs.items():
            self.take_gate(signal, arcs)
        for signal in sorted(self.seen - self.circuit.arcs.keys() - self.circuit.checks.keys()):
            self.lines.append(f"INPUT({signal})")
        return self.lines


def table(hold, wire, source):
    """The lines of the delay table."""
    yield f'[wire]\ndelay = "{wire}"\n[source]\nplace = "{source}"'
    yield f"[register]\nsetup = 0\nhold = {hold}\nleast = 0\ngreatest = 0"
    for kind, digit in {**BOTH, **SPREAD, JOIN: 0}.items():
        yield f"[gate.{kind}]\nleast = 0\ngreatest = 0\ngreatest_per_input = {digit}"
        yield f"least_per_input = {digit if kind in BOTH else 0}"


def main():
    parser = Parser(description=__doc__)
    parser.add_argument("netlist", metavar="MAPPED.v")
    parser.add_argument("delays", metavar="DELAYS.sdf")
    parser.add_argument("--tick", type=tick, default="1ps", help="how long a tick is, else 1ps")
    parser.add_argument("--table", action="store_true", help="print the delay table")
    parser.add_argument("--out", help="write OUT.bench and OUT.toml")
    parser.add_argument("--wire", default="1/10", help="its ticks per length unit of clock wire")
    parser.add_argument("--source", default="CLK", help="its node that the clock comes from")
    add_pins(parser)
    words = parser.parse_args()
    circuit = Circuit(Netlist(words.netlist), Delays(words.delays, words.tick), words)
    shifts = Shifts(circuit)
    head = f"# tick {words.tick}"
    texts = {
        "toml": [head, *table(shifts.hold, words.wire, words.source)],
        "bench": [head, *Printer(circuit, shifts).netlist()],
    }
    texts = {end: "".join(f"{line}\n" for line in lines) for end, lines in texts.items()}
    if words.out:
        write_files({f"{words.out}.{end}": text for end, text in texts.items()})
    else:
        print(texts["toml" if words.table else "bench"], end="")


if __name__ == "__main__":
    run(main)
