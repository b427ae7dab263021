"""What the scripts of a chip have in common: its netlist as delays, and how its borders are kept.

Times are whole ticks. A block is some registers of the chip with all gates that lead to them. The
register of another block whose value reaches such a gate is a border register: it launches over the
border. See docs/SCALE.md.
"""
import sys
from dataclasses import dataclass
from pathlib import Path

HERE = Path(__file__).resolve().parent
sys.path.insert(0, str(HERE.parent / "flow"))
from bench_to_verilog import statements  # noqa: E402
from tables import Table  # noqa: E402
from texts import fail, lines_of  # noqa: E402

WIDE = ("XOR", "XNOR", "OR", "AND", "NOR", "NAND")  # the kinds with any number of inputs


class Times:
    """The delays of gates and registers in a table."""

    def __init__(self, table):
        self.table, self.gates = table, {}
        self.setup, self.hold, self.least, self.greatest = (
            table.number("register", key) for key in ("setup", "hold", "least", "greatest"))

    def gate(self, kind, inputs):
        """The least and the greatest delay of a gate of that kind with so many inputs."""
        if (kind, inputs) not in self.gates:
            bounds = [self.table.number("gate", kind, bound) for bound in ("least", "greatest")]
            for place, bound in enumerate(("least_per_input", "greatest_per_input")):
                if self.table.has("gate", kind, bound):
                    bounds[place] += (inputs - 1) * self.table.number("gate", kind, bound)
            self.gates[kind, inputs] = tuple(bounds)
        return self.gates[kind, inputs]


class Chip:
    """A netlist: what each gate and each register reads, and the gates in the order of paths."""

    def __init__(self, path):
        self.path, self.gates, self.registers, self.inputs = path, {}, {}, set()
        for kind, name, reads in statements(path):
            if kind == "DFF":
                self.registers[name] = reads[0]
            elif kind == "INPUT":
                self.inputs.add(name)
            elif reads:
                self.gates[name] = kind, reads
        if not self.registers:
            fail(path, "there is no register")
        self.order = self.sorted()
        self.place = {name: place for place, name in enumerate(self.order)}
        self.quiet = self.unlaunched()

    def sorted(self):
        """The gates, each behind those that it reads. A ring of gates is an error."""
        done, order = set(self.registers) | self.inputs, []
        for top in self.gates:
            waiting = [top]
            while waiting:
                name = waiting[-1]
                if name in done:
                    waiting.pop()
                    continue
                if name not in self.gates:
                    fail(self.path, f"nothing drives {name}")
                missing = [read for read in self.gates[name][1] if read not in done]
                if not missing:
                    done.add(waiting.pop())
                    order.append(name)
                elif len(waiting) > len(self.gates):
                    fail(self.path, f"gates read one another in a ring, {name} among them")
                else:
                    waiting.extend(missing)
        return order

    def unlaunched(self):
        """The signals that no register launches: inputs, and gates of these alone."""
        quiet = set(self.inputs)
        for name in self.order:
            if all(read in quiet for read in self.gates[name][1]):
                quiet.add(name)
        return quiet

    def reads(self, name):
        """The kind of a gate and what it reads, with another read for one that isn't launched."""
        kind, reads = self.gates[name]
        if self.quiet.isdisjoint(reads):
            return kind, reads
        other = next(read for read in reads if read not in self.quiet)
        return kind, [other if read in self.quiet else read for read in reads]


def places_of(path):
    """The place of each node of a placement, as the two words that say it."""
    places = {}
    for number, line in enumerate(lines_of(path), 1):
        words = line.split("#")[0].split()
        if words and words[:2] != ["UCLA", "pl"]:
            if len(words) < 3:
                fail(path, f"line {number} is not one of a placement: {line.strip()[:60]}")
            places[words[0]] = words[1], words[2]
    return places


def table_of(path):
    """A delay table without a host, whose place the blocks need."""
    table = Table(path)
    if table.has("host"):
        fail(path, "the table has a host, and a chip with one can't be cut")
    return table


@dataclass(frozen=True)
class Border:
    """A register that launches over the border of its block, with what both sides know of it.

    Counted from the host's arrival, it is reached at `least` at the earliest, and in time for all
    that other blocks capture of it from a register that is reached with the host: `need` is the
    greatest delay to these and the setup time.
    """

    name: str
    least: int
    need: int

    def window(self, period, times):
        """The earliest and the latest that it may be reached after the host."""
        widest = period - times.setup - times.hold - times.greatest + times.least
        return self.least, min(max(self.least, period - self.need), self.least + widest)
