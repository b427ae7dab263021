#!/usr/bin/env python3
"""Prints the registers of a mapped Verilog netlist, each as a line INSTANCE NET.

The netlist is flat: one module of instances whose pins are named. A register is an instance whose
clock pin is connected, and its net the one that its output drives. A net has a line for each of its
names, as assignments give it more than one; a name has neither Verilog's mark in front nor blanks,
and for a sign that no netlist of cts has in a name, as a bracket, its number stands: %28.
With --top prints the name of the module alone.
"""
import re

from bench_to_verilog import plain
from texts import Parser, fail, lines_of, run

TOKEN = re.compile(r"\\\S+|\d*'[sS]?[bodhBODH][\w?]+|[\w$]+|[^\s\w]")
COMMENT = re.compile(r"(\\\S+)|/\*.*?\*/|//[^\n]*|\(\*.*?\*\)", re.DOTALL)
SIGNS = re.compile("[(),=#]")  # what a name of a net can't have in a netlist of cts
DECLARATIONS = {"input", "output", "inout", "wire", "tri", "reg", "signed"}


class Netlist:
    """The instances, as (cell, name, {pin: bits}), and the nets with all of their names."""

    def __init__(self, path):
        self.path, self.instances, self.ranges, self.above = path, [], {}, {}
        self.name, self.assigned, self.inputs, words = "", [], set(), []
        try:
            for statement in self.statements():
                if words := TOKEN.findall(statement):
                    self.take(words)
            for words in self.assigned:
                place = words.index("=")
                self.join(words[:place], words[place + 1:])
            for place, (cell, name, words) in enumerate(self.instances):
                self.instances[place] = cell, name, self.pins(words)
            inputs = [bit for name in self.inputs for bit in self.bits([name])]
        except (ValueError, IndexError):
            fail(path, f"not a statement of a mapped netlist: {' '.join(words[:9])}")
        self.inputs = set(map(self.net, inputs))

    def statements(self):
        """The statements of the one module that the file has to hold to its end."""
        # In an escaped name, which ends at a blank, stand neither comments nor keywords.
        text = COMMENT.sub(lambda found: found[1] or " ", "".join(lines_of(self.path)))
        modules = re.findall(r"(?<![\\\w$])(module|endmodule)(?![\w$])", text)
        if modules.count("module") > 1:
            fail(self.path, "more than one module: flatten the netlist first")
        if "module" not in modules:
            fail(self.path, "no module")
        *statements, rest = text.split(";")
        if rest.split() != ["endmodule"]:
            fail(self.path, "the file ends in the middle of the module")
        return statements

    def take(self, words):
        """Keeps what a statement says."""
        if words[0] == "module":
            self.name = plain(words[1])
            # Ports may be declared within the brackets.
            declared = []
            for port in filter(None, split(words[words.index("(") + 1:-1] if "(" in words else [])):
                declared = port[:-1] or declared
                if declared:
                    self.declare(declared + port[-1:])
        elif words[0] in DECLARATIONS:
            self.declare(words)
        elif words[0] == "assign":
            self.assigned += split(words[1:])
        elif words[2] == "(" and words[3] in (".", ")"):
            self.instances.append((words[0], plain(words[1]), words))
        else:
            raise ValueError

    def declare(self, words):
        """Keeps the range of some names, whether they are inputs, and what is assigned to them."""
        is_input = words[0] == "input"
        words = [word for word in words if word not in DECLARATIONS]
        bounds = None
        if words[0] == "[":
            bounds, words = (int(words[1]), int(words[3])), words[5:]
        for name in split(words):
            if is_input:
                self.inputs.add(name[0])
            # A wire of a port's name doesn't take the port's range away.
            self.ranges[plain(name[0])] = bounds or self.ranges.get(plain(name[0]))
            if "=" in name:
                self.assigned.append(name)

    def join(self, left, right):
        """Makes one net of two, bit by bit from the lowest on."""
        for one, other in zip(reversed(self.bits(left)), reversed(self.bits(right))):
            if self.net(one) != self.net(other):
                self.above[self.net(one)] = self.net(other)

    def pins(self, words):
        """The bits at each pin that is connected."""
        pins = {pin[1]: pin[3:-1] for pin in split(words[3:-1]) if pin}
        return {pin: self.bits(words) for pin, words in pins.items() if words}

    def bits(self, words):
        """The names of the bits of an expression, from the highest on."""
        if words[0] == "{":
            return [bit for part in split(words[1:-1]) for bit in self.bits(part)]
        if "'" in words[0]:
            return ["constant"] * int(words[0].split("'")[0] or 1)
        name = plain(words[0])
        bounds = (int(words[2]), int(words[-2])) if words[1:] else self.ranges.get(name)
        name = SIGNS.sub(lambda sign: f"%{ord(sign[0]):02x}", name)
        if bounds is None:
            return [name]
        step = 1 if bounds[0] <= bounds[1] else -1
        return [f"{name}[{bit}]" for bit in range(bounds[0], bounds[1] + step, step)]

    def net(self, bit):
        """The one name that stands for all names of the net."""
        while bit in self.above:
            bit = self.above[bit]
        return bit

    def registers(self, pin, output):
        """The instance for each name of a net that the output of a register drives."""
        drivers = {self.net(pins[output][0]): name for _, name, pins in self.instances
                   if pin in pins and output in pins}
        if not drivers:
            fail(self.path, f"no instance has a clock pin {pin} and an output {output}")
        self.check_clock(pin, set(drivers.values()))
        names = dict.fromkeys([*drivers, *self.above])
        return {bit: drivers[self.net(bit)] for bit in names if self.net(bit) in drivers}

    def check_clock(self, pin, registers):
        """Refuses registers of several clocks, and a clock that is no input."""
        clocks = {}
        for cell, name, pins in self.instances:
            if name in registers:
                clocks.setdefault(self.net(pins[pin][0]), f"{name} ({cell})")
        for clock, register in clocks.items():
            if clock not in self.inputs:
                makers = [f"{name} ({cell})" for cell, name, pins in self.instances
                          for at, bits in pins.items()
                          if at != pin and clock in map(self.net, bits)]
                fail(self.path, f"the clock {clock} of the register {register} is no input"
                                + (f", but is made by {makers[0]}" if makers else ""))
        if len(clocks) > 1:
            kinds = " and ".join(f"{clock} at {name}" for clock, name in list(clocks.items())[:2])
            fail(self.path, f"the registers have several clocks: {kinds}")


def split(words):
    """The parts between commas that stand in no brackets."""
    parts, depth = [[]], 0
    for word in words:
        depth += (word in "([{") - (word in ")]}")
        if word == "," and depth == 0:
            parts.append([])
        else:
            parts[-1].append(word)
    return parts


def add_pins(parser):
    """The words of a call that say what a register is."""
    parser.add_argument("--pin", default="CK", help="the clock pin of a register, else CK")
    parser.add_argument("--output", default="Q", help="the output of a register, else Q")


def main():
    parser = Parser(description=__doc__)
    parser.add_argument("netlist", metavar="NETLIST.v")
    add_pins(parser)
    parser.add_argument("--top", action="store_true", help="print the name of the module")
    words = parser.parse_args()
    netlist = Netlist(words.netlist)
    if words.top:
        print(netlist.name)
        return
    for net, instance in netlist.registers(words.pin, words.output).items():
        print(instance, net)


if __name__ == "__main__":
    run(main)
