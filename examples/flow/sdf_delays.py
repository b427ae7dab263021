#!/usr/bin/env python3
"""Prints the delays of an SDF file in ticks, as lines INSTANCE OUTPUT INPUT LEAST GREATEST.

Least delays are rounded down and greatest ones up, and for a rising and a falling edge the wider
bounds stand.
"""
import argparse
import re
from decimal import Decimal, InvalidOperation
from math import ceil, floor, inf

from texts import Parser, fail, lines_of, run, tick

KNOWN = {"IOPATH", "INTERCONNECT", "PORT", "INCREMENT", "SETUP", "HOLD", "SETUPHOLD"}
TOKEN = re.compile(r'"[^"]*"|[()]|(?:\\.|[^\s()"])+')


def tree(path):
    """The lists of a file, one in the other."""
    stack = [[]]
    for token in TOKEN.findall("".join(lines_of(path))):
        if token == "(":
            stack.append([])
        elif token == ")" and len(stack) > 1:
            stack[-2].append(stack.pop())
        else:
            stack[-1].append(token)
    if len(stack) > 1:
        fail(path, "the file ends within a bracket")
    return stack[0]


def lists(node, *names):
    """The lists below one that begin with one of the names."""
    for part in node:
        if isinstance(part, list) and part:
            if isinstance(part[0], str) and part[0] in names:
                yield part
            yield from lists(part, *names)


def edgeless(pin):
    """A pin without its condition, its edge and the marks before the signs of its name."""
    while isinstance(pin, list):
        pin = pin[-1]
    return pin.replace("\\", "")


def edge(pin):
    """The edge of a pin, posedge or negedge, or nothing."""
    while isinstance(pin, list):
        if pin[0] in ("posedge", "negedge"):
            return pin[0]
        pin = pin[-1]
    return ""


class Delays:
    """Times in ticks, each with its least and greatest bound.

    Those of cells stand by instance and output and then by input, those of wires by instance and
    pin, and setup and hold by instance and then by pin. The edges are those of the clock by which
    an instance has its checks.
    """

    def __init__(self, path, length):
        self.path, self.arcs, self.wires, self.setup, self.hold = path, {}, {}, {}, {}
        self.edges, self.instances, self.last = {}, {}, path
        file = tree(path)
        if not (scale := list(lists(file, "TIMESCALE"))):
            fail(path, "not an SDF file with its TIMESCALE")
        try:
            unit = tick("".join(scale[0][1:]))
            self.ticks = Decimal(unit.length.numerator * length.length.denominator)
            self.ticks /= Decimal(unit.length.denominator * length.length.numerator)
            for cell in lists(file, "CELL"):
                self.take(cell)
        except (ValueError, TypeError, AttributeError, IndexError, StopIteration,
                InvalidOperation, argparse.ArgumentTypeError):
            fail(path, f"not delays as they are known: {self.last}")
        holds = (most for pins in self.hold.values() for _, most in pins.values())
        self.most_hold = max([0, *holds])

    def take(self, cell):
        """Takes the delays and the checks of a cell."""
        kind, instance = (next(lists(cell, word))[1:] for word in ("CELLTYPE", "INSTANCE"))
        name = "".join(instance).replace("\\", "")
        if name:
            self.instances[name] = kind[0].strip('"')
        for self.last in lists(cell, *KNOWN):
            word, *words = self.last
            if word == "IOPATH":
                arcs = self.arcs.setdefault((name, words[1]), {})
                self.widen(arcs, edgeless(words[0]), words[2:])
            elif word == "INTERCONNECT":
                end = tuple(re.split(r"[/.](?=[^/.]*$)", edgeless(words[1])))
                self.widen(self.wires, end, words[2:])
            elif word == "PORT":
                self.widen(self.wires, (name, edgeless(words[0])), words[1:])
            elif word == "INCREMENT":
                raise ValueError
            else:
                self.take_check(name, word, *words)

    def take_check(self, name, word, pin, clock, *times):
        self.edges.setdefault(name, set()).add(edge(clock))
        if word != "HOLD":
            self.widen(self.setup.setdefault(name, {}), edgeless(pin), times[:1])
        if word != "SETUP":
            self.widen(self.hold.setdefault(name, {}), edgeless(pin), times[-1:])

    def widen(self, bounds, key, triples):
        """Takes some times, each least:usual:greatest, into the bounds of a key."""
        times = [Decimal(time) * self.ticks for triple in triples for part in triple
                 for time in part.split(":") if time]
        if times:
            least, greatest = bounds.get(key, (inf, -inf))
            bounds[key] = min(least, floor(min(times))), max(greatest, ceil(max(times)))


def main():
    parser = Parser(description=__doc__)
    parser.add_argument("delays", metavar="DELAYS.sdf")
    parser.add_argument("--tick", type=tick, default="1ps", help="how long a tick is, else 1ps")
    words = parser.parse_args()
    for (instance, output), arcs in Delays(words.delays, words.tick).arcs.items():
        for pin, bounds in arcs.items():
            print(instance, output, pin, *bounds)


if __name__ == "__main__":
    run(main)
