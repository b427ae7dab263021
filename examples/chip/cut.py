#!/usr/bin/env python3
"""Cuts a placed chip into blocks within the limits of a call, and writes them to a new folder.

The registers are halved by place until a block has at most --registers of them and its netlist
keeps within the limits. FOLDER/blocks names the blocks. FOLDER/cut has for each the gates that lead
to its registers (.logic), its border registers with what both sides know of them (.border), its
placement with the source of its clock in its middle (.pl), and what all have in common. A netlist
of a block is made of these for one period, by block_at.py.
"""
import os
from math import inf

from chip import WIDE, Border, Chip, Times, places_of, table_of
from texts import Parser, fail, run, write_files

MOST = {"registers": 4096, "signals": 65536, "reads": 262144}  # of a netlist
# What the delays of the border take at most, beside two signals for each border register.
KEPT = {"signals": 4096, "reads": 65536}


class Block:
    """Some registers, the gates that lead to them, and the delays to them from outside."""

    def __init__(self, chip, times, lent, registers):
        self.chip, self.times, self.lent = chip, times, lent
        self.registers, self.own = registers, set(registers)
        self.outside, self.gates = set(), set()
        self.find_gates()
        place = chip.place
        self.order = sorted(self.gates, key=place.__getitem__)
        self.greatest, self.least = self.delays()

    def find_gates(self):
        """All gates behind the registers' inputs, and the registers outside that launch to them."""
        chip, waiting = self.chip, [self.chip.registers[name] for name in self.registers]
        while waiting:
            name = waiting.pop()
            if name in self.gates or name in chip.quiet:
                continue
            if name not in chip.registers:
                self.gates.add(name)
                waiting.extend(chip.reads(name)[1])
            elif name not in self.own:
                self.outside.add(name)

    def delays(self):
        """The greatest and the least delay from each signal to a register of the block."""
        ends = {self.chip.registers[name] for name in self.registers} - self.chip.quiet
        greatest, least = dict.fromkeys(ends, 0), dict.fromkeys(ends, 0)
        for name in reversed(self.order):
            kind, reads = self.chip.reads(name)
            shortest, longest = self.times.gate(kind, len(reads))
            shortest, longest = least[name] + shortest, greatest[name] + longest
            for read in reads:
                if greatest.get(read, -1) < longest:
                    greatest[read] = longest
                if least.get(read, inf) > shortest:
                    least[read] = shortest
        return greatest, least

    def lines(self, launching):
        """The lines of its netlist that are the same for each period."""
        for name in self.order:
            kind, reads = self.chip.reads(name)
            if kind in self.lent.kinds:
                yield from self.lent.gate(name, reads, *self.times.gate(kind, len(reads)))
            else:
                yield f"{name} = {kind}({', '.join(reads)})"
        for name in self.registers:
            read = self.chip.registers[name]
            if name in launching:
                yield f"{name} = DFF({self.lent.named(name)})"
            elif read in self.chip.quiet:
                # It captures nothing that is launched: as well itself, in time for its hold.
                late = self.lent.named(name)
                yield from self.lent.chain(late, name, max(0, self.times.hold - self.times.least))
                yield f"{name} = DFF({late})"
            else:
                yield f"{name} = DFF({read})"

    def is_within(self, most):
        if len(self.registers) > most:
            return False
        lines = list(self.lines({}))
        signals = len(lines) + 2 * (len(self.registers) + len(self.outside)) + KEPT["signals"]
        reads = sum(line.count(",") + 1 for line in lines) + KEPT["reads"]
        return signals <= MOST["signals"] and reads <= MOST["reads"]

    def halves(self, places):
        """Its registers in two halves, on both sides of a line across the longer side."""
        if len(self.registers) == 1:
            fail(self.chip.path, f"the logic of {self.registers[0]} alone is past the limits")
        spans = [[float(places[name][axis]) for name in self.registers] for axis in range(2)]
        axis = max(range(2), key=lambda axis: max(spans[axis]) - min(spans[axis]))
        order = sorted(self.registers, key=lambda name: float(places[name][axis]))
        return order[:len(order) // 2], order[len(order) // 2:]


class Lent:
    """The two kinds of gates that stand for delays in a block: one joins, and one is a step.

    A gate of the first takes no time. One of the second takes a tick for each input after the
    first. Gates of the chip of these kinds are written as steps.
    """

    def __init__(self, chip, times):
        costs = dict.fromkeys(WIDE, 0)
        for kind, reads in chip.gates.values():
            if kind in costs:
                costs[kind] += times.gate(kind, len(reads))[1]
        self.kinds = self.join, self.step = sorted(WIDE, key=costs.__getitem__)[:2]
        # Names that begin so are no names of the chip.
        signals = [*chip.gates, *chip.registers, *chip.inputs]
        self.prefix = "host"
        while any(name.startswith(f"{self.prefix}:") for name in signals):
            self.prefix += "_"

    def named(self, name):
        return f"{self.prefix}:{name}"

    def chain(self, name, first, delay):
        """Lines of gates that give a signal some ticks later under another name."""
        part = 0
        while delay > 1000:
            part, delay = part + 1, delay - 1000
            yield f"{name}:{part} = {self.step}({', '.join([first] * 1001)})"
            first = f"{name}:{part}"
        yield f"{name} = {self.step}({', '.join([first] * (delay + 1))})"

    def gate(self, name, reads, least, greatest):
        joined, early, late = (self.named(f"{part}:{name}") for part in ("j", "e", "l"))
        yield f"{joined} = {self.join}({', '.join(reads)})"
        yield from self.chain(early, joined, least)
        yield from self.chain(late, early, greatest - least)
        yield f"{name} = {self.join}({early}, {late})"


def cut(chip, times, lent, places, most):
    """The blocks, each within the limits."""
    waiting, blocks = [list(chip.registers)], []
    while waiting:
        registers = waiting.pop()
        whole = len(registers) <= most
        block = Block(chip, times, lent, registers if whole else registers[:1])
        if whole and block.is_within(most):
            blocks.append(block)
        else:
            block.registers = registers
            waiting += reversed(block.halves(places))
    return blocks


def borders_of(blocks, times):
    """What both sides know of each register that launches over a border."""
    greatest, least = {}, {}
    for block in blocks:
        for name in block.outside:
            longest = times.greatest + block.greatest[name]
            greatest[name] = max(greatest.get(name, 0), longest)
            least[name] = min(least.get(name, inf), times.least + block.least[name])
    # Where a path is too short for the hold time, its register is to be reached so much later.
    return {name: Border(name, max(0, times.hold - least[name]), greatest[name] + times.setup)
            for name in greatest}


def border_lines(block, borders, chip):
    """A line `in NAME LEAST NEED` for each of outside, and `out` with what the register reads."""
    for name in sorted(block.outside):
        border = borders[name]
        yield f"in {name} {border.least} {border.need}"
    for name in block.registers:
        if name in borders:
            border, read = borders[name], chip.registers[name]
            said = "" if read in chip.quiet else f" {read}"
            yield f"out {name} {border.least} {border.need}{said}"


def placement(block, places, prefix):
    x, y = ([float(places[name][axis]) for name in block.registers] for axis in range(2))
    yield f"{prefix} {(min(x) + max(x)) / 2:.6f} {(min(y) + max(y)) / 2:.6f}"
    for name in block.registers:
        yield f"{name} {' '.join(places[name])}"


def texts(folder, blocks, borders, chip, times, lent, table, places):
    """The texts of all files."""
    yield "blocks", [f"{number}" for number in range(len(blocks))]
    first = times.setup + times.greatest + max((each.least for each in borders.values()), default=0)
    floor = table.number("period", "floor") if table.has("period", "floor") else 0
    yield "cut/common", [f"kinds {lent.join} {lent.step}", f"host {lent.prefix}",
                         f"period {max(first, floor)}", f"table {os.path.abspath(table.path)}"]
    source = table.at("source", "place")
    if source not in places:
        fail(folder, f"the placement lacks {source}")
    sources = [f"{source} {' '.join(places[source])}"]
    for number, block in enumerate(blocks):
        yield f"cut/{number}.logic", block.lines(borders)
        yield f"cut/{number}.border", border_lines(block, borders, chip)
        lines = list(placement(block, places, lent.prefix))
        yield f"cut/{number}.pl", lines
        sources.append(f"block{number} {lines[0].split(' ', 1)[1]}")
    yield "cut/top.pl", sources


def main():
    parser = Parser(description=__doc__)
    for name in ("CHIP.bench", "CHIP.toml", "CHIP.pl", "FOLDER"):
        parser.add_argument(name.split(".")[-1].lower(), metavar=name)
    parser.add_argument("--registers", type=int, default=4000, help="of a block at most, else 4000")
    words = parser.parse_args()
    if not 1 <= words.registers < MOST["registers"]:
        parser.error("a block has from 1 to 4095 registers, for the host is one more")
    table = table_of(words.toml)
    chip, times, places = Chip(words.bench), Times(table), places_of(words.pl)
    for name in chip.registers:
        if name not in places:
            fail(words.pl, f"the placement lacks {name}")
    lent = Lent(chip, times)
    blocks = cut(chip, times, lent, places, words.registers)
    borders = borders_of(blocks, times)
    try:
        os.makedirs(f"{words.folder}/cut")
    except OSError as error:
        fail(words.folder, error.strerror)
    write_files({f"{words.folder}/{name}": "\n".join([*lines, ""]) for name, lines in texts(
        words.folder, blocks, borders, chip, times, lent, table, places)})
    sizes = [len(block.registers) for block in blocks]
    print(f"blocks {len(blocks)}\nregisters {min(sizes)} {max(sizes)}\nborder {len(borders)}")


if __name__ == "__main__":
    run(main)
