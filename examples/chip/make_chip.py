#!/usr/bin/env python3
"""Writes OUT.bench and OUT.pl: a placed chip of some registers, always the same for a seed.

The chip is a grid of patches of 16 registers. Most have logic of their own, some levels of gates
over their registers and those of the patches beside. Pipelines of 16 bits walk over the chip from
patch to patch, with a long stage behind each short one. Some registers read one far away, through
a chain of buffers. Two kinds of gates are in no use, XOR and XNOR. The delays are those of any
table, as examples/biquad.toml.
"""
import random
import sys
from math import ceil, sqrt
from pathlib import Path

sys.path.insert(0, str(Path(__file__).resolve().parent.parent / "flow"))
from texts import Parser, run, write_files

BITS, SIDE, PITCH = 16, 4, 20  # registers of a patch, its side, and the distance of two
DEPTH = 9  # levels of the logic of a patch
WIDE = ["NAND", "NOR", "AND", "OR"]


class Chip:
    """The patches with what each of their registers reads, and the lines of the netlist."""

    def __init__(self, registers, seed):
        self.chance, self.registers = random.Random(f"{registers}/{seed}"), registers
        self.patches = ceil(registers / BITS)
        self.wide = ceil(sqrt(self.patches))
        self.reads = {}  # what a register reads that isn't the logic of its patch
        self.lines = []

    def at(self, patch):
        return patch % self.wide, patch // self.wide

    def patch_at(self, x, y):
        """The patch there, or none at the rim."""
        patch = y * self.wide + x
        return patch if 0 <= x < self.wide and y >= 0 and patch < self.patches else None

    def names(self, patch):
        return [f"r{number}" for number in
                range(BITS * patch, min(BITS * patch + BITS, self.registers))]

    def gate(self, name, kind, reads):
        self.lines.append(f"{name} = {kind}({', '.join(reads)})")
        return name

    def chain(self, name, first, count):
        """A signal behind that many buffers."""
        for place in range(count):
            first = self.gate(f"{name}_{place}", "BUFF", [first])
        return first

    def pipelines(self):
        """A pipeline for each 40 patches, whose stages are two to four patches from one another."""
        for pipeline in range(self.patches // 40):
            patch = self.chance.randrange(self.patches)
            step = self.chance.choice([(2, 0), (0, 3), (-3, 1), (1, -2), (3, 2), (-2, -3)])
            for stage in range(self.chance.randint(3, 9)):
                x, y = self.at(patch)
                behind = self.patch_at(x + step[0], y + step[1])
                if behind is None or self.names(behind)[0] in self.reads:
                    break
                levels = self.chance.randint(11, 14) if stage % 2 else self.chance.randint(2, 5)
                self.stage(f"p{pipeline}_{stage}", patch, behind, levels, abs(step[0]))
                patch = behind

    def stage(self, name, patch, behind, levels, buffers):
        """Logic between the bits of two patches: each level takes a bit and one beside it."""
        below = self.names(patch)
        for level in range(levels):
            kinds = [self.chance.choice(["NAND", "NOR", "AND"]) for _ in below]
            below = [self.gate(f"{name}_{level}_{bit}", kind, [below[bit], below[bit - 1]])
                     for bit, kind in enumerate(kinds)]
        for bit, register in enumerate(self.names(behind)):
            read = below[bit % len(below)]
            self.reads[register] = self.chain(f"{name}_w{bit}", read, buffers)

    def long_paths(self):
        """A path from far away for each 200 registers, with a buffer for 6 registers' distance."""
        for number in range(self.registers // 200):
            patch, other = (self.chance.randrange(self.patches) for _ in range(2))
            (x, y), (u, v) = self.at(patch), self.at(other)
            register = self.chance.choice(self.names(patch))
            if (away := abs(x - u) + abs(y - v)) > 18 or register in self.reads:
                continue
            first = self.chance.choice(self.names(other))
            self.reads[register] = self.chain(f"l{number}", first, 1 + away * SIDE // 6)

    def logic(self, patch):
        """Levels of gates over registers of a patch and of those beside it, and what reads them."""
        x, y = self.at(patch)
        beside = [self.patch_at(x + dx, y + dy) for dx, dy in ((1, 0), (-1, 0), (0, 1), (0, -1))]
        own, around = self.names(patch), [name for near in beside if near is not None
                                          for name in self.names(near)]
        unread, below = list(own), own  # unread are those of earlier levels that nothing reads yet
        for level in range(1, DEPTH + 1):
            names = [f"g{patch}_{level}_{place}" for place in range(max(1, 3 * (DEPTH - level)))]
            for name in names:
                reads = [self.chance.choice(below)]
                if unread and self.chance.random() < 0.8:
                    reads.append(unread.pop(self.chance.randrange(len(unread))))
                if around and self.chance.random() < 0.1:
                    reads.append(self.chance.choice(around))
                kind = self.chance.choice(WIDE if len(reads) > 1 else ["NOT", "BUFF"])
                self.gate(name, kind, reads)
            unread, below = unread + names, names
        for register in own:
            self.register(register, self.reads.get(register) or self.chance.choice(unread))

    def register(self, name, read):
        """A register, here and there with an input of the chip or an output."""
        if self.chance.random() < 0.01:
            self.lines.append(f"INPUT(i{name})")
            read = self.gate(f"d{name}", "NAND", [read, f"i{name}"])
        if self.chance.random() < 0.01:
            self.lines.append(f"OUTPUT({name})")
        self.lines.append(f"{name} = DFF({read})")

    def placement(self):
        yield "UCLA pl 1.0"
        for patch in range(self.patches):
            x, y = self.at(patch)
            for place, name in enumerate(self.names(patch)):
                right, up = SIDE * x + place % SIDE, SIDE * y + place // SIDE
                yield f"{name} {PITCH * right} {PITCH * up} : N"
        half = PITCH * SIDE * self.wide // 2
        yield f"CLK {half} {2 * half} : N /FIXED"


def main():
    parser = Parser(description=__doc__)
    parser.add_argument("registers", metavar="REGISTERS", type=int)
    parser.add_argument("seed", metavar="SEED", type=int)
    parser.add_argument("out", metavar="OUT")
    words = parser.parse_args()
    if words.registers < 2:
        parser.error("a chip has two registers at least")
    chip = Chip(words.registers, words.seed)
    chip.pipelines()
    chip.long_paths()
    for patch in range(chip.patches):
        chip.logic(patch)
    write_files({f"{words.out}.bench": "\n".join([*chip.lines, ""]),
                 f"{words.out}.pl": "\n".join([*chip.placement(), ""])})


if __name__ == "__main__":
    run(main)
