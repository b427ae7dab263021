#!/usr/bin/env python3
"""Prints the arrivals, the slacks and the wire of a whole chip, of the reports of its blocks.

Each report has to be the one that `check` has judged: FOLDER/PERIOD/BLOCK.shown has the sums of the
four files that it read, which block.sh writes. With --sources prints instead at which times the
clock is to reach the blocks' sources, for arrivals_to_problem.py, whose tree is the block `top`.
"""
import hashlib
from fractions import Fraction

from chip import Chip, Times, table_of
from texts import HOST, Parser, fail, lines_of, parts_of, run
from wire_delays import wires_of


def judged(folder, block):
    """Refuses a block whose files aren't those that `check` has judged."""
    path = f"{folder}/{block}"
    for line in lines_of(f"{path}.shown"):
        said, name = line.split()
        try:
            with open(f"{folder}/{name}", "rb") as file:
                found = hashlib.sha256(file.read()).hexdigest()
        except OSError as error:
            fail(f"{folder}/{name}", error.strerror)
        if found != said:
            fail(f"{folder}/{name}", "it isn't the file that check has judged")


class Tree:
    """The report of a block: its arrivals from the host on, and the delays of its wires."""

    def __init__(self, folder, block, period, delay):
        judged(folder, block)
        path = f"{folder}/{block}.cts"
        said, names, wires = wires_of(path)
        if period is not None and Fraction(said) != period:
            fail(path, f"the block needs a period of {said}, and not {period}")
        parts = parts_of(path, "a report", "registers", "wire", "nodes")
        arrivals = {words[0]: Fraction(words[1]) for words in parts["registers"]}
        self.host = arrivals.pop(HOST, 0)
        self.arrivals = {name: time - self.host for name, time in arrivals.items()}
        self.wires = {name: wires[place] * delay for place, name in enumerate(names)}
        edge = {names[place]: Fraction(parts["nodes"][place][3]) for place in range(len(names))}
        # The wire to the host leads nowhere in the chip.
        self.wire = Fraction(parts["wire"][1]) - edge.get(HOST, 0)
        first = names[0]
        self.constant = self.wires[first] - arrivals.get(first, 0) + self.host


def slacks(chip, times, arrivals, period):
    """The setup and the hold slack of each register, over all paths that end there."""
    early = {name: arrivals[name] + times.least for name in arrivals}
    late = {name: arrivals[name] + times.greatest for name in arrivals}
    for name in chip.order:
        if name not in chip.quiet:
            kind, reads = chip.reads(name)
            least, greatest = times.gate(kind, len(reads))
            early[name] = min(early[read] for read in reads) + least
            late[name] = max(late[read] for read in reads) + greatest
    for name, read in chip.registers.items():
        if read in chip.quiet:
            yield name, "-", "-"
        else:
            yield (name, arrivals[name] + period - times.setup - late[read],
                   early[read] - times.hold - arrivals[name])


def main():
    parser = Parser(description=__doc__)
    for name in ("CHIP.bench", "CHIP.toml", "FOLDER"):
        parser.add_argument(name.split(".")[-1].lower(), metavar=name)
    parser.add_argument("period", metavar="PERIOD", type=int)
    parser.add_argument("--sources", action="store_true", help="print when to reach the blocks")
    words = parser.parse_args()
    folder, table = f"{words.folder}/{words.period}", table_of(words.toml)
    delay, times = table.wire_delay(), Times(table)
    blocks = [line.strip() for line in lines_of(f"{words.folder}/blocks")]
    trees = [Tree(folder, block, words.period, delay) for block in blocks]
    if words.sources:
        latest = max(tree.constant for tree in trees)
        print(f"period {words.period}\nregisters {len(trees)}")
        for block, tree in zip(blocks, trees):
            print(f"block{block} {latest - tree.constant}")
        return
    top = Tree(folder, "top", None, delay)
    chip = Chip(words.bench)
    arrivals = {name: time for tree in trees for name, time in tree.arrivals.items()}
    if arrivals.keys() != chip.registers.keys():
        fail(words.folder, f"the blocks haven't the registers of {words.bench}")
    constants = {top.wires[f"block{block}"] + tree.wires[name] - time
                 for block, tree in zip(blocks, trees) for name, time in tree.arrivals.items()}
    if len(constants) != 1:
        fail(words.folder, "the wires of the whole haven't the delays of the arrivals")
    first = min(arrivals.values())
    arrivals = {name: arrivals[name] - first for name in chip.registers}
    rows = list(slacks(chip, times, arrivals, words.period))
    for name, *found in rows:
        if any(slack != "-" and slack < 0 for slack in found):
            fail(words.folder, f"{name} has a slack below 0")
    print(f"period {words.period}\nblocks {len(blocks)}")
    print(f"wire {top.wire + sum(tree.wire for tree in trees)}\nregisters {len(rows)}")
    for name, setup, hold in rows:
        print(name, arrivals[name], setup, hold)


if __name__ == "__main__":
    run(main)
