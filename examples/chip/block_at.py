#!/usr/bin/env python3
"""Writes the netlist and the delay table of some blocks for one period: FOLDER/PERIOD/BLOCK.bench
and .toml, of what cut.py has written to FOLDER.

All that is outside is the host. The host launches at a register's delay, and behind gates that take
what a border register of another block may be later than the host, its signal stands for what that
one launches. A border register of the block's own has a path from the host, whose setup holds it to
its earliest arrival, and one to the host, whose setup holds it to its latest.
"""
import os

from chip import Border, Times
from tables import Table
from texts import Parser, fail, lines_of, run, write_files


class Common:
    """What all blocks have in common."""

    def __init__(self, folder):
        said = {words[0]: words[1:] for words in map(str.split, lines_of(f"{folder}/cut/common"))}
        (self.join, self.step), (self.prefix,) = said["kinds"], said["host"]
        self.first, self.table = int(said["period"][0]), Table(said["table"][0])
        self.times = Times(self.table)

    def late(self, delay):
        """The name of what the host launches, so many ticks later."""
        return f"{self.prefix}:{delay}" if delay else self.prefix

    def delay(self, name, first, delay):
        """A line that gives a signal up to 1000 ticks later under another name."""
        return f"{name} = {self.step}({', '.join([first] * (delay + 1))})"

    def joined(self, name, reads):
        """Lines that join signals, a thousand in a gate, at no delay."""
        part = 0
        while len(reads) > 1000:
            part += 1
            yield f"{name}:{part} = {self.join}({', '.join(reads[:1000])})"
            reads = [f"{name}:{part}", *reads[1000:]]
        yield f"{name} = {self.join}({', '.join(reads)})"

    def launched(self, delays):
        """The lines of the host's signal at each of some delays, each made of the one before."""
        yield f"INPUT({self.prefix})"
        last = 0
        for delay in sorted(delays):
            while last < delay:
                step = min(delay - last, 1000)
                yield self.delay(self.late(last + step), self.late(last), step)
                last += step

    def captured(self, groups):
        """The lines that bring signals to the host at some delays, those of the longest first."""
        name, last = None, max(groups, default=0)
        for place, delay in enumerate(sorted({*groups, 0}, reverse=True) if groups else []):
            while last > delay:
                step = min(last - delay, 1000)
                yield self.delay(f"{self.prefix}:o{place}.{last}", name, step)
                name, last = f"{self.prefix}:o{place}.{last}", last - step
            reads = groups.get(delay, []) + ([name] if name else [])
            name = f"{self.prefix}:c{place}"
            yield from self.joined(name, reads)
        if name:
            yield f"OUTPUT({name})"


def border_lines(common, path, period):
    """The lines of a netlist for the registers that launch over the block's border."""
    times, delays, groups, lines = common.times, set(), {}, []
    for words in map(str.split, lines_of(path)):
        border = Border(words[1], int(words[2]), int(words[3]))
        least, latest = border.window(period, times)
        if words[0] == "in":
            delays |= {least, latest}
            reads = common.late(least), common.late(latest)
            lines += common.joined(border.name, [*dict.fromkeys(reads)])
            continue
        room = period - times.setup - times.greatest
        delays.add(room + least)
        reads = [common.late(room + least), *words[4:]]
        lines += common.joined(f"{common.prefix}:{border.name}", reads)
        groups.setdefault(room - latest, []).append(border.name)
    return [*common.launched(delays), *lines, *common.captured(groups)]


def table_lines(common, period):
    """The table of the chip with the host, the period and the two kinds that stand for delays."""
    entries = {**common.table.entries, "host": {"place": common.prefix},
               "source": {"place": common.prefix}, "period": {"floor": period}}
    gates = dict(entries.pop("gate", {}))
    for kind, each in ((common.join, 0), (common.step, 1)):
        gates[kind] = {"least": 0, "greatest": 0,
                       "least_per_input": each, "greatest_per_input": each}
    for name, values in {**entries, **{f"gate.{kind}": gates[kind] for kind in gates}}.items():
        yield f"[{name}]"
        for key, value in values.items():
            yield f'{key} = "{value}"' if isinstance(value, str) else f"{key} = {value}"


def main():
    parser = Parser(description=__doc__)
    parser.add_argument("folder", metavar="FOLDER")
    parser.add_argument("period", metavar="PERIOD", type=int)
    parser.add_argument("blocks", metavar="BLOCK", nargs="+")
    words = parser.parse_args()
    common = Common(words.folder)
    if words.period < common.first:
        fail(words.folder, f"the borders need a period of {common.first} at least")
    files, at = {}, f"{words.folder}/{words.period}"
    for block in words.blocks:
        cut = f"{words.folder}/cut/{block}"
        logic = "".join(lines_of(f"{cut}.logic"))
        lines = border_lines(common, f"{cut}.border", words.period)
        files[f"{at}/{block}.bench"] = "\n".join([*lines, logic])
        files[f"{at}/{block}.toml"] = "\n".join([*table_lines(common, words.period), ""])
    os.makedirs(at, exist_ok=True)
    write_files(files)


if __name__ == "__main__":
    run(main)
