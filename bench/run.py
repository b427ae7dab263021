#!/usr/bin/env python3
"""Times each command of the built program on inputs of given sizes and of twice those, and some commands beside another
one on the same files, with their memory. Prints two tables.

usage: bench/run.py [--runs N] [--registers N] [--program FILE] [--limits] [COMMAND..]

With --limits it times each command on inputs that are at the limits instead, with as many tables and moves as there may be, and
prints the longest call first. Without COMMAND all are timed, and where they are installed berkeley-abc, which reads the same netlist, and OpenSTA,
which finds its worst setup path. A time is the least processor time of some runs. Memory is what GNU time prints, where
it is installed.
"""
import argparse
import os
import re
import shutil
import subprocess
import sys
import tempfile
from typing import NamedTuple, Optional

import inputs

TOP = os.path.dirname(os.path.dirname(os.path.abspath(__file__)))
FLOW = TOP + "/examples/flow"
# The kinds of inputs, with a number of registers.
SIZES = {"local": 2000, "sparse": 2000, "ring": 2048, "dense": 512}
# The options of each command; `demo` has numbers of its own.
COMMANDS = {
    "zero": ("bench", "tech"),
    "period": ("bench", "tech"),
    "schedule": ("bench", "tech"),
    "synth": ("bench", "tech", "pl"),
    "check": ("bench", "tech", "pl", "report"),
    "embed": ("bench", "tech", "pl", "topology"),
    "margin": ("bench", "tech", "period"),
    "moves": ("bench", "tech", "pl", "moves"),
    "corners": ("bench", "tables"),
    "demo": (),
}
DEMO_REGISTERS = 500
# Inputs at the limits on registers, signals, inputs of gates and pairs, or on pairs alone. `demo` takes at most 1000 registers.
LIMITS = {"full": 4096, "decoys": 1000}
TABLES = 16


class Bar(NamedTuple):
    """The most that a command may take of what another one does, on an input of a kind and a size."""

    command: str
    other: str
    kind: str
    registers: int
    time: float
    memory: Optional[float] = None
    # How many runs of the other one it stands for.
    runs: int = 1


BARS = [
    Bar("check", "synth", "sparse", 4000, time=1),
    Bar("embed", "synth", "sparse", 4000, time=0.5),
    # As many registers as s38417 has.
    Bar("margin", "period", "local", 1636, time=1.5),
    Bar("moves", "embed", "sparse", 4000, time=1 / 20, runs=inputs.MOVES),
    Bar("corners", "schedule", "local", 1636, time=4, memory=1.5),
]
# OpenSTA finds the worst setup slack of BASE.v with the cells of BASE.lib at a period.
WORST_SLACK = """read_liberty {base}.lib
read_verilog {base}.v
link_design top
create_clock -period {period} [get_ports clock]
report_worst_slack
"""


class Failed(Exception):
    pass


def timed(words, runs, out):
    """The least processor time in milliseconds. The output of the last run is in the file."""
    times = []
    for _ in range(runs):
        with open(out, "wb") as file:
            process = subprocess.Popen(words, stdout=file, stderr=subprocess.PIPE)
            error = process.stderr.read()
            _, status, usage = os.wait4(process.pid, 0)
        if status != 0:
            raise Failed(f"{' '.join(words)}: status {os.waitstatus_to_exitcode(status)}, {error.decode()[:200]}")
        times.append(1000 * (usage.ru_utime + usage.ru_stime))
    return min(times)


def peak(words, out):
    """The most memory that a run has at a time, in MB. GNU time starts it: the system counts what the starting process
    has, and this script has more than the program."""
    with open(out, "wb") as file:
        subprocess.run(["time", "-f", "%M", "-o", out + ".memory"] + words, stdout=file, check=True)
    return int(read(out + ".memory")) / 1024


def topology_of(report, path):
    """The merges of a report, as a topology file."""
    with open(report, encoding="ascii") as file:
        lines = file.read().split("\n")
    first = next(place for place, line in enumerate(lines) if re.fullmatch(r"merges \d+", line)) + 1
    count = int(lines[first - 1].split()[1])
    inputs.write(path, [" ".join(line.split()[:3]) for line in lines[first:first + count]])


class Input:
    """An input of a kind and a size, with what its commands need besides, made when it is asked for first."""

    def __init__(self, kind, registers, room, program, tables=len(inputs.CORNERS)):
        self.base, self.program, self.tables = f"{room}/{kind}{registers}", program, tables
        inputs.make(kind, registers, self.base)

    def option(self, name):
        """An option with its value."""
        path = f"{self.base}.{name}"
        if name == "tables":
            return [f"{self.base}.corner{1 + number % len(inputs.CORNERS)}.toml" for number in range(self.tables)]
        if name == "period":
            # That of equal arrivals.
            timed(self.words("zero"), 1, path)
            return ["--period", read(path).split()[1]]
        if name == "tech":
            path = self.base + ".toml"
        elif name == "report" and not os.path.exists(path):
            timed(self.words("synth"), 1, path)
        elif name == "topology" and not os.path.exists(path):
            topology_of(self.option("report")[1], path)
        return ["--" + name, path]

    def words(self, command):
        return [self.program, command] + [word for name in COMMANDS[command] for word in self.option(name)]

    def sta_words(self, period):
        """OpenSTA with the same circuit, as the scripts of the flow write it."""
        netlist, table = self.base + ".bench", self.base + ".toml"
        printed(self.base + ".v", "bench_to_verilog.py", netlist)
        printed(self.base + ".lib", "table_to_liberty.py", table, "greatest", netlist)
        inputs.write(self.base + ".tcl", [WORST_SLACK.format(base=self.base, period=period)])
        return ["sta", "-no_splash", "-exit", self.base + ".tcl"]


def printed(path, script, *words):
    """Keeps what a script of the flow prints."""
    with open(path, "wb") as file:
        subprocess.run([sys.executable, f"{FLOW}/{script}", *words], stdout=file, check=True)


def read(path):
    with open(path, encoding="ascii") as file:
        return file.read()


def row(name, kind, less, more):
    """A line of the table: two times and their ratio."""
    print(f"| {name} | {kind} | {less:.1f} ms | {more:.1f} ms | {more / less:.1f} |", flush=True)


def bar_row(bar, registers, amounts, unit, most, runs=1):
    """A line of the table of commands beside others: what each takes, the other one for so many runs, the ratio, and
    what that may be at most."""
    mine, other = amounts[0], amounts[1] * runs
    name = f"`{bar.other}`" + (f" {runs:,} times" if runs > 1 else "")
    cells = [f"`{bar.command}`", f"{bar.kind}, {registers}", f"{mine:.1f} {unit}", name,
             f"{other:.1f} {unit}", f"{mine / other:.3f}", "" if most is None else f"{most:g}"]
    print(f"| {' | '.join(cells)} |", flush=True)


def compare(bar, registers, runs, room, program):
    """The least times of two commands that run in turn on the same files, and their memory."""
    one, out = Input(bar.kind, registers, room, program), room + "/out"
    words = [one.words(command) for command in (bar.command, bar.other)]
    rounds = [[timed(command, 1, out) for command in words] for _ in range(runs)]
    bar_row(bar, registers, [min(times) for times in zip(*rounds)], "ms", bar.time, bar.runs)
    if shutil.which("time"):
        bar_row(bar, registers, [peak(command, out) for command in words], "MB", bar.memory)


def beside(kind, pair, runs, out):
    """What other programs take for the same netlists, and whether OpenSTA finds the same period at equal arrivals."""
    if shutil.which("berkeley-abc"):
        times = [timed(["berkeley-abc", "-q", f"read_bench {one.option('bench')[1]}"], runs, out) for one in pair]
        row("`berkeley-abc` reads the netlist", kind, *times)
    # Its library comes from a script that reads TOML.
    if shutil.which("sta") and sys.version_info >= (3, 11):
        times = []
        for one in pair:
            timed(one.words("zero"), 1, out)
            period = int(read(out).split()[1])
            times.append(timed(one.sta_words(period), runs, out))
            if not re.search(r"worst slack -?0\.00", read(out)):
                raise Failed(f"OpenSTA finds another period than {period}: {read(out)[:200]}")
        row("OpenSTA finds the worst setup path", kind, *times)


def time_sizes(given, commands, room):
    """The table of times by the size of the input."""
    print("| What | Input, registers | That many | Twice as many | Ratio |\n|---|---|---|---|---|")
    out = room + "/out"
    for kind, size in SIZES.items():
        size = given.registers or size
        pair = [Input(kind, registers, room, given.program) for registers in (size, 2 * size)]
        for command in commands:
            if command != "demo":
                times = [timed(one.words(command), given.runs, out) for one in pair]
                row(f"`{command}`", f"{kind}, {size}", *times)
        if not given.commands:
            beside(f"{kind}, {size}", pair, given.runs, out)
    if "demo" in commands:
        demos = [[given.program, "demo", "--registers", str(number), "--seed", "1"]
                 for number in (DEMO_REGISTERS, 2 * DEMO_REGISTERS)]
        row("`demo`", f"its own, {DEMO_REGISTERS}", *(timed(demo, given.runs, out) for demo in demos))


def time_limits(given, commands, room):
    """The table of calls at the limits, the longest first."""
    ones = {kind: Input(kind, size, room, given.program, TABLES) for kind, size in LIMITS.items()}
    calls = [(name, f"{kind}, {LIMITS[kind]}", ones[kind].words(name)) for name in commands if name != "demo" for kind in LIMITS]
    if "demo" in commands:
        calls.append(("demo", "its own, 1000", [given.program, "demo", "--registers", "1000", "--seed", "1"]))
    rows = []
    for name, kind, words in calls:
        time, memory = timed(words, given.runs, room + "/out") / 1000, ""
        if shutil.which("time"):
            memory = f"{peak(words, room + '/out'):.0f} MB"
        rows.append((time, f"| `{name}` | {kind} | {time:.2f} s | {memory} |"))
    print("| What | Input, registers | Time | Memory |\n|---|---|---|---|")
    print(*(line for _, line in sorted(rows, reverse=True)), sep="\n")


def time_bars(given, commands, room):
    """The table of commands beside others."""
    print("\n| What | Input, registers | It takes | Beside | It takes | Ratio | At most |")
    print("|---" * 7 + "|")
    for bar in BARS:
        if bar.command in commands:
            compare(bar, given.registers or bar.registers, given.runs, room, given.program)


def main():
    words = argparse.ArgumentParser(description=__doc__, formatter_class=argparse.RawDescriptionHelpFormatter)
    words.add_argument("--runs", type=int, default=5)
    words.add_argument("--registers", type=int, help="the smaller size, for every kind")
    words.add_argument("--program", default=TOP + "/crates/cts_program/out/cts_program")
    words.add_argument("--limits", action="store_true", help="time the calls at the limits instead")
    words.add_argument("commands", nargs="*", metavar="COMMAND", help=", ".join(COMMANDS))
    given = words.parse_args()
    commands = given.commands or list(COMMANDS)
    if not os.access(given.program, os.X_OK):
        sys.exit("bench: no built program: ./cts build makes it")
    with tempfile.TemporaryDirectory() as room:
        if given.limits:
            time_limits(given, commands, room)
            return
        time_sizes(given, commands, room)
        time_bars(given, commands, room)


try:
    main()
except Failed as failed:
    sys.exit(f"bench: {failed}")
