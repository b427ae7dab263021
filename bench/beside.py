#!/usr/bin/env python3
"""Times `zero`, `period`, `schedule` and `synth` of the built program beside another program that does the same phase by phase.

usage: bench/beside.py [--runs N] [--program FILE] OTHER NETLIST..

NETLIST is a path without suffix: NETLIST.bench, NETLIST.toml and NETLIST.pl are read. Or it is KIND:REGISTERS, an input of
bench/inputs.py, as local:1636. Where OTHER is run as `OTHER F.bench F.toml` it prints what `schedule` prints, but no cycle: the two
have to be the same. For its times it is run as `OTHER F.bench F.toml F.pl` and prints the milliseconds of processor time of its
phases as words and numbers: `parse 7.1 levels 2.0 pairs 9.4 cons 0.6 period 1.2 schedule 0.3 slacks 0.1 places 1.5 greedy64 12.0
embed 0.1 total 34.3`. A command counts the phases that it needs, and what the process of OTHER takes beside its phases. Times are
the least of some runs in turn, memory is the most that a run held.
"""
import argparse
import os
import re
import resource
import shutil
import subprocess
import sys
import tempfile

import inputs

TOP = os.path.dirname(os.path.dirname(os.path.abspath(__file__)))
# The phases that each command adds to those of the one before.
PHASES = {
    "zero": ("parse", "levels", "pairs"),
    "period": ("cons", "period"),
    "schedule": ("schedule", "slacks"),
    "synth": ("places", "greedy", "embed"),
}


def timed(words):
    """What a run prints, its processor time in milliseconds, and its memory in megabytes."""
    before = resource.getrusage(resource.RUSAGE_CHILDREN)
    ran = subprocess.run(["/usr/bin/env", "time", "-f", "%M"] + words, capture_output=True, text=True)
    after = resource.getrusage(resource.RUSAGE_CHILDREN)
    took = after.ru_utime + after.ru_stime - before.ru_utime - before.ru_stime
    return ran.stdout, 1000 * took, int(ran.stderr.split()[-1]) / 1024


def phases_of(said):
    """The milliseconds of each phase, and of all."""
    return {re.sub(r"\d+$", "", name): float(number) for name, number in re.findall(r"([a-z]+\d*) (\d+\.\d+)", said)}


def schedule_of(words):
    """The lines of a schedule without its cycle."""
    lines = subprocess.run(words, capture_output=True, text=True).stdout.splitlines()
    return [line for line in lines if not re.match(r"cycle \d+$|floor$|(setup|hold) \S+ \S+ -?\d+$", line)]


def row(program, other, netlist, runs):
    """The cells of a netlist."""
    files = [f"{netlist}.{suffix}" for suffix in ("bench", "toml", "pl")]
    options = ["--bench", files[0], "--tech", files[1]]
    if schedule_of([program, "schedule"] + options) != schedule_of([other] + files[:2]):
        sys.exit(f"{netlist}: {other} prints another schedule")
    own, beside, memory = {}, {}, {}
    for _ in range(runs):
        for command in PHASES:
            words = [program, command] + options + (["--pl", files[2]] if command == "synth" else [])
            _, took, memory[command] = timed(words)
            own[command] = min(took, own.get(command, took))
        said, took, memory[other] = timed([other] + files)
        phases = phases_of(said)
        phases["start"] = max(0, took - phases.pop("total"))
        for name, number in phases.items():
            beside[name] = min(number, beside.get(name, number))
    cells, total = [], beside["start"]
    for command, names in PHASES.items():
        total += sum(beside.get(name, 0) for name in names)
        ratio = f"{own[command] / total:.2f}" if beside.keys() & set(names) else "not beside"
        cells.append(f"{own[command]:.1f} ms, {ratio}")
    return cells + [f"{memory['synth']:.1f} and {memory[other]:.1f} MB"]


def main():
    words = argparse.ArgumentParser(description=__doc__, formatter_class=argparse.RawDescriptionHelpFormatter)
    words.add_argument("--runs", type=int, default=9)
    words.add_argument("--program", default=TOP + "/crates/cts_program/out/cts_program")
    words.add_argument("other")
    words.add_argument("netlists", nargs="+")
    given = words.parse_args()
    if not shutil.which("time"):
        sys.exit("bench: GNU time isn't there, which says what memory a run takes")
    print("| Netlist | " + " | ".join(f"`{command}`" for command in PHASES) + " | Memory of `synth` and beside |")
    print("|---" * (len(PHASES) + 2) + "|")
    with tempfile.TemporaryDirectory() as room:
        for netlist in given.netlists:
            kind, _, registers = netlist.partition(":")
            base = f"{room}/{netlist}" if kind in inputs.KINDS else netlist
            if base != netlist:
                inputs.make(kind, int(registers), base)
            cells = row(given.program, given.other, base, given.runs)
            print(f"| {os.path.basename(netlist)} | " + " | ".join(cells) + " |", flush=True)


if __name__ == "__main__":
    sys.exit(main())
