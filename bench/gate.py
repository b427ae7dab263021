#!/usr/bin/env python3
"""Runs `rt ci` and prints the table of what it is made of: processor minutes of each crate's proof, of its tests, and of its edits,
and at last how long it took by the clock. `bench/page.py gate` puts the table into docs/BENCHMARKS.md.

usage: bench/gate.py [NAME..]     the words are those of `rt ci`; its output goes to standard error

An edit's check begins with a check of the whole crate, which is counted by itself. Times are those of the prover's processes, read
once a second from /proc; what ends within a second is missed. What a run keeps from earlier ones has no time here, so the whole
table needs a run from nothing on a machine that does nothing else. A run that is ended by a signal leaves the table of what it did.
"""

import collections
import os
import signal
import subprocess
import sys
import time

PROVER = "rattle"
KINDS = ("proof", "tests", "begin", "edits")
TICKS = os.sysconf("SC_CLK_TCK")


def words_of(process):
    with open(f"/proc/{process}/cmdline", "rb") as file:
        return file.read().decode(errors="replace").split("\0")


def stat_of(process):
    """The parent of a process, its group, and the seconds of processor time of it and of its ended children."""
    with open(f"/proc/{process}/stat", "rb") as file:
        fields = file.read().rsplit(b")", 1)[1].split()
    return int(fields[1]), sum(int(field) for field in fields[11:15]) / TICKS


def kind_of(words, folder):
    """What a prover's run is for, and of which crate; nothing where it is no proof of a crate."""
    if not words[0].endswith("/" + PROVER) or "--crate-name" not in words:
        return None
    crate = words[words.index("--crate-name") + 1]
    if "/rt-edit-" in folder:
        seed = any(word.endswith("/seed") for word in words)
        return crate, "begin" if seed and "--incremental" in words else "edits"
    return crate, "tests" if "--test" in words else "proof"


def look(top, seconds):
    """Keeps for each run of the prover below a process how long it has run."""
    parents, runs = {}, {}
    for process in filter(str.isdigit, os.listdir("/proc")):
        try:
            parents[int(process)], spent = stat_of(process)
            kind = kind_of(words_of(process), os.readlink(f"/proc/{process}/cwd"))
        except (OSError, IndexError):
            continue
        if kind:
            runs[int(process)] = (kind, spent)
    for process, (kind, spent) in runs.items():
        above = process
        while above in parents and above != top:
            above = parents[above]
        if above == top and parents.get(process) not in runs:
            seconds[process, kind] = spent


def table(seconds, clock):
    minutes = collections.defaultdict(lambda: collections.defaultdict(float))
    for (_, (crate, kind)), spent in seconds.items():
        minutes[crate][kind] += spent / 60
    rows = sorted(minutes, key=lambda crate: -sum(minutes[crate].values()))
    print("| Crate | Proof | Tests | Edits begin | Edits | All |\n|---|---|---|---|---|---|")
    for name, crates in [*((f"`{crate}`", [crate]) for crate in rows), ("all", rows)]:
        spent = [sum(minutes[crate][kind] for crate in crates) for kind in KINDS]
        print(f"| {name} | {' | '.join(f'{one:.1f}' for one in spent)} | {sum(spent):.1f} |")
    print(f"| by the clock | | | | | {clock:.0f} |")


def main():
    if sys.argv[1:] in (["--help"], ["-h"]):
        print(__doc__.strip())
        return
    if any(word.startswith("-") for word in sys.argv[1:]):
        sys.exit(__doc__.strip())
    began = time.time()
    seconds = {}
    gate = subprocess.Popen(["rt", "ci", *sys.argv[1:]], stdout=sys.stderr)
    signal.signal(signal.SIGTERM, lambda *_: gate.terminate())
    while gate.poll() is None:
        look(gate.pid, seconds)
        time.sleep(1)
    table(seconds, (time.time() - began) / 60)
    sys.exit(gate.returncode)


if __name__ == "__main__":
    main()
