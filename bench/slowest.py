#!/usr/bin/env python3
"""Checks crates from nothing, one module after the other, and tells which functions and lemma files took longest.

usage: bench/slowest.py [--count N] NAME..     N rows for all crates together, 20 if it isn't given

A check keeps a file for each module, and the file's time says when the module ended: a module took the time since the one before
it. `body` is a function's code with all that it drops, `goals` what the search closes, `answers` what is answered in proofs/. What is
kept of the crates' earlier checks is removed first, and crates below of which nothing is kept are proved before. Seconds are those of
the clock: nothing else should run.
"""

import argparse
import collections
import os
import shutil
import subprocess
import sys

PARTS = {"Lts": "body", "Proof": "goals", "Answers": "answers"}


def modules_of(crate, folder):
    """The modules that a check kept, as they ended: the seconds that each took, the function or file, and its part."""
    kept = []
    for above, _, names in os.walk(folder):
        kept += [(os.stat(os.path.join(above, name)).st_mtime, name) for name in names]
    kept.sort()
    for (before, _), (after, name) in zip(kept, kept[1:]):
        words = name.replace(".decls", "").replace(".oantt", "").split(".")
        if words[0] != f"Rattle-{crate}-proofs":
            continue
        part = next((word for word in words if word in PARTS), "other")
        inside = words[1:words.index(part)] if part in words else words[1:-1] or words[1:]
        yield after - before, f"{crate} {'::'.join(inside)}", PARTS.get(part, part)


def check(crate):
    folder = f"crates/{crate}"
    kept = f"{folder}/out/incremental"
    shutil.rmtree(kept, ignore_errors=True)
    subprocess.run(["rt", "check", "--jobs", "1"], cwd=folder, check=True, stdout=sys.stderr)
    return modules_of(crate, kept)


def main():
    words = argparse.ArgumentParser(description=__doc__, formatter_class=argparse.RawDescriptionHelpFormatter)
    words.add_argument("--count", type=int, default=20, metavar="N")
    words.add_argument("crates", nargs="+", metavar="NAME")
    given = words.parse_args()
    os.chdir(os.path.join(os.path.dirname(os.path.abspath(__file__)), ".."))
    seconds = collections.defaultdict(collections.Counter)
    for crate in given.crates:
        for took, function, part in check(crate):
            seconds[function][part] += took
    slowest = sorted(seconds, key=lambda function: -sum(seconds[function].values()))
    for function in slowest[:given.count]:
        parts = ", ".join(f"{part} {took:.1f}" for part, took in seconds[function].most_common() if took >= 0.5)
        print(f"{sum(seconds[function].values()):7.1f} {function}: {parts}")


if __name__ == "__main__":
    main()
