#!/usr/bin/env python3
"""Runs the commands of docs/BENCHMARKS.md whose tables stand below them, and puts what they print in place of these.

usage: bench/page.py [--program FILE] [WORD]

A command is a block of indented lines with a table behind it, or several. With WORD only those that have the word in them are
run, and without it all but the gate. The program is the built one, or the one that is named.
"""
import argparse
import os
import re
import subprocess
import sys

TOP = os.path.dirname(os.path.dirname(os.path.abspath(__file__)))
PAGE = TOP + "/docs/BENCHMARKS.md"
BLOCK = re.compile(r"((?:^    \S.*\n)+)\n((?:^\|.*\n)+(?:\n(?:^\|.*\n)+)*)", re.MULTILINE)


def measured(match, words):
    """The block with the table that its command prints now."""
    command, table = match.groups()
    if words.word not in command or ("gate" in command and not words.word):
        return match[0]
    print(command, end="", flush=True)
    if words.program:
        command = re.sub(r"(bench/(?:run|beside)\.py)", rf"\1 --program {os.path.abspath(words.program)}", command)
    ran = subprocess.run(["bash", "-e", "-c", command], cwd=TOP, stdout=subprocess.PIPE, text=True, check=False)
    if ran.returncode != 0 or not re.fullmatch(r"(\|.*\n|\n)+", ran.stdout):
        sys.exit(f"no table, and status {ran.returncode}: {ran.stdout[:200]}")
    print(ran.stdout, flush=True)
    return f"{match[1]}\n{ran.stdout}"


def main():
    parser = argparse.ArgumentParser(description=__doc__, formatter_class=argparse.RawDescriptionHelpFormatter)
    parser.add_argument("--program", metavar="FILE")
    parser.add_argument("word", metavar="WORD", nargs="?", default="")
    words = parser.parse_args()
    with open(PAGE, encoding="utf-8") as file:
        text = file.read()
    # One block after the other, so that what is measured stays where a later one fails.
    for place in range(len(BLOCK.findall(text))):
        match = list(BLOCK.finditer(text))[place]
        text = text[:match.start()] + measured(match, words) + text[match.end():]
        with open(PAGE, "w", encoding="utf-8") as file:
            file.write(text)


if __name__ == "__main__":
    main()
