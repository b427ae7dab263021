"""What the scripts have in common: how they read files and say a tick, and how they end.

A script that fails prints nothing but one line on the error output, which names the file and what
is wrong with it.
"""
import argparse
import contextlib
import io
import os
import re
import sys
from dataclasses import dataclass, field
from decimal import Decimal
from fractions import Fraction
from itertools import count, islice

HOST = "(host)"
UNITS = {"fs": 1, "ps": 10**3, "ns": 10**6, "us": 10**9}  # each in the first
COUNTED = {"cycle", "registers", "merges", "nodes"}  # what has its count behind it in a text of cts


def fail(path, message):
    sys.exit(f"{path}: {message}")


def lines_of(path):
    """The lines of a file. One that can't be read is an error."""
    try:
        with open(path, encoding="utf-8", errors="surrogateescape") as file:
            return file.readlines()
    except OSError as error:
        fail(path, error.strerror)


def write_files(texts):
    """Writes each file of {path: text}, or none of them where one can't be written."""
    drafts = {path: f"{path}.{os.getpid()}" for path in texts}
    try:
        for path, draft in drafts.items():
            with open(draft, "w", encoding="utf-8", errors="surrogateescape") as file:
                file.write(texts[path])
        for path, draft in drafts.items():
            os.replace(draft, path)
    except OSError as error:
        for draft in drafts.values():
            with contextlib.suppress(OSError):
                os.remove(draft)
        fail(path, error.strerror)


class Parser(argparse.ArgumentParser):
    """Says what is wrong with the words of a call in one line."""

    def error(self, message):
        self.exit(2, f"{self.prog}: {message}\n")


def run(main):
    """Runs a script. What it prints stands on the standard output only if all of it is there."""
    text, status = io.StringIO(), None
    try:
        with contextlib.redirect_stdout(text):
            status = main()
    except SystemExit as end:
        if end.code:
            raise
    sys.stdout.reconfigure(encoding="utf-8", errors="surrogateescape")
    try:
        print(text.getvalue(), end="", flush=True)
    except OSError as error:
        # What waits to be written is given up, so that Python doesn't try once more.
        os.dup2(os.open(os.devnull, os.O_WRONLY), sys.stdout.fileno())
        fail("the standard output", error.strerror)
    sys.exit(status)


@dataclass(frozen=True)
class Tick:
    """How long a tick is, in femtoseconds, and the unit in which that is said."""

    length: Fraction
    unit: str = field(compare=False)

    def count(self, unit):
        """How many of the unit a tick is."""
        return self.length / UNITS[unit]

    def __str__(self):
        number = self.count(self.unit)
        if is_decimal(number):
            number = decimal(number, places_of(number))
        return f"{number}{self.unit}"


def tick(text):
    """A tick as 1ps, 2.5ns or 1/3ps says it."""
    parts = re.fullmatch(r"(\d+/0*[1-9]\d*|\d+\.?\d*|)(fs|ps|ns|us)", text)
    if not parts or (number := Fraction(parts[1] or 1)) == 0:
        raise argparse.ArgumentTypeError(f"{text} is no tick: one is above 0, as 10ps")
    return Tick(number * UNITS[parts[2]], parts[2])


def is_decimal(number):
    """Whether some number of digits behind the point is enough."""
    return 10 ** number.denominator.bit_length() % number.denominator == 0


def places_of(number):
    """How many digits behind the point a decimal needs."""
    return next(places for places in count() if number * 10**places % 1 == 0)


def decimal(number, places):
    return f"{Decimal(number.numerator) / number.denominator:.{places}f}"


def tick_of(path):
    """The tick that the comments at the head of a file say, or none."""
    for line in lines_of(path):
        if said := re.match(r"#\s*tick\s+(\S+)\s*$", line):
            try:
                return tick(said[1])
            except argparse.ArgumentTypeError as error:
                fail(path, error)
        if line.strip() and not line.startswith("#"):
            return None
    return None


def common_tick(paths, given=None):
    """The tick that the call and some files say, else 1ps. Two that differ are an error."""
    source = "--tick"
    for path in paths:
        found = tick_of(path)
        if found and given and found != given:
            fail(path, f"its tick is {found}, and that of {source} is {given}")
        if found and not given:
            given, source = found, path
    return given or tick("1ps")


def parts_of(path, kind, *needed):
    """The parts of a text of cts by their first words: lines of words, or the words themselves.

    A text that lacks one of those that are needed isn't of its kind, and is an error.
    """
    lines, parts = iter([line.split() for line in lines_of(path) if line.strip()]), {}
    for words in lines:
        if words[0] in COUNTED and len(words) == 2 and words[1].isdecimal():
            # In version 2 each constraint of a cycle has a line with its path behind it.
            each = 2 if words[0] == "cycle" and parts.get("cts") == ["cts", "2"] else 1
            parts[words[0]] = list(islice(lines, int(words[1]) * each))
            if len(parts[words[0]]) < int(words[1]) * each:
                fail(path, f"the text ends in the middle of its {words[0]}")
        else:
            parts.setdefault(words[0], words)
    if not parts:
        fail(path, "the text is empty")
    if parts.get("never") == ["never"]:
        fail(path, "no period will do, so there are no arrivals")
    if not set(needed) <= parts.keys():
        fail(path, f"not {kind}")
    return parts


def arrivals_of(path):
    """The period and a list of the names of registers with their arrivals."""
    kind = "a period with the arrivals of registers, as schedule prints it"
    parts = parts_of(path, kind, "period", "registers")
    try:
        arrivals = [(words[0], Fraction(words[1])) for words in parts["registers"]]
        period = Fraction(parts["period"][1])
    except (ValueError, IndexError, ZeroDivisionError):
        fail(path, f"not {kind}")
    if not arrivals:
        fail(path, f"not {kind}")
    return period, arrivals
