#!/usr/bin/env python3
"""Prints the slacks of a report beside those that slacks.sh found, register by register.

A line is NAME SETUP FOUND DIFFERENCE HOLD FOUND DIFFERENCE, as decimals in ticks, a difference what
is found less what is printed, with - for what isn't there. The last line is the largest difference
and where it is. With --within T the status is 1 where a difference is above T or one of two isn't
there. With --safe only what is found below the printed slack counts, and what is found alone. Of a
mapped netlist, --netlist says which instance a register is.
"""
import sys
from fractions import Fraction

from bench_to_verilog import plain
from mapped_verilog import Netlist, add_pins
from texts import Parser, fail, lines_of, parts_of, run

CHECKS = "setup", "hold"


def slack(text):
    return None if text == "-" else Fraction(text)


def printed_in(path):
    """The setup and the hold slack of each register of a report, or of what schedule prints."""
    kind = "the slacks of registers, as schedule prints them"
    registers = parts_of(path, kind, "registers")["registers"]
    try:
        return {plain(name): (slack(setup), slack(hold)) for name, _, setup, hold in registers}
    except (ValueError, ZeroDivisionError):
        fail(path, f"not {kind}")


def found_in(path):
    """The same as slacks.sh prints them."""
    found = {}
    for number, line in enumerate(lines_of(path), 1):
        try:
            name, setup, hold = line.split()
            found[plain(name)] = slack(setup), slack(hold)
        except (ValueError, ZeroDivisionError):
            fail(path, f"line {number} is no slack, as slacks.sh prints it")
    if not found:
        fail(path, "there are no slacks")
    return found


def limit(text):
    if (number := Fraction(text)) < 0:
        raise ValueError
    return number


def shown(number):
    return "-" if number is None else f"{float(number):.6f}".rstrip("0").rstrip(".")


class Comparison:
    """Takes pairs of slacks, and keeps the largest difference and what is on one side alone."""

    def __init__(self, is_safe):
        self.is_safe, self.largest, self.alone = is_safe, (Fraction(0), "", ""), []

    def take(self, name, check, printed, found):
        """The three words for a check of a register."""
        difference = None
        if printed is not None and found is not None:
            difference = found - printed
            size = max(0, -difference) if self.is_safe else abs(difference)
            if size > self.largest[0]:
                self.largest = size, check, name
        elif printed != found and not (self.is_safe and found is None):
            self.alone.append(f"{name} has a {check} slack on one side alone")
        return " ".join(map(shown, (printed, found, difference)))


def main():
    parser = Parser(description=__doc__)
    parser.add_argument("report", metavar="REPORT")
    parser.add_argument("slacks", metavar="SLACKS")
    parser.add_argument("--within", metavar="T", type=limit, help="the largest that will do")
    parser.add_argument("--safe", action="store_true", help="more may be found than is printed")
    parser.add_argument("--netlist", metavar="MAPPED.v")
    add_pins(parser)
    words = parser.parse_args()
    printed, found = printed_in(words.report), found_in(words.slacks)
    instances = {name: name for name in printed}
    if words.netlist:
        instances = Netlist(words.netlist).registers(words.pin, words.output)
    for name in printed:
        if name not in instances:
            fail(words.netlist, f"no register drives {name}")
    names = {instances[name]: name for name in printed}
    for name in found:
        if name not in names:
            fail(words.slacks, f"{name} is no register of {words.report}")
    comparison = Comparison(words.safe)
    for instance, name in names.items():
        slacks = zip(CHECKS, printed[name], found.get(instance, (None, None)))
        print(name, *(comparison.take(name, *check) for check in slacks))
    size, *where = comparison.largest
    print("largest", shown(size), *filter(None, where))
    for line in comparison.alone[:1]:
        print(line, file=sys.stderr)
    return words.within is not None and (size > words.within or bool(comparison.alone))


if __name__ == "__main__":
    run(main)
