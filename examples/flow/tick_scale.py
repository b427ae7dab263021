#!/usr/bin/env python3
"""Prints how many ticks the unit is in which OpenSTA shows times, and the tick, for slacks.sh.

The tick is the one that the SDC says, and files that say another are refused. The unit is that of
the library, or a picosecond, in which table_to_liberty.py writes. Where an SDC for a library says
no tick, its unit stands for one.
"""
import re

from texts import UNITS, Parser, common_tick, lines_of, run, tick_of


def unit_of(library):
    """How many femtoseconds the unit of a library is, 1ns where it says none."""
    said = re.search(r'\btime_unit\s*:\s*"?\s*(\d+)\s*(fs|ps|ns|us)', "".join(lines_of(library)))
    return int(said[1]) * UNITS[said[2]] if said else UNITS["ns"]


def main():
    parser = Parser(description=__doc__)
    parser.add_argument("constraints", metavar="ARRIVALS.sdc")
    parser.add_argument("others", metavar="FILE", nargs="*")
    parser.add_argument("--library", metavar="LIBRARY.lib")
    words = parser.parse_args()
    length = common_tick([words.constraints, *words.others])
    if not words.library:
        print(float(UNITS["ps"] / length.length), length)
    elif tick_of(words.constraints):
        print(float(unit_of(words.library) / length.length), length)
    else:
        print(1, length)


if __name__ == "__main__":
    run(main)
