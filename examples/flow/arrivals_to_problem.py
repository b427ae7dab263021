#!/usr/bin/env python3
"""Writes OUT.bench and OUT.toml, of which synth makes the clock tree for given arrivals.

The text with the arrivals is one of margin or corners, or any that arrivals_to_sdc.py reads; the
table has the wire's delay and the nodes of the source and the host. In the netlist the earliest
register launches to each later one, through gates whose delay is the period and how much later that
one is. The period is the floor of the new table, so at it no register can be reached earlier. Where
arrivals are fractions, a tick of the new files is so small a part of one that all are whole; the
script then says so on the error output. How long a tick is stands at the head of both files.
"""
import json
import sys
from fractions import Fraction
from math import lcm

from tables import Table
from texts import HOST, Parser, Tick, arrivals_of, common_tick, fail, run, tick, write_files

# What each input behind the first adds, and what a gate of one input takes, each at the least and
# at the greatest.
DIGITS = {"NOR": 1000, "OR": 100, "NAND": 10, "AND": 1}
LONGEST, LONG = "XOR", 1000000


def chain(last, first, delay):
    """Lines of gates from one signal to another that together take the delay."""
    widths = [(LONGEST, 1)] * (delay // LONG)
    delay %= LONG
    for kind, digit in DIGITS.items():
        if delay >= digit:
            widths.append((kind, delay // digit + 1))
            delay %= digit
    for place, (kind, width) in enumerate(widths or [("BUFF", 1)], 1):
        name = last if place >= len(widths) else f"{last}:{place}"
        yield f"{name} = {kind}({', '.join([first] * width)})"
        first = name


def netlist(period, delays):
    """The lines of a netlist where no register needs to be reached earlier than its delay says."""
    # The host only where it alone is the earliest: it launches what comes in.
    earliest = min(delays, key=lambda name: (delays[name], name == HOST))
    first = "host:in" if earliest == HOST else earliest
    if earliest == HOST:
        yield f"INPUT({first})"
    for name, delay in delays.items():
        is_later = delay > delays[earliest]
        captured = "host:out" if name == HOST else f"{name}:d" if is_later else name
        if name != HOST:
            yield f"{name} = DFF({captured})"
        elif is_later:
            yield f"OUTPUT({captured})"
        if is_later:
            yield from chain(captured, first, period + delay - delays[earliest])


def table(given, parts, period):
    """The lines of a delay table whose tick is that part of the given one's."""
    delay = given.wire_delay() * parts
    if delay.numerator > LONG or delay.denominator > LONG or period > 1000 * LONG:
        fail(given.path, f"with ticks of 1/{parts} the wire's delay or the period is too large")
    yield f'[wire]\ndelay = "{delay.numerator}/{delay.denominator}"'
    for node in ("source", "host"):
        if node == "source" or given.has(node):
            yield f"[{node}]\nplace = {json.dumps(given.at(node, 'place'))}"
    yield "[register]\nsetup = 0\nhold = 0\nleast = 0\ngreatest = 0"
    yield f"[period]\nfloor = {period}"
    for kind in [*DIGITS, LONGEST, "BUFF"]:
        base, digit = LONG if kind == LONGEST else 0, DIGITS.get(kind, 0)
        yield f"[gate.{kind}]\nleast = {base}\ngreatest = {base}"
        yield f"least_per_input = {digit}\ngreatest_per_input = {digit}"


def main():
    parser = Parser(description=__doc__)
    parser.add_argument("text", metavar="TEXT")
    parser.add_argument("table", metavar="TABLE.toml")
    parser.add_argument("out", metavar="OUT")
    parser.add_argument("--tick", type=tick, help="how long a tick of the table is, else 1ps")
    words = parser.parse_args()
    period, arrivals = arrivals_of(words.text)
    given, length = Table(words.table), common_tick([words.table, words.text], words.tick)
    parts = lcm(period.denominator, *(arrival.denominator for _, arrival in arrivals))
    delays = {name: int(arrival * parts) for name, arrival in arrivals}
    shorter = Tick(Fraction(length.length, parts), length.unit)
    texts = {"toml": table(given, parts, int(period * parts)),
             "bench": netlist(int(period * parts), delays)}
    write_files({f"{words.out}.{end}": "\n".join([f"# tick {shorter}", *lines, ""])
                 for end, lines in texts.items()})
    if parts > 1:
        print(f"{words.out}.toml: a tick is {shorter} here, and {length} in {words.table}",
              file=sys.stderr)


if __name__ == "__main__":
    run(main)
