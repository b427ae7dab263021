#!/usr/bin/env python3
"""Prints what a clock period costs in wire: for each of some periods, how long the tree is.

A line is PERIOD WIRE TIMES, both as decimals that are rounded up to hundredths, and TIMES how often
the wire is that of the last line. Without PERIOD these are the least one, the one at which the
clock may reach all registers at once, and three between them. A period is asked for as the floor of
the delay table, so none below the least can be had. With --svg prints a drawing of the two instead.
"""
import os
import re
import subprocess
import tempfile
from fractions import Fraction
from math import ceil

from tables import Table
from texts import Parser, fail, run

CTS = os.path.join(os.path.dirname(os.path.abspath(__file__)), "../../cts")


def floored(table, period):
    """The text of a delay table with that period as its floor."""
    text = table.text
    if not table.has("period"):
        return f"{text}\n[period]\nfloor = {period}\n"
    text, count = re.subn(r"(?m)^(\s*(?:period\.)?floor\s*=\s*)[\d_]+", rf"\g<1>{period}", text)
    if count != 1:
        fail(table.path, "no line with a floor of its own stands below [period]")
    return text


def answer(program, *words):
    """The lines of an answer. A call that fails, or that finds no period, is an error."""
    try:
        ran = subprocess.run([program, *words], capture_output=True, text=True, check=False)
    except OSError as error:
        fail(program, error.strerror)
    if ran.returncode != 0:
        said = [*ran.stdout.splitlines()[:1], *ran.stderr.splitlines(), f"status {ran.returncode}"]
        fail(words[2], f"cts {words[0]} says {said[0]}")
    return ran.stdout.splitlines()


def number(lines, first):
    """What follows that word on the first line that begins with it."""
    return Fraction(next(line.split()[1] for line in lines if line.split()[0] == first))


def decimal(number):
    return f"{ceil(number * 100) / 100:.2f}".removesuffix(".00")


def usual_periods(program, circuit):
    """The least period, that of equal arrivals, and three between them."""
    found = answer(program, "period", *circuit)
    if found[1] == "zero none":
        fail(circuit[1], "no period will do where the clock reaches all registers at once:"
                         " name some")
    least, most = ceil(number(found, "period")), int(number(found, "zero"))
    return [least + (most - least) * part // 4 for part in range(5)]


def wires(words, periods):
    """The period and the wire of a tree for each of some periods."""
    given = Table(words.table)
    with tempfile.NamedTemporaryFile("w", suffix=".toml") as table:
        for period in dict.fromkeys(periods):
            table.seek(0)
            table.truncate()
            table.write(floored(given, period))
            table.flush()
            files = ("--bench", words.netlist, "--tech", table.name, "--pl", words.placement)
            found = answer(words.cts, "synth", *files)
            yield number(found, "period"), number(found[-1:], "wire")


WIDTH, HEIGHT, LEFT, TOP = 480, 260, 90, 20
STYLE = """<style>
  text { font: 14px sans-serif } line { stroke: lightgray } polyline { fill: none; stroke: black }
  circle { fill: seagreen } .end { text-anchor: end } .middle { text-anchor: middle }
</style><rect width="100%" height="100%" fill="white"/>"""


def steps(most):
    """Round numbers from 0 on, up to one that is at least as large."""
    size = max(most, 1) / 5
    ten = 10 ** (len(str(ceil(size))) - 1)
    step = next(step * ten for step in (1, 2, 5, 10) if step * ten >= size)
    return [step * count for count in range(ceil(most / step) + 1)]


def print_drawing(rows):
    """A point for each period, which go to the right, with the wire upwards."""
    rows = sorted(rows)
    first, last = rows[0][0], rows[-1][0]
    lines = steps(max(wire for _, wire in rows))

    def at(period, wire):
        right = (period - first) / (last - first or 1)
        down = 1 - wire / lines[-1]
        return round(LEFT + float(right) * WIDTH, 2), round(TOP + float(down) * HEIGHT, 2)

    size = LEFT + WIDTH + 40, TOP + HEIGHT + 60
    print('<svg xmlns="http://www.w3.org/2000/svg" viewBox="0 0 {} {}">'.format(*size) + STYLE)
    for line in map(Fraction, lines):
        y = at(first, line)[1]
        print(f'<line x1="{LEFT}" x2="{LEFT + WIDTH}" y1="{y}" y2="{y}"/>')
        print(f'<text class="end" x="{LEFT - 8}" y="{y + 5}">{decimal(line)}</text>')
    print('<polyline points="{}"/>'.format(" ".join("{},{}".format(*at(*row)) for row in rows)))
    for period, wire in rows:
        x, y = at(period, wire)
        print(f'<circle cx="{x}" cy="{y}" r="4"><title>period {decimal(period)}, '
              f'wire {decimal(wire)}</title></circle>')
        print(f'<text class="middle" x="{x}" y="{TOP + HEIGHT + 20}">{decimal(period)}</text>')
    middle = LEFT + WIDTH / 2
    print(f'<text class="middle" x="{middle}" y="{TOP + HEIGHT + 45}">period in ticks</text>')
    print(f'<text class="middle" transform="translate(16 {TOP + HEIGHT / 2}) rotate(-90)">'
          'wire in length units</text>\n</svg>')


def main():
    parser = Parser(description=__doc__)
    parser.add_argument("netlist", metavar="NETLIST.bench")
    parser.add_argument("table", metavar="TABLE.toml")
    parser.add_argument("placement", metavar="PLACED.pl")
    parser.add_argument("periods", metavar="PERIOD", type=int, nargs="*")
    parser.add_argument("--svg", action="store_true", help="print a drawing")
    parser.add_argument("--cts", default=CTS, metavar="PROGRAM")
    words = parser.parse_args()
    circuit = ("--bench", words.netlist, "--tech", words.table)
    rows = list(wires(words, words.periods or usual_periods(words.cts, circuit)))
    if words.svg:
        print_drawing(rows)
        return
    for period, wire in rows:
        print(decimal(period), decimal(wire), decimal(wire / rows[-1][1] if rows[-1][1] else 1))


if __name__ == "__main__":
    run(main)
