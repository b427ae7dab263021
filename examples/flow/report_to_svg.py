#!/usr/bin/env python3
"""Prints a report as a drawing, in SVG.

Wires are drawn as the report has them, in orange where one is longer than the way between its ends,
so that it delays the clock. What lies outside of all registers, merges and the source is drawn to a
smaller scale. Arrows are the critical cycle: a red one a path whose setup limits the period, from
where it is launched to where it is captured, a blue one a hold, from where it is captured; each
keeps to its left, so that two of one pair lie side by side. The registers of the cycle have their
names beside them. A bar says how long some length units are. Below stands a bar for each arrival,
in the order of the registers. Each mark has its name as a title.
"""
from fractions import Fraction
from xml.sax.saxutils import escape, quoteattr

from texts import Parser, fail, parts_of, run

SIDE, MARGIN, BAND, BARS, LINE, BEND = 800, 20, 80, 140, 20, 24
STYLE = """<style>
  polyline { fill: none; stroke: black } .detour { stroke: darkorange; stroke-width: 2 }
  .cycle { fill: none; stroke-width: 2 } .setup { stroke: red; marker-end: url(#red) }
  .hold { stroke: blue; marker-end: url(#blue) } text { font: 14px sans-serif }
  .critical { font-weight: bold; paint-order: stroke; stroke: white; stroke-width: 3px }
  .scale { fill: none; stroke: black }
  .register, .bar { fill: seagreen } .merge { fill: gray } .source { fill: purple }
</style><rect width="100%" height="100%" fill="white"/>"""
TIP = """<marker id="{0}" viewBox="0 0 8 8" refX="8" refY="4" markerWidth="6" markerHeight="6"
  orient="auto"><path d="M0,0 L8,4 L0,8 z" fill="{0}"/></marker>"""
LEGEND = " \u00a0 ".join(f'<tspan fill="{color}">{text}</tspan>' for color, text in (
    ("seagreen", "\u25a0 register"), ("gray", "\u25cf merge"), ("purple", "\u25b2 source"),
    ("black", "\u2014 wire"), ("darkorange", "\u2014 with a detour"), ("red", "\u2192 setup"),
    ("blue", "\u2192 hold")))


class Report:
    """The parts of a report that are drawn."""

    def __init__(self, path):
        kind = "a report, as synth prints it"
        parts = parts_of(path, kind, "cts", "period", "registers", "merges", "nodes", "wire")
        self.cycle = [words for words in parts.get("cycle", []) if words[0] != "path"]
        self.title = f"period {parts['period'][1]}, wire {parts['wire'][1]}"
        self.places, self.lengths, self.wires = [], [], []
        try:
            self.registers = [(words[0], Fraction(words[1])) for words in parts["registers"]]
            for numbers in ([Fraction(word) for word in words[1:]] for words in parts["nodes"]):
                self.places.append(numbers[:2])
                self.lengths.append(numbers[2])
                self.wires.append(list(zip(numbers[4::2], numbers[5::2])))
        except (ValueError, IndexError, ZeroDivisionError):
            fail(path, f"not {kind}")
        if len(self.wires) < len(self.registers) or not all(self.wires):
            fail(path, f"not {kind}")


class Drawing:
    """Places of a report on the sheet, where y goes down."""

    def __init__(self, report):
        self.box = [(min(line), max(line)) for line in zip(*report.places, report.wires[-1][0])]
        points = (point for wire in report.wires for point in wire)
        ends = [(min(line), max(line)) for line in zip(*points)]
        far = max(abs(end - edge) for pair in zip(self.box, ends) for edge, end in zip(*pair))
        self.scale = (SIDE - 2 * BAND) / (max(high - low for low, high in self.box) or 1)
        self.outside = min(self.scale, BAND / far) if far > 0 else 0
        self.bottom = self.along(1, self.box[1][1]) + BAND + 4 * LINE
        self.bar = min(60, SIDE / len(report.registers))
        self.is_named = all(9 * len(name) <= self.bar for name, _ in report.registers)

    def along(self, axis, value):
        low, high = self.box[axis]
        inside = min(max(value, low), high)
        return float(MARGIN + BAND + (inside - low) * self.scale + (value - inside) * self.outside)

    def at(self, x, y):
        return round(self.along(0, x), 2), round(self.bottom + MARGIN - self.along(1, y), 2)


def titled(shape, kind, title, **values):
    values = " ".join(f'{key}="{value}"' for key, value in values.items())
    print(f"<{shape} class={quoteattr(kind)} {values}><title>{escape(title)}</title></{shape}>")


def write(x, y, text, words=""):
    print(f'<text x="{x}" y="{y}"{words}>{text}</text>')


def draw_tree(report, drawing):
    for node, (wire, length) in enumerate(zip(report.wires, report.lengths)):
        distance = sum(abs(one - other) for one, other in zip(wire[0], wire[-1]))
        title = f"node {node}: {length}, of which {distance} is needed"
        points = " ".join("{},{}".format(*drawing.at(*point)) for point in wire)
        titled("polyline", "detour" if length > distance else "wire", title, points=points)
    side = min(8, 160 / len(report.registers) ** 0.5)
    for node, place in enumerate(report.places):
        x, y = drawing.at(*place)
        if node >= len(report.registers):
            titled("circle", "merge", f"node {node}", cx=x, cy=y, r=side * 3 / 8)
            continue
        name, arrival = report.registers[node]
        box = {"x": x - side / 2, "y": y - side / 2, "width": side, "height": side}
        titled("rect", "register", f"{name} at {arrival}", **box)
        if drawing.is_named:
            write(x + 6, y - 6, escape(name))
    x, y = drawing.at(*report.wires[-1][0])
    titled("polygon", "source", "source", points=f"{x},{y - 8} {x - 7},{y + 5} {x + 7},{y + 5}")


def arrow(start, end):
    """A way from one place to another that bends to its left, so that none lies on the way back."""
    (x, y), (right, down) = start, (end[0] - start[0], end[1] - start[1])
    length = (right * right + down * down) ** 0.5
    if length == 0:
        return f"M{x},{y} c-40,-40 -40,40 0,0"
    bend = min(BEND, length / 4) / length
    aside = x + right / 2 + 2 * bend * down, y + down / 2 - 2 * bend * right
    return f"M{x},{y} Q{aside[0]:.2f},{aside[1]:.2f} {end[0]},{end[1]}"


def draw_cycle(report, drawing):
    numbers = {name: number for number, (name, _) in enumerate(report.registers)}
    named = {}
    for kind, *names, weight in report.cycle:
        ends = [drawing.at(*report.places[numbers[name]]) for name in names]
        named |= zip(names, ends)
        way = arrow(*(ends if kind == "setup" else ends[::-1]))
        titled("path", f"cycle {kind}", " ".join([kind, *names, weight]), d=way)
    if not drawing.is_named:
        draw_names(named)


def draw_names(places):
    """Each name beside its place, a line lower or higher where another is in its way."""
    taken = []
    for name, (x, y) in places.items():
        heights = (y + LINE * step - 8 for step in (0, 1, -1, 2, -2, 3, -3))
        height = next((height for height in heights if not any(
            abs(height - other) < LINE and x < right and left < x + 9 * len(name)
            for left, right, other in taken)), y - 8)
        taken.append((x, x + 9 * len(name), height))
        write(x + 6, height, escape(name), ' class="critical"')


def draw_scale(drawing, bottom):
    """A bar of a round number of length units, at most a quarter of the sheet long."""
    most = SIDE / 4 / drawing.scale
    ten = Fraction(10) ** (len(str(int(most))) - 1 if most >= 1 else -len(str(int(1 / most))))
    length = max(step * ten for step in (1, 2, 5) if step * ten <= most)
    left, right = MARGIN, round(MARGIN + float(length * drawing.scale), 2)
    ends = f"M{left},{bottom - 5} v10 M{left},{bottom} H{right} M{right},{bottom - 5} v10"
    titled("path", "scale", f"{length} length units", d=ends)
    write(right + 8, bottom + 5, f"{length} length unit{'s' if length != 1 else ''}")


def draw_arrivals(report, drawing, bottom):
    times = [arrival for _, arrival in report.registers]
    least, most = min([0, *times]), max(times)
    write(MARGIN, bottom - BARS - 8, f"arrivals, the last at {most}")
    for number, (name, arrival) in enumerate(report.registers):
        left = round(MARGIN + number * drawing.bar, 2)
        height = round(float(BARS * (arrival - least) / (most - least or 1)), 2)
        box = {"x": left, "y": bottom - height, "width": drawing.bar * 0.8, "height": height}
        titled("rect", "bar", f"{name} at {arrival}", **box)
        if drawing.is_named:
            write(left, bottom + LINE - 4, escape(name))


def main():
    parser = Parser(description=__doc__)
    parser.add_argument("report", metavar="REPORT.cts")
    report = Report(parser.parse_args().report)
    drawing = Drawing(report)
    bottom = drawing.bottom + BARS + 4 * LINE
    size = f'viewBox="0 0 {SIDE + 2 * MARGIN} {bottom + 2 * LINE}"'
    print(f'<svg xmlns="http://www.w3.org/2000/svg" {size}>{STYLE}')
    print(TIP.format("red"), TIP.format("blue"))
    write(MARGIN, 24, report.title)
    write(MARGIN, 24 + LINE, LEGEND)
    draw_scale(drawing, 24 + 2 * LINE)
    draw_tree(report, drawing)
    draw_cycle(report, drawing)
    draw_arrivals(report, drawing, bottom)
    print("</svg>")


if __name__ == "__main__":
    run(main)
