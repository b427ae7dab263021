#!/usr/bin/env python3
"""Prints the period and the arrivals of a text of cts as SDC.

The text is one of schedule, synth, embed, margin or corners, or one of wire_delays.py. A time that
isn't a whole number of thousandths of a tick is rounded: the period up, and every arrival down. As
all delays are whole ticks, what held before then still holds: no setup or hold slack that was at
least 0 falls below 0. A tick that is no decimal, as a third, is rounded too, by less than a
millionth of it for each time. Without --netlist a register's instance has the register's name. With
it, it is the instance of the mapped netlist whose output drives the net of that name. A host is a
clock of its own, at whose arrival inputs other than the clock are launched and outputs captured;
its times are those of the table. The tick is that of the tables, of the text or of --tick.
"""
from fractions import Fraction
from itertools import count
from math import ceil, floor

from bench_to_verilog import CLOCK, Names, plain, statements
from mapped_verilog import Netlist, add_pins
from tables import Table
from texts import (HOST, UNITS, Parser, arrivals_of, common_tick, decimal, fail, is_decimal,
                   places_of, run, tick)

STEPS = 1000  # steps in a tick, to which times are rounded
FINE = 1000000  # steps in a tick that is no decimal
ROUNDED = "# The period is rounded up, and arrivals are rounded down."


class Scale:
    """How times in ticks are written in the unit of the SDC."""

    def __init__(self, length, unit):
        self.unit, self.tick = unit, length.count(unit)
        self.is_exact = is_decimal(self.tick)
        if self.is_exact:
            self.step = self.tick / STEPS
            self.places = places_of(self.step)
        else:
            self.places = next(places for places in count() if self.tick * 10**places >= FINE)
            self.step = Fraction(1, 10**self.places)

    def is_whole(self, time):
        return time * self.tick % self.step == 0

    def decimal(self, time, to_whole=floor):
        return decimal(to_whole(time * self.tick / self.step) * self.step, self.places)


def pattern(name):
    """A name as a pattern that matches no other. A backslash in front is Verilog's mark."""
    return "".join("\\" + byte if byte in "\\[]{}*?/ " else byte for byte in plain(name))


def print_host(scale, period, arrival, table, netlist):
    """The clock of all that is outside, and the times of inputs and outputs."""
    table, netlist = Table(table), list(statements(netlist))
    times = {key: table.number("register", key) for key in ("greatest", "least", "setup", "hold")}
    names = Names(netlist)
    ports = " ".join(pattern(names.wires[name]) for name in names.inputs)
    print(f"create_clock -name host -period {period}")
    print(f"set_clock_latency {scale.decimal(arrival)} [get_clocks host]")
    if ports:
        for bound, key in (("max", "greatest"), ("min", "least")):
            print(f"set_input_delay -{bound} {scale.decimal(times[key])} -clock host "
                  f"[get_ports {{{ports}}}]")
    for bound, time in (("max", times["setup"]), ("min", -times["hold"])):
        print(f"set_output_delay -{bound} {scale.decimal(time)} -clock host [all_outputs]")


def take_words():
    parser = Parser(description=__doc__)
    parser.add_argument("text", metavar="TEXT")
    parser.add_argument("--table", metavar="TABLE.toml", help="the table of the text, for its tick")
    parser.add_argument("--host", nargs=2, metavar=("TABLE.toml", "NETLIST.bench"))
    parser.add_argument("--netlist", metavar="MAPPED.v")
    parser.add_argument("--clock", default=CLOCK, help="the port of the clock, else clock")
    add_pins(parser)
    parser.add_argument("--tick", type=tick, help="how long a tick is, else 1ps")
    parser.add_argument("--unit", choices=UNITS, help="the unit of the SDC, else that of the tick")
    return parser.parse_args()


def instances_of(words, arrivals):
    """The instance of each register, by the register's name without Verilog's mark."""
    if words.netlist:
        instances = Netlist(words.netlist).registers(words.pin, words.output)
    else:
        instances = {plain(name): name for name, _ in arrivals}
    for name, _ in arrivals:
        if name != HOST and plain(name) not in instances:
            fail(words.netlist, f"no register drives {name}")
        if name == HOST and not words.host:
            fail(words.text, "there is a host, and --host is to name the table and the netlist")
    return instances


def main():
    words = take_words()
    period, arrivals = arrivals_of(words.text)
    instances = instances_of(words, arrivals)
    files = [words.text, *([words.table] if words.table else []), *(words.host or [])]
    length = common_tick(files, words.tick)
    scale = Scale(length, words.unit or length.unit)
    if not scale.is_exact:
        print(f"{ROUNDED[:-1]}, for the tick is no decimal.")
    elif all(map(scale.is_whole, [period, *(arrival for _, arrival in arrivals)])):
        print("# The times are exact.")
    else:
        print(ROUNDED)
    print(f"# tick {length}")
    print(f"set_units -time {scale.unit}")
    period = scale.decimal(period, ceil)
    print(f"create_clock -name {CLOCK} -period {period} [get_ports {{{pattern(words.clock)}}}]")
    for name, arrival in arrivals:
        if name == HOST:
            print_host(scale, period, arrival, *words.host)
        else:
            pin = f"{pattern(instances[plain(name)])}/{words.pin}"
            print(f"set_clock_latency {scale.decimal(arrival)} [get_pins {{{pin}}}]")


if __name__ == "__main__":
    run(main)
