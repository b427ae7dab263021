#!/usr/bin/env python3
"""Prints a delay table as Liberty.

The library has the cells of the netlist, as bench_to_verilog.py names them. The least delays are
for hold checks and the greatest for setup checks. Times are in picoseconds; a tick is as long as
the files say, or one of these.
"""
from bench_to_verilog import statements
from tables import Table
from texts import Parser, common_tick, run, tick

FUNCTIONS = {  # what stands in front of the inputs, and between them
    "AND": ("", "&"), "NAND": ("!", "&"), "OR": ("", "|"), "NOR": ("!", "|"),
    "XOR": ("", "^"), "XNOR": ("!", "^"), "BUFF": ("", ""), "NOT": ("!", ""),
}


def picoseconds(time, length):
    """A time in ticks of that many picoseconds."""
    return f"{float(time * length):.12g}"


def both(name, value):
    """A time that is the same for a rising and a falling edge."""
    edges = ("cell_rise", "cell_fall") if name == "cell" else (f"rise_{name}", f"fall_{name}")
    return " ".join(f'{edge}(scalar) {{ values("{value}"); }}' for edge in edges)


def delay(related, value, more=""):
    arcs = f'{both("cell", value)} {both("transition", 0)}'
    return f'timing () {{ related_pin : "{related}"; {more}{arcs} }}'


def print_gate(kind, width, value):
    pins = [f"A{place}" for place in range(1, width + 1)]
    mark, operator = FUNCTIONS[kind]
    print(f"  cell ({kind}{width}) {{")
    for pin in pins:
        print(f"    pin ({pin}) {{ direction : input; capacitance : 0; }}")
    function = f"{mark}({operator.join(pins)})"
    print(f'    pin (Z) {{ direction : output; function : "{function}";')
    print("     ", delay(" ".join(pins), value), "} }")


def print_register(times, value):
    print('  cell (DFF) {\n    ff (IQ, IQN) { clocked_on : "CK"; next_state : "D"; }')
    print("    pin (CK) { direction : input; clock : true; capacitance : 0; }")
    print("    pin (D) { direction : input; capacitance : 0;")
    for check in ("setup", "hold"):
        print(f'      timing () {{ related_pin : "CK"; timing_type : {check}_rising;')
        print("       ", both("constraint", times[check]), "}")
    print('    }\n    pin (Q) { direction : output; function : "IQ";')
    print("     ", delay("CK", value, "timing_type : rising_edge; "), "} }")


def main():
    parser = Parser(description=__doc__)
    parser.add_argument("table", metavar="TABLE.toml")
    parser.add_argument("bound", choices=("least", "greatest"))
    parser.add_argument("netlist", metavar="NETLIST.bench")
    parser.add_argument("--tick", type=tick, help="how long a tick is, else 1ps")
    words = parser.parse_args()
    bound, table = words.bound, Table(words.table)
    length = common_tick([words.table, words.netlist], words.tick).count("ps")
    print(f"library ({bound}) {{\n  delay_model : table_lookup;\n  time_unit : \"1ps\";")
    print("  capacitive_load_unit (1, ff);")
    for edge in ("rise", "fall"):
        print(f"  input_threshold_pct_{edge} : 50; output_threshold_pct_{edge} : 50;")
        print(f"  slew_lower_threshold_pct_{edge} : 20; slew_upper_threshold_pct_{edge} : 80;")
    times = {key: picoseconds(table.number("register", key), length)
             for key in ("setup", "hold", bound)}
    print_register(times, times[bound])
    gates = ((kind, len(reads)) for kind, _, reads in statements(words.netlist))
    cells = {(kind, inputs) for kind, inputs in gates if kind in FUNCTIONS}
    for kind, inputs in sorted(cells):
        more = f"{bound}_per_input"
        value = table.number("gate", kind, bound)
        if table.has("gate", kind, more):
            value += (inputs - 1) * table.number("gate", kind, more)
        print_gate(kind, inputs, picoseconds(value, length))
    print("}")


if __name__ == "__main__":
    run(main)
