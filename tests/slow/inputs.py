#!/usr/bin/env python3
"""Makes inputs that hurt, each beside an ordinary one of its size: `inputs.py FOLDER [NAMES]` writes FOLDER/KIND.slow.bench and
FOLDER/KIND.usual.bench, with a delay table and, where they are what hurts, a placement and moves beside each. NAMES is a file of names
that collide; without it those kinds are left out."""

import random
import sys

FLOOR = 100_000


def table(kinds, setup=0, floor=0):
    lines = ['[wire]', 'delay = "1"', '[source]', 'place = "CLK"', '[period]', f"floor = {floor}", "[register]"]
    lines += [f"setup = {setup}", "hold = 0", "least = 0", "greatest = 0"]
    for kind, (delay, by_input) in kinds.items():
        lines += [f"[gate.{kind}]", f"least = {delay}", f"greatest = {delay}"]
        lines += [f"least_per_input = {by_input}", f"greatest_per_input = {by_input}"]
    return "\n".join(lines) + "\n"


def zigzag_order(length):
    """The places of a chain's registers in the file: the next one always stands on the other side, against each sweep."""
    places = [length - 1 - step // 2 if step % 2 == 0 else step // 2 for step in range(length)]
    return sorted(range(length), key=lambda step: places[step])


def chain(length, each, joined, hub_joined, raised):
    """A chain of registers that are raised one after the other, by `raised` ticks. Each `each`-th raises a hub by a tick more, which
    raises `joined` registers, all joined with one another or alone, beside as many that are all joined and cold."""
    lines = ["INPUT(x)", "s = DFF(x)", "b = DFF(x)"]
    lines += [f"c{step} = DFF(g{step})" for step in zigzag_order(length)]
    lines += ["h = DFF(x0)", "z = NOT(s)", "q = XOR(b)", "m = NAND(h)"]
    for step in range(length):
        lines.append(f"g{step} = AND({f'p{step}' if step else 'z'}, q)")
        if step:
            lines.append(f"p{step} = NAND(c{step - 1})")
        if step % each == 0:
            lines.append(f"y{step} = XNOR(c{step})")
            lines.append(f"x{step} = OR(y{step}{f', x{step + each}' if step + each < length else ''})")
    lines += [f"d{one} = DFF({'v' if hub_joined else 'm'})" for one in range(joined)]
    all_joined = "d" if hub_joined else "k"
    if not hub_joined:
        lines += [f"k{one} = DFF(w)" for one in range(joined)]
    lines.append("w = NOR(" + ", ".join(f"{all_joined}{one}" for one in range(joined)) + ")")
    if hub_joined:
        lines.append("v = AND(m, w)")
    # A loop at the floor, so that the greatest margin there is 0.
    lines += ["l = DFF(ll)", "ll = NAND(l)"]
    kinds = {"NAND": FLOOR, "NOT": FLOOR + raised, "XOR": FLOOR + 1, "AND": 0, "XNOR": FLOOR - length - 1, "OR": 1}
    kinds["NOR"] = FLOOR // 2
    return lines, table({kind: (delay, 0) for kind, delay in kinds.items()}, floor=FLOOR)


def rings(ascending, outward, joined, slow):
    """Rings of two registers, each with a ratio of its own or all with one, beside registers that are all joined."""
    ranks = list(range(ascending)) + [ascending + one for one in range(0, outward, 2)]
    ranks += [ascending + one for one in range(outward - 1 - outward % 2, 0, -2)]
    lines = ["INPUT(x)"]
    for ring in range(len(ranks)):
        lines += [f"a{ring} = DFF(f{ring})", f"b{ring} = DFF(g{ring})"]
    lines += [f"k{one} = DFF(w)" for one in range(joined)]
    lines.append("w = NOR(" + ", ".join(f"k{one}" for one in range(joined)) + ")")
    for ring, rank in enumerate(ranks):
        low, high = (rank % 40, rank // 40) if slow else (20, 20)
        lines.append(f"f{ring} = AND(" + ", ".join([f"b{ring}"] * (low + 1)) + ")")
        lines.append(f"g{ring} = OR(" + ", ".join([f"a{ring}"] * (high + 1)) + ")")
    return lines, table({"AND": (1000, 1), "OR": (1000, 40), "NOR": (500, 0)})


def netlist_of_names(names):
    """Registers and gates of these names, and many lines that name one of them."""
    registers, gates = names[: len(names) // 2], names[len(names) // 2 :]
    lines = [f"{register} = DFF({gates[place]})" for place, register in enumerate(registers)]
    lines += [f"{gate} = NOT({registers[place]})" for place, gate in enumerate(gates)]
    return lines + [f"OUTPUT({gates[-1]})"] * 60_000, table({"NOT": (1, 0)})


def placement_of_names(names):
    """Registers of these names, and a placement that names another one many times."""
    lines = ["INPUT(x)"] + [f"{name} = DFF(x)" for name in names[:4095]]
    places = ["CLK 0 0"] + [f"{name} {place} 0" for place, name in enumerate(names[:4095])]
    return lines, table({}, setup=1), places + [f"{names[4095]} 0 0"] * 60_000


def placement_on_line(hidden):
    """4,096 registers on a line at 45 degrees, in no order, but for eight at even places of the file, which where `hidden` is so stand
    on a line across to it, far away."""
    count = 4096
    order = random.Random(4).sample(range(10**8), count)
    lines, places = ["INPUT(x)"], ["CLK 0 0"]
    for number, place in enumerate(order):
        apart = hidden and number % (count // 8 + 1) == 0
        lines.append(f"r{number} = DFF(x)")
        places.append(f"r{number} {5 * 10**8 + number if apart else place} {5 * 10**8 + number if apart else -place}")
    return lines, table({}), places


def ring_read(registers):
    """A ring of registers, and a gate that reads them all."""
    lines = ["INPUT(x)"] + [f"r{one} = DFF(r{(one or registers) - 1})" for one in range(registers)]
    return lines + ["all = OR(" + ", ".join(f"r{one}" for one in range(registers)) + ")"]


def dead_gates(reached):
    """Many gates that lead to no register and that all registers reach, or none does."""
    lines = ring_read(1000) + [f"h0 = AND({'all' if reached else 'x'})", "OUTPUT(h59999)"]
    for gate in range(1, 60_000):
        lines.append(f"h{gate} = AND(" + ", ".join(f"h{before}" for before in range(max(0, gate - 4), gate)) + ")")
    return lines, table({"OR": (1, 0), "AND": (1, 0)}, setup=1)


def host_outputs(each):
    """Many gates that all registers reach. The host captures each, or one that all the others lead to."""
    lines = ring_read(1000) + [f"g{gate} = BUFF(all)" for gate in range(60_000)]
    if each:
        lines += [f"OUTPUT(g{gate})" for gate in range(60_000)]
    else:
        for first in range(0, 60_000, 1000):
            lines.append(f"o{first} = OR(" + ", ".join(f"g{gate}" for gate in range(first, first + 1000)) + ")")
        lines += ["o = OR(" + ", ".join(f"o{first}" for first in range(0, 60_000, 1000)) + ")", "OUTPUT(o)"]
    return lines, table({"OR": (1, 0), "BUFF": (1, 0)}, setup=1) + '[host]\nplace = "CLK"\n'


def outputs(lines):
    """Many lines that name one output."""
    return ["INPUT(x)", "r = DFF(g)", "g = NOT(r)"] + ["OUTPUT(g)"] * lines, table({"NOT": (1, 0)})


def table_with(lines):
    """A delay table that isn't one, for these lines at its end."""
    return ["INPUT(x)", "r = DFF(x)"], table({}, setup=1) + lines + "\n"


def tapped(order, increments):
    """A chain of gates with a register at each, in this order, each so many ticks later than the one before it."""
    lines = ["INPUT(x)", "s = DFF(x)"] + [f"r{one} = DFF(q{one})" for one in range(len(order))]
    lines += ["t = NAND(s)", f"q{order[0]} = XOR(t)"]
    for before, one, ticks in zip(order, order[1:], increments):
        last = f"q{before}"
        for kind, digit in (("AND", ticks % 16), ("OR", ticks // 16 % 16), ("NOR", ticks // 256)):
            name = f"q{one}" if kind == "NOR" else f"{kind}{one}"
            lines.append(f"{name} = {kind}(" + ", ".join([last] * (digit + 1)) + ")")
            last = name
    return lines, table({"NAND": (FLOOR, 0), "XOR": (0, 0), "AND": (0, 1), "OR": (0, 16), "NOR": (0, 256)}, floor=FLOOR)


def deep_chain(registers):
    """A tree that is a chain, and moves of its deepest sinks; and a tree of usual depth of the same registers."""
    netlist = tapped(range(registers), range(registers - 1, 0, -1))
    places = ["CLK 0 0", "s 0 0"] + [f"r{one} 0 0" for one in range(registers)]
    moves = [f"r{registers - 1 - step % 2} {step % 7} {step % 5}" for step in range(2000)]
    return (*netlist, places, moves), (*netlist, *spread(registers))


def far_chain(registers):
    """The same, where the deepest sink is the furthest of each merge to two sides."""
    netlist = tapped(range(registers - 1, -1, -1), [2 * one for one in range(registers - 1, 1, -1)] + [1])
    places = ["CLK 0 0", f"s {-8 * registers * (registers - 1)} 0", "r0 0 0"]
    places += [f"r{one} {-one * (one + 1) - 1} 0" for one in range(1, registers)]
    moves = [f"r1 {-4 - step % 2} 0" for step in range(2000)]
    return (*netlist, places, moves), (*netlist, *spread(registers))


def spread(registers):
    """Places far apart, and moves of any registers."""
    chance = random.Random(registers)
    lines = [f"r{chance.randrange(registers)} {chance.randrange(10**9)} {chance.randrange(10**9)}" for _ in range(2000)]
    places = [f"r{one} {chance.randrange(10**9)} {chance.randrange(10**9)}" for one in range(registers)]
    return ["CLK 0 0", "s 0 0"] + places, lines


def write(base, lines, delays, places=None, moves=None):
    for ending, text in (("bench", "\n".join(lines) + "\n"), ("toml", delays), ("pl", places and "\n".join(places) + "\n"),
                         ("moves", moves and "\n".join(moves) + "\n")):
        if text is not None:
            with open(f"{base}.{ending}", "w") as file:
                file.write(text)


def main(folder, names_file=None):
    long_name = "a" * 16_000_000
    keys = "".join(f"k{key:05} = 1\n" for key in range(80_000))
    pairs = {
        "zigzag": (chain(600, 1, 400, False, 60_000), chain(600, 1, 400, False, 0)),
        "hub": (chain(800, 1, 300, True, 60_000), chain(800, 1, 300, True, 0)),
        "far_hub": (chain(800, 3, 300, True, 60_000), chain(800, 3, 300, True, 0)),
        "rings": (rings(200, 400, 400, True), rings(200, 400, 400, False)),
        "deep_chain": deep_chain(4095),
        "far_chain": far_chain(3000),
        "hidden_axis": (placement_on_line(True), placement_on_line(False)),
        "dead_gates": (dead_gates(True), dead_gates(False)),
        "host_outputs": (host_outputs(True), host_outputs(False)),
        "outputs": (outputs(200_000), outputs(1)),
        "long_key": (table_with(f"{long_name} = 1"), table_with(f"# {long_name}")),
        "array": (table_with("x = [" + "{a=1}," * 150_000 + "]"), table_with(keys)),
        "headers": (table_with("".join(f"[b{key}.c.d]\n" for key in range(70_000))), table_with(keys)),
    }
    if names_file:
        with open(names_file) as file:
            names = sorted(set(file.read().split()))
        random.Random(3).shuffle(names)
        others = [f"n{place:06}" for place in range(len(names))]
        pairs["names"] = (netlist_of_names(names), netlist_of_names(others))
        pairs["placed_names"] = (placement_of_names(names), placement_of_names(others))
    for kind, (slow, usual) in pairs.items():
        write(f"{folder}/{kind}.slow", *slow)
        write(f"{folder}/{kind}.usual", *usual)


if __name__ == "__main__":
    main(*sys.argv[1:])
