"""Inputs of given sizes: a netlist, a delay table and a placement of each kind, always the same for a kind and a size.

KINDS maps a name to a function that gives the lines of a netlist with that many registers and the rows of its delay
table. `make` writes the three files, and beside them the tables of further corners and a file of moves.
"""
import random

# least, greatest, least_per_input, greatest_per_input
GATES = {
    "AND": (16, 28, 1, 3), "NAND": (10, 18, 1, 3), "OR": (17, 30, 2, 4), "NOR": (11, 22, 2, 4),
    "NOT": (8, 14, 0, 0), "XOR": (24, 45, 3, 6), "XNOR": (25, 46, 3, 6), "BUFF": (12, 20, 0, 0),
}
# setup, hold, least, greatest, and the floor of the period where there is one
REGISTER = (35, 20, 19, 60)
# The times of a corner as multiples of those of the first, and as many moves as a file may have.
CORNERS, MOVES = (1, 1.3, 1.7, 2.2), 10000


def local(registers):
    """Random logic: 13 gates a register in 30 levels. Registers and gates lie along a line and read what is near."""
    chance = random.Random(f"local/{registers}")
    lines, depth, levels = [], 30, [[f"r{number}" for number in range(registers)]]
    for level in range(1, depth + 1):
        size = max(1, int(13 * registers * 2 * (depth + 1 - level) / (depth * (depth + 1))))
        levels.append([f"g{level}_{number}" for number in range(size)])
        for number, name in enumerate(levels[level]):
            inputs = [near(chance, levels[level - 1], number / size)]
            for _ in range(chance.choices(range(5), [32, 36, 18, 8, 6])[0]):
                inputs.append(near(chance, levels[chance.randrange(level)], number / size))
            kind = chance.choice(["NOT", "BUFF"] if len(inputs) == 1 else ["AND", "NAND", "OR", "NOR"])
            lines.append(f"{name} = {kind}({', '.join(inputs)})")
    for number in range(registers):
        level = 1 + int(depth * chance.random() ** 3)
        lines.append(f"r{number} = DFF({near(chance, levels[level], number / registers)})")
    return lines, GATES, REGISTER


def near(chance, names, place):
    """A name at about that part of the list."""
    spread = chance.gauss(place, 3 / len(names))
    return names[int(spread * len(names)) % len(names)]


def sparse(registers):
    """Two gates a register: each register reads the one before it and one further on."""
    lines = [f"r{i} = DFF(b{(i - 1) % registers})" for i in range(registers)]
    lines += [f"a{i} = NAND(r{i}, r{(7 * i + 1) % registers})" for i in range(registers)]
    lines += [f"b{i} = {('XOR', 'BUFF', 'OR', 'AND')[i % 4]}(a{i}{'' if i % 4 == 1 else ', x'})" for i in range(registers)]
    gates = {"NAND": (2, 4, 0, 0), "XOR": (3, 9, 0, 0), "BUFF": (1, 2, 0, 0), "OR": (2, 4, 0, 0), "AND": (1, 3, 0, 0)}
    return ["INPUT(x)"] + lines, gates, (1, 1, 1, 2)


def ring(registers):
    """One ring through all registers, whose lines stand in a random order: the slow case of the search for a period."""
    lines = ["r1 = DFF(b)"] + [f"r{i} = DFF(r{(i - 1) % registers})" for i in range(registers) if i != 1]
    random.Random(registers).shuffle(lines)
    return lines + ["b = BUFF(r0)"], {"BUFF": (0, 1, 0, 0)}, (1, 0, 1, 1)


def dense(registers):
    """Each register reads each: one wide gate over all, and a gate of its own before each register."""
    chance = random.Random(f"dense/{registers}")
    lines = [f"r{i} = DFF(q{i})" for i in range(registers)]
    lines += [f"t{i} = {chance.choice(['NOT', 'BUFF'])}(r{i})" for i in range(registers)]
    lines.append("g = OR(" + ", ".join(f"t{i}" for i in range(registers)) + ")")
    lines += [f"q{i} = {chance.choice(['NAND', 'XOR'])}(g, t{chance.randrange(registers)})" for i in range(registers)]
    return lines, GATES | {"OR": (17, 30, 0, 0)}, REGISTER


def full(registers):
    """Banks of 256 registers, of which each reads each by 15 layers of gates (the fourth neighbour on, so that a few reach all):
    4,096 registers are at every limit, with 65,536 signals, 262,144 inputs of gates and 1,048,576 pairs."""
    chance = random.Random(f"full/{registers}")
    lines, size = [], min(registers, 256)
    for bank in range(registers // size):
        below = ends = [f"r{bank * size + number}" for number in range(size)]
        for layer in range(15):
            above = [f"g{bank}_{layer}_{number}" for number in range(size)]
            for number, name in enumerate(above):
                reads = [below[(4 * number + place) % size] for place in range(4)]
                reads += [chance.choice(below)] if layer < 4 else []
                lines.append(f"{name} = {chance.choice(['AND', 'NAND', 'OR', 'NOR'])}({', '.join(reads)})")
            below = above
        lines += [f"{name} = DFF({read})" for name, read in zip(ends, below)]
    return lines, GATES, REGISTER


def decoys(registers):
    """Each register reads each, and a chain of them in a random order raises one after the other by a tick, up to one that asks
    each for one tick less. The period is the floor: the hard case of the search for one."""
    chance, floor = random.Random(f"decoys/{registers}"), 100000
    order = list(range(registers - 1))
    chance.shuffle(order)
    lines = ["INPUT(x)", f"r{registers - 1} = DFF(x)"] + [f"r{i} = DFF(g{i})" for i in order]
    lines += [f"c0 = NAND(r{registers - 1})", f"s = NOT(r{registers - 1})", "e0 = OR(s)", "g0 = AND(c0, e0, all)"]
    for i in range(1, registers - 1):
        lines += [f"c{i} = BUFF(c{i - 1})", f"e{i} = NOR(r{i - 1})", f"g{i} = AND(c{i}, e{i}, all)"]
    lines.append("all = XOR(" + ", ".join(f"r{i}" for i in order) + ")")
    times = {"NAND": floor, "NOT": floor + 1, "NOR": floor + 2, "BUFF": 2, "OR": 0, "AND": 0, "XOR": floor // 2}
    return lines, {kind: (time, time, 0, 0) for kind, time in times.items()}, (0, 0, 0, 0, floor)


KINDS = {"local": local, "sparse": sparse, "ring": ring, "dense": dense, "full": full, "decoys": decoys}


def table_lines(gates, register, wire="1/50"):
    lines = ["[wire]", f'delay = "{wire}"', "[source]", 'place = "CLK"', "[register]"]
    lines += [f"{key} = {value}" for key, value in zip(("setup", "hold", "least", "greatest"), register)]
    lines += [f"[period]\nfloor = {floor}" for floor in register[4:]]
    for kind, row in gates.items():
        keys = ("least", "greatest", "least_per_input", "greatest_per_input")
        lines += [f"[gate.{kind}]"] + [f"{key} = {value}" for key, value in zip(keys, row)]
    return lines


def corner_lines(gates, register, multiple):
    """The table with all times that many times as long, to the nearest whole number."""
    longer = [tuple(round(time * multiple) for time in times) for times in (register, *gates.values())]
    return table_lines(dict(zip(gates, longer[1:])), longer[0])


def place_lines(registers):
    """Each register at a random place of a square of 10,000 length units, the source in its middle."""
    chance = random.Random(f"place/{registers}")
    lines = [f"r{i} {chance.randrange(10000)} {chance.randrange(10000)} : N" for i in range(registers)]
    return ["UCLA pl 1.0"] + lines + ["CLK 5000 5000 : N /FIXED"]


def move_lines(registers):
    """Moves of random registers to random places of that square."""
    chance = random.Random(f"moves/{registers}")
    return [f"r{chance.randrange(registers)} {chance.randrange(10000)} {chance.randrange(10000)}" for _ in range(MOVES)]


def write(path, lines):
    with open(path, "w", encoding="ascii") as file:
        file.write("\n".join(lines) + "\n")


def make(kind, registers, base):
    """Writes base.bench, base.toml, base.pl and base.moves, and base.corner1.toml and so on."""
    netlist, gates, register = KINDS[kind](registers)
    write(base + ".bench", netlist)
    write(base + ".toml", table_lines(gates, register))
    write(base + ".pl", place_lines(registers))
    write(base + ".moves", move_lines(registers))
    for number, multiple in enumerate(CORNERS, 1):
        write(f"{base}.corner{number}.toml", corner_lines(gates, register, multiple))
