#!/usr/bin/env bash
# Goes the way of docs/FLOW.md with the filter of examples/: from Verilog to a netlist, through each
# command, and to OpenSTA, whose slacks have to be the printed ones. Then with the designs of
# examples/flow/designs, from Verilog and mapped, and with inputs that are to be refused. What needs
# a tool that is missing is left out, with a word. usage: tests/flow.sh [PROGRAM]
set -u
[ "${1-}" != --help ] || exec sed -n '2,/^[^#]/s/^# //p' "$0"
top=$(cd "$(dirname "${BASH_SOURCE[0]}")/.." && pwd) || exit 1
flow=$top/examples/flow
work=$(mktemp -d) || exit 1
trap 'rm -rf "$work"' EXIT
passed=0
failed=0

program=${1-}
if [ -z "$program" ]; then
    "$top/cts" build || exit 1
    program=$top/cts
fi

has() { command -v "$1" >/dev/null 2>&1; }
# Scripts that read TOML, or use one that does, want a Python of 3.11.
has_toml() { python3 -c 'import tomllib' 2>/dev/null; }
left_out() { echo "flow: $1, so $2 is left out"; }

# holds NAME COMMAND..: the command ends with status 0. What it says is shown where it doesn't.
holds() {
    local name=$1
    shift
    if "$@" >"$work/said" 2>&1; then
        passed=$((passed + 1))
    else
        failed=$((failed + 1))
        echo "flow: $name: $(head -c 400 "$work/said")"
    fi
}

# cts TEXT COMMAND..: an answer of the program, kept in the file TEXT.
cts() { "$program" "${@:2}" >"$work/$1"; }

# Times are whole numbers and fractions. They are compared to a hundredth of a tick, since OpenSTA
# keeps them in 32 bits.
reckon() {
    awk '
        function value(text,  parts) {
            return split(text, parts, "/") == 2 ? parts[1] / parts[2] : text + 0
        }
        function is_below(first, second) { return value(first) <= value(second) - 0.01 }
        '"$1" "${@:2}"
}
at_least() {
    echo "${1:-nothing} and ${2:-nothing}"
    [ -n "$1" ] && [ -n "$2" ] && reckon 'BEGIN { exit is_below(ARGV[1], ARGV[2]) }' "$1" "$2"
}
near() { at_least "$1" "$2" && at_least "$2" "$1"; }
product() { reckon 'BEGIN { printf "%.3f", value(ARGV[1]) * value(ARGV[2]) }' "$1" "$2"; }
difference() { reckon 'BEGIN { printf "%.3f", value(ARGV[1]) - value(ARGV[2]) }' "$1" "$2"; }
same() { diff "$1" "$2"; }

# word FIRST TEXT: what follows the word FIRST on the first line of the text that begins with it.
word() { awk -v first="$1" '$1 == first { print $2; exit }' "$work/$2"; }
registers() { awk '$1 == "registers" { left = $2; next } left-- > 0' "$work/$1"; }
merges() {
    awk 'NF == 2 && $1 == "merges" { left = $2; next } left-- > 0 { print $1, $2, $3 }' "$work/$1"
}

# row_stands NAME NETLIST TABLE PLACEMENT: the row of the design is one of those of the page.
row_stands() {
    "$flow/design_row.py" "$@" --cts "$program" >"$work/row" &&
        if ! grep -qxFf "$work/row" "$top/docs/FLOW.md"; then
            echo "docs/FLOW.md lacks $(cat "$work/row")"
            return 1
        fi
}

# From Verilog to a netlist, or the netlist that lies there.
netlist=$work/biquad.bench
table=$top/examples/biquad.toml
make_netlist() { "$flow/verilog_to_bench.sh" "$top/examples/biquad.v" biquad >"$netlist"; }
if has yosys && has berkeley-abc; then
    holds 'Verilog to netlist' make_netlist
    cmp -s "$netlist" "$top/examples/biquad.bench" ||
        echo "flow: the tools make another netlist here than examples/biquad.bench"
    # SystemVerilog in two files whose names have blanks, an initial value, and a reset that is tied.
    mkdir "$work/two files"
    cat >"$work/two files/leaf of it.sv" <<'END'
module leaf(input logic clk, rst_n, d, output logic q);
  initial q = 1'b1;
  always_ff @(posedge clk or negedge rst_n) if (!rst_n) q <= 1'b0; else q <= ~d;
endmodule
END
    cat >"$work/two files/it.sv" <<'END'
module it(input logic clk, rst_n, d, output logic q); logic e;
  leaf one(.clk, .rst_n, .d, .q(e)); leaf two(.clk, .rst_n, .d(e && f), .q); logic f;
  always_ff @(posedge clk or negedge rst_n) if (!rst_n) f <= 1'b0; else f <= d;
endmodule
END
    two_files() {
        "$flow/verilog_to_bench.sh" -sv --tie rst_n=1 "$work/two files/leaf of it.sv" \
            "$work/two files/it.sv" it | grep -c ' = DFF('
    }
    holds 'two files of SystemVerilog' same <(two_files) <(echo 3)
else
    left_out "yosys and berkeley-abc aren't both there" 'the way from Verilog to a netlist'
    cp "$top/examples/biquad.bench" "$netlist"
fi
"$flow/grid_placement.py" "$netlist" >"$work/biquad.pl"
circuit=(--bench "$netlist" --tech "$table")
problem=("${circuit[@]}" --pl "$work/biquad.pl")

holds zero cts zero zero "${circuit[@]}"
holds period cts period period "${circuit[@]}"
holds schedule cts schedule schedule "${circuit[@]}"
holds synth cts report synth "${problem[@]}"
holds check cts verdict check "${problem[@]}" --report "$work/report"
zero=$(word zero zero)
period=$(word period period)
holds 'a fifth or more is gained' at_least "$(product "$zero" 4/5)" "$period"
registers schedule >"$work/scheduled"
registers report >"$work/reported"
holds 'a report has the schedule' same "$work/scheduled" "$work/reported"
merges report >"$work/topology"
holds embed cts embedded embed "${problem[@]}" --topology "$work/topology"
holds 'the printed merges give the report again' same "$work/report" "$work/embedded"

# The drawing of the report is XML with a wire for each node, and a mark and a bar for each register.
draw() { "$flow/report_to_svg.py" "$work/$1" >"$work/$1.svg"; }
# drawn TEXT REGISTERS CONSTRAINTS: what is in the drawing of a text.
drawn() {
    python3 -c '
import sys, xml.etree.ElementTree
kinds = [part.get("class") for part in xml.etree.ElementTree.parse(sys.argv[1]).iter()]
wires = kinds.count("wire") + kinds.count("detour")
marks = [kinds.count(kind) for kind in ("register", "bar", "merge", "source")]
cycle = kinds.count("cycle setup") + kinds.count("cycle hold")
print(wires, *marks, cycle)' "$work/$1.svg" | diff - <(echo "$((2 * $2 - 1)) $2 $2 $(($2 - 1)) 1 $3")
}
holds 'a drawing' draw report
holds 'all is drawn' drawn report "$(word registers report)" "$(word cycle report)"

# A longer period costs less wire. Equal arrivals are as short as they come.
# priced NETLIST TABLE PLACEMENT PERIOD..: a line for each period.
priced() { "$flow/wire_by_period.py" "$@" --cts "$program" >"$work/prices"; }
if has_toml; then
    holds 'its row' row_stands biquad "$netlist" "$table" "$work/biquad.pl"
    holds 'wire by period' priced "$netlist" "$table" "$work/biquad.pl" "$period" "$zero"
    holds 'the first period is that of the report' \
        same <(awk 'NR == 1 { print $1, $2 }' "$work/prices") <(echo "$period $(word wire report)")
    holds 'half of the wire is saved' at_least "$(awk 'NR == 1 { print $3 }' "$work/prices")" 2
else
    left_out "Python is older than 3.11" 'what reads TOML'
fi

# At the period of equal arrivals, the margin is what useful skew gives to every check.
holds margin cts margin margin "${circuit[@]}" --period "$zero"
holds 'there is a margin' at_least "$(word margin margin)" 1
holds 'margin at the least period' cts least margin "${circuit[@]}" --period "$period"
holds 'there is none' near "$(word margin least)" 0

# A fast corner has seven tenths of all times.
fast=$work/fast.toml
awk '$2 == "=" && $3 ~ /^[0-9]+$/ { $3 = int($3 * 7 / 10) } 1' "$table" >"$fast"
holds corners cts corners corners --bench "$netlist" "$table" "$fast"
holds 'two corners need no less' at_least "$(word period corners)" "$period"

# The tree for given arrivals: of a schedule's own it is that of its report, and those of corners
# and of a margin come out as they went in, in parts of a tick where they are fractions.
# tree_of TEXT TABLE PLACEMENT: the report for the arrivals of the text, kept as TEXT.tree.
tree_of() {
    local given=$work/$1.given
    "$flow/arrivals_to_problem.py" "$work/$1" "$2" "$given" &&
        cts "$1.tree" synth --bench "$given.bench" --tech "$given.toml" --pl "$3"
}
tree_lines() { sed -n '/^merges/,$p' "$work/$1"; }
# kept TEXT PARTS: the tree has the arrivals of the text, in that many parts of a tick.
kept() {
    registers "$1" >"$work/expected"
    registers "$1.tree" | reckon '
        NR == FNR { given[$1] = value($2) * parts; next }
        { same += !is_below(given[$1], $2) && !is_below($2, given[$1]) }
        END { exit !FNR || same != FNR }' parts="$2" "$work/expected" -
}
# parts TEXT: the least number of which all times of the text are parts.
parts() {
    { word period "$1"; registers "$1" | cut -d ' ' -f 2; } | python3 -c 'import fractions, math, sys
print(math.lcm(*(fractions.Fraction(line).denominator for line in sys.stdin)))'
}
if has_toml; then
    holds 'the tree for the scheduled arrivals' tree_of report "$table" "$work/biquad.pl"
    holds 'it is that of the report' same <(tree_lines report) <(tree_lines report.tree)
    holds 'the tree for the arrivals of corners' tree_of corners "$table" "$work/biquad.pl"
    holds 'they are kept' kept corners "$(parts corners)"
    holds 'a margin at half a tick' cts half margin "${circuit[@]}" --period "$((2 * zero - 1))/2"
    holds 'the tree for its arrivals' tree_of half "$table" "$work/biquad.pl"
    holds 'they are kept in parts of a tick' kept half "$(parts half)"
fi

# Two registers move: the wire is that of the same merges with the places as they are then.
first=$(head -n 1 "$work/scheduled" | cut -d ' ' -f 1)
last=$(tail -n 1 "$work/scheduled" | cut -d ' ' -f 1)
printf '%s 33 7.5\n%s 400 0\n' "$first" "$last" >"$work/moves"
holds moves cts wires_of_moves moves "${problem[@]}" --moves "$work/moves"
awk -v first="$first" -v last="$last" '
    $1 == first { $2 = 33; $3 = 7.5 }
    $1 == last { $2 = 400; $3 = 0 }
    1' "$work/biquad.pl" >"$work/moved.pl"
moved=("${circuit[@]}" --pl "$work/moved.pl" --topology "$work/topology")
holds 'embed after the moves' cts moved embed "${moved[@]}"
{ tail -n 1 "$work/report"; tail -n 1 "$work/moved"; } >"$work/wires_of_trees"
sed -i 2d "$work/wires_of_moves"
holds 'the wire before and after' same "$work/wires_of_moves" "$work/wires_of_trees"

# What berkeley-abc itself writes of ANDs and inverters is read: outputs that repeat, buffers, marks
# in names, wide gates, and registers fed by an input and by a register. Its tables of values and
# its constants are refused by their lines, and a constant is read in the form of an input.
abc() { (cd "$work" && berkeley-abc -q "read_blif marks.blif; $1"); }
refused() { diff <("$program" zero --bench "$work/$1" 2>&1) <(echo "$2"); }
line_of() { grep -n -m 1 "$1" "$work/$2" | cut -d : -f 1; }
if has berkeley-abc; then
    cat >"$work/marks.blif" <<'END'
.model marks
.inputs \a[3] b c d e
.outputs wide same wide first never
.latch \a[3] first$ 2
.latch first$ second:2 2
.latch wide third 2
.names \a[3] b c d e wide
11111 1
.names wide same
1 1
.names first$ second:2 third first
1-- 1
-1- 1
--1 1
.names never
1
.end
END
    holds 'a constant' abc 'strash; write_bench -l constant.bench'
    line="refused bench 1 line $(line_of vdd constant.bench)"
    holds 'its line is refused' refused constant.bench "$line"
    sed 's/^\([^ ]*\) *= vdd$/INPUT(\1)/' "$work/constant.bench" >"$work/input.bench"
    holds 'ANDs and inverters are read' cts ands zero --bench "$work/input.bench"
    holds 'tables of values' abc 'write_bench tables.bench'
    line="refused bench 2 line $(line_of DFFRSE tables.bench)"
    holds 'their first line is refused' refused tables.bench "$line"
else
    left_out "berkeley-abc isn't there" 'what it writes itself'
fi

# refuses LINE COMMAND..: the command prints nothing, and fails with this line on its error output.
refuses() {
    local line=$1
    shift
    ! "$@" >"$work/printed" 2>"$work/line" && [ ! -s "$work/printed" ] && diff "$work/line" <(echo "$line")
}
printf 'never\ncycle 1\nhold A A 1\n' >"$work/never"
if has_toml; then
    holds 'a text without a period' refuses "$work/never: no period will do, so there are no arrivals" \
        "$flow/arrivals_to_sdc.py" "$work/never"
    holds 'a text without arrivals' \
        refuses "$work/period: not a period with the arrivals of registers, as schedule prints it" \
        "$flow/arrivals_to_sdc.py" "$work/period"
    holds 'an empty text' refuses '/dev/null: the text is empty' "$flow/arrivals_to_sdc.py" /dev/null
fi

# A mapped netlist as others write it: a register by another name, escaped names with blanks before
# their bits, assignments, and bits that stand together. Times are in another unit than the tick.
cat >"$work/odd.v" <<'END'
(* top = 1 *) module odd (clk, \in[0] , o, p); // no module ;
  input clk; input \in[0] ; output [1:0] o; output p;
  wire [0:0] \u.tsh ; /* wires; */ wire n1; wire [1:0] w = { \u.tsh [0], n1 } ;
  DFFPOSX1 \u.r[1] (.CLK(clk), .D(\in[0] ), .Q(\u.tsh [0]));
  DFFPOSX1 _689_ (.CLK(clk), .D(\u.tsh [0]),
    .Q ( n1 ), .QN() );
  FILL fill ();
  assign o = w, p = 1'b0;
endmodule
END
printf '%s\n' 'period 5/3' 'registers 2' '\u.tsh[0] 1/2 0 0' 'o[0] 7 0 0' >"$work/odd"
cat >"$work/odd.sdc" <<'END'
# The period is rounded up, and arrivals are rounded down.
# tick 10ps
set_units -time ns
create_clock -name clock -period 0.01667 [get_ports {clk}]
set_clock_latency 0.00500 [get_pins {u.r\[1\]/CLK}]
set_clock_latency 0.07000 [get_pins {_689_/CLK}]
END
odd() { "$flow/arrivals_to_sdc.py" "$1" --netlist "$work/odd.v" --clock clk --pin CLK --tick 10ps --unit ns; }
in_ns() { odd "$work/odd" | diff - "$work/odd.sdc"; }
sed 's/^o\[0\]/o[2]/' "$work/odd" >"$work/unknown"
if has_toml; then
    holds 'the SDC of a mapped netlist' in_ns
    holds 'a register that it lacks' refuses "$work/odd.v: no register drives o[2]" odd "$work/unknown"
fi
# Checks under a condition, as an analyzer writes them for a register with a reset.
cat >"$work/odd.sdf" <<'END'
(DELAYFILE (TIMESCALE 1ns) (CELL (CELLTYPE "DFFSR") (INSTANCE _689_)
  (DELAY (ABSOLUTE (IOPATH CLK Q (0.2::0.3) (0.25)) (IOPATH R Q () (0.0::0.0))))
  (TIMINGCHECK (SETUP (COND S\&R (negedge D)) (COND S\&R (posedge CLK)) (0.1::0.2)))))
END
in_ticks() { "$flow/sdf_delays.py" "$work/odd.sdf" | diff - <(printf '%s\n' '_689_ Q CLK 200 300' '_689_ Q R 0 0'); }
! has_toml || holds 'an SDF with a condition' in_ticks
printf '%s\n' 'UCLA pl 1.0' '' '\u.r[1] 1 2 : N' 'fill 0 0' '_689_ 3 4 : N' 'CLK 0 9 : N /FIXED' >"$work/odd.pl"
by_nets() {
    "$flow/placement_by_nets.py" "$work/odd.v" "$work/odd.pl" --pin CLK | diff - <(printf '%s\n' 'UCLA pl 1.0' \
        'u.tsh[0] 1 2 : N' 'w[1] 1 2 : N' 'o[1] 1 2 : N' 'n1 3 4 : N' 'w[0] 3 4 : N' 'o[0] 3 4 : N' 'CLK 0 9 : N /FIXED')
}
holds 'a placement by nets' by_nets

# signed_off TEXT TABLE [NETLIST]: the slacks with the arrivals of the text, kept as TEXT.slacks.
signed_off() {
    "$flow/arrivals_to_sdc.py" "$work/$1" --host "$2" "${3-$netlist}" >"$work/$1.sdc" &&
        "$flow/slacks.sh" "${3-$netlist}" "$2" "$work/$1.sdc" >"$work/$1.slacks"
}
# worst CHECK TEXT: the least slack of all setup or all hold checks, or of both.
worst() {
    awk -v check="$1" '
        check != "hold" && $2 != "-" && (least == "" || $2 < least) { least = $2 }
        check != "setup" && $3 != "-" && (least == "" || $3 < least) { least = $3 }
        END { print least }' "$work/$2.slacks"
}
# printed SCHEDULE TEXT [WORD..]: each register's slacks with the arrivals of the text are those that
# the schedule prints, to a hundredth of a tick, and there are none where it prints none.
printed() { "$flow/compare_slacks.py" "$work/$1" "$work/$2.slacks" --within 0.01 "${@:3}"; }
equal_arrivals() {
    printf 'period %s\nregisters %s\n' "$period" "$(wc -l <"$work/scheduled")"
    awk '{ print $1, 0 }' "$work/scheduled"
}
wire_delays() { "$flow/wire_delays.py" "$work/report" "$table" >"$work/wires"; }
with_host() {
    cat "$1"
    printf '[host]\nplace = "CLK"\n'
}

if has sta && has_toml; then
    equal_arrivals >"$work/equal"
    holds 'OpenSTA at equal arrivals' signed_off equal "$table"
    lacking=$(difference "$period" "$zero")
    holds 'the period less that of equal arrivals is left' near "$(worst setup equal)" "$lacking"
    holds 'OpenSTA at the scheduled arrivals' signed_off schedule "$table"
    holds 'the worst setup slack is 0' near "$(worst setup schedule)" 0
    holds 'no hold slack is below 0' at_least "$(worst hold schedule)" 0
    holds 'each slack is as printed' printed schedule schedule
    holds 'the delays of the wires' wire_delays
    holds 'OpenSTA with the delays of the wires' signed_off wires "$table"
    holds 'each slack is the same with them' printed schedule wires
    holds 'OpenSTA at the margin' signed_off margin "$table"
    holds 'the worst slack is the margin' near "$(worst both margin)" "$(word margin margin)"
    holds 'OpenSTA at the first corner' signed_off corners "$table"
    mv "$work/corners.slacks" "$work/first.slacks"
    holds 'OpenSTA at the second corner' signed_off corners "$fast"
    cat "$work/first.slacks" >>"$work/corners.slacks"
    holds 'the worst slack of both corners is 0' near "$(worst both corners)" 0

    sed '0,/^set_clock_latency .*/s//set_clock_latency 0 [get_pins nowhere\/CK]/' "$work/schedule.sdc" >"$work/nowhere.sdc"
    holds 'a pin that is missing' refuses "Warning: nowhere.sdc, 5 pin 'nowhere/CK' not found." \
        "$flow/slacks.sh" "$netlist" "$table" "$work/nowhere.sdc"

    sed 's/^set_units -time ps/set_units -time ns/' "$work/schedule.sdc" >"$work/other_unit.sdc"
    line='Warning: other_unit.sdc, 3 time scale 1e-09 does not match library scale 1e-12.'
    holds 'another unit' refuses "$line" "$flow/slacks.sh" "$netlist" "$table" "$work/other_unit.sdc"

    with_host "$table" >"$work/host.toml"
    holds 'a host' cts host schedule --bench "$netlist" --tech "$work/host.toml"
    holds 'OpenSTA with a host' signed_off host "$work/host.toml"
    holds 'each slack is as printed with a host' printed host host

    # Here names have marks, and the period and the arrivals are thirds, which no decimals are.
    printf '%s\n' 'INPUT(a)' 'INPUT(\b[1])' 'OUTPUT(a)' 'OUTPUT(\q$1)' 'OUTPUT(\q$1)' \
        'OUTPUT(s:2)' '\q$1 = DFF(\b[1])' 's:2 = DFF(g)' 'x/y = DFF(g)' 'g = buf(\q$1)' \
        >"$work/thirds.bench"
    sed -i 's/^greatest = 105$/greatest = 106/' "$work/host.toml"
    holds thirds cts thirds schedule --bench "$work/thirds.bench" --tech "$work/host.toml"
    holds 'OpenSTA with thirds' signed_off thirds "$work/host.toml" "$work/thirds.bench"
    holds 'each slack is as printed with thirds' printed thirds thirds
else
    left_out "OpenSTA's sta and a Python of 3.11 aren't both there" sign-off
fi

# A netlist that others mapped, with a library in ns where a tick is 1 ps: its delays are those that
# OpenSTA finds, and its slacks those of the report.
library=/usr/share/qflow/tech/osu018/osu018_stdcells.lib
mapped=$work/mapped
clock=clock
# map_logic FILE.v TOP: the module on the cells of the library.
map_logic() {
    yosys -q -p "read_verilog $1; synth -flatten -top $2
        dfflibmap -liberty $library; abc -liberty $library
        opt_clean -purge; write_verilog -noattr -simple-lhs $mapped.v"
}
# By instances, as a placer has it, and by nets again.
place_mapped() {
    "$flow/grid_placement.py" "$mapped.bench" >"$mapped.grid"
    awk 'NR == FNR { instance[$2] = $1; next } $1 in instance { $1 = instance[$1] } 1' \
        "$mapped.registers" "$mapped.grid" >"$mapped.instances"
    "$flow/placement_by_nets.py" "$mapped.v" "$mapped.instances" --pin CLK >"$mapped.pl"
}
# signed_off_mapped TEXT [DELAYS.sdf]: the slacks in ticks by instances, kept as TEXT.slacks.
signed_off_mapped() {
    [ -s "$work/$1.sdc" ] ||
        "$flow/arrivals_to_sdc.py" "$work/$1" --table "$mapped.toml" --netlist "$mapped.v" \
            --clock "$clock" --pin CLK --unit ns >"$work/$1.sdc" || return
    "$flow/slacks.sh" "$mapped.v" "$library" "$work/$1.sdc" "${@:2}" >"$work/$1.slacks"
}
# even_edges TICK IN_PS: an SDF of whole ticks where both edges are alike: exactly what the netlist
# has. A tick is so many picoseconds.
even_edges() {
    python3 - "$flow" "$mapped.v" "$mapped.sdf" "$1" "$2" >"$mapped.even.sdf" <<'END'
import sys
sys.path.insert(0, sys.argv[1])
from mapped_verilog import Netlist
from sdf_delays import Delays
from texts import tick
netlist, delays = Netlist(sys.argv[2]), Delays(sys.argv[3], tick(sys.argv[4]))
step = int(sys.argv[5])
print('(DELAYFILE (SDFVERSION "3.0") (DESIGN "even") (DIVIDER /) (TIMESCALE 1ps)')
for cell, name, pins in netlist.instances:
    print(f'(CELL (CELLTYPE "{cell}") (INSTANCE {name}) (DELAY (ABSOLUTE')
    for output in pins:
        for pin, (least, greatest) in delays.arcs.get((name, output), {}).items():
            print(f"(IOPATH {pin} {output} ({step * least}::{step * greatest}))")
    print(")) (TIMINGCHECK")
    for word, checks in (("SETUP", delays.setup), ("HOLD", delays.hold)):
        for pin, (_, most) in checks.get(name, {}).items():
            print(f"({word} {pin} (posedge CLK) ({step * most}::{step * most}))")
    print("))")
print(")")
END
}
of_mapped=(--netlist "$mapped.v" --pin CLK)
if has yosys && has berkeley-abc && has sta && [ -e "$library" ] && has_toml; then
    holds 'a mapped netlist' map_logic "$top/examples/biquad.v" biquad
    holds 'its delays' "$flow/mapped_to_bench.sh" "$mapped.v" "$library" "$mapped" --pin CLK
    "$flow/mapped_verilog.py" "$mapped.v" --pin CLK >"$mapped.registers"
    holds 'its placement by nets' place_mapped
    circuit=(--bench "$mapped.bench" --tech "$mapped.toml")
    holds 'its report' cts mapped_report synth "${circuit[@]}" --pl "$mapped.pl"
    holds 'an SDF of whole ticks' even_edges 1ps 1
    holds 'OpenSTA with it' signed_off_mapped mapped_report "$mapped.even.sdf"
    holds 'each slack is as printed there' printed mapped_report mapped_report "${of_mapped[@]}"
    holds 'OpenSTA with its own SDF' signed_off_mapped mapped_report "$mapped.sdf"
    holds 'no slack is below the printed one' printed mapped_report mapped_report "${of_mapped[@]}" --safe
    holds 'OpenSTA with the library' signed_off_mapped mapped_report
    holds 'no check fails' at_least "$(worst both mapped_report)" 0
    holds 'a drawing of it' draw mapped_report
    constraints=$(word cycle mapped_report)
    holds 'all of it is drawn' drawn mapped_report "$(word registers mapped_report)" "$constraints"
    holds 'its zero' cts mapped_zero zero "${circuit[@]}"
    zero=$(word zero mapped_zero)
    holds 'its wire at equal arrivals' priced "$mapped.bench" "$mapped.toml" "$mapped.pl" "$zero"
    holds 'is less' at_least "$(word wire mapped_report)" "$(awk '{ print $2 }' "$work/prices")"
    holds 'its row' row_stands 'biquad, mapped' "$mapped.bench" "$mapped.toml" "$mapped.pl"
    holds 'its margin' cts mapped_margin margin "${circuit[@]}" --period "$zero"
    holds 'the tree for it' tree_of mapped_margin "$mapped.toml" "$mapped.pl"
    holds 'which keeps its arrivals' kept mapped_margin "$(parts mapped_margin)"
    holds 'OpenSTA at its margin' signed_off_mapped mapped_margin "$mapped.even.sdf"
    worst_slack=$(worst both mapped_margin)
    holds 'the worst slack is the margin there' near "$worst_slack" "$(word margin mapped_margin)"
else
    left_out "yosys, berkeley-abc, sta, $library and a Python of 3.11 aren't all there" 'a mapped netlist'
fi

# The designs of examples/flow/designs, side by side: each from Verilog with the table of examples/,
# in ticks of 1 and of 10 ps, and mapped, in ticks of two lengths. Their rows stand in docs/FLOW.md.
# coarser TABLE: the table in ticks of ten of its own, on the safe side.
coarser() {
    echo '# tick 10ps'
    awk '$2 == "=" && $3 ~ /^[0-9]+$/ { $3 = int(($3 + (/^least/ ? 0 : 9)) / 10) }
        $1 == "delay" { $3 = "\"1/100\"" } 1' "$1"
}
# from_verilog NAME WORD..: each slack is as printed on two tick lengths.
from_verilog() {
    local design=$1 tick table="$top/examples/biquad.toml" netlist=$work/$1.bench placement=$work/$1.pl
    to_netlist() { "$flow/verilog_to_bench.sh" "${@:2}" "$flow/designs/$design.v" "$design" >"$netlist"; }
    to_placement() { "$flow/grid_placement.py" "$netlist" >"$placement"; }
    holds "$design: Verilog to netlist" to_netlist "$@"
    holds "$design: placement" to_placement
    coarser "$table" >"$work/$design.10ps.toml"
    for tick in 1ps 10ps; do
        [ "$tick" = 1ps ] || table=$work/$design.10ps.toml
        holds "$design: synth at $tick" cts "$design.$tick" synth --bench "$netlist" --tech "$table" --pl "$placement"
        holds "$design: OpenSTA at $tick" signed_off "$design.$tick" "$table" "$netlist"
        holds "$design: each slack is as printed at $tick" printed "$design.$tick" "$design.$tick"
    done
    holds "$design: its row" row_stands "$design" "$netlist" "$top/examples/biquad.toml" "$placement"
}
# from_mapped NAME TICK IN_PS: with delays of whole ticks of 10 ps each slack is as printed, and with
# those of OpenSTA none is below that.
from_mapped() {
    local design=$1.mapped.$2 tick=$2
    to_ticks() { "$flow/sdf_to_bench.py" "$mapped.v" "$mapped.sdf" --out "$mapped" --pin CLK --tick "$tick"; }
    to_placement() { "$flow/grid_placement.py" "$mapped.bench" >"$mapped.pl"; }
    # The first tick is that of mapped_to_bench.sh.
    [ "$(head -n 1 "$mapped.bench")" = "# tick $tick" ] || holds "$design: delays" to_ticks
    holds "$design: placement" to_placement
    holds "$design: synth" cts "$design" synth --bench "$mapped.bench" --tech "$mapped.toml" --pl "$mapped.pl"
    if [ "$tick" = 10ps ]; then
        holds "$design: an SDF of whole ticks" even_edges "$tick" "$3"
        holds "$design: OpenSTA with it" signed_off_mapped "$design" "$mapped.even.sdf"
        holds "$design: each slack is as printed there" printed "$design" "$design" "${of_mapped[@]}"
    fi
    holds "$design: OpenSTA with its own SDF" signed_off_mapped "$design" "$mapped.sdf"
    holds "$design: no slack is below the printed one" printed "$design" "$design" "${of_mapped[@]}" --safe
}
# Of the designs all but the first have delays below 0.
has_negative() {
    [ "$1" = fifo ] || holds "$1: a delay is below 0" grep -q 'IOPATH.*(-' "$mapped.sdf"
}
# design NAME TICK IN_PS WORD..: all of a design; the first tick is that of its mapped row.
design() {
    local design=$1
    work=$work/$1
    mapped=$work/cells
    of_mapped=(--netlist "$mapped.v" --pin CLK)
    clock=clk
    passed=0
    failed=0
    mkdir "$work"
    from_verilog "$design" "${@:4}"
    holds "$design: mapping" map_logic "$flow/designs/$design.v" "$design"
    holds "$design: its delays" "$flow/mapped_to_bench.sh" "$mapped.v" "$library" "$mapped" --pin CLK --tick "$2"
    has_negative "$design"
    from_mapped "$design" "$2" "$3"
    holds "$design: its mapped row" row_stands "$design, mapped" "$mapped.bench" "$mapped.toml" "$mapped.pl"
    from_mapped "$design" 10ps 10
    echo "$passed $failed" >"$work/counts"
}
if has yosys && has berkeley-abc && has sta && [ -e "$library" ] && has_toml; then
    (design fifo 1ps 1) >"$work/fifo.said" &
    (design aes 1ps 1) >"$work/aes.said" &
    (design cpu 1ps 1 --tie rst_n=1) >"$work/cpu.said" &
    (design systolic 5ps 5) >"$work/systolic.said" &
    wait
    for name in fifo aes cpu systolic; do
        cat "$work/$name.said"
        read -r more wrong <"$work/$name/counts" || { more=0 wrong=1; }
        passed=$((passed + more))
        failed=$((failed + wrong))
    done
    holds 'systolic: it has over 1,000 registers' test "$(grep -c DFF "$work/systolic/systolic.bench")" -gt 1000
else
    left_out "yosys, berkeley-abc, sta, $library and a Python of 3.11 aren't all there" 'what goes through four more designs'
fi

# What can't be modelled, and what is no file of its kind, is refused in one line that says which
# and why, and leaves nothing behind.
bad=$work/bad
mkdir "$bad"
cd "$bad" || exit 1
# fails STATUS LINE COMMAND..: the command prints nothing, writes no file, and ends with the status
# and this line at the end of its error output. Before it only warnings stand.
fails() {
    local status=$1 line=$2 before after said
    shift 2
    before=$(ls)
    "$@" >"$work/printed" 2>"$work/line"
    said=$?
    after=$(ls)
    [ "$said" -eq "$status" ] && [ ! -s "$work/printed" ] && [ "$before" = "$after" ] &&
        diff <(grep -v 'Warning: ' "$work/line") <(echo "$line")
}
# row NAME STATUS LINE COMMAND..: a bad input.
row() { holds "$1" fails "${@:2}"; }
printf '%s\n' 'period 10' 'registers 1' 'a 0 0 0' >arrivals
printf '%s\n' 'period 10' 'registers 3' 'a 0 0 0' >short
printf '%s\n' 'zero 10' 'setup a a 10' >zero
cp "$work/never" never
printf '%s\n' '[wire]' 'delay = "1/10"' >table.toml
{ echo '# tick 10ps'; cat table.toml; } >tick.toml
echo '# tick 0ps' >no_tick.toml
echo '[wire' >broken.toml
printf '%s\n' 'INPUT(a)' 'a b' >line.bench
echo 'a = DFF(a)' >good.bench
echo 'a 0' >words.slacks
row 'no file' 1 'nowhere: No such file or directory' "$flow/bench_to_verilog.py" nowhere
row 'no words' 2 'bench_to_verilog.py: the following arguments are required: FILE.bench' "$flow/bench_to_verilog.py"
row 'a line of no netlist' 1 'line.bench: line 2 is not one of a netlist: a b' "$flow/bench_to_verilog.py" line.bench
row 'no register to place' 1 '/dev/null: there is no register to place' "$flow/grid_placement.py" /dev/null
echo CLK >words.pl
row 'no line of a placement' 1 'words.pl: not a line of a placement: CLK' \
    "$flow/placement_by_nets.py" "$work/odd.v" words.pl --pin CLK
row 'no report to draw' 1 'zero: not a report, as synth prints it' "$flow/report_to_svg.py" zero
row 'a report that ends early' 1 'short: the text ends in the middle of its registers' "$flow/report_to_svg.py" short
row 'nothing to draw' 1 'never: no period will do, so there are no arrivals' "$flow/report_to_svg.py" never
if has_toml; then
    row 'a tick of 0' 2 'arrivals_to_sdc.py: argument --tick: 0ps is no tick: one is above 0, as 10ps' \
        "$flow/arrivals_to_sdc.py" arrivals --tick 0ps
    row 'a tick of 0 in a file' 1 'no_tick.toml: 0ps is no tick: one is above 0, as 10ps' \
        "$flow/arrivals_to_sdc.py" arrivals --table no_tick.toml
    row 'a text of zero' 1 'zero: not a period with the arrivals of registers, as schedule prints it' \
        "$flow/arrivals_to_sdc.py" zero
    row 'a text that ends early' 1 'short: the text ends in the middle of its registers' "$flow/arrivals_to_sdc.py" short
    row 'two ticks' 1 'tick.toml: its tick is 10ps, and that of --tick is 1ps' \
        "$flow/arrivals_to_sdc.py" arrivals --table tick.toml --tick 1ps
    row 'never, for a tree' 1 'never: no period will do, so there are no arrivals' \
        "$flow/arrivals_to_problem.py" never table.toml out
    row 'no source for a tree' 1 'table.toml: the delay table lacks source.place' \
        "$flow/arrivals_to_problem.py" arrivals table.toml out
    row 'no table' 1 'broken.toml: not a delay table: Expected '"']'"' at the end of a table declaration (at line 1, column 6)' \
        "$flow/arrivals_to_problem.py" arrivals broken.toml out
    row 'no registers in a table' 1 'table.toml: the delay table lacks register.setup' \
        "$flow/table_to_liberty.py" table.toml least good.bench
    row 'no wires' 1 'zero: not a report, as synth prints it' "$flow/wire_delays.py" zero table.toml
    row 'no slacks' 1 'words.slacks: line 1 is no slack, as slacks.sh prints it' \
        "$flow/compare_slacks.py" arrivals words.slacks
    row 'no program' 1 'nowhere: No such file or directory' \
        "$flow/wire_by_period.py" good.bench table.toml zero --cts nowhere
    row 'what the program refuses' 1 'line.bench: cts period says refused bench 1 line 2' \
        "$flow/wire_by_period.py" line.bench table.toml zero --cts "$program"
    # Slacks that differ, and slacks on one side alone.
    echo 'a -0.5 0.25' >differ.slacks
    differs() {
        ! "$flow/compare_slacks.py" arrivals differ.slacks "$@" >differ.said &&
            diff differ.said <(printf '%s\n' 'a 0 -0.5 -0.5 0 0.25 0.25' 'largest 0.5 setup a')
    }
    holds 'a difference that is too large' differs --within 0.49
    holds 'a difference that will do' "$flow/compare_slacks.py" arrivals differ.slacks --within 0.5
    holds 'more than is printed' "$flow/compare_slacks.py" arrivals <(echo 'a 5 0.25') --within 0 --safe
    # A third of a tick goes along.
    printf '%s\n' 'period 31/3' 'registers 2' 'a 0' 'b 4/3' >thirds
    { echo '# tick 10ps'; printf '%s\n' '[wire]' 'delay = "1/10"' '[source]' 'place = "CLK"'; } >source.toml
    says_thirds() {
        "$flow/arrivals_to_problem.py" thirds source.toml given 2>&1 |
            diff - <(echo 'given.toml: a tick is 10/3ps here, and 10ps in source.toml') &&
            head -qn 1 given.toml given.bench | diff - <(printf '# tick 10/3ps\n# tick 10/3ps\n') &&
            "$flow/arrivals_to_sdc.py" <(printf '%s\n' 'period 31' 'registers 1' 'a 4') --table given.toml |
            diff - <(printf '%s\n' '# The period is rounded up, and arrivals are rounded down, for the tick is no decimal.' \
                '# tick 10/3ps' 'set_units -time ps' 'create_clock -name clock -period 103.333334 [get_ports {clock}]' \
                'set_clock_latency 13.333333 [get_pins {a/CK}]')
    }
    holds 'a tick of a third' says_thirds
fi
# mapped_of NAME LINE: a mapped netlist of two registers with that line, in NAME.v.
mapped_of() {
    printf '%s\n' "module $1 (clk, clk2, a, q, r, s);" 'input clk, clk2, a; output q, r, s; wire c;' \
        'DFFPOSX1 u1 (.CLK(clk), .D(a), .Q(q));' 'DFFPOSX1 u2 (.CLK(clk), .D(q), .Q(r));' "$2" endmodule >"$1.v"
}
mapped_of fine 'DFFPOSX1 u3 (.CLK(clk), .D(r), .Q(s));'
mapped_of clocks 'DFFPOSX1 u3 (.CLK(clk2), .D(r), .Q(s));'
mapped_of edges 'DFFNEGX1 u3 (.CLK(clk), .D(r), .Q(s));'
mapped_of latch 'LATCH u3 (.CLK(clk), .D(r), .Q(s));'
mapped_of gated 'AND2X2 g1 (.A(clk), .B(a), .Y(c)); DFFPOSX1 u3 (.CLK(c), .D(r), .Q(s));'
mapped_of through 'AND2X2 g1 (.A(r), .B(a), .Y(c)); DFFPOSX1 u3 (.CLK(clk), .D(c), .Q(s));'
sed '$d; s/module fine/module escaped/' fine.v >escaped.v
printf '%s\n' 'wire \q(1)//x=2, ; DFFPOSX1 \u[4](* (.CLK(clk), .D(r), .Q(\q(1)//x=2, ));' endmodule >>escaped.v
head -n 4 fine.v >cut.v
names_of() { "$flow/mapped_verilog.py" escaped.v --pin CLK | tail -n 1 | diff - <(echo 'u[4](* q%281%29//x%3d2%2c'); }
holds 'escaped names' names_of
row 'two clocks' 1 'clocks.v: the registers have several clocks: clk at u1 (DFFPOSX1) and clk2 at u3 (DFFPOSX1)' \
    "$flow/mapped_verilog.py" clocks.v --pin CLK
row 'a clock by a gate' 1 'gated.v: the clock c of the register u3 (DFFPOSX1) is no input, but is made by g1 (AND2X2)' \
    "$flow/mapped_verilog.py" gated.v --pin CLK
row 'no register at the pin' 1 'fine.v: no instance has a clock pin CK and an output Q' "$flow/mapped_verilog.py" fine.v
row 'a file that ends early' 1 'cut.v: the file ends in the middle of the module' "$flow/mapped_verilog.py" cut.v --pin CLK
if has sta && [ -e "$library" ] && has_toml; then
    map_bad() { "$flow/mapped_to_bench.sh" "$1" "${3-$library}" "$2" --pin CLK "${@:4}"; }
    holds 'what is fine' map_bad fine.v fine
    holds 'with a gate' map_bad through.v through
    row 'two clocks, mapped' 1 'clocks.v: the registers have several clocks: clk at u1 (DFFPOSX1) and clk2 at u3 (DFFPOSX1)' \
        map_bad clocks.v out
    row 'both edges' 1 'edges.v: the registers have both edges: posedge at u1 (DFFPOSX1) and negedge at u3 (DFFNEGX1)' \
        map_bad edges.v out
    row 'a latch' 1 'latch.v: u3 (LATCH) is a latch: D goes through it' map_bad latch.v out
    row 'a clock by a gate, mapped' 1 \
        'gated.v: the clock c of the register u3 (DFFPOSX1) is no input, but is made by g1 (AND2X2)' map_bad gated.v out
    row 'a file that ends early, mapped' 1 'cut.v: the file ends in the middle of the module' map_bad cut.v out
    row 'no library' 1 'nowhere.lib: No such file or directory' map_bad fine.v out nowhere.lib
    row 'another file as a library' 1 'fine.v: not a Liberty library' map_bad fine.v out fine.v
    row 'no words for a mapped netlist' 1 'mapped_to_bench.sh: it takes MAPPED.v, LIBRARY.lib and OUT' \
        "$flow/mapped_to_bench.sh" fine.v
    row 'a tick of 0, mapped' 1 'sdf_to_bench.py: argument --tick: 0ps is no tick: one is above 0, as 10ps' \
        map_bad fine.v out "$library" --tick 0ps
    row 'an SDF of another design' 1 'through.sdf: the netlist lacks the instance g1 (AND2X2)' \
        "$flow/sdf_to_bench.py" fine.v through.sdf --pin CLK
    row 'an SDF of fewer instances' 1 'fine.sdf: no delay goes through g1 (AND2X2)' \
        "$flow/sdf_to_bench.py" through.v fine.sdf --pin CLK
    head -n 20 fine.sdf >cut.sdf
    row 'an SDF that ends early' 1 'cut.sdf: the file ends within a bracket' "$flow/sdf_to_bench.py" fine.v cut.sdf --pin CLK
    row 'no SDF' 1 'arrivals: not an SDF file with its TIMESCALE' "$flow/sdf_to_bench.py" fine.v arrivals --pin CLK
    printf '%s\n' 'period 900' 'registers 3' 'q 0' 'r 0' 's 0' >fine.arrivals
    "$flow/arrivals_to_sdc.py" fine.arrivals --table fine.toml --netlist fine.v --clock clk --pin CLK --unit ns >fine.sdc
    holds 'slacks of what is fine' "$flow/slacks.sh" fine.v "$library" fine.sdc
    for end in v sdf sdc; do cp "fine.$end" "fi ne.$end"; done
    holds 'blanks in names' "$flow/slacks.sh" 'fi ne.v' "$library" 'fi ne.sdc' 'fi ne.sdf'
    grep -v create_clock fine.sdc >clockless.sdc
    row 'an SDC without a clock' 1 'clockless.sdc: there is no clock in the SDC' \
        "$flow/slacks.sh" fine.v "$library" clockless.sdc
    { cat fine.sdc; echo 'set_false_path -from [get_clocks clock]'; } >pathless.sdc
    row 'an SDC without a path' 1 'pathless.sdc: no path ends at a register with these constraints' \
        "$flow/slacks.sh" fine.v "$library" pathless.sdc
    row 'a netlist that ends early' 1 'cut.v: the file ends in the middle of the module' "$flow/slacks.sh" cut.v "$library" fine.sdc
    row 'no library for slacks' 1 'nowhere.lib: No such file or directory' "$flow/slacks.sh" fine.v nowhere.lib fine.sdc
    row 'no words for slacks' 1 'slacks.sh: it takes a netlist, a table or a library, and an SDC' "$flow/slacks.sh"
    row 'another tick for slacks' 1 'tick.toml: its tick is 10ps, and that of fine.sdc is 1ps' \
        "$flow/slacks.sh" good.bench tick.toml fine.sdc
    # A register, and then an input, named as the port of the clock.
    printf '%s\n' 'INPUT(a)' 'INPUT(clock_1)' 'OUTPUT(clock)' 'OUTPUT(a)' 'clock = DFF(n)' 'q = DFF(clock)' 'n = NAND(q, clock, a)' >register.bench
    printf '%s\n' 'INPUT(clock)' 'OUTPUT(clock)' 'r = DFF(n)' 'q = DFF(r)' 'n = NAND(q, r, clock)' >input.bench
    with_host "$table" >host.toml
    for name in register input; do
        holds "the $name clock" cts "$name" schedule --bench "$name.bench" --tech host.toml
        holds "OpenSTA with the $name clock" signed_off "$name" host.toml "$name.bench"
        holds "each slack is as printed with the $name clock" printed "$name" "$name"
    done
else
    left_out "sta, $library and a Python of 3.11 aren't all there" 'what is refused of a mapped netlist by its delays'
fi
if has yosys && has berkeley-abc; then
    # module_of NAME TEXT: a module of that name and text, in NAME.v.
    module_of() { printf '%s\n' "module $1(input d, e, clk, clk2, rst, output reg q, r);" "$2" endmodule >"$1.v"; }
    module_of undriven 'wire w; always @(posedge clk) begin q <= d; r <= (w|q)^d; end'
    module_of implicit 'assign n = d; always @(posedge clk) begin q <= n; r <= q; end'
    module_of two 'always @(posedge clk) q <= d; always @(posedge clk2) r <= q;'
    module_of both 'always @(posedge clk) q <= d; always @(negedge clk) r <= q;'
    module_of gate 'wire c = clk & e; always @(posedge c) begin q <= d; r <= q; end'
    module_of holding 'always @* if (clk) q = d; always @(posedge clk) r <= q;'
    module_of reset 'always @(posedge clk or posedge rst) if (rst) q <= 0; else q <= d; always @* r = q;'
    module_of box 'wire w; foo f(q, w); always @(posedge clk) q <= d; always @* r = w;'
    module_of plain 'always @* begin q = d; r = e; end'
    head -n 1 two.v >half.v
    to_bench() { "$flow/verilog_to_bench.sh" "$@"; }
    row 'two clocks in Verilog' 1 'two.v: two: the registers have several clocks: posedge clk and posedge clk2' to_bench two.v two
    row 'both edges in Verilog' 1 'both.v: both: the registers have several clocks: negedge clk and posedge clk' to_bench both.v both
    row 'a clock by a gate in Verilog' 1 'gate.v: gate: the clock c is no input, but is made by a gate or a register' to_bench gate.v gate
    row 'a design without registers' 1 'plain.v: plain: it has no register' to_bench plain.v plain
    row 'no such Verilog' 1 'nowhere.v: No such file or directory' to_bench nowhere.v top
    row 'no words for Verilog' 1 'verilog_to_bench.sh: it takes one or more files and the name of a module' to_bench
    row 'no input to tie' 1 'reset.v: reset: --tie names rts, and not each is an input of the module' to_bench --tie rts=0 reset.v reset
    # ends_with PATTERN WORD..: status 1, nothing printed, and a last line of this pattern.
    ends_with() {
        local pattern=$1
        shift
        ! to_bench "$@" >"$work/printed" 2>"$work/line" && [ ! -s "$work/printed" ] && tail -n 1 "$work/line" | grep "$pattern"
    }
    holds 'a net that nothing drives' ends_with \
        '^undriven.v: undriven: .*undriven..w is used but has no driver; --loose takes it$' undriven.v undriven
    holds 'a net that is not declared' ends_with '^implicit.v: implicit: .*n. is implicitly declared; --loose takes it$' implicit.v implicit
    holds 'a latch in Verilog' ends_with '^holding.v: holding: .*D latches are not supported$' holding.v holding
    holds 'an asynchronous reset' ends_with '^reset.v: reset: .*async.* --tie INPUT=BIT holds' reset.v reset
    holds 'a module that is missing' ends_with '^box.v: box: .*foo.* is not part of the design' box.v box
    holds 'a Verilog file that ends early' ends_with '^half.v: two: .*unexpected end of file' half.v two
    # Loosely, what nothing drives is an input, and no path is lost.
    loosely() { to_bench --loose undriven.v undriven 2>/dev/null | grep -c -e '^INPUT(w)$' -e '(q, w)$' | diff - <(echo 2); }
    holds 'what nothing drives is an input' loosely
else
    left_out "yosys and berkeley-abc aren't both there" 'what is refused of Verilog'
fi
# A chip past the limits: cut, solved block by block, joined and signed off. Where a block's process is killed, a report is altered or
# a block has no schedule, nothing is joined.
if has parallel && has sta && has_toml; then
    chip=$top/examples/chip
    chip_of() { CTS=$1 "$chip/chip.sh" "$work/chip.bench" "$top/examples/biquad.toml" "$work/chip.pl" "${@:2}"; }
    refused_as() {
        local pattern=$1
        shift
        ! "$@" >"$work/line" 2>&1 && grep -e "$pattern" "$work/line"
    }
    holds 'a chip of 6,000 registers' "$chip/make_chip.py" 6000 1 "$work/chip"
    holds 'the chip by its blocks' chip_of "$program" "$work/blocks" "$work/whole"
    holds 'the period of the chip' same <(echo 1782) <(word period whole.joined)
    mkdir "$work/again" && cp -r "$work/blocks/blocks" "$work/blocks/cut" "$work/again"
    printf '#!/usr/bin/env bash\n[ "$1 $3" != "synth 1.bench" ] || kill -9 $$\nexec %q "$@"\n' "$program" >"$work/dying"
    chmod +x "$work/dying"
    holds 'a block that is killed' refused_as 'ends with status 137' chip_of "$work/dying" "$work/again" "$work/killed" 1782
    holds 'no chip without that block' test ! -e "$work/killed.joined"
    holds 'the same call goes on' chip_of "$program" "$work/again" "$work/killed" 1782
    holds 'the chip as without the kill' same "$work/whole.joined" "$work/killed.joined"
    echo >>"$work/again/1782/0.cts"
    holds 'a report that is altered' refused_as "0.cts: it isn't the file that check has judged" \
        "$chip/join.py" "$work/chip.bench" "$top/examples/biquad.toml" "$work/again" 1782
    holds 'a period too short for a block' refused_as 'the block needs a period of 1408, and not 900' \
        chip_of "$program" "$work/blocks" "$work/short" 900
    holds 'no chip at that period' test ! -e "$work/short.joined"
else
    left_out "parallel, OpenSTA and a Python with tomllib aren't all there" 'the chip past the limits'
fi
cd "$work" || exit 1

echo "flow: $passed passed, $failed failed"
[ "$failed" -eq 0 ]
