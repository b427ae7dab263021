#!/usr/bin/env bash
# slacks.sh NETLIST.bench TABLE.toml ARRIVALS.sdc: prints the slacks that OpenSTA finds, in ticks,
# as a line NAME SETUP HOLD for each register that a path ends at.
# slacks.sh MAPPED.v LIBRARY.lib ARRIVALS.sdc [DELAYS.sdf]: the same of a mapped netlist, by
# instance. Where the SDC doesn't say its tick, slacks of a mapped netlist are in the library's
# unit.
set -u
[ "${1-}" != --help ] || exec sed -n '2,/^[^#]/s/^# //p' "$0"
here=$(cd "$(dirname "$(readlink -f "${BASH_SOURCE[0]}")")" && pwd)
# shellcheck source=common.sh
. "$here/common.sh"
[ $# -ge 3 ] || fail 'slacks.sh: it takes a netlist, a table or a library, and an SDC'
[ $# -le 4 ] || fail "slacks.sh: it takes four files at most, and not $5 too"
needs_files "$@"
grep -q '^[[:space:]]*create_clock' "$3" || fail "$3: there is no clock in the SDC"
work=$(mktemp -d) || exit 1
trap 'rm -rf "$work"' EXIT

export NETLIST=$1 LEAST=$2 GREATEST=$2 CONSTRAINTS=$3 DELAYS=${4-} TOP
case $1 in
    *.v)
        needs_library "$2"
        scale=$("$here/tick_scale.py" "$3" --library "$2") || exit 1
        ;;
    *)
        [ $# -eq 3 ] || fail "$4: an SDF goes with a mapped netlist alone, whose name ends with .v"
        NETLIST=$work/netlist.v
        LEAST=$work/least.lib
        GREATEST=$work/greatest.lib
        scale=$("$here/tick_scale.py" "$3" "$2" "$1") || exit 1
        "$here/bench_to_verilog.py" "$1" >"$NETLIST" || exit 1
        words=("$1" --tick "${scale#* }")
        "$here/table_to_liberty.py" "$2" least "${words[@]}" >"$LEAST" || exit 1
        "$here/table_to_liberty.py" "$2" greatest "${words[@]}" >"$GREATEST" || exit 1
        ;;
esac
TOP=$("$here/mapped_verilog.py" "$NETLIST" --top) || exit 1
# OpenSTA doesn't read an SDF with a blank in its name.
case $DELAYS in
    *[[:space:]]*)
        ln -s "$(readlink -f "$DELAYS")" "$work/delays.sdf" || exit 1
        DELAYS=$work/delays.sdf
        ;;
esac
sta_runs "$here/slacks.tcl" "$work/log"

# A line of OpenSTA is REGISTER/PIN (CELL) REQUIRED ACTUAL SLACK (MET), or (VIOLATED), or begins
# with an output's PORT (output). The host's slack is the least of all outputs.
awk -v scale="${scale% *}" '
    $1 == "setup" || $1 == "hold" { check = $1 }
    $NF == "(MET)" || $NF == "(VIOLATED)" {
        name = $0
        if (name ~ / \(output\) /) name = "(host)"
        sub(/\/[^\/]+ \([^()]*\) .*/, "", name)
        found = sprintf("%.6f", $(NF - 1) * scale)
        names[name]
        if ((name, check) in slack && slack[name, check] + 0 <= found + 0) next
        slack[name, check] = found
    }
    function shown(key) { return key in slack ? slack[key] : "-" }
    END {
        for (name in names) print name, shown(name SUBSEP "setup"), shown(name SUBSEP "hold")
    }
' "$work/log" >"$work/slacks"
[ -s "$work/slacks" ] || fail "$3: no path ends at a register with these constraints"
cat "$work/slacks"
