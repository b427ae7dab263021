#!/usr/bin/env bash
# verilog_to_bench.sh [-sv] [--loose] [--tie INPUT=BIT].. FILE.v.. TOP: prints the module TOP as a
# .bench netlist of gates with one to three inputs and registers of one clock. yosys makes the
# registers and the logic, and berkeley-abc maps the logic on the kinds of gates. With -sv the files
# are SystemVerilog. An input that is tied is held at 0 or 1, as a reset that isn't active. The
# registers of the netlist have no initial values. What yosys warns of is said on the error output. A
# net that nothing drives or that isn't declared ends the script, unless it is --loose: then what
# nothing drives is an input.
set -u
[ "${1-}" != --help ] || exec sed -n '2,/^[^#]/s/^# //p' "$0"
here=$(cd "$(dirname "$(readlink -f "${BASH_SOURCE[0]}")")" && pwd)
# shellcheck source=common.sh
. "$here/common.sh"
top=${*: -1}
language=''
ties=''
loose=''
asserts=''
tied=()
while [ $# -gt 2 ]; do
    case $1 in
        -sv) language=-sv ;;
        --loose) loose=yes ;;
        --tie)
            [[ $2 =~ ^[^=]+=[01]$ ]] ||
                fail "verilog_to_bench.sh: --tie takes INPUT=0 or INPUT=1, and not $2"
            tied+=("${2%=*}")
            asserts+="select -assert-any $top/i:${2%=*}; "
            ties+="delete -input w:${2%=*}; connect -set ${2%=*} 1'b${2#*=}; "
            shift
            ;;
        *) break ;;
    esac
    shift
done
[ $# -ge 2 ] || fail 'verilog_to_bench.sh: it takes one or more files and the name of a module'
first=$1
files=''
for file in "${@:1:$#-1}"; do
    case $file in -*) fail "verilog_to_bench.sh: $file is no word that it knows" ;; esac
    needs_files "$file"
    files+=" \"$(readlink -m "$file")\""
done
needs_tool yosys
needs_tool berkeley-abc
work=$(mktemp -d) || exit 1
trap 'rm -rf "$work"' EXIT
cd "$work" || exit 1

# refuse MESSAGE: ends the script with a line about the module.
refuse() { fail "$first: $top: $1"; }

# What nothing drives becomes an input before anything is left out for it. Registers get neither
# enable nor reset pins: both become gates in front of them.
{ yosys -q -p "
    read_verilog $language $files
    hierarchy -check -top $top
    $asserts
    proc
    cd $top; $ties cd ..
    flatten
    check
    setundef -undriven -expose
    synth -flatten -noabc -top $top
    setattr -unset init w:*
    dfflegalize -cell \$_DFF_P_ x -cell \$_DFF_N_ x
    simplemap
    opt_clean -purge
    write_blif logic.blif" >yosys.log 2>&1; } 2>/dev/null
status=$?
grep -E '(^|: )Warning: ' yosys.log | awk '!seen[$0]++' >&2
if [ "$status" -ne 0 ]; then
    wrong=$(grep -m 1 ERROR yosys.log || tail -n 1 yosys.log)
    case $wrong in
        *'Failed to parse set lhs'* | *'Assertion failed: selection is empty'*)
            wrong="--tie names ${tied[*]}, and not each is an input of the module"
            ;;
    esac
    if grep -q 'async set or reset' yosys.log; then
        wrong+=' --tie INPUT=BIT holds the reset at the value at which it is not active.'
    fi
    refuse "$wrong"
fi
wrong=$(grep -m 1 'multiple conflicting drivers' yosys.log)
[ -z "$wrong" ] || refuse "${wrong%:}"
if [ -z "$loose" ]; then
    wrong=$(grep -m 1 -E 'used but has no driver|implicitly declared' yosys.log)
    [ -z "$wrong" ] || refuse "${wrong%.}; --loose takes it"
fi
if grep -q '^\.subckt' logic.blif; then
    cell=$(awk '/^\.subckt/ { print $2; exit }' logic.blif)
    refuse "a cell is left that is neither a register nor a gate: $cell"
fi

# Line .latch D Q re CLOCK 2, or fe for the other edge.
clocks=$(awk '$1 == ".latch" { print $4 == "fe" ? "negedge" : "posedge", $5 }' logic.blif | sort -u)
[ -n "$clocks" ] || refuse 'it has no register'
[ "$(wc -l <<<"$clocks")" -eq 1 ] ||
    refuse "the registers have several clocks: ${clocks//$'\n'/ and }"
awk -v clock="${clocks#* }" '
    { line = line $0 }
    sub(/\\$/, "", line) { next }
    { $0 = line; line = "" }
    $1 == ".inputs" { for (place = 2; place <= NF; place++) found += $place == clock }
    END { exit !found }' logic.blif ||
    refuse "the clock ${clocks#* } is no input, but is made by a gate or a register"

map="read_genlib $here/kinds.genlib; read_blif logic.blif; strash; dch; map; write_blif gates.blif"
{ berkeley-abc -q "$map" >abc.log 2>&1; } 2>/dev/null
if ! [ -s gates.blif ]; then
    refuse "berkeley-abc says $(grep -m 1 . abc.log || echo nothing)"
fi

echo "# $top of $(basename -a "${@:1:$#-1}" | paste -s -d ' '), by yosys and berkeley-abc"
awk -f "$here/gates_to_bench.awk" gates.blif
