#!/usr/bin/env bash
# Changes each byte of two reports to each of a few others, and checks every such text: it is shown,
# or it isn't and the line says why. Nothing else may come. It prints which changes are shown all the
# same. No part of the gate: it runs the program some five thousand times.
# usage: tests/altered.sh [PROGRAM]
set -u
[ "${1-}" != --help ] || exec sed -n '2,/^[^#]/s/^# //p' "$0"
export LC_ALL=C
top=$(cd "$(dirname "${BASH_SOURCE[0]}")/.." && pwd) || exit 1
work=$(mktemp -d) || exit 1
trap 'rm -rf "$work"' EXIT
bytes=(0 1 9 - ' ' $'\n' A)
shown=0
refused=0
failed=0

program=${1-}
if [ -z "$program" ]; then
    "$top/cts" build || exit 1
    program=$top/crates/cts_program/out/cts_program
fi

# judge STATUS CHANGE: what a check of a changed report left.
judge() {
    local out err
    out=$(<"$work/out")
    err=$(<"$work/err")
    case $1:$out:$err in
        0:shown:)
            shown=$((shown + 1))
            echo "altered: shown: $2"
            ;;
        7::'not shown '*) refused=$((refused + 1)) ;;
        *)
            failed=$((failed + 1))
            echo "altered: $2: status $1, out: $out, err: $err"
            ;;
    esac
}

# line_of TEXT PLACE: the number of the line that the byte at a place is on, from 1.
line_of() {
    local before=${1:0:$2}
    before=${before//[!$'\n']/}
    echo $((${#before} + 1))
}

# alter NAME OPTION..: each change of the report of a problem.
alter() {
    local name=$1 text place byte change
    shift
    "$program" synth "$@" >"$work/report" || exit 1
    "$program" check "$@" --report "$work/report" >/dev/null || exit 1
    IFS= read -r -d '' text <"$work/report"
    for ((place = 0; place < ${#text}; place++)); do
        for byte in "${bytes[@]}"; do
            [ "${text:place:1}" != "$byte" ] || continue
            printf %s "${text:0:place}$byte${text:place + 1}" >"$work/altered"
            "$program" check "$@" --report "$work/altered" >"$work/out" 2>"$work/err"
            judge $? "$name, line $(line_of "$text" "$place"), byte $place: ${text:place:1} to $byte"
        done
    done
}

alter s27 --bench "$top/examples/s27.bench" --tech "$top/examples/s27.toml" --pl "$top/examples/s27.pl"

# A period that isn't whole, a wire with a detour, and one of length 0.
printf 'A = DFF(m)\nB = DFF(n)\nn = NOT(A)\nm = BUFF(B)\n' >"$work/ring.bench"
{
    printf '[wire]\ndelay = "1/1"\n[source]\nplace = "CLK"\n'
    printf '[register]\nsetup = 0\nhold = 0\nleast = 0\ngreatest = 0\n'
    printf '[gate.NOT]\nleast = 7\ngreatest = 7\n[gate.BUFF]\nleast = 4\ngreatest = 4\n'
} >"$work/ring.toml"
printf 'A 0 0\nB 1 0\nCLK 0 0\n' >"$work/ring.pl"
alter ring --bench "$work/ring.bench" --tech "$work/ring.toml" --pl "$work/ring.pl"

echo "altered: $shown shown, $refused not shown, $failed failed"
[ "$failed" -eq 0 ]
