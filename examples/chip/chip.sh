#!/usr/bin/env bash
# chip.sh CHIP.bench CHIP.toml CHIP.pl FOLDER OUT [PERIOD]: cuts a chip, finds the least period for
# which all blocks have a schedule, or takes PERIOD, makes their trees and that over them, and writes
# OUT.joined, OUT.sdc and, where OpenSTA is there, OUT.slacks. The blocks are run by GNU parallel. The
# same call goes on where one ended. Words for parallel stand in PARALLEL, the program in CTS.
set -u
[ "${1-}" != --help ] || exec sed -n '2,/^[^#]/s/^# //p' "$0"
[ $# -ge 5 ] || { echo 'chip.sh: it takes a netlist, a table, a placement, a folder and a name' >&2; exit 2; }
here=$(cd "$(dirname "$(readlink -f "${BASH_SOURCE[0]}")")" && pwd)
flow=$here/../flow
program=$(readlink -f "${CTS:-$here/../../cts}")
netlist=$1 table=$2 placement=$3 folder=$4 out=$5 period=${6-}
command -v parallel >/dev/null 2>&1 || { echo 'parallel: the command is not there' >&2; exit 1; }
[ -e "$folder/blocks" ] || "$here/cut.py" "$netlist" "$table" "$placement" "$folder" || exit 1
mapfile -t blocks <"$folder/blocks"

# jobs COMMAND BLOCK..: a job for each block, where its log doesn't say that it is done.
jobs() {
    parallel --will-cite --joblog "$folder/$period/$1.log" --resume-failed --retries 2 \
        "$here/block.sh" "$1" "$program" "$folder/$period" ::: "${@:2}"
}

if [ -z "$period" ]; then
    period=$(awk '$1 == "period" { print $2 }' "$folder/cut/common")
    active=("${blocks[@]}")
    # A block that has a schedule at a period has one at each longer one.
    while [ ${#active[@]} -gt 0 ]; do
        "$here/block_at.py" "$folder" "$period" "${active[@]}" || exit 1
        jobs period "${active[@]}" || exit 1
        next=$period above=()
        for block in "${active[@]}"; do
            asked=$(awk '{ split($2, n, "/"); whole = n[2] ? n[1] / n[2] : n[1]
                print whole == int(whole) ? whole : int(whole) + 1 }' "$folder/$period/$block.period")
            [ "$asked" -le "$period" ] || above+=("$block")
            [ "$asked" -le "$next" ] || next=$asked
        done
        period=$next active=(${above[@]+"${above[@]}"})
    done
fi
at=$folder/$period
"$here/block_at.py" "$folder" "$period" "${blocks[@]}" || exit 1
for block in "${blocks[@]}" top; do cp "$folder/cut/$block.pl" "$at/"; done
jobs synth "${blocks[@]}" || exit 1
"$here/join.py" "$netlist" "$table" "$folder" "$period" --sources >"$at/top.arrivals" || exit 1
"$flow/arrivals_to_problem.py" "$at/top.arrivals" "$table" "$at/top" || exit 1
"$here/block.sh" synth "$program" "$at" top || exit 1
"$here/join.py" "$netlist" "$table" "$folder" "$period" >"$at/joined" || exit 1
mv "$at/joined" "$out.joined"
"$flow/arrivals_to_sdc.py" "$out.joined" >"$out.sdc" || exit 1
sed -n '1,/^registers/p' "$out.joined"
command -v sta >/dev/null 2>&1 || { echo 'sta: the command is not there, so sign-off is left out'; exit; }
"$flow/slacks.sh" "$netlist" "$table" "$out.sdc" >"$out.slacks" || exit 1
"$flow/compare_slacks.py" "$out.joined" "$out.slacks" --within 0.01 | tail -n 1
exit "${PIPESTATUS[0]}"
