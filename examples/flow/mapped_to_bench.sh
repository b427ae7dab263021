#!/usr/bin/env bash
# mapped_to_bench.sh MAPPED.v LIBRARY.lib OUT [WORD..]: writes OUT.bench and OUT.toml, a netlist of
# the delays that OpenSTA finds for a mapped netlist with its library, and these as OUT.sdf. The
# words are those of sdf_to_bench.py. Whoever has wires too takes an SDF of their own analyzer.
set -u
[ "${1-}" != --help ] || exec sed -n '2,/^[^#]/s/^# //p' "$0"
here=$(cd "$(dirname "$(readlink -f "${BASH_SOURCE[0]}")")" && pwd)
# shellcheck source=common.sh
. "$here/common.sh"
[ $# -ge 3 ] || fail 'mapped_to_bench.sh: it takes MAPPED.v, LIBRARY.lib and OUT'
needs_files "$1" "$2"
needs_library "$2"
work=$(mktemp -d) || exit 1
trap 'rm -rf "$work"' EXIT

export NETLIST=$1 LIBRARY=$2 DELAYS=$work/out.sdf TOP
out=$3
shift 3
[ -d "$(dirname "$out")" ] || fail "$out: there is no such folder"
TOP=$("$here/mapped_verilog.py" "$NETLIST" --top) || exit 1
cat >"$work/delays.tcl" <<'END'
read_liberty $env(LIBRARY)
read_verilog $env(NETLIST)
link_design $env(TOP)
write_sdf -no_timestamp -no_version -digits 6 $env(DELAYS)
END
sta_runs "$work/delays.tcl" "$work/log"
"$here/sdf_to_bench.py" "$NETLIST" "$DELAYS" --out "$work/out" "$@" || exit 1
for end in sdf toml bench; do
    mv "$work/out.$end" "$out.$end" || exit 1
done
