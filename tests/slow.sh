#!/usr/bin/env bash
# Times the built program on inputs that are made to hurt, each beside an ordinary one of its size: of three runs of each the least
# processor time, and the ratio of the two. The inputs are made by tests/slow/inputs.py. Without a C compiler names that collide are
# left out. With --times the answer is a table of the times in milliseconds. usage: tests/slow.sh [--times] [PROGRAM]
set -u
[ "${1-}" != --help ] || exec sed -n '2,/^[^#]/s/^# //p' "$0"
top=$(cd "$(dirname "${BASH_SOURCE[0]}")/.." && pwd) || exit 1
work=$(mktemp -d) || exit 1
trap 'rm -rf "$work"' EXIT
passed=0
failed=0
TIMEFORMAT='%U %S'

table=
if [ "${1-}" = --times ]; then
    table=yes
    shift
fi
program=${1-}
if [ -z "$program" ]; then
    "$top/cts" build || exit 1
    program=$top/crates/cts_program/out/cts_program
fi

names=()
if command -v cc >/dev/null 2>&1; then
    cc -O2 -o "$work/colliding_names" "$top/tests/slow/colliding_names.c" && "$work/colliding_names" 4200 >"$work/names" || exit 1
    names=("$work/names")
else
    echo "slow: there is no C compiler, so names that collide are left out"
fi
"$top/tests/slow/inputs.py" "$work" ${names[@]+"${names[@]}"} || exit 1

# run INPUT COMMAND: the command on an input of this name.
run() {
    local words=(--bench "$work/$1.bench")
    case $2 in
        synth) words+=(--tech "$work/$1.toml" --pl "$work/$1.pl") ;;
        moves) words+=(--tech "$work/$1.toml" --pl "$work/$1.pl" --moves "$work/$1.moves") ;;
        margin) words+=(--tech "$work/$1.toml" --period 100000) ;;
        corners) words+=("$work/$1.toml") ;;
        *) words+=(--tech "$work/$1.toml") ;;
    esac
    "$program" "$2" "${words[@]}"
}

# least STATUS COMMAND..: the least processor time of three runs in milliseconds, if they end with this status.
least() {
    local status=$1 times
    shift
    for _run in 1 2 3; do
        times=$( { time "$@" >"$work/out" 2>"$work/err"; echo "$?" >"$work/status"; } 2>&1)
        [ "$(cat "$work/status")" = "$status" ] || return 1
        echo "$times"
    done | awk '{ ms = ($1 + $2) * 1000; if (NR == 1 || ms < best) best = ms } END { if (NR == 3) print best; else exit 1 }'
}

# compare KIND COMMAND MOST STATUS [USUAL]: the slow input of this kind takes at most so many times what the usual one takes, and ends
# with this status; so does the usual one, or with its own.
compare() {
    local kind=$1 command=$2 most=$3 status=$4 usual_status=${5-$4} slow usual
    [ -e "$work/$kind.slow.bench" ] || return
    slow=$(least "$status" run "$kind.slow" "$command") && usual=$(least "$usual_status" run "$kind.usual" "$command") || slow=
    if [ -n "$slow" ] && awk -v slow="$slow" -v usual="$usual" -v most="$most" 'BEGIN { exit !(slow <= most * (usual + 5)) }'; then
        passed=$((passed + 1))
        [ -z "$table" ] || printf '| `%s` | %s | %.0f | %.0f |\n' "$command" "${kind//_/ }" "$slow" "$usual"
    else
        failed=$((failed + 1))
        echo "slow: $command of $kind takes ${slow:-no} ms beside ${usual:-no} ms: $(head -c 200 "$work/err")"
    fi
}

# holds KIND MOST: the slow input of this kind takes at most so many times its size of memory, and 8 MB.
holds() {
    local kind=$1 most=$2 size peak
    size=$(stat -c %s "$work/$kind.slow.bench") || return
    peak=$(python3 -c 'import resource, subprocess, sys
subprocess.run(sys.argv[1:], stdout=subprocess.DEVNULL, check=True)
print(resource.getrusage(resource.RUSAGE_CHILDREN).ru_maxrss * 1024)' "$program" zero --bench "$work/$kind.slow.bench")
    if [ -n "$peak" ] && [ "$peak" -le $((most * size + 8000000)) ]; then
        passed=$((passed + 1))
    else
        failed=$((failed + 1))
        echo "slow: $kind of $size bytes takes ${peak:-no} bytes of memory"
    fi
}

if [ -n "$table" ]; then
    printf '| Command | Input | Made to hurt | Usual |\n|---|---|---|---|\n'
fi
for command in period schedule margin corners; do
    for kind in zigzag hub far_hub rings; do
        [ "$command $kind" = "margin rings" ] || compare "$kind" "$command" 3 0
    done
done
compare names zero 3 0
compare placed_names synth 3 0
compare deep_chain moves 3 0
compare far_chain moves 3 0
compare hidden_axis synth 3 0
compare dead_gates zero 3 0
compare host_outputs zero 3 0
compare long_key zero 6 3 0
compare array zero 3 3
compare headers zero 6 3
holds outputs 9

[ -n "$table" ] || echo "slow: $passed passed, $failed failed"
[ "$failed" = 0 ]
