#!/usr/bin/env bash
# block.sh period|synth PROGRAM FOLDER BLOCK: one job of a block in a folder of one period. `period`
# writes the least period of BLOCK.bench to BLOCK.period. `synth` writes BLOCK.cts, has `check` judge
# it, and only where it is shown writes the sums of the files that were judged to BLOCK.shown.
set -u
[ "${1-}" != --help ] || exec sed -n '2,/^[^#]/s/^# //p' "$0"
[ $# -eq 4 ] || { echo 'block.sh: it takes period or synth, a program, a folder and a block' >&2; exit 2; }
command=$1 program=$2 block=$4
cd "$3" || exit 1
fail() { echo "$PWD/$block: $1" >&2; exit 1; }
circuit=(--bench "$block.bench" --tech "$block.toml")
if [ "$command" = period ]; then
    said=$("$program" period "${circuit[@]}" 2>&1)
    case $said in
        period\ *) echo "$said" | head -n 1 >"$block.draft" && mv "$block.draft" "$block.period" ;;
        never*) fail 'no period will do' ;;
        *) fail "cts period says $said" ;;
    esac
    exit
fi
circuit+=(--pl "$block.pl")
rm -f "$block.shown"
"$program" synth "${circuit[@]}" >"$block.draft" 2>"$block.said" || fail "cts synth ends with status $? $(cat "$block.said")"
mv "$block.draft" "$block.cts"
sums=$(sha256sum "$block.bench" "$block.toml" "$block.pl" "$block.cts") || exit 1
verdict=$("$program" check "${circuit[@]}" --report "$block.cts" 2>&1)
[ "$verdict" = shown ] || fail "$verdict"
echo "$sums" | sha256sum --check --quiet - || fail 'its files changed while they were judged'
echo "$sums" >"$block.draft" && mv "$block.draft" "$block.shown"
