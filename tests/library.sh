#!/usr/bin/env bash
# Builds the library of include/cts.h with each C compiler that is there, cc and clang, and tries it: the examples
# in C and Python beside the built program, byte for byte, and each size of buffer, wrong texts, want of memory,
# threads and a thousand calls. What needs a tool that is missing is left out, with a word.
# usage: tests/library.sh [PROGRAM]
set -u
[ "${1-}" != --help ] || exec sed -n '2,/^[^#]/s/^# //p' "$0"
top=$(cd "$(dirname "${BASH_SOURCE[0]}")/.." && pwd) || exit 1
work=$(mktemp -d) || exit 1
trap 'rm -rf "$work"' EXIT
passed=0
failed=0

has() { command -v "$1" >/dev/null 2>&1; }
left_out() { echo "library: $1, so $2 is left out"; }

compilers=()
for name in cc clang; do
    if has "$name"; then compilers+=("$name"); else left_out "there is no $name" "what it builds"; fi
done
if [ ${#compilers[@]} -eq 0 ]; then
    left_out 'there is no C compiler' 'all of it'
    exit 0
fi

program=${1-}
if [ -z "$program" ]; then
    "$top/cts" build || exit 1
    program=$top/crates/cts_program/out/cts_program
fi
examples=$top/examples

# Whether `rt ci` was the last to build the library of each crate below it, of the sources as they are. It proves these and leaves no
# stamp on them, so that `rt lib` would prove them all again.
are_left_by_ci() {
    local built=$top/crates/cts_engine/out/rlib linked=$top/crates/cts_program/out/cts_program
    [ -d "$built" ] && [ ! -e "$built/stamp" ] && [ -e "$linked" ] &&
        [ "$(tail -c 77 "$linked" | tr -d '\0')" = "$("$top/cts" sources cts_program)" ]
}

# Proves `cts_c` over those libraries and builds the archive, as `rt lib` does.
archive_over() {
    local kit name rlib words=()
    kit=$(dirname "$(dirname "$(readlink -f "$(command -v rt)")")")
    for name in $(sed -n 's/^cts_c staticlib: //p' "$top/crates.txt"); do
        words+=(--extern "$name=$top/crates/$name/out/rlib/$name.rlib")
    done
    for rlib in "$kit/rlibs" "$top"/crates/*/out/rlib; do words+=(-L "dependency=$rlib"); done
    cd "$top/crates/cts_c" && mkdir -p out &&
        "$kit/bin/rattle" build --crate-name cts_c src/lib.rt --extern "std=$kit/rlibs/std.rlib" "${words[@]}" \
            --antt-project "$kit/rattle/logic/antt-project.json" --logic-built "$kit/logic_built" \
            --toolchain "$kit/toolchain" --links cts_c= --jobs "$(nproc)" --crate-type staticlib -o out/libcts_c.a
}

archive=$top/crates/cts_c/out/libcts_c.a
sources=$("$top/cts" sources cts_c)
if are_left_by_ci; then (archive_over); else (cd "$top/crates/cts_c" && rt lib); fi >"$work/said" 2>&1 ||
    { tail -n 20 "$work/said"; exit 1; }
[ "$sources" != "$("$top/cts" sources cts_c)" ] || echo "$sources" >"$archive.sources"

# holds NAME COMMAND..: the command ends with status 0. What it says is shown where it doesn't.
holds() {
    local name=$1
    shift
    if "$@" >"$work/said" 2>&1; then
        passed=$((passed + 1))
    else
        failed=$((failed + 1))
        echo "library: $name: $(head -c 400 "$work/said")"
    fi
}

# ask COMMAND FILE..: the program's answer with these files, in the order of its options.
ask() {
    local command=$1 words=() option
    shift
    for option in --bench --tech --pl --report; do
        [ $# -eq 0 ] || words+=("$option" "$1")
        [ $# -eq 0 ] || shift
    done
    "$program" "$command" ${words[@]+"${words[@]}"}
}

# numbers REPORT: the numbers for what the program says of a report that isn't shown. A register has the place of its
# line in the report.
numbers() {
    awk '
        FILENAME != "/dev/stdin" {
            if ($1 == "registers") first = FNR + 1
            else if (first && !($1 in place)) place[$1] = FNR - first
            next
        }
        $3 == "report" && $4 == "long" { print "not shown 1 0 0"; next }
        $3 == "report" { print "not shown 2", $4, $6; next }
        $NF ~ /^[0-9]+$/ { print "not shown 3", $3, $NF; next }
        { print "not shown 3", $3, $3 ~ /^(5|9|12|14)$/ ? place[$NF] : 0 }
    ' "$1" /dev/stdin
}

# same NAME COMMAND FILE..: the library leaves what the program does, called by each of the ways in `ways`.
same() {
    local name=$1 way status own
    shift
    ask "$@" >"$work/own" 2>"$work/own_err"
    own=$?
    [ "$own" != 7 ] || numbers "$5" <"$work/own_err" >"$work/own"
    for way in "${ways[@]}"; do
        $way "$@" >"$work/out" 2>"$work/err"
        status=$?
        if [ "$status" = "$own" ] && cmp -s "$work/out" "$work/own" && [ ! -s "$work/err" ]; then
            passed=$((passed + 1))
        else
            failed=$((failed + 1))
            echo "library: $name by $way: status $status, and of the program $own: $(diff "$work/own" "$work/out" | head -c 300) $(head -c 200 "$work/err")"
        fi
    done
}

# altered NAME EDIT..: a report with these changes.
altered() {
    sed "${@:2}" "$examples/s27.cts" >"$work/altered"
    same "$1" check "${s27[@]}" "$work/altered"
}

# Each compiler builds the example and the calls, and makes a shared object for Python.
ways=()
for compiler in "${compilers[@]}"; do
    flags=(-std=c11 -O1 -Wall -Wextra -Werror -I "$top/include")
    holds "the example by $compiler" "$compiler" "${flags[@]}" -o "$work/example_$compiler" \
        "$examples/library/library.c" "$top/c/cts_heap.c" "$archive"
    holds "the calls by $compiler" "$compiler" "${flags[@]}" -pthread -o "$work/calls_$compiler" \
        "$top/tests/library/calls.c" "$archive"
    holds "the shared object by $compiler" "$compiler" -shared -fPIC -o "$work/libcts_$compiler.so" \
        "$top/c/cts_heap.c" -Wl,--whole-archive "$archive" -Wl,--no-whole-archive
    ways+=("$work/example_$compiler")
    if has python3; then
        ways+=("python3 $examples/library/library.py $work/libcts_$compiler.so")
    fi
done
has python3 || left_out 'there is no python3' 'the example in Python'
# As it is installed, a compiler finds it by pkg-config.
installed() {
    local flags
    "$top/cts" install --prefix "$work/prefix" && flags=$(pkg-config --cflags --libs cts) &&
        flags="$examples/library/library.c $(pkg-config --variable=heap cts) $flags" &&
        # shellcheck disable=SC2086
        "${compilers[0]}" -o "$work/installed" $flags && "$top/cts" uninstall --prefix "$work/prefix" && [ ! -e "$work/prefix" ]
}
if [ -n "${1-}" ]; then
    left_out 'the program is another one' 'the library as it is installed'
elif ! has pkg-config; then
    left_out 'there is no pkg-config' 'the library as it is installed'
else
    PKG_CONFIG_PATH=$work/prefix/lib/pkgconfig holds 'the library as it is installed' installed
    ways+=("$work/installed")
fi
echo '#include "cts.h"' >"$work/header.cc"
if has c++; then
    holds 'the header in C++' c++ -Wall -Wextra -Werror -I "$top/include" -c -o "$work/header.o" "$work/header.cc"
else
    left_out 'there is no c++' 'the header in C++'
fi

# The examples, and texts of which no period is met, which are refused, and which join too many registers.
s27=("$examples/s27.bench" "$examples/s27.toml" "$examples/s27.pl")
printf 'A = DFF(A)\n' >"$work/itself.bench"
sed 's/^hold = 1/hold = 9/' "$examples/s27.toml" >"$work/never.toml"
printf 'A 0 0\nCLK 3 4\n' >"$work/itself.pl"
itself=("$work/itself.bench" "$work/never.toml" "$work/itself.pl")
awk 'BEGIN {
    for (i = 0; i < 1025; i++) printf "r%d = DFF(g)\n", i
    for (i = 0; i < 1025; i += 41) {
        printf "h%d = AND(r%d", i, i
        for (j = 1; j < 41; j++) printf ",r%d", i + j
        print ")"
    }
    printf "g = AND(h0"
    for (i = 41; i < 1025; i += 41) printf ",h%d", i
    print ")"
}' >"$work/pairs.bench"
awk 'BEGIN { for (i = 0; i < 1025; i++) print "r" i, i, 0; print "CLK 0 0" }' >"$work/pairs.pl"
: >"$work/empty"

for name in s27 two biquad; do
    files=("$examples/$name.bench" "$examples/$name.toml" "$examples/$name.pl")
    same "the tree of $name" synth "${files[@]}"
    same "the schedule of $name" schedule "${files[@]:0:2}"
    ask synth "${files[@]}" >"$work/$name.cts"
    same "the report of $name" check "${files[@]}" "$work/$name.cts"
done
same 'a tree at no period' synth "${itself[@]}"
same 'a schedule at no period' schedule "${itself[@]:0:2}"
same 'a report of no period' check "${itself[@]}" "$work/s27.cts"
same 'too many pairs for a tree' synth "$work/pairs.bench" "$examples/s27.toml" "$work/pairs.pl"
same 'too many pairs for a schedule' schedule "$work/pairs.bench" "$examples/s27.toml"
same 'too many pairs and no report' check "$work/pairs.bench" "$examples/s27.toml" "$work/pairs.pl" "$work/empty"
for file in "$examples"/*.bench; do
    same "the tree of $file" synth "$file" "$examples/s27.toml" "$examples/s27.pl"
    same "the schedule of $file" schedule "$file" "$examples/s27.toml"
done

# Reports of which each reason and each fault is the first.
altered 'a lower period' 's/^period 13/period 0/'
altered 'another cycle' 's/^setup G6 G6 13/setup G6 G5 13/'
altered 'another weight' 's/^setup G6 G6 13/setup G6 G6 14/'
altered 'another period' 's/^period 13/period 14/'
altered 'an earlier arrival' 's/^G5 2 0 2/G5 1 0 2/'
altered 'another merge' 's/^3 0 1 2/3 0 1 3/'
altered 'another sink' 's/^0 0 0 4/0 0 1 4/'
altered 'a shorter edge' 's/^0 0 0 4 2/0 0 0 1 2/'
altered 'another wire' 's/^3 4 0 2 2 6 0/3 4 0 2 2 7 0/'
altered 'a longer edge' 's/^2 10 0 4 2 6 0 10 0/2 10 0 8 4 6 0 6 -2 10 -2 10 0/'
altered 'another total' 's/^wire 23/wire 22/'
altered 'another slack' 's/^G7 0 6 2/G7 0 5 2/'
altered 'another path' 's/^path 5 G6 G8/path 5 G6 G12/'
altered 'a wrong lead' 's/^lead 1 setup G6 G5 15/lead 0/'
altered 'another word' 's/^wire/wires/'
altered 'an unknown register' 's/^G7 0 6 2/G8 0 6 2/'
altered 'a line less' '$d'
altered 'a line more' '$a wire 23'
altered 'too large a number' 's/^G7 0 6 2/G7 0 99999999999999999999999999 2/'
altered 'an unknown signal' 's/^path 5 G6 G8/path 5 G6 G99/'
altered 'nothing' 'd'

for compiler in "${compilers[@]}"; do
    ask schedule "${s27[@]:0:2}" >"$work/schedule"
    "$work/calls_$compiler" "${s27[@]}" "$work/s27.cts" "$work/schedule" >"$work/said" 2>&1
    status=$?
    read -r done_ _ wrong _ <<<"$(tail -n 1 "$work/said" | tr -d ,)"
    if [ "$status" -le 1 ] && [[ $done_$wrong =~ ^[0-9]+$ ]]; then
        passed=$((passed + done_))
        failed=$((failed + wrong))
        sed '$d' "$work/said"
    else
        failed=$((failed + 1))
        echo "library: the calls by $compiler: status $status: $(tail -c 400 "$work/said")"
    fi
done

echo "library: $passed passed, $failed failed"
[ "$failed" -eq 0 ]
