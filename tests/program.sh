#!/usr/bin/env bash
# Runs the built program: the rows of tests/rows first, then pipes, devices, many registers, and the script around the
# program. Expected texts are worked by hand. Without the name of a program it tries the proved one, by the script `cts`,
# and builds it first. usage: tests/program.sh [PROGRAM]
set -u
[ "${1-}" != --help ] || exec sed -n '2,/^[^#]/s/^# //p' "$0"
top=$(cd "$(dirname "${BASH_SOURCE[0]}")/.." && pwd) || exit 1
work=$(mktemp -d) || exit 1
late=
trap 'kill $late 2>/dev/null; rm -rf "$work"' EXIT
passed=0
failed=0

# expect NAME STATUS TEXT LINE COMMAND..: what a command must leave.
expect() {
    local name=$1 status=$2 text=$3 line=$4 seen
    shift 4
    "$@" >"$work/out" 2>"$work/err"
    seen=$?
    if [ "$seen" = "$status" ] && [ "$(cat "$work/out")" = "$text" ] && [ "$(cat "$work/err")" = "$line" ]; then
        passed=$((passed + 1))
    else
        failed=$((failed + 1))
        echo "program: $name: status $seen, out: $(head -c 200 "$work/out"), err: $(head -c 200 "$work/err")"
    fi
}

# registers SETUP HOLD LEAST GREATEST [MORE]: a table of registers, and what stands behind it.
registers() {
    printf '[wire]\ndelay = "1"\n[source]\nplace = "CLK"\n'
    printf '[register]\nsetup = %s\nhold = %s\nleast = %s\ngreatest = %s\n' "${@:1:4}"
    printf '%b' "${5-}"
}

# A proved program of these sources is used as it is.
cts=$top/cts
program=$top/crates/cts_program/out/cts_program
if [ -n "${1-}" ]; then
    cts=$(readlink -f "$1") || exit 1
    program=$cts
else
    "$cts" build || exit 1
fi

# A copy with no program answers all the same, by a run that isn't proved. It takes a minute, beside all others.
copy_to() { mkdir "$1" && tar -C "$top" --exclude=out --exclude=.git -cf - . | tar -C "$1" --touch -xf -; }
copy_to "$work/unbuilt"
printf 'A = DFF(A)\n' >"$work/late.bench"
registers 0 2 1 1 >"$work/late.toml"
(cd "$work" && exec unbuilt/cts period --bench late.bench --tech late.toml) >"$work/late_out" 2>"$work/late_err" &
late=$!

"$top/tests/rows.py" "$program" || failed=1

s27=$top/examples/s27.bench
table=$top/examples/s27.toml
places=$top/examples/s27.pl
tree=$("$top/tests/rows.py" --text s27_tree)
usage=$("$top/tests/rows.py" --text usage)

# A demonstration is made from two numbers. Two runs print the same.
demo() { "$cts" demo --registers "$1" --seed "$2"; }
ends() { demo "$@" | sed -n '1p; $p'; }
expect 'a large demonstration' 0 $'registers 500\nshown' '' ends 500 1
expect 'the largest demonstration' 0 $'registers 1000\nshown' '' ends 1000 999
expect 'the same once more' 0 "$(demo 500 1)" '' demo 500 1

# Devices.
full() { "$cts" zero --bench "$top/examples/ring.bench" >/dev/full; }
closed() { "$cts" zero --bench "$top/examples/ring.bench" >&-; }
no_err() { "$cts" 2>&-; }
full_err() { "$cts" 2>/dev/full; }
expect 'a full output' 5 '' 'write fault' full
expect 'a closed output' 5 '' 'write fault' closed
expect 'a closed error output' 2 '' '' no_err
expect 'a full error output' 2 '' '' full_err

# The caller's folder is where names are looked up.
cp "$top/examples/ring.bench" "$work/here.bench"
inside() { (cd "$work" && "$cts" zero --bench here.bench); }
expect 'the callers folder' 0 $'zero 5\nsetup a a 5' '' inside

# A name is that of one file: nothing is taken from it, and nothing is made where it is missing.
mkdir "$work/in"
cp "$s27" "$work/in/ s27.bench "
cp "$s27" "$work/in/s27"
below() { (cd "$work/in" && "$cts" zero --bench "$1"); }
expect 'blanks at both ends' 0 $'zero 10\nsetup G6 G5 10' '' below ' s27.bench '
expect 'no blanks' 4 '' 'read fault bench' below s27.bench
expect 'a blank behind another name' 4 '' 'read fault bench' below 's27 '
expect 'the folder above' 0 $'zero 5\nsetup a a 5' '' below ./../here.bench
expect 'not the folder above' 4 '' 'read fault bench' below ./here.bench
expect 'a folder in front' 4 '' 'read fault bench' below in/s27
expect 'a missing file is still missing' 1 '' '' test -e "$work/in/s27.bench"

# Pipes are read once, from their first byte to the end, in whatever pieces it comes. What has no end is too long.
piped() { "$cts" zero --bench <(cat "$s27") --tech <(cat "$table"); }
bytes() { dd if="$1" bs=1 status=none; }
pieces() { "$cts" "$1" --bench <(bytes "$s27") --tech <(bytes "$table") --pl <(bytes "$places") "${@:2}"; }
pieces_of_a_report() { pieces check --report <(bytes "$top/examples/s27.cts"); }
endless() { "$cts" zero --bench "$s27" --tech <(yes '#'); }
expect 'files that are pipes' 0 $'zero 15\nsetup G6 G5 15' '' piped
expect 'a problem in pieces' 0 "$tree" '' pieces synth
expect 'a report in pieces' 0 'shown' '' pieces_of_a_report
expect 'a pipe without an end' 3 '' 'refused tech long' endless
expect 'a file without an end' 3 '' 'refused bench long' "$cts" zero --bench /dev/zero

# The largest denominator: one ring of 4,096 registers, with their lines against its order, and mixed. The cycle in its order is a
# row of tests/rows/period.toml.
ring() {
    printf 'b = BUFF(r0)\nr0 = DFF(r4095)\nr1 = DFF(b)\n'
    seq 2 4095 | awk '{ print "r" $1 " = DFF(r" $1 - 1 ")" }'
}
cycle() {
    printf 'period 8193/4096\nzero 3\ncycle 4096\nsetup r0 r1 3\n'
    seq 1 4095 | awk '{ print "setup r" $1 " r" ($1 + 1) % 4096 " 2" }'
}
# The registers of that ring, each from r2 on 1/4096 of a tick earlier than the one that launches to it.
arrivals() {
    printf 'registers 4096\nr0 0 0 4097/4096\nr1 4095/4096 0 1/4096\n'
    seq 2 4095 | awk '{
        over = 4096 - $1
        under = 4096
        while (over % 2 == 0) { over /= 2; under /= 2 }
        print "r" $1 " " over "/" under " 0 4097/4096"
    }'
}
# Every 1,531st line, from the first on: 1,531 and 4,097 have no common divisor.
mixed() { awk '{ line[NR - 1] = $0 } END { for (i = 0; i < NR; i++) print line[i * 1531 % NR] }'; }
sorted() { "$cts" period --bench "$1" --tech "$work/ring.toml" | sort; }
registers 1 0 1 1 '[gate.BUFF]\nleast = 0\ngreatest = 1\n' >"$work/ring.toml"
ring >"$work/ring.bench"
tac "$work/ring.bench" >"$work/against.bench"
mixed <"$work/ring.bench" >"$work/mixed.bench"
expect 'the schedule of a ring' 0 "$(cycle; arrivals)" '' \
    "$cts" schedule --bench "$work/ring.bench" --tech "$work/ring.toml"
expect 'a ring against its order' 0 "$(cycle | sort)" '' sorted "$work/against.bench"
expect 'a ring in a mixed order' 0 "$(cycle | sort)" '' sorted "$work/mixed.bench"

# A row of 4,096 registers at equal distances: each pair of neighbours is merged, and so on up.
row() { printf 'INPUT(x)\n'; seq 0 4095 | awk '{ print "r" $1 " = DFF(x)" }'; }
row_places() { seq 0 4095 | awk '{ print "r" $1 " " $1 " 0" }'; printf 'CLK 0 0\n'; }
pairs() { seq 0 4094 | awk '{ print 4096 + $1, 2 * $1, 2 * $1 + 1 }'; }
# The merges of a report, as a topology file.
topology() { awk 'NF == 2 && $1 == "merges" { left = $2; next } left-- > 0 { print $1, $2, $3 }'; }
merges() { "$cts" synth --bench "$1" --tech "$work/row.toml" --pl "$2" | topology; }
embed() { "$cts" embed --bench "$1" --tech "$2" --pl "$3" --topology "$4"; }
registers 0 0 0 0 >"$work/row.toml"
row >"$work/row.bench"
row_places >"$work/row.pl"
expect 'a row of registers' 0 "$(pairs)" '' merges "$work/row.bench" "$work/row.pl"

# A topology that was printed is handed back, and one in which each register joins those before it.
expect 'the report of the examples' 0 "$tree" '' cat "$top/examples/s27.cts"
its_topology() { topology <"$top/examples/s27.cts" | cmp - "$top/examples/s27.topology"; }
expect 'its topology' 0 '' '' its_topology
handed_back() {
    "$cts" synth --bench "$work/row.bench" --tech "$work/row.toml" --pl "$work/row.pl" >"$work/row.cts"
    topology <"$work/row.cts" >"$work/row.topology"
    embed "$work/row.bench" "$work/row.toml" "$work/row.pl" "$work/row.topology" | cmp - "$work/row.cts"
}
expect 'the topology of a row' 0 '' '' handed_back
chain() { seq 1 4095 | awk '{ print 4095 + $1, $1 == 1 ? "0 1" : $1 " " (4094 + $1) }'; }
chain >"$work/chain.topology"
chained() {
    embed "$work/row.bench" "$work/row.toml" "$work/row.pl" "$work/chain.topology" >"$work/chain.cts"
    topology <"$work/chain.cts" | cmp - "$work/chain.topology"
    grep -E '^(8190 4095 8189|source|wire) ' "$work/chain.cts"
}
# The last merge reaches half of the row. Each register adds its half of the way from the first.
expect 'a chain of registers' 0 "$(printf '%s\n' '8190 4095 8189 4095/2 pair r0 r4095' 'source 4095 sink r4095' \
    'wire 4197375')" '' chained

# Moves: the wire for the placement, and after each move.
moves() { "$cts" moves --bench "$1" --tech "$2" --pl "$3" --moves "$4"; }
printf 'INPUT(x)\nA = DFF(x)\nB = DFF(x)\n' >"$work/two.bench"
printf 'A 0 0\nB 2 1\nCLK 0 0\n' >"$work/two.pl"
# As many moves as there may be, each one length unit further from the source than the one before.
seq 1 10000 | awk '{ print "B " $1 " 0" }' >"$work/most.moves"
further() { echo 'wire 9/2'; seq 1 10000 | awk '{ print "wire " ($1 % 2 ? 3 * $1 "/2" : 3 * $1 / 2) }'; }
expect 'the most moves' 0 "$(further)" '' moves "$work/two.bench" "$work/row.toml" "$work/two.pl" "$work/most.moves"

# Each word goes on as it is, and the name by which the program is called is none of them.
cp "$s27" "$work/ two  words.bench"
expect 'a name with blanks' 0 $'zero 10\nsetup G6 G5 10' '' "$cts" zero --bench "$work/ two  words.bench"
expect 'no words' 2 '' "$usage" "$cts"
expect 'an empty word' 2 '' "$usage" "$cts" zero --bench "$s27" ''
expect 'an empty first word' 2 '' "$usage" "$cts" '' zero --bench "$s27"
expect 'a word that is no text' 2 '' "$usage" "$cts" zero --bench $'\xff'
named() { (exec -a zero "$program" "$@"); }
expect 'a command as the name' 2 '' "$usage" named --bench "$s27"
expect 'another name' 0 $'zero 10\nsetup G6 G5 10' '' named zero --bench "$s27"

# The script answers for itself with no program there, and with a toolchain that only says that it was started, or none.
mkdir -p "$work/bare" "$work/fake" "$work/tools"
cp -r "$top/cts" "$top/crates.txt" "$top/share" "$work/bare"
(cd "$top" && find crates -maxdepth 1 -type d -exec mkdir -p "$work/bare/{}" \;)
for name in awk bash cat chmod cut dirname env find git grep head install mkdir mktemp mv nproc readlink realpath rm rmdir sed \
    sha256sum sort tail tr wc xargs; do
    ln -s "$(command -v "$name")" "$work/tools/$name"
done
ln -s "$(python3 -c 'import sys; print(sys.executable)')" "$work/tools/python3"
without_rt() { PATH=$work/tools "$@"; }
without_rt "$top/tests/rows.py" --at-once "$work/bare/cts" || failed=$((failed + 1))
printf '#!/bin/sh\necho $$ >>"%s"\nexec sleep 300\n' "$work/started" >"$work/fake/rt"
chmod +x "$work/fake/rt"
: >"$work/started"
helped() { "$work/bare/cts" "$@" | grep -o '^  cts [-a-z]*' | grep -Ev ' (help|--version|build|install|uninstall)$' | sort; }
commands=$(grep -o 'cts [a-z]*' <<<"$usage" | sed 's/^/  /' | sort)
for word in help -h --help; do expect "a line for each command of $word" 0 "$commands" '' helped "$word"; done
version=$(sed -n 's/^version=//p' "$top/cts")
for word in -V --version; do
    expect "which version by $word" 0 "cts $version, with reports of version 2
there is no proved program of these sources; ./cts build makes one" '' env GIT_DIR=/dev/null "$work/bare/cts" "$word"
done
# The help of a command begins with its words of the usage line, and names each of its options and the statuses that it can have.
help_of_each() {
    local name words option
    while read -r _ name words; do
        "$work/bare/cts" "$name" --help >"$work/help" && "$work/bare/cts" help "$name" | cmp - "$work/help" || return
        [ "$(head -n 1 "$work/help")" = "cts $name $words" ] || echo "$name"
        for option in $(grep -o -e '--[a-z]*' <<<"$words"); do grep -q -e "^  $option " "$work/help" || echo "$name $option"; done
        [ "$(grep -c '^  status' "$work/help")" -ge 5 ] && [ "$(wc -l <"$work/help")" -le 24 ] || echo "$name: statuses"
    done < <(sed 's/^usage: //; s/ | /\n/g' <<<"$usage")
}
expect 'help of each command' 0 '' '' help_of_each
full_help() { "$work/bare/cts" "$@" >/dev/full; }
closed_help() { "$work/bare/cts" "$@" >&-; }
for words in --help --version help 'period --help'; do
    # shellcheck disable=SC2086
    expect "$words into a full output" 5 '' 'write fault' full_help $words
    # shellcheck disable=SC2086
    expect "$words into a closed output" 5 '' 'write fault' closed_help $words
done
# On a terminal a line in words stands before the program's.
on_terminal() { script -qec "$(printf '%q ' "$@")" /dev/null </dev/null | tr -d '\r'; }
explained() { on_terminal "$work/bare/cts" "$@" | grep -v '^usage: '; }
expect 'a command that is misspelt' 0 "cts: no command 'perod'; did you mean period?" '' explained perod
expect 'an option that is misspelt' 0 "cts: zero has no option '--bensh'; did you mean --bench?" '' explained zero --bensh F
expect 'an option that is missing' 0 'cts: synth wants --pl F too' '' explained synth --bench F --tech T
expect 'a number out of range' 0 "cts: --registers wants a number from 2 to 1000, and not '1'" '' explained demo --registers 1 --seed 0
expect 'a fraction that can be reduced' 0 "cts: --period wants a number such as 14 or 25/2, in lowest terms, and not '6/4'" '' \
    explained margin --bench F --tech T --period 6/4
expect 'a file that is missing' 0 $'cts: nowhere: there is no such file\nread fault bench' '' explained zero --bench nowhere
# Each script says what it does, and does nothing else. A file that can't be run is read by others.
scripts() {
    local script
    for script in "$top"/tests/*.{sh,py} "$top"/examples/{flow,chip}/*.{sh,py} "$top"/bench/{run,beside,page,gate}.py; do
        [ -x "$script" ] || continue
        PATH=$work/fake:$PATH timeout 10 "$script" --help >"$work/help" </dev/null && [ -s "$work/help" ] || echo "$script"
    done
}
expect 'help of each script' 0 '' '' scripts
expect 'nothing was started' 0 '' '' cat "$work/started"
# interrupted SIGNAL WORD..: a call that gets it when it has begun, its status, and the provers that are left then. Under nohup, too, it
# begins with the signal not ignored.
interrupted() {
    local build process
    : >"$work/started"
    PATH=$work/fake:$PATH env --default-signal="$1" "$work/bare/cts" "${@:2}" 2>/dev/null &
    build=$!
    while [ ! -s "$work/started" ]; do sleep 0.1; done
    kill -s "$1" "$build"
    wait "$build"
    echo "status $?"
    while read -r process; do
        ! kill -0 "$process" 2>/dev/null || echo "$process is left"
    done <"$work/started"
}
expect 'a build that is hung up' 0 'status 129' '' interrupted HUP build
expect 'a build whose reader is gone' 0 'status 141' '' interrupted PIPE build
expect 'a build that is ended' 0 'status 143' '' interrupted TERM build
expect 'an unproved run that is ended' 0 'status 143' '' interrupted TERM zero --bench "$s27"

# Reports of many registers.
long_row() {
    "$cts" synth --bench "$work/row.bench" --tech "$work/row.toml" --pl "$work/row.pl" >"$work/row.cts"
    "$cts" check --bench "$work/row.bench" --tech "$work/row.toml" --pl "$work/row.pl" --report "$work/row.cts"
}
expect 'the report of a row of registers' 0 'shown' '' long_row

# However many pairs are joined, a report is judged: here one of as many registers that nothing joins.
joined() {
    echo "g = OR($(seq -f 'r%.0f' -s ', ' 0 1023))"
    seq -f 'r%.0f = DFF(g)' 0 1024
}
joined >"$work/joined.bench"
{ echo 'INPUT(x)'; seq -f 'r%.0f = DFF(x)' 0 1024; } >"$work/apart.bench"
registers 0 0 0 0 '[gate.OR]\nleast = 1\ngreatest = 1\n' >"$work/joined.toml"
apart() {
    local files=(--tech "$work/joined.toml" --pl "$work/row.pl")
    "$cts" synth --bench "$work/apart.bench" "${files[@]}" >"$work/apart.cts"
    "$cts" check --bench "$work/joined.bench" "${files[@]}" --report "$work/apart.cts"
}
expect 'a report where more pairs are joined' 7 '' 'not shown 5 schedule misses r0' apart

# Want of memory: the largest file doesn't fit.
{ printf 'INPUT(x)\na = DFF(x)\n'; head -c $((16777216 - 20)) /dev/zero | tr '\0' '#'; } >"$work/largest.bench"
scarce() { (ulimit -v 16384 && "$program" "$@"); }
expect 'too little memory' 6 '' 'no memory' scarce zero --bench "$work/largest.bench"

# A program that is copied into a newer clone is that clone's, where it was built of the same sources, and no other. No rt is needed.
copy_to "$work/copy"
built=$work/copy/crates/cts_program/out/cts_program
mkdir "${built%/*}"
if [ "$program" = "$top/crates/cts_program/out/cts_program" ]; then
    cp -p "$program" "$built"
else
    { cat "$program" && echo && "$work/copy/cts" sources cts_program; } >"$built"
    chmod +x "$built"
fi
copy() { without_rt "$work/copy/cts" "$@"; }
words_of_build='cts: as one of: cts build [library], cts install [--prefix DIR], cts uninstall [--prefix DIR]'
expect 'a program that is copied' 0 $'zero 15\nsetup G6 G5 15' '' copy zero --bench "$s27" --tech "$table"
expect 'a program that is copied is built' 0 '' '' copy build
expect 'the gate built no program' 1 '' 'cts: rt ci has built no program since then' copy build --gate "$EPOCHREALTIME"
expect 'no time of a gate' 2 '' 'cts: cts build --gate wants the time at which rt ci began, in seconds since 1970' copy build --gate soon

# What it is installed as, from there, with no sources and no rt.
prefix="$work/a prefix"
listed() { (cd "$prefix" 2>/dev/null && find . -type f | sed 's|^\./||' | LC_ALL=C sort); }
installed() { copy install --prefix "$prefix" | sed "s|^$prefix/||" | LC_ALL=C sort; }
files='bin/cts
libexec/cts/cts_program
share/bash-completion/completions/cts
share/cts/commands.txt
share/cts/commit
share/cts/explain.sh
share/cts/faults.txt
share/cts/install.sh
share/cts/words.sh
share/man/man1/cts.1
share/zsh/site-functions/_cts'
left_out='cts: the library for C is left out, as it is not built: ./cts build library makes it'
expect 'what is installed' 0 "$files" "$left_out" installed
expect 'what is installed once more' 0 "$files" "$left_out" installed
expect 'what stands there' 0 "$(LC_ALL=C sort <<<"$files"$'\nshare/cts/installed')" '' listed
elsewhere() { (cd / && without_rt "$prefix/bin/cts" "$@"); }
ln -s "$prefix/bin/cts" "$work/tools/cts"
expect 'an answer of it' 0 $'zero 15\nsetup G6 G5 15' '' elsewhere zero --bench "$s27" --tech "$table"
expect 'an answer by its name' 2 '' "$usage" without_rt cts perod
expect 'its version' 0 "cts $version, with reports of version 2
the proved program is $prefix/libexec/cts/cts_program" '' env GIT_DIR=/dev/null PATH="$work/tools" "$prefix/bin/cts" --version
expect 'its help' 0 "$commands" '' eval 'elsewhere help | grep -o "^  cts [-a-z]*" | grep -Ev " (help|--version|build|install|uninstall)$" | sort'
expect 'its terminal' 0 $'cts: '"$work"$'/bare: that is a directory\nread fault bench' '' on_terminal "$prefix/bin/cts" zero --bench "$work/bare"
sed 's/^setup = 1/setup = -1/' "$table" >"$work/negative.toml"
expect 'a key out of range on a terminal' 0 "cts: $work/negative.toml: the delay table has a value out of range at register.setup; \
register.setup is a whole number from 0 to 1,000,000"$'\nrefused tech 4 register.setup' '' \
    on_terminal "$prefix/bin/cts" zero --bench "$s27" --tech "$work/negative.toml"
{ cat "$s27" && printf '%0256d = NOT(G0)\n' 0; } >"$work/long_name.bench"
expect 'a limit on a terminal' 0 "cts: $work/long_name.bench, line $(wc -l <"$work/long_name.bench"): the netlist has a name of more than \
255 bytes"$'\nrefused bench 5 line '"$(wc -l <"$work/long_name.bench")"' name' '' \
    on_terminal "$prefix/bin/cts" zero --bench "$work/long_name.bench"
expect 'an answer on a terminal' 0 $'zero 10\nsetup G6 G5 10' '' on_terminal "$prefix/bin/cts" zero --bench "$s27"
# Each line of the rows is told in words.
untold() {
    grep -oh '"\(refused\|not shown\|read fault\|write fault\|no memory\)[^"$]*"' "$top"/tests/rows/*.toml | tr -d '"' | sort -u | bash -c '
        share=$1
        say() { echo "$1"; }
        . "$share/words.sh" && . "$share/explain.sh" && read_table
        while read -r line; do [ -n "$(explain "$line" zero --bench F)" ] || echo "$line"; done
    ' - "$top/share"
}
expect 'a line without a meaning' 0 '' '' untold
expect 'it has no sources' 2 '' "$usage" elsewhere sources cts_program
expect 'it has nothing to build' 1 '' 'cts: this is an installed program, which has no sources' elsewhere build
# The completions know the commands, the options of each, and what is a file.
completed() {
    bash -c 'source "$1"; COMP_WORDS=("${@:2}"); COMP_CWORD=$(($# - 2)); compopt() { :; }; _cts; printf "%s\n" "${COMPREPLY[@]}"' \
        - "$prefix/share/bash-completion/completions/cts" "$@"
}
expect 'a command that is completed' 0 $'margin\nmoves' '' completed cts m
expect 'an option that is completed' 0 $'--period' '' completed cts margin --bench x --pe
expect 'a file that is completed' 0 "$s27" '' completed cts zero --bench "${s27%nch}"
expect 'a number that is not completed' 0 '' '' completed cts demo --seed ''
completes_zsh() { ! command -v zsh >/dev/null || zsh -n "$prefix/share/zsh/site-functions/_cts"; }
expect 'completions of zsh' 0 '' '' completes_zsh
shows_man_page() { ! command -v man >/dev/null || MANWIDTH=1000 man --warnings -l "$prefix/share/man/man1/cts.1" | grep -c 'Its statuses are'; }
! command -v man >/dev/null || expect 'the man page' 0 "$(wc -l <<<"$commands")" '' shows_man_page
# Taken away by itself, it leaves nothing but what was there before.
mkdir -p "$work/before/share/man"
expect 'an install beside others' 0 "$(wc -l <<<"$files")" "$left_out" eval 'copy install --prefix "$work/before" | wc -l'
expect 'an uninstall' 0 "$(($(wc -l <<<"$files") + 1))" '' eval '"$work/before/bin/cts" uninstall | grep -c "^removed "'
expect 'what is left' 0 "$work/before/share/man" '' find "$work/before" -mindepth 2 -type d
expect 'an uninstall of nothing' 1 '' "cts: nothing is installed below $work/before" copy uninstall --prefix "$work/before"
expect 'an uninstall from the clone' 0 "$(($(wc -l <<<"$files") + 1))" '' eval 'copy uninstall --prefix "$prefix" | wc -l'
expect 'nothing is left' 1 '' '' test -e "$prefix"
expect 'other words of install' 2 '' "$words_of_build" copy install here
expect 'other words of build' 2 '' "$words_of_build" copy build libary

# A source that was changed since, or one more, makes the program another's, whatever the times of files say.
source=$work/copy/crates/cts_base/src/lib.rt
other=$'cts: '"$built"$' doesn\'t say that it was built of these sources\ncts: the command rt of the Rattle toolchain is missing'
touch -r "$built" "$work/time"
cp -p "$source" "$work/source"
echo '// One line more.' >>"$source"
touch -d 2000-01-01 "$source"
expect 'a source that was changed' 127 '' "$other" copy zero --bench "$s27"
expect 'nothing to install' 1 '' 'cts: there is no proved program of these sources: ./cts build makes it, or copy it from where it was built' \
    copy install --prefix "$prefix"
cp "$work/source" "$source"
expect 'as it was' 0 $'zero 10\nsetup G6 G5 10' '' copy zero --bench "$s27"
echo '//! One file more.' >"${source%/*}/more.rt"
expect 'a source that was added' 127 '' "$other" copy zero --bench "$s27"
rm "${source%/*}/more.rt"
head -c -1 "$built" >"$work/cut" && cp "$work/cut" "$built"
expect 'a program that was cut' 127 '' "$other" copy zero --bench "$s27"
rm -r "${built%/*}"

# What the unproved run has said. Of a file behind the netlist that is missing the script says so at once.
unproved='cts: no proved program of these sources is there, so this run is unproved; it takes a minute'
unproved+=$'\ncts: ./cts build proves and builds the program once, in about half an hour on 4 processors'
come_late() {
    local status
    wait "$late"
    status=$?
    late=
    cat "$work/late_out" && cat "$work/late_err" >&2
    return "$status"
}
expect 'an unproved run' 1 $'never\ncycle 1\nhold A A 1' "$unproved" come_late
expect 'a table that is missing' 127 '' $'cts: nowhere: there is no such file\ncts: the command rt of the Rattle toolchain is missing' \
    copy zero --bench "$s27" --tech nowhere

echo "program: $passed passed, $failed failed"
[ "$failed" -eq 0 ]
