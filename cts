#!/usr/bin/env bash
# The clock tree synthesizer: runs the proved program where it was built of the sources as they are, else an unproved run of the same
# sources. Words that mean no command and a netlist that can't be read need neither. `cts --help` says what it answers itself.
set -u
version=1.0.0
here=$(cd "$(dirname "$(readlink -f "${BASH_SOURCE[0]}")")" && pwd) || exit 1
most_bytes=16777216
room=
declare -A crate_of=() share_of=() begun_at=()

if [ -e "$here/share/commands.txt" ]; then
    top=$here
    share=$here/share
    program=$here/crates/cts_program/out/cts_program
else
    # As `cts install` puts it.
    top=
    share=${here%/*}/share/cts
    program=${here%/*}/libexec/cts/cts_program
fi
archive=$top/crates/cts_c/out/libcts_c.a

say() {
    echo "cts: $1" >&2
}

# Makes known what share/words.sh and share/explain.sh know.
read_words() {
    . "$share/words.sh"
    . "$share/explain.sh"
    read_table
}

# Makes the folder for what a run leaves, which goes with the script, as do the processes that it began.
make_room() {
    [ -z "$room" ] || return 0
    room=$(mktemp -d) || exit 1
    trap leave EXIT
    trap 'exit 129' HUP
    trap 'exit 130' INT
    trap 'exit 141' PIPE
    trap 'exit 143' TERM
}

leave() {
    local process
    for process in "${!crate_of[@]}"; do kill -- "-$process" 2>/dev/null; done
    wait "${!crate_of[@]}" 2>/dev/null
    rm -rf "$room"
}

# The lines of crates.txt of a crate and of those that it is made of, each behind those that it uses, and of others the one with the
# longest chain of crates above it first.
crates() {
    awk -F: -v top="$1" '
        function above(name,   user, most) {
            if (name in chain) return chain[name]
            most = 0
            for (user in used) {
                if (!index(" " used[user] " ", " " name " ")) continue
                if (above(user) > most) most = above(user)
            }
            return chain[name] = most + 1
        }
        function take(name,   uses, count, place) {
            if (name in taken || !(name in used)) return
            taken[name] = 1
            count = split(used[name], uses, " ")
            for (place = 1; place <= count; place++) take(uses[place])
        }
        { sub(/#.*/, "") }
        NF > 1 { split($1, words, " "); used[words[1]] = $2 }
        END {
            take(top)
            for (name in used) if (!(name in taken)) delete used[name]
            for (name in used) print above(name), name ":" used[name]
        }
    ' "$top/crates.txt" | sort -k1,1nr -k2 | cut -d ' ' -f 2-
}

# The line that says of which sources a program or a library is: a sum of all, by their names and bytes, and of which crate uses which.
mark_of() {
    local rows folders sum
    mapfile -t rows < <(crates "$1")
    folders=("${rows[@]%%:*}")
    sum=$(
        cd "$top" || exit
        {
            printf '%s\n' "${rows[@]}"
            find "${folders[@]/#/crates/}" -regex 'crates/[^/]*/out' -prune -o -type f \( -name '*.rt' -o -name '*.antt' \) -print0 \
                | LC_ALL=C sort -z | xargs -0 sha256sum
        } | sha256sum
    )
    echo "cts sources ${sum%% *}"
}

# Whether the program or the library is there and was built of the sources as they are.
is_current() {
    [ -n "$top" ] || return 0
    case $1 in
        cts_program) [ -x "$program" ] && [ "$(tail -c 77 "$program" | tr -d '\0')" = "$(mark_of "$1")" ] ;;
        cts_c) [ -e "$archive" ] && [ "$(cat "$archive.sources" 2>/dev/null)" = "$(mark_of "$1")" ] ;;
    esac
}

needs_rt() {
    command -v rt >/dev/null 2>&1 && return
    [ ! -e "$program" ] || say "$program doesn't say that it was built of these sources"
    say "the command rt of the Rattle toolchain is missing"
    exit 127
}

commit() {
    if [ -z "$top" ]; then
        cat "$share/commit"
    else
        git -C "$top" describe --always --dirty 2>/dev/null
    fi
}

version() {
    local commit
    commit=$(commit)
    echo "cts $version${commit:+, commit $commit}, with reports of version 2"
    if is_current cts_program; then
        echo "the proved program is $program"
    else
        echo "there is no proved program of these sources; ./cts build makes one"
    fi
}

# Answers at once where the words mean no command, or the netlist can't be read, which the program would see first. Of another file it
# says so and goes on, since the program judges those before it.
answer_at_once() {
    local option file
    if ! is_command "$@"; then
        [ ! -t 2 ] || explain usage: "$@"
        usage_line >&2
        exit 2
    fi
    for option in "${options[@]}"; do
        [ "${value_of[$option]}" = F ] && file=$(value_among "$option" "$@"; echo .) && file=${file%.} || continue
        [ -n "$file" ] && [ -n "$(why_unread "$file")" ] || continue
        if [ "$option" = --bench ]; then
            [ ! -t 2 ] || explain 'read fault bench' "$@"
            echo 'read fault bench' >&2
            exit 4
        fi
        say "$file: $(why_unread "$file")"
    done
}

# Answers the words by an unproved run, which gets copies of the files that they name. It returns where that run has no answer.
answer_unproved() {
    local words=() files=() option='' word status process
    say "no proved program of these sources is there, so this run is unproved; it takes a minute"
    say "./cts build proves and builds the program once, in $build_time"
    for word in "$@"; do
        # The tables of `corners` stand as plain words after its option.
        [ "$1" != corners ] || [ ${#words[@]} -lt 3 ] || option=--tech
        case $option:$word in
            --bench:[!-]* | --tech:[!-]* | --pl:[!-]* | --report:[!-]* | --topology:[!-]* | --moves:[!-]*)
                local name=file${#words[@]}
                # A byte more than a file may have is enough for its refusal.
                if head -c $((most_bytes + 1)) "$word" >"$room/$name" 2>/dev/null; then
                    files+=(--data "$name=$room/$name")
                fi
                words+=("$name")
                ;;
            *) words+=("$word") ;;
        esac
        option=$word
    done
    # It has a process group of its own, which ends with this script.
    set -m
    (cd "$top/crates/cts_program" && exec rt try ${files[@]+"${files[@]}"} -- ${words[@]+"${words[@]}"}) \
        >"$room/out" 2>"$room/err" </dev/null &
    process=$!
    crate_of[$process]=cts_program
    wait "$process"
    status=$?
    unset "crate_of[$process]"
    set +m
    # Only this says that the status is the program's own and none of rt's.
    tail -n 1 "$room/err" | grep -q "^run=ended status=$status " || return
    head -n -2 "$room/err" >"$room/said"
    tell "$room/said" "$@"
    if ! cat "$room/out" 2>/dev/null; then
        echo "write fault" >&2
        exit 5
    fi
    exit "$status"
}

# Says what a run has left on its error output, and on a terminal before it what that means.
tell() {
    local line=
    [ ! -t 2 ] || ! read -r line <"$1" || explain "$line" "${@:2}"
    cat "$1" >&2
}

run_program() {
    local status
    [ -t 2 ] || exec "$program" "$@"
    read_words
    make_room
    "$program" "$@" 2>"$room/err"
    status=$?
    tell "$room/err" "$@"
    exit "$status"
}

# Builds, or takes what `rt ci` built; an installed program has nothing to build of.
build_here() {
    if [ -z "$top" ]; then
        say 'this is an installed program, which has no sources'
        exit 1
    fi
    . "$share/build.sh"
    "$@"
    exit
}

# The folder that `install` and `uninstall` work below.
install_here() {
    local action=$1
    prefix=/usr/local
    [ -n "$top" ] || prefix=${here%/*}
    [ $# -eq 1 ] || prefix=$(realpath -m -- "$3")
    if [ -z "$top" ] && [ "$action" = install ]; then
        say "this is an installed program, below $prefix"
        exit 1
    fi
    . "$share/install.sh"
    "$action"
    exit
}

# Prints a text as the program would: where that fails its line says so, and none of the shell's.
print_whole() {
    { printf '%s\n' "$1"; } 2>/dev/null && exit
    echo 'write fault' >&2
    exit 5
}

# The help of one command, or of a word that the script answers itself.
help_about() {
    if is_among "$1" "${commands[@]}"; then
        print_whole "$(help_of "$1")"
    elif is_among "$1" "${own[@]}"; then
        print_whole "cts $1: ${own_says[$1]}"
    fi
}

# Answers what the program doesn't know, and ends. Other words it leaves alone.
answer_own() {
    case $#:${1-}:${2-} in
        1:help: | 1:-h: | 1:--help:) read_words && print_whole "$(help)" ;;
        1:-V: | 1:--version:) print_whole "$(version)" ;;
        2:help:?*) read_words && help_about "$2" ;;
        2:?*:--help | 2:?*:-h) read_words && help_about "$1" ;;
        1:build:) build_here build cts_program ;;
        2:build:library) build_here build cts_c ;;
        3:build:--gate) build_here take_of_gate "$3" ;;
        2:sources:*) [ -z "$top" ] || { mark_of "$2" && exit; } ;;
        1:install: | 3:install:--prefix | 1:uninstall: | 3:uninstall:--prefix) install_here "$@" ;;
        *:build:* | *:install:* | *:uninstall:*)
            say 'as one of: cts build [library], cts install [--prefix DIR], cts uninstall [--prefix DIR]'
            exit 2
            ;;
    esac
}

answer_own "$@"
! is_current cts_program || run_program "$@"
read_words
answer_at_once "$@"
needs_rt
make_room
. "$share/build.sh"
answer_unproved "$@"
say "the unproved run has no answer: $(tail -n 1 "$room/err")"
build cts_program || exit 1
run_program "$@"
