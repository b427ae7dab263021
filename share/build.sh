# shellcheck shell=bash
# Sourced by `cts`: proves the crates of the program, or of the library, and builds it.

build_time='about half an hour on 4 processors'

# The libraries that a crate uses, those of the kit too.
uses() {
    awk -F: -v name="$1" '{ sub(/#.*/, ""); split($1, words, " ") } words[1] == name { print $2 }' \
        "$top/crates.txt"
}

# Proves one crate on so many processors and builds it.
prove() {
    cd "$top/crates/$1" || return 1
    if [ "$1" = cts_program ]; then
        # rt builds a program by running it: this run answers the netlist that lies beside it.
        exec rt run --jobs "$2" -- zero --bench data/lenient.bench
    fi
    exec rt lib --jobs "$2"
}

# How many processors to use: a check takes up to 4 GB.
processors() {
    local processors checks
    processors=$(nproc)
    checks=$(awk '/^MemAvailable:/ { print int($2 / 4000000) }' /proc/meminfo)
    [ "$checks" -ge 1 ] || checks=1
    echo $((processors < checks ? processors : checks))
}

minutes() {
    printf '%d:%02d' $(($1 / 60)) $(($1 % 60))
}

# Starts the crates that use no crate which isn't built, as far as processors are free.
start_crates() {
    local name use ready=() share
    for name in "${left[@]}"; do
        for use in $(uses "$name"); do
            [[ " ${left[*]} ${crate_of[*]-} " != *" $use "* ]] || continue 2
        done
        ready+=("$name")
    done
    while [ "$free" -gt 0 ] && [ ${#ready[@]} -gt 0 ]; do
        share=$((free > ${#ready[@]} ? free / ${#ready[@]} : 1))
        (prove "${ready[0]}" "$share") >"$room/${ready[0]}" 2>&1 </dev/null &
        crate_of[$!]=${ready[0]}
        share_of[$!]=$share
        begun_at[$!]=$SECONDS
        free=$((free - share))
        mapfile -t left < <(printf '%s\n' "${left[@]}" | grep -vx "${ready[0]}")
        ready=("${ready[@]:1}")
    done
}

# Proves a crate and those below it side by side, each once those that it uses are built.
prove_all() {
    local left free count built=0 failed='' process status name next
    mapfile -t left < <(crates "$1" | cut -d : -f 1)
    count=${#left[@]}
    free=$(processors)
    say "proving and building $count crates on $free processors; from nothing $build_time"
    # Each crate has a process group of its own, which ends with this script.
    set -m
    start_crates
    say "first ${crate_of[*]}"
    while [ ${#crate_of[@]} -gt 0 ]; do
        wait -n -p process "${!crate_of[@]}"
        status=$?
        name=${crate_of[$process]}
        free=$((free + share_of[$process]))
        unset "crate_of[$process]"
        if [ "$status" -ne 0 ]; then
            failed=yes
            left=()
            tail -n 20 "$room/$name" >&2
            say "$name wasn't built"
            continue
        fi
        built=$((built + 1))
        start_crates
        next=${crate_of[*]:+; now ${crate_of[*]}}
        say "$built of $count: $name in $(minutes $((SECONDS - begun_at[$process])))$next"
    done
    set +m
    [ -z "$failed" ]
}

# Puts a line below what was built, which says of which sources. A program runs with it as without it.
put_mark() {
    case $1 in
        cts_program)
            { cat "$program" && printf '\n%s\n' "$2"; } >"$program.marked" && chmod +x "$program.marked" \
                && mv "$program.marked" "$program"
            ;;
        cts_c) echo "$2" >"$archive.sources" ;;
    esac
}

# Proves and builds the program or the library, where what lies there isn't of the sources as they are.
build() {
    local crate=$1 mark
    ! is_current "$crate" || return 0
    needs_rt
    make_room
    mark=$(mark_of "$crate")
    prove_all "$crate" || return 1
    if [ "$mark" != "$(mark_of "$crate")" ]; then
        say 'the sources were changed meanwhile, so nobody knows of which text it is: build it again'
        return 1
    fi
    put_mark "$crate" "$mark"
    say "built in $(minutes "$SECONDS")"
}

# Takes the program that `rt ci` has proved and built here, which began at this time, in seconds since 1970, as that of the sources.
# rt leaves nothing on it that says so. Whoever calls this knows that `rt ci` passed; where a source or the program is of another time,
# it is refused.
take_of_gate() {
    local changed folders
    if [[ ! $1 =~ ^[0-9]+(\.[0-9]+)?$ ]]; then
        say 'cts build --gate wants the time at which rt ci began, in seconds since 1970'
        return 2
    fi
    cd "$top" || return
    mapfile -t folders < <(crates cts_program | sed 's|\(.*\):.*|crates/\1|')
    changed=$(
        find crates.txt -newerct "@$1"
        find "${folders[@]}" -mindepth 1 -regex 'crates/[^/]*/out' -prune -o -newerct "@$1" -print -quit
    )
    if [ -n "$changed" ]; then
        say "$changed was changed since rt ci began, so nobody knows of which text the program is"
        return 1
    fi
    if [ -z "$(find "$program" -newerct "@$1" 2>/dev/null)" ]; then
        say 'rt ci has built no program since then'
        return 1
    fi
    put_mark cts_program "$(mark_of cts_program)"
}
