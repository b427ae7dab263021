# shellcheck shell=bash
# What the shell scripts have in common: how they end, and how they run OpenSTA.

# fail MESSAGE: ends the script with one line that says what is wrong with which file.
fail() {
    echo "$1" >&2
    exit 1
}

# needs_files FILE..: ends the script where one can't be read.
needs_files() {
    local file
    for file in "$@"; do
        [ -e "$file" ] || fail "$file: No such file or directory"
        if ! [ -f "$file" ] || ! [ -r "$file" ]; then fail "$file: not a file that can be read"; fi
    done
}

# needs_library FILE: OpenSTA doesn't end well on a library that is none.
needs_library() {
    grep -qE '^[[:space:]]*library[[:space:]]*\(' "$1" || fail "$1: not a Liberty library"
}

needs_tool() {
    command -v "$1" >/dev/null 2>&1 || fail "$1: the command isn't there"
}

# sta_runs SCRIPT.tcl LOG: runs OpenSTA. What isn't found, and times of another unit, it only warns
# of, and then nothing is as it was to be.
sta_runs() {
    local status wrong
    needs_tool sta
    { sta -no_splash -exit "$1" >"$2" </dev/null; } 2>>"$2.errors"
    status=$?
    cat "$2.errors" >>"$2"
    wrong=$(grep -m 1 -iE '^Error|syntax error|not found|does not match|unknown unit' "$2")
    [ -z "$wrong" ] || fail "$wrong"
    [ "$status" -eq 0 ] || fail "$NETLIST: sta ends with status $status"
}
