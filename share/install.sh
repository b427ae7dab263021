# shellcheck shell=bash
# Sourced by `cts`: puts what was built where programs look for it, and takes it away.

# Makes a folder, and notes each that wasn't there.
make_folder() {
    [ ! -d "$1" ] || return 0
    make_folder "$(dirname "$1")" && mkdir "$1" && made+=("$1")
}

# put MODE FROM TO: a file, of which a line says where it went.
put() {
    make_folder "$(dirname "$prefix/$3")" && command install -m "$1" "$2" "$prefix/$3" && made+=("$prefix/$3") && echo "$prefix/$3"
}

put_program() {
    local name
    put 755 "$top/cts" bin/cts && put 755 "$program" libexec/cts/cts_program || return
    for name in commands.txt faults.txt words.sh explain.sh install.sh; do
        put 644 "$share/$name" "share/cts/$name" || return
    done
    commit >"$room/commit"
    put 644 "$room/commit" share/cts/commit \
        && put 644 "$share/cts.1" share/man/man1/cts.1 \
        && put 644 "$share/cts.bash" share/bash-completion/completions/cts \
        && put 644 "$share/_cts" share/zsh/site-functions/_cts
}

put_library() {
    sed "s|@prefix@|$prefix|; s|@version@|$version|" "$share/cts.pc.in" >"$room/cts.pc"
    put 644 "$top/include/cts.h" include/cts.h && put 644 "$archive" lib/libcts_c.a \
        && put 644 "$top/c/cts_heap.c" share/cts/cts_heap.c && put 644 "$room/cts.pc" lib/pkgconfig/cts.pc
}

# Installs the program, and the library where it is built.
install() {
    local made=()
    if ! is_current cts_program; then
        say 'there is no proved program of these sources: ./cts build makes it, or copy it from where it was built'
        return 1
    fi
    make_room
    # What an earlier version put there and this one doesn't would stay.
    [ ! -e "$prefix/share/cts/installed" ] || uninstall >/dev/null || return
    if put_program && { ! is_current cts_c || put_library; }; then
        made+=("$prefix/share/cts/installed")
        printf '%s\n' "${made[@]}" >"$prefix/share/cts/installed" || return
        is_current cts_c || say 'the library for C is left out, as it is not built: ./cts build library makes it'
        return
    fi
    say "not installed: $prefix can't be written"
    take_away ${made[@]+"${made[@]}"} >/dev/null
    return 1
}

# Removes files, and folders that are empty then, the last first.
take_away() {
    local place
    for ((place = $#; place > 0; place--)); do
        if [ -d "${!place}" ]; then
            rmdir "${!place}" 2>/dev/null
        else
            rm -f -- "${!place}" && echo "removed ${!place}" || return
        fi
    done
    return 0
}

uninstall() {
    local made
    if [ ! -e "$prefix/share/cts/installed" ]; then
        say "nothing is installed below $prefix"
        return 1
    fi
    mapfile -t made <"$prefix/share/cts/installed"
    if [ ! -w "$prefix/share/cts" ]; then
        say "not removed: $prefix can't be written"
        return 1
    fi
    take_away "${made[@]}"
}
