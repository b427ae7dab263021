# shellcheck shell=bash
# Sourced by `cts` where the error output is a terminal: what a line of the program means, in words.

# The file that a line of a failure is about: that of an option, or a table of `corners` by its number.
file_about() {
    local kind=$1 number=$2
    shift 2
    case $kind in
        corner) printf '%s' "${*:3 + number:1}" ;;
        *) value_among "--$kind" "$@" ;;
    esac
}

# Whether a line's words are those of a pattern, in which words of capitals stand for any, and `..` for all that is left. What they
# stand for goes into `sentence` in their place.
fits() {
    local pattern=() line=() place
    read -ra pattern <<<"$1"
    read -ra line <<<"$2"
    [ "${pattern[-1]}" = .. ] || [ ${#pattern[@]} -eq ${#line[@]} ] || return 1
    for place in "${!pattern[@]}"; do
        [[ ${pattern[place]} != .. ]] || continue
        if [[ ${pattern[place]} =~ ^[A-Z]+$ ]]; then
            [ -n "${line[place]-}" ] || return 1
            sentence=${sentence//"{${pattern[place]}}"/"${line[place]}"}
        elif [ "${pattern[place]}" != "${line[place]-}" ]; then
            return 1
        fi
    done
}

# The sentence of share/faults.txt for a line, and what its key is, where it is about one.
sentence_for() {
    local line=$1 kind pattern text
    while IFS=$'\t' read -r kind pattern text; do
        sentence=$text
        [[ $kind != line || $line != "${pattern%%[A-Z]*}"* ]] || ! fits "$pattern" "$line" || return 0
    done <"$share/faults.txt"
    return 1
}

key_of() {
    local key=$1 kind pattern text sentence=
    while IFS=$'\t' read -r kind pattern text; do
        [ "$kind" != key ] || ! fits "${pattern//./ }" "${key//./ }" || { printf '%s' "$text" && return; }
    done <"$share/faults.txt"
}

# Says what a line of the program means that ended these words.
explain() {
    local line=$1 about=() sentence='' file='' key=''
    shift
    read_table
    if [[ $line == usage:* ]]; then
        is_command "$@" || say "$wrong"
        return
    fi
    read -ra about <<<"${line/#read fault/read}"
    [ "${about[0]-}" = not ] && about=(shown report "${about[@]:3}")
    file=$(file_about "${about[1]-}" "${about[2]-0}" "$@")
    if [[ $line == 'read fault '* ]]; then
        sentence=$(why_unread "$file")
        [ -n "$sentence" ] || sentence='reading it fails'
    else
        # A table of `corners` has the faults of any other.
        [[ ! $line =~ ^(refused)\ corner\ [0-9]+\ (tech .*)$ ]] || line="${BASH_REMATCH[1]} ${BASH_REMATCH[2]}"
        sentence_for "$line" || return 0
    fi
    [[ ! $line =~ \ line\ ([0-9]+) ]] || file+=", line ${BASH_REMATCH[1]}"
    [[ ! $line =~ ^refused\ tech\ [234]\ (.*)$ ]] || key=$(key_of "${BASH_REMATCH[1]}")
    say "${file:+$file: }$sentence${key:+; ${BASH_REMATCH[1]} is $key}"
}
