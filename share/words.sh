# shellcheck shell=bash
# Sourced by `cts`: the table of commands, the help, and what the words of a call mean, judged as the program judges them.

commands=()
options=()
own=()
declare -gA usage_of=() says_of=() prints_of=() statuses_of=() example_of=() value_of=() option_says=() status_says=() own_says=()

read_table() {
    local key rest word more name=
    [ ${#commands[@]} -eq 0 ] || return 0
    while read -r key rest; do
        read -r word more <<<"$rest"
        case $key in
            command) name=$word && commands+=("$name") ;;
            usage) usage_of[$name]=$rest ;;
            says) says_of[$name]=$rest ;;
            prints) prints_of[$name]=$rest ;;
            statuses) statuses_of[$name]=$rest ;;
            example) example_of[$name]=$rest ;;
            option) options+=("$word") && value_of[$word]=${more%% *} && option_says[$word]=${more#* } ;;
            status) status_says[$word]=$more ;;
            own) own+=("$word") && own_says[$word]=$more ;;
        esac
    done <"$share/commands.txt"
}

# Whether the first word is one of the others.
is_among() {
    local word=$1 other
    shift
    for other in "$@"; do [ "$word" != "$other" ] || return 0; done
    return 1
}

# The line with which the program answers words that are no command.
usage_line() {
    local name line=
    for name in "${commands[@]}"; do line+=" | cts $name ${usage_of[$name]}"; done
    echo "usage: ${line# | }"
}

# Whether a word is text, that is UTF-8.
is_text() {
    local LC_ALL=C
    [[ $1 == *[$'\x80'-$'\xff']* ]] || return 0
    local more=$'[\x80-\xbf]' form=$'[\x01-\x7f]|[\xc2-\xdf]M|\xe0[\xa0-\xbf]M|[\xe1-\xec\xee\xef]MM|\xed[\x80-\x9f]M'
    form+=$'|\xf0[\x90-\xbf]MM|[\xf1-\xf3]MMM|\xf4[\x80-\x8f]MM'
    [[ $1 =~ ^(${form//M/$more})*$ ]]
}

is_file_name() {
    [ -n "$1" ] && [ "${1:0:1}" != - ]
}

# One to four digits, for a number within these bounds.
is_number_within() {
    [[ $3 =~ ^[0-9]{1,4}$ ]] && [ "$1" -le $((10#$3)) ] && [ $((10#$3)) -le "$2" ]
}

# A whole number below 10^15, or a fraction of such a one in lowest terms over at most 10,000.
is_period() {
    [[ $1 =~ ^(0|[1-9][0-9]{0,14})(/([1-9][0-9]{0,4}))?$ ]] || return 1
    [ -n "${BASH_REMATCH[2]}" ] || return 0
    local one=${BASH_REMATCH[1]} other=${BASH_REMATCH[3]} next
    [ 2 -le "$other" ] && [ "$other" -le 10000 ] || return 1
    while [ "$other" -gt 0 ]; do
        next=$((one % other))
        one=$other
        other=$next
    done
    [ "$one" -eq 1 ]
}

# Whether an option takes this value; what it wants is left in `wrong` where it doesn't.
is_value() {
    local LC_ALL=C
    case ${value_of[$1]} in
        F) is_file_name "$2" || wrong="$1 wants a file, whose name isn't empty and doesn't begin with -, and not '$2'" ;;
        N) is_number_within 2 1000 "$2" || wrong="$1 wants a number from 2 to 1000, and not '$2'" ;;
        S) is_number_within 0 999 "$2" || wrong="$1 wants a number from 0 to 999, and not '$2'" ;;
        P) is_period "$2" || wrong="$1 wants a number such as 14 or 25/2, in lowest terms, and not '$2'" ;;
    esac
    [ -z "$wrong" ]
}

# Of the words behind the first the one that is least unlike it, as a question, if any is by at most two letters.
did_you_mean() {
    printf '%s\n' "$@" | awk '
        function least(a, b) { return a < b ? a : b }
        function unlike(one, other,   i, j, cost, d) {
            for (i = 0; i <= length(one); i++) d[i, 0] = i
            for (j = 0; j <= length(other); j++) d[0, j] = j
            for (i = 1; i <= length(one); i++)
                for (j = 1; j <= length(other); j++) {
                    cost = substr(one, i, 1) != substr(other, j, 1)
                    d[i, j] = least(least(d[i - 1, j], d[i, j - 1]) + 1, d[i - 1, j - 1] + cost)
                    if (i > 1 && j > 1 && substr(one, i, 1) == substr(other, j - 1, 1) \
                        && substr(one, i - 1, 1) == substr(other, j, 1))
                        d[i, j] = least(d[i, j], d[i - 2, j - 2] + 1)
                }
            return d[length(one), length(other)]
        }
        NR == 1 { if (length($0) > 30) exit; word = $0; next }
        { if ((now = unlike(word, $0)) <= 2 && now < length($0) - 1 && (!best || now < most)) { most = now; best = $0 } }
        END { if (best) printf "; did you mean %s?", best }
    '
}

# The options of a command, in the order of the table.
options_of() {
    grep -o -- '--[a-z]*' <<<"${usage_of[$1]}"
}

# Whether words are options of a command with their values, each at most once and none missing that it needs.
are_options() {
    local command=$1 known=() given=() option
    mapfile -t known < <(options_of "$command")
    shift
    while [ $# -gt 0 ]; do
        if ! is_among "$1" "${known[@]}"; then
            wrong="$command has no option '$1'$(did_you_mean "$1" "${known[@]}")"
        elif [ $# -eq 1 ]; then
            wrong="$1 wants a value behind it"
        elif is_among "$1" ${given[@]+"${given[@]}"}; then
            wrong="$1 stands twice"
        else
            is_value "$1" "$2"
        fi
        [ -z "$wrong" ] || return 1
        given+=("$1")
        shift 2
    done
    for option in "${known[@]}"; do
        [[ ${usage_of[$command]} != *"[$option "* ]] || continue
        is_among "$option" ${given[@]+"${given[@]}"} || wrong="$command wants $option ${value_of[$option]} too"
    done
    [ -z "$wrong" ]
}

# Whether words are 1 to 16 delay tables.
are_tables() {
    local table
    [ $# -ge 1 ] || wrong='corners wants delay tables behind its option'
    [ $# -le 16 ] || wrong="corners takes at most 16 delay tables, and not $#"
    for table in "$@"; do is_file_name "$table" || wrong="a delay table is a file, and not '$table'"; done
    [ -z "$wrong" ]
}

# Whether the words mean a command. Where they don't `wrong` says why.
is_command() {
    local word command=${1-}
    wrong=
    read_table
    for word in "$@"; do is_text "$word" || wrong="a word is no text, that is UTF-8: '$word'"; done
    [ -z "$wrong" ] || return 1
    if [ $# -eq 0 ]; then
        wrong='there is no command; cts help lists them'
    elif is_among "$command" "${own[@]}"; then
        wrong="$command doesn't take these words; cts help says what it does"
    elif ! is_among "$command" "${commands[@]}"; then
        wrong="no command '$command'$(did_you_mean "$command" "${commands[@]}" "${own[@]}")"
    elif [[ ${usage_of[$command]} != *' T1 .. Tk' ]]; then
        are_options "$@"
    else
        # The tables stand behind the options, all of which have to be there.
        are_options "${@:1:3}" && are_tables "${@:4}"
    fi
    [ -z "$wrong" ]
}

# The value of an option among words that mean a command.
value_among() {
    local option=$1
    shift 2
    while [ $# -ge 2 ]; do
        [ "$1" != "$option" ] || { printf '%s' "$2" && return; }
        shift 2
    done
    return 1
}

# What one can tell of a file without a byte of it being taken from anybody: nothing where it can be read, or else why it can't.
why_unread() {
    if [ ! -e "$1" ]; then
        echo 'there is no such file'
    elif [ -d "$1" ]; then
        echo 'that is a directory'
    elif [ ! -r "$1" ]; then
        echo 'it may not be read'
    elif [ -f "$1" ] && ! head -c 1 -- "$1" >/dev/null 2>&1; then
        echo 'reading it fails'
    fi
}

help() {
    local name text
    echo "cts: the clock tree synthesizer that proves its answer"
    echo
    for name in "${commands[@]}" "${own[@]}"; do
        text=${says_of[$name]-${own_says[$name]}}
        printf '  cts %-9s  %s\n' "$name" "${text//\`/}"
    done
    echo
    echo "cts COMMAND --help shows the options of a command and what it prints. A first call, in a clone of the repository:"
    echo
    echo "  ./cts period ${example_of[period]}"
    echo
    echo "man cts has all of this; README.md begins with an example, docs/FORMATS.md describes the files, docs/FLOW.md the way from Verilog."
}

help_of() {
    local command=$1 option status
    echo "cts $command ${usage_of[$command]}"
    echo
    echo "${says_of[$command]}"
    echo
    for option in $(options_of "$command"); do
        printf '  %-14s  %s%s\n' "$option ${value_of[$option]}" "${option_says[$option]}" \
            "$([[ ${usage_of[$command]} != *"[$option "* ]] || echo '; it may be left out')"
    done
    [[ ${usage_of[$command]} != *' T1 .. Tk' ]] || printf '  %-14s  %s\n' 'T1 .. Tk' '1 to 16 delay tables, behind the option'
    echo
    echo "It prints ${prints_of[$command]}."
    echo
    for status in ${statuses_of[$command]}; do echo "  status $status  ${status_says[$status]}"; done
    echo
    echo "Example: cts $command ${example_of[$command]}"
}
