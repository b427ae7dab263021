# Completion of cts for bash, made by share/make.py.
_cts() {
    local word=${COMP_WORDS[COMP_CWORD]} before=${COMP_WORDS[COMP_CWORD - 1]} options=
    COMPREPLY=()
    if [ "$COMP_CWORD" -eq 1 ]; then
        mapfile -t COMPREPLY < <(compgen -W 'zero period schedule synth check demo margin embed moves corners help --version build install uninstall' -- "$word")
        return
    fi
    case ${COMP_WORDS[1]} in
        zero) options='--bench --tech' ;;
        period) options='--bench --tech' ;;
        schedule) options='--bench --tech' ;;
        synth) options='--bench --tech --pl' ;;
        check) options='--bench --tech --pl --report' ;;
        demo) options='--registers --seed' ;;
        margin) options='--bench --tech --period' ;;
        embed) options='--bench --tech --pl --topology' ;;
        moves) options='--bench --tech --pl --moves' ;;
        corners) options='--bench' ;;
        install | uninstall) options=--prefix ;;
        build) options=library ;;
        help) options='zero period schedule synth check demo margin embed moves corners' ;;
    esac
    case $before in
        --registers | --seed | --period) ;;
        --*) compopt -o filenames && mapfile -t COMPREPLY < <(compgen -f -- "$word") ;;
        *)
            mapfile -t COMPREPLY < <(compgen -W "$options" -- "$word")
            [ "${COMP_WORDS[1]}" != corners ] || [ "$COMP_CWORD" -lt 4 ] || {
                compopt -o filenames && mapfile -t COMPREPLY < <(compgen -f -- "$word")
            }
            ;;
    esac
}
complete -F _cts cts
