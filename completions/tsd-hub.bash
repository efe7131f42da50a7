# Completion of tsd-hub for bash.
_tsd_hub() {
    local word=${COMP_WORDS[COMP_CWORD]} before=${COMP_WORDS[COMP_CWORD - 1]} at count=0
    COMPREPLY=()
    case $before in
    --socket | --program | --metrics | --stats)
        mapfile -t COMPREPLY < <(compgen -f -- "$word")
        compopt -o filenames 2>/dev/null
        return
        ;;
    --mode)
        mapfile -t COMPREPLY < <(compgen -W '600 660 666' -- "$word")
        return
        ;;
    --per-user | --idle | --stop-limit) return ;;
    esac
    if [[ $word == -* ]]; then
        mapfile -t COMPREPLY < <(compgen -W '--socket --mode --program --per-user --idle --metrics --stop-limit --stats --version --help' -- "$word")
        return
    fi
    # How many words stand before this one that are neither options nor what an option takes.
    for ((at = 1; at < COMP_CWORD; at++)); do
        case ${COMP_WORDS[at]} in
        --version | --help) ;;
        --*) ((at++)) ;;
        *) ((count++)) ;;
        esac
    done
    case $count in
    0)
        mapfile -t COMPREPLY < <(compgen -f -- "$word")
        compopt -o filenames 2>/dev/null
        ;;
    1) mapfile -t COMPREPLY < <(compgen -W 'low near spread zone' -- "$word") ;;
    esac
}
complete -F _tsd_hub tsd-hub
