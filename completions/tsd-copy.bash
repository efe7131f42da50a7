# Completion of tsd-copy for bash.
_tsd_copy() {
    local word=${COMP_WORDS[COMP_CWORD]} before=${COMP_WORDS[COMP_CWORD - 1]} at count=0
    COMPREPLY=()
    case $before in
    --caps | --program)
        mapfile -t COMPREPLY < <(compgen -f -- "$word")
        compopt -o filenames 2>/dev/null
        return
        ;;
    --blocks | --slots) return ;;
    esac
    if [[ $word == -* ]]; then
        mapfile -t COMPREPLY < <(compgen -W '--caps --blocks --slots --program --help' -- "$word")
        return
    fi
    # How many words stand before this one that are neither options nor what an option takes.
    for ((at = 1; at < COMP_CWORD; at++)); do
        case ${COMP_WORDS[at]} in
        --help) ;;
        --*) ((at++)) ;;
        *) ((count++)) ;;
        esac
    done
    if ((count < 2)); then
        mapfile -t COMPREPLY < <(compgen -f -- "$word")
        compopt -o filenames 2>/dev/null
    fi
}
complete -F _tsd_copy tsd-copy
