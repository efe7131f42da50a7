# Completion of tsd-mount for bash.
_tsd_mount() {
    local word=${COMP_WORDS[COMP_CWORD]} before=${COMP_WORDS[COMP_CWORD - 1]} at count=0
    COMPREPLY=()
    case $before in
    --cap-file | --program)
        mapfile -t COMPREPLY < <(compgen -f -- "$word")
        compopt -o filenames 2>/dev/null
        return
        ;;
    --limit) return ;;
    esac
    if [[ $word == -* ]]; then
        mapfile -t COMPREPLY < <(compgen -W '--cap-file --read-only --take-modes --limit --program --help' -- "$word")
        return
    fi
    # How many words stand before this one that are neither options nor what an option takes.
    for ((at = 1; at < COMP_CWORD; at++)); do
        case ${COMP_WORDS[at]} in
        --cap-file | --program | --limit) ((at++)) ;;
        -*) ;;
        *) ((count++)) ;;
        esac
    done
    case $count in
    0)
        mapfile -t COMPREPLY < <(compgen -f -- "$word")
        compopt -o filenames 2>/dev/null
        ;;
    1) mapfile -t COMPREPLY < <(compgen -W 'inode chain' -- "$word") ;;
    2) mapfile -t COMPREPLY < <(compgen -W '0' -- "$word") ;;
    3)
        mapfile -t COMPREPLY < <(compgen -d -- "$word")
        compopt -o filenames 2>/dev/null
        ;;
    4) mapfile -t COMPREPLY < <(compgen -W 'low near spread zone' -- "$word") ;;
    esac
}
complete -F _tsd_mount tsd-mount
