# Completion of tsd-pointers for bash.
_tsd_pointers() {
    local word=${COMP_WORDS[COMP_CWORD]} before=${COMP_WORDS[COMP_CWORD - 1]}
    COMPREPLY=()
    case $before in
    --image | --svg)
        mapfile -t COMPREPLY < <(compgen -f -- "$word")
        compopt -o filenames 2>/dev/null
        return
        ;;
    esac
    mapfile -t COMPREPLY < <(compgen -W '--image --svg --help' -- "$word")
}
complete -F _tsd_pointers tsd-pointers
