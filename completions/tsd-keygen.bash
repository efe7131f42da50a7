# Completion of tsd-keygen for bash.
_tsd_keygen() {
    local word=${COMP_WORDS[COMP_CWORD]}
    if [[ $word == -* ]]; then
        mapfile -t COMPREPLY < <(compgen -W '--help' -- "$word")
        return
    fi
    # New files: the folders on the way to them.
    mapfile -t COMPREPLY < <(compgen -d -- "$word")
    compopt -o filenames 2>/dev/null
}
complete -F _tsd_keygen tsd-keygen
