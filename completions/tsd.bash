# Completion of tsd for bash.
_tsd() {
    # The words as the shell will see them: bash breaks at `@` here, where no word ends.
    local line=${COMP_LINE:0:COMP_POINT} places='low near spread zone' words count word
    read -ra words <<<"$line"
    [[ $line != *[[:blank:]] ]] || words+=('')
    # An option before the image counts for nothing.
    if [ "${words[1]-}" = --overwrite ] && [ "${#words[@]}" -gt 2 ]; then
        words=("${words[0]}" "${words[@]:2}")
    fi
    # Behind `mirror` stand two images: the second one takes its place.
    if [ "${words[1]-}" = mirror ] && [ "${#words[@]}" -gt 4 ]; then
        words=("${words[0]}" "${words[@]:3}")
    fi
    count=$((${#words[@]} - 1))
    word=${words[count]}
    COMPREPLY=()
    if [ "$count" -eq 1 ]; then
        mapfile -t COMPREPLY < <(compgen -W 'mirror help --help --version --overwrite -' -- "$word"; compgen -f -- "$word")
        compopt -o filenames 2>/dev/null
    elif [ "${words[1]}" = help ]; then
        [ "$count" -gt 2 ] ||
            mapfile -t COMPREPLY < <(compgen -W 'fresh format run serve group shell files copyfs check info load upgrade audit verify mirror requests replies' -- "$word")
    elif [ "${words[1]}" = mirror ]; then
        mapfile -t COMPREPLY < <(compgen -f -- "$word")
        compopt -o filenames 2>/dev/null
    elif [ "$count" -eq 2 ]; then
        mapfile -t COMPREPLY < <(compgen -W 'fresh format run serve group shell files copyfs check info load upgrade audit verify' -- "$word")
    elif [[ $word == @* ]]; then
        mapfile -t COMPREPLY < <(compgen -P @ -f -- "${word#@}")
    else
        case ${words[2]}:$count in
        run:3 | serve:3 | group:3 | fresh:7 | load:5 | shell:6 | files:6 | copyfs:9)
            mapfile -t COMPREPLY < <(compgen -W "$places" -- "$word") ;;
        shell:3 | files:3 | copyfs:3 | copyfs:6) mapfile -t COMPREPLY < <(compgen -W 'inode chain' -- "$word") ;;
        fresh:4 | format:4) mapfile -t COMPREPLY < <(compgen -W '1 2 4 8' -- "$word") ;;
        esac
    fi
}
complete -F _tsd tsd
