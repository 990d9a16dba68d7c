# Completion of bmesh for bash: a model, a script, a model to write, and the scale anywhere.

_bmesh() {
    local word=${COMP_WORDS[COMP_CWORD]} before=${COMP_WORDS[COMP_CWORD - 1]} place names=0 scale=--scale
    COMPREPLY=()
    if [[ $before == --scale ]]; then
        mapfile -t COMPREPLY < <(compgen -W '0 1 2 3 4 5 6' -- "$word")
        return
    fi
    for ((place = 1; place < COMP_CWORD; place++)); do
        if [[ ${COMP_WORDS[place]} == --scale ]]; then ((place++)); scale=; else ((names++)); fi
    done
    if [[ $word == -* ]]; then
        names=3
    fi
    case $names in
        0 | 2) mapfile -t COMPREPLY < <(compgen -f -X '!*.obj' -- "$word"; compgen -d -- "$word") ;;
        1) mapfile -t COMPREPLY < <(compgen -f -- "$word") ;;
        3) mapfile -t COMPREPLY < <(compgen -W "$scale" -- "$word") ;;
    esac
}

complete -o filenames -F _bmesh bmesh
