# Completions of wzrecord for bash.

_wzrecord_words() {
    mapfile -t COMPREPLY < <(compgen -W "$1" -- "$word")
}

_wzrecord() {
    local word=${COMP_WORDS[COMP_CWORD]} before=${COMP_WORDS[COMP_CWORD - 1]} first=${COMP_WORDS[1]} place
    COMPREPLY=()
    # What stands behind the launcher is its own.
    if [[ $first != report && $first != text && $first != page ]]; then
        for ((place = 1; place < COMP_CWORD; place++)); do
            case ${COMP_WORDS[place]} in
                -o | --out | --hang | --timeout | --library | --recorder | --report | --format | --html | --colljob) ((place++)) ;;
                -*) ;;
                *) mapfile -t COMPREPLY < <(compgen -f -- "$word"); return ;;
            esac
        done
    fi
    case $before in
        --library) _wzrecord_words 'openmpi mpich'; return ;;
        --format) _wzrecord_words 'text json'; return ;;
        -o | --out) mapfile -t COMPREPLY < <(compgen -d -- "$word"); return ;;
        --recorder | --report | --html | --colljob | --from | --timeline | --stats | --words | --explain) mapfile -t COMPREPLY < <(compgen -f -- "$word"); return ;;
        --hang | --timeout | --status | --title) return ;;
    esac
    if [[ $word == -* ]]; then
        case $first in
            report) _wzrecord_words '--format --report --html --colljob -h --help' ;;
            page) _wzrecord_words '--timeline --stats --words --explain --status --title -h --help' ;;
            text) _wzrecord_words '--from -h --help' ;;
            *) _wzrecord_words '-o --out --hang --timeout --library --recorder -q --quiet --format --report --html --colljob -V --version -h --help' ;;
        esac
    elif [[ $first == page ]] && [ "$COMP_CWORD" -gt 1 ]; then
        mapfile -t COMPREPLY < <(compgen -f -- "$word")
    elif [[ $first == report || $first == text ]] && [ "$COMP_CWORD" -gt 1 ]; then
        mapfile -t COMPREPLY < <(compgen -d -- "$word")
    elif [ "$COMP_CWORD" -eq 1 ]; then
        mapfile -t COMPREPLY < <(compgen -W 'report text page' -- "$word"; compgen -c -- "$word" | grep -E '^(mpi(run|exec)|srun)')
    else
        mapfile -t COMPREPLY < <(compgen -c -- "$word" | grep -E '^(mpi(run|exec)|srun)')
    fi
}
complete -o filenames -F _wzrecord wzrecord
