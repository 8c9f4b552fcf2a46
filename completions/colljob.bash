# Completions of colljob for bash; completions/generate.py writes this file.

# Adds those of the words that go on as the word does.
_colljob_words() {
    local found
    mapfile -t found < <(compgen -W "$1" -- "$word")
    COMPREPLY+=("${found[@]}")
}

# Adds the files that go on so.
_colljob_files() {
    local found
    mapfile -t found < <(compgen -f -- "$word")
    COMPREPLY+=("${found[@]}")
}

# Adds the job texts that go on so, and the folders that may have some.
_colljob_jobs() {
    local found
    mapfile -t found < <(compgen -d -- "$word"; compgen -f -X '!*.job' -- "$word")
    COMPREPLY+=("${found[@]}")
}

_colljob() {
    local word=${COMP_WORDS[COMP_CWORD]} before=${COMP_WORDS[COMP_CWORD - 1]} command=${COMP_WORDS[1]} own options takes_job
    COMPREPLY=()
    if [ "$COMP_CWORD" -eq 1 ]; then
        if [[ $word == -* ]]; then
            _colljob_words '-h --help -V --version'
        else
            _colljob_words 'run plain explain check draw help prove'
        fi
        return
    fi
    if [ "$COMP_CWORD" -gt 2 ]; then
        case "$command ${COMP_WORDS[2]}" in
            'draw run' | 'draw waits') command+=" ${COMP_WORDS[2]}" ;;
        esac
    fi
    case "$command" in
        'run')
            case "$before" in
                --workers) _colljob_words '0 1 2 3 4 5 6 7 8'; return ;;
                --explain) _colljob_files; return ;;
                --trace) _colljob_files; return ;;
                --stats) _colljob_files; return ;;
                --timeline) _colljob_files; return ;;
                --picture) _colljob_files; return ;;
                --html) _colljob_files; return ;;
                --format) _colljob_words 'text json'; return ;;
                --out) _colljob_files; return ;;
            esac
            takes_job=1
            options='--workers -q --quiet --explain --trace --stats --timeline --picture --html --format --out -h --help'
            ;;
        'plain')
            takes_job=1
            options='-h --help'
            ;;
        'explain')
            case "$before" in
                --format) _colljob_words 'text json dot'; return ;;
                --color) _colljob_words 'auto always never'; return ;;
                --depth) _colljob_files; return ;;
                --html) _colljob_files; return ;;
            esac
            takes_job=1
            options='--format --color --strict --depth --all --html -h --help'
            ;;
        'check')
            case "$before" in
                --format) _colljob_words 'text json'; return ;;
                --color) _colljob_words 'auto always never'; return ;;
            esac
            takes_job=1
            options='--format --color -h --help'
            ;;
        'draw')
            case "$before" in
                --members) _colljob_words '1 2 3 4 5 6 7 8 9 10 11 12 13 14 15 16 17 18 19 20 21 22 23 24 25 26 27 28 29 30 31 32 33 34 35 36 37 38 39 40 41 42 43 44 45 46 47 48 49 50 51 52 53 54 55 56 57 58 59 60 61 62 63 64'; return ;;
                --out) _colljob_files; return ;;
            esac
            own='run waits'
            options='--members --svg --out -h --help'
            ;;
        'draw run')
            case "$before" in
                --workers) _colljob_words '0 1 2 3 4 5 6 7 8'; return ;;
                --out) _colljob_files; return ;;
            esac
            takes_job=1
            options='--workers --out -h --help'
            ;;
        'draw waits')
            takes_job=1
            options='--dot --all -h --help'
            ;;
        help)
            _colljob_words 'run plain explain check draw help'
            return
            ;;
        *) return ;;
    esac
    if [[ $word == -* ]]; then
        _colljob_words "$options"
        return
    fi
    [ "$COMP_CWORD" -eq 2 ] && _colljob_words "$own"
    [ -z "$takes_job" ] || _colljob_jobs
}
complete -o filenames -F _colljob colljob
