# Completion of bash for s38 and its tools: commands, options, files, and the names of a store's objects.
# Source it: . tools/complete.bash (the package has it where bash looks for it).

_s38_objects() { # the names of the objects of a store, as its list has them
    "${S38_COMMAND:-s38}" "$1" list 2>/dev/null | sed -n 's|^[0-9]* \([A-Z]*/[0-9A-F]*/\([A-Z0-9]*\)\) IN .*|\1\n\2|p'
}

_s38_words() {
    local found
    mapfile -t found < <(compgen -W "$1" -- "$2")
    COMPREPLY=("${found[@]}")
}

_s38_files() {
    local found
    mapfile -t found < <(compgen -f -- "$1")
    COMPREPLY=("${found[@]}")
    compopt -o filenames 2>/dev/null
}

_s38() {
    local now=${COMP_WORDS[COMP_CWORD]} before=${COMP_WORDS[COMP_CWORD - 1]}
    COMPREPLY=()
    if [ "$COMP_CWORD" -eq 1 ]; then
        case $now in
            -*) _s38_words "--help --version" "$now" ;;
            *) _s38_files "$now" ;;
        esac
        return
    fi
    case $before in
        '<' | '>') _s38_files "$now" ;;
        serial) _s38_words "--pick <" "$now" ;;
        run) _s38_words "--workers <" "$now" ;;
        install) _s38_words "--over" "$now" ;;
        *) [ "$COMP_CWORD" -eq 2 ] && _s38_words "install list serial run check demo" "$now" ;;
    esac
}

_s38_tool() {
    local now=${COMP_WORDS[COMP_CWORD]} before=${COMP_WORDS[COMP_CWORD - 1]} name=${COMP_WORDS[0]##*/}
    COMPREPLY=()
    name=${name#s38-}
    case $before in
        --rights) _s38_words "$(_s38_objects "${COMP_WORDS[1]}" | grep -v /)" "$now" && return ;;
        --diff | --store | --verify) _s38_files "$now" && return ;;
    esac
    case $now in
        -*)
            case $name in
                show) _s38_words "--json --diff --rights --help" "$now" ;;
                trial) _s38_words "--changes --pick --help" "$now" ;;
                backup) _s38_words "--over --verify --help" "$now" ;;
                trace) _s38_words "--json --svg --html --store --help" "$now" ;;
                why) _s38_words "--status --store --help" "$now" ;;
                fmt) _s38_words "--check --write --help" "$now" ;;
                *) _s38_words "--help" "$now" ;;
            esac
            ;;
        *)
            if [ "$name" = show ] && [ "$COMP_CWORD" -eq 2 ] && [ -f "${COMP_WORDS[1]}" ]; then
                _s38_words "$(_s38_objects "${COMP_WORDS[1]}")" "${now^^}"
            else
                _s38_files "$now"
            fi
            ;;
    esac
}

complete -F _s38 s38 ./s38
complete -F _s38_tool s38-show s38-trial s38-backup s38-shell s38-trace s38-why s38-lint s38-fmt s38-first-store
complete -F _s38_tool tools/show tools/trial tools/backup tools/shell tools/trace tools/why tools/lint tools/fmt tools/first-store
