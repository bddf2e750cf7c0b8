# Completion of `observer` for bash, made of the program's table of options.

_observer_offers() {
    COMPREPLY=($(compgen -W "$1" -- "${COMP_WORDS[COMP_CWORD]}"))
}

_observer_files() {
    local IFS=$'\n'
    compopt -o filenames 2>/dev/null
    COMPREPLY=($(compgen -f -- "${COMP_WORDS[COMP_CWORD]}"))
}

_observer_serves() {
    local options="@OPTIONS@"
    case ${COMP_WORDS[COMP_CWORD - 1]} in
@VALUES@
        *) _observer_offers "$options" ;;
    esac
}

_observer() {
    COMPREPLY=()
    if [ "$COMP_CWORD" -eq 1 ]; then
        _observer_offers "serve wait replay audit"
    elif [ "${COMP_WORDS[1]}" = serve ]; then
        _observer_serves
    elif [ "${COMP_WORDS[1]}" = wait ]; then
        [ "$COMP_CWORD" -ne 3 ] || _observer_offers "--seconds"
    elif [ "$COMP_CWORD" -eq 2 ]; then
        _observer_files
    elif [ "${COMP_WORDS[1]}" = replay ]; then
        _observer_offers "--workers --batch"
    fi
}

complete -F _observer observer observer.sh
