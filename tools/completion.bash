# Completion of krakobran for bash: the word, the kind of import and export, and else the names of files.
_krakobran() {
    local current=${COMP_WORDS[COMP_CWORD]} word=${COMP_WORDS[1]-} list=
    COMPREPLY=()
    if [ "$COMP_CWORD" -eq 1 ]; then
        list='report summary import export check worse picture follow help --help --version'
    elif [ "${COMP_WORDS[COMP_CWORD - 1]}" = --bits ]; then
        list='8 10'
    elif [[ $current == --* ]]; then
        list='--help --version'
        [ "$word" != report ] || list+=' --csv --json'
        [ "$word" != summary ] || list+=' --json --all'
        [ "$word" != import ] || list+=' --bits --label'
    elif [ "$COMP_CWORD" -eq 2 ]; then
        case $word in
            import | export) list='log owamp' ;;
            help) list='report summary import export check worse picture follow help' ;;
        esac
    fi
    [ -z "$list" ] || mapfile -t COMPREPLY < <(compgen -W "$list" -- "$current")
}
complete -o default -F _krakobran krakobran
