# completion in bash of acd; packaging/package compares its commands and options with what --help says
_acd() {
    local word=${COMP_WORDS[COMP_CWORD]} before=${COMP_WORDS[COMP_CWORD - 1]} command=${COMP_WORDS[1]} offered
    COMPREPLY=()
    if [[ $COMP_CWORD -eq 1 ]]; then
        offered='lines serve standby import report export audit prune help --help --version'
    elif [[ $before == --file || $before == --plan || $before == --archive || $before == --socket ]]; then
        mapfile -t COMPREPLY < <(compgen -f -- "$word")
        compopt -o filenames 2>/dev/null
        return
    elif [[ $before == --port || $before == --connections || $before == --tick || $before == --patience || $before == --days || $before == --keep ]]; then
        return
    else
        case $command in
            lines) offered='--file --reads --end-on-store-fault --help' ;;
            serve) offered='--file --port --socket --connections --endless --tick --patience --help' ;;
            standby) offered='--file --port --socket --endless --tick --patience --help' ;;
            import) offered='--file --plan --help' ;;
            report) offered='--file --help' ;;
            export) offered='--file --archive --help' ;;
            audit) offered='--file --archive --count --whole --help' ;;
            prune) offered='--file --archive --days --keep --quiet --help' ;;
            help) offered='lines serve standby import report export audit prune' ;;
            *) return ;;
        esac
    fi
    mapfile -t COMPREPLY < <(compgen -W "$offered" -- "$word")
}
complete -F _acd acd
