# Completion of lftrace for bash. tools/install puts it where bash finds it; it can also be sourced.
_lftrace() {
    local word=${COMP_WORDS[COMP_CWORD]} before=${COMP_WORDS[COMP_CWORD - 1]} choice=
    # Bash splits --workers=4 into three words.
    [[ $word == = ]] && word=
    [[ $before == = ]] && before=${COMP_WORDS[COMP_CWORD - 2]}
    if [[ $COMP_CWORD -eq 1 ]]; then
        choice="judge cover explain pair follow record show help -h --help -V --version"
    elif [[ $before == help ]]; then
        choice="judge cover explain pair follow record show"
    elif [[ $before == --workers ]]; then
        choice="1 2 4 8 16 32 64"
    elif [[ $before == --max-runs ]]; then
        choice="1000 1000000"
    elif [[ $before == --until ]]; then
        choice="0,0"
    elif [[ $before == --every ]]; then
        choice="1000000"
    elif [[ $word == -* ]]; then
        case ${COMP_WORDS[1]} in
            judge) choice="--workers --lower --until -h --help" ;;
            pair) choice="--workers --lower -h --help" ;;
            cover) choice="--workers --lower --list -h --help" ;;
            explain) choice="--workers --lower --until --all -h --help" ;;
            follow) choice="--lower --until --whole --every --drain --explain --all -h --help" ;;
            record) choice="--workers --max-runs --lower -h --help" ;;
            show) choice="--lower --all -h --help" ;;
        esac
    else
        COMPREPLY=() # the names of files
        return
    fi
    compopt +o default 2> /dev/null
    mapfile -t COMPREPLY < <(compgen -W "$choice" -- "$word")
}
complete -o default -F _lftrace lftrace
