# Completes the questions of ccan-lab and the options of each; all else is a file.
_ccan_lab() {
    local word=${COMP_WORDS[COMP_CWORD]} before=${COMP_WORDS[COMP_CWORD - 1]} words=
    COMPREPLY=()
    if [ "$COMP_CWORD" = 1 ]; then
        words="outcomes count check explain draw page from-candump -h --help -V --version"
    elif [[ "$before" =~ ^--(can|never|observe|most|outcome|limit)$ ]]; then
        # A value that isn't the name of a file.
        compopt +o default 2> /dev/null
        return
    elif [[ "$word" == -* ]]; then
        case ${COMP_WORDS[1]} in
            outcomes) words="--all --json --observe --can --never --brief --frames --most -h --help" ;;
            count) words="--frames --most -h --help" ;;
            check) words="--strict --expect -h --help" ;;
            explain) words="--json --candump -h --help" ;;
            draw) words="--outcome --frames --most -h --help" ;;
            page) words="--run --outcomes --limit --frames --most -h --help" ;;
            from-candump) words="-h --help" ;;
        esac
    fi
    mapfile -t COMPREPLY < <(compgen -W "$words" -- "$word")
}
complete -o default -F _ccan_lab ccan-lab
