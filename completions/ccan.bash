# Completes the words of ccan: it takes one of these, or none, and reads a script from standard input.
_ccan() {
    COMPREPLY=()
    if [ "$COMP_CWORD" = 1 ]; then
        mapfile -t COMPREPLY < <(compgen -W "run threads" -- "${COMP_WORDS[1]}")
    fi
}
complete -o default -F _ccan ccan
