# The completion of tracing_tree_read for bash. Written by scripts/completions.py.
_tracing_tree_read() {
    local word=${COMP_WORDS[COMP_CWORD]} before=${COMP_WORDS[COMP_CWORD - 1]} words=
    COMPREPLY=()
    # Bash makes three words of --option=value.
    if [ "$word" = = ]; then
        word=
    elif [ "$before" = = ]; then
        before=${COMP_WORDS[COMP_CWORD - 2]}
    fi
    case $before in
        --amount) return ;;
        *)
            [[ $word == -* ]] || return
            words='--amount --help -h --version -V'
            ;;
    esac
    mapfile -t COMPREPLY < <(compgen -W "$words" -- "$word")
}
complete -F _tracing_tree_read tracing_tree_read
