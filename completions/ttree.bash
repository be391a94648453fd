# The completion of ttree for bash. Written by scripts/completions.py.
_ttree() {
    local word=${COMP_WORDS[COMP_CWORD]} before=${COMP_WORDS[COMP_CWORD - 1]} words=
    COMPREPLY=()
    # Bash makes three words of --option=value.
    if [ "$word" = = ]; then
        word=
    elif [ "$before" = = ]; then
        before=${COMP_WORDS[COMP_CWORD - 2]}
    fi
    case $before in
        --from) words='go-test tap junit tracing logs otlp chrome lines' ;;
        --color) words='auto always never' ;;
        --level) words='trace debug info warn error' ;;
        --times) words='ms us ns' ;;
        --amount|--group|--service|--trace|--min|--depth|--title|--fields|--width) compopt +o default 2> /dev/null; return ;;
        *)
            [[ $word == -* ]] || return
            words='--from --color --amount --level --failed --group --service --trace --min --depth
            --html --title --json --no-lines --no-retrace --threads --times --full --fields
            --summary --strict --width --help -h --version -V'
            ;;
    esac
    mapfile -t COMPREPLY < <(compgen -W "$words" -- "$word")
}
complete -o default -F _ttree ttree
