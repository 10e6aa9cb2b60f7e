# Completions of frameq for bash.
_frameq() {
    local word=${COMP_WORDS[COMP_CWORD]} before=${COMP_WORDS[COMP_CWORD - 1]} options=
    # (bash takes the = of --plan=FILE as a word of its own)
    if [[ $word == = && $before == --* ]]; then
        word=
    elif [[ $before == = && ${COMP_WORDS[COMP_CWORD - 2]} == --* ]]; then
        before=${COMP_WORDS[COMP_CWORD - 2]}
    fi
    case $before in
        --batch | --workers | --decimal | --date | --limit | --null-values)
            COMPREPLY=()
            return
            ;;
        --plan | --output | -o) ;;
        *)
            if [[ $word == -* ]]; then
                options='--plan --batch --workers --decimal --date --output --explain --check --limit --draft --null-values --details --progress --help --version -o -h -V'
            fi
            ;;
    esac
    if [ -n "$options" ]; then
        mapfile -t COMPREPLY < <(compgen -W "$options" -- "$word")
    else
        compopt -o filenames
        mapfile -t COMPREPLY < <(compgen -f -- "$word")
    fi
}
complete -F _frameq frameq
