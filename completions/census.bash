# Completion of census for bash.
# Made by `checks/repository/options --write` from the tables of commands and options: don't edit it.

_census() {
    local word=${COMP_WORDS[COMP_CWORD]} before=${COMP_WORDS[COMP_CWORD - 1]} options=''
    COMPREPLY=()
    if [[ $COMP_CWORD == 1 ]]; then
        mapfile -t COMPREPLY < <(compgen -W 'run name show soup take work gather help --help --version' -- "$word")
        return
    fi
    # After an option that takes a value, only its values are proposed.
    case $before in
        =) return ;;
        --rule | --sizes | --period | --horizon | --stride | --limit | --seed | --first | --count | --also | --workers | --report-from | --worker) return ;;
    esac
    case ${COMP_WORDS[1]} in
        run) options='--rule --coordinates --sizes --help' ;;
        name) options='--period --horizon --stride --limit --rule --help' ;;
        show) options='--coordinates --help' ;;
        soup) options='--seed --coordinates --help' ;;
        take) options='--seed --first --count --also --period --horizon --stride --limit --rule --workers --progress --report-from --help' ;;
        work) options='--seed --first --count --also --period --horizon --stride --limit --rule --worker --help' ;;
        gather) options='--seed --first --count --also --period --horizon --stride --limit --rule --workers --help' ;;
        help) options='run name show soup take work gather' ;;
    esac
    mapfile -t COMPREPLY < <(compgen -W "$options" -- "$word")
}
complete -F _census census
