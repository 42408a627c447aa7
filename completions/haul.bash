# Completion of haul for bash.
# Made by `checks/repository/options --write` from the tables of commands and options: don't edit it.

_haul() {
    local word=${COMP_WORDS[COMP_CWORD]} before=${COMP_WORDS[COMP_CWORD - 1]} options=''
    COMPREPLY=()
    if [[ $COMP_CWORD == 1 ]]; then
        mapfile -t COMPREPLY < <(compgen -W 'search check index join compare table rarity names known page soup soups why cells rle --help --version' -- "$word")
        return
    fi
    # After an option that takes a value, only its values are proposed.
    case $before in
        =) return ;;
        --until | --batch | --workers | --soup-seconds | --late | --rarer | --want | --seed | --first | --rule | --period | --horizon | --stride | --limit | --random | --choice | --least | --lives | --top | --kind | --add | --remove | --symmetry | --play | --separate | --longest | --code | --pattern | --keep | --most) return ;;
        --per)
            mapfile -t COMPREPLY < <(compgen -W 'million soup' -- "$word")
            return
            ;;
        --finds | --census)
            mapfile -t COMPREPLY < <(compgen -f -- "$word")
            return
            ;;
    esac
    case ${COMP_WORDS[1]} in
        search) options='--until --batch --workers --soup-seconds --late --rarer --want --finds --seed --first --rule --period --horizon --stride --limit --census --no-data --help' ;;
        check) options='--workers --samples --totals --first --random --choice --census --help' ;;
        index) options='--help' ;;
        join) options='--help' ;;
        compare) options='--least --intervals --per --rare --lives --parts --whole --csv --json --no-data --help' ;;
        table) options='--top --rare --kind --period --want --lives --strict --parts --whole --csv --json --no-data --help' ;;
        rarity) options='--no-data --help' ;;
        names) options='--add --remove --list --verbose --workers --census --help' ;;
        known) options='--add --remove --list --rule --symmetry --help' ;;
        page) options='--least --play --lives --workers --census --no-data --help' ;;
        soup) options='--rle --separate --help' ;;
        soups) options='--longest --unsettled --code --why --exact --csv --json --workers --census --no-data --help' ;;
        why) options='--seed --rule --period --horizon --stride --limit --pattern --plane --keep --kinds --most --soup-seconds --csv --json --workers --census --help' ;;
        cells) options='--plane --no-data --help' ;;
        rle) options='--rule --no-data --help' ;;
    esac
    if [[ $word == -* ]]; then
        mapfile -t COMPREPLY < <(compgen -W "$options" -- "$word")
    else
        mapfile -t COMPREPLY < <(compgen -f -- "$word")
    fi
}
complete -o filenames -F _haul haul
